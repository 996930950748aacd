/* Runs every call in a thread whose stack is 32 KiB with a guard page below, on the largest stripe, on a weak shape and on every shape, and
   looks at the answers. With the argument 'depth' it prints how far below its caller's frame each call wrote. */
#define _POSIX_C_SOURCE 200809L
#include <pthread.h>
#include <stdio.h>
#include <string.h>

#include "fiddlefern.h"

/* The largest stripe. */
enum { N = 31, R = 29, S = 1, E = 4096, LEN = E * (N * (R + 1) + R), ROW = 28, STRIP = 30, AT = (STRIP * (R + 1) + ROW) * E };
enum { STACK = 32 * 1024, PAINTED = 20 * 1024, PAINT = 0xA5 };

static uint8_t stripe[LEN], run[E];
static int failed;

struct job {
    const char *name;
    uint64_t (*call)(void);
    uint64_t answer;
    size_t depth;
};

static uint64_t judge(void) { return fiddlefern_judge(N, R, S, E); }
static uint64_t judge_weak(void) { return fiddlefern_judge(32, 16, 16, E); }
static uint64_t encode(void) { return fiddlefern_encode(N, R, S, E, stripe, LEN); }
static uint64_t write_all(void) { return fiddlefern_write(N, R, S, E, stripe, LEN, ROW, STRIP, 0, run, E); }
static uint64_t write_one(void) { return fiddlefern_write(N, R, S, E, stripe, LEN, ROW, STRIP, E - 1, run, 1); }
static uint64_t write_outside(void) { return fiddlefern_write(N, R, S, E, stripe, LEN, ROW, STRIP, 1, run, E); }
static uint64_t read_one(void) { return fiddlefern_read(N, R, S, E, stripe, LEN, ROW, STRIP); }
static uint64_t scrub(void) { return fiddlefern_scrub(N, R, S, E, stripe, LEN); }
static uint64_t scrub_changed(void) {
    stripe[AT + 5] = run[5] ^ 1;
    return fiddlefern_scrub(N, R, S, E, stripe, LEN);
}
/* Strips 0 and 1 lost: of all good shapes and pairs none has a longer chain. */
static uint64_t rebuild(void) {
    memset(stripe, 0xFF, (size_t)2 * (R + 1) * E);
    return fiddlefern_rebuild(N, R, S, E, stripe, LEN, 3);
}
static uint64_t rebuild_none(void) { return fiddlefern_rebuild(N, R, S, E, stripe, LEN, 0); }
/* Every one and every two strips lost, at e = 1. A stripe of zeros is sound. */
static uint64_t rebuild_pairs(void) {
    static uint8_t zeros[N * (R + 1) + R];
    uint64_t answers = 0;
    for (size_t a = 0; a <= N; a++)
        for (size_t b = a; b <= N; b++) answers |= fiddlefern_rebuild(N, R, S, 1, zeros, sizeof zeros, UINT64_C(1) << a | UINT64_C(1) << b);
    return answers;
}

/* How many shapes a call refuses as weak. The search for the pair of a weak shape goes deepest. */
#define WEAK(name, answer)                                                                                   \
    static uint64_t name(void) {                                                                             \
        uint64_t weak = 0;                                                                                   \
        for (size_t n = 3; n <= 32; n++)                                                                     \
            for (size_t r = 1; r <= 32; r++)                                                                 \
                for (size_t s = 1; s < n; s++) weak += fiddlefern_number(answer) == FIDDLEFERN_REFUSAL_WEAK; \
        return weak;                                                                                         \
    }
WEAK(judge_each, fiddlefern_judge(n, r, s, E))
WEAK(encode_each, fiddlefern_encode(n, r, s, E, stripe, 0))
WEAK(write_each, fiddlefern_write(n, r, s, E, stripe, 0, ROW, STRIP, 0, run, E))
WEAK(read_each, fiddlefern_read(n, r, s, E, stripe, 0, ROW, STRIP))
WEAK(scrub_each, fiddlefern_scrub(n, r, s, E, stripe, 0))
WEAK(rebuild_each, fiddlefern_rebuild(n, r, s, E, stripe, 0, 3))

/* The first failing pair of n=32 r=16 s=16 is 0 16 by the elimination of rust/model, and so many shapes are weak by tools/elimination.out. */
enum { WEAK_PAIR = 5 + (0 << 8) + (16 << 16), EACH = 12079 };

/* In order: encode makes the stripe sound, rebuild gives it back, and scrub and the last rebuild find a changed byte of a data element. */
static struct job jobs[] = {
    {"judge", judge, (uint64_t)LEN << 32, 0},
    {"judge, n=32 r=16 s=16", judge_weak, WEAK_PAIR, 0},
    {"judge, every shape", judge_each, EACH, 0},
    {"encode", encode, 0, 0},
    {"encode, every shape", encode_each, EACH, 0},
    {"write of an element", write_all, 0, 0},
    {"write of a byte", write_one, 0, 0},
    {"write, place outside", write_outside, FIDDLEFERN_REFUSAL_PLACE, 0},
    {"write, every shape", write_each, EACH, 0},
    {"read", read_one, (uint64_t)AT << 32, 0},
    {"read, every shape", read_each, EACH, 0},
    {"rebuild, two strips lost", rebuild, 0, 0},
    {"rebuild, every pair", rebuild_pairs, 0, 0},
    {"rebuild, every shape", rebuild_each, EACH, 0},
    {"scrub, sound", scrub, 0, 0},
    {"scrub, an element changed", scrub_changed, 0x3010100 + ((uint64_t)ROW << 32) + ((uint64_t)STRIP << 40), 0},
    {"scrub, every shape", scrub_each, EACH, 0},
    {"rebuild, no strip lost, an element changed", rebuild_none, FIDDLEFERN_REFUSAL_NO_SOUND, 0},
};

/* Paints what lies below its frame, makes the call, and looks how far down the paint is gone. */
static void *run_job(void *argument) {
    struct job *job = argument;
    uintptr_t frame = (uintptr_t)__builtin_frame_address(0), low = frame - PAINTED;
    for (uintptr_t at = low; at < frame - 512; at++) *(volatile uint8_t *)at = PAINT;
    if (job->call() != job->answer) {
        fprintf(stderr, "%s: wrong answer\n", job->name);
        failed = 1;
    }
    uintptr_t at = low;
    while (at < frame && *(volatile uint8_t *)at == PAINT) at++;
    job->depth = frame - at;
    return NULL;
}

int main(int argc, char **argv) {
    for (size_t k = 0; k < LEN; k++) stripe[k] = (uint8_t)(k * 40503u >> 7);
    for (size_t k = 0; k < E; k++) run[k] = (uint8_t)(k * 97u);
    pthread_attr_t attributes;
    if (pthread_attr_init(&attributes) || pthread_attr_setstacksize(&attributes, STACK)) return 2;
    for (size_t k = 0; k < sizeof jobs / sizeof *jobs; k++) {
        /* Twice: what the linker does at the first call of a library function does not count into the depth. */
        for (int turn = 0; turn < 2; turn++) {
            pthread_t thread;
            if (pthread_create(&thread, &attributes, run_job, &jobs[k]) || pthread_join(thread, NULL)) return 2;
        }
        if (argc == 2 && !strcmp(argv[1], "depth")) printf("%s: %lu bytes\n", jobs[k].name, (unsigned long)jobs[k].depth);
    }
    if (failed) return 1;
    if (argc == 1) puts("ok");
    return 0;
}

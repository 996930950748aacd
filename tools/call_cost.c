/* Makes one of the calls many times, or an empty function as often: the difference of the two runs is what the call costs. Ends with 1 where
   an answer is wrong. */
#include <stdio.h>
#include <stdlib.h>
#include <string.h>

#include "fiddlefern.h"

/* The shape and its stripe; the place that is written and read; the run that is written, of e bytes. */
static size_t n, r, s, e, len, row, strip;
static uint8_t *stripe, *run;

/* What each call has to answer: 0 on a good shape, with the size from judge and the offset from read; 5 with a pair on a weak one. */
static uint64_t judged, due, offset;

__attribute__((noinline)) static uint64_t nothing(size_t a, size_t b, size_t c, size_t d) {
    __asm__ volatile("" : : "r"(a), "r"(b), "r"(c), "r"(d));
    return 0;
}

static void right(int holds, const char *what) {
    if (holds) return;
    fprintf(stderr, "wrong: %s\n", what);
    exit(1);
}

/* Makes the stripe sound, first by encode and then by rebuild, with FF in the lost strips 0 and 1. */
static void prepare(void) {
    for (size_t k = 0; k < len; k++) stripe[k] = (uint8_t)(k * 2654435761u >> 13);
    for (size_t k = 0; k < e; k++) run[k] = (uint8_t)(k * 40503u >> 7);
    judged = fiddlefern_judge(n, r, s, e);
    int good = fiddlefern_number(judged) == FIDDLEFERN_DONE;
    right(good ? judged == (uint64_t)len << 32 : fiddlefern_number(judged) == FIDDLEFERN_REFUSAL_WEAK, "judge");
    due = good ? 0 : judged;
    offset = good ? (uint64_t)((strip * (r + 1) + row) * e) << 32 : judged;
    right(fiddlefern_encode(n, r, s, e, stripe, len) == due, "encode");
    memset(stripe, 0xFF, 2 * (r + 1) * e);
    right(fiddlefern_rebuild(n, r, s, e, stripe, len, 3) == due, "rebuild");
}

/* Makes the call; what a rebuild finds in the lost strips has no influence, so they need not be lost again each time. */
static void repeat(const char *call, long count) {
    uint64_t differ = 0;
    if (!strcmp(call, "nothing") || !strcmp(call, "judge")) {
        uint64_t (*ask)(size_t, size_t, size_t, size_t) = call[0] == 'j' ? fiddlefern_judge : nothing;
        uint64_t answer = call[0] == 'j' ? judged : 0;
        for (long k = 0; k < count; k++) differ |= ask(n, r, s, e) ^ answer;
    } else if (!strcmp(call, "encode"))
        for (long k = 0; k < count; k++) differ |= fiddlefern_encode(n, r, s, e, stripe, len) ^ due;
    else if (!strcmp(call, "scrub"))
        for (long k = 0; k < count; k++) differ |= fiddlefern_scrub(n, r, s, e, stripe, len) ^ due;
    else if (!strcmp(call, "read"))
        for (long k = 0; k < count; k++) differ |= fiddlefern_read(n, r, s, e, stripe, len, row, strip) ^ offset;
    else if (!strcmp(call, "write"))
        for (long k = 0; k < count; k++) differ |= fiddlefern_write(n, r, s, e, stripe, len, row, strip, 0, run, e) ^ due;
    else if (!strcmp(call, "write1"))
        for (long k = 0; k < count; k++) differ |= fiddlefern_write(n, r, s, e, stripe, len, row, strip, e - 1, run, 1) ^ due;
    else if (!strncmp(call, "rebuild:", 8)) {
        uint64_t mask = strtoull(call + 8, NULL, 10);
        for (long k = 0; k < count; k++) differ |= fiddlefern_rebuild(n, r, s, e, stripe, len, mask) ^ due;
    } else
        exit(2);
    right(differ == 0, call);
}

int main(int argc, char **argv) {
    if (argc != 7) {
        fprintf(stderr, "usage: call_cost nothing|judge|encode|scrub|read|write|write1|rebuild:MASK COUNT n r s e\n");
        return 2;
    }
    n = (size_t)atol(argv[3]), r = (size_t)atol(argv[4]), s = (size_t)atol(argv[5]), e = (size_t)atol(argv[6]);
    len = e * (n * (r + 1) + r), row = r / 2, strip = n / 2;
    stripe = malloc(len), run = malloc(e);
    if (!stripe || !run) return 2;
    prepare();
    repeat(argv[1], atol(argv[2]));

    /* The stripe is sound after all that, and is not with one byte changed: row and strip are found. */
    right(fiddlefern_scrub(n, r, s, e, stripe, len) == due, "scrub of a sound stripe");
    stripe[(strip * (r + 1) + row) * e + e - 1] ^= 1;
    uint64_t found = fiddlefern_scrub(n, r, s, e, stripe, len);
    right(due ? found == due : found == (0x3010100 | (uint64_t)row << 32 | (uint64_t)strip << 40), "scrub of a changed byte");
    free(stripe);
    free(run);
    return 0;
}

/* The mask of lost strips, with strip numbers that the compiler does not know, so that it cannot compute the mask: fiddlefern_lost gives bit j up to
   63 and UINT64_MAX above; strips 31 and 32 come back where they are strips, and every number that is none is refused with 7 and changes nothing. */
#include <string.h>

#include "fiddlefern.h"
#include "holds.h"

static size_t unknown(size_t strip) {
    volatile size_t hidden = strip;
    return hidden;
}

static void masks(void) {
    static const struct {
        size_t strip;
        uint64_t mask;
    } due[] = {
        {0, 0x1},         {1, 0x2},         {30, 0x40000000},         {31, 0x80000000},
        {32, 0x100000000}, {33, 0x200000000}, {62, 0x4000000000000000}, {63, 0x8000000000000000},
        {64, UINT64_MAX}, {65, UINT64_MAX}, {96, UINT64_MAX},         {0x100000000, UINT64_MAX},
        {SIZE_MAX - 1, UINT64_MAX}, {SIZE_MAX, UINT64_MAX},
    };
    for (size_t k = 0; k < sizeof due / sizeof *due; k++) HOLDS(fiddlefern_lost(unknown(due[k].strip)) == due[k].mask);
    uint64_t all = 0;
    for (size_t j = 0; j < 64; j++) {
        HOLDS((all & fiddlefern_lost(unknown(j))) == 0);
        all |= fiddlefern_lost(unknown(j));
    }
    HOLDS(all == UINT64_MAX);
}

enum { S = 1, E = 3, ROOM = E * (32 * 33 + 32) };
static uint8_t stripe[ROOM], before[ROOM];

/* Strips a and b are called lost, the same strip twice where they are equal. Those that are strips of n are filled with FF first. */
static void lose(size_t n, size_t r, size_t size, size_t a, size_t b) {
    memcpy(stripe, before, size);
    int inside = a <= n && b <= n;
    if (inside) {
        memset(stripe + fiddlefern_strip_start(n, r, S, E, a), 0xFF, fiddlefern_strip_length(n, r, S, E, a));
        memset(stripe + fiddlefern_strip_start(n, r, S, E, b), 0xFF, fiddlefern_strip_length(n, r, S, E, b));
    }
    uint64_t answer = fiddlefern_rebuild(n, r, S, E, stripe, size, fiddlefern_lost(unknown(a)) | fiddlefern_lost(unknown(b)));
    int right = answer == (inside ? FIDDLEFERN_DONE : FIDDLEFERN_REFUSAL_MASK) && memcmp(stripe, before, size) == 0;
    if (right) return;
    fprintf(stderr, "n=%zu, strips %zu and %zu: answered %d, or bytes are not what they were\n", n, a, b, fiddlefern_number(answer));
    faults++;
}

/* A sound stripe of n with its greatest r. */
static void each_pair(size_t n) {
    static const size_t strips[] = {0, 1, 30, 31, 32, 33, 63, 64, 65, 96, SIZE_MAX};
    size_t r = fiddlefern_greatest_rows(n, S), size = fiddlefern_size(fiddlefern_judge(n, r, S, E));
    HOLDS(0 < size && size <= ROOM);
    for (size_t k = 0; k < size; k++) before[k] = (uint8_t)(k * 40503u >> 7);
    HOLDS(fiddlefern_number(fiddlefern_encode(n, r, S, E, before, size)) == FIDDLEFERN_DONE);
    for (size_t k = 0; k < sizeof strips / sizeof *strips; k++)
        for (size_t m = 0; m < sizeof strips / sizeof *strips; m++) lose(n, r, size, strips[k], strips[m]);
}

int main(void) {
    masks();
    each_pair(31);
    each_pair(32);
    return faults != 0;
}

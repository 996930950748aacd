/* Lends every call its buffers at every address mod 16: the answers and the bytes are the same everywhere, and the bytes on both sides of a
   buffer stay as they were. */
#include <string.h>

#include "fiddlefern.h"
#include "holds.h"

enum { N = 7, R = 5, S = 1, SIZE = N * (R + 1) + R, MOST_E = 131, GUARD = 32, ADDRESSES = 16 };

/* A buffer of the given length that begins at an address of the given rest mod 16, with guards on both sides. */
struct lent {
    uint8_t room[MOST_E * SIZE + 2 * GUARD + ADDRESSES];
    uint8_t *at;
    size_t length;
};

static void lend(struct lent *b, size_t rest, size_t length) {
    memset(b->room, 0xEE, sizeof b->room);
    b->at = b->room + GUARD;
    while ((uintptr_t)b->at % ADDRESSES != rest) b->at++;
    b->length = length;
}

static int guarded(const struct lent *b) {
    int kept = 1;
    for (const uint8_t *p = b->room; p < b->at; p++) kept &= *p == 0xEE;
    for (const uint8_t *p = b->at + b->length; p < b->room + sizeof b->room; p++) kept &= *p == 0xEE;
    return kept;
}

/* What encode, write, scrub and read left and answered at the first address tried, which every other has to leave too. */
static struct {
    uint8_t encoded[MOST_E * SIZE], written[MOST_E * SIZE];
    uint64_t read;
} first;

/* Both strips of a pair filled with FF and rebuilt; then a stripe with one byte changed, of which scrub finds the element. */
static void rebuild_and_scrub(struct lent *stripe, size_t e) {
    static const size_t pairs[][2] = {{0, 1}, {2, 6}, {3, N}, {4, 4}};
    for (size_t k = 0; k < sizeof pairs / sizeof *pairs; k++) {
        for (int t = 0; t < 2; t++)
            memset(stripe->at + fiddlefern_strip_start(N, R, S, e, pairs[k][t]), 0xFF, fiddlefern_strip_length(N, R, S, e, pairs[k][t]));
        uint64_t mask = fiddlefern_lost(pairs[k][0]) | fiddlefern_lost(pairs[k][1]);
        HOLDS(fiddlefern_number(fiddlefern_rebuild(N, R, S, e, stripe->at, stripe->length, mask)) == FIDDLEFERN_DONE);
        HOLDS(memcmp(stripe->at, first.written, stripe->length) == 0);
    }
    uint64_t sound = fiddlefern_scrub(N, R, S, e, stripe->at, stripe->length);
    stripe->at[fiddlefern_element_start(N, R, S, e, 4, 6) + e - 1] ^= 1;
    uint64_t changed = fiddlefern_scrub(N, R, S, e, stripe->at, stripe->length);
    HOLDS(fiddlefern_number(sound) == FIDDLEFERN_DONE && fiddlefern_finding(sound) == FIDDLEFERN_FINDING_SOUND);
    HOLDS(fiddlefern_finding(changed) == FIDDLEFERN_FINDING_ELEMENT && fiddlefern_row(changed) == 4 && fiddlefern_strip(changed) == 6);
}

static void calls(struct lent *stripe, const struct lent *run, size_t e, int is_first) {
    for (size_t k = 0; k < stripe->length; k++) stripe->at[k] = (uint8_t)(k * 40503u >> 7);
    for (size_t k = 0; k < run->length; k++) run->at[k] = (uint8_t)(k * 97u + 1);
    HOLDS(fiddlefern_number(fiddlefern_encode(N, R, S, e, stripe->at, stripe->length)) == FIDDLEFERN_DONE);
    if (is_first) memcpy(first.encoded, stripe->at, stripe->length);
    HOLDS(memcmp(first.encoded, stripe->at, stripe->length) == 0);

    uint64_t written = fiddlefern_write(N, R, S, e, stripe->at, stripe->length, 3, 2, e - run->length, run->at, run->length);
    HOLDS(fiddlefern_number(written) == FIDDLEFERN_DONE);
    if (is_first) memcpy(first.written, stripe->at, stripe->length);
    HOLDS(memcmp(first.written, stripe->at, stripe->length) == 0);
    HOLDS(memcmp(stripe->at + fiddlefern_element_start(N, R, S, e, 3, 2) + e - run->length, run->at, run->length) == 0);

    uint64_t read = fiddlefern_read(N, R, S, e, stripe->at, stripe->length, 3, 2);
    if (is_first) first.read = read;
    HOLDS(fiddlefern_number(read) == FIDDLEFERN_DONE && read == first.read);
    rebuild_and_scrub(stripe, e);
    HOLDS(guarded(stripe) && guarded(run));
}

int main(void) {
    static const size_t bytes[] = {1, 3, 16, 100, MOST_E};
    static struct lent stripe, run;
    for (size_t k = 0; k < sizeof bytes / sizeof *bytes; k++)
        for (size_t a = 0; a < ADDRESSES; a++)
            for (size_t b = 0; b < ADDRESSES; b++) {
                lend(&stripe, a, bytes[k] * SIZE);
                lend(&run, b, (bytes[k] + 1) / 2);
                calls(&stripe, &run, bytes[k], a == 0 && b == 0);
            }
    return faults != 0;
}

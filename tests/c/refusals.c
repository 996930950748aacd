/* Asks every call for every refusal that it gives, in the order of the numbers, and looks that no byte changed; then what lies outside the
   limits, places, masks, and null with length 0. 10 is in worked_cases.c, with what it leaves. */
#include "case_b.h"

static const uint8_t run[2] = {0xFF, 0xFF};

/* What the calls are asked. */
struct asked {
    size_t n, r, s, e, len, row;
    uint64_t mask;
};

/* Case B with the faults of every number from `first` on, so that the order of the checks decides. r = 4 is above the bound of n=5, s=2,
   which is 3. */
static struct asked faulty_from(int first) {
    struct asked a = {N, R, S, E, LEN, 0, 3};
    if (first <= 1) a.n = 2;
    if (first <= 5) a.r = first <= 2 ? 0 : 4;
    if (first <= 3) a.s = N;
    if (first <= 4) a.e = 0;
    if (first <= 6) a.len = LEN - 1;
    if (first <= 8) a.mask = first <= 7 ? 1 << 6 | 7 : 7;
    if (first <= 9) a.row = R;
    return a;
}

static uint64_t judge(struct asked a) { return fiddlefern_judge(a.n, a.r, a.s, a.e); }
static uint64_t encode(struct asked a) { return fiddlefern_encode(a.n, a.r, a.s, a.e, stripe, a.len); }
static uint64_t write(struct asked a) { return fiddlefern_write(a.n, a.r, a.s, a.e, stripe, a.len, a.row, 0, 0, run, 1); }
static uint64_t read(struct asked a) { return fiddlefern_read(a.n, a.r, a.s, a.e, stripe, a.len, a.row, 0); }
static uint64_t scrub(struct asked a) { return fiddlefern_scrub(a.n, a.r, a.s, a.e, stripe, a.len); }
static uint64_t rebuild(struct asked a) { return fiddlefern_rebuild(a.n, a.r, a.s, a.e, stripe, a.len, a.mask); }

/* The refusals that each call gives. */
static const struct {
    const char *name;
    uint64_t (*call)(struct asked);
    int gives[9];
} calls[] = {
    {"judge", judge, {1, 2, 3, 4, 5}},
    {"encode", encode, {1, 2, 3, 4, 5, 6}},
    {"write", write, {1, 2, 3, 4, 5, 6, 9}},
    {"read", read, {1, 2, 3, 4, 5, 6, 9}},
    {"scrub", scrub, {1, 2, 3, 4, 5, 6}},
    {"rebuild", rebuild, {1, 2, 3, 4, 5, 6, 7, 8}},
};

static void each_refusal(void) {
    for (size_t c = 0; c < sizeof calls / sizeof *calls; c++)
        for (const int *number = calls[c].gives; *number != 0; number++) {
            take_b();
            uint64_t answer = calls[c].call(faulty_from(*number));
            /* The pair of the weak shape is (0, 1), since r is above n - s. */
            uint64_t due = *number == 5 ? 5 | 0 << 8 | 1 << 16 : *number;
            if (answer == due && is_b()) continue;
            fprintf(stderr, "%s, refusal %d: another answer, or bytes changed\n", calls[c].name, *number);
            faults++;
        }
}

static void limits(void) {
    HOLDS(fiddlefern_judge(33, 1, 1, 1) == FIDDLEFERN_REFUSAL_STRIPS && fiddlefern_judge(SIZE_MAX, 1, 1, 1) == FIDDLEFERN_REFUSAL_STRIPS);
    HOLDS(fiddlefern_judge(3, 33, 1, 1) == FIDDLEFERN_REFUSAL_ROWS && fiddlefern_judge(3, SIZE_MAX, 1, 1) == FIDDLEFERN_REFUSAL_ROWS);
    HOLDS(fiddlefern_judge(3, 1, 0, 1) == FIDDLEFERN_REFUSAL_SHIFT && fiddlefern_judge(3, 1, SIZE_MAX, 1) == FIDDLEFERN_REFUSAL_SHIFT);
    HOLDS(fiddlefern_judge(3, 1, 1, 4097) == FIDDLEFERN_REFUSAL_ELEMENT && fiddlefern_judge(3, 1, 1, SIZE_MAX) == FIDDLEFERN_REFUSAL_ELEMENT);
    /* n=31, s=2 has 29 rows at most; the largest stripe of all. */
    HOLDS(fiddlefern_size(fiddlefern_judge(31, 29, 2, 4096)) == (size_t)4096 * (31 * 30 + 29));
    /* n=6, s=1 has 2 rows at most. With 3, strips 0 and 3 fail: X(0, 0), X(0, 3), U(0) and U(3) equal and all else zero is sound. */
    uint64_t weak = fiddlefern_judge(6, 3, 1, 1);
    HOLDS(fiddlefern_number(weak) == FIDDLEFERN_REFUSAL_WEAK && fiddlefern_lower(weak) == 0 && fiddlefern_upper(weak) == 3);
}

static uint64_t write_at(size_t row, size_t strip, size_t offset, size_t run_len) {
    return fiddlefern_write(N, R, S, E, stripe, LEN, row, strip, offset, run, run_len);
}

/* U and H are no places to write or read; an empty run may begin at e. */
static void places(void) {
    take_b();
    HOLDS(write_at(R, 0, 0, 1) == FIDDLEFERN_REFUSAL_PLACE && write_at(SIZE_MAX, 0, 0, 1) == FIDDLEFERN_REFUSAL_PLACE);
    HOLDS(write_at(0, N, 0, 1) == FIDDLEFERN_REFUSAL_PLACE && write_at(0, SIZE_MAX, 0, 1) == FIDDLEFERN_REFUSAL_PLACE);
    HOLDS(write_at(0, 0, 0, 2) == FIDDLEFERN_REFUSAL_PLACE && write_at(0, 0, 1, 1) == FIDDLEFERN_REFUSAL_PLACE);
    HOLDS(write_at(0, 0, SIZE_MAX, 1) == FIDDLEFERN_REFUSAL_PLACE && write_at(0, 0, SIZE_MAX, 2) == FIDDLEFERN_REFUSAL_PLACE);
    HOLDS(write_at(0, 0, 2, 0) == FIDDLEFERN_REFUSAL_PLACE && write_at(0, 0, 1, 0) == FIDDLEFERN_DONE);
    HOLDS(fiddlefern_read(N, R, S, E, stripe, LEN, R, 0) == FIDDLEFERN_REFUSAL_PLACE);
    HOLDS(fiddlefern_read(N, R, S, E, stripe, LEN, 0, N) == FIDDLEFERN_REFUSAL_PLACE);
    HOLDS(fiddlefern_read(N, R, S, E, stripe, LEN, SIZE_MAX, SIZE_MAX) == FIDDLEFERN_REFUSAL_PLACE);
    HOLDS(is_b());
}

/* The first mask above bit n, the highest bit, and the last bit that is a strip. */
static void masks(void) {
    take_b();
    HOLDS(fiddlefern_rebuild(N, R, S, E, stripe, LEN, UINT64_C(1) << (N + 1)) == FIDDLEFERN_REFUSAL_MASK);
    HOLDS(fiddlefern_rebuild(N, R, S, E, stripe, LEN, UINT64_C(1) << 63) == FIDDLEFERN_REFUSAL_MASK);
    HOLDS(fiddlefern_rebuild(N, R, S, E, stripe, LEN, UINT64_MAX) == FIDDLEFERN_REFUSAL_MASK);
    HOLDS(fiddlefern_rebuild(N, R, S, E, stripe, LEN, 1 << N | 3) == FIDDLEFERN_REFUSAL_MANY);
    HOLDS(is_b());
}

/* No stripe has length 0, so a null one is refused; a null run is the empty run. */
static void null_with_length_0(void) {
    HOLDS(fiddlefern_encode(N, R, S, E, NULL, 0) == FIDDLEFERN_REFUSAL_LENGTH);
    HOLDS(fiddlefern_write(N, R, S, E, NULL, 0, 0, 0, 0, run, 1) == FIDDLEFERN_REFUSAL_LENGTH);
    HOLDS(fiddlefern_write(N, R, S, E, NULL, 0, 0, 0, 0, NULL, 0) == FIDDLEFERN_REFUSAL_LENGTH);
    HOLDS(fiddlefern_read(N, R, S, E, NULL, 0, 0, 0) == FIDDLEFERN_REFUSAL_LENGTH);
    HOLDS(fiddlefern_scrub(N, R, S, E, NULL, 0) == FIDDLEFERN_REFUSAL_LENGTH);
    HOLDS(fiddlefern_rebuild(N, R, S, E, NULL, 0, 0) == FIDDLEFERN_REFUSAL_LENGTH);
    HOLDS(fiddlefern_rebuild(N, R, S, E, NULL, 0, 3) == FIDDLEFERN_REFUSAL_LENGTH);
    take_b();
    HOLDS(fiddlefern_write(N, R, S, E, stripe, LEN, 0, 0, 0, NULL, 0) == FIDDLEFERN_DONE);
    HOLDS(is_b());
}

int main(void) {
    each_refusal();
    limits();
    places();
    masks();
    null_with_length_0();
    return faults != 0;
}

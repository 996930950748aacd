/* Makes every call through the header: the cases A to D with the bytes of 01-scope.md, masks, what read and scrub answer on case B, and the
   functions that take an answer apart. */
#include "case_b.h"

static uint64_t scrub(void) { return fiddlefern_scrub(N, R, S, E, stripe, LEN); }
static uint64_t rebuild(uint64_t mask) { return fiddlefern_rebuild(N, R, S, E, stripe, LEN, mask); }

/* The parities are encode's to set, so FF stands there before. */
static void cases_a_and_b(void) {
    static const uint8_t a[7] = {0x11, 0x22, 0x22, 0x44, 0x44, 0x11, 0x77};
    uint8_t data[7] = {0x11, 0xFF, 0x22, 0xFF, 0x44, 0xFF, 0xFF};
    HOLDS(fiddlefern_judge(3, 1, 1, 1) == (uint64_t)7 << 32);
    HOLDS(fiddlefern_encode(3, 1, 1, 1, data, 7) == 0);
    HOLDS(memcmp(data, a, 7) == 0);

    take_b();
    for (size_t j = 0; j < N; j++) stripe[3 * j + 2] = 0xFF;
    memset(stripe + 15, 0xFF, 2);
    HOLDS(fiddlefern_judge(N, R, S, E) == (uint64_t)LEN << 32);
    HOLDS(fiddlefern_encode(N, R, S, E, stripe, LEN) == 0);
    HOLDS(is_b());
}

static void cases_c_and_d(void) {
    take_b();
    memset(stripe, 0xFF, 6);
    HOLDS(rebuild(3) == 0);
    HOLDS(is_b());

    uint8_t after[LEN];
    memcpy(after, B, LEN);
    memset(after, 0, 6);
    stripe[14] = after[14] = 0x45;
    HOLDS(rebuild(3) == FIDDLEFERN_REFUSAL_NO_SOUND);
    HOLDS(memcmp(stripe, after, LEN) == 0);

    static const uint8_t run[1] = {0xFF};
    memcpy(after, B, LEN);
    after[6] = 0xFF;
    after[14] = 0xBF;
    after[15] = 0xE4;
    take_b();
    HOLDS(fiddlefern_write(N, R, S, E, stripe, LEN, 0, 2, 0, run, 1) == 0);
    HOLDS(memcmp(stripe, after, LEN) == 0);
}

/* No strip lost, one of each kind, a data strip with strip n, and two data strips that are not neighbours. */
static void masks(void) {
    static const uint64_t lost[] = {0, 1 << 3, 1 << N, 1 << 2 | 1 << N, 1 << 1 | 1 << 4};
    for (size_t k = 0; k < sizeof lost / sizeof *lost; k++) {
        take_b();
        for (size_t at = 0; at < LEN; at++)
            if (lost[k] >> at / 3 & 1) stripe[at] ^= 0xFF;
        HOLDS(rebuild(lost[k]) == 0);
        HOLDS(is_b());
    }
    take_b();
    stripe[0] ^= 1;
    HOLDS(rebuild(0) == FIDDLEFERN_REFUSAL_NO_SOUND);
    stripe[0] ^= 1;
    HOLDS(is_b());
}

/* The counts and the finding of a scrub. */
static int found(uint64_t answer, size_t rows, size_t diagonals, int finding) {
    return fiddlefern_number(answer) == FIDDLEFERN_DONE && fiddlefern_rows(answer) == rows && fiddlefern_diagonals(answer) == diagonals &&
           fiddlefern_finding(answer) == finding;
}

/* The diagonals of row 0 are 2 3 4 0 1, of row 1 are 3 4 0 1 2. */
static void read_and_scrub(void) {
    take_b();
    uint64_t read = fiddlefern_read(N, R, S, E, stripe, LEN, 1, 3);
    HOLDS(fiddlefern_number(read) == FIDDLEFERN_DONE && fiddlefern_offset(read) == 10);
    HOLDS(scrub() == 0 && found(scrub(), 0, 0, FIDDLEFERN_FINDING_SOUND));

    stripe[16] ^= 0x40;
    HOLDS(found(scrub(), 1, 0, FIDDLEFERN_FINDING_H) && fiddlefern_row(scrub()) == 1);
    take_b();
    stripe[14] ^= 0x01;
    HOLDS(found(scrub(), 0, 1, FIDDLEFERN_FINDING_U) && fiddlefern_diagonal(scrub()) == 4);
    take_b();
    stripe[10] ^= 0x80;
    HOLDS(found(scrub(), 1, 1, FIDDLEFERN_FINDING_ELEMENT) && fiddlefern_row(scrub()) == 1 && fiddlefern_strip(scrub()) == 3);
    /* X(0, 4) lies on diagonal 1 with X(1, 3), so the same bit of both leaves that diagonal right. */
    stripe[12] ^= 0x80;
    HOLDS(found(scrub(), 2, 0, FIDDLEFERN_FINDING_SEVERAL));
}

/* An answer whose byte k is k + 1. */
static void parts(void) {
    uint64_t answer = 0x0807060504030201;
    HOLDS(fiddlefern_number(answer) == 1);
    HOLDS(fiddlefern_lower(answer) == 2 && fiddlefern_upper(answer) == 3);
    HOLDS(fiddlefern_size(answer) == 0x08070605 && fiddlefern_offset(answer) == 0x08070605);
    HOLDS(fiddlefern_rows(answer) == 2 && fiddlefern_diagonals(answer) == 3 && fiddlefern_finding(answer) == 4);
    HOLDS(fiddlefern_row(answer) == 5 && fiddlefern_diagonal(answer) == 6 && fiddlefern_strip(answer) == 6);
}

int main(void) {
    cases_a_and_b();
    cases_c_and_d();
    masks();
    read_and_scrub();
    parts();
    return faults != 0;
}

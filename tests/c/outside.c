/* Asks the functions of fiddlefern_layout.h with any numbers: SIZE_MAX is given exactly where something is outside, and no sum or product
   wraps into a number that looks right. Whether the numbers inside are right is in layout.c. */
#include "shapes.h"

/* Both sides of every limit; powers of two whose products are 0 mod 2^64; and THIRD, FIFTH and SEVENTH, which times 3, 5 and 7 are 1 mod 2^64. */
#define THIRD 0xAAAAAAAAAAAAAAABu
#define FIFTH 0xCCCCCCCCCCCCCCCDu
#define SEVENTH 0x6DB6DB6DB6DB6DB7u
static const size_t tried[] = {
    0, 1, 2, 3, 4, 5, 7, 31, 32, 33, 63, 64, 65, 4095, 4096, 4097, 65536, 0x100000000u, 0x100000001u, THIRD, FIFTH, SEVENTH,
    SIZE_MAX / 2, SIZE_MAX / 2 + 1, SIZE_MAX - 4095, SIZE_MAX - 31, SIZE_MAX - 2, SIZE_MAX - 1, SIZE_MAX,
};
enum { TRIED = sizeof tried / sizeof *tried };

/* Whether number x is among from .. to. */
static int among(size_t from, size_t x, size_t to) { return from <= x && x <= to; }

static int within(struct shape a) { return among(3, a.n, 32) && among(1, a.r, 32) && among(1, a.s, a.n - 1) && among(1, a.e, 4096); }

/* Whether SIZE_MAX is answered exactly where this is not inside; what is inside is below 2^23, as the largest stripe is. */
static int fits(size_t answer, int inside) { return inside ? answer < 1 << 23 : answer == SIZE_MAX; }

/* What takes one number beside the shape: a strip, a row, a diagonal, a byte of the data. */
static void one_number(struct shape a, size_t x) {
    int in = within(a);
    HOLDS(fits(fiddlefern_strip_start(OF(a), x), in && x <= a.n));
    HOLDS(fits(fiddlefern_strip_length(OF(a), x), in && x <= a.n));
    HOLDS(fits(fiddlefern_h_start(OF(a), x), in && x < a.r));
    HOLDS(fits(fiddlefern_u_start(OF(a), x), in && x < a.n));

    size_t at[3] = {0, 0, 0};
    int inside = in && x / a.e / a.r < a.n, number = fiddlefern_locate(OF(a), x, &at[0], &at[1], &at[2]);
    HOLDS(number == (in ? (inside ? FIDDLEFERN_DONE : FIDDLEFERN_REFUSAL_PLACE) : fiddlefern_limits(OF(a))));
    for (int k = 0; k < 3; k++) HOLDS(fits(at[k], inside));
}

static void place(struct shape a, size_t row, size_t strip) {
    int in = within(a), inside = in && row < a.r && strip < a.n;
    int due = in ? (inside ? FIDDLEFERN_DONE : FIDDLEFERN_REFUSAL_PLACE) : fiddlefern_limits(OF(a));
    HOLDS(fiddlefern_place(OF(a), row, strip) == due);
    HOLDS(fits(fiddlefern_element_start(OF(a), row, strip), inside));
    HOLDS(fits(fiddlefern_diagonal_at(OF(a), row, strip), inside));
    size_t at[3] = {0, 0, 0};
    HOLDS(fiddlefern_touched(OF(a), row, strip, at) == due);
    for (int k = 0; k < 3; k++) HOLDS(fits(at[k], inside));
    for (int k = 0; k < TRIED; k++) HOLDS(fits(fiddlefern_byte_at(OF(a), row, strip, tried[k]), inside && tried[k] < a.e));
}

/* The limits are those of judge, which also says 5; a weak shape is within them. */
static void shape(struct shape a) {
    int judged = fiddlefern_number(fiddlefern_judge(OF(a)));
    HOLDS(fiddlefern_limits(OF(a)) == (judged == FIDDLEFERN_REFUSAL_WEAK ? FIDDLEFERN_DONE : judged));
    HOLDS((fiddlefern_limits(OF(a)) == FIDDLEFERN_DONE) == within(a));
    HOLDS(fits(fiddlefern_capacity(OF(a)), within(a)));
}

/* Every function, with every number tried. */
static void numbers_of(struct shape a) {
    shape(a);
    for (int k = 0; k < TRIED; k++) one_number(a, tried[k]);
    for (int k = 0; k < TRIED; k++)
        for (int m = 0; m < TRIED; m++) place(a, tried[k], tried[m]);
}

/* Every four numbers, with one place; then shapes within the limits, the last one weak, with one of the four exchanged, and every place. */
int main(void) {
    static const struct shape good[] = {{3, 1, 1, 1}, {5, 2, 2, 1}, {7, 5, 1, 4096}, {32, 15, 1, 3}, {31, 29, 2, 4096}, {32, 32, 31, 4096}};
    for (int i = 0; i < TRIED; i++)
        for (int j = 0; j < TRIED; j++)
            for (int k = 0; k < TRIED; k++)
                for (int m = 0; m < TRIED; m++) {
                    struct shape a = {tried[i], tried[j], tried[k], tried[m]};
                    shape(a);
                    place(a, 0, 0);
                }
    for (size_t g = 0; g < sizeof good / sizeof *good; g++)
        for (int k = 0; k < TRIED; k++) {
            struct shape a = good[g];
            numbers_of((struct shape){tried[k], a.r, a.s, a.e});
            numbers_of((struct shape){a.n, tried[k], a.s, a.e});
            numbers_of((struct shape){a.n, a.r, tried[k], a.e});
            numbers_of((struct shape){a.n, a.r, a.s, tried[k]});
        }
    return faults != 0;
}

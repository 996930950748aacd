/* Compares the functions of fiddlefern_layout.h with the stripe of docs/SPEC.md, section 2, walked element by element, for every accepted shape
   with n up to 13; and fiddlefern_greatest_rows with the published bound, section 4. What the calls do is in layout_calls.c, what is outside in
   outside.c. */
#include "shapes.h"

/* Where each element starts, as a walk along the stripe meets it. */
static struct {
    size_t x[32][32], h[32], u[32], strip[33], length[33], size;
} met;

/* Strip j is X(0, j) .. X(r-1, j), U(j), and strip n is H(0) .. H(r-1); each element follows the one before. */
static void walk(struct shape a) {
    size_t at = 0;
    for (size_t strip = 0; strip <= a.n; strip++) {
        met.strip[strip] = at;
        for (size_t row = 0; row < a.r; row++, at += a.e) *(strip < a.n ? &met.x[row][strip] : &met.h[row]) = at;
        if (strip < a.n) met.u[strip] = at, at += a.e;
        met.length[strip] = at - met.strip[strip];
    }
    met.size = at;
}

/* The diagonal of a place, looked for: d and j + i - (r-1) - s differ by a multiple of n. */
static size_t diagonal(struct shape a, size_t row, size_t strip) {
    size_t d = 0;
    while ((d + a.r - 1 + a.s) % a.n != (strip + row) % a.n) d++;
    return d;
}

static void starts(struct shape a, size_t size) {
    walk(a);
    HOLDS(met.size == size);
    for (size_t strip = 0; strip <= a.n; strip++) {
        HOLDS(fiddlefern_strip_start(OF(a), strip) == met.strip[strip]);
        HOLDS(fiddlefern_strip_length(OF(a), strip) == met.length[strip]);
    }
    for (size_t row = 0; row < a.r; row++) HOLDS(fiddlefern_h_start(OF(a), row) == met.h[row]);
    for (size_t d = 0; d < a.n; d++) HOLDS(fiddlefern_u_start(OF(a), d) == met.u[d]);
    for (size_t row = 0; row < a.r; row++)
        for (size_t strip = 0; strip < a.n; strip++) {
            size_t d = diagonal(a, row, strip), three[3] = {0, 0, 0};
            HOLDS(fiddlefern_place(OF(a), row, strip) == FIDDLEFERN_DONE);
            HOLDS(fiddlefern_element_start(OF(a), row, strip) == met.x[row][strip]);
            HOLDS(fiddlefern_diagonal_at(OF(a), row, strip) == d);
            HOLDS(fiddlefern_touched(OF(a), row, strip, three) == FIDDLEFERN_DONE);
            HOLDS(three[0] == met.x[row][strip] && three[1] == met.h[row] && three[2] == met.u[d]);
        }
}

/* The data is cut strip after strip, in a strip row after row. */
static void data(struct shape a, size_t size) {
    size_t byte = 0;
    for (size_t strip = 0; strip < a.n; strip++)
        for (size_t row = 0; row < a.r; row++)
            for (size_t offset = 0; offset < a.e; offset++, byte++) {
                size_t at[3] = {0, 0, 0};
                HOLDS(fiddlefern_locate(OF(a), byte, &at[0], &at[1], &at[2]) == FIDDLEFERN_DONE);
                HOLDS(at[0] == row && at[1] == strip && at[2] == offset);
                HOLDS(fiddlefern_byte_at(OF(a), row, strip, offset) == byte);
            }
    HOLDS(fiddlefern_capacity(OF(a)) == byte && byte < size);
}

/* The first that is not there. */
static void beyond(struct shape a, size_t size) {
    size_t at[3] = {0, 0, 0};
    HOLDS(fiddlefern_strip_start(OF(a), a.n + 1) == SIZE_MAX && fiddlefern_strip_length(OF(a), a.n + 1) == SIZE_MAX);
    HOLDS(fiddlefern_element_start(OF(a), a.r, 0) == SIZE_MAX && fiddlefern_element_start(OF(a), 0, a.n) == SIZE_MAX);
    HOLDS(fiddlefern_diagonal_at(OF(a), a.r, 0) == SIZE_MAX && fiddlefern_diagonal_at(OF(a), 0, a.n) == SIZE_MAX);
    HOLDS(fiddlefern_h_start(OF(a), a.r) == SIZE_MAX && fiddlefern_u_start(OF(a), a.n) == SIZE_MAX);
    HOLDS(fiddlefern_touched(OF(a), 0, a.n, at) == FIDDLEFERN_REFUSAL_PLACE);
    HOLDS(at[0] == SIZE_MAX && at[1] == SIZE_MAX && at[2] == SIZE_MAX);
    at[0] = at[1] = at[2] = 0;
    HOLDS(fiddlefern_locate(OF(a), fiddlefern_capacity(OF(a)), &at[0], &at[1], &at[2]) == FIDDLEFERN_REFUSAL_PLACE);
    HOLDS(at[0] == SIZE_MAX && at[1] == SIZE_MAX && at[2] == SIZE_MAX);
    HOLDS(fiddlefern_byte_at(OF(a), 0, 0, a.e) == SIZE_MAX && fiddlefern_byte_at(OF(a), a.r, 0, 0) == SIZE_MAX);
    HOLDS(fiddlefern_byte_at(OF(a), 0, a.n, 0) == SIZE_MAX && size < SIZE_MAX);
}

/* q is n divided by its smallest prime divisor. Where s > q, r is at most n - s, otherwise at most n - q - s; 0 where that is none. */
static void greatest_rows(void) {
    for (size_t n = 3; n <= 32; n++)
        for (size_t s = 1; s < n; s++) {
            size_t p = 2;
            while (n % p != 0) p++;
            size_t less = s > n / p ? s : n / p + s;
            HOLDS(fiddlefern_greatest_rows(n, s) == (less < n ? n - less : 0));
        }
    static const size_t outside[][2] = {{2, 1}, {33, 1}, {0, 0}, {SIZE_MAX, 1}, {7, 0}, {7, 7}, {7, SIZE_MAX}, {SIZE_MAX, SIZE_MAX}};
    for (size_t k = 0; k < sizeof outside / sizeof *outside; k++) HOLDS(fiddlefern_greatest_rows(outside[k][0], outside[k][1]) == 0);
}

int main(void) {
    static const size_t bytes[] = {1, 2, 13, 4096};
    for (size_t k = 0; k < sizeof bytes / sizeof *bytes; k++) {
        each_shape(bytes[k], starts);
        each_shape(bytes[k], beyond);
        if (bytes[k] < 4096) each_shape(bytes[k], data);
    }
    greatest_rows();
    return faults != 0;
}

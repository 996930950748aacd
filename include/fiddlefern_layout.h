/* Where the parts of a stripe stand, by the formulas of docs/SPEC.md, section 2, so that no caller writes this arithmetic again. fiddlefern.h, which
   has the words, includes this header; include that one.

   Any numbers may be passed, and no product or sum wraps. What is outside gives SIZE_MAX: n, r, s or e outside its limits, a strip, row, diagonal or
   byte that is not there. A weak shape has a layout too: whether strips can be given back is for judge to say. Starts are bytes of the stripe; an
   element has e bytes.

   THE DATA of a stripe, n*r*e bytes, is cut strip after strip: byte b of it stands in strip b / (r*e), in row b mod (r*e) / e of that strip. So the
   data of a strip is one piece, of the data, of the buffer and of the strip's disk, and one copy for each strip lays it:
       memcpy(stripe + fiddlefern_element_start(n, r, s, e, 0, j), data + fiddlefern_byte_at(n, r, s, e, 0, j, 0), r * e); */
#ifndef FIDDLEFERN_LAYOUT_H
#define FIDDLEFERN_LAYOUT_H

#include "fiddlefern.h"

#ifdef __cplusplus
extern "C" {
#endif

/* The greatest r that judge accepts for n and s, whatever e is; every smaller r is accepted too. 0 where it accepts none. */
static inline size_t fiddlefern_greatest_rows(size_t n, size_t s) {
    size_t r = 0;
    while (fiddlefern_number(fiddlefern_judge(n, r + 1, s, 1)) == FIDDLEFERN_DONE) r++;
    return r;
}

/* The first of the numbers 1 to 4 that holds, or 0: what judge answers, but for 5. */
static inline int fiddlefern_limits(size_t n, size_t r, size_t s, size_t e) {
    if (n < 3 || n > 32) return FIDDLEFERN_REFUSAL_STRIPS;
    if (r < 1 || r > 32) return FIDDLEFERN_REFUSAL_ROWS;
    if (s < 1 || s >= n) return FIDDLEFERN_REFUSAL_SHIFT;
    if (e < 1 || e > 4096) return FIDDLEFERN_REFUSAL_ELEMENT;
    return FIDDLEFERN_DONE;
}

/* The same, and 9 where there is no data element X(row, strip). */
static inline int fiddlefern_place(size_t n, size_t r, size_t s, size_t e, size_t row, size_t strip) {
    int number = fiddlefern_limits(n, r, s, e);
    return number == FIDDLEFERN_DONE && (row >= r || strip >= n) ? FIDDLEFERN_REFUSAL_PLACE : number;
}

/* SIZE_MAX, read from where the compiler cannot know it: gcc would follow it into the caller's memcpy and warn of that. */
static inline size_t fiddlefern_outside(void) {
    volatile size_t outside = SIZE_MAX;
    return outside;
}

/* The data bytes of a stripe. */
static inline size_t fiddlefern_capacity(size_t n, size_t r, size_t s, size_t e) {
    return fiddlefern_limits(n, r, s, e) == FIDDLEFERN_DONE ? n * r * e : fiddlefern_outside();
}

/* Where a strip starts, and how many bytes it has; strip n is the h-parity strip. */
static inline size_t fiddlefern_strip_start(size_t n, size_t r, size_t s, size_t e, size_t strip) {
    return fiddlefern_limits(n, r, s, e) == FIDDLEFERN_DONE && strip <= n ? strip * (r + 1) * e : fiddlefern_outside();
}
static inline size_t fiddlefern_strip_length(size_t n, size_t r, size_t s, size_t e, size_t strip) {
    return fiddlefern_limits(n, r, s, e) == FIDDLEFERN_DONE && strip <= n ? (strip < n ? r + 1 : r) * e : fiddlefern_outside();
}

/* Where X(row, strip) starts. */
static inline size_t fiddlefern_element_start(size_t n, size_t r, size_t s, size_t e, size_t row, size_t strip) {
    return fiddlefern_place(n, r, s, e, row, strip) == FIDDLEFERN_DONE ? (strip * (r + 1) + row) * e : fiddlefern_outside();
}

/* Where H(row) starts. */
static inline size_t fiddlefern_h_start(size_t n, size_t r, size_t s, size_t e, size_t row) {
    return fiddlefern_limits(n, r, s, e) == FIDDLEFERN_DONE && row < r ? (n * (r + 1) + row) * e : fiddlefern_outside();
}

/* Where U(diagonal) starts. */
static inline size_t fiddlefern_u_start(size_t n, size_t r, size_t s, size_t e, size_t diagonal) {
    return fiddlefern_limits(n, r, s, e) == FIDDLEFERN_DONE && diagonal < n ? (diagonal * (r + 1) + r) * e : fiddlefern_outside();
}

/* The diagonal of X(row, strip), (strip + row - (r-1) - s) mod n: n-1 and n-s stand for -1 and -s, so that no difference falls below zero. */
static inline size_t fiddlefern_diagonal_at(size_t n, size_t r, size_t s, size_t e, size_t row, size_t strip) {
    return fiddlefern_place(n, r, s, e, row, strip) == FIDDLEFERN_DONE ? (strip + row + (n - 1) * (r - 1) + (n - s)) % n : fiddlefern_outside();
}

/* The three elements that a write to X(row, strip) reads and changes: where X, its H and its U start, in this order. They stand in strip, in strip
   n and in strip fiddlefern_diagonal_at(..). Answers 0, or 1 to 4 or 9, and then all three are SIZE_MAX. */
FIDDLEFERN_MUST_USE static inline int fiddlefern_touched(size_t n, size_t r, size_t s, size_t e, size_t row, size_t strip, size_t starts[3]) {
    int number = fiddlefern_place(n, r, s, e, row, strip);
    int inside = number == FIDDLEFERN_DONE;
    starts[0] = fiddlefern_element_start(n, r, s, e, row, strip);
    starts[1] = inside ? fiddlefern_h_start(n, r, s, e, row) : fiddlefern_outside();
    starts[2] = inside ? fiddlefern_u_start(n, r, s, e, fiddlefern_diagonal_at(n, r, s, e, row, strip)) : fiddlefern_outside();
    return number;
}

/* Where a byte of the data stands: byte offset of X(row, strip). Answers 0, or 1 to 4, or 9 where the data has no such byte, and then all three are
   SIZE_MAX. */
FIDDLEFERN_MUST_USE static inline int fiddlefern_locate(size_t n, size_t r, size_t s, size_t e, size_t byte, size_t *row, size_t *strip,
                                                        size_t *offset) {
    int number = fiddlefern_limits(n, r, s, e);
    if (number == FIDDLEFERN_DONE && byte >= n * r * e) number = FIDDLEFERN_REFUSAL_PLACE;
    int inside = number == FIDDLEFERN_DONE;
    *row = inside ? byte / e % r : fiddlefern_outside();
    *strip = inside ? byte / e / r : fiddlefern_outside();
    *offset = inside ? byte % e : fiddlefern_outside();
    return number;
}

/* Which byte of the data stands at byte offset of X(row, strip): the inverse of fiddlefern_locate. */
static inline size_t fiddlefern_byte_at(size_t n, size_t r, size_t s, size_t e, size_t row, size_t strip, size_t offset) {
    return fiddlefern_place(n, r, s, e, row, strip) == FIDDLEFERN_DONE && offset < e ? (strip * r + row) * e + offset : fiddlefern_outside();
}

#ifdef __cplusplus
}
#endif

#endif

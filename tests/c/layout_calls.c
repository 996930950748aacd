/* Compares the functions of fiddlefern_layout.h with what the calls do, for every accepted shape with n up to 13: which bytes a write changes,
   which a rebuild clears with 10, where read says an element stands, and what scrub finds where a byte was changed. */
#include "shapes.h"

/* The stripe, and what it was before; no accepted shape with n up to 13 has more elements than n=13 r=11. */
enum { MOST_E = 4, ROOM = MOST_E * (13 * 12 + 11) };
static uint8_t stripe[ROOM], before[ROOM];

/* Bytes without an order, never 0. */
static void scatter(size_t size) {
    uint32_t x = 1;
    for (size_t k = 0; k < size; k++) {
        x = x * 1664525 + 1013904223;
        stripe[k] = (uint8_t)(x >> 24 | 1);
    }
}

/* Whether byte k is one of the count bytes from start on. */
static int in(size_t k, size_t start, size_t count) { return k >= start && k - start < count; }

/* A run of FF at every place and offset, into a stripe of zeros: in X, H and U it is there, everywhere else is zero. */
static void writes(struct shape a, size_t size) {
    static const uint8_t run[MOST_E] = {0xFF, 0xFF, 0xFF, 0xFF};
    for (size_t row = 0; row < a.r; row++)
        for (size_t strip = 0; strip < a.n; strip++)
            for (size_t offset = 0; offset < a.e; offset++) {
                size_t three[3] = {0, 0, 0}, count = a.e - offset;
                memset(stripe, 0, size);
                uint64_t answer = fiddlefern_write(OF(a), stripe, size, row, strip, offset, run, count);
                HOLDS(fiddlefern_number(answer) == FIDDLEFERN_DONE);
                HOLDS(fiddlefern_touched(OF(a), row, strip, three) == FIDDLEFERN_DONE);
                for (size_t k = 0; k < size; k++) {
                    int touched = 0;
                    for (int t = 0; t < 3; t++) touched |= in(k, three[t] + offset, count);
                    HOLDS(stripe[k] == (touched ? 0xFF : 0));
                }
            }
}

/* One strip lost of bytes that make no sound stripe: 10, and exactly the bytes of that strip are zero. */
static void clears(struct shape a, size_t size) {
    for (size_t strip = 0; strip <= a.n; strip++) {
        scatter(size);
        memcpy(before, stripe, size);
        uint64_t answer = fiddlefern_rebuild(OF(a), stripe, size, fiddlefern_lost(strip));
        HOLDS(fiddlefern_number(answer) == FIDDLEFERN_REFUSAL_NO_SOUND);
        size_t start = fiddlefern_strip_start(OF(a), strip), length = fiddlefern_strip_length(OF(a), strip);
        for (size_t k = 0; k < size; k++) HOLDS(stripe[k] == (in(k, start, length) ? 0 : before[k]));
    }
}

static void reads(struct shape a, size_t size) {
    for (size_t row = 0; row < a.r; row++)
        for (size_t strip = 0; strip < a.n; strip++) {
            uint64_t answer = fiddlefern_read(OF(a), stripe, size, row, strip);
            HOLDS(fiddlefern_number(answer) == FIDDLEFERN_DONE);
            HOLDS(fiddlefern_element_start(OF(a), row, strip) == fiddlefern_offset(answer));
        }
}

/* What scrub finds where the last byte of the element at start is changed; the stripe is put right again. */
static uint64_t found(struct shape a, size_t size, size_t start) {
    stripe[start + a.e - 1] ^= 0x10;
    uint64_t answer = fiddlefern_scrub(OF(a), stripe, size);
    stripe[start + a.e - 1] ^= 0x10;
    HOLDS(fiddlefern_number(answer) == FIDDLEFERN_DONE);
    return answer;
}

/* Every element of a sound stripe is found by the name that it is asked for. */
static void scrubs(struct shape a, size_t size) {
    scatter(size);
    HOLDS(fiddlefern_number(fiddlefern_encode(OF(a), stripe, size)) == FIDDLEFERN_DONE);
    for (size_t row = 0; row < a.r; row++) {
        uint64_t answer = found(a, size, fiddlefern_h_start(OF(a), row));
        HOLDS(fiddlefern_finding(answer) == FIDDLEFERN_FINDING_H && fiddlefern_row(answer) == row);
    }
    for (size_t d = 0; d < a.n; d++) {
        uint64_t answer = found(a, size, fiddlefern_u_start(OF(a), d));
        HOLDS(fiddlefern_finding(answer) == FIDDLEFERN_FINDING_U && fiddlefern_diagonal(answer) == d);
    }
    for (size_t row = 0; row < a.r; row++)
        for (size_t strip = 0; strip < a.n; strip++) {
            uint64_t answer = found(a, size, fiddlefern_element_start(OF(a), row, strip));
            HOLDS(fiddlefern_finding(answer) == FIDDLEFERN_FINDING_ELEMENT);
            HOLDS(fiddlefern_row(answer) == row && fiddlefern_strip(answer) == strip);
        }
}

/* The data, cut by one copy for each strip, stands at the places that fiddlefern_locate gives, and the rest of the stripe is parity. */
static void cut(struct shape a, size_t size) {
    static uint8_t data[ROOM];
    size_t capacity = fiddlefern_capacity(OF(a)), piece = capacity / a.n;
    for (size_t k = 0; k < capacity; k++) data[k] = (uint8_t)(k % 251 + 1);
    memset(stripe, 0, size);
    for (size_t j = 0; j < a.n; j++)
        memcpy(stripe + fiddlefern_element_start(OF(a), 0, j), data + fiddlefern_byte_at(OF(a), 0, j, 0), piece);
    for (size_t k = 0; k < capacity; k++) {
        size_t row, strip, offset;
        HOLDS(fiddlefern_locate(OF(a), k, &row, &strip, &offset) == FIDDLEFERN_DONE);
        uint64_t answer = fiddlefern_read(OF(a), stripe, size, row, strip);
        HOLDS(stripe[fiddlefern_offset(answer) + offset] == data[k]);
    }
    size_t filled = 0;
    for (size_t k = 0; k < size; k++) filled += stripe[k] != 0;
    HOLDS(filled == capacity);
}

int main(void) {
    for (size_t e = 1; e <= MOST_E; e += 3) {
        each_shape(e, writes);
        each_shape(e, clears);
        each_shape(e, reads);
        each_shape(e, scrubs);
        each_shape(e, cut);
    }
    return faults != 0;
}

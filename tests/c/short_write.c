/* The recipe of fiddlefern.h for a short write: three elements are loaded into a buffer that is zero elsewhere, written, and stored. It leaves what a
   write to the whole stripe leaves, and 3e bytes are loaded and 3e stored; for every accepted shape with n up to 13, every place, on sound stripes
   and on others, and where the write is refused. */
#include "shapes.h"

enum { MOST_E = 5, STRIP = MOST_E * 12, ROOM = GREATEST_N * STRIP + MOST_E * 11 };

/* Disk j holds strip j. How many bytes went to and fro. */
static uint8_t disks[GREATEST_N + 1][STRIP];
static size_t loaded, stored;

static void load(uint8_t *to, size_t disk, size_t from, size_t count) {
    memcpy(to, disks[disk] + from, count);
    loaded += count;
}
static void store(const uint8_t *from, size_t disk, size_t to, size_t count) {
    memcpy(disks[disk] + to, from, count);
    stored += count;
}

/* The recipe. `buffer` has the stripe's size. */
static int short_write(struct shape a, uint8_t *buffer, size_t size, size_t row, size_t strip, size_t offset, const uint8_t *run, size_t run_len) {
    size_t at[3];
    int number = fiddlefern_touched(OF(a), row, strip, at);
    if (number != FIDDLEFERN_DONE) return number;
    const size_t disk[3] = {strip, a.n, fiddlefern_diagonal_at(OF(a), row, strip)};
    for (int k = 0; k < 3; k++) load(buffer + at[k], disk[k], at[k] - fiddlefern_strip_start(OF(a), disk[k]), a.e);
    number = fiddlefern_number(fiddlefern_write(OF(a), buffer, size, row, strip, offset, run, run_len));
    if (number != FIDDLEFERN_DONE) return number;
    for (int k = 0; k < 3; k++) store(buffer + at[k], disk[k], at[k] - fiddlefern_strip_start(OF(a), disk[k]), a.e);
    return number;
}

static const uint8_t run[MOST_E] = {0xF0, 0x0D, 0x5E, 0xA5, 0x3C};
static uint8_t whole[ROOM], after[ROOM], buffer[ROOM];

/* Every strip from its disk to its place in a stripe, or back. */
static void all(struct shape a, uint8_t *stripe, int back) {
    for (size_t j = 0; j <= a.n; j++) {
        uint8_t *at = stripe + fiddlefern_strip_start(OF(a), j);
        memcpy(back ? disks[j] : at, back ? at : disks[j], fiddlefern_strip_length(OF(a), j));
    }
}

/* The same write to the whole stripe and by the recipe; `fill` stands elsewhere in the buffer. */
static void compare(struct shape a, size_t size, size_t row, size_t strip, size_t offset, size_t run_len, int fill) {
    int there = row < a.r && strip < a.n, good = there && offset + run_len <= a.e;
    all(a, whole, 0);
    int due = fiddlefern_number(fiddlefern_write(OF(a), whole, size, row, strip, offset, run, run_len));
    HOLDS(due == (good ? FIDDLEFERN_DONE : FIDDLEFERN_REFUSAL_PLACE));

    memset(buffer, fill, size);
    loaded = stored = 0;
    HOLDS(short_write(a, buffer, size, row, strip, offset, run, run_len) == due);
    HOLDS(loaded == (there ? 3 * a.e : 0) && stored == (good ? 3 * a.e : 0));
    all(a, after, 0);
    HOLDS(memcmp(after, whole, size) == 0);
}

/* Every place, and the first row and strip beyond; the whole element, its last byte, no byte, and a byte too many. */
static void each_place(struct shape a, size_t size, int fill) {
    for (size_t row = 0; row <= a.r; row++)
        for (size_t strip = 0; strip <= a.n; strip++) {
            compare(a, size, row, strip, 0, a.e, fill);
            compare(a, size, row, strip, a.e - 1, 1, fill);
            compare(a, size, row, strip, a.e, 0, fill);
            compare(a, size, row, strip, 1, a.e, fill);
        }
}

static void look(struct shape a, size_t size) {
    for (size_t k = 0; k < size; k++) whole[k] = (uint8_t)(k * 40503u >> 7);
    all(a, whole, 1);
    each_place(a, size, 0);
    each_place(a, size, 0xE7);
    HOLDS(fiddlefern_number(fiddlefern_encode(OF(a), whole, size)) == FIDDLEFERN_DONE);
    all(a, whole, 1);
    each_place(a, size, 0);
    all(a, whole, 0);
    uint64_t scrubbed = fiddlefern_scrub(OF(a), whole, size);
    HOLDS(fiddlefern_number(scrubbed) == FIDDLEFERN_DONE && fiddlefern_finding(scrubbed) == FIDDLEFERN_FINDING_SOUND);
}

int main(void) {
    each_shape(1, look);
    each_shape(MOST_E, look);
    return faults != 0;
}

/* Fiddlefern keeps data on n + 1 disks so that any two of them may be lost. Data is cut into stripes, and a stripe into strips, one for each
   disk. Beside the data stands parity, the exclusive or of data along rows and diagonals, from which up to two lost strips are computed again:
   the two-fault HoVer code. The library judges shapes, encodes a stripe, writes, reads and scrubs it, and rebuilds it. It works on buffers that
   the caller lends, sees no disk, allocates nothing and keeps nothing between calls. Link with libfiddlefern.a, which `make lib` writes.
   docs/SPEC.md is the specification, docs/PROMISES.md has the promise of each call in full, docs/PERFORMANCE.md what it costs.

   IN SHORT. judge says how large a stripe is. Put data into it, encode, and store strip j on disk j. With the strips loaded again read and write
   elements, and scrub now and then. Where one or two disks are gone load the other strips, rebuild, and store what comes back.

   THE SHAPE is four numbers. Every call takes them first.
     n  data strips, 0 to n-1; strip n is the h-parity strip    3 .. 32
     r  rows, 0 to r-1                                          1 .. 32
     s  the shift of the diagonals                              1 .. n-1
     e  the bytes of an element                                 1 .. 4096
   Not every r serves: within these limits judge accepts exactly the shapes of which any two strips can be given back.
   fiddlefern_greatest_rows(n, s) is the greatest r that serves; every smaller one does too.

   THE STRIPE is one buffer. Its strip j is what disk j holds of it:
     X(i, j)  the data element of row i and strip j
     H(i)     the exclusive or of all X(i, j) of row i; it stands in strip n
     U(d)     the exclusive or of all X(i, j) of diagonal d; it stands in strip d, below the data
   The diagonal of row i and strip j is (j + i - (r-1) - s) mod n, from 0 to n-1. A row with its H is a line, and a diagonal with its U is one.
   A stripe is sound when every H and every U has that value in every byte.
   In the buffer the strips stand one after the other: the place of row i and strip j begins at byte (j*(r+1)+i)*e. It has X(i, j) where
   i < r and j < n, U(j) where i = r, and H(i) where j = n; row r of strip n is not stored. The size is e*(n*(r+1)+r) bytes. The functions of
   fiddlefern_layout.h, which this header includes, say all of this, so that no caller has to compute it.

   THE ANSWER is one 64-bit word. Its byte 0 is the number that comes back; what else there is, a size, an offset, counts or a pair, stands in the
   bytes above. So never compare the whole word: with 0 from judge, read or scrub it need not be FIDDLEFERN_DONE, and that of a weak shape never
   is FIDDLEFERN_REFUSAL_WEAK. Take the number out of it, and the rest by the other functions below:
       if (fiddlefern_number(answer) != FIDDLEFERN_DONE) puts(fiddlefern_text(fiddlefern_number(answer)));
   The numbers:
      0  done
      1  n outside 3..32
      2  r outside 1..32
      3  s outside 1..n-1
      4  e outside 1..4096
      5  weak shape: two different sound stripes agree outside a pair of strips; the first such pair, by lower, then upper strip, comes with it
      6  len, the length of the buffer, differs from the stripe's size
      7  the mask has a one above bit n
      8  more than two strips lost
      9  place outside: row not below r, strip not below n, or offset plus run_len above e
     10  the survivors, which are the strips that are not lost, agree with no sound stripe
   judge gives 0 to 5; encode and scrub 0 to 6; write and read 0 to 6 and 9; rebuild 0 to 8 and 10. The checks run in the order of the
   numbers: the first that holds is given. Any numbers may be passed.

   THE MASK of the lost strips has bit j for strip j, j from 0 to n. It has 64 bits; 1 << j is an int, and from j = 31 on it can name another strip,
   which is then overwritten. Write fiddlefern_lost(j):
       answer = fiddlefern_rebuild(n, r, s, e, stripe, len, fiddlefern_lost(3) | fiddlefern_lost(7));

   WHAT A CALL LEAVES. judge, read and scrub change no byte, and no call changes the run. Every refusal but 10 changes no byte. 10 leaves the
   survivors as they were and every byte of the lost strips zero.

   A SHORT WRITE NEEDS THREE ELEMENTS, not the stripe. What write leaves in X(row, strip), its H and its U depends on these three and the run
   alone, in every buffer, sound or not. So take a buffer of the stripe's size, all zero; load the three from their disks, each to its own place,
   which fiddlefern_touched gives; write; store the three. 3e bytes are read and 3e are written. tests/c/short_write.c does so.

   WHAT IS NOT PROMISED
   - A buffer must have as many bytes as its length says, and stripe and run must not overlap. With length 0 the pointer may be null. No buffer
     needs any alignment.
   - The library runs on x86-64 alone.
   - A call works on one stripe and takes no lock: while encode, write or rebuild runs nothing else may use the stripe, and while scrub runs
     nothing may change it.
   - 10 is no checksum. Two lost data strips leave n-r-2 lines to test, and none where r = n-2: there a damaged survivor yields another sound
     stripe, and the answer is 0. Scrub before disks are lost.
   - scrub is no checksum either: several wrong elements can look like one, or like none.
   - write on a stripe that is not sound mends nothing.
   - Nothing is said of a call that is cut off. Where a crash falls between the writes to the disks, parity and data may disagree. */
#ifndef FIDDLEFERN_H
#define FIDDLEFERN_H

#include <stddef.h>
#include <stdint.h>

/* The version of this header, as fiddlefern_version() answers it for the archive: byte 2 is the major number, byte 1 the minor one, byte 0 the
   patch. Where the two differ, header and archive are not of one release. */
#define FIDDLEFERN_VERSION 0x000200

/* Has the compiler warn where a caller does not look at an answer. */
#if (defined __cplusplus && __cplusplus >= 201703L) || (defined __STDC_VERSION__ && __STDC_VERSION__ >= 202311L)
#define FIDDLEFERN_MUST_USE [[nodiscard]]
#elif defined __GNUC__
#define FIDDLEFERN_MUST_USE __attribute__((warn_unused_result))
#else
#define FIDDLEFERN_MUST_USE
#endif

#ifdef __cplusplus
extern "C" {
#endif

enum fiddlefern_numbers {
    FIDDLEFERN_DONE = 0,
    FIDDLEFERN_REFUSAL_STRIPS = 1,
    FIDDLEFERN_REFUSAL_ROWS = 2,
    FIDDLEFERN_REFUSAL_SHIFT = 3,
    FIDDLEFERN_REFUSAL_ELEMENT = 4,
    FIDDLEFERN_REFUSAL_WEAK = 5,
    FIDDLEFERN_REFUSAL_LENGTH = 6,
    FIDDLEFERN_REFUSAL_MASK = 7,
    FIDDLEFERN_REFUSAL_MANY = 8,
    FIDDLEFERN_REFUSAL_PLACE = 9,
    FIDDLEFERN_REFUSAL_NO_SOUND = 10
};

enum fiddlefern_findings {
    FIDDLEFERN_FINDING_SOUND = 0,   /* no row and no diagonal is wrong */
    FIDDLEFERN_FINDING_H = 1,       /* one row alone: its H */
    FIDDLEFERN_FINDING_U = 2,       /* one diagonal alone: its U */
    FIDDLEFERN_FINDING_ELEMENT = 3, /* one row and one diagonal: the data element where they meet */
    FIDDLEFERN_FINDING_SEVERAL = 4  /* anything else */
};

/* Judges a shape: 0 with the stripe's size, or the refusal. */
FIDDLEFERN_MUST_USE uint64_t fiddlefern_judge(size_t n, size_t r, size_t s, size_t e);

/* Keeps all data and sets every H and U. */
FIDDLEFERN_MUST_USE uint64_t fiddlefern_encode(size_t n, size_t r, size_t s, size_t e, uint8_t *stripe, size_t len);

/* Replaces the bytes of X(row, strip) from offset on by the run. H of the row and U of the place's diagonal have the same bytes XORed with
   old XOR new; nothing else changes. An empty run changes nothing. */
FIDDLEFERN_MUST_USE uint64_t fiddlefern_write(size_t n, size_t r, size_t s, size_t e, uint8_t *stripe, size_t len, size_t row, size_t strip,
                                              size_t offset, const uint8_t *run, size_t run_len);

/* Says where X(row, strip) stands: 0 with the offset of its e bytes in the stripe, or the refusal. */
FIDDLEFERN_MUST_USE uint64_t fiddlefern_read(size_t n, size_t r, size_t s, size_t e, const uint8_t *stripe, size_t len, size_t row, size_t strip);

/* Counts the rows whose H is wrong and the diagonals whose U is wrong: 0 with both counts and the finding, or the refusal. */
FIDDLEFERN_MUST_USE uint64_t fiddlefern_scrub(size_t n, size_t r, size_t s, size_t e, const uint8_t *stripe, size_t len);

/* Gives back the lost strips of the mask. With 0 the stripe is the one sound stripe that agrees with the survivors; what stood in the lost strips
   has no influence. An empty mask gives 0 on a sound stripe and 10 on another. */
FIDDLEFERN_MUST_USE uint64_t fiddlefern_rebuild(size_t n, size_t r, size_t s, size_t e, uint8_t *stripe, size_t len, uint64_t mask);

/* The version of the archive that is linked, laid out as FIDDLEFERN_VERSION. It is no answer, and has no number. */
FIDDLEFERN_MUST_USE uint64_t fiddlefern_version(void);

/* The mask of one lost strip; join several by |. A number above 63 has no bit and gives UINT64_MAX, which rebuild refuses with 7. */
static inline uint64_t fiddlefern_lost(size_t strip) { return strip < 64 ? UINT64_C(1) << strip : UINT64_MAX; }

/* The number of any answer, one of fiddlefern_numbers. */
static inline int fiddlefern_number(uint64_t answer) { return answer & 0xff; }

/* What a number means, in a sentence for whoever reads the log; for a number that no call gives too. */
static inline const char *fiddlefern_text(int number) {
    switch (number) {
    case FIDDLEFERN_DONE: return "done";
    case FIDDLEFERN_REFUSAL_STRIPS: return "n, the number of data strips, must be 3 to 32";
    case FIDDLEFERN_REFUSAL_ROWS: return "r, the number of rows, must be 1 to 32";
    case FIDDLEFERN_REFUSAL_SHIFT: return "s, the shift, must be 1 to n-1";
    case FIDDLEFERN_REFUSAL_ELEMENT: return "e, the bytes of an element, must be 1 to 4096";
    case FIDDLEFERN_REFUSAL_WEAK: return "the shape is weak: two of its strips could not both be given back; fewer rows are needed";
    case FIDDLEFERN_REFUSAL_LENGTH: return "the buffer's length is not the size of a stripe of this shape";
    case FIDDLEFERN_REFUSAL_MASK: return "a strip above strip n is called lost, and there is none";
    case FIDDLEFERN_REFUSAL_MANY: return "more than two strips are lost, and only two can be given back";
    case FIDDLEFERN_REFUSAL_PLACE: return "there is no such row or strip, or the bytes reach beyond the element";
    case FIDDLEFERN_REFUSAL_NO_SOUND: return "the strips that are left contradict each other: at least one of them is damaged";
    default: return "this is no number of Fiddlefern: header and archive may not be of one release";
    }
}

/* With 5: the lower and the upper strip of the pair. */
static inline size_t fiddlefern_lower(uint64_t answer) { return answer >> 8 & 0xff; }
static inline size_t fiddlefern_upper(uint64_t answer) { return answer >> 16 & 0xff; }

/* With 0 from judge: the stripe's size in bytes. */
static inline size_t fiddlefern_size(uint64_t answer) { return answer >> 32; }

/* With 0 from read: the byte of the stripe at which the element begins. */
static inline size_t fiddlefern_offset(uint64_t answer) { return answer >> 32; }

/* With 0 from scrub: how many rows and how many diagonals are wrong, and the finding, one of fiddlefern_findings. */
static inline size_t fiddlefern_rows(uint64_t answer) { return answer >> 8 & 0xff; }
static inline size_t fiddlefern_diagonals(uint64_t answer) { return answer >> 16 & 0xff; }
static inline int fiddlefern_finding(uint64_t answer) { return answer >> 24 & 0xff; }

/* With 0 from scrub: the row where H or the data element is found, the diagonal where U is, the strip where the data element is. */
static inline size_t fiddlefern_row(uint64_t answer) { return answer >> 32 & 0xff; }
static inline size_t fiddlefern_diagonal(uint64_t answer) { return answer >> 40 & 0xff; }
static inline size_t fiddlefern_strip(uint64_t answer) { return answer >> 40 & 0xff; }

#ifdef __cplusplus
}
#endif

#include "fiddlefern_layout.h"

#endif

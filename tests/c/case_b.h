/* What the tests share: case B of 01-scope.md, and a fact that has to hold. */
#include <stdio.h>
#include <string.h>

#include "fiddlefern.h"

/* n=5, r=2, s=2, e=1: X(i, j) is byte 3j + i, U(j) is byte 3j + 2, H(i) is byte 15 + i. */
enum { N = 5, R = 2, S = 2, E = 1, LEN = 17 };
static const uint8_t B[LEN] = {0x01, 0x20, 0x88, 0x02, 0x40, 0x13, 0x04, 0x80, 0x04, 0x08, 0x03, 0x22, 0x10, 0x05, 0x44, 0x1F, 0xE6};

/* The stripe that the calls get. */
static uint8_t stripe[LEN];
static void take_b(void) { memcpy(stripe, B, LEN); }
static int is_b(void) { return memcmp(stripe, B, LEN) == 0; }

/* How many facts did not hold: what main hands back. */
static int faults;

#define HOLDS(fact)                                                            \
    do {                                                                       \
        if (!(fact)) {                                                         \
            fprintf(stderr, "%s:%d: not so: %s\n", __FILE__, __LINE__, #fact); \
            faults++;                                                          \
        }                                                                      \
    } while (0)

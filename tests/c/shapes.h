/* Every accepted shape with n up to 13, which the tests of the layout share. */
#include <stdlib.h>
#include <string.h>

#include "fiddlefern.h"
#include "holds.h"

/* By elimination there are 259 of them (tools/elimination.out). */
enum { GREATEST_N = 13, ACCEPTED = 259 };

struct shape {
    size_t n, r, s, e;
};

/* The four numbers, as every function takes them first. */
#define OF(shape) (shape).n, (shape).r, (shape).s, (shape).e

/* Calls `look` with every accepted shape whose elements have e bytes, and with the size that judge gives it. */
static inline void each_shape(size_t e, void (*look)(struct shape, size_t)) {
    int accepted = 0;
    for (size_t n = 3; n <= GREATEST_N; n++)
        for (size_t r = 1; r <= 32; r++)
            for (size_t s = 1; s < n; s++) {
                uint64_t judged = fiddlefern_judge(n, r, s, e);
                if (fiddlefern_number(judged) != FIDDLEFERN_DONE) continue;
                accepted++;
                look((struct shape){n, r, s, e}, fiddlefern_size(judged));
            }
    HOLDS(accepted == ACCEPTED);
}

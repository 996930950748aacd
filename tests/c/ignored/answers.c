/* Ignores every answer that has to be looked at, and looks at two. .ci/c-tests compiles it: a compiler must warn of each line that is marked so, and
   of no other. */
#include "fiddlefern.h"

int main(void) {
    static uint8_t stripe[17], run[1];
    size_t row, strip, offset, starts[3];
    fiddlefern_judge(5, 2, 2, 1); /* ignored */
    fiddlefern_encode(5, 2, 2, 1, stripe, sizeof stripe); /* ignored */
    fiddlefern_write(5, 2, 2, 1, stripe, sizeof stripe, 0, 0, 0, run, 1); /* ignored */
    fiddlefern_read(5, 2, 2, 1, stripe, sizeof stripe, 0, 0); /* ignored */
    fiddlefern_scrub(5, 2, 2, 1, stripe, sizeof stripe); /* ignored */
    fiddlefern_rebuild(5, 2, 2, 1, stripe, sizeof stripe, fiddlefern_lost(1)); /* ignored */
    fiddlefern_version(); /* ignored */
    fiddlefern_touched(5, 2, 2, 1, 0, 0, starts); /* ignored */
    fiddlefern_locate(5, 2, 2, 1, 0, &row, &strip, &offset); /* ignored */
    if (fiddlefern_number(fiddlefern_scrub(5, 2, 2, 1, stripe, sizeof stripe)) != FIDDLEFERN_DONE) return 1;
    uint64_t answer = fiddlefern_encode(5, 2, 2, 1, stripe, sizeof stripe);
    return fiddlefern_number(answer);
}

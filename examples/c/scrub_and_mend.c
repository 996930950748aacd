/* A disk hands back a wrong byte without a word. scrub finds the element, its strip is taken for lost, and rebuild puts it right.

       make lib
       gcc -std=c99 -Iinclude examples/c/scrub_and_mend.c target/staticlib/libfiddlefern.a -o target/mend && target/mend */
#include <stdio.h>
#include <stdlib.h>
#include <string.h>

#include "fiddlefern.h"

/* Five data strips of three rows, shift 1, elements of 512 bytes. */
enum { N = 5, R = 3, S = 1, E = 512 };

/* Scrubs the stripe and mends the strip that is found. Answers a number: 0 where the stripe is sound now. */
static int scrub_and_mend(uint8_t *stripe, size_t size) {
    uint64_t scrubbed = fiddlefern_scrub(N, R, S, E, stripe, size);
    if (fiddlefern_number(scrubbed) != FIDDLEFERN_DONE) return fiddlefern_number(scrubbed);
    size_t strip = N;
    switch (fiddlefern_finding(scrubbed)) {
    case FIDDLEFERN_FINDING_SOUND: puts("sound"); return FIDDLEFERN_DONE;
    case FIDDLEFERN_FINDING_H: strip = N; break;
    case FIDDLEFERN_FINDING_U: strip = fiddlefern_diagonal(scrubbed); break;
    case FIDDLEFERN_FINDING_ELEMENT: strip = fiddlefern_strip(scrubbed); break;
    default: puts("several elements are wrong, and which ones is not known"); return FIDDLEFERN_REFUSAL_NO_SOUND;
    }
    printf("disk %lu is wrong\n", (unsigned long)strip);
    /* Only with 0 may the strip go back to its disk: with 10 it is zero here. */
    return fiddlefern_number(fiddlefern_rebuild(N, R, S, E, stripe, size, fiddlefern_lost(strip)));
}

int main(void) {
    uint64_t judged = fiddlefern_judge(N, R, S, E);
    if (fiddlefern_number(judged) != FIDDLEFERN_DONE) return 1;
    size_t size = fiddlefern_size(judged);
    uint8_t *stripe = (uint8_t *)malloc(size), *before = (uint8_t *)malloc(size);
    if (!stripe || !before) return 1;
    for (size_t k = 0; k < size; k++) stripe[k] = (uint8_t)(k % 251);
    if (fiddlefern_number(fiddlefern_encode(N, R, S, E, stripe, size)) != FIDDLEFERN_DONE) return 1;
    memcpy(before, stripe, size);

    /* Nothing is wrong; then one byte of X(2, 3), of H(1) and of U(4) is not what was written there. */
    size_t wrong[3] = {fiddlefern_element_start(N, R, S, E, 2, 3), fiddlefern_h_start(N, R, S, E, 1), fiddlefern_u_start(N, R, S, E, 4)};
    int number = scrub_and_mend(stripe, size);
    for (int k = 0; k < 3 && number == FIDDLEFERN_DONE; k++) {
        stripe[wrong[k] + 77] ^= 0x04;
        number = scrub_and_mend(stripe, size);
    }
    int same = memcmp(stripe, before, size) == 0;
    printf("%s: %s\n", fiddlefern_text(number), same ? "every byte is right again" : "bytes are wrong");
    free(stripe);
    free(before);
    return number == FIDDLEFERN_DONE && same ? 0 : 1;
}

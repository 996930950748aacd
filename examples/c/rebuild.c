/* Seven data strips and one of parity stand for eight disks. Two of them are lost, and rebuild gives back every byte.

       make lib
       gcc -std=c99 -Iinclude examples/c/rebuild.c target/staticlib/libfiddlefern.a -o target/rebuild && target/rebuild */
#include <stdio.h>
#include <stdlib.h>
#include <string.h>

#include "fiddlefern.h"

/* Seven data strips of five rows, shift 1, elements of 4096 bytes. */
enum { N = 7, R = 5, S = 1, E = 4096 };

/* Ends the program where a call is refused. The answer is more than its number, so the number is taken out of it. */
static uint64_t done(const char *call, uint64_t answer) {
    int number = fiddlefern_number(answer);
    if (number == FIDDLEFERN_DONE) return answer;
    fprintf(stderr, "%s: refused with %d\n", call, number);
    exit(1);
}

/* A strip is lost: whatever stands there now is not what it was. */
static void lose(uint8_t *stripe, size_t strip) {
    memset(stripe + fiddlefern_strip_start(N, R, S, E, strip), 0xFF, fiddlefern_strip_length(N, R, S, E, strip));
}

int main(void) {
    /* The shape says how large a stripe is. */
    size_t size = fiddlefern_size(done("judge", fiddlefern_judge(N, R, S, E)));
    uint8_t *stripe = (uint8_t *)calloc(size, 1), *before = (uint8_t *)malloc(size);
    if (!stripe || !before) return 1;

    /* The caller puts its data into the stripe; here every data element gets the number of its place. Parity is encode's. */
    for (size_t j = 0; j < N; j++)
        for (size_t i = 0; i < R; i++) memset(stripe + fiddlefern_element_start(N, R, S, E, i, j), (int)(10 * j + i + 1), E);
    done("encode", fiddlefern_encode(N, R, S, E, stripe, size));

    /* A short write keeps the stripe sound. */
    const uint8_t run[] = {'f', 'e', 'r', 'n'};
    done("write", fiddlefern_write(N, R, S, E, stripe, size, 2, 3, 100, run, sizeof run));
    memcpy(before, stripe, size);

    /* Strips 1 and 3 are lost, and the mask says so. */
    lose(stripe, 1);
    lose(stripe, 3);
    done("rebuild", fiddlefern_rebuild(N, R, S, E, stripe, size, fiddlefern_lost(1) | fiddlefern_lost(3)));

    /* What was written is there again, and so is every other byte. */
    size_t at = fiddlefern_offset(done("read", fiddlefern_read(N, R, S, E, stripe, size, 2, 3)));
    int same = memcmp(stripe + at + 100, run, sizeof run) == 0 && memcmp(stripe, before, size) == 0;
    printf("strips 1 and 3 of %lu bytes: %s\n", (unsigned long)size, same ? "given back" : "not given back");
    free(stripe);
    free(before);
    return same ? 0 : 1;
}

/* Prints the table of README.md: for each n the greatest r that judge accepts, at shift 1 and at shift 2, a dash where it accepts none. Judge is
   asked for every r. Ends with 1 where an r below the greatest is refused, so that "at most" is what the table says. */
#include <stdio.h>
#include <stdlib.h>

#include "fiddlefern.h"

enum { LEAST_N = 3, GREATEST_N = 32, GREATEST_R = 32, SIDE_BY_SIDE = 3 };

/* The greatest accepted r, or 0. The bytes of an element have no part in it. */
static size_t greatest(size_t n, size_t s) {
    size_t most = 0, accepted = 0;
    for (size_t r = 1; r <= GREATEST_R; r++) {
        int number = fiddlefern_number(fiddlefern_judge(n, r, s, 1));
        if (number == FIDDLEFERN_DONE) {
            most = r;
            accepted++;
        } else if (number != FIDDLEFERN_REFUSAL_WEAK) {
            fprintf(stderr, "n=%lu r=%lu s=%lu: judge answers %d\n", (unsigned long)n, (unsigned long)r, (unsigned long)s, number);
            exit(1);
        }
    }
    if (accepted != most) {
        fprintf(stderr, "n=%lu s=%lu: r = %lu is accepted, and not every smaller r\n", (unsigned long)n, (unsigned long)s, (unsigned long)most);
        exit(1);
    }
    return most;
}

static void cell(size_t r) {
    if (r) printf(" %lu |", (unsigned long)r);
    else printf(" - |");
}

/* Ten lines, three n on each. */
int main(void) {
    size_t lines = (GREATEST_N - LEAST_N + 1) / SIDE_BY_SIDE;
    for (int k = 0; k < SIDE_BY_SIDE; k++) printf("| n | s=1 | s=2 ");
    printf("|\n|");
    for (int k = 0; k < 3 * SIDE_BY_SIDE; k++) printf("---|");
    printf("\n");
    for (size_t line = 0; line < lines; line++) {
        printf("|");
        for (size_t n = LEAST_N + line; n <= GREATEST_N; n += lines) {
            printf(" **%lu** |", (unsigned long)n);
            cell(greatest(n, 1));
            cell(greatest(n, 2));
        }
        printf("\n");
    }
    return 0;
}

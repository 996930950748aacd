/* A fact that has to hold; the first twenty that do not are printed. */
#include <stdio.h>

/* How many facts did not hold: what main hands back. */
static int faults;

#define HOLDS(fact)                                                                                  \
    do {                                                                                             \
        if (!(fact) && faults++ < 20) fprintf(stderr, "%s:%d: not so: %s\n", __FILE__, __LINE__, #fact); \
    } while (0)

/* The sentence for each number, and for numbers that no call gives; and that header and archive are of one version. */
#include <limits.h>
#include <string.h>

#include "fiddlefern.h"
#include "holds.h"

/* What each sentence has to speak of. */
static const char *const about[] = {"done",   "data strips",   "rows",          "shift",         "element", "weak",
                                    "length", "above strip n", "more than two", "row or strip", "damaged"};
enum { NUMBERS = sizeof about / sizeof *about };

static void texts(void) {
    const char *none = fiddlefern_text(NUMBERS);
    static const int others[] = {NUMBERS, NUMBERS + 1, 255, 256, INT_MAX, -1, INT_MIN};
    for (size_t k = 0; k < sizeof others / sizeof *others; k++) HOLDS(strcmp(fiddlefern_text(others[k]), none) == 0);
    HOLDS(strstr(none, "no number of Fiddlefern"));
    for (int number = 0; number < NUMBERS; number++) {
        const char *text = fiddlefern_text(number);
        HOLDS(strstr(text, about[number]) && strcmp(text, none) != 0);
        for (int other = 0; other < number; other++) HOLDS(strcmp(text, fiddlefern_text(other)) != 0);
    }
}

/* The last number of the enumeration is the last one that has a sentence of its own. */
static void version(void) {
    HOLDS(FIDDLEFERN_REFUSAL_NO_SOUND == NUMBERS - 1);
    HOLDS(fiddlefern_version() == FIDDLEFERN_VERSION);
    HOLDS(FIDDLEFERN_VERSION >> 24 == 0);
}

int main(void) {
    texts();
    version();
    return faults != 0;
}

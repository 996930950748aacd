/* Says what rebuild must answer for every lost set of one and of two strips of every accepted shape with n up to 9, by Gaussian elimination
 * alone: how many sets come back, how many lines are to spare, and which damaged survivors still agree with a sound stripe.
 *
 * The columns of a set that comes back are independent, and a plan uses one line for each unknown; the lines that it leaves unused are as
 * many as there are lines less unknowns. A survivor changed by x adds x times its column to the equations' right sides, which were right:
 * so some sound stripe agrees with the changed survivors exactly where that column is a sum of the unknowns' columns. */
#include "columns.h"
#include <stdio.h>

enum { TRIED = 9 };

/* shapes accepted; sets of lost strips, and those that come back; lines unused, and sets with none (tight); surviving elements, those whose
 * damage is refused, those whose damage another sound stripe agrees with; sets where no damage is refused, and where all is. */
struct tally {
    long shapes, sets, back, unused, tight, survivors, refused, other, none, all;
};

/* Strips a and b of a shape lost, or one strip where they are the same. */
static void lose(struct tally *t, int n, int r, int s, int a, int b) {
    struct kept k;
    k.count = 0;
    struct strip lower = strip_of(n, r, s, a), upper = strip_of(n, r, s, b);
    int fails = dependent(&k, &lower) || (a != b && dependent(&k, &upper));
    int survivors = 0, refused = 0;
    for (int j = 0; j <= n; j++) {
        struct strip strip = strip_of(n, r, s, j);
        for (int u = 0; j != a && j != b && u < strip.count; u++) {
            survivors++;
            refused += rest_of(&k, strip.column[u]) != 0;
        }
    }
    t->sets++;
    t->back += !fails;
    t->unused += r + n - k.count;
    t->tight += r + n == k.count;
    t->survivors += survivors;
    t->refused += refused;
    t->other += survivors - refused;
    t->none += refused == 0;
    t->all += refused == survivors;
}

/* Every lost set of this many strips of every accepted shape of n. */
static void lose_all(struct tally *t, int lost, int n) {
    for (int r = 1; r <= GREATEST_R; r++) {
        for (int s = 1; s < n; s++) {
            if (first_failing(n, r, s).number != 0) {
                continue;
            }
            t->shapes++;
            for (int a = 0; a <= n; a++) {
                int last = lost == 1 ? a : n;
                for (int b = a + lost - 1; b <= last; b++) {
                    lose(t, n, r, s, a, b);
                }
            }
        }
    }
}

static void print(const struct tally *t) {
    printf(" shapes %ld sets %ld back %ld unused %ld tight %ld", t->shapes, t->sets, t->back, t->unused, t->tight);
    printf(" survivors %ld refused %ld other %ld none %ld all %ld\n", t->survivors, t->refused, t->other, t->none, t->all);
}

int main(void) {
    for (int lost = 1; lost <= 2; lost++) {
        struct tally whole = {0};
        for (int n = 3; n <= TRIED; n++) {
            struct tally t = {0};
            lose_all(&t, lost, n);
            lose_all(&whole, lost, n);
            printf("lost %d n %d", lost, n);
            print(&t);
        }
        printf("lost %d", lost);
        print(&whole);
    }
    return 0;
}

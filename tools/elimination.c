/* Says what judge must answer for all n, r, s of 0..33 at e = 1, by Gaussian elimination alone. */
#include "columns.h"
#include <stdio.h>

enum { TRIED = 33 };

/* The number that comes back for n, r, s and e = 1; e is never refused, so 4 never comes. */
static struct answer judge(int n, int r, int s) {
    if (n < 3 || n > GREATEST_N) {
        return (struct answer){1, 0, 0};
    }
    if (r < 1 || r > GREATEST_R) {
        return (struct answer){2, 0, 0};
    }
    if (s < 1 || s > n - 1) {
        return (struct answer){3, 0, 0};
    }
    return first_failing(n, r, s);
}

int main(void) {
    long given[6] = {0}, upper = 0, lower = 0;
    long good_at[TRIED + 1] = {0}, weak_at[TRIED + 1] = {0}, upper_at[TRIED + 1] = {0};
    for (int n = 0; n <= TRIED; n++) {
        for (int r = 0; r <= TRIED; r++) {
            for (int s = 0; s <= TRIED; s++) {
                struct answer t = judge(n, r, s);
                given[t.number]++;
                good_at[n] += t.number == 0;
                weak_at[n] += t.number == 5;
                upper_at[n] += t.upper;
                upper += t.upper;
                lower += t.lower;
            }
        }
    }
    for (int number = 0; number <= 5; number++) {
        printf("%d %ld\n", number, given[number]);
    }
    printf("upper %ld\nlower %ld\n", upper, lower);
    for (int n = 3; n <= GREATEST_N; n++) {
        printf("n %d good %ld weak %ld upper %ld\n", n, good_at[n], weak_at[n], upper_at[n]);
    }
    return 0;
}

/* Which lost strips can be given back, by Gaussian elimination alone: neither by the published bound nor by chains. It shares nothing with
 * the crates; what elimination.c and erasures.c print with it is kept in their .out files, and the crates are held to that.
 *
 * The elements of the lost strips are the unknowns, and the rows and the diagonals are the equations: each sums to zero. Every bit of a byte
 * is a system of its own, and all are the same, so one bit decides. There is a column for each unknown; it has a one at each equation that
 * the unknown stands in. */
#include <stdint.h>

enum { GREATEST_N = 32, GREATEST_R = 32 };

/* The columns of one strip. Bit i of a column is row i, and bit r + d is diagonal d. */
struct strip {
    int count;
    uint64_t column[GREATEST_R + 1];
};

static inline uint64_t row(int i) { return UINT64_C(1) << i; }

static inline uint64_t diagonal(int r, int d) { return UINT64_C(1) << (r + d); }

/* The diagonal of the place (i, j). */
static inline int diagonal_of(int n, int r, int s, int i, int j) {
    int d = (j + i - (r - 1) - s) % n;
    return d < 0 ? d + n : d;
}

/* Strip j: X(0, j) .. X(r-1, j) and U(j), or H(0) .. H(r-1) where j is n. */
static inline struct strip strip_of(int n, int r, int s, int j) {
    struct strip t = {0, {0}};
    for (int i = 0; i < r; i++) {
        t.column[t.count++] = j == n ? row(i) : row(i) | diagonal(r, diagonal_of(n, r, s, i, j));
    }
    if (j < n) {
        t.column[t.count++] = diagonal(r, j);
    }
    return t;
}

/* The columns that elimination has kept, and a bit of each that no later one has. */
struct kept {
    int count;
    uint64_t column[2 * (GREATEST_R + 1)];
    uint64_t lead[2 * (GREATEST_R + 1)];
};

/* What elimination leaves of a column: zero exactly where it is a sum of kept ones. */
static inline uint64_t rest_of(const struct kept *k, uint64_t column) {
    for (int m = 0; m < k->count; m++) {
        if (column & k->lead[m]) {
            column ^= k->column[m];
        }
    }
    return column;
}

/* Takes in the columns of a strip; answers 1 as soon as one is a sum of others, and 0 if none is. */
static inline int dependent(struct kept *k, const struct strip *t) {
    for (int u = 0; u < t->count; u++) {
        uint64_t rest = rest_of(k, t->column[u]);
        if (rest == 0) {
            return 1;
        }
        k->column[k->count] = rest;
        k->lead[k->count++] = rest & (~rest + 1);
    }
    return 0;
}

struct answer {
    int number, lower, upper;
};

/* 5 with the first failing pair by lower, then by upper strip, or 0 if no pair fails. A pair fails when two different sound stripes agree
 * outside it, that is, when some sound stripe is zero outside the pair and not zero; that is, when the columns are dependent. */
static inline struct answer first_failing(int n, int r, int s) {
    struct strip strips[GREATEST_N + 1];
    for (int j = 0; j <= n; j++) {
        strips[j] = strip_of(n, r, s, j);
    }
    for (int a = 0; a < n; a++) {
        for (int b = a + 1; b <= n; b++) {
            struct kept k;
            k.count = 0;
            if (dependent(&k, &strips[a]) || dependent(&k, &strips[b])) {
                return (struct answer){5, a, b};
            }
        }
    }
    return (struct answer){0, 0, 0};
}

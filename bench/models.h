/* Models of constraints of any sorts, each true of the values: what bench/worst.c and bench/stack.c call the calls with. */
#include "../include/pearrummy.h"
#include <string.h>

enum { MODEL = PEARRUMMY_MODEL_WORDS };

static uint32_t words[MODEL + 100]; /* a constraint too many may begin */
static int32_t values[PEARRUMMY_VARIABLES + 100];
static size_t length, variables;

/* A, B, their sum, product and maximum, the absolute value of A, 0 or 1, true, false and a variable of 64 values; after them one of 64 values for each constraint that has its own. */
enum { A, B, SUM, PRODUCT, ABS, MAX, ONE, T, F, SHARED, VARIABLES };
static const int32_t lowest[] = {-5, -5, -10, -25, 0, -5, 0, 0, 0, 1}, highest[] = {5, 5, 10, 25, 5, 5, 1, 1, 1, 64}, value_of[] = {3, 2, 5, 6, 3, 3, 1, 1, 0, 1};

/* Constraints of a builtin whose lists have n elements, or whose exponent is n; each that chooses by a variable chooses by the same one, or by its own; the
 * numbers of a set fall to 1, or all but 1 are none of the variable's values. */
struct sort {
    int code, n, own, outside;
};
struct part {
    struct sort sort;
    int count;
};

static inline int has_list(int code) { return (code >= 10 && code <= 13) || code == 15 || (code >= 21 && code <= 28) || code == 32 || code == 33; }
static inline int chooses(int code) { return code == 24 || code == 25 || code == 27 || code == 28; }

static inline void put(uint32_t kind, int32_t payload) { words[length++] = kind << 28 | ((uint32_t)payload & 0xFFFFFFF); }
static inline void number(int32_t v) { put(6, v); }
static inline void variable(int x) { put(5, x); }
static inline void three(int x, int y, int z) {
    variable(x);
    variable(y);
    if (z >= 0) variable(z);
}

/* A list of one variable, the last element another one. */
static inline void list(int n, int most, int last) {
    number(n);
    for (int k = 0; k < n; k++) variable(k < n - 1 ? most : last);
}

static inline void terms(int n, int more) {
    int sum = 0;
    number(n);
    for (int k = 0; k < n; k++) number(k % 5 - 2);
    for (int k = 0; k < n; k++) {
        variable(k % ONE);
        sum += (k % 5 - 2) * value_of[k % ONE];
    }
    number(sum + more);
}

/* Numbers of which the last one is 1, which is the value of each variable of 64 values. */
static inline void members(int n, int outside) {
    number(n);
    for (int k = n; k > 0; k--) number(k > 1 && outside ? 100 + k : k);
}

/* A constraint that is true of the values, as late in its lists as can be; x is what it chooses by. */
static inline void constraint(struct sort s, int x) {
    int n = s.n;
    put(4, s.code);
    switch (s.code) {
    case 1: three(A, A, -1); break;
    case 2: case 3: three(B, A, -1); break;
    case 4: three(A, B, -1); break;
    case 5: case 14: three(A, B, F); break;
    case 6: three(A, B, SUM); break;
    case 7: three(A, B, PRODUCT); break;
    case 8: three(A, ABS, -1); break;
    case 9: three(A, B, MAX); break;
    case 10: terms(n, 0); break;
    case 11: terms(n, 1); break;
    case 12: terms(n, -1); break;
    case 13: terms(n, 0); variable(T); break;
    case 15: terms(n, -1); variable(F); break;
    case 16: three(T, ONE, -1); break;
    case 17: three(T, F, -1); break;
    case 18: three(T, F, F); break;
    case 19: case 20: three(T, F, T); break;
    case 21: list(n, F, F); list(n, T, F); break;
    case 22: list(n, T, T); variable(T); break;
    case 23: list(n, F, T); break;
    case 24:
        variable(x);
        number(n);
        for (int k = 0; k < n; k++) number(value_of[SUM] + k);
        variable(SUM);
        break;
    case 25: variable(x); list(n, SUM, SUM); variable(SUM); break;
    case 26: variable(MAX); list(n, B, A); break;
    case 27: variable(x); members(n, s.outside); break;
    case 28: variable(x); members(n, s.outside); variable(T); break;
    case 29: three(A, B, B); break;
    case 30: case 31: three(B, A, T); break;
    case 32: terms(n, 1); variable(T); break;
    case 33: variable(B); list(n, A, B); break;
    case 34: three(T, F, F); break;
    case 35: case 36: three(F, T, T); break;
    case 37: three(PRODUCT, A, B); break;
    case 38: three(SUM, A, B); break;
    case 39: variable(ONE); number(n); variable(ONE); break;
    }
}

/* A model of constraints of some sorts, so many sorts. */
static inline void make_model(const struct part *parts, int sorts) {
    int own = 0, next = VARIABLES;
    for (int p = 0; p < sorts; p++) own += parts[p].sort.own * parts[p].count;
    length = 0;
    variables = VARIABLES + own;
    for (int x = 0; x < VARIABLES + own; x++) {
        values[x] = x < VARIABLES ? value_of[x] : 1;
        if (x == T || x == F) {
            put(3, 0);
        } else {
            put(1, x < VARIABLES ? lowest[x] : 1);
            put(2, x < VARIABLES ? highest[x] : 64);
        }
    }
    for (int p = 0; p < sorts; p++)
        for (int k = 0; k < parts[p].count && length < MODEL; k++) constraint(parts[p].sort, parts[p].sort.own ? next++ : SHARED);
    put(7, 0);
}

/* The model as the second candidate's of a pair, whose first one wrote nothing; the number of its words. */
static inline size_t make_pair(uint32_t *pair) {
    size_t table = 0;
    while (words[table] >> 28 < 4) table++;
    memcpy(pair, words, table * sizeof *pair);
    pair[table] = 0xD0000000;
    memcpy(pair + table + 1, words + table, (length - table) * sizeof *pair);
    return length + 1;
}

static inline void make_bytes(uint8_t *bytes) {
    for (size_t k = 0; k < 4 * length; k++) bytes[k] = words[k / 4] >> 8 * (k % 4);
}

/* The slowest input that was found of each call, as a table: `make worst`. Models of each builtin alone, with lists of several lengths, and of each two of
 * those that take longest are tried, then row systems of each length of rows, models whose value lists are all solutions, and texts; of each call the slowest is
 * measured again, and beside it one of half its size. Every answer is "accepted" or "holds", so that every word is worked on, but for texts with more names
 * than a model can have. Times are processor time of one call, the best of some rounds. */
#include "models.h"
#include <stdio.h>
#include <stdlib.h>
#include <time.h>

enum { ROWS = PEARRUMMY_ROW_WORDS, IN_ALL = PEARRUMMY_VALUES, LISTS = PEARRUMMY_LISTED_LISTS, LISTED = PEARRUMMY_LISTED_VARIABLES };
enum { TEXT = 16 << 20, FIRST = 1000000, ROUNDS = 5, BEST = 6, PARTS = 2 };

static uint32_t pair[FIRST + MODEL + 101], rows[ROWS], form[PEARRUMMY_FORM_WORDS];
static int32_t filled[IN_ALL], listed[LISTS * LISTED];
static uint8_t bytes[4 * MODEL + 400], page[81 * ROWS], text[TEXT];
static size_t row_words, row_values, pair_words, text_bytes, room;

static double now(void) {
    struct timespec t;
    clock_gettime(CLOCK_PROCESS_CPUTIME_ID, &t);
    return t.tv_sec + t.tv_nsec * 1e-9;
}

static void stop(const char *what) {
    fprintf(stderr, "worst: %s is not accepted\n", what);
    exit(1);
}

/* The time of one call: the best of rounds, each of a few milliseconds, or of one call that takes longer than a second. */
static double best_time(const char *name, int (*call)(void), int rounds) {
    double best = 0;
    for (int round = 0, repeats = 1; round < rounds;) {
        double begun = now();
        for (int k = 0; k < repeats; k++)
            if (!call()) stop(name);
        double each = (now() - begun) / repeats;
        if (each * repeats < 0.002) {
            repeats *= 2;
            continue;
        }
        if (round++ == 0 || each < best) best = each;
        if (each > 1) return best;
    }
    return best;
}

/* ---- Models */

static const char *const builtins[] = {"", "int_eq", "int_le", "int_lt", "int_ne", "int_le_reif", "int_plus", "int_times", "int_abs", "int_max", "int_lin_eq", "int_lin_le",
    "int_lin_ne", "int_lin_eq_reif", "int_eq_reif", "int_lin_le_reif", "bool2int", "bool_not", "bool_and", "bool_or", "bool_xor", "bool_clause", "array_bool_and",
    "array_bool_xor", "array_int_element", "array_var_int_element", "array_int_maximum", "set_in", "set_in_reif", "int_min", "int_lt_reif", "int_ne_reif", "int_lin_ne_reif",
    "array_int_minimum", "bool_eq_reif", "bool_le_reif", "bool_lt_reif", "int_div", "int_mod", "int_pow"};

static void make(const struct part *parts) {
    make_model(parts, PARTS);
    pair_words = make_pair(pair);
    make_bytes(bytes);
}

static int check(void) { return pearrummy_check(words, length).fault == 0; }
static int check_bytes(void) { return pearrummy_check_bytes(bytes, 4 * length) == 0; }
static int translate(void) { return pearrummy_translate(words, length, rows, ROWS).fault == 0; }
static int judge_model(void) { return pearrummy_judge_model(words, length, values, variables).said == PEARRUMMY_HOLDS; }
static int fill(void) { return pearrummy_fill(words, length, values, variables, filled, IN_ALL).said == PEARRUMMY_HOLDS; }
static int reason(void) { return pearrummy_reason(words, length, filled, row_values).reason == PEARRUMMY_NO_ROW_FAILS; }
static int pair_check(void) { return pearrummy_pair_check(pair, pair_words, 2).fault == 0; }
static int pair_translate(void) { return pearrummy_pair_translate(pair, pair_words, 2, rows, ROWS).fault == 0; }
static int pair_judge_model(void) { return pearrummy_pair_judge_model(pair, pair_words, 2, values, variables).said == PEARRUMMY_HOLDS; }
static int pair_fill(void) { return pearrummy_pair_fill(pair, pair_words, 2, values, variables, filled, IN_ALL).said == PEARRUMMY_HOLDS; }

static const struct {
    const char *name;
    int (*call)(void);
} calls[] = {{"check", check}, {"check over bytes", check_bytes}, {"translate", translate}, {"judge-model", judge_model}, {"fill", fill}, {"reason", reason},
             {"pair_check", pair_check}, {"pair_translate", pair_translate}, {"pair_judge_model", pair_judge_model}, {"pair_fill", pair_fill}};
enum { CALLS = sizeof calls / sizeof *calls, TRIED = 6 }; /* a pair's call is slow where its model's is */

/* What is wanted of a model beside its words: what fill writes, and how many values that is. */
static void prepare(void) {
    struct pearrummy_counts counts = pearrummy_check(words, length);
    row_values = counts.variables + counts.auxiliaries;
    if (!fill()) stop("a model");
}

/* The most constraints of the last part that a model takes after those of the first one. */
static int most_of(struct part *parts, int which) {
    for (parts[which].count = PEARRUMMY_CONSTRAINTS; parts[which].count > 0; parts[which].count--) {
        make(parts);
        if (length <= MODEL && check()) break;
    }
    return parts[which].count;
}

static struct slow {
    struct part parts[PARTS];
    double time;
} worst[TRIED], best[TRIED][BEST]; /* the slowest of each call, and those of one sort that take longest for each word */

static void keep(struct slow *kept, const struct part *parts, double time) {
    if (time <= kept->time) return;
    memcpy(kept->parts, parts, sizeof kept->parts);
    kept->time = time;
}

/* The place of a sort among the slowest of a call: that of its builtin, or of the least slow one. */
static struct slow *place_of(struct slow *list, struct sort s) {
    struct slow *least = list;
    for (int k = 0; k < BEST; k++) {
        struct sort other = list[k].parts->sort;
        if (other.code == s.code && other.own == s.own && other.outside == s.outside) return &list[k];
        if (list[k].time < least->time) least = &list[k];
    }
    return least;
}

static void try_model(const struct part *parts) {
    make(parts);
    prepare();
    for (int c = 0; c < TRIED; c++) {
        double time = best_time(calls[c].name, calls[c].call, 3);
        keep(&worst[c], parts, time);
        if (!parts[1].count) keep(place_of(best[c], parts->sort), parts, time / length);
    }
}

static void try_models(void) {
    static const int lengths[] = {1, 4, 8, 16, 24, 27, 28, 29, 30, 31, 32};
    for (int code = 1; code <= PEARRUMMY_CODES; code++)
        for (int flags = 0; flags <= (chooses(code) ? (code < 27 ? 1 : 3) : 0); flags++)
            for (size_t k = 0; k < sizeof lengths / sizeof *lengths; k++) {
                if ((k > 0 && !has_list(code) && code != 39) || (code == 39 && lengths[k] > PEARRUMMY_EXPONENT)) continue;
                struct part parts[PARTS] = {{{code, lengths[k], flags & 1, flags >> 1}, 0}};
                if (most_of(parts, 0)) try_model(parts);
            }
    for (int c = 0; c < TRIED; c++)
        for (int pair = 0; pair < BEST * BEST; pair++) {
            struct part parts[PARTS] = {best[c][pair / BEST].parts[0], best[c][pair % BEST].parts[0]};
            if (pair / BEST != pair % BEST && most_of(parts, 1)) try_model(parts);
        }
}

static void describe(const struct part *parts) {
    for (int p = 0; p < PARTS && parts[p].count; p++) {
        struct sort s = parts[p].sort;
        printf("%s%d %s", p ? ", " : "", parts[p].count, builtins[s.code]);
        if (has_list(s.code)) printf(" with lists of %d", s.n);
        if (s.code == 39) printf(" with exponent %d", s.n);
        if (s.outside) printf(", the values outside the set but one");
        if (chooses(s.code)) printf(s.own ? ", each over its own variable of 64 values" : ", all over one variable of 64 values");
    }
}

static void print_time(double time) {
    if (time < 1e-3) printf("%.0f µs", time * 1e6);
    else if (time < 1) printf("%.2f ms", time * 1e3);
    else printf("%.1f s", time);
}

static void print_line(const char *unit, size_t size, double time, double half) {
    printf(" | %zu %s | ", size, unit);
    print_time(time);
    printf(" | %.1f |\n", time / half);
}

static void print_models(void) {
    for (int c = 0; c < CALLS; c++) {
        static const int of_model[CALLS] = {0, 1, 2, 3, 4, 5, 0, 2, 3, 4};
        struct part parts[PARTS], halves[PARTS];
        memcpy(parts, worst[of_model[c]].parts, sizeof parts);
        memcpy(halves, parts, sizeof parts);
        for (int p = 0; p < PARTS; p++) halves[p].count = parts[p].count / 2;
        make(halves);
        prepare();
        double half = best_time(calls[c].name, calls[c].call, ROUNDS);
        make(parts);
        prepare();
        double time = best_time(calls[c].name, calls[c].call, ROUNDS);
        printf("| %s | ", calls[c].name);
        describe(parts);
        print_line("words", c < TRIED ? length : pair_words, time, half);
    }
}

/* A pair whose first candidate wrote so many words, and whose second wrote nothing. */
static void print_long_pair(void) {
    double times[2];
    for (int k = 0; k < 2; k++) {
        pair_words = FIRST / 2 * (k + 1);
        memset(pair, 0, pair_words * sizeof *pair);
        pair[0] = 0x30000000;
        for (size_t at = 1; at < pair_words - 2; at++) pair[at] = 0x40000000;
        pair[pair_words - 2] = 0xD0000000;
        pair[pair_words - 1] = 0x70000000;
        times[k] = best_time("pair_check", pair_check, ROUNDS);
    }
    printf("| pair_check | a first candidate that wrote the rest");
    print_line("words", pair_words, times[1], times[0]);
}

/* ---- Row systems */

static int judge_rows(void) { return pearrummy_judge_rows(rows, row_words, filled, row_values).said == PEARRUMMY_HOLDS; }
static int sheet(void) { return pearrummy_sheet(rows, row_words, page, sizeof page).fault == 0; }
static int bits(void) { return pearrummy_bits(rows, row_words, form, PEARRUMMY_FORM_WORDS).fault == 0; }

/* A row system of at most so many words over 17 Boolean variables that are 0: rows of n terms, or products for n below 0. The numbers are 1, or as long as can be. */
static void make_rows(size_t total, int n, int equal, int far) {
    size_t at = 0, each = n < 0 ? 4 : 2 * n + 2;
    while (at < 17) rows[at++] = 0x30000000;
    while (at + each + 1 <= total) {
        if (n < 0) {
            rows[at++] = 0xC0000000;
            for (uint32_t k = 0; k < 3; k++) rows[at++] = 0x50000000 + 16 - 8 * k;
            continue;
        }
        rows[at++] = (equal ? 0xB0000000 : 0xA0000000) + n;
        for (int k = 0; k < n; k++) {
            rows[at++] = 0x50000000 + k % 16;
            rows[at++] = far ? 0x68000001 : 0x60000001;
        }
        rows[at++] = far && !equal ? 0x68000001 : 0x60000000;
    }
    rows[at++] = 0xF0000000;
    row_words = at;
    row_values = 17;
    memset(filled, 0, sizeof filled);
}

static void print_rows(const char *name, int (*call)(void)) {
    static const int lengths[] = {-1, 0, 1, 2, 3, 4, 6, 8, 12, 16, 24, 32, 48, 66};
    double worst_time = 0;
    int n = 0, equal = 0, far = 0;
    for (size_t k = 0; k < sizeof lengths / sizeof *lengths; k++)
        for (int flags = 0; flags < (lengths[k] < 0 ? 1 : 4); flags++) {
            make_rows(ROWS, lengths[k], flags & 1, flags >> 1);
            double time = best_time(name, call, 2);
            if (time > worst_time) {
                worst_time = time;
                n = lengths[k];
                equal = flags & 1;
                far = flags >> 1;
            }
        }
    make_rows(ROWS / 2, n, equal, far);
    double half = best_time(name, call, ROUNDS);
    make_rows(ROWS, n, equal, far);
    double time = best_time(name, call, ROUNDS);
    printf("| %s | ", name);
    if (n < 0) printf("products");
    else printf("rows %s 0 of %d terms, %s", equal ? "=" : "≤", n, far ? "all numbers of nine digits" : "all numbers 1");
    print_line("words", row_words, time, half);
}

/* Row systems over few bits: rows of 66 terms over 128 variables of 8 bits, with 1 and −1; rows of 66 terms in which 33 of 36 variables of 28 bits stand once
 * with 1 and once with −1; rows of 66 terms over variables of one value; products of a variable of one value and one of 28 bits. */
enum { CROSSING, CANCELLING, FORM_SORTS, OF_ONE_VALUE = FORM_SORTS, PRODUCTS, BIT_SORTS }; /* a form has no numbers as large as those of the products */
static const char *const bit_sorts[] = {"rows = 0 of 66 terms over 128 variables of 8 bits", "rows = 0 of 66 terms that cancel each other, 33 of 36 variables of 28 bits once with 1 and once with −1", "rows ≤ 0 of 66 terms over variables of one value",
    "products of a variable of one value and one of 28 bits"};

static size_t bit_count;
static uint8_t bit_list[PEARRUMMY_BITS];

static int bit_values(void) { return pearrummy_bit_values(rows, row_words, bit_list, bit_count, filled, IN_ALL).fault == 0; }
static int bit_energy(void) { return pearrummy_bit_energy(rows, row_words, bit_list, bit_count).fault == 0; }
static int value_bits(void) { return pearrummy_value_bits(rows, row_words, filled, row_values, bit_list, PEARRUMMY_BITS).said == PEARRUMMY_HOLDS; }
static int best_bits(void) { return pearrummy_best_bits(rows, row_words, row_values - 1, PEARRUMMY_LEAST, form, PEARRUMMY_FORM_WORDS).fault == 0; }

static size_t put_bounds(size_t at, int32_t lower, int32_t upper) {
    rows[at] = 0x10000000 | ((uint32_t)lower & 0xFFFFFFF);
    rows[at + 1] = 0x20000000 | ((uint32_t)upper & 0xFFFFFFF);
    return at + 2;
}

static void make_bit_rows(size_t total, int sort) {
    static const size_t variables_of[] = {128, 36, 36, 3}, bits_of[] = {1024, 36 * 28, 0, 56};
    size_t at = 0, each = sort == PRODUCTS ? 4 : 134;
    row_values = variables_of[sort] + 1; /* the last one has one value, so that a best solution of it takes the form once */
    bit_count = bits_of[sort];
    for (size_t x = 0; x < row_values; x++) {
        int32_t far = x + 1 < row_values && (sort == CANCELLING || (sort == PRODUCTS && x > 0)) ? PEARRUMMY_HIGHEST : 0;
        at = put_bounds(at, -far, sort == CROSSING && x + 1 < row_values ? 255 : far);
    }
    for (uint32_t r = 0; at + each + 1 <= total; r++) {
        if (sort == PRODUCTS) {
            rows[at++] = 0xC0000000;
            for (uint32_t k = 2; k < 5; k++) rows[at++] = 0x50000000 + k % 3;
            continue;
        }
        rows[at++] = (sort == OF_ONE_VALUE ? 0xA0000000 : 0xB0000000) + 66;
        for (uint32_t k = 0; k < 66; k++) {
            uint32_t sign = sort == CROSSING ? (r * 2654435769 ^ k * 2246822519) * 3266489917 >> 31 : k % 2;
            rows[at++] = 0x50000000 + (sort == CROSSING ? (7 * r + k) % 128 : (r + k / 2) % 36);
            rows[at++] = sign ? 0x6FFFFFFF : 0x60000001;
        }
        rows[at++] = 0x60000000;
    }
    rows[at++] = 0xF0000000;
    row_words = at;
    memset(filled, 0, sizeof filled);
    if (!value_bits()) stop("a row system");
}

static void print_bits(const char *name, int (*call)(void), int sorts) {
    double worst_time = 0;
    int slowest = 0;
    for (int sort = 0; sort < sorts; sort++) {
        make_bit_rows(ROWS, sort);
        double time = best_time(name, call, 2);
        if (time > worst_time) {
            worst_time = time;
            slowest = sort;
        }
    }
    make_bit_rows(ROWS / 2, slowest);
    double half = best_time(name, call, 2);
    make_bit_rows(ROWS, slowest);
    double time = best_time(name, call, 2);
    printf("| %s | %s", name, bit_sorts[slowest]);
    print_line("words", row_words, time, half);
}

/* ---- Solutions */

static int solutions(void) { return pearrummy_solutions(words, length, listed, room).fault == 0; }

/* A model of 65,536 value lists and at most so many words, whose constraints are true of all, but for one that is false of the last list: the list has room for
 * the others alone, so that each is judged twice. Variable 0 has 2 values, variable 1 has 8, the others 4. */
static void make_solutions(size_t total, int code, int n) {
    length = 0;
    for (int x = 0; x < LISTED; x++) {
        put(1, 0);
        put(2, x == 0 ? 1 : x == 1 ? 7 : 3);
    }
    for (int k = 0; k < PEARRUMMY_CONSTRAINTS - 1 && length + 2 * n + 5 + 21 <= total; k++) {
        put(4, code);
        switch (code) {
        case 11: case 12:
            number(n);
            for (int t = 0; t < n; t++) number(t % 5 - 2);
            for (int t = 0; t < n; t++) variable(t % LISTED);
            number(1000);
            break;
        case 27:
            variable(2);
            number(n);
            for (int t = n; t > 0; t--) number(t <= 4 ? t - 1 : 100 + t);
            break;
        case 39: variable(0); number(PEARRUMMY_EXPONENT); variable(0); break;
        }
    }
    put(4, 12);
    number(LISTED);
    for (int t = 0; t < LISTED; t++) number(1);
    for (int t = 0; t < LISTED; t++) variable(t);
    number(26);
    put(7, 0);
    room = (LISTS - 1) * LISTED;
}

static void print_solutions(void) {
    static const struct sort sorts[] = {{11, 32, 0, 0}, {11, 14, 0, 0}, {12, 32, 0, 0}, {12, 14, 0, 0}, {27, 28, 0, 0}, {27, 32, 0, 0}, {39, 0, 0, 0}};
    double worst_time = 0;
    struct sort slowest = sorts[0];
    for (size_t k = 0; k < sizeof sorts / sizeof *sorts; k++) {
        make_solutions(MODEL, sorts[k].code, sorts[k].n);
        double time = best_time("solutions", solutions, 1);
        if (time > worst_time) {
            worst_time = time;
            slowest = sorts[k];
        }
    }
    make_solutions(MODEL / 2, slowest.code, slowest.n);
    double half = best_time("solutions", solutions, 2);
    make_solutions(MODEL, slowest.code, slowest.n);
    double time = best_time("solutions", solutions, 2);
    printf("| solutions | 65,536 value lists, %s with lists of %d, true of all but the last list, for which there is no room", builtins[slowest.code], slowest.n);
    print_line("words", length, time, half);
}

/* ---- Texts */

static int read_text(void) { return pearrummy_text(text, text_bytes, words, MODEL).fault <= 1; }

static void put_text(const char *more, size_t count) {
    memcpy(text + text_bytes, more, count);
    text_bytes += count;
}

static const char letters[] = "abcdefghijklmnopqrstuvwxyzABCDEFGHIJKLMNOPQRSTUVWXYZ0123456789_";

/* The k-th name in order, the shorter ones first. */
static size_t name_in_order(char *name, size_t k) {
    size_t size = 1, count = 52;
    for (; k >= count; size++) {
        k -= count;
        count *= 63;
    }
    for (size_t at = size; at-- > 1; k /= 63) name[at] = letters[k % 63];
    name[0] = letters[k];
    return size;
}

/* The k-th name of 32 bytes of one hash: crates/symbols/specs/Links.antt multiplies by 257, and five bytes that change by 1, −4, 6, −4, 1 keep the sum. */
static size_t name_of_one_hash(char *name, size_t k) {
    static const int change[] = {1, -4, 6, -4, 1};
    memset(name, 'a', 2);
    for (size_t at = 27, block = 0; block < 6; block++, at -= 5, k /= 5)
        for (size_t b = 0; b < 5; b++) name[at + b] = "auaua"[b] + (int)(k % 5) * change[b];
    return 32;
}

/* Declarations, and uses of them in turn up to the end: none for count = 0, which declares up to the end. */
static void make_text(size_t total, size_t count, size_t (*name_of)(char *, size_t)) {
    char name[40];
    text_bytes = 0;
    size_t declared = 0;
    for (; count ? declared < count : text_bytes + 60 < total; declared++) {
        put_text("var bool:", 9);
        put_text(name, name_of(name, declared));
        put_text(";", 1);
    }
    if (count) {
        put_text("constraint array_bool_xor([", 27);
        for (size_t k = 0; text_bytes + 60 < total; k++) {
            if (k) put_text(",", 1);
            put_text(name, name_of(name, declared - 1 - k % declared));
        }
        put_text("]);", 3);
    }
    put_text("solve satisfy;", 14);
}

static void print_text(const char *what, size_t total, size_t count, size_t half_count, size_t (*name_of)(char *, size_t)) {
    make_text(total / 2, half_count, name_of);
    double half = best_time(what, read_text, 2);
    make_text(total, count, name_of);
    double time = best_time(what, read_text, 2);
    printf("| text | %s", what);
    print_line("bytes", text_bytes, time, half);
}

int main(void) {
    printf("| Call | The worst that was found | Size | Time | Times that of half the size |\n|---|---|---|---|---|\n");
    try_models();
    print_models();
    print_long_pair();
    print_rows("judge-rows", judge_rows);
    print_rows("sheet", sheet);
    print_solutions();
    print_text("8,191 names, used in turn", 1 << 20, 8191, 8191, name_in_order);
    print_text("8,191 names of 32 bytes and of one hash, used in turn", 1 << 20, 8191, 8191, name_of_one_hash);
    print_text("declarations of the shortest names", 1 << 20, 0, 0, name_in_order);
    print_text("declarations of the shortest names", 4 << 20, 0, 0, name_in_order);
    print_text("declarations of the shortest names", 16 << 20, 0, 0, name_in_order);
    print_text("60,000 names, used in turn; half of them", 2 << 20, 60000, 30000, name_in_order);
    print_bits("bit_values", bit_values, BIT_SORTS);
    print_bits("bit_energy", bit_energy, BIT_SORTS);
    print_bits("value_bits", value_bits, BIT_SORTS);
    print_bits("bits", bits, FORM_SORTS);
    print_bits("best_bits", best_bits, FORM_SORTS);
    return 0;
}

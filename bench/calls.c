/* How long the calls take, as tables: `make bench`; with the argument `stack`, how many bytes of stack each takes. Every answer is "accepted" or "holds", so that every word is worked on; the program exits with 1 if one is not. */
#include "../include/pearrummy.h"
#include <stdio.h>
#include <stdlib.h>
#include <string.h>
#include <time.h>
#include <ucontext.h>

enum { MODEL = 8192, ROWS = 262144, IN_ALL = 4096, LISTS = 65536, LISTED = 8, FORM = 524288, FEW_ROWS = 1024, MIXED_VALUES = 3, MIXED_BITS = 37, LONG_TEXT = 65536, ROUNDS = 9 };

static uint32_t words[MODEL + 68], rows[ROWS]; /* a constraint that does not fit is put and taken back */
static uint8_t bytes[4 * MODEL], page[81 * ROWS]; /* no row system prints more than a line for each of its words */
static int32_t filled[IN_ALL], listed[LISTS * LISTED];
static uint32_t pair[MODEL + 69], form[FORM];
static size_t length, row_words, row_values, room, text_bytes;

/* ---- A model over nine variables: I an index, A, B, their sum, product and maximum, the absolute value of A, true and false. */

enum { I, A, B, SUM, PRODUCT, ABS, MAX, T, F, VARIABLES };
static const int32_t lowest[] = {1, -5, -5, -10, -25, 0, -5}, highest[] = {32, 5, 5, 10, 25, 5, 5};
static const int32_t values[] = {1, 3, 2, 5, 6, 3, 3, 1, 0};

static void put(uint32_t kind, int32_t payload) { words[length++] = kind << 28 | ((uint32_t)payload & 0xFFFFFFF); }
static void number(int32_t v) { put(6, v); }
static void variable(int x) { put(5, x); }
static void two(int x, int y) {
    variable(x);
    variable(y);
}
static void three(int x, int y, int z) {
    two(x, y);
    variable(z);
}

/* A sum of n terms over the integer variables, and its constant: what it is of the values, and `more`. */
static void terms(int n, int more) {
    int sum = 0;
    number(n);
    for (int k = 0; k < n; k++) number(k % 5 - 2);
    for (int k = 0; k < n; k++) variable(k % T);
    for (int k = 0; k < n; k++) sum += (k % 5 - 2) * values[k % T];
    number(sum + more);
}

/* A list of variables: the first, and then two others in turn. */
static void list(int n, int first, int second, int third) {
    number(n);
    for (int k = 0; k < n; k++) variable(k == 0 ? first : k % 2 ? second : third);
}

/* A list of numbers that falls. */
static void numbers(int n, int first) {
    number(n);
    for (int k = 0; k < n; k++) number(first - k);
}

/* A constraint that is true of the values; its lists have n elements. */
static void constraint(int code, int n) {
    put(4, code);
    switch (code) {
    case 1: two(A, A); break;
    case 2: case 3: two(B, A); break;
    case 4: two(A, B); break;
    case 5: case 14: three(A, B, F); break;
    case 6: three(A, B, SUM); break;
    case 7: three(A, B, PRODUCT); break;
    case 8: two(A, ABS); break;
    case 9: three(A, B, MAX); break;
    case 10: terms(n, 0); break;
    case 11: terms(n, 1); break;
    case 12: terms(n, -1); break;
    case 13: terms(n, 0); variable(T); break;
    case 15: terms(n, -1); variable(F); break;
    case 16: two(T, I); break;
    case 17: two(T, F); break;
    case 18: three(T, F, F); break;
    case 19: case 20: three(T, F, T); break;
    case 21: list(n, T, F, T); list(n, T, F, T); break;
    case 22: list(n, T, F, T); variable(F); break;
    case 23: list(n, T, F, F); break;
    case 24: variable(I); numbers(n, values[SUM]); variable(SUM); break;
    case 25: variable(I); list(n, SUM, A, B); variable(SUM); break;
    case 26: variable(MAX); list(n, A, B, A); break;
    case 27: variable(A); numbers(n, values[A]); break;
    case 28: variable(A); numbers(n, values[A]); variable(T); break;
    case 29: three(A, B, B); break;
    case 30: three(B, A, T); break;
    case 31: three(A, B, T); break;
    case 32: terms(n, 1); variable(T); break;
    case 33: variable(B); list(n, B, A, A); break;
    case 34: three(T, F, F); break;
    case 35: case 36: three(F, T, T); break;
    case 37: three(PRODUCT, A, B); break;
    case 38: three(SUM, A, B); break;
    case 39: variable(I); number(5); variable(I); break;
    }
}

/* Puts a constraint if it fits and leaves no words, or the four that the shortest true clause needs. */
static void put_if(int code, int n, size_t total) {
    size_t before = length;
    constraint(code, n);
    if (length + 1 != total && length + 5 > total) length = before;
}

/* A model of `total` words. Its constraints go round the 39 builtins, in two of three rounds only round those with lists, which have n elements.
 * What does not fit is left out; words that are left at the end are a clause. */
static void make_model(size_t total, int n) {
    static const int round[] = {4, 12, 7, 26, 8, 28, 5, 13, 9, 24, 14, 10, 20, 15, 1, 11, 2, 22, 3, 23, 6, 25, 16, 27, 17, 21, 18, 19, 29, 32, 30, 33, 31, 34, 35, 36, 37, 38, 39};
    enum { CODES = sizeof round / sizeof *round };
    length = 0;
    for (int x = I; x < T; x++) {
        put(1, lowest[x]);
        put(2, highest[x]);
    }
    put(3, 0);
    put(3, 0);
    for (int k = 0; length + 1 + 67 < total || k < CODES; k++) {
        int code = round[k % CODES];
        int with_list = (code >= 10 && code <= 15 && code != 14) || (code >= 21 && code <= 28) || code == 32 || code == 33;
        if (with_list || k / CODES % 3 == 0) put_if(code, n, total);
    }
    if (length + 1 < total) {
        int left = total - length - 4;
        put(4, 21);
        list((left + 1) / 2, T, F, T);
        list(left / 2, F, T, T);
    }
    put(7, 0);
    for (size_t k = 0; k < 4 * total; k++) bytes[k] = words[k / 4] >> 8 * (k % 4);
}

/* A model of at most `total` words whose every value list is a solution: 8 variables of 0 to 3, 65,536 lists, and sums of 32 terms, one of them shorter, below a constant. */
static void make_small(size_t total) {
    length = 0;
    for (int x = 0; x < LISTED; x++) {
        put(1, 0);
        put(2, 3);
    }
    while (length + 1 + 5 <= total) {
        int left = (total - length - 1 - 3) / 2, n = left < 32 ? left : 32;
        put(4, 11);
        number(n);
        for (int k = 0; k < n; k++) number(k % 5 - 2);
        for (int k = 0; k < n; k++) variable(k % LISTED);
        number(1000);
    }
    put(7, 0);
}

/* A row system of `total` words: 17 Boolean variables, and rows of up to 62 terms that are 0 of all zeros. */
static void make_rows(size_t total) {
    size_t at = 0;
    while (at < 17) rows[at++] = 0x30000000;
    while (at < total - 1) {
        size_t left = total - 1 - at, n = left <= 126 ? (left - 2) / 2 : left >= 128 ? 62 : (left - 4) / 2;
        rows[at++] = 0xB0000000 + n;
        for (size_t k = 0; k < n; k++) {
            rows[at++] = 0x50000000 + k % 16;
            rows[at++] = 0x60000001;
        }
        rows[at++] = 0x60000000;
    }
    rows[at] = 0xF0000000;
    row_words = total;
    row_values = 17;
    for (size_t k = 0; k < 17; k++) filled[k] = 0;
}

/* A row system of `total` words, an odd number, that prints as much as so many words can: rows without terms. */
static void make_short_rows(size_t total) {
    for (size_t at = 0; at < total; at++) rows[at] = at % 2 ? 0x6FFFFFFF : 0xA0000000;
    rows[total - 1] = 0xF0000000;
    row_words = total;
}

/* A row system of at most `total` words: 66 variables of 8 bits, and rows in which each has the coefficient 1 or -1; 528 bits. */
static void make_bits_rows(size_t total) {
    size_t at = 0;
    for (int x = 0; x < 66; x++) {
        rows[at++] = 0x10000000;
        rows[at++] = 0x200000FF;
    }
    for (size_t r = 0; at + 135 <= total; r++) {
        rows[at++] = 0xB0000000 + 66;
        for (size_t k = 0; k < 66; k++) {
            rows[at++] = 0x50000000 + k;
            rows[at++] = (r + 1) * (k + 1) % 67 % 2 ? 0x60000001 : 0x6FFFFFFF;
        }
        rows[at++] = 0x60000000;
    }
    rows[at++] = 0xF0000000;
    row_words = at;
}

/* A row system with a product and a row of each kind, true of zeros: 4 bits of each factor, 8 of the result, 16 of their products, 5 of the slack. */
static void make_mixed_rows(void) {
    static const uint32_t system[] = {0x10000000, 0x2000000F, 0x10000000, 0x2000000F, 0x80000000, 0x900000E1, 0xC0000000, 0x50000002, 0x50000000, 0x50000001,
                                      0xA0000002, 0x50000000, 0x6FFFFFFF, 0x50000001, 0x6FFFFFFF, 0x60000000, 0xB0000001, 0x50000002, 0x60000001, 0x60000000, 0xF0000000};
    memcpy(rows, system, sizeof system);
    memset(filled, 0, MIXED_VALUES * sizeof *filled);
    memset(page, 0, MIXED_BITS);
    row_words = sizeof system / sizeof *system;
}

/* A text of 256 variables, one of them Boolean, and 256 constraints, sums of 13 and 14 terms in turn: 8,192 words. */
static void make_text(void) {
    text_bytes = 0;
    for (int x = 0; x < 255; x++) text_bytes += sprintf((char *)page + text_bytes, "var %d..%d: x%d;\n", -x, x, x);
    text_bytes += sprintf((char *)page + text_bytes, "var bool: b;\n");
    for (int c = 0; c < 256; c++) {
        text_bytes += sprintf((char *)page + text_bytes, "constraint int_lin_le([");
        for (int k = 0; k < 13 + c % 2; k++) text_bytes += sprintf((char *)page + text_bytes, "%s%d", k ? "," : "", k % 5 - 2);
        text_bytes += sprintf((char *)page + text_bytes, "],[");
        for (int k = 0; k < 13 + c % 2; k++) text_bytes += sprintf((char *)page + text_bytes, "%sx%d", k ? "," : "", (31 * c + 7 * k) % 255);
        text_bytes += sprintf((char *)page + text_bytes, "],%d);\n", c);
    }
    text_bytes += sprintf((char *)page + text_bytes, "solve satisfy;\n");
}

/* ---- The calls; each says whether it accepts. */

static int check_bytes(void) { return pearrummy_check_bytes(bytes, 4 * length) == 0; }
static int check(void) { return pearrummy_check(words, length).fault == 0; }
static int translate(void) { return pearrummy_translate(words, length, rows, ROWS).fault == 0; }
static int judge_model(void) { return pearrummy_judge_model(words, length, values, VARIABLES).said == PEARRUMMY_HOLDS; }
static int fill(void) { return pearrummy_fill(words, length, values, VARIABLES, filled, IN_ALL).said == PEARRUMMY_HOLDS; }
static int judge_rows(void) { return pearrummy_judge_rows(rows, row_words, filled, row_values).said == PEARRUMMY_HOLDS; }
static int sheet(void) { return pearrummy_sheet(rows, row_words, page, sizeof page).fault == 0; }

static int bits(void) { return pearrummy_bits(rows, row_words, form, FORM).fault == 0; }
static int bit_values(void) { return pearrummy_bit_values(rows, row_words, page, MIXED_BITS, filled, IN_ALL).fault == 0; }
static int bit_energy(void) { return pearrummy_bit_energy(rows, row_words, page, MIXED_BITS).fault == 0; }
static int value_bits(void) { return pearrummy_value_bits(rows, row_words, filled, MIXED_VALUES, page, MIXED_BITS).said == PEARRUMMY_HOLDS; }
static int best_bits(void) { return pearrummy_best_bits(rows, row_words, 0, PEARRUMMY_LEAST, form, FORM).fault == 0; }
static int text(void) { return pearrummy_text(page, text_bytes, words, MODEL).words == MODEL; }
static int solutions(void) { return pearrummy_solutions(words, length, listed, room).solutions == LISTS; }

/* The same of the model as the second candidate's. */
static int pair_check(void) { return pearrummy_pair_check(pair, length + 1, 2).fault == 0; }
static int pair_translate(void) { return pearrummy_pair_translate(pair, length + 1, 2, rows, ROWS).fault == 0; }
static int pair_judge_model(void) { return pearrummy_pair_judge_model(pair, length + 1, 2, values, VARIABLES).said == PEARRUMMY_HOLDS; }
static int pair_fill(void) { return pearrummy_pair_fill(pair, length + 1, 2, values, VARIABLES, filled, IN_ALL).said == PEARRUMMY_HOLDS; }
static int reason(void) { return pearrummy_reason(words, length, filled, row_values).reason == PEARRUMMY_NO_ROW_FAILS; }

static double now(void) {
    struct timespec t;
    clock_gettime(CLOCK_PROCESS_CPUTIME_ID, &t);
    return t.tv_sec + t.tv_nsec * 1e-9;
}

/* Processor time of one call: the best of rounds that last about a hundredth of a second each. */
static double best_time(const char *name, int (*call)(void), size_t n) {
    double best = 0;
    int repeats = 1, round = 0;
    while (round < ROUNDS) {
        double begun = now();
        for (int k = 0; k < repeats; k++)
            if (!call()) {
                printf("%s of %zu words does not accept\n", name, n);
                exit(1);
            }
        double each = (now() - begun) / repeats;
        if (each * repeats < 0.01) {
            repeats *= 2;
            continue;
        }
        if (round == 0 || each < best) best = each;
        round++;
    }
    return best;
}

static void measure(const char *name, int (*call)(void), size_t n) {
    double best = best_time(name, call, n);
    printf("| %s | %zu | %.1f µs | %.1f |\n", name, n, best * 1e6, best * 1e9 / n);
}

static void measure_sheet(const char *name) {
    size_t printed = pearrummy_sheet(rows, row_words, page, sizeof page).bytes;
    double best = best_time(name, sheet, row_words);
    printf("| %s | %zu | %zu | %.1f µs | %.0f |\n", name, row_words, printed, best * 1e6, printed / best / 1e6);
}

static void measure_bits(const char *name) {
    size_t written = pearrummy_bits(rows, row_words, form, FORM).words;
    double best = best_time(name, bits, row_words);
    printf("| %s | %zu | %zu | %.1f µs | %.1f |\n", name, row_words, written, best * 1e6, best * 1e9 / row_words);
}

/* Makes a model, and the pair whose first candidate wrote nothing and whose second wrote its constraints; says how many values and words its row system has. */
static struct pearrummy_counts begin_model(size_t total, int n) {
    make_model(total, n);
    struct pearrummy_counts c = pearrummy_check(words, length);
    row_words = c.words;
    row_values = c.variables + c.auxiliaries;
    size_t table = 0;
    while (words[table] >> 28 != 4) table++;
    memcpy(pair, words, table * sizeof *pair);
    pair[table] = 0xD0000000;
    memcpy(pair + table + 1, words + table, (length - table) * sizeof *pair);
    return c;
}

/* ---- Stack: a call runs on a stack of its own that is painted first; what is no longer painted was used. */

static unsigned char stack[1 << 20];
static ucontext_t here, there;
static int (*on_stack)(void);
static int accepted;

static int nothing(void) { return 1; }
static void run_there(void) { accepted = on_stack(); }

static size_t stack_of(int (*call)(void)) {
    memset(stack, 0xA5, sizeof stack);
    getcontext(&there);
    there.uc_stack.ss_sp = stack;
    there.uc_stack.ss_size = sizeof stack;
    there.uc_link = &here;
    on_stack = call;
    makecontext(&there, run_there, 0);
    swapcontext(&here, &there);
    if (!accepted) exit(1);
    size_t unused = 0;
    while (stack[unused] == 0xA5) unused++;
    return sizeof stack - unused;
}

/* The calls on the longest model, which has all builtins. */
static void measure_stack(void) {
    static const struct { const char *name; int (*call)(void); } calls[] = {
        {"pearrummy_check_bytes", check_bytes}, {"pearrummy_check", check}, {"pearrummy_translate", translate},
        {"pearrummy_judge_model", judge_model}, {"pearrummy_judge_rows", judge_rows}, {"pearrummy_fill", fill}, {"pearrummy_sheet", sheet},
        {"pearrummy_reason", reason},
        {"pearrummy_pair_check", pair_check}, {"pearrummy_pair_translate", pair_translate},
        {"pearrummy_pair_judge_model", pair_judge_model}, {"pearrummy_pair_fill", pair_fill}};
    begin_model(MODEL, 32);
    if (!translate() || !fill()) exit(1);
    size_t none = stack_of(nothing);
    for (size_t k = 0; k < sizeof calls / sizeof *calls; k++) printf("%s %zu\n", calls[k].name, stack_of(calls[k].call) - none);
    make_text();
    memset(page + text_bytes, ' ', LONG_TEXT); /* the longest texts take the longest lists */
    text_bytes += LONG_TEXT;
    printf("pearrummy_text %zu\n", stack_of(text) - none);
    make_bits_rows(FEW_ROWS);
    printf("pearrummy_bits %zu\n", stack_of(bits) - none);
    printf("pearrummy_best_bits %zu\n", stack_of(best_bits) - none); /* of more bits than a small band takes */
    make_bits_rows(2 * FEW_ROWS);
    printf("pearrummy_bits %zu\n", stack_of(bits) - none); /* and of more words than short lists are for */
    make_mixed_rows();
    printf("pearrummy_bit_values %zu\n", stack_of(bit_values) - none);
    printf("pearrummy_bit_energy %zu\n", stack_of(bit_energy) - none);
    printf("pearrummy_value_bits %zu\n", stack_of(value_bits) - none);
    make_small(MODEL);
    room = LISTS * LISTED;
    printf("pearrummy_solutions %zu\n", stack_of(solutions) - none);
}

int main(int count, char **arguments) {
    if (count == 2 && strcmp(arguments[1], "stack") == 0) {
        measure_stack();
        return 0;
    }
    static const struct { size_t words; int elements; } models[] = {{64, 2}, {1024, 32}, {8192, 32}};
    static const size_t systems[] = {16384, 65536, 262144};
    printf("| Words | Constraints | Auxiliaries | Rows | Row words |\n|---|---|---|---|---|\n");
    for (int k = 0; k < 3; k++) {
        struct pearrummy_counts c = begin_model(models[k].words, models[k].elements);
        printf("| %zu | %zu | %zu | %zu | %zu |\n", length, c.constraints, c.auxiliaries, c.rows, c.words);
    }
    printf("\n| Call | Words | Time | Nanoseconds a word |\n|---|---|---|---|\n");
    for (int k = 0; k < 3; k++) {
        begin_model(models[k].words, models[k].elements);
        measure("check", check, length);
        measure("check over bytes", check_bytes, length);
        measure("translate", translate, length);
        measure("judge-model", judge_model, length);
        measure("fill", fill, length);
        measure("pair-check", pair_check, length);
        measure("pair-translate", pair_translate, length);
        measure("pair-judge-model", pair_judge_model, length);
        measure("pair-fill", pair_fill, length);
        measure("judge-rows, of what translate and fill wrote", judge_rows, row_words);
        measure("reason, of what fill wrote", reason, length);
    }
    for (int k = 0; k < 3; k++) {
        make_rows(systems[k]);
        measure("judge-rows", judge_rows, row_words);
    }
    printf("\n| Sheet of | Row words | Bytes | Time | Megabytes a second |\n|---|---|---|---|---|\n");
    begin_model(models[2].words, models[2].elements);
    if (!translate()) return 1;
    measure_sheet("what translate wrote");
    for (int k = 0; k < 3; k++) {
        make_rows(systems[k]);
        measure_sheet("rows of 62 terms");
    }
    for (int k = 0; k < 3; k++) {
        make_short_rows(systems[k] - 1);
        measure_sheet("rows without terms");
    }
    make_text();
    double best_text = best_time("text", text, MODEL);
    printf("\n| Text of | Words | Bytes | Time | Megabytes a second |\n|---|---|---|---|---|\n");
    printf("| 256 variables, 256 constraints | %d | %zu | %.1f µs | %.1f |\n", MODEL, text_bytes, best_text * 1e6, text_bytes / best_text / 1e6);
    printf("\n| Bits of | Row words | Words of the form | Time | Nanoseconds a row word |\n|---|---|---|---|---|\n");
    begin_model(models[0].words, models[0].elements);
    if (!translate()) return 1;
    measure_bits("what translate wrote");
    for (int k = 0; k < 3; k++) {
        make_rows(systems[k]);
        measure_bits("rows of 62 terms, 17 bits");
    }
    make_bits_rows(FEW_ROWS);
    measure_bits("rows of 66 terms, 528 bits");
    make_bits_rows(systems[0]);
    measure_bits("rows of 66 terms, 528 bits");
    printf("\n| Solutions, of words | Lists | Time | Nanoseconds a list | Lists a second |\n|---|---|---|---|---|\n");
    for (int k = 0; k < 3; k++) {
        make_small(models[k].words);
        room = LISTS * LISTED;
        double best = best_time("solutions", solutions, length);
        printf("| %zu | %d | %.1f ms | %.0f | %.0f |\n", length, LISTS, best * 1e3, best * 1e9 / LISTS, LISTS / best);
    }
    return 0;
}

/* How many bytes of stack the calls take on the inputs that were found to go deepest, a line for each call and input: all builtins, with lists of 32 elements
 * and the exponent 27, those that choose by a variable over one that they share or each over its own; rows of 66 terms of nine digits and products; row systems
 * of fewer and of more words than short lists are for; texts with more names than a model can have. The program exits with 1 where an answer is not
 * the one that is wanted. */
#include "models.h"
#include <stdio.h>
#include <stdlib.h>
#include <ucontext.h>

enum { ROWS = PEARRUMMY_ROW_WORDS, TEXT = 1 << 20, SMALL_ROWS = 10000, MANY_ROWS = 5 };

static uint32_t pair[MODEL + 101], rows[ROWS], form[PEARRUMMY_FORM_WORDS];
static int32_t filled[PEARRUMMY_VALUES], listed[PEARRUMMY_LISTED_LISTS * PEARRUMMY_LISTED_VARIABLES];
static uint8_t bytes[4 * MODEL + 400], page[81 * SMALL_ROWS], text[TEXT], bit_list[PEARRUMMY_BITS];
static size_t row_words, row_values, pair_words, text_bytes, bit_count;
static uint32_t wanted;

/* ---- The calls; each says whether its answer is the one that is wanted. */

static int check_bytes(void) { return pearrummy_check_bytes(bytes, 4 * length) == 0; }
static int check(void) { return pearrummy_check(words, length).fault == 0; }
static int translate(void) { return pearrummy_translate(words, length, rows, ROWS).fault == 0; }
static int judge_model(void) { return pearrummy_judge_model(words, length, values, variables).said == PEARRUMMY_HOLDS; }
static int fill(void) { return pearrummy_fill(words, length, values, variables, filled, PEARRUMMY_VALUES).said == PEARRUMMY_HOLDS; }
static int reason(void) { return pearrummy_reason(words, length, filled, row_values).reason == PEARRUMMY_NO_ROW_FAILS; }
static int solutions(void) { return pearrummy_solutions(words, length, listed, sizeof listed / sizeof *listed).solutions > 0; }
static int pair_check(void) { return pearrummy_pair_check(pair, pair_words, 2).fault == 0; }
static int pair_translate(void) { return pearrummy_pair_translate(pair, pair_words, 2, rows, ROWS).fault == 0; }
static int pair_judge_model(void) { return pearrummy_pair_judge_model(pair, pair_words, 2, values, variables).said == PEARRUMMY_HOLDS; }
static int pair_fill(void) { return pearrummy_pair_fill(pair, pair_words, 2, values, variables, filled, PEARRUMMY_VALUES).said == PEARRUMMY_HOLDS; }
static int judge_rows(void) { return pearrummy_judge_rows(rows, row_words, filled, row_values).said == PEARRUMMY_HOLDS; }
static int sheet(void) { return pearrummy_sheet(rows, row_words, page, sizeof page).fault == 0; }
static int bits(void) { return pearrummy_bits(rows, row_words, form, PEARRUMMY_FORM_WORDS).fault == 0; }
static int value_bits(void) {
    struct pearrummy_judgement written = pearrummy_value_bits(rows, row_words, filled, row_values, bit_list, PEARRUMMY_BITS);
    bit_count = written.at;
    return written.said == PEARRUMMY_HOLDS;
}
static int bit_values(void) { return pearrummy_bit_values(rows, row_words, bit_list, bit_count, filled, PEARRUMMY_VALUES).fault == 0; }
static int bit_energy(void) { return pearrummy_bit_energy(rows, row_words, bit_list, bit_count).fault == 0; }
static int best_bits(void) { return pearrummy_best_bits(rows, row_words, 0, PEARRUMMY_GREATEST, form, PEARRUMMY_FORM_WORDS).fault == 0; }
static int read_text(void) { return pearrummy_text(text, text_bytes, words, MODEL).fault == wanted; }

/* ---- Stack: a call runs on a stack of its own that is painted first; what is no longer painted was used. */

static unsigned char stack[1 << 20];
static ucontext_t here, there;
static int (*on_stack)(void);
static int accepted;

static int nothing(void) { return 1; }
static void run_there(void) { accepted = on_stack(); }

static size_t used(int (*call)(void)) {
    memset(stack, 0xA5, sizeof stack);
    getcontext(&there);
    there.uc_stack.ss_sp = stack;
    there.uc_stack.ss_size = sizeof stack;
    there.uc_link = &here;
    on_stack = call;
    makecontext(&there, run_there, 0);
    swapcontext(&here, &there);
    size_t unused = 0;
    while (stack[unused] == 0xA5) unused++;
    return sizeof stack - unused;
}

static void measure(const char *name, int (*call)(void)) {
    size_t bytes_used = used(call);
    if (!accepted) {
        fprintf(stderr, "stack: %s answers something else\n", name);
        exit(1);
    }
    printf("%s %zu\n", name, bytes_used - used(nothing));
}

/* ---- The inputs */

/* All builtins with the longest lists and the largest exponent; those that choose by a variable share it, or each has its own. */
static void make_deep(int own) {
    struct part parts[PEARRUMMY_CODES];
    for (int code = 1; code <= PEARRUMMY_CODES; code++)
        parts[code - 1] = (struct part){{code, code == 39 ? PEARRUMMY_EXPONENT : PEARRUMMY_LIST_LENGTH, own && chooses(code), 0}, 1};
    make_model(parts, PEARRUMMY_CODES);
    make_bytes(bytes);
    pair_words = make_pair(pair);
}

static void measure_models(void) {
    static const struct {
        const char *name;
        int (*call)(void);
    } calls[] = {{"pearrummy_check_bytes", check_bytes}, {"pearrummy_check", check}, {"pearrummy_translate", translate}, {"pearrummy_judge_model", judge_model},
                 {"pearrummy_fill", fill}, {"pearrummy_reason", reason}, {"pearrummy_pair_check", pair_check}, {"pearrummy_pair_translate", pair_translate},
                 {"pearrummy_pair_judge_model", pair_judge_model}, {"pearrummy_pair_fill", pair_fill}};
    for (int own = 0; own < 2; own++) {
        make_deep(own);
        struct pearrummy_counts counts = pearrummy_check(words, length);
        row_words = counts.words;
        row_values = counts.variables + counts.auxiliaries;
        for (size_t k = 0; k < sizeof calls / sizeof *calls; k++) measure(calls[k].name, calls[k].call);
        measure("pearrummy_judge_rows", judge_rows);
        measure("pearrummy_sheet", sheet);
    }
}

/* Rows of both kinds with 66 terms, so many of each, and products, over three variables from 0 to 3; all numbers of the rows are the number given. */
static void make_rows(int32_t v, int each) {
    size_t at = 0;
    while (at < 6) {
        rows[at++] = 0x10000000;
        rows[at++] = 0x20000003;
    }
    for (int row = 0; row < 2 * each; row++) {
        rows[at++] = (row < each ? 0xA0000000 : 0xB0000000) | 66;
        for (int k = 0; k < 66; k++) {
            rows[at++] = 0x50000000 + k % 2;
            rows[at++] = 0x60000000 | (((uint32_t)(k % 4 < 2 ? v : -v)) & 0xFFFFFFF);
        }
        rows[at++] = 0x60000000;
    }
    rows[at++] = 0xC0000000;
    for (int x = 2; x >= 0; x--) rows[at++] = 0x50000000 + x;
    rows[at++] = 0xF0000000;
    row_words = at;
    row_values = 3;
    memset(filled, 0, sizeof filled);
}

static void measure_rows(void) {
    make_rows(PEARRUMMY_HIGHEST, 1); /* no form is over such numbers */
    measure("pearrummy_judge_rows", judge_rows);
    measure("pearrummy_sheet", sheet);
    for (int each = 1; each <= MANY_ROWS; each += MANY_ROWS - 1) {
        make_rows(1, each);
        measure("pearrummy_judge_rows", judge_rows);
        measure("pearrummy_sheet", sheet);
        measure("pearrummy_bits", bits);
        measure("pearrummy_value_bits", value_bits);
        measure("pearrummy_bit_values", bit_values);
        measure("pearrummy_bit_energy", bit_energy);
        measure("pearrummy_best_bits", best_bits);
    }
}

/* Declarations of names of 32 bytes, and constraints with each sort of arguments over them. */
static void make_text(int names) {
    static const char *const constraints[] = {"int_lin_le_reif([1,-134217727],[%s,%s],0,%s)", "set_in_reif(%s,{1,2,3},%s)", "array_int_element(%s,[1,2,3],%s)",
        "array_var_int_element(%s,[%s,%s],%s)", "bool_clause([%s],[%s,%s])", "int_pow(%s,27,%s)", "int_div(%s,%s,%s)"};
    char name[40];
    text_bytes = 0;
    for (int k = 0; k < names; k++)
        text_bytes += sprintf((char *)text + text_bytes, k % 2 ? "var bool:x%031d;%% a comment\n" : "var -134217727 .. 134217727 : x%031d ;\n", k);
    snprintf(name, sizeof name, "x%031d", names - 1);
    for (size_t k = 0; k < sizeof constraints / sizeof *constraints; k++) {
        text_bytes += sprintf((char *)text + text_bytes, "constraint ");
        text_bytes += sprintf((char *)text + text_bytes, constraints[k], name, name, name, name);
        text_bytes += sprintf((char *)text + text_bytes, ";\n");
    }
    text_bytes += sprintf((char *)text + text_bytes, "solve satisfy;");
}

static void measure_texts(void) {
    static const struct {
        int names;
        uint32_t fault;
    } texts[] = {{1, 0}, {5000, 0}, {8192, 1}, {12000, 1}};
    for (size_t k = 0; k < sizeof texts / sizeof *texts; k++) {
        make_text(texts[k].names);
        wanted = texts[k].fault;
        measure("pearrummy_text", read_text);
    }
}

/* A model whose solutions are listed: powers, and lists of 32. */
static void measure_solutions(void) {
    length = 0;
    for (int x = 0; x < 2; x++) {
        put(1, 0);
        put(2, 1);
    }
    put(4, 39);
    variable(0);
    number(PEARRUMMY_EXPONENT);
    variable(0);
    put(4, 26);
    variable(1);
    list(PEARRUMMY_LIST_LENGTH, 1, 1);
    put(4, 27);
    variable(1);
    members(PEARRUMMY_LIST_LENGTH, 0);
    put(7, 0);
    measure("pearrummy_solutions", solutions);
}

int main(void) {
    measure_models();
    measure_rows();
    measure_texts();
    measure_solutions();
    return 0;
}

/* A model with lists and a reified builtin, from its FlatZinc text to the reason of a failed row: `make example`. Three shifts take 0 to 5 hours each,
 * `cost` is 4×a + 6×b + 5×c, `cheap` says whether that is at most 30, the longest shift is `most`, and b has one of three lengths.
 * The program exits with 1 if an answer is not the expected one. */
#include <pearrummy.h>
#include <stdio.h>
#include <stdlib.h>
#include <string.h>

static const char text[] =
    "var 0..5: a; var 0..5: b; var 0..5: c; var 0..5: most; var 0..75: cost;\n"
    "var bool: cheap;\n"
    "constraint int_lin_eq([4,6,5,-1],[a,b,c,cost],0);\n"
    "constraint int_lin_le_reif([1],[cost],30,cheap);\n"
    "constraint array_int_maximum(most,[a,b,c]);\n"
    "constraint set_in(b,{0,2,4});\n"
    "solve satisfy;\n";
static const char *const names[] = {"a", "b", "c", "most", "cost", "cheap"};
static const char *const builtins[] = {"int_lin_eq", "int_lin_le_reif", "array_int_maximum", "set_in"};
enum { VARIABLES = 6 };

static int status = 0;

static void expect(int as_expected) {
    if (as_expected) return;
    printf("  This is not the expected answer.\n");
    status = 1;
}

static void print_values(const char *what, const int32_t *values, size_t count) {
    printf("%s:", what);
    for (size_t i = 0; i < count; i++) {
        if (i < VARIABLES) printf(" %s=%d", names[i], values[i]);
        else printf(" %d", values[i]);
    }
    printf("\n");
}

/* Which row fails, which constraint is behind it, and why. */
static struct pearrummy_explanation explain(const char *what, const uint32_t *model, size_t words, const int32_t *values, size_t count) {
    struct pearrummy_explanation e = pearrummy_reason(model, words, values, count);
    printf("%s: ", what);
    if (e.reason == PEARRUMMY_NOT_EXPLAINED) printf("fault %u: %s\n", e.fault, pearrummy_fault_text(e.fault));
    if (e.reason == PEARRUMMY_NO_ROW_FAILS) printf("no row fails\n");
    if (e.reason == PEARRUMMY_VALUE_OUT_OF_BOUNDS) printf("value %zu is out of bounds\n", e.place);
    if (e.reason == PEARRUMMY_BUILTIN_FALSE) printf("row %zu fails, %s (constraint %zu) is false\n", e.row, builtins[e.constraint], e.constraint);
    if (e.reason == PEARRUMMY_AUXILIARIES_WRONG) printf("row %zu fails, %s (constraint %zu) is true, auxiliaries are wrong\n", e.row, builtins[e.constraint], e.constraint);
    return e;
}

int main(void) {
    /* From text to words. */
    uint32_t *model = calloc(PEARRUMMY_MODEL_WORDS, sizeof *model);
    if (!model) return 1;
    struct pearrummy_written w = pearrummy_text((const uint8_t *)text, strlen(text), model, PEARRUMMY_MODEL_WORDS);
    printf("text: fault %u; words %zu\n", w.fault, w.words);
    expect(w.fault == 0);

    /* A fault in a text has a byte, and words for people. */
    static const char broken[] = "var 0..5: a; constraint int_ne(a,b); solve satisfy;";
    struct pearrummy_written f = pearrummy_text((const uint8_t *)broken, strlen(broken), NULL, 0);
    printf("a broken text: fault %u at byte %zu, '%.1s': %s\n", f.fault, f.place, broken + f.place, pearrummy_fault_text(f.fault));
    expect(f.fault == PEARRUMMY_WRONG_NAME && f.place == strlen("var 0..5: a; constraint int_ne(a,"));

    /* Fill hands over the auxiliaries: for each solution there is one list of them. */
    static const int32_t plan[VARIABLES] = {3, 2, 1, 3, 29, 1};
    int32_t filled[PEARRUMMY_VALUES];
    struct pearrummy_judgement j = pearrummy_fill(model, w.words, plan, VARIABLES, filled, PEARRUMMY_VALUES);
    expect(j.said == PEARRUMMY_HOLDS);
    if (status) return status; /* what follows reads what fill wrote */
    print_values("fill", filled, j.at);
    size_t count = j.at;
    expect(explain("these values", model, w.words, filled, count).reason == PEARRUMMY_NO_ROW_FAILS);

    /* `cheap` is wrong: the reified builtin is false. */
    filled[5] = 0;
    struct pearrummy_explanation e = explain("with cheap=0", model, w.words, filled, count);
    expect(e.reason == PEARRUMMY_BUILTIN_FALSE && e.constraint == 1);

    /* The values are a solution, an auxiliary is not fill's: the last, the bit of 4 in the set. */
    filled[5] = 1;
    filled[count - 1] = 1 - filled[count - 1];
    e = explain("with another last auxiliary", model, w.words, filled, count);
    expect(e.reason == PEARRUMMY_AUXILIARIES_WRONG && e.constraint == 3);

    /* Values that are no solution: fill answers what judge-model does, and writes nothing. */
    static const int32_t wrong[VARIABLES] = {3, 1, 1, 3, 23, 1};
    j = pearrummy_fill(model, w.words, wrong, VARIABLES, filled, PEARRUMMY_VALUES);
    printf("fill of b=1: %s is false\n", j.said == PEARRUMMY_FALSE ? builtins[j.at] : "?");
    expect(j.said == PEARRUMMY_FALSE && j.at == 3);
    free(model);
    return status;
}

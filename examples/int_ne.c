/* A model of two integer variables that are to differ, x in 0..3 and y in 0..2, goes through check, translate, fill and both judges: `make example`.
 * The top 4 bits of a word are its kind, the low 28 its payload. The program exits with 1 if an answer is not the expected one. */
#include <pearrummy.h>
#include <stdio.h>

static const uint32_t model[] = {
    0x10000000, 0x20000003, /* variable 0, x: lower bound 0, upper bound 3 */
    0x10000000, 0x20000002, /* variable 1, y: 0 to 2 */
    0x40000004,             /* a constraint, code 4, int_ne */
    0x50000000, 0x50000001, /* of variable 0 and variable 1 */
    0x70000000,             /* the end */
};
enum { MODEL = sizeof model / sizeof model[0], ROOM = 32 };

static int status = 0;

static void expect(int as_expected) {
    if (as_expected) return;
    printf("  This is not the expected answer.\n");
    status = 1;
}

/* What a judge or fill said, and that it is the expected answer. */
static void tell(const char *call, struct pearrummy_judgement j, uint32_t said, size_t at) {
    printf("%s: ", call);
    if (j.said == PEARRUMMY_REFUSED) printf("refused, fault %u at word %zu\n", j.fault, j.at);
    if (j.said == PEARRUMMY_HOLDS) printf("holds\n");
    if (j.said == PEARRUMMY_OUT_OF_BOUNDS) printf("variable %zu is out of bounds\n", j.at);
    if (j.said == PEARRUMMY_FALSE) printf("constraint or row %zu is false\n", j.at);
    expect(j.said == said && j.fault == 0 && j.at == at);
}

int main(void) {
    /* Is the model in order, and what does its row system need? */
    struct pearrummy_counts c = pearrummy_check(model, MODEL);
    printf("check: fault %u; variables %zu, constraints %zu, auxiliaries %zu, rows %zu, words %zu\n", c.fault, c.variables, c.constraints, c.auxiliaries, c.rows, c.words);
    expect(c.fault == 0 && c.place == 0 && c.variables == 2 && c.constraints == 1 && c.auxiliaries == 1 && c.rows == 2 && c.words == 23);

    /* Check over bytes, the lowest of a word first: the end word alone is a model, and there is no code 255. */
    static const uint8_t end[] = {0, 0, 0, 0x70}, no_code[] = {255, 0, 0, 0x40};
    uint32_t accepted = pearrummy_check_bytes(end, 4), refused = pearrummy_check_bytes(no_code, 4);
    printf("check over bytes: of the end word fault %u, of a constraint of code 255 fault %u\n", accepted, refused);
    expect(accepted == 0 && refused == 8);

    /* The words of the row system. */
    uint32_t rows[ROOM];
    struct pearrummy_written w = pearrummy_translate(model, MODEL, rows, ROOM);
    printf("translate: fault %u; words %zu:", w.fault, w.words);
    for (size_t i = 0; i < w.words; i++) printf(" %08X", rows[i]);
    printf("\n");
    expect(w.fault == 0 && w.place == 0 && w.words == c.words);

    /* One word too little room is fault 16, and the output stays as it is. */
    w = pearrummy_translate(model, MODEL, rows, c.words - 1);
    printf("translate into %zu words: fault %u; words %zu\n", c.words - 1, w.fault, w.words);
    expect(w.fault == 16 && w.place == 0 && w.words == 0);

    /* Values of x and y. */
    static const int32_t same[] = {2, 2}, outside[] = {4, 2}, differ[] = {3, 1};
    tell("judge-model of 2, 2", pearrummy_judge_model(model, MODEL, same, 2), PEARRUMMY_FALSE, 0);
    tell("judge-model of 4, 2", pearrummy_judge_model(model, MODEL, outside, 2), PEARRUMMY_OUT_OF_BOUNDS, 0);

    /* The values and that of the auxiliary r, three in all. */
    int32_t values[3];
    tell("fill of 3, 1", pearrummy_fill(model, MODEL, differ, 2, values, 3), PEARRUMMY_HOLDS, 3);
    printf("filled: %d, %d, %d\n", values[0], values[1], values[2]);
    expect(values[0] == 3 && values[1] == 1 && values[2] == 1);

    /* They satisfy the row system; with another r they do not. */
    tell("judge-rows of these", pearrummy_judge_rows(rows, c.words, values, 3), PEARRUMMY_HOLDS, 0);
    values[2] = 0;
    tell("judge-rows with r = 0", pearrummy_judge_rows(rows, c.words, values, 3), PEARRUMMY_FALSE, 0);
    return status;
}

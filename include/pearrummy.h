/* The calls of pearrummy for C and C++. Link with libpearrummy.a, which `make library` proves and builds, or with `pkg-config --libs pearrummy`.
 *
 * A list is lent as a pointer and its number of elements; a pointer to an empty list may be null. Lists must not overlap: a list that a call writes
 * to shares no byte with one that it reads. A pointer is aligned for its type, as C asks. A list that a call reads is never changed; no call keeps a
 * pointer, uses the heap or has a state, so that calls may run side by side; none reads or writes outside what it was lent. A list that a call writes
 * to holds its answer in front, and its rest keeps its values; a refusal changes nothing. Any words, bytes, values and numbers of these may be lent.
 *
 * The words, the codes, the faults and the limits are explained in RULES.md. `Stack` is what a call takes of it, measured and rounded up. */
#ifndef PEARRUMMY_H
#define PEARRUMMY_H

#include <stddef.h>
#include <stdint.h>

#ifdef __cplusplus
extern "C" {
#endif

/* The second number rises with every change of an answer: a builtin, a call, a row or a limit more. */
#define PEARRUMMY_VERSION "1.15.1"
#define PEARRUMMY_VERSION_MAJOR 1
#define PEARRUMMY_VERSION_MINOR 15
#define PEARRUMMY_VERSION_PATCH 1

/* Limits; what passes one is refused. */
#define PEARRUMMY_MODEL_WORDS 8192
#define PEARRUMMY_ROW_WORDS 262144 /* so many are always enough room for translate */
#define PEARRUMMY_CODES 39
#define PEARRUMMY_VARIABLES 256
#define PEARRUMMY_CONSTRAINTS 256
#define PEARRUMMY_LIST_LENGTH 32
#define PEARRUMMY_EXPONENT 27
#define PEARRUMMY_TERMS 66
#define PEARRUMMY_ENCODED_VALUES 64
#define PEARRUMMY_VALUES 4096 /* variables and auxiliaries; so many values are always enough room for fill and bit_values */
#define PEARRUMMY_LOWEST (-134217727)
#define PEARRUMMY_HIGHEST 134217727
#define PEARRUMMY_NAME_BYTES 32
#define PEARRUMMY_LISTED_VARIABLES 8
#define PEARRUMMY_LISTED_LISTS 65536 /* 8 times as many values are always enough room for solutions */
#define PEARRUMMY_BITS 1024 /* so many bytes are always enough room for value_bits */
#define PEARRUMMY_BIT_NUMBERS 16384
#define PEARRUMMY_FORM_WORDS 1574402 /* so many are always enough room for bits and best_bits */

/* The faults; 0 is none. */
enum pearrummy_fault {
    PEARRUMMY_NO_FAULT = 0,
    PEARRUMMY_TOO_MANY_WORDS = 1,
    PEARRUMMY_WORDS_END = 2,
    PEARRUMMY_WRONG_KIND = 3,
    PEARRUMMY_UPPER_BELOW_LOWER = 4,
    PEARRUMMY_PAYLOAD_ABOVE_ZERO = 5,
    PEARRUMMY_TOO_MANY_VARIABLES = 6,
    PEARRUMMY_TOO_MANY_CONSTRAINTS = 7,
    PEARRUMMY_UNKNOWN_CODE = 8,
    PEARRUMMY_LENGTH_OUTSIDE = 9,
    PEARRUMMY_NOT_DECLARED = 10,
    PEARRUMMY_WORD_AFTER_END = 11,
    PEARRUMMY_SET_TOO_WIDE = 12,
    PEARRUMMY_NUMBER_OUTSIDE = 13,
    PEARRUMMY_TOO_MANY_IN_ALL = 14,
    PEARRUMMY_WRONG_VALUE_COUNT = 15,
    PEARRUMMY_OUTPUT_TOO_SHORT = 16,
    PEARRUMMY_RESULT_NOT_ABOVE = 17,
    PEARRUMMY_LOWEST_NUMBER = 18,
    PEARRUMMY_BREAKS_GRAMMAR = 19,
    PEARRUMMY_WRONG_NAME = 20,
    PEARRUMMY_OUTSIDE_RANGE = 21,
    PEARRUMMY_TOO_MANY_LISTS = 22,
    PEARRUMMY_TOO_MANY_BITS = 23,
    PEARRUMMY_FORM_TOO_LARGE = 24,
    PEARRUMMY_NOT_A_BIT = 25,
    PEARRUMMY_NO_SUCH_VARIABLE = 26
};

/* A fault in words, in English and ASCII; for a number that is no fault's, a text that says so. Never null. */
const char *pearrummy_fault_text(uint32_t fault);

/* What a judge, fill or value_bits says. */
enum {
    PEARRUMMY_REFUSED = 0,       /* the words, the number of values or the lent list have a fault: its number in `fault`, its place in `at` */
    PEARRUMMY_HOLDS = 1,         /* the values keep every bound, and every constraint or row is true of them */
    PEARRUMMY_OUT_OF_BOUNDS = 2, /* the first variable out of bounds, counted from 0, in `at` */
    PEARRUMMY_FALSE = 3          /* the first false constraint or row, counted from 0, in `at` */
};

/* `fault` is 0 where nothing is refused. */
struct pearrummy_judgement {
    uint32_t said;
    uint32_t fault;
    size_t at;
};

/* What check answers: `fault` 0 and the counts, or a fault, its place, and counts of 0. Products count as rows; `words` is what translate writes. */
struct pearrummy_counts {
    uint32_t fault;
    size_t place;
    size_t variables;
    size_t constraints;
    size_t auxiliaries;
    size_t rows;
    size_t words;
};

/* What translate, text, bits and best_bits answer: `fault` 0 and how many words they wrote, or a fault, its place, and 0 words. */
struct pearrummy_written {
    uint32_t fault;
    size_t place;
    size_t words;
};

/* What sheet answers: `fault` 0 and how many bytes it wrote, or a fault, its place, and 0 bytes. */
struct pearrummy_printed {
    uint32_t fault;
    size_t place;
    size_t bytes;
};

/* What bit_values answers: `fault` 0 and how many values it wrote, or a fault, its place, and 0 values. */
struct pearrummy_values {
    uint32_t fault;
    size_t place;
    size_t values;
};

/* What bit_energy answers: `fault` 0 and the energy, or a fault, its place, and 0. */
struct pearrummy_energy {
    uint32_t fault;
    size_t place;
    int64_t energy;
};

/* Which value of a variable best_bits takes for the best. */
enum {
    PEARRUMMY_LEAST = 0,
    PEARRUMMY_GREATEST = 1
};

/* What reason says. */
enum {
    PEARRUMMY_NOT_EXPLAINED = 0,       /* the words or the number of values have a fault: its number in `fault`, its place in `place` */
    PEARRUMMY_NO_ROW_FAILS = 1,        /* the values keep every bound, and every row is true of them */
    PEARRUMMY_VALUE_OUT_OF_BOUNDS = 2, /* the first variable or auxiliary out of bounds, counted from 0, in `place` */
    PEARRUMMY_BUILTIN_FALSE = 3,       /* row `row` is the first that fails, and the builtin of constraint `constraint`, whose block holds it, is false of the source values */
    PEARRUMMY_AUXILIARIES_WRONG = 4    /* it is true of them, and an auxiliary in the row has another value than fill's */
};

/* Rows and constraints are counted from 0; fields without a use are 0. */
struct pearrummy_explanation {
    uint32_t reason;
    uint32_t fault;
    size_t place;
    size_t row;
    size_t constraint;
};

/* What listing the solutions answers: `fault` 0 and how many there are, or a fault, its place, and 0. */
struct pearrummy_listed {
    uint32_t fault;
    size_t place;
    size_t solutions;
};

/* Check over bytes, four to a word, lowest first, 1 to 3 spare bytes left off: the number of the refusal, 0 if accepted.
 * Stack: 48 KiB. */
uint32_t pearrummy_check_bytes(const uint8_t *bytes, size_t bytes_count);

/* Checks a model; faults 1 to 14 and 18. Stack: 16 KiB. */
struct pearrummy_counts pearrummy_check(const uint32_t *words, size_t words_count);

/* Writes the row system of a model to the front of `out`; faults 1 to 14, 16 and 18. Words past the end keep their values; a refusal changes nothing.
 * Stack: 18 KiB. */
struct pearrummy_written pearrummy_translate(const uint32_t *words, size_t words_count, uint32_t *out, size_t out_count);

/* Judges values of a model's variables; faults 1 to 11, 15 and 18. Stack: 3 KiB. */
struct pearrummy_judgement pearrummy_judge_model(const uint32_t *words, size_t words_count, const int32_t *values, size_t values_count);

/* Judges values of a row system's variables and auxiliaries; faults 1 to 5, 9 to 11, 14, 15, 17 and 18. Stack: 1 KiB. */
struct pearrummy_judgement pearrummy_judge_rows(const uint32_t *words, size_t words_count, const int32_t *values, size_t values_count);

/* Judges values of a model's variables and, where they hold, writes them and the auxiliaries to the front of `out` and puts into `at` how many
 * there are; faults 1 to 16 and 18. Values past the end keep theirs; any other answer changes nothing. Stack: 16 KiB. */
struct pearrummy_judgement pearrummy_fill(const uint32_t *words, size_t words_count, const int32_t *values, size_t values_count, int32_t *out, size_t out_count);

/* Prints a row system to the front of `page`, in lines of 80 columns and a line feed; faults 1 to 5, 9 to 11, 14 and 16 to 18. Bytes past the end
 * keep their values; a refusal changes nothing. Stack: 1 KiB. */
struct pearrummy_printed pearrummy_sheet(const uint32_t *words, size_t words_count, uint8_t *page, size_t page_count);

/* Reads FlatZinc, items "var lo..hi: name;" or "var bool: name;", then items "constraint builtin(arguments);", then "solve satisfy;", and writes the
 * words of the model to the front of `out`, for check to read; 19 where the text breaks the grammar, 20 where a variable or builtin name is unknown
 * or a variable is declared twice, 21 where a number is outside the range, their place a byte of the text; then faults 1 and 16. Words past the end
 * keep their values; a refusal changes nothing. No model has more than 8,192 words, so that much room is always enough. Stack: 362 KiB. */
struct pearrummy_written pearrummy_text(const uint8_t *text, size_t text_count, uint32_t *out, size_t out_count);

/* Names the first row of a model's row system that values of its variables and auxiliaries fail, the constraint whose block holds it, and why;
 * faults 1 to 15 and 18. Stack: 28 KiB. */
struct pearrummy_explanation pearrummy_reason(const uint32_t *words, size_t words_count, const int32_t *values, size_t values_count);

/* Lists every solution of a model with at most 8 variables and at most 65,536 value lists in its bounds: each once, one after another at the front
 * of `out`, as many values each as the model has variables, the first variable changing slowest, values rising; faults 1 to 14, 16, 18, and 22
 * where the model passes either limit. Values past the end keep theirs; a refusal changes nothing. Room for all value lists is always enough, and
 * then each list is judged once. Stack: 16 KiB. */
struct pearrummy_listed pearrummy_solutions(const uint32_t *words, size_t words_count, int32_t *out, size_t out_count);

/* Two candidates over one variable table: the words of a pair are the table, the first candidate's constraints, a word D0000000, the second's, and
 * the end. Each call does what the call of its name does with the model of one candidate, places counted in that model: candidate 1 is the first,
 * every other number is the second. Without D0000000 fault 2 comes before all others, its place the number of words. A pair may have more than
 * 8,192 words; each model may not. */

/* Checks a candidate's model. Stack: 48 KiB. */
struct pearrummy_counts pearrummy_pair_check(const uint32_t *words, size_t words_count, uint32_t candidate);

/* Writes the row system of a candidate's model to the front of `out`. Stack: 50 KiB. */
struct pearrummy_written pearrummy_pair_translate(const uint32_t *words, size_t words_count, uint32_t candidate, uint32_t *out, size_t out_count);

/* Judges values of the variables of a candidate's model. Stack: 35 KiB. */
struct pearrummy_judgement pearrummy_pair_judge_model(const uint32_t *words, size_t words_count, uint32_t candidate, const int32_t *values, size_t values_count);

/* Judges values of the variables of a candidate's model and, where they hold, writes them and the auxiliaries to the front of `out`.
 * Stack: 48 KiB. */
struct pearrummy_judgement pearrummy_pair_fill(const uint32_t *words, size_t words_count, uint32_t candidate, const int32_t *values, size_t values_count, int32_t *out, size_t out_count);

/* Writes the words of the quadratic form over bits of a row system to the front of `out`: the constant, then for each pair of bits whose entry is
 * not 0 both bits and the entry, then F0000000. Faults 1 to 5, 9 to 11, 14, 17 and 18, then 23 above 1,024 bits, 24 where a number of a row over
 * bits is beyond 16,384 or an entry or the constant is outside the range, and 16; the last three have place 0. Words past the end keep their
 * values; a refusal changes nothing. Stack: 380 KiB. */
struct pearrummy_written pearrummy_bits(const uint32_t *words, size_t words_count, uint32_t *out, size_t out_count);

/* The way back from bits. Bits are lent as bytes, one a bit, 0 or 1, numbered as the form of bits numbers them, those of slacks and products too; the
 * energy at bits is the sum of every row's square and of what its products of bits cost. Faults of the row words come first, 1 to 5, 9 to 11, 14, 17
 * and 18, then 23 above 1,024 bits. */

/* Writes the value of every variable and auxiliary that bits read as, its lower bound and the sum of its bits' weights, to the front of `out`. The
 * values keep every bound, and where the energy is 0 they satisfy the row system. After 23 comes 15 where the number of bits is not that of the
 * form, 25 where one is neither 0 nor 1, its place the first such bit, and 16. Values past the end keep theirs; a refusal changes nothing.
 * Stack: 129 KiB. */
struct pearrummy_values pearrummy_bit_values(const uint32_t *words, size_t words_count, const uint8_t *bits, size_t bits_count, int32_t *out, size_t out_count);

/* The energy at bits: the value there of the form that bits writes, where it writes one; never below 0, and 0 only where what the bits read as
 * satisfies the row system. After 23 come 15 and 25 as there, then 24 where the energy is 2^62 or more. Stack: 161 KiB. */
struct pearrummy_energy pearrummy_bit_energy(const uint32_t *words, size_t words_count, const uint8_t *bits, size_t bits_count);

/* Judges values of a row system's variables and auxiliaries as judge-rows does, 15 among its faults, and, where they hold, writes bits that read as
 * them and whose energy is 0 to the front of `out`, a byte a bit, and puts into `at` how many there are; then 23 and 16. Bytes past the end keep
 * their values; any other answer changes nothing. Stack: 129 KiB. */
struct pearrummy_judgement pearrummy_value_bits(const uint32_t *words, size_t words_count, const int32_t *values, size_t values_count, uint8_t *out, size_t out_count);

/* Writes the words of a form over the same bits, whose least bits read as a best solution, to the front of `out`: the form of bits taken M times,
 * and how far a variable or auxiliary, `variable`, is from its best bound: above its lower bound where `direction` is PEARRUMMY_LEAST, below its
 * upper one where it is PEARRUMMY_GREATEST. M is the variable's width and 1: the form is below M exactly at bits whose energy is 0, so that there is
 * no solution where its least is M or more. After 23 comes 26 where there is no such variable, or the direction is another number, then 24 where a
 * number of a row over bits is beyond 16,384 or an entry or the constant is outside the range, and 16; the last four have place 0. Words past the end
 * keep their values; a refusal changes nothing. Stack: 388 KiB. */
struct pearrummy_written pearrummy_best_bits(const uint32_t *words, size_t words_count, size_t variable, uint32_t direction, uint32_t *out, size_t out_count);

#ifdef __cplusplus
}
#endif

#endif

/* pearrummy: the calls from a shell. Every answer is the proved library's; this command reads files, finds names and lines, and prints. */
#include "../include/pearrummy.h"
#include "input.h"
#include <errno.h>
#include <inttypes.h>
#include <stdio.h>
#include <stdlib.h>
#include <string.h>

enum { DONE = 0, FALSE = 1, REFUSED = 2, USAGE = 64 };
enum { LONGEST_TOLD = 40 }; /* so many bytes of a token stand in a message */

static const char help[] =
    "pearrummy COMMAND [OPTION..] FILE [VALUE..]\n"
    "\n"
    "  check      is the model in order, and what does its row system need?\n"
    "  translate  the words of a model's row system, one a line\n"
    "  rows       a row system, or that of a model, for reading\n"
    "  sheet      the same as the printed sheet, in lines of 80 columns\n"
    "  judge      do the values keep all bounds, and is every constraint, or row, true of them?\n"
    "  fill       the values of a model's variables, then those of the auxiliaries\n"
    "  reason     the first row that values of variables and auxiliaries fail, and the constraint behind it\n"
    "  solutions  every solution of a model of at most 8 variables and 65,536 value lists, one a line\n"
    "  bits       the words of the quadratic form over bits of a row system, or of a model\n"
    "  text       the words of a FlatZinc text\n"
    "\n"
    "FILE holds FlatZinc text where its name ends in .fzn, a MiniZinc model where it ends in .mzn and MiniZinc is installed, bytes, four to a word, the\n"
    "lowest first, where it ends in .bin, else hexadecimal words of eight digits with # comments; - is standard input. A VALUE is a number, or\n"
    "NAME=NUMBER where variables have names, as many as there are variables. Answers name the variables and lines of a MiniZinc model, which is flattened\n"
    "by `minizinc --solver rows.msc --no-half-reifications --keep-paths`.\n"
    "\n"
    "  --text, --hex, --bytes   how FILE is read, whatever its name\n"
    "  --model, --rows          what its words are; else a row system is what ends in F0000000\n"
    "  --candidate 1|2          the words are of two candidates over one variable table; the command works on the model of one\n"
    "  --values FILE            the values stand in FILE, with blanks between them\n"
    "  --data FILE              data of a MiniZinc model\n"
    "  --out-bytes              words are written as bytes, the lowest first\n"
    "  --json                   the answer as one line of JSON\n"
    "  --help, --version\n"
    "\n"
    "Exit status: 0 holds or done, 1 false or out of bounds, 2 refused, 64 wrong usage, a file that cannot be read or an answer that cannot be written.\n"
    "\n"
    "What is proved: every answer, row and value comes from a library whose calls are proved to give what their definitions say. What is not: this\n"
    "command around it, which reads the file, looks up names and lines in a text, and prints; and MiniZinc with its library and script.\n";

static struct {
    const char *command;
    enum form form;
    int model, rows, candidate, out_bytes, json;
    const char *file, *values_file, *data;
    char **values;
    int values_count;
} option;

static struct input in;
static int32_t *values;
static size_t values_count, named_count;
static char *is_given;

/* ---- Printing */

static int wrong_usage(const char *what, const char *which) {
    fprintf(stderr, "pearrummy: %s%s%s\nTry: pearrummy --help\n", what, which ? ": " : "", which ? which : "");
    return USAGE;
}

/* Bytes above 126 are written as they are where the text is UTF-8, else as characters of these numbers. */
static void json_string(const char *text, size_t length, int is_utf8) {
    putchar('"');
    for (size_t i = 0; i < length; i++) {
        unsigned char c = (unsigned char)text[i];
        if (c == '"' || c == '\\') printf("\\%c", c);
        else if (c < 32 || c == 127 || (c > 127 && !is_utf8)) printf("\\u%04X", c);
        else putchar(c);
    }
    putchar('"');
}

static void json_text(const char *text, size_t length) { json_string(text, length, 0); }

/* The fields of a place in a model; flatten.py writes its file in UTF-8. */
static void json_place(struct place place) {
    printf(",\"file\":");
    json_string(place.file, strlen(place.file), 1);
    printf(",\"line\":%zu", place.line);
}

/* The byte of the text that a place speaks of: of faults in a text the place itself, of faults in its words the token that says that word. */
static int byte_of(uint32_t fault, size_t place, size_t *byte) {
    int of_text = fault >= PEARRUMMY_BREAKS_GRAMMAR && fault <= PEARRUMMY_OUTSIDE_RANGE;
    int has_place = fault >= PEARRUMMY_WORDS_END && fault <= PEARRUMMY_TOO_MANY_IN_ALL;
    if (in.form != TEXT || !(of_text || ((has_place || fault == PEARRUMMY_LOWEST_NUMBER) && place < in.tokens_count))) return 0;
    *byte = of_text ? place : in.tokens[place];
    return 1;
}

/* A token of a file in a message: long ones are cut, and what a terminal does not print stands as its number, two hexadecimal digits a byte. */
static void tell_token(const char *token, size_t length) {
    fprintf(stderr, ", '");
    for (size_t i = 0; i < length && i < LONGEST_TOLD; i++) {
        unsigned char c = (unsigned char)token[i];
        fprintf(stderr, c < 32 || c > 126 ? "\\x%02X" : "%c", c);
    }
    fprintf(stderr, length > LONGEST_TOLD ? "..'" : "'");
}

static int refuse(uint32_t fault, size_t place) {
    int placeless = fault == PEARRUMMY_TOO_MANY_WORDS || fault == PEARRUMMY_WRONG_VALUE_COUNT || fault == PEARRUMMY_OUTPUT_TOO_SHORT || (fault >= PEARRUMMY_TOO_MANY_LISTS && fault != PEARRUMMY_NOT_A_BIT);
    size_t byte = 0;
    int has_byte = byte_of(fault, place, &byte);
    struct position p = position_of(&in, byte);
    struct place in_model = {NULL, 0};
    if (has_byte) in_model = place_of(&in, byte);
    if (option.json) {
        printf("{\"answer\":\"refused\",\"fault\":%" PRIu32 ",\"place\":%zu,\"text\":", fault, place);
        json_text(pearrummy_fault_text(fault), strlen(pearrummy_fault_text(fault)));
        if (in_model.file) json_place(in_model);
        else if (has_byte) printf(",\"line\":%zu,\"column\":%zu", p.line, p.column);
        if (has_byte) {
            printf(",\"token\":");
            json_text(in.bytes + byte, p.length);
        }
        printf("}\n");
        return REFUSED;
    }
    fprintf(stderr, "pearrummy: %s: fault %" PRIu32, in.name, fault);
    if (in_model.file) fprintf(stderr, " at %s line %zu", in_model.file, in_model.line);
    else if (has_byte) fprintf(stderr, " at line %zu, column %zu%s", p.line, p.column, in.flattened ? " of its FlatZinc" : "");
    else if (!placeless) fprintf(stderr, " at %s %zu", fault == PEARRUMMY_NOT_A_BIT ? "bit" : "word", place);
    if (has_byte && p.length) tell_token(in.bytes + byte, p.length);
    if (has_byte && !p.length) fprintf(stderr, ", the end of the text");
    fprintf(stderr, ": %s\n", pearrummy_fault_text(fault));
    return REFUSED;
}

static void print_words(const uint32_t *words, size_t count) {
    if (option.json) printf("{\"answer\":\"done\",\"words\":[");
    for (size_t i = 0; i < count; i++) {
        uint32_t w = words[i];
        if (option.out_bytes) for (int k = 0; k < 4; k++) putchar((int)(w >> 8 * k & 255));
        else if (option.json) printf("%s\"%08" PRIX32 "\"", i ? "," : "", w);
        else printf("%08" PRIX32 "\n", w);
    }
    if (option.json) printf("]}\n");
}

static void print_values(const char *answer, const int32_t *list, size_t count) {
    if (option.json) printf("{\"answer\":\"%s\",\"values\":[", answer);
    for (size_t i = 0; i < count; i++) printf("%s%" PRId32, i ? option.json ? "," : " " : "", list[i]);
    printf(option.json ? "]}\n" : "\n");
}

/* ---- What accepted words say */

static int32_t number_of(uint32_t word) { return (int32_t)(word & 0xFFFFFFF) - (word & 0x8000000 ? 0x10000000 : 0); }

static const char *const builtins[] = {
    "int_eq", "int_le", "int_lt", "int_ne", "int_le_reif", "int_plus", "int_times", "int_abs", "int_max", "int_lin_eq", "int_lin_le", "int_lin_ne",
    "int_lin_eq_reif", "int_eq_reif", "int_lin_le_reif", "bool2int", "bool_not", "bool_and", "bool_or", "bool_xor", "bool_clause", "array_bool_and",
    "array_bool_xor", "array_int_element", "array_var_int_element", "array_int_maximum", "set_in", "set_in_reif", "int_min", "int_lt_reif",
    "int_ne_reif", "int_lin_ne_reif", "array_int_minimum", "bool_eq_reif", "bool_le_reif", "bool_lt_reif", "int_div", "int_mod", "int_pow"};

/* A variable by its name in the text, v and its number, or for an auxiliary of a text # and its number. */
static void print_variable(size_t v) {
    if (v < in.names_count) printf("%s", in.labels[v]);
    else printf("%c%zu", in.form == TEXT ? '#' : 'v', v);
}

static void say_variable(const uint32_t *words, size_t count, size_t v) {
    size_t k = 0;
    for (size_t i = 0; i < count; i++) {
        uint32_t kind = words[i] >> 28;
        if (kind != 1 && kind != 3 && kind != 8) continue;
        if (k++ < v) continue;
        int32_t low = kind == 3 ? 0 : number_of(words[i]), high = kind == 3 || i + 1 == count ? 1 : number_of(words[i + 1]);
        if (option.json) {
            printf("{\"answer\":\"out of bounds\",\"variable\":%zu,", v);
            if (v < in.names_count) {
                printf("\"name\":");
                json_string(in.labels[v], strlen(in.labels[v]), 1);
                printf(",");
            }
            printf("\"value\":%" PRId32 ",\"lower\":%" PRId32 ",\"upper\":%" PRId32 "}\n", values[v], low, high);
            return;
        }
        print_variable(v);
        printf(" is out of bounds: %" PRId32 " is not in %" PRId32 "..%" PRId32 "\n", values[v], low, high);
        return;
    }
}

/* The builtin of a constraint, and where it stands; answers through the fields of a JSON object, or in brackets. */
static void say_constraint(size_t constraint) {
    size_t k = 0, head = 0;
    for (size_t i = 0; i < in.count; i++) {
        if (in.words[i] >> 28 != 4 || k++ != constraint) continue;
        head = i;
        break;
    }
    size_t code = in.words[head] & 0xFFFFFFF;
    const char *builtin = code >= 1 && code <= sizeof builtins / sizeof builtins[0] ? builtins[code - 1] : "?";
    struct place place = {NULL, 0};
    if (constraint < in.places_count) place = in.places[constraint];
    if (option.candidate) printf(option.json ? "\"constraint\":%zu" : "constraint %zu", constraint);
    else if (option.json) {
        printf("\"constraint\":%zu,\"builtin\":\"%s\"", constraint, builtin);
        if (place.file) json_place(place);
        else if (place.line) printf(",\"line\":%zu", place.line);
    } else if (place.file) printf("constraint %zu (%s, %s line %zu)", constraint, builtin, place.file, place.line);
    else if (place.line) printf("constraint %zu (%s, line %zu%s)", constraint, builtin, place.line, in.flattened ? " of its FlatZinc" : "");
    else printf("constraint %zu (%s)", constraint, builtin);
}

/* ---- Values */

static int is_name(const char *name, const char *text, size_t length) { return strlen(name) == length && !memcmp(name, text, length); }

static int add_value(const char *text) {
    const char *equals = strchr(text, '=');
    size_t at = equals ? 0 : values_count;
    if (equals) {
        size_t length = (size_t)(equals - text);
        while (at < in.names_count && !is_name(in.labels[at], text, length) && !is_name(in.names[at], text, length)) at++;
        if (in.form != TEXT) return wrong_usage("names of variables are known where the file is text or a MiniZinc model", text);
        if (at == in.names_count) return wrong_usage("no variable has this name", text);
        if (is_given[at]) return wrong_usage("a second value of this variable", text);
        is_given[at] = 1;
        named_count++;
    }
    const char *number = equals ? equals + 1 : text, *digits = number + (*number == '-');
    char *end;
    errno = 0;
    long long value = strtoll(number, &end, 10);
    if (*digits < '0' || *digits > '9' || *end || errno || value < INT32_MIN || value > INT32_MAX) return wrong_usage("no number of 32 bits", text);
    values[at] = (int32_t)value;
    values_count += !equals;
    return DONE;
}

static int read_values(void) {
    struct input file;
    memset(&file, 0, sizeof file);
    if (option.values_file && read_input(&file, option.values_file, TEXT, NULL)) return USAGE;
    if (file.size && memchr(file.bytes, 0, file.size)) return wrong_usage("a zero byte stands among the values", option.values_file);
    size_t words = 0;
    for (size_t i = 0; i < file.size; i++) words += i == 0 || strchr(" \n\r\t", file.bytes[i - 1]) != NULL;
    values = reserve((size_t)option.values_count + words + in.names_count, sizeof *values);
    is_given = reserve(in.names_count, 1);
    for (int i = 0; i < option.values_count; i++) {
        int failed = add_value(option.values[i]);
        if (failed) return failed;
    }
    char *text = reserve(file.size + 1, 1);
    memcpy(text, file.bytes ? file.bytes : "", file.size);
    for (char *word = strtok(text, " \n\r\t"); word; word = strtok(NULL, " \n\r\t")) {
        int failed = add_value(word);
        if (failed) return failed;
    }
    if (named_count && values_count) return wrong_usage("values stand all by name or all in order", NULL);
    for (size_t v = 0; named_count && v < in.names_count; v++)
        if (!is_given[v]) return wrong_usage("no value is given of", in.labels[v]);
    values_count += named_count;
    return DONE;
}

/* ---- The commands */

static int judged(struct pearrummy_judgement j, const uint32_t *words, size_t count, int of_rows) {
    if (j.said == PEARRUMMY_REFUSED) return refuse(j.fault, j.at);
    if (j.said == PEARRUMMY_HOLDS) return DONE;
    if (j.said == PEARRUMMY_OUT_OF_BOUNDS) {
        say_variable(words, count, j.at);
        return FALSE;
    }
    if (option.json) {
        printf("{\"answer\":\"false\",");
        if (of_rows) printf("\"row\":%zu", j.at);
        else say_constraint(j.at);
        printf("}\n");
    } else {
        if (of_rows) printf("row %zu", j.at);
        else say_constraint(j.at);
        printf(" is false\n");
    }
    return FALSE;
}

static int is_rows(void) {
    if (option.model || option.candidate || in.form == TEXT) return 0;
    return option.rows || (in.count && in.words[in.count - 1] >> 28 == 15);
}

static int check(void) {
    if (is_rows()) {
        struct pearrummy_judgement j = pearrummy_judge_rows(in.words, in.count, NULL, 0);
        if (j.said == PEARRUMMY_REFUSED && j.fault != PEARRUMMY_WRONG_VALUE_COUNT) return refuse(j.fault, j.at);
        printf(option.json ? "{\"answer\":\"accepted\"}\n" : "the row system is in order\n");
        return DONE;
    }
    struct pearrummy_counts c = option.candidate ? pearrummy_pair_check(in.words, in.count, (uint32_t)option.candidate) : pearrummy_check(in.words, in.count);
    if (c.fault) return refuse(c.fault, c.place);
    printf(option.json ? "{\"answer\":\"accepted\",\"variables\":%zu,\"constraints\":%zu,\"auxiliaries\":%zu,\"rows\":%zu,\"words\":%zu}\n"
                       : "variables %zu, constraints %zu, auxiliaries %zu, rows %zu, words %zu\n",
           c.variables, c.constraints, c.auxiliaries, c.rows, c.words);
    return DONE;
}

/* The words of the row system: the file's own, or those of the model. */
static int row_words(uint32_t **words, size_t *count) {
    *words = in.words;
    *count = in.count;
    if (is_rows()) return DONE;
    *words = reserve(PEARRUMMY_ROW_WORDS, sizeof **words);
    struct pearrummy_written w = option.candidate ? pearrummy_pair_translate(in.words, in.count, (uint32_t)option.candidate, *words, PEARRUMMY_ROW_WORDS)
                                                  : pearrummy_translate(in.words, in.count, *words, PEARRUMMY_ROW_WORDS);
    *count = w.words;
    return w.fault ? refuse(w.fault, w.place) : DONE;
}

static int translate(void) {
    uint32_t *words;
    size_t count;
    int failed = row_words(&words, &count);
    if (!failed) print_words(words, count);
    return failed;
}

static void print_row(const uint32_t *w) {
    uint32_t terms = w[0] & 0xFFFFFFF;
    for (uint32_t t = 0; t < terms; t++) {
        int32_t c = number_of(w[2 + 2 * t]);
        if (option.json) printf("%s[%" PRId32 ",%" PRIu32 "]", t ? "," : "", c, w[1 + 2 * t] & 0xFFFFFFF);
        else {
            fputs(t ? c < 0 ? " - " : " + " : c < 0 ? "-" : "", stdout);
            if (c != 1 && c != -1) printf("%" PRId32 "*", c < 0 ? -c : c);
            print_variable(w[1 + 2 * t] & 0xFFFFFFF);
        }
    }
    int32_t k = number_of(w[1 + 2 * terms]);
    if (option.json) printf("],\"constant\":%" PRId32 "}", k);
    else if (!terms) printf("%" PRId32, k);
    else if (k) printf(" %c %" PRId32, k < 0 ? '-' : '+', k < 0 ? -k : k);
}

static int show_rows(void) {
    uint32_t *words;
    size_t count, v = 0, r = 0;
    int failed = row_words(&words, &count);
    if (failed) return failed;
    struct pearrummy_judgement j = pearrummy_judge_rows(words, count, NULL, 0);
    if (j.said == PEARRUMMY_REFUSED && j.fault != PEARRUMMY_WRONG_VALUE_COUNT) return refuse(j.fault, j.at);
    if (option.json) printf("{\"answer\":\"done\",\"items\":[");
    for (size_t i = 0; i + 1 < count;) {
        uint32_t kind = words[i] >> 28;
        const char *comma = i ? "," : "";
        if (kind == 1 || kind == 3 || kind == 8) {
            int32_t low = kind == 3 ? 0 : number_of(words[i]), high = kind == 3 ? 1 : number_of(words[i + 1]);
            if (option.json) printf("%s{\"variable\":%zu,\"lower\":%" PRId32 ",\"upper\":%" PRId32 ",\"auxiliary\":%s}", comma, v, low, high, kind == 8 ? "true" : "false");
            else {
                print_variable(v);
                printf(" in %" PRId32 "..%" PRId32 "%s\n", low, high, kind == 8 ? ", auxiliary" : "");
            }
            v++;
            i += kind == 3 ? 1 : 2;
        } else if (kind == 12) {
            if (option.json) printf("%s{\"row\":%zu,\"product\":[%" PRIu32 ",%" PRIu32 ",%" PRIu32 "]}", comma, r, words[i + 1] & 0xFFFFFFF, words[i + 2] & 0xFFFFFFF, words[i + 3] & 0xFFFFFFF);
            else {
                printf("row %zu: ", r);
                print_variable(words[i + 1] & 0xFFFFFFF);
                printf(" = ");
                print_variable(words[i + 2] & 0xFFFFFFF);
                printf(" * ");
                print_variable(words[i + 3] & 0xFFFFFFF);
                printf("\n");
            }
            r++;
            i += 4;
        } else {
            if (option.json) printf("%s{\"row\":%zu,\"sign\":\"%s\",\"terms\":[", comma, r, kind == 10 ? "<=" : "=");
            else printf("row %zu: ", r);
            print_row(words + i);
            if (!option.json) printf(" %s 0\n", kind == 10 ? "<=" : "=");
            r++;
            i += 2 + 2 * (words[i] & 0xFFFFFFF);
        }
    }
    if (option.json) printf("]}\n");
    return DONE;
}

static int sheet(void) {
    uint32_t *words;
    size_t count;
    int failed = row_words(&words, &count);
    if (failed) return failed;
    size_t room = 81 * (size_t)PEARRUMMY_ROW_WORDS;
    uint8_t *page = reserve(room, 1);
    struct pearrummy_printed p = pearrummy_sheet(words, count, page, room);
    if (p.fault) return refuse(p.fault, p.place);
    if (option.json) {
        printf("{\"answer\":\"done\",\"sheet\":");
        json_text((const char *)page, p.bytes);
        printf("}\n");
    } else fwrite(page, 1, p.bytes, stdout);
    return DONE;
}

static int judge(void) {
    int of_rows = is_rows();
    struct pearrummy_judgement j = of_rows            ? pearrummy_judge_rows(in.words, in.count, values, values_count)
                                   : option.candidate ? pearrummy_pair_judge_model(in.words, in.count, (uint32_t)option.candidate, values, values_count)
                                                      : pearrummy_judge_model(in.words, in.count, values, values_count);
    int said = judged(j, in.words, in.count, of_rows);
    if (!said) printf(option.json ? "{\"answer\":\"holds\"}\n" : "holds\n");
    return said;
}

static int fill(void) {
    int32_t *filled = reserve(PEARRUMMY_VALUES, sizeof *filled);
    struct pearrummy_judgement j = option.candidate ? pearrummy_pair_fill(in.words, in.count, (uint32_t)option.candidate, values, values_count, filled, PEARRUMMY_VALUES)
                                                    : pearrummy_fill(in.words, in.count, values, values_count, filled, PEARRUMMY_VALUES);
    int said = judged(j, in.words, in.count, 0);
    if (!said) print_values("holds", filled, j.at);
    return said;
}

static int reason(void) {
    struct pearrummy_explanation e = pearrummy_reason(in.words, in.count, values, values_count);
    if (e.reason == PEARRUMMY_NOT_EXPLAINED) return refuse(e.fault, e.place);
    if (e.reason == PEARRUMMY_NO_ROW_FAILS) {
        printf(option.json ? "{\"answer\":\"none\"}\n" : "no row fails\n");
        return DONE;
    }
    if (e.reason == PEARRUMMY_VALUE_OUT_OF_BOUNDS) {
        uint32_t *words;
        size_t count;
        int failed = row_words(&words, &count);
        if (!failed) say_variable(words, count, e.place);
        return failed ? failed : FALSE;
    }
    int builtin = e.reason == PEARRUMMY_BUILTIN_FALSE;
    if (option.json) printf("{\"answer\":\"%s\",\"row\":%zu,", builtin ? "builtin" : "auxiliaries", e.row);
    else printf("row %zu fails: ", e.row);
    say_constraint(e.constraint);
    printf("%s", option.json ? "}\n" : builtin ? " is false\n" : " is true, but auxiliaries in the row are wrong\n");
    return FALSE;
}

static int solutions(void) {
    struct pearrummy_counts c = pearrummy_check(in.words, in.count);
    size_t room = (size_t)PEARRUMMY_LISTED_VARIABLES * PEARRUMMY_LISTED_LISTS;
    int32_t *lists = reserve(room, sizeof *lists);
    struct pearrummy_listed l = pearrummy_solutions(in.words, in.count, lists, room);
    if (l.fault) return refuse(l.fault, l.place);
    if (option.json) printf("{\"answer\":\"done\",\"solutions\":[");
    for (size_t s = 0; s < l.solutions; s++) {
        if (option.json) printf("%s[", s ? "," : "");
        for (size_t v = 0; v < c.variables; v++) printf("%s%" PRId32, v ? option.json ? "," : " " : "", lists[s * c.variables + v]);
        printf(option.json ? "]" : "\n");
    }
    if (option.json) printf("]}\n");
    return DONE;
}

static int bits(void) {
    uint32_t *words, *form = reserve(PEARRUMMY_FORM_WORDS, sizeof *form);
    size_t count;
    int failed = row_words(&words, &count);
    if (failed) return failed;
    struct pearrummy_written w = pearrummy_bits(words, count, form, PEARRUMMY_FORM_WORDS);
    if (w.fault) return refuse(w.fault, w.place);
    print_words(form, w.words);
    return DONE;
}

static int text(void) {
    if (in.form != TEXT) return wrong_usage("text takes FlatZinc text, a file whose name ends in .fzn, or --text", NULL);
    print_words(in.words, in.count);
    return DONE;
}

/* What a command takes besides a model, and whether it prints words. */
enum { VALUES = 1, CANDIDATES = 2, ROWS = 4, WORDS = 8 };

static const struct command {
    const char *name;
    int (*run)(void);
    int has;
} commands[] = {{"check", check, CANDIDATES | ROWS}, {"translate", translate, CANDIDATES | WORDS}, {"rows", show_rows, CANDIDATES | ROWS},
                {"sheet", sheet, CANDIDATES | ROWS}, {"judge", judge, VALUES | CANDIDATES | ROWS}, {"fill", fill, VALUES | CANDIDATES},
                {"reason", reason, VALUES}, {"solutions", solutions, 0}, {"bits", bits, CANDIDATES | ROWS | WORDS}, {"text", text, ROWS | WORDS}};

/* ---- The arguments */

static int is_value(const char *text) { return (text[0] == '-' && text[1] >= '0' && text[1] <= '9') || text[0] != '-'; }

static enum form form_of(const char *text) { return !strcmp(text, "--text") ? TEXT : !strcmp(text, "--hex") ? HEXADECIMAL : !strcmp(text, "--bytes") ? BYTES : BY_NAME; }

static int read_arguments(int n, char **a) {
    option.values = reserve((size_t)n, sizeof *option.values);
    for (int i = 1; i < n; i++) {
        const char *s = a[i];
        enum form form = form_of(s);
        int is_second = (!strcmp(s, "--values") && option.values_file) || (!strcmp(s, "--data") && option.data) || (!strcmp(s, "--candidate") && option.candidate);
        if (is_second) return wrong_usage("a second time", s);
        if (form != BY_NAME && option.form != BY_NAME && form != option.form) return wrong_usage("--text, --hex and --bytes exclude each other", NULL);
        if (form != BY_NAME) option.form = form;
        else if (!strcmp(s, "--model")) option.model = 1;
        else if (!strcmp(s, "--rows")) option.rows = 1;
        else if (!strcmp(s, "--out-bytes")) option.out_bytes = 1;
        else if (!strcmp(s, "--json")) option.json = 1;
        else if (!strcmp(s, "--values")) {
            if (++i == n) return wrong_usage("--values wants a file", NULL);
            option.values_file = a[i];
        } else if (!strcmp(s, "--data")) {
            if (++i == n) return wrong_usage("--data wants a file", NULL);
            option.data = a[i];
        } else if (!strcmp(s, "--candidate")) {
            if (++i == n || (strcmp(a[i], "1") && strcmp(a[i], "2"))) return wrong_usage("--candidate wants 1 or 2", NULL);
            option.candidate = a[i][0] - '0';
        } else if (!option.command && is_value(s)) option.command = s;
        else if (!option.file && (is_value(s) || !strcmp(s, "-"))) option.file = s;
        else if (is_value(s)) option.values[option.values_count++] = a[i];
        else return wrong_usage("no such option", s);
    }
    if (option.model && option.rows) return wrong_usage("--model and --rows exclude each other", NULL);
    if (option.candidate && option.rows) return wrong_usage("--candidate and --rows exclude each other", NULL);
    if (option.out_bytes && option.json) return wrong_usage("--out-bytes and --json exclude each other", NULL);
    return DONE;
}

static int run(int n, char **a) {
    for (int i = 1; i < n; i++) {
        if (!strcmp(a[i], "--help") || (i == 1 && !strcmp(a[i], "help"))) return fputs(help, stdout), DONE;
        if (!strcmp(a[i], "--version")) return printf("pearrummy %s, %d builtins\n", PEARRUMMY_VERSION, PEARRUMMY_CODES), DONE;
    }
    int failed = read_arguments(n, a);
    if (failed) return failed;
    if (!option.command) return fputs(help, stderr), USAGE;
    size_t k = 0, known = sizeof commands / sizeof commands[0];
    while (k < known && strcmp(commands[k].name, option.command)) k++;
    if (k == known) return wrong_usage("no such command", option.command);
    if (!option.file) return wrong_usage("a file is wanted, - for standard input", NULL);
    const struct command *command = &commands[k];
    if (!(command->has & VALUES) && (option.values_count || option.values_file)) return wrong_usage("this command takes no values", command->name);
    if (!(command->has & CANDIDATES) && option.candidate) return wrong_usage("this command takes no candidate", command->name);
    if (!(command->has & WORDS) && option.out_bytes) return wrong_usage("this command prints no words", command->name);
    if (option.values_file && !strcmp(option.values_file, "-") && !strcmp(option.file, "-")) return wrong_usage("standard input holds the file or the values, not both", NULL);
    if ((failed = read_input(&in, option.file, option.form, option.data))) return failed;
    if (option.data && !in.flattened) return wrong_usage("--data is of a MiniZinc model, and this file is not read as one", option.file);
    if (in.form == TEXT) {
        if (option.rows || option.candidate) return wrong_usage("--rows and --candidate are of words, and this file is read as text", option.file);
        in.words = reserve(PEARRUMMY_MODEL_WORDS, sizeof *in.words);
        struct pearrummy_written w = pearrummy_text((const uint8_t *)in.bytes, in.size, in.words, PEARRUMMY_MODEL_WORDS);
        if (w.fault) return refuse(w.fault, w.place);
        in.count = w.words;
        find_places(&in);
    }
    if (is_rows() && !(command->has & ROWS)) return wrong_usage("these are the words of a row system, and this command takes a model", command->name);
    if (command->has & VALUES && (failed = read_values())) return failed;
    return command->run();
}

int main(int n, char **a) {
    int status = run(n, a);
    if (!fflush(stdout) && !ferror(stdout)) return status;
    fprintf(stderr, "pearrummy: the answer cannot be written\n");
    return USAGE;
}

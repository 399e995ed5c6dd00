#define _POSIX_C_SOURCE 200809L
#include "input.h"
#include <errno.h>
#include <stdio.h>
#include <stdlib.h>
#include <string.h>
#include <sys/wait.h>
#include <unistd.h>

/* Where rows.msc and its library stand; `make` says it. */
#ifndef MINIZINC_FOLDER
#define MINIZINC_FOLDER "minizinc"
#endif

static void *given(void *memory) {
    if (memory) return memory;
    fprintf(stderr, "pearrummy: out of memory\n");
    exit(64);
}

void *reserve(size_t count, size_t size) { return given(calloc(count ? count : 1, size)); }

/* Far more than any text or words need that the library accepts, and an end for what has none. */
enum { MOST_BYTES = 64 << 20 };

static int read_all(struct input *in, FILE *file) {
    size_t room = 1 << 16;
    in->bytes = reserve(room, 1);
    while ((in->size += fread(in->bytes + in->size, 1, room - in->size, file)) == room && room <= MOST_BYTES) in->bytes = given(realloc(in->bytes, room *= 2));
    if (ferror(file)) fprintf(stderr, "pearrummy: %s: it cannot be read\n", in->name);
    else if (in->size > MOST_BYTES) fprintf(stderr, "pearrummy: %s: it has more than 64 MiB\n", in->name);
    return ferror(file) || in->size > MOST_BYTES ? 64 : 0;
}

static int unreadable(const char *name) {
    fprintf(stderr, "pearrummy: %s: %s\n", name, strerror(errno));
    return 64;
}

static int read_bytes(struct input *in) {
    FILE *file = strcmp(in->name, "-") ? fopen(in->name, "rb") : stdin;
    if (!file) return unreadable(in->name);
    int failed = read_all(in, file);
    if (file != stdin) fclose(file);
    return failed;
}

/* MiniZinc flattens the model with the library of this folder, and flatten.py, its "solver", prints the text. */
static void run_minizinc(const char *model, const char *data, int out) {
    const char *folder = getenv("PEARRUMMY_MINIZINC");
    if (!folder) folder = MINIZINC_FOLDER;
    char *solver = reserve(strlen(folder) + sizeof "/rows.msc", 1);
    strcat(strcpy(solver, folder), "/rows.msc");
    dup2(out, 1);
    execlp("minizinc", "minizinc", "--solver", solver, "--no-half-reifications", "--keep-paths", model, data, (char *)NULL);
    fprintf(stderr, "pearrummy: %s: minizinc cannot be run: %s\n", model, strerror(errno));
    _exit(127);
}

static int read_minizinc(struct input *in, const char *data) {
    int ends[2], status = 0;
    if (data && access(data, R_OK)) return unreadable(data);
    if (access(in->name, R_OK) || pipe(ends)) return unreadable(in->name);
    pid_t child = fork();
    if (child == 0) run_minizinc(in->name, data, ends[1]);
    FILE *file = child < 0 ? NULL : fdopen(ends[0], "rb");
    if (!file) return unreadable(in->name);
    close(ends[1]);
    int failed = read_all(in, file);
    fclose(file);
    if (waitpid(child, &status, 0) != child || failed) return 64;
    if (WIFEXITED(status) && WEXITSTATUS(status) == 127) return 64;
    if (WIFEXITED(status) && WEXITSTATUS(status) == 0 && in->size && memchr(in->bytes, ';', in->size)) return 0;
    fprintf(stderr, "pearrummy: %s: MiniZinc does not carry this model over to rows\n", in->name);
    return 2;
}

static int ends_in(const char *name, const char *ending) {
    size_t n = strlen(name), e = strlen(ending);
    return n > e && !strcmp(name + n - e, ending);
}

/* Four bytes to a word, the lowest first; 1 to 3 spare bytes are left off. */
static void words_of_bytes(struct input *in) {
    in->count = in->size / 4;
    in->words = reserve(in->count, sizeof *in->words);
    for (size_t i = 0; i < in->count; i++) {
        const unsigned char *b = (const unsigned char *)in->bytes + 4 * i;
        in->words[i] = b[0] | (uint32_t)b[1] << 8 | (uint32_t)b[2] << 16 | (uint32_t)b[3] << 24;
    }
}

static int digit_of(char c) {
    if (c >= '0' && c <= '9') return c - '0';
    if (c >= 'A' && c <= 'F') return c - 'A' + 10;
    if (c >= 'a' && c <= 'f') return c - 'a' + 10;
    return -1;
}

static int is_blank(char c) { return c == ' ' || c == '\t' || c == '\r' || c == '\n'; }

/* Words of eight digits, between them blanks and comments from # to the end of the line. */
static int words_of_digits(struct input *in) {
    in->words = reserve(in->size / 8 + 1, sizeof *in->words);
    size_t i = 0;
    while (i < in->size) {
        if (in->bytes[i] == '#') {
            while (i < in->size && in->bytes[i] != '\n') i++;
            continue;
        }
        if (is_blank(in->bytes[i])) {
            i++;
            continue;
        }
        size_t from = i;
        uint32_t word = 0;
        while (i < in->size && digit_of(in->bytes[i]) >= 0) word = word << 4 | (uint32_t)digit_of(in->bytes[i++]);
        int ended = i == in->size || is_blank(in->bytes[i]) || in->bytes[i] == '#';
        if (!ended || i - from != 8) {
            struct position p = position_of(in, ended ? from : i);
            fprintf(stderr, "pearrummy: %s: line %zu, column %zu: ", in->name, p.line, p.column);
            if (ended) fprintf(stderr, "a word has eight hexadecimal digits, not %zu\n", i - from);
            else fprintf(stderr, "no hexadecimal digit (FlatZinc text wants --text, bytes want --bytes)\n");
            return 64;
        }
        in->words[in->count++] = word;
    }
    return 0;
}

int read_input(struct input *in, const char *name, enum form form, const char *data) {
    memset(in, 0, sizeof *in);
    in->name = name;
    in->form = form != BY_NAME ? form : ends_in(name, ".fzn") ? TEXT : ends_in(name, ".mzn") ? MINIZINC : ends_in(name, ".bin") ? BYTES : HEXADECIMAL;
    in->flattened = in->form == MINIZINC;
    int failed = in->flattened ? read_minizinc(in, data) : read_bytes(in);
    if (in->flattened) in->form = TEXT;
    if (failed) return failed;
    if (in->form == BYTES) words_of_bytes(in);
    return in->form == HEXADECIMAL ? words_of_digits(in) : 0;
}

/* ---- Tokens, as far as places need them; the library alone decides what a text says. */

static int is_letter(char c) { return (c >= 'a' && c <= 'z') || (c >= 'A' && c <= 'Z'); }
static int is_digit(char c) { return c >= '0' && c <= '9'; }

static size_t next_token(const struct input *in, size_t i) {
    while (i < in->size && (in->bytes[i] == ' ' || in->bytes[i] == '\n' || in->bytes[i] == '%')) {
        if (in->bytes[i] == '%') while (i < in->size && in->bytes[i] != '\n') i++;
        else i++;
    }
    return i;
}

static size_t token_end(const struct input *in, size_t i) {
    size_t end = i + 1;
    if (i >= in->size) return i;
    if (is_letter(in->bytes[i])) while (end < in->size && (is_letter(in->bytes[end]) || is_digit(in->bytes[end]) || in->bytes[end] == '_')) end++;
    else if (is_digit(in->bytes[i]) || in->bytes[i] == '-') while (end < in->size && is_digit(in->bytes[end])) end++;
    else if (in->bytes[i] == '.' && end < in->size && in->bytes[end] == '.') end++;
    return end;
}

static int spells(const struct input *in, size_t from, size_t to, const char *text) {
    return to - from == strlen(text) && !memcmp(in->bytes + from, text, to - from);
}

struct position position_of(const struct input *in, size_t byte) {
    struct position p = {1, 1, 0};
    for (size_t i = 0; i < byte && i < in->size; i++) {
        p.column++;
        if (in->bytes[i] == '\n') {
            p.line++;
            p.column = 1;
        }
    }
    p.length = byte < in->size ? token_end(in, byte) - byte : 0;
    return p;
}

static char *copy_of(const struct input *in, size_t from, size_t to) { return memcpy(reserve(to - from + 1, 1), in->bytes + from, to - from); }

/* The first of the model's names in the comment `; % NUMBER NAME..` that flatten.py writes behind a declaration, or null. */
static char *label_behind(const struct input *in, size_t i) {
    while (i < in->size && in->bytes[i] != ';') i++;
    if (i + 4 >= in->size || memcmp(in->bytes + i, "; % ", 4)) return NULL;
    for (i += 4; i < in->size && is_digit(in->bytes[i]);) i++;
    size_t from = i + 1, to = from;
    while (to < in->size && in->bytes[to] != ' ' && in->bytes[to] != '\n') to++;
    if (to <= from || in->bytes[i] != ' ' || in->bytes[from] == '%') return NULL;
    return copy_of(in, from, to);
}

/* The byte behind the first place of a text between two bytes, the second of them where it is not there. */
static size_t behind(const struct input *in, size_t from, size_t to, const char *text) {
    size_t length = strlen(text);
    for (; from + length <= to; from++)
        if (!memcmp(in->bytes + from, text, length)) return from + length;
    return to;
}

/* flatten.py writes an item a line, `constraint ..; % FILE:LINE` and `var ..; % NUMBER NAME.. % FILE:LINE`. */
struct place place_of(const struct input *in, size_t byte) {
    struct place place = {NULL, 0};
    size_t start = byte < in->size ? byte : in->size, end = start;
    if (!in->flattened) return place;
    while (start > 0 && in->bytes[start - 1] != '\n') start--;
    while (end < in->size && in->bytes[end] != '\n') end++;
    if (start == end) return place;
    size_t from = behind(in, start, end, "; % "), colon = end;
    if (in->bytes[start] == 'v') from = behind(in, from, end, " % ");
    while (colon > from && is_digit(in->bytes[colon - 1])) colon--;
    if (colon == end || end - colon > 9 || colon < from + 2 || in->bytes[colon - 1] != ':') return place;
    for (size_t i = colon; i < end; i++) place.line = 10 * place.line + (size_t)digit_of(in->bytes[i]);
    place.file = copy_of(in, from, colon - 1);
    return place;
}

/* A token that says a word: a bound or `bool`, the name of a builtin, an argument, the bracket that opens a list, but not the second of parallel
 * lists, and the last semicolon. */
void find_places(struct input *in) {
    in->names = reserve(in->count, sizeof *in->names);
    in->labels = reserve(in->count, sizeof *in->labels);
    in->places = reserve(in->count, sizeof *in->places);
    in->tokens = reserve(in->count, sizeof *in->tokens);
    char before = ';';
    int in_item = 0, in_constraint = 0, is_linear = 0, lists = 0;
    size_t found = 0, last = 0, line = 1, counted = 0;
    for (size_t i = next_token(in, 0), end; i < in->size; i = next_token(in, end)) {
        end = token_end(in, i);
        char c = in->bytes[i];
        int says = 0;
        if (before == ';') {
            in_item = 1;
            in_constraint = spells(in, i, end, "constraint");
        } else if (in_item == 1 && is_letter(c)) {
            says = in_constraint || spells(in, i, end, "bool");
            is_linear = in_constraint && end - i > 8 && !memcmp(in->bytes + i, "int_lin_", 8);
            lists = 0;
            in_item = 2;
            if (in_constraint && in->places_count < in->count) {
                struct place place = place_of(in, i);
                for (; counted < i; counted++) line += in->bytes[counted] == '\n';
                if (!place.file) place.line = line;
                in->places[in->places_count++] = place;
            }
        } else if (before == ':' && in->names_count < in->count) {
            char *name = copy_of(in, i, end), *label = in->flattened ? label_behind(in, end) : NULL;
            in->names[in->names_count] = name;
            in->labels[in->names_count++] = label ? label : name;
        } else if (is_digit(c) || c == '-' || (in_constraint && is_letter(c))) {
            says = 1;
            in_item = 2;
        } else if (c == '[' || c == '{') {
            says = !(is_linear && lists == 1);
            lists++;
        }
        if (says && found < in->count) in->tokens[found] = i;
        found += (size_t)says;
        before = c;
        last = i;
    }
    if (found < in->count) in->tokens[found] = last;
    in->tokens_count = found + 1 == in->count ? in->count : 0;
}

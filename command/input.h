/* What the command reads: a file or standard input, as FlatZinc text, hexadecimal words or bytes, or a MiniZinc model, which MiniZinc flattens. */
#ifndef COMMAND_INPUT_H
#define COMMAND_INPUT_H

#include <stddef.h>
#include <stdint.h>

enum form { BY_NAME, TEXT, HEXADECIMAL, BYTES, MINIZINC };

/* A line, of a file of a MiniZinc model, or of the text itself where the file is null. */
struct place { char *file; size_t line; };

/* `words` are those of the file, of a text those that the library read. The places of a text are known once the library has accepted it:
 * `names` of its variables in their order, `places` of its constraints, and for each word the byte of the token that says it. A text that comes from
 * MiniZinc has the model's own names in comments; these are `labels`, and `names` where a variable has none. Its places are those of the model where
 * comments say them. */
struct input {
    const char *name;
    enum form form;
    int flattened;
    char *bytes;
    size_t size;
    uint32_t *words;
    size_t count;
    char **names, **labels;
    size_t names_count;
    struct place *places;
    size_t places_count;
    size_t *tokens;
    size_t tokens_count;
};

/* Reads the file, `-` for standard input, in a form, which its name tells if none is given: .fzn is text, .mzn a MiniZinc model, with a file of data or
 * null, .bin bytes, all else hexadecimal. Answers 0 where it was read, 2 where MiniZinc refuses a model, 64 else; a message stands on standard error
 * then. The words of a text are not read here. */
int read_input(struct input *in, const char *name, enum form form, const char *data);

/* The names and places of a text that the library accepted, with the words that it wrote. */
void find_places(struct input *in);

/* Line and column of a byte, counted from 1, and how many bytes the token there has. */
struct position { size_t line, column, length; };
struct position position_of(const struct input *in, size_t byte);

/* Where in the model the item around a byte of a text from MiniZinc comes from; a null file where that is not known. */
struct place place_of(const struct input *in, size_t byte);

/* Memory, or the end of the program with a message. */
void *reserve(size_t count, size_t size);

#endif

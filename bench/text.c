/* Calls text once on each file that is named, in their order, with room for every model, and prints what it answers: fault, place, words. */
#include "../include/pearrummy.h"
#include <stdio.h>
#include <stdlib.h>

static uint32_t words[PEARRUMMY_MODEL_WORDS];

/* A file's bytes, and their number. */
static uint8_t *read_file(const char *name, size_t *count) {
    FILE *file = fopen(name, "rb");
    if (!file || fseek(file, 0, SEEK_END)) return NULL;
    long size = ftell(file);
    uint8_t *bytes = size < 0 ? NULL : malloc(size + 1);
    rewind(file);
    *count = bytes ? fread(bytes, 1, size, file) : 0;
    fclose(file);
    return bytes;
}

int main(int count, char **names) {
    for (int k = 1; k < count; k++) {
        size_t size = 0;
        uint8_t *text = read_file(names[k], &size);
        if (!text) {
            fprintf(stderr, "text: cannot read %s\n", names[k]);
            return 2;
        }
        struct pearrummy_written answer = pearrummy_text(text, size, words, PEARRUMMY_MODEL_WORDS);
        printf("%u %zu %zu\n", (unsigned)answer.fault, answer.place, answer.words);
        free(text);
    }
    return 0;
}

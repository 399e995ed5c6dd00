/* The faults in words, as docs/RULES.md has them. */
#include "../include/pearrummy.h"

static const char *const texts[] = {
    "no fault",
    "more than 8,192 words in a model, or 262,144 in a row system",
    "the words end too early",
    "the kind of the word does not belong there",
    "the upper bound is below its lower one",
    "the payload of a Boolean, product or end word is above 0",
    "a 257th variable starts",
    "a 257th constraint starts",
    "the code is unknown",
    "a list length is outside 0 to 32, an exponent outside 0 to 27, or a number of terms above 66",
    "a variable number is not declared so far, or has the wrong type",
    "a word follows the end word",
    "a variable whose values are encoded as bits has more than 64 of them",
    "a coefficient, constant or auxiliary bound of the rows is outside the range",
    "variables and auxiliaries pass 4,096",
    "the number of values is not that of the variables, in rows with the auxiliaries",
    "the lent list is too short",
    "the number of a product's result is not above both factors'",
    "a number is the lowest 28-bit number, which has no opposite",
    "the text breaks the grammar",
    "the name is unknown, or a variable is declared twice",
    "a number is outside -134,217,727 to 134,217,727",
    "more than 8 variables, or more than 65,536 value lists",
    "more than 1,024 bits are needed",
    "a number of a row over bits is beyond 16,384, or one of the form outside the range, or the energy is 2^62 or more",
    "a bit is neither 0 nor 1",
    "there is no such variable, or no such direction",
};

const char *pearrummy_fault_text(uint32_t fault) {
    return fault < sizeof texts / sizeof texts[0] ? texts[fault] : "no fault of this library";
}

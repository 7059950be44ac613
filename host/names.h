/* names.h: lines, fields and refusals in words, for the log and for error messages. */
#ifndef NAMES_H
#define NAMES_H

#include "../include/wrackpulley.h"

enum { FIELD_WORDS_ROOM = 40, COUNT_WORDS_ROOM = 160 };

/* "controller" or "panel", by the line's number. */
const char *line_word(uint8_t line);

/* Writes "panel mode 5" or "controller cool 5 state 2" to words, which has FIELD_WORDS_ROOM bytes, and returns it. */
const char *field_words(char *words, uint8_t line, tha_field field);

/* What a number of refusal stands for. */
const char *refusal_words(unsigned number);

/*
 * The drops, or the other numbers, that came up in a block: "13" for one, "13 x2" for one number more than once, "3 x2 4 x1" for
 * several; and what the number stands for, " (EOF too early)", where it is but one.
 */
struct count_words {
    char numbers[COUNT_WORDS_ROOM];
    char meaning[COUNT_WORDS_ROOM];
};

/* False where none came up. */
bool count_words(struct count_words *words, const tha_counts *counts, bool drops);

#endif

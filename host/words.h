/* words.h: lines of text as words, and words as numbers, as docs/REPLAY.md has them; bytes in hex. */
#ifndef WORDS_H
#define WORDS_H

#include <stdbool.h>
#include <stddef.h>
#include <stdint.h>

/* A word: some bytes of a line, with no zero byte after them. */
struct word {
    const char *start;
    size_t length;
};

/* The next word of the line from *place on, which then stands after it; one of no length where none is left. */
struct word next_word(const char *line, size_t length, size_t *place);

bool word_is(struct word word, const char *text);

/* Reads a number: decimal digits, or hex digits after 0x; false where it is none or above most. */
bool word_number(struct word word, uint32_t most, uint32_t *number);

/* Reads a byte of two hex digits from *text on, which then stands after it; false where none comes next. */
bool next_hex(const char **text, uint8_t *byte);

#endif

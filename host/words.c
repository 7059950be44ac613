/* words.c: lines of text as words, and words as numbers; bytes in hex. */
#include "words.h"

#include <stdio.h>
#include <string.h>

struct word next_word(const char *line, size_t length, size_t *place)
{
    struct word word;

    while (*place < length && line[*place] == ' ') {
        *place += 1;
    }
    word.start = line + *place;
    while (*place < length && line[*place] != ' ') {
        *place += 1;
    }
    word.length = (size_t)(line + *place - word.start);
    return word;
}

bool word_is(struct word word, const char *text)
{
    return word.length == strlen(text) && memcmp(word.start, text, word.length) == 0;
}

/* The value of a digit; 16 where it is none. */
static unsigned digit(char c)
{
    if (c >= '0' && c <= '9') {
        return (unsigned)(c - '0');
    }
    if (c >= 'a' && c <= 'f') {
        return (unsigned)(c - 'a') + 10;
    }
    if (c >= 'A' && c <= 'F') {
        return (unsigned)(c - 'A') + 10;
    }
    return 16;
}

bool word_number(struct word word, uint32_t most, uint32_t *number)
{
    bool hex = word.length >= 2 && word.start[0] == '0' && word.start[1] == 'x';
    unsigned base = hex ? 16 : 10;
    size_t first = hex ? 2 : 0;
    uint64_t sum = 0;

    if (first == word.length) {
        return false;
    }
    for (size_t i = first; i < word.length; i++) {
        unsigned value = digit(word.start[i]);

        if (value >= base) {
            return false;
        }
        sum = sum * base + value;
        if (sum > most) {
            return false;
        }
    }
    *number = (uint32_t)sum;
    return true;
}

bool next_hex(const char **text, uint8_t *byte)
{
    unsigned number;
    int used;

    if (sscanf(*text, " %2x%n", &number, &used) != 1) {
        return false;
    }
    *byte = (uint8_t)number;
    *text += used;
    return true;
}

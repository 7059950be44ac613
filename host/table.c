/* table.c: the table file. */
#include "table.h"

#include "names.h"
#include "words.h"

#include <errno.h>
#include <stdio.h>
#include <string.h>

enum {
    LINE_ROOM = 4096, /* the longest line, its newline not counted */
    NUMBERS = 27      /* the numbers of a row */
};

/* The single numbers at the front of a row, and the most that each may be. */
static const struct {
    const char *name;
    uint32_t most;
} heads[] = {
    {"ADDRESS", UINT16_MAX}, {"VERSION", UINT32_MAX}, {"MASK", UINT16_MAX},
    {"MODE", UINT8_MAX},     {"STATE", UINT8_MAX},    {"EVENTS", UINT8_MAX},
};

enum { HEADS = sizeof heads / sizeof heads[0] };

/* A line of the file. */
struct text_line {
    char bytes[LINE_ROOM];
    size_t length; /* may be above LINE_ROOM: the line is then too long, and only its front is there */
};

/* Reads a line; false at the end of the file. What stands after the last newline is a line only if it has a byte. */
static bool read_line(FILE *file, struct text_line *line)
{
    int c;

    line->length = 0;
    while ((c = getc(file)) != EOF && c != '\n') {
        if (line->length < LINE_ROOM) {
            line->bytes[line->length] = (char)c;
        }
        line->length += 1;
    }
    return c == '\n' || line->length > 0;
}

static void name_number(char name[16], size_t place)
{
    if (place < HEADS) {
        snprintf(name, 16, "%s", heads[place].name);
    } else {
        snprintf(name, 16, "%c%u", "CSF"[(place - HEADS) / THA_STATES], (unsigned)((place - HEADS) % THA_STATES));
    }
}

/* Reads the 27 numbers after the word `row`. */
static bool read_numbers(const struct text_line *line, size_t place, uint32_t numbers[NUMBERS], char error[TABLE_ERROR_ROOM])
{
    for (size_t i = 0; i < NUMBERS; i++) {
        struct word word = next_word(line->bytes, line->length, &place);
        uint32_t most = i < HEADS ? heads[i].most : UINT8_MAX;

        if (word.length == 0) {
            snprintf(error, TABLE_ERROR_ROOM, "%u numbers, a row has %d", (unsigned)i, NUMBERS);
            return false;
        }
        if (!word_number(word, most, &numbers[i])) {
            char name[16];

            name_number(name, i);
            snprintf(error, TABLE_ERROR_ROOM, "%s is not a number from 0 to %lu", name, (unsigned long)most);
            return false;
        }
    }
    if (next_word(line->bytes, line->length, &place).length > 0) {
        snprintf(error, TABLE_ERROR_ROOM, "more than %d numbers", NUMBERS);
        return false;
    }
    return true;
}

static tha_row row_of(const uint32_t numbers[NUMBERS])
{
    tha_row row = {
        .address = (uint16_t)numbers[0],
        .version = numbers[1],
        .mask = (uint16_t)numbers[2],
        .mode = (uint8_t)numbers[3],
        .state = (uint8_t)numbers[4],
        .events = (uint8_t)numbers[5],
    };

    for (size_t i = 0; i < THA_STATES; i++) {
        row.cool[i] = (uint8_t)numbers[HEADS + i];
        row.slab[i] = (uint8_t)numbers[HEADS + THA_STATES + i];
        row.fan[i] = (uint8_t)numbers[HEADS + 2 * THA_STATES + i];
    }
    return row;
}

/* Does what a line says. */
static bool take_line(const struct text_line *line, tha_gateway *gateway, char error[TABLE_ERROR_ROOM])
{
    uint32_t numbers[NUMBERS];
    size_t place = 0;
    struct word word;
    tha_result result;

    if (line->length > LINE_ROOM) {
        snprintf(error, TABLE_ERROR_ROOM, "a line of more than %d bytes", LINE_ROOM);
        return false;
    }
    word = next_word(line->bytes, line->length, &place);
    if (word.length == 0 || word.start[0] == '#') {
        return true;
    }
    if (!word_is(word, "row")) {
        snprintf(error, TABLE_ERROR_ROOM, "not a row line");
        return false;
    }
    if (!read_numbers(line, place, numbers, error)) {
        return false;
    }
    result = tha_add(*gateway, row_of(numbers));
    *gateway = result.gateway;
    if (result.answer.outcome != THA_ADDED) {
        snprintf(error, TABLE_ERROR_ROOM, "row refused %u (%s)", result.answer.number, refusal_words(result.answer.number));
        return false;
    }
    return true;
}

/* Takes every line; the error starts with the number of the line. */
static bool take_lines(FILE *file, tha_gateway *gateway, char error[TABLE_ERROR_ROOM])
{
    struct text_line line;
    unsigned long number = 0;
    char why[TABLE_ERROR_ROOM];

    while (read_line(file, &line)) {
        number += 1;
        if (!take_line(&line, gateway, why)) {
            snprintf(error, TABLE_ERROR_ROOM, "%lu: %.100s", number, why);
            return false;
        }
    }
    if (ferror(file)) {
        snprintf(error, TABLE_ERROR_ROOM, " %.100s", strerror(errno));
        return false;
    }
    return true;
}

bool table_load(const char *path, tha_gateway *gateway, char error[TABLE_ERROR_ROOM])
{
    FILE *file = fopen(path, "r");
    bool good;

    if (file == NULL) {
        snprintf(error, TABLE_ERROR_ROOM, " %.100s", strerror(errno));
        return false;
    }
    good = take_lines(file, gateway, error);
    fclose(file);
    return good;
}

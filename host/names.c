/* names.c: lines, fields and refusals in words, for the log and for error messages. */
#include "names.h"

#include <stdio.h>

const char *line_word(uint8_t line)
{
    return line == THA_CONTROLLER ? "controller" : "panel";
}

const char *field_words(char *words, uint8_t line, tha_field field)
{
    static const char *const kinds[] = {"mode", "cool", "slab", "fan"};
    const char *kind = kinds[field.kind < THA_FAN ? field.kind : THA_FAN];

    if (field.kind == THA_MODE) {
        snprintf(words, FIELD_WORDS_ROOM, "%s %s %u", line_word(line), kind, (unsigned)field.address);
    } else {
        snprintf(words, FIELD_WORDS_ROOM, "%s %s %u state %u", line_word(line), kind, (unsigned)field.address, (unsigned)field.state);
    }
    return words;
}

const char *refusal_words(unsigned number)
{
    static const char *const words[] = {
        "nothing is refused",
        "the buffer is too short",
        "over 255 data bytes",
        "SOF inside a packet",
        "EOF too early",
        "a byte too many",
        "wrong checksum",
        "not a frame of type 6",
        "under 5 data bytes",
        "neither Update nor Request",
        "no such method",
        "the method has no such service",
        "not the method's number of bytes",
        "no device has this address",
        "no such state",
        "an update of the field waits already",
        "eight updates of the line wait",
        "no update waits",
        "the field is not at the head",
        "the row breaks the rules of a row",
        "a device has this address already",
        "32 devices are there already",
        "not used",
        "updates wait",
        "not the frame that is due there",
        "it ends too early or runs on",
    };

    return number < sizeof words / sizeof words[0] ? words[number] : "no number of the documents";
}

/* How often a number came up; 0 where it is not a drop's and drops are asked for, or the other way round. */
static unsigned times(const tha_counts *counts, uint8_t number, bool drops)
{
    return tha_is_drop(number) == drops ? counts->numbers[number - THA_RESTARTED] : 0;
}

static uint64_t all_times(const tha_counts *counts, bool drops)
{
    uint64_t all = 0;

    for (uint8_t number = THA_RESTARTED; number < THA_RESTARTED + THA_COUNTED; number++) {
        all += times(counts, number, drops);
    }
    return all;
}

bool count_words(struct count_words *words, const tha_counts *counts, bool drops)
{
    uint64_t all = all_times(counts, drops);
    size_t length = 0;

    words->meaning[0] = '\0';
    for (uint8_t number = THA_RESTARTED; number < THA_RESTARTED + THA_COUNTED; number++) {
        unsigned count = times(counts, number, drops);

        if (count > 0) {
            length += (size_t)snprintf(words->numbers + length, COUNT_WORDS_ROOM - length, "%s%u", length > 0 ? " " : "", number);
        }
        if (count > 0 && all > 1) {
            length += (size_t)snprintf(words->numbers + length, COUNT_WORDS_ROOM - length, " x%u", count);
        }
        if (count > 0 && count == all) {
            snprintf(words->meaning, COUNT_WORDS_ROOM, " (%s)", refusal_words(number));
        }
    }
    return all > 0;
}

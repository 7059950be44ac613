/* options.c: the arguments of tha-gateway. */
#include "options.h"

#include "clock.h"
#include "words.h"

#include <stdio.h>
#include <string.h>

/* Reads the number after an option. */
static bool read_number(const char *name, const char *text, uint32_t least, uint32_t most, uint32_t *number, char *error)
{
    struct word word = {.start = text, .length = text == NULL ? 0 : strlen(text)};

    if (word_number(word, most, number) && *number >= least) {
        return true;
    }
    snprintf(error, OPTIONS_ERROR_ROOM, "%s needs a number from %lu to %lu", name, (unsigned long)least, (unsigned long)most);
    return false;
}

static bool add_silent(struct simple_site *site, uint32_t address, char *error)
{
    if (site->silent_count == THA_ROWS) {
        snprintf(error, OPTIONS_ERROR_ROOM, "--silent is given more than %d times", THA_ROWS);
        return false;
    }
    site->silent[site->silent_count] = (uint16_t)address;
    site->silent_count += 1;
    return true;
}

/* Takes an option with a number. */
static bool take_number(struct options *options, const char *name, const char *text, char *error)
{
    bool is_speed = strcmp(name, "--speed") == 0;
    uint32_t number;

    if (!read_number(name, text, is_speed ? 1 : 0, is_speed ? CLOCK_MOST_SPEED : UINT16_MAX, &number, error)) {
        return false;
    }
    if (is_speed) {
        options->speed = number;
    } else if (strcmp(name, "--firmware") == 0) {
        options->firmware = (uint16_t)number;
    } else if (strcmp(name, "--protocol") == 0) {
        options->protocol = (uint16_t)number;
    } else if (strcmp(name, "--delay") == 0) {
        options->site.delay = number;
    } else {
        return add_silent(&options->site, number, error);
    }
    return true;
}

/* Takes an option with a file or a device. */
static bool take_path(struct options *options, const char *name, const char *text, char *error)
{
    bool is_panel = strcmp(name, "--panel") == 0;

    if (text == NULL || text[0] == '\0') {
        snprintf(error, OPTIONS_ERROR_ROOM, "%s needs a %s", name, is_panel ? "device" : "file");
        return false;
    }
    if (is_panel) {
        options->devices[THA_PANEL] = text;
    } else if (strcmp(name, "--handover") == 0) {
        options->handover = text;
    } else {
        options->state = text;
    }
    return true;
}

/* What stands after an option. */
enum follows { NUMBER, PATH, NOTHING, NO_OPTION };

static enum follows what_follows(const char *name)
{
    static const struct {
        const char *name;
        enum follows follows;
    } known[] = {
        {"--firmware", NUMBER}, {"--protocol", NUMBER}, {"--delay", NUMBER}, {"--silent", NUMBER},
        {"--speed", NUMBER},    {"--handover", PATH},   {"--state", PATH},   {"--panel", PATH},
        {"--or-table", NOTHING},
    };

    for (size_t i = 0; i < sizeof known / sizeof known[0]; i++) {
        if (strcmp(name, known[i].name) == 0) {
            return known[i].follows;
        }
    }
    return NO_OPTION;
}

/* Takes an option and what stands after it; returns how many arguments these are, or 0 with the error. */
static int take_option(struct options *options, const char *name, const char *text, char *error)
{
    switch (what_follows(name)) {
    case NUMBER:
        return take_number(options, name, text, error) ? 2 : 0;
    case PATH:
        return take_path(options, name, text, error) ? 2 : 0;
    case NOTHING:
        options->or_table = true;
        return 1;
    default:
        snprintf(error, OPTIONS_ERROR_ROOM, "%.40s is not an option; %s", name, OPTIONS_USAGE);
        return 0;
    }
}

/* Takes the options at the front. Returns the place of the first argument after them, or 0 with the error. */
static int take_options(struct options *options, int count, char **arguments, char *error)
{
    int i = 1;

    while (i < count && strncmp(arguments[i], "--", 2) == 0) {
        int taken = take_option(options, arguments[i], i + 1 < count ? arguments[i + 1] : NULL, error);

        if (taken == 0) {
            return 0;
        }
        i += taken;
    }
    return i;
}

static bool same_path(const char *one, const char *other)
{
    return one != NULL && other != NULL && strcmp(one, other) == 0;
}

/* The three files are three: one would take the other's place. */
static bool files_differ(const struct options *options, char *error)
{
    if (same_path(options->handover, options->state) || same_path(options->handover, options->table) ||
        same_path(options->state, options->table)) {
        snprintf(error, OPTIONS_ERROR_ROOM, "--handover, --state and TABLE need a file each");
        return false;
    }
    return true;
}

bool options_read(struct options *options, int count, char **arguments, char error[OPTIONS_ERROR_ROOM])
{
    int place;

    *options = (struct options){.speed = 1, .site = {.delay = 1}};
    if (count == 2 && strcmp(arguments[1], "--help") == 0) {
        options->help = true;
        return true;
    }
    place = take_options(options, count, arguments, error);
    if (place == 0) {
        return false;
    }
    if (count - place != 2) {
        snprintf(error, OPTIONS_ERROR_ROOM, "%s", OPTIONS_USAGE);
        return false;
    }
    if (options->or_table && options->handover == NULL) {
        snprintf(error, OPTIONS_ERROR_ROOM, "--or-table needs --handover");
        return false;
    }
    options->devices[THA_CONTROLLER] = arguments[place];
    options->table = arguments[place + 1];
    return files_differ(options, error);
}

/* rig_files.c: a test rig's hand-over file and state file. */
#include "rig.h"

#include "check.h"

#include <stdio.h>
#include <string.h>
#include <unistd.h>

void rig_beside(char path[RIG_PATH], const char *file, const char *ending)
{
    int length = snprintf(path, RIG_PATH, "%s%s", file, ending);

    NEED(length > 0 && length < RIG_PATH);
}

bool rig_has(const char *file, const char *ending)
{
    char path[RIG_PATH];

    rig_beside(path, file, ending);
    return access(path, F_OK) == 0;
}

size_t rig_read_file(const char *file, const char *ending, uint8_t *bytes, size_t room)
{
    char path[RIG_PATH];
    FILE *opened;
    size_t length;

    rig_beside(path, file, ending);
    opened = fopen(path, "r");
    NEED_SAYS(opened != NULL, "%s can be read", path);
    length = fread(bytes, 1, room, opened);
    NEED(length < room && !ferror(opened));
    fclose(opened);
    return length;
}

void rig_write_file(const char *file, const void *bytes, size_t length)
{
    FILE *opened = fopen(file, "w");

    NEED(opened != NULL);
    NEED(fwrite(bytes, 1, length, opened) == length);
    NEED(fclose(opened) == 0);
}

const char *rig_options(const struct rig *rig, const char *words)
{
    static char options[1024];
    int length = snprintf(options, sizeof options, "%s", words);
    char *place;

    NEED(length >= 0 && (size_t)length < sizeof options);
    while ((place = strchr(options, '@')) != NULL) {
        const char *path = place[1] == 'h' ? rig->handover : rig->state;
        char rest[sizeof options];

        strcpy(rest, place + 2);
        length = snprintf(place, sizeof options - (size_t)(place - options), "%s%s", path, rest);
        NEED(length > 0 && (size_t)length < sizeof options - (size_t)(place - options));
    }
    return options;
}

void rig_remove_files(const struct rig *rig)
{
    static const char *const endings[] = {"", ".new", ".refused"};
    char path[RIG_PATH];

    for (size_t i = 0; i < sizeof endings / sizeof endings[0]; i++) {
        rig_beside(path, rig->handover, endings[i]);
        unlink(path);
        rig_beside(path, rig->state, endings[i]);
        unlink(path);
    }
}

/* state.c: the state file: the rows as they are after the last confirmed update. */
#include "state.h"

#include <stdio.h>
#include <string.h>

enum {
    ROW_ROOM = 160, /* a row's line: `row`, six numbers of at most 10 digits and 21 of at most 3 */
    LAST_ROOM = 64,
    TEXT_ROOM = THA_ROWS * ROW_ROOM + LAST_ROOM
};

static size_t put_values(char *text, size_t length, const uint8_t values[THA_STATES])
{
    for (size_t i = 0; i < THA_STATES; i++) {
        length += (size_t)snprintf(text + length, TEXT_ROOM - length, " %u", values[i]);
    }
    return length;
}

static size_t put_row(char *text, size_t length, const tha_row *row)
{
    length += (size_t)snprintf(text + length, TEXT_ROOM - length, "row %u %lu %u %u %u %u", row->address,
                               (unsigned long)row->version, row->mask, row->mode, row->state, row->events);
    length = put_values(text, length, row->cool);
    length = put_values(text, length, row->slab);
    length = put_values(text, length, row->fan);
    text[length] = '\n';
    return length + 1;
}

/* The last line. */
static size_t put_last(char *text, size_t room, size_t rows)
{
    return (size_t)snprintf(text, room, "# these are all rows, %u\n", (unsigned)rows);
}

bool state_write(const char *path, const tha_table *table, char error[FILES_ERROR_ROOM])
{
    char text[TEXT_ROOM];
    size_t length = 0;

    for (size_t i = 0; i < table->count; i++) {
        length = put_row(text, length, &table->rows[i]);
    }
    length += put_last(text + length, sizeof text - length, table->count);
    return file_replace(path, text, length, error);
}

/* Whether the file ends with the last line for so many rows. */
static bool has_last(const char *path, size_t rows)
{
    char wanted[LAST_ROOM];
    char found[LAST_ROOM];
    size_t length = put_last(wanted, sizeof wanted, rows);
    FILE *file = fopen(path, "r");
    bool same;

    if (file == NULL) {
        return false;
    }
    same = fseek(file, -(long)length, SEEK_END) == 0 && fread(found, 1, length, file) == length && memcmp(wanted, found, length) == 0;
    fclose(file);
    return same;
}

bool state_load(const char *path, tha_gateway *gateway, char error[TABLE_ERROR_ROOM])
{
    if (!table_load(path, gateway, error)) {
        return false;
    }
    if (!has_last(path, gateway->table.count)) {
        snprintf(error, TABLE_ERROR_ROOM, " not a whole state file, its last line is not '# these are all rows, %u'",
                 (unsigned)gateway->table.count);
        return false;
    }
    return true;
}

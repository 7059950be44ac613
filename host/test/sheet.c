/* sheet.c: a hand-over made here and not by the archive under test. */
#include "sheet.h"

#include "check.h"
#include "frames.h"

#include <string.h>

static struct record *add_record(struct sheet *sheet, uint8_t service, uint32_t method)
{
    struct record *record = &sheet->records[sheet->count];

    NEED(sheet->count < SHEET_MOST);
    sheet->count += 1;
    *record = (struct record){.type = 6, .length = 5, .data = {service, (uint8_t)method, (uint8_t)(method >> 8)}};
    return record;
}

static void add_bytes(struct record *record, uint32_t number, size_t width)
{
    for (size_t i = 0; i < width; i++) {
        record->data[record->length] = (uint8_t)(number >> 8 * i);
        record->length += 1;
    }
}

static void add_own(struct sheet *sheet, uint32_t method, uint32_t value, size_t width)
{
    add_bytes(add_record(sheet, REQUESTED, method), value, width);
}

static void add_date(struct sheet *sheet, const tha_date *date)
{
    struct record *record = add_record(sheet, UPDATED, DATE);

    add_bytes(record, date->year, 2);
    add_bytes(record, date->month, 1);
    add_bytes(record, date->day, 1);
    add_bytes(record, date->weekday, 1);
    add_bytes(record, date->hour, 1);
    add_bytes(record, date->minute, 1);
}

static void add_value(struct sheet *sheet, const tha_row *row, uint32_t method, uint32_t value, size_t width)
{
    struct record *record = add_record(sheet, REQUESTED, method);

    add_bytes(record, row->address, 2);
    add_bytes(record, value, width);
}

static void add_row(struct sheet *sheet, const tha_row *row)
{
    add_value(sheet, row, ATTRIBUTES, row->mask, 2);
    add_value(sheet, row, VERSION, row->version, 4);
    add_value(sheet, row, SETBACK_STATE, row->state, 1);
    add_value(sheet, row, EVENTS, row->events, 1);
    add_value(sheet, row, MODE, row->mode, 1);
    for (uint32_t state = 0; state < THA_STATES; state++) {
        add_value(sheet, row, COOL, state | (uint32_t)row->cool[state] << 8, 2);
        add_value(sheet, row, SLAB, state | (uint32_t)row->slab[state] << 8, 2);
        add_value(sheet, row, FAN, state | (uint32_t)row->fan[state] << 8, 2);
    }
}

void sheet_of(struct sheet *sheet, const tha_gateway *gateway)
{
    const tha_properties *properties = &gateway->properties;

    sheet->count = 0;
    add_own(sheet, NETWORK_ERROR, properties->error, 2);
    add_own(sheet, REPORTING, properties->reporting, 1);
    add_own(sheet, FIRMWARE, properties->firmware, 2);
    add_own(sheet, PROTOCOL, properties->protocol, 2);
    add_date(sheet, &properties->date);
    for (size_t i = 0; i < gateway->table.count; i++) {
        add_row(sheet, &gateway->table.rows[i]);
    }
}

/* Escapes every byte between SOF and EOF that is not escaped yet. */
static size_t escape_all(uint8_t *frame, size_t length)
{
    uint8_t escaped[2 * SHEET_FRAME];
    size_t count = 1;

    escaped[0] = frame[0];
    for (size_t i = 1; i + 1 < length; i++) {
        i += frame[i] == 0x2F;
        escaped[count] = 0x2F;
        escaped[count + 1] = frame[i];
        count += 2;
    }
    escaped[count] = frame[length - 1];
    NEED(count < SHEET_FRAME);
    memcpy(frame, escaped, count + 1);
    return count + 1;
}

void sheet_write(const struct sheet *sheet, bool needless, struct sheet_bytes *to)
{
    to->length = 0;
    for (size_t i = 0; i < sheet->count; i++) {
        const struct record *record = &sheet->records[i];
        uint8_t *frame = to->bytes + to->length;
        size_t length = frame_of(frame, record->type, record->data, record->length);

        if (needless) {
            length = escape_all(frame, length);
        }
        to->length += length;
        to->ends[i] = to->length - 1;
    }
}

size_t sheet_place(size_t row, size_t at)
{
    return SHEET_OWN + row * SHEET_ROW + at;
}

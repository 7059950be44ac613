/*
 * plain_table.c: the devices: the rules of a row, adding, search, values in force and storing (document 01, "Devices").
 */
#include "plain_parts.h"

enum { HEATING = 1, COOLING = 2, SLAB = 4, FAN = 8, ALL_BITS = 15 };

enum { MODE_OFF = 0, MODE_HEAT = 1, MODE_AUTO = 2, MODE_COOL = 3, MODE_VENT = 4, MODE_EMERGENCY = 6 };

enum { FAN_MOST = 100, EVENTS_MOST = 2 };

static bool has(const tha_row *row, uint16_t bits)
{
    return (row->mask & bits) == bits;
}

static bool mode_settable(const tha_row *row, uint8_t mode)
{
    switch (mode) {
    case MODE_OFF:
        return true;
    case MODE_HEAT:
        return has(row, HEATING) || has(row, SLAB);
    case MODE_AUTO:
        return has(row, HEATING | COOLING);
    case MODE_COOL:
        return has(row, COOLING);
    case MODE_VENT:
        return has(row, FAN);
    default:
        return false;
    }
}

/* The mask bit that a setting needs. */
static uint16_t bit_of(uint8_t kind)
{
    return kind == THA_COOL ? COOLING : kind == THA_SLAB ? SLAB : FAN;
}

static const uint8_t *values_of(const tha_row *row, uint8_t kind)
{
    return kind == THA_COOL ? row->cool : kind == THA_SLAB ? row->slab : row->fan;
}

static bool value_legal(uint8_t kind, uint8_t value)
{
    return kind == THA_FAN ? value <= FAN_MOST : value != THA_NONE;
}

bool plain_settable(const tha_row *row, tha_field field, uint8_t value)
{
    if (field.kind == THA_MODE) {
        return mode_settable(row, value);
    }
    return has(row, bit_of(field.kind)) && value_legal(field.kind, value);
}

bool plain_legal(const tha_row *row, tha_field field, uint8_t value)
{
    return plain_settable(row, field, value) || (field.kind == THA_MODE && value == MODE_EMERGENCY);
}

uint8_t plain_stored(const tha_row *row, tha_field field)
{
    return field.kind == THA_MODE ? row->mode : values_of(row, field.kind)[field.state];
}

uint8_t plain_in_force(const tha_row *row, tha_field field)
{
    bool there = field.kind == THA_MODE || has(row, bit_of(field.kind));
    return there ? plain_stored(row, field) : THA_NONE;
}

void plain_store(tha_row *row, tha_field field, uint8_t value)
{
    switch (field.kind) {
    case THA_MODE:
        row->mode = value;
        break;
    case THA_COOL:
        row->cool[field.state] = value;
        break;
    case THA_SLAB:
        row->slab[field.state] = value;
        break;
    default:
        row->fan[field.state] = value;
        break;
    }
}

/* Whether the seven values of a setting are what a row may hold. */
static bool values_keep_rules(const tha_row *row, uint8_t kind)
{
    bool present = has(row, bit_of(kind));
    const uint8_t *values = values_of(row, kind);
    for (size_t state = 0; state < THA_STATES; state++) {
        bool good = present ? value_legal(kind, values[state]) : values[state] == THA_NONE;
        if (!good) {
            return false;
        }
    }
    return true;
}

static bool keeps_rules(const tha_row *row)
{
    return row->address != 0 && row->mask <= ALL_BITS && (mode_settable(row, row->mode) || row->mode == MODE_EMERGENCY) &&
           row->state < THA_STATES && row->events <= EVENTS_MOST && values_keep_rules(row, THA_COOL) &&
           values_keep_rules(row, THA_SLAB) && values_keep_rules(row, THA_FAN);
}

tha_row *plain_find(tha_table *table, uint16_t address)
{
    for (size_t i = 0; i < table->count; i++) {
        if (table->rows[i].address == address) {
            return &table->rows[i];
        }
    }
    return NULL;
}

tha_answer plain_add_row(tha_table *table, const tha_row *row)
{
    if (!keeps_rules(row)) {
        return plain_refused(THA_BAD_ROW);
    }
    if (plain_find(table, row->address) != NULL) {
        return plain_refused(THA_ADDRESS_TAKEN);
    }
    if (table->count == THA_ROWS) {
        return plain_refused(THA_TABLE_FULL);
    }
    table->rows[table->count++] = *row;
    return plain_answer(THA_ADDED, 0);
}

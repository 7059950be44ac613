/*
 * traffic_random.c: random packets and rows: every method and service, right and wrong widths, addresses, states and values, broken
 * packets and noise. Values near the rules' edges come up more often than others.
 */
#include "traffic.h"
#include <string.h>

enum { RECORD = 6, RECORD_MOST = 32 };

static const uint16_t addresses[] = {1, 2, 3, 0x35, 0xCA, 0x2F, 0xFE, 0x0101, 0x2FCA, 0x3535, 0xCA01, 0xFFFF};

enum { ADDRESSES = sizeof addresses / sizeof addresses[0], MORE_ADDRESSES = 40 };

uint16_t traffic_address(rng *r)
{
    if (rng_one_in(r, 16)) {
        return (uint16_t)rng_next(r);
    }
    uint32_t i = rng_below(r, rng_one_in(r, 3) ? MORE_ADDRESSES : ADDRESSES);
    return i < ADDRESSES ? addresses[i] : (uint16_t)(0x4000 + i);
}

/* One of the values given, or now and then any byte. */
static uint8_t edge(rng *r, const uint8_t *values, uint32_t n)
{
    return rng_one_in(r, 8) ? rng_byte(r) : values[rng_below(r, n)];
}

static uint8_t random_value(rng *r)
{
    static const uint8_t values[] = {0, 1, 2, 3, 4, 5, 6, 7, 44, 99, 100, 101, 0x2F, 0x35, 0xCA, 254, 255};
    return edge(r, values, sizeof values);
}

static uint8_t random_state(rng *r)
{
    static const uint8_t values[] = {0, 1, 4, 6, 7, 7, 8};
    return edge(r, values, sizeof values);
}

tha_date traffic_date(rng *r)
{
    tha_date date;
    date.year = (uint16_t)(1999 + rng_below(r, 258));
    date.month = (uint8_t)rng_below(r, 14);
    date.day = (uint8_t)rng_below(r, 33);
    date.weekday = (uint8_t)rng_below(r, 9);
    date.hour = (uint8_t)rng_below(r, 25);
    date.minute = (uint8_t)rng_below(r, 61);
    return date;
}

static void random_date(rng *r, uint8_t *to)
{
    tha_date date = traffic_date(r);
    to[0] = (uint8_t)date.year;
    to[1] = (uint8_t)(date.year >> 8);
    to[2] = date.month;
    to[3] = date.day;
    to[4] = date.weekday;
    to[5] = date.hour;
    to[6] = date.minute;
}

static void random_fields(rng *r, uint32_t which, uint8_t *fields)
{
    uint16_t address = traffic_address(r);
    fields[0] = (uint8_t)address;
    fields[1] = (uint8_t)(address >> 8);
    fields[2] = rng_one_in(r, 4) ? random_value(r) : random_state(r);
    fields[3] = random_value(r);
    if (which == DATE_METHOD) {
        random_date(r, fields);
    }
    if (which == REPORTING_METHOD) {
        fields[0] = (uint8_t)rng_below(r, 4);
    }
}

/* The data of a record, now and then with a mistake; its number of bytes. */
static size_t random_record(rng *r, uint8_t *data)
{
    uint32_t which = rng_one_in(r, 2) ? FIRST_QUEUED + rng_below(r, QUEUED_METHODS) : rng_below(r, METHODS);
    size_t n = 5u + traffic_methods[which].width;
    memset(data, 0, RECORD_MOST);
    data[0] = (uint8_t)(rng_one_in(r, 16) ? rng_below(r, 6) : rng_below(r, 2));
    data[1] = rng_one_in(r, 24) ? rng_byte(r) : traffic_methods[which].low;
    data[2] = 1;
    random_fields(r, which, data + 5);
    if (rng_one_in(r, 24)) {
        data[1 + rng_below(r, 4)] ^= (uint8_t)(1u << rng_below(r, 8));
    }
    if (rng_one_in(r, 16)) {
        n = rng_one_in(r, 2) ? n - 1 : n + 1;
    }
    return rng_one_in(r, 48) ? rng_below(r, 6) : n;
}

static void random_data_frame(rng *r, stretch *to)
{
    uint8_t data[255];
    size_t n = rng_below(r, 256);
    for (size_t i = 0; i < n; i++) {
        data[i] = rng_byte(r);
    }
    traffic_frame(to, rng_byte(r), data, n);
}

/* Damage to the packet that begins at a place: a changed, lost, added or escaped byte, or a cut. */
static void damage(rng *r, stretch *to, size_t from)
{
    size_t at = from + rng_below(r, (uint32_t)(to->len - from));
    uint8_t *place = to->bytes + at;
    size_t rest = to->len - at;
    switch (rng_below(r, 5)) {
    case 0:
        *place = rng_byte(r);
        break;
    case 1:
        memmove(place, place + 1, rest - 1);
        to->len--;
        break;
    case 2:
        memmove(place + 1, place, rest);
        *place = rng_byte(r);
        to->len++;
        break;
    case 3:
        memmove(place + 1, place, rest);
        *place = 0x2F;
        to->len++;
        break;
    default:
        to->len = at;
        break;
    }
}

static void put_noise(rng *r, stretch *to)
{
    static const uint8_t values[] = {0x2F, 0x35, 0xCA, 0, 6};
    size_t n = rng_below(r, 24);
    for (size_t i = 0; i < n; i++) {
        to->bytes[to->len++] = rng_one_in(r, 3) ? values[rng_below(r, sizeof values)] : rng_byte(r);
    }
}

static void random_record_frame(rng *r, stretch *to)
{
    uint8_t data[RECORD_MOST];
    size_t n = random_record(r, data);
    traffic_frame(to, rng_one_in(r, 32) ? rng_byte(r) : RECORD, data, n);
}

void traffic_packet(rng *r, stretch *to)
{
    size_t from = to->len;
    if (rng_one_in(r, 16)) {
        put_noise(r, to);
        return;
    }
    if (rng_one_in(r, 64)) {
        random_data_frame(r, to);
    } else {
        random_record_frame(r, to);
    }
    if (rng_one_in(r, 6)) {
        damage(r, to, from);
    }
}

void traffic_update(rng *r, uint16_t address, stretch *to)
{
    const method *m = &traffic_methods[FIRST_QUEUED + rng_below(r, QUEUED_METHODS)];
    size_t n = 5u + m->width;
    uint8_t data[RECORD_MOST] = {0, m->low, 1, 0, 0, (uint8_t)address, (uint8_t)(address >> 8), (uint8_t)rng_below(r, 8)};
    data[n - 1] = (uint8_t)rng_below(r, 5);
    traffic_frame(to, RECORD, data, n);
}

static void random_values(rng *r, bool present, bool fan, uint8_t *values)
{
    for (size_t i = 0; i < THA_STATES; i++) {
        values[i] = (uint8_t)(present ? rng_below(r, fan ? 101 : 255) : THA_NONE);
    }
}

/* One mistake in a row, or none. */
static void spoil(rng *r, tha_row *row)
{
    size_t state = rng_below(r, THA_STATES);
    switch (rng_below(r, 9)) {
    case 0:
        row->address = 0;
        break;
    case 1:
        row->mask = (uint16_t)(row->mask | 16u << rng_below(r, 12));
        break;
    case 2:
        row->mode = (uint8_t)rng_below(r, 9);
        break;
    case 3:
        row->state = (uint8_t)(7 + rng_below(r, 2));
        break;
    case 4:
        row->events = 3;
        break;
    case 5:
        row->cool[state] = random_value(r);
        break;
    case 6:
        row->slab[state] = random_value(r);
        break;
    case 7:
        row->fan[state] = random_value(r);
        break;
    default:
        row->version = (uint32_t)rng_next(r);
        break;
    }
}

tha_row traffic_row(rng *r)
{
    tha_row row;
    memset(&row, 0, sizeof row);
    row.address = traffic_address(r);
    row.version = (uint32_t)rng_next(r);
    row.mask = (uint16_t)(rng_one_in(r, 2) ? 15 : rng_below(r, 16));
    row.mode = (uint8_t)(rng_one_in(r, 2) ? 0 : 6);
    row.state = (uint8_t)rng_below(r, THA_STATES);
    row.events = (uint8_t)rng_below(r, 3);
    random_values(r, row.mask & 2, false, row.cool);
    random_values(r, row.mask & 4, false, row.slab);
    random_values(r, row.mask & 8, true, row.fan);
    if (rng_one_in(r, 3)) {
        spoil(r, &row);
    }
    return row;
}

/*
 * traffic.c: the timed traffic: noise, Requests to 32 devices, Updates of sixteen fields, eight for each line, a block of Updates to 32
 * devices, data for the frame writer, and the bytes for the listing programs.
 */
#include "traffic.h"
#include <string.h>

enum { SOF = 0xCA, ENDING = 0x35, ESCAPE = 0x2F, RECORD = 6 };

enum { FRAME_MOST = 40 }; /* a frame of at most 13 data bytes, each of its bytes escaped */

static uint8_t noise_bytes[NOISE_BYTES];
static uint8_t request_bytes[REQUESTS * FRAME_MOST];
static uint8_t update_bytes[THA_PANEL + 1][THA_LINE_WAITING * FRAME_MOST];
static uint8_t burst_bytes[THA_BLOCK + FRAME_MOST];
static traffic timed;

static void put(stretch *to, uint8_t byte)
{
    if (byte == SOF || byte == ENDING || byte == ESCAPE) {
        to->bytes[to->len++] = ESCAPE;
    }
    to->bytes[to->len++] = byte;
}

void traffic_frame(stretch *to, uint8_t type, const uint8_t *data, size_t n)
{
    uint8_t sum = (uint8_t)(n + type);
    to->bytes[to->len++] = SOF;
    put(to, (uint8_t)n);
    put(to, type);
    for (size_t i = 0; i < n; i++) {
        put(to, data[i]);
        sum = (uint8_t)(sum + data[i]);
    }
    put(to, sum);
    to->bytes[to->len++] = ENDING;
}

/* A device with every attribute. */
static tha_row full_row(size_t place)
{
    tha_row row = {.address = (uint16_t)(place + 1), .version = 112810, .mask = 15, .mode = 1, .state = 4, .events = 1};
    memset(row.cool, 44, sizeof row.cool);
    memset(row.slab, 50, sizeof row.slab);
    memset(row.fan, 60, sizeof row.fan);
    return row;
}

static void make_noise(rng *r, stretch *to)
{
    while (to->len < NOISE_BYTES) {
        uint8_t byte = rng_byte(r);
        if (byte != SOF) {
            to->bytes[to->len++] = byte;
        }
    }
}

const method traffic_methods[METHODS] = {
    {0x07, 2, false}, {0x0F, 1, false}, {0x1F, 4, true},  {0x27, 3, true},  {0x47, 4, true}, {0x4F, 4, true},
    {0x57, 4, true},  {0x7F, 3, true},  {0x87, 2, false}, {0x8F, 2, false}, {0x9F, 6, true}, {0xA7, 7, false},
};

static void put_request(rng *r, stretch *to, uint16_t address)
{
    const method *m = &traffic_methods[rng_below(r, DATE_METHOD)];
    uint8_t data[11] = {1, m->low, 1, 0, 0};
    if (m->address) {
        data[5] = (uint8_t)address;
        data[6] = (uint8_t)(address >> 8);
        data[7] = (uint8_t)rng_below(r, 8);
    }
    traffic_frame(to, RECORD, data, 5u + m->width);
}

/* Updates of cool, slab and fan in two states of three devices, last of all in the table. */
static void make_updates(traffic *t)
{
    for (size_t i = 0; i < THA_WAITING; i++) {
        uint8_t kind = (uint8_t)(1 + i % 3);
        tha_field field = {.address = (uint16_t)(THA_ROWS - i / 6), .kind = kind, .state = (uint8_t)(i / 3 % 2)};
        uint8_t value = (uint8_t)(70 + i);
        uint8_t data[9] = {0, traffic_methods[FIRST_QUEUED + kind].low, 1, 0, 0, (uint8_t)field.address, 0, field.state, value};
        traffic_frame(&t->updates[i / THA_LINE_WAITING], RECORD, data, sizeof data);
        t->fields[i] = field;
        t->values[i] = value;
    }
}

/* An Update of a setting: mostly to be queued, else answered at once; now and then of a field of the first device. */
static void put_update(rng *r, stretch *to)
{
    uint32_t kind = rng_below(r, QUEUED_METHODS);
    const method *m = &traffic_methods[FIRST_QUEUED + kind];
    uint8_t address = (uint8_t)(rng_one_in(r, 4) ? 1 : 1 + rng_below(r, THA_ROWS));
    uint8_t data[9] = {0, m->low, 1, 0, 0, address, 0, (uint8_t)rng_below(r, 8)};
    data[4 + m->width] = (uint8_t)rng_below(r, kind == THA_MODE ? 8 : 128);
    traffic_frame(to, RECORD, data, 5u + m->width);
}

/* Updates one behind the other, as many as a block has; the last one may be cut. */
static void make_burst(rng *r, traffic *t)
{
    stretch *to = &t->burst;
    while (to->len < THA_BLOCK) {
        put_update(r, to);
        t->burst_updates += to->len <= THA_BLOCK;
    }
    to->len = THA_BLOCK;
}

const traffic *traffic_make(void)
{
    rng r = {20261115};
    traffic *t = &timed;
    memset(t, 0, sizeof *t);
    t->noise.bytes = noise_bytes;
    t->requests.bytes = request_bytes;
    t->updates[THA_CONTROLLER].bytes = update_bytes[THA_CONTROLLER];
    t->updates[THA_PANEL].bytes = update_bytes[THA_PANEL];
    t->burst.bytes = burst_bytes;
    for (size_t i = 0; i < THA_ROWS; i++) {
        t->rows[i] = full_row(i);
    }
    make_noise(&r, &t->noise);
    for (size_t i = 0; i < REQUESTS; i++) {
        put_request(&r, &t->requests, (uint16_t)(1 + rng_below(&r, THA_ROWS)));
    }
    make_updates(t);
    for (size_t i = 0; i < SHORT_DATA; i++) {
        t->short_data[i] = rng_byte(&r);
    }
    for (size_t i = 0; i < LONG_DATA; i++) {
        t->long_data[i] = rng_byte(&r);
    }
    make_burst(&r, t);
    return t;
}

/* Noise, a Request to the listing's device or to none, or a packet that is broken or an Update. */
static void put_listed(rng *r, stretch *to)
{
    switch (rng_below(r, 4)) {
    case 0:
        for (size_t i = 0; i < 16; i++) {
            to->bytes[to->len++] = rng_byte(r);
        }
        break;
    case 1:
        put_request(r, to, 1);
        break;
    case 2:
        put_request(r, to, 2);
        break;
    default:
        traffic_packet(r, to);
        break;
    }
}

void traffic_listing(rng *r, uint8_t *bytes, size_t n)
{
    stretch to = {bytes, 0};
    while (to.len < n) {
        put_listed(r, &to);
    }
}

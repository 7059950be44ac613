/*
 * agree_handover.c: hand-overs of both gateways, whole and damaged, in the middle of random traffic.
 *
 * Damage is done to what is handed over (a row or a date that breaks the rules), to a frame's data with a checksum that agrees, to
 * the order of the frames, to the number of devices, and to single bytes.
 */
#include "agree_handover.h"
#include "traffic.h"
#include <string.h>

enum { FRAMES_MOST = 5 + 26 * THA_ROWS, BYTES_MOST = FRAMES_MOST * PAIR_ROOM, DAMAGED = 12, NEAR = 3 };

enum { SOF = 0xCA, ENDING = 0x35, ESCAPE = 0x2F };

/* The frames of a hand-over, and the number of devices told beforehand. */
typedef struct {
    size_t devices;
    size_t count;
    uint8_t frames[FRAMES_MOST + 1][PAIR_ROOM];
    size_t lens[FRAMES_MOST + 1];
} handover;

/* Writes all frames, and asks for one past the last. */
static void write_all(pair *p, handover *h)
{
    h->devices = p->plain.table.count;
    h->count = 0;
    do {
        h->lens[h->count] = pair_hand(p, h->count, THA_REPLY_ROOM, h->frames[h->count]).count;
    } while (h->lens[h->count++] > 0);
    h->count--;
}

/* Joins the frames; damage may still be done to the bytes. */
static size_t join(const handover *h, uint8_t *bytes)
{
    size_t n = 0;
    for (size_t i = 0; i < h->count; i++) {
        memcpy(bytes + n, h->frames[i], h->lens[i]);
        n += h->lens[i];
    }
    return n;
}

/* A frame's data, its escapes and its ends taken away; the number of bytes, Length and type before them and the checksum behind. */
static size_t open_frame(const uint8_t *frame, size_t len, uint8_t *body)
{
    size_t n = 0;
    for (size_t i = 1; i + 1 < len; i++) {
        i += frame[i] == ESCAPE;
        body[n++] = frame[i];
    }
    return n;
}

/* A byte near the one that stands there, or one of the rules' edges. */
static uint8_t other_byte(rng *r, uint8_t byte)
{
    static const uint8_t edges[] = {0, 1, 2, 3, 4, 5, 6, 7, 8, 16, 44, 100, 101, 0x2F, 0x35, 0xCA, 254, 255};
    return rng_one_in(r, 2) ? edges[rng_below(r, sizeof edges)] : (uint8_t)(byte ^ 1u << rng_below(r, 8));
}

/* Another byte, one more or one less in a frame's data, or another type, and the checksum of it. */
static void change_data(rng *r, handover *h, size_t place)
{
    uint8_t body[PAIR_ROOM];
    stretch frame = {h->frames[place], 0};
    size_t n = open_frame(h->frames[place], h->lens[place], body) - 3;
    uint8_t type = body[1];
    uint8_t *data = body + 2;
    switch (rng_below(r, 8)) {
    case 0:
        type = other_byte(r, type);
        break;
    case 1:
        n--;
        break;
    case 2:
        data[n++] = rng_byte(r);
        break;
    default: {
        size_t at = rng_one_in(r, 2) ? n - 1 - rng_below(r, NEAR) : rng_below(r, (uint32_t)n);
        data[at] = other_byte(r, data[at]);
        break;
    }
    }
    traffic_frame(&frame, type, data, n);
    h->lens[place] = frame.len;
}

/* A frame is left out, or stands there twice, or changes places with the next one. */
static void change_order(rng *r, handover *h, size_t place)
{
    size_t rest = h->count - place - 1;
    uint8_t kept[PAIR_ROOM];
    size_t len = h->lens[place];
    memcpy(kept, h->frames[place], PAIR_ROOM);
    switch (rng_below(r, 3)) {
    case 0:
        memmove(h->frames[place], h->frames[place + 1], rest * PAIR_ROOM);
        memmove(&h->lens[place], &h->lens[place + 1], rest * sizeof h->lens[0]);
        h->count--;
        break;
    case 1:
        memmove(h->frames[place + 1], h->frames[place], (rest + 1) * PAIR_ROOM);
        memmove(&h->lens[place + 1], &h->lens[place], (rest + 1) * sizeof h->lens[0]);
        h->count++;
        break;
    default:
        if (rest > 0) {
            memcpy(h->frames[place], h->frames[place + 1], PAIR_ROOM);
            h->lens[place] = h->lens[place + 1];
            memcpy(h->frames[place + 1], kept, PAIR_ROOM);
            h->lens[place + 1] = len;
        }
        break;
    }
}

/* An escape before a byte of a frame that needs none: the frame says the same. */
static void escape_needlessly(rng *r, handover *h, size_t place)
{
    uint8_t *frame = h->frames[place];
    size_t at = 1 + rng_below(r, (uint32_t)h->lens[place] - 2);
    bool there = frame[at] == ESCAPE || frame[at - 1] == ESCAPE;
    if (!there && h->lens[place] < PAIR_ROOM) {
        memmove(frame + at + 1, frame + at, h->lens[place] - at);
        frame[at] = ESCAPE;
        h->lens[place]++;
    }
}

/* The number of devices: one more or less, or any near the most. */
static void change_devices(rng *r, handover *h)
{
    h->devices = rng_one_in(r, 2) ? THA_ROWS - 1 + rng_below(r, 4) : h->devices + 2 * rng_below(r, 2) - 1;
}

/* A byte is changed, lost or added, or the bytes end here, or one stands behind them. */
static size_t change_bytes(rng *r, uint8_t *bytes, size_t n)
{
    static const uint8_t values[] = {SOF, ENDING, ESCAPE, 0, 6};
    size_t at = rng_below(r, (uint32_t)n);
    uint8_t byte = rng_one_in(r, 2) ? values[rng_below(r, sizeof values)] : rng_byte(r);
    switch (rng_below(r, 5)) {
    case 0:
        bytes[at] = byte;
        return n;
    case 1:
        memmove(bytes + at, bytes + at + 1, n - at - 1);
        return n - 1;
    case 2:
        memmove(bytes + at + 1, bytes + at, n - at);
        bytes[at] = byte;
        return n + 1;
    case 3:
        bytes[n] = byte;
        return n + 1;
    default:
        return at;
    }
}

/* Another row, or one that stands in the table already, or another date in place of what both hold. */
static void plant(pair *p, rng *r)
{
    size_t count = p->plain.table.count;
    if (count == 0 || rng_one_in(r, 4)) {
        pair_plant_date(p, traffic_date(r));
        return;
    }
    size_t place = rng_below(r, (uint32_t)count);
    tha_row row = rng_one_in(r, 2) ? p->plain.table.rows[rng_below(r, (uint32_t)count)] : traffic_row(r);
    pair_plant_row(p, place, row);
}

static handover written;
static handover damaged;
static uint8_t bytes[BYTES_MOST + 2 * PAIR_ROOM];

/* Reads what is written, with one thing wrong or, now and then, none. */
static void read_damaged(pair *p, rng *r)
{
    damaged = written;
    size_t place = rng_below(r, (uint32_t)damaged.count);
    uint32_t what = rng_below(r, 10);
    if (what < 4) {
        change_data(r, &damaged, place);
    } else if (what < 5) {
        change_order(r, &damaged, place);
    } else if (what < 6) {
        escape_needlessly(r, &damaged, place);
    } else if (what < 7) {
        change_devices(r, &damaged);
    }
    size_t n = join(&damaged, bytes);
    if (what >= 7) {
        n = change_bytes(r, bytes, n);
    }
    (void)pair_read(p, (uint16_t)rng_next(r), (uint16_t)rng_next(r), damaged.devices, bytes, n);
}

/* What is handed over breaks the rules itself; both gateways are read, accepted or not, and what they held is put back. */
static void read_planted(pair *p, rng *r)
{
    tha_gateway proved = p->proved;
    plain_gateway plain = p->plain;
    plant(p, r);
    write_all(p, &written);
    (void)pair_read(p, (uint16_t)rng_next(r), (uint16_t)rng_next(r), written.devices, bytes, join(&written, bytes));
    p->proved = proved;
    p->plain = plain;
}

/* A frame somewhere, mostly with room enough: refused where updates wait. */
static void hand_one(pair *p, rng *r)
{
    static const size_t rooms[] = {0, 31, THA_REPLY_ROOM, 33, PAIR_ROOM};
    uint8_t frame[PAIR_ROOM];
    (void)pair_hand(p, rng_below(r, FRAMES_MOST + 10), rooms[rng_below(r, 5)], frame);
}

void agree_hand_over(pair *p, rng *r)
{
    for (size_t i = 0; i < DAMAGED; i++) {
        hand_one(p, r);
    }
    if (p->plain.queue.count > 0 && rng_one_in(r, 2)) {
        return;
    }
    for (size_t i = 0; i < THA_LIFETIME && p->plain.queue.count > 0; i++) {
        (void)pair_tick(p);
    }
    read_planted(p, r);
    read_planted(p, r);
    write_all(p, &written);
    for (size_t i = 0; i < DAMAGED; i++) {
        read_damaged(p, r);
    }
    (void)pair_read(p, (uint16_t)rng_next(r), (uint16_t)rng_next(r), written.devices, bytes, join(&written, bytes));
}

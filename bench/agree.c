/*
 * agree.c: the timed traffic and every date, through both gateways.
 */
#include "agree.h"
#include "pair.h"

static pair both;

static void feed(pair *p, uint8_t line, stretch s)
{
    for (size_t i = 0; i < s.len; i++) {
        (void)pair_byte(p, line, s.bytes[i], THA_REPLY_ROOM);
    }
}

static void feed_updates(pair *p, const traffic *t)
{
    feed(p, THA_CONTROLLER, t->updates[THA_CONTROLLER]);
    feed(p, THA_PANEL, t->updates[THA_PANEL]);
}

/* A stretch of the controller's in blocks, as it is timed. */
static void feed_blocks(pair *p, stretch s)
{
    static uint8_t area[PAIR_AREA];
    size_t used = 0;
    for (size_t at = 0; at < s.len; at += used) {
        used = pair_block(p, THA_CONTROLLER, s.bytes + at, s.len - at, area, sizeof area).used;
    }
}

static void fresh_with_rows(pair *p, const traffic *t)
{
    pair_fresh(p, 7, 3);
    for (size_t i = 0; i < THA_ROWS; i++) {
        (void)pair_add(p, t->rows[i]);
    }
}

/* The sixteen that wait are each tried in vain, then confirmed. */
static void try_all(pair *p, const traffic *t)
{
    for (size_t i = 0; i < THA_WAITING; i++) {
        tha_head_answer head = pair_head(p);
        (void)pair_turn(p, head.field, (tha_heard){false, 0}, THA_REPLY_ROOM);
    }
    for (size_t i = 0; i < THA_WAITING; i++) {
        (void)pair_head(p);
        (void)pair_turn(p, t->fields[i], (tha_heard){true, t->values[i]}, THA_REPLY_ROOM);
    }
}

/* Frames of every type: FRAMES of them are timed, with all types in turn. */
static void write_all_types(pair *p, const uint8_t *data, size_t n)
{
    for (unsigned type = 0; type <= UINT8_MAX; type++) {
        (void)pair_write(p, (uint8_t)type, data, n, THA_FRAME_ROOM);
    }
}

uint64_t agree_timed(const traffic *t)
{
    pair *p = &both;
    p->calls = 0;
    fresh_with_rows(p, t);
    feed(p, THA_CONTROLLER, t->noise);
    fresh_with_rows(p, t);
    feed(p, THA_CONTROLLER, t->requests);
    feed_updates(p, t);
    try_all(p, t);
    feed_updates(p, t);
    for (size_t i = 0; i < THA_LIFETIME; i++) {
        (void)pair_tick(p);
    }
    fresh_with_rows(p, t);
    feed_blocks(p, t->noise);
    fresh_with_rows(p, t);
    feed_blocks(p, t->requests);
    feed_blocks(p, t->burst);
    write_all_types(p, t->short_data, SHORT_DATA);
    write_all_types(p, t->long_data, LONG_DATA);
    return p->calls;
}

/* Every day of the years that a date may have, with a year, months and days too many at both ends. */
uint64_t agree_dates(void)
{
    pair *p = &both;
    p->calls = 0;
    pair_fresh(p, 7, 3);
    for (uint16_t year = 1999; year <= 2256; year++) {
        for (uint8_t month = 0; month <= 13; month++) {
            for (uint8_t day = 0; day <= 32; day++) {
                pair_plant_date(p, (tha_date){year, month, day, 7, 23, 59});
                pair_check_date(p);
            }
        }
    }
    return p->calls;
}

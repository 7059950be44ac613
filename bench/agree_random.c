/*
 * agree_random.c: mixed random traffic of both lines, through both gateways.
 */
#include "agree.h"
#include "agree_blocks.h"
#include "agree_handover.h"
#include <stdio.h>
#include <stdlib.h>

enum { EPISODES = 60, STEPS = 1500, FIRST_ROWS = 24, HAND_OVER_EACH = 200, SHARES = 8, FEW_ROWS = 4 };

static pair both;

/* The room of a lent buffer: mostly enough. */
static size_t random_room(rng *r)
{
    static const size_t rooms[] = {0, 31, 33, PAIR_ROOM};
    return rng_one_in(r, 24) ? rooms[rng_below(r, 4)] : THA_REPLY_ROOM;
}

/* The number of a line: of the panel's now and then any but 0. */
static uint8_t random_number(rng *r, size_t line)
{
    return (uint8_t)(line == THA_CONTROLLER || !rng_one_in(r, 3) ? line : 1 + rng_below(r, UINT8_MAX));
}

/* Sends the rest of both lines, byte by byte in a random order. */
static void send_mixed(pair *p, rng *r, stretch *rest)
{
    while (rest[THA_CONTROLLER].len + rest[THA_PANEL].len > 0) {
        size_t line = rng_below(r, PLAIN_LINES);
        if (rest[line].len > 0) {
            uint8_t number = random_number(r, line);
            (void)pair_byte(p, number, *rest[line].bytes++, random_room(r));
            rest[line].len--;
        }
    }
}

/* Any packet, or an Update of one of the first devices, which makes for full lines and fields that wait. */
static void make_packet(const pair *p, rng *r, stretch *to)
{
    const tha_table *table = &p->plain.table;
    size_t place = rng_below(r, FEW_ROWS);
    if (place < table->count && rng_one_in(r, 4)) {
        traffic_update(r, table->rows[place].address, to);
    } else {
        traffic_packet(r, to);
    }
}

/* A packet of one line, the panel's with so many of SHARES; one time in three the other line has one too. */
static void step_packets(pair *p, rng *r, uint32_t panel)
{
    uint8_t bytes[PLAIN_LINES][PACKET_ROOM];
    stretch rest[PLAIN_LINES] = {{bytes[THA_CONTROLLER], 0}, {bytes[THA_PANEL], 0}};
    size_t line = rng_below(r, SHARES) < panel ? THA_PANEL : THA_CONTROLLER;
    make_packet(p, r, &rest[line]);
    if (rng_one_in(r, 3)) {
        make_packet(p, r, &rest[THA_PANEL - line]);
    }
    send_mixed(p, r, rest);
}

/* A turn: mostly of the field at the head, and mostly with the value asked for, or near it, or silence. */
static void step_turn(pair *p, rng *r)
{
    tha_head_answer head = pair_head(p);
    tha_field field = head.field;
    if (rng_one_in(r, 6)) {
        field.kind = (uint8_t)rng_below(r, 6);
    }
    if (rng_one_in(r, 6)) {
        field.state = (uint8_t)rng_below(r, 9);
    }
    if (rng_one_in(r, 12)) {
        field.address = traffic_address(r);
    }
    tha_heard heard = {!rng_one_in(r, 3), rng_one_in(r, 2) ? head.value : (uint8_t)(rng_byte(r) >> rng_below(r, 8))};
    (void)pair_turn(p, field, heard, random_room(r));
}

/* Mostly a few seconds, now and then the life of an update. */
static void step_ticks(pair *p, rng *r)
{
    uint32_t n = rng_one_in(r, 12) ? 121 : rng_below(r, 8);
    for (uint32_t i = 0; i < n; i++) {
        (void)pair_tick(p);
    }
}

static void step_write(pair *p, rng *r)
{
    uint8_t data[257];
    size_t n = rng_one_in(r, 3) ? rng_below(r, 258) : rng_below(r, 16);
    uint8_t spread = (uint8_t)(rng_one_in(r, 2) ? 0xFF : 0x0F);
    for (size_t i = 0; i < n; i++) {
        data[i] = (uint8_t)((rng_byte(r) & spread) | (spread == 0xFF ? 0 : 0x20));
    }
    size_t room = rng_one_in(r, 2) ? THA_FRAME_ROOM : rng_one_in(r, 4) ? rng_below(r, (uint32_t)n + 1) : n + rng_below(r, 8);
    (void)pair_write(p, rng_byte(r), data, n, room < THA_FRAME_ROOM ? room : THA_FRAME_ROOM);
}

/* A date that another build may have left is checked; mostly it is the one stored. */
static void step_date(pair *p, rng *r)
{
    if (rng_one_in(r, 3)) {
        pair_plant_date(p, traffic_date(r));
    }
    pair_check_date(p);
}

/* How a gateway lives: the kinds of its steps, and the panel's share of the packets. */
typedef struct {
    uint32_t kinds;
    uint32_t panel;
} life;

/* One step of many kinds; the last two empty the queue. */
static void step(pair *p, rng *r, life l)
{
    uint32_t what = rng_below(r, l.kinds);
    if (rng_one_in(r, HAND_OVER_EACH)) {
        agree_hand_over(p, r);
    } else if (what < 56) {
        step_packets(p, r, l.panel);
    } else if (what < 60) {
        agree_blocks(p, r, make_packet);
    } else if (what < 67) {
        (void)pair_add(p, traffic_row(r));
    } else if (what < 68) {
        pair_set_network_error(p, (uint16_t)rng_next(r));
    } else if (what < 69) {
        step_date(p, r);
    } else if (what < 74) {
        step_write(p, r);
    } else if (what < 86) {
        step_turn(p, r);
    } else {
        step_ticks(p, r);
    }
}

static void all_came_up(const char *what, const uint64_t *counts, int first, int last)
{
    for (int i = first; i <= last; i++) {
        if (counts[i] == 0) {
            fprintf(stderr, "bench: the random traffic never met %s %d\n", what, i);
            exit(1);
        }
    }
}

static uint64_t sum_of(const uint64_t *counts, size_t n)
{
    uint64_t sum = 0;
    for (size_t i = 0; i < n; i++) {
        sum += counts[i];
    }
    return sum;
}

/*
 * A life of a gateway; every third one has no turns and ticks, so that the queue fills up. The panel sends seldom, as much as the
 * controller or most of all, by turns: so either line is full first.
 */
static void live(pair *p, rng *r, size_t episode)
{
    static const uint32_t shares[] = {1, SHARES / 2, SHARES - 1};
    life l = {episode % 3 == 0 ? 74 : 90, shares[episode / 3 % 3]};
    pair_fresh(p, (uint16_t)rng_next(r), (uint16_t)rng_next(r));
    for (size_t i = 0; i < FIRST_ROWS; i++) {
        (void)pair_add(p, traffic_row(r));
    }
    for (size_t i = 0; i < STEPS; i++) {
        step(p, r, l);
    }
}

static uint64_t met_by_both(const pair *p, size_t what)
{
    return p->met[THA_CONTROLLER][what] + p->met[THA_PANEL][what];
}

agreed agree_random(void)
{
    rng r = {1};
    pair *p = &both;
    p->calls = 0;
    for (size_t episode = 0; episode < EPISODES; episode++) {
        live(p, &r, episode);
    }
    all_came_up("outcome", p->outcomes, THA_NOTHING, THA_READ);
    all_came_up("number", p->numbers, THA_NO_ROOM, THA_TABLE_FULL);
    all_came_up("number", p->numbers, THA_UPDATES_WAIT, THA_WRONG_LENGTH);
    all_came_up("a hand-over refused with", p->read, THA_BAD_ROW, THA_TABLE_FULL);
    all_came_up("a hand-over refused with", p->read, THA_NOT_DUE, THA_WRONG_LENGTH);
    all_came_up("the controller's meeting", p->met[THA_CONTROLLER], FULL_ALONE, MEETINGS - 1);
    all_came_up("the panel's meeting", p->met[THA_PANEL], FULL_ALONE, MEETINGS - 1);
    all_came_up("a block's ending", p->ended, WHOLE, ENDINGS - 1);
    all_came_up("in a block the count", p->counted, 0, THA_COUNTED);
    return (agreed){
        .calls = p->calls,
        .handed = p->handed,
        .read = p->read[0],
        .not_read = sum_of(p->read + 1, NUMBERS - 1),
        .full_alone = met_by_both(p, FULL_ALONE),
        .full_both = met_by_both(p, FULL_BOTH),
        .between = met_by_both(p, BETWEEN),
        .blocks = sum_of(p->ended, ENDINGS),
        .area_full = p->ended[AREA_FULL],
        .limited = p->ended[BLOCK_LIMIT],
        .runs = p->runs,
    };
}

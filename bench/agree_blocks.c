/*
 * agree_blocks.c: blocks of both lines through both gateways, and the same bytes one at a time.
 */
#include "agree_blocks.h"
#include <stdio.h>
#include <stdlib.h>
#include <string.h>

enum { RUN_ROOM = 3 * THA_BLOCK + PACKET_ROOM, BLOCKS_MOST = 4 * RUN_ROOM, REPLIES_ROOM = 3 * RUN_ROOM };

/* A part of the run that was used in one go: the line, as it was numbered, and how many of its bytes. */
typedef struct {
    uint8_t line;
    size_t len;
} part;

/* What a run came to: its parts in order, the replies to each line, and the sums of the counts. */
typedef struct {
    part parts[BLOCKS_MOST];
    size_t count;
    uint8_t replies[PLAIN_LINES][REPLIES_ROOM];
    size_t written[PLAIN_LINES];
    tha_counts counts;
} run;

static uint8_t lines_bytes[PLAIN_LINES][RUN_ROOM];
static run in_blocks;
static run in_bytes;

static size_t side_of(uint8_t line)
{
    return line == THA_CONTROLLER ? THA_CONTROLLER : THA_PANEL;
}

static void add_reply(run *to, uint8_t line, const uint8_t *bytes, size_t n)
{
    size_t side = side_of(line);
    memcpy(to->replies[side] + to->written[side], bytes, n);
    to->written[side] += n;
}

static void add_counts(tha_counts *sum, const tha_counts *more)
{
    for (size_t i = 0; i < THA_COUNTED; i++) {
        sum->numbers[i] += more->numbers[i];
    }
    sum->queued += more->queued;
    sum->body += more->body;
}

/* The room of an area: mostly little, so that it is full in the middle of a block; now and then none. */
static size_t random_area(rng *r)
{
    static const size_t rooms[] = {0, 31, 32, 33, 63, 64, PAIR_AREA};
    return rng_one_in(r, 2) ? rooms[rng_below(r, sizeof rooms / sizeof rooms[0])] : rng_below(r, rng_one_in(r, 4) ? PAIR_AREA : 300);
}

/* The size of a block: none, a few bytes, a packet or more, or now and then all that is left. */
static size_t random_size(rng *r, size_t left)
{
    static const uint32_t above[] = {1, 9, 9, 9, 65, 65, 65, 600};
    size_t n = rng_one_in(r, 16) ? left : rng_below(r, above[rng_below(r, sizeof above / sizeof above[0])]);
    return n < left ? n : left;
}

/* One block of a line's rest. */
static void send_block(pair *p, rng *r, uint8_t line, stretch *rest)
{
    static uint8_t area[PAIR_AREA];
    plain_blocked b = pair_block(p, line, rest->bytes, random_size(r, rest->len), area, random_area(r));
    rest->bytes += b.used;
    rest->len -= b.used;
    add_reply(&in_blocks, line, area, b.written);
    add_counts(&in_blocks.counts, &b.counts);
    if (b.used > 0) {
        in_blocks.parts[in_blocks.count++] = (part){line, b.used};
    }
}

/* The number of a line: of the panel's now and then any but 0. */
static uint8_t number_of(rng *r, size_t side)
{
    return (uint8_t)(side == THA_CONTROLLER || !rng_one_in(r, 3) ? side : 1 + rng_below(r, UINT8_MAX));
}

/* Sends the rest of both lines in blocks. */
static void send_blocks(pair *p, rng *r, stretch *rest)
{
    while (rest[THA_CONTROLLER].len + rest[THA_PANEL].len > 0) {
        size_t side = rng_below(r, PLAIN_LINES);
        if (rest[side].len > 0) {
            send_block(p, r, number_of(r, side), &rest[side]);
        }
    }
}

/* Counts what one byte came to. */
static void add_answer_of(run *to, uint8_t line, tha_answer a, const uint8_t *reply)
{
    if (a.outcome == THA_REPLIED) {
        add_reply(to, line, reply, a.count);
    } else if (a.outcome == THA_QUEUED) {
        to->counts.queued++;
    } else if (a.outcome == THA_REFUSED) {
        to->counts.numbers[a.number - THA_RESTARTED]++;
        to->counts.body += (uint32_t)(tha_is_drop(a.number) ? a.count : 0);
    }
}

/* The same parts of the run, one byte at a time, on the proved gateway. */
static tha_gateway send_bytes(tha_gateway g)
{
    const uint8_t *next[PLAIN_LINES] = {lines_bytes[THA_CONTROLLER], lines_bytes[THA_PANEL]};
    uint8_t reply[THA_REPLY_ROOM];
    tha_result r = {.gateway = g};
    for (size_t i = 0; i < in_blocks.count; i++) {
        part now = in_blocks.parts[i];
        for (size_t j = 0; j < now.len; j++) {
            r = tha_byte(r.gateway, now.line, *next[side_of(now.line)]++, reply, sizeof reply);
            add_answer_of(&in_bytes, now.line, r.answer, reply);
        }
    }
    return r.gateway;
}

static void need(bool holds, const char *what)
{
    if (!holds) {
        fprintf(stderr, "bench: blocks and single bytes of the same lines differ: %s\n", what);
        exit(1);
    }
}

/* Both runs gave the same; the gateway after the bytes is compared with the plain one after the blocks. */
static void compare_runs(const pair *p, tha_gateway last)
{
    static pair after;
    for (size_t side = 0; side < PLAIN_LINES; side++) {
        size_t n = in_blocks.written[side];
        need(n == in_bytes.written[side], "how long the replies are");
        need(memcmp(in_blocks.replies[side], in_bytes.replies[side], n) == 0, "the replies");
    }
    need(memcmp(&in_blocks.counts, &in_bytes.counts, sizeof in_bytes.counts) == 0, "the counts");
    after.calls = p->calls;
    after.proved = last;
    after.plain = p->plain;
    pair_compare(&after, "blocks, then byte by byte");
}

static void clear(run *to)
{
    to->count = 0;
    memset(to->written, 0, sizeof to->written);
    memset(&to->counts, 0, sizeof to->counts);
}

/* How long a run is: mostly some packets, now and then more than two blocks. */
static size_t random_length(rng *r)
{
    return rng_one_in(r, 64) ? rng_below(r, RUN_ROOM - PACKET_ROOM) : rng_below(r, 300);
}

void agree_blocks(pair *p, rng *r, packet_maker *make)
{
    stretch rest[PLAIN_LINES] = {{lines_bytes[THA_CONTROLLER], 0}, {lines_bytes[THA_PANEL], 0}};
    uint32_t sides = 1 + rng_below(r, 3); /* one line, the other, or both */
    tha_gateway before = p->proved;
    clear(&in_blocks);
    clear(&in_bytes);
    for (uint32_t side = 0; side < PLAIN_LINES; side++) {
        size_t length = (sides >> side & 1) == 1 ? random_length(r) : 0;
        while (rest[side].len < length) {
            make(p, r, &rest[side]);
        }
    }
    send_blocks(p, r, rest);
    compare_runs(p, send_bytes(before));
    p->runs++;
}

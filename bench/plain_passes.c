/*
 * plain_passes.c: the timed loops over the plain gateway, the same as those over the proved one.
 */
#include "passes.h"
#include "plain.h"

static plain_gateway with_rows;    /* 32 devices */
static plain_gateway with_updates; /* and sixteen updates that wait */

static uint64_t feed(plain_gateway *g, uint8_t line, stretch s, uint64_t sum)
{
    uint8_t buffer[THA_REPLY_ROOM];
    for (size_t i = 0; i < s.len; i++) {
        tha_answer a = plain_byte(g, line, s.bytes[i], buffer, sizeof buffer);
        sum = add_answer(sum, a, buffer);
    }
    return sum;
}

/* Feeds the sixteen updates, eight from each line. */
static uint64_t feed_updates(plain_gateway *g, const traffic *t, uint64_t sum)
{
    uint64_t half = feed(g, THA_CONTROLLER, t->updates[THA_CONTROLLER], sum);
    return feed(g, THA_PANEL, t->updates[THA_PANEL], half);
}

void plain_prepare(const traffic *t)
{
    plain_fresh(&with_rows, 7, 3);
    for (size_t i = 0; i < THA_ROWS; i++) {
        (void)plain_add(&with_rows, &t->rows[i]);
    }
    with_updates = with_rows;
    (void)feed_updates(&with_updates, t, 0);
}

/* A block call of the plain gateway. */
typedef plain_blocked block_call(plain_gateway *g, uint8_t line, const uint8_t *bytes, size_t length, uint8_t *area, size_t area_length);

/* Feeds the controller's stretch in blocks. */
static uint64_t feed_blocks(block_call *call, const plain_gateway *start, stretch s, uint64_t sum)
{
    static uint8_t area[AREA_ROOM];
    plain_gateway g = *start;
    plain_blocked b;
    for (size_t at = 0; at < s.len; at += b.used) {
        size_t n = s.len - at < THA_BLOCK ? s.len - at : THA_BLOCK;
        b = call(&g, THA_CONTROLLER, s.bytes + at, n, area, sizeof area);
        sum = add_block(sum, b.used, b.written, &b.counts, area);
    }
    return add_to(sum, g.receivers[THA_CONTROLLER].escaped);
}

uint64_t plain_noise_blocks(const traffic *t)
{
    return feed_blocks(plain_block, &with_rows, t->noise, 0);
}

uint64_t plain_noise_tuned(const traffic *t)
{
    return feed_blocks(plain_block_tuned, &with_rows, t->noise, 0);
}

uint64_t plain_request_blocks(const traffic *t)
{
    return feed_blocks(plain_block, &with_rows, t->requests, 0);
}

uint64_t plain_request_tuned(const traffic *t)
{
    return feed_blocks(plain_block_tuned, &with_rows, t->requests, 0);
}

/* Each block finds the queue empty. */
static uint64_t feed_bursts(block_call *call, const traffic *t)
{
    uint64_t sum = 0;
    for (size_t round = 0; round < ROUNDS; round++) {
        sum = feed_blocks(call, &with_rows, t->burst, sum);
    }
    return sum;
}

uint64_t plain_update_blocks(const traffic *t)
{
    return feed_bursts(plain_block, t);
}

uint64_t plain_update_tuned(const traffic *t)
{
    return feed_bursts(plain_block_tuned, t);
}

uint64_t plain_noise(const traffic *t)
{
    plain_gateway g = with_rows;
    uint64_t sum = feed(&g, THA_CONTROLLER, t->noise, 0);
    return add_to(sum, g.receivers[THA_CONTROLLER].escaped);
}

uint64_t plain_requests(const traffic *t)
{
    plain_gateway g = with_rows;
    return feed(&g, THA_CONTROLLER, t->requests, 0);
}

/* Reads the head and tries it: in vain, or with the value asked for. */
static uint64_t try_head(plain_gateway *g, bool answered, uint64_t sum)
{
    uint8_t buffer[THA_REPLY_ROOM];
    tha_head_answer head = plain_head(g);
    tha_answer a = plain_turn(g, head.field, (tha_heard){answered, head.value}, buffer, sizeof buffer);
    return add_answer(sum, a, buffer);
}

uint64_t plain_updates(const traffic *t)
{
    uint64_t sum = 0;
    plain_gateway g = with_rows;
    for (size_t round = 0; round < ROUNDS; round++) {
        sum = feed_updates(&g, t, sum);
        for (size_t i = 0; i < 2 * THA_WAITING; i++) {
            sum = try_head(&g, i >= THA_WAITING, sum);
        }
    }
    return sum;
}

/* Tries the sixteen updates, in vain and then with an answer. */
static uint64_t try_all(const traffic *t, uint64_t sum)
{
    uint8_t buffer[THA_REPLY_ROOM];
    plain_gateway g = with_updates;
    for (size_t i = 0; i < 2 * THA_WAITING; i++) {
        size_t at = i % THA_WAITING;
        tha_heard heard = {i >= THA_WAITING, t->values[at]};
        sum = add_answer(sum, plain_turn(&g, t->fields[at], heard, buffer, sizeof buffer), buffer);
    }
    return sum;
}

uint64_t plain_turns(const traffic *t)
{
    uint64_t sum = 0;
    for (size_t round = 0; round < ROUNDS; round++) {
        sum = try_all(t, sum);
    }
    return sum;
}

/* The life of sixteen updates: they time out together on the last tick. */
static uint64_t tick_all(uint64_t sum)
{
    tha_line_field list[THA_WAITING] = {{0}};
    plain_gateway g = with_updates;
    for (size_t i = 0; i < THA_LIFETIME; i++) {
        sum = add_to(sum, plain_tick(&g, list));
    }
    const tha_line_field *last = &list[THA_WAITING - 1];
    return add_to(sum, last->line * 65536u + last->field.address);
}

uint64_t plain_ticks(const traffic *t)
{
    (void)t;
    uint64_t sum = 0;
    for (size_t round = 0; round < ROUNDS; round++) {
        sum = tick_all(sum);
    }
    return sum;
}

static uint64_t write_frames(const uint8_t *data, size_t n)
{
    uint8_t buffer[THA_FRAME_ROOM];
    uint64_t sum = 0;
    for (size_t i = 0; i < FRAMES; i++) {
        sum = add_answer(sum, plain_write((uint8_t)i, data, n, buffer, sizeof buffer), buffer);
    }
    return sum;
}

uint64_t plain_short_frames(const traffic *t)
{
    return write_frames(t->short_data, SHORT_DATA);
}

uint64_t plain_long_frames(const traffic *t)
{
    return write_frames(t->long_data, LONG_DATA);
}

/* The hand-over of 32 devices: all frames written, one past them asked for, and read back. */
uint64_t plain_hand_over(const traffic *t)
{
    static uint8_t bytes[(HANDED + 1) * THA_REPLY_ROOM];
    uint64_t sum = 0;
    size_t used = 0;
    plain_gateway g;
    (void)t;
    for (size_t place = 0; place <= HANDED; place++) {
        tha_answer a = plain_hand(&with_rows, place, bytes + used, THA_REPLY_ROOM);
        sum = add_answer(sum, a, bytes + used);
        used += a.count;
    }
    sum = add_answer(sum, plain_read(&g, 7, 3, THA_ROWS, bytes, used), bytes);
    return add_to(sum, g.table.rows[THA_ROWS - 1].version);
}

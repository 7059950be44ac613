/*
 * proved_passes.c: the timed loops over the proved gateway, by value as any C host calls it.
 */
#include "passes.h"

static tha_gateway with_rows;    /* 32 devices */
static tha_gateway with_updates; /* and sixteen updates that wait */

/* Feeds a line's stretch, and hands back the gateway and the sum of the answers. */
static tha_gateway feed(tha_gateway g, uint8_t line, stretch s, uint64_t *sum)
{
    uint8_t buffer[THA_REPLY_ROOM];
    tha_result r = {.gateway = g};
    uint64_t total = *sum;
    for (size_t i = 0; i < s.len; i++) {
        r = tha_byte(r.gateway, line, s.bytes[i], buffer, sizeof buffer);
        total = add_answer(total, r.answer, buffer);
    }
    *sum = total;
    return r.gateway;
}

/* Feeds the sixteen updates, eight from each line. */
static tha_gateway feed_updates(tha_gateway g, const traffic *t, uint64_t *sum)
{
    tha_gateway half = feed(g, THA_CONTROLLER, t->updates[THA_CONTROLLER], sum);
    return feed(half, THA_PANEL, t->updates[THA_PANEL], sum);
}

void proved_prepare(const traffic *t)
{
    uint64_t sum = 0;
    with_rows = tha_fresh(7, 3);
    for (size_t i = 0; i < THA_ROWS; i++) {
        with_rows = tha_add(with_rows, t->rows[i]).gateway;
    }
    with_updates = feed_updates(with_rows, t, &sum);
}

/* Feeds the controller's stretch in blocks. */
static uint64_t feed_blocks(tha_gateway g, stretch s, uint64_t sum)
{
    static uint8_t area[AREA_ROOM];
    tha_blocked b = {.gateway = g};
    for (size_t at = 0; at < s.len; at += b.used) {
        size_t n = s.len - at < THA_BLOCK ? s.len - at : THA_BLOCK;
        b = tha_block(b.gateway, THA_CONTROLLER, s.bytes + at, n, area, sizeof area);
        sum = add_block(sum, b.used, b.written, &b.counts, area);
    }
    return add_to(sum, b.gateway.receivers.controller.escaped);
}

uint64_t proved_noise_blocks(const traffic *t)
{
    return feed_blocks(with_rows, t->noise, 0);
}

uint64_t proved_request_blocks(const traffic *t)
{
    return feed_blocks(with_rows, t->requests, 0);
}

/* Each block finds the queue empty. */
uint64_t proved_update_blocks(const traffic *t)
{
    uint64_t sum = 0;
    for (size_t round = 0; round < ROUNDS; round++) {
        sum = feed_blocks(with_rows, t->burst, sum);
    }
    return sum;
}

/* Beside the tuned plain gateway the proved one is the same. */
uint64_t proved_noise_tuned(const traffic *t)
{
    return proved_noise_blocks(t);
}

uint64_t proved_request_tuned(const traffic *t)
{
    return proved_request_blocks(t);
}

uint64_t proved_update_tuned(const traffic *t)
{
    return proved_update_blocks(t);
}

uint64_t proved_noise(const traffic *t)
{
    uint64_t sum = 0;
    tha_gateway g = feed(with_rows, THA_CONTROLLER, t->noise, &sum);
    return add_to(sum, g.receivers.controller.escaped);
}

uint64_t proved_requests(const traffic *t)
{
    uint64_t sum = 0;
    (void)feed(with_rows, THA_CONTROLLER, t->requests, &sum);
    return sum;
}

/* Reads the head and tries it: in vain, or with the value asked for. */
static tha_result try_head(tha_gateway g, bool answered, uint64_t *sum)
{
    uint8_t buffer[THA_REPLY_ROOM];
    tha_head_answer head = tha_head(g);
    tha_result r = tha_turn(g, head.field, (tha_heard){answered, head.value}, buffer, sizeof buffer);
    *sum = add_answer(*sum, r.answer, buffer);
    return r;
}

uint64_t proved_updates(const traffic *t)
{
    uint64_t sum = 0;
    tha_result r = {.gateway = with_rows};
    for (size_t round = 0; round < ROUNDS; round++) {
        r.gateway = feed_updates(r.gateway, t, &sum);
        for (size_t i = 0; i < 2 * THA_WAITING; i++) {
            r = try_head(r.gateway, i >= THA_WAITING, &sum);
        }
    }
    return sum;
}

/* Tries the sixteen updates, in vain and then with an answer. */
static uint64_t try_all(const traffic *t, uint64_t sum)
{
    uint8_t buffer[THA_REPLY_ROOM];
    tha_result r = {.gateway = with_updates};
    for (size_t i = 0; i < 2 * THA_WAITING; i++) {
        size_t at = i % THA_WAITING;
        r = tha_turn(r.gateway, t->fields[at], (tha_heard){i >= THA_WAITING, t->values[at]}, buffer, sizeof buffer);
        sum = add_answer(sum, r.answer, buffer);
    }
    return sum;
}

uint64_t proved_turns(const traffic *t)
{
    uint64_t sum = 0;
    for (size_t round = 0; round < ROUNDS; round++) {
        sum = try_all(t, sum);
    }
    return sum;
}

/* The life of sixteen updates: they time out together on the last tick. */
static uint64_t tick_all(uint64_t sum)
{
    tha_ticked r = {.gateway = with_updates};
    for (size_t i = 0; i < THA_LIFETIME; i++) {
        r = tha_tick(r.gateway);
        sum = add_to(sum, r.fields.count);
    }
    tha_line_field last = r.fields.list[THA_WAITING - 1];
    return add_to(sum, last.line * 65536u + last.field.address);
}

uint64_t proved_ticks(const traffic *t)
{
    (void)t;
    uint64_t sum = 0;
    for (size_t round = 0; round < ROUNDS; round++) {
        sum = tick_all(sum);
    }
    return sum;
}

static uint64_t write_frames(const uint8_t *data, size_t n)
{
    uint8_t buffer[THA_FRAME_ROOM];
    uint64_t sum = 0;
    for (size_t i = 0; i < FRAMES; i++) {
        sum = add_answer(sum, tha_write((uint8_t)i, data, n, buffer, sizeof buffer), buffer);
    }
    return sum;
}

uint64_t proved_short_frames(const traffic *t)
{
    return write_frames(t->short_data, SHORT_DATA);
}

uint64_t proved_long_frames(const traffic *t)
{
    return write_frames(t->long_data, LONG_DATA);
}

/* The hand-over of 32 devices: all frames written, one past them asked for, and read back. */
uint64_t proved_hand_over(const traffic *t)
{
    static uint8_t bytes[(HANDED + 1) * THA_REPLY_ROOM];
    uint64_t sum = 0;
    size_t used = 0;
    (void)t;
    for (size_t place = 0; place <= HANDED; place++) {
        tha_answer a = tha_hand(with_rows, place, bytes + used, THA_REPLY_ROOM);
        sum = add_answer(sum, a, bytes + used);
        used += a.count;
    }
    tha_result r = tha_read(7, 3, THA_ROWS, bytes, used);
    sum = add_answer(sum, r.answer, bytes);
    return add_to(sum, r.gateway.table.rows[THA_ROWS - 1].version);
}

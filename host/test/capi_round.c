/* capi_round.c: every call, with another value in every field, so that a field at a wrong offset is seen. */
#include "capi.h"
#include "check.h"
#include "frames.h"
#include "same.h"

#include <string.h>

void fresh_gateway(void)
{
    tha_gateway gateway = tha_fresh(0x1234, 0x5678);
    tha_properties properties = {
        .firmware = 0x1234,
        .protocol = 0x5678,
        .date = {.year = 65535, .month = 255, .day = 255, .weekday = 255, .hour = 255, .minute = 255},
    };

    for (uint8_t line = THA_CONTROLLER; line <= THA_PANEL; line++) {
        const tha_receiver *receiver = receiver_of(&gateway, line);

        CHECK(!receiver->inside && !receiver->escaped && receiver->len == 0);
    }
    CHECK(gateway.table.count == 0 && gateway.queue.count == 0);
    CHECK(same_properties(&gateway.properties, &properties));
}

/* The replies of one row. */
static void check_row(tha_gateway gateway, const tha_row *row)
{
    uint8_t low = (uint8_t)row->address;
    uint8_t high = (uint8_t)(row->address >> 8);
    uint8_t version[] = {low, high, (uint8_t)row->version, (uint8_t)(row->version >> 8), (uint8_t)(row->version >> 16),
                         (uint8_t)(row->version >> 24)};
    uint8_t mask[] = {low, high, (uint8_t)row->mask, (uint8_t)(row->mask >> 8)};
    uint8_t mode[] = {low, high, row->mode};
    uint8_t events[] = {low, high, row->events};
    uint8_t asked[6] = {low, high, 0, 0, 0, 0};

    check_answer(gateway, VERSION, asked, version, sizeof version);
    check_answer(gateway, ATTRIBUTES, asked, mask, sizeof mask);
    check_answer(gateway, MODE, asked, mode, sizeof mode);
    check_answer(gateway, EVENTS, asked, events, sizeof events);
    for (uint8_t state = 0; state <= THA_STATES; state++) {
        uint8_t found = state < THA_STATES ? state : row->state;
        uint8_t cool[] = {low, high, found, row->cool[found]};
        uint8_t slab[] = {low, high, found, row->slab[found]};
        uint8_t fan[] = {low, high, found, row->fan[found]};

        asked[2] = state;
        check_answer(gateway, COOL, asked, cool, sizeof cool);
        check_answer(gateway, SLAB, asked, slab, sizeof slab);
        check_answer(gateway, FAN, asked, fan, sizeof fan);
    }
}

void rows_in_and_out(void)
{
    tha_gateway fresh = tha_fresh(0x1234, 0x5678);
    tha_gateway gateway = gateway_of_rows(THA_ROWS);

    CHECK(gateway.table.count == THA_ROWS);
    CHECK(same_receivers(&gateway.receivers, &fresh.receivers) && same_queue(&gateway.queue, &fresh.queue));
    CHECK(same_properties(&gateway.properties, &fresh.properties));
    for (size_t i = 0; i < THA_ROWS; i++) {
        tha_row row = busy_row((uint8_t)(i + 1));

        CHECK_SAYS(same_row(&gateway.table.rows[i], &row), "row %zu", i);
        check_row(gateway, &row);
    }
}

void properties_in_and_out(void)
{
    static const uint8_t zeros[2];
    const uint8_t date[] = {0xDC, 0x07, 6, 26, 2, 10, 27};
    tha_properties wanted = {
        .error = 0xA1B2,
        .reporting = true,
        .firmware = 0x1234,
        .protocol = 0x5678,
        .date = {.year = 2012, .month = 6, .day = 26, .weekday = 2, .hour = 10, .minute = 27},
    };
    uint8_t reply[THA_REPLY_ROOM];
    tha_gateway gateway = gateway_of_rows(2);
    tha_gateway before = gateway;

    gateway = tha_set_network_error(gateway, 0xA1B2);
    gateway = feed_record(gateway, UPDATE, REPORTING, (const uint8_t[]){1}, 1, reply).gateway;
    gateway = feed_record(gateway, UPDATE, DATE, date, sizeof date, reply).gateway;
    CHECK(same_properties(&gateway.properties, &wanted));
    CHECK(same_table(&gateway.table, &before.table) && same_queue(&gateway.queue, &before.queue));
    check_answer(gateway, NETWORK_ERROR, zeros, (const uint8_t[]){0xB2, 0xA1}, 2);
    check_answer(gateway, REPORTING, zeros, (const uint8_t[]){1}, 1);
    check_answer(gateway, FIRMWARE, zeros, (const uint8_t[]){0x34, 0x12}, 2);
    check_answer(gateway, PROTOCOL, zeros, (const uint8_t[]){0x78, 0x56}, 2);
}

/* The kind of a field that the i-th update below is for. */
static uint8_t kind_of(uint8_t i)
{
    return (uint8_t)(THA_COOL + i % 3);
}

/* And the line that it comes from. */
static uint8_t line_of(unsigned i)
{
    return i % 2 == 0 ? THA_PANEL : THA_CONTROLLER;
}

/* Sixteen updates of both lines and of other devices, kinds, states and values, each two ticks younger than the one before. */
static tha_gateway gateway_of_updates(void)
{
    static const uint32_t methods[] = {MODE, COOL, SLAB, FAN};
    tha_gateway gateway = gateway_of_rows(THA_WAITING);

    for (uint8_t i = 0; i < THA_WAITING; i++) {
        gateway = queue_line_setting(gateway, line_of(i), methods[kind_of(i)], (uint16_t)(0x4101 + i), i % 7, (uint8_t)(60 + i));
        gateway = tha_tick(tha_tick(gateway).gateway).gateway;
    }
    return gateway;
}

void queue_slots(void)
{
    tha_gateway gateway = gateway_of_updates();
    tha_gateway rows = gateway_of_rows(THA_WAITING);

    CHECK(gateway.queue.count == THA_WAITING);
    CHECK(same_table(&gateway.table, &rows.table) && same_properties(&gateway.properties, &rows.properties));
    for (uint8_t i = 0; i < THA_WAITING; i++) {
        tha_field field = field_at((uint16_t)(0x4101 + i), kind_of(i), i % 7);
        const tha_update *slot = &gateway.queue.slots[i];

        CHECK_SAYS(same_field(slot->field, field) && slot->line == line_of(i), "field and line of slot %u", i);
        CHECK_SAYS(slot->value == 60 + i && slot->age == 2 * (THA_WAITING - i), "slot %u: %u, %u", i, slot->value, slot->age);
    }
}

/* They leave one after the other, each on its 120th tick; then two that were queued between the same ticks leave together. */
void ticks_and_lists(void)
{
    tha_gateway gateway = gateway_of_updates();
    tha_line_field none = line_field_at(0, 0, 0, 0);
    tha_ticked ticked = {.gateway = gateway};

    for (unsigned tick = 2 * THA_WAITING + 1; tick <= 2 * THA_WAITING + 118; tick++) {
        unsigned left = tick < 120 ? 0 : (tick - 120) / 2 + 1;
        bool leaves = tick >= 120 && tick % 2 == 0;
        tha_line_field field =
            line_field_at(line_of(left - 1), (uint16_t)(0x4100 + left), kind_of((uint8_t)(left - 1)), (uint8_t)((left - 1) % 7));

        ticked = tha_tick(ticked.gateway);
        CHECK_SAYS(ticked.gateway.queue.count == THA_WAITING - left, "%zu wait at tick %u", ticked.gateway.queue.count, tick);
        CHECK_SAYS(ticked.fields.count == (leaves ? 1 : 0), "%zu are listed at tick %u", ticked.fields.count, tick);
        CHECK(same_line_field(ticked.fields.list[0], leaves ? field : none) && same_line_field(ticked.fields.list[1], none));
    }
    gateway = queue_setting(ticked.gateway, FAN, 0x4103, 4, 9);
    gateway = queue_line_setting(gateway, THA_PANEL, COOL, 0x4102, 1, 8);
    for (unsigned i = 0; i < 120; i++) {
        CHECK(i == 0 || ticked.fields.count == 0);
        ticked = tha_tick(gateway);
        gateway = ticked.gateway;
    }
    CHECK(ticked.fields.count == 2 && gateway.queue.count == 0);
    CHECK(same_line_field(ticked.fields.list[0], line_field_at(THA_CONTROLLER, 0x4103, THA_FAN, 4)));
    CHECK(same_line_field(ticked.fields.list[1], line_field_at(THA_PANEL, 0x4102, THA_COOL, 1)));
    CHECK(same_line_field(ticked.fields.list[15], none));
}

/* A turn that fails: the head is at the tail, with its age. */
static tha_gateway failed_turn(tha_gateway gateway, tha_heard heard)
{
    uint8_t reply[THA_REPLY_ROOM];
    tha_update first = gateway.queue.slots[0];
    tha_update second = gateway.queue.slots[1];
    tha_result result = tha_turn(gateway, first.field, heard, reply, sizeof reply);

    CHECK(result.answer.outcome == THA_FAILED && result.answer.number == 0 && result.answer.line == 0 && result.answer.count == 0);
    CHECK(result.gateway.queue.count == gateway.queue.count);
    CHECK(same_update(&result.gateway.queue.slots[gateway.queue.count - 1], &first));
    CHECK(same_update(&result.gateway.queue.slots[0], &second));
    CHECK(same_table(&result.gateway.table, &gateway.table));
    return result.gateway;
}

void head_and_turns(void)
{
    tha_gateway gateway = gateway_of_updates();
    tha_head_answer head = tha_head(gateway);
    uint8_t reply[THA_REPLY_ROOM];
    uint8_t wanted[64];
    tha_result result;
    size_t count;

    CHECK(head.number == 0 && head.line == THA_PANEL && head.value == 60);
    CHECK(same_field(head.field, field_at(0x4101, THA_COOL, 0)));
    gateway = failed_turn(gateway, (tha_heard){.answered = false, .value = 77});
    head = tha_head(gateway);
    CHECK(head.number == 0 && head.line == THA_CONTROLLER && head.value == 61);
    CHECK(same_field(head.field, field_at(0x4102, THA_SLAB, 1)));
    gateway = failed_turn(gateway, (tha_heard){.answered = true, .value = THA_NONE});
    head = tha_head(gateway);
    CHECK(head.number == 0 && head.line == THA_PANEL && head.value == 62);
    CHECK(same_field(head.field, field_at(0x4103, THA_FAN, 2)));
    memset(reply, 0xEE, sizeof reply);
    result = tha_turn(gateway, head.field, (tha_heard){.answered = true, .value = 63}, reply, sizeof reply);
    count = record_frame(wanted, UPDATED, FAN, (const uint8_t[]){0x03, 0x41, 2, 63}, 4);
    memset(wanted + count, 0xEE, sizeof wanted - count);
    CHECK(result.answer.outcome == THA_REPLIED && result.answer.number == 0 && result.answer.line == THA_PANEL);
    CHECK(result.answer.count == count && memcmp(reply, wanted, sizeof reply) == 0);
    CHECK(result.gateway.queue.count == THA_WAITING - 1 && result.gateway.table.rows[2].fan[2] == 63);
    check_answer(result.gateway, FAN, (const uint8_t[]){0x03, 0x41, 2, 0}, (const uint8_t[]){0x03, 0x41, 2, 63}, 4);
}

/* The most data, DateTime's 12 bytes, and many escapes. */
void longest_replies(void)
{
    static const uint8_t date[] = {0x2F, 0x08, 1, 1, 1, 3, 0x35};
    static const uint8_t asked[] = {0xCA, 0xCA, 0, 0, 0, 0};
    static const uint8_t version[] = {0xCA, 0xCA, 0x2F, 0x35, 0xCA, 0x2F};
    tha_row row = busy_row(1);
    tha_gateway gateway;

    row.address = 0xCACA;
    row.version = 0x2FCA352F;
    gateway = tha_add(tha_fresh(0, 0), row).gateway;
    check_reply(gateway, UPDATE, DATE, date, date, sizeof date);
    check_reply(gateway, REQUEST, VERSION, asked, version, sizeof version);
}

/* Every byte value as data, and every type; the buffer past the frame is kept. */
void frames_written(void)
{
    uint8_t data[255];
    uint8_t buffer[THA_FRAME_ROOM];
    uint8_t wanted[THA_FRAME_ROOM];

    for (unsigned type = 0; type < 256; type++) {
        tha_answer answer;
        size_t count;

        for (size_t i = 0; i < sizeof data; i++) {
            data[i] = (uint8_t)(type + i);
        }
        memset(buffer, 0xEE, sizeof buffer);
        memset(wanted, 0xEE, sizeof wanted);
        count = frame_of(wanted, (uint8_t)type, data, type);
        answer = tha_write((uint8_t)type, data, type, buffer, sizeof buffer);
        CHECK(answer.outcome == THA_WRITTEN && answer.number == 0 && answer.count == count);
        CHECK_SAYS(memcmp(buffer, wanted, sizeof buffer) == 0, "the frame of type %u", type);
    }
    memset(data, 0xCA, sizeof data);
    CHECK(tha_write(0x2F, data, sizeof data, buffer, sizeof buffer).count <= THA_FRAME_ROOM);
}

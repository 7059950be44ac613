/* capi_values.c: values that no call hands out: counts over an array's length count as that length, and nothing else is read. */
#include "capi.h"
#include "check.h"
#include "frames.h"
#include "same.h"

#include <string.h>

static const size_t too_large[] = {17, 33, 259, 65536, SIZE_MAX};

enum { TOO_LARGE = sizeof too_large / sizeof too_large[0] };

/* Sixteen updates of 32 devices, every second one of the panel. */
static tha_gateway full_gateway(void)
{
    tha_gateway gateway = gateway_of_rows(THA_ROWS);

    for (uint8_t i = 0; i < THA_WAITING; i++) {
        gateway = queue_line_setting(gateway, i % 2, COOL, (uint16_t)(0x4101 + i), 2, (uint8_t)(60 + i));
    }
    return gateway;
}

void counts_too_large(void)
{
    tha_gateway full = full_gateway();
    uint8_t reply[THA_REPLY_ROOM];

    for (size_t i = 0; i < TOO_LARGE; i++) {
        tha_gateway gateway = full;
        tha_ticked ticked = {.gateway = gateway};
        tha_result result;

        gateway.queue.count = too_large[i];
        gateway.table.count = too_large[i] < THA_ROWS ? THA_ROWS : too_large[i];
        CHECK(same_field(tha_head(gateway).field, field_at(0x4101, THA_COOL, 2)));
        CHECK(tha_add(gateway, busy_row(50)).answer.number == THA_TABLE_FULL);
        CHECK(tha_add(gateway, busy_row(32)).answer.number == THA_ADDRESS_TAKEN);
        for (uint8_t line = THA_CONTROLLER; line <= THA_PANEL; line++) {
            result = feed_line_record(gateway, line, UPDATE, FAN, (const uint8_t[]){0x01, 0x41, 2, 50}, 4, reply);
            CHECK(result.answer.number == THA_QUEUE_FULL);
        }
        result = feed_record(gateway, REQUEST, COOL, (const uint8_t[]){0x21, 0x41, 2, 50}, 4, reply);
        CHECK(result.answer.number == THA_UNKNOWN_ADDRESS);
        result = tha_turn(gateway, field_at(0x4101, THA_COOL, 2), (tha_heard){.answered = true, .value = 60}, reply, sizeof reply);
        CHECK(result.answer.outcome == THA_REPLIED && result.gateway.queue.count == THA_WAITING - 1);
        ticked.gateway = gateway;
        for (unsigned tick = 0; tick < THA_LIFETIME; tick++) {
            ticked = tha_tick(ticked.gateway);
        }
        CHECK(ticked.fields.count == THA_WAITING && ticked.gateway.queue.count == 0);
        CHECK(same_line_field(ticked.fields.list[15], line_field_at(THA_PANEL, 0x4110, THA_COOL, 2)));
    }
}

/* A kind above 3 in a slot stays and stands for the fan; a turn that names another kind, or a mode with a state, names another field. */
void kinds_too_large(void)
{
    uint8_t reply[THA_REPLY_ROOM];

    for (unsigned kind = 4; kind < 256; kind++) {
        tha_gateway gateway = queue_setting(gateway_of_rows(1), FAN, 0x4101, 2, 60);
        tha_result result;

        gateway.queue.slots[0].field.kind = (uint8_t)kind;
        CHECK(same_field(tha_head(gateway).field, field_at(0x4101, (uint8_t)kind, 2)));
        result = tha_turn(gateway, field_at(0x4101, THA_FAN, 2), (tha_heard){.answered = true, .value = 60}, reply, sizeof reply);
        CHECK(result.answer.outcome == THA_REFUSED && result.answer.number == THA_NOT_HEAD);
        result = tha_turn(gateway, field_at(0x4101, (uint8_t)kind, 2), (tha_heard){.answered = true, .value = 60}, reply, sizeof reply);
        CHECK(result.answer.outcome == THA_REPLIED && result.gateway.table.rows[0].fan[2] == 60);
    }
}

/* A mode with a state in a slot stays so; a turn that names it tries the mode, and one that names the mode names another field. */
void modes_with_a_state(void)
{
    uint8_t reply[THA_REPLY_ROOM];

    for (unsigned state = 1; state < 256; state++) {
        tha_gateway gateway = feed_record(gateway_of_rows(1), UPDATE, MODE, (const uint8_t[]){0x01, 0x41, 2}, 3, reply).gateway;
        tha_result result;

        gateway.queue.slots[0].field.state = (uint8_t)state;
        CHECK(same_field(tha_head(gateway).field, field_at(0x4101, THA_MODE, (uint8_t)state)));
        result = tha_turn(gateway, field_at(0x4101, THA_MODE, 0), (tha_heard){.answered = true, .value = 2}, reply, sizeof reply);
        CHECK(result.answer.outcome == THA_REFUSED && result.answer.number == THA_NOT_HEAD);
        CHECK(same_gateway(&result.gateway, &gateway));
        result = tha_turn(gateway, field_at(0x4101, THA_MODE, (uint8_t)state), (tha_heard){.answered = true, .value = 2}, reply, sizeof reply);
        CHECK(result.answer.outcome == THA_REPLIED && result.gateway.table.rows[0].mode == 2);
    }
}

/* Inside a packet with a body that is longer than the array: it counts as 258 bytes. */
static void receiver_too_long(uint8_t line, size_t length)
{
    tha_gateway gateway = tha_fresh(0, 0);
    tha_receiver *receiver = receiver_of(&gateway, line);
    uint8_t reply[THA_REPLY_ROOM];
    tha_result result;

    receiver->inside = true;
    receiver->len = length;
    receiver->bytes[0] = 255;
    receiver->bytes[1] = 1;
    result = tha_byte(gateway, line, 0x35, reply, sizeof reply);
    CHECK(result.answer.number == THA_WRONG_TYPE && !receiver_of(&result.gateway, line)->inside);
    result = tha_byte(gateway, line, 0x00, reply, sizeof reply);
    CHECK(result.answer.number == THA_TOO_LONG && !receiver_of(&result.gateway, line)->inside);
    CHECK_SAYS(result.answer.count == THA_BODY, "all of the array is the body: %zu", result.answer.count);
    result = tha_byte(gateway, line, 0xCA, reply, sizeof reply);
    CHECK(result.answer.number == THA_RESTARTED && result.answer.count == THA_BODY && receiver_of(&result.gateway, line)->len == 0);
}

void receivers_too_long(void)
{
    for (size_t i = 0; i < TOO_LARGE; i++) {
        receiver_too_long(THA_CONTROLLER, too_large[i] < 259 ? 259 : too_large[i]);
        receiver_too_long(THA_PANEL, too_large[i] < 259 ? 259 : too_large[i]);
    }
}

/* Twelve updates of one line: the line gets no place, and the other line the four that are free. */
void more_than_eight_of_a_line(void)
{
    for (uint8_t line = THA_CONTROLLER; line <= THA_PANEL; line++) {
        uint8_t other = line == THA_CONTROLLER ? THA_PANEL : THA_CONTROLLER;
        tha_gateway gateway = full_gateway();
        uint8_t reply[THA_REPLY_ROOM];
        tha_result result;

        gateway.queue.count = 12;
        for (size_t i = 0; i < 12; i++) {
            gateway.queue.slots[i].line = line;
        }
        result = feed_line_record(gateway, line, UPDATE, FAN, (const uint8_t[]){0x01, 0x41, 2, 50}, 4, reply);
        CHECK(result.answer.number == THA_QUEUE_FULL && same_records(&result.gateway, &gateway));
        for (uint8_t i = 0; i < 4; i++) {
            gateway = queue_line_setting(gateway, other, FAN, 0x4101, i, 50);
            CHECK(gateway.queue.slots[12 + i].line == other);
        }
        result = feed_line_record(gateway, other, UPDATE, FAN, (const uint8_t[]){0x01, 0x41, 4, 50}, 4, reply);
        CHECK(result.answer.number == THA_QUEUE_FULL && same_records(&result.gateway, &gateway));
        result = tha_turn(gateway, field_at(0x4101, THA_COOL, 2), (tha_heard){.answered = true, .value = 60}, reply, sizeof reply);
        CHECK(result.answer.outcome == THA_REPLIED && result.answer.line == line && result.gateway.queue.count == 15);
    }
}

/* A line's number above 1 in a slot stays, also in a tick's list, and stands for the panel's. */
void line_numbers_too_large(void)
{
    static const uint8_t numbers[] = {2, 7, 128, 255};
    uint8_t reply[THA_REPLY_ROOM];

    for (size_t i = 0; i < sizeof numbers; i++) {
        tha_gateway gateway = gateway_of_rows(THA_LINE_WAITING);
        tha_gateway after;
        tha_result result;

        for (uint8_t j = 0; j < THA_LINE_WAITING; j++) {
            gateway = queue_setting(gateway, COOL, (uint16_t)(0x4101 + j), 2, 60);
            gateway.queue.slots[j].line = numbers[i];
        }
        result = feed_line_record(gateway, THA_PANEL, UPDATE, FAN, (const uint8_t[]){0x01, 0x41, 2, 50}, 4, reply);
        CHECK(result.answer.number == THA_QUEUE_FULL);
        after = queue_setting(gateway, FAN, 0x4101, 2, 50);
        CHECK(after.queue.slots[0].line == numbers[i] && after.queue.slots[THA_LINE_WAITING].line == THA_CONTROLLER);
        CHECK(tha_head(gateway).line == THA_PANEL);
        result = tha_turn(gateway, field_at(0x4101, THA_COOL, 2), (tha_heard){.answered = false, .value = 0}, reply, sizeof reply);
        CHECK(result.answer.outcome == THA_FAILED && result.gateway.queue.slots[THA_LINE_WAITING - 1].line == numbers[i]);
        result = tha_turn(gateway, field_at(0x4101, THA_COOL, 2), (tha_heard){.answered = true, .value = 60}, reply, sizeof reply);
        CHECK(result.answer.outcome == THA_REPLIED && result.answer.line == THA_PANEL);
        gateway.queue.slots[0].age = THA_LIFETIME - 1;
        CHECK(tha_tick(gateway).fields.count == 1);
        CHECK(same_line_field(tha_tick(gateway).fields.list[0], line_field_at(numbers[i], 0x4101, THA_COOL, 2)));
    }
}

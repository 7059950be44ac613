/* capi_lines.c: the two lines: a receiver each, eight places each, one table and one queue; and which line an answer names. */
#include "capi.h"
#include "check.h"
#include "frames.h"
#include "same.h"

#include <string.h>

/* Numbers of lines: 0, and others, which are all the panel's. */
static const uint8_t numbers[] = {0, 1, 2, 7, 128, 255};

enum { NUMBERS = sizeof numbers };

static uint8_t other_line(uint8_t line)
{
    return line == THA_CONTROLLER ? THA_PANEL : THA_CONTROLLER;
}

/* A byte of a line changes its receiver alone, and does what it does to the controller's line in the same place. */
static void check_byte(tha_gateway gateway, uint8_t line, uint8_t byte)
{
    tha_gateway alone = gateway;
    uint8_t reply[THA_REPLY_ROOM];
    tha_result result = tha_byte(gateway, line, byte, reply, sizeof reply);
    tha_result wanted;

    CHECK(same_receiver(receiver_of(&result.gateway, other_line(line)), receiver_of(&gateway, other_line(line))));
    CHECK(same_records(&result.gateway, &gateway));
    alone.receivers.controller = *receiver_of(&gateway, line);
    wanted = tha_byte(alone, THA_CONTROLLER, byte, reply, sizeof reply);
    CHECK(result.answer.outcome == wanted.answer.outcome && result.answer.number == wanted.answer.number);
    CHECK(result.answer.count == wanted.answer.count && result.answer.line == 0);
    CHECK_SAYS(same_receiver(receiver_of(&result.gateway, line), &wanted.gateway.receivers.controller), "line %u, byte %u", line, byte);
}

/* Each byte value, while each line hunts, is inside a packet, or is there with an escape pending. */
void receivers_of_lines(void)
{
    static const uint8_t begun[] = {0xCA, 0x01, 0x06, 0x2F};
    static const size_t lengths[] = {0, 3, 4};
    uint8_t reply[THA_REPLY_ROOM];

    for (size_t i = 0; i < 9; i++) {
        tha_gateway gateway = gateway_of_rows(1);

        gateway = feed_frame(gateway, THA_CONTROLLER, begun, lengths[i / 3], reply).gateway;
        gateway = feed_frame(gateway, THA_PANEL, begun, lengths[i % 3], reply).gateway;
        for (unsigned byte = 0; byte < 256; byte++) {
            for (size_t j = 0; j < NUMBERS; j++) {
                check_byte(gateway, numbers[j], (uint8_t)byte);
            }
        }
    }
}

/* A Request on each line, with escapes, in turns of one byte: each is answered at its own last byte. */
void frames_side_by_side(void)
{
    tha_row row = busy_row(1);
    tha_result result;
    uint8_t frames[2][64];
    uint8_t wanted[2][64];
    size_t lengths[2];
    size_t counts[2];
    uint8_t reply[THA_REPLY_ROOM];

    row.address = 0xCA2F;
    result.gateway = tha_add(tha_add(tha_fresh(0x2F35, 0), row).gateway, busy_row(2)).gateway;
    lengths[0] = record_frame(frames[0], REQUEST, COOL, (const uint8_t[]){0x2F, 0xCA, 3, 0}, 4);
    lengths[1] = record_frame(frames[1], REQUEST, FIRMWARE, (const uint8_t[]){0, 0}, 2);
    counts[0] = record_frame(wanted[0], REQUESTED, COOL, (const uint8_t[]){0x2F, 0xCA, 3, row.cool[3]}, 4);
    counts[1] = record_frame(wanted[1], REQUESTED, FIRMWARE, (const uint8_t[]){0x35, 0x2F}, 2);
    CHECK(lengths[1] < lengths[0]);
    for (size_t i = 0; i < 2 * lengths[0]; i++) {
        uint8_t line = i % 2;
        bool last = i / 2 + 1 == lengths[line];

        if (i / 2 < lengths[line]) {
            result = tha_byte(result.gateway, line, frames[line][i / 2], reply, sizeof reply);
            CHECK_SAYS(result.answer.outcome == (last ? THA_REPLIED : THA_NOTHING), "byte %zu of line %u", i / 2, line);
            CHECK(!last || (result.answer.count == counts[line] && memcmp(reply, wanted[line], counts[line]) == 0));
        }
    }
}

/* Every number but 0 is the panel's, and is stored as 1. */
void numbers_of_lines(void)
{
    uint8_t reply[THA_REPLY_ROOM];

    for (unsigned number = 0; number < 256; number++) {
        tha_gateway gateway = queue_line_setting(gateway_of_rows(1), (uint8_t)number, COOL, 0x4101, 2, 60);
        uint8_t line = number == 0 ? THA_CONTROLLER : THA_PANEL;
        tha_result result;

        CHECK_SAYS(gateway.queue.slots[0].line == line && tha_head(gateway).line == line, "line %u", number);
        result = tha_turn(gateway, field_at(0x4101, THA_COOL, 2), (tha_heard){.answered = true, .value = 60}, reply, sizeof reply);
        CHECK(result.answer.outcome == THA_REPLIED && result.answer.line == line);
        gateway = tha_byte(gateway, (uint8_t)number, 0xCA, reply, sizeof reply).gateway;
        CHECK(receiver_of(&gateway, line)->inside && !receiver_of(&gateway, other_line(line))->inside);
    }
}

static void check_full(tha_gateway gateway, uint8_t line)
{
    uint8_t reply[THA_REPLY_ROOM];
    tha_result result = feed_line_record(gateway, line, UPDATE, SLAB, (const uint8_t[]){0x01, 0x41, 0, 9}, 4, reply);

    CHECK_SAYS(result.answer.outcome == THA_REFUSED && result.answer.number == THA_QUEUE_FULL, "the ninth of line %u: %u", line,
               result.answer.number);
    CHECK(result.answer.count == 0 && same_records(&result.gateway, &gateway));
}

/* Eight updates of a line, of its own kind of setting. */
static tha_gateway queue_eight(tha_gateway gateway, uint8_t line)
{
    for (uint8_t i = 0; i < THA_LINE_WAITING; i++) {
        uint16_t address = i < THA_STATES ? 0x4101 : 0x4102;

        gateway = queue_line_setting(gateway, line, line == THA_CONTROLLER ? COOL : FAN, address, i % THA_STATES, 70);
    }
    return gateway;
}

/* The ninth of a line is 16, whichever fills its places first; the other line has its eight all the same. */
void eight_of_a_line(void)
{
    for (uint8_t line = THA_CONTROLLER; line <= THA_PANEL; line++) {
        uint8_t other = other_line(line);
        tha_gateway gateway = queue_eight(gateway_of_rows(2), line);
        uint8_t reply[THA_REPLY_ROOM];
        tha_result result;

        check_full(gateway, line);
        gateway = queue_eight(gateway, other);
        CHECK(gateway.queue.count == THA_WAITING);
        check_full(gateway, line);
        check_full(gateway, other);
        /* one of the line leaves: there is a place for the line, and none for the other */
        result = tha_turn(gateway, tha_head(gateway).field, (tha_heard){.answered = true, .value = 70}, reply, sizeof reply);
        CHECK(result.answer.outcome == THA_REPLIED && result.answer.line == line);
        check_full(result.gateway, other);
        gateway = queue_line_setting(result.gateway, line, SLAB, 0x4101, 0, 9);
        CHECK(gateway.queue.count == THA_WAITING && gateway.queue.slots[THA_WAITING - 1].line == line);
    }
}

/* 15 runs over both lines, and comes before 16. */
void fields_of_both_lines(void)
{
    tha_gateway one = queue_line_setting(gateway_of_rows(2), THA_PANEL, FAN, 0x4101, 0, 70);
    tha_gateway all = queue_eight(queue_eight(gateway_of_rows(2), THA_PANEL), THA_CONTROLLER);
    uint8_t reply[THA_REPLY_ROOM];

    for (uint8_t line = THA_CONTROLLER; line <= THA_PANEL; line++) {
        tha_result few = feed_line_record(one, line, UPDATE, FAN, (const uint8_t[]){0x01, 0x41, 0, 9}, 4, reply);
        tha_result many = feed_line_record(all, line, UPDATE, FAN, (const uint8_t[]){0x01, 0x41, 0, 9}, 4, reply);

        CHECK(few.answer.number == THA_FIELD_WAITS && same_records(&few.gateway, &one));
        CHECK(many.answer.number == THA_FIELD_WAITS && same_records(&many.gateway, &all));
        many = feed_line_record(all, line, UPDATE, COOL, (const uint8_t[]){0x02, 0x41, 0, 9}, 4, reply);
        CHECK(many.answer.number == THA_FIELD_WAITS && same_records(&many.gateway, &all));
    }
}

/* What is confirmed or times out names the line that asked, in the order of the queue. */
void lines_of_answers(void)
{
    static const uint8_t lines[] = {THA_PANEL, THA_CONTROLLER, THA_CONTROLLER, THA_PANEL};
    tha_gateway gateway = gateway_of_rows(1);
    uint8_t reply[THA_REPLY_ROOM];
    tha_gateway turned;
    tha_ticked ticked;

    for (uint8_t i = 0; i < sizeof lines; i++) {
        gateway = queue_line_setting(gateway, lines[i], FAN, 0x4101, i, 40);
    }
    turned = gateway;
    for (uint8_t i = 0; i < sizeof lines; i++) {
        tha_head_answer head = tha_head(turned);
        tha_result result = tha_turn(turned, head.field, (tha_heard){.answered = true, .value = 40}, reply, sizeof reply);

        CHECK(head.line == lines[i] && result.answer.outcome == THA_REPLIED && result.answer.line == lines[i]);
        turned = result.gateway;
    }
    ticked.gateway = gateway;
    for (unsigned tick = 0; tick < THA_LIFETIME; tick++) {
        ticked = tha_tick(ticked.gateway);
    }
    CHECK(ticked.fields.count == sizeof lines);
    for (uint8_t i = 0; i < sizeof lines; i++) {
        CHECK(same_line_field(ticked.fields.list[i], line_field_at(lines[i], 0x4101, THA_FAN, i)));
    }
}

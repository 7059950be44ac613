/* capi_refusals.c: every number of refusal, from 1 to 21, and what it leaves. */
#include "capi.h"
#include "check.h"
#include "frames.h"
#include "same.h"

#include <string.h>

enum { LOW = 0x01, HIGH = 0x41 }; /* the address of the first row */

/* A buffer whose bytes must not be touched. */
struct kept {
    uint8_t bytes[THA_FRAME_ROOM];
};

static struct kept kept_buffer(void)
{
    struct kept kept;

    memset(kept.bytes, 0xEE, sizeof kept.bytes);
    return kept;
}

static bool is_kept(const struct kept *kept)
{
    struct kept fresh = kept_buffer();

    return memcmp(kept->bytes, fresh.bytes, sizeof fresh.bytes) == 0;
}

static bool is_refused_with(tha_answer answer, uint8_t number, size_t count)
{
    return answer.outcome == THA_REFUSED && answer.number == number && answer.line == 0 && answer.count == count;
}

static bool is_refused(tha_answer answer, uint8_t number)
{
    return is_refused_with(answer, number, 0);
}

/* 1, for a byte and a turn: nothing changes, an escape that is pending neither. */
void refusals_of_buffers(void)
{
    static const size_t lengths[] = {0, 1, 31};
    tha_gateway gateway = queue_setting(gateway_of_rows(2), COOL, 0x4101, 3, 70);
    struct kept kept = kept_buffer();
    tha_field field = tha_head(gateway).field;

    gateway = tha_byte(gateway, THA_CONTROLLER, 0x2F, kept.bytes, sizeof kept.bytes).gateway;
    gateway = tha_byte(gateway, THA_PANEL, 0x2F, kept.bytes, sizeof kept.bytes).gateway;
    CHECK(gateway.receivers.controller.escaped && gateway.receivers.panel.escaped);
    for (size_t i = 0; i < 2 * sizeof lengths / sizeof lengths[0]; i++) {
        size_t length = lengths[i / 2];
        tha_result byte = tha_byte(gateway, i % 2, 0xCA, kept.bytes, length);
        tha_result turn = tha_turn(gateway, field, (tha_heard){.answered = true, .value = 70}, kept.bytes, length);

        CHECK(is_refused(byte.answer, THA_NO_ROOM) && same_gateway(&byte.gateway, &gateway));
        CHECK(is_refused(turn.answer, THA_NO_ROOM) && same_gateway(&turn.gateway, &gateway));
        CHECK(is_kept(&kept));
    }
    CHECK(tha_turn(gateway, field, (tha_heard){.answered = true, .value = 70}, kept.bytes, THA_REPLY_ROOM).answer.outcome == THA_REPLIED);
}

/*
 * Feeds bytes to a line, of which the last is refused: only its receiver changes, and it hunts or, after 3, has an empty packet open.
 * The answer counts the body bytes of a drop. The other line is inside a packet, with an escape pending, and stays so.
 */
static void check_line_bytes(uint8_t line, const uint8_t *bytes, size_t length, uint8_t number, size_t body)
{
    uint8_t other = line == THA_CONTROLLER ? THA_PANEL : THA_CONTROLLER;
    struct kept kept = kept_buffer();
    tha_gateway rows = queue_setting(gateway_of_rows(2), COOL, 0x4101, 3, 70);
    tha_gateway before = feed_frame(rows, other, (const uint8_t[]){0xCA, 0x01, 0x2F}, 3, kept.bytes).gateway;
    tha_result result = feed_frame(before, line, bytes, length, kept.bytes);
    const tha_receiver *receiver = receiver_of(&result.gateway, line);

    CHECK_SAYS(is_refused_with(result.answer, number, body), "refused %u after %zu: %u after %zu", number, body, result.answer.number,
               result.answer.count);
    CHECK_SAYS(same_records(&result.gateway, &before) && is_kept(&kept), "%u changes the receiver alone", number);
    CHECK(!receiver->escaped && receiver->inside == (number == THA_RESTARTED));
    CHECK(number != THA_RESTARTED || receiver->len == 0);
    CHECK(same_receiver(receiver_of(&result.gateway, other), receiver_of(&before, other)));
}

/* The same on each line. */
static void check_bytes(const uint8_t *bytes, size_t length, uint8_t number, size_t body)
{
    check_line_bytes(THA_CONTROLLER, bytes, length, number, body);
    check_line_bytes(THA_PANEL, bytes, length, number, body);
}

void refusals_of_packets(void)
{
    check_bytes((const uint8_t[]){0xCA, 0xCA}, 2, THA_RESTARTED, 0);
    check_bytes((const uint8_t[]){0xCA, 0x00, 0xCA}, 3, THA_RESTARTED, 1);
    check_bytes((const uint8_t[]){0xCA, 0x02, 0x2F, 0x35, 0x2F, 0xCA, 0xCA}, 7, THA_RESTARTED, 3);
    check_bytes((const uint8_t[]){0xCA, 0x35}, 2, THA_EARLY_END, 0);
    check_bytes((const uint8_t[]){0xCA, 0x01, 0x06, 0x07, 0x35}, 5, THA_EARLY_END, 3);
    check_bytes((const uint8_t[]){0xCA, 0x00, 0x06, 0x06, 0x06}, 5, THA_TOO_LONG, 3);
    check_bytes((const uint8_t[]){0xCA, 0x00, 0x06, 0x06, 0x2F, 0x35}, 6, THA_TOO_LONG, 3);
    check_bytes((const uint8_t[]){0xCA, 0x00, 0x06, 0x07, 0x35}, 5, THA_BAD_CHECKSUM, 3);
}

/* A packet of a Length of 255 that is cut after each number of its 258 body bytes, by EOF and by SOF; then with a byte too many. */
void packets_of_each_length(void)
{
    uint8_t bytes[THA_BODY + 2] = {0xCA, 0xFF, 0x06};

    for (size_t body = 0; body <= THA_BODY; body++) {
        bytes[body + 1] = 0x35;
        check_bytes(bytes, body + 2, body < THA_BODY ? THA_EARLY_END : THA_BAD_CHECKSUM, body);
        bytes[body + 1] = 0xCA;
        check_bytes(bytes, body + 2, THA_RESTARTED, body);
        bytes[body + 1] = body == 0 ? 0xFF : body == 1 ? 0x06 : 0x00;
    }
    check_bytes(bytes, sizeof bytes, THA_TOO_LONG, THA_BODY);
}

/* 3 to 6, and no other number. */
void numbers_of_drops(void)
{
    for (unsigned number = 0; number < 256; number++) {
        CHECK_SAYS(tha_is_drop((uint8_t)number) == (number >= 3 && number <= 6), "%u", number);
    }
}

static void check_data(uint8_t type, const uint8_t *data, size_t length, uint8_t number)
{
    uint8_t frame[THA_FRAME_ROOM];

    check_bytes(frame, frame_of(frame, type, data, length), number, 0);
}

void refusals_of_records(void)
{
    check_data(7, (const uint8_t[]){1, 0x07, 1, 0, 0, 0, 0}, 7, THA_WRONG_TYPE);
    check_data(6, (const uint8_t[]){1, 0x07, 1, 0}, 4, THA_SHORT_RECORD);
    check_data(6, (const uint8_t[]){2, 0x07, 1, 0, 0, 0, 0}, 7, THA_WRONG_SERVICE);
    check_data(6, (const uint8_t[]){1, 0x07, 1, 1, 0, 0, 0}, 7, THA_UNKNOWN_METHOD);
    check_data(6, (const uint8_t[]){0, 0x87, 1, 0, 0, 0, 0}, 7, THA_SERVICE_NOT_USED);
    check_data(6, (const uint8_t[]){1, 0x07, 1, 0, 0, 0}, 6, THA_WRONG_WIDTH);
    check_data(6, (const uint8_t[]){1, 0x27, 1, 0, 0, LOW + 2, HIGH, 0}, 8, THA_UNKNOWN_ADDRESS);
    check_data(6, (const uint8_t[]){1, 0x47, 1, 0, 0, LOW, HIGH, 8, 0}, 9, THA_BAD_STATE);
    check_data(6, (const uint8_t[]){0, 0x47, 1, 0, 0, LOW, HIGH, 3, 71}, 9, THA_FIELD_WAITS);
}

/* 16: eight fields of the first device wait; a mode's update would be the ninth. */
void refusals_of_the_queue(void)
{
    tha_gateway gateway = gateway_of_rows(2);
    uint8_t reply[THA_REPLY_ROOM];
    tha_result result;

    for (uint8_t state = 0; state < THA_STATES; state++) {
        gateway = queue_setting(gateway, COOL, 0x4101, state, 70);
    }
    gateway = queue_setting(gateway, SLAB, 0x4101, 0, 72);
    result = feed_record(gateway, UPDATE, MODE, (const uint8_t[]){LOW, HIGH, 0}, 3, reply);
    CHECK(is_refused(result.answer, THA_QUEUE_FULL) && same_records(&result.gateway, &gateway));
    result = feed_record(gateway, UPDATE, SLAB, (const uint8_t[]){LOW, HIGH, 0, 9}, 4, reply);
    CHECK(is_refused(result.answer, THA_FIELD_WAITS) && same_records(&result.gateway, &gateway));
}

/* 17 and 18, and 17 of the head. */
void refusals_of_turns(void)
{
    tha_gateway empty = gateway_of_rows(2);
    tha_gateway gateway = queue_setting(queue_setting(empty, COOL, 0x4101, 3, 70), FAN, 0x4102, 4, 30);
    tha_field wrong[] = {field_at(0x4102, THA_FAN, 4), field_at(0x4101, THA_COOL, 4), field_at(0x4101, THA_SLAB, 3),
                         field_at(0x4102, THA_COOL, 3), field_at(0x4101, 4, 3)};
    struct kept kept = kept_buffer();
    tha_head_answer head = tha_head(empty);
    tha_result result = tha_turn(empty, wrong[0], (tha_heard){.answered = true, .value = 30}, kept.bytes, THA_REPLY_ROOM);

    CHECK(head.number == THA_NONE_WAITS && head.line == 0 && head.value == 0 && same_field(head.field, field_at(0, 0, 0)));
    CHECK(is_refused(result.answer, THA_NONE_WAITS) && same_gateway(&result.gateway, &empty) && is_kept(&kept));
    for (size_t i = 0; i < sizeof wrong / sizeof wrong[0]; i++) {
        result = tha_turn(gateway, wrong[i], (tha_heard){.answered = true, .value = 30}, kept.bytes, THA_REPLY_ROOM);
        CHECK_SAYS(is_refused(result.answer, THA_NOT_HEAD), "field %zu is not the head", i);
        CHECK(same_gateway(&result.gateway, &gateway) && is_kept(&kept));
    }
}

/* 18 for what is no field: a mode with a state, a kind above 3. The mode of the first row waits, then the fan. */
void refusals_of_no_field(void)
{
    tha_gateway mode = feed_record(gateway_of_rows(1), UPDATE, MODE, (const uint8_t[]){LOW, HIGH, 2}, 3, (uint8_t[THA_REPLY_ROOM]){0}).gateway;
    tha_gateway fan = queue_setting(gateway_of_rows(1), FAN, 0x4101, 0, 30);
    struct kept kept = kept_buffer();
    tha_result result;

    CHECK(same_field(tha_head(mode).field, field_at(0x4101, THA_MODE, 0)));
    for (unsigned i = 1; i < 256; i++) {
        result = tha_turn(mode, field_at(0x4101, THA_MODE, (uint8_t)i), (tha_heard){.answered = true, .value = 2}, kept.bytes, THA_REPLY_ROOM);
        CHECK_SAYS(is_refused(result.answer, THA_NOT_HEAD), "a mode with state %u is not the head", i);
        CHECK(same_gateway(&result.gateway, &mode) && is_kept(&kept));
    }
    for (unsigned kind = 4; kind < 256; kind++) {
        result = tha_turn(fan, field_at(0x4101, (uint8_t)kind, 0), (tha_heard){.answered = true, .value = 30}, kept.bytes, THA_REPLY_ROOM);
        CHECK_SAYS(is_refused(result.answer, THA_NOT_HEAD), "kind %u is not the head", kind);
        CHECK(same_gateway(&result.gateway, &fan) && is_kept(&kept));
    }
    result = tha_turn(mode, field_at(0x4101, THA_MODE, 0), (tha_heard){.answered = true, .value = 2}, kept.bytes, THA_REPLY_ROOM);
    CHECK(result.answer.outcome == THA_REPLIED && result.gateway.table.rows[0].mode == 2);
}

static void check_row_refused(tha_gateway gateway, tha_row row, uint8_t number)
{
    tha_result result = tha_add(gateway, row);

    CHECK_SAYS(is_refused(result.answer, number), "row refused %u: %u", number, result.answer.number);
    CHECK(same_gateway(&result.gateway, &gateway));
}

void refusals_of_rows(void)
{
    tha_gateway gateway = gateway_of_rows(2);
    tha_row row = busy_row(9);

    row.fan[6] = 101;
    check_row_refused(gateway, row, THA_BAD_ROW);
    row = busy_row(9);
    row.cool[0] = THA_NONE;
    check_row_refused(gateway, row, THA_BAD_ROW);
    row = busy_row(9);
    row.mask = 7;
    check_row_refused(gateway, row, THA_BAD_ROW);
    row = busy_row(9);
    row.state = 7;
    check_row_refused(gateway, row, THA_BAD_ROW);
    row = busy_row(9);
    row.events = 3;
    check_row_refused(gateway, row, THA_BAD_ROW);
    row = busy_row(9);
    row.address = 0;
    check_row_refused(gateway, row, THA_BAD_ROW);
    check_row_refused(gateway, busy_row(2), THA_ADDRESS_TAKEN);
    check_row_refused(gateway_of_rows(THA_ROWS), busy_row(40), THA_TABLE_FULL);
    check_row_refused(gateway_of_rows(THA_ROWS), busy_row(32), THA_ADDRESS_TAKEN);
}

/* 2 before 1; a frame of 5 bytes needs 5. */
void refusals_of_writing(void)
{
    static const uint8_t data[256];
    struct kept kept = kept_buffer();

    CHECK(is_refused(tha_write(6, data, 256, kept.bytes, sizeof kept.bytes), THA_TOO_MUCH_DATA));
    CHECK(is_refused(tha_write(6, data, 256, kept.bytes, 0), THA_TOO_MUCH_DATA));
    CHECK(is_refused(tha_write(6, data, 0, kept.bytes, 4), THA_NO_ROOM));
    CHECK(is_refused(tha_write(6, data, 255, kept.bytes, 259), THA_NO_ROOM));
    CHECK(is_kept(&kept));
    CHECK(tha_write(6, data, 0, kept.bytes, 5).count == 5);
    CHECK(memcmp(kept.bytes, (const uint8_t[]){0xCA, 0x00, 0x06, 0x06, 0x35, 0xEE}, 6) == 0);
}

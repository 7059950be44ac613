/* capi.c: what the test cases of the archive's calls share. */
#include "capi.h"

#include "check.h"
#include "frames.h"

#include <string.h>

tha_row busy_row(uint8_t first)
{
    tha_row row = {
        .address = (uint16_t)(0x4100 + first),
        .version = 0x51525300u + first,
        .mask = 15,
        .mode = 3,
        .state = 5,
        .events = 2,
    };

    for (uint8_t i = 0; i < THA_STATES; i++) {
        row.cool[i] = (uint8_t)(first + 100 + i);
        row.slab[i] = (uint8_t)(first + 150 + i);
        row.fan[i] = (uint8_t)(first + 20 + i);
    }
    return row;
}

tha_gateway gateway_of_rows(size_t rows)
{
    tha_result result = {.gateway = tha_fresh(0x1234, 0x5678)};

    for (size_t i = 0; i < rows; i++) {
        result = tha_add(result.gateway, busy_row((uint8_t)(i + 1)));
        CHECK(result.answer.outcome == THA_ADDED && result.answer.number == 0 && result.answer.count == 0);
    }
    return result.gateway;
}

tha_field field_at(uint16_t address, uint8_t kind, uint8_t state)
{
    tha_field field = {.address = address, .kind = kind, .state = state};

    return field;
}

tha_line_field line_field_at(uint8_t line, uint16_t address, uint8_t kind, uint8_t state)
{
    tha_line_field found = {.line = line, .field = field_at(address, kind, state)};

    return found;
}

tha_receiver *receiver_of(tha_gateway *gateway, uint8_t line)
{
    return line == THA_CONTROLLER ? &gateway->receivers.controller : &gateway->receivers.panel;
}

tha_result feed_frame(tha_gateway gateway, uint8_t line, const uint8_t *frame, size_t length, uint8_t *reply)
{
    tha_result result = {.gateway = gateway};

    for (size_t i = 0; i < length; i++) {
        bool quiet = result.answer.outcome == THA_NOTHING && result.answer.number == 0 && result.answer.count == 0;

        NEED_SAYS(quiet, "byte %zu does nothing yet: %u, %u", i - 1, result.answer.outcome, result.answer.number);
        result = tha_byte(result.gateway, line, frame[i], reply, THA_REPLY_ROOM);
        CHECK(result.answer.line == 0);
    }
    return result;
}

tha_result feed_line_record(tha_gateway gateway, uint8_t line, uint8_t service, uint32_t method, const uint8_t *fields, size_t length,
                            uint8_t *reply)
{
    uint8_t frame[64];

    return feed_frame(gateway, line, frame, record_frame(frame, service, method, fields, length), reply);
}

tha_result feed_record(tha_gateway gateway, uint8_t service, uint32_t method, const uint8_t *fields, size_t length, uint8_t *reply)
{
    return feed_line_record(gateway, THA_CONTROLLER, service, method, fields, length, reply);
}

tha_gateway queue_line_setting(tha_gateway gateway, uint8_t line, uint32_t method, uint16_t address, uint8_t state, uint8_t value)
{
    uint8_t fields[] = {(uint8_t)address, (uint8_t)(address >> 8), state, value};
    uint8_t reply[THA_REPLY_ROOM];
    tha_result result = feed_line_record(gateway, line, UPDATE, method, fields, sizeof fields, reply);

    CHECK(result.answer.outcome == THA_QUEUED && result.answer.number == 0);
    CHECK(result.answer.count == gateway.queue.count + 1);
    return result.gateway;
}

tha_gateway queue_setting(tha_gateway gateway, uint32_t method, uint16_t address, uint8_t state, uint8_t value)
{
    return queue_line_setting(gateway, THA_CONTROLLER, method, address, state, value);
}

void check_reply(tha_gateway gateway, uint8_t service, uint32_t method, const uint8_t *fields, const uint8_t *answer, size_t length)
{
    uint8_t reply[THA_REPLY_ROOM + 8];
    uint8_t wanted[sizeof reply];
    tha_result result;
    size_t count;

    memset(reply, 0xEE, sizeof reply);
    memset(wanted, 0xEE, sizeof wanted);
    count = record_frame(wanted, service == UPDATE ? UPDATED : REQUESTED, method, answer, length);
    result = feed_record(gateway, service, method, fields, length, reply);
    CHECK_SAYS(result.answer.outcome == THA_REPLIED && result.answer.number == 0, "a reply to %x", method);
    CHECK_SAYS(result.answer.count == count && count <= THA_REPLY_ROOM, "the length of the reply to %x", method);
    CHECK_SAYS(memcmp(reply, wanted, sizeof reply) == 0, "the reply to %x, and the bytes past it", method);
}

void check_answer(tha_gateway gateway, uint32_t method, const uint8_t *fields, const uint8_t *answer, size_t length)
{
    check_reply(gateway, REQUEST, method, fields, answer, length);
}

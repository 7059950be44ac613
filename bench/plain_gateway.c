/*
 * plain_gateway.c: the calls of the plain gateway.
 */
#include "plain_parts.h"
#include <string.h>

void plain_fresh(plain_gateway *g, uint16_t firmware, uint16_t protocol)
{
    memset(g, 0, sizeof *g);
    g->properties.firmware = firmware;
    g->properties.protocol = protocol;
    g->properties.date = plain_no_date();
}

tha_answer plain_add(plain_gateway *g, const tha_row *row)
{
    return plain_add_row(&g->table, row);
}

tha_answer plain_byte(plain_gateway *g, uint8_t line, uint8_t byte, uint8_t *buffer, size_t length)
{
    if (length < THA_REPLY_ROOM) {
        return plain_refused(THA_NO_ROOM);
    }
    uint8_t from = line == THA_CONTROLLER ? THA_CONTROLLER : THA_PANEL;
    plain_receiver *receiver = &g->receivers[from];
    size_t taken = receiver->len;
    uint8_t event = plain_receive(receiver, byte);
    if (event == RECEIVED_NOTHING) {
        return plain_answer(THA_NOTHING, 0);
    }
    return event == RECEIVED_FRAME ? plain_frame(g, from, buffer) : plain_dropped(event, taken);
}

tha_answer plain_turn(plain_gateway *g, tha_field field, tha_heard heard, uint8_t *buffer, size_t length)
{
    if (length < THA_REPLY_ROOM) {
        return plain_refused(THA_NO_ROOM);
    }
    if (g->queue.count == 0) {
        return plain_refused(THA_NONE_WAITS);
    }
    const tha_update *head = plain_at(&g->queue, 0);
    if (!plain_same_field(head->field, field)) {
        return plain_refused(THA_NOT_HEAD);
    }
    tha_row *row = heard.answered ? plain_find(&g->table, field.address) : NULL;
    if (row == NULL || !plain_legal(row, field, heard.value)) {
        plain_rotate(&g->queue);
        return plain_answer(THA_FAILED, 0);
    }
    uint8_t line = head->line;
    plain_store(row, field, heard.value);
    plain_pop(&g->queue);
    return plain_confirm(line, field, heard.value, buffer);
}

size_t plain_tick(plain_gateway *g, tha_line_field *list)
{
    return plain_age(&g->queue, list);
}

tha_head_answer plain_head(const plain_gateway *g)
{
    if (g->queue.count == 0) {
        return (tha_head_answer){.number = THA_NONE_WAITS};
    }
    const tha_update *u = plain_at(&g->queue, 0);
    return (tha_head_answer){.number = 0, .line = u->line, .value = u->value, .field = u->field};
}

void plain_set_network_error(plain_gateway *g, uint16_t error)
{
    g->properties.error = error;
}

void plain_check_date(plain_gateway *g)
{
    if (!plain_date_valid(g->properties.date)) {
        g->properties.date = plain_no_date();
    }
}

const tha_update *plain_waiting(const plain_gateway *g, size_t place)
{
    return plain_at(&g->queue, place);
}

/*
 * plain.h: a gateway of the same rules in plain C, to measure the proved one against.
 *
 * One struct behind a pointer, changed in place; the queue is a ring. Rows, fields, lines, answers and numbers are those of
 * wrackpulley.h, so that what the two gateways answer can be compared as it stands.
 */
#ifndef PLAIN_H
#define PLAIN_H

#include "wrackpulley.h"

enum { PLAIN_LINES = THA_PANEL + 1 };

typedef struct {
    bool inside;
    bool escaped;
    uint16_t len;
    uint8_t body[THA_BODY];
} plain_receiver;

typedef struct {
    tha_update slots[THA_WAITING];
    uint8_t first; /* the slot of the head */
    uint8_t count;
} plain_queue;

typedef struct {
    plain_receiver receivers[PLAIN_LINES]; /* at THA_CONTROLLER and THA_PANEL */
    plain_queue queue;
    tha_properties properties;
    tha_table table;
} plain_gateway;

/* What the byte after which it stopped did, and how many bytes were used. */
typedef struct {
    tha_answer answer;
    size_t used;
} plain_reached;

/* What a block came to. */
typedef struct {
    uint8_t number;
    size_t used;
    size_t written;
    tha_counts counts;
} plain_blocked;

void plain_fresh(plain_gateway *g, uint16_t firmware, uint16_t protocol);
tha_answer plain_add(plain_gateway *g, const tha_row *row);
tha_answer plain_byte(plain_gateway *g, uint8_t line, uint8_t byte, uint8_t *buffer, size_t length);

/* Takes bytes up to the first that does something, or all of them, and answers for it. A buffer for a reply has 32 bytes. */
plain_reached plain_reach(plain_gateway *g, uint8_t line, const uint8_t *bytes, size_t n, uint8_t *buffer);

/* A block: the receiver takes a byte at a time, as plain_byte does. */
plain_blocked plain_block(plain_gateway *g, uint8_t line, const uint8_t *bytes, size_t length, uint8_t *area, size_t area_length);

/* The same two, with a receiver that is tuned for blocks. */
plain_reached plain_reach_tuned(plain_gateway *g, uint8_t line, const uint8_t *bytes, size_t n, uint8_t *buffer);
plain_blocked plain_block_tuned(plain_gateway *g, uint8_t line, const uint8_t *bytes, size_t length, uint8_t *area, size_t area_length);

tha_answer plain_turn(plain_gateway *g, tha_field field, tha_heard heard, uint8_t *buffer, size_t length);
tha_head_answer plain_head(const plain_gateway *g);
void plain_set_network_error(plain_gateway *g, uint16_t error);
void plain_check_date(plain_gateway *g);
tha_answer plain_write(uint8_t type, const uint8_t *data, size_t data_length, uint8_t *buffer, size_t length);

/* The hand-over: its writer and its reader, which makes a gateway of its own in *g. */
tha_answer plain_hand(const plain_gateway *g, size_t place, uint8_t *buffer, size_t length);
tha_answer plain_read(plain_gateway *g, uint16_t firmware, uint16_t protocol, size_t count, const uint8_t *bytes, size_t length);

/* Lists what times out, field and line, at the front of list, which has room for sixteen, and answers how many they are. */
size_t plain_tick(plain_gateway *g, tha_line_field *list);

/* The update at a place of the queue, the head at 0. */
const tha_update *plain_waiting(const plain_gateway *g, size_t place);

#endif

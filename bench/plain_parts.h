/*
 * plain_parts.h: what the files of the plain gateway share: receiver, table, queue, records and replies.
 */
#ifndef PLAIN_PARTS_H
#define PLAIN_PARTS_H

#include "plain.h"

/* The bytes of the line that are not plain data. */
enum { LINE_SOF = 0xCA, LINE_EOF = 0x35, LINE_ESCAPE = 0x2F };

/* What a byte did to the receiver: one of these, or the number of a drop, 3 to 6. */
enum { RECEIVED_NOTHING = 0, RECEIVED_FRAME = 255 };

enum { RECORD_TYPE = 6, RECORD_HEAD = 5, RECORD_MOST = 12 };

enum { SERVICE_UPDATE = 0, SERVICE_REQUEST = 1, SERVICE_TO_UPDATE = 3, SERVICE_TO_REQUEST = 4 };

enum { STATE_CURRENT = 7 };

/* The methods of document 01, and SetbackState of document 000, which only the hand-over has. */
enum {
    NETWORK_ERROR = 0x107,
    REPORTING_ENABLE = 0x10F,
    DEVICE_ATTRIBUTES = 0x11F,
    MODE_SETTING = 0x127,
    COOL_SETPOINT = 0x147,
    SLAB_SETPOINT = 0x14F,
    FAN_PERCENT = 0x157,
    SETBACK_STATE = 0x177,
    SETBACK_EVENTS = 0x17F,
    FIRMWARE_REVISION = 0x187,
    PROTOCOL_VERSION = 0x18F,
    DEVICE_VERSION = 0x19F,
    DATE_TIME = 0x1A7
};

/* The data of a record that is sent. */
typedef struct {
    uint8_t bytes[RECORD_MOST];
    size_t len;
} plain_data;

/* What a stretch of bytes did to the receiver: an event, after so many bytes; of a drop how many body bytes the packet had taken. */
typedef struct {
    uint8_t event;
    size_t used;
    size_t taken;
} plain_scanned;

/* plain_receiver.c: one byte, and one after the other up to the first that does something, or all of them */
uint8_t plain_receive(plain_receiver *r, uint8_t byte);
plain_scanned plain_scan(plain_receiver *r, const uint8_t *bytes, size_t n);

/* plain_tuned.c: the same as plain_scan, tuned */
plain_scanned plain_scan_tuned(plain_receiver *r, const uint8_t *bytes, size_t n);

/* plain_table.c */
tha_row *plain_find(tha_table *table, uint16_t address);
tha_answer plain_add_row(tha_table *table, const tha_row *row);
uint8_t plain_in_force(const tha_row *row, tha_field field);
bool plain_settable(const tha_row *row, tha_field field, uint8_t value);
bool plain_legal(const tha_row *row, tha_field field, uint8_t value);
uint8_t plain_stored(const tha_row *row, tha_field field);
void plain_store(tha_row *row, tha_field field, uint8_t value);

/* plain_queue.c */
bool plain_same_field(tha_field a, tha_field b);
bool plain_waits(const plain_queue *q, tha_field field);
const tha_update *plain_at(const plain_queue *q, size_t place);
tha_answer plain_enqueue(plain_queue *q, uint8_t line, tha_field field, uint8_t value);
void plain_pop(plain_queue *q);
void plain_rotate(plain_queue *q);
size_t plain_age(plain_queue *q, tha_line_field *list);

/* plain_bytes.c: numbers in a record, the low byte first */
uint16_t plain_get16(const uint8_t *at);
uint32_t plain_get32(const uint8_t *at);
tha_date plain_get_date(const uint8_t *at);
void plain_put8(plain_data *data, uint8_t value);
void plain_put16(plain_data *data, uint16_t value);
void plain_put32(plain_data *data, uint32_t value);

/* plain_record.c */
tha_answer plain_frame(plain_gateway *g, uint8_t line, uint8_t *buffer);
tha_answer plain_confirm(uint8_t line, tha_field field, uint8_t value, uint8_t *buffer);

/* plain_date.c */
bool plain_date_valid(tha_date d);
tha_date plain_no_date(void);

/* Answers. */
static inline tha_answer plain_refused(uint8_t number)
{
    return (tha_answer){.outcome = THA_REFUSED, .number = number, .count = 0};
}

/* A packet is dropped that had taken this many body bytes. */
static inline tha_answer plain_dropped(uint8_t number, size_t taken)
{
    return (tha_answer){.outcome = THA_REFUSED, .number = number, .count = taken};
}

static inline tha_answer plain_answer(uint8_t outcome, size_t count)
{
    return (tha_answer){.outcome = outcome, .number = 0, .count = count};
}

#endif

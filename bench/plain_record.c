/*
 * plain_record.c: the record in a frame: the methods, the checks 7 to 14, and what is replied or queued (document 01, "The record
 * inside" and "From frame to answer").
 */
#include "plain_parts.h"
#include <string.h>

/* What a method needs besides its fields' number of bytes. */
enum { TAKES_UPDATE = 1, TAKES_REQUEST = 2, HAS_ADDRESS = 4, HAS_STATE = 8, IS_QUEUED = 16 };

typedef struct {
    uint16_t id;
    uint8_t width;
    uint8_t traits;
    uint8_t kind; /* the setting, where it is queued */
} method;

static const method methods[] = {
    {NETWORK_ERROR, 2, TAKES_UPDATE | TAKES_REQUEST, 0},
    {REPORTING_ENABLE, 1, TAKES_UPDATE | TAKES_REQUEST, 0},
    {DEVICE_ATTRIBUTES, 4, TAKES_REQUEST | HAS_ADDRESS, 0},
    {MODE_SETTING, 3, TAKES_UPDATE | TAKES_REQUEST | HAS_ADDRESS | IS_QUEUED, THA_MODE},
    {COOL_SETPOINT, 4, TAKES_UPDATE | TAKES_REQUEST | HAS_ADDRESS | HAS_STATE | IS_QUEUED, THA_COOL},
    {SLAB_SETPOINT, 4, TAKES_UPDATE | TAKES_REQUEST | HAS_ADDRESS | HAS_STATE | IS_QUEUED, THA_SLAB},
    {FAN_PERCENT, 4, TAKES_UPDATE | TAKES_REQUEST | HAS_ADDRESS | HAS_STATE | IS_QUEUED, THA_FAN},
    {SETBACK_EVENTS, 3, TAKES_UPDATE | TAKES_REQUEST | HAS_ADDRESS, 0},
    {FIRMWARE_REVISION, 2, TAKES_REQUEST, 0},
    {PROTOCOL_VERSION, 2, TAKES_REQUEST, 0},
    {DEVICE_VERSION, 6, TAKES_REQUEST | HAS_ADDRESS, 0},
    {DATE_TIME, 7, TAKES_UPDATE, 0},
};

/* A record that is read: its method, whether it is an Update, its fields, and its device and field where it has them. */
typedef struct {
    const method *method;
    bool update;
    const uint8_t *fields;
    tha_row *row;
    tha_field field;
    uint8_t value; /* asked for, of a queued method */
} record;

static const method *find_method(uint32_t id)
{
    for (size_t i = 0; i < sizeof methods / sizeof methods[0]; i++) {
        if (methods[i].id == id) {
            return &methods[i];
        }
    }
    return NULL;
}

/* The checks 13 and 14, and what the record's device and field are. */
static uint8_t read_device(tha_table *table, record *r)
{
    const uint8_t *fields = r->fields;
    uint8_t traits = r->method->traits;
    r->row = plain_find(table, plain_get16(fields));
    if (r->row == NULL) {
        return THA_UNKNOWN_ADDRESS;
    }
    uint8_t state = 0;
    if (traits & HAS_STATE) {
        state = fields[2];
        if (state > STATE_CURRENT) {
            return THA_BAD_STATE;
        }
        state = state == STATE_CURRENT ? r->row->state : state;
    }
    r->field = (tha_field){.address = r->row->address, .kind = r->method->kind, .state = state};
    r->value = fields[r->method->width - 1];
    return 0;
}

/* The checks 8 to 14 on a record's data: 0 where it passes. */
static uint8_t read_record(tha_table *table, const uint8_t *data, size_t n, record *r)
{
    if (n < RECORD_HEAD) {
        return THA_SHORT_RECORD;
    }
    if (data[0] != SERVICE_UPDATE && data[0] != SERVICE_REQUEST) {
        return THA_WRONG_SERVICE;
    }
    r->update = data[0] == SERVICE_UPDATE;
    r->fields = data + RECORD_HEAD;
    r->method = find_method(plain_get32(data + 1));
    if (r->method == NULL) {
        return THA_UNKNOWN_METHOD;
    }
    if (!(r->method->traits & (r->update ? TAKES_UPDATE : TAKES_REQUEST))) {
        return THA_SERVICE_NOT_USED;
    }
    if (n - RECORD_HEAD != r->method->width) {
        return THA_WRONG_WIDTH;
    }
    return r->method->traits & HAS_ADDRESS ? read_device(table, r) : 0;
}

/* Service and method, and the address where there is one. */
static void put_head(plain_data *out, bool update, const method *m, uint16_t address)
{
    out->len = 0;
    plain_put8(out, update ? SERVICE_TO_UPDATE : SERVICE_TO_REQUEST);
    plain_put32(out, m->id);
    if (m->traits & HAS_ADDRESS) {
        plain_put16(out, address);
    }
}

static void put_setting(plain_data *out, const method *m, tha_field field, uint8_t value)
{
    if (m->traits & HAS_STATE) {
        plain_put8(out, field.state);
    }
    plain_put8(out, value);
}

static tha_answer send(const plain_data *out, uint8_t *buffer)
{
    tha_answer written = plain_write(RECORD_TYPE, out->bytes, out->len, buffer, THA_REPLY_ROOM);
    return plain_answer(THA_REPLIED, written.count);
}

/* Stores and echoes a valid date; else every byte of the reply is not available. */
static void put_date(tha_properties *properties, const uint8_t *fields, plain_data *out)
{
    tha_date date = plain_get_date(fields);
    bool valid = plain_date_valid(date);
    if (valid) {
        properties->date = date;
    }
    for (size_t i = 0; i < 7; i++) {
        plain_put8(out, valid ? fields[i] : THA_NONE);
    }
}

static void put_reporting(tha_properties *properties, const record *r, plain_data *out)
{
    if (r->update && r->fields[0] <= 1) {
        properties->reporting = r->fields[0] == 1;
    }
    plain_put8(out, properties->reporting);
}

/* The fields of a reply, after the address. */
static void put_fields(tha_properties *properties, const record *r, plain_data *out)
{
    switch (r->method->id) {
    case NETWORK_ERROR:
        plain_put16(out, properties->error);
        break;
    case REPORTING_ENABLE:
        put_reporting(properties, r, out);
        break;
    case DEVICE_ATTRIBUTES:
        plain_put16(out, r->row->mask);
        break;
    case SETBACK_EVENTS:
        plain_put8(out, r->row->events);
        break;
    case FIRMWARE_REVISION:
        plain_put16(out, properties->firmware);
        break;
    case PROTOCOL_VERSION:
        plain_put16(out, properties->protocol);
        break;
    case DEVICE_VERSION:
        plain_put32(out, r->row->version);
        break;
    case DATE_TIME:
        put_date(properties, r->fields, out);
        break;
    default:
        put_setting(out, r->method, r->field, plain_in_force(r->row, r->field));
        break;
    }
}

/* A complete frame in a line's receiver. */
tha_answer plain_frame(plain_gateway *g, uint8_t line, uint8_t *buffer)
{
    const uint8_t *body = g->receivers[line].body;
    if (body[1] != RECORD_TYPE) {
        return plain_refused(THA_WRONG_TYPE);
    }
    record r;
    memset(&r, 0, sizeof r);
    uint8_t number = read_record(&g->table, body + 2, body[0], &r);
    if (number != 0) {
        return plain_refused(number);
    }
    bool queued = r.update && (r.method->traits & IS_QUEUED);
    if (queued && plain_settable(r.row, r.field, r.value)) {
        return plain_enqueue(&g->queue, line, r.field, r.value);
    }
    plain_data out;
    put_head(&out, r.update, r.method, r.field.address);
    put_fields(&g->properties, &r, &out);
    return send(&out, buffer);
}

static const uint16_t id_of_kind[] = {MODE_SETTING, COOL_SETPOINT, SLAB_SETPOINT, FAN_PERCENT};

/* The Response:Update of a confirmed field, for its line. */
tha_answer plain_confirm(uint8_t line, tha_field field, uint8_t value, uint8_t *buffer)
{
    const method *m = find_method(id_of_kind[field.kind]);
    plain_data out;
    put_head(&out, true, m, field.address);
    put_setting(&out, m, field, value);
    tha_answer answer = send(&out, buffer);
    answer.line = line;
    return answer;
}

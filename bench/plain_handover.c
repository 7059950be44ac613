/*
 * plain_handover.c: the hand-over (document 02, M-112): which frame stands at which place, its writer and its reader.
 */
#include "plain_parts.h"
#include <string.h>

/* Five frames of the gateway, then for each row its heads and a cool, slab and fan for each state. */
enum { OWN_FRAMES = 5, ROW_HEADS = 5, SETTINGS = 3, ROW_FRAMES = ROW_HEADS + SETTINGS * THA_STATES };

enum { DATE_BYTES = 7 };

/* A frame of the hand-over: what it is of, and how many bytes its value has. */
typedef struct {
    uint16_t id;
    uint8_t width;
} kind_of_frame;

static const kind_of_frame own[OWN_FRAMES] = {
    {NETWORK_ERROR, 2}, {REPORTING_ENABLE, 1}, {FIRMWARE_REVISION, 2}, {PROTOCOL_VERSION, 2}, {DATE_TIME, DATE_BYTES},
};

static const kind_of_frame heads[ROW_HEADS] = {
    {DEVICE_ATTRIBUTES, 2}, {DEVICE_VERSION, 4}, {SETBACK_STATE, 1}, {SETBACK_EVENTS, 1}, {MODE_SETTING, 1},
};

static const kind_of_frame settings[SETTINGS] = {{COOL_SETPOINT, 1}, {SLAB_SETPOINT, 1}, {FAN_PERCENT, 1}};

/* A place of the hand-over: its frame, the place of its row, and of a setting its field but for the address. */
typedef struct {
    kind_of_frame kind;
    bool of_row;
    bool of_setting;
    bool last; /* of its row */
    size_t row;
    tha_field field;
} spot;

static spot spot_at(size_t place)
{
    spot s;
    memset(&s, 0, sizeof s);
    if (place < OWN_FRAMES) {
        s.kind = own[place];
        return s;
    }
    size_t at = (place - OWN_FRAMES) % ROW_FRAMES;
    s.of_row = true;
    s.row = (place - OWN_FRAMES) / ROW_FRAMES;
    s.last = at == ROW_FRAMES - 1;
    if (at < ROW_HEADS) {
        s.kind = heads[at];
        return s;
    }
    at -= ROW_HEADS;
    s.of_setting = true;
    s.kind = settings[at % SETTINGS];
    s.field.kind = (uint8_t)(THA_COOL + at % SETTINGS);
    s.field.state = (uint8_t)(at / SETTINGS);
    return s;
}

/* What stands before the value: service, method, and the address and state where the frame has them. */
static void put_head(plain_data *out, const spot *s, uint16_t address)
{
    out->len = 0;
    plain_put8(out, s->kind.id == DATE_TIME ? SERVICE_TO_UPDATE : SERVICE_TO_REQUEST);
    plain_put32(out, s->kind.id);
    if (s->of_row) {
        plain_put16(out, address);
    }
    if (s->of_setting) {
        plain_put8(out, s->field.state);
    }
}

static void put_date(plain_data *out, tha_date date)
{
    tha_date sent = plain_date_valid(date) ? date : plain_no_date();
    plain_put16(out, sent.year);
    plain_put8(out, sent.month);
    plain_put8(out, sent.day);
    plain_put8(out, sent.weekday);
    plain_put8(out, sent.hour);
    plain_put8(out, sent.minute);
}

static void put_own_value(plain_data *out, const tha_properties *properties, uint16_t id)
{
    switch (id) {
    case NETWORK_ERROR:
        plain_put16(out, properties->error);
        break;
    case REPORTING_ENABLE:
        plain_put8(out, properties->reporting);
        break;
    case FIRMWARE_REVISION:
        plain_put16(out, properties->firmware);
        break;
    case PROTOCOL_VERSION:
        plain_put16(out, properties->protocol);
        break;
    default:
        put_date(out, properties->date);
        break;
    }
}

static void put_row_value(plain_data *out, const tha_row *row, const spot *s)
{
    switch (s->kind.id) {
    case DEVICE_ATTRIBUTES:
        plain_put16(out, row->mask);
        break;
    case DEVICE_VERSION:
        plain_put32(out, row->version);
        break;
    case SETBACK_STATE:
        plain_put8(out, row->state);
        break;
    case SETBACK_EVENTS:
        plain_put8(out, row->events);
        break;
    default:
        plain_put8(out, plain_stored(row, s->field));
        break;
    }
}

tha_answer plain_hand(const plain_gateway *g, size_t place, uint8_t *buffer, size_t length)
{
    if (length < THA_REPLY_ROOM) {
        return plain_refused(THA_NO_ROOM);
    }
    if (g->queue.count > 0) {
        return plain_refused(THA_UPDATES_WAIT);
    }
    if (place >= OWN_FRAMES + ROW_FRAMES * g->table.count) {
        return plain_answer(THA_WRITTEN, 0);
    }
    spot s = spot_at(place);
    plain_data out;
    if (s.of_row) {
        const tha_row *row = &g->table.rows[s.row];
        put_head(&out, &s, row->address);
        put_row_value(&out, row, &s);
    } else {
        put_head(&out, &s, 0);
        put_own_value(&out, &g->properties, s.kind.id);
    }
    return plain_write(RECORD_TYPE, out.bytes, out.len, buffer, length);
}

/* A date is read where it is valid, or where no byte of it is available. */
static bool get_date(tha_properties *properties, const uint8_t *at)
{
    static const uint8_t none[DATE_BYTES] = {THA_NONE, THA_NONE, THA_NONE, THA_NONE, THA_NONE, THA_NONE, THA_NONE};
    properties->date = plain_get_date(at);
    return plain_date_valid(properties->date) || memcmp(at, none, DATE_BYTES) == 0;
}

static bool get_own_value(tha_properties *properties, uint16_t id, const uint8_t *at)
{
    switch (id) {
    case NETWORK_ERROR:
        properties->error = plain_get16(at);
        return true;
    case REPORTING_ENABLE:
        properties->reporting = at[0] == 1;
        return at[0] <= 1;
    case FIRMWARE_REVISION:
        properties->firmware = plain_get16(at);
        return true;
    case PROTOCOL_VERSION:
        properties->protocol = plain_get16(at);
        return true;
    default:
        return get_date(properties, at);
    }
}

static void get_row_value(tha_row *row, const spot *s, const uint8_t *at)
{
    switch (s->kind.id) {
    case DEVICE_ATTRIBUTES:
        row->mask = plain_get16(at);
        break;
    case DEVICE_VERSION:
        row->version = plain_get32(at);
        break;
    case SETBACK_STATE:
        row->state = at[0];
        break;
    case SETBACK_EVENTS:
        row->events = at[0];
        break;
    default:
        plain_store(row, s->field, at[0]);
        break;
    }
}

/* A reader along the bytes, with a receiver of its own: the place of the frame that is due, and its row so far. */
typedef struct {
    size_t place;
    size_t end;
    plain_receiver receiver;
    tha_row row;
} reader;

/* The frame in the reader's receiver: 0, or the number of its refusal. */
static uint8_t take_frame(plain_gateway *g, reader *r, const spot *s)
{
    const uint8_t *body = r->receiver.body;
    const uint8_t *data = body + 2;
    tha_row *row = &r->row;
    plain_data head;
    if (s->kind.id == DEVICE_ATTRIBUTES && body[0] >= RECORD_HEAD + 2) {
        row->address = plain_get16(data + RECORD_HEAD);
    }
    put_head(&head, s, row->address);
    if (body[1] != RECORD_TYPE || body[0] != head.len + s->kind.width || memcmp(data, head.bytes, head.len) != 0) {
        return THA_NOT_DUE;
    }
    if (!s->of_row) {
        return get_own_value(&g->properties, s->kind.id, data + head.len) ? 0 : THA_NOT_DUE;
    }
    get_row_value(row, s, data + head.len);
    return s->last ? plain_add_row(&g->table, row).number : 0;
}

/* The next byte: 0, or the number of its refusal. */
static uint8_t take_byte(plain_gateway *g, reader *r, uint8_t byte)
{
    if (r->place == r->end) {
        return THA_WRONG_LENGTH;
    }
    if (!r->receiver.inside && byte != LINE_SOF) {
        return THA_NOT_DUE;
    }
    uint8_t event = plain_receive(&r->receiver, byte);
    if (event == RECEIVED_NOTHING) {
        return 0;
    }
    if (event != RECEIVED_FRAME) {
        return THA_NOT_DUE;
    }
    spot s = spot_at(r->place++);
    return take_frame(g, r, &s);
}

/* Takes the bytes; the number of the refusal, or 0, and *at is the place of the byte that caused it. */
static uint8_t take_bytes(plain_gateway *g, reader *r, const uint8_t *bytes, size_t length, size_t *at)
{
    for (*at = 0; *at < length; (*at)++) {
        uint8_t number = take_byte(g, r, bytes[*at]);
        if (number != 0) {
            return number;
        }
    }
    return r->place < r->end ? THA_WRONG_LENGTH : 0;
}

tha_answer plain_read(plain_gateway *g, uint16_t firmware, uint16_t protocol, size_t count, const uint8_t *bytes, size_t length)
{
    reader r;
    size_t at = 0;
    plain_fresh(g, firmware, protocol);
    if (count > THA_ROWS) {
        return plain_refused(THA_TABLE_FULL);
    }
    memset(&r, 0, sizeof r);
    r.end = OWN_FRAMES + ROW_FRAMES * count;
    uint8_t number = take_bytes(g, &r, bytes, length, &at);
    if (number != 0) {
        plain_fresh(g, firmware, protocol);
        return (tha_answer){.outcome = THA_REFUSED, .number = number, .count = at};
    }
    return plain_answer(THA_READ, 0);
}

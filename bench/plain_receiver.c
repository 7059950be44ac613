/*
 * plain_receiver.c: the bytes of a line become frames or drops (document 01, "Receiving").
 */
#include "plain_parts.h"

static uint8_t sum(const uint8_t *bytes, size_t n)
{
    uint8_t s = 0;
    for (size_t i = 0; i < n; i++) {
        s = (uint8_t)(s + bytes[i]);
    }
    return s;
}

/* Whether the body has the bytes that its Length announces. */
static bool is_full(const plain_receiver *r)
{
    return r->len > 0 && r->len >= r->body[0] + 3;
}

static uint8_t take_data(plain_receiver *r, uint8_t byte)
{
    if (!r->inside) {
        return RECEIVED_NOTHING;
    }
    if (is_full(r)) {
        r->inside = false;
        return THA_TOO_LONG;
    }
    r->body[r->len++] = byte;
    return RECEIVED_NOTHING;
}

static uint8_t open_packet(plain_receiver *r)
{
    bool restarted = r->inside;
    r->inside = true;
    r->len = 0;
    return restarted ? THA_RESTARTED : RECEIVED_NOTHING;
}

static uint8_t close_packet(plain_receiver *r)
{
    if (!r->inside) {
        return RECEIVED_NOTHING;
    }
    r->inside = false;
    if (!is_full(r)) {
        return THA_EARLY_END;
    }
    size_t place = r->body[0] + 2u;
    return sum(r->body, place) == r->body[place] ? RECEIVED_FRAME : THA_BAD_CHECKSUM;
}

uint8_t plain_receive(plain_receiver *r, uint8_t byte)
{
    if (r->escaped) {
        r->escaped = false;
        return take_data(r, byte);
    }
    switch (byte) {
    case LINE_ESCAPE:
        r->escaped = true;
        return RECEIVED_NOTHING;
    case LINE_SOF:
        return open_packet(r);
    case LINE_EOF:
        return close_packet(r);
    default:
        return take_data(r, byte);
    }
}

plain_scanned plain_scan(plain_receiver *r, const uint8_t *bytes, size_t n)
{
    for (size_t at = 0; at < n; at++) {
        size_t taken = r->len;
        uint8_t event = plain_receive(r, bytes[at]);
        if (event != RECEIVED_NOTHING) {
            return (plain_scanned){event, at + 1, taken};
        }
    }
    return (plain_scanned){RECEIVED_NOTHING, n, 0};
}

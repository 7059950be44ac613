/*
 * plain_tuned.c: the receiver tuned for blocks: a tight loop for noise, one for data, and a byte at a time for the rest.
 */
#include "plain_parts.h"

/* Outside a packet, without an escape pending: the first byte from a place on that is a SOF or an escape, or the end. */
static size_t skip_noise(const uint8_t *bytes, size_t at, size_t n)
{
    while (at < n && bytes[at] != LINE_SOF && bytes[at] != LINE_ESCAPE) {
        at++;
    }
    return at;
}

static bool is_special(uint8_t byte)
{
    return byte == LINE_SOF || byte == LINE_EOF || byte == LINE_ESCAPE;
}

/* Inside a packet whose Length is there, without an escape pending: takes data, as far as the body has room; the first byte not taken. */
static size_t take_run(plain_receiver *r, const uint8_t *bytes, size_t at, size_t n)
{
    uint8_t *to = r->body + r->len;
    size_t from = at;
    size_t room = r->body[0] + 3u - r->len;
    size_t end = room < n - at ? at + room : n;
    while (at < end && !is_special(bytes[at])) {
        *to++ = bytes[at++];
    }
    r->len = (uint16_t)(r->len + at - from);
    return at;
}

/* The first byte that is not simply noise or data. */
static size_t take_plain(plain_receiver *r, const uint8_t *bytes, size_t at, size_t n)
{
    if (r->escaped) {
        return at;
    }
    if (!r->inside) {
        return skip_noise(bytes, at, n);
    }
    return r->len > 0 ? take_run(r, bytes, at, n) : at;
}

plain_scanned plain_scan_tuned(plain_receiver *r, const uint8_t *bytes, size_t n)
{
    size_t at = take_plain(r, bytes, 0, n);
    while (at < n) {
        size_t taken = r->len;
        uint8_t event = plain_receive(r, bytes[at++]);
        if (event != RECEIVED_NOTHING) {
            return (plain_scanned){event, at, taken};
        }
        at = take_plain(r, bytes, at, n);
    }
    return (plain_scanned){RECEIVED_NOTHING, at, 0};
}

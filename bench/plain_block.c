/*
 * plain_block.c: a block of a line's bytes (document 02, M-100): the receiver works along it to the next frame or drop, a byte at a time
 * or tuned; replies go straight into the area, and the counts are kept in place.
 */
#include "plain_parts.h"

/* How the receiver works along. */
typedef plain_scanned scan(plain_receiver *r, const uint8_t *bytes, size_t n);

static uint8_t side_of(uint8_t line)
{
    return line == THA_CONTROLLER ? THA_CONTROLLER : THA_PANEL;
}

static inline plain_reached reach(scan *along, plain_gateway *g, uint8_t line, const uint8_t *bytes, size_t n, uint8_t *buffer)
{
    uint8_t from = side_of(line);
    plain_scanned s = along(&g->receivers[from], bytes, n);
    if (s.event == RECEIVED_NOTHING) {
        return (plain_reached){plain_answer(THA_NOTHING, 0), s.used};
    }
    if (s.event == RECEIVED_FRAME) {
        return (plain_reached){plain_frame(g, from, buffer), s.used};
    }
    return (plain_reached){plain_dropped(s.event, s.taken), s.used};
}

plain_reached plain_reach(plain_gateway *g, uint8_t line, const uint8_t *bytes, size_t n, uint8_t *buffer)
{
    return reach(plain_scan, g, line, bytes, n, buffer);
}

plain_reached plain_reach_tuned(plain_gateway *g, uint8_t line, const uint8_t *bytes, size_t n, uint8_t *buffer)
{
    return reach(plain_scan_tuned, g, line, bytes, n, buffer);
}

/* Counts an answer; the count of one that is refused is that of a drop's body bytes, or 0. */
static void count_answer(tha_counts *counts, tha_answer answer)
{
    if (answer.outcome == THA_REFUSED) {
        counts->numbers[answer.number - THA_RESTARTED]++;
        counts->body += (uint32_t)answer.count;
    } else if (answer.outcome == THA_QUEUED) {
        counts->queued++;
    }
}

static inline plain_blocked work(scan *along, plain_gateway *g, uint8_t line, const uint8_t *bytes, size_t length, uint8_t *area,
                                 size_t area_length)
{
    tha_counts counts = {{0}, 0, 0};
    size_t used = 0;
    size_t written = 0;
    if (length > THA_BLOCK) {
        length = THA_BLOCK;
    }
    while (used < length && area_length - written >= THA_REPLY_ROOM) {
        plain_reached r = reach(along, g, line, bytes + used, length - used, area + written);
        used += r.used;
        if (r.answer.outcome == THA_REPLIED) {
            written += r.answer.count;
        } else {
            count_answer(&counts, r.answer);
        }
    }
    uint8_t number = area_length < THA_REPLY_ROOM ? THA_NO_ROOM : 0;
    return (plain_blocked){.number = number, .used = used, .written = written, .counts = counts};
}

plain_blocked plain_block(plain_gateway *g, uint8_t line, const uint8_t *bytes, size_t length, uint8_t *area, size_t area_length)
{
    return work(plain_scan, g, line, bytes, length, area, area_length);
}

plain_blocked plain_block_tuned(plain_gateway *g, uint8_t line, const uint8_t *bytes, size_t length, uint8_t *area, size_t area_length)
{
    return work(plain_scan_tuned, g, line, bytes, length, area, area_length);
}

/*
 * lines.c: the timed lines: those in blocks, then those a byte or a call at a time.
 */
#include "lines.h"

/* A line, and the passes that are called after its key. */
#define LINE(key, name, unit, count, other_unit, other_count) \
    {#key, name, unit, count, other_unit, other_count, proved_##key, plain_##key}

lines lines_of(const traffic *t)
{
    size_t updates = t->updates[THA_CONTROLLER].len + t->updates[THA_PANEL].len;
    size_t cycle = updates + 4 * THA_WAITING; /* bytes, and a head and a turn for each of two tries */
    const line list[] = {
        LINE(noise_blocks, "noise in blocks", "byte", NOISE_BYTES, NULL, 0),
        LINE(request_blocks, "Requests in blocks", "byte", t->requests.len, "Request", REQUESTS),
        LINE(update_blocks, "Updates in blocks", "byte", ROUNDS * t->burst.len, "Update", ROUNDS * t->burst_updates),
        LINE(turns, "turns, sixteen wait at first", "turn", ROUNDS * 2 * THA_WAITING, NULL, 0),
        LINE(ticks, "ticks, sixteen wait", "tick", ROUNDS * THA_LIFETIME, NULL, 0),
        LINE(short_frames, "frame writer, 12 data bytes", "frame", FRAMES, "byte", FRAMES * SHORT_DATA),
        LINE(long_frames, "frame writer, 255 data bytes", "frame", FRAMES, "byte", FRAMES * LONG_DATA),
        LINE(noise_tuned, "noise in blocks, C tuned", "byte", NOISE_BYTES, NULL, 0),
        LINE(request_tuned, "Requests in blocks, C tuned", "byte", t->requests.len, "Request", REQUESTS),
        LINE(update_tuned, "Updates in blocks, C tuned", "byte", ROUNDS * t->burst.len, "Update", ROUNDS * t->burst_updates),
        LINE(hand_over, "hand-over, 32 devices", "frame", HANDED, NULL, 0),
        LINE(noise, "noise, byte by byte", "byte", NOISE_BYTES, NULL, 0),
        LINE(requests, "Requests, byte by byte", "byte", t->requests.len, "Request", REQUESTS),
        LINE(updates, "Updates queued, heads, turns", "call", ROUNDS * cycle, NULL, 0),
    };
    lines all = {.count = sizeof list / sizeof list[0]};
    for (size_t i = 0; i < all.count; i++) {
        all.list[i] = list[i];
    }
    return all;
}

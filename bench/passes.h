/*
 * passes.h: the timed loops, one of each for either gateway. A pass sends its traffic once, or in ROUNDS where it is short, and
 * answers a sum over all that it was answered: so no work can be left out, and both gateways must reach the same sum. The bytes are
 * the controller's, but of sixteen updates eight are the panel's, since a line has eight places.
 */
#ifndef PASSES_H
#define PASSES_H

#include "traffic.h"

enum { ROUNDS = 20, FRAMES = 1000, HANDED = 5 + 26 * THA_ROWS };

enum { AREA_ROOM = 3 * THA_BLOCK }; /* room for all replies to a block: a frame has 11 bytes or more, a reply 32 or fewer */

typedef uint64_t pass(const traffic *t);

void proved_prepare(const traffic *t);
pass proved_noise_blocks;
pass proved_request_blocks;
pass proved_update_blocks;
pass proved_noise_tuned;
pass proved_request_tuned;
pass proved_update_tuned;
pass proved_noise;
pass proved_requests;
pass proved_updates;
pass proved_turns;
pass proved_ticks;
pass proved_short_frames;
pass proved_long_frames;
pass proved_hand_over;

void plain_prepare(const traffic *t);
pass plain_noise_blocks;
pass plain_request_blocks;
pass plain_update_blocks;
pass plain_noise_tuned;
pass plain_request_tuned;
pass plain_update_tuned;
pass plain_noise;
pass plain_requests;
pass plain_updates;
pass plain_turns;
pass plain_ticks;
pass plain_short_frames;
pass plain_long_frames;
pass plain_hand_over;

/* The sum with one more number. */
static inline uint64_t add_to(uint64_t sum, uint64_t n)
{
    return sum * 31 + n;
}

/* The sum with one more answer; of a reply or a frame its last two bytes, the checksum and EOF, count too. */
static inline uint64_t add_answer(uint64_t sum, tha_answer a, const uint8_t *buffer)
{
    if (a.outcome == THA_NOTHING) {
        return sum;
    }
    sum = add_to(sum, (a.line * 256u + a.outcome) * 256u + a.number);
    if (a.count > 0 && (a.outcome == THA_REPLIED || a.outcome == THA_WRITTEN)) {
        sum = add_to(sum, buffer[a.count - 1] * 256u + buffer[a.count - 2]);
    }
    return add_to(sum, a.count);
}

/* The sum with one more block: what was used and written, all counts, and the last two bytes that were written. */
static inline uint64_t add_block(uint64_t sum, size_t used, size_t written, const tha_counts *counts, const uint8_t *area)
{
    sum = add_to(add_to(sum, used), written);
    for (size_t i = 0; i < THA_COUNTED; i++) {
        sum = add_to(sum, counts->numbers[i]);
    }
    sum = add_to(add_to(sum, counts->queued), counts->body);
    return written > 0 ? add_to(sum, area[written - 1] * 256u + area[written - 2]) : sum;
}

#endif

/* clock.h: the seconds that the gateway counts, by the monotonic clock; for tests the clock can run faster. */
#ifndef CLOCK_H
#define CLOCK_H

#include <stdbool.h>
#include <stdint.h>

enum { CLOCK_MOST_SPEED = 1000 };

struct tick_clock {
    uint64_t start; /* milliseconds of the monotonic clock */
    unsigned speed; /* how many times as fast as the monotonic clock */
    uint64_t ticks; /* the ticks done so far */
};

void clock_start(struct tick_clock *clock, unsigned speed);

/* Milliseconds since the start. */
uint64_t clock_now(const struct tick_clock *clock);

/* Whether more seconds have passed than ticks were done. */
bool clock_due(const struct tick_clock *clock);

/* How long to sleep until the next tick is due, in real milliseconds, rounded up. */
int clock_sleep(const struct tick_clock *clock);

#endif

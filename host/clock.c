/* clock.c: the seconds that the gateway counts, by the monotonic clock. */
#include "clock.h"

#include <time.h>

static uint64_t monotonic(void)
{
    struct timespec now;

    clock_gettime(CLOCK_MONOTONIC, &now);
    return (uint64_t)now.tv_sec * 1000 + (uint64_t)now.tv_nsec / 1000000;
}

void clock_start(struct tick_clock *clock, unsigned speed)
{
    clock->start = monotonic();
    clock->speed = speed;
    clock->ticks = 0;
}

uint64_t clock_now(const struct tick_clock *clock)
{
    return (monotonic() - clock->start) * clock->speed;
}

bool clock_due(const struct tick_clock *clock)
{
    return clock_now(clock) / 1000 > clock->ticks;
}

int clock_sleep(const struct tick_clock *clock)
{
    uint64_t now = clock_now(clock);
    uint64_t next = (clock->ticks + 1) * 1000;

    if (next <= now) {
        return 0;
    }
    return (int)((next - now + clock->speed - 1) / clock->speed);
}

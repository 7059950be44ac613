/*
 * clock.c: the monotonic clock, and the middle of several times.
 */
#define _POSIX_C_SOURCE 200809L
#include "clock.h"
#include <time.h>

double clock_ns(void)
{
    struct timespec now;
    clock_gettime(CLOCK_MONOTONIC, &now);
    return (double)now.tv_sec * 1e9 + (double)now.tv_nsec;
}

/* The times are kept in rising order. */
void times_add(times *t, double ns)
{
    size_t at = t->count++;
    while (at > 0 && t->ns[at - 1] > ns) {
        t->ns[at] = t->ns[at - 1];
        at--;
    }
    t->ns[at] = ns;
}

double times_median(const times *t)
{
    return (t->ns[(t->count - 1) / 2] + t->ns[t->count / 2]) / 2;
}

double times_least(const times *t)
{
    return t->ns[0];
}

double times_most(const times *t)
{
    return t->ns[t->count - 1];
}

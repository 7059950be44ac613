/*
 * clock.h: the monotonic clock, and the middle of several times.
 */
#ifndef CLOCK_H
#define CLOCK_H

#include <stddef.h>

enum { TIMES_MOST = 7 };

/* Times of one line and one gateway, in ns a unit. */
typedef struct {
    double ns[TIMES_MOST];
    size_t count;
} times;

double clock_ns(void);
void times_add(times *t, double ns);
double times_least(const times *t);
double times_median(const times *t);
double times_most(const times *t);

#endif

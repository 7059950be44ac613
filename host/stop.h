/* stop.h: SIGTERM and SIGINT as something to wait for beside the lines. */
#ifndef STOP_H
#define STOP_H

#include <stdbool.h>

/* Catches both signals. Returns a descriptor that is readable while one that came was not taken, or -1. */
int stop_open(void);

/* Takes one signal that came; false where none did. */
bool stop_take(int fd);

#endif

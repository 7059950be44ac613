/* calls.h: the calls on the proved gateway: blocks, turns and ticks, with log lines for what each did. */
#ifndef CALLS_H
#define CALLS_H

#include "host.h"

/*
 * Feeds the bytes of the port's inbox as a block, whose replies go straight into its outbox; with no room there for another reply the
 * rest stays in the inbox. If an update was queued, all that wait are tried.
 */
void feed(struct host *host, struct port *port);

/* A second passes: updates time out, and all that still wait are tried. */
void tick(struct host *host);

#endif

/*
 * drain.h: the end of a gateway that hands over: the lines are read no more, and ticks, turns and replies go on until nothing waits.
 *
 * A packet that is open on a line when the end begins is still read, byte by byte and for DRAIN_PACKET ticks at most, so that its
 * sender gets the answer from this gateway, and the next one starts where a packet does. After the last byte everything that waits is
 * confirmed or times out within 120 ticks.
 */
#ifndef DRAIN_H
#define DRAIN_H

#include "host.h"

enum { DRAIN_PACKET = 3, DRAIN_MOST = THA_LIFETIME };

void drain_begin(struct host *host);

/* How many bytes may be read of the port's line: one while a packet is open on it. */
size_t drain_reads(const struct host *host, const struct port *port);

/* Feeds what is in the port's inbox, as long as bytes are fed at all. */
void drain_feed(struct host *host, struct port *port);

/* Whether nothing waits and all replies are sent, or the time is over; then a log line says what is left. */
bool drain_is_over(struct host *host);

#endif

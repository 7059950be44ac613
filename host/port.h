/* port.h: a line of the gateway, and the bytes on their way: started, opened, read, written, lost and found again. */
#ifndef PORT_H
#define PORT_H

#include "host.h"

/* Sets up both ports for the devices at the paths; the panel's may be NULL: one line is then served. Nothing is opened yet. */
void ports_start(struct host *host, const char *const paths[PORTS]);

/* Opens the line, which is another device than the other port's; false says why in the line's error. */
bool port_open(struct host *host, struct port *port);

/* Looks for a lost line again. Why it is not back is logged when the reason is another one than before. */
void port_find(struct host *host, struct port *port);

/* Whether a reply could be sent, whichever it is: the line is open, and the outbox has room. */
bool port_takes_reply(const struct port *port);

/* How many bytes were read and not fed yet. */
size_t port_unfed(const struct port *port);

/* Reads bytes into the inbox, which has all been fed, and sends what the line takes of the outbox. Either may find the line lost. */
void port_read(struct host *host, struct port *port, size_t most);
void port_send(struct host *host, struct port *port);

#endif

/*
 * thermostats.h: the thermostats' side, the part that a site replaces.
 *
 * The gateway asks for a setting by calling `ask` with the update: its field, the value asked for, its age, the ticks that it has
 * waited, and the line that asked, which a thermostat need not know. The answer is silence ({false, 0}) or the value that the
 * thermostat accepted ({true, VALUE}), which need not be the one asked for. After silence the same update is asked again, at the next
 * tick and after each new update, until its 120th tick; but not while its line is lost or does not take the reply.
 *
 * `ask` is called between two reads of the lines, so it must not wait: start the exchange with the thermostat at the first call
 * (remember which by the field), answer silence while it runs, and the value once it is there. At most one update of a field waits.
 *
 * `timed_out` is called with the field of each update that has timed out, before anything is asked again: the site then forgets the
 * exchange of that field, and what may still come of it, so that the next update of the field is not answered with the old one's
 * value. The age does not tell the two apart. A site that remembers nothing leaves it NULL.
 */
#ifndef THERMOSTATS_H
#define THERMOSTATS_H

#include "../include/wrackpulley.h"

struct thermostats {
    tha_heard (*ask)(void *site, const tha_update *update);
    void (*timed_out)(void *site, const tha_field *field); /* or NULL */
    void *site;                                            /* handed to both */
};

/* The built-in side: each value is accepted once its update has waited for delay ticks, but listed addresses stay silent. */
struct simple_site {
    unsigned delay;
    size_t silent_count;
    uint16_t silent[THA_ROWS];
};

struct thermostats simple_thermostats(struct simple_site *site);

#endif

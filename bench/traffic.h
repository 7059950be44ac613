/*
 * traffic.h: what is sent to both gateways: the timed traffic, the same in every run, and random packets and rows.
 */
#ifndef TRAFFIC_H
#define TRAFFIC_H

#include "random.h"
#include "wrackpulley.h"

enum {
    NOISE_BYTES = 65536,
    REQUESTS = 2048,
    PACKET_ROOM = 1200, /* no packet of these files is longer */
    SHORT_DATA = 12,    /* as many data bytes as the longest reply has */
    LONG_DATA = 255
};

/* Bytes of a line. */
typedef struct {
    uint8_t *bytes;
    size_t len;
} stretch;

typedef struct {
    tha_row rows[THA_ROWS];
    stretch noise;                  /* outside any packet */
    stretch requests;               /* REQUESTS of them, to all devices */
    stretch updates[THA_PANEL + 1]; /* eight for each line, of the sixteen fields */
    stretch burst;                  /* a block of Updates to all devices */
    size_t burst_updates;           /* how many of them it has whole */
    tha_field fields[THA_WAITING];  /* in the order of the updates, the controller's first */
    uint8_t values[THA_WAITING];    /* asked for */
    uint8_t short_data[SHORT_DATA]; /* for the frame writer */
    uint8_t long_data[LONG_DATA];
} traffic;

/* A method: the low byte of its number, the number of bytes of its fields, and whether they begin with an address. */
typedef struct {
    uint8_t low;
    uint8_t width;
    bool address;
} method;

/* By number. The date, the last, has no Request. */
enum { REPORTING_METHOD = 1, FIRST_QUEUED = 3, QUEUED_METHODS = 4, DATE_METHOD = 11, METHODS };

extern const method traffic_methods[METHODS];

/* The timed traffic. It lives until the program ends. */
const traffic *traffic_make(void);

/* A frame after what the stretch has, with its escapes; the stretch has room for it. */
void traffic_frame(stretch *to, uint8_t type, const uint8_t *data, size_t n);

/* A random packet, whole or broken, or noise, after what the stretch has: at most PACKET_ROOM bytes. */
void traffic_packet(rng *r, stretch *to);

/* A random Update of a setting of an address, with a value that a device with the setting takes, after what the stretch has. */
void traffic_update(rng *r, uint16_t address, stretch *to);

/* A random row, mostly a legal one. */
tha_row traffic_row(rng *r);

/* A random date, mostly valid; each part may be one too low or too high. */
tha_date traffic_date(rng *r);

/* An address that random rows and packets use, or one that no row has. */
uint16_t traffic_address(rng *r);

/* n bytes for the listing programs: Requests, Updates, broken packets and noise. Up to PACKET_ROOM bytes more may be written. */
void traffic_listing(rng *r, uint8_t *bytes, size_t n);

#endif

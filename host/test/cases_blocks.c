/* cases_blocks.c: what is read of a line at once goes to the gateway as one block: bursts, frames over many reads, thousands of bytes. */
#include "cases.h"
#include "check.h"
#include "frames.h"
#include "rig.h"

#include <fcntl.h>
#include <signal.h>
#include <string.h>
#include <sys/ioctl.h>
#include <unistd.h>

enum { BURST = 4080 }; /* no burst here is longer; a terminal holds as many */

struct burst {
    size_t length;
    uint8_t bytes[BURST];
};

static void put_bytes(struct burst *burst, const uint8_t *bytes, size_t length)
{
    NEED(length <= BURST - burst->length);
    memcpy(burst->bytes + burst->length, bytes, length);
    burst->length += length;
}

static void put_hex(struct burst *burst, const char *hex)
{
    uint8_t bytes[RIG_FRAME];

    put_bytes(burst, bytes, rig_bytes(hex, bytes, sizeof bytes));
}

/* The gateway stands still until all of a burst is in the line, and then finds it there at once. */
static void send_at_once(const struct rig *gateway, struct rig *line, const struct burst *burst)
{
    int fd = open(line->device, O_RDWR | O_NOCTTY | O_NONBLOCK);
    int waited = 0;
    int count = 0;

    NEED(fd >= 0);
    rig_signal(gateway, SIGSTOP);
    rig_wait_stopped(gateway);
    rig_send_bytes(line, burst->bytes, burst->length);
    while (ioctl(fd, FIONREAD, &count) == 0 && (size_t)count < burst->length && waited < RIG_PATIENCE) {
        rig_pause(RIG_STEP);
        waited += RIG_STEP;
    }
    NEED_SAYS((size_t)count == burst->length, "all of %zu bytes is there: %d", burst->length, count);
    rig_signal(gateway, SIGCONT);
    close(fd);
}

/* Replies in the order of their frames, then those of the updates; a log line for the drops, each update and the refusals. */
void burst_of_frames(void)
{
    struct burst burst = {.length = 0};
    struct rig rig;

    put_bytes(&burst, rig_request, RIG_REQUEST);
    put_hex(&burst, setting_hex(UPDATE, COOL, 1, 2, 70));
    put_hex(&burst, "ca 01 06 07 35");
    put_hex(&burst, setting_hex(REQUEST, COOL, 9, 2, 0));
    put_hex(&burst, setting_hex(UPDATE, COOL, 1, 2, 71));
    put_hex(&burst, setting_hex(REQUEST, COOL, 1, 2, 0));
    put_hex(&burst, setting_hex(UPDATE, FAN, 1, 3, 80));
    rig_make(&rig, RIG_ROW_1);
    rig_start(&rig, "--delay 0");
    send_at_once(&rig, &rig, &burst);
    rig_reply_bytes(&rig, rig_answer, sizeof rig_answer);
    rig_reply(&rig, setting_hex(REQUESTED, COOL, 1, 2, 44));
    rig_reply(&rig, setting_hex(UPDATED, COOL, 1, 2, 70));
    rig_reply(&rig, setting_hex(UPDATED, FAN, 1, 3, 80));
    rig_log(&rig, "controller drop 4 body 3 (EOF too early)");
    rig_log(&rig, "queued controller cool 1 state 2 value 70, 1 waiting");
    rig_log(&rig, "queued controller fan 1 state 3 value 80, 2 waiting");
    rig_log(&rig, "controller refused 13 x1 15 x1");
    rig_log(&rig, "confirmed controller cool 1 state 2 value 70");
    rig_log(&rig, "confirmed controller fan 1 state 3 value 80");
    CHECK(rig_get(&rig, COOL, 2) == 70 && rig_get(&rig, FAN, 3) == 80);
    rig_quiet(&rig);
    rig_end(&rig);
}

/* Sends bytes one by one, each taken before the next comes. */
static void send_slowly(struct rig *rig, const uint8_t *bytes, size_t length)
{
    for (size_t i = 0; i < length; i++) {
        rig_send_bytes(rig, bytes + i, 1);
        rig_taken(rig);
    }
}

/* Each byte of a frame is a block of its own, on either line, with bytes of the other line between; an escape ends one block too. */
void frame_over_many_reads(void)
{
    static const uint8_t update[] = {0xCA, 0x09, 0x06, 0x00, 0x57, 0x01, 0x00, 0x00, 0x01, 0x00, 0x03, 0x2F, 0x35, 0xA0, 0x35};
    struct rig rig;
    struct rig panel;

    rig_make_both(&rig, &panel, RIG_ROW_1);
    rig_start(&rig, "--delay 0");
    for (size_t i = 0; i < RIG_REQUEST; i++) {
        send_slowly(&rig, rig_request + i, 1);
        send_slowly(&panel, rig_request + i, 1);
    }
    rig_reply_bytes(&rig, rig_answer, sizeof rig_answer);
    rig_reply_bytes(&panel, rig_answer, sizeof rig_answer);
    send_slowly(&panel, update, sizeof update);
    rig_log(&rig, "queued panel fan 1 state 3 value 53, 1 waiting");
    rig_log(&rig, "confirmed panel fan 1 state 3 value 53");
    rig_reply(&panel, setting_hex(UPDATED, FAN, 1, 3, 53));
    send_slowly(&rig, (const uint8_t[]){0x2F, 0xCA, 0x35, 0x2F, 0x2F}, 5);
    rig_quiet(&rig);
    rig_quiet(&panel);
    CHECK_SAYS(!rig_next_line(&rig), "nothing is dropped or refused: %s", rig.line);
    rig_end(&rig);
    rig_end(&panel);
}

/* Requests, as many as a burst has, whose replies are as long as they are, or so much longer that they don't fit the outbox at once. */
static void thousands_of(const uint8_t *request, const uint8_t *reply, size_t reply_length)
{
    struct burst burst = {.length = 0};
    struct rig rig;

    while (burst.length + RIG_REQUEST <= BURST) {
        put_bytes(&burst, request, RIG_REQUEST);
    }
    rig_make(&rig, RIG_ROW_1);
    rig_start(&rig, "--firmware 12085"); /* 0x2F35, two bytes to escape */
    for (int i = 0; i < 3; i++) {
        send_at_once(&rig, &rig, &burst);
        for (size_t replies = 0; replies < burst.length / RIG_REQUEST; replies++) {
            rig_reply_bytes(&rig, reply, reply_length);
        }
        rig_quiet(&rig);
    }
    CHECK_SAYS(!rig_next_line(&rig), "nothing is dropped or refused: %s", rig.line);
    rig_end(&rig);
}

void thousands_at_once(void)
{
    static const uint8_t request[RIG_REQUEST] = {0xCA, 0x07, 0x06, 0x01, 0x87, 0x01, 0x00, 0x00, 0x00, 0x00, 0x96, 0x35};
    static const uint8_t reply[] = {0xCA, 0x07, 0x06, 0x04, 0x87, 0x01, 0x00, 0x00, 0x2F, 0x35, 0x2F, 0x2F, 0xFD, 0x35};

    thousands_of(rig_request, rig_answer, sizeof rig_answer);
    thousands_of(request, reply, sizeof reply);
}

/* The Updates of fifteen fields. */
static void put_fifteen(struct burst *burst)
{
    for (uint8_t i = 0; i < 14; i++) {
        put_hex(burst, setting_hex(UPDATE, i < 7 ? COOL : FAN, 1, i % 7, 60));
    }
    put_hex(burst, "ca 08 06 00 27 01 00 00 01 00 03 3a 35"); /* the mode */
}

/* Updates of fifteen fields at once: a line has eight places, and the others are refused together; sent again they find the places. */
void updates_at_once(void)
{
    struct burst burst = {.length = 0};
    struct rig rig;

    put_fifteen(&burst);
    rig_make(&rig, RIG_ROW_1);
    rig_start(&rig, "--delay 0");
    send_at_once(&rig, &rig, &burst);
    for (uint8_t i = 0; i < 8; i++) {
        rig_reply(&rig, setting_hex(UPDATED, i < 7 ? COOL : FAN, 1, i % 7, 60));
        rig_log(&rig, i < 7 ? "queued controller cool 1 state" : "queued controller fan 1 state 0 value 60, 8 waiting");
    }
    rig_log(&rig, "controller refused 16 x7 (eight updates of the line wait)");
    for (uint8_t i = 0; i < 8; i++) {
        rig_log(&rig, i < 7 ? "confirmed controller cool 1 state" : "confirmed controller fan 1 state 0 value 60");
    }
    burst.length -= 8 * 14;
    memmove(burst.bytes, burst.bytes + 8 * 14, burst.length);
    send_at_once(&rig, &rig, &burst);
    for (uint8_t i = 1; i < 7; i++) {
        rig_reply(&rig, setting_hex(UPDATED, FAN, 1, i, 60));
    }
    rig_reply(&rig, "ca 08 06 03 27 01 00 00 01 00 03 3d 35");
    rig_log_until(&rig, "confirmed controller mode 1 value 3");
    rig_quiet(&rig);
    rig_end(&rig);
}

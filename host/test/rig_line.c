/* rig_line.c: a test rig's line: the pseudo-terminal, and the controller's end of it. */
#include "rig.h"

#include "../words.h"
#include "check.h"
#include "frames.h"

#include <errno.h>
#include <fcntl.h>
#include <stdlib.h>
#include <string.h>
#include <sys/ioctl.h>
#include <termios.h>
#include <unistd.h>

const uint8_t rig_request[RIG_REQUEST] = {0xCA, 0x07, 0x06, 0x01, 0x07, 0x01, 0x00, 0x00, 0x00, 0x00, 0x16, 0x35};
const uint8_t rig_answer[RIG_REQUEST] = {0xCA, 0x07, 0x06, 0x04, 0x07, 0x01, 0x00, 0x00, 0x00, 0x00, 0x19, 0x35};

/* The pseudo-terminal is raw before anybody opens it, so that no byte is changed or echoed. */
static void set_raw(const char *slave)
{
    int fd = open(slave, O_RDWR | O_NOCTTY);
    struct termios setup;

    NEED(fd >= 0);
    NEED(tcgetattr(fd, &setup) == 0);
    cfmakeraw(&setup);
    NEED(tcsetattr(fd, TCSANOW, &setup) == 0);
    close(fd);
}

void rig_point(const struct rig *rig, const char *path)
{
    unlink(rig->device);
    NEED(symlink(path, rig->device) == 0);
}

void rig_new_line(struct rig *rig)
{
    const char *slave;

    rig->master = posix_openpt(O_RDWR | O_NOCTTY);
    NEED(rig->master >= 0);
    NEED(fcntl(rig->master, F_SETFL, O_NONBLOCK) == 0 && fcntl(rig->master, F_SETFD, FD_CLOEXEC) == 0);
    NEED(grantpt(rig->master) == 0 && unlockpt(rig->master) == 0);
    slave = ptsname(rig->master);
    NEED(slave != NULL);
    set_raw(slave);
    rig_point(rig, slave);
}

/* The link goes first: it must never name a pseudo-terminal that somebody else gets. */
void rig_hang_up(struct rig *rig)
{
    unlink(rig->device);
    close(rig->master);
    rig->master = -1;
}

size_t rig_bytes(const char *hex, uint8_t *bytes, size_t room)
{
    size_t count = 0;
    uint8_t byte;

    while (next_hex(&hex, &byte)) {
        NEED(count < room);
        bytes[count] = byte;
        count += 1;
    }
    return count;
}

size_t rig_push(struct rig *rig, const uint8_t *bytes, size_t length)
{
    ssize_t moved = write(rig->master, bytes, length);

    NEED_SAYS(moved >= 0 || errno == EAGAIN, "the line takes bytes: %s", strerror(errno));
    return moved < 0 ? 0 : (size_t)moved;
}

/* EIO: nobody has the other end open now, as before a start and after a kill. */
size_t rig_pull(struct rig *rig, uint8_t *bytes, size_t room)
{
    ssize_t moved = read(rig->master, bytes, room);

    NEED_SAYS(moved >= 0 || errno == EAGAIN || errno == EIO, "the line gives bytes: %s", strerror(errno));
    return moved < 0 ? 0 : (size_t)moved;
}

void rig_send_bytes(struct rig *rig, const uint8_t *bytes, size_t length)
{
    for (int waited = 0; length > 0 && waited < RIG_PATIENCE; waited += RIG_STEP) {
        size_t moved = rig_push(rig, bytes, length);

        bytes += moved;
        length -= moved;
        if (length > 0) {
            rig_pause(RIG_STEP);
        }
    }
    NEED_SAYS(length == 0, "the line takes all bytes");
}

/* The bytes need a moment from one end of the pseudo-terminal to the other, before they can be seen there. */
void rig_taken(const struct rig *rig)
{
    int fd = open(rig->device, O_RDWR | O_NOCTTY | O_NONBLOCK);
    int count = 1;
    int waited = 0;

    NEED(fd >= 0);
    rig_pause(10 * RIG_STEP);
    while (ioctl(fd, FIONREAD, &count) == 0 && count > 0 && waited < RIG_PATIENCE) {
        rig_pause(RIG_STEP);
        waited += RIG_STEP;
    }
    NEED_SAYS(count == 0, "the gateway reads all");
    close(fd);
}

size_t rig_fill(struct rig *rig)
{
    size_t sent = 0;
    int idle = 0;

    while (idle < 300) {
        size_t at = sent % RIG_REQUEST;
        size_t moved = rig_push(rig, rig_request + at, RIG_REQUEST - at);

        sent += moved;
        idle = moved > 0 ? 0 : idle + 1;
        if (moved == 0) {
            rig_pause(1);
        }
    }
    return sent;
}

void rig_send(struct rig *rig, const char *hex)
{
    uint8_t bytes[RIG_FRAME];

    rig_send_bytes(rig, bytes, rig_bytes(hex, bytes, sizeof bytes));
}

void rig_reply_bytes(struct rig *rig, const uint8_t *bytes, size_t length)
{
    uint8_t found[RIG_FRAME];
    char wanted_text[3 * RIG_FRAME + 1];
    char found_text[3 * RIG_FRAME + 1];
    size_t count = 0;

    NEED(length <= RIG_FRAME);
    for (int waited = 0; count < length && waited < RIG_PATIENCE; waited += RIG_STEP) {
        size_t moved = rig_pull(rig, found + count, length - count);

        count += moved;
        if (moved == 0) {
            rig_pause(RIG_STEP);
        }
    }
    write_hex(wanted_text, bytes, length);
    write_hex(found_text, found, count);
    CHECK_SAYS(count == length && memcmp(bytes, found, length) == 0, "reply %s: found %s", wanted_text, found_text);
}

void rig_reply(struct rig *rig, const char *hex)
{
    uint8_t bytes[RIG_FRAME];

    rig_reply_bytes(rig, bytes, rig_bytes(hex, bytes, sizeof bytes));
}

void rig_quiet(struct rig *rig)
{
    rig_send_bytes(rig, rig_request, sizeof rig_request);
    rig_reply_bytes(rig, rig_answer, sizeof rig_answer);
}

void rig_set(struct rig *rig, uint32_t method, uint8_t state, uint8_t value)
{
    rig_send(rig, setting_hex(UPDATE, method, 1, state, value));
    rig_reply(rig, setting_hex(UPDATED, method, 1, state, value));
}

/* Waits for a byte of the line. */
static uint8_t next_byte(struct rig *rig)
{
    uint8_t byte = 0;
    int waited = 0;

    while (rig_pull(rig, &byte, 1) == 0 && waited < RIG_PATIENCE) {
        rig_pause(RIG_STEP);
        waited += RIG_STEP;
    }
    NEED_SAYS(waited < RIG_PATIENCE, "a reply comes");
    return byte;
}

uint8_t rig_get(struct rig *rig, uint32_t method, uint8_t state)
{
    struct reply_reader reader = {.inside = false};
    const uint8_t head[] = {9, 6, REQUESTED, (uint8_t)method, 1, 0, 0, 1, 0, state};

    rig_send(rig, setting_hex(REQUEST, method, 1, state, 0));
    while (!reply_byte(&reader, next_byte(rig))) {
    }
    CHECK(reader.length == sizeof head + 2 && memcmp(reader.body, head, sizeof head) == 0);
    return reader.body[sizeof head];
}

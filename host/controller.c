/*
 * controller.c: the other end of the line, by hand, on a pseudo-terminal.
 *
 * `controller LINK` makes a pseudo-terminal and points the symbolic link LINK at it, for `tha-gateway LINK TABLE`. Bytes typed in
 * hex are sent at the end of the line; bytes that come are printed in hex. It ends with its input or by SIGINT or SIGTERM, and takes
 * LINK away: left behind, it would name the next terminal that somebody opens.
 */
#include "stop.h"
#include "words.h"

#include <fcntl.h>
#include <poll.h>
#include <signal.h>
#include <stdio.h>
#include <stdlib.h>
#include <termios.h>
#include <unistd.h>

enum { LINE_ROOM = 4096 };

enum { STOP, INPUT, LINE, WATCHED };

/* Opens a raw pseudo-terminal; keeps its other end open too, so that it outlives a gateway. Returns -1 where it can't. */
static int open_line(const char *link)
{
    int master = posix_openpt(O_RDWR | O_NOCTTY);
    struct termios setup;
    int other;

    if (master < 0 || grantpt(master) != 0 || unlockpt(master) != 0) {
        return -1;
    }
    other = open(ptsname(master), O_RDWR | O_NOCTTY);
    if (other < 0 || tcgetattr(other, &setup) != 0) {
        return -1;
    }
    cfmakeraw(&setup);
    if (tcsetattr(other, TCSANOW, &setup) != 0 || symlink(ptsname(master), link) != 0) {
        return -1;
    }
    return master;
}

static int send_hex(int line, const char *text)
{
    uint8_t byte;

    while (next_hex(&text, &byte)) {
        if (write(line, &byte, 1) != 1) {
            return 0;
        }
    }
    return 1;
}

static int print_hex(int line)
{
    unsigned char bytes[256];
    ssize_t length = read(line, bytes, sizeof bytes);

    for (ssize_t i = 0; i < length; i++) {
        printf("%02x%c", bytes[i], i + 1 < length ? ' ' : '\n');
    }
    return fflush(stdout) == 0 && length > 0;
}

/* Until a signal comes, the input ends, or the line or the output fails. A signal also ends a read or write that waits. */
static void carry(int line, int stop_fd)
{
    struct pollfd watched[] = {
        [STOP] = {.fd = stop_fd, .events = POLLIN},
        [INPUT] = {.fd = STDIN_FILENO, .events = POLLIN},
        [LINE] = {.fd = line, .events = POLLIN},
    };
    static char text[LINE_ROOM];

    while (poll(watched, WATCHED, -1) > 0 && watched[STOP].revents == 0) {
        if (watched[LINE].revents != 0 && !print_hex(line)) {
            return;
        }
        if (watched[INPUT].revents != 0 && (fgets(text, sizeof text, stdin) == NULL || !send_hex(line, text))) {
            return;
        }
    }
}

int main(int count, char **arguments)
{
    int stop_fd = stop_open();
    int line;

    if (count != 2) {
        fprintf(stderr, "usage: controller LINK\n");
        return 2;
    }
    signal(SIGHUP, SIG_IGN); /* a terminal that is closed is the end of the input */
    setvbuf(stdin, NULL, _IONBF, 0);
    line = stop_fd < 0 ? -1 : open_line(arguments[1]);
    if (line < 0) {
        perror(arguments[1]);
        return 1;
    }
    carry(line, stop_fd);
    unlink(arguments[1]);
    return 0;
}

/* line.c: a serial line. */
#include "line.h"

#include <errno.h>
#include <fcntl.h>
#include <stdio.h>
#include <string.h>
#include <sys/file.h>
#include <sys/stat.h>
#include <termios.h>
#include <unistd.h>

void line_name(struct line *line, const char *path)
{
    line->path = path;
    line->fd = -1;
    line->error[0] = '\0';
}

bool line_is_open(const struct line *line)
{
    return line->fd >= 0;
}

void line_close(struct line *line)
{
    if (line->fd >= 0) {
        close(line->fd);
        line->fd = -1;
    }
}

static void say(struct line *line, const char *why)
{
    snprintf(line->error, sizeof line->error, "%s", why);
}

/* Closes what was opened in vain. */
static bool fail(struct line *line, const char *why)
{
    say(line, why);
    line_close(line);
    return false;
}

/* 9600 bits a second, eight data bits, no parity, one stop bit, no flow control, no byte changed on the way. */
static void set_raw(struct termios *setup)
{
    cfmakeraw(setup);
    setup->c_iflag &= ~(tcflag_t)(INPCK | IXOFF | IXANY);
    setup->c_cflag &= ~(tcflag_t)(CSIZE | PARENB | CSTOPB | CRTSCTS);
    setup->c_cflag |= CS8 | CREAD | CLOCAL;
    setup->c_cc[VMIN] = 1;
    setup->c_cc[VTIME] = 0;
    cfsetispeed(setup, B9600);
    cfsetospeed(setup, B9600);
}

/* tcsetattr is content when it could set a part: what counts is what the line says afterwards. */
static bool is_raw(const struct termios *now)
{
    tcflag_t frame = CSIZE | PARENB | CSTOPB | CRTSCTS;

    return cfgetospeed(now) == B9600 && cfgetispeed(now) == B9600 && (now->c_cflag & frame) == CS8 &&
           (now->c_lflag & (tcflag_t)(ICANON | ECHO | ISIG | IEXTEN)) == 0 && (now->c_oflag & (tcflag_t)OPOST) == 0 &&
           (now->c_iflag & (tcflag_t)(IXON | IXOFF | ICRNL | INLCR | IGNCR | ISTRIP)) == 0;
}

/* By the device's number: names and links may differ. A line that is not open has no device. */
static bool same_device(const struct line *line, const struct line *other)
{
    struct stat one;
    struct stat two;

    return fstat(line->fd, &one) == 0 && fstat(other->fd, &two) == 0 && one.st_rdev == two.st_rdev;
}

bool line_open(struct line *line, const struct line *other)
{
    struct termios setup;

    line->fd = open(line->path, O_RDWR | O_NOCTTY | O_NONBLOCK | O_CLOEXEC);
    if (line->fd < 0) {
        return fail(line, strerror(errno));
    }
    if (tcgetattr(line->fd, &setup) != 0) {
        return fail(line, "not a serial line");
    }
    if (same_device(line, other)) {
        return fail(line, "the other line has this device");
    }
    if (flock(line->fd, LOCK_EX | LOCK_NB) != 0) {
        return fail(line, errno == EWOULDBLOCK ? "another process holds this line" : strerror(errno));
    }
    set_raw(&setup);
    if (tcsetattr(line->fd, TCSANOW, &setup) != 0 || tcgetattr(line->fd, &setup) != 0 || !is_raw(&setup)) {
        return fail(line, "can't be set to 9600 8N1 raw");
    }
    return true;
}

/* What a read or write that moved no byte means. */
static int none_moved(struct line *line)
{
    if (errno == EAGAIN || errno == EINTR) {
        return 0;
    }
    say(line, strerror(errno));
    return LINE_LOST;
}

int line_read(struct line *line, uint8_t *bytes, size_t length)
{
    ssize_t moved = read(line->fd, bytes, length);

    if (moved == 0) {
        say(line, "hung up");
        return LINE_LOST;
    }
    return moved < 0 ? none_moved(line) : (int)moved;
}

int line_write(struct line *line, const uint8_t *bytes, size_t length)
{
    ssize_t moved = write(line->fd, bytes, length);

    return moved < 0 ? none_moved(line) : (int)moved;
}

/*
 * stop.c: SIGTERM and SIGINT as something to wait for beside the lines.
 *
 * The handler writes a byte to a pipe and the loop waits for that pipe too: a signal is seen whenever it comes, also between a look
 * and a sleep, and also while a line is never quiet.
 */
#include "stop.h"

#include <errno.h>
#include <fcntl.h>
#include <signal.h>
#include <unistd.h>

static int pipe_ends[2];

static void on_signal(int number)
{
    int kept = errno;
    ssize_t ignored = write(pipe_ends[1], "", 1);

    (void)number;
    (void)ignored; /* a full pipe is readable already */
    errno = kept;
}

static int set_up_end(int end)
{
    return fcntl(end, F_SETFL, O_NONBLOCK) == 0 && fcntl(end, F_SETFD, FD_CLOEXEC) == 0;
}

int stop_open(void)
{
    struct sigaction action = {.sa_handler = on_signal};
    struct sigaction ignore = {.sa_handler = SIG_IGN};

    if (pipe(pipe_ends) != 0 || !set_up_end(pipe_ends[0]) || !set_up_end(pipe_ends[1])) {
        return -1;
    }
    sigemptyset(&action.sa_mask);
    sigemptyset(&ignore.sa_mask);
    if (sigaction(SIGTERM, &action, NULL) != 0 || sigaction(SIGINT, &action, NULL) != 0 || sigaction(SIGPIPE, &ignore, NULL) != 0) {
        return -1;
    }
    return pipe_ends[0];
}

bool stop_take(int fd)
{
    char byte;

    return read(fd, &byte, 1) == 1;
}

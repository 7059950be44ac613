/*
 * breaks.c: file calls that break. Linked into a gateway of the tests only, in place of the calls that its own parts make
 * (-Wl,--wrap): all else of it is the program that is shipped.
 *
 * BREAK in the environment is "N HOW": the N-th of the calls that change files on the disk breaks. HOW is `before` or `after`: the
 * gateway is killed before or after the call; `half`: it is killed once half of the bytes are written; `stop`: it stops before the call,
 * until SIGCONT; `fail`: the call fails; `full`: from this call on the disk takes no more than half of the bytes of one write, then
 * nothing, and no new name.
 */
#include <errno.h>
#include <fcntl.h>
#include <signal.h>
#include <stdarg.h>
#include <stdbool.h>
#include <stdio.h>
#include <stdlib.h>
#include <string.h>
#include <sys/stat.h>
#include <unistd.h>

int __real_open(const char *path, int flags, ...);
ssize_t __real_write(int fd, const void *bytes, size_t length);
int __real_fsync(int fd);
int __real_rename(const char *path, const char *name);
int __real_unlink(const char *path);

int __wrap_open(const char *path, int flags, ...);
ssize_t __wrap_write(int fd, const void *bytes, size_t length);
int __wrap_fsync(int fd);
int __wrap_rename(const char *path, const char *name);
int __wrap_unlink(const char *path);

enum how { NOT, BEFORE, AFTER, HALF, STOP, FAIL, FULL, FULL_ALREADY };

static unsigned calls;

static enum how how_of(const char *word)
{
    static const char *const words[] = {"not", "before", "after", "half", "stop", "fail", "full"};

    for (unsigned i = BEFORE; i <= FULL; i++) {
        if (strcmp(word, words[i]) == 0) {
            return (enum how)i;
        }
    }
    return NOT;
}

/* Killed at once; raise would let valgrind look for leaks first. */
static void be_killed(void)
{
    sigqueue(getpid(), SIGKILL, (union sigval){.sival_int = 0});
}

/* Counts a call, and kills the gateway if it is to be killed before it. */
static enum how count_call(void)
{
    const char *text = getenv("BREAK");
    enum how how = NOT;
    unsigned number = 0;
    char word[16];

    calls += 1;
    if (text != NULL && sscanf(text, "%u %15s", &number, word) == 2) {
        how = how_of(word);
    }
    if (how == FULL && calls > number) {
        return FULL_ALREADY;
    }
    if (calls != number) {
        return NOT;
    }
    if (how == BEFORE) {
        be_killed();
    }
    if (how == STOP) {
        kill(getpid(), SIGSTOP);
    }
    return how;
}

static bool fails(enum how how)
{
    errno = how == FAIL ? EIO : ENOSPC;
    return how == FAIL || how == FULL || how == FULL_ALREADY;
}

static void killed_after(enum how how)
{
    int kept = errno;

    if (how == AFTER || how == HALF) {
        be_killed();
    }
    errno = kept;
}

int __wrap_open(const char *path, int flags, ...)
{
    enum how how = NOT;
    mode_t mode = 0;
    int fd;

    if ((flags & O_CREAT) != 0) {
        va_list rest;

        va_start(rest, flags);
        mode = va_arg(rest, mode_t);
        va_end(rest);
        how = count_call();
        if (fails(how)) {
            return -1;
        }
    }
    fd = __real_open(path, flags, mode);
    killed_after(how);
    return fd;
}

/* Standard error is the log, and the line is no plain file. */
static bool is_file(int fd)
{
    struct stat found;

    return fd > STDERR_FILENO && fstat(fd, &found) == 0 && S_ISREG(found.st_mode);
}

ssize_t __wrap_write(int fd, const void *bytes, size_t length)
{
    enum how how = is_file(fd) ? count_call() : NOT;
    ssize_t written = -1;

    if (how == FULL || how == HALF) {
        written = __real_write(fd, bytes, length / 2);
    } else if (!fails(how)) {
        written = __real_write(fd, bytes, length);
    }
    killed_after(how);
    return written;
}

int __wrap_fsync(int fd)
{
    enum how how = count_call();
    int result = fails(how) ? -1 : __real_fsync(fd);

    killed_after(how);
    return result;
}

int __wrap_rename(const char *path, const char *name)
{
    enum how how = count_call();
    int result = fails(how) ? -1 : __real_rename(path, name);

    killed_after(how);
    return result;
}

/* A full disk lets names be removed. */
int __wrap_unlink(const char *path)
{
    enum how how = count_call();
    int result = how == FAIL && fails(how) ? -1 : __real_unlink(path);

    killed_after(how);
    return result;
}

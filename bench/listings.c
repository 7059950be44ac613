/*
 * listings.c: the two listing programs on one large input: each reads it from a file and writes to a file, and the two outputs are
 * compared byte by byte.
 */
#define _POSIX_C_SOURCE 200809L
#include "listings.h"
#include "traffic.h"
#include <fcntl.h>
#include <stdio.h>
#include <stdlib.h>
#include <string.h>
#include <sys/types.h>
#include <sys/wait.h>
#include <unistd.h>

enum { RUNS_MOST = 7, PATH_ROOM = 4096, CHUNK = 65536 };

static const double enough_ns = 30e9; /* no further run after this */

static _Noreturn void fail(const char *what, const char *path)
{
    fprintf(stderr, "bench: %s: %s\n", what, path);
    exit(1);
}

static void path_in(char *path, const char *folder, const char *name)
{
    if (snprintf(path, PATH_ROOM, "%s/%s", folder, name) >= PATH_ROOM) {
        fail("path too long", folder);
    }
}

void listings_input(const char *path, size_t n)
{
    uint8_t *bytes = malloc(n + PACKET_ROOM);
    FILE *file = fopen(path, "wb");
    if (bytes == NULL || file == NULL) {
        fail("can't make", path);
    }
    rng r = {64};
    traffic_listing(&r, bytes, n);
    if (fwrite(bytes, 1, n, file) != n || fclose(file) != 0) {
        fail("can't write", path);
    }
    free(bytes);
}

static _Noreturn void become(const char *program, const char *input, const char *output)
{
    int in = open(input, O_RDONLY);
    int out = open(output, O_WRONLY | O_CREAT | O_TRUNC, 0644);
    if (in >= 0 && out >= 0 && dup2(in, STDIN_FILENO) >= 0 && dup2(out, STDOUT_FILENO) >= 0) {
        execl(program, program, (char *)NULL);
    }
    _exit(127);
}

/* Runs a program; ns for each byte of its input. */
static double run(const char *program, const char *input, const char *output)
{
    double start = clock_ns();
    pid_t child = fork();
    if (child == 0) {
        become(program, input, output);
    }
    int status = 0;
    if (child < 0 || waitpid(child, &status, 0) != child || status != 0) {
        fail("did not run to its end", program);
    }
    return (clock_ns() - start) / LISTING_BYTES;
}

static void compare(const char *a, const char *b)
{
    static uint8_t from_a[CHUNK];
    static uint8_t from_b[CHUNK];
    FILE *file_a = fopen(a, "rb");
    FILE *file_b = fopen(b, "rb");
    if (file_a == NULL || file_b == NULL) {
        fail("can't read", a);
    }
    size_t n = 1;
    size_t total = 0;
    while (n > 0) {
        n = fread(from_a, 1, CHUNK, file_a);
        if (fread(from_b, 1, CHUNK, file_b) != n || memcmp(from_a, from_b, n) != 0) {
            fail("the listings differ", b);
        }
        total += n;
    }
    if (total == 0) {
        fail("nothing was listed", a);
    }
    fclose(file_a);
    fclose(file_b);
}

void listings_run(const char *proved, const char *plain, const char *folder, times *proved_times, times *plain_times)
{
    char input[PATH_ROOM];
    char proved_out[PATH_ROOM];
    char plain_out[PATH_ROOM];
    path_in(input, folder, "line.bin");
    path_in(proved_out, folder, "listing.proved");
    path_in(plain_out, folder, "listing.plain");
    listings_input(input, LISTING_BYTES);
    double start = clock_ns();
    for (size_t i = 0; i < RUNS_MOST && clock_ns() - start < enough_ns; i++) {
        times_add(proved_times, run(proved, input, proved_out));
        times_add(plain_times, run(plain, input, plain_out));
        compare(proved_out, plain_out);
    }
    remove(input);
    remove(proved_out);
    remove(plain_out);
}

/*
 * main.c: tha-gateway: a gateway on one serial line, or on two.
 *
 * Nothing is read from a line before the arguments, the devices and the records are found good. Status 0 after SIGTERM or SIGINT, 1
 * for an error of a device, the table or another file at the start, 2 for wrong arguments, 3 where a second signal kept the hand-over
 * from being written, 4 where a file could not be written.
 */
#include "handover.h"
#include "options.h"
#include "port.h"
#include "serve.h"
#include "start.h"
#include "stop.h"

#include <fcntl.h>
#include <stdio.h>
#include <time.h>
#include <unistd.h>

enum { ENDED = 0, NOT_SERVED = 1, WRONG_ARGUMENTS = 2, CUT_SHORT = 3, NOT_WRITTEN = 4 };

/* Static, since it is large. */
static struct host host;

static int fail(int status, const char *why)
{
    fprintf(stderr, "tha-gateway: %s\n", why);
    return status;
}

/* Started without standard input, output or error, a line must not become one of them: the log would be sent on it. */
static bool hold_standard_files(void)
{
    int fd;

    do {
        fd = open("/dev/null", O_RDWR);
    } while (fd >= 0 && fd <= STDERR_FILENO);
    return fd >= 0 && close(fd) == 0;
}

/* Opens every line. */
static bool open_lines(void)
{
    for (size_t i = 0; i < host.port_count; i++) {
        if (!port_open(&host, &host.ports[i])) {
            fprintf(stderr, "tha-gateway: %s: %s\n", host.ports[i].line.path, host.ports[i].line.error);
            return false;
        }
    }
    return true;
}

/* Closes the lines, the controller's last: who gets that one next, and opens it first, finds the other free. */
static void close_lines(void)
{
    for (size_t i = host.port_count; i > 0; i--) {
        line_close(&host.ports[i - 1].line);
    }
}

/* Opens the lines, and then loads the records. */
static bool set_up(const struct options *options, enum start_source *source)
{
    ports_start(&host, options->devices);
    if (!open_lines()) {
        return false;
    }
    host.handover = options->handover;
    host.state = options->state;
    return start_files_fit(options) && start_load(options, &host.gateway, source);
}

/* The first log line has the date, since all others count from it. */
static void log_first_line(const struct options *options)
{
    const char *panel = options->devices[THA_PANEL];
    time_t now = time(NULL);
    struct tm date;
    char text[32] = "";

    if (gmtime_r(&now, &date) != NULL) {
        strftime(text, sizeof text, "%Y-%m-%d %H:%M:%S UTC", &date);
    }
    log_line(&host.log, "serving %s%s%s, %u devices, since %s", options->devices[THA_CONTROLLER], panel == NULL ? "" : " and panel ",
             panel == NULL ? "" : panel, (unsigned)host.gateway.table.count, text);
    log_flush(&host.log);
}

/*
 * Where the log goes: standard error. A terminal is opened once more, so that a write to it does not wait for a reader and the shell's
 * own descriptor stays as it is. Where that can't be done, the log takes the terminal as it is.
 */
static int log_file(void)
{
    int fd = -1;

    if (isatty(STDERR_FILENO)) {
        fd = open("/proc/self/fd/2", O_WRONLY | O_NOCTTY | O_NONBLOCK | O_CLOEXEC);
    }
    return fd < 0 ? STDERR_FILENO : fd;
}

/* Writes the hand-over. The lines stay locked meanwhile: who gets them next finds the file as it is to be. */
static int hand_over(void)
{
    char error[HANDOVER_ERROR_ROOM];

    log_flush(&host.log);
    if (!handover_write(host.handover, &host.gateway, error)) {
        log_line(&host.log, "not handed over to %s: %s", host.handover, error);
        return NOT_WRITTEN;
    }
    log_line(&host.log, "handed over to %s, %u devices", host.handover, (unsigned)host.gateway.table.count);
    return ENDED;
}

/* Serves, and does what is due at the end; returns the status. */
static int serve_and_end(int stop_fd)
{
    switch (serve(&host, stop_fd)) {
    case SERVE_DRAINED:
        return hand_over();
    case SERVE_CUT_SHORT:
        log_line(&host.log, "a second signal, not handed over");
        return CUT_SHORT;
    case SERVE_NOT_KEPT:
        return NOT_WRITTEN;
    default:
        return ENDED;
    }
}

static int run(const struct options *options, enum start_source source, int stop_fd)
{
    int status = NOT_WRITTEN;

    clock_start(&host.clock, options->speed);
    log_start(&host.log, log_file(), &host.clock);
    log_first_line(options);
    if (start_settle(&host, options, source)) {
        status = serve_and_end(stop_fd);
    }
    log_line(&host.log, status == NOT_WRITTEN ? "ended by an error, %u waiting" : "ended by a signal, %u waiting",
             (unsigned)host.gateway.queue.count);
    close_lines();
    log_end(&host.log);
    return status;
}

int main(int count, char **arguments)
{
    static struct options options;
    char error[OPTIONS_ERROR_ROOM];
    enum start_source source = FROM_TABLE;
    bool held = hold_standard_files();
    int stop_fd = stop_open();

    if (!options_read(&options, count, arguments, error)) {
        return fail(WRONG_ARGUMENTS, error);
    }
    if (options.help) {
        puts(OPTIONS_USAGE);
        return ENDED;
    }
    if (!held || stop_fd < 0) {
        return fail(NOT_SERVED, "can't be set up");
    }
    if (!set_up(&options, &source)) {
        return NOT_SERVED;
    }
    host.thermostats = simple_thermostats(&options.site);
    return run(&options, source, stop_fd);
}

/* rig.c: a test rig: its directory, and the gateway's process. */
#include "rig.h"

#include "check.h"

#include <fcntl.h>
#include <signal.h>
#include <stdio.h>
#include <stdlib.h>
#include <string.h>
#include <sys/resource.h>
#include <sys/wait.h>
#include <time.h>
#include <unistd.h>

enum { MOST_ARGUMENTS = 128 };

void rig_pause(unsigned milliseconds)
{
    struct timespec time = {.tv_sec = milliseconds / 1000, .tv_nsec = (long)(milliseconds % 1000) * 1000000};

    nanosleep(&time, NULL);
}

void rig_make(struct rig *rig, const char *table)
{
    const char *runs = getenv("RUNS") != NULL ? getenv("RUNS") : "/tmp";
    FILE *file;
    int length;

    memset(rig, 0, sizeof *rig);
    length = snprintf(rig->directory, sizeof rig->directory, "%s/run-XXXXXX", runs);
    NEED(length > 0 && (size_t)length < sizeof rig->directory && mkdtemp(rig->directory) != NULL);
    snprintf(rig->device, RIG_PATH, "%s/line", rig->directory);
    snprintf(rig->table, RIG_PATH, "%s/table", rig->directory);
    snprintf(rig->log, RIG_PATH, "%s/log", rig->directory);
    snprintf(rig->handover, RIG_PATH, "%s/handover", rig->directory);
    snprintf(rig->state, RIG_PATH, "%s/state", rig->directory);
    file = fopen(rig->table, "w");
    NEED(file != NULL);
    NEED(fputs(table, file) >= 0);
    NEED(fclose(file) == 0);
    rig_new_line(rig);
}

void rig_make_both(struct rig *rig, struct rig *panel, const char *table)
{
    rig_make(rig, table);
    rig_make(panel, "");
    rig->panel = panel;
}

void rig_end(struct rig *rig)
{
    if (rig->pid != 0) {
        rig_signal(rig, SIGTERM);
        CHECK(rig_wait(rig) == 0);
    }
    if (rig->master >= 0) {
        close(rig->master);
    }
    unlink(rig->device);
    unlink(rig->table);
    unlink(rig->log);
    rig_remove_files(rig);
    rmdir(rig->directory);
}

/* Parts a text at its spaces. */
static int add_arguments(char **arguments, int count, char *text)
{
    char *rest = text;
    char *word;

    while ((word = strtok_r(rest, " ", &rest)) != NULL && count < MOST_ARGUMENTS - 6) {
        arguments[count] = word;
        count += 1;
    }
    return count;
}

static void set_error(const struct rig *rig)
{
    int log = open(rig->log, O_WRONLY | O_CREAT | O_APPEND, 0600);

    dup2(rig->error == TO_PIPE || rig->error == TO_TERMINAL ? rig->reader[1] : log, STDERR_FILENO);
    close(log);
    for (int fd = 0; rig->error == CLOSED && fd <= STDERR_FILENO; fd++) {
        close(fd);
    }
}

/* A disk that is full: a file that would grow too long gets an error, and no signal. */
static void limit_files(const struct rig *rig)
{
    struct rlimit limit = {.rlim_cur = rig->file_most, .rlim_max = rig->file_most};

    if (rig->file_most > 0) {
        signal(SIGXFSZ, SIG_IGN);
        setrlimit(RLIMIT_FSIZE, &limit);
    }
}

static void become_gateway(const struct rig *rig, const char *options)
{
    const char *under = getenv("GATEWAY_UNDER");
    char *arguments[MOST_ARGUMENTS];
    char before[1024];
    char text[1024];
    int count;

    snprintf(before, sizeof before, "%s", under != NULL ? under : "");
    snprintf(text, sizeof text, "%s", options);
    count = add_arguments(arguments, 0, before);
    arguments[count] = getenv(rig->breaks != NULL ? "BREAKING" : "GATEWAY");
    count = add_arguments(arguments, count + 1, text);
    if (rig->panel != NULL) {
        arguments[count] = (char *)"--panel";
        arguments[count + 1] = (char *)rig->panel->device;
        count += 2;
    }
    if (!rig->bare) {
        arguments[count] = (char *)rig->device;
        arguments[count + 1] = (char *)rig->table;
        count += 2;
    }
    arguments[count] = NULL;
    set_error(rig);
    limit_files(rig);
    if (rig->breaks != NULL) {
        setenv("BREAK", rig->breaks, 1);
    }
    execvp(arguments[0], arguments);
    _exit(127);
}

/* A terminal as a shell has it: it waits for its reader. */
static void open_terminal(int ends[2])
{
    ends[0] = posix_openpt(O_RDWR | O_NOCTTY);
    NEED(ends[0] >= 0 && grantpt(ends[0]) == 0 && unlockpt(ends[0]) == 0);
    ends[1] = open(ptsname(ends[0]), O_RDWR | O_NOCTTY);
    NEED(ends[1] >= 0);
}

/* Makes the log's reader, which the gateway does not inherit. */
static void open_reader(struct rig *rig)
{
    if (rig->error == TO_PIPE) {
        NEED(pipe(rig->reader) == 0);
    } else {
        open_terminal(rig->reader);
    }
    NEED(fcntl(rig->reader[0], F_SETFL, O_NONBLOCK) == 0);
    NEED(fcntl(rig->reader[0], F_SETFD, FD_CLOEXEC) == 0 && fcntl(rig->reader[1], F_SETFD, FD_CLOEXEC) == 0);
}

void rig_launch(struct rig *rig, const char *options)
{
    NEED(getenv("GATEWAY") != NULL && getenv("BREAKING") != NULL);
    if (rig->error == TO_PIPE || rig->error == TO_TERMINAL) {
        open_reader(rig);
    }
    fflush(stdout);
    rig->pid = fork();
    NEED(rig->pid >= 0);
    if (rig->pid == 0) {
        become_gateway(rig, options);
    }
}

void rig_start(struct rig *rig, const char *options)
{
    while (rig_next_line(rig)) {
    }
    rig_launch(rig, options);
    rig_log(rig, "serving ");
}

void rig_signal(const struct rig *rig, int number)
{
    NEED(kill(rig->pid, number) == 0);
}

void rig_wait_stopped(const struct rig *rig)
{
    siginfo_t info = {.si_pid = 0};
    int waited = 0;

    while (info.si_pid != rig->pid && waited < RIG_PATIENCE) {
        NEED(waitid(P_PID, (id_t)rig->pid, &info, WSTOPPED | WNOHANG) == 0);
        rig_pause(RIG_STEP);
        waited += RIG_STEP;
    }
    NEED_SAYS(waited < RIG_PATIENCE, "the gateway stops");
}

bool rig_has_ended(const struct rig *rig)
{
    siginfo_t info = {.si_pid = 0};

    NEED(waitid(P_PID, (id_t)rig->pid, &info, WEXITED | WNOHANG | WNOWAIT) == 0);
    return info.si_pid == rig->pid;
}

int rig_wait(struct rig *rig)
{
    int status = 0;
    pid_t ended = 0;

    for (int waited = 0; ended == 0 && waited < RIG_PATIENCE; waited += RIG_STEP) {
        ended = waitpid(rig->pid, &status, WNOHANG);
        if (ended == 0) {
            rig_pause(RIG_STEP);
        }
    }
    NEED_SAYS(ended == rig->pid, "the gateway ends");
    rig->pid = 0;
    return WIFEXITED(status) ? WEXITSTATUS(status) : -WTERMSIG(status);
}

/*
 * rig.h: a test rig: tha-gateway on a pseudo-terminal, whose other end is the controller, with its log in a file.
 *
 * DEVICE is a symbolic link, so that a rig can point it at another pseudo-terminal. For a panel there is a second rig, which starts
 * nothing: its line is the panel's, for all that is done with a line. The environment gives the program in GATEWAY, the
 * same program with file calls that break (see breaks.c) in BREAKING and, for valgrind, a command to put before it in GATEWAY_UNDER. A
 * step that does not come about within a minute fails the case.
 */
#ifndef RIG_H
#define RIG_H

#include <stdbool.h>
#include <stddef.h>
#include <stdint.h>
#include <sys/types.h>

enum { RIG_PATH = 256, RIG_LINE = 256, RIG_FRAME = 1024, RIG_REQUEST = 12, RIG_NUMBERS = 32 };

/* How long a step may take, and how long to sleep between two looks, in milliseconds. */
enum { RIG_PATIENCE = 60000, RIG_STEP = 2 };

/* The row of document 01's listing program: heating, cooling and fan, state 4. */
#define RIG_ROW_1 "row 1 112810 0x0B 0 4 0 44 44 44 44 44 44 44 255 255 255 255 255 255 255 0 0 0 0 0 0 0\n"

/*
 * Where standard error goes: to the log file, to a pipe or a terminal that nobody reads unless the case does, or nowhere: all three are
 * closed.
 */
enum rig_error { TO_LOG, TO_PIPE, TO_TERMINAL, CLOSED };

struct rig {
    int master;             /* the controller's end of the line */
    pid_t pid;              /* 0 where nothing runs */
    enum rig_error error;
    int reader[2];          /* with TO_PIPE and TO_TERMINAL, the reader's end, which does not wait, and the gateway's */
    bool bare;              /* DEVICE and TABLE are left out of the arguments */
    const struct rig *panel; /* the rig whose line is the panel's, or NULL */
    const char *breaks;     /* how file calls break, or NULL */
    unsigned file_most;     /* no file may grow longer, where that is not 0 */
    long log_place;         /* how far the log has been read */
    char line[RIG_LINE];    /* the last log line read */
    char directory[RIG_PATH - 16];
    char device[RIG_PATH];
    char table[RIG_PATH];
    char log[RIG_PATH];
    char handover[RIG_PATH]; /* free names for both files */
    char state[RIG_PATH];
};

/* A new directory with the table's text, and a raw pseudo-terminal. */
void rig_make(struct rig *rig, const char *table);

/* The same, and a second rig whose line is the panel's. It is ended by itself. */
void rig_make_both(struct rig *rig, struct rig *panel, const char *table);

/* Stops what runs and takes the directory away. */
void rig_end(struct rig *rig);

/* A new pseudo-terminal in place of the old one; rig_hang_up closes the controller's end. */
void rig_new_line(struct rig *rig);
void rig_hang_up(struct rig *rig);

/* Points DEVICE at another path. */
void rig_point(const struct rig *rig, const char *path);

/* Starts the program with options parted by spaces, and leaves it to itself. */
void rig_launch(struct rig *rig, const char *options);

/* The same, and waits until it serves. What a gateway before has left in the log is skipped. */
void rig_start(struct rig *rig, const char *options);

/* The words with @h in them replaced by the hand-over file and @s by the state file. The text is the caller's until the next call. */
const char *rig_options(const struct rig *rig, const char *words);

/* A file of the rig, or one beside it, whose name has the ending: its name, whether it is there, its bytes. */
void rig_beside(char path[RIG_PATH], const char *file, const char *ending);
bool rig_has(const char *file, const char *ending);
size_t rig_read_file(const char *file, const char *ending, uint8_t *bytes, size_t room);
void rig_write_file(const char *file, const void *bytes, size_t length);

/* Takes the hand-over file, the state file and all beside them away. */
void rig_remove_files(const struct rig *rig);

/* Sends a signal; waits for the end, and returns the exit status, or minus the signal that killed it. */
void rig_signal(const struct rig *rig, int number);
int rig_wait(struct rig *rig);

/* Waits until the process has stopped. */
void rig_wait_stopped(const struct rig *rig);

/* Whether the process has ended; rig_wait then returns at once. */
bool rig_has_ended(const struct rig *rig);

/* Bytes in hex, parted by spaces. */
size_t rig_bytes(const char *hex, uint8_t *bytes, size_t room);

/* Sends bytes on the line. */
void rig_send(struct rig *rig, const char *hex);
void rig_send_bytes(struct rig *rig, const uint8_t *bytes, size_t length);

/* Waits until the gateway has read all that was sent. */
void rig_taken(const struct rig *rig);

/* Writes what the line takes now, reads what is there now; both return the number of bytes, 0 for none. */
size_t rig_push(struct rig *rig, const uint8_t *bytes, size_t length);
size_t rig_pull(struct rig *rig, uint8_t *bytes, size_t room);

/* Sends Requests of the network error without reading until the line takes no more; returns how many bytes it took. */
size_t rig_fill(struct rig *rig);

/* The next bytes on the line are these. */
void rig_reply(struct rig *rig, const char *hex);

void rig_reply_bytes(struct rig *rig, const uint8_t *bytes, size_t length);

/* An Update of a setting of device 1, and its reply. */
void rig_set(struct rig *rig, uint32_t method, uint8_t state, uint8_t value);

/* The value of a setting of device 1, by a Request. */
uint8_t rig_get(struct rig *rig, uint32_t method, uint8_t state);

/* The Request of the network error, and its reply. */
extern const uint8_t rig_request[RIG_REQUEST];
extern const uint8_t rig_answer[RIG_REQUEST];

/* Nothing is on its way: a Request of the network error is answered next. */
void rig_quiet(struct rig *rig);

/* Reads the next log line, and checks that it begins with the words, after its time and ticks. Returns its ticks. */
unsigned long rig_log(struct rig *rig, const char *words);

/* Reads log lines until one begins with the words. Returns its ticks. */
unsigned long rig_log_until(struct rig *rig, const char *words);

/* What log lines count: how often each number came up in a line's drops and refusals, and the body bytes of its drops. */
struct rig_counts {
    unsigned long numbers[RIG_NUMBERS];
    unsigned long body;
};

/* Adds what a log line counts of the line with this name, "controller" or "panel"; says whether it is such a line. */
bool rig_count(struct rig_counts *counts, const char *line, const char *name);

/* The time of the last log line read, in milliseconds, and its ticks. */
unsigned long rig_log_time(const struct rig *rig);
unsigned long rig_log_ticks(const struct rig *rig);

/* Reads the next whole line of the log into rig->line, if there is one. */
int rig_next_line(struct rig *rig);

void rig_pause(unsigned milliseconds);

#endif

/* rig_log.c: a test rig's log: its lines, read one after the other. */
#include "rig.h"

#include "check.h"

#include <stdio.h>
#include <string.h>

int rig_next_line(struct rig *rig)
{
    FILE *log = fopen(rig->log, "r");
    int found = 0;

    if (log == NULL) {
        return 0;
    }
    if (fseek(log, rig->log_place, SEEK_SET) == 0 && fgets(rig->line, sizeof rig->line, log) != NULL) {
        char *end = strchr(rig->line, '\n');

        if (end != NULL) {
            *end = '\0';
            rig->log_place = ftell(log);
            found = 1;
        }
    }
    fclose(log);
    return found;
}

static void wait_for_line(struct rig *rig, const char *words)
{
    int waited = 0;

    while (!rig_next_line(rig) && waited < RIG_PATIENCE) {
        rig_pause(RIG_STEP);
        waited += RIG_STEP;
    }
    NEED_SAYS(waited < RIG_PATIENCE, "a log line comes: %s", words);
}

/* What stands after the time and the ticks. */
static const char *words_of(const char *line)
{
    int past = 0;

    sscanf(line, "%*u.%*u tick %*u %n", &past);
    return line + past;
}

unsigned long rig_log_ticks(const struct rig *rig)
{
    unsigned long ticks = 0;

    NEED_SAYS(sscanf(rig->line, "%*u.%*u tick %lu ", &ticks) == 1, "a time and ticks: %s", rig->line);
    return ticks;
}

unsigned long rig_log_time(const struct rig *rig)
{
    unsigned long seconds = 0;
    unsigned long milliseconds = 0;

    NEED(sscanf(rig->line, "%lu.%3lu tick", &seconds, &milliseconds) == 2);
    return seconds * 1000 + milliseconds;
}

/* Whether the last line read begins with the words; a number must end where it ends in the words. */
static bool line_says(const struct rig *rig, const char *words)
{
    const char *found = words_of(rig->line);
    size_t length = strlen(words);

    return strncmp(found, words, length) == 0 && (found[length] < '0' || found[length] > '9');
}

unsigned long rig_log(struct rig *rig, const char *words)
{
    wait_for_line(rig, words);
    CHECK_SAYS(line_says(rig, words), "log line '%s': found '%s'", words, rig->line);
    return rig_log_ticks(rig);
}

unsigned long rig_log_until(struct rig *rig, const char *words)
{
    do {
        wait_for_line(rig, words);
    } while (!line_says(rig, words));
    return rig_log_ticks(rig);
}

/* The rest of the text where it begins with the word, else NULL. */
static const char *after(const char *text, const char *word)
{
    size_t length = strlen(word);

    return text != NULL && strncmp(text, word, length) == 0 ? text + length : NULL;
}

bool rig_count(struct rig_counts *counts, const char *line, const char *name)
{
    const char *rest = after(words_of(line), name);
    const char *drops = after(rest, " drop ");
    unsigned long body = 0;
    unsigned number;
    int past;

    rest = drops != NULL ? drops : after(rest, " refused ");
    if (rest == NULL) {
        return false;
    }
    while (sscanf(rest, "%u%n", &number, &past) == 1) {
        unsigned times = 1;

        rest += past;
        if (sscanf(rest, " x%u%n", &times, &past) == 1) {
            rest += past;
        }
        NEED_SAYS(number < RIG_NUMBERS && times > 0, "numbers and counts: %s", line);
        counts->numbers[number] += times;
    }
    NEED_SAYS(drops == NULL || sscanf(rest, " body %lu", &body) == 1, "a drop's body bytes: %s", line);
    counts->body += body;
    return true;
}

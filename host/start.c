/* start.c: where the records of a gateway come from: the hand-over file, the state file or the table. */
#include "start.h"

#include "handover.h"
#include "state.h"
#include "table.h"

#include <limits.h>
#include <stdio.h>

static bool say(const char *path, const char *why)
{
    fprintf(stderr, "tha-gateway: %s: %s\n", path, why);
    return false;
}

static bool file_fits(const char *path)
{
    char error[FILES_ERROR_ROOM];

    return path == NULL || file_can_be_made(path, error) || say(path, error);
}

bool start_files_fit(const struct options *options)
{
    return file_fits(options->handover) && file_fits(options->state);
}

/* Whether a file that may be there is; false in *good has said why that can't be told. */
static bool is_there(const char *path, bool *good)
{
    char error[FILES_ERROR_ROOM];
    enum file_found found = path == NULL ? FILE_NOT_THERE : file_find(path, error);

    *good = found != FILE_UNFIT || say(path, error);
    return found == FILE_THERE;
}

/* Loads a table file or a state file, which is one too. */
static bool load_rows(const char *path, bool (*load)(const char *, tha_gateway *, char *), tha_gateway *gateway)
{
    char error[TABLE_ERROR_ROOM];

    if (!load(path, gateway, error)) {
        fprintf(stderr, "tha-gateway: %s:%s\n", path, error);
        return false;
    }
    return true;
}

/* Loads the state file where it is there, else the table. */
static bool load_kept(const struct options *options, tha_gateway *gateway, enum start_source *source)
{
    bool good;

    *gateway = tha_fresh(options->firmware, options->protocol);
    *source = is_there(options->state, &good) ? FROM_STATE : FROM_TABLE;
    if (!good) {
        return false;
    }
    return *source == FROM_STATE ? load_rows(options->state, state_load, gateway) : load_rows(options->table, table_load, gateway);
}

/* Keeps a refused hand-over beside, and says so; false where that can't be done. */
static bool keep_refused(const char *path, const char *why)
{
    char name[PATH_MAX];
    char error[FILES_ERROR_ROOM] = "File name too long";
    int length = snprintf(name, sizeof name, "%s.refused", path);

    if (length < 0 || (size_t)length >= sizeof name || !file_rename(path, name, error)) {
        fprintf(stderr, "tha-gateway: %s: %s; not kept as %.40s.refused: %s\n", path, why, path, error);
        return false;
    }
    fprintf(stderr, "tha-gateway: %s: %s; kept as %s\n", path, why, name);
    return true;
}

bool start_load(const struct options *options, tha_gateway *gateway, enum start_source *source)
{
    char error[HANDOVER_ERROR_ROOM];
    bool good;

    if (!is_there(options->handover, &good)) {
        return good && load_kept(options, gateway, source);
    }
    *source = FROM_HANDOVER;
    switch (handover_read(options->handover, options->firmware, options->protocol, gateway, error)) {
    case HANDOVER_READ:
        return true;
    case HANDOVER_UNREAD:
        return say(options->handover, error);
    default:
        return keep_refused(options->handover, error) && options->or_table && load_kept(options, gateway, source);
    }
}

static bool log_failure(struct host *host, const char *what, const char *path, const char *why)
{
    log_line(&host->log, "%s %s: %s", what, path, why);
    return false;
}

static void log_source(struct host *host, const struct options *options, enum start_source source)
{
    static const char *const words[] = {"the hand-over", "the state file", "the table"};
    const char *const paths[] = {options->handover, options->state, options->table};

    if (options->handover != NULL || options->state != NULL) {
        log_line(&host->log, "records from %s %s", words[source], paths[source]);
    }
}

bool start_settle(struct host *host, const struct options *options, enum start_source source)
{
    char error[FILES_ERROR_ROOM];

    log_source(host, options, source);
    if (source != FROM_HANDOVER) {
        return true;
    }
    if (options->state != NULL && !state_write(options->state, &host->gateway.table, error)) {
        return log_failure(host, "rows not kept in", options->state, error);
    }
    if (!file_take_away(options->handover, error)) {
        return log_failure(host, "hand-over not taken away:", options->handover, error);
    }
    return true;
}

/*
 * start.h: where the records of a gateway come from: the hand-over file where it is there, else the state file where it is there, else
 * the table.
 *
 * The lines are open, and their locks held, before any of these is looked at: the gateway before, which held them, has then written
 * all that it will ever write.
 */
#ifndef START_H
#define START_H

#include "host.h"
#include "options.h"

enum start_source { FROM_HANDOVER, FROM_STATE, FROM_TABLE };

/* Whether the files that the options name can be written; false has said why on standard error. */
bool start_files_fit(const struct options *options);

/* Loads the records. False has said why not on standard error; a hand-over that was refused is then kept beside. */
bool start_load(const struct options *options, tha_gateway *gateway, enum start_source *source);

/*
 * The last step before the first byte of a line: says in the log which records are served, writes those of a hand-over to the state
 * file, and takes the hand-over file away. False has said why not in the log.
 */
bool start_settle(struct host *host, const struct options *options, enum start_source source);

#endif

/*
 * state.h: the state file: the rows as they are after the last confirmed update, as a table file (see table.h) with a last line that
 * says how many they are.
 */
#ifndef STATE_H
#define STATE_H

#include "../include/wrackpulley.h"
#include "files.h"
#include "table.h"

/* Writes the rows to the file at the path, whole or not at all. False says why in error. */
bool state_write(const char *path, const tha_table *table, char error[FILES_ERROR_ROOM]);

/*
 * Adds every row of the file to the gateway, as table_load does. A file without its last line was not written whole by state_write:
 * false, too.
 */
bool state_load(const char *path, tha_gateway *gateway, char error[TABLE_ERROR_ROOM]);

#endif

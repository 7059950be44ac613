/* table.h: the table file: the `row` lines of docs/REPLAY.md, with comments and empty lines. */
#ifndef TABLE_H
#define TABLE_H

#include "../include/wrackpulley.h"

#include <stdbool.h>

enum { TABLE_ERROR_ROOM = 160 };

/*
 * Adds every row of the file to the gateway. False at the first line that is not a row line, or whose row is refused, and where the
 * file can't be read. error then has what to say after "PATH:": "LINE: why" or " why". The gateway is then not to be used.
 */
bool table_load(const char *path, tha_gateway *gateway, char error[TABLE_ERROR_ROOM]);

#endif

/*
 * lines.h: the timed lines: what each is called, what its time is divided by, and its pass over either gateway.
 */
#ifndef LINES_H
#define LINES_H

#include "passes.h"

enum { LINES_MOST = 16 };

/* A line of the table. Its passes are called proved_KEY and plain_KEY. A second unit may follow. */
typedef struct {
    const char *key;
    const char *name;
    const char *unit;
    size_t count;
    const char *other_unit;
    size_t other_count;
    pass *proved;
    pass *plain;
} line;

typedef struct {
    line list[LINES_MOST];
    size_t count;
} lines;

lines lines_of(const traffic *t);

#endif

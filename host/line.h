/* line.h: a serial line: opened at 9600 8N1 raw, held by one process, read and written without waiting. */
#ifndef LINE_H
#define LINE_H

#include <stdbool.h>
#include <stddef.h>
#include <stdint.h>

enum { LINE_LOST = -1 };

struct line {
    const char *path;
    int fd;          /* -1 where it is not open */
    char error[128]; /* why it could not be opened, or was lost */
};

void line_name(struct line *line, const char *path);

bool line_is_open(const struct line *line);

/*
 * Opens the line, takes its lock and sets it up; false says why in error, and nothing is open. A device that the other line has open
 * is refused.
 */
bool line_open(struct line *line, const struct line *other);

void line_close(struct line *line);

/* How many bytes were read or written, 0 where none can be now, LINE_LOST with the reason in error. */
int line_read(struct line *line, uint8_t *bytes, size_t length);
int line_write(struct line *line, const uint8_t *bytes, size_t length);

#endif

/*
 * files.h: files that hold after a kill or a loss of power: one is replaced whole or not at all, and taken away for good.
 *
 * A false says why in error.
 */
#ifndef FILES_H
#define FILES_H

#include <stdbool.h>
#include <stddef.h>

enum { FILES_ERROR_ROOM = 160 };

enum file_found { FILE_THERE, FILE_NOT_THERE, FILE_UNFIT };

/* Whether a file is at the path; FILE_UNFIT, with an error, where it can't be told or is no plain file. */
enum file_found file_find(const char *path, char error[FILES_ERROR_ROOM]);

/* Whether the path's directory is there and may be written. */
bool file_can_be_made(const char *path, char error[FILES_ERROR_ROOM]);

/*
 * The file at the path has these bytes, on the disk, and no others: they are written to a new file, PATH.new, which is synced, put in
 * the path's place, and the directory is synced. Whenever that is cut short, the path has what it had before or all of the bytes. After
 * an error PATH.new is gone, if it can be removed.
 */
bool file_replace(const char *path, const void *bytes, size_t length, char error[FILES_ERROR_ROOM]);

/* Takes the file away, on the disk too. */
bool file_take_away(const char *path, char error[FILES_ERROR_ROOM]);

/* Gives the file another name in the same directory, on the disk too; what had that name before is gone. */
bool file_rename(const char *path, const char *name, char error[FILES_ERROR_ROOM]);

#endif

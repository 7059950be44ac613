/* files.c: files that hold after a kill or a loss of power: one is replaced whole or not at all, and taken away for good. */
#include "files.h"

#include <errno.h>
#include <fcntl.h>
#include <limits.h>
#include <stdio.h>
#include <string.h>
#include <sys/stat.h>
#include <unistd.h>

static bool fail(char error[FILES_ERROR_ROOM], const char *why)
{
    snprintf(error, FILES_ERROR_ROOM, "%s", why);
    return false;
}

/* What the last call that failed has left in errno. */
static bool fail_errno(char error[FILES_ERROR_ROOM])
{
    return fail(error, strerror(errno));
}

enum file_found file_find(const char *path, char error[FILES_ERROR_ROOM])
{
    struct stat found;

    if (stat(path, &found) != 0) {
        if (errno == ENOENT) {
            return FILE_NOT_THERE;
        }
        fail_errno(error);
        return FILE_UNFIT;
    }
    if (!S_ISREG(found.st_mode)) {
        fail(error, "not a plain file");
        return FILE_UNFIT;
    }
    return FILE_THERE;
}

/* The directory that a path is in. */
static bool directory_of(const char *path, char directory[PATH_MAX], char error[FILES_ERROR_ROOM])
{
    const char *slash = strrchr(path, '/');
    size_t length = slash == NULL ? 0 : (size_t)(slash - path);

    if (length >= PATH_MAX) {
        return fail(error, strerror(ENAMETOOLONG));
    }
    if (slash == NULL) {
        strcpy(directory, ".");
    } else if (length == 0) {
        strcpy(directory, "/");
    } else {
        memcpy(directory, path, length);
        directory[length] = '\0';
    }
    return true;
}

bool file_can_be_made(const char *path, char error[FILES_ERROR_ROOM])
{
    char directory[PATH_MAX];
    struct stat found;

    if (!directory_of(path, directory, error)) {
        return false;
    }
    if (stat(directory, &found) != 0) {
        return fail_errno(error);
    }
    if (!S_ISDIR(found.st_mode)) {
        return fail(error, strerror(ENOTDIR));
    }
    return access(directory, W_OK | X_OK) == 0 || fail_errno(error);
}

/* Closes after an error, which stays in errno. */
static bool close_failed(int fd)
{
    int kept = errno;

    close(fd);
    errno = kept;
    return false;
}

/* What was renamed or removed in the path's directory is so on the disk too. */
static bool sync_directory(const char *path, char error[FILES_ERROR_ROOM])
{
    char directory[PATH_MAX];
    int fd;

    if (!directory_of(path, directory, error)) {
        return false;
    }
    fd = open(directory, O_RDONLY | O_DIRECTORY | O_CLOEXEC);
    if (fd < 0) {
        return fail_errno(error);
    }
    if (fsync(fd) != 0) {
        close_failed(fd);
        return fail_errno(error);
    }
    close(fd);
    return true;
}

static bool write_all(int fd, const char *bytes, size_t length)
{
    while (length > 0) {
        ssize_t written = write(fd, bytes, length);

        if (written < 0 && errno != EINTR) {
            return false;
        }
        if (written > 0) {
            bytes += written;
            length -= (size_t)written;
        }
    }
    return true;
}

/* Makes a file with these bytes, on the disk. */
static bool make(const char *path, const void *bytes, size_t length)
{
    int fd = open(path, O_WRONLY | O_CREAT | O_TRUNC | O_CLOEXEC, 0666);

    if (fd < 0) {
        return false;
    }
    if (!write_all(fd, bytes, length) || fsync(fd) != 0) {
        return close_failed(fd);
    }
    return close(fd) == 0;
}

bool file_replace(const char *path, const void *bytes, size_t length, char error[FILES_ERROR_ROOM])
{
    char fresh[PATH_MAX];
    int named = snprintf(fresh, sizeof fresh, "%s.new", path);

    if (named < 0 || (size_t)named >= sizeof fresh) {
        return fail(error, strerror(ENAMETOOLONG));
    }
    if (!make(fresh, bytes, length) || rename(fresh, path) != 0) {
        fail_errno(error);
        unlink(fresh);
        return false;
    }
    return sync_directory(path, error);
}

bool file_take_away(const char *path, char error[FILES_ERROR_ROOM])
{
    if (unlink(path) != 0) {
        return fail_errno(error);
    }
    return sync_directory(path, error);
}

bool file_rename(const char *path, const char *name, char error[FILES_ERROR_ROOM])
{
    if (rename(path, name) != 0) {
        return fail_errno(error);
    }
    return sync_directory(path, error);
}

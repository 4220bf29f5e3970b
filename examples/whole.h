/* A file that is there whole or not at all, on POSIX systems; _XOPEN_SOURCE is 700 where this is included. */
#ifndef WHOLE_H
#define WHOLE_H

#include <errno.h>
#include <fcntl.h>
#include <stdio.h>
#include <stdlib.h>
#include <string.h>
#include <sys/stat.h>
#include <unistd.h>

/* The most bytes of a path here. */
enum { WHOLE_PATH = 4096 };

/* Writes all of some bytes to an open file; 0 if that was done. */
static int write_all(int file, const void *bytes, size_t length)
{
    const char *next = bytes;
    while (length > 0) {
        ssize_t written = write(file, next, length);
        if (written <= 0)
            return -1;
        next += written;
        length -= (size_t)written;
    }
    return 0;
}

/* Has the disk know a new name in the folder of a path; 0 if that was done. */
static int flush_folder(const char *path)
{
    char folder[WHOLE_PATH] = ".";
    const char *slash = strrchr(path, '/');
    if (slash)
        snprintf(folder, sizeof folder, "%.*s", (int)(slash - path) + 1, path);
    int file = open(folder, O_RDONLY);
    if (file < 0)
        return -1;
    int flushed = fsync(file);
    return close(file) == 0 ? flushed : -1;
}

/* Opens a new file beside a path, by a name that nothing has: of this process, and a number. */
static int open_beside(const char *path, char *beside)
{
    for (unsigned number = 0;; number++) {
        int named = snprintf(beside, WHOLE_PATH, "%s.%ld-%u.part", path, (long)getpid(), number);
        if (named < 0 || named >= WHOLE_PATH)
            return -1;
        int file = open(beside, O_WRONLY | O_CREAT | O_EXCL, 0666);
        if (file >= 0 || errno != EEXIST)
            return file;
    }
}

/* Writes a file beside a path, has the disk take it, and renames it over; it has the rights of the old one, if there is one. */
static int write_over(const char *path, const struct stat *old, const void *bytes, size_t length)
{
    char beside[WHOLE_PATH];
    int file = open_beside(path, beside);
    if (file < 0)
        return -1;
    int failed = (old && fchmod(file, old->st_mode & 07777) != 0) || write_all(file, bytes, length) != 0 || fsync(file) != 0;
    if (close(file) != 0 || failed || rename(beside, path) != 0) {
        unlink(beside);
        return -1;
    }
    return flush_folder(path);
}

/* Writes a file so that a kill at any moment leaves the old one or the new one, whole: beside it, flushed to the disk, then
 * renamed over it. What a kill leaves beside it, .PROCESS-NUMBER.part after its name, may be removed. A link stays one, a file
 * keeps its rights, and what is no file on a disk, as a pipe, is written straight. 0 if that was done. */
static int write_whole(const char *path, const void *bytes, size_t length)
{
    struct stat old, link;
    if (stat(path, &old) != 0) {
        /* only a name that nothing has is given to a new file: a link that leads nowhere stays too */
        if (errno != ENOENT || lstat(path, &link) == 0)
            return -1;
        return write_over(path, NULL, bytes, length);
    }
    /* a file that may not be written is not replaced either, and a folder can't be opened */
    int file = open(path, O_WRONLY);
    if (file < 0)
        return -1;
    int failed = S_ISREG(old.st_mode) ? 0 : write_all(file, bytes, length);
    if (close(file) != 0 || failed != 0)
        return -1;
    if (!S_ISREG(old.st_mode))
        return 0;
    /* where a link leads, so that it stays one */
    char *led = realpath(path, NULL);
    if (!led)
        return -1;
    failed = write_over(led, &old, bytes, length);
    free(led);
    return failed;
}

#endif

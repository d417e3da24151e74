#define _DEFAULT_SOURCE
#include "lock.h"

#include <errno.h>
#include <fcntl.h>
#include <stdio.h>
#include <sys/file.h>
#include <sys/stat.h>
#include <unistd.h>

/* A file that goes between two steps is tried again, so often. */
#define TRIES 100

/* Holds an open file: 1 if the path still means it, 0 if not, -1 with errno if another process holds it. */
static int hold(int file, const char *path)
{
    struct stat held, named;
    if (flock(file, LOCK_EX | LOCK_NB) != 0)
        return -1;
    return fstat(file, &held) == 0 && lstat(path, &named) == 0 && held.st_dev == named.st_dev
           && held.st_ino == named.st_ino;
}

int lock_create(const char *path)
{
    for (int tries = 0; tries < TRIES; tries++) {
        int file = open(path, O_RDWR | O_CREAT | O_EXCL | O_CLOEXEC, 0666);
        int left = file < 0 && errno == EEXIST;
        if (left)
            file = open(path, O_RDONLY | O_NOFOLLOW | O_CLOEXEC);
        if (file < 0 && left && errno == ENOENT)
            continue;
        if (file < 0)
            return -1;
        int held = hold(file, path), why = errno;
        if (held == 1 && !left)
            return file;
        /* Nobody else takes a file away that is held here. */
        if (held == 1)
            unlink(path);
        close(file);
        errno = why;
        if (held < 0)
            return -1;
    }
    errno = EWOULDBLOCK;
    return -1;
}

long lock_holder(const char *path)
{
    FILE *file = fopen(path, "r");
    long process = 0;
    if (file == NULL || fscanf(file, "%ld", &process) != 1)
        process = 0;
    if (file != NULL)
        fclose(file);
    return process;
}

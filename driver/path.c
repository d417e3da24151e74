#define _XOPEN_SOURCE 700
#include "path.h"

#include <errno.h>
#include <limits.h>
#include <stdlib.h>
#include <string.h>
#include <sys/stat.h>
#include <unistd.h>

/* As many as Linux follows. */
#define LINKS_MAX 40

char *path_with(const char *path, const char *ending)
{
    char *made = malloc(strlen(path) + strlen(ending) + 1);
    if (made != NULL)
        strcat(strcpy(made, path), ending);
    return made;
}

char *path_folder(const char *path)
{
    const char *slash = strrchr(path, '/');
    return slash == NULL ? strdup("./") : strndup(path, (size_t)(slash - path) + 1);
}

/* Where a link points; NULL with errno, EINVAL if the path is no link. */
static char *follow(const char *path)
{
    char pointed[PATH_MAX];
    ssize_t length = readlink(path, pointed, sizeof pointed - 1);
    if (length < 0)
        return NULL;
    pointed[length] = '\0';
    char *folder = pointed[0] == '/' ? strdup("") : path_folder(path);
    char *made = folder == NULL ? NULL : path_with(folder, pointed);
    free(folder);
    return made;
}

char *path_target(const char *name)
{
    char *at = realpath(name, NULL);
    if (at != NULL || errno != ENOENT)
        return at;
    at = strdup(name);
    for (int links = 0; at != NULL && links < LINKS_MAX; links++) {
        char *next = follow(at);
        if (next == NULL && (errno == EINVAL || errno == ENOENT))
            return at;
        free(at);
        at = next;
    }
    if (at != NULL)
        errno = ELOOP;
    free(at);
    return NULL;
}

static int same_inode(const char *one, const char *other)
{
    struct stat first, second;
    return stat(one, &first) == 0 && stat(other, &second) == 0 && first.st_dev == second.st_dev
           && first.st_ino == second.st_ino;
}

/* For files that are not there: the last parts are spelt alike, and the folders are one. */
static int same_place(const char *one, const char *other)
{
    char *targets[2] = {path_target(one), path_target(other)}, *folders[2] = {NULL, NULL};
    int same = 0;
    for (int i = 0; i < 2; i++)
        folders[i] = targets[i] == NULL ? NULL : path_folder(targets[i]);
    if (folders[0] != NULL && folders[1] != NULL) {
        const char *slash = strrchr(targets[0], '/'), *other_slash = strrchr(targets[1], '/');
        same = strcmp(slash == NULL ? targets[0] : slash + 1, other_slash == NULL ? targets[1] : other_slash + 1) == 0
               && same_inode(folders[0], folders[1]);
    }
    for (int i = 0; i < 2; i++) {
        free(targets[i]);
        free(folders[i]);
    }
    return same;
}

int is_standard(const char *name)
{
    return name != NULL && strcmp(name, "-") == 0;
}

int same_file(const char *one, const char *other)
{
    return one != NULL && other != NULL && !is_standard(one) && !is_standard(other)
           && (strcmp(one, other) == 0 || same_inode(one, other) || same_place(one, other));
}

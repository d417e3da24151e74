#define _DEFAULT_SOURCE
#define _XOPEN_SOURCE 700
#include "whole.h"

#include <errno.h>
#include <fcntl.h>
#include <stdlib.h>
#include <string.h>
#include <sys/stat.h>
#include <unistd.h>

#include "lock.h"
#include "message.h"
#include "path.h"

static int failed(const struct whole *whole)
{
    return bad_data("%s cannot be written: %s", is_standard(whole->name) ? "standard output" : whole->name,
                    strerror(errno));
}

/* Opens the temporary file, which this process alone holds until it is closed. */
static int open_temporary(struct whole *whole)
{
    char *temporary = path_with(whole->target, WHOLE_TEMPORARY);
    int file = temporary == NULL ? -1 : lock_create(temporary);
    if (file < 0) {
        int busy = temporary != NULL && errno == EWOULDBLOCK;
        free(temporary);
        return busy ? bad_data("%s is being written by another process", whole->name) : failed(whole);
    }
    whole->temporary = temporary;
    whole->file = fdopen(file, "wb");
    if (whole->file != NULL)
        return 0;
    failed(whole);
    close(file);
    return 1;
}

/* Gives the temporary file owner, group and mode of the file that it is to replace. The owner first: that can clear bits of the mode. */
static int keep_owner(const struct whole *whole, const struct stat *old)
{
    struct stat made;
    int file = fileno(whole->file);
    if (fstat(file, &made) != 0)
        return failed(whole);
    if ((made.st_uid != old->st_uid || made.st_gid != old->st_gid) && fchown(file, old->st_uid, old->st_gid) != 0)
        return bad_data("%s cannot be replaced with owner and group kept: %s", whole->name, strerror(errno));
    return fchmod(file, old->st_mode & 07777) != 0 ? failed(whole) : 0;
}

int whole_begin(struct whole *whole, const char *name)
{
    return whole_begin_like(whole, name, name);
}

int whole_begin_like(struct whole *whole, const char *name, const char *other)
{
    struct stat old;
    whole->name = name;
    if (is_standard(name)) {
        whole->file = stdout;
        return 0;
    }
    whole->target = path_target(name);
    if (whole->target == NULL)
        return failed(whole);
    int there = stat(whole->target, &old) == 0;
    if (!there && errno != ENOENT)
        return failed(whole);
    if (there && !S_ISREG(old.st_mode))
        return bad_data("%s is not a regular file, and is not replaced", name);
    if (there && access(whole->target, W_OK) != 0)
        return failed(whole);
    int known = there || stat(other, &old) == 0;
    return open_temporary(whole) != 0 || (known && keep_owner(whole, &old) != 0);
}

int whole_write(struct whole *whole, const void *bytes, size_t length)
{
    return fwrite(bytes, 1, length, whole->file) != length ? failed(whole) : 0;
}

int whole_ready(struct whole *whole)
{
    if (whole->file == NULL)
        return 0;
    int bad = ferror(whole->file) || fflush(whole->file) != 0
              || (whole->temporary != NULL && fsync(fileno(whole->file)) != 0);
    return bad ? failed(whole) : 0;
}

/* Brings the new name to the disk too. A folder that cannot be opened for it is left to the system. */
static void sync_folder(const char *target)
{
    char *folder = path_folder(target);
    int file = folder == NULL ? -1 : open(folder, O_RDONLY);
    if (file >= 0) {
        fsync(file);
        close(file);
    }
    free(folder);
}

int whole_replace(struct whole *whole)
{
    if (whole->temporary == NULL)
        return 0;
    if (rename(whole->temporary, whole->target) != 0)
        return failed(whole);
    free(whole->temporary);
    whole->temporary = NULL;
    sync_folder(whole->target);
    return 0;
}

void whole_end(struct whole *whole)
{
    const struct whole none = WHOLE_NONE;
    /* Held until it is gone. */
    if (whole->temporary != NULL)
        unlink(whole->temporary);
    if (whole->file != NULL && whole->file != stdout)
        fclose(whole->file);
    free(whole->temporary);
    free(whole->target);
    *whole = none;
}

#define _GNU_SOURCE
#include "watch.h"

#include <errno.h>
#include <fcntl.h>
#include <stdio.h>
#include <stdlib.h>
#include <string.h>
#include <time.h>
#include <unistd.h>

#include "message.h"
#include "notice.h"

/* Two numbers of ten digits, a blank between them and a line's end. */
#define FORM "%010lu %010lu\n"
#define FORM_BYTES 22

uint32_t watch_clock(void)
{
    struct timespec now;
    clock_gettime(CLOCK_BOOTTIME, &now);
    return (uint32_t)now.tv_sec;
}

static int watch_write(const struct watch *watch)
{
    char text[FORM_BYTES + 1];
    if (watch->file < 0)
        return 0;
    snprintf(text, sizeof text, FORM, (unsigned long)watch->now.left, (unsigned long)watch->now.reading);
    if (pwrite(watch->file, text, FORM_BYTES, 0) != FORM_BYTES)
        return bad_data("%s: %s", watch->name, strerror(errno));
    return 0;
}

int watch_read(struct watch *watch)
{
    char text[FORM_BYTES + 2] = "", *end;
    if (watch->file < 0)
        return 0;
    ssize_t got = pread(watch->file, text, FORM_BYTES + 1, 0);
    if (got < 0)
        return bad_data("%s: %s", watch->name, strerror(errno));
    unsigned long left = strtoul(text, &end, 10);
    unsigned long reading = end == text + 10 ? strtoul(text + 10, &end, 10) : 0;
    if (got != FORM_BYTES || end != text + FORM_BYTES - 1 || *end != '\n' || left > UINT32_MAX || reading > UINT32_MAX)
        return bad_data("%s is no watch", watch->name);
    watch->now.left = (uint32_t)left;
    watch->now.reading = (uint32_t)reading;
    return 0;
}

int watch_open(struct watch *watch, const char *name, int is_live)
{
    watch->name = name;
    watch->file = -1;
    shinglebar_watch_reset(&watch->now, watch_clock());
    if (name == NULL)
        return 0;
    watch->file = open(name, is_live ? O_RDWR | O_CREAT | O_CLOEXEC : O_RDONLY | O_CLOEXEC, 0666);
    if (watch->file < 0)
        return bad_data("%s: %s", name, strerror(errno));
    if (is_live && lseek(watch->file, 0, SEEK_END) == 0)
        return watch_write(watch);
    if (watch_read(watch) != 0)
        return 1;
    shinglebar_watch_tick(&watch->now, watch_clock());
    return is_live ? watch_write(watch) : 0;
}

int watch_see(struct watch *watch, const uint8_t *bytes, size_t length)
{
    uint16_t time;
    int kind = notice_read(bytes, length, &time);
    if (kind < 0)
        return -1;
    uint32_t now = watch_clock();
    struct shinglebar_watch before = watch->now;
    shinglebar_watch_tick(&watch->now, now);
    int began = watch->now.left == 0;
    shinglebar_watch_event(&watch->now, now, (uint32_t)kind, time);
    if (memcmp(&before, &watch->now, sizeof before) != 0 && watch_write(watch) != 0)
        return -2;
    return began ? kind : -1;
}

void watch_close(struct watch *watch)
{
    if (watch->file >= 0)
        close(watch->file);
    watch->file = -1;
}

#define _POSIX_C_SOURCE 200809L
#include "message.h"

#include <stdarg.h>
#include <stdio.h>
#include <unistd.h>

/* A line is shown after each so many frames. */
#define PROGRESS_STEP 10000

static int progress_is_shown = 0;

static int is_terminal(void)
{
    static int terminal = -1;
    if (terminal < 0)
        terminal = isatty(STDERR_FILENO);
    return terminal;
}

void progress_show(unsigned long frames, int percent)
{
    if (frames == 0 || frames % PROGRESS_STEP != 0 || !is_terminal())
        return;
    if (percent < 0)
        fprintf(stderr, "\r%lu frames", frames);
    else
        fprintf(stderr, "\r%lu frames, %d %%", frames, percent);
    fflush(stderr);
    progress_is_shown = 1;
}

void progress_live(unsigned long frames, unsigned long lost)
{
    if (!is_terminal())
        return;
    fprintf(stderr, "\r%lu frames, %lu lost", frames, lost);
    fflush(stderr);
    progress_is_shown = 1;
}

void progress_clear(void)
{
    if (!progress_is_shown)
        return;
    fputs("\r\033[K", stderr);
    fflush(stderr);
    progress_is_shown = 0;
}

static void say(const char *form, va_list values)
{
    progress_clear();
    fflush(stdout);
    fputs(PROGRAM ": ", stderr);
    vfprintf(stderr, form, values);
    fputc('\n', stderr);
    fflush(stderr);
}

int bad_data(const char *form, ...)
{
    va_list values;
    va_start(values, form);
    say(form, values);
    va_end(values);
    return 1;
}

int bad_usage(const char *form, ...)
{
    va_list values;
    va_start(values, form);
    say(form, values);
    va_end(values);
    return 2;
}

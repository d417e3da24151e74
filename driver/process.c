#define _DEFAULT_SOURCE
#define _XOPEN_SOURCE 700
#include "process.h"

#include <errno.h>
#include <signal.h>
#include <stdio.h>
#include <string.h>

#include "message.h"

#define LINES_ROOM 65536

/* Signals that do not end the program, those that are dealt with on their own, and those of a fault in it: after these nothing it would
 * do can be relied on, and what it leaves is taken away at the next start. */
static const int OTHERS[] = {SIGKILL, SIGSTOP, SIGCHLD, SIGCONT, SIGTSTP, SIGTTIN, SIGTTOU, SIGURG, SIGWINCH,
                             SIGHUP,  SIGUSR1, SIGPIPE, SIGXFSZ, SIGILL,  SIGTRAP, SIGABRT, SIGBUS, SIGFPE,
                             SIGSEGV, SIGSYS};

static volatile sig_atomic_t stop = 0;
static volatile sig_atomic_t save = 0;
static int to_error = 0;
/* The first reason why lines could not be written. */
static int failure = 0;

static void ask_stop(int signal_number)
{
    (void)signal_number;
    stop = 1;
}

static void ask_save(int signal_number)
{
    (void)signal_number;
    save = 1;
}

/* Whether a signal would end the program where it stands. */
static int is_stop(int number)
{
    for (size_t i = 0; i < sizeof OTHERS / sizeof OTHERS[0]; i++)
        if (OTHERS[i] == number)
            return 0;
    return 1;
}

void catch_signals(void)
{
    struct sigaction action, inherited;
    memset(&action, 0, sizeof action);
    action.sa_handler = ask_stop;
    for (int number = 1; number <= SIGRTMAX; number++)
        if (is_stop(number))
            sigaction(number, &action, NULL);
    /* nohup asks for a program that outlives its terminal. */
    sigaction(SIGHUP, NULL, &inherited);
    if (inherited.sa_handler != SIG_IGN)
        sigaction(SIGHUP, &action, NULL);
    /* It asks nothing of a command that reads a capture, and must not break its reading off. */
    action.sa_handler = ask_save;
    action.sa_flags = SA_RESTART;
    sigaction(SIGUSR1, &action, NULL);
    action.sa_handler = SIG_IGN;
    sigaction(SIGPIPE, &action, NULL);
    sigaction(SIGXFSZ, &action, NULL);
}

int stop_asked(void)
{
    return stop;
}

int save_asked(void)
{
    int asked = save;
    save = 0;
    return asked;
}

void lines_to_error(void)
{
    static char room[LINES_ROOM];
    setvbuf(stderr, room, _IOFBF, sizeof room);
    to_error = 1;
}

static FILE *lines(void)
{
    return to_error ? stderr : stdout;
}

void line_out(struct text *line)
{
    FILE *to = lines();
    progress_clear();
    if (line->json)
        fputc('{', to);
    if (fwrite(line->bytes, 1, line->length, to) != line->length && failure == 0)
        failure = errno;
    if (fputs(line->json ? "}\n" : "\n", to) < 0 && failure == 0)
        failure = errno;
    line->length = 0;
}

int output_ready(void)
{
    static int said = 0;
    int bad = fflush(lines()) != 0 || ferror(lines());
    if (!bad)
        return 0;
    if (failure == 0)
        failure = errno;
    if (said)
        return 1;
    said = 1;
    return bad_data("standard %s cannot be written: %s", to_error ? "error" : "output", strerror(failure));
}

/* What goes to standard error: messages and the progress line. The messages' functions return the exit status. */
#ifndef MESSAGE_H
#define MESSAGE_H

#define PROGRAM "shinglebar-port"

/* Data that cannot be used, or a file, disk or interface that fails: status 1. */
int bad_data(const char *form, ...) __attribute__((format(printf, 1, 2)));

/* A command line that cannot be used: status 2. */
int bad_usage(const char *form, ...) __attribute__((format(printf, 1, 2)));

/* Shows how far a long capture has come, where standard error is a terminal; percent below 0 is not known. */
void progress_show(unsigned long frames, int percent);

/* Shows how many frames have come and how many were lost, where standard error is a terminal. */
void progress_live(unsigned long frames, unsigned long lost);

/* Takes the progress line away, before anything else is written. */
void progress_clear(void);

#endif

/* A Linux interface of Ethernet, through a raw packet socket. */
#ifndef INTERFACE_H
#define INTERFACE_H

#include "capture.h"

/* As many frames as are read at once. */
#define INTERFACE_BATCH 64

/* An interface that every frame of the link is read from. While it is down there is no socket, and `file` is -1. */
struct interface {
    const char *name;
    int file;
    unsigned long lost;
    unsigned count;
    const struct captured *frames[INTERFACE_BATCH];
};

enum interface_step { INTERFACE_READ, INTERFACE_DOWN, INTERFACE_FAILED };

/* A socket to send frames of one's own: its number, or -1 and said. */
int interface_to_send(const char *name);

/* Begins to listen: 0, or 1 and said. */
int interface_open(struct interface *interface, const char *name);

/* Waits for frames, at most so many milliseconds. */
void interface_wait(const struct interface *interface, int milliseconds);

/* Reads the frames that have come in from the link, at most `most` of them, into `frames`; each has its time in nanoseconds. DOWN where
 * the interface has gone down; FAILED is said. */
enum interface_step interface_read(struct interface *interface, unsigned most);

/* Listens again where the interface has come back: 1, or 0 if it has not. */
int interface_again(struct interface *interface);

/* Counts the frames that the kernel had no room for into `lost`. */
void interface_count_lost(struct interface *interface);

void interface_close(struct interface *interface);

#endif

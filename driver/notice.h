/* What a frame says of the link: whether it shows that the link is shared (document 002, section 3.2). */
#ifndef NOTICE_H
#define NOTICE_H

#include <stddef.h>
#include <stdint.h>

/* One of enum shinglebar_watch_event_kind with the frame's time, or -1. Of the four kinds an unexpected Hello is not told: that takes
 * the adjacency, which IS-IS has. */
int notice_read(const uint8_t *bytes, size_t length, uint16_t *time);

/* The kind in words. */
const char *notice_words(int kind);

#endif

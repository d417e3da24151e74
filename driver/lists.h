/* The lists of a flush to write, as the library takes them. */
#ifndef LISTS_H
#define LISTS_H

#include <stddef.h>
#include <stdint.h>

/* One more than a list may have: what is given beyond that is dropped, and the library refuses the list. */
#define LIST_ITEMS 256
/* The bytes of the longest item: a block of MACs. */
#define LIST_ITEM_BYTES 16

struct list {
    size_t length;
    uint8_t bytes[LIST_ITEMS * LIST_ITEM_BYTES];
};

struct lists {
    struct list nicknames;
    struct list vlans;
    struct list fine;
    struct list macs;
};

/* Puts a number of so many bytes behind those that are there, most significant byte first. */
void list_put(struct list *list, uint64_t number, size_t bytes);

#endif

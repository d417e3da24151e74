/* The kinds of links, by name. */
#ifndef LINK_H
#define LINK_H

#include <stdint.h>

#define LINK_ETHERNET 1

/* The name of a capture's link type, which may carry the length of an FCS in its high bits. */
const char *link_name(uint32_t type);

/* The name of a Linux interface's hardware type. */
const char *hardware_name(unsigned type);

#endif

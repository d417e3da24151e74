/* A port's map in a file: lines `VLAN LABEL`, each a number as options have it. Empty lines, and what follows a #, mean nothing. */
#ifndef MAP_H
#define MAP_H

#include "shinglebar.h"

/* Reads a map into memory of its own, which the settings then name. The library judges it. 0, or 1 and said. */
int map_read(const char *name, struct shinglebar_settings *settings);

#endif

/* Files that one process at a time holds. The system lets go of them when a process ends, however it ends. */
#ifndef LOCK_H
#define LOCK_H

/* Makes a file anew and holds it: its number, or -1 with errno, EWOULDBLOCK if another process holds it. A file that a killed
 * process has left is taken away first. */
int lock_create(const char *path);

/* The process that has written its number into a file that it holds; 0 if there is none to read. */
long lock_holder(const char *path);

#endif

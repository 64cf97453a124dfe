/* shown.h: what the kernel shows of a device in its folder below /sys/dev/char. */
#ifndef SHOWN_H
#define SHOWN_H

#include <stddef.h>

/* The first line of a file of it. 0: there is none. */
int shown(int fd, const char *name, char *word, size_t room);
/* A number of it. -1: there is none. */
long shown_number(int fd, const char *name);

#endif

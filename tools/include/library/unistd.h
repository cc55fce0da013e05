/* What an ordinary C program needs of this header, where the machine has none: the functions are the kit's C library's. */
#ifndef UNISTD_H
#define UNISTD_H

#include <stddef.h>

unsigned alarm(unsigned seconds);
unsigned sleep(unsigned seconds);
long read(int file, void *place, size_t count);
long write(int file, const void *place, size_t count);

#endif

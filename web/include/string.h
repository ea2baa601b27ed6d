/* What the engine needs of a C library, for a module that has none; three.c has the functions. */
#ifndef BARRIER_WEB_STRING_H
#define BARRIER_WEB_STRING_H
#include <stddef.h>
void *memcpy(void *to, const void *from, size_t count);
void *memset(void *to, int byte, size_t count);
void *memmove(void *to, const void *from, size_t count);
#endif

/*
 * The three functions of a C library that the engine asks for.  They are compiled with -fno-builtin, so that the
 * compiler does not make a call of memcpy out of memcpy's own loop.
 */
#include <string.h>

void *memcpy(void *to, const void *from, size_t count)
{
    unsigned char *a = to;
    const unsigned char *b = from;
    while (count--)
        *a++ = *b++;
    return to;
}

void *memset(void *to, int byte, size_t count)
{
    unsigned char *a = to;
    while (count--)
        *a++ = (unsigned char)byte;
    return to;
}

void *memmove(void *to, const void *from, size_t count)
{
    unsigned char *a = to;
    const unsigned char *b = from;
    if (a < b)
        return memcpy(to, from, count);
    while (count--)
        a[count] = b[count];
    return to;
}

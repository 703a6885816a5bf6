/* What a compiler may call where no C library is. The Makefile keeps it from making these loops calls of themselves. */
#include "memory.h"

void *memcpy(void *restrict to, const void *restrict from, size_t count)
{
    unsigned char *restrict target = to;
    const unsigned char *restrict source = from;
    for (size_t k = 0; k < count; k++)
        target[k] = source[k];
    return to;
}

void *memmove(void *to, const void *from, size_t count)
{
    unsigned char *target = to;
    const unsigned char *source = from;
    if (target < source)
        for (size_t k = 0; k < count; k++)
            target[k] = source[k];
    else
        for (size_t k = count; k > 0; k--)
            target[k - 1] = source[k - 1];
    return to;
}

void *memset(void *to, int value, size_t count)
{
    unsigned char *target = to;
    for (size_t k = 0; k < count; k++)
        target[k] = (unsigned char)value;
    return to;
}

int memcmp(const void *left, const void *right, size_t count)
{
    const unsigned char *a = left, *b = right;
    for (size_t k = 0; k < count; k++)
        if (a[k] != b[k])
            return a[k] < b[k] ? -1 : 1;
    return 0;
}

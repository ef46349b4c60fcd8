/* What the compiler may call by itself, for copies of a struct for example, and a program too. */
#include "mem.h"

/* Without this, from -O2 on, a compiler may find the loop of memcpy to be a memcpy, and make it a call of itself. */
#pragma GCC optimize ("no-tree-loop-distribute-patterns")

void *memcpy(void *to, const void *from, size_t size)
{
    char *t = to;
    const char *f = from;
    while (size--)
        *t++ = *f++;
    return to;
}

void *memmove(void *to, const void *from, size_t size)
{
    char *t = to;
    const char *f = from;
    if (t < f)
        return memcpy(to, from, size);
    while (size--)
        t[size] = f[size];
    return to;
}

void *memset(void *to, int byte, size_t size)
{
    char *t = to;
    while (size--)
        *t++ = (char)byte;
    return to;
}

int memcmp(const void *one, const void *other, size_t size)
{
    const unsigned char *p = one, *q = other;
    for (; size; size--, p++, q++)
        if (*p != *q)
            return *p - *q;
    return 0;
}

/* What the compiler may call in any program, for guests without a C library. The linker takes what is used. */

#include <stddef.h>
#include <stdint.h>
#include "snow.h"

/* These loops must not be made calls of the functions that they are. */
#pragma GCC optimize("no-tree-loop-distribute-patterns")

void *memcpy(void *restrict to, const void *restrict from, size_t size)
{
    uint8_t *at = to;
    const uint8_t *next = from;

    if (((uintptr_t)at | (uintptr_t)next) % 4 == 0)
        for (; size >= 4; size -= 4, at += 4, next += 4)
            *(uint32_t *)at = *(const uint32_t *)next;
    while (size--)
        *at++ = *next++;
    return to;
}

void *memmove(void *to, const void *from, size_t size)
{
    uint8_t *at = to;
    const uint8_t *next = from;

    if ((uintptr_t)at - (uintptr_t)next >= size)
        return memcpy(to, from, size);
    while (size--)
        at[size] = next[size];
    return to;
}

void *memset(void *to, int byte, size_t size)
{
    uint8_t *at = to;

    for (; size && (uintptr_t)at % 4; size--)
        *at++ = (uint8_t)byte;
    for (; size >= 4; size -= 4, at += 4)
        *(uint32_t *)at = (uint8_t)byte * 0x01010101u;
    while (size--)
        *at++ = (uint8_t)byte;
    return to;
}

int memcmp(const void *one, const void *other, size_t size)
{
    const uint8_t *a = one, *b = other;

    for (; size; size--, a++, b++)
        if (*a != *b)
            return *a - *b;
    return 0;
}

/* Ends the machine as the abort of a C library does, of which no signal is handled here. */
_Noreturn void abort(void)
{
    snow_print("ended by signal 6: Aborted\n");
    snow_exit(SNOW_ABORTED);
}

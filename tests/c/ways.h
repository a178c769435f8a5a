/* Ways as sets of bookings, for tests that make sheets: a set has booking b as its bit b - 1. */
#ifndef WAYS_H
#define WAYS_H

#include <stdint.h>
#include <stdio.h>

static inline uint64_t bit(int booking)
{
    return (uint64_t) 1 << (booking - 1);
}

static inline uint64_t from_to(int first, int last)
{
    uint64_t set = 0;
    for (int booking = first; booking <= last; booking++)
        set |= bit(booking);
    return set;
}

/* The line of a way; how long it is. */
static inline size_t put_way(char *text, uint64_t set)
{
    int members = 0;
    for (int booking = 1; booking <= 64; booking++)
        members += (set & bit(booking)) != 0;
    size_t at = (size_t) sprintf(text, "A%4d", members);
    for (int booking = 1; booking <= 64; booking++)
        if ((set & bit(booking)) != 0)
            at += (size_t) sprintf(text + at, "%4d", booking);
    return at + (size_t) sprintf(text + at, "\n");
}

#endif

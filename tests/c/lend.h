/*
 * What a test lends, between pages that nobody may touch, once right in front of
 * one and once right behind one, so that a byte read or written outside ends the
 * program: the library itself has no checker built in. Needs _DEFAULT_SOURCE.
 */
#ifndef LEND_H
#define LEND_H

#include <stdint.h>
#include <stdio.h>
#include <stdlib.h>
#include <string.h>
#include <sys/mman.h>
#include <unistd.h>

/* More than the longest journal that is settled. */
enum { ROOM = 20 * 4096 };

static inline uint8_t *room_between_pages(void)
{
    size_t page = (size_t) sysconf(_SC_PAGESIZE);
    size_t inner = (ROOM + page - 1) / page * page;
    uint8_t *all = (uint8_t *) mmap(NULL, inner + 2 * page, PROT_NONE, MAP_PRIVATE | MAP_ANONYMOUS, -1, 0);
    if (all == (uint8_t *) MAP_FAILED || mprotect(all + page, inner, PROT_READ | PROT_WRITE) != 0) {
        fprintf(stderr, "header: no memory between pages\n");
        exit(2);
    }
    return all + page;
}

/* The same bytes at the front of one of four rooms or at its end. */
static inline uint8_t *lend(int which, int at_end, const void *bytes, size_t length)
{
    static uint8_t *room[4];
    size_t page = (size_t) sysconf(_SC_PAGESIZE);
    size_t inner = (ROOM + page - 1) / page * page;
    if (room[which] == NULL)
        room[which] = room_between_pages();
    uint8_t *lent = room[which] + (at_end ? inner - length : 0);
    if (length > 0)
        memcpy(lent, bytes, length);
    return lent;
}

#endif

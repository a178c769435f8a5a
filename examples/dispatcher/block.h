/*
 * What has arrived from the desks, to be handed in as a block: the replies in
 * their order, and by our books which of them are due.
 */
#ifndef BLOCK_H
#define BLOCK_H

#include "books.h"
#include "desks.h"

/* The answer for each booking, and with it a confused reply and a copy. */
enum { MOST_ARRIVED = 3 * CAMPAIGN_MOST_BOOKINGS };

struct arrived {
    struct reply reply;
    const char *name; /* what it is called where it is refused */
    bool due;         /* it fits here, after those before it */
};

struct block {
    struct books ahead; /* our books after the replies so far that are due */
    size_t dues;
    size_t count;
    struct arrived arrived[MOST_ARRIVED];
};

void block_open(struct block *block, const struct books *books);

/* The journal or the block has a reply to the order that this one quotes. */
bool block_has(const struct block *block, struct reply reply);

void block_add(struct block *block, struct reply reply, const char *name);

/* The lines of those from this one on, counted from 0, in memory exactly as long: a checker then sees a read past its
   end. Null if there is none. */
uint8_t *block_lines(const struct block *block, size_t from);

/* The first that is not due, from this one on; the number of all if there is none. */
size_t block_first_bad(const struct block *block, size_t from);

/* The refusal that the line of a reply which is not due must have. */
uint32_t block_refusal(struct entry reply);

#endif

/* Books of our own on a campaign, kept from its orders and replies alone. */
#ifndef BOOKS_H
#define BOOKS_H

#include "journal.h"
#include "plan.h"

struct books {
    const struct plan *plan;
    uint8_t code[CAMPAIGN_STATE_LENGTH]; /* what the library's state must be */
    unsigned long orders[CAMPAIGN_MOST_BOOKINGS + 1];
    unsigned long replies[CAMPAIGN_MOST_BOOKINGS + 1]; /* to so many of these orders */
    unsigned long confirmed[CAMPAIGN_MOST_BOOKINGS + 1];
    unsigned long returned[CAMPAIGN_MOST_BOOKINGS + 1];
    unsigned matters[CAMPAIGN_MOST_DESKS + 1];      /* by desk: orders without a reply */
    unsigned most_matters[CAMPAIGN_MOST_DESKS + 1]; /* at one time */
    unsigned long steps;  /* orders and replies */
    unsigned long delays; /* refusals of what repeats, returns that failed */
};

void books_open(struct books *books, const struct plan *plan);

bool books_is_order(struct entry entry);

/* Enters an order; what is wrong with it, or null. */
const char *books_order(struct books *books, struct entry entry);

/* The reply answers an open order. */
bool books_fits(const struct books *books, struct entry entry);

/* Enters a reply that fits; what is wrong with it, or null. */
const char *books_reply(struct books *books, struct entry entry);

/* Sets of bookings, booking b as bit b - 1. */
uint64_t books_coded(const struct books *books, uint8_t code);
uint64_t books_held_firm(const struct books *books);

/* Confirmed and not returned, counted from the replies. */
uint64_t books_in_hand(const struct books *books);

/* The most matters that any desk had open at one time. */
unsigned books_most_matters(const struct books *books);

/* Lines that begin with 'books: ', the same for the same orders and replies. */
void books_write(const struct books *books, FILE *out);

#endif

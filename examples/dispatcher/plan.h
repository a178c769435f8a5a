/* The plan file: its bytes, and what the dispatcher itself reads of them. */
#ifndef PLAN_H
#define PLAN_H

#include "campaign.h"

#include <stdbool.h>
#include <stdio.h>

struct plan {
    uint8_t *sheet;
    size_t length;
    unsigned bookings;
    unsigned ways;
    unsigned limit; /* most matters open per desk */
    char kind[CAMPAIGN_MOST_BOOKINGS + 1];     /* by booking, from 1 */
    unsigned desk[CAMPAIGN_MOST_BOOKINGS + 1]; /* by booking, from 1 */
    uint64_t way[CAMPAIGN_MOST_WAYS + 1];      /* by way, from 1; booking b is bit b - 1 */
};

/* Takes the file's bytes; false if it can't be read, with the reason in errno. */
bool plan_load(struct plan *plan, const char *path);

/* Reads bookings and ways of an accepted sheet; false if it is not of the form. */
bool plan_parse(struct plan *plan);

void plan_free(struct plan *plan);

/* All is of the form as far as it goes, but the file ends before the sheet does. */
bool plan_breaks_off(const struct plan *plan);

bool plan_in_way(const struct plan *plan, unsigned way, unsigned booking);

/* Once held it can't be given back. */
bool plan_firm(const struct plan *plan, unsigned booking);

/* Refused, it can be asked for again, and is confirmed in the end. */
bool plan_repeats(const struct plan *plan, unsigned booking);

/* The bookings of a set, each after a space. */
void plan_write_set(FILE *out, uint64_t set);

/* The sum of the ways' sizes. */
unsigned long plan_size_of_ways(const struct plan *plan);

#endif

/*
 * Simulated desks: who answers next, and what. All is drawn from the seed, the
 * number of lines in the journal, and the order to be answered, and from
 * nothing that a stop of the program would wipe out. So an order that is sent
 * again is answered as it was first, and a campaign that is taken up again goes
 * on as it would have without a stop. A desk refuses no order for having too
 * many: it counts them, and the dispatcher sees whether that is within the limit.
 */
#ifndef DESKS_H
#define DESKS_H

#include "journal.h"
#include "plan.h"

struct order {
    struct entry what;
    unsigned long number; /* among the orders for this booking, from 1; 0: none */
};

struct reply {
    struct entry what;
    unsigned long order; /* the order that it answers; 0: it does not say */
};

struct desks {
    uint64_t seed;
    unsigned refusing; /* percent of requests refused, of returns that fail */
    struct order order[CAMPAIGN_MOST_BOOKINGS + 1]; /* by booking: sent to its desk, not yet answered */
};

void desks_open(struct desks *desks, uint64_t seed);

/* The order reaches its desk. One that is sent again is the same matter. */
void desks_send(struct desks *desks, struct order order);

/* How many matters this desk has open: orders sent to it and not yet answered. */
unsigned desks_matters(const struct desks *desks, const struct plan *plan, unsigned desk);

/* Some desk with an order answers even before the next order is fetched. */
bool desks_hurry(const struct desks *desks, size_t lines);

/* Some desk's answer has arrived together with the last one. */
bool desks_join(const struct desks *desks, size_t lines);

/* One of the orders is answered by its desk; false if there is none. */
bool desks_answer(struct desks *desks, const struct plan *plan, size_t lines, struct reply *reply);

/* What the desk of this order says to it, whenever it is asked. */
struct reply desks_say(const struct desks *desks, const struct plan *plan, struct order order);

/* Now and then a confused desk: its reply fits nothing. */
bool desks_confused(const struct desks *desks, size_t lines, const uint8_t code[CAMPAIGN_STATE_LENGTH],
                    struct reply *reply);

/* Now and then a desk says the same once more without its order's number. */
bool desks_mumble(const struct desks *desks, size_t lines);

/* Now and then this booking's desk repeats one of so many replies; 0, or the number of the order that it answers. After
   a stop, when the line to the dispatcher is back, more of them do. */
unsigned long desks_repeat(const struct desks *desks, size_t lines, uint32_t booking, unsigned long replies, bool back);

#endif

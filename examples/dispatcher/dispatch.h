/* One campaign over the library, from its start or its journal to its end. */
#ifndef DISPATCH_H
#define DISPATCH_H

#include "bill.h"
#include "journal.h"
#include "plan.h"

struct tally {
    unsigned long campaigns;
    unsigned long flown[CAMPAIGN_MOST_WAYS + 1];
    unsigned long called_off;
    unsigned long requests, returns;
    unsigned long confirmed, declined, returned, kept;
    unsigned long misfits;
    unsigned long discarded;
    unsigned long switches;
    unsigned long blocks, most_at_once; /* replies that one block took */
    unsigned most_matters;              /* open at one desk at one time */
    unsigned long bills, unbilled;      /* unbilled: the journal is too long */
    struct quote billed, highest_bill;  /* the highest at the greatest fees */
};

struct task {
    const struct plan *plan;
    const struct fees *fees; /* null: no bill */
    uint64_t seed;           /* of the desks */
    uint64_t pause;          /* milliseconds before each step */
    bool blocks;             /* what has arrived is handed in together */
    FILE *log;               /* null: none */
};

enum outcome {
    ENDED,
    LIBRARY_FAULT,  /* the library did something that it must not */
    JOURNAL_FAILED, /* a line could not be stored, or the tail not cut off */
    JOURNAL_REFUSED /* it is not one of this sheet, or is damaged */
};

/*
 * Goes on with the campaign of this journal, which may be empty, and adds what
 * was done to the tally. With fees the bill of the whole journal comes last. All
 * but the end has a message on stderr.
 */
enum outcome dispatch(const struct task *task, struct journal *journal, struct tally *tally);

#endif

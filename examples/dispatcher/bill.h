/* The bill: the fee sheet, and what the library makes of it and the journal, with a reckoning of our own. */
#ifndef BILL_H
#define BILL_H

#include "books.h"

/* What a fee may come to, or a sum of fees. */
struct quote {
    uint64_t least;
    uint64_t greatest;
};

struct fees {
    uint8_t *sheet;
    size_t length;
    struct quote confirmation[CAMPAIGN_MOST_BOOKINGS + 1]; /* by booking, from 1 */
    struct quote giving_back[CAMPAIGN_MOST_BOOKINGS + 1];
};

/* Why a fee sheet is to be refused, and in which line. */
struct wrong_fee {
    uint32_t refusal; /* CAMPAIGN_NO_REFUSAL: it is right */
    uint32_t line;
};

/* Takes the file's bytes; false if it can't be read, with the reason in errno. */
bool fees_load(struct fees *fees, const char *path);

/* Reads the fees; what is wrong with the first line that is wrong. */
struct wrong_fee fees_parse(struct fees *fees, const struct plan *plan);

void fees_free(struct fees *fees);

struct bill {
    uint32_t answer;
    uint8_t report[CAMPAIGN_LONGEST_REPORT];
    size_t length; /* of the report; 0: there is none, the journal is too long */
    struct quote total;
};

/* Asks the library for the bill of a journal, tail and all, and makes it from the books, the plan and the fees too: these
   are the books after the journal's lines. What is wrong with the library's, or null. */
const char *bill_settle(struct bill *bill, const struct fees *fees, const struct books *books,
                        const struct journal *journal);

/* The fee sheet is wrong in this way: the library must refuse it for that, and write nothing. */
const char *bill_refused(struct bill *bill, const struct fees *fees, const struct plan *plan, struct wrong_fee wrong);

/* A line in words, then the report as it is; or why there is none, on stderr. */
void bill_write(const struct bill *bill, const struct journal *journal, FILE *out);

#endif

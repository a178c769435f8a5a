/* The story of the current way: the library's listing of the ways that were passed over, with one of our own, in words. */
#ifndef STORY_H
#define STORY_H

#include "books.h"

struct story {
    uint32_t answer;
    /* A line more than is lent, so that what is written behind the longest listing shows too. */
    uint8_t listing[CAMPAIGN_LONGEST_LISTING + CAMPAIGN_PASSED_LINE_LENGTH];
    size_t length; /* of the listing; 0: no way was passed over */
};

/* Asks the library for the listing of this state, and makes it from the books too: they have the state's way, what is lost
   and what is held that can't be given back. What is wrong with the library's, or null. */
const char *story_ask(struct story *story, const uint8_t state[CAMPAIGN_STATE_LENGTH], const struct books *books);

/* The lines of the listing in words, from this way's on, each with the front before it. */
void story_write(const struct story *story, unsigned from, const char *front, FILE *out);

#endif

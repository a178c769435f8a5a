/*
 * Two trials in one week: one plan sheet out of two.
 *
 *     join FIRST SECOND      - is standard input, for one of the two
 *
 * The joined sheet is on standard output. Whether it passes is for the check to
 * say: if it does not, that is told on standard error. The program asks for no
 * heap, as the calls do not.
 */
#include "sheets.h"

#include <stdio.h>
#include <string.h>

const char program[] = "join";

static struct sheet first, second;
static uint8_t joined[CAMPAIGN_LONGEST_SHEET]; /* always enough */

/* It can be joined: it has none of 1 to 7. */
static bool is_in_order(const struct sheet *sheet)
{
    uint32_t refusal = campaign_refusal_of(campaign_check(sheet->bytes, sheet->length));
    return refusal == CAMPAIGN_NO_REFUSAL || refusal == CAMPAIGN_STRANDING;
}

static void tell_limit(const char *what, enum head_number which, char sign, unsigned most)
{
    unsigned one = sheet_number(&first, which), other = sheet_number(&second, which);
    if ((sign == '+' ? one + other : one * other) > most)
        fprintf(stderr, "%s: refusal %d: too many %s for one sheet: %u %c %u, at most %u\n", program,
                CAMPAIGN_JOIN_TOO_LARGE, what, one, sign, other, most);
}

/* Of 1 to 7 the answer does not say which sheet it is in: the first that is not in order. */
static enum status refuse(uint32_t refusal, uint32_t place)
{
    if (refusal != CAMPAIGN_JOIN_TOO_LARGE)
        return tell_refusal(is_in_order(&first) ? second.name : first.name, refusal, place);
    tell_limit("bookings", BOOKINGS, '+', CAMPAIGN_MOST_BOOKINGS);
    tell_limit("links", LINKS, '+', CAMPAIGN_MOST_LINKS);
    tell_limit("ways", WAYS, 'x', CAMPAIGN_MOST_WAYS);
    return REFUSED;
}

/* A stranding point of the joined sheet, in the numbers of the two. */
static void tell_parts(uint32_t place)
{
    unsigned booking = campaign_stranded_booking(place), pair = campaign_stranded_way(place) - 1;
    unsigned of_first = sheet_number(&first, BOOKINGS), ways = sheet_number(&second, WAYS);
    bool is_first = booking <= of_first;
    fprintf(stderr, "%s: that is booking %u of the %s sheet, on way %u of %s with way %u of %s\n", program,
            is_first ? booking : booking - of_first, is_first ? "first" : "second", pair / ways + 1, first.name,
            pair % ways + 1, second.name);
}

static void check(size_t length)
{
    uint32_t answer = campaign_check(joined, length);
    uint32_t refusal = campaign_refusal_of(answer), place = campaign_place_of(answer);
    if (campaign_kind_of(answer) == CAMPAIGN_ACCEPTED)
        return;
    tell_refusal("the joined sheet", refusal, place);
    if (refusal == CAMPAIGN_STRANDING)
        tell_parts(place);
}

int main(int count, char **words)
{
    if (count != 3 || (strcmp(words[1], "-") == 0 && strcmp(words[2], "-") == 0)) {
        fprintf(stderr, "usage: join FIRST SECOND      - is standard input, for one of the two\n");
        return FAILED;
    }
    if (!sheet_read(&first, words[1]) || !sheet_read(&second, words[2]))
        return FAILED;
    uint32_t answer = campaign_join(first.bytes, first.length, second.bytes, second.length, joined, sizeof joined);
    uint32_t place = campaign_place_of(answer);
    if (campaign_kind_of(answer) != CAMPAIGN_ACCEPTED)
        return refuse(campaign_refusal_of(answer), place);
    enum status status = sheet_write(joined, place);
    if (status == DONE)
        check(place);
    return status;
}

/*
 * The check of plan sheets for a partner range's gateway: one call for C and C++.
 *
 * A plan sheet lists a flight test campaign's bookings, which comes before
 * which, and the ways to fly it, the most wanted first. The check accepts only
 * sheets that cannot strand: a campaign by such a sheet never ends with a booking
 * held that it can neither use nor give back.
 *
 * It is the check of campaign.h with smaller limits, in an archive of its own,
 * libpartner.a. This header stands alone; a program may include both headers and
 * link both archives.
 *
 *
 * The plan sheet
 * --------------
 * Each line ends in a line feed (byte 10). Each number fills four columns,
 * right-justified with spaces, without leading zeros. In order:
 *
 *     P   n   m   a   t   the head: 1 to 16 bookings, 0 to 512 links, 1 to 4
 *                         ways, at most t matters open per desk, 1 to 64
 *     B   b k   d         n lines, b = 1, 2, .. n; kind k is C, P, R or D; desk
 *                         d is 1 to 8
 *     L   u   v           m lines: u comes before v; rising by u, then by v
 *     A   k   b   b ..    a lines: a way, its k bookings, rising
 *
 * Nothing else stands on a line and nothing follows the last one.
 *
 * Kinds of booking:
 *     C  returnable: may be refused; once held it can be given back.
 *     P  pivot:      may be refused; once held it can't be given back.
 *     R  repeatable: is confirmed if it is asked for often enough; once held
 *                    it can't be given back.
 *     D  both:       is confirmed if it is asked for often enough; once held
 *                    it can be given back.
 *
 * Example, a flight with a tanker (1 range slot, 2 tanker, 3 chase aircraft,
 * or else 4 ground cameras):
 *
 *     P   4   3   2   2
 *     B   1 C   1
 *     B   2 P   2
 *     B   3 C   2
 *     B   4 R   1
 *     L   1   2
 *     L   2   3
 *     L   2   4
 *     A   3   1   2   3
 *     A   3   1   2   4
 */
#ifndef PARTNER_H
#define PARTNER_H

#include <stddef.h>
#include <stdint.h>

#ifdef __cplusplus
extern "C" {
#endif

/* Limits of a sheet. Those of campaign.h are 64 bookings and 16 ways; all others
   are the same. */
#define PARTNER_MOST_BOOKINGS 16
#define PARTNER_MOST_LINKS 512
#define PARTNER_MOST_WAYS 4

/* No accepted sheet has more bytes. */
#define PARTNER_LONGEST_SHEET 5610

/* The kind of an answer. */
enum partner_kind {
    /* See the refusal. */
    PARTNER_REFUSED = 0,
    /* The sheet passes (place 0). */
    PARTNER_ACCEPTED = 6
};

/*
 * The refusals; 1 to 8 are those of campaign.h. In brackets stands the place.
 * Lines are counted from 1. Of several faults the first is given: line by line
 * from the top, on the head line 1, then 2, then 16, on any other 1, then 2, then
 * 3; then 4 to 8 in this order.
 */
enum partner_refusal {
    /* Not refused. */
    PARTNER_NO_REFUSAL = 0,
    /* The sheet ends early, a line is not of its form, or bytes follow the
       last line (the line; for bytes too many the line after the last). */
    PARTNER_FORM = 1,
    /* A count, or the most matters open per desk, is outside its limits (the
       line). Bookings and ways are counted here by the limits of campaign.h, 64
       and 16; see 16 for those of this range. */
    PARTNER_COUNT = 2,
    /* A number is out of sequence, not rising, not a booking, or not a desk
       (the line). */
    PARTNER_NUMBER = 3,
    /* A booking comes before itself, by links in a circle (the lowest such
       booking). */
    PARTNER_CIRCLE = 4,
    /* A way has a booking but not all that come before it (the first such
       way). */
    PARTNER_WAY_NOT_CLOSED = 5,
    /* A booking is in no way (the lowest such booking). */
    PARTNER_UNUSED = 6,
    /* A way equals an earlier one (the first such way). */
    PARTNER_WAY_TWICE = 7,
    /* A stranding point: if this booking is refused while that way is flown,
       bookings that can't be given back may be held already, and no later way
       is a safe refuge for them (way * 256 + booking; first way, then lowest
       booking; see partner_stranded_way and partner_stranded_booking). */
    PARTNER_STRANDING = 8,
    /* The head line is within the limits of campaign.h, but it has more than 16
       bookings or more than 4 ways (line 1). The lines after it are not looked
       at. campaign_check never answers this. */
    PARTNER_TOO_LARGE = 16
};

/* An answer is kind * 16777216 + refusal * 65536 + place. */

static inline uint32_t partner_kind_of(uint32_t answer)
{
    return answer >> 24;
}

static inline uint32_t partner_refusal_of(uint32_t answer)
{
    return (answer >> 16) & 0xFFu;
}

static inline uint32_t partner_place_of(uint32_t answer)
{
    return answer & 0xFFFFu;
}

/* The two parts of a stranding point's place. */

static inline uint32_t partner_stranded_way(uint32_t place)
{
    return place >> 8;
}

static inline uint32_t partner_stranded_booking(uint32_t place)
{
    return place & 0xFFu;
}

/*
 * Is this a sheet that this range takes, and that can be flown without being
 * stranded?
 *
 * Accepted with place 0, or refused with 1 to 8 or 16. Where it is not refused
 * with 16, the answer is that of campaign_check, all 32 bits of it.
 *
 * The pointer must reach as many bytes as the length says. A length of 0 lends
 * nothing, and the pointer may then be null. Beyond that all bytes and every
 * length are allowed and get an answer. A gateway need not read more of a sheet
 * than its first PARTNER_LONGEST_SHEET + 1 bytes: what lies behind them does not
 * change the answer.
 *
 * Writes nothing, keeps nothing between two calls and needs no heap. Calls may run
 * at the same time, also on the same sheet; while a call runs, nobody may write
 * its sheet.
 */
uint32_t partner_check(const uint8_t *sheet, size_t sheet_len);

#ifdef __cplusplus
}
#endif

#endif

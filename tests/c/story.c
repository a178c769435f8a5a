/*
 * The story of the current way: campaign_passed_ways answers as the header says,
 * which was worked out by hand from the rules. What is lent lies between pages
 * that nobody may touch.
 */
#define _DEFAULT_SOURCE 1
#include "campaign.h"

#include "expect.h"
#include "lend.h"

enum { UNWRITTEN = 0xEE };

/* What is lent. */

/* A state, and a byte more for one that is too long. */
struct state {
    uint8_t at[CAMPAIGN_STATE_LENGTH + 1];
};

/* These are its first five bytes, the others are 0. */
static struct state in(const char *front)
{
    struct state state;
    memset(&state, 0, sizeof state);
    memcpy(state.at, front, 5);
    return state;
}

/* A whole listing, or null for a refusal: then no byte is written. Later bytes keep their values, and the state too. */
static void ask_at(int at_end, const char *what, const char *sheet, struct state state, size_t state_len,
                   size_t listing_len, uint32_t refusal, uint32_t place, const char *listing)
{
    uint8_t wanted[CAMPAIGN_LONGEST_LISTING + 1];
    size_t length = strlen(sheet);
    memset(wanted, UNWRITTEN, sizeof wanted);
    const uint8_t *lent_sheet = lend(0, at_end, sheet, length);
    const uint8_t *lent_state = lend(1, at_end, state.at, state_len);
    uint8_t *lent_listing = lend(2, at_end, wanted, listing_len);
    if (listing != NULL)
        memcpy(wanted, listing, strlen(listing));
    expect(what, campaign_passed_ways(lent_sheet, length, lent_state, state_len, lent_listing, listing_len),
           listing != NULL ? CAMPAIGN_ACCEPTED : CAMPAIGN_REFUSED, refusal, place);
    expect_bytes(what, lent_listing, wanted, listing_len);
    expect_bytes(what, lent_state, state.at, state_len);
    expect_bytes(what, lent_sheet, sheet, length);
}

static void refused(const char *what, const char *sheet, struct state state, size_t state_len, size_t listing_len,
                    uint32_t refusal, uint32_t place)
{
    ask_at(0, what, sheet, state, state_len, listing_len, refusal, place, NULL);
    ask_at(1, what, sheet, state, state_len, listing_len, refusal, place, NULL);
}

/* With each room from none to more than enough: refused with 10 where it is too short. */
static void listed(const char *sheet, struct state state, const char *listing)
{
    size_t length = strlen(listing);
    for (size_t room = 0; room < length; room++)
        refused(listing, sheet, state, CAMPAIGN_STATE_LENGTH, room, CAMPAIGN_SHORT_BUFFER, 0);
    for (size_t room = length; room <= CAMPAIGN_LONGEST_LISTING + 1; room++) {
        ask_at(0, listing, sheet, state, CAMPAIGN_STATE_LENGTH, room, 0, (uint32_t) length, listing);
        ask_at(1, listing, sheet, state, CAMPAIGN_STATE_LENGTH, room, 0, (uint32_t) length, listing);
    }
}

/* Listings. */

/* 1 range slot, 2 tanker, 3 chase aircraft, or else 4 ground cameras. */
static const char tanker[] = "P   4   3   2  64\nB   1 C   1\nB   2 P   1\nB   3 C   1\nB   4 R   1\n"
                             "L   1   2\nL   2   3\nL   2   4\nA   3   1   2   3\nA   3   1   2   4\n";

static void the_tanker(void)
{
    listed(tanker, in("\1\0\0\0\0"), ""); /* way 1 is current */
    listed(tanker, in("\1\2\2\1\0"), "");
    listed(tanker, in("\1\2\2\2\0"), ""); /* flown by it */
    listed(tanker, in("\2\2\2\3\0"), "V   1N   3\n");
    listed(tanker, in("\2\2\2\3\1"), "V   1N   3\n");
    listed(tanker, in("\2\2\2\3\2"), "V   1N   3\n"); /* flown by way 2 */
    listed(tanker, in("\0\3\0\0\0"), "V   1N   1\nV   2N   1\n");
    listed(tanker, in("\0\2\3\0\0"), "V   1N   2\nV   2N   2\n"); /* being called off */
    listed(tanker, in("\0\4\3\0\0"), "V   1N   2\nV   2N   2\n");
    listed(tanker, in("\0\0\3\0\0"), "V   1N   2\nV   2N   2\n"); /* called off */
}

/* All four can be asked for at once; way 2 is the last alone. */
static const char field[] = "P   4   0   2  64\nB   1 C   1\nB   2 D   1\nB   3 C   1\nB   4 D   1\n"
                            "A   4   1   2   3   4\nA   1   4\n";

static void what_is_lost(void)
{
    listed(field, in("\1\3\2\1\1"), ""); /* a booking is lost, but the way is current until 3 and 4 have decided */
    listed(field, in("\2\3\2\2\2"), "V   1N   1\n");
    listed(field, in("\2\2\0\3\0"), "V   1N   3\n");
    listed(field, in("\2\3\2\3\2"), "V   1N   1\n"); /* of two the lower */
}

/* The header's example: 1 chase aircraft, 2 range slot, 3 a tanker after the slot; or the slot; or slot and tanker. */
static const char late[] = "P   3   1   3  64\nB   1 C   3\nB   2 C   1\nB   3 P   2\nL   2   3\n"
                           "A   3   1   2   3\nA   1   2\nA   2   2   3\n";

/* Way 2 lacks 2 and 3, which can't be given back. */
static const char refuge[] = "P   4   0   3  64\nB   1 C   1\nB   2 R   1\nB   3 R   1\nB   4 D   1\n"
                             "A   3   1   2   3\nA   1   4\nA   2   2   3\n";

/* Way 2 lacks 1 and 2, which can be given back, and 4, which can't. */
static const char spare[] = "P   5   0   4  64\nB   1 C   1\nB   2 D   1\nB   3 C   1\nB   4 R   1\nB   5 D   1\n"
                            "A   4   1   2   3   4\nA   1   5\nA   3   1   2   4\nA   1   4\n";

/* Way 2 needs 2, as way 1 does, and lacks 1, which can't be given back. */
static const char both[] = "P   3   1   3  64\nB   1 P   1\nB   2 C   1\nB   3 R   1\nL   1   3\n"
                           "A   2   1   2\nA   1   2\nA   2   1   3\n";

static void what_a_way_lacks(void)
{
    listed(late, in("\2\3\2\0\0"), "V   1N   1\n");
    listed(late, in("\3\3\2\2\0"), "V   1N   1\nV   2H   3\n");
    listed(refuge, in("\2\3\0\0\0"), "V   1N   1\n");
    listed(refuge, in("\3\3\0\2\0"), "V   1N   1\nV   2H   3\n");
    listed(refuge, in("\3\3\1\2\0"), "V   1N   1\nV   2H   3\n"); /* requested is not held */
    listed(refuge, in("\3\3\2\2\0"), "V   1N   1\nV   2H   2\n"); /* of two the lower */
    listed(spare, in("\3\2\2\3\2"), "V   1N   3\nV   2H   4\n"); /* 1 and 2 can be given back */
    listed(both, in("\3\2\3\0\0"), "V   1N   2\nV   2N   2\n"); /* what is lost comes before what it lacks */
}

/* As many lines as there can be, numbers of two digits: way i has the bookings from i to 64. */
static void the_longest(void)
{
    static char sheet[CAMPAIGN_LONGEST_SHEET + 1];
    char listing[CAMPAIGN_LONGEST_LISTING + 1];
    struct state state = in("\0\0\0\0\0");
    size_t at = (size_t) sprintf(sheet, "P  64   0  16  64\n");
    for (int booking = 1; booking <= 64; booking++)
        at += (size_t) sprintf(sheet + at, "B%4d C   1\n", booking);
    for (int way = 1; way <= 16; way++) {
        at += (size_t) sprintf(sheet + at, "A%4d", 65 - way);
        for (int booking = way; booking <= 64; booking++)
            at += (size_t) sprintf(sheet + at, "%4d", booking);
        at += (size_t) sprintf(sheet + at, "\n");
        sprintf(listing + (way - 1) * CAMPAIGN_PASSED_LINE_LENGTH, "V%4dN  64\n", way);
    }
    state.at[64] = CAMPAIGN_LOST;
    listed(sheet, state, listing);
    state.at[64] = CAMPAIGN_FREE;
    state.at[10] = CAMPAIGN_LOST;
    refused("way 11 could be flown", sheet, state, CAMPAIGN_STATE_LENGTH, CAMPAIGN_LONGEST_LISTING, CAMPAIGN_UNSOUND, 0);
    state.at[0] = 11;
    for (int way = 1; way <= 10; way++)
        sprintf(listing + (way - 1) * CAMPAIGN_PASSED_LINE_LENGTH, "V%4dN  10\n", way);
    listed(sheet, state, listing);
}

/* Refusals: the sheet comes first, then the state, then the room. */

static const struct {
    const char *sheet;
    uint32_t refusal, place;
} wrong_sheets[] = {
    {"", CAMPAIGN_FORM, 1},
    {"P   1   0   0  64\n", CAMPAIGN_COUNT, 1},
    {"P   1   0   1  64\nB   2 C   1\nA   1   1\n", CAMPAIGN_NUMBER, 2},
    {"P   2   2   1  64\nB   1 C   1\nB   2 C   1\nL   1   2\nL   2   1\nA   2   1   2\n", CAMPAIGN_CIRCLE, 1},
    {"P   2   1   2  64\nB   1 C   1\nB   2 C   1\nL   1   2\nA   2   1   2\nA   1   2\n", CAMPAIGN_WAY_NOT_CLOSED, 2},
    {"P   2   0   1  64\nB   1 C   1\nB   2 C   1\nA   1   1\n", CAMPAIGN_UNUSED, 2},
    {"P   1   0   2  64\nB   1 C   1\nA   1   1\nA   1   1\n", CAMPAIGN_WAY_TWICE, 2},
    {"P   3   2   1  64\nB   1 C   1\nB   2 P   1\nB   3 C   1\nL   1   2\nL   2   3\nA   3   1   2   3\n",
     CAMPAIGN_STRANDING, 259}};

static void of_the_sheet(void)
{
    for (size_t i = 0; i < sizeof wrong_sheets / sizeof wrong_sheets[0]; i++) {
        const char *sheet = wrong_sheets[i].sheet;
        uint32_t refusal = wrong_sheets[i].refusal, place = wrong_sheets[i].place;
        refused("a wrong sheet", sheet, in("\1\0\0\0\0"), 65, CAMPAIGN_LONGEST_LISTING, refusal, place);
        refused("a wrong sheet, no room", sheet, in("\0\3\0\0\0"), 65, 0, refusal, place);
        refused("a wrong sheet and state", sheet, in("\7\7\7\7\7"), 65, CAMPAIGN_LONGEST_LISTING, refusal, place);
        refused("all is wrong", sheet, in("\7\7\7\7\7"), 64, 0, refusal, place);
    }
}

static void unsound(const char *what, const char *sheet, struct state state, size_t state_len)
{
    refused(what, sheet, state, state_len, CAMPAIGN_LONGEST_LISTING, CAMPAIGN_UNSOUND, 0);
    refused(what, sheet, state, state_len, 0, CAMPAIGN_UNSOUND, 0);
}

/* The vans 2 and 3 are at one desk, which takes on one matter. */
static const char telemetry[] = "P   5   4   2   1\nB   1 C   1\nB   2 C   2\nB   3 D   2\nB   4 C   3\nB   5 R   3\n"
                                "L   1   2\nL   1   3\nL   1   4\nL   1   5\nA   4   1   2   3   4\nA   2   1   5\n";

static void of_the_state(void)
{
    struct state behind = in("\2\2\2\3\0");
    unsound("no state", tanker, in("\2\2\2\3\0"), 0);
    unsound("a state of 64 bytes", tanker, in("\2\2\2\3\0"), 64);
    unsound("a state of 66 bytes", tanker, in("\2\2\2\3\0"), 66);
    unsound("no such way", tanker, in("\3\2\2\3\0"), 65);
    unsound("no such code", tanker, in("\1\5\0\0\0"), 65);
    unsound("requested before its slot is held", tanker, in("\1\0\1\0\0"), 65);
    unsound("way 1 could be flown", tanker, in("\2\2\2\0\0"), 65);
    unsound("way 2 could be flown", tanker, in("\0\2\2\3\0"), 65);
    unsound("nothing is lost", tanker, in("\0\2\0\0\0"), 65);
    unsound("what is requested is not held yet", refuge, in("\3\3\1\1\0"), 65);
    unsound("repeatable, and lost", refuge, in("\2\3\3\0\0"), 65);
    unsound("a desk with a matter too many", telemetry, in("\1\2\1\1\0"), 65);
    listed(telemetry, in("\2\2\4\2\3"), "V   1N   4\n");
    unsound("a desk with a matter too many", telemetry, in("\2\2\4\4\3"), 65);
    behind.at[5] = CAMPAIGN_HELD;
    unsound("a byte past the last booking", tanker, behind, 65);
}

int main(void)
{
    the_tanker();
    what_is_lost();
    what_a_way_lacks();
    the_longest();
    of_the_sheet();
    of_the_state();
    return faults == 0 ? 0 : 1;
}

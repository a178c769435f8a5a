/*
 * Two plans joined into one: campaign_join answers and writes as the header says,
 * which was worked out by hand from the rules. What is lent lies between pages
 * that nobody may touch.
 */
#define _DEFAULT_SOURCE 1
#include "campaign.h"

#include "expect.h"
#include "lend.h"
#include "ways.h"

#include <stdbool.h>

/* Room for more than the longest sheet. */
enum { UNWRITTEN = 0xEE, MOST_BYTES = CAMPAIGN_LONGEST_SHEET + 2 };

/* What must be answered. */

static uint32_t check(const char *sheet)
{
    return campaign_check((const uint8_t *) sheet, strlen(sheet));
}

/* A whole joined sheet, or null for a refusal: then no byte is written. Later bytes keep their values, and the sheets too. */
static void join_at(int at_end, const char *what, const char *first, const char *second, size_t room, uint32_t refusal,
                    uint32_t place, const char *joined)
{
    static uint8_t wanted[MOST_BYTES];
    size_t first_len = strlen(first), second_len = strlen(second);
    memset(wanted, UNWRITTEN, sizeof wanted);
    const uint8_t *lent_first = lend(0, at_end, first, first_len);
    const uint8_t *lent_second = lend(1, at_end, second, second_len);
    uint8_t *lent_joined = lend(2, at_end, wanted, room);
    if (joined != NULL)
        memcpy(wanted, joined, strlen(joined));
    expect(what, campaign_join(lent_first, first_len, lent_second, second_len, lent_joined, room),
           joined != NULL ? CAMPAIGN_ACCEPTED : CAMPAIGN_REFUSED, refusal, place);
    expect_bytes(what, lent_joined, wanted, room);
    expect_bytes(what, lent_first, first, first_len);
    expect_bytes(what, lent_second, second, second_len);
}

static void refused_in(const char *what, const char *first, const char *second, size_t room, uint32_t refusal,
                       uint32_t place)
{
    join_at(0, what, first, second, room, refusal, place, NULL);
    join_at(1, what, first, second, room, refusal, place, NULL);
}

/* Before 10: whether there is room or not. */
static void refused(const char *what, const char *first, const char *second, uint32_t refusal, uint32_t place)
{
    refused_in(what, first, second, MOST_BYTES, refusal, place);
    refused_in(what, first, second, 0, refusal, place);
}

static void joins_in(const char *what, const char *first, const char *second, size_t room, const char *joined)
{
    join_at(0, what, first, second, room, 0, (uint32_t) strlen(joined), joined);
    join_at(1, what, first, second, room, 0, (uint32_t) strlen(joined), joined);
}

/* With each room from none to more than enough, or some of them for a long sheet: refused with 10 where it is too short. */
static void joins(const char *what, const char *first, const char *second, const char *joined)
{
    size_t length = strlen(joined), step = length < 300 ? 1 : 499;
    for (size_t room = 0; room < length; room += step)
        refused_in(what, first, second, room, CAMPAIGN_SHORT_BUFFER, 0);
    refused_in(what, first, second, length - 1, CAMPAIGN_SHORT_BUFFER, 0);
    for (size_t room = length; room < MOST_BYTES; room += length < 300 ? 97 : 499)
        joins_in(what, first, second, room, joined);
    joins_in(what, first, second, CAMPAIGN_LONGEST_SHEET, joined);
    joins_in(what, first, second, MOST_BYTES, joined);
}

/* Sheets made by hand. */

#define RADAR_BOOKINGS "B   1 C   1\nB   2 D   3\n"
#define RADAR_REST "L   1   2\nA   2   1   2\nA   1   3\n"
#define FUEL_WAYS "A   5   1   2   4   5   6\nA   5   1   2   4   5   7\nA   4   3   4   5   6\nA   4   3   4   5   7\n"
#define FUEL_REST "B   4 C   1\nB   5 P   2\nB   6 C   2\nB   7 R   1\nL   1   2\nL   4   5\nL   5   6\nL   5   7\n" FUEL_WAYS

/* 1 range slot, 2 radar van, or else 3 simulator hours; at risk: another slot for these. */
static const char radar[] = "P   3   1   2   3\n" RADAR_BOOKINGS "B   3 D   4\n" RADAR_REST;
static const char at_risk[] = "P   3   1   2   3\n" RADAR_BOOKINGS "B   3 C   1\n" RADAR_REST;

/* 1 range slot, 2 tanker, 3 chase aircraft, or else 4 ground cameras. */
static const char fuel[] = "P   4   3   2   2\nB   1 C   1\nB   2 P   2\nB   3 C   2\nB   4 R   1\n"
                           "L   1   2\nL   2   3\nL   2   4\nA   3   1   2   3\nA   3   1   2   4\n";

/* The same without cameras, which strands: booking 3 on way 1. */
static const char twin[] = "P   3   2   1  64\nB   1 C   1\nB   2 P   1\nB   3 C   1\nL   1   2\nL   2   3\n"
                           "A   3   1   2   3\n";

static const char one[] = "P   1   0   1   9\nB   1 D   8\nA   1   1\n";
static const char pair[] = "P   2   0   2   7\nB   1 D   5\nB   2 C   6\nA   2   1   2\nA   1   1\n";
static const char pairs[] = "P   4   0   4   7\nB   1 D   5\nB   2 C   6\nB   3 D   5\nB   4 C   6\n"
                            "A   4   1   2   3   4\nA   3   1   2   3\nA   3   1   3   4\nA   2   1   3\n";

static const struct {
    const char *what, *first, *second, *joined;
    uint32_t refusal, place; /* of the joined sheet */
} made[] = {
    {"radar and fuel", radar, fuel, "P   7   4   4   2\n" RADAR_BOOKINGS "B   3 D   4\n" FUEL_REST, 0, 0},
    {"at risk", at_risk, fuel, "P   7   4   4   2\n" RADAR_BOOKINGS "B   3 C   1\n" FUEL_REST, CAMPAIGN_STRANDING, 257},
    {"fuel and radar", fuel, radar,
     "P   7   4   4   2\nB   1 C   1\nB   2 P   2\nB   3 C   2\nB   4 R   1\nB   5 C   1\nB   6 D   3\nB   7 D   4\n"
     "L   1   2\nL   2   3\nL   2   4\nL   5   6\n"
     "A   5   1   2   3   5   6\nA   4   1   2   3   7\nA   5   1   2   4   5   6\nA   4   1   2   4   7\n", 0, 0},
    {"twice the same", one, one, "P   2   0   1   9\nB   1 D   8\nB   2 D   8\nA   2   1   2\n", 0, 0},
    {"one and a pair", one, pair,
     "P   3   0   2   7\nB   1 D   8\nB   2 D   5\nB   3 C   6\nA   3   1   2   3\nA   2   1   2\n", 0, 0},
    {"a pair and one", pair, one,
     "P   3   0   2   7\nB   1 D   5\nB   2 C   6\nB   3 D   8\nA   3   1   2   3\nA   2   1   3\n", 0, 0},
    {"two pairs", pair, pair, pairs, 0, 0},
    {"a first with 8", twin, one,
     "P   4   2   1   9\nB   1 C   1\nB   2 P   1\nB   3 C   1\nB   4 D   8\nL   1   2\nL   2   3\nA   4   1   2   3   4\n",
     CAMPAIGN_STRANDING, 259},
    {"a second with 8", one, twin,
     "P   4   2   1   9\nB   1 D   8\nB   2 C   1\nB   3 P   1\nB   4 C   1\nL   2   3\nL   3   4\nA   4   1   2   3   4\n",
     CAMPAIGN_STRANDING, 260},
};

static void made_by_hand(void)
{
    for (size_t i = 0; i < sizeof made / sizeof made[0]; i++) {
        joins(made[i].what, made[i].first, made[i].second, made[i].joined);
        expect(made[i].what, check(made[i].joined), made[i].refusal == 0 ? CAMPAIGN_ACCEPTED : CAMPAIGN_REFUSED,
               made[i].refusal, made[i].place);
    }
    expect("the radar trial at risk, alone", check(at_risk), CAMPAIGN_ACCEPTED, 0, 0);
}

/* The sheets are only read: one may be lent for both. */
static void same_memory(void)
{
    uint8_t joined[sizeof pairs - 1];
    const uint8_t *lent = lend(0, 1, pair, strlen(pair));
    expect("one lent for both", campaign_join(lent, strlen(pair), lent, strlen(pair), joined, sizeof joined),
           CAMPAIGN_ACCEPTED, 0, sizeof joined);
    expect_bytes("one lent for both", joined, pairs, sizeof joined);
}

static void lent_as_null(void)
{
    const uint8_t *sheet = (const uint8_t *) one;
    uint8_t joined[64], before[64];
    memset(joined, UNWRITTEN, sizeof joined);
    memset(before, UNWRITTEN, sizeof before);
    expect("no first", campaign_join(NULL, 0, sheet, strlen(one), joined, sizeof joined), 0, CAMPAIGN_FORM, 1);
    expect("no second", campaign_join(sheet, strlen(one), NULL, 0, joined, sizeof joined), 0, CAMPAIGN_FORM, 1);
    expect("no room", campaign_join(sheet, strlen(one), sheet, strlen(one), NULL, 0), 0, CAMPAIGN_SHORT_BUFFER, 0);
    expect("nothing", campaign_join(NULL, 0, NULL, 0, NULL, 0), 0, CAMPAIGN_FORM, 1);
    expect_bytes("nothing", joined, before, sizeof joined);
}

/* Refusals: 1 to 7 of the first, then of the second, then 17. */

static const struct {
    const char *sheet;
    uint32_t refusal, place;
} wrong[] = {
    {"", CAMPAIGN_FORM, 1},
    {"P   1   0   1  64\nB   1 C   1\nA   1   1", CAMPAIGN_FORM, 3},
    {"P   1   0   1  64\nB   1 C   1\nA   1   1\n\n", CAMPAIGN_FORM, 4},
    {"P   1   0   0  64\n", CAMPAIGN_COUNT, 1},
    {"P   1   0   1  64\nB   1 C   1\nA   2   1   1\n", CAMPAIGN_COUNT, 3},
    {"P   1   0   1  64\nB   2 C   1\nA   1   1\n", CAMPAIGN_NUMBER, 2},
    {"P   2   2   1  64\nB   1 C   1\nB   2 C   1\nL   1   2\nL   2   1\nA   2   1   2\n", CAMPAIGN_CIRCLE, 1},
    {"P   2   1   2  64\nB   1 C   1\nB   2 C   1\nL   1   2\nA   2   1   2\nA   1   2\n", CAMPAIGN_WAY_NOT_CLOSED, 2},
    {"P   2   0   1  64\nB   1 C   1\nB   2 C   1\nA   1   1\n", CAMPAIGN_UNUSED, 2},
    {"P   1   0   2  64\nB   1 C   1\nA   1   1\nA   1   1\n", CAMPAIGN_WAY_TWICE, 2},
};

enum { WRONG = sizeof wrong / sizeof wrong[0] };

static void wrong_sheets(void)
{
    for (size_t i = 0; i < WRONG; i++) {
        refused("the first is wrong", wrong[i].sheet, fuel, wrong[i].refusal, wrong[i].place);
        refused("the second is wrong", fuel, wrong[i].sheet, wrong[i].refusal, wrong[i].place);
        refused("the first is wrong, the second has 8", wrong[i].sheet, twin, wrong[i].refusal, wrong[i].place);
        refused("the second is wrong, the first has 8", twin, wrong[i].sheet, wrong[i].refusal, wrong[i].place);
        for (size_t j = 0; j < WRONG; j++)
            refused("both are wrong", wrong[i].sheet, wrong[j].sheet, wrong[i].refusal, wrong[i].place);
    }
}

/* What lies behind the first CAMPAIGN_LONGEST_SHEET + 1 bytes changes nothing. */
static void long_sheets(void)
{
    static const size_t lengths[] = {30000, CAMPAIGN_LONGEST_SHEET + 2, CAMPAIGN_LONGEST_SHEET + 1};
    static char sheet[30001];
    memset(sheet, '\n', sizeof sheet);
    memcpy(sheet, fuel, strlen(fuel));
    for (size_t i = 0; i < sizeof lengths / sizeof lengths[0]; i++) {
        sheet[lengths[i]] = '\0';
        refused("a long first", sheet, radar, CAMPAIGN_FORM, 11);
        refused("a long second", radar, sheet, CAMPAIGN_FORM, 11);
    }
}

/* Plans of every size: the sheet of a plan, and two plans joined, as the rules say it. */

/* A way has booking b as its bit b - 1. Drawn plans may have too many links. */
struct plan {
    int bookings, links, ways, matters;
    char kind[CAMPAIGN_MOST_BOOKINGS];
    int desk[CAMPAIGN_MOST_BOOKINGS];
    int from[2 * CAMPAIGN_MOST_LINKS], to[2 * CAMPAIGN_MOST_LINKS];
    uint64_t way[CAMPAIGN_MOST_WAYS];
};

static void put(char *text, const struct plan *plan)
{
    size_t at = (size_t) sprintf(text, "P%4d%4d%4d%4d\n", plan->bookings, plan->links, plan->ways, plan->matters);
    for (int i = 0; i < plan->bookings; i++)
        at += (size_t) sprintf(text + at, "B%4d %c%4d\n", i + 1, plan->kind[i], plan->desk[i]);
    for (int i = 0; i < plan->links; i++)
        at += (size_t) sprintf(text + at, "L%4d%4d\n", plan->from[i], plan->to[i]);
    for (int i = 0; i < plan->ways; i++)
        at += put_way(text + at, plan->way[i]);
}

/* Together they are within the limits. */
static bool fits(const struct plan *first, const struct plan *second)
{
    return first->bookings + second->bookings <= 64 && first->links + second->links <= 512
           && first->ways * second->ways <= 16;
}

static void join_plans(struct plan *joined, const struct plan *first, const struct plan *second)
{
    int n = first->bookings, m = first->links;
    *joined = *first;
    joined->bookings += second->bookings;
    joined->links += second->links;
    joined->ways *= second->ways;
    if (second->matters < first->matters)
        joined->matters = second->matters;
    for (int i = 0; i < second->bookings; i++) {
        joined->kind[n + i] = second->kind[i];
        joined->desk[n + i] = second->desk[i];
    }
    for (int i = 0; i < second->links; i++) {
        joined->from[m + i] = n + second->from[i];
        joined->to[m + i] = n + second->to[i];
    }
    for (int i = 0; i < first->ways; i++)
        for (int j = 0; j < second->ways; j++)
            joined->way[i * second->ways + j] = first->way[i] | second->way[j] << n;
}

/* Both plans are in order. */
static bool join_or_refuse(const char *what, const struct plan *first, const struct plan *second)
{
    static char first_text[MOST_BYTES], second_text[MOST_BYTES], text[MOST_BYTES];
    static struct plan joined;
    put(first_text, first);
    put(second_text, second);
    if (!fits(first, second)) {
        refused(what, first_text, second_text, CAMPAIGN_JOIN_TOO_LARGE, 0);
        return false;
    }
    join_plans(&joined, first, second);
    put(text, &joined);
    joins(what, first_text, second_text, text);
    return true;
}

/* All bookings can be given back. Each is linked to those after it, as far as the links go; each way has one booking less. */
static void even_plan(struct plan *plan, int bookings, int links, int ways)
{
    memset(plan, 0, sizeof *plan);
    plan->bookings = bookings;
    plan->ways = ways;
    plan->matters = 1 + bookings % 64;
    for (int i = 0; i < bookings; i++) {
        plan->kind[i] = "CD"[i % 2];
        plan->desk[i] = 1 + i % 8;
    }
    for (int u = 1; u <= bookings; u++)
        for (int v = u + 1; v <= bookings && plan->links < links; v++) {
            plan->from[plan->links] = u;
            plan->to[plan->links++] = v;
        }
    for (int way = 0; way < ways; way++)
        plan->way[way] = links == 0 ? from_to(1 + way, bookings) : from_to(1, bookings - way);
}

static void sized(const char *what, const int first[3], const int second[3], bool wanted)
{
    static struct plan one_plan, other;
    even_plan(&one_plan, first[0], first[1], first[2]);
    even_plan(&other, second[0], second[1], second[2]);
    if (join_or_refuse(what, &one_plan, &other) == wanted)
        return;
    fprintf(stderr, "join: %s: the test's own limits\n", what);
    faults++;
}

/* Up to the limits and beyond them: bookings, links, ways. */
static void limits(void)
{
    static const struct {
        const char *what;
        int first[3], second[3];
        bool fits;
    } sizes[] = {
        {"64 bookings", {32, 0, 1}, {32, 0, 1}, true},   {"65 bookings", {32, 0, 1}, {33, 0, 1}, false},
        {"64 bookings, 1", {1, 0, 1}, {63, 0, 1}, true}, {"65 bookings, 1", {1, 0, 1}, {64, 0, 1}, false},
        {"63 and 1", {63, 0, 1}, {1, 0, 1}, true},       {"64 and 1", {64, 0, 1}, {1, 0, 1}, false},
        {"128 bookings", {64, 0, 1}, {64, 0, 1}, false}, {"512 links", {32, 496, 1}, {32, 16, 1}, true},
        {"513 links", {32, 496, 1}, {32, 17, 1}, false}, {"0 and 512 links", {20, 0, 1}, {40, 512, 1}, true},
        {"512 and 0", {40, 512, 1}, {24, 0, 1}, true},   {"1 and 512", {20, 1, 1}, {40, 512, 1}, false},
        {"512 and 1", {40, 512, 1}, {24, 1, 1}, false},  {"256 and 256", {32, 256, 2}, {32, 256, 8}, true},
        {"257 and 256", {32, 257, 2}, {32, 256, 2}, false}, {"all at once", {64, 512, 16}, {64, 512, 16}, false},
        {"a long one", {48, 480, 16}, {16, 32, 1}, true},  {"another", {1, 0, 1}, {63, 512, 16}, true},
    };
    for (size_t i = 0; i < sizeof sizes / sizeof sizes[0]; i++)
        sized(sizes[i].what, sizes[i].first, sizes[i].second, sizes[i].fits);
    for (int ways = 1; ways <= 16; ways++)
        for (int others = 1; others <= 16; others++) {
            int first[3] = {16, 0, ways}, second[3] = {17, 0, others};
            sized("ways", first, second, ways * others <= 16);
        }
}

/* A wrong sheet comes before 17, also where the other is as large as can be. */
static void wrong_and_large(void)
{
    static char large[MOST_BYTES];
    static struct plan plan;
    even_plan(&plan, 64, 512, 16);
    put(large, &plan);
    for (size_t i = 0; i < WRONG; i++) {
        refused("wrong, then large", wrong[i].sheet, large, wrong[i].refusal, wrong[i].place);
        refused("large, then wrong", large, wrong[i].sheet, wrong[i].refusal, wrong[i].place);
    }
}

/* Three sheets: the first two are joined first, or the last two. */

static uint32_t join(char *joined, const char *first, const char *second)
{
    uint32_t answer = campaign_join((const uint8_t *) first, strlen(first), (const uint8_t *) second, strlen(second),
                                    (uint8_t *) joined, CAMPAIGN_LONGEST_SHEET);
    joined[campaign_kind_of(answer) == CAMPAIGN_ACCEPTED ? campaign_place_of(answer) : 0] = '\0';
    return answer;
}

/* A whole joined sheet; or null: one of the two joins is refused with 17. */
static void grouped(const char *what, const char *const sheets[3], const char *wanted)
{
    static char inner[MOST_BYTES], joined[MOST_BYTES];
    for (int last_first = 0; last_first < 2; last_first++) {
        uint32_t answer = last_first ? join(inner, sheets[1], sheets[2]) : join(inner, sheets[0], sheets[1]);
        if (campaign_kind_of(answer) == CAMPAIGN_ACCEPTED)
            answer = last_first ? join(joined, sheets[0], inner) : join(joined, inner, sheets[2]);
        if (wanted == NULL)
            expect(what, answer, CAMPAIGN_REFUSED, CAMPAIGN_JOIN_TOO_LARGE, 0);
        else {
            expect(what, answer, CAMPAIGN_ACCEPTED, 0, (uint32_t) strlen(wanted));
            expect_bytes(what, joined, wanted, strlen(wanted));
        }
    }
}

/* All three are in order. */
static void group_plans(const char *what, const struct plan plans[3])
{
    static struct plan two, all;
    static char texts[3][MOST_BYTES], wanted[MOST_BYTES];
    const char *sheets[3] = {texts[0], texts[1], texts[2]};
    for (int i = 0; i < 3; i++)
        put(texts[i], &plans[i]);
    bool fit = fits(&plans[0], &plans[1]);
    if (fit) {
        join_plans(&two, &plans[0], &plans[1]);
        fit = fits(&two, &plans[2]);
    }
    if (fit) {
        join_plans(&all, &two, &plans[2]);
        put(wanted, &all);
    }
    grouped(what, sheets, fit ? wanted : NULL);
}

static void three(void)
{
    static const int sizes[][9] = {
        {20, 0, 1, 20, 0, 1, 24, 0, 1}, /* 64 bookings */
        {20, 0, 1, 20, 0, 1, 25, 0, 1}, /* too many: at the second join of either grouping */
        {40, 0, 1, 30, 0, 1, 1, 0, 1},  /* at the first of the one, at the second of the other */
        {1, 0, 1, 30, 0, 1, 40, 0, 1},
        {20, 180, 1, 20, 180, 1, 20, 152, 1}, /* 512 links, 513 */
        {20, 180, 1, 20, 180, 1, 20, 153, 1},
        {6, 0, 2, 6, 0, 4, 6, 0, 2}, /* 16 ways, 18, 20 */
        {6, 0, 2, 6, 0, 3, 6, 0, 3},
        {6, 0, 5, 6, 0, 4, 6, 0, 1},
        {6, 0, 1, 6, 0, 4, 6, 0, 5},
        {16, 0, 16, 1, 0, 1, 1, 0, 1},
        {1, 0, 1, 1, 0, 1, 16, 0, 16},
    };
    static const char *const week[3] = {radar, fuel, one};
    static struct plan plans[3];
    grouped("radar, fuel, one", week,
            "P   8   4   4   2\n" RADAR_BOOKINGS "B   3 D   4\nB   4 C   1\nB   5 P   2\nB   6 C   2\nB   7 R   1\nB   8 D   8\n"
            "L   1   2\nL   4   5\nL   5   6\nL   5   7\nA   6   1   2   4   5   6   8\nA   6   1   2   4   5   7   8\n"
            "A   5   3   4   5   6   8\nA   5   3   4   5   7   8\n");
    for (size_t i = 0; i < sizeof sizes / sizeof sizes[0]; i++) {
        for (int j = 0; j < 3; j++)
            even_plan(&plans[j], sizes[i][3 * j], sizes[i][3 * j + 1], sizes[i][3 * j + 2]);
        group_plans("three sizes", plans);
    }
}

/* Drawn plans. */

static uint32_t drawn(uint32_t below)
{
    static uint64_t seed = 11;
    seed = seed * 6364136223846793005u + 1442695040888963407u;
    return (uint32_t) (seed >> 33) % below;
}

/* For each booking those that are linked to it; few links go back, which makes a circle. */
static void draw_links(struct plan *plan, uint64_t before[])
{
    uint32_t rare = 1 + drawn(8);
    for (int u = 1; u <= plan->bookings; u++)
        for (int v = 1; v <= plan->bookings; v++)
            if (drawn(u < v ? rare : 4000) == 0) {
                before[v] |= bit(u);
                plan->from[plan->links] = u;
                plan->to[plan->links++] = v;
            }
}

/* A way with some of the bookings and, but for one in forty, all that come before them. */
static uint64_t draw_way(int bookings, const uint64_t before[])
{
    uint32_t some = 1 + drawn(4);
    bool closed = drawn(40) != 0;
    uint64_t set = bit(1);
    for (int booking = bookings; booking >= 1; booking--) {
        if (drawn(4) < some)
            set |= bit(booking);
        if (closed && (set & bit(booking)) != 0)
            set |= before[booking];
    }
    return set;
}

/* Another than those before it, if that is found soon. */
static uint64_t draw_other_way(const struct plan *plan, int way, const uint64_t before[])
{
    uint64_t set = draw_way(plan->bookings, before);
    for (int tries = 0, i = 0; tries < 10 && i < way; i++)
        if (plan->way[i] == set) {
            set = draw_way(plan->bookings, before);
            tries++;
            i = -1;
        }
    return set;
}

/* The first way has all bookings, but for one plan in twenty. */
static void draw_plan(struct plan *plan)
{
    static const char *const kinds[] = {"C", "CD", "CPRD", "DDDDR", "CDDDR", "DDDDPR"};
    const char *letters = kinds[drawn(6)];
    uint64_t before[64] = {0};
    memset(plan, 0, sizeof *plan);
    plan->bookings = 1 + (int) drawn(drawn(3) == 0 ? 40 : 8);
    plan->ways = 1 + (int) drawn(drawn(2) == 0 ? 6 : 2);
    plan->matters = 1 + (int) drawn(64);
    for (int i = 0; i < plan->bookings; i++) {
        plan->kind[i] = letters[drawn((uint32_t) strlen(letters))];
        plan->desk[i] = 1 + (int) drawn(8);
    }
    draw_links(plan, before);
    for (int way = 0; way < plan->ways; way++)
        plan->way[way] = way > 0 || drawn(20) == 0 ? draw_other_way(plan, way, before) : from_to(1, plan->bookings);
}

/* Has one of 1 to 7, by the answer of its check. */
static bool is_wrong(uint32_t checked)
{
    uint32_t refusal = campaign_refusal_of(checked);
    return refusal != 0 && refusal != CAMPAIGN_STRANDING;
}

/* A joined sheet is not wrong, and if it passes both its parts do. */
static uint32_t check_joined(const char *joined, uint32_t first, uint32_t second)
{
    uint32_t answer = check(joined);
    bool parts_pass = campaign_refusal_of(first) == 0 && campaign_refusal_of(second) == 0;
    if (is_wrong(answer) || (campaign_refusal_of(answer) == 0 && !parts_pass)) {
        fprintf(stderr, "join: a joined sheet's check is %lu\n", (unsigned long) answer);
        faults++;
    }
    return campaign_refusal_of(answer);
}

/* The refusal of the join, or that of its sheet's check. */
static uint32_t join_drawn(const struct plan *first, const struct plan *second)
{
    static char first_text[MOST_BYTES], second_text[MOST_BYTES], text[MOST_BYTES];
    static struct plan joined;
    put(first_text, first);
    put(second_text, second);
    uint32_t of_first = check(first_text), of_second = check(second_text);
    uint32_t answer = is_wrong(of_first) ? of_first : is_wrong(of_second) ? of_second : 0;
    if (answer == 0 && !fits(first, second))
        answer = CAMPAIGN_JOIN_TOO_LARGE * 65536u;
    if (answer != 0) {
        refused("drawn", first_text, second_text, campaign_refusal_of(answer), campaign_place_of(answer));
        return campaign_refusal_of(answer);
    }
    join_plans(&joined, first, second);
    put(text, &joined);
    joins_in("drawn", first_text, second_text, strlen(text), text);
    refused_in("drawn, a byte too few", first_text, second_text, strlen(text) - 1, CAMPAIGN_SHORT_BUFFER, 0);
    return check_joined(text, of_first, of_second);
}

static bool all_in_order(const struct plan plans[3])
{
    static char text[MOST_BYTES];
    for (int i = 0; i < 3; i++) {
        put(text, &plans[i]);
        if (is_wrong(check(text)))
            return false;
    }
    return true;
}

/* Each refusal that such plans can have must come up, else nothing was compared. */
static void drawn_plans(void)
{
    static const int wanted[] = {0, CAMPAIGN_CIRCLE, CAMPAIGN_WAY_NOT_CLOSED, CAMPAIGN_UNUSED, CAMPAIGN_WAY_TWICE,
                                 CAMPAIGN_STRANDING, CAMPAIGN_JOIN_TOO_LARGE};
    static struct plan plans[3];
    int seen[CAMPAIGN_JOIN_TOO_LARGE + 1] = {0};
    for (int i = 0; i < 10000 && faults == 0; i++) {
        for (int j = 0; j < 3; j++)
            draw_plan(&plans[j]);
        seen[join_drawn(&plans[0], &plans[1])]++;
        if (all_in_order(plans))
            group_plans("drawn", plans);
    }
    for (size_t i = 0; i < sizeof wanted / sizeof wanted[0]; i++)
        if (faults == 0 && seen[wanted[i]] < 20) {
            fprintf(stderr, "join: refusal %d came up %d times\n", wanted[i], seen[wanted[i]]);
            faults++;
        }
}

int main(void)
{
    made_by_hand();
    same_memory();
    lent_as_null();
    wrong_sheets();
    long_sheets();
    limits();
    wrong_and_large();
    three();
    drawn_plans();
    return faults == 0 ? 0 : 1;
}

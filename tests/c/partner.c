/*
 * The partner's check: its header compiles first in its file and twice, and
 * together with ours. partner_check answers as its header says, which was worked
 * out by hand from the rules, and as campaign_check where that is not 16. What is
 * lent lies between pages that nobody may touch.
 *
 *     partner PLANFILE..    sheets that are put to both calls
 */
#define _DEFAULT_SOURCE 1
#include "partner.h"
#include "partner.h"

#include "campaign.h"

#include "expect.h"
#include "lend.h"
#include "ways.h"

#include <stdbool.h>

FIXED(PARTNER_MOST_BOOKINGS == 16 && PARTNER_MOST_LINKS == 512 && PARTNER_MOST_WAYS == 4);
FIXED(PARTNER_LONGEST_SHEET == 18 + 16 * 12 + 512 * 10 + 4 * (6 + 16 * 4));
FIXED(PARTNER_MOST_BOOKINGS < CAMPAIGN_MOST_BOOKINGS && PARTNER_MOST_WAYS < CAMPAIGN_MOST_WAYS);
FIXED(PARTNER_MOST_LINKS == CAMPAIGN_MOST_LINKS && PARTNER_LONGEST_SHEET < CAMPAIGN_LONGEST_SHEET);

FIXED(PARTNER_REFUSED == 0 && PARTNER_ACCEPTED == 6);
FIXED(PARTNER_NO_REFUSAL == 0 && PARTNER_FORM == 1 && PARTNER_COUNT == 2 && PARTNER_NUMBER == 3);
FIXED(PARTNER_CIRCLE == 4 && PARTNER_WAY_NOT_CLOSED == 5 && PARTNER_UNUSED == 6);
FIXED(PARTNER_WAY_TWICE == 7 && PARTNER_STRANDING == 8 && PARTNER_TOO_LARGE == 16);

/* More than any sheet here has. */
enum { MOST_BYTES = ROOM };

/* What must be answered. */

/* By the numbers, whatever the answer is. */
static void parts(const char *what, uint32_t answer)
{
    if (partner_kind_of(answer) == answer / 16777216u && partner_refusal_of(answer) == answer / 65536u % 256
        && partner_place_of(answer) == answer % 65536u)
        return;
    fprintf(stderr, "partner: %s: parts of answer %lu\n", what, (unsigned long) answer);
    faults++;
}

/* By partner_check. The sheet is only read. */
static void theirs(const char *what, const void *sheet, size_t length, uint32_t refusal, uint32_t place)
{
    for (int at_end = 0; at_end < 2; at_end++) {
        const uint8_t *lent = lend(0, at_end, sheet, length);
        uint32_t answer = partner_check(lent, length);
        expect(what, answer, refusal == 0 ? PARTNER_ACCEPTED : PARTNER_REFUSED, refusal, place);
        parts(what, answer);
        expect_bytes(what, lent, sheet, length);
    }
}

/* By campaign_check. */
static void ours(const char *what, const void *sheet, size_t length, uint32_t refusal, uint32_t place)
{
    expect(what, campaign_check((const uint8_t *) sheet, length),
           refusal == 0 ? CAMPAIGN_ACCEPTED : CAMPAIGN_REFUSED, refusal, place);
}

static unsigned columns(const uint8_t *at)
{
    unsigned value = 0;
    for (int i = 0; i < 4; i++)
        value = at[i] == ' ' ? value : value * 10 + (unsigned) (at[i] - '0');
    return value;
}

/* The sheet is put to both calls: one verdict, but 16 if its head is in order and above the partner's limits. Ours
   is never 16, nor has it another kind than the two. */
static uint32_t both(const char *what, const void *sheet, size_t length)
{
    const uint8_t *bytes = (const uint8_t *) sheet;
    uint32_t answer = campaign_check(bytes, length);
    uint32_t refusal = campaign_refusal_of(answer), place = campaign_place_of(answer);
    bool head_refused = (refusal == CAMPAIGN_FORM || refusal == CAMPAIGN_COUNT) && place == 1;
    ours(what, sheet, length, refusal <= CAMPAIGN_STRANDING ? refusal : 0, place);
    if (!head_refused && (columns(bytes + 1) > 16 || columns(bytes + 9) > 4)) {
        refusal = PARTNER_TOO_LARGE;
        place = 1;
    }
    theirs(what, sheet, length, refusal, place);
    return refusal;
}

/* Sheets made by hand. */

struct made {
    const char *what, *sheet;
    uint32_t refusal, place;
};

static const struct made alike[] = {
    {"tanker", "P   4   3   2   2\nB   1 C   1\nB   2 P   2\nB   3 C   2\nB   4 R   1\n"
               "L   1   2\nL   2   3\nL   2   4\nA   3   1   2   3\nA   3   1   2   4\n", 0, 0},
    {"one booking", "P   1   0   1   1\nB   1 D   8\nA   1   1\n", 0, 0},
    {"no sheet", "", PARTNER_FORM, 1},
    {"a sheet that ends early", "P   1   0   1  64\nB   1 C   1\n", PARTNER_FORM, 3},
    {"no such kind", "P   1   0   1  64\nB   1 X   1\nA   1   1\n", PARTNER_FORM, 2},
    {"a byte too many", "P   1   0   1  64\nB   1 C   1\nA   1   1\n\n", PARTNER_FORM, 4},
    {"no booking", "P   0   0   1  64\n", PARTNER_COUNT, 1},
    {"no way", "P   1   0   0  64\n", PARTNER_COUNT, 1},
    {"513 links", "P   1 513   1  64\n", PARTNER_COUNT, 1},
    {"no matters", "P   1   0   1   0\n", PARTNER_COUNT, 1},
    {"65 matters", "P   1   0   1  65\n", PARTNER_COUNT, 1},
    {"a way of two bookings, where there is one", "P   1   0   1  64\nB   1 C   1\nA   2   1   1\n", PARTNER_COUNT, 3},
    {"booking 2 for 1", "P   1   0   1  64\nB   2 C   1\nA   1   1\n", PARTNER_NUMBER, 2},
    {"desk 9", "P   1   0   1  64\nB   1 C   9\nA   1   1\n", PARTNER_NUMBER, 2},
    {"a link to no booking", "P   1   1   1  64\nB   1 C   1\nL   1   2\nA   1   1\n", PARTNER_NUMBER, 3},
    {"a circle", "P   3   2   1  64\nB   1 C   1\nB   2 C   1\nB   3 C   1\nL   2   3\nL   3   2\nA   3   1   2   3\n",
     PARTNER_CIRCLE, 2},
    {"a way not closed", "P   2   1   2  64\nB   1 C   1\nB   2 C   1\nL   1   2\nA   2   1   2\nA   1   2\n",
     PARTNER_WAY_NOT_CLOSED, 2},
    {"an unused booking", "P   2   0   1  64\nB   1 C   1\nB   2 C   1\nA   1   1\n", PARTNER_UNUSED, 2},
    {"a way twice", "P   1   0   2  64\nB   1 C   1\nA   1   1\nA   1   1\n", PARTNER_WAY_TWICE, 2},
    {"tanker without its cameras", "P   3   2   1  64\nB   1 C   1\nB   2 P   1\nB   3 C   1\nL   1   2\nL   2   3\n"
                                   "A   3   1   2   3\n", PARTNER_STRANDING, 1 * 256 + 3},
    {"stranded on way 2", "P   3   0   2  64\nB   1 C   1\nB   2 R   1\nB   3 C   1\nA   1   1\nA   2   2   3\n",
     PARTNER_STRANDING, 2 * 256 + 3},
    /* What comes before 16 on the head line. */
    {"65 bookings", "P  65   0   1  64\n", PARTNER_COUNT, 1},
    {"17 ways", "P   1   0  17  64\n", PARTNER_COUNT, 1},
    {"17 bookings and 65 matters", "P  17   0   1  65\n", PARTNER_COUNT, 1},
    {"17 bookings and 513 links", "P  17 513   1  64\n", PARTNER_COUNT, 1},
    {"17 bookings and no way", "P  17   0   0  64\n", PARTNER_COUNT, 1},
    {"5 ways and no booking", "P   0   0   5  64\n", PARTNER_COUNT, 1},
    {"17 bookings and 17 ways", "P  17   0  17  64\n", PARTNER_COUNT, 1},
    {"17 bookings, no line feed", "P  17   0   1  64", PARTNER_FORM, 1},
    {"17 bookings, a leading zero", "P  17   0   1 064\n", PARTNER_FORM, 1},
    {"17 bookings, the head of before desks", "P  17   0   1\n", PARTNER_FORM, 1},
    {"5 ways, a small letter", "p   1   0   5  64\n", PARTNER_FORM, 1},
    {"65 bookings, a blank", "P  65   0   1    \n", PARTNER_FORM, 1},
};

/* 16 for the partner; what our check answers. */
static const struct made turned_away[] = {
    {"17 bookings", "P  17   0   1  64\n", CAMPAIGN_FORM, 2},
    {"5 ways", "P   1   0   5  64\n", CAMPAIGN_FORM, 2},
    {"17 bookings and 5 ways", "P  17   0   5   1\n", CAMPAIGN_FORM, 2},
    {"64 bookings, 512 links, 16 ways", "P  64 512  16  64\n", CAMPAIGN_FORM, 2},
    {"17 bookings, then a line that is none", "P  17   0   1  64\nX\n", CAMPAIGN_FORM, 2},
    {"17 bookings, then a wrong number", "P  17   0   1  64\nB   2 C   1\n", CAMPAIGN_NUMBER, 2},
    {"5 ways, each the same", "P   1   0   5  64\nB   1 C   1\nA   1   1\nA   1   1\nA   1   1\nA   1   1\nA   1   1\n",
     CAMPAIGN_WAY_TWICE, 2},
    {"5 ways, a stranding point", "P   3   0   5  64\nB   1 P   1\nB   2 P   1\nB   3 P   1\nA   2   1   2\nA   1   1\n"
                                  "A   1   2\nA   1   3\nA   2   1   3\n", CAMPAIGN_STRANDING, 5 * 256 + 1},
};

static void made_by_hand(void)
{
    for (size_t i = 0; i < sizeof alike / sizeof alike[0]; i++) {
        size_t length = strlen(alike[i].sheet);
        theirs(alike[i].what, alike[i].sheet, length, alike[i].refusal, alike[i].place);
        ours(alike[i].what, alike[i].sheet, length, alike[i].refusal, alike[i].place);
    }
    for (size_t i = 0; i < sizeof turned_away / sizeof turned_away[0]; i++) {
        size_t length = strlen(turned_away[i].sheet);
        theirs(turned_away[i].what, turned_away[i].sheet, length, PARTNER_TOO_LARGE, 1);
        ours(turned_away[i].what, turned_away[i].sheet, length, turned_away[i].refusal, turned_away[i].place);
    }
    expect("null", partner_check(NULL, 0), PARTNER_REFUSED, PARTNER_FORM, 1);
    parts("every bit", 0xFFFFFFFFu);
    if (partner_stranded_way(4 * 256 + 16) != 4 || partner_stranded_booking(4 * 256 + 16) != 16) {
        fprintf(stderr, "partner: parts of a stranding point\n");
        faults++;
    }
}

/* Heads alone: what each number decides, and a second line is missing where it decides nothing. */
static void heads(void)
{
    static const unsigned links[] = {0, 1, 512, 513, 9999}, matters[] = {0, 1, 64, 65};
    char head[64];
    for (unsigned number = 0; number < 70 * 20 * 5 * 4; number++) {
        unsigned n = number % 70, a = number / 70 % 20, m = links[number / 1400 % 5], t = matters[number / 7000];
        int length = sprintf(head, "P%4u%4u%4u%4u\n", n, m, a, t);
        if (n < 1 || n > 64 || m > 512 || a < 1 || a > 16 || t < 1 || t > 64)
            theirs(head, head, (size_t) length, PARTNER_COUNT, 1);
        else if (n > 16 || a > 4)
            theirs(head, head, (size_t) length, PARTNER_TOO_LARGE, 1);
        else
            theirs(head, head, (size_t) length, PARTNER_FORM, 2);
    }
}

/* Sheets of every size. */

static uint32_t drawn(uint32_t below)
{
    static uint64_t seed = 10;
    seed = seed * 6364136223846793005u + 1442695040888963407u;
    return (uint32_t) (seed >> 33) % below;
}

/* The head, and the bookings with kinds drawn from these. */
static size_t add_front(char *sheet, int bookings, int links, int ways, const char *kinds)
{
    size_t at = (size_t) sprintf(sheet, "P%4d%4d%4d  64\n", bookings, links, ways);
    for (int booking = 1; booking <= bookings; booking++)
        at += (size_t) sprintf(sheet + at, "B%4d %c   8\n", booking, kinds[drawn((uint32_t) strlen(kinds))]);
    return at;
}

/* All bookings can be given back and nothing is linked; way i has the bookings from i on. */
static void every_size(void)
{
    static char sheet[CAMPAIGN_LONGEST_SHEET + 1];
    for (int bookings = 1; bookings <= 64; bookings++)
        for (int ways = 1; ways <= bookings && ways <= 16; ways++) {
            bool fits = bookings <= 16 && ways <= 4;
            size_t at = add_front(sheet, bookings, 0, ways, "C");
            for (int way = 1; way <= ways; way++)
                at += put_way(sheet + at, from_to(way, bookings));
            ours("a size", sheet, at, 0, 0);
            theirs("a size", sheet, at, fits ? 0 : PARTNER_TOO_LARGE, fits ? 0 : 1);
            ours("a size and a byte", sheet, at + 1, CAMPAIGN_FORM, (uint32_t) (1 + bookings + ways + 1));
            theirs("a size and a byte", sheet, at + 1, fits ? PARTNER_FORM : PARTNER_TOO_LARGE,
                   fits ? (uint32_t) (1 + bookings + ways + 1) : 1);
        }
}

/* 16 bookings in a row, each linked to all after it; each way stops one booking earlier than the one before. */
static size_t row_of_16(char *sheet)
{
    size_t at = add_front(sheet, 16, 120, 4, "C");
    for (int u = 1; u <= 16; u++)
        for (int v = u + 1; v <= 16; v++)
            at += (size_t) sprintf(sheet + at, "L%4d%4d\n", u, v);
    for (int way = 1; way <= 4; way++)
        at += put_way(sheet + at, from_to(1, 17 - way));
    return at;
}

/* As many links as can rise, each booking with every booking, or as many as a head may have: the last do not rise. */
static size_t many_links(char *sheet, int links)
{
    size_t at = add_front(sheet, 16, links, 4, "C");
    for (int link = 0; link < links; link++)
        at += (size_t) sprintf(sheet + at, "L%4d%4d\n", link / 16 % 16 + 1, link % 16 + 1);
    for (int way = 1; way <= 4; way++)
        at += put_way(sheet + at, from_to(1, 16));
    return at;
}

/* What lies behind the first PARTNER_LONGEST_SHEET + 1 bytes changes nothing, whatever it is. */
static void cut(const char *what, char *sheet, size_t length, uint32_t refusal, uint32_t place)
{
    static const char fills[] = {'\n', ' ', 'A', '\0'};
    size_t kept = PARTNER_LONGEST_SHEET + 1;
    for (size_t i = 0; i < sizeof fills; i++) {
        memset(sheet + length, fills[i], MOST_BYTES - length);
        theirs(what, sheet, kept, refusal, place);
        theirs(what, sheet, kept + 1, refusal, place);
        theirs(what, sheet, CAMPAIGN_LONGEST_SHEET, refusal, place);
        theirs(what, sheet, MOST_BYTES, refusal, place);
    }
}

static void long_sheets(void)
{
    static char sheet[MOST_BYTES];
    size_t length = row_of_16(sheet);
    expect("a row's length", (uint32_t) length, 0, 0, 18 + 16 * 12 + 120 * 10 + 4 * 6 + (16 + 15 + 14 + 13) * 4);
    theirs("a row of 16", sheet, length, 0, 0);
    ours("a row of 16", sheet, length, 0, 0);
    theirs("a row of 16, a byte too few", sheet, length - 1, PARTNER_FORM, 1 + 16 + 120 + 4);
    cut("a row of 16, and more", sheet, length, PARTNER_FORM, 1 + 16 + 120 + 4 + 1);
    length = many_links(sheet, 256);
    theirs("256 links", sheet, length, PARTNER_CIRCLE, 1);
    ours("256 links", sheet, length, CAMPAIGN_CIRCLE, 1);
    cut("256 links, and more", sheet, length, PARTNER_FORM, 1 + 16 + 256 + 4 + 1);
    length = many_links(sheet, 512);
    expect("the longest text's length", (uint32_t) length, 0, 0, PARTNER_LONGEST_SHEET);
    theirs("512 links", sheet, length, PARTNER_NUMBER, 1 + 16 + 257);
    ours("512 links", sheet, length, CAMPAIGN_NUMBER, 1 + 16 + 257);
    cut("512 links, and more", sheet, length, PARTNER_NUMBER, 1 + 16 + 257);
    length = add_front(sheet, 17, 0, 1, "C");
    cut("17 bookings, and more", sheet, length, PARTNER_TOO_LARGE, 1);
}

/* Sheets with a fault, and others: both calls. */

/* Each sheet made by hand, cut at every byte, and with every byte replaced. */
static void damaged(void)
{
    static const char bytes[] = {' ', '0', '1', '2', '6', '7', '\n', 'P', 'B', 'L', 'A', 'R', '\0', '\xFF'};
    char sheet[256];
    for (size_t i = 0; i < sizeof alike / sizeof alike[0] && faults == 0; i++) {
        size_t length = strlen(alike[i].sheet);
        memcpy(sheet, alike[i].sheet, length);
        for (size_t at = 0; at < length; at++) {
            both("a sheet that is cut", sheet, at);
            for (size_t j = 0; j < sizeof bytes; j++) {
                sheet[at] = bytes[j];
                both("a byte replaced", sheet, length);
            }
            sheet[at] = alike[i].sheet[at];
        }
    }
}

/* For each booking those that are linked to it; few links go back, which makes a circle. */
static int draw_links(int bookings, uint64_t before[])
{
    uint32_t rare = 1 + drawn(8);
    int links = 0;
    for (int v = 1; v <= bookings; v++) {
        before[v] = 0;
        for (int u = 1; u <= bookings; u++)
            if (drawn(u < v ? rare : 2000) == 0) {
                before[v] |= bit(u);
                links++;
            }
    }
    return links;
}

/* A way with some of the bookings and, but for one in forty, all that come before them. */
static uint64_t draw_way(int bookings, const uint64_t before[])
{
    uint32_t some = 1 + drawn(4);
    bool closed = drawn(40) != 0;
    uint64_t set = 0;
    for (int booking = bookings; booking >= 1; booking--) {
        if (drawn(4) < some)
            set |= bit(booking);
        if (closed && (set & bit(booking)) != 0)
            set |= before[booking];
    }
    return set;
}

static size_t draw_sheet(char *sheet)
{
    static const char *const kinds[] = {"C", "CD", "CPRD", "DDDDR", "CDDDR", "DDDDPR"};
    uint64_t before[20];
    int bookings = 1 + (int) drawn(18), ways = 1 + (int) drawn(5);
    int links = draw_links(bookings, before);
    size_t at = add_front(sheet, bookings, links, ways, kinds[drawn(6)]);
    for (int u = 1; u <= bookings; u++)
        for (int v = 1; v <= bookings; v++)
            if ((before[v] & bit(u)) != 0)
                at += (size_t) sprintf(sheet + at, "L%4d%4d\n", u, v);
    for (int way = 1; way <= ways; way++)
        at += put_way(sheet + at, draw_way(bookings, before));
    return at;
}

/* Each refusal that such sheets can have must come up, else nothing was compared. */
static void drawn_sheets(void)
{
    static const int wanted[] = {0, PARTNER_COUNT, PARTNER_CIRCLE, PARTNER_WAY_NOT_CLOSED, PARTNER_UNUSED,
                                 PARTNER_WAY_TWICE, PARTNER_STRANDING, PARTNER_TOO_LARGE};
    static char sheet[CAMPAIGN_LONGEST_SHEET];
    int seen[PARTNER_TOO_LARGE + 1] = {0};
    for (int i = 0; i < 20000 && faults == 0; i++)
        seen[both("a drawn sheet", sheet, draw_sheet(sheet))]++;
    for (size_t i = 0; i < sizeof wanted / sizeof wanted[0]; i++)
        if (faults == 0 && seen[wanted[i]] < 20) {
            fprintf(stderr, "partner: refusal %d came up %d times\n", wanted[i], seen[wanted[i]]);
            faults++;
        }
}

/* A file's sheet, and what a gateway reads of it. */
static void put_file(const char *path)
{
    static char sheet[MOST_BYTES];
    FILE *file = fopen(path, "rb");
    if (file == NULL) {
        perror(path);
        exit(2);
    }
    size_t length = fread(sheet, 1, sizeof sheet, file);
    if (ferror(file) || length == sizeof sheet) {
        fprintf(stderr, "partner: %s: can't be read whole\n", path);
        exit(2);
    }
    fclose(file);
    both(path, sheet, length);
    if (length > PARTNER_LONGEST_SHEET + 1)
        both(path, sheet, PARTNER_LONGEST_SHEET + 1);
}

int main(int count, char **paths)
{
    if (count < 2) {
        fprintf(stderr, "usage: partner PLANFILE..\n");
        return 2;
    }
    made_by_hand();
    heads();
    every_size();
    long_sheets();
    damaged();
    drawn_sheets();
    for (int i = 1; i < count; i++)
        put_file(paths[i]);
    return faults == 0 ? 0 : 1;
}

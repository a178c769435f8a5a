/* Put between dispatcher and library: an answer that is wrong in one way, drawn
   from env LIE. The dispatcher must notice each. */
#include "campaign.h"

#include <stdio.h>
#include <stdlib.h>
#include <string.h>

uint32_t __real_campaign_next_order(const uint8_t *sheet, size_t sheet_len, uint8_t *state, size_t state_len);
uint32_t __real_campaign_reply(const uint8_t *sheet, size_t sheet_len, uint8_t *state, size_t state_len,
                               uint8_t letter, uint32_t booking);
uint32_t __real_campaign_reply_block(const uint8_t *sheet, size_t sheet_len, const uint8_t *block, size_t block_len,
                                     uint8_t *state, size_t state_len);
uint32_t __real_campaign_passed_ways(const uint8_t *sheet, size_t sheet_len, const uint8_t *state, size_t state_len,
                                     uint8_t *listing, size_t listing_len);
uint32_t __real_campaign_journal_line(uint8_t letter, uint32_t booking, uint8_t *line, size_t line_len);
uint32_t __real_campaign_restart(const uint8_t *sheet, size_t sheet_len, const uint8_t *journal, size_t journal_len,
                                 uint8_t *state, size_t state_len);
uint32_t __real_campaign_settle(const uint8_t *sheet, size_t sheet_len, const uint8_t *fees, size_t fees_len,
                                const uint8_t *journal, size_t journal_len, uint8_t *report, size_t report_len);
uint32_t __wrap_campaign_next_order(const uint8_t *sheet, size_t sheet_len, uint8_t *state, size_t state_len);
uint32_t __wrap_campaign_reply(const uint8_t *sheet, size_t sheet_len, uint8_t *state, size_t state_len,
                               uint8_t letter, uint32_t booking);
uint32_t __wrap_campaign_reply_block(const uint8_t *sheet, size_t sheet_len, const uint8_t *block, size_t block_len,
                                     uint8_t *state, size_t state_len);
uint32_t __wrap_campaign_passed_ways(const uint8_t *sheet, size_t sheet_len, const uint8_t *state, size_t state_len,
                                     uint8_t *listing, size_t listing_len);
uint32_t __wrap_campaign_journal_line(uint8_t letter, uint32_t booking, uint8_t *line, size_t line_len);
uint32_t __wrap_campaign_restart(const uint8_t *sheet, size_t sheet_len, const uint8_t *journal, size_t journal_len,
                                 uint8_t *state, size_t state_len);
uint32_t __wrap_campaign_settle(const uint8_t *sheet, size_t sheet_len, const uint8_t *fees, size_t fees_len,
                                const uint8_t *journal, size_t journal_len, uint8_t *report, size_t report_len);

static int lie_is(const char *lie)
{
    const char *told = getenv("LIE");
    return told != NULL && strcmp(told, lie) == 0;
}

static uint32_t packed(uint32_t kind, uint32_t place)
{
    return kind << 24 | place;
}

/* The same sheet with a limit that no desk reaches: the head's last number, columns 14 to 17. */
static const uint8_t *without_limit(const uint8_t *sheet, size_t sheet_len)
{
    static uint8_t loose[CAMPAIGN_LONGEST_SHEET];
    memcpy(loose, sheet, sheet_len);
    memcpy(loose + 13, "  64", 4);
    return loose;
}

static int overfills(uint32_t kind)
{
    return (kind == CAMPAIGN_REQUEST && lie_is("requests though a desk is full"))
        || (kind == CAMPAIGN_RETURN && lie_is("returns though a desk is full")) || lie_is("forgets the limit");
}

static uint32_t next_order(const uint8_t *sheet, size_t sheet_len, uint8_t *state, size_t state_len)
{
    uint8_t after[CAMPAIGN_STATE_LENGTH];
    memcpy(after, state, sizeof after);
    uint32_t answer = __real_campaign_next_order(without_limit(sheet, sheet_len), sheet_len, after, sizeof after);
    if (!overfills(campaign_kind_of(answer)))
        return __real_campaign_next_order(sheet, sheet_len, state, state_len);
    memcpy(state, after, sizeof after);
    return answer;
}

uint32_t __wrap_campaign_next_order(const uint8_t *sheet, size_t sheet_len, uint8_t *state, size_t state_len)
{
    uint32_t answer = next_order(sheet, sheet_len, state, state_len);
    uint32_t kind = campaign_kind_of(answer);
    if (lie_is("flown too early") && kind == CAMPAIGN_WAIT)
        return packed(CAMPAIGN_FLOWN, 1);
    if (lie_is("another way") && kind == CAMPAIGN_FLOWN)
        return packed(CAMPAIGN_FLOWN, campaign_place_of(answer) + 1);
    if (lie_is("called off while held") && kind == CAMPAIGN_FLOWN)
        return packed(CAMPAIGN_CALLED_OFF, 0);
    if (lie_is("waits for ever") && (kind == CAMPAIGN_FLOWN || kind == CAMPAIGN_CALLED_OFF))
        return packed(CAMPAIGN_WAIT, 0);
    if (lie_is("asks the wrong desk") && kind == CAMPAIGN_REQUEST)
        return answer + 1;
    if (lie_is("never changes the state") && kind == CAMPAIGN_REQUEST)
        state[campaign_place_of(answer)] = CAMPAIGN_FREE;
    if (lie_is("writes while it waits") && kind == CAMPAIGN_WAIT)
        state[1] ^= 1;
    return answer;
}

uint32_t __wrap_campaign_reply(const uint8_t *sheet, size_t sheet_len, uint8_t *state, size_t state_len,
                               uint8_t letter, uint32_t booking)
{
    uint32_t answer = __real_campaign_reply(sheet, sheet_len, state, state_len, letter, booking);
    if (lie_is("takes every reply") && campaign_kind_of(answer) == CAMPAIGN_REFUSED)
        return packed(CAMPAIGN_ACCEPTED, booking & 0xFFFFu);
    if (lie_is("changes way too early") && letter == CAMPAIGN_DECLINED && campaign_kind_of(answer) == CAMPAIGN_ACCEPTED)
        state[0]++;
    if (lie_is("loses what can be asked for again") && letter == CAMPAIGN_DECLINED
        && campaign_kind_of(answer) == CAMPAIGN_ACCEPTED && state[booking] == CAMPAIGN_FREE)
        state[booking] = CAMPAIGN_LOST;
    return answer;
}

/* Other replies are taken than the answer says. */
static void take_wrongly(const uint8_t *sheet, size_t sheet_len, const uint8_t *block, size_t block_len,
                         uint8_t *state, const uint8_t before[CAMPAIGN_STATE_LENGTH], uint32_t answer)
{
    const size_t line = CAMPAIGN_BLOCK_LINE_LENGTH, length = CAMPAIGN_STATE_LENGTH;
    size_t kept = campaign_kept_of(answer);
    int refused = campaign_kind_of(answer) == CAMPAIGN_REFUSED;
    if (lie_is("keeps one fewer than it says") && kept > 0) {
        memcpy(state, before, length);
        __real_campaign_reply_block(sheet, sheet_len, block, (kept - 1) * line, state, length);
    }
    if (lie_is("keeps one past the bad line") && refused && (kept + 2) * line <= block_len)
        __real_campaign_reply_block(sheet, sheet_len, block + (kept + 1) * line, line, state, length);
    if (lie_is("undoes what came before a bad line") && refused)
        memcpy(state, before, length);
    if (lie_is("takes nothing of a block") && !refused)
        memcpy(state, before, length);
    if (lie_is("does not change the way within a block"))
        state[0] = before[0];
    if (lie_is("writes into the block") && kept > 0)
        ((uint8_t *) block)[0] ^= 'Y' ^ 'N';
}

uint32_t __wrap_campaign_reply_block(const uint8_t *sheet, size_t sheet_len, const uint8_t *block, size_t block_len,
                                     uint8_t *state, size_t state_len)
{
    uint8_t before[CAMPAIGN_STATE_LENGTH];
    memcpy(before, state, sizeof before);
    uint32_t answer = __real_campaign_reply_block(sheet, sheet_len, block, block_len, state, state_len);
    int refused = campaign_kind_of(answer) == CAMPAIGN_REFUSED;
    take_wrongly(sheet, sheet_len, block, block_len, state, before, answer);
    if (lie_is("says a number too low") && !refused)
        return answer - 1;
    if (lie_is("says a number too high") && !refused)
        return answer + 1;
    if (lie_is("says the booking, not the number") && !refused)
        return packed(CAMPAIGN_ACCEPTED, (uint32_t) (block[block_len - 2] - '0'));
    if (lie_is("names the line after the bad one") && refused)
        return answer + 1;
    if (lie_is("counts the bad line from 0") && refused)
        return answer - 1;
    if (lie_is("calls each bad line misformed") && refused)
        return (uint32_t) CAMPAIGN_FORM << 16 | campaign_place_of(answer);
    if (lie_is("calls each bad line a misfit") && refused)
        return (uint32_t) CAMPAIGN_MISFIT << 16 | campaign_place_of(answer);
    if (lie_is("accepts a block with a bad line") && refused)
        return packed(CAMPAIGN_ACCEPTED, campaign_kept_of(answer));
    if (lie_is("refuses a right block") && !refused)
        return (uint32_t) CAMPAIGN_MISFIT << 16 | (campaign_place_of(answer) + 1);
    if (lie_is("takes the first reply alone") && !refused && block_len > CAMPAIGN_BLOCK_LINE_LENGTH) {
        memcpy(state, before, sizeof before);
        return __real_campaign_reply_block(sheet, sheet_len, block, CAMPAIGN_BLOCK_LINE_LENGTH, state, state_len);
    }
    return answer;
}

uint32_t __wrap_campaign_journal_line(uint8_t letter, uint32_t booking, uint8_t *line, size_t line_len)
{
    if (lie_is("writes another letter") && letter == CAMPAIGN_DECLINED)
        letter = CAMPAIGN_CONFIRMED;
    if (lie_is("writes another booking"))
        booking = booking % CAMPAIGN_MOST_BOOKINGS + 1;
    uint32_t answer = __real_campaign_journal_line(letter, booking, line, line_len);
    if (lie_is("writes the number to the left")) {
        line[1] = line[4];
        line[4] = ' ';
    }
    if (lie_is("writes no line feed"))
        line[5] = 0;
    if (lie_is("writes a line too short"))
        return answer - 1;
    return answer;
}

uint32_t __wrap_campaign_restart(const uint8_t *sheet, size_t sheet_len, const uint8_t *journal, size_t journal_len,
                                 uint8_t *state, size_t state_len)
{
    const size_t line = CAMPAIGN_JOURNAL_LINE_LENGTH;
    size_t whole = journal_len - journal_len % line;
    if (lie_is("drops the last line") && whole > 0)
        journal_len = whole - line;
    if (lie_is("drops the first line") && whole > 0) {
        journal += line;
        journal_len -= line;
    }
    if (lie_is("forgets the limit"))
        sheet = without_limit(sheet, sheet_len);
    uint32_t answer = __real_campaign_restart(sheet, sheet_len, journal, journal_len, state, state_len);
    uint32_t refusal = campaign_refusal_of(answer);
    uint32_t place = campaign_place_of(answer);
    if (lie_is("takes a wrong line") && refusal == CAMPAIGN_WRONG_LINE)
        return __real_campaign_restart(sheet, sheet_len, journal, (place - 1) * line, state, state_len);
    if (lie_is("names another line") && refusal == CAMPAIGN_WRONG_LINE)
        return answer + 1;
    if (lie_is("refuses for another reason") && refusal == CAMPAIGN_WRONG_LINE)
        return (uint32_t) CAMPAIGN_UNSOUND << 16;
    if (lie_is("writes though it refuses") && refusal == CAMPAIGN_WRONG_LINE)
        state[state_len - 1] = 0;
    if (lie_is("refuses a tail") && journal_len != whole)
        return (uint32_t) CAMPAIGN_WRONG_LINE << 16 | (uint32_t) (whole / line + 1);
    if (lie_is("refuses a right journal") && refusal == 0 && whole > 0)
        return (uint32_t) CAMPAIGN_WRONG_LINE << 16 | 1;
    if (lie_is("forgets the way") && refusal == 0)
        state[0] = 1;
    if (lie_is("forgets what is open") && refusal == 0)
        for (size_t i = 1; i < state_len; i++)
            if (state[i] == CAMPAIGN_REQUESTED || state[i] == CAMPAIGN_RETURNING)
                state[i] = CAMPAIGN_FREE;
    if (lie_is("writes no state") && refusal == 0)
        memset(state, 0xA5, state_len);
    return answer;
}

/* Texts in columns. */

static unsigned long number_in(const uint8_t *columns, size_t count)
{
    char text[16] = "";
    memcpy(text, columns, count);
    return strtoul(text, NULL, 10);
}

static void write_number(uint8_t *columns, int count, unsigned long number)
{
    char text[32];
    snprintf(text, sizeof text, "%*lu", count, number);
    memcpy(columns, text, (size_t) count);
}

static void add_to(uint8_t *columns, int count, int more)
{
    unsigned long number = number_in(columns, (size_t) count);
    write_number(columns, count, more < 0 && number == 0 ? 0 : number + (unsigned long) more);
}

static void exchange(uint8_t *one, uint8_t *other, size_t count)
{
    uint8_t kept[CAMPAIGN_WAY_LINE_LENGTH];
    memcpy(kept, one, count);
    memcpy(one, other, count);
    memcpy(other, kept, count);
}

/* The story. Column 1 begins the way, 5 is the letter, 6 begins the booking. */

/* The last booking that is lost, of whatever way. */
static unsigned long last_lost(const uint8_t *state)
{
    unsigned long booking = CAMPAIGN_MOST_BOOKINGS;
    while (booking > 0 && state[booking] != CAMPAIGN_LOST)
        booking--;
    return booking;
}

static void tell_line_wrongly(uint8_t *line, const uint8_t *state)
{
    int lacks = line[5] == CAMPAIGN_WAY_LACKS;
    if (lie_is("tells what is held as lost") && lacks)
        line[5] = CAMPAIGN_WAY_LOST;
    if (lie_is("tells what is lost as held") && !lacks)
        line[5] = CAMPAIGN_WAY_LACKS;
    if (lie_is("tells another lost booking") && !lacks)
        write_number(line + 6, 4, last_lost(state));
    if (lie_is("tells another held booking") && lacks)
        add_to(line + 6, 4, 1);
    if (lie_is("tells the ways from 0"))
        add_to(line + 1, 4, -1);
    if (lie_is("tells the bookings to the left"))
        exchange(line + 6, line + 9, 1);
    if (lie_is("tells with another first letter"))
        line[0] = 'W';
    if (lie_is("tells without line feeds"))
        line[10] = ' ';
}

/* What follows the lines that stay is as it was before the call. */
static uint32_t tell_fewer_lines(uint8_t *listing, size_t length, const uint8_t *before, size_t fewer)
{
    memcpy(listing + length - fewer, before + length - fewer, fewer);
    return packed(CAMPAIGN_ACCEPTED, (uint32_t) (length - fewer));
}

static uint32_t tell_other_lines(uint8_t *listing, size_t length, const uint8_t *before, const uint8_t *state)
{
    const size_t line = CAMPAIGN_PASSED_LINE_LENGTH;
    if (lie_is("leaves out the first way")) {
        memmove(listing, listing + line, length - line);
        return tell_fewer_lines(listing, length, before, line);
    }
    if (lie_is("leaves out the way before the current one"))
        return tell_fewer_lines(listing, length, before, line);
    if (lie_is("tells nothing when called off") && state[0] == 0)
        return tell_fewer_lines(listing, length, before, length);
    if (lie_is("tells the ways from the last"))
        exchange(listing, listing + length - line, line);
    if (lie_is("tells the current way too") && state[0] != 0) {
        memcpy(listing + length, listing + length - line, line);
        write_number(listing + length + 1, 4, state[0]);
        return packed(CAMPAIGN_ACCEPTED, (uint32_t) (length + line));
    }
    return packed(CAMPAIGN_ACCEPTED, (uint32_t) length);
}

static uint32_t tell_wrongly(uint8_t *listing, size_t length, const uint8_t *before, const uint8_t *state)
{
    const size_t line = CAMPAIGN_PASSED_LINE_LENGTH;
    for (size_t at = 0; at < length; at += line)
        tell_line_wrongly(listing + at, state);
    uint32_t answer = tell_other_lines(listing, length, before, state);
    if (lie_is("writes behind the listing"))
        listing[length] = '\n';
    if (lie_is("writes no listing"))
        memcpy(listing, before, length);
    if (lie_is("says a listing too long"))
        return answer + 1;
    if (lie_is("says a listing too short"))
        return answer - 1;
    if (lie_is("says the number of ways"))
        return packed(CAMPAIGN_ACCEPTED, (uint32_t) (length / line));
    if (lie_is("has no room for a listing"))
        return (uint32_t) CAMPAIGN_SHORT_BUFFER << 16;
    return answer;
}

uint32_t __wrap_campaign_passed_ways(const uint8_t *sheet, size_t sheet_len, const uint8_t *state, size_t state_len,
                                     uint8_t *listing, size_t listing_len)
{
    uint8_t before[CAMPAIGN_LONGEST_LISTING];
    memcpy(before, listing, listing_len);
    uint32_t answer = __real_campaign_passed_ways(sheet, sheet_len, state, state_len, listing, listing_len);
    size_t length = campaign_place_of(answer);
    if (lie_is("refuses an empty listing") && length == 0)
        return (uint32_t) CAMPAIGN_UNSOUND << 16;
    if (lie_is("writes for an empty listing") && length == 0)
        listing[0] = 'V';
    if (lie_is("changes the state that it tells of") && length > 0)
        ((uint8_t *) state)[CAMPAIGN_STATE_LENGTH - 1] ^= 1;
    if (campaign_kind_of(answer) != CAMPAIGN_ACCEPTED || length == 0)
        return answer;
    return tell_wrongly(listing, length, before, state);
}

/* Bills. */

/* How many lines with this letter the journal has for a booking. */
static unsigned long lines_of(uint8_t letter, unsigned long booking, const uint8_t *journal, size_t length)
{
    const size_t line = CAMPAIGN_JOURNAL_LINE_LENGTH;
    unsigned long count = 0;
    for (size_t at = 0; at + line <= length; at += line)
        count += journal[at] == letter && number_in(journal + at + 1, 4) == booking;
    return count;
}

/* How many bookings and ways a sheet has, by its head. */
struct size {
    size_t bookings, ways;
};

static struct size size_of(const uint8_t *sheet)
{
    return (struct size) {number_in(sheet + 1, 4), number_in(sheet + 9, 4)};
}

static uint8_t *way_line(uint8_t *report, struct size size, size_t way)
{
    return report + size.bookings * CAMPAIGN_SETTLED_LINE_LENGTH + (way - 1) * CAMPAIGN_WAY_LINE_LENGTH;
}

static uint32_t length_of(struct size size)
{
    return (uint32_t) (size.bookings * CAMPAIGN_SETTLED_LINE_LENGTH + size.ways * CAMPAIGN_WAY_LINE_LENGTH
                       + CAMPAIGN_TOTAL_LINE_LENGTH);
}

/* Columns 5 and 11 begin the counts, 17 and 29 the amounts. */
static void bill_bookings_wrongly(uint8_t *report, struct size size, const uint8_t *journal, size_t journal_len)
{
    const size_t line = CAMPAIGN_SETTLED_LINE_LENGTH;
    for (size_t i = 0; i < size.bookings; i++) {
        uint8_t *at = report + i * line;
        if (lie_is("bills a confirmation too many"))
            add_to(at + 5, 6, 1);
        if (lie_is("bills a return too few"))
            add_to(at + 11, 6, -1);
        if (lie_is("bills what was kept"))
            add_to(at + 11, 6, (int) lines_of(CAMPAIGN_KEPT, i + 1, journal, journal_len));
        if (lie_is("bills what was refused"))
            add_to(at + 5, 6, (int) lines_of(CAMPAIGN_DECLINED, i + 1, journal, journal_len));
        if (lie_is("bills an amount too high"))
            add_to(at + 17, 12, 1);
        if (lie_is("bills a greatest amount too high"))
            add_to(at + 29, 12, 1);
        if (lie_is("swaps the amounts of a booking"))
            exchange(at + 17, at + 29, 12);
        if (lie_is("bills each booking at the least fees alone"))
            memcpy(at + 29, at + 17, 12);
    }
    if (lie_is("bills the last booking at the first"))
        exchange(report + 17, report + (size.bookings - 1) * line + 17, 24);
}

/* Column 1 begins the way's number, 5 and 17 the sums; in the last line 1 and 13 the totals. */
static void bill_ways_wrongly(uint8_t *report, struct size size)
{
    const uint8_t *total = way_line(report, size, size.ways + 1);
    for (size_t way = 1; way <= size.ways; way++) {
        uint8_t *at = way_line(report, size, way);
        if (lie_is("swaps the sums of a way"))
            exchange(at + 5, at + 17, 12);
        if (lie_is("sums up a way one too high"))
            add_to(at + 5, 12, 1);
        if (lie_is("sums up a way one too low at the greatest fees"))
            add_to(at + 17, 12, -1);
        if (lie_is("sums up a way at the least fees alone"))
            memcpy(at + 17, at + 5, 12);
        if (lie_is("sums up for a way what was done"))
            memcpy(at + 5, total + 1, 24);
        if (lie_is("counts the ways from 0"))
            write_number(at + 1, 4, way - 1);
    }
    if (lie_is("gives a way the sums of another"))
        exchange(way_line(report, size, 1) + 5, way_line(report, size, size.ways) + 5, 24);
    if (lie_is("writes the ways in another order"))
        exchange(way_line(report, size, 1), way_line(report, size, size.ways), CAMPAIGN_WAY_LINE_LENGTH);
}

static void bill_total_wrongly(uint8_t *report, struct size size)
{
    uint8_t *total = way_line(report, size, size.ways + 1);
    if (lie_is("bills another total"))
        add_to(total + 1, 12, 1);
    if (lie_is("bills another greatest total"))
        add_to(total + 13, 12, 1);
    if (lie_is("swaps the totals"))
        exchange(total + 1, total + 13, 12);
    if (lie_is("bills the least total twice"))
        memcpy(total + 13, total + 1, 12);
    if (lie_is("adds the ways to the total"))
        for (size_t way = 1; way <= size.ways; way++)
            add_to(total + 1, 12, (int) number_in(way_line(report, size, way) + 5, 12));
    if (lie_is("writes the total to the left"))
        memmove(total + 1, total + 2, 23);
    if (lie_is("writes behind the bill"))
        total[CAMPAIGN_TOTAL_LINE_LENGTH] = 0;
}

/* What follows the lines that are moved is as it was before the call. */
static uint32_t bill_in_other_lines(uint8_t *report, struct size size, const uint8_t *before, uint32_t answer)
{
    const size_t line = CAMPAIGN_WAY_LINE_LENGTH, last = CAMPAIGN_TOTAL_LINE_LENGTH;
    uint8_t *first = way_line(report, size, 1), *total = way_line(report, size, size.ways + 1);
    uint8_t kept[CAMPAIGN_TOTAL_LINE_LENGTH];
    memcpy(kept, total, last);
    if (lie_is("writes the ways after the total")) {
        memmove(first + last, first, size.ways * line);
        memcpy(first, kept, last);
    }
    if (lie_is("leaves out the last way") || lie_is("leaves out the ways")) {
        size_t ways = lie_is("leaves out the ways") ? size.ways : 1;
        uint8_t *to = total - ways * line;
        memcpy(to, kept, last);
        memcpy(to + last, before + (to + last - report), ways * line);
        return answer - (uint32_t) (ways * line);
    }
    return answer;
}

static uint32_t bill_wrongly(uint8_t *report, struct size size, const uint8_t *journal, size_t journal_len,
                             const uint8_t *before, uint32_t answer)
{
    bill_bookings_wrongly(report, size, journal, journal_len);
    bill_ways_wrongly(report, size);
    bill_total_wrongly(report, size);
    return bill_in_other_lines(report, size, before, answer);
}

/* Fee sheets. A line has the two quotes at columns 5 and 17, each a least and a greatest fee. */

enum { CONFIRMATION = 5, GIVING_BACK = 17, GREATEST = 6 };

static const char blank[] = "      ";

static int is_blank(const uint8_t *columns)
{
    return memcmp(columns, blank, 6) == 0;
}

static int crosses(const uint8_t *quote)
{
    return !is_blank(quote + GREATEST) && number_in(quote, 6) > number_in(quote + GREATEST, 6);
}

static int has_crossed(const uint8_t *line)
{
    return crosses(line + CONFIRMATION) || crosses(line + GIVING_BACK);
}

static int has_blank(const uint8_t *line)
{
    return is_blank(line + CONFIRMATION + GREATEST) || is_blank(line + GIVING_BACK + GREATEST);
}

static void change_quote(uint8_t *quote)
{
    uint8_t *greatest = quote + GREATEST;
    if (lie_is("bills the greatest at the least fees") || (lie_is("looks for crossed quotes last") && crosses(quote)))
        memcpy(greatest, blank, 6);
    if (lie_is("takes a blank for zero") && is_blank(greatest))
        write_number(greatest, 6, 0);
    if (lie_is("takes a blank for as much as there can be") && is_blank(greatest))
        write_number(greatest, 6, 999999);
    if (lie_is("takes a crossed quote") && crosses(quote))
        exchange(quote, greatest, 6);
}

/* The fee sheet as a library reads it that is wrong about fees. */
static const uint8_t *fees_read_wrongly(const uint8_t *fees, size_t fees_len)
{
    static uint8_t changed[CAMPAIGN_MOST_BOOKINGS * CAMPAIGN_FEE_LINE_LENGTH + 1];
    memcpy(changed, fees, fees_len);
    for (size_t at = 0; at + CAMPAIGN_FEE_LINE_LENGTH <= fees_len; at += CAMPAIGN_FEE_LINE_LENGTH) {
        uint8_t *line = changed + at;
        change_quote(line + CONFIRMATION);
        change_quote(line + GIVING_BACK);
        if (lie_is("bills at the other fee"))
            exchange(line + CONFIRMATION, line + GIVING_BACK, 12);
    }
    return changed;
}

/* The first line that has it; 0 if none has. */
static uint32_t first_with(int (*has)(const uint8_t *line), const uint8_t *fees, size_t fees_len)
{
    const size_t line = CAMPAIGN_FEE_LINE_LENGTH;
    for (size_t at = 0; at + line <= fees_len; at += line)
        if (has(fees + at))
            return (uint32_t) (at / line + 1);
    return 0;
}

static uint32_t refused_for(uint32_t refusal, uint32_t place)
{
    return refusal << 16 | place;
}

static uint32_t judge_fees_wrongly(const uint8_t *fees, size_t fees_len, struct size size, uint8_t *report, uint32_t answer)
{
    uint32_t refusal = campaign_refusal_of(answer), place = campaign_place_of(answer);
    int wrong = refusal == CAMPAIGN_WRONG_FEE, crossed = refusal == CAMPAIGN_CROSSED_QUOTE;
    uint32_t crossed_line = first_with(has_crossed, fees, fees_len), blank_line = first_with(has_blank, fees, fees_len);
    if (lie_is("refuses a right fee sheet") && refusal == 0)
        return refused_for(CAMPAIGN_WRONG_FEE, 1);
    if (lie_is("refuses a blank") && refusal == 0 && blank_line > 0)
        return refused_for(CAMPAIGN_WRONG_FEE, blank_line);
    if (lie_is("takes a wrong fee sheet") && wrong)
        return packed(CAMPAIGN_ACCEPTED, length_of(size));
    if (lie_is("names another line of the fees") && (wrong || crossed))
        return answer + 1;
    if (lie_is("calls wrong fees a wrong journal") && (wrong || crossed))
        return refused_for(CAMPAIGN_WRONG_LINE, place);
    if (lie_is("writes though it refuses the fees") && (wrong || crossed))
        report[0] = 'S';
    if (lie_is("calls a crossed quote misformed") && crossed)
        return refused_for(CAMPAIGN_WRONG_FEE, place);
    if (lie_is("calls a misformed line crossed") && wrong)
        return refused_for(CAMPAIGN_CROSSED_QUOTE, place);
    if (lie_is("looks for crossed quotes first") && wrong && crossed_line > 0)
        return refused_for(CAMPAIGN_CROSSED_QUOTE, crossed_line);
    if (lie_is("looks for crossed quotes first on a line") && wrong && crossed_line == place)
        return refused_for(CAMPAIGN_CROSSED_QUOTE, place);
    return answer;
}

uint32_t __wrap_campaign_settle(const uint8_t *sheet, size_t sheet_len, const uint8_t *fees, size_t fees_len,
                                const uint8_t *journal, size_t journal_len, uint8_t *report, size_t report_len)
{
    const size_t line = CAMPAIGN_JOURNAL_LINE_LENGTH;
    size_t whole = journal_len - journal_len % line;
    struct size size = size_of(sheet);
    uint8_t before[CAMPAIGN_LONGEST_REPORT];
    memcpy(before, report, report_len);
    if (lie_is("bills without the last line") && whole > 0)
        journal_len = whole - line;
    if (lie_is("bills the first lines of a long journal") && whole / line > CAMPAIGN_MOST_SETTLED_LINES)
        journal_len = CAMPAIGN_MOST_SETTLED_LINES * line;
    uint32_t answer = __real_campaign_settle(sheet, sheet_len, fees_read_wrongly(fees, fees_len), fees_len, journal,
                                             journal_len, report, report_len);
    uint32_t refusal = campaign_refusal_of(answer);
    if (refusal == 0)
        answer = bill_wrongly(report, size, journal, journal_len, before, answer);
    if (lie_is("says a bill too long") && refusal == 0)
        return answer + 1;
    if (lie_is("says the length without the ways") && refusal == 0)
        return answer - (uint32_t) (size.ways * CAMPAIGN_WAY_LINE_LENGTH);
    if (lie_is("calls a long journal wrong") && refusal == CAMPAIGN_LONG_JOURNAL)
        return refused_for(CAMPAIGN_WRONG_LINE, CAMPAIGN_MOST_SETTLED_LINES);
    return judge_fees_wrongly(fees, fees_len, size, report, answer);
}

#include "story.h"

#include <stdlib.h>
#include <string.h>

enum {
    LINE = CAMPAIGN_PASSED_LINE_LENGTH,
    /* Stands in a listing where nobody has written. */
    UNWRITTEN = 0xA5
};

/* What the listing must be. */

/* A text that grows; it has room for the longest listing. */
struct text {
    char at[CAMPAIGN_LONGEST_LISTING + 1];
    size_t length;
};

static unsigned lowest(uint64_t set)
{
    unsigned booking = 1;
    while (booking <= CAMPAIGN_MOST_BOOKINGS && (set >> (booking - 1) & 1) == 0)
        booking++;
    return booking;
}

static void write_line(struct text *text, unsigned way, char letter, unsigned booking)
{
    text->length += (size_t) snprintf(text->at + text->length, sizeof text->at - text->length, "V%4u%c%4u\n", way,
                                      letter, booking);
}

static void reckon(const struct books *books, struct text *text)
{
    const struct plan *plan = books->plan;
    unsigned current = books->code[0];
    unsigned last = current == 0 ? plan->ways : current - 1;
    text->length = 0;
    for (unsigned way = 1; way <= last; way++) {
        uint64_t lost = plan->way[way] & books_coded(books, CAMPAIGN_LOST);
        if (lost != 0)
            write_line(text, way, CAMPAIGN_WAY_LOST, lowest(lost));
        else
            write_line(text, way, CAMPAIGN_WAY_LACKS, lowest(books_held_firm(books) & ~plan->way[way]));
    }
}

/* What the library says. */

static bool unwritten_from(const struct story *story, size_t at)
{
    while (at < sizeof story->listing && story->listing[at] == UNWRITTEN)
        at++;
    return at == sizeof story->listing;
}

const char *story_ask(struct story *story, const uint8_t state[CAMPAIGN_STATE_LENGTH], const struct books *books)
{
    struct text text;
    uint8_t before[CAMPAIGN_STATE_LENGTH];
    memcpy(before, state, sizeof before);
    memset(story->listing, UNWRITTEN, sizeof story->listing);
    story->answer = campaign_passed_ways(books->plan->sheet, books->plan->length, state, CAMPAIGN_STATE_LENGTH,
                                         story->listing, CAMPAIGN_LONGEST_LISTING);
    reckon(books, &text);
    story->length = text.length;
    if (campaign_kind_of(story->answer) != CAMPAIGN_ACCEPTED || campaign_place_of(story->answer) != story->length)
        return "the ways that were passed over were not listed, or not as many";
    if (memcmp(story->listing, text.at, story->length) != 0)
        return "the listing is not why our books passed ways over";
    if (!unwritten_from(story, story->length))
        return "something was written behind the listing";
    return memcmp(before, state, sizeof before) == 0 ? NULL : "the listing changed the state";
}

/* In words. */

static unsigned number_in(const uint8_t columns[4])
{
    char text[5] = "";
    memcpy(text, columns, 4);
    return (unsigned) strtoul(text, NULL, 10);
}

/* Column 1 begins the way, 6 the booking; the letter is between them. */
static void write_words(const uint8_t line[LINE], FILE *out)
{
    unsigned way = number_in(line + 1);
    unsigned booking = number_in(line + 6);
    if (line[5] == CAMPAIGN_WAY_LOST)
        fprintf(out, "way %u is out: booking %u was refused\n", way, booking);
    else
        fprintf(out, "way %u is out: it has no place for booking %u, which is held and can't be given back\n", way,
                booking);
}

void story_write(const struct story *story, unsigned from, const char *front, FILE *out)
{
    for (const uint8_t *line = story->listing; line < story->listing + story->length; line += LINE) {
        if (number_in(line + 1) < from)
            continue;
        fputs(front, out);
        write_words(line, out);
    }
}

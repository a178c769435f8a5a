#include "block.h"

#include <inttypes.h>
#include <stdlib.h>
#include <string.h>

enum { LINE = CAMPAIGN_BLOCK_LINE_LENGTH, MOST_IN_COLUMNS = 9999 };

void block_open(struct block *block, const struct books *books)
{
    block->ahead = *books;
    block->dues = 0;
    block->count = 0;
}

bool block_has(const struct block *block, struct reply reply)
{
    return reply.order <= block->ahead.replies[reply.what.booking];
}

void block_add(struct block *block, struct reply reply, const char *name)
{
    bool due = books_fits(&block->ahead, reply.what);
    block->arrived[block->count++] = (struct arrived) {reply, name, due};
    block->dues += due;
    if (due)
        books_reply(&block->ahead, reply.what);
}

/* A reply that has no line, by its letter or its booking, goes in as it came: too long a number leaves no room for the
   line feed. */
static void write_line(struct entry reply, uint8_t *line)
{
    char text[16];
    if (campaign_kind_of(campaign_journal_line(reply.letter, reply.booking, line, LINE)) == CAMPAIGN_ACCEPTED)
        return;
    snprintf(text, sizeof text, "?%4" PRIu32 "\n", reply.booking);
    memcpy(line, text, LINE);
    line[0] = reply.letter;
}

uint8_t *block_lines(const struct block *block, size_t from)
{
    uint8_t *lines = malloc((block->count - from) * LINE);
    for (size_t i = from; lines != NULL && i < block->count; i++)
        write_line(block->arrived[i].reply.what, lines + (i - from) * LINE);
    return lines;
}

size_t block_first_bad(const struct block *block, size_t from)
{
    while (from < block->count && block->arrived[from].due)
        from++;
    return from;
}

uint32_t block_refusal(struct entry reply)
{
    return reply.booking > MOST_IN_COLUMNS ? CAMPAIGN_FORM : CAMPAIGN_MISFIT;
}

/* The journal: its lines in memory, and in a file if there is one. */
#ifndef JOURNAL_H
#define JOURNAL_H

#include "campaign.h"

#include <stdbool.h>

struct journal {
    const char *path; /* null: no file */
    int file;
    uint8_t *bytes; /* the lines, then the tail */
    size_t length;  /* of the whole lines */
    size_t tail;    /* bytes after them, 0 to 5 */
};

/* What a line says: an order or a reply. */
struct entry {
    uint8_t letter;
    uint32_t booking;
};

/*
 * Opens the file, or makes it, and reads all of it; changes none of its bytes.
 * Nobody else can open it until it is closed. Without a path the journal is
 * kept in memory alone. False, here and below, with a message on stderr.
 */
bool journal_open(struct journal *journal, const char *path);

/* Drops the tail, in the file too. */
bool journal_cut(struct journal *journal);

/* Adds so many lines. When it comes back they have reached the disk. */
bool journal_store(struct journal *journal, const uint8_t *lines, size_t count);

void journal_close(struct journal *journal);

size_t journal_lines(const struct journal *journal);

/* Reads a line's six bytes; false if they are not of its form. */
bool journal_read(const uint8_t line[CAMPAIGN_JOURNAL_LINE_LENGTH], struct entry *entry);

/* The same of a line of the journal, counted from 1. */
bool journal_entry(const struct journal *journal, size_t line, struct entry *entry);

#endif

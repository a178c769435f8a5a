/* What the planning programs share: sheets read and written, and refusals in words. Nothing here asks for a heap. */
#ifndef SHEETS_H
#define SHEETS_H

#include "campaign.h"

#include <stdbool.h>

enum status {
    DONE = 0,
    REFUSED = 1,
    FAILED = 2 /* nothing was judged, or the result could not be written */
};

/* A file's sheet, with room for one byte more than any sheet in order has: what lies behind can't change an answer and
   is not read. */
struct sheet {
    const char *name;
    size_t length;
    uint8_t bytes[CAMPAIGN_LONGEST_SHEET + 1];
};

/* The program's own name: what it tells begins with it. */
extern const char program[];

/* From a file, or from standard input if the path is -. False if it can't be read, and that is told. */
bool sheet_read(struct sheet *sheet, const char *path);

/* To standard output. */
enum status sheet_write(const uint8_t *bytes, size_t length);

/* A number of a head line that is in order. */
enum head_number { BOOKINGS, LINKS, WAYS, MATTERS };
unsigned sheet_number(const struct sheet *sheet, enum head_number which);

/* On standard error: what could not be read or written, with the reason in errno; and a sheet's refusal in words. */
enum status tell_failure(const char *what);
enum status tell_refusal(const char *name, uint32_t refusal, uint32_t place);

#endif

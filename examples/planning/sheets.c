#define _POSIX_C_SOURCE 200809L
#include "sheets.h"

#include <errno.h>
#include <fcntl.h>
#include <stdio.h>
#include <string.h>
#include <unistd.h>

enum status tell_failure(const char *what)
{
    fprintf(stderr, "%s: %s: %s\n", program, what, strerror(errno));
    return FAILED;
}

/* A read may give less than there is, so it goes on until the file ends or the buffer is full. */
static bool read_bytes(int file, struct sheet *sheet)
{
    sheet->length = 0;
    while (sheet->length < sizeof sheet->bytes) {
        ssize_t got = read(file, sheet->bytes + sheet->length, sizeof sheet->bytes - sheet->length);
        if (got == 0)
            return true;
        if (got > 0)
            sheet->length += (size_t) got;
        else if (errno != EINTR)
            return false;
    }
    return true;
}

/* The file is closed again: it may have got the number of a standard input that was closed. */
bool sheet_read(struct sheet *sheet, const char *path)
{
    bool is_input = strcmp(path, "-") == 0;
    int file = is_input ? STDIN_FILENO : open(path, O_RDONLY);
    sheet->name = is_input ? "standard input" : path;
    if (file < 0 || !read_bytes(file, sheet)) {
        tell_failure(sheet->name);
        return false;
    }
    if (!is_input)
        close(file);
    return true;
}

enum status sheet_write(const uint8_t *bytes, size_t length)
{
    while (length > 0) {
        ssize_t put = write(STDOUT_FILENO, bytes, length);
        if (put < 0 && errno != EINTR)
            return tell_failure("standard output");
        if (put > 0) {
            bytes += put;
            length -= (size_t) put;
        }
    }
    return DONE;
}

unsigned sheet_number(const struct sheet *sheet, enum head_number which)
{
    const uint8_t *columns = sheet->bytes + 1 + 4 * which;
    unsigned value = 0;
    for (int i = 0; i < 4; i++)
        if (columns[i] != ' ')
            value = value * 10 + (unsigned) (columns[i] - '0');
    return value;
}

static const char *before_place(uint32_t refusal)
{
    switch (refusal) {
    case CAMPAIGN_FORM: return "the sheet ends early, goes on too long, or has a malformed line: line";
    case CAMPAIGN_COUNT: return "a count or the most matters per desk is outside its limits: line";
    case CAMPAIGN_NUMBER: return "a number is out of sequence, not rising, no booking, or no desk: line";
    case CAMPAIGN_CIRCLE: return "links run in a circle: a booking comes before itself: booking";
    case CAMPAIGN_WAY_NOT_CLOSED: return "a way lacks what comes before one of its bookings: way";
    case CAMPAIGN_UNUSED: return "a booking is in no way: booking";
    case CAMPAIGN_WAY_TWICE: return "a way equals an earlier one: way";
    default: return "a number this program does not know, with place";
    }
}

enum status tell_refusal(const char *name, uint32_t refusal, uint32_t place)
{
    fprintf(stderr, "%s: %s: refusal %u: ", program, name, (unsigned) refusal);
    if (refusal == CAMPAIGN_STRANDING)
        fprintf(stderr, "the campaign could be stranded, if booking %u is refused on way %u\n",
                (unsigned) campaign_stranded_booking(place), (unsigned) campaign_stranded_way(place));
    else
        fprintf(stderr, "%s %u\n", before_place(refusal), (unsigned) place);
    return REFUSED;
}

/*
 * A partner range's gateway: is this a plan sheet that our range takes, and that
 * cannot strand?
 *
 *     gateway [FILE]      without a file, standard input
 *
 * Accepted is said on standard output, a refusal in words on standard error. The
 * program asks for no heap, as the check does not.
 */
#define _POSIX_C_SOURCE 200809L
#include "partner.h"

#include <errno.h>
#include <fcntl.h>
#include <stdbool.h>
#include <stdio.h>
#include <string.h>
#include <unistd.h>

enum status {
    ACCEPTED = 0,
    REFUSED = 1,
    FAILED = 2 /* nothing was judged, or it could not be said */
};

/* One byte more than any accepted sheet has: what lies behind can't change the answer and is not read. */
static uint8_t sheet[PARTNER_LONGEST_SHEET + 1];

static enum status fail(const char *what)
{
    fprintf(stderr, "gateway: %s: %s\n", what, strerror(errno));
    return FAILED;
}

/* A read may give less than there is, so it goes on until the file ends or the buffer is full. */
static bool read_sheet(int file, size_t *length)
{
    *length = 0;
    while (*length < sizeof sheet) {
        ssize_t got = read(file, sheet + *length, sizeof sheet - *length);
        if (got == 0)
            return true;
        if (got > 0)
            *length += (size_t) got;
        else if (errno != EINTR)
            return false;
    }
    return true;
}

/* A number of the head line, which was found to be of its form: four columns with spaces in front. */
static unsigned head_number(size_t column)
{
    unsigned value = 0;
    for (size_t at = column; at < column + 4; at++)
        if (sheet[at] != ' ')
            value = value * 10 + (unsigned) (sheet[at] - '0');
    return value;
}

static const char *before_place(uint32_t refusal)
{
    switch (refusal) {
    case PARTNER_FORM: return "the sheet ends early, goes on too long, or has a malformed line: line";
    case PARTNER_COUNT: return "a count or the most matters per desk is outside its limits: line";
    case PARTNER_NUMBER: return "a number is out of sequence, not rising, no booking, or no desk: line";
    case PARTNER_CIRCLE: return "links run in a circle: a booking comes before itself: booking";
    case PARTNER_WAY_NOT_CLOSED: return "a way lacks what comes before one of its bookings: way";
    case PARTNER_UNUSED: return "a booking is in no way: booking";
    case PARTNER_WAY_TWICE: return "a way equals an earlier one: way";
    default: return "a number this program does not know, with place";
    }
}

static enum status refuse(const char *name, uint32_t refusal, uint32_t place)
{
    fprintf(stderr, "gateway: %s: refusal %u: ", name, (unsigned) refusal);
    if (refusal == PARTNER_TOO_LARGE)
        fprintf(stderr, "more bookings or ways than this range takes (%d and %d): the sheet has %u and %u\n",
                PARTNER_MOST_BOOKINGS, PARTNER_MOST_WAYS, head_number(1), head_number(9));
    else if (refusal == PARTNER_STRANDING)
        fprintf(stderr, "the campaign could be stranded, if booking %u is refused on way %u\n",
                (unsigned) partner_stranded_booking(place), (unsigned) partner_stranded_way(place));
    else
        fprintf(stderr, "%s %u\n", before_place(refusal), (unsigned) place);
    return REFUSED;
}

/* Unbuffered, so a write that fails is seen here, and no buffer comes from the heap. */
static enum status say_accepted(void)
{
    setvbuf(stdout, NULL, _IONBF, 0);
    return fputs("accepted\n", stdout) == EOF ? fail("standard output") : ACCEPTED;
}

int main(int count, char **words)
{
    if (count > 2) {
        fprintf(stderr, "usage: gateway [FILE]\n");
        return FAILED;
    }
    const char *name = count == 2 ? words[1] : "standard input";
    int file = count == 2 ? open(words[1], O_RDONLY) : STDIN_FILENO;
    size_t length;
    if (file < 0 || !read_sheet(file, &length))
        return fail(name);
    uint32_t answer = partner_check(sheet, length);
    if (partner_kind_of(answer) == PARTNER_ACCEPTED)
        return say_accepted();
    return refuse(name, partner_refusal_of(answer), partner_place_of(answer));
}

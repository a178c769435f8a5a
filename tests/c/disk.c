/*
 * Put between the dispatcher on one side, disk and library on the other: a disk
 * that takes few bytes at a time, and a guard that ends the program (status 99)
 * where it breaks the journal's rules: the line of an order or an accepted
 * reply, and the lines that a block kept, are synced before the next call, an
 * order's line before the order goes out, also the lines that a killed program
 * left; a line is stored only of what was made, behind whole lines, after the
 * folder is synced, and after a cut is.
 *
 *     DISK_STOP=N   killed when the journal has N bytes
 *     DISK_FULL=N   no room for more than N bytes
 *     DISK_NAP=N    sleeps N microseconds before each part of a line
 *     DISK_SYNC=N   the N-th sync of a line fails
 */
#define _XOPEN_SOURCE 700
#include "campaign.h"
#include "desks.h"

#include <errno.h>
#include <signal.h>
#include <stdio.h>
#include <stdlib.h>
#include <sys/stat.h>
#include <time.h>
#include <unistd.h>

enum { LINE = CAMPAIGN_JOURNAL_LINE_LENGTH };

ssize_t __real_pwrite(int file, const void *bytes, size_t count, off_t at);
int __real_fdatasync(int file);
int __real_fsync(int file);
int __real_ftruncate(int file, off_t length);
uint32_t __real_campaign_next_order(const uint8_t *sheet, size_t sheet_len, uint8_t *state, size_t state_len);
uint32_t __real_campaign_reply(const uint8_t *sheet, size_t sheet_len, uint8_t *state, size_t state_len,
                               uint8_t letter, uint32_t booking);
uint32_t __real_campaign_reply_block(const uint8_t *sheet, size_t sheet_len, const uint8_t *block, size_t block_len,
                                     uint8_t *state, size_t state_len);
uint32_t __real_campaign_passed_ways(const uint8_t *sheet, size_t sheet_len, const uint8_t *state, size_t state_len,
                                     uint8_t *listing, size_t listing_len);
uint32_t __real_campaign_settle(const uint8_t *sheet, size_t sheet_len, const uint8_t *fees, size_t fees_len,
                                const uint8_t *journal, size_t journal_len, uint8_t *report, size_t report_len);
void __real_desks_send(struct desks *desks, struct order order);
ssize_t __wrap_pwrite(int file, const void *bytes, size_t count, off_t at);
int __wrap_fdatasync(int file);
int __wrap_fsync(int file);
int __wrap_ftruncate(int file, off_t length);
uint32_t __wrap_campaign_next_order(const uint8_t *sheet, size_t sheet_len, uint8_t *state, size_t state_len);
uint32_t __wrap_campaign_reply(const uint8_t *sheet, size_t sheet_len, uint8_t *state, size_t state_len,
                               uint8_t letter, uint32_t booking);
uint32_t __wrap_campaign_reply_block(const uint8_t *sheet, size_t sheet_len, const uint8_t *block, size_t block_len,
                                     uint8_t *state, size_t state_len);
uint32_t __wrap_campaign_passed_ways(const uint8_t *sheet, size_t sheet_len, const uint8_t *state, size_t state_len,
                                     uint8_t *listing, size_t listing_len);
uint32_t __wrap_campaign_settle(const uint8_t *sheet, size_t sheet_len, const uint8_t *fees, size_t fees_len,
                                const uint8_t *journal, size_t journal_len, uint8_t *report, size_t report_len);
void __wrap_desks_send(struct desks *desks, struct order order);

static size_t made;   /* orders given and replies accepted, those of the journal's lines too */
static size_t synced; /* whole lines that have reached the disk */
static size_t writes, syncs;
static int folder_synced, cut_open;

static void demand(int holds, const char *rule)
{
    if (holds)
        return;
    fprintf(stderr, "disk: %s (%zu made, %zu synced)\n", rule, made, synced);
    _exit(99);
}

static int named(const char *name, size_t *number)
{
    const char *text = getenv(name);
    if (text != NULL)
        *number = strtoul(text, NULL, 10);
    return text != NULL;
}

/* The disk. */

static void nap(void)
{
    size_t time = 0;
    struct timespec span = {.tv_sec = 0};
    if (!named("DISK_NAP", &time))
        return;
    span.tv_nsec = (long) time * 1000;
    nanosleep(&span, NULL);
}

ssize_t __wrap_pwrite(int file, const void *bytes, size_t count, off_t at)
{
    size_t end = 0;
    size_t part = 1 + writes % 5;
    struct stat facts;
    demand(fstat(file, &facts) == 0 && facts.st_size == at, "a line is not stored at the end of the file");
    /* Only the lines of one block, which were made together, may stand there unsynced. */
    demand((size_t) at / LINE >= synced && (size_t) at + count <= made * LINE, "a line is stored that was not made");
    demand(folder_synced, "a line is stored before the folder is synced");
    demand(!cut_open, "a line is stored before the cut is synced");
    nap();
    if (writes++ % 3 == 1) {
        errno = EINTR;
        return -1;
    }
    part = part < count ? part : count;
    int stops = named("DISK_STOP", &end);
    if ((stops || named("DISK_FULL", &end)) && (size_t) at + part > end)
        part = end > (size_t) at ? end - (size_t) at : 0;
    if (part > 0)
        return __real_pwrite(file, bytes, part, at);
    if (stops)
        raise(SIGKILL);
    errno = ENOSPC;
    return -1;
}

int __wrap_fdatasync(int file)
{
    size_t bad = 0;
    struct stat facts;
    if (named("DISK_SYNC", &bad) && ++syncs == bad) {
        errno = EIO;
        return -1;
    }
    demand(fstat(file, &facts) == 0 && facts.st_size % LINE == 0, "a part of a line is synced");
    synced = (size_t) facts.st_size / LINE;
    return __real_fdatasync(file);
}

int __wrap_fsync(int file)
{
    struct stat facts;
    demand(fstat(file, &facts) == 0, "what is synced is not there");
    if (S_ISDIR(facts.st_mode)) {
        folder_synced = 1;
    } else {
        synced = (size_t) facts.st_size / LINE;
        cut_open = 0;
    }
    return __real_fsync(file);
}

int __wrap_ftruncate(int file, off_t length)
{
    cut_open = 1;
    return __real_ftruncate(file, length);
}

/* The guard. */

uint32_t __wrap_campaign_next_order(const uint8_t *sheet, size_t sheet_len, uint8_t *state, size_t state_len)
{
    demand(made <= synced, "next order while the last line is not synced");
    uint32_t answer = __real_campaign_next_order(sheet, sheet_len, state, state_len);
    uint32_t kind = campaign_kind_of(answer);
    made += kind == CAMPAIGN_REQUEST || kind == CAMPAIGN_RETURN;
    return answer;
}

uint32_t __wrap_campaign_reply(const uint8_t *sheet, size_t sheet_len, uint8_t *state, size_t state_len,
                               uint8_t letter, uint32_t booking)
{
    demand(made <= synced, "a reply while the last line is not synced");
    uint32_t answer = __real_campaign_reply(sheet, sheet_len, state, state_len, letter, booking);
    made += campaign_kind_of(answer) == CAMPAIGN_ACCEPTED;
    return answer;
}

uint32_t __wrap_campaign_reply_block(const uint8_t *sheet, size_t sheet_len, const uint8_t *block, size_t block_len,
                                     uint8_t *state, size_t state_len)
{
    demand(made <= synced, "a block while the last line is not synced");
    uint32_t answer = __real_campaign_reply_block(sheet, sheet_len, block, block_len, state, state_len);
    made += campaign_kept_of(answer);
    return answer;
}

uint32_t __wrap_campaign_passed_ways(const uint8_t *sheet, size_t sheet_len, const uint8_t *state, size_t state_len,
                                     uint8_t *listing, size_t listing_len)
{
    demand(made <= synced, "a listing while the last line is not synced");
    return __real_campaign_passed_ways(sheet, sheet_len, state, state_len, listing, listing_len);
}

uint32_t __wrap_campaign_settle(const uint8_t *sheet, size_t sheet_len, const uint8_t *fees, size_t fees_len,
                                const uint8_t *journal, size_t journal_len, uint8_t *report, size_t report_len)
{
    demand(made <= synced, "a bill while the last line is not synced");
    return __real_campaign_settle(sheet, sheet_len, fees, fees_len, journal, journal_len, report, report_len);
}

void __wrap_desks_send(struct desks *desks, struct order order)
{
    demand(made <= synced, "an order goes out before its line is synced");
    __real_desks_send(desks, order);
}

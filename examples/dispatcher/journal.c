#define _XOPEN_SOURCE 700
#include "journal.h"

#include <errno.h>
#include <fcntl.h>
#include <stdio.h>
#include <stdlib.h>
#include <string.h>
#include <sys/stat.h>
#include <unistd.h>

enum { LINE = CAMPAIGN_JOURNAL_LINE_LENGTH };

/* Always false, for the caller to hand on. */
static bool complain(const struct journal *journal, const char *what, int reason)
{
    fprintf(stderr, "dispatcher: %s: the journal %s: %s\n", journal->path != NULL ? journal->path : "(in memory)",
            what, strerror(reason));
    return false;
}

/* The file. */

/* Two programs that write one journal would spoil it. The lock ends with the program, however it ends. */
static bool lock(const struct journal *journal)
{
    struct flock whole = {.l_type = F_WRLCK, .l_whence = SEEK_SET};
    if (fcntl(journal->file, F_SETLK, &whole) == 0)
        return true;
    if (errno != EACCES && errno != EAGAIN)
        return complain(journal, "can't be locked", errno);
    fprintf(stderr, "dispatcher: %s: the journal is kept by another program at this moment\n", journal->path);
    return false;
}

/* A device or a pipe forgets. */
static bool is_a_file(const struct journal *journal, struct stat *facts)
{
    if (fstat(journal->file, facts) != 0)
        return complain(journal, "can't be read", errno);
    if (S_ISREG(facts->st_mode))
        return true;
    fprintf(stderr, "dispatcher: %s: the journal can't be kept in what is not a file\n", journal->path);
    return false;
}

static bool read_all(struct journal *journal, size_t size)
{
    size_t taken = 0;
    while (taken < size) {
        ssize_t count = pread(journal->file, journal->bytes + taken, size - taken, (off_t) taken);
        if (count < 0 && errno == EINTR)
            continue;
        if (count < 0)
            return complain(journal, "can't be read", errno);
        if (count == 0)
            break;
        taken += (size_t) count;
    }
    journal->tail = taken % LINE;
    journal->length = taken - journal->tail;
    return true;
}

/* Exactly as long as the journal: a checker then sees a read past its end. */
static bool make_room(struct journal *journal, size_t size)
{
    uint8_t *bytes = realloc(journal->bytes, size > 0 ? size : 1);
    if (bytes == NULL)
        return complain(journal, "can't be kept", errno);
    journal->bytes = bytes;
    return true;
}

/* A program that was stopped may have written lines that it did not sync; they can be read, and count from now on. */
static bool sync_file(const struct journal *journal)
{
    int result;
    do
        result = fsync(journal->file);
    while (result != 0 && errno == EINTR);
    return result == 0 || complain(journal, "can't be synced", errno);
}

/* Also the file's name must reach the disk, or all its lines are lost with it. It is done at every start, for an earlier
   one may have been stopped before it came to this. */
static bool sync_folder(const struct journal *journal)
{
    char *path = realpath(journal->path, NULL);
    if (path == NULL)
        return complain(journal, "can't be found again", errno);
    char *slash = strrchr(path, '/');
    slash[slash == path ? 1 : 0] = '\0';
    int folder = open(path, O_RDONLY | O_DIRECTORY | O_CLOEXEC);
    bool synced = folder >= 0 && fsync(folder) == 0;
    int reason = errno;
    if (folder >= 0)
        close(folder);
    free(path);
    return synced || complain(journal, "can't be synced in its folder", reason);
}

static bool open_file(struct journal *journal)
{
    struct stat facts;
    journal->file = open(journal->path, O_RDWR | O_CREAT | O_NONBLOCK | O_CLOEXEC, 0666);
    if (journal->file < 0)
        return complain(journal, "can't be opened for reading and writing", errno);
    return lock(journal) && is_a_file(journal, &facts) && make_room(journal, (size_t) facts.st_size)
        && read_all(journal, (size_t) facts.st_size) && sync_file(journal) && sync_folder(journal);
}

bool journal_open(struct journal *journal, const char *path)
{
    *journal = (struct journal) {.path = path, .file = -1};
    bool opened = path == NULL ? make_room(journal, 0) : open_file(journal);
    if (!opened)
        journal_close(journal);
    return opened;
}

void journal_close(struct journal *journal)
{
    if (journal->file >= 0)
        close(journal->file);
    free(journal->bytes);
    *journal = (struct journal) {.file = -1};
}

bool journal_cut(struct journal *journal)
{
    if (journal->tail == 0)
        return true;
    if (ftruncate(journal->file, (off_t) journal->length) != 0)
        return complain(journal, "can't be cut to whole lines", errno);
    journal->tail = 0;
    return sync_file(journal) && make_room(journal, journal->length);
}

static bool write_lines(const struct journal *journal, const uint8_t *lines, size_t length)
{
    size_t given = 0;
    while (given < length) {
        ssize_t count = pwrite(journal->file, lines + given, length - given, (off_t) (journal->length + given));
        if (count < 0 && errno == EINTR)
            continue;
        if (count <= 0)
            return complain(journal, "can't be written", count < 0 ? errno : EIO);
        given += (size_t) count;
    }
    return true;
}

/* Lines that can be read but are not on the disk would mislead the next start; so they are taken away, if that still
   works. */
static bool sync_lines(const struct journal *journal)
{
    int result;
    do
        result = fdatasync(journal->file);
    while (result != 0 && errno == EINTR);
    if (result == 0)
        return true;
    complain(journal, "can't be synced", errno);
    if (ftruncate(journal->file, (off_t) journal->length) != 0)
        complain(journal, "can't be cut to whole lines", errno);
    return false;
}

bool journal_store(struct journal *journal, const uint8_t *lines, size_t count)
{
    size_t length = count * LINE;
    if (!make_room(journal, journal->length + length))
        return false;
    if (journal->path != NULL && !(write_lines(journal, lines, length) && sync_lines(journal)))
        return false;
    memcpy(journal->bytes + journal->length, lines, length);
    journal->length += length;
    return true;
}

/* The lines. */

size_t journal_lines(const struct journal *journal)
{
    return journal->length / LINE;
}

static bool known_letter(uint8_t letter)
{
    return letter != 0 && strchr("QUYNGK", letter) != NULL;
}

/* A number in columns as the sheet has them; 0, which is no booking, if it is not one. */
static uint32_t number_in(const uint8_t *columns, size_t count)
{
    uint32_t value = 0;
    for (size_t i = 0; i < count; i++) {
        bool digit = columns[i] >= '0' && columns[i] <= '9';
        if (!digit && (columns[i] != ' ' || value != 0))
            return 0;
        if (digit && value == 0 && columns[i] == '0')
            return 0;
        if (digit)
            value = value * 10 + (uint32_t) (columns[i] - '0');
    }
    return value;
}

bool journal_read(const uint8_t line[CAMPAIGN_JOURNAL_LINE_LENGTH], struct entry *entry)
{
    entry->letter = line[0];
    entry->booking = number_in(line + 1, 4);
    return known_letter(entry->letter) && entry->booking >= 1 && entry->booking <= CAMPAIGN_MOST_BOOKINGS
        && line[LINE - 1] == '\n';
}

bool journal_entry(const struct journal *journal, size_t line, struct entry *entry)
{
    return journal_read(journal->bytes + (line - 1) * LINE, entry);
}

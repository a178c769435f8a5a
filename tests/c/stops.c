/*
 * Stops the dispatcher and lets it go on, for tests/c/journal.
 *
 *     stops bytes DISPATCHER FOLDER SHEET..      a campaign on each sheet, its journal cut at every byte, damaged at
 *                                                every line, replaced by other bytes
 *     stops disk DISPATCHER FOLDER SHEET..       the dispatcher over disk.c: killed within its write at every byte, and
 *                                                a disk that is full at every byte
 *     stops kills COUNT DISPATCHER FOLDER SHEET..   killed at random moments, so many times, on these sheets in turn
 *     stops mixed DISPATCHER FOLDER SHEET..      cut at every line, and gone on with blocks where there were none, or
 *                                                without them
 *     stops --blocks ..                          replies in blocks, before the stop and after it
 *     stops [--blocks] --fees ..                 with a fee sheet, and so with a bill at the end
 *
 * What a campaign that was stopped must come to is taken from one that was not:
 * the same books, the same journal, the same story of the way, the same bill.
 * Works in FOLDER; the first difference ends it with status 1.
 */
#define _POSIX_C_SOURCE 200809L
#include <fcntl.h>
#include <signal.h>
#include <stdarg.h>
#include <stdbool.h>
#include <stdint.h>
#include <stdio.h>
#include <stdlib.h>
#include <string.h>
#include <sys/stat.h>
#include <sys/wait.h>
#include <time.h>
#include <unistd.h>

enum { LINE = 6, LONGEST = 360 };

struct bytes {
    char *at; /* with a 0 behind the last */
    size_t length;
};

struct campaign {
    const char *sheet;
    unsigned seed;
    struct bytes journal;
    struct bytes books;
    struct bytes within; /* by number of whole lines: 1 where the next line is of the same block as the last */
};

static const char *dispatcher;
static char journal[4096]; /* paths */
static char output[4096];
static char fees[4096];
static bool blocks, billed;

static struct {
    unsigned long campaigns, cuts, tails, damaged, foreign, refused, kills, in_write, full, sent_again, discarded;
    unsigned long letters[128];
    unsigned long switches, called_off;
    unsigned long within, changed, others, told;
} met;

static void fail(const struct campaign *campaign, const char *format, ...)
{
    va_list words;
    va_start(words, format);
    fprintf(stderr, "stops: ");
    vfprintf(stderr, format, words);
    va_end(words);
    if (campaign != NULL)
        fprintf(stderr, " (sheet %s, seed %u)", campaign->sheet, campaign->seed);
    fprintf(stderr, "\n");
    exit(1);
}

/* Files. */

static struct bytes read_file(const char *path)
{
    struct bytes bytes = {NULL, 0};
    FILE *file = fopen(path, "rb");
    size_t count;
    do {
        bytes.at = realloc(bytes.at, bytes.length + 65536 + 1);
        if (bytes.at == NULL)
            fail(NULL, "no memory");
        count = file == NULL ? 0 : fread(bytes.at + bytes.length, 1, 65536, file);
        bytes.length += count;
    } while (count > 0);
    bytes.at[bytes.length] = '\0';
    if (file != NULL)
        fclose(file);
    return bytes;
}

static void write_file(const char *path, const char *at, size_t length)
{
    FILE *file = fopen(path, "wb");
    if (file == NULL || fwrite(at, 1, length, file) != length || fclose(file) != 0)
        fail(NULL, "%s can't be written", path);
}

static bool same(struct bytes one, struct bytes other)
{
    return one.length == other.length && memcmp(one.at, other.at, one.length) == 0;
}

static bool begins(const char *text, const char *word)
{
    return strncmp(text, word, strlen(word)) == 0;
}

static unsigned long times(const char *text, const char *word)
{
    unsigned long count = 0;
    for (const char *at = strstr(text, word); at != NULL; at = strstr(at + 1, word))
        count++;
    return count;
}

/* The lines of the end, which tell how it ended and what the books say. */
static struct bytes books_in(struct bytes log)
{
    char *from = strstr(log.at, "\nend: ");
    struct bytes books = {calloc(1, log.length + 1), 0};
    if (books.at == NULL)
        fail(NULL, "no memory");
    if (from != NULL)
        strcpy(books.at, from);
    books.length = strlen(books.at);
    return books;
}

/* Chance; splitmix64. */

static uint64_t chance = 1;

static unsigned below(unsigned bound)
{
    uint64_t mixed = chance += UINT64_C(0x9E3779B97F4A7C15);
    mixed = (mixed ^ (mixed >> 30)) * UINT64_C(0xBF58476D1CE4E5B9);
    mixed = (mixed ^ (mixed >> 27)) * UINT64_C(0x94D049BB133111EB);
    return (unsigned) ((mixed ^ (mixed >> 31)) % bound);
}

/* Bills. */

static unsigned long least_fee(char letter, int booking)
{
    return (letter == 'Y' ? 7919ul : 104729ul) * (unsigned long) booking % 500009ul;
}

/* Of every third booking it is the same, and left blank. */
static unsigned long greatest_fee(char letter, int booking)
{
    return least_fee(letter, booking) + (booking % 3 == 0 ? 0 : 31ul * (unsigned long) booking);
}

static void write_quote(FILE *file, char letter, int booking)
{
    fprintf(file, "%6lu", least_fee(letter, booking));
    if (booking % 3 == 0)
        fprintf(file, "%6s", "");
    else
        fprintf(file, "%6lu", greatest_fee(letter, booking));
}

static void write_fees(const char *sheet)
{
    struct bytes plan = read_file(sheet);
    FILE *file = fopen(fees, "wb");
    int bookings;
    if (file == NULL || sscanf(plan.at, "P%4d", &bookings) != 1)
        fail(NULL, "no fee sheet for %s", sheet);
    for (int booking = 1; booking <= bookings; booking++) {
        fprintf(file, "F%4d", booking);
        write_quote(file, 'Y', booking);
        write_quote(file, 'G', booking);
        fprintf(file, "\n");
    }
    if (fclose(file) != 0)
        fail(NULL, "%s can't be written", fees);
    free(plan.at);
}

/* The totals by the journal's lines are the last line of a bill. */
static void check_bill(const struct campaign *campaign)
{
    char last[64];
    unsigned long least = 0, greatest = 0;
    for (size_t at = 0; at < campaign->journal.length; at += LINE) {
        char letter = campaign->journal.at[at];
        int booking = atoi(campaign->journal.at + at + 1);
        if (strchr("YG", letter) == NULL)
            continue;
        least += least_fee(letter, booking);
        greatest += greatest_fee(letter, booking);
    }
    snprintf(last, sizeof last, "\nT%12lu%12lu\n", least, greatest);
    size_t length = strlen(last);
    if (campaign->books.length < length || strcmp(campaign->books.at + campaign->books.length - length, last) != 0)
        fail(campaign, "no bill, or another total than%s", last);
}

/* Running the dispatcher. */

static pid_t launch(const struct campaign *campaign, const char *pause)
{
    const char *more[4] = {NULL};
    size_t count = 0;
    if (billed)
        more[count++] = "--fees", more[count++] = fees;
    if (blocks)
        more[count++] = "--blocks";
    char seed[16];
    snprintf(seed, sizeof seed, "%u", campaign->seed);
    int file = open(output, O_WRONLY | O_CREAT | O_TRUNC, 0666);
    pid_t child = file < 0 ? -1 : fork();
    if (child < 0)
        fail(campaign, "no process");
    if (child > 0) {
        close(file);
        return child;
    }
    if (dup2(file, 1) < 0 || dup2(file, 2) < 0)
        _exit(120);
    execl(dispatcher, dispatcher, "--seed", seed, "--pause", pause, "--journal", journal, campaign->sheet, more[0],
          more[1], more[2], (char *) NULL);
    _exit(121);
}

static int status_of(const struct campaign *campaign, pid_t child)
{
    int status;
    if (waitpid(child, &status, 0) != child)
        fail(campaign, "the process is lost");
    return status;
}

/* Runs it to its end; the exit status. */
static int run(const struct campaign *campaign)
{
    int status = status_of(campaign, launch(campaign, "0"));
    if (!WIFEXITED(status))
        fail(campaign, "the dispatcher was ended by signal %d", WTERMSIG(status));
    return WEXITSTATUS(status);
}

/* The way that the line tells of behind these words; 0 if it is another line. */
static unsigned way_told(const char *line, const char *words)
{
    char form[64];
    unsigned way = 0;
    int end = 0;
    snprintf(form, sizeof form, "%sway %%u is out: %%n", words);
    return begins(line, words) && sscanf(line, form, &way, &end) == 1 && end > 0 ? way : 0;
}

/* Before the end each way that was passed over is told once, in turn, also after a stop; at the end all of them are. */
static void check_story(const struct campaign *campaign, const char *log)
{
    unsigned told = 0, at_end = 0;
    for (const char *at = log; at != NULL; at = strchr(at, '\n'), at += at != NULL) {
        unsigned way = way_told(at, "  -- "), whole = way_told(at, "story: ");
        if ((way != 0 && way != ++told) || (whole != 0 && whole != ++at_end))
            fail(campaign, "a way is told twice, or out of turn: %s", log);
    }
    if (told != at_end)
        fail(campaign, "of %u ways that were passed over %u were told: %s", at_end, told, log);
    met.told += told;
}

/* It must end well, with the books and the journal of the campaign that was not stopped. */
static void check_end(const struct campaign *campaign, int status, const char *after)
{
    struct bytes log = read_file(output);
    struct bytes books = books_in(log);
    struct bytes lines = read_file(journal);
    if (status != 0)
        fail(campaign, "%s: status %d: %s", after, status, log.at);
    if (!same(books, campaign->books))
        fail(campaign, "%s: other books:%s\nnot%s", after, books.at, campaign->books.at);
    if (!same(lines, campaign->journal))
        fail(campaign, "%s: another journal:\n%s\nnot\n%s", after, lines.at, campaign->journal.at);
    check_story(campaign, log.at);
    free(log.at);
    free(books.at);
    free(lines.at);
}

/* The campaign without a stop. */

static void free_campaign(struct campaign *campaign)
{
    free(campaign->journal.at);
    free(campaign->books.at);
    free(campaign->within.at);
}

/* From the log, which tells orders and replies in the journal's order, and where a block begins. */
static struct bytes find_blocks(const char *log, size_t lines)
{
    struct bytes within = {calloc(lines + 2, 1), lines + 1};
    size_t line = 0;
    bool in_block = false, after_reply = false;
    if (within.at == NULL)
        fail(NULL, "no memory");
    for (const char *at = log; at != NULL && line <= lines; at = strchr(at, '\n'), at += at != NULL) {
        bool reply = begins(at, "  desk ") && begins(at + strlen("  desk N"), " says: ");
        if (reply || begins(at, "  to desk ")) {
            in_block = in_block && reply;
            within.at[line++] = in_block && after_reply;
            after_reply = reply;
        } else if (begins(at, "  -- a block of ")) {
            in_block = true;
            after_reply = false;
        }
    }
    return within;
}

static struct campaign fly(const char *sheet, unsigned seed)
{
    struct campaign campaign = {.sheet = sheet, .seed = seed};
    unlink(journal);
    if (billed)
        write_fees(sheet);
    int status = run(&campaign);
    struct bytes log = read_file(output);
    if (status != 0)
        fail(&campaign, "without a stop: status %d: %s", status, log.at);
    campaign.journal = read_file(journal);
    campaign.books = books_in(log);
    campaign.within = find_blocks(log.at, campaign.journal.length / LINE);
    if (campaign.books.length == 0 || campaign.journal.length == 0 || campaign.journal.length % LINE != 0)
        fail(&campaign, "without a stop: no books, or no whole lines");
    if (billed)
        check_bill(&campaign);
    check_story(&campaign, log.at);
    free(log.at);
    return campaign;
}

/* On a good day little happens; on a day for blocks many replies come together. */
static size_t hardness(const struct campaign *campaign)
{
    size_t hard = campaign->journal.length;
    for (size_t line = 0; blocks && line < campaign->within.length; line++)
        hard += campaign->within.at[line] != 0 ? LONGEST : 0;
    return hard;
}

/* Of some seeds the hardest one whose journal is not too long. */
static struct campaign fly_a_hard_one(const char *sheet, unsigned place, unsigned seeds)
{
    unsigned first = 1000 * place;
    struct campaign best = fly(sheet, first);
    for (unsigned seed = first + 1; seed < first + seeds; seed++) {
        struct campaign other = fly(sheet, seed);
        bool better = other.journal.length <= LONGEST
            && (hardness(&other) > hardness(&best) || best.journal.length > LONGEST);
        free_campaign(better ? &best : &other);
        if (better)
            best = other;
    }
    return best;
}

static void note(const struct campaign *campaign)
{
    met.campaigns++;
    for (size_t at = 0; at < campaign->journal.length; at += LINE)
        met.letters[campaign->journal.at[at] & 127]++;
    met.called_off += times(campaign->books.at, "end: called off");
    met.switches += times(campaign->books.at, "books: way 1;") == 0;
}

/* Lines of orders among the whole lines of so many bytes. */
static unsigned long orders_in(const struct campaign *campaign, size_t length)
{
    unsigned long orders = 0;
    for (size_t line = 0; line < length / LINE; line++)
        orders += strchr("QU", campaign->journal.at[line * LINE]) != NULL;
    return orders;
}

/* Cut at a byte. */

static void stop_at(const struct campaign *campaign, size_t cut)
{
    char after[64];
    snprintf(after, sizeof after, "cut at byte %zu", cut);
    write_file(journal, campaign->journal.at, cut);
    check_end(campaign, run(campaign), after);
    struct bytes log = read_file(output);
    unsigned long orders = orders_in(campaign, cut);
    unsigned long open = 2 * orders - cut / LINE;
    if (times(log.at, ": once more, ") != open)
        fail(campaign, "%s: not every open order, or more, was sent again", after);
    if (times(log.at, "  to desk ") != open + orders_in(campaign, campaign->journal.length) - orders)
        fail(campaign, "%s: an order was sent too often or not at all", after);
    if (times(log.at, "are cut off\n") != (cut % LINE != 0))
        fail(campaign, "%s: no word of the tail, or a wrong one", after);
    met.cuts++;
    met.tails += cut % LINE != 0;
    met.within += blocks && campaign->within.at[cut / LINE];
    met.sent_again += open;
    met.discarded += times(log.at, "says again: ");
    free(log.at);
}

/* Journals that are wrong. */

static void expect_refused(const struct campaign *campaign, const char *at, size_t length, size_t line, const char *what)
{
    char words[128];
    snprintf(words, sizeof words, "refusal 12: the journal is damaged or belongs to another sheet: line %zu;", line);
    write_file(journal, at, length);
    int status = run(campaign);
    struct bytes log = read_file(output);
    struct bytes left = read_file(journal);
    if (status != 8 || strstr(log.at, words) == NULL)
        fail(campaign, "%s in line %zu: status %d: %s", what, line, status, log.at);
    if (left.length != length || memcmp(left.at, at, length) != 0)
        fail(campaign, "%s in line %zu: the file was changed", what, line);
    free(log.at);
    free(left.at);
    met.refused++;
}

/* No order that is due, no reply that fits, and still of its form. */
static void make_wrong(char *line)
{
    static const char from[] = "YNGK", to[] = "GKYN";
    const char *reply = strchr(from, line[0]);
    if (reply != NULL)
        line[0] = to[reply - from];
    else
        line[4] = line[4] == '1' ? '2' : '1';
}

static void damage(const struct campaign *campaign, size_t line)
{
    char spoilt[LONGEST + 4 * LINE];
    size_t length = campaign->journal.length;
    size_t at = (line - 1) * LINE;
    memcpy(spoilt, campaign->journal.at, length);
    memcpy(spoilt + length, "Y  ", 3); /* a tail, which must stay too */
    spoilt[at + line % LINE] = '?';
    expect_refused(campaign, spoilt, length + 3, line, "a damaged byte");
    memcpy(spoilt, campaign->journal.at, length);
    make_wrong(spoilt + at);
    expect_refused(campaign, spoilt, length, line, "a call that could not be");
    memcpy(spoilt, campaign->journal.at, at + LINE);
    memcpy(spoilt + at + LINE, campaign->journal.at + at, length - at);
    expect_refused(campaign, spoilt, length + LINE, line + 1, "a line twice");
    met.damaged += 3;
}

/* What the library takes is gone on from, else it is left as it is. */
static void try_foreign(const struct campaign *campaign, const char *at, size_t length)
{
    write_file(journal, at, length);
    int status = run(campaign);
    struct bytes log = read_file(output);
    struct bytes left = read_file(journal);
    size_t whole = length - length % LINE;
    bool kept = left.length >= whole && memcmp(left.at, at, whole) == 0;
    if (status == 8 ? left.length != length || memcmp(left.at, at, length) != 0 : status != 0 || !kept)
        fail(campaign, "bytes of another journal: status %d: %s", status, log.at);
    if (length >= LINE && status == 8 && strstr(log.at, "refusal 12: ") == NULL)
        fail(campaign, "refused without its number: %s", log.at);
    met.foreign++;
    met.refused += status == 8;
    free(log.at);
    free(left.at);
}

static void try_random_bytes(const struct campaign *campaign)
{
    char bytes[LONGEST + 64];
    size_t right = below((unsigned) (campaign->journal.length / LINE) + 1) * LINE;
    size_t more = below(40);
    memcpy(bytes, campaign->journal.at, right);
    for (size_t i = 0; i < more; i++)
        bytes[right + i] = (char) below(256);
    if (more >= LINE) {
        expect_refused(campaign, bytes, right + more, right / LINE + 1, "random bytes");
        met.foreign++;
    } else {
        try_foreign(campaign, bytes, right + more);
    }
}

static void try_random_lines(const struct campaign *campaign)
{
    char bytes[6 * LINE + 1];
    size_t lines = 1 + below(6);
    for (size_t i = 0; i < lines; i++)
        snprintf(bytes + i * LINE, LINE + 1, "%c%4u\n", "QQQUYNGK"[below(8)], 1 + below(4));
    try_foreign(campaign, bytes, lines * LINE - below(LINE));
}

static void check_variety(void)
{
    for (const char *letter = "QUYNGK"; *letter != '\0'; letter++)
        if (met.letters[(int) *letter] < met.campaigns / 4)
            fail(NULL, "hardly any %c among the lines", *letter);
    if (met.called_off < met.campaigns / 10 || met.switches < met.campaigns / 4 || met.discarded < met.campaigns)
        fail(NULL, "hardly a way changed, a campaign called off, or a reply repeated");
    if (met.told < met.cuts / 2)
        fail(NULL, "hardly a way told as passed over");
    if (blocks && met.within < met.cuts / 7)
        fail(NULL, "hardly a stop within a block");
}

static void print_manner(void)
{
    printf("stops: %lu times a way was told as passed over, once in each log and at its end\n", met.told);
    if (blocks)
        printf("stops: replies in blocks, %lu of the stops within the lines of one\n", met.within);
    if (billed)
        printf("stops: and the same bill, its totals those of the journal's lines\n");
}

static void bytes_mode(char **sheets)
{
    struct campaign last = {.sheet = NULL};
    for (unsigned i = 0; sheets[i] != NULL; i++) {
        struct campaign campaign = fly_a_hard_one(sheets[i], i + 1, 20);
        note(&campaign);
        if (campaign.journal.length > LONGEST)
            fail(&campaign, "too long a journal for this");
        for (size_t cut = 0; cut <= campaign.journal.length; cut++)
            stop_at(&campaign, cut);
        for (size_t line = 1; line <= campaign.journal.length / LINE; line++)
            damage(&campaign, line);
        for (int round = 0; round < 3; round++) {
            try_random_bytes(&campaign);
            try_random_lines(&campaign);
        }
        if (last.sheet != NULL) {
            try_foreign(&campaign, last.journal.at, last.journal.length);
            free_campaign(&last);
        }
        last = campaign;
    }
    free_campaign(&last);
    if (met.campaigns >= 50)
        check_variety();
    printf("stops: %lu campaigns, each on its own sheet, stopped at every byte, %lu times, %lu of them within a line: "
           "the same books and journal\n"
           "stops: %lu orders sent again, %lu repeated replies discarded; lines: %lu Q, %lu U, %lu Y, %lu N, %lu G, %lu K; "
           "%lu campaigns called off, the way changed in %lu\n"
           "stops: %lu journals with a wrong line and %lu of other bytes: %lu refused, each file left as it was\n",
           met.campaigns, met.cuts, met.tails, met.sent_again, met.discarded, met.letters['Q'], met.letters['U'],
           met.letters['Y'], met.letters['N'], met.letters['G'], met.letters['K'], met.called_off, met.switches,
           met.damaged, met.foreign, met.refused);
    print_manner();
}

/* Stopped by the disk (see disk.c). */

static void check_prefix(const struct campaign *campaign, size_t length, const char *after)
{
    struct bytes lines = read_file(journal);
    if (lines.length != length || memcmp(lines.at, campaign->journal.at, length) != 0)
        fail(campaign, "%s: the journal is not the first %zu bytes", after, length);
    free(lines.at);
}

/* Runs it until the journal has so many bytes. */
static void stop_in_write(const struct campaign *campaign, size_t room)
{
    char number[24];
    snprintf(number, sizeof number, "%zu", room);
    setenv("DISK_STOP", number, 1);
    int status = status_of(campaign, launch(campaign, "0"));
    unsetenv("DISK_STOP");
    if (!WIFSIGNALED(status) || WTERMSIG(status) != SIGKILL)
        fail(campaign, "not killed at byte %zu", room);
    check_prefix(campaign, room, "killed in a write");
    met.in_write++;
    met.within += blocks && campaign->within.at[room / LINE];
}

static void stop_once(const struct campaign *campaign, size_t room)
{
    unlink(journal);
    stop_in_write(campaign, room);
    check_end(campaign, run(campaign), "killed in a write");
}

/* Killed at every byte, one after the other: no run brings it further than one byte. */
static void stop_always(const struct campaign *campaign)
{
    unlink(journal);
    for (size_t room = 0; room < campaign->journal.length; room++)
        stop_in_write(campaign, room);
    check_end(campaign, run(campaign), "killed at each byte in turn");
}

static void fill_up(const struct campaign *campaign, size_t room)
{
    char number[24];
    snprintf(number, sizeof number, "%zu", room);
    setenv("DISK_FULL", number, 1);
    unlink(journal);
    int status = run(campaign);
    unsetenv("DISK_FULL");
    struct bytes log = read_file(output);
    if (status != 7 || strstr(log.at, "the journal can't be written: No space left on device") == NULL)
        fail(campaign, "a disk full at byte %zu: status %d: %s", room, status, log.at);
    free(log.at);
    check_prefix(campaign, room, "a full disk");
    check_end(campaign, run(campaign), "a full disk");
    met.full++;
}

static void disk_mode(char **sheets)
{
    for (unsigned i = 0; sheets[i] != NULL; i++) {
        struct campaign campaign = fly_a_hard_one(sheets[i], i + 1, 8);
        met.campaigns++;
        stop_always(&campaign);
        for (size_t room = 0; room < campaign.journal.length; room++) {
            stop_once(&campaign, room);
            fill_up(&campaign, room);
        }
        free_campaign(&campaign);
    }
    printf("stops: %lu campaigns over a disk of short writes, at every byte killed within the write, %lu times, and full, %lu times: "
           "the same books and journal\n",
           met.campaigns, met.in_write, met.full);
    print_manner();
}

/* Killed at random moments. */

static void nap(unsigned microseconds)
{
    struct timespec time = {.tv_sec = microseconds / 1000000, .tv_nsec = (long) (microseconds % 1000000) * 1000};
    nanosleep(&time, NULL);
}

/* No line that was not to come, and no order sent that has no whole line. */
static void check_killed(const struct campaign *campaign, size_t before, struct bytes log)
{
    struct bytes lines = read_file(journal);
    if (lines.length > campaign->journal.length || memcmp(lines.at, campaign->journal.at, lines.length) != 0)
        fail(campaign, "killed: the journal is not a beginning of the whole one");
    unsigned long sent = times(log.at, "  to desk ") - times(log.at, ": once more, ");
    if (sent > orders_in(campaign, lines.length) - orders_in(campaign, before))
        fail(campaign, "killed: an order went out before its line was stored");
    met.tails += lines.length % LINE != 0;
    met.within += blocks && campaign->within.at[lines.length / LINE];
    free(lines.at);
}

/* Runs it until a moment to come; true once it has ended by itself. */
static bool run_and_kill(const struct campaign *campaign, unsigned longest)
{
    struct bytes lines = read_file(journal);
    pid_t child = launch(campaign, "1");
    nap(below(longest));
    kill(child, SIGKILL);
    int status = status_of(campaign, child);
    if (WIFEXITED(status)) {
        check_end(campaign, WEXITSTATUS(status), "killed before, and gone on");
    } else {
        struct bytes log = read_file(output);
        check_killed(campaign, lines.length, log);
        /* One that had not begun, or had all but ended, does not count. */
        met.kills += strstr(log.at, "campaign of seed ") != NULL && strstr(log.at, "\nend: ") == NULL;
        met.sent_again += times(log.at, ": once more, ");
        met.discarded += times(log.at, "says again: ");
        free(log.at);
    }
    free(lines.at);
    return WIFEXITED(status);
}

static void kills_mode(unsigned long wanted, char **sheets)
{
    struct timespec now;
    clock_gettime(CLOCK_REALTIME, &now);
    chance = (uint64_t) now.tv_nsec ^ (uint64_t) now.tv_sec << 30 ^ (uint64_t) getpid() << 50;
    for (unsigned i = 0; met.kills < wanted; i = sheets[i + 1] != NULL ? i + 1 : 0) {
        struct campaign campaign = fly_a_hard_one(sheets[i], i + 1, 4);
        met.campaigns++;
        unlink(journal);
        /* Short enough for some kills in each; longer each time, so that a slow machine comes to the end too. */
        unsigned longest = 1000 + (unsigned) (campaign.journal.length / LINE) * 600;
        while (!run_and_kill(&campaign, longest))
            longest += longest / 16;
        free_campaign(&campaign);
    }
    printf("stops: %lu campaigns killed %lu times while they ran, %lu times with part of a line written, %lu orders sent again, "
           "%lu repeated replies discarded: the same books and journal\n",
           met.campaigns, met.kills, met.tails, met.sent_again, met.discarded);
    print_manner();
}

/* Gone on in the other manner. */

/* Of this booking's lines with such a letter that of the number; null if there is none. */
static const char *line_of(struct bytes lines, const char *letters, int booking, unsigned number)
{
    for (size_t at = 0; at < lines.length; at += LINE)
        if (strchr(letters, lines.at[at]) != NULL && atoi(lines.at + at + 1) == booking && --number == 0)
            return lines.at + at;
    return NULL;
}

/* What both asked for a booking its desk answered alike. */
static void check_desks(const struct campaign *campaign, struct bytes lines)
{
    for (int booking = 1; booking <= 64; booking++) {
        const char *one, *other;
        for (unsigned number = 1; (one = line_of(lines, "QU", booking, number)) != NULL
             && (other = line_of(campaign->journal, "QU", booking, number)) != NULL && *one == *other; number++)
            if (*line_of(lines, "YNGK", booking, number) != *line_of(campaign->journal, "YNGK", booking, number))
                fail(campaign, "the desk of booking %d answers order %u otherwise:\n%s\nnot\n%s", booking, number, lines.at,
                     campaign->journal.at);
    }
}

/* It must end well, and begin with what was stored. */
static void check_changed(const struct campaign *campaign, const struct campaign *changed, size_t cut, int status)
{
    size_t whole = cut - cut % LINE;
    const char *manner = blocks ? "with" : "without";
    if (status != 0 || changed->books.length == 0)
        fail(campaign, "cut at byte %zu, gone on %s blocks: status %d", cut, manner, status);
    if (changed->journal.length < whole || changed->journal.length % LINE != 0
        || memcmp(changed->journal.at, campaign->journal.at, whole) != 0)
        fail(campaign, "cut at byte %zu, gone on %s blocks: the journal's lines were not kept", cut, manner);
}

/* The replies come at other moments then, so another campaign may come of it. Where it has ended nothing is left to do. */
static void stop_and_change(const struct campaign *campaign, size_t cut)
{
    struct campaign changed = {.sheet = campaign->sheet, .seed = campaign->seed};
    write_file(journal, campaign->journal.at, cut);
    blocks = !blocks;
    int status = run(campaign);
    struct bytes log = read_file(output);
    changed.journal = read_file(journal);
    changed.books = books_in(log);
    check_changed(campaign, &changed, cut, status);
    check_desks(campaign, changed.journal);
    blocks = !blocks;
    check_end(&changed, run(campaign), "ended in the other manner");
    met.changed++;
    met.others += !same(changed.journal, campaign->journal);
    met.within += campaign->within.at[cut / LINE];
    free(log.at);
    free_campaign(&changed);
}

static void mixed_mode(char **sheets)
{
    for (unsigned i = 0; sheets[i] != NULL; i++) {
        for (int first = 0; first < 2; first++) {
            blocks = first == 1;
            struct campaign campaign = fly_a_hard_one(sheets[i], i + 1, 8);
            met.campaigns++;
            /* With each length of a tail in turn. */
            for (size_t line = 0; line < campaign.journal.length / LINE; line++)
                stop_and_change(&campaign, line * LINE + line % LINE);
            free_campaign(&campaign);
        }
    }
    if (met.others < met.changed / 10 || met.others == met.changed || met.within < met.changed / 15)
        fail(NULL, "the other manner makes no difference, or too much; or hardly a stop within a block");
    printf("stops: %lu campaigns stopped at every line and gone on with blocks where there were none, or without them, %lu times, "
           "%lu of them within a block: each a right campaign, %lu of them another than without a stop\n",
           met.campaigns, met.changed, met.within, met.others);
}

int main(int count, char **words)
{
    blocks = count > 1 && strcmp(words[1], "--blocks") == 0;
    words += blocks;
    count -= blocks;
    billed = count > 1 && strcmp(words[1], "--fees") == 0;
    words += billed;
    count -= billed;
    bool kills = count > 2 && strcmp(words[1], "kills") == 0;
    unsigned long wanted = kills ? strtoul(words[2], NULL, 10) : 0;
    char **rest = words + (kills ? 3 : 2);
    if (count - (rest - words) < 3) {
        fprintf(stderr, "usage: stops [--blocks] [--fees] (bytes | disk | mixed | kills COUNT) DISPATCHER FOLDER SHEET..\n");
        return 2;
    }
    dispatcher = rest[0];
    snprintf(journal, sizeof journal, "%s/journal", rest[1]);
    snprintf(output, sizeof output, "%s/output", rest[1]);
    snprintf(fees, sizeof fees, "%s/fees", rest[1]);
    if (kills)
        kills_mode(wanted, rest + 2);
    else if (strcmp(words[1], "disk") == 0)
        disk_mode(rest + 2);
    else if (strcmp(words[1], "mixed") == 0)
        mixed_mode(rest + 2);
    else
        bytes_mode(rest + 2);
    return 0;
}

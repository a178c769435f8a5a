/*
 * A dispatcher over the campaign library, with simulated desks.
 *
 *     dispatcher [--seed N] [--pause MS] [--blocks] [--fees FILE] [--journal FILE | --campaigns N] PLANFILE
 *
 * One campaign writes its log; several are quiet and end in a summary. The
 * first has seed N, the next N + 1 and so on, so each can be repeated alone.
 * A campaign with a journal can be stopped at any moment and goes on when the
 * same command is given again. With a fee sheet it ends with its bill.
 */
#include "dispatch.h"
#include "words.h"

#include <errno.h>
#include <inttypes.h>
#include <stdlib.h>
#include <string.h>

enum status {
    DONE = 0,
    FAULT = 1,       /* the library did what it must not */
    BAD_OPTION = 2,
    NO_FILE = 3,     /* the plan file can't be read */
    SHORT_FILE = 4,  /* the plan file ends early */
    BAD_SHEET = 5,   /* the sheet is refused for another reason */
    NO_LOG = 6,      /* the log can't be written */
    NO_JOURNAL = 7,  /* the journal can't be read or written */
    BAD_JOURNAL = 8, /* the journal is refused */
    NO_FEES = 9,     /* the fee sheet can't be read */
    BAD_FEES = 10    /* the fee sheet is refused */
};

static const char usage[] =
    "usage: dispatcher [--seed N] [--pause MS] [--blocks] [--fees FILE] [--journal FILE | --campaigns N] PLANFILE\n"
    "  --seed N        what the desks' answers are drawn from (1)\n"
    "  --pause MS      wait so many milliseconds before each step (0)\n"
    "  --blocks        replies that arrive together are handed in together, as one block\n"
    "  --fees FILE     bill the campaign by the fee sheet in this file, when it has ended\n"
    "  --journal FILE  keep the campaign's journal in this file; if there is one already, go on from it\n"
    "  --campaigns N   run N campaigns quietly, each with the next seed, and print a summary\n"
    "status: 0 done, 1 fault in the library, 2 wrong option, 3 file can't be read,\n"
    "        4 file ends early, 5 sheet refused, 6 log can't be written,\n"
    "        7 journal can't be read or written, 8 journal refused,\n"
    "        9 fee sheet can't be read, 10 fee sheet refused\n";

struct options {
    uint64_t seed;
    uint64_t pause;
    uint64_t campaigns; /* 0: one, with its log */
    const char *journal;
    const char *fees;
    const char *path;
    bool blocks;
    bool help;
};

static bool take_number(const char *text, uint64_t *number)
{
    /* strtoull would take a sign and spaces too. */
    if (text == NULL || *text == '\0' || strspn(text, "0123456789") != strlen(text))
        return false;
    errno = 0;
    unsigned long long value = strtoull(text, NULL, 10);
    *number = value;
    return errno == 0;
}

static bool complain(const char *what, const char *about)
{
    fprintf(stderr, "dispatcher: %s%s%s\n%s", what, about != NULL ? ": " : "", about != NULL ? about : "", usage);
    return false;
}

static bool take_path(struct options *options, const char *path)
{
    if (options->path != NULL)
        return complain("more than one plan file", path);
    options->path = path;
    return true;
}

static uint64_t *number_named(struct options *options, const char *name)
{
    if (strcmp(name, "--seed") == 0)
        return &options->seed;
    if (strcmp(name, "--pause") == 0)
        return &options->pause;
    return strcmp(name, "--campaigns") == 0 ? &options->campaigns : NULL;
}

static const char **file_named(struct options *options, const char *name)
{
    if (strcmp(name, "--journal") == 0)
        return &options->journal;
    return strcmp(name, "--fees") == 0 ? &options->fees : NULL;
}

/* An option, and in value the word after it; used says whether it took that word. */
static bool take_option(struct options *options, const char *name, const char *value, bool *used)
{
    uint64_t *number = number_named(options, name);
    const char **file = file_named(options, name);
    *used = true;
    if (number != NULL)
        return (take_number(value, number) && (number != &options->campaigns || *number > 0))
            || complain("a number must follow, for --campaigns at least 1", name);
    if (file != NULL) {
        if (*file != NULL || value == NULL || *value == '\0')
            return complain("one file must follow, and only once", name);
        *file = value;
        return true;
    }
    *used = false;
    if (strcmp(name, "--blocks") == 0) {
        options->blocks = true;
        return true;
    }
    if (name[0] == '-' && name[1] != '\0')
        return complain("unknown option", name);
    return take_path(options, name);
}

static bool take_options(struct options *options, char **words)
{
    *options = (struct options) {.seed = 1};
    for (; *words != NULL; words++) {
        bool used;
        if (strcmp(*words, "--help") == 0) {
            options->help = true;
            return true;
        }
        if (!take_option(options, words[0], words[1], &used))
            return false;
        words += used;
    }
    if (options->journal != NULL && options->campaigns != 0)
        return complain("--journal is for one campaign, without --campaigns", NULL);
    return options->path != NULL || complain("no plan file given", NULL);
}

/* The sheet is refused: say why, and tell a file that breaks off from others. */
static enum status refuse_sheet(const struct plan *plan, const char *path, uint32_t answer)
{
    uint32_t refusal = campaign_refusal_of(answer);
    uint32_t place = campaign_place_of(answer);
    if (refusal == CAMPAIGN_FORM && plan_breaks_off(plan)) {
        fprintf(stderr, "dispatcher: %s: the file ends early, in line %u of the sheet\n", path, (unsigned) place);
        return SHORT_FILE;
    }
    fprintf(stderr, "dispatcher: %s: ", path);
    words_write_refusal(stderr, refusal, place);
    fputs("\n", stderr);
    return BAD_SHEET;
}

static enum status load(struct plan *plan, const char *path)
{
    if (!plan_load(plan, path)) {
        fprintf(stderr, "dispatcher: %s: can't be read: %s\n", path, strerror(errno));
        return NO_FILE;
    }
    uint32_t answer = campaign_check(plan->sheet, plan->length);
    if (campaign_kind_of(answer) != CAMPAIGN_ACCEPTED)
        return refuse_sheet(plan, path, answer);
    if (!plan_parse(plan)) {
        fprintf(stderr, "dispatcher: FAULT: %s was accepted but is no sheet\n", path);
        return FAULT;
    }
    return DONE;
}

/* The fee sheet is judged alone, by the bill of an empty journal: a wrong one makes no journal and sends nothing. */
static enum status load_fees(struct fees *fees, const struct plan *plan, const char *path)
{
    struct bill bill;
    if (!fees_load(fees, path)) {
        fprintf(stderr, "dispatcher: %s: the fee sheet can't be read: %s\n", path, strerror(errno));
        return NO_FEES;
    }
    struct wrong_fee wrong = fees_parse(fees, plan);
    if (wrong.refusal == CAMPAIGN_NO_REFUSAL)
        return DONE;
    const char *fault = bill_refused(&bill, fees, plan, wrong);
    if (fault != NULL) {
        fprintf(stderr, "dispatcher: FAULT: %s: %s\n", path, fault);
        return FAULT;
    }
    fprintf(stderr, "dispatcher: %s: ", path);
    words_write_refusal(stderr, campaign_refusal_of(bill.answer), campaign_place_of(bill.answer));
    fputs("; nothing was sent\n", stderr);
    return BAD_FEES;
}

static void write_summary(const struct plan *plan, const struct tally *t, const char *path)
{
    printf("%s: %lu campaigns, each ended with exactly one way or nothing held\n", path, t->campaigns);
    for (unsigned way = 1; way <= plan->ways; way++)
        printf("  flown by way %2u: %lu\n", way, t->flown[way]);
    printf("  called off:      %lu\n", t->called_off);
    printf("  requests %lu (confirmed %lu, refused %lu), returns %lu (taken back %lu, kept %lu)\n", t->requests,
           t->confirmed, t->declined, t->returns, t->returned, t->kept);
    printf("  ways changed %lu times; %lu replies fitted nothing and were refused, %lu came again and were discarded\n",
           t->switches, t->misfits, t->discarded);
    printf("  most matters open at a desk at once: %u, limit %u\n", t->most_matters, plan->limit);
    if (t->blocks > 0)
        printf("  %lu blocks; most replies taken at once: %lu\n", t->blocks, t->most_at_once);
    if (t->bills > 0)
        printf("  %lu bills, together %" PRIu64 " to %" PRIu64 ", the highest %" PRIu64 " to %" PRIu64 "\n", t->bills,
               t->billed.least, t->billed.greatest, t->highest_bill.least, t->highest_bill.greatest);
    if (t->unbilled > 0)
        printf("  %lu journals were too long for a bill\n", t->unbilled);
}

static enum status run_campaign(const struct task *task, const char *path, struct tally *tally)
{
    static const enum status status[] = {
        [ENDED] = DONE, [LIBRARY_FAULT] = FAULT, [JOURNAL_FAILED] = NO_JOURNAL, [JOURNAL_REFUSED] = BAD_JOURNAL};
    struct journal journal;
    if (!journal_open(&journal, path))
        return NO_JOURNAL;
    enum outcome outcome = dispatch(task, &journal, tally);
    journal_close(&journal);
    return status[outcome];
}

static enum status run_campaigns(const struct plan *plan, const struct fees *fees, const struct options *options)
{
    struct tally tally = {0};
    struct task task = {
        .plan = plan, .seed = options->seed, .pause = options->pause, .blocks = options->blocks, .fees = fees};
    if (options->campaigns == 0) {
        task.log = stdout;
        return run_campaign(&task, options->journal, &tally);
    }
    for (uint64_t i = 0; i < options->campaigns; i++, task.seed++) {
        enum status status = run_campaign(&task, NULL, &tally);
        if (status != DONE)
            return status;
    }
    write_summary(plan, &tally, options->path);
    return DONE;
}

static enum status flush_log(enum status status)
{
    if (fflush(stdout) == 0 && !ferror(stdout))
        return status;
    fprintf(stderr, "dispatcher: the log can't be written: %s\n", strerror(errno));
    return status == DONE ? NO_LOG : status;
}

int main(int count, char **words)
{
    struct options options;
    if (!take_options(&options, count > 0 ? words + 1 : words))
        return BAD_OPTION;
    if (options.help) {
        fputs(usage, stdout);
        return flush_log(DONE);
    }
    /* The log of a campaign that is killed shall show how far it came. */
    if (options.journal != NULL || options.pause != 0)
        setvbuf(stdout, NULL, _IOLBF, BUFSIZ);
    struct plan plan;
    struct fees fees = {0};
    enum status status = load(&plan, options.path);
    if (status == DONE && options.fees != NULL)
        status = load_fees(&fees, &plan, options.fees);
    if (status == DONE)
        status = flush_log(run_campaigns(&plan, options.fees != NULL ? &fees : NULL, &options));
    fees_free(&fees);
    plan_free(&plan);
    return status;
}

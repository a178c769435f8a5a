#define _POSIX_C_SOURCE 200809L
#include "dispatch.h"

#include "block.h"
#include "books.h"
#include "desks.h"
#include "story.h"
#include "words.h"

#include <inttypes.h>
#include <stdarg.h>
#include <stdlib.h>
#include <string.h>
#include <time.h>

/* Stands in a state that nobody has written yet. */
enum { UNWRITTEN = 0xA5 };

struct run {
    const struct task *task;
    const struct plan *plan;
    uint8_t *state; /* the library's 65 bytes */
    struct desks desks;
    struct books books;
    struct story story; /* as it was asked for last */
    struct journal *journal;
    struct tally *tally;
    enum outcome outcome;
};

static void say(const struct run *run, const char *format, ...)
{
    if (run->task->log == NULL)
        return;
    va_list words;
    va_start(words, format);
    vfprintf(run->task->log, format, words);
    va_end(words);
}

static void say_set(const struct run *run, uint64_t set)
{
    if (run->task->log != NULL)
        plan_write_set(run->task->log, set);
}

/* The library broke its word; always false, for the caller to hand on. */
static bool blame(struct run *run, const char *what, uint32_t answer)
{
    fprintf(stderr, "dispatcher: FAULT: %s (answer: kind %u, refusal %u, place %u); repeat it with --seed %" PRIu64 "\n",
            what, (unsigned) campaign_kind_of(answer), (unsigned) campaign_refusal_of(answer),
            (unsigned) campaign_place_of(answer), run->task->seed);
    run->outcome = LIBRARY_FAULT;
    return false;
}

/* The library asks more of a desk than it takes on; always false too. */
static bool blame_for_desk(struct run *run, unsigned desk, unsigned matters, uint32_t answer)
{
    char what[96];
    snprintf(what, sizeof what, "desk %u is given %u open matters, and the limit is %u", desk, matters,
             run->plan->limit);
    return blame(run, what, answer);
}

/* The calls on this run. */

static uint32_t ask_start(struct run *run)
{
    return campaign_start(run->plan->sheet, run->plan->length, run->state, CAMPAIGN_STATE_LENGTH);
}

static uint32_t ask_next(struct run *run)
{
    return campaign_next_order(run->plan->sheet, run->plan->length, run->state, CAMPAIGN_STATE_LENGTH);
}

static uint32_t hand_in(struct run *run, struct entry reply)
{
    return campaign_reply(run->plan->sheet, run->plan->length, run->state, CAMPAIGN_STATE_LENGTH,
                          reply.letter, reply.booking);
}

/* What the journal says, tail and all, into a state of its own. */
static uint32_t ask_restart(const struct run *run, uint8_t found[CAMPAIGN_STATE_LENGTH])
{
    memset(found, UNWRITTEN, CAMPAIGN_STATE_LENGTH);
    return campaign_restart(run->plan->sheet, run->plan->length, run->journal->bytes,
                            run->journal->length + run->journal->tail, found, CAMPAIGN_STATE_LENGTH);
}

static bool books_agree(const struct run *run)
{
    return memcmp(run->books.code, run->state, CAMPAIGN_STATE_LENGTH) == 0;
}

/* A right journal gives the state that the calls of its lines left. */
static bool restart_agrees(struct run *run, uint32_t answer, const uint8_t found[CAMPAIGN_STATE_LENGTH])
{
    if (campaign_kind_of(answer) != CAMPAIGN_ACCEPTED || campaign_place_of(answer) != 0)
        return blame(run, "a right journal was refused", answer);
    return memcmp(found, run->state, CAMPAIGN_STATE_LENGTH) == 0
        || blame(run, "restart gives another state than the calls of the journal's lines", answer);
}

static bool store(struct run *run, const uint8_t *lines, size_t count)
{
    if (!journal_store(run->journal, lines, count))
        run->outcome = JOURNAL_FAILED;
    return run->outcome == ENDED;
}

static bool line_says(const uint8_t *line, struct entry entry)
{
    struct entry back;
    return journal_read(line, &back) && back.letter == entry.letter && back.booking == entry.booking;
}

/* Stores the line of an order or an accepted reply. Until this is done there is no further call, and no order goes out. */
static bool keep(struct run *run, struct entry entry)
{
    uint8_t line[CAMPAIGN_JOURNAL_LINE_LENGTH];
    uint32_t answer = campaign_journal_line(entry.letter, entry.booking, line, sizeof line);
    if (campaign_kind_of(answer) != CAMPAIGN_ACCEPTED || campaign_place_of(answer) != sizeof line)
        return blame(run, "a journal line was refused", answer);
    if (!line_says(line, entry))
        return blame(run, "a journal line does not say what happened", answer);
    return store(run, line, 1);
}

/* Orders. */

static void count(struct run *run, struct entry entry)
{
    switch (entry.letter) {
    case CAMPAIGN_REQUEST_LETTER: run->tally->requests++; break;
    case CAMPAIGN_RETURN_LETTER: run->tally->returns++; break;
    case CAMPAIGN_CONFIRMED: run->tally->confirmed++; break;
    case CAMPAIGN_DECLINED: run->tally->declined++; break;
    case CAMPAIGN_RETURNED: run->tally->returned++; break;
    default: run->tally->kept++; break;
    }
}

/* By our books no desk has more matters open than it takes on. */
static bool desk_takes_it(struct run *run, unsigned booking, uint32_t answer)
{
    unsigned desk = run->plan->desk[booking];
    unsigned matters = run->books.matters[desk];
    return matters <= run->plan->limit || blame_for_desk(run, desk, matters, answer);
}

static bool enter_order(struct run *run, struct entry order, uint32_t answer)
{
    const char *fault = books_order(&run->books, order);
    if (fault != NULL)
        return blame(run, fault, answer);
    if (!desk_takes_it(run, order.booking, answer))
        return false;
    count(run, order);
    return books_agree(run) || blame(run, "state and books differ after an order", answer);
}

static void say_order(const struct run *run, struct entry order, unsigned long number, const char *again)
{
    unsigned booking = order.booking;
    unsigned desk = run->plan->desk[booking];
    if (order.letter == CAMPAIGN_REQUEST_LETTER)
        say(run, "  to desk %u: %swe ask for booking %u (%s), order %lu\n", desk, again, booking,
            words_for_kind(run->plan->kind[booking]), number);
    else
        say(run, "  to desk %u: %splease take booking %u back, order %lu\n", desk, again, booking, number);
}

/* An order that is sent again has the number that it had, and is the same matter to its desk. */
static bool send_order(struct run *run, struct entry order, const char *again)
{
    unsigned desk = run->plan->desk[order.booking];
    unsigned long number = run->books.orders[order.booking];
    desks_send(&run->desks, (struct order) {order, number});
    say_order(run, order, number, again);
    unsigned matters = desks_matters(&run->desks, run->plan, desk);
    return matters <= run->plan->limit || blame_for_desk(run, desk, matters, 0);
}

static bool give_order(struct run *run, uint8_t letter, uint32_t answer)
{
    struct entry order = {letter, campaign_place_of(answer)};
    if (!enter_order(run, order, answer) || !keep(run, order))
        return false;
    return send_order(run, order, "");
}

/* Why the way changed. */

/* The listing of the state as it is now, which our books must agree with. */
static bool ask_story(struct run *run)
{
    const char *fault = story_ask(&run->story, run->state, &run->books);
    return fault == NULL || blame(run, fault, run->story.answer);
}

static void say_story(const struct run *run, unsigned from, const char *front)
{
    if (run->task->log != NULL)
        story_write(&run->story, from, front, run->task->log);
}

static void say_way(const struct run *run, const char *word)
{
    unsigned way = run->books.code[0];
    say(run, "  -- %s way %u:", word, way);
    say_set(run, run->plan->way[way]);
    say(run, "\n");
}

/* The ways before the one that was current were told when it became so. */
static bool tell_change(struct run *run, unsigned before)
{
    if (!ask_story(run))
        return false;
    say(run, "  -- way %u is given up: no desk is still deciding\n", before);
    say_story(run, before, "  -- ");
    if (run->books.code[0] == 0)
        say(run, "  -- no way is left: calling off\n");
    else
        say_way(run, "now");
    return true;
}

static void say_patience(const struct run *run, unsigned way)
{
    uint64_t deciding = books_coded(&run->books, CAMPAIGN_REQUESTED);
    if (run->books.code[0] != way || way == 0 || deciding == 0)
        return;
    if ((run->plan->way[way] & books_coded(&run->books, CAMPAIGN_LOST)) == 0)
        return;
    say(run, "  -- way %u is lost, but no other is chosen before these have decided:", way);
    say_set(run, deciding);
    say(run, "\n");
}

/* Replies. */

static const char TO_AN_ORDER[] = "a reply to an order";
static const char CONFUSED[] = "a confused reply";
static const char MUMBLED[] = "the same reply without its order";

static const char *words_for_reply(const struct run *run, struct entry reply)
{
    switch (reply.letter) {
    case CAMPAIGN_CONFIRMED: return "yes, it is yours";
    case CAMPAIGN_DECLINED:
        return plan_repeats(run->plan, reply.booking) ? "not now, ask again" : "no, it can't be had";
    case CAMPAIGN_RETURNED: return "taken back";
    default: return "can't take it back now, you still have it";
    }
}

/* Hands in a reply that is due, and enters it. */
static bool enter_reply(struct run *run, struct entry reply)
{
    unsigned before = run->books.code[0];
    uint32_t answer = hand_in(run, reply);
    if (campaign_kind_of(answer) != CAMPAIGN_ACCEPTED || campaign_place_of(answer) != reply.booking)
        return blame(run, "a reply that was due was not accepted", answer);
    const char *fault = books_reply(&run->books, reply);
    if (fault != NULL)
        return blame(run, fault, answer);
    count(run, reply);
    run->tally->switches += run->books.code[0] != before;
    return books_agree(run) || blame(run, "state and books differ after a reply", answer);
}

static bool tell_reply(struct run *run, struct reply reply, unsigned before)
{
    say(run, "  desk %u says: %s (booking %" PRIu32 ", order %lu)\n", run->plan->desk[reply.what.booking],
        words_for_reply(run, reply.what), reply.what.booking, reply.order);
    if (run->books.code[0] != before && !tell_change(run, before))
        return false;
    say_patience(run, before);
    return true;
}

static bool take_reply(struct run *run, struct reply reply)
{
    unsigned before = run->books.code[0];
    if (!enter_reply(run, reply.what) || !keep(run, reply.what))
        return false;
    return tell_reply(run, reply, before);
}

static void discard(struct run *run, struct reply reply)
{
    uint32_t booking = reply.what.booking;
    run->tally->discarded++;
    say(run, "  desk %u says again: %s (booking %" PRIu32 ", order %lu): discarded, the %s has that reply\n",
        run->plan->desk[booking], words_for_reply(run, reply.what), booking, reply.order,
        reply.order > run->books.replies[booking] ? "block" : "journal");
}

/* A reply that quotes its order. Handed in, an old one would answer whatever order is open now. */
static bool receive(struct run *run, struct reply reply)
{
    if (reply.order > run->books.replies[reply.what.booking])
        return take_reply(run, reply);
    discard(run, reply);
    return true;
}

static void say_misfit(struct run *run, struct entry reply, const char *why)
{
    run->tally->misfits++;
    say(run, "  %s (", why);
    if (reply.letter > ' ' && reply.letter < 127)
        say(run, "letter %c", reply.letter);
    else
        say(run, "byte %u", reply.letter);
    say(run, ", booking %" PRIu32 "): ", reply.booking);
}

/* A reply that fits nothing must be refused with 9 and change nothing. */
static bool hand_in_misfit(struct run *run, struct entry reply, const char *why)
{
    uint8_t before[CAMPAIGN_STATE_LENGTH];
    memcpy(before, run->state, sizeof before);
    uint32_t answer = hand_in(run, reply);
    uint32_t place = reply.booking <= CAMPAIGN_MOST_BOOKINGS ? reply.booking : 0;
    if (campaign_kind_of(answer) != CAMPAIGN_REFUSED || campaign_refusal_of(answer) != CAMPAIGN_MISFIT
        || campaign_place_of(answer) != place)
        return blame(run, "a reply that fits nothing was not refused as such", answer);
    if (memcmp(before, run->state, sizeof before) != 0)
        return blame(run, "a refused reply changed the state", answer);
    say_misfit(run, reply, why);
    if (run->task->log != NULL)
        words_write_refusal(run->task->log, campaign_refusal_of(answer), campaign_place_of(answer));
    say(run, "; nothing changed\n");
    return true;
}

/* The order of this number for this booking, from the journal. */
static struct order old_order(const struct run *run, uint32_t booking, unsigned long number)
{
    struct entry entry = {0, 0};
    unsigned long met = 0;
    for (size_t line = 1; met < number; line++)
        if (journal_entry(run->journal, line, &entry) && books_is_order(entry) && entry.booking == booking)
            met++;
    return (struct order) {entry, number};
}

/* Some desks say again what they said before. */
static bool hear_repeats(struct run *run, bool back)
{
    size_t lines = journal_lines(run->journal);
    for (unsigned booking = 1; booking <= run->plan->bookings; booking++) {
        unsigned long number = desks_repeat(&run->desks, lines, booking, run->books.replies[booking], back);
        if (number != 0 && !receive(run, desks_say(&run->desks, run->plan, old_order(run, booking, number))))
            return false;
    }
    return true;
}

/* One desk answers, sometimes amid noise. */
static bool hear_a_desk(struct run *run)
{
    size_t lines = journal_lines(run->journal);
    struct reply reply;
    if (desks_confused(&run->desks, lines, run->books.code, &reply)
        && !hand_in_misfit(run, reply.what, CONFUSED))
        return false;
    if (!desks_answer(&run->desks, run->plan, lines, &reply))
        return blame(run, "told to wait, but no desk has an order", 0);
    if (!receive(run, reply))
        return false;
    if (desks_mumble(&run->desks, lines) && !hand_in_misfit(run, reply.what, MUMBLED))
        return false;
    return hear_repeats(run, false);
}

/* Blocks. */

static uint32_t hand_in_lines(struct run *run, const uint8_t *lines, size_t count)
{
    return campaign_reply_block(run->plan->sheet, run->plan->length, lines, count * CAMPAIGN_BLOCK_LINE_LENGTH,
                                run->state, CAMPAIGN_STATE_LENGTH);
}

/* Taken must be just those before the first that is not due, and the answer must say so. */
static bool answer_agrees(struct run *run, const struct block *block, size_t from, uint32_t answer)
{
    size_t bad = block_first_bad(block, from);
    uint32_t kept = (uint32_t) (bad - from);
    bool all = bad == block->count;
    if (campaign_kind_of(answer) != (all ? CAMPAIGN_ACCEPTED : CAMPAIGN_REFUSED)
        || campaign_refusal_of(answer) != (all ? CAMPAIGN_NO_REFUSAL : block_refusal(block->arrived[bad].reply.what))
        || campaign_place_of(answer) != (all ? kept : kept + 1) || campaign_kept_of(answer) != kept)
        return blame(run, "a block was not taken up to its first reply that fits nothing", answer);
    return true;
}

/* Our books after the replies that were taken are the state, and the lines still say them. */
static bool block_agrees(struct run *run, const struct arrived *taken, size_t count, const uint8_t *lines,
                         uint32_t answer)
{
    struct books books = run->books;
    for (size_t i = 0; i < count; i++) {
        const char *fault = books_reply(&books, taken[i].reply.what);
        if (fault != NULL)
            return blame(run, fault, answer);
        if (!line_says(lines + i * CAMPAIGN_BLOCK_LINE_LENGTH, taken[i].reply.what))
            return blame(run, "a line of a block does not say what happened", answer);
    }
    return memcmp(books.code, run->state, CAMPAIGN_STATE_LENGTH) == 0
        || blame(run, "state and books differ after a block", answer);
}

/* The state is that after all of them. The one that changes the way is the last: no request is open then, and requests and
   returns are never open together. */
static bool enter_block(struct run *run, const struct arrived *taken, size_t count_taken)
{
    for (size_t i = 0; i < count_taken; i++) {
        unsigned before = run->books.code[0];
        books_reply(&run->books, taken[i].reply.what);
        count(run, taken[i].reply.what);
        run->tally->switches += run->books.code[0] != before;
        if (!tell_reply(run, taken[i].reply, before))
            return false;
    }
    return true;
}

static void say_bad_line(struct run *run, const struct arrived *bad, uint32_t answer)
{
    say_misfit(run, bad->reply.what, bad->name);
    if (run->task->log != NULL)
        words_write_block_refusal(run->task->log, campaign_refusal_of(answer), campaign_place_of(answer));
    say(run, "; %s\n", campaign_kept_of(answer) > 0 ? "what comes before it stays" : "nothing changed");
}

/* Hands in the lines from one on, stores those that were taken, and says in from where to go on. */
static bool take_block(struct run *run, const struct block *block, size_t *from, const uint8_t *lines)
{
    const struct arrived *arrived = block->arrived + *from;
    size_t count = block->count - *from;
    uint32_t answer = hand_in_lines(run, lines, count);
    size_t kept = campaign_kept_of(answer);
    if (!answer_agrees(run, block, *from, answer) || !block_agrees(run, arrived, kept, lines, answer)
        || (kept > 0 && !store(run, lines, kept)))
        return false;
    run->tally->blocks++;
    run->tally->most_at_once = kept > run->tally->most_at_once ? kept : run->tally->most_at_once;
    say(run, "  -- a block of %zu %s\n", count, count == 1 ? "reply" : "replies");
    if (!enter_block(run, arrived, kept))
        return false;
    if (kept < count)
        say_bad_line(run, arrived + kept, answer);
    *from += kept < count ? kept + 1 : kept;
    return true;
}

/* What stands after a bad line was not taken, and makes the next block. */
static bool hand_in_block(struct run *run, const struct block *block)
{
    bool good = true;
    for (size_t from = 0; good && from < block->count;) {
        uint8_t *lines = block_lines(block, from);
        if (lines == NULL) {
            fputs("dispatcher: no memory for a block\n", stderr);
            run->outcome = JOURNAL_FAILED;
        }
        good = lines != NULL && take_block(run, block, &from, lines);
        free(lines);
    }
    return good;
}

/* A reply that quotes its order. */
static void gather(struct run *run, struct block *block, struct reply reply)
{
    if (block_has(block, reply))
        discard(run, reply);
    else
        block_add(block, reply, TO_AN_ORDER);
}

static void gather_repeats(struct run *run, struct block *block, size_t lines, bool back)
{
    for (unsigned booking = 1; booking <= run->plan->bookings; booking++) {
        unsigned long number = desks_repeat(&run->desks, lines, booking, block->ahead.replies[booking], back);
        if (number != 0)
            gather(run, block, desks_say(&run->desks, run->plan, old_order(run, booking, number)));
    }
}

/* One desk's answer, sometimes amid noise, when the journal would have so many lines. */
static bool gather_a_desk(struct run *run, struct block *block, size_t lines)
{
    struct reply reply;
    if (desks_confused(&run->desks, lines, block->ahead.code, &reply))
        block_add(block, reply, CONFUSED);
    if (!desks_answer(&run->desks, run->plan, lines, &reply))
        return blame(run, "told to wait, but no desk has an order", 0);
    gather(run, block, reply);
    if (desks_mumble(&run->desks, lines))
        block_add(block, (struct reply) {reply.what, 0}, MUMBLED);
    gather_repeats(run, block, lines, false);
    return true;
}

/* All that has arrived. It is the same after a stop within its lines: each reply has its turn by the number of lines. */
static bool hear_all_desks(struct run *run)
{
    struct block block;
    size_t lines = journal_lines(run->journal);
    block_open(&block, &run->books);
    do
        if (!gather_a_desk(run, &block, lines + block.dues))
            return false;
    while (desks_hurry(&run->desks, lines + block.dues) || desks_join(&run->desks, lines + block.dues));
    return hand_in_block(run, &block);
}

/* The desks. */

static bool hear(struct run *run)
{
    return run->task->blocks ? hear_all_desks(run) : hear_a_desk(run);
}

/* After a stop: some say again what they said before. */
static bool hear_when_back(struct run *run)
{
    struct block block;
    if (!run->task->blocks)
        return hear_repeats(run, true);
    block_open(&block, &run->books);
    gather_repeats(run, &block, journal_lines(run->journal), true);
    return hand_in_block(run, &block);
}

/* Something has arrived even before the next order is fetched. What came together with the last reply is there after a
   stop too. */
static bool has_arrived(const struct run *run)
{
    size_t lines = journal_lines(run->journal);
    struct entry last;
    if (desks_hurry(&run->desks, lines))
        return true;
    return run->task->blocks && lines > 0 && journal_entry(run->journal, lines, &last) && !books_is_order(last)
        && desks_join(&run->desks, lines);
}

/* The end. */

static bool flown(struct run *run, uint32_t answer)
{
    unsigned way = campaign_place_of(answer);
    uint64_t held = books_in_hand(&run->books);
    if (way < 1 || way > run->plan->ways || held != run->plan->way[way])
        return blame(run, "flown, but what is held is not exactly that way", answer);
    run->tally->flown[way]++;
    say(run, "end: flown by way %u; held is exactly", way);
    say_set(run, held);
    say(run, "\n");
    return true;
}

static bool called_off(struct run *run, uint32_t answer)
{
    if (books_in_hand(&run->books) != 0)
        return blame(run, "called off, but something is still held", answer);
    run->tally->called_off++;
    say(run, "end: called off; nothing is held\n");
    return true;
}

/* Had we been stopped now, the journal would give the state that we have. */
static bool journal_agrees(struct run *run)
{
    uint8_t found[CAMPAIGN_STATE_LENGTH];
    return restart_agrees(run, ask_restart(run, found), found);
}

/* The bill of the journal as it is now, which our books must agree with. */
static bool settle(struct run *run, struct bill *bill)
{
    const char *fault = bill_settle(bill, run->task->fees, &run->books, run->journal);
    return fault == NULL || blame(run, fault, bill->answer);
}

static bool settle_at_end(struct run *run)
{
    struct tally *tally = run->tally;
    struct bill bill;
    if (run->task->fees == NULL)
        return true;
    if (!settle(run, &bill))
        return false;
    tally->bills += bill.length > 0;
    tally->unbilled += bill.length == 0;
    tally->billed.least += bill.total.least;
    tally->billed.greatest += bill.total.greatest;
    if (bill.total.greatest > tally->highest_bill.greatest)
        tally->highest_bill = bill.total;
    if (run->task->log != NULL)
        bill_write(&bill, run->journal, run->task->log);
    return true;
}

static bool ended(struct run *run, uint32_t answer)
{
    if (books_coded(&run->books, CAMPAIGN_REQUESTED) != 0 || books_coded(&run->books, CAMPAIGN_RETURNING) != 0)
        return blame(run, "ended while a reply is outstanding", answer);
    if (!journal_agrees(run) || !ask_story(run))
        return false;
    if (!(campaign_kind_of(answer) == CAMPAIGN_FLOWN ? flown(run, answer) : called_off(run, answer)))
        return false;
    say_story(run, 1, "story: ");
    unsigned most = books_most_matters(&run->books);
    run->tally->most_matters = most > run->tally->most_matters ? most : run->tally->most_matters;
    if (run->task->log != NULL)
        books_write(&run->books, run->task->log);
    return settle_at_end(run);
}

/* Waiting and ending change nothing. */
static bool unchanged(struct run *run, uint32_t answer)
{
    return books_agree(run) || blame(run, "state and books differ where no order was given", answer);
}

static void pause_before_step(const struct run *run)
{
    uint64_t pause = run->task->pause;
    struct timespec time = {.tv_sec = (time_t) (pause / 1000), .tv_nsec = (long) (pause % 1000) * 1000000};
    if (pause > 0)
        nanosleep(&time, NULL);
}

static bool run_to_end(struct run *run)
{
    for (;;) {
        bool good;
        pause_before_step(run);
        if (has_arrived(run)) {
            if (!hear(run))
                return false;
            continue;
        }
        uint32_t answer = ask_next(run);
        switch (campaign_kind_of(answer)) {
        case CAMPAIGN_REQUEST: good = give_order(run, CAMPAIGN_REQUEST_LETTER, answer); break;
        case CAMPAIGN_RETURN: good = give_order(run, CAMPAIGN_RETURN_LETTER, answer); break;
        case CAMPAIGN_WAIT: good = unchanged(run, answer) && hear(run); break;
        case CAMPAIGN_FLOWN:
        case CAMPAIGN_CALLED_OFF: return unchanged(run, answer) && ended(run, answer);
        default: return blame(run, "next order was refused in the middle of a campaign", answer);
        }
        if (!good)
            return false;
    }
}

/* The start. */

/* A line of the journal through the other calls and into our books, as if it happened now; false if it could not have. */
static bool replay_line(struct run *run, struct entry entry)
{
    if (!books_is_order(entry))
        return books_fits(&run->books, entry) && enter_reply(run, entry);
    uint32_t answer = ask_next(run);
    uint32_t kind = entry.letter == CAMPAIGN_REQUEST_LETTER ? CAMPAIGN_REQUEST : CAMPAIGN_RETURN;
    return campaign_kind_of(answer) == kind && campaign_place_of(answer) == entry.booking
        && enter_order(run, entry, answer);
}

/* The first line that is wrong, 0 if none is. */
static size_t replay(struct run *run)
{
    struct entry entry;
    for (size_t line = 1; line <= journal_lines(run->journal); line++)
        if (!journal_entry(run->journal, line, &entry) || !replay_line(run, entry))
            return line;
    return 0;
}

/* The file is left as it is, for whoever knows what it was. */
static bool refuse_journal(struct run *run, size_t line, uint32_t answer, const uint8_t found[CAMPAIGN_STATE_LENGTH])
{
    if (campaign_kind_of(answer) != CAMPAIGN_REFUSED || campaign_refusal_of(answer) != CAMPAIGN_WRONG_LINE
        || campaign_place_of(answer) != (line < 65535 ? line : 65535))
        return blame(run, "a journal with a wrong line was not refused with that line", answer);
    for (size_t i = 0; i < CAMPAIGN_STATE_LENGTH; i++)
        if (found[i] != UNWRITTEN)
            return blame(run, "a refused journal changed the state", answer);
    fprintf(stderr, "dispatcher: %s: ", run->journal->path);
    words_write_refusal(stderr, campaign_refusal_of(answer), campaign_place_of(answer));
    fputs("; the file is left as it is\n", stderr);
    run->outcome = JOURNAL_REFUSED;
    return false;
}

/* Asks the library and works it out from the lines too; both must come to the same. */
static bool take_up_journal(struct run *run)
{
    uint8_t found[CAMPAIGN_STATE_LENGTH];
    uint32_t answer = ask_restart(run, found);
    size_t wrong = replay(run);
    if (run->outcome != ENDED)
        return false;
    if (wrong != 0)
        return refuse_journal(run, wrong, answer, found);
    if (!restart_agrees(run, answer, found))
        return false;
    memcpy(run->state, found, sizeof found);
    return true;
}

/* What was open may not have reached its desk, and its reply may be lost. */
static bool send_again(struct run *run)
{
    bool good = true;
    for (unsigned booking = 1; booking <= run->plan->bookings && good; booking++) {
        if (run->state[booking] == CAMPAIGN_REQUESTED)
            good = send_order(run, (struct entry) {CAMPAIGN_REQUEST_LETTER, booking}, "once more, ");
        if (run->state[booking] == CAMPAIGN_RETURNING)
            good = send_order(run, (struct entry) {CAMPAIGN_RETURN_LETTER, booking}, "once more, ");
    }
    return good;
}

static bool go_on(struct run *run)
{
    size_t lines = journal_lines(run->journal);
    if (run->journal->tail > 0)
        say(run, "  -- the journal's last %u bytes are no whole line and are cut off\n", (unsigned) run->journal->tail);
    if (!journal_cut(run->journal)) {
        run->outcome = JOURNAL_FAILED;
        return false;
    }
    if (lines == 0) {
        say_way(run, "first");
        return true;
    }
    say(run, "  -- going on after %zu lines of the journal\n", lines);
    /* The program may have been stopped before it came to tell this. */
    say_story(run, 1, "  -- ");
    if (run->state[0] == 0)
        say(run, "  -- calling off\n");
    else
        say_way(run, "now");
    return send_again(run) && hear_when_back(run);
}

static bool start(struct run *run)
{
    uint32_t answer = ask_start(run);
    if (campaign_kind_of(answer) != CAMPAIGN_ACCEPTED || !books_agree(run))
        return blame(run, "start did not begin with way 1 and all bookings free", answer);
    if (!take_up_journal(run))
        return false;
    /* Before any order goes out: what can't be told or billed later shows now. */
    struct bill so_far;
    if (!ask_story(run) || (run->task->fees != NULL && !settle(run, &so_far)))
        return false;
    say(run, "campaign of seed %" PRIu64 ": %u bookings, %u ways, most matters open per desk %u; desks refuse %u in 100\n",
        run->task->seed, run->plan->bookings, run->plan->ways, run->plan->limit, run->desks.refusing);
    return go_on(run);
}

enum outcome dispatch(const struct task *task, struct journal *journal, struct tally *tally)
{
    struct run run = {.task = task, .plan = task->plan, .journal = journal, .tally = tally, .outcome = ENDED};
    run.state = malloc(CAMPAIGN_STATE_LENGTH);
    if (run.state == NULL) {
        fputs("dispatcher: no memory for a state\n", stderr);
        return LIBRARY_FAULT;
    }
    /* Start must write every byte, whatever stood there. */
    memset(run.state, UNWRITTEN, CAMPAIGN_STATE_LENGTH);
    desks_open(&run.desks, task->seed);
    books_open(&run.books, task->plan);
    tally->campaigns++;
    if (start(&run))
        run_to_end(&run);
    free(run.state);
    return run.outcome;
}

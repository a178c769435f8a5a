/*
 * Booking coordinator for flight test campaigns: the calls for C and C++.
 *
 * A plan sheet lists a campaign's bookings, which comes before which, and the
 * ways to fly it, the most wanted first. The coordinator says which booking to
 * request or to return next and takes in what the desks reply, until either
 * one whole way is held and nothing else, or nothing is held at all.
 *
 * First comes what all calls share, then the calls in groups:
 *
 *     Sheets     campaign_check, campaign_join
 *     The run    campaign_start, campaign_next_order, campaign_reply,
 *                campaign_reply_block
 *     Story      campaign_passed_ways
 *     Journal    campaign_journal_line, campaign_restart
 *     Bill       campaign_settle
 *
 *
 * What may be lent
 * ----------------
 * A pointer must reach as many bytes as its length says. A length of 0 lends
 * nothing, and the pointer may then be null: so an empty journal or block may be
 * lent as NULL, 0. What a call may write (state, line, report, listing, joined)
 * must not overlap with anything else that it is lent. Beyond that every byte and
 * every length is allowed: what is wrong with them is answered by a refusal. A
 * refused call leaves every lent byte as it was; only campaign_reply_block keeps
 * the replies before a bad line of its block.
 *
 * Nothing is kept between the calls: all of a campaign stands in its sheet and
 * its state. Calls on different states may run at the same time; while a call
 * runs, nobody else may write its sheets, block, journal or fees or touch its
 * state, line, report, listing or joined. campaign_passed_ways only reads the
 * state, so others may read it meanwhile.
 *
 *
 * The plan sheet
 * --------------
 * Each line ends in a line feed (byte 10). Each number fills four columns,
 * right-justified with spaces, without leading zeros. In order:
 *
 *     P   n   m   a   t   1 to 64 bookings, 0 to 512 links, 1 to 16 ways, at
 *                         most t matters open per desk, 1 to 64
 *     B   b k   d         n lines, b = 1, 2, .. n; kind k is C, P, R or D; desk
 *                         d is 1 to 8
 *     L   u   v           m lines: u comes before v; rising by u, then by v
 *     A   k   b   b ..    a lines: a way, its k bookings, rising
 *
 * Nothing else stands on a line and nothing follows the last one.
 *
 * A matter is a booking that is requested or returning: its desk has an order
 * and has not answered. A desk with t matters is full and gets no order until
 * it has answered one. With t = 64 no order is ever held back.
 *
 * Kinds of booking:
 *     C  returnable: may be refused; once held it can be given back.
 *     P  pivot:      may be refused; once held it can't be given back.
 *     R  repeatable: is confirmed if it is asked for often enough; once held
 *                    it can't be given back.
 *     D  both:       is confirmed if it is asked for often enough; once held
 *                    it can be given back.
 *
 * Example, a flight with a tanker (1 range slot, 2 tanker, 3 chase aircraft,
 * or else 4 ground cameras). The range slot and the cameras are booked at desk
 * 1, the two aircraft at desk 2; a desk takes on two matters:
 *
 *     P   4   3   2   2
 *     B   1 C   1
 *     B   2 P   2
 *     B   3 C   2
 *     B   4 R   1
 *     L   1   2
 *     L   2   3
 *     L   2   4
 *     A   3   1   2   3
 *     A   3   1   2   4
 */
#ifndef CAMPAIGN_H
#define CAMPAIGN_H

#include <stddef.h>
#include <stdint.h>

#ifdef __cplusplus
extern "C" {
#endif

/* ======================== Shared by all calls ======================== */

/* Limits of a sheet. */
#define CAMPAIGN_MOST_BOOKINGS 64
#define CAMPAIGN_MOST_LINKS 512
#define CAMPAIGN_MOST_WAYS 16
#define CAMPAIGN_MOST_DESKS 8
#define CAMPAIGN_MOST_MATTERS 64 /* open per desk: a sheet may say fewer */
#define CAMPAIGN_LONGEST_SHEET 10098

/* Bytes of a run state: the current way (0: calling off), then one code for
   each of 64 bookings. Booking b has byte b; bytes past the last booking are 0. */
#define CAMPAIGN_STATE_LENGTH 65

/* Bytes of a line of a block or a journal. */
#define CAMPAIGN_BLOCK_LINE_LENGTH 6
#define CAMPAIGN_JOURNAL_LINE_LENGTH 6

/* A listing of ways that were passed over: bytes of a line, and the most of them
   all. */
#define CAMPAIGN_PASSED_LINE_LENGTH 11
#define CAMPAIGN_LONGEST_LISTING 176

/* A bill: bytes of a line of the fee sheet, of a booking's line, of a way's line
   and of the last line in the report, and the most of them all; lines that a
   journal may have. */
#define CAMPAIGN_FEE_LINE_LENGTH 30
#define CAMPAIGN_SETTLED_LINE_LENGTH 42
#define CAMPAIGN_WAY_LINE_LENGTH 30
#define CAMPAIGN_TOTAL_LINE_LENGTH 26
#define CAMPAIGN_LONGEST_REPORT 3194
#define CAMPAIGN_MOST_SETTLED_LINES 10000

/* What each booking's byte says. */
enum campaign_code {
    CAMPAIGN_FREE = 0,      /* not asked for, or given back */
    CAMPAIGN_REQUESTED = 1, /* asked for, its desk has not answered */
    CAMPAIGN_HELD = 2,      /* confirmed */
    CAMPAIGN_LOST = 3,      /* refused for good */
    CAMPAIGN_RETURNING = 4  /* its return was asked for, no answer yet */
};

/* The kind of an answer; in brackets its place. */
enum campaign_kind {
    /* Nothing was done, see the refusal (place: with the refusal). A block is
       done up to its first bad line. */
    CAMPAIGN_REFUSED = 0,
    /* Send this booking's desk a request (the booking). */
    CAMPAIGN_REQUEST = 1,
    /* Ask this booking's desk to take it back (the booking). */
    CAMPAIGN_RETURN = 2,
    /* Nothing to send until some desk replies (0). */
    CAMPAIGN_WAIT = 3,
    /* The end: one whole way is held and nothing else (the way). */
    CAMPAIGN_FLOWN = 4,
    /* The end: nothing is held (0). */
    CAMPAIGN_CALLED_OFF = 5,
    /* check, start: the sheet passes (0); join: the joined sheet was written,
       and is still to be checked (its length); reply: it was taken (the
       booking); block: all its replies were taken (their number); passed ways:
       the listing was written (its length); journal line: it was written (its
       length, 6); restart: the journal is right (0); settle: the report was
       written (its length). */
    CAMPAIGN_ACCEPTED = 6
};

/*
 * The refusals; in brackets the place. Lines are counted from 1. Of several
 * faults the first is given: 1 to 3 line by line from the top (on one line 1,
 * then 2, then 3), then 4 to 8, then 11 or 14, then 9 or 12, then 13 or 15 line
 * by line (on one line 13, then 15), then 10. Where 9 stands here, a block has 1
 * or 9, whichever its first bad line has. A join has 1 to 7 of its first sheet,
 * then 1 to 7 of its second, then 17, then 10.
 */
enum campaign_refusal {
    /* Not refused. */
    CAMPAIGN_NO_REFUSAL = 0,
    /* The sheet ends early, a line is not of its form, or bytes follow the
       last line (the line; for bytes too many the line after the last).
       Of a block, after 11: a line is not of its form or is not finished (the
       block's line). */
    CAMPAIGN_FORM = 1,
    /* A count, or the most matters open per desk, is outside its limits (the
       line). */
    CAMPAIGN_COUNT = 2,
    /* A number is out of sequence, not rising, not a booking, or not a desk
       (the line). */
    CAMPAIGN_NUMBER = 3,
    /* A booking comes before itself, by links in a circle (the lowest such
       booking). */
    CAMPAIGN_CIRCLE = 4,
    /* A way has a booking but not all that come before it (the first such
       way). */
    CAMPAIGN_WAY_NOT_CLOSED = 5,
    /* A booking is in no way (the lowest such booking). */
    CAMPAIGN_UNUSED = 6,
    /* A way equals an earlier one (the first such way). */
    CAMPAIGN_WAY_TWICE = 7,
    /* A stranding point: if this booking is refused while that way is flown,
       bookings that can't be given back may be held already, and no later way
       is a safe refuge for them (way * 256 + booking; first way, then lowest
       booking; see campaign_stranded_way and campaign_stranded_booking). */
    CAMPAIGN_STRANDING = 8,
    /* The reply does not fit: Y and N need a requested booking, G and K a
       returning one; or there is no such letter or booking (the booking given,
       0 if it is above 64; of a block its line). */
    CAMPAIGN_MISFIT = 9,
    /* A buffer is too short for the text to be written (0). */
    CAMPAIGN_SHORT_BUFFER = 10,
    /* The state is not sound: it has not 65 bytes, or its bytes contradict the
       sheet or each other, being damaged or of another sheet; a desk with more
       matters than the sheet allows is such a case (0). A change that leaves a
       sound state is not noticed. */
    CAMPAIGN_UNSOUND = 11,
    /* A whole line of the journal is not of its form, is not the order that
       was due there, or is a reply that does not fit (the line; 65535 for any
       line beyond). */
    CAMPAIGN_WRONG_LINE = 12,
    /* A line of the fee sheet is not of its form, has a blank where the least
       fee must be, is out of sequence or is missing, or bytes follow the last
       line (the fee sheet's line; for bytes too many the line after the last). */
    CAMPAIGN_WRONG_FEE = 13,
    /* The journal has more than 10,000 whole lines, too many for a bill (0). */
    CAMPAIGN_LONG_JOURNAL = 14,
    /* A quote, for a confirmation or for a return, has its least above its
       greatest (the fee sheet's line, which is the booking). */
    CAMPAIGN_CROSSED_QUOTE = 15,
    /* 16 is the partner's, see partner.h. The sheets are too large to be joined:
       together they have more than 64 bookings or 512 links, or their ways make
       more than 16 pairs (0). */
    CAMPAIGN_JOIN_TOO_LARGE = 17
};

/* An answer is kind * 16777216 + refusal * 65536 + place. */

static inline uint32_t campaign_kind_of(uint32_t answer)
{
    return answer >> 24;
}

static inline uint32_t campaign_refusal_of(uint32_t answer)
{
    return (answer >> 16) & 0xFFu;
}

static inline uint32_t campaign_place_of(uint32_t answer)
{
    return answer & 0xFFFFu;
}

/* The two parts of a stranding point's place. */

static inline uint32_t campaign_stranded_way(uint32_t place)
{
    return place >> 8;
}

static inline uint32_t campaign_stranded_booking(uint32_t place)
{
    return place & 0xFFu;
}

/* =============================== Sheets =============================== */

/*
 * Is this a sheet that can be flown without being stranded?
 *
 * Accepted with place 0, or refused with 1 to 8. Writes nothing. A program need
 * not read more of a sheet than its first CAMPAIGN_LONGEST_SHEET + 1 bytes: what
 * lies behind them does not change the answer, here or of a join.
 *
 * A partner range's gateway, which takes fewer bookings and ways, has a check of
 * its own, with the same answers where it takes the sheet: see partner.h.
 */
uint32_t campaign_check(const uint8_t *sheet, size_t sheet_len);

/*
 * Joins two plans that share a week into one. What is written is a plan sheet:
 *
 *     the bookings of the first, then those of the second, numbered on from the
 *     first's last; each keeps its kind and its desk, and desk d is the same desk
 *     in both;
 *     the links of the first, then those of the second; none between the two;
 *     every pair of ways: the first's most wanted with each of the second's in
 *     order, then the first's next. With a ways in the second, way i of the first
 *     and way j of the second make way (i - 1) * a + j;
 *     the smaller of the two limits of open matters.
 *
 * The flight with a tanker, above, as the second; as the first a radar trial with
 * 1 a range slot and 2 a radar van, or else 3 simulator hours:
 *
 *     P   3   1   2   3      P   7   4   4   2
 *     B   1 C   1            B   1 C   1
 *     B   2 D   3            B   2 D   3
 *     B   3 D   4            B   3 D   4
 *     L   1   2              B   4 C   1
 *     A   2   1   2          B   5 P   2
 *     A   1   3              B   6 C   2
 *                            B   7 R   1
 *                            L   1   2
 *                            L   4   5
 *                            L   5   6
 *                            L   5   7
 *                            A   5   1   2   4   5   6
 *                            A   5   1   2   4   5   7
 *                            A   4   3   4   5   6
 *                            A   4   3   4   5   7
 *
 * Accepted with the length of the joined sheet as place; it stands at the front
 * of the lent bytes, and later bytes keep their values. Refused with 1 to 7 as by
 * check for the first sheet, then for the second, then with 17 if the joined
 * sheet would have more than 64 bookings, 512 links or 16 ways, then with 10 if it
 * has no room in joined_len bytes. CAMPAIGN_LONGEST_SHEET bytes are always enough.
 * Of 1 to 7 the place does not say which sheet it is in: ask campaign_check of
 * both. The first with one of 1 to 7 is meant.
 *
 * Check the joined sheet before it is flown: only if it passes does the guarantee
 * cover it that no campaign is stranded. It never has 1 to 7, but it may have 8
 * though both its parts pass. Sheets with 8 are joined too; if the joined sheet
 * passes, both its parts do.
 *
 * The two sheets are only read, and may be the same bytes. Three sheets without 1
 * to 7 give the same bytes whether the first two are joined first or the last two;
 * if one of the two calls is refused with 17, so is one of the other two.
 */
uint32_t campaign_join(const uint8_t *first, size_t first_len,
                       const uint8_t *second, size_t second_len,
                       uint8_t *joined, size_t joined_len);

/* ============================== The run =============================== */

/*
 * How a dispatcher uses it:
 *
 *     uint8_t state[CAMPAIGN_STATE_LENGTH];
 *     answer = campaign_start(sheet, length, state, sizeof state);
 *     then, until the end:
 *         answer = campaign_next_order(sheet, length, state, sizeof state);
 *         request or return: send it to the booking's desk, ask again at once;
 *         wait:              await a reply of any desk, hand it to
 *                            campaign_reply, ask again;
 *         flown, called off: done.
 *
 * A dispatcher that keeps a journal (below) can go on after a crash.
 */

/* Letters of a reply. */
enum campaign_letter {
    CAMPAIGN_CONFIRMED = 'Y', /* to a request: it is held now */
    CAMPAIGN_DECLINED = 'N',  /* to a request: lost if C or P; R or D is requested
                                 again */
    CAMPAIGN_RETURNED = 'G',  /* to a return: it is free now */
    CAMPAIGN_KEPT = 'K'       /* to a return: it failed, it is still held */
};

/*
 * Begins a campaign: way 1, every booking free.
 *
 * Accepted with place 0, and the 65 bytes of the state are written whatever
 * stood there; or refused with 1 to 8 as by check, or with 11 if state_len is
 * not 65.
 */
uint32_t campaign_start(const uint8_t *sheet, size_t sheet_len,
                        uint8_t *state, size_t state_len);

/*
 * What to do now.
 *
 * Request or return: the order is marked in the state as given; send it, and
 * ask again, for more orders may follow before any reply. Wait, flown and
 * called off leave the state unchanged. Refused with 1 to 8 or 11.
 *
 * While a desk is full, requests and returns of its bookings are passed over:
 * the next booking in turn whose desk is not full is taken, and if nothing else
 * applies the answer is wait. So no desk ever has more orders without a reply
 * than the sheet allows.
 *
 * With no reply outstanding the answer is never wait.
 */
uint32_t campaign_next_order(const uint8_t *sheet, size_t sheet_len,
                             uint8_t *state, size_t state_len);

/*
 * Takes in what a desk replied: one of the four letters, and the booking.
 *
 * Accepted with the booking as place, and the state says what became of it.
 * If that leaves the current way without a booking it needs and no request is
 * open any more, the first way that can still be flown becomes current, or
 * calling off begins. Refused with 1 to 8, 11 or 9. Hand each reply in once:
 * a copy is refused with 9 as long as the booking has no open order, but if the
 * same booking has been ordered again meanwhile, the copy answers that order. So
 * send each order with a number, its place among the orders for its booking, let
 * the reply quote it, and discard a reply to any order but the latest.
 *
 * Replies to different bookings may come in any order, as long as no order is
 * taken between them, whichever comes first: each gets the same answer, and
 * together they leave the same state. An order is taken where
 * campaign_next_order answers request or return. A wait or the end takes none,
 * so it does not matter how often and where it is asked, after every reply too,
 * while that is what it answers. Of several replies to one booking the first that
 * fits is taken, and no other.
 */
uint32_t campaign_reply(const uint8_t *sheet, size_t sheet_len,
                        uint8_t *state, size_t state_len,
                        uint8_t letter, uint32_t booking);

/*
 * Takes in a block of replies. A block is lines of six bytes: a reply's letter,
 * the booking in four columns, a line feed.
 *
 *     Y   1      the desk of booking 1 confirmed it
 *     N  12      that of booking 12 refused it
 *
 * The lines are taken one after the other, each as by campaign_reply, up to the
 * first bad one. Accepted with the number of replies taken as place; an empty
 * block takes none and has 0. Refused with 1 to 8 or 11, and then nothing
 * changes. Else refused for the first bad line, with that line as place: with
 * 1 if it is not of its form or the block ends within it, with 9 if the reply
 * does not fit or there is no such letter or booking. The replies before the
 * bad line stay taken; it and all after it count as not given. The lines of an
 * accepted block could have stood in any order: answer and state would be the
 * same.
 *
 * The sheet is read and checked once, so a block costs as much as one reply or
 * two. Between two orders a booking has at most one reply that fits: a block
 * never takes more than 64, and no bad line has a number above 65.
 */
uint32_t campaign_reply_block(const uint8_t *sheet, size_t sheet_len,
                              const uint8_t *block, size_t block_len,
                              uint8_t *state, size_t state_len);

/*
 * How many replies a block has kept, by the answer to it: its first lines. Only
 * for a sheet that campaign_start has accepted: another sheet's own refusal 1
 * looks like a bad line's, and keeps nothing.
 */
static inline uint32_t campaign_kept_of(uint32_t answer)
{
    uint32_t refusal = campaign_refusal_of(answer);
    uint32_t place = campaign_place_of(answer);
    if (campaign_kind_of(answer) == CAMPAIGN_ACCEPTED)
        return place;
    if ((refusal == CAMPAIGN_FORM || refusal == CAMPAIGN_MISFIT) && place > 0)
        return place - 1;
    return 0;
}

/* =============================== Story ================================ */

/*
 * Why is this way the current one, and none that is wanted more? A listing tells
 * it: one line of 11 bytes for each way before the current one, lowest first, and
 * no other; for every way if the campaign is being called off or has been. A line
 * is V, the way in four columns, the letter of a reason, a booking in four
 * columns, a line feed.
 *
 * For example, 1 is a chase aircraft, 2 a range slot, 3 a tanker, which can't be
 * given back; the ways are 1 2 3, then 2, then 2 3. The chase aircraft was
 * refused, but by then the tanker had been requested, and it was confirmed. Way 3
 * is current:
 *
 *     V   1N   1      way 1 is out: booking 1 was refused
 *     V   2H   3      way 2 is out: it lacks booking 3, which is held and can't
 *                     be given back
 */

/* Letters of a listing's line: why the way can't be flown any more. */
enum campaign_passed_letter {
    /* The way needs this booking, and it is lost (code 3): its desk refused it for
       good. Others of the way may be lost too; this is the lowest. */
    CAMPAIGN_WAY_LOST = 'N',
    /* None of the way's bookings is lost, but the way lacks this one, which is
       held and can't be given back (P or R). It may lack others such; this is the
       lowest. */
    CAMPAIGN_WAY_LACKS = 'H'
};

/*
 * The story of the current way, from sheet and state. The state is only read.
 *
 * Accepted with the length of the listing as place, 11 for each line; the listing
 * stands at the front of the lent bytes, and later bytes keep their values. An
 * empty listing, length 0, means that way 1 is current: no way was passed over.
 * It needs no room, so NULL, 0 may be lent for it. Refused with 1 to 8 as by check,
 * then with 11 if the state has not 65 bytes or is not sound, then with 10 if the
 * listing has no room in listing_len bytes. CAMPAIGN_LONGEST_LISTING bytes are
 * always enough.
 *
 * state[0] is the current way: ask when it has changed, and at the end. The
 * current way itself has no line, even while one of its bookings is lost and
 * other desks have still to decide. Each line is about the state as it is now:
 * later the same way may have a line with a lower booking, or with N in place of
 * H, as more bookings are lost or held.
 */
uint32_t campaign_passed_ways(const uint8_t *sheet, size_t sheet_len,
                              const uint8_t *state, size_t state_len,
                              uint8_t *listing, size_t listing_len);

/* ============================== Journal =============================== */

/*
 * A journal is a file with one line for each request or return that
 * campaign_next_order gave and for each reply that campaign_reply accepted or
 * campaign_reply_block kept, in the order of the calls: the line's letter, the
 * booking in four columns, a line feed. Waits, ends and refused calls have no
 * line. The lines of a block are its own first bytes, six times
 * campaign_kept_of of its answer.
 *
 *     Q   1      booking 1 was requested
 *     Y   1      its desk confirmed it
 *
 * Store (append and sync) the line of an order or of an accepted reply, or the
 * lines of a block, before the next call, and an order's line also before the
 * order is sent. Then the program may stop at any moment, in the middle of a
 * write too, and of a block's lines as well. After a stop:
 *
 *     campaign_restart gives the state that follows the journal's whole lines;
 *     cut the file to whole lines, its length - length % 6, before you store
 *     another line;
 *     send every open order again: booking b has an open request where
 *     state[b] is CAMPAIGN_REQUESTED, an open return where it is
 *     CAMPAIGN_RETURNING. This is no further request or return;
 *     discard any later reply to an order whose reply the journal has;
 *     go on with campaign_next_order and campaign_reply (or a block).
 *
 * An order or a reply without its whole line counts as not made. Where desks
 * answer an order that is sent twice as they answered it first, the campaign
 * is as good as one that was never stopped.
 */

/* Letters of an order's line; a reply's line has the reply's letter. */
enum campaign_order_letter {
    CAMPAIGN_REQUEST_LETTER = 'Q',
    CAMPAIGN_RETURN_LETTER = 'U'
};

/*
 * Writes the journal line of an order or a reply at the front of line, six
 * bytes; later bytes keep their values.
 *
 * Accepted with place 6; or refused with 9 if the letter is none of Q, U, Y,
 * N, G, K or the booking is not 1 to 64 (place as for a reply), then with 10 if
 * line_len is below 6. It looks at no sheet: whether the line is right where it
 * stands is for campaign_restart to say.
 */
uint32_t campaign_journal_line(uint8_t letter, uint32_t booking,
                               uint8_t *line, size_t line_len);

/*
 * The state of a campaign from its journal.
 *
 * Accepted with place 0, and the 65 bytes of the state are written whatever
 * stood there: the state after the calls of the journal's whole lines, from the
 * start. One to five bytes after the last whole line are dropped, whatever they
 * are; an empty journal gives the state that campaign_start gives. Refused with
 * 1 to 8 as by check, then with 11 if state_len is not 65, then with 12 and the
 * first line that is wrong. The sheet is read and checked once, and the time
 * for a line does not depend on how many there are.
 */
uint32_t campaign_restart(const uint8_t *sheet, size_t sheet_len,
                          const uint8_t *journal, size_t journal_len,
                          uint8_t *state, size_t state_len);

/* ================================ Bill ================================ */

/*
 * A desk quotes each fee as two amounts, the least and the greatest that it may
 * come to. A fee sheet has one line of 30 bytes for each booking of the plan
 * sheet, in order: F, the booking in four columns, then in six columns each, 0 to
 * 999,999, the least and the greatest fee for a confirmation, the least and the
 * greatest fee for a return, and a line feed. Nothing follows the last line. The
 * numbers are written as on a plan sheet; zero is spaces and 0. A greatest fee
 * that is blank, six spaces, means the same as its least; the spaces must stand
 * before the line feed too. The least must be there, and may not be above the
 * greatest.
 *
 *     F   1   150   180    20    35   booking 1: 150 to 180 each time it is
 *                                     confirmed, 20 to 35 each time it is returned
 *     F   2  4000  6000     0     0
 *     F   3   900          40    45   900 each time it is confirmed
 *     F   4    70           0     0
 *
 * The report has one line for each booking, in order: S, the booking in four
 * columns, how often it was confirmed and how often returned in six columns
 * each, its amount at the least and at the greatest fees in twelve columns each,
 * a line feed. Then one line for each way, in order: M, the way in four columns,
 * the sum of its bookings' least and of their greatest fees for a confirmation in
 * twelve columns each, a line feed. Each booking of the way counts once there,
 * whatever the journal says. Then T and the total at the least and at the
 * greatest fees in twelve columns each, a line feed. Whatever each fee comes to
 * within its quote, also if it changes from one time to the next, the amount, sum
 * or total lies between the two, and both can be reached.
 *
 * By the fees above, on the sheet of the flight with a tanker: the range slot was
 * confirmed, the tanker refused, and the range slot returned.
 *
 *     S   1     1     1         170         215
 *     S   2     0     0           0           0
 *     S   3     0     0           0           0
 *     S   4     0     0           0           0
 *     M   1        5050        7080
 *     M   2        4220        6250
 *     T         170         215
 */

/*
 * The bill of a campaign from its journal: counted are each booking's lines
 * with Y and with G. The campaign need not have ended, and a booking that was
 * never confirmed has its line too. One to five bytes after the journal's last
 * whole line are dropped.
 *
 * Accepted with the length of the report as place, 42 for each booking, 30 for
 * each way and 26; the report stands at the front of the lent bytes, and later
 * bytes keep their values. Refused with 1 to 8 as by check, then with 14 if the
 * journal has more than 10,000 whole lines, then with 12 as by restart, then for
 * the first line of the fee sheet that is wrong, with that line as place: with 13
 * if it is not of its form, has a blank least, is out of sequence or is missing,
 * else with 15 if in one of its two quotes the least is above the greatest. Bytes
 * after the last line are 13 once all lines are right. Then refused with 10 if the
 * report has no room in report_len bytes.
 */
uint32_t campaign_settle(const uint8_t *sheet, size_t sheet_len,
                         const uint8_t *fees, size_t fees_len,
                         const uint8_t *journal, size_t journal_len,
                         uint8_t *report, size_t report_len);

#ifdef __cplusplus
}
#endif

#endif

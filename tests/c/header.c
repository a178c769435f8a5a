/* The header alone: compiles first in its file and twice, as C11 and C++17;
   its constants are the rules' numbers; the linked calls answer as it says, which
   was worked out by hand from the rules. story.c does the same for the ways that
   were passed over, settle.c for the bill, join.c for two plans joined. */
#include "campaign.h"
#include "campaign.h"

#include "expect.h"

FIXED(CAMPAIGN_MOST_BOOKINGS == 64);
FIXED(CAMPAIGN_MOST_LINKS == 512);
FIXED(CAMPAIGN_MOST_WAYS == 16);
FIXED(CAMPAIGN_MOST_DESKS == 8);
FIXED(CAMPAIGN_MOST_MATTERS == 64);
FIXED(CAMPAIGN_STATE_LENGTH == 1 + CAMPAIGN_MOST_BOOKINGS);
FIXED(CAMPAIGN_LONGEST_SHEET == 18 + 64 * 12 + 512 * 10 + 16 * (6 + 64 * 4));

FIXED(CAMPAIGN_FREE == 0 && CAMPAIGN_REQUESTED == 1 && CAMPAIGN_HELD == 2);
FIXED(CAMPAIGN_LOST == 3 && CAMPAIGN_RETURNING == 4);

FIXED(CAMPAIGN_REFUSED == 0 && CAMPAIGN_REQUEST == 1 && CAMPAIGN_RETURN == 2);
FIXED(CAMPAIGN_WAIT == 3 && CAMPAIGN_FLOWN == 4 && CAMPAIGN_CALLED_OFF == 5);
FIXED(CAMPAIGN_ACCEPTED == 6);

FIXED(CAMPAIGN_NO_REFUSAL == 0 && CAMPAIGN_FORM == 1 && CAMPAIGN_COUNT == 2);
FIXED(CAMPAIGN_NUMBER == 3 && CAMPAIGN_CIRCLE == 4);
FIXED(CAMPAIGN_WAY_NOT_CLOSED == 5 && CAMPAIGN_UNUSED == 6);
FIXED(CAMPAIGN_WAY_TWICE == 7 && CAMPAIGN_STRANDING == 8);
FIXED(CAMPAIGN_MISFIT == 9 && CAMPAIGN_SHORT_BUFFER == 10 && CAMPAIGN_UNSOUND == 11);
FIXED(CAMPAIGN_WRONG_LINE == 12 && CAMPAIGN_WRONG_FEE == 13 && CAMPAIGN_LONG_JOURNAL == 14);
FIXED(CAMPAIGN_CROSSED_QUOTE == 15 && CAMPAIGN_JOIN_TOO_LARGE == 17);

FIXED(CAMPAIGN_CONFIRMED == 89 && CAMPAIGN_DECLINED == 78);
FIXED(CAMPAIGN_RETURNED == 71 && CAMPAIGN_KEPT == 75);
FIXED(CAMPAIGN_REQUEST_LETTER == 81 && CAMPAIGN_RETURN_LETTER == 85);
FIXED(CAMPAIGN_BLOCK_LINE_LENGTH == 6 && CAMPAIGN_JOURNAL_LINE_LENGTH == 6);

FIXED(CAMPAIGN_PASSED_LINE_LENGTH == 1 + 4 + 1 + 4 + 1);
FIXED(CAMPAIGN_LONGEST_LISTING == CAMPAIGN_MOST_WAYS * CAMPAIGN_PASSED_LINE_LENGTH);
FIXED(CAMPAIGN_WAY_LOST == 78 && CAMPAIGN_WAY_LACKS == 72);

FIXED(CAMPAIGN_FEE_LINE_LENGTH == 1 + 4 + 6 + 6 + 6 + 6 + 1);
FIXED(CAMPAIGN_SETTLED_LINE_LENGTH == 1 + 4 + 6 + 6 + 12 + 12 + 1);
FIXED(CAMPAIGN_WAY_LINE_LENGTH == 1 + 4 + 12 + 12 + 1 && CAMPAIGN_TOTAL_LINE_LENGTH == 1 + 12 + 12 + 1);
FIXED(CAMPAIGN_LONGEST_REPORT == 64 * 42 + 16 * 30 + 26 && CAMPAIGN_MOST_SETTLED_LINES == 10000);

static uint32_t check(const char *sheet)
{
    return campaign_check((const uint8_t *) sheet, strlen(sheet));
}

#define TANKER_HEAD "B   1 C   1\nB   2 P   1\nB   3 C   1\n"

static const char tanker[] = "P   4   3   2  64\n" TANKER_HEAD "B   4 R   1\nL   1   2\nL   2   3\nL   2   4\n"
                             "A   3   1   2   3\nA   3   1   2   4\n";
static const char twin[] = "P   3   2   1  64\n" TANKER_HEAD "L   1   2\nL   2   3\nA   3   1   2   3\n";

static void checks(void)
{
    expect("tanker", check(tanker), CAMPAIGN_ACCEPTED, 0, 0);
    expect("no sheet", check(""), CAMPAIGN_REFUSED, CAMPAIGN_FORM, 1);
    expect("no way", check("P   1   0   0  64\n"), CAMPAIGN_REFUSED, CAMPAIGN_COUNT, 1);
    expect("first number", check("P   1   0   1  64\nB   2 C   1\nA   1   1\n"), CAMPAIGN_REFUSED, CAMPAIGN_NUMBER, 2);
    expect("circle", check("P   2   2   1  64\nB   1 C   1\nB   2 C   1\nL   1   2\nL   2   1\nA   2   1   2\n"),
           CAMPAIGN_REFUSED, CAMPAIGN_CIRCLE, 1);
    expect("way not closed",
           check("P   2   1   2  64\nB   1 C   1\nB   2 C   1\nL   1   2\nA   2   1   2\nA   1   2\n"),
           CAMPAIGN_REFUSED, CAMPAIGN_WAY_NOT_CLOSED, 2);
    expect("unused", check("P   2   0   1  64\nB   1 C   1\nB   2 C   1\nA   1   1\n"),
           CAMPAIGN_REFUSED, CAMPAIGN_UNUSED, 2);
    expect("way twice", check("P   1   0   2  64\nB   1 C   1\nA   1   1\nA   1   1\n"),
           CAMPAIGN_REFUSED, CAMPAIGN_WAY_TWICE, 2);
    expect("twin", check(twin), CAMPAIGN_REFUSED, CAMPAIGN_STRANDING, 259);
    if (campaign_stranded_way(259) != 1 || campaign_stranded_booking(259) != 3) {
        fprintf(stderr, "header: parts of a stranding point\n");
        faults++;
    }
}

static void calls(void)
{
    const uint8_t *sheet = (const uint8_t *) tanker;
    size_t length = strlen(tanker);
    uint8_t state[CAMPAIGN_STATE_LENGTH];
    uint8_t before[CAMPAIGN_STATE_LENGTH];
    memset(state, 0xEE, sizeof state);
    memcpy(before, state, sizeof state);
    expect("short state", campaign_start(sheet, length, state, 64), 0, CAMPAIGN_UNSOUND, 0);
    expect("unsound", campaign_next_order(sheet, length, state, sizeof state), 0, CAMPAIGN_UNSOUND, 0);
    if (memcmp(state, before, sizeof state) != 0) {
        fprintf(stderr, "header: a refused call wrote\n");
        faults++;
    }
    expect("start", campaign_start(sheet, length, state, sizeof state), CAMPAIGN_ACCEPTED, 0, 0);
    expect("request", campaign_next_order(sheet, length, state, sizeof state), CAMPAIGN_REQUEST, 0, 1);
    expect("wait", campaign_next_order(sheet, length, state, sizeof state), CAMPAIGN_WAIT, 0, 0);
    expect("misfit", campaign_reply(sheet, length, state, sizeof state, CAMPAIGN_RETURNED, 1), 0, CAMPAIGN_MISFIT, 1);
    expect("far", campaign_reply(sheet, length, state, sizeof state, CAMPAIGN_CONFIRMED, 65), 0, CAMPAIGN_MISFIT, 0);
    expect("reply", campaign_reply(sheet, length, state, sizeof state, CAMPAIGN_DECLINED, 1), CAMPAIGN_ACCEPTED, 0, 1);
    if (state[0] != 0 || state[1] != CAMPAIGN_LOST) {
        fprintf(stderr, "header: state after a refused first booking\n");
        faults++;
    }
    expect("end", campaign_next_order(sheet, length, state, sizeof state), CAMPAIGN_CALLED_OFF, 0, 0);
}

/* Eight bytes are lent as line_len bytes; those that are not written stay '.'. */
static void line(const char *what, uint8_t letter, uint32_t booking, size_t line_len,
                 uint32_t kind, uint32_t refusal, uint32_t place, const char *wanted)
{
    uint8_t bytes[8];
    memset(bytes, '.', sizeof bytes);
    expect(what, campaign_journal_line(letter, booking, bytes, line_len), kind, refusal, place);
    expect_bytes(what, bytes, wanted, sizeof bytes);
}

static void journal_lines(void)
{
    line("request line", CAMPAIGN_REQUEST_LETTER, 1, 6, CAMPAIGN_ACCEPTED, 0, 6, "Q   1\n..");
    line("return line", CAMPAIGN_RETURN_LETTER, 10, 8, CAMPAIGN_ACCEPTED, 0, 6, "U  10\n..");
    line("confirmed line", CAMPAIGN_CONFIRMED, 9, 7, CAMPAIGN_ACCEPTED, 0, 6, "Y   9\n..");
    line("declined line", CAMPAIGN_DECLINED, 63, 8, CAMPAIGN_ACCEPTED, 0, 6, "N  63\n..");
    line("returned line", CAMPAIGN_RETURNED, 64, 8, CAMPAIGN_ACCEPTED, 0, 6, "G  64\n..");
    line("kept line", CAMPAIGN_KEPT, 20, 8, CAMPAIGN_ACCEPTED, 0, 6, "K  20\n..");
    line("no letter", 'W', 5, 8, 0, CAMPAIGN_MISFIT, 5, "........");
    line("small letter", 'q', 64, 8, 0, CAMPAIGN_MISFIT, 64, "........");
    line("booking 0", CAMPAIGN_CONFIRMED, 0, 8, 0, CAMPAIGN_MISFIT, 0, "........");
    line("booking 65", CAMPAIGN_CONFIRMED, 65, 8, 0, CAMPAIGN_MISFIT, 0, "........");
    line("booking 65537", CAMPAIGN_CONFIRMED, 65537, 8, 0, CAMPAIGN_MISFIT, 0, "........");
    line("short line", CAMPAIGN_CONFIRMED, 5, 5, 0, CAMPAIGN_SHORT_BUFFER, 0, "........");
    line("no line", CAMPAIGN_CONFIRMED, 5, 0, 0, CAMPAIGN_SHORT_BUFFER, 0, "........");
    line("no letter, no line", 0, 5, 0, 0, CAMPAIGN_MISFIT, 5, "........");
}

/* The state's first five bytes after a journal, or what refuses it; then no byte is written. */
static void restart(const char *sheet, const char *journal, size_t state_len, uint32_t kind, uint32_t refusal,
                    uint32_t place, const char *front)
{
    uint8_t state[CAMPAIGN_STATE_LENGTH];
    uint8_t wanted[CAMPAIGN_STATE_LENGTH];
    memset(state, 0xEE, sizeof state);
    memset(wanted, kind == CAMPAIGN_REFUSED ? 0xEE : 0, sizeof wanted);
    if (kind != CAMPAIGN_REFUSED)
        memcpy(wanted, front, 5);
    expect(journal, campaign_restart((const uint8_t *) sheet, strlen(sheet), (const uint8_t *) journal,
                                     strlen(journal), state, state_len), kind, refusal, place);
    expect_bytes(journal, state, wanted, sizeof state);
}

static const char pair[] = "P   2   0   1  64\nB   1 C   1\nB   2 C   1\nA   2   1   2\n";

#define TO_CHASE "Q   1\nY   1\nQ   2\nY   2\nQ   3\n"

static void restarts_that_pass(void)
{
    restart(tanker, "", 65, CAMPAIGN_ACCEPTED, 0, 0, "\1\0\0\0\0");
    restart(tanker, "Q   1", 65, CAMPAIGN_ACCEPTED, 0, 0, "\1\0\0\0\0");
    restart(tanker, "Q   1\n", 65, CAMPAIGN_ACCEPTED, 0, 0, "\1\1\0\0\0");
    restart(tanker, "Q   1\nXXXXX", 65, CAMPAIGN_ACCEPTED, 0, 0, "\1\1\0\0\0");
    restart(tanker, "Q   1\nN   1\n", 65, CAMPAIGN_ACCEPTED, 0, 0, "\0\3\0\0\0");
    restart(tanker, TO_CHASE "N   3\nQ   4\nN   4\nQ   4\nY", 65, CAMPAIGN_ACCEPTED, 0, 0, "\2\2\2\3\1");
    restart(pair, "Q   1\nQ   2\nY   1\nN   2\nU   1\nK   1\nU   1\n", 65, CAMPAIGN_ACCEPTED, 0, 0, "\0\4\3\0\0");
    restart(pair, "Q   1\nQ   2\nY   1\nN   2\nU   1\nG   1\n", 65, CAMPAIGN_ACCEPTED, 0, 0, "\0\0\3\0\0");
}

static void restarts_that_do_not(void)
{
    restart(tanker, "Q   2\n", 65, 0, CAMPAIGN_WRONG_LINE, 1, NULL);                /* not the one that was due */
    restart(tanker, "U   1\n", 65, 0, CAMPAIGN_WRONG_LINE, 1, NULL);                /* nor a return */
    restart(tanker, "Q   1\nQ   2\n", 65, 0, CAMPAIGN_WRONG_LINE, 2, NULL);         /* none was due */
    restart(tanker, "Q   1\nN   1\nQ   1\n", 65, 0, CAMPAIGN_WRONG_LINE, 3, NULL);  /* after the end */
    restart(tanker, "Q   1\nY   2\n", 65, 0, CAMPAIGN_WRONG_LINE, 2, NULL);         /* not requested */
    restart(tanker, "Q   1\nG   1\n", 65, 0, CAMPAIGN_WRONG_LINE, 2, NULL);         /* not returning */
    restart(tanker, "Q   1\nY   1\nY   1\n", 65, 0, CAMPAIGN_WRONG_LINE, 3, NULL);  /* answered already */
    restart(tanker, TO_CHASE "N   3\nQ   3\n", 65, 0, CAMPAIGN_WRONG_LINE, 7, NULL); /* lost */
    restart(tanker, "W   0\n", 65, 0, CAMPAIGN_WRONG_LINE, 1, NULL);
    restart(tanker, "q   1\n", 65, 0, CAMPAIGN_WRONG_LINE, 1, NULL);
    restart(tanker, "Q   1\nY0001\n", 65, 0, CAMPAIGN_WRONG_LINE, 2, NULL);
    restart(tanker, "Q1   \n", 65, 0, CAMPAIGN_WRONG_LINE, 1, NULL);
    restart(tanker, "Q    \n", 65, 0, CAMPAIGN_WRONG_LINE, 1, NULL);                /* a blank is no number */
    restart(tanker, "Q   1\nY    \n", 65, 0, CAMPAIGN_WRONG_LINE, 2, NULL);
    restart(tanker, "Q   1\rY", 65, 0, CAMPAIGN_WRONG_LINE, 1, NULL);
    restart(tanker, "Q   2\n", 64, 0, CAMPAIGN_UNSOUND, 0, NULL);
    restart(tanker, "", 0, 0, CAMPAIGN_UNSOUND, 0, NULL);
    restart(twin, "Q   2\n", 64, 0, CAMPAIGN_STRANDING, 259, NULL);
}

/* A block on a state with these first five bytes, the others 0, and the first five that it leaves. */
static void block(const char *sheet, const char *before, const char *lines, uint32_t kind, uint32_t refusal,
                  uint32_t place, const char *after)
{
    uint8_t state[CAMPAIGN_STATE_LENGTH] = {0};
    uint8_t wanted[CAMPAIGN_STATE_LENGTH] = {0};
    memcpy(state, before, 5);
    memcpy(wanted, after, 5);
    expect(lines, campaign_reply_block((const uint8_t *) sheet, strlen(sheet), (const uint8_t *) lines, strlen(lines),
                                       state, sizeof state), kind, refusal, place);
    expect_bytes(lines, state, wanted, sizeof state);
}

/* All four can be asked for at once; way 2 is the last alone. */
static const char field[] = "P   4   0   2  64\nB   1 C   1\nB   2 D   1\nB   3 C   1\nB   4 D   1\n"
                            "A   4   1   2   3   4\nA   1   4\n";

#define ASKED "\1\1\1\1\1"
#define FIRST_HELD "\1\2\1\1\1"
#define GIVING_BACK "\2\3\4\4\2"

static void blocks_that_pass(void)
{
    block(field, ASKED, "", CAMPAIGN_ACCEPTED, 0, 0, ASKED);
    block(field, ASKED, "Y   1\n", CAMPAIGN_ACCEPTED, 0, 1, FIRST_HELD);
    block(field, ASKED, "Y   3\nN   2\nY   1\n", CAMPAIGN_ACCEPTED, 0, 3, "\1\2\0\2\1");
    block(field, ASKED, "N   1\nY   2\n", CAMPAIGN_ACCEPTED, 0, 2, "\1\3\2\1\1"); /* 3 and 4 still decide */
    block(field, ASKED, "N   1\nY   2\nY   4\nY   3\n", CAMPAIGN_ACCEPTED, 0, 4, "\2\3\2\2\2");
    block(field, ASKED, "N   4\nN   3\nN   2\nN   1\n", CAMPAIGN_ACCEPTED, 0, 4, "\2\3\0\3\0");
    block(field, "\2\3\0\3\1", "N   4\n", CAMPAIGN_ACCEPTED, 0, 1, "\2\3\0\3\0");
    block(field, GIVING_BACK, "G   3\nK   2\n", CAMPAIGN_ACCEPTED, 0, 2, "\2\3\2\0\2");
    block(field, GIVING_BACK, "G   2\nG   3\n", CAMPAIGN_ACCEPTED, 0, 2, "\2\3\0\0\2");
    block(pair, "\1\1\1\0\0", "N   2\nY   1\n", CAMPAIGN_ACCEPTED, 0, 2, "\0\2\3\0\0");
    block(pair, "\0\4\3\0\0", "K   1\n", CAMPAIGN_ACCEPTED, 0, 1, "\0\2\3\0\0");
    block(pair, "\0\4\3\0\0", "G   1\n", CAMPAIGN_ACCEPTED, 0, 1, "\0\0\3\0\0");
}

static void blocks_that_do_not_fit(void)
{
    block(field, ASKED, "Y   1\nY   1\nY   2\n", 0, CAMPAIGN_MISFIT, 2, FIRST_HELD); /* answered already */
    block(field, ASKED, "Y   1\nG   2\n", 0, CAMPAIGN_MISFIT, 2, FIRST_HELD);         /* not returning */
    block(field, ASKED, "Y   1\nU   2\nY   2\n", 0, CAMPAIGN_MISFIT, 2, FIRST_HELD); /* an order is no reply */
    block(field, ASKED, "Q   1\n", 0, CAMPAIGN_MISFIT, 1, ASKED);
    block(field, ASKED, "y   1\n", 0, CAMPAIGN_MISFIT, 1, ASKED);
    block(field, ASKED, "\xFF   1\n", 0, CAMPAIGN_MISFIT, 1, ASKED);
    block(field, ASKED, "\n   1\n", 0, CAMPAIGN_MISFIT, 1, ASKED);
    block(field, ASKED, "Y   0\n", 0, CAMPAIGN_MISFIT, 1, ASKED);
    block(field, ASKED, "Y   1\nY   5\nY   2\n", 0, CAMPAIGN_MISFIT, 2, FIRST_HELD); /* not on the sheet */
    block(field, ASKED, "Y  65\n", 0, CAMPAIGN_MISFIT, 1, ASKED);
    block(field, ASKED, "Y9999\n", 0, CAMPAIGN_MISFIT, 1, ASKED);
    block(pair, "\0\4\3\0\0", "Y   1\n", 0, CAMPAIGN_MISFIT, 1, "\0\4\3\0\0");
    block(field, GIVING_BACK, "K   3\nG   3\nG   2\n", 0, CAMPAIGN_MISFIT, 2, "\2\3\4\2\2"); /* not asked again */
    block(field, ASKED, "G   1\nY0002\n", 0, CAMPAIGN_MISFIT, 1, ASKED); /* the first bad line, whatever comes after */
    block(field, ASKED, "Y   1\nG   2\nY", 0, CAMPAIGN_MISFIT, 2, FIRST_HELD);
    /* The bad line is the last that was missing for another way: none is chosen. */
    block(field, ASKED, "N   1\nY   2\nY   4\nG   3\n", 0, CAMPAIGN_MISFIT, 4, "\1\3\2\1\2");
}

static void blocks_of_another_form(void)
{
    block(field, ASKED, "Y0001\n", 0, CAMPAIGN_FORM, 1, ASKED);
    block(field, ASKED, "Y  01\n", 0, CAMPAIGN_FORM, 1, ASKED);
    block(field, ASKED, "Y1   \n", 0, CAMPAIGN_FORM, 1, ASKED);
    block(field, ASKED, "Y  1 \n", 0, CAMPAIGN_FORM, 1, ASKED);
    block(field, ASKED, "Y    \n", 0, CAMPAIGN_FORM, 1, ASKED);
    block(field, ASKED, "Y  +1\n", 0, CAMPAIGN_FORM, 1, ASKED);
    block(field, ASKED, "Y   1\nY   2\rY   3\n", 0, CAMPAIGN_FORM, 2, FIRST_HELD);
    block(field, ASKED, "Y   1\n\nY   2\n", 0, CAMPAIGN_FORM, 2, FIRST_HELD); /* an empty line shifts the rest */
    block(field, ASKED, "Y", 0, CAMPAIGN_FORM, 1, ASKED);
    block(field, ASKED, "Y   1", 0, CAMPAIGN_FORM, 1, ASKED);
    block(field, ASKED, "Y   1\nY   2", 0, CAMPAIGN_FORM, 2, FIRST_HELD);
    block(field, ASKED, "Y   1\n\n", 0, CAMPAIGN_FORM, 2, FIRST_HELD);
    block(field, ASKED, "?0001\n", 0, CAMPAIGN_FORM, 1, ASKED); /* the form comes before the letter */
    block(field, ASKED, "Y0001\nG   1\n", 0, CAMPAIGN_FORM, 1, ASKED);
}

/* The sheet comes first, then the state, then the lines; nothing changes. */
static void blocks_refused_whole(void)
{
    static const char wrong[] = "\3\1\1\1\1", code[] = "\1\1\5\1\1", returning[] = "\1\1\4\1\1";
    uint8_t state[CAMPAIGN_STATE_LENGTH] = {1, 1, 1, 1, 1};
    uint8_t before[CAMPAIGN_STATE_LENGTH] = {1, 1, 1, 1, 1};
    const uint8_t *bytes = (const uint8_t *) "Y   1\nY0002\n";
    block("", ASKED, "Y   1\n", 0, CAMPAIGN_FORM, 1, ASKED);
    block("P   1   0   0  64\n", ASKED, "Y   1\n", 0, CAMPAIGN_COUNT, 1, ASKED);
    block("P   1   0   1  64\nB   2 C   1\nA   1   1\n", ASKED, "Y   1\n", 0, CAMPAIGN_NUMBER, 2, ASKED);
    block("P   2   2   1  64\nB   1 C   1\nB   2 C   1\nL   1   2\nL   2   1\nA   2   1   2\n", ASKED, "Y   1\n",
          0, CAMPAIGN_CIRCLE, 1, ASKED);
    block("P   2   1   2  64\nB   1 C   1\nB   2 C   1\nL   1   2\nA   2   1   2\nA   1   2\n", ASKED, "Y   1\n",
          0, CAMPAIGN_WAY_NOT_CLOSED, 2, ASKED);
    block("P   2   0   1  64\nB   1 C   1\nB   2 C   1\nA   1   1\n", ASKED, "Y   1\n", 0, CAMPAIGN_UNUSED, 2, ASKED);
    block("P   1   0   2  64\nB   1 C   1\nA   1   1\nA   1   1\n", ASKED, "Y   1\n", 0, CAMPAIGN_WAY_TWICE, 2, ASKED);
    block(twin, "\1\1\0\0\0", "Y   1\n", 0, CAMPAIGN_STRANDING, 259, "\1\1\0\0\0");
    block(twin, wrong, "Y0001\n", 0, CAMPAIGN_STRANDING, 259, wrong);
    block(field, wrong, "Y   1\n", 0, CAMPAIGN_UNSOUND, 0, wrong);
    block(field, wrong, "", 0, CAMPAIGN_UNSOUND, 0, wrong);
    block(field, code, "G   1\n", 0, CAMPAIGN_UNSOUND, 0, code);
    block(field, returning, "Y0001\n", 0, CAMPAIGN_UNSOUND, 0, returning); /* of the current way */
    block(pair, ASKED, "Y   1\n", 0, CAMPAIGN_UNSOUND, 0, ASKED);          /* of another sheet */
    expect("64 bytes", campaign_reply_block((const uint8_t *) field, strlen(field), bytes, 12, state, 64),
           0, CAMPAIGN_UNSOUND, 0);
    expect_bytes("64 bytes", state, before, sizeof state);
}

/* As many as there can be: 64 replies, and one more. */
static void longest_block(void)
{
    char sheet[18 + 64 * 12 + 6 + 64 * 4 + 1];
    char lines[65 * 6 + 1];
    uint8_t state[CAMPAIGN_STATE_LENGTH];
    uint8_t held[CAMPAIGN_STATE_LENGTH];
    size_t at = (size_t) sprintf(sheet, "P  64   0   1  64\n");
    for (int booking = 1; booking <= 64; booking++)
        at += (size_t) sprintf(sheet + at, "B%4d C   1\n", booking);
    at += (size_t) sprintf(sheet + at, "A  64");
    for (int booking = 1; booking <= 64; booking++)
        at += (size_t) sprintf(sheet + at, "%4d", booking);
    for (int i = 0; i < 65; i++)
        sprintf(lines + i * 6, "Y%4d\n", i < 64 ? 64 - i : 1);
    sheet[at++] = '\n';
    for (size_t length = 64 * 6; length <= 65 * 6; length++) {
        uint32_t refusal = length == 64 * 6 ? 0 : length < 65 * 6 ? CAMPAIGN_FORM : CAMPAIGN_MISFIT;
        memset(state, CAMPAIGN_REQUESTED, sizeof state);
        memset(held, CAMPAIGN_HELD, sizeof held);
        held[0] = 1;
        expect("64 replies", campaign_reply_block((const uint8_t *) sheet, at, (const uint8_t *) lines, length, state,
                                                  sizeof state),
               refusal == 0 ? CAMPAIGN_ACCEPTED : CAMPAIGN_REFUSED, refusal, refusal == 0 ? 64 : 65);
        expect_bytes("64 replies", state, held, sizeof state);
    }
}

/* Line by line through campaign_reply; answer and state as the block must have them. */
static uint32_t one_by_one(const char *lines, size_t count, uint8_t state[CAMPAIGN_STATE_LENGTH])
{
    for (size_t i = 0; i < count; i++) {
        uint32_t answer = campaign_reply((const uint8_t *) field, strlen(field), state, CAMPAIGN_STATE_LENGTH,
                                         (uint8_t) lines[6 * i], (uint32_t) (lines[6 * i + 4] - '0'));
        if (campaign_refusal_of(answer) == CAMPAIGN_MISFIT)
            return 9 * 65536u + (uint32_t) i + 1;
        expect("a single reply", answer, CAMPAIGN_ACCEPTED, 0, (uint32_t) (lines[6 * i + 4] - '0'));
    }
    return 6 * 16777216u + (uint32_t) count;
}

/* Each block of three lines: of five letters and six bookings, some of which are none. */
static void compare_with_replies(const char *front)
{
    static const char letters[] = "YNGK?";
    char lines[3 * 6 + 1];
    for (int number = 0; number < 30 * 30 * 30 && faults == 0; number++) {
        uint8_t together[CAMPAIGN_STATE_LENGTH] = {0};
        uint8_t single[CAMPAIGN_STATE_LENGTH] = {0};
        for (int i = 0, rest = number; i < 3; i++, rest /= 30)
            sprintf(lines + 6 * i, "%c%4d\n", letters[rest % 5], rest / 5 % 6);
        memcpy(together, front, 5);
        memcpy(single, front, 5);
        uint32_t answer = campaign_reply_block((const uint8_t *) field, strlen(field), (const uint8_t *) lines, 18,
                                               together, sizeof together);
        if (answer != one_by_one(lines, 3, single)) {
            fprintf(stderr, "header: a block answers otherwise than its replies: %s", lines);
            faults++;
        }
        expect_bytes(lines, together, single, sizeof single);
    }
}

static void kept(const char *what, uint32_t kind, uint32_t refusal, uint32_t place, uint32_t wanted)
{
    if (campaign_kept_of(kind * 16777216u + refusal * 65536u + place) == wanted)
        return;
    fprintf(stderr, "header: kept of %s\n", what);
    faults++;
}

static void kepts(void)
{
    kept("none", CAMPAIGN_ACCEPTED, 0, 0, 0);
    kept("five", CAMPAIGN_ACCEPTED, 0, 5, 5);
    kept("all", CAMPAIGN_ACCEPTED, 0, 64, 64);
    kept("a misformed first line", 0, CAMPAIGN_FORM, 1, 0);
    kept("a misformed third line", 0, CAMPAIGN_FORM, 3, 2);
    kept("a misfit in line 1", 0, CAMPAIGN_MISFIT, 1, 0);
    kept("a misfit in line 65", 0, CAMPAIGN_MISFIT, 65, 64);
    kept("a single misfit above 64", 0, CAMPAIGN_MISFIT, 0, 0);
    kept("a count", 0, CAMPAIGN_COUNT, 3, 0);
    kept("a number", 0, CAMPAIGN_NUMBER, 3, 0);
    kept("a circle", 0, CAMPAIGN_CIRCLE, 3, 0);
    kept("a way not closed", 0, CAMPAIGN_WAY_NOT_CLOSED, 3, 0);
    kept("an unused booking", 0, CAMPAIGN_UNUSED, 3, 0);
    kept("a way twice", 0, CAMPAIGN_WAY_TWICE, 3, 0);
    kept("a stranding point", 0, CAMPAIGN_STRANDING, 259, 0);
    kept("a short buffer", 0, CAMPAIGN_SHORT_BUFFER, 0, 0);
    kept("an unsound state", 0, CAMPAIGN_UNSOUND, 0, 0);
    kept("a wrong line", 0, CAMPAIGN_WRONG_LINE, 3, 0);
    kept("a wrong fee line", 0, CAMPAIGN_WRONG_FEE, 3, 0);
    kept("a journal too long to be settled", 0, CAMPAIGN_LONG_JOURNAL, 0, 0);
    kept("a crossed quote", 0, CAMPAIGN_CROSSED_QUOTE, 3, 0);
    kept("sheets too large to be joined", 0, CAMPAIGN_JOIN_TOO_LARGE, 0, 0);
    kept("a request", CAMPAIGN_REQUEST, 0, 3, 0);
    kept("a return", CAMPAIGN_RETURN, 0, 3, 0);
    kept("a wait", CAMPAIGN_WAIT, 0, 0, 0);
    kept("a way flown", CAMPAIGN_FLOWN, 0, 3, 0);
    kept("a calling off", CAMPAIGN_CALLED_OFF, 0, 0, 0);
}

/* The lines of a block are those of the journal: what a block kept of its own bytes, restart takes. */
static void block_into_journal(void)
{
    static const char lines[] = "N   1\nY   2\nY   4\nG   3\n";
    char journal[64] = "Q   1\nQ   2\nQ   3\nQ   4\n";
    uint8_t state[CAMPAIGN_STATE_LENGTH] = {1, 1, 1, 1, 1};
    uint8_t wanted[CAMPAIGN_STATE_LENGTH] = {1, 3, 2, 1, 2};
    uint8_t found[CAMPAIGN_STATE_LENGTH];
    uint32_t answer = campaign_reply_block((const uint8_t *) field, strlen(field), (const uint8_t *) lines,
                                           strlen(lines), state, sizeof state);
    size_t stored = campaign_kept_of(answer) * CAMPAIGN_BLOCK_LINE_LENGTH;
    expect("a block for the journal", answer, 0, CAMPAIGN_MISFIT, 4);
    memcpy(journal + 24, lines, stored);
    memset(found, 0xEE, sizeof found);
    expect("a block in the journal", campaign_restart((const uint8_t *) field, strlen(field), (const uint8_t *) journal,
                                                      24 + stored, found, sizeof found), CAMPAIGN_ACCEPTED, 0, 0);
    expect_bytes("a block", state, wanted, sizeof state);
    expect_bytes("a block in the journal", found, wanted, sizeof found);
}

/* A length of 0 lends nothing, and then the pointer may be null: each lent part of each call in turn. */
static void nulls(void)
{
    const uint8_t *sheet = (const uint8_t *) tanker;
    size_t length = strlen(tanker);
    uint8_t state[CAMPAIGN_STATE_LENGTH];
    uint8_t first[CAMPAIGN_STATE_LENGTH] = {1};
    memset(state, 0xEE, sizeof state);
    expect("null sheet: check", campaign_check(NULL, 0), 0, CAMPAIGN_FORM, 1);
    expect("null sheet: start", campaign_start(NULL, 0, state, sizeof state), 0, CAMPAIGN_FORM, 1);
    expect("null sheet: next order", campaign_next_order(NULL, 0, state, sizeof state), 0, CAMPAIGN_FORM, 1);
    expect("null sheet: reply", campaign_reply(NULL, 0, state, sizeof state, CAMPAIGN_CONFIRMED, 1), 0, CAMPAIGN_FORM, 1);
    expect("null sheet: restart", campaign_restart(NULL, 0, NULL, 0, state, sizeof state), 0, CAMPAIGN_FORM, 1);
    expect("null state: start", campaign_start(sheet, length, NULL, 0), 0, CAMPAIGN_UNSOUND, 0);
    expect("null state: next order", campaign_next_order(sheet, length, NULL, 0), 0, CAMPAIGN_UNSOUND, 0);
    expect("null state: reply", campaign_reply(sheet, length, NULL, 0, CAMPAIGN_CONFIRMED, 1), 0, CAMPAIGN_UNSOUND, 0);
    expect("null state: restart", campaign_restart(sheet, length, NULL, 0, NULL, 0), 0, CAMPAIGN_UNSOUND, 0);
    expect("null line", campaign_journal_line(CAMPAIGN_REQUEST_LETTER, 1, NULL, 0), 0, CAMPAIGN_SHORT_BUFFER, 0);
    expect("null journal", campaign_restart(sheet, length, NULL, 0, state, sizeof state), CAMPAIGN_ACCEPTED, 0, 0);
    expect_bytes("null journal", state, first, sizeof state);
}

static void nulls_of_a_block(void)
{
    const uint8_t *sheet = (const uint8_t *) field;
    size_t length = strlen(field);
    const uint8_t *lines = (const uint8_t *) "Y   1\n";
    uint8_t state[CAMPAIGN_STATE_LENGTH] = {1, 1, 1, 1, 1};
    uint8_t before[CAMPAIGN_STATE_LENGTH] = {1, 1, 1, 1, 1};
    expect("null sheet: block", campaign_reply_block(NULL, 0, lines, 6, state, sizeof state), 0, CAMPAIGN_FORM, 1);
    expect("null state: block", campaign_reply_block(sheet, length, lines, 6, NULL, 0), 0, CAMPAIGN_UNSOUND, 0);
    expect("null block", campaign_reply_block(sheet, length, NULL, 0, state, sizeof state), CAMPAIGN_ACCEPTED, 0, 0);
    expect("null block and state", campaign_reply_block(sheet, length, NULL, 0, NULL, 0), 0, CAMPAIGN_UNSOUND, 0);
    expect("all null: block", campaign_reply_block(NULL, 0, NULL, 0, NULL, 0), 0, CAMPAIGN_FORM, 1);
    expect_bytes("null: block", state, before, sizeof state);
}

static void nulls_of_a_listing(void)
{
    const uint8_t *sheet = (const uint8_t *) tanker;
    size_t length = strlen(tanker);
    uint8_t listing[CAMPAIGN_LONGEST_LISTING];
    uint8_t first[CAMPAIGN_STATE_LENGTH] = {1};
    uint8_t second[CAMPAIGN_STATE_LENGTH] = {2, 2, 2, 3};
    /* While way 1 is current the listing is empty. */
    expect("null listing, way 1", campaign_passed_ways(sheet, length, first, sizeof first, NULL, 0),
           CAMPAIGN_ACCEPTED, 0, 0);
    expect("null listing, way 2", campaign_passed_ways(sheet, length, second, sizeof second, NULL, 0),
           0, CAMPAIGN_SHORT_BUFFER, 0);
    expect("null state: listing", campaign_passed_ways(sheet, length, NULL, 0, listing, sizeof listing),
           0, CAMPAIGN_UNSOUND, 0);
    expect("null state and listing", campaign_passed_ways(sheet, length, NULL, 0, NULL, 0), 0, CAMPAIGN_UNSOUND, 0);
    expect("null sheet: listing", campaign_passed_ways(NULL, 0, first, sizeof first, listing, sizeof listing),
           0, CAMPAIGN_FORM, 1);
    expect("all null: listing", campaign_passed_ways(NULL, 0, NULL, 0, NULL, 0), 0, CAMPAIGN_FORM, 1);
}

/* Desks and the most matters open per desk. */

/* One booking; the limit and the desk as they stand on the sheet. */
#define SINGLE(limit, desk) "P   1   0   1" limit "\nB   1 C" desk "\nA   1   1\n"

static void limits_on_sheets(void)
{
    expect("limit 1", check(SINGLE("   1", "   1")), CAMPAIGN_ACCEPTED, 0, 0);
    expect("limit 64", check(SINGLE("  64", "   1")), CAMPAIGN_ACCEPTED, 0, 0);
    expect("limit 0", check(SINGLE("   0", "   1")), 0, CAMPAIGN_COUNT, 1);
    expect("limit 65", check(SINGLE("  65", "   1")), 0, CAMPAIGN_COUNT, 1);
    expect("limit 9999", check(SINGLE("9999", "   1")), 0, CAMPAIGN_COUNT, 1);
    expect("a head of 14 bytes", check(SINGLE("", "   1")), 0, CAMPAIGN_FORM, 1);
    expect("a sheet of the old form", check(SINGLE("", "")), 0, CAMPAIGN_FORM, 1);
    expect("no limit", check(SINGLE("    ", "   1")), 0, CAMPAIGN_FORM, 1);
    expect("limit 01", check(SINGLE("  01", "   1")), 0, CAMPAIGN_FORM, 1);
    expect("limit to the left", check(SINGLE("1   ", "   1")), 0, CAMPAIGN_FORM, 1);
    expect("a fifth number", check(SINGLE("   1   1", "   1")), 0, CAMPAIGN_FORM, 1);
    expect("a head that ends in the limit", check("P   1   0   1   1"), 0, CAMPAIGN_FORM, 1);
    /* The form of the whole head comes before its numbers, all of the head before the next line. */
    expect("no booking and limit 01", check("P   0   0   1  01\n"), 0, CAMPAIGN_FORM, 1);
    expect("limit 65 and desk 01", check(SINGLE("  65", "  01")), 0, CAMPAIGN_COUNT, 1);
}

static void desks_on_sheets(void)
{
    expect("desk 8", check(SINGLE("   1", "   8")), CAMPAIGN_ACCEPTED, 0, 0);
    expect("desk 0", check(SINGLE("   1", "   0")), 0, CAMPAIGN_NUMBER, 2);
    expect("desk 9", check(SINGLE("   1", "   9")), 0, CAMPAIGN_NUMBER, 2);
    expect("desk 9999", check(SINGLE("   1", "9999")), 0, CAMPAIGN_NUMBER, 2);
    expect("a booking line of 8 bytes", check(SINGLE("   1", "")), 0, CAMPAIGN_FORM, 2);
    expect("no desk", check(SINGLE("   1", "    ")), 0, CAMPAIGN_FORM, 2);
    expect("desk 01", check(SINGLE("   1", "  01")), 0, CAMPAIGN_FORM, 2);
    expect("two desks", check(SINGLE("   1", "   1   2")), 0, CAMPAIGN_FORM, 2);
    expect("desk 9 in line 3", check("P   2   0   1   1\nB   1 C   8\nB   2 C   9\nA   2   1   2\n"),
           0, CAMPAIGN_NUMBER, 3);
    /* The form of the whole line comes before its numbers, a line before the next one. */
    expect("number 2 and desk 01", check("P   1   0   1   1\nB   2 C  01\nA   1   1\n"), 0, CAMPAIGN_FORM, 2);
    expect("number 2 and desk 9", check("P   1   0   1   1\nB   2 C   9\nA   1   1\n"), 0, CAMPAIGN_NUMBER, 2);
    expect("desk 9, then no line", check("P   2   0   1   1\nB   1 C   9\n"), 0, CAMPAIGN_NUMBER, 2);
}

/* The range slot and the cameras at desk 1, the two aircraft at desk 2: the sheet in the header. */
static const char in_header[] = "P   4   3   2   2\nB   1 C   1\nB   2 P   2\nB   3 C   2\nB   4 R   1\n"
                                "L   1   2\nL   2   3\nL   2   4\nA   3   1   2   3\nA   3   1   2   4\n";

/* 1 range slot, then 2 and 3 telemetry vans at desk 2 and 4 a chase aircraft at desk 3; or else 5 a telemetry aircraft. */
#define TELEMETRY "B   1 C   1\nB   2 C   2\nB   3 D   2\nB   4 C   3\nB   5 R   3\n" \
                  "L   1   2\nL   1   3\nL   1   4\nL   1   5\nA   4   1   2   3   4\nA   2   1   5\n"

static const char one_matter[] = "P   5   4   2   1\n" TELEMETRY;
static const char two_matters[] = "P   5   4   2   2\n" TELEMETRY;

/* A campaign from its start: each step is a letter of the drill, an order or a reply, and its number. */
static void play(const char *sheet, const char *steps)
{
    static const char orders[] = "QUWEO"; /* kinds 1 to 5 */
    uint8_t state[CAMPAIGN_STATE_LENGTH];
    size_t length = strlen(sheet);
    expect("start", campaign_start((const uint8_t *) sheet, length, state, sizeof state), CAMPAIGN_ACCEPTED, 0, 0);
    for (; *steps != '\0'; steps += 2) {
        const char *order = strchr(orders, steps[0]);
        uint32_t number = (uint32_t) (steps[1] - '0');
        if (order != NULL)
            expect(steps, campaign_next_order((const uint8_t *) sheet, length, state, sizeof state),
                   1 + (uint32_t) (order - orders), 0, number);
        else
            expect(steps, campaign_reply((const uint8_t *) sheet, length, state, sizeof state, (uint8_t) steps[0],
                                         number), CAMPAIGN_ACCEPTED, 0, number);
    }
}

static void campaigns_with_desks(void)
{
    /* The vans one after the other, there and back; the second is passed over for the chase aircraft. */
    play(one_matter, "Q1W0Y1" "Q2Q4W0Y2" "Q3W0N3" "Q3W0Y3" "W0N4" "U2W0K2" "U2W0G2" "U3W0G3" "Q5W0N5" "Q5W0Y5" "E2");
    play(two_matters, "Q1W0Y1" "Q2Q3Q4W0Y2" "W0N3" "Q3W0Y3" "W0N4" "U2U3W0K2" "U2W0G2" "W0G3" "Q5W0N5" "Q5W0Y5" "E2");
    /* The way is lost while the second van is still passed over: it's never requested. */
    play(one_matter, "Q1W0Y1" "Q2Q4W0N4" "W0Y2" "U2W0G2" "Q5W0Y5" "E2");
    /* A desk that has answered one of two takes on the next. */
    play(two_matters, "Q1W0Y1" "Q2Q3Q4W0N3" "Q3W0Y3" "W0Y2" "W0Y4" "E1");
    play(in_header, "Q1W0Y1" "Q2W0Y2" "Q3W0N3" "Q4W0Y4" "E2");
}

/* 1 chase aircraft, 2 range slot, 3 a tanker after the slot; or the slot alone; or slot and tanker. */
static const char late[] = "P   3   1   3  64\nB   1 C   3\nB   2 C   1\nB   3 P   2\nL   2   3\n"
                           "A   3   1   2   3\nA   1   2\nA   2   2   3\n";

/* Three range slots, all in the one way. */
static const char three[] = "P   3   0   1  64\nB   1 C   1\nB   2 C   1\nB   3 C   1\nA   3   1   2   3\n";

/*
 * Replies to different bookings in any order; a dispatcher asks after each of them, as the header says, and a wait changes
 * nothing. With an order taken between them the order matters.
 */
static void late_replies(void)
{
    play(three, "Q1Q2Q3W0" "Y1W0N2W0Y3" "U1U3W0" "G1W0G3" "O0");
    play(three, "Q1Q2Q3W0" "Y3W0Y1W0N2" "U1U3W0" "G3W0G1" "O0");
    play(three, "Q1Q2Q3W0" "N2W0W0Y3Y1" "U1U3W0" "W0G3W0G1" "O0");
    play(late, "Q1Q2W0" "N1Y2" "E2");
    play(late, "Q1Q2W0" "Y2N1" "E2");
    block(late, "\1\1\1\0\0", "N   1\nY   2\n", CAMPAIGN_ACCEPTED, 0, 2, "\2\3\2\0\0");
    block(late, "\1\1\1\0\0", "Y   2\nN   1\n", CAMPAIGN_ACCEPTED, 0, 2, "\2\3\2\0\0");
    play(late, "Q1Q2W0" "N1W0Y2" "E2");
    play(late, "Q1Q2W0" "Y2Q3N1" "W0Y3" "E3");
}

/* The state with these first five bytes has a desk with more matters than the limit: 11 comes before 9, nothing changes. */
static void overloaded(const char *sheet, const char *front)
{
    const uint8_t *bytes = (const uint8_t *) sheet;
    size_t length = strlen(sheet);
    uint8_t state[CAMPAIGN_STATE_LENGTH] = {0};
    uint8_t before[CAMPAIGN_STATE_LENGTH];
    memcpy(state, front, 5);
    memcpy(before, state, sizeof before);
    expect("overloaded: order", campaign_next_order(bytes, length, state, sizeof state), 0, CAMPAIGN_UNSOUND, 0);
    expect("overloaded: reply", campaign_reply(bytes, length, state, sizeof state, CAMPAIGN_CONFIRMED, 2),
           0, CAMPAIGN_UNSOUND, 0);
    expect("overloaded: misfit", campaign_reply(bytes, length, state, sizeof state, '?', 2), 0, CAMPAIGN_UNSOUND, 0);
    expect_bytes("overloaded", state, before, sizeof state);
    block(sheet, front, "", 0, CAMPAIGN_UNSOUND, 0, front);
    block(sheet, front, "Y   2\nY0003\n", 0, CAMPAIGN_UNSOUND, 0, front);
}

static void states_with_desks(void)
{
    overloaded(one_matter, "\1\2\1\1\0");
    overloaded(one_matter, "\1\2\1\1\1");
    overloaded(one_matter, "\2\2\4\4\3");
    block(two_matters, "\1\2\1\1\0", "", CAMPAIGN_ACCEPTED, 0, 0, "\1\2\1\1\0");
    block(two_matters, "\1\2\1\1\1", "Y   2\nN   3\n", CAMPAIGN_ACCEPTED, 0, 2, "\1\2\2\0\1");
    block(two_matters, "\2\2\4\4\3", "G   3\n", CAMPAIGN_ACCEPTED, 0, 1, "\2\2\4\0\3");
    block(one_matter, "\1\2\1\0\1", "Y   4\n", CAMPAIGN_ACCEPTED, 0, 1, "\1\2\1\0\2"); /* one at each desk */
    block(one_matter, "\2\2\4\2\3", "K   2\n", CAMPAIGN_ACCEPTED, 0, 1, "\2\2\2\2\3"); /* held is no matter */
}

/* What a desk can't take on is not the order that was due. */
static void restarts_with_desks(void)
{
    restart(one_matter, "Q   1\nY   1\nQ   2\nQ   4\n", 65, CAMPAIGN_ACCEPTED, 0, 0, "\1\2\1\0\1");
    restart(one_matter, "Q   1\nY   1\nQ   2\nQ   3\n", 65, 0, CAMPAIGN_WRONG_LINE, 4, NULL);
    restart(two_matters, "Q   1\nY   1\nQ   2\nQ   3\n", 65, CAMPAIGN_ACCEPTED, 0, 0, "\1\2\1\1\0");
    restart(two_matters, "Q   1\nY   1\nQ   2\nQ   4\n", 65, 0, CAMPAIGN_WRONG_LINE, 4, NULL);
    restart(one_matter, "Q   1\nY   1\nQ   2\nQ   4\nY   2\nQ   3\nY   3\nN   4\nU   2\nU   3\n", 65,
            0, CAMPAIGN_WRONG_LINE, 10, NULL);
    restart(two_matters, "Q   1\nY   1\nQ   2\nQ   3\nQ   4\nY   2\nY   3\nN   4\nU   2\nU   3\n", 65,
            CAMPAIGN_ACCEPTED, 0, 0, "\2\2\4\4\3");
}

/* Only a fee sheet may have a blank for a number: each number of a sheet in turn, four columns up to its last digit. */
static void blanks_on_a_sheet(void)
{
    char sheet[sizeof tanker];
    uint32_t line = 1, numbers = 0;
    for (size_t at = 0; tanker[at] != '\0'; at++) {
        line += tanker[at] == '\n';
        if (strchr("0123456789", tanker[at]) == NULL || strchr(" \n", tanker[at + 1]) == NULL)
            continue;
        memcpy(sheet, tanker, sizeof sheet);
        memset(sheet + at - 3, ' ', 4);
        expect("a blank on a sheet", check(sheet), 0, CAMPAIGN_FORM, line);
        numbers++;
    }
    expect("numbers of a sheet", numbers, 0, 0, 4 + 4 * 2 + 3 * 2 + 2 * 4);
}

/* The longest text of the form: its ways are all equal, so it is refused with 7, once it has been read to its end. */
static void longest_sheet(void)
{
    static char sheet[CAMPAIGN_LONGEST_SHEET + 2];
    size_t at = (size_t) sprintf(sheet, "P  64 512  16  64\n");
    for (int booking = 1; booking <= 64; booking++)
        at += (size_t) sprintf(sheet + at, "B%4d C   8\n", booking);
    for (int link = 0, u = 1, v = 2; link < 512; link++, u += v == 64, v = v == 64 ? u + 1 : v + 1)
        at += (size_t) sprintf(sheet + at, "L%4d%4d\n", u, v);
    for (int way = 1; way <= 16; way++) {
        at += (size_t) sprintf(sheet + at, "A  64");
        for (int booking = 1; booking <= 64; booking++)
            at += (size_t) sprintf(sheet + at, "%4d", booking);
        at += (size_t) sprintf(sheet + at, "\n");
    }
    expect("the longest sheet's length", (uint32_t) at, 0, 0, CAMPAIGN_LONGEST_SHEET);
    expect("the longest sheet", check(sheet), 0, CAMPAIGN_WAY_TWICE, 2);
    sheet[at] = '\n';
    expect("a byte too many", check(sheet), 0, CAMPAIGN_FORM, 594);
    sheet[at - 1] = '\0';
    expect("a byte too few", check(sheet), 0, CAMPAIGN_FORM, 593);
}

int main(void)
{
    checks();
    limits_on_sheets();
    desks_on_sheets();
    blanks_on_a_sheet();
    longest_sheet();
    campaigns_with_desks();
    late_replies();
    states_with_desks();
    restarts_with_desks();
    calls();
    journal_lines();
    restarts_that_pass();
    restarts_that_do_not();
    nulls();
    blocks_that_pass();
    blocks_that_do_not_fit();
    blocks_of_another_form();
    blocks_refused_whole();
    longest_block();
    compare_with_replies(ASKED);
    compare_with_replies(GIVING_BACK);
    compare_with_replies("\1\3\2\1\1");
    compare_with_replies("\2\3\0\3\1");
    block_into_journal();
    kepts();
    nulls_of_a_block();
    nulls_of_a_listing();
    return faults == 0 ? 0 : 1;
}

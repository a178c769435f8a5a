/*
 * The bill: campaign_settle answers as the header says, which was worked out by
 * hand from the rules. What is lent lies between pages that nobody may touch.
 */
#define _DEFAULT_SOURCE 1
#include "campaign.h"

#include "expect.h"
#include "lend.h"

enum { UNWRITTEN = 0xEE };

/* What is lent. */

struct text {
    const char *at;
    size_t length;
};

static struct text text(const char *at)
{
    struct text all = {at, strlen(at)};
    return all;
}

/* A whole report, or null for a refusal: then no byte is written. Later bytes keep their values. */
static void settle_at(int at_end, const char *what, struct text sheet, struct text fees, struct text journal,
                      size_t report_len, uint32_t refusal, uint32_t place, const char *report)
{
    static uint8_t wanted[ROOM];
    memset(wanted, UNWRITTEN, report_len);
    const uint8_t *lent_sheet = lend(0, at_end, sheet.at, sheet.length);
    const uint8_t *lent_fees = lend(1, at_end, fees.at, fees.length);
    const uint8_t *lent_journal = lend(2, at_end, journal.at, journal.length);
    uint8_t *lent_report = lend(3, at_end, wanted, report_len);
    if (report != NULL)
        memcpy(wanted, report, strlen(report));
    expect(what, campaign_settle(lent_sheet, sheet.length, lent_fees, fees.length, lent_journal, journal.length,
                                 lent_report, report_len),
           report != NULL ? CAMPAIGN_ACCEPTED : CAMPAIGN_REFUSED, refusal, place);
    expect_bytes(what, lent_report, wanted, report_len);
    expect_bytes(what, lent_sheet, sheet.at, sheet.length);
    expect_bytes(what, lent_fees, fees.at, fees.length);
    expect_bytes(what, lent_journal, journal.at, journal.length);
}

static void settle(const char *what, struct text sheet, struct text fees, struct text journal, size_t report_len,
                   uint32_t refusal, uint32_t place, const char *report)
{
    settle_at(0, what, sheet, fees, journal, report_len, refusal, place, report);
    settle_at(1, what, sheet, fees, journal, report_len, refusal, place, report);
}

static void refused(const char *what, const char *sheet, const char *fees, const char *journal, size_t report_len,
                    uint32_t refusal, uint32_t place)
{
    settle(what, text(sheet), text(fees), text(journal), report_len, refusal, place, NULL);
}

/* Into a buffer that is just long enough, and into longer ones. */
static void settled(const char *what, const char *sheet, const char *fees, const char *journal, const char *report)
{
    size_t length = strlen(report);
    settle(what, text(sheet), text(fees), text(journal), length, 0, (uint32_t) length, report);
    settle(what, text(sheet), text(fees), text(journal), length + 1, 0, (uint32_t) length, report);
    settle(what, text(sheet), text(fees), text(journal), CAMPAIGN_LONGEST_REPORT + 1, 0, (uint32_t) length, report);
}

/* Reports. */

/* 1 range slot, 2 tanker, 3 chase aircraft, or else 4 ground cameras. */
static const char tanker[] = "P   4   3   2  64\nB   1 C   1\nB   2 P   1\nB   3 C   1\nB   4 R   1\n"
                             "L   1   2\nL   2   3\nL   2   4\nA   3   1   2   3\nA   3   1   2   4\n";
static const char twin[] = "P   3   2   1  64\nB   1 C   1\nB   2 P   1\nB   3 C   1\nL   1   2\nL   2   3\nA   3   1   2   3\n";
static const char tanker_fees[] = "F   1  1500         300   450\nF   2 40000 60000     0     0\n"
                                  "F   3  9000         450      \nF   4   700   900     0      \n";

#define TO_CHASE "Q   1\nY   1\nQ   2\nY   2\nQ   3\n"
#define NOTHING(b) "S   " b "     0     0           0           0\n"
#define NO_TOTAL "T           0           0\n"
/* What the two ways cost by these fees, whatever was done. */
#define TANKER_WAYS "M   1       50500       70500\nM   2       42200       62400\n"

static void tanker_bills(void)
{
    settled("flown by way 2", tanker, tanker_fees, TO_CHASE "N   3\nQ   4\nN   4\nQ   4\nY   4\n",
            "S   1     1     0        1500        1500\nS   2     1     0       40000       60000\n" NOTHING("3")
            "S   4     1     0         700         900\n" TANKER_WAYS "T       42200       62400\n");
    settled("flown by way 1", tanker, tanker_fees, TO_CHASE "Y   3\n",
            "S   1     1     0        1500        1500\nS   2     1     0       40000       60000\n"
            "S   3     1     0        9000        9000\n" NOTHING("4") TANKER_WAYS "T       50500       70500\n");
    settled("not ended", tanker, tanker_fees, "Q   1\nY   1\nQ   2\n",
            "S   1     1     0        1500        1500\n" NOTHING("2") NOTHING("3") NOTHING("4") TANKER_WAYS
            "T        1500        1500\n");
    settled("a tail", tanker, tanker_fees, "Q   1\nY   1\nQ   2\nY   2",
            "S   1     1     0        1500        1500\n" NOTHING("2") NOTHING("3") NOTHING("4") TANKER_WAYS
            "T        1500        1500\n");
    settled("a tail of any bytes", tanker, tanker_fees, "Q   1\nXXXXX",
            NOTHING("1") NOTHING("2") NOTHING("3") NOTHING("4") TANKER_WAYS NO_TOTAL);
    settled("no journal", tanker, tanker_fees, "", NOTHING("1") NOTHING("2") NOTHING("3") NOTHING("4") TANKER_WAYS NO_TOTAL);
    settled("called off at once", tanker, tanker_fees, "Q   1\nN   1\n",
            NOTHING("1") NOTHING("2") NOTHING("3") NOTHING("4") TANKER_WAYS NO_TOTAL);
    settled("no fees", tanker,
            "F   1     0           0      \nF   2     0     0     0     0\n"
            "F   3     0           0     0\nF   4     0     0     0      \n",
            TO_CHASE "Y   3\n",
            "S   1     1     0           0           0\nS   2     1     0           0           0\n"
            "S   3     1     0           0           0\n" NOTHING("4")
            "M   1           0           0\nM   2           0           0\n" NO_TOTAL);
}

/* The header's own example. */
static void bill_of_the_header(void)
{
    settled("the header's example", tanker,
            "F   1   150   180    20    35\nF   2  4000  6000     0     0\n"
            "F   3   900          40    45\nF   4    70           0     0\n",
            "Q   1\nY   1\nQ   2\nN   2\nU   1\nG   1\n",
            "S   1     1     1         170         215\n" NOTHING("2") NOTHING("3") NOTHING("4")
            "M   1        5050        7080\nM   2        4220        6250\nT         170         215\n");
}

static const char pair[] = "P   2   0   1  64\nB   1 C   1\nB   2 C   1\nA   2   1   2\n";

#define FEE_1 "F   1   150   180    20    35\n"
#define FEE_2 "F   2  4000           7     9\n"
static const char pair_fees[] = FEE_1 FEE_2;

#define TO_RETURN "Q   1\nQ   2\nY   1\nN   2\nU   1\n"
#define PAIR_WAY "M   1        4150        4180\n"

/* A return that fails is no return. */
static void bills_with_returns(void)
{
    settled("a return is open", pair, pair_fees, TO_RETURN,
            "S   1     1     0         150         180\n" NOTHING("2") PAIR_WAY "T         150         180\n");
    settled("kept", pair, pair_fees, TO_RETURN "K   1\nU   1\nK   1\n",
            "S   1     1     0         150         180\n" NOTHING("2") PAIR_WAY "T         150         180\n");
    settled("returned", pair, pair_fees, TO_RETURN "G   1\n",
            "S   1     1     1         170         215\n" NOTHING("2") PAIR_WAY "T         170         215\n");
    settled("kept, then returned", pair, pair_fees, TO_RETURN "K   1\nU   1\nG   1\n",
            "S   1     1     1         170         215\n" NOTHING("2") PAIR_WAY "T         170         215\n");
    settled("the fee for a return alone", pair, "F   1     0     0     0999999\nF   2     0           0      \n",
            TO_RETURN "G   1\n", "S   1     1     1           0      999999\n" NOTHING("2")
            "M   1           0           0\nT           0      999999\n");
}

/* Each greatest fee in turn is blank, and means what its least says: 999,999 too, and zero. */
static void bills_with_blanks(void)
{
    settled("a blank for a confirmation", pair, "F   1   150          20    35\nF   2     0     1     0     1\n",
            TO_RETURN "G   1\n", "S   1     1     1         170         185\n" NOTHING("2")
            "M   1         150         151\nT         170         185\n");
    settled("a blank for a return", pair, "F   1   150   180    20      \nF   2     0     1     0     1\n",
            TO_RETURN "G   1\n", "S   1     1     1         170         200\n" NOTHING("2")
            "M   1         150         181\nT         170         200\n");
    settled("blanks alone", pair, "F   1   150          20      \nF   2999999      999999      \n", TO_RETURN "G   1\n",
            "S   1     1     1         170         170\n" NOTHING("2") "M   1     1000149     1000149\n"
            "T         170         170\n");
    settled("the same twice, and no blank", pair, "F   1   150   150    20    20\nF   2999999999999999999999999\n",
            TO_RETURN "G   1\n", "S   1     1     1         170         170\n" NOTHING("2")
            "M   1     1000149     1000149\nT         170         170\n");
    settled("a blank after zero", pair, "F   1     0           0      \nF   2     0999999     0999999\n", TO_RETURN "G   1\n",
            "S   1     1     1           0           0\n" NOTHING("2") "M   1           0      999999\n" NO_TOTAL);
    settled("the widest quotes", pair, "F   1     0999999     0999999\nF   2     0999999     0999999\n",
            TO_RETURN "G   1\n", "S   1     1     1           0     1999998\n" NOTHING("2")
            "M   1           0     1999998\nT           0     1999998\n");
}

/* Booking 2 is confirmed on way 1, goes back on way 2, and is confirmed again on way 3. The ways count it once each. */
static void bill_with_a_booking_twice(void)
{
    settled("confirmed twice", "P   4   0   3  64\nB   1 C   1\nB   2 C   1\nB   3 C   1\nB   4 C   1\n"
            "A   2   1   2\nA   2   3   4\nA   2   2   4\n",
            "F   1     1     5     2      \nF   2999999      999998999999\n"
            "F   3     5     6     6     7\nF   4    80          90      \n",
            "Q   1\nQ   2\nY   2\nN   1\nU   2\nG   2\nQ   3\nQ   4\nY   4\nN   3\nQ   2\nY   2\n",
            NOTHING("1") "S   2     2     1     2999996     2999997\n" NOTHING("3")
            "S   4     1     0          80          80\n"
            "M   1     1000000     1000004\nM   2          85          86\nM   3     1000079     1000079\n"
            "T     3000076     3000077\n");
}

/* Large sheets. */

/* So many bookings of kind D; way 1 has all of them, way 2 lacks the first, way 3 the second and so on. */
static void write_sheet(char *sheet, int bookings, int ways)
{
    sheet += sprintf(sheet, "P%4d   0%4d  64\n", bookings, ways);
    for (int b = 1; b <= bookings; b++)
        sheet += sprintf(sheet, "B%4d D   1\n", b);
    for (int way = 1; way <= ways; way++) {
        sheet += sprintf(sheet, "A%4d", way == 1 ? bookings : bookings - 1);
        for (int b = 1; b <= bookings; b++)
            sheet += b == way - 1 ? 0 : sprintf(sheet, "%4d", b);
        sheet += sprintf(sheet, "\n");
    }
}

static char sheet_text[8192], fees_text[64 * 30 + 2], report_text[CAMPAIGN_LONGEST_REPORT + 1];

/* Nothing was done, at 10 to 11 for each confirmation. */
static void report_of_length(int bookings, int ways, uint32_t length)
{
    char *at = report_text;
    write_sheet(sheet_text, bookings, ways);
    for (int b = 1; b <= bookings; b++) {
        sprintf(fees_text + (b - 1) * 30, "F%4d    10    11     3      \n", b);
        at += sprintf(at, "S%4d     0     0           0           0\n", b);
    }
    for (int way = 1; way <= ways; way++) {
        int size = way == 1 ? bookings : bookings - 1;
        at += sprintf(at, "M%4d%12d%12d\n", way, 10 * size, 11 * size);
    }
    strcpy(at, NO_TOTAL);
    expect("the length of a report", (uint32_t) strlen(report_text), 0, 0, length);
    settled("a report by bookings and ways", sheet_text, fees_text, "", report_text);
    refused("a report with a byte too little room", sheet_text, fees_text, "", length - 1, CAMPAIGN_SHORT_BUFFER, 0);
    refused("a report without its last line", sheet_text, fees_text, "", length - 26, CAMPAIGN_SHORT_BUFFER, 0);
    refused("a report without its ways", sheet_text, fees_text, "", (size_t) bookings * 42 + 26, CAMPAIGN_SHORT_BUFFER, 0);
}

static void report_lengths(void)
{
    report_of_length(1, 1, 98);
    report_of_length(2, 1, 140);
    report_of_length(2, 2, 170);
    report_of_length(2, 3, 200);
    report_of_length(9, 10, 704);
    report_of_length(15, 16, 1136);
    report_of_length(64, 1, 2744);
    report_of_length(64, 16, 3194);
}

/* 64 bookings and 16 ways, each booking confirmed at 999,998 to 999,999: the longest report, and totals of eight digits. */
static void longest_report(void)
{
    static char journal[2 * 64 * 6 + 1];
    char *at = report_text;
    write_sheet(sheet_text, 64, 16);
    for (int b = 1; b <= 64; b++) {
        sprintf(fees_text + (b - 1) * 30, "F%4d999998999999999999      \n", b);
        sprintf(journal + (b - 1) * 6, "Q%4d\n", b);
        at += sprintf(at, "S%4d     1     0      999998      999999\n", b);
    }
    for (int b = 1; b <= 64; b++)
        sprintf(journal + (63 + b) * 6, "Y%4d\n", b);
    at += sprintf(at, "M   1    63999872    63999936\n");
    for (int way = 2; way <= 16; way++)
        at += sprintf(at, "M%4d    62999874    62999937\n", way);
    strcpy(at, "T    63999872    63999936\n");
    settled("64 bookings", sheet_text, fees_text, journal, report_text);
    refused("64 bookings, a byte too little room", sheet_text, fees_text, journal, CAMPAIGN_LONGEST_REPORT - 1,
            CAMPAIGN_SHORT_BUFFER, 0);
    strcpy(fees_text + 64 * 30, "\n");
    refused("one byte more", sheet_text, fees_text, journal, sizeof report_text, CAMPAIGN_WRONG_FEE, 65);
    fees_text[64 * 30 - 1] = '\0';
    refused("the last line feed", sheet_text, fees_text, journal, sizeof report_text, CAMPAIGN_WRONG_FEE, 64);
    strcpy(fees_text + 63 * 30, "F  64999999999998999999      \n");
    refused("the last line crossed", sheet_text, fees_text, journal, sizeof report_text, CAMPAIGN_CROSSED_QUOTE, 64);
}

/* The fee sheet. */

static void wrong_fee(const char *fees, uint32_t line)
{
    refused(fees, pair, fees, TO_RETURN, CAMPAIGN_LONGEST_REPORT, CAMPAIGN_WRONG_FEE, line);
}

static void wrong_fee_sheets(void)
{
    wrong_fee("", 1);
    wrong_fee("\n", 1);
    wrong_fee(FEE_1, 2);                                 /* a line is missing */
    wrong_fee(FEE_2, 1);
    wrong_fee(FEE_2 FEE_1, 1);                           /* out of sequence */
    wrong_fee(FEE_1 FEE_1, 2);
    wrong_fee(FEE_1 "F   3  4000           7     9\n", 2);
    wrong_fee(FEE_1 FEE_2 "F   3     0           0      \n", 3); /* one too many */
    wrong_fee(FEE_1 FEE_2 FEE_2, 3);
    wrong_fee(FEE_1 FEE_2 "\n", 3);
    wrong_fee(FEE_1 FEE_2 " ", 3);
    wrong_fee("\n" FEE_1 FEE_2, 1);
    wrong_fee(FEE_1 "\n" FEE_2, 2);
    wrong_fee("F   0   150   180    20    35\n" FEE_2, 1);
    wrong_fee("F    01   150   180    20    35\n" FEE_2, 1);
    wrong_fee("F  01   150   180    20    35\n" FEE_2, 1); /* a leading zero */
    wrong_fee("F   1 00150   180    20    35\n" FEE_2, 1);
    wrong_fee("F   1   150  0180    20    35\n" FEE_2, 1);
    wrong_fee("F   1   150   180    00    35\n" FEE_2, 1);
    wrong_fee("F   1   150   180    20    00\n" FEE_2, 1);
    wrong_fee("F1      150   180    20    35\n" FEE_2, 1); /* to the left */
    wrong_fee("F   1150      180    20    35\n" FEE_2, 1);
    wrong_fee("F   1   150180       20    35\n" FEE_2, 1);
    wrong_fee("F   1   150   180    20     \n" FEE_2, 1);  /* a blank of five columns */
    wrong_fee("F   1   150   180    20       \n" FEE_2, 1);
    wrong_fee("F   1  +150   180    20    35\n" FEE_2, 1);
    wrong_fee("F   1   150  +180    20    35\n" FEE_2, 1);
    wrong_fee("F   1  -150   180    20    35\n" FEE_2, 1);
    wrong_fee("F   1   150   180    20     -\n" FEE_2, 1);
    wrong_fee("F   1   150     ?    20    35\n" FEE_2, 1);
    wrong_fee("F   1  1.50   180    20    35\n" FEE_2, 1);
    wrong_fee("F   1   1 0   180    20    35\n" FEE_2, 1);
    wrong_fee("f   1   150   180    20    35\n" FEE_2, 1);
    wrong_fee("B   1   150   180    20    35\n" FEE_2, 1);
    wrong_fee("F   1   150   180    20    35\r" FEE_2, 1);
    wrong_fee("F   1   150   180    20    35 \n" FEE_2, 1);
    wrong_fee("F   1   1501000000    20    35\n" FEE_2, 1); /* 1,000,000 */
    wrong_fee(FEE_1 "F   2  04000           7     9\n", 2);
    wrong_fee("F   1   15x   180    20    35\nF   2  400x           7     9\n" FEE_2, 1); /* the first of them */
    wrong_fee(FEE_1 "F   2  400x           7     9\n" FEE_2, 2);
    wrong_fee("F   1   150    20\nF   2  4000     7\n", 1); /* one fee for each, as it was before quotes */
    wrong_fee("F   1   150    20\nF   2  4000     7\n             ", 1);
}

/* Only a greatest fee may be blank. */
static void blanks_where_a_number_must_be(void)
{
    wrong_fee("F   1         180    20    35\n" FEE_2, 1);
    wrong_fee("F   1   150   180          35\n" FEE_2, 1);
    wrong_fee("F   1         180          35\n" FEE_2, 1);
    wrong_fee("F   1                20    35\n" FEE_2, 1);
    wrong_fee("F   1   150   180            \n" FEE_2, 1);
    wrong_fee("F   1                        \n" FEE_2, 1);
    wrong_fee("F       150   180    20    35\n" FEE_2, 1); /* the booking */
    wrong_fee("                             \n" FEE_2, 1);
    wrong_fee(FEE_1 "F   2                 7     9\n", 2);
    wrong_fee(FEE_1 "F   2  4000                 9\n", 2);
}

static void crossed(const char *fees, uint32_t line)
{
    refused(fees, pair, fees, TO_RETURN, CAMPAIGN_LONGEST_REPORT, CAMPAIGN_CROSSED_QUOTE, line);
}

#define CROSSED_1 "F   1   180   150    20    35\n"
#define CROSSED_2 "F   2  4000           9     7\n"

static void crossed_quotes(void)
{
    crossed(CROSSED_1 FEE_2, 1);
    crossed(FEE_1 CROSSED_2, 2);
    crossed(CROSSED_1 CROSSED_2, 1);
    crossed("F   1   150   180    35    20\n" FEE_2, 1);
    crossed("F   1   180   150    35    20\n" FEE_2, 1);
    crossed("F   1   151   150    20    35\n" FEE_2, 1); /* by one */
    crossed("F   1   150   180    21    20\n" FEE_2, 1);
    crossed("F   1     1     0    20    35\n" FEE_2, 1);
    crossed("F   1999999999998    20    35\n" FEE_2, 1);
    crossed("F   1   150   180999999     0\n" FEE_2, 1);
    crossed("F   1   150   180100000 99999\n" FEE_2, 1); /* not by their letters */
    crossed("F   1   180   150    20      \n" FEE_2, 1); /* beside a blank */
    crossed("F   1   150          35    20\n" FEE_2, 1);
}

/* Line by line, and on one line 13 before 15. */
static void wrong_and_crossed_lines(void)
{
    crossed(CROSSED_1 "F   2  400x           7     9\n", 1); /* the next line is misformed, out of sequence, .. */
    crossed(CROSSED_1 FEE_1, 1);
    crossed(CROSSED_1 "F   2                 7     9\n", 1);
    crossed(CROSSED_1 "F   2  4000           7     9", 1);
    crossed(CROSSED_1 "\n", 1);
    crossed(CROSSED_1, 1);
    crossed(CROSSED_1 FEE_2 "\n", 1);
    crossed(FEE_1 CROSSED_2 "\n", 2);
    crossed(FEE_1 CROSSED_2 CROSSED_2, 2);
    wrong_fee("F   1   15x   180    20    35\n" CROSSED_2, 1);
    wrong_fee("F   1         180    20    35\n" CROSSED_2, 1);
    wrong_fee(FEE_1 FEE_2 CROSSED_1, 3);
    wrong_fee("F   1   180   150    2x    35\n" FEE_2, 1);
    wrong_fee("F   1   180   150    20    3x\n" FEE_2, 1);
    wrong_fee("F   1   180   150          35\n" FEE_2, 1);
    wrong_fee("F   1   180   150   020    35\n" FEE_2, 1);
    wrong_fee("F   1         150    35    20\n" FEE_2, 1);
    wrong_fee("F   2   180   150    20    35\n" FEE_2, 1);
    wrong_fee("f   1   180   150    20    35\n" FEE_2, 1);
    wrong_fee("F   1   180   150    20    35 " FEE_2, 1);
    wrong_fee("F   1   180   150    20    35", 1);
    wrong_fee(FEE_1 "F   2  4000           9     7", 2);
}

struct judged {
    uint32_t refusal;
    long least, greatest; /* for a confirmation */
};

/* Numbers that are written as they must be are what they are written to; a greatest fee may be blank. */
static struct judged judge(const char *line, int booking)
{
    static const struct judged wrong = {CAMPAIGN_WRONG_FEE, 0, 0};
    char again[64];
    long number[4];
    size_t at = (size_t) sprintf(again, "F%4d", booking);
    for (int i = 0; i < 4; i++) {
        char columns[8] = "";
        memcpy(columns, line + at, 6);
        if (i % 2 == 1 && strcmp(columns, "      ") == 0) {
            number[i] = number[i - 1];
            at += (size_t) sprintf(again + at, "      ");
            continue;
        }
        number[i] = strtol(columns, NULL, 10);
        if (number[i] < 0)
            return wrong;
        at += (size_t) sprintf(again + at, "%6ld", number[i]);
    }
    strcpy(again + at, "\n");
    if (memcmp(again, line, 30) != 0)
        return wrong;
    struct judged right = {0, number[0], number[1]};
    if (number[0] > number[1] || number[2] > number[3])
        right.refusal = CAMPAIGN_CROSSED_QUOTE;
    return right;
}

/* Each byte of the fee sheet as each other byte; with no Y line only the way's line tells the fees. */
static void every_byte_of_a_fee_sheet(void)
{
    char fees[61] = FEE_1 FEE_2, report[256];
    uint32_t taken = 0, crosswise = 0;
    for (int at = 0; at < 60; at++) {
        char right = fees[at];
        for (int byte = 0; byte < 256; byte++) {
            struct text changed = {fees, 60};
            fees[at] = (char) byte;
            struct judged first = judge(fees, 1), second = judge(fees + 30, 2);
            uint32_t refusal = at < 30 ? first.refusal : second.refusal;
            size_t length = (size_t) sprintf(report, NOTHING("1") NOTHING("2") "M   1%12ld%12ld\n" NO_TOTAL,
                                             first.least + second.least, first.greatest + second.greatest);
            settle("a changed byte of a fee sheet", text(pair), changed, text("Q   1\n"), length, refusal,
                   refusal == 0 ? (uint32_t) length : 1 + (uint32_t) at / 30, refusal == 0 ? report : NULL);
            taken += refusal == 0;
            crosswise += refusal == CAMPAIGN_CROSSED_QUOTE;
        }
        fees[at] = right;
    }
    /* By columns of 150, 180, 20 and 35, of 4000, a blank, 7 and 9; in all else one byte alone is taken, of 6 a line. */
    expect("changed fee sheets that are taken", taken, 0, 0, (24 + 36 + 18 + 31) + (50 + 6 + 15 + 18) + 2 * 6);
    expect("changed fee sheets that are crossed", crosswise, 0, 0, (18 + 6 + 15 + 2) + (0 + 10 + 9 + 7));
}

static void fee_sheet_cut(void)
{
    for (size_t length = 0; length < 120; length++) {
        struct text fees = {tanker_fees, length};
        settle("a fee sheet cut short", text(tanker), fees, text("Q   1\n"), CAMPAIGN_LONGEST_REPORT, CAMPAIGN_WRONG_FEE,
               1 + (uint32_t) length / 30, NULL);
    }
    /* A whole line that is crossed comes before what is missing. */
    for (size_t length = 0; length < 60; length++) {
        struct text fees = {CROSSED_1 FEE_2, length};
        settle("a crossed fee sheet cut short", text(pair), fees, text("Q   1\n"), CAMPAIGN_LONGEST_REPORT,
               length < 30 ? CAMPAIGN_WRONG_FEE : CAMPAIGN_CROSSED_QUOTE, 1, NULL);
    }
}

/* The order of refusals. */

/* A journal of so many lines over one booking, and then these bytes. */
static struct text long_journal(int lines, const char *tail)
{
    static char journal[ROOM];
    struct text all = {journal, (size_t) lines * 6 + strlen(tail)};
    for (int line = 0; line < lines; line++)
        sprintf(journal + line * 6, "%c   1\n", line % 2 == 0 ? 'Q' : 'N');
    strcpy(journal + lines * 6, tail);
    return all;
}

static const char patient[] = "P   1   0   1  64\nB   1 R   1\nA   1   1\n";
static const char patient_fee[] = "F   1    12    15    34      \n";
#define PATIENT_WAY "M   1          12          15\n"
static const char patient_report[] = NOTHING("1") PATIENT_WAY NO_TOTAL;

static void long_journals(void)
{
    struct text sheet = text(patient), fees = text(patient_fee);
    const uint32_t length = sizeof patient_report - 1;
    settle("10,000 lines", sheet, fees, long_journal(10000, ""), length, 0, length, patient_report);
    settle("10,000 lines, 1 byte", sheet, fees, long_journal(10000, "Y"), length, 0, length, patient_report);
    settle("10,000 lines, 5 bytes", sheet, fees, long_journal(10000, "Q   1"), length, 0, length, patient_report);
    settle("10,000 lines, the last Y", sheet, fees, long_journal(9999, "Y   1\n"), length, 0, length,
           "S   1     1     0          12          15\n" PATIENT_WAY "T          12          15\n");
    settle("10,001 lines", sheet, fees, long_journal(10000, "Q   1\n"), length, CAMPAIGN_LONG_JOURNAL, 0, NULL);
    settle("10,001 lines and a tail", sheet, fees, long_journal(10000, "Q   1\nN"), length, CAMPAIGN_LONG_JOURNAL, 0, NULL);
    settle("13,000 lines", sheet, fees, long_journal(13000, ""), length, CAMPAIGN_LONG_JOURNAL, 0, NULL);
    settle("the last of 10,000 wrong", sheet, fees, long_journal(9999, "G   1\n"), length, CAMPAIGN_WRONG_LINE, 10000, NULL);
    /* 14 comes before 12, 13, 15 and 10, and after the sheet. */
    settle("10,001 lines, the last wrong", sheet, fees, long_journal(10000, "G   1\n"), length, CAMPAIGN_LONG_JOURNAL, 0,
           NULL);
    settle("10,001 lines, no fees", sheet, text(""), long_journal(10001, ""), 0, CAMPAIGN_LONG_JOURNAL, 0, NULL);
    settle("10,001 lines, a crossed quote", sheet, text("F   1    15    12    34      \n"), long_journal(10001, ""), 0,
           CAMPAIGN_LONG_JOURNAL, 0, NULL);
    settle("10,001 lines, a stranding point", text(twin), fees, long_journal(10001, ""), length, CAMPAIGN_STRANDING, 259,
           NULL);
    settle("10,001 lines, no sheet", text(""), fees, long_journal(10001, ""), length, CAMPAIGN_FORM, 1, NULL);
}

/* All that can be wrong with the journal and the fees stands behind a wrong sheet. */
static void wrong_sheets(void)
{
    const size_t room = CAMPAIGN_LONGEST_REPORT;
    refused("no sheet", "", "", "G   1\n", 0, CAMPAIGN_FORM, 1);
    refused("no way", "P   1   0   0  64\n", patient_fee, "", room, CAMPAIGN_COUNT, 1);
    refused("first number", "P   1   0   1  64\nB   2 C   1\nA   1   1\n", patient_fee, "", room, CAMPAIGN_NUMBER, 2);
    refused("circle", "P   2   2   1  64\nB   1 C   1\nB   2 C   1\nL   1   2\nL   2   1\nA   2   1   2\n", pair_fees, "", room,
            CAMPAIGN_CIRCLE, 1);
    refused("way not closed", "P   2   1   2  64\nB   1 C   1\nB   2 C   1\nL   1   2\nA   2   1   2\nA   1   2\n", pair_fees,
            "", room, CAMPAIGN_WAY_NOT_CLOSED, 2);
    refused("unused", "P   2   0   1  64\nB   1 C   1\nB   2 C   1\nA   1   1\n", pair_fees, "", room, CAMPAIGN_UNUSED, 2);
    refused("way twice", "P   1   0   2  64\nB   1 C   1\nA   1   1\nA   1   1\n", patient_fee, "", room, CAMPAIGN_WAY_TWICE, 2);
    refused("twin", twin, "", "G   1\n", 0, CAMPAIGN_STRANDING, 259);
    refused("twin, a crossed quote", twin, CROSSED_1, "", room, CAMPAIGN_STRANDING, 259);
    /* A number of a sheet or a journal may not be blank. */
    refused("no number of bookings", "P       0   1  64\nB   1 C   1\nA   1   1\n", patient_fee, "", room, CAMPAIGN_FORM, 1);
    refused("no limit", "P   1   0   1    \nB   1 C   1\nA   1   1\n", patient_fee, "", room, CAMPAIGN_FORM, 1);
    refused("no desk", "P   1   0   1  64\nB   1 C    \nA   1   1\n", patient_fee, "", room, CAMPAIGN_FORM, 2);
    refused("no booking on a way", "P   1   0   1  64\nB   1 C   1\nA   1    \n", patient_fee, "", room, CAMPAIGN_FORM, 3);
    refused("no booking in a journal", patient, patient_fee, "Q    \n", room, CAMPAIGN_WRONG_LINE, 1);
}

static void wrong_journals(void)
{
    const size_t room = CAMPAIGN_LONGEST_REPORT;
    refused("not due", tanker, tanker_fees, "Q   2\n", room, CAMPAIGN_WRONG_LINE, 1);
    refused("not requested", tanker, tanker_fees, "Q   1\nY   2\n", room, CAMPAIGN_WRONG_LINE, 2);
    refused("confirmed twice without an order", tanker, tanker_fees, "Q   1\nY   1\nY   1\n", room, CAMPAIGN_WRONG_LINE, 3);
    refused("returned without an order", tanker, tanker_fees, "Q   1\nY   1\nG   1\n", room, CAMPAIGN_WRONG_LINE, 3);
    refused("misformed", tanker, tanker_fees, "Q   1\nY0001\n", room, CAMPAIGN_WRONG_LINE, 2);
    refused("after the end", tanker, tanker_fees, "Q   1\nN   1\nQ   1\n", room, CAMPAIGN_WRONG_LINE, 3);
    /* 12 comes before 13, 15 and 10, these two before 10. */
    refused("12 before 13", tanker, "", "Q   1\nY   2\n", room, CAMPAIGN_WRONG_LINE, 2);
    refused("12 before 15", pair, CROSSED_1 FEE_2, "Q   1\nY   2\n", room, CAMPAIGN_WRONG_LINE, 2);
    refused("12 before 10", tanker, tanker_fees, "Q   1\nY   2\n", 0, CAMPAIGN_WRONG_LINE, 2);
    refused("13 before 10", tanker, FEE_1, "Q   1\nY   1\n", 0, CAMPAIGN_WRONG_FEE, 2);
    refused("13 before 10, too many", pair, FEE_1 FEE_2 FEE_2, "", 0, CAMPAIGN_WRONG_FEE, 3);
    refused("15 before 10", pair, FEE_1 CROSSED_2, "Q   1\n", 0, CAMPAIGN_CROSSED_QUOTE, 2);
}

static void short_buffers(void)
{
    for (size_t room = 0; room < 4 * 42 + 2 * 30 + 26; room++)
        refused("a short buffer", tanker, tanker_fees, TO_CHASE, room, CAMPAIGN_SHORT_BUFFER, 0);
}

/* A length of 0 lends nothing, and then the pointer may be null. */
static void nulls(void)
{
    const uint8_t *sheet = (const uint8_t *) patient, *fees = (const uint8_t *) patient_fee;
    const uint8_t *journal = (const uint8_t *) "Q   1\n";
    uint8_t report[sizeof patient_report];
    memset(report, UNWRITTEN, sizeof report);
    size_t length = strlen(patient), line = CAMPAIGN_FEE_LINE_LENGTH;
    expect("null sheet: settle", campaign_settle(NULL, 0, fees, line, journal, 6, report, sizeof report), 0, CAMPAIGN_FORM, 1);
    expect("null fees", campaign_settle(sheet, length, NULL, 0, journal, 6, report, sizeof report), 0, CAMPAIGN_WRONG_FEE, 1);
    expect("null report", campaign_settle(sheet, length, fees, line, journal, 6, NULL, 0), 0, CAMPAIGN_SHORT_BUFFER, 0);
    expect("all null: settle", campaign_settle(NULL, 0, NULL, 0, NULL, 0, NULL, 0), 0, CAMPAIGN_FORM, 1);
    expect("null journal: settle", campaign_settle(sheet, length, fees, line, NULL, 0, report, sizeof report),
           CAMPAIGN_ACCEPTED, 0, 98);
    expect_bytes("null journal: settle", report, patient_report, 98);
}

int main(void)
{
    tanker_bills();
    bill_of_the_header();
    bills_with_returns();
    bills_with_blanks();
    bill_with_a_booking_twice();
    report_lengths();
    longest_report();
    wrong_fee_sheets();
    blanks_where_a_number_must_be();
    crossed_quotes();
    wrong_and_crossed_lines();
    every_byte_of_a_fee_sheet();
    fee_sheet_cut();
    long_journals();
    wrong_sheets();
    wrong_journals();
    short_buffers();
    nulls();
    return faults == 0 ? 0 : 1;
}

#include "desks.h"

/* At least at every fifth order for a booking a desk that promises to give in does so: it confirms what repeats (R or D),
   takes back what it may (C or D). */
enum { MOST_DELAYS = 4 };

/* Chance for one question alone, so that nothing depends on what was drawn for others. */
struct dice {
    uint64_t chance;
};

enum question { DAY, HURRY, TURN, ANSWER, CONFUSION, MUMBLE, REPEAT, REPEAT_WHEN_BACK, CROWD, JOIN };

/* splitmix64 */
static uint64_t draw(struct dice *dice)
{
    uint64_t mixed = dice->chance += UINT64_C(0x9E3779B97F4A7C15);
    mixed = (mixed ^ (mixed >> 30)) * UINT64_C(0xBF58476D1CE4E5B9);
    mixed = (mixed ^ (mixed >> 27)) * UINT64_C(0x94D049BB133111EB);
    return mixed ^ (mixed >> 31);
}

static struct dice stir(struct dice dice, uint64_t number)
{
    return (struct dice) {draw(&dice) ^ number};
}

static struct dice dice_for(const struct desks *desks, enum question question, uint64_t first, uint64_t second)
{
    struct dice dice = {desks->seed};
    return stir(stir(stir(dice, (uint64_t) question), first), second);
}

static unsigned below(struct dice *dice, unsigned long bound)
{
    return (unsigned) (draw(dice) % bound);
}

static bool percent(struct dice *dice, unsigned chance)
{
    return below(dice, 100) < chance;
}

void desks_open(struct desks *desks, uint64_t seed)
{
    /* From days on which all goes well to days on which little does. */
    static const unsigned days[] = {0, 1, 3, 10, 25, 50};
    *desks = (struct desks) {.seed = seed};
    struct dice dice = dice_for(desks, DAY, 0, 0);
    desks->refusing = days[below(&dice, sizeof days / sizeof days[0])];
}

void desks_send(struct desks *desks, struct order order)
{
    desks->order[order.what.booking] = order;
}

unsigned desks_matters(const struct desks *desks, const struct plan *plan, unsigned desk)
{
    unsigned count = 0;
    for (unsigned booking = 1; booking <= plan->bookings; booking++)
        count += plan->desk[booking] == desk && desks->order[booking].number != 0;
    return count;
}

static unsigned with_order(const struct desks *desks, unsigned due[CAMPAIGN_MOST_BOOKINGS])
{
    unsigned count = 0;
    for (unsigned booking = 1; booking <= CAMPAIGN_MOST_BOOKINGS; booking++)
        if (desks->order[booking].number != 0)
            due[count++] = booking;
    return count;
}

bool desks_hurry(const struct desks *desks, size_t lines)
{
    unsigned due[CAMPAIGN_MOST_BOOKINGS];
    struct dice dice = dice_for(desks, HURRY, lines, 0);
    return percent(&dice, 15) && with_order(desks, due) > 0;
}

bool desks_join(const struct desks *desks, size_t lines)
{
    /* From days on which the replies come one by one to days on which all come at once. */
    static const unsigned days[] = {0, 30, 60, 90, 100};
    unsigned due[CAMPAIGN_MOST_BOOKINGS];
    struct dice day = dice_for(desks, CROWD, 0, 0);
    struct dice dice = dice_for(desks, JOIN, lines, 0);
    return percent(&dice, days[below(&day, sizeof days / sizeof days[0])]) && with_order(desks, due) > 0;
}

bool desks_answer(struct desks *desks, const struct plan *plan, size_t lines, struct reply *reply)
{
    unsigned due[CAMPAIGN_MOST_BOOKINGS];
    unsigned count = with_order(desks, due);
    if (count == 0)
        return false;
    struct dice dice = dice_for(desks, TURN, lines, 0);
    unsigned booking = due[below(&dice, count)];
    *reply = desks_say(desks, plan, desks->order[booking]);
    desks->order[booking].number = 0;
    return true;
}

static bool puts_us_off(const struct desks *desks, struct order order, bool gives_in)
{
    struct dice dice = dice_for(desks, ANSWER, order.what.booking, order.number);
    if (gives_in && order.number % (MOST_DELAYS + 1) == 0)
        return false;
    return percent(&dice, desks->refusing);
}

struct reply desks_say(const struct desks *desks, const struct plan *plan, struct order order)
{
    uint32_t booking = order.what.booking;
    bool request = order.what.letter == CAMPAIGN_REQUEST_LETTER;
    bool no = puts_us_off(desks, order, !request || plan_repeats(plan, booking));
    uint8_t letter = request ? (no ? CAMPAIGN_DECLINED : CAMPAIGN_CONFIRMED) : (no ? CAMPAIGN_KEPT : CAMPAIGN_RETURNED);
    return (struct reply) {{letter, booking}, order.number};
}

static bool fits(struct entry what, const uint8_t code[CAMPAIGN_STATE_LENGTH])
{
    if (what.booking < 1 || what.booking > CAMPAIGN_MOST_BOOKINGS)
        return false;
    switch (what.letter) {
    case CAMPAIGN_CONFIRMED:
    case CAMPAIGN_DECLINED: return code[what.booking] == CAMPAIGN_REQUESTED;
    case CAMPAIGN_RETURNED:
    case CAMPAIGN_KEPT: return code[what.booking] == CAMPAIGN_RETURNING;
    default: return false;
    }
}

bool desks_confused(const struct desks *desks, size_t lines, const uint8_t code[CAMPAIGN_STATE_LENGTH],
                    struct reply *reply)
{
    static const uint8_t letters[] = {'Y', 'N', 'G', 'K', 'Q', 'U', 'y', '?', 0, 255};
    static const uint32_t far[] = {0, 64, 65, 70, 256, 65536, UINT32_MAX};
    struct dice dice = dice_for(desks, CONFUSION, lines, 0);
    if (!percent(&dice, 8))
        return false;
    do {
        reply->order = 0;
        reply->what.letter = letters[below(&dice, sizeof letters)];
        reply->what.booking = percent(&dice, 80) ? 1 + below(&dice, CAMPAIGN_MOST_BOOKINGS)
                                                 : far[below(&dice, sizeof far / sizeof far[0])];
    } while (fits(reply->what, code));
    return true;
}

bool desks_mumble(const struct desks *desks, size_t lines)
{
    struct dice dice = dice_for(desks, MUMBLE, lines, 0);
    return percent(&dice, 7);
}

unsigned long desks_repeat(const struct desks *desks, size_t lines, uint32_t booking, unsigned long replies, bool back)
{
    struct dice dice = dice_for(desks, back ? REPEAT_WHEN_BACK : REPEAT, lines, booking);
    if (replies == 0 || !percent(&dice, back ? 30 : 3))
        return 0;
    return 1 + below(&dice, replies);
}

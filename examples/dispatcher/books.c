#include "books.h"

void books_open(struct books *books, const struct plan *plan)
{
    *books = (struct books) {.plan = plan};
    books->code[0] = 1;
}

bool books_is_order(struct entry entry)
{
    return entry.letter == CAMPAIGN_REQUEST_LETTER || entry.letter == CAMPAIGN_RETURN_LETTER;
}

/* Sets. */

static uint64_t only(unsigned booking)
{
    return UINT64_C(1) << (booking - 1);
}

uint64_t books_coded(const struct books *books, uint8_t code)
{
    uint64_t set = 0;
    for (unsigned booking = 1; booking <= books->plan->bookings; booking++)
        if (books->code[booking] == code)
            set |= only(booking);
    return set;
}

uint64_t books_held_firm(const struct books *books)
{
    uint64_t set = books_coded(books, CAMPAIGN_HELD);
    for (unsigned booking = 1; booking <= books->plan->bookings; booking++)
        if (!plan_firm(books->plan, booking))
            set &= ~only(booking);
    return set;
}

uint64_t books_in_hand(const struct books *books)
{
    uint64_t set = 0;
    for (unsigned booking = 1; booking <= books->plan->bookings; booking++)
        if (books->confirmed[booking] > books->returned[booking])
            set |= only(booking);
    return set;
}

/* Each order and each reply brings the end nearer, save the delays. */
static const char *count_step(struct books *books)
{
    books->steps++;
    if (books->steps > 4 * plan_size_of_ways(books->plan) + 2 * books->delays)
        return "more orders and replies than the bound allows";
    return NULL;
}

/* Matters. */

static void open_matter(struct books *books, unsigned booking)
{
    unsigned desk = books->plan->desk[booking];
    unsigned open = ++books->matters[desk];
    if (open > books->most_matters[desk])
        books->most_matters[desk] = open;
}

static void close_matter(struct books *books, unsigned booking)
{
    books->matters[books->plan->desk[booking]]--;
}

unsigned books_most_matters(const struct books *books)
{
    unsigned most = 0;
    for (unsigned desk = 1; desk <= CAMPAIGN_MOST_DESKS; desk++)
        if (books->most_matters[desk] > most)
            most = books->most_matters[desk];
    return most;
}

/* Orders. */

const char *books_order(struct books *books, struct entry entry)
{
    bool request = entry.letter == CAMPAIGN_REQUEST_LETTER;
    if (entry.booking < 1 || entry.booking > books->plan->bookings)
        return "an order for a booking that is not on the sheet";
    if (books->code[entry.booking] != (request ? CAMPAIGN_FREE : CAMPAIGN_HELD))
        return "an order that our books do not allow";
    if (!request && plan_firm(books->plan, entry.booking))
        return "a return of a booking that can't be given back";
    books->code[entry.booking] = request ? CAMPAIGN_REQUESTED : CAMPAIGN_RETURNING;
    books->orders[entry.booking]++;
    open_matter(books, entry.booking);
    return count_step(books);
}

/* Replies. */

bool books_fits(const struct books *books, struct entry entry)
{
    if (entry.booking < 1 || entry.booking > books->plan->bookings)
        return false;
    switch (entry.letter) {
    case CAMPAIGN_CONFIRMED:
    case CAMPAIGN_DECLINED: return books->code[entry.booking] == CAMPAIGN_REQUESTED;
    case CAMPAIGN_RETURNED:
    case CAMPAIGN_KEPT: return books->code[entry.booking] == CAMPAIGN_RETURNING;
    default: return false;
    }
}

static bool can_be_flown(const struct books *books, unsigned way)
{
    return (books->plan->way[way] & books_coded(books, CAMPAIGN_LOST)) == 0
        && (books_held_firm(books) & ~books->plan->way[way]) == 0;
}

/* A way that lost a booking is given up when no request is open any more. */
static void choose_way(struct books *books)
{
    unsigned way = books->code[0];
    if (way == 0 || (books->plan->way[way] & books_coded(books, CAMPAIGN_LOST)) == 0
        || books_coded(books, CAMPAIGN_REQUESTED) != 0)
        return;
    way = 1;
    while (way <= books->plan->ways && !can_be_flown(books, way))
        way++;
    books->code[0] = (uint8_t) (way <= books->plan->ways ? way : 0);
}

static void enter(struct books *books, struct entry entry)
{
    uint8_t *code = &books->code[entry.booking];
    switch (entry.letter) {
    case CAMPAIGN_CONFIRMED:
        *code = CAMPAIGN_HELD;
        books->confirmed[entry.booking]++;
        break;
    case CAMPAIGN_DECLINED:
        *code = plan_repeats(books->plan, entry.booking) ? CAMPAIGN_FREE : CAMPAIGN_LOST;
        books->delays += *code == CAMPAIGN_FREE;
        break;
    case CAMPAIGN_RETURNED:
        *code = CAMPAIGN_FREE;
        books->returned[entry.booking]++;
        break;
    default:
        *code = CAMPAIGN_HELD;
        books->delays++;
        break;
    }
}

const char *books_reply(struct books *books, struct entry entry)
{
    enter(books, entry);
    books->replies[entry.booking]++;
    close_matter(books, entry.booking);
    choose_way(books);
    return count_step(books);
}

/* The end. */

void books_write(const struct books *books, FILE *out)
{
    static const char *const words[] = {"free", "requested", "held", "lost", "returning"};
    for (unsigned booking = 1; booking <= books->plan->bookings; booking++)
        fprintf(out, "books: booking %2u: ordered %lu times, confirmed %lu, returned %lu, now %s\n", booking,
                books->orders[booking], books->confirmed[booking], books->returned[booking],
                words[books->code[booking]]);
    for (unsigned desk = 1; desk <= CAMPAIGN_MOST_DESKS; desk++)
        if (books->most_matters[desk] > 0)
            fprintf(out, "books: desk %u: most matters open at once %u, limit %u\n", desk, books->most_matters[desk],
                    books->plan->limit);
    fprintf(out, "books: way %u; %lu orders and replies, %lu delays\n", books->code[0], books->steps, books->delays);
}

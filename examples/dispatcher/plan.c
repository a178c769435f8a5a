#include "plan.h"

#include "file.h"

#include <stdlib.h>

/* One byte more than any sheet has, so that a longer file is seen to be one. */
enum { MOST_BYTES = CAMPAIGN_LONGEST_SHEET + 1 };

bool plan_load(struct plan *plan, const char *path)
{
    *plan = (struct plan) {0};
    return file_read(path, MOST_BYTES, &plan->sheet, &plan->length);
}

void plan_free(struct plan *plan)
{
    free(plan->sheet);
    plan->sheet = NULL;
}

/* How far the sheet is read; a fault stays. */
struct reading {
    const struct plan *plan;
    size_t at;
    bool fault;
    bool ended; /* the fault is that no byte was left */
};

static int take_byte(struct reading *r)
{
    if (!r->fault && r->at < r->plan->length)
        return r->plan->sheet[r->at++];
    r->ended = r->ended || !r->fault;
    r->fault = true;
    return -1;
}

static void expect_byte(struct reading *r, int byte)
{
    if (take_byte(r) != byte)
        r->fault = true;
}

/* A number in four columns, without leading zeros. */
static unsigned take_number(struct reading *r)
{
    unsigned value = 0;
    bool digits = false;
    for (int column = 0; column < 4; column++) {
        int byte = take_byte(r);
        if (byte >= '0' && byte <= '9') {
            if (digits && value == 0)
                r->fault = true;
            value = value * 10 + (unsigned) (byte - '0');
            digits = true;
        } else if (byte != ' ' || digits) {
            r->fault = true;
        }
    }
    if (!digits)
        r->fault = true;
    return value;
}

static unsigned take_number_within(struct reading *r, unsigned low, unsigned high)
{
    unsigned value = take_number(r);
    if (value < low || value > high)
        r->fault = true;
    return value;
}

static char take_kind(struct reading *r)
{
    int byte = take_byte(r);
    if (byte != 'C' && byte != 'P' && byte != 'R' && byte != 'D')
        r->fault = true;
    return (char) byte;
}

static void take_bookings(struct reading *r, struct plan *plan)
{
    for (unsigned booking = 1; booking <= plan->bookings && !r->fault; booking++) {
        expect_byte(r, 'B');
        take_number_within(r, booking, booking);
        expect_byte(r, ' ');
        plan->kind[booking] = take_kind(r);
        plan->desk[booking] = take_number_within(r, 1, CAMPAIGN_MOST_DESKS);
        expect_byte(r, '\n');
    }
}

/* Order is the library's business: the links are only passed over. */
static void skip_links(struct reading *r, unsigned links)
{
    for (unsigned link = 0; link < links && !r->fault; link++) {
        expect_byte(r, 'L');
        take_number(r);
        take_number(r);
        expect_byte(r, '\n');
    }
}

static void take_way(struct reading *r, struct plan *plan, unsigned way)
{
    expect_byte(r, 'A');
    unsigned count = take_number_within(r, 1, plan->bookings);
    for (unsigned i = 0; i < count && !r->fault; i++) {
        unsigned booking = take_number_within(r, 1, plan->bookings);
        if (!r->fault)
            plan->way[way] |= UINT64_C(1) << (booking - 1);
    }
    expect_byte(r, '\n');
}

static void take_sheet(struct reading *r, struct plan *plan)
{
    expect_byte(r, 'P');
    plan->bookings = take_number_within(r, 1, CAMPAIGN_MOST_BOOKINGS);
    unsigned links = take_number_within(r, 0, CAMPAIGN_MOST_LINKS);
    plan->ways = take_number_within(r, 1, CAMPAIGN_MOST_WAYS);
    plan->limit = take_number_within(r, 1, CAMPAIGN_MOST_MATTERS);
    expect_byte(r, '\n');
    if (r->fault)
        return;
    take_bookings(r, plan);
    skip_links(r, links);
    for (unsigned way = 1; way <= plan->ways && !r->fault; way++)
        take_way(r, plan, way);
}

bool plan_parse(struct plan *plan)
{
    struct reading r = {.plan = plan};
    take_sheet(&r, plan);
    return !r.fault && r.at == plan->length;
}

bool plan_breaks_off(const struct plan *plan)
{
    struct plan scratch = *plan;
    struct reading r = {.plan = plan};
    take_sheet(&r, &scratch);
    return r.ended;
}

bool plan_in_way(const struct plan *plan, unsigned way, unsigned booking)
{
    return (plan->way[way] >> (booking - 1) & 1) != 0;
}

bool plan_firm(const struct plan *plan, unsigned booking)
{
    return plan->kind[booking] == 'P' || plan->kind[booking] == 'R';
}

bool plan_repeats(const struct plan *plan, unsigned booking)
{
    return plan->kind[booking] == 'R' || plan->kind[booking] == 'D';
}

void plan_write_set(FILE *out, uint64_t set)
{
    for (unsigned booking = 1; booking <= CAMPAIGN_MOST_BOOKINGS; booking++)
        if (set >> (booking - 1) & 1)
            fprintf(out, " %u", booking);
}

unsigned long plan_size_of_ways(const struct plan *plan)
{
    unsigned long size = 0;
    for (unsigned way = 1; way <= plan->ways; way++)
        for (uint64_t rest = plan->way[way]; rest != 0; rest &= rest - 1)
            size++;
    return size;
}

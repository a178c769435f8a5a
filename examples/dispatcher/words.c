#include "words.h"

#include "campaign.h"

const char *words_for_kind(char kind)
{
    switch (kind) {
    case 'C': return "returnable";
    case 'P': return "pivot";
    case 'R': return "repeatable";
    case 'D': return "repeatable and returnable";
    default: return "of no known kind";
    }
}

static const char *before_place(uint32_t refusal)
{
    switch (refusal) {
    case CAMPAIGN_FORM: return "the sheet ends early, goes on too long, or has a malformed line: line";
    case CAMPAIGN_COUNT: return "a count or the most matters per desk is outside its limits: line";
    case CAMPAIGN_NUMBER: return "a number is out of sequence, not rising, no booking, or no desk: line";
    case CAMPAIGN_CIRCLE: return "links run in a circle: a booking comes before itself: booking";
    case CAMPAIGN_WAY_NOT_CLOSED: return "a way lacks what comes before one of its bookings: way";
    case CAMPAIGN_UNUSED: return "a booking is in no way: booking";
    case CAMPAIGN_WAY_TWICE: return "a way equals an earlier one: way";
    case CAMPAIGN_MISFIT: return "the reply fits nothing that was asked: booking";
    case CAMPAIGN_WRONG_FEE:
        return "the fee sheet has a line that is malformed, without a least fee, out of sequence, missing or one too "
               "many: line";
    default: return NULL;
    }
}

static void write_wrong_line(FILE *out, uint32_t place)
{
    fprintf(out, "the journal is damaged or belongs to another sheet: line %u%s", (unsigned) place,
            place == 65535 ? " or one after it" : "");
}

static void write_crossed_quote(FILE *out, uint32_t place)
{
    fprintf(out, "a quote of booking %u has its least fee above its greatest: line %u of the fee sheet", (unsigned) place,
            (unsigned) place);
}

static void write_stranding(FILE *out, uint32_t place)
{
    fprintf(out,
            "the campaign could be stranded: if booking %u is refused on way %u, bookings that can't be given back "
            "may be held, and no later way is safe for them",
            (unsigned) campaign_stranded_booking(place), (unsigned) campaign_stranded_way(place));
}

void words_write_refusal(FILE *out, uint32_t refusal, uint32_t place)
{
    const char *words = before_place(refusal);
    fprintf(out, "refusal %u: ", (unsigned) refusal);
    if (words != NULL)
        fprintf(out, "%s %u", words, (unsigned) place);
    else if (refusal == CAMPAIGN_STRANDING)
        write_stranding(out, place);
    else if (refusal == CAMPAIGN_WRONG_LINE)
        write_wrong_line(out, place);
    else if (refusal == CAMPAIGN_CROSSED_QUOTE)
        write_crossed_quote(out, place);
    else if (refusal == CAMPAIGN_SHORT_BUFFER)
        fputs("a buffer is too short for the text", out);
    else if (refusal == CAMPAIGN_UNSOUND)
        fputs("the state is damaged or belongs to another sheet", out);
    else if (refusal == CAMPAIGN_LONG_JOURNAL)
        fputs("the journal has too many lines for a bill", out);
    else
        fputs("a number this program does not know", out);
}

void words_write_block_refusal(FILE *out, uint32_t refusal, uint32_t line)
{
    fprintf(out, "refusal %u: %s: line %u of the block", (unsigned) refusal,
            refusal == CAMPAIGN_FORM ? "the reply is not of its form" : "the reply fits nothing that was asked",
            (unsigned) line);
}

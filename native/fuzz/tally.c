/* tally.c: how often each answer was met, and how often some kinds of plans, roads, bills, edits
 * and spans. */
#include "tally.h"

#include "gazrieksne.h"
#include "layout.h"

enum { MOST_AMOUNT = 10000 };

/* Every direction full, and every service of the highest demand, at the highest prices. */
static const uint64_t highest_net =
    (uint64_t)GZ_MAX_PRICE
    * (2 * (MOST_CABINETS - 1) * (MOST_AMOUNT / BLOCK) + MOST_SERVICES * MOST_AMOUNT);

static const uint64_t loads_sought[LOADS_SOUGHT] = {0, 99, 100, 101, MOST_AMOUNT};
static const uint64_t thousandths_sought[THOUSANDTHS_SOUGHT] = {499, 500, 501};

struct tally tally;

void count_number(const struct billing *billing)
{
    tally.met[BILL][billing->number]++;
    if (billing->causes != 0)
        tally.met[PASSED][billing->number]++;
}

static int has_load(const struct reckoning *bill, uint64_t load)
{
    size_t i;

    for (i = 0; i < bill->directions; i++)
        if (bill->loads[i] == load)
            return 1;
    return 0;
}

static void count_bill(const struct reckoning *bill, uint64_t tax_rate)
{
    uint64_t thousandths = thousandths_of(bill->net, tax_rate);
    int i;

    for (i = 0; i < LOADS_SOUGHT; i++)
        tally.kinds[LOADED + i] += has_load(bill, loads_sought[i]);
    for (i = 0; i < THOUSANDTHS_SOUGHT; i++)
        tally.kinds[ENDING + i] += thousandths == thousandths_sought[i];
    tally.kinds[BARE] += bill->many == 0;
    tally.kinds[DEAREST] += bill->net == highest_net;
}

void count_kinds(const struct billing *billing)
{
    int cause;

    if (billing->number == 0)
        count_bill(&billing->bill, billing->tax_rate);
    if (billing->number == 22)
        for (cause = 0; cause < CAUSES; cause++)
            tally.kinds[ALONE + cause] += billing->causes == 1u << cause;
}

void count_edit(const struct planning *editing, int outside)
{
    tally.met[EDIT][editing->number]++;
    tally.kinds[OUTPUT_FIRST] += outside && editing->number == 10;
    tally.kinds[TABLE_FIRST] += outside && editing->number == 11;
}

void count_step(const struct planning *before, const struct planning *after)
{
    tally.kinds[EDITED_PLAN] += after->number == 0;
    tally.kinds[EDITED_NONE] += after->number == 12;
    tally.kinds[FREED] += before->number == 12 && after->number == 0;
    tally.kinds[CLOSED] += before->number == 0 && after->number == 12;
}

void count_outside(const struct planning *planning)
{
    tally.kinds[OUTSIDE_NONE] += planning->number == 12;
}

void count_strange(const struct planning *editing)
{
    tally.kinds[STRANGE_PLAN] += editing->number == 0;
    tally.kinds[STRANGE_NONE] += editing->number == 12;
    tally.kinds[STRANGE_TOLD] += editing->number == 23;
}

/* True if the bit of the cause is set. */
static int has(unsigned causes, int cause)
{
    return (int)(causes >> cause & 1);
}

/* For which tables 24 was given, and what it was given before. */
static void count_past(unsigned causes, const struct span *span)
{
    int costs = has(causes, PAST_COSTS);
    int choices = has(causes, PAST_CHOICES);

    tally.kinds[COSTS_ALONE] += costs && !choices;
    tally.kinds[CHOICES_ALONE] += choices && !costs;
    tally.kinds[BOTH_TABLES] += costs && choices;
    tally.kinds[WRAPPED] += sum_wraps(span) && span->first + span->number <= shorter_table(span);
    tally.kinds[BEFORE_SHORT] += has(causes, SHORT_SPAN);
    tally.kinds[BEFORE_CABINET] += has(causes, NO_CABINET);
}

void count_span(uint64_t number, unsigned causes, const struct span *span, size_t needed)
{
    size_t end = shorter_table(span);
    int differ = span->costs_len != span->choices_len;

    if (number == 24)
        count_past(causes, span);
    tally.kinds[BEFORE_SPAN] +=
        number == 10 && (has(causes, PAST_COSTS) || has(causes, PAST_CHOICES));
    tally.kinds[EMPTY_SPAN] += number == 11 && span->number == 0 && span->first == end;
    tally.kinds[EXACT_SPAN] += number == 0 && differ && span->first + span->number == end;
    tally.kinds[LONG_SPAN] += number == 0 && span->number > needed;
    tally.kinds[LATER_SPAN] += number == 0 && span->first > 0;
}

void count_shared(const struct planning *editing)
{
    tally.kinds[EDITED_SPAN] += is_taken(editing);
}

void count_roads(int first, int apart, int called)
{
    if (first)
        tally.kinds[apart ? APART_FIRST : TOUCHING_FIRST]++;
    else
        tally.kinds[apart ? APART : TOUCHING]++;
    tally.kinds[called ? CALLED_FIRST : CALLED_SECOND]++;
}

void count_joint_plan(const struct checking *checking)
{
    tally.kinds[JOINT_ALONE] += checking->on_joint && checking->number == 15;
    tally.kinds[JOINT_FIRST] +=
        checking->on_joint && checking->number == 15 && !checking->valid_otherwise;
    tally.kinds[LENGTH_FIRST] += checking->on_joint && checking->number == 13;
    tally.kinds[NUMBER_FIRST] += checking->on_joint && checking->number == 14;
    tally.kinds[BARS_FIRST] += checking->on_joint && checking->number == 20;
    tally.kinds[THROUGH_JOINT] += checking->through_joint != 0;
}

void count_joint_road(const uint8_t *sheet, const struct planning *planning, int kept_off)
{
    int has_service = count_of(sheet, SERVICES) > 0;
    int stand;

    tally.kinds[JOINT_DECIDED] += planning->number == 0 && kept_off;
    tally.kinds[JOINT_CLOSED] += planning->number == 12 && kept_off;
    if (planning->number != 0)
        return;
    for (stand = 0; stand < STANDS; stand++)
        tally.kinds[STANDING + stand] += has_service && has_joint(sheet, stand);
    tally.kinds[ALL_JOINTS] += !has_service && count_joints(sheet) == count_of(sheet, CABINETS);
}

void count_joint_edit(const struct planning *editing, int was, int is)
{
    if (editing->number == 0) {
        tally.kinds[MADE_PLAN] += !was && is;
        tally.kinds[UNMADE_PLAN] += was && !is;
    } else if (editing->number == 12) {
        tally.kinds[MADE_NONE] += !was && is;
        tally.kinds[UNMADE_NONE] += was && !is;
    }
}

void count_joint_led(const struct checking *checking, uint64_t cost)
{
    tally.kinds[STRANGE_JOINT] += checking->valid_otherwise && checking->cost_otherwise == cost;
}

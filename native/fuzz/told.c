/* told.c: what a run of the standalone driver tells of its tally. */
#include "told.h"

#include <inttypes.h>
#include <stdio.h>

#include "tally.h"

static const char *const columns[COLUMNS] = {
    "gz_read",   "gz_check",  "gz_plan", "gz_keep",   "gz_edit", "plan_span",
    "keep_span", "edit_span", "gz_bill", "before 22", "gz_tidy"};

static const char *const kinds[KINDS] = {
    [TIED] = "plans beside which another costs as much",
    [FRAMED] = "plans refused with 16 for framing alone",
    [IDLE] = "plans accepted with demand 0 over a link of capacity 0",
    [ALONE + BLOCK_PRICE_CAUSE] = "bills refused with 22 for the block price alone",
    [ALONE + SLOT_PRICE_CAUSE] = "bills refused with 22 for the slot price alone",
    [ALONE + TAX_RATE_CAUSE] = "bills refused with 22 for the tax rate alone",
    [ALONE + LINES_CAUSE] = "bills refused with 22 for too few places alone",
    [LOADED] = "bills with a load of 0",
    [LOADED + 1] = "bills with a load of 99",
    [LOADED + 2] = "bills with a load of 100",
    [LOADED + 3] = "bills with a load of 101",
    [LOADED + 4] = "bills with a load of 10,000",
    [ENDING] = "bills with 499 thousandths of a cent in the tax before rounding",
    [ENDING + 1] = "bills with 500",
    [ENDING + 2] = "bills with 501",
    [BARE] = "bills without a line",
    [DEAREST] = "bills with the highest net that there can be",
    [EDITED_PLAN] = "edits of kept tables with a plan",
    [EDITED_NONE] = "edits of kept tables with 12",
    [FREED] = "edits with a plan after 12",
    [CLOSED] = "edits with 12 after a plan",
    [OUTPUT_FIRST] = "edits refused with 10 where 14 applies too",
    [TABLE_FIRST] = "edits refused with 11 where 14 applies too",
    [OUTSIDE_NONE] = "edits refused with 14 on a road without a plan",
    [STRANGE_PLAN] = "edits with tables from elsewhere and a plan",
    [STRANGE_NONE] = "edits with tables from elsewhere and 12",
    [STRANGE_TOLD] = "edits with tables from elsewhere and 23",
    [COSTS_ALONE] = "spans refused with 24 for the costs alone",
    [CHOICES_ALONE] = "spans refused with 24 for the choices alone",
    [BOTH_TABLES] = "spans refused with 24 for both tables",
    [WRAPPED] = "spans refused with 24 whose sum would do if cut to 64 bits",
    [BEFORE_SPAN] = "spans refused with 10 where 24 applies too",
    [BEFORE_SHORT] = "spans refused with 24 where 11 applies too",
    [BEFORE_CABINET] = "spans refused with 24 where 14 applies too",
    [EMPTY_SPAN] = "spans of no entry at the end of a table, refused with 11",
    [EXACT_SPAN] = "plans in a span up to the end of the shorter table",
    [LONG_SPAN] = "plans in a span longer than needed",
    [LATER_SPAN] = "plans in a span that starts after entry 0",
    [EDITED_SPAN] = "edits of what was kept in a span",
    [TOUCHING] = "pairs of roads in spans that touch, the input's second",
    [APART] = "pairs of roads with entries between, the input's second",
    [TOUCHING_FIRST] = "pairs of roads in spans that touch, the input's first",
    [APART_FIRST] = "pairs of roads with entries between, the input's first",
    [CALLED_SECOND] = "pairs of roads of which the other one is kept first",
    [CALLED_FIRST] = "pairs of roads of which the input's is kept first",
    [JOINT_ALONE] = "plans refused with 15 for joints alone",
    [JOINT_FIRST] = "plans refused with 15 for joints alone where 16 applies too",
    [LENGTH_FIRST] = "plans refused with 13 where a joint alone would give 15",
    [NUMBER_FIRST] = "plans refused with 14 where a joint alone would give 15",
    [BARS_FIRST] = "plans refused with 20 where a joint alone would give 15",
    [THROUGH_JOINT] = "plans accepted with a stream through a joint",
    [JOINT_DECIDED] = "plans beside which joints keep off one to be preferred",
    [JOINT_CLOSED] = "roads without a plan on which joints keep one off",
    [STANDING + AT_ROOT] = "plans on roads with a joint at the root",
    [STANDING + IN_MIDDLE] = "plans on roads with a joint in the middle",
    [STANDING + AT_LEAF] = "plans on roads with a joint at a leaf",
    [ALL_JOINTS] = "plans without a service on roads of joints",
    [MADE_PLAN] = "edits that make a joint, with a plan",
    [MADE_NONE] = "edits that make a joint, with 12",
    [UNMADE_PLAN] = "edits after which a joint is none, with a plan",
    [UNMADE_NONE] = "edits after which a joint is none, with 12",
    [STRANGE_JOINT] = "edits refused with 23 for joints alone",
};

static int plans(int column)
{
    return column >= FIND && column <= EDIT_SPAN;
}

/* True if the call names a span. */
static int is_spanned(int column)
{
    return column >= FIND_SPAN && column <= EDIT_SPAN;
}

/* True if memory is lent to the call whose lender causes this number. */
static int is_lent(int column, uint64_t number)
{
    switch (number) {
    case 21:
        return column == TIDY;
    case 22:
        return column == BILL;
    case 24:
        return is_spanned(column);
    default:
        return plans(column);
    }
}

/* True if whoever wrote the plan, or passes a cabinet and tables, causes this number. */
static int is_passed(int column, uint64_t number)
{
    if (column == EDIT || column == EDIT_SPAN)
        return number == 14 || number == 23;
    return number != 23 && (column == CHECK || column == BILL || column == PASSED);
}

/* True if the header lets the call give this number: whoever lends memory causes refusals of the
 * calls that plan, the bill and the tidy copy, the road of those that plan only, whoever wrote the
 * plan of the check and the bill. A refusal of the sheet or the plan may be given before 22. */
static int may_give(int column, uint64_t number)
{
    switch (group_of(number)) {
    case LENDER:
        return is_lent(column, number);
    case ROAD:
        return plans(column);
    case PLAN_WRITER:
        return is_passed(column, number);
    default:
        return column != PASSED || number != 0;
    }
}

/* Prints how often each call gave the number. Gives the number of calls that may and never did. */
static int tell_number(uint64_t number)
{
    int missing = 0;
    int column;

    printf("%6" PRIu64 " ", number);
    for (column = 0; column < COLUMNS; column++) {
        missing += may_give(column, number) && tally.met[column][number] == 0;
        if (may_give(column, number))
            printf(" %10" PRIu64, tally.met[column][number]);
        else
            printf(" %10s", "");
    }
    printf("\n");
    return missing;
}

/* Prints how often plans, roads, bills, edits or spans of a kind were met. Gives 1 if none was. */
static int tell_kind(int kind)
{
    printf("%" PRIu64 " %s\n", tally.kinds[kind], kinds[kind]);
    return tally.kinds[kind] == 0;
}

int tell(void)
{
    int missing = 0;
    uint64_t number;
    int i;

    printf("%" PRIu64 " inputs, %" PRIu64 " accepted\nanswer ", tally.inputs, tally.met[READ][0]);
    for (i = 0; i < COLUMNS; i++)
        printf(" %10s", columns[i]);
    printf("\n");
    for (number = 0; number <= LAST_REFUSAL; number++)
        if (is_given(number))
            missing += tell_number(number);
    for (i = 0; i < KINDS; i++)
        missing += tell_kind(i);
    return missing;
}

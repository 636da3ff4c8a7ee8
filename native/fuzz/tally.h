/* tally.h: how often each answer was met, and how often some kinds of plans, roads, bills, edits
 * and spans. */
#ifndef TALLY_H
#define TALLY_H

#include <stdint.h>

#include "bill.h"
#include "checker.h"
#include "joints.h"
#include "planner.h"
#include "refusals.h"
#include "span.h"

/* The calls whose answers are counted, and gz_bill's once more where 22 applies too and is passed
 * over. */
enum column {
    READ,
    CHECK,
    FIND,
    KEEP,
    EDIT,
    FIND_SPAN,
    KEEP_SPAN,
    EDIT_SPAN,
    BILL,
    PASSED,
    TIDY,
    COLUMNS
};

/* A run must have met bills with these loads, and with a tax that has these thousandths of a cent
 * past its last whole one. */
enum { LOADS_SOUGHT = 5, THOUSANDTHS_SOUGHT = 3 };

/* What can stand in the way of a call in a span, in the order of giving. */
enum { SHORT_OUTPUT, PAST_COSTS, PAST_CHOICES, SHORT_SPAN, NO_CABINET, SPAN_CAUSES };

/* What is counted once for each input, for each bill, for each edit, or for each span. Joints keep
 * a plan off if it is valid but for services on them. */
enum kind {
    TIED,   /* inputs with a plan beside which another was met that costs as much */
    FRAMED, /* inputs that draw a plan refused with 16 for framing alone */
    IDLE,   /* inputs that draw a valid plan with a stream of demand 0 on a direction of
             * capacity 0 */
    ALONE,  /* from here on, bills refused with 22 for each cause alone */
    LOADED = ALONE + CAUSES,            /* from here on, bills with each load sought */
    ENDING = LOADED + LOADS_SOUGHT,     /* from here on, bills with each of the thousandths */
    BARE = ENDING + THOUSANDTHS_SOUGHT, /* bills without a line */
    DEAREST,                            /* bills with the highest net that there can be */
    EDITED_PLAN,    /* edits of kept tables with a plan */
    EDITED_NONE,    /* edits of kept tables with 12 */
    FREED,          /* of the former, those after 12 */
    CLOSED,         /* of the latter, those after a plan */
    OUTPUT_FIRST,   /* edits refused with 10 where 14 applies too */
    TABLE_FIRST,    /* edits refused with 11 where 14 applies too */
    OUTSIDE_NONE,   /* edits refused with 14 on a road without a plan */
    STRANGE_PLAN,   /* edits with tables from elsewhere and a plan */
    STRANGE_NONE,   /* edits with tables from elsewhere and 12 */
    STRANGE_TOLD,   /* edits with tables from elsewhere and 23 */
    COSTS_ALONE,    /* spans refused with 24 for the costs alone */
    CHOICES_ALONE,  /* spans refused with 24 for the choices alone */
    BOTH_TABLES,    /* spans refused with 24 for both */
    WRAPPED,        /* spans refused with 24 whose sum, cut to 64 bits, lies in both */
    BEFORE_SPAN,    /* spans refused with 10 where 24 applies too */
    BEFORE_SHORT,   /* spans refused with 24 where 11 applies too */
    BEFORE_CABINET, /* spans refused with 24 where 14 applies too */
    EMPTY_SPAN,     /* spans of no entry at the end of a table, refused with 11 */
    EXACT_SPAN,     /* plans in a span up to the end of the shorter table */
    LONG_SPAN,      /* plans in a span longer than needed */
    LATER_SPAN,     /* plans in a span that starts after entry 0 */
    EDITED_SPAN,    /* edits of what was kept in a span, with a plan or 12 */
    TOUCHING,       /* two roads in tables where the input's comes second, nothing between */
    APART,          /* the same with entries between */
    TOUCHING_FIRST, /* two roads in tables where the input's comes first, nothing between */
    APART_FIRST,    /* the same with entries between */
    CALLED_SECOND,  /* two roads of which the other one is kept first */
    CALLED_FIRST,   /* two roads of which the input's is kept first */
    JOINT_ALONE,    /* inputs that draw a plan refused with 15 for joints alone */
    JOINT_FIRST,    /* of these, those where 16 applies too */
    LENGTH_FIRST,   /* inputs that draw a plan refused with 13 where a joint alone would give 15 */
    NUMBER_FIRST,   /* the same with 14 */
    BARS_FIRST,     /* the same with 20 */
    THROUGH_JOINT,  /* inputs that draw a valid plan with a stream through a joint */
    JOINT_DECIDED,  /* inputs with a plan beside which joints keep off one to be preferred */
    JOINT_CLOSED,   /* inputs with 12 where joints keep a plan off */
    STANDING,       /* from here on, plans with a service on a road with a joint that stands so */
    ALL_JOINTS = STANDING + STANDS, /* plans without a service on a road of joints */
    MADE_PLAN,                      /* edits of kept tables that make a joint, with a plan */
    MADE_NONE,                      /* the same with 12 */
    UNMADE_PLAN,    /* edits of kept tables after which a joint is none, with a plan */
    UNMADE_NONE,    /* the same with 12 */
    STRANGE_JOINT,  /* edits with 23 for joints alone */
    KINDS
};

struct tally {
    uint64_t inputs;
    uint64_t met[COLUMNS][LAST_REFUSAL + 1];
    uint64_t kinds[KINDS];
};

extern struct tally tally;

/* Counts the number given for a bill. */
void count_number(const struct billing *billing);

/* Counts the kinds that a bill is of. */
void count_kinds(const struct billing *billing);

/* Counts the number given for an edit, of a cabinet that is there or not. */
void count_edit(const struct planning *editing, int outside);

/* Counts an edit of kept tables, by what was told before and after. */
void count_step(const struct planning *before, const struct planning *after);

/* Counts an edit of a cabinet that is not there, on a road of which this was told. */
void count_outside(const struct planning *planning);

/* Counts an edit with tables from elsewhere. */
void count_strange(const struct planning *editing);

/* Counts a call in a span, on an accepted sheet that needs so many entries: the number given, and
 * a bit for each thing in its way. */
void count_span(uint64_t number, unsigned causes, const struct span *span, size_t needed);

/* Counts an edit of what was kept in a span. */
void count_shared(const struct planning *editing);

/* Counts two roads that share tables: whether the input's comes first there, whether there are
 * entries between, and whether the input's is kept first. */
void count_roads(int first, int apart, int called);

/* Counts a plan that an input draws, by what it has to do with joints. */
void count_joint_plan(const struct checking *checking);

/* Counts the joints of an accepted sheet, of which this was told, and whether a plan was met that
 * joints alone keep from being written. */
void count_joint_road(const uint8_t *sheet, const struct planning *planning, int kept_off);

/* Counts an edit of kept tables, by whether the cabinet was a joint and is one. */
void count_joint_edit(const struct planning *editing, int was, int is);

/* Counts an edit with tables that lead to this plan, at this cost. */
void count_joint_led(const struct checking *checking, uint64_t cost);

#endif

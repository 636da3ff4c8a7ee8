/* faults.h: calls that are wrong on purpose, one fault each, which the fuzz target must tell. */
#ifndef FAULTS_H
#define FAULTS_H

#include <stddef.h>
#include <stdint.h>

#include "reckoning.h"

/* The calls, each with what it was given; the number is what it returns. */
struct sheet {
    const uint8_t *bytes;
    size_t length;
};

struct read {
    struct sheet sheet;
    uint64_t *counts;
    uint64_t number;
};

struct record {
    struct sheet sheet;
    size_t which;
    uint64_t *record;
    uint64_t number;
};

struct check {
    struct sheet sheet;
    const uint16_t *plan;
    size_t plan_len;
    uint64_t *answer;
    uint64_t number;
};

/* gz_plan or gz_keep. */
struct plan {
    struct sheet sheet;
    uint16_t *output;
    size_t output_len;
    uint64_t *costs;
    size_t costs_len;
    uint16_t *choices;
    size_t choices_len;
    uint64_t *answer;
    uint64_t number;
};

struct edit {
    struct plan plan; /* all that the other two are given */
    size_t cabinet;
};

/* gz_plan_span, gz_keep_span or gz_edit_span; the cabinet is for the last one alone. */
struct spanned {
    struct edit edit; /* all that a call without a span is given */
    size_t first, number;
    void (*real)(struct spanned *call); /* the archive's own call */
};

struct bill {
    struct sheet sheet;
    const uint16_t *plan;
    size_t plan_len;
    struct tariff tariff;
    uint64_t *lines;
    size_t lines_len;
    uint64_t *answer;
    uint64_t number;
};

struct tidy {
    struct sheet sheet;
    uint8_t *output;
    size_t output_len;
    uint64_t *answer;
    uint64_t number;
};

struct bound {
    size_t services, cabinets;
    uint64_t *answer;
    uint64_t number;
};

/* One fault: the calls that it makes wrong, the sheet that all calls are given instead, or all that
 * plan, or what it changes in the right bill of a valid plan. */
struct fault {
    const char *what;
    struct sheet (*sheet)(struct sheet sheet);
    struct sheet (*planned)(struct sheet sheet);
    void (*read)(struct read *call);
    void (*service)(struct record *call);
    void (*cabinet)(struct record *call);
    void (*stream)(struct record *call);
    void (*barred)(struct record *call);
    void (*check)(struct check *call);
    void (*plan)(struct plan *call);
    void (*keep)(struct plan *call);
    void (*edit)(struct edit *call);
    void (*plan_span)(struct spanned *call);
    void (*keep_span)(struct spanned *call);
    void (*edit_span)(struct spanned *call);
    void (*bill)(struct bill *call);
    void (*change)(struct reckoning *made, const struct bill *call);
    void (*tidy)(struct tidy *call);
    void (*bound)(struct bound *call);
};

/* Each list ends with a fault without a name. */
extern const struct fault sheet_faults[];
extern const struct fault fourth_faults[];
extern const struct fault reader_faults[];
extern const struct fault checker_faults[];
extern const struct fault framing_faults[];
extern const struct fault joint_faults[];
extern const struct fault spliced_faults[];
extern const struct fault resplice_faults[];
extern const struct fault planner_faults[];
extern const struct fault first_faults[];
extern const struct fault keep_faults[];
extern const struct fault edit_faults[];
extern const struct fault rows_faults[];
extern const struct fault alike_faults[];
extern const struct fault span_faults[];
extern const struct fault outside_faults[];
extern const struct fault reckoning_faults[];
extern const struct fault bill_faults[];
extern const struct fault lines_faults[];
extern const struct fault copy_faults[];
extern const struct fault tidy_faults[];

/* The archive's own calls. */
void real_read(struct read *call);
void real_service(struct record *call);
void real_cabinet(struct record *call);
void real_stream(struct record *call);
void real_barred(struct record *call);
void real_check(struct check *call);
void real_plan(struct plan *call);
void real_keep(struct plan *call);
void real_edit(struct edit *call);
void real_plan_span(struct spanned *call);
void real_keep_span(struct spanned *call);
void real_edit_span(struct spanned *call);
void real_bill(struct bill *call);
void real_tidy(struct tidy *call);
void real_bound(struct bound *call);

/* What the archive says of a sheet; the counts are 0 if it is refused. */
struct counts {
    uint64_t number;
    size_t r, s, q, pairs, entries;
};

struct counts counts_of(struct sheet sheet);

/* The same fault in each of the calls in spans. */
#define IN_EACH_SPAN(it, wrong)                                                                    \
    {.what = "gz_plan_span " it, .plan_span = wrong},                                              \
        {.what = "gz_keep_span " it, .keep_span = wrong},                                          \
        {.what = "gz_edit_span " it, .edit_span = wrong}

/* One fault of all calls in spans. */
#define IN_ALL_SPANS(they, wrong)                                                                  \
    {.what = "the calls in spans " they, .plan_span = wrong, .keep_span = wrong, .edit_span = wrong}

/* True if every plan of the road can be tried. */
int has_few_plans(struct counts counts);

/* Makes a plan the next one in order; false behind the last. */
int next_plan(uint16_t *plan, struct counts counts);

/* The lines of a bill for a sheet whose r and s are within their limits. */
size_t lines_needed(struct sheet sheet);

/* True if a figure of the tariff is outside its limits. */
int is_outside(const struct tariff *tariff);

/* Writes the lines of a bill, for which there are places, and tells its sums. */
void give_bill(struct bill *call, const struct reckoning *made);

/* A copy of a sheet, to be changed. */
extern uint8_t other_sheet[];
struct sheet copy_sheet(struct sheet sheet);

/* A copy of a sheet that has a header, without the block of barred pairs. */
struct sheet copy_unbarred(struct sheet sheet);

/* Puts a word into a field of each cabinet of the copied sheet, from the first one given on. */
void set_cabinets(struct sheet sheet, size_t first, size_t field, unsigned word);

/* True if an accepted sheet has its last pair twice. */
int has_repeat(struct sheet sheet);

/* Where memory is read that must not be. */
extern volatile unsigned seen;

#endif

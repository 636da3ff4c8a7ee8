/* sharing.c: two roads in one pair of tables, each in a span of its own. */
#include "sharing.h"

#include "chain.h"
#include "edits.h"
#include "example.h"
#include "keeper.h"
#include "spanner.h"
#include "tally.h"

/* A road as it is and with one cabinet edited, with its part of the memory. */
struct road {
    const struct stage *stages[2];
    size_t cabinet; /* the one edited */
    struct span span;
    struct output output;
};

/* The calls: for which of the roads, which one, and on which of its sheets. */
static const struct move {
    int road;
    enum span_call call;
    int stage;
} moves[] = {
    {0, KEEP_IN_SPAN, 0}, {1, KEEP_IN_SPAN, 0}, {0, EDIT_IN_SPAN, 1},
    {1, EDIT_IN_SPAN, 1}, {1, PLAN_IN_SPAN, 0}, {0, EDIT_IN_SPAN, 0},
};

/* Keeps M, and M0, which is M without room in cabinet 0. */
static const struct stage *stage_of_m(int edited)
{
    static struct stage of_m[2];
    static uint8_t sheets[2][EXAMPLE_LENGTH];
    struct stage *stage = &of_m[edited];
    struct run run;

    if (stage->input.sheet != NULL)
        return stage;
    stage->input.sheet = sheets[edited];
    stage->input.sheet_len = example_sheet(sheets[edited], edited);
    run = run_of(&stage->input, 0);
    stage->reading = read_sheet(&run);
    stage->planning = keep_plan(&run, &stage->reading, &stage->tables);
    return stage;
}

/* The entries of a table that the road needs. */
static size_t entries_of(const struct road *road)
{
    const uint64_t *counts = road->stages[0]->reading.counts;

    return (size_t)(counts[2] << counts[1]);
}

int shares_tables(const struct input *input)
{
    return input->choice[SPAN_ROADS] < 128;
}

/* True if there are entries between the spans. */
static int has_gap(const struct input *input)
{
    return input->choice[SPAN_ROADS] >> 1 & 1;
}

/* Puts the spans one behind the other as the input says, both longer than needed or just so. */
static void place_spans(const struct input *input, struct road *lower, struct road *upper)
{
    unsigned byte = input->choice[SPAN_ROADS];
    size_t gap = has_gap(input) ? 1 + (byte >> 5 & 3) : 0;
    size_t more = byte >> 3 & 3;
    size_t length;

    lower->span.first = input->choice[SPAN_FIRST] % MOST_LENGTH_ADDED;
    lower->span.number = entries_of(lower) + more;
    upper->span.first = lower->span.first + lower->span.number + gap;
    upper->span.number = entries_of(upper) + more;
    length = upper->span.first + upper->span.number;
    lower->span.costs_len = length + (byte >> 4 & 1);
    lower->span.choices_len = length + (byte >> 6 & 1);
    upper->span.costs_len = lower->span.costs_len;
    upper->span.choices_len = lower->span.choices_len;
}

/* Makes one of the calls: its road must then have what the stage has, and the other what it had. */
static void make_move(const struct run *run, const struct move *move, struct road *mover,
                      const struct road *other, const struct pair *pair)
{
    const struct stage *stage = mover->stages[move->stage];
    const struct tables *left = move->call == PLAN_IN_SPAN ? cleared_tables() : &stage->tables;
    struct request request = {move->call, mover->cabinet, &stage->reading, &mover->span};
    struct run moved = *run;

    moved.input = &stage->input;
    call_span(&moved, &request, pair, &mover->output, &stage->planning, left);
    require_places(&other->output, "one road's .. outputs .. are those of its own calls alone");
    if (move->call == EDIT_IN_SPAN)
        count_shared(&stage->planning);
}

/* The input's road, which was taken, and M, with an output for each. */
static void take_roads(const struct run *run, struct road roads[2])
{
    const uint64_t *counts = stages[PLAIN].reading.counts;
    size_t places = input_length(run->input, OUTPUT_LENGTH, (size_t)counts[1]);

    roads[0].stages[0] = &stages[PLAIN];
    roads[0].stages[1] = &stages[EDITED];
    roads[0].cabinet = edited_cabinet(run->input, (size_t)counts[2]);
    roads[1].stages[0] = stage_of_m(0);
    roads[1].stages[1] = stage_of_m(1);
    roads[1].cabinet = 0;
    roads[0].output = lend_output(run, OUTPUT, places);
    roads[1].output = lend_output(run, OTHER_OUTPUT, (size_t)roads[1].stages[0]->reading.counts[1]);
}

void share_tables(const struct run *run)
{
    unsigned byte = run->input->choice[SPAN_ROADS];
    int second = byte & 1;
    int swapped = byte >> 2 & 1;
    struct road roads[2];
    struct pair pair;
    size_t i;

    take_roads(run, roads);
    place_spans(run->input, &roads[second], &roads[1 - second]);
    pair = lend_pair(run, &roads[0].span);
    for (i = 0; i < sizeof moves / sizeof *moves; i++) {
        int mover = moves[i].road ^ swapped;

        make_move(run, &moves[i], &roads[mover], &roads[1 - mover], &pair);
    }
    count_roads(!second, has_gap(run->input), !swapped);
}

/* kept.c: gz_keep, gz_edit and the calls in spans on one input, and what the header says of them
 * together. */
#include "kept.h"

#include "chain.h"
#include "edits.h"
#include "keeper.h"
#include "require.h"
#include "sharing.h"
#include "spanned.h"
#include "strange.h"
#include "tally.h"

/* What is done beside keeping the road once. Of a large road that takes long, so that only one of
 * these is done, as the input says. */
enum turn { AGAIN, COPIED, DIRTY, SPANS, CHAIN, STRANGE, TURNS };

static void keep_as_found(const struct run *run, const struct reading *reading,
                          const struct planning *planning, struct tables *tables)
{
    struct planning keeping = keep_plan(run, reading, tables);

    require(same_planning(&keeping, planning),
            "gz_keep: Returns, tells and writes to the output exactly what gz_plan would");
}

/* Keeps the copy of an accepted sheet, which must come to the same tables. */
static void keep_copy(const struct run *run, const struct planning *planning,
                      const struct copy *copy, const struct tables *tables)
{
    static struct tables of_copy;
    struct input input;
    struct run copied = with_sheet(run, &input, copy->bytes, copy->length);
    struct reading reading = read_sheet(&copied);

    keep_as_found(&copied, &reading, planning, &of_copy);
    require(!is_taken(planning)
                || same_tables(tables, &of_copy,
                               (size_t)(reading.counts[2] << reading.counts[1])),
            "Kept tables hold the same for any two sheets whose records agree and which bar the "
            "same pairs");
}

/* Keeps the road where other things were held before, which must come to the same tables. */
static void keep_again(const struct run *run, const struct reading *reading,
                       const struct planning *planning, const struct tables *tables)
{
    static struct tables others;

    keep_as_found(run, reading, planning, &others);
    require(!is_taken(planning)
                || same_tables(tables, &others,
                               (size_t)(reading->counts[2] << reading->counts[1])),
            "gz_keep: What the tables hold before is of no matter");
}

/* True if it is the turn of these calls. On small roads it is that of most; the copy and tables
 * from elsewhere are for inputs that do not go far. */
static int is_turn(const struct run *run, const struct reading *reading, enum turn turn)
{
    if (is_large(reading))
        return turn == turn_of(run->input) % TURNS;
    return (turn != COPIED && turn != STRANGE) || !goes_far(run->input);
}

void keep_and_edit(const struct run *first, const struct run *second,
                   const struct reading *reading, const struct planning *planning,
                   const struct copy *copy)
{
    static struct tables tables;
    int swapped = turn_of(first->input) >= MOST_TURNS / 2;

    tally.met[KEEP][planning->number]++;
    keep_as_found(first, reading, planning, &tables);
    if (is_turn(first, reading, AGAIN))
        keep_again(second, reading, planning, &tables);
    if (is_turn(first, reading, COPIED) && reading->number == 0)
        keep_copy(second, planning, copy, &tables);
    if (is_turn(first, reading, DIRTY)) {
        edit_dirt(first, reading);
        edit_dirt(second, reading);
    }
    if (is_turn(first, reading, SPANS))
        call_spans(first, second, reading, planning, &tables);
    if (!is_taken(planning))
        return;
    begin_chain(first->input, reading, planning, &tables);
    if (is_turn(first, reading, CHAIN))
        run_chain(swapped ? second : first, swapped ? first : second);
    if (!is_large(reading) && shares_tables(first->input))
        share_tables(swapped ? first : second);
    if (is_turn(first, reading, STRANGE))
        edit_strange(first, second);
}

/* entries.c: what kept tables must hold, by the header's words. */
#include "entries.h"

#include <string.h>

#include "joints.h"
#include "layout.h"
#include "loads.h"
#include "require.h"

enum { CAPACITY = 1, PRICE = 2 };

/* A sheet that was taken, and which services are barred from each cabinet. */
struct road {
    const uint8_t *sheet;
    size_t r, s;
    size_t barred[MOST_CABINETS];
};

static struct road road_of(const uint8_t *sheet)
{
    struct road road = {sheet, count_of(sheet, SERVICES), count_of(sheet, CABINETS), {0}};
    size_t i;

    for (i = 0; i < count_of(sheet, BARRED); i++)
        road.barred[field_at(sheet, BARRED, i, 1)] |= (size_t)1 << field_at(sheet, BARRED, i, 0);
    return road;
}

/* What a set costs on this cabinet itself; NO_WAY if it is barred or has no room there. A joint has
 * room for the empty set alone. */
static uint64_t cost_on(const struct road *road, size_t cabinet, size_t set)
{
    uint64_t demand = 0;
    size_t i;

    for (i = 0; i < road->r; i++)
        if (set >> i & 1)
            demand += field_at(road->sheet, SERVICES, i, 0);
    if ((set & road->barred[cabinet]) != 0 || (set != 0 && is_joint(road->sheet, cabinet))
        || demand > field_at(road->sheet, CABINETS, cabinet, CAPACITY))
        return NO_WAY;
    return demand * field_at(road->sheet, CABINETS, cabinet, PRICE);
}

static void require_costs(const struct road *road, size_t cabinet, const uint64_t *row)
{
    int parent = has_child(road->sheet, cabinet);
    size_t set;

    require(row[0] == 0, "costs .. the least that it costs to place the set (the empty one)");
    for (set = 0; set < (size_t)1 << road->r; set++) {
        uint64_t here = cost_on(road, cabinet, set);

        require(row[set] <= NO_WAY, "A cost is at most 10^15; 10^15 + 1 stands where there is no "
                                    "way to place the set");
        require(parent ? row[set] <= here : row[set] == here,
                "costs  In the row of a cabinet: the least that it costs to place the set on this "
                "cabinet and all under it");
    }
}

/* The choices of a cabinet that has a parent, beside the costs of this. A set that can be placed
 * after some of the parent's children are joined can be placed after all are. */
static void require_choices(const struct road *road, const uint16_t *row, const uint64_t *parent)
{
    uint64_t most = 1;
    size_t set;
    size_t i;

    for (i = 0; i < road->r; i++)
        most *= 3;
    require(row[0] >= (size_t)1 << road->r && row[0] <= most,
            "how many splits this join weighed: pairs of a set and a part of it that can be placed "
            "before c");
    for (set = 1; set < (size_t)1 << road->r; set++) {
        require((row[set] & ~set) == 0, "In the row of c: what stays of the set");
        require(parent[set] != NO_WAY || row[set] == 0, "0 if there is no way to place the set");
    }
}

/* True if the cabinet is the first child that is joined to its parent. */
static int is_first_child(const struct road *road, size_t cabinet)
{
    size_t parent = field_at(road->sheet, CABINETS, cabinet, 0);
    size_t c = parent + 1;

    while (field_at(road->sheet, CABINETS, c, 0) != parent)
        c++;
    return c == cabinet;
}

/* How many sets have this one as a part. */
static uint64_t sets_around(const struct road *road, size_t set)
{
    uint64_t many = 1;
    size_t i;

    for (i = 0; i < road->r; i++)
        many *= set >> i & 1 ? 1 : 2;
    return many;
}

/* The choices of a first child: what stays does so on the parent alone, and on a joint nothing. */
static void require_first_choices(const struct road *road, size_t parent, const uint16_t *row)
{
    uint64_t splits = 0;
    size_t set;

    for (set = 0; set < (size_t)1 << road->r; set++) {
        if (cost_on(road, parent, set) != NO_WAY)
            splits += sets_around(road, set);
        require(set == 0 || cost_on(road, parent, row[set]) != NO_WAY,
                "what stays on the part of the road before c, which is its parent (there is no way "
                "to place it there)");
    }
    require(row[0] == splits,
            "how many splits this join weighed: pairs of a set and a part of it that can be placed "
            "before c (on the parent alone)");
}

static void require_rows(const struct road *road, const struct tables *tables)
{
    size_t c;
    size_t set;

    for (set = 0; set < (size_t)1 << road->r; set++)
        require(tables->choices[set] == 0, "The row of cabinet 0 is 0");
    require_costs(road, 0, tables->costs);
    for (c = 1; c < road->s; c++) {
        size_t parent = field_at(road->sheet, CABINETS, c, 0);

        require_costs(road, c, tables->costs + (c << road->r));
        require_choices(road, tables->choices + (c << road->r),
                        tables->costs + (parent << road->r));
        if (is_first_child(road, c))
            require_first_choices(road, parent, tables->choices + (c << road->r));
    }
}

/* What the links below a cabinet charge; NO_WAY if one is overfull. */
static uint64_t tolls_below(const struct road *road, size_t cabinet, const uint16_t *plan)
{
    struct loads loads;
    uint64_t tolls = 0;
    size_t c;
    int direction;

    reckon_loads(&loads, road->sheet, plan);
    for (c = cabinet + 1; c < road->s; c++)
        for (direction = UP; direction < DIRECTIONS && is_under(road->sheet, c, cabinet);
             direction++) {
            const struct load *load = &loads.of[c][direction];

            if (load_with(load, FRAMING) > capacity_of(road->sheet, c, direction))
                return NO_WAY;
            tolls += load->demand * price_of(road->sheet, c, direction);
        }
    return tolls;
}

/* What it costs to place a set on a cabinet and all under it as the choices tell, with all other
 * services on the root, which is never below; NO_WAY or more if that is not valid. */
static uint64_t cost_as_told(const struct road *road, const struct tables *tables, size_t cabinet,
                             size_t set)
{
    uint16_t plan[MOST_SERVICES] = {0};
    uint64_t cost = 0;
    size_t c;
    size_t i;

    follow_choices(tables, road->sheet, cabinet, set, plan);
    for (c = cabinet; c < road->s; c++) {
        size_t held = 0;

        for (i = 0; i < road->r; i++)
            if (set >> i & 1 && plan[i] == c)
                held |= (size_t)1 << i;
        cost += held == 0 ? 0 : cost_on(road, c, held);
    }
    return cost + tolls_below(road, cabinet, plan);
}

/* Places the set of one entry, which the input draws, as the choices tell. */
static void require_placing(const struct run *run, const struct road *road,
                            const struct tables *tables)
{
    size_t entry = word_at(run->input->choice, EDIT_ENTRY) % (road->s << road->r);
    size_t set = entry % ((size_t)1 << road->r);

    if (tables->costs[entry] != NO_WAY)
        require(tables->costs[entry] == cost_as_told(road, tables, entry >> road->r, set),
                "In the row of c: what stays of the set in the cheapest split (the costs tell "
                "another cost)");
}

void require_kept(const struct run *run, const struct planning *planning,
                  const struct tables *tables)
{
    struct road road = road_of(run->input->sheet);
    size_t all = ((size_t)1 << road.r) - 1;
    uint16_t plan[MOST_SERVICES] = {0};

    require_rows(&road, tables);
    require(tables->costs[all] == (planning->number == 0 ? planning->answer[1] : NO_WAY),
            "costs .. the least that it costs to place the set (all services, row 0)");
    require(splits_told(tables, road.r, road.s) == planning->answer[2],
            "The sum of these is the count that is told");
    follow_choices(tables, road.sheet, 0, all, plan);
    require(planning->number != 0 || memcmp(plan, planning->plan, sizeof plan) == 0,
            "In the row of c: what stays of the set in the cheapest split, and of several such in "
            "the one with the lowest cabinet for the first service");
    require_placing(run, &road, tables);
}

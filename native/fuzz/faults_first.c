/* faults_first.c: gz_plan, gz_keep and gz_edit with another of the cheapest plans than the first,
 * on purpose. */
#include <string.h>

#include "faults.h"
#include "lent.h"

/* True if a plan is to be written in place of the one held, which comes before it. */
typedef int (*prefers)(const uint16_t *plan, const uint16_t *held, size_t r);

static int costs_as_much(const struct plan *call, const uint16_t *plan, size_t r)
{
    uint64_t answer[2];
    struct check check = {call->sheet, plan, r, answer, 0};

    real_check(&check);
    return check.number == 0 && answer[1] == call->answer[1];
}

/* Writes the preferred one of the cheapest plans over the first, if the road has few. */
static void prefer(struct plan *call, prefers prefers)
{
    struct counts counts = counts_of(call->sheet);
    uint16_t plan[MOST_SERVICES];

    if (call->number != 0 || !has_few_plans(counts))
        return;
    memcpy(plan, call->output, counts.r * sizeof *plan);
    while (next_plan(plan, counts))
        if (prefers(plan, call->output, counts.r) && costs_as_much(call, plan, counts.r))
            memcpy(call->output, plan, counts.r * sizeof *plan);
}

static void plan_preferring(struct plan *call, prefers prefers)
{
    real_plan(call);
    prefer(call, prefers);
}

static int any_later(const uint16_t *plan, const uint16_t *held, size_t r)
{
    (void)plan;
    (void)held;
    (void)r;
    return 1;
}

static int lower_at_end(const uint16_t *plan, const uint16_t *held, size_t r)
{
    while (r > 0 && plan[r - 1] == held[r - 1])
        r--;
    return r > 0 && plan[r - 1] < held[r - 1];
}

static int same_but_last(const uint16_t *plan, const uint16_t *held, size_t r)
{
    return r > 0 && memcmp(plan, held, (r - 1) * sizeof *plan) == 0;
}

static int lower_after_first(const uint16_t *plan, const uint16_t *held, size_t r)
{
    size_t i = 1;

    while (i < r && plan[i] == held[i])
        i++;
    return i < r && plan[i] < held[i];
}

static int lower_sum(const uint16_t *plan, const uint16_t *held, size_t r)
{
    unsigned sums[2] = {0, 0};
    size_t i;

    for (i = 0; i < r; i++) {
        sums[0] += plan[i];
        sums[1] += held[i];
    }
    return sums[0] < sums[1];
}

static int exchanged(const uint16_t *plan, const uint16_t *held, size_t r)
{
    return r > 1 && plan[0] == held[r - 1] && plan[r - 1] == held[0]
           && memcmp(plan + 1, held + 1, (r - 2) * sizeof *plan) == 0;
}

static void plan_last(struct plan *call)
{
    plan_preferring(call, any_later);
}

static void plan_end_first(struct plan *call)
{
    plan_preferring(call, lower_at_end);
}

static void plan_without_last(struct plan *call)
{
    plan_preferring(call, same_but_last);
}

static void plan_without_first(struct plan *call)
{
    plan_preferring(call, lower_after_first);
}

static void plan_least_sum(struct plan *call)
{
    plan_preferring(call, lower_sum);
}

static void plan_exchanged(struct plan *call)
{
    plan_preferring(call, exchanged);
}

static void keep_last(struct plan *call)
{
    real_keep(call);
    prefer(call, any_later);
}

static void edit_last(struct edit *call)
{
    real_edit(call);
    prefer(&call->plan, any_later);
}

const struct fault first_faults[] = {
    {.what = "gz_plan writes the last of the cheapest plans", .plan = plan_last},
    {.what = "gz_plan takes service r - 1 as the first", .plan = plan_end_first},
    {.what = "gz_plan leaves service r - 1 out of the order", .plan = plan_without_last},
    {.what = "gz_plan leaves service 0 out of the order", .plan = plan_without_first},
    {.what = "gz_plan writes a cheapest plan with the least sum", .plan = plan_least_sum},
    {.what = "gz_plan exchanges services 0 and r - 1", .plan = plan_exchanged},
    {.what = "gz_keep writes the last of the cheapest plans", .keep = keep_last},
    {.what = "gz_edit writes the last of the cheapest plans", .edit = edit_last},
    {.what = NULL},
};

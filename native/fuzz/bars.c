/* bars.c: the barred pairs of a random sheet. */
#include "bars.h"

#include <string.h>

#include "input.h"

enum { MOST_PAIRS = 2000 };

static struct some draw_some(struct random *random, unsigned below)
{
    struct some some;

    some.first = random_below(random, below);
    some.many = 1 + random_below(random, below);
    return some;
}

static unsigned draw_one(struct random *random, struct some some, unsigned below)
{
    return (some.first + random_below(random, some.many)) % below;
}

static struct bars bar_none(unsigned r, unsigned s)
{
    struct bars bars;

    memset(&bars, 0, sizeof bars);
    bars.r = r;
    bars.s = s;
    return bars;
}

/* In rising order, in falling order, or mixed: the two primes divide no number of pairs. */
struct bars bar_all(struct random *random, unsigned r, unsigned s)
{
    const unsigned steps[4] = {1, 2 * r * s - 1, 7919, 104729};
    struct bars bars = bar_none(r, s);

    bars.has_block = 1;
    bars.all = 1;
    bars.pairs = r * s;
    bars.first = random_below(random, r * s);
    bars.step = steps[random_below(random, 4)];
    return bars;
}

/* Few pairs, or many. They repeat, and leave some services or cabinets free, so that many of them
 * do not bar every plan. */
static struct bars bar_some(struct random *random, unsigned r, unsigned s)
{
    unsigned large = random_below(random, 4096);
    struct bars bars = bar_none(r, s);

    bars.has_block = 1;
    bars.pairs = 1 + random_below(random, 5);
    if (large == 0)
        bars.pairs = MOST_PAIRS - random_below(random, 2);
    else if (large < 64)
        bars.pairs = random_below(random, 100);
    bars.services = draw_some(random, r);
    bars.cabinets = draw_some(random, s);
    return bars;
}

/* No block, no pair, every pair and perhaps the first of them again, or some; without a service
 * there is none to bar. */
struct bars draw_bars(struct random *random, unsigned r, unsigned s)
{
    struct bars bars = bar_none(r, s);

    bars.has_block = random_below(random, 3) > 0;
    if (!bars.has_block || r == 0 || random_once_in(random, 8))
        return bars;
    if (!random_once_in(random, 16))
        return bar_some(random, r, s);
    bars = bar_all(random, r, s);
    if (bars.pairs + 3 <= MOST_PAIRS)
        bars.pairs += random_below(random, 4);
    return bars;
}

void write_pair(struct random *random, const struct bars *bars, unsigned number, uint8_t *at)
{
    unsigned pair = bars->first + number * bars->step;

    if (bars->all) {
        put_word(at, 0, pair / bars->s % bars->r);
        put_word(at, 2, pair % bars->s);
    } else {
        put_word(at, 0, draw_one(random, bars->services, bars->r));
        put_word(at, 2, draw_one(random, bars->cabinets, bars->s));
    }
}

/* links.c: the links of a random sheet, made for a plan. */
#include "links.h"

#include "layout.h"
#include "loads.h"

enum { MOST_AMOUNT = 10000 };

/* Mostly the load, else 1 or 2 less. */
static unsigned fit(struct random *random, uint64_t load)
{
    uint64_t missing = random_once_in(random, 4) ? 1 + random_below(random, 2) : 0;

    if (load < missing)
        return 0;
    return load - missing < MOST_AMOUNT ? (unsigned)(load - missing) : MOST_AMOUNT;
}

void fit_links(struct random *random, uint8_t *bytes, const uint16_t *words)
{
    uint16_t plan[MOST_SERVICES];
    size_t s = count_of(bytes, CABINETS);
    struct loads loads;
    size_t i;
    int direction;

    for (i = 0; i < count_of(bytes, SERVICES); i++)
        plan[i] = (uint16_t)(words[i] % s);
    reckon_loads(&loads, bytes, plan);
    for (i = 1; i < s; i++)
        for (direction = UP; direction < DIRECTIONS; direction++)
            put_word(bytes, place_of(bytes, CABINETS, i, capacity_field[direction]),
                     fit(random, load_with(&loads.of[i][direction], FRAMING)));
}

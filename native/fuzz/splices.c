/* splices.c: the joints of a random sheet. */
#include "splices.h"

#include "input.h"
#include "joints.h"
#include "layout.h"

/* Which cabinets become joints: those that stand in one of the three ways, or one of these. */
enum { ANYWHERE = STANDS, EVERYWHERE, CHOICES_OF_JOINTS };

enum { DEMAND = 0, CAPACITY = 1 };

/* True if the cabinet is to be a joint; anywhere, every other one is. */
static int becomes_joint(struct random *random, const uint8_t *bytes, size_t cabinet,
                         unsigned which)
{
    if (which == ANYWHERE)
        return random_once_in(random, 2);
    return which == EVERYWHERE || which == (unsigned)stand_of(bytes, cabinet);
}

void splice(struct random *random, uint8_t *bytes)
{
    unsigned which = random_below(random, CHOICES_OF_JOINTS);
    size_t i;

    for (i = 0; i < count_of(bytes, CABINETS); i++)
        if (becomes_joint(random, bytes, i, which))
            put_word(bytes, place_of(bytes, CABINETS, i, CAPACITY), 0);
    for (i = 0; i < count_of(bytes, SERVICES); i++)
        if (random_once_in(random, 2))
            put_word(bytes, place_of(bytes, SERVICES, i, DEMAND), 0);
}

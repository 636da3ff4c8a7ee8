/* tariffs.c: the tariff of a random input. */
#include "tariffs.h"

/* Few cents, a rate about which a tax is rounded otherwise, the limit, past it, or any figure. */
static unsigned draw_figure(struct random *random)
{
    static const unsigned rates[8] = {1, 2, 499, 500, 501, 998, 999, 1000};

    switch (random_below(random, 8)) {
    case 0:
        return random_below(random, 4);
    case 1:
        return rates[random_below(random, 8)];
    case 2:
        return FIRST_LIMIT;
    case 3:
        return FIRST_LIMIT + random_below(random, 8);
    default:
        return random_below(random, FIRST_LIMIT);
    }
}

/* A net of a few cents, and about half of it for the tax. */
static void draw_half(struct random *random, uint8_t choice[CHOICES])
{
    put_word(choice, BLOCK_PRICE, random_below(random, 2));
    put_word(choice, SLOT_PRICE, random_below(random, 2));
    put_word(choice, TAX_RATE, 499 + random_below(random, 3));
}

void draw_tariff(struct random *random, uint8_t choice[CHOICES])
{
    put_word(choice, BLOCK_PRICE, draw_figure(random));
    put_word(choice, SLOT_PRICE, draw_figure(random));
    put_word(choice, TAX_RATE, draw_figure(random));
    if (random_once_in(random, 16))
        draw_half(random, choice);
}

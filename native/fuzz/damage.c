/* damage.c: blind damage to a sheet, near the limits of the header. */
#include "damage.h"

#include <string.h>

#include "damage_fourth.h"
#include "input.h"
#include "layout.h"

/* Any byte at which a word can start; every other time in the header. */
static size_t draw_place(struct random *random, size_t length)
{
    if (random_once_in(random, 2) && length >= HEADER)
        return 2 * random_below(random, HEADER / 2);
    return random_below(random, (unsigned)(length - 1));
}

static void flip_bits(struct random *random, uint8_t *bytes, size_t length)
{
    unsigned flips = 1 + random_below(random, 3);

    while (flips-- > 0)
        bytes[random_below(random, (unsigned)length)] ^= (uint8_t)(1u << random_below(random, 8));
}

static void set_word(struct random *random, uint8_t *bytes, size_t length)
{
    static const unsigned limits[16] = {0,  1,   2,   3,   9,     10,    11,    15,
                                        16, 100, 101, 200, 201, 10000, 10001, 65535};
    unsigned word = limits[random_below(random, 16)];

    if (random_once_in(random, 4))
        word = (unsigned)length - random_below(random, 3) + 1;
    put_word(bytes, draw_place(random, length), word);
}

static void swap_words(struct random *random, uint8_t *bytes, size_t length)
{
    size_t one = draw_place(random, length);
    size_t other = draw_place(random, length);
    unsigned word = word_at(bytes, one);

    put_word(bytes, one, word_at(bytes, other));
    put_word(bytes, other, word);
}

/* Sets a block's offset to another block's, or a few bytes beside it. */
static void move_block(struct random *random, uint8_t *bytes, size_t length)
{
    size_t from = offset_word[random_below(random, BLOCKS)];
    size_t to = offset_word[random_below(random, BLOCKS)];

    if (length >= HEADER)
        put_word(bytes, to, word_at(bytes, from) + random_below(random, 9) - 4u);
}

/* Cuts or lengthens, every other time with the length word. */
static size_t change_length(struct random *random, uint8_t *bytes, size_t length)
{
    size_t changed = random_below(random, (unsigned)length + 1);

    if (random_once_in(random, 2))
        changed = length + 1 + random_below(random, 8);
    if (random_once_in(random, 64))
        changed = MOST_DAMAGED - random_below(random, 32);
    if (changed > MOST_DAMAGED)
        changed = MOST_DAMAGED;
    if (changed > length)
        memset(bytes + length, 0, changed - length);
    if (random_once_in(random, 2) && changed >= HEADER)
        put_word(bytes, LENGTH_WORD, (unsigned)changed);
    return changed;
}

size_t damage_sheet(struct random *random, uint8_t *bytes, size_t length)
{
    unsigned ways = 1 + random_below(random, 3) / 2 + random_below(random, 3) / 2;

    while (ways-- > 0 && length >= 2)
        switch (random_below(random, 12)) {
        case 0:
        case 1:
            flip_bits(random, bytes, length);
            break;
        case 2:
        case 3:
        case 4:
            set_word(random, bytes, length);
            break;
        case 5:
            swap_words(random, bytes, length);
            break;
        case 6:
            move_block(random, bytes, length);
            break;
        case 7:
            length = change_length(random, bytes, length);
            break;
        default:
            if (length >= HEADER)
                length = damage_fourth(random, bytes, length);
        }
    return length;
}

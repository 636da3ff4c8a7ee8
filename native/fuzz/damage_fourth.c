/* damage_fourth.c: damage to the fourth block of a sheet, near each of its limits. */
#include "damage_fourth.h"

#include <string.h>

#include "input.h"
#include "layout.h"

enum { MOST_PAIRS = 2000, LONGEST = 65535, ROOT_LINKS = 3, LINK_BYTES = 8 };

/* True if the first word of the fourth block lies within the sheet, after the header. */
static int has_count(const uint8_t *bytes, size_t length)
{
    return offset_of(bytes, BARRED) >= HEADER && offset_of(bytes, BARRED) + 2 <= length;
}

/* Lets the block start at this byte. Every other time it gets a small count there, whatever the
 * bytes belong to. */
static void start_at(struct random *random, uint8_t *bytes, size_t length, size_t start)
{
    put_word(bytes, offset_word[BARRED], (unsigned)start);
    if (has_count(bytes, length) && random_once_in(random, 2))
        put_word(bytes, offset_of(bytes, BARRED), random_below(random, 3));
}

/* A byte just before or behind the start or the end of another block. */
static size_t draw_edge(struct random *random, const uint8_t *bytes)
{
    int block = (int)random_below(random, BARRED);
    size_t edge = random_once_in(random, 2) ? offset_of(bytes, block) : end_of(bytes, block);

    return edge + random_below(random, 12) - 10;
}

/* A byte of the root's link fields, which are 0 and so a count of 0. */
static size_t draw_root_link(struct random *random, const uint8_t *bytes)
{
    return place_of(bytes, CABINETS, 0, ROOT_LINKS) + random_below(random, LINK_BYTES);
}

/* Sets the count to a limit, or so that the block ends at the sheet's end or behind it. */
static void change_count(struct random *random, uint8_t *bytes, size_t length)
{
    unsigned counts[8] = {0, 1, MOST_PAIRS, MOST_PAIRS + 1, 16384, 65535, 0, 0};

    if (!has_count(bytes, length))
        return;
    counts[6] = (unsigned)(length - offset_of(bytes, BARRED) - 2) / 4;
    counts[7] = counts[6] + 1;
    put_word(bytes, offset_of(bytes, BARRED), counts[random_below(random, 8)]);
}

/* Sets a field of the last pair, or of any, to a limit. */
static void change_pair(struct random *random, uint8_t *bytes, size_t length)
{
    unsigned limits[4] = {0, 65535, word_at(bytes, 0), word_at(bytes, 2)};
    unsigned word = limits[random_below(random, 4)];
    size_t field = random_below(random, 2);
    size_t number;

    if (!has_count(bytes, length) || count_of(bytes, BARRED) == 0
        || end_of(bytes, BARRED) > length)
        return;
    number = count_of(bytes, BARRED) - 1;
    if (random_once_in(random, 2))
        number = random_below(random, (unsigned)number + 1);
    put_word(bytes, place_of(bytes, BARRED, number, field), word);
}

/* Adds a block behind the sheet, mostly of one pair too many, else of as many as there may be.
 * Some share a byte with what lies before, or end past the sheet. */
static size_t add_pairs(struct random *random, uint8_t *bytes, size_t length)
{
    size_t start = length - random_once_in(random, 4);
    unsigned pairs = MOST_PAIRS + !random_once_in(random, 32);
    size_t end = start + 2 + 4 * (size_t)pairs - random_once_in(random, 4);

    if (start < HEADER || end > LONGEST)
        return length;
    memset(bytes + length, 0, end - length);
    put_word(bytes, start, pairs);
    put_word(bytes, offset_word[BARRED], (unsigned)start);
    put_word(bytes, LENGTH_WORD, (unsigned)end);
    return end;
}

/* Makes the sheet almost as long as its length word can say, with the block near its end: the
 * block may end past the largest word. */
static size_t lengthen(struct random *random, uint8_t *bytes, size_t length)
{
    size_t longer = LONGEST - random_below(random, 8);
    size_t start = longer - random_below(random, random_once_in(random, 2) ? 16 : 4 * MOST_PAIRS);

    if (length > longer)
        return length;
    memset(bytes + length, 0, longer - length);
    put_word(bytes, LENGTH_WORD, (unsigned)longer);
    put_word(bytes, offset_word[BARRED], (unsigned)start);
    if (has_count(bytes, longer))
        put_word(bytes, start, random_below(random, random_once_in(random, 2) ? 4 : MOST_PAIRS));
    return longer;
}

size_t damage_fourth(struct random *random, uint8_t *bytes, size_t length)
{
    switch (random_below(random, 16)) {
    case 0:
        return random_once_in(random, 2) ? add_pairs(random, bytes, length)
                                         : lengthen(random, bytes, length);
    case 1:
    case 2:
        start_at(random, bytes, length, random_below(random, HEADER + 1));
        break;
    case 3:
    case 4:
        start_at(random, bytes, length, length + 2 - random_below(random, 12));
        break;
    case 5:
    case 6:
        start_at(random, bytes, length, draw_root_link(random, bytes));
        break;
    case 7:
    case 8:
    case 9:
        start_at(random, bytes, length, draw_edge(random, bytes));
        break;
    case 10:
    case 11:
        change_count(random, bytes, length);
        break;
    default:
        change_pair(random, bytes, length);
    }
    return length;
}

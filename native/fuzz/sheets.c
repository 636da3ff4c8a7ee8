/* sheets.c: random sheets that keep every rule of the header. */
#include "sheets.h"

#include <string.h>

#include "bars.h"
#include "input.h"
#include "layout.h"
#include "links.h"
#include "splices.h"

enum { MOST_AMOUNT = 10000, NO_PARENT = 65535 };
enum { CAPACITY = 1, UP_CAPACITY = 3, DOWN_CAPACITY = 5, CABINET_FIELDS = 7 };
enum { MOST_ROOM = 7 };

/* The numbers of records, and what amounts and barred pairs are like. */
struct road {
    unsigned count[BLOCKS];
    unsigned most;  /* amounts are at most this */
    unsigned room;  /* about how many demands a cabinet's capacity is made for */
    unsigned width; /* the same for a link */
    int fitted;     /* links are made for a plan instead, and cabinets have room */
    int blocks;     /* streams about fill blocks of a bill, and cabinets have room */
    unsigned shape; /* of the tree */
    struct bars bars;
};

/* Mostly few services and cabinets: time grows with 3^r and with s. */
static void draw_counts(struct random *random, struct road *road)
{
    unsigned large = random_below(random, 8192);

    road->count[SERVICES] = random_below(random, 5);
    road->count[CABINETS] = 1 + random_below(random, 6);
    if (large == 0) {
        road->count[SERVICES] = 10;
        road->count[CABINETS] = 200;
    } else if (large < 16) {
        road->count[SERVICES] = 5 + random_below(random, 6);
    } else if (large < 48) {
        road->count[CABINETS] = 200 - random_below(random, 2) * random_below(random, 200);
    }
    road->count[STREAMS] = 0;
    if (road->count[SERVICES] > 1)
        road->count[STREAMS] = random_below(random, random_once_in(random, 64) ? 101 : 5);
}

/* As many records of each kind as there may be, and every pair: the longest copy. */
static void draw_longest(struct random *random, struct road *road)
{
    road->count[SERVICES] = 10;
    road->count[CABINETS] = 200;
    road->count[STREAMS] = 100;
    road->bars = bar_all(random, 10, 200);
}

static void draw_road(struct random *random, struct road *road)
{
    static const unsigned most[8] = {1, 2, 4, 4, 9, 100, MOST_AMOUNT, MOST_AMOUNT};

    draw_counts(random, road);
    road->bars = draw_bars(random, road->count[SERVICES], road->count[CABINETS]);
    if (random_once_in(random, 8192))
        draw_longest(random, road);
    road->count[BARRED] = road->bars.pairs;
    road->most = most[random_below(random, 8)];
    road->fitted = random_once_in(random, 2);
    road->blocks = random_once_in(random, 8);
    road->room = road->fitted || road->blocks ? MOST_ROOM : random_below(random, MOST_ROOM + 1);
    road->width = random_below(random, 8);
    road->shape = random_below(random, 4);
}

static unsigned draw_amount(struct random *random, const struct road *road)
{
    switch (random_below(random, 8)) {
    case 0:
        return 0;
    case 1:
        return road->most;
    default:
        return random_below(random, road->most + 1);
    }
}

/* With framing one less than a block, a block, one more, or as much as a link can carry. */
static unsigned draw_block(struct random *random)
{
    static const unsigned demands[4] = {97, 98, 99, 9998};

    return demands[random_below(random, 4)];
}

static unsigned draw_capacity(struct random *random, const struct road *road, unsigned demands)
{
    unsigned capacity = 0;
    unsigned i;

    if (random_once_in(random, 16))
        return random_once_in(random, 2) ? 0 : MOST_AMOUNT;
    for (i = random_below(random, 3); i < demands; i++)
        capacity += draw_amount(random, road);
    return capacity < MOST_AMOUNT ? capacity : MOST_AMOUNT;
}

/* A star, a chain, or a tree whose branches interleave. */
static unsigned draw_parent(struct random *random, const struct road *road, unsigned cabinet)
{
    if (road->shape == 0)
        return 0;
    return road->shape == 1 ? cabinet - 1 : random_below(random, cabinet);
}

static void write_cabinet(struct random *random, const struct road *road, unsigned cabinet,
                          uint8_t *at)
{
    unsigned fields = cabinet == 0 ? UP_CAPACITY : CABINET_FIELDS;
    unsigned i;

    memset(at, 0, 2 * CABINET_FIELDS);
    put_word(at, 0, cabinet == 0 ? NO_PARENT : draw_parent(random, road, cabinet));
    for (i = 1; i < fields; i++)
        if (i == CAPACITY)
            put_word(at, 2 * i, draw_capacity(random, road, road->room));
        else if (i == UP_CAPACITY || i == DOWN_CAPACITY)
            put_word(at, 2 * i,
                     road->blocks ? MOST_AMOUNT : draw_capacity(random, road, road->width));
        else
            put_word(at, 2 * i, draw_amount(random, road));
}

static void write_stream(struct random *random, const struct road *road, uint8_t *at)
{
    unsigned from = random_below(random, road->count[SERVICES]);
    unsigned to = random_below(random, road->count[SERVICES] - 1);

    put_word(at, 0, from);
    put_word(at, 2, to < from ? to : to + 1);
    put_word(at, 4, road->blocks ? draw_block(random) : draw_amount(random, road));
}

/* The records of a sheet that has its header. */
static void write_records(struct random *random, const struct road *road, uint8_t *bytes)
{
    unsigned i;

    for (i = 0; i < road->count[SERVICES]; i++)
        put_word(bytes, place_of(bytes, SERVICES, i, 0), draw_amount(random, road));
    for (i = 0; i < road->count[CABINETS]; i++)
        write_cabinet(random, road, i, bytes + place_of(bytes, CABINETS, i, 0));
    for (i = 0; i < road->count[STREAMS]; i++)
        write_stream(random, road, bytes + place_of(bytes, STREAMS, i, 0));
    for (i = 0; i < road->count[BARRED]; i++)
        write_pair(random, &road->bars, i, bytes + place_of(bytes, BARRED, i, 0));
}

static size_t draw_gap(struct random *random)
{
    return random_once_in(random, 4) ? random_below(random, 6) : 0;
}

static size_t size_of(const struct road *road, unsigned block)
{
    size_t records = 2 * fields_of[block] * road->count[block];

    return block == BARRED && road->bars.has_block ? 2 + records : records;
}

/* The blocks in any order. */
static void draw_order(struct random *random, unsigned order[BLOCKS])
{
    unsigned i;

    for (i = 0; i < BLOCKS; i++) {
        unsigned place = random_below(random, i + 1);
        order[i] = i;
        order[i] = order[place];
        order[place] = i;
    }
}

/* Lays the blocks one after the other in any order with gaps; a block of no bytes lies anywhere.
 * Gives the length of the sheet. */
static size_t draw_layout(struct random *random, const struct road *road, size_t offset[BLOCKS])
{
    size_t length = HEADER + draw_gap(random);
    unsigned order[BLOCKS];
    unsigned i;

    draw_order(random, order);
    for (i = 0; i < BLOCKS; i++) {
        offset[order[i]] = length;
        length += size_of(road, order[i]) + draw_gap(random);
    }
    for (i = 0; i < BLOCKS; i++)
        if (size_of(road, i) == 0)
            offset[i] = HEADER + random_below(random, (unsigned)(length - HEADER + 1));
    if (!road->bars.has_block)
        offset[BARRED] = 0;
    return length;
}

static void write_header(const struct road *road, uint8_t *bytes, size_t length,
                         const size_t offset[BLOCKS])
{
    unsigned i;

    for (i = 0; i < BARRED; i++)
        put_word(bytes, 2 * i, road->count[i]);
    for (i = 0; i < BLOCKS; i++)
        put_word(bytes, offset_word[i], (unsigned)offset[i]);
    put_word(bytes, LENGTH_WORD, (unsigned)length);
    if (road->bars.has_block)
        put_word(bytes, offset[BARRED], road->count[BARRED]);
}

size_t draw_sheet(struct random *random, uint8_t *bytes, const uint16_t *words)
{
    struct road road;
    size_t offset[BLOCKS];
    size_t length;

    draw_road(random, &road);
    length = draw_layout(random, &road, offset);
    memset(bytes, random_once_in(random, 2) ? 0 : 255, length);
    write_header(&road, bytes, length, offset);
    write_records(random, &road, bytes);
    if (random_once_in(random, 4))
        splice(random, bytes);
    if (road.fitted)
        fit_links(random, bytes, words);
    return length;
}

/* dearest.c: an input with the dearest bill that there can be: every service has the highest demand
 * and a cabinet of its own, and two streams between the ends of a chain fill every direction. */
#include "dearest.h"

#include "input.h"
#include "layout.h"
#include "lent.h"
#include "loads.h"

enum { MOST_AMOUNT = 10000, NO_PARENT = 65535, FIELDS = 7, ONE_SHORT = 4 };
enum { DEAREST_STREAMS = 2 };

/* Puts words one after the other, and gives the byte behind them. */
static size_t put_words(uint8_t *bytes, size_t at, const unsigned *words, size_t many)
{
    size_t i;

    for (i = 0; i < many; i++)
        put_word(bytes, at + 2 * i, words[i]);
    return at + 2 * many;
}

static size_t write_services(uint8_t *sheet, size_t at)
{
    static const unsigned demand = MOST_AMOUNT;
    int i;

    for (i = 0; i < MOST_SERVICES; i++)
        at = put_words(sheet, at, &demand, 1);
    return at;
}

static size_t write_cabinets(uint8_t *sheet, size_t at)
{
    unsigned c;

    for (c = 0; c < MOST_CABINETS; c++) {
        unsigned link = c == 0 ? 0 : MOST_AMOUNT;
        unsigned parent = c == 0 ? NO_PARENT : c - 1;
        unsigned cabinet[FIELDS] = {parent, MOST_AMOUNT, 1, link, 0, link, 0};

        at = put_words(sheet, at, cabinet, FIELDS);
    }
    return at;
}

/* Gives the length of the sheet. */
static size_t write_sheet(uint8_t *sheet)
{
    static const unsigned streams[3 * DEAREST_STREAMS] = {0, 1, MOST_AMOUNT - FRAMING,
                                                          1, 0, MOST_AMOUNT - FRAMING};
    size_t cabinets_at = write_services(sheet, HEADER);
    size_t streams_at = write_cabinets(sheet, cabinets_at);
    size_t length = put_words(sheet, streams_at, streams, 3 * DEAREST_STREAMS);
    unsigned header[HEADER / 2] = {MOST_SERVICES, MOST_CABINETS, DEAREST_STREAMS, HEADER,
                                   (unsigned)cabinets_at, (unsigned)streams_at,
                                   (unsigned)length, 0};

    put_words(sheet, 0, header, HEADER / 2);
    return length;
}

size_t draw_dearest(struct random *random, uint8_t *bytes)
{
    unsigned plan[MOST_SERVICES] = {MOST_CABINETS - 1, 0, 1, 2, 3, 4, 5, 6, 7, 8};
    size_t length = write_sheet(bytes + CHOICES);

    bytes[OUTPUT_LENGTH] = ONE_SHORT;
    bytes[PLAN_LENGTH] = 0;
    bytes[DRAWING] = 0;
    bytes[TAIL] = MOST_SERVICES;
    if (random_once_in(random, 2)) {
        put_word(bytes, BLOCK_PRICE, FIRST_LIMIT);
        put_word(bytes, SLOT_PRICE, FIRST_LIMIT);
        put_word(bytes, TAX_RATE, FIRST_LIMIT);
    }
    return put_words(bytes, CHOICES + length, plan, MOST_SERVICES);
}

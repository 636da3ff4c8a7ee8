/* copy.c: the tidy copy of a sheet, by the header's words. */
#include "copy.h"

#include <string.h>

#include "layout.h"

/* Adds the records of one of the first three blocks, as they stand in the sheet. */
static void add_block(struct copy *copy, const uint8_t *sheet, int block)
{
    size_t bytes = end_of(sheet, block) - offset_of(sheet, block);

    put_word(copy->bytes, 2 * (size_t)block, (unsigned)count_of(sheet, block));
    put_word(copy->bytes, offset_word[block], (unsigned)copy->length);
    memcpy(copy->bytes + copy->length, sheet + offset_of(sheet, block), bytes);
    copy->length += bytes;
}

/* Marks the pairs that the sheet bars, however often each stands there. */
static void mark_pairs(const uint8_t *sheet, uint8_t marks[MOST_SERVICES][MOST_CABINETS])
{
    size_t i;

    for (i = 0; i < count_of(sheet, BARRED); i++)
        marks[field_at(sheet, BARRED, i, 0)][field_at(sheet, BARRED, i, 1)] = 1;
}

/* Adds the pairs marked, in order. Gives how many there are. */
static unsigned add_marked(struct copy *copy, const uint8_t *sheet,
                           uint8_t marks[MOST_SERVICES][MOST_CABINETS])
{
    unsigned pairs = 0;
    unsigned service;
    unsigned cabinet;

    for (service = 0; service < count_of(sheet, SERVICES); service++)
        for (cabinet = 0; cabinet < count_of(sheet, CABINETS); cabinet++)
            if (marks[service][cabinet]) {
                put_word(copy->bytes, copy->length, service);
                put_word(copy->bytes, copy->length + 2, cabinet);
                copy->length += 4;
                pairs++;
            }
    return pairs;
}

static void add_pairs(struct copy *copy, const uint8_t *sheet)
{
    uint8_t marks[MOST_SERVICES][MOST_CABINETS];

    copy->pairs_at = copy->length;
    put_word(copy->bytes, offset_word[BARRED], 0);
    if (count_of(sheet, BARRED) == 0)
        return;
    memset(marks, 0, sizeof marks);
    mark_pairs(sheet, marks);
    put_word(copy->bytes, offset_word[BARRED], (unsigned)copy->pairs_at);
    copy->length += 2;
    put_word(copy->bytes, copy->pairs_at, add_marked(copy, sheet, marks));
}

void copy_tidy(struct copy *copy, const uint8_t *sheet)
{
    int block;

    copy->length = HEADER;
    for (block = 0; block < BARRED; block++)
        add_block(copy, sheet, block);
    add_pairs(copy, sheet);
    put_word(copy->bytes, LENGTH_WORD, (unsigned)copy->length);
}

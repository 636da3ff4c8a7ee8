/* spliced.c: roads whose joints are others than those of the sheet, for libraries that are wrong on
 * purpose. */
#include "spliced.h"

#include <string.h>

#include "gazrieksne.h"
#include "input.h"
#include "joints.h"
#include "layout.h"

enum { PARENT = 0, CAPACITY = 1, PRICE = 2 };

/* Which services are barred from each cabinet, a bit a service. */
struct bans {
    unsigned of[MOST_CABINETS];
};

int no_joint(const uint8_t *sheet, size_t cabinet)
{
    (void)sheet;
    (void)cabinet;
    return 0;
}

int only_root(const uint8_t *sheet, size_t cabinet)
{
    return is_joint(sheet, cabinet) && cabinet == 0;
}

int but_root(const uint8_t *sheet, size_t cabinet)
{
    return is_joint(sheet, cabinet) && cabinet != 0;
}

int but_middle(const uint8_t *sheet, size_t cabinet)
{
    return is_joint(sheet, cabinet) && stand_of(sheet, cabinet) != IN_MIDDLE;
}

int but_leaves(const uint8_t *sheet, size_t cabinet)
{
    return is_joint(sheet, cabinet) && stand_of(sheet, cabinet) != AT_LEAF;
}

int of_price_zero(const uint8_t *sheet, size_t cabinet)
{
    return field_at(sheet, CABINETS, cabinet, PRICE) == 0;
}

int of_capacity_one(const uint8_t *sheet, size_t cabinet)
{
    return field_at(sheet, CABINETS, cabinet, CAPACITY) <= 1;
}

int under_joint(const uint8_t *sheet, size_t cabinet)
{
    while (cabinet > 0 && !is_joint(sheet, cabinet))
        cabinet = field_at(sheet, CABINETS, cabinet, PARENT);
    return is_joint(sheet, cabinet);
}

static void take_bans(struct bans *bans, const uint8_t *sheet)
{
    size_t i;

    memset(bans, 0, sizeof *bans);
    for (i = 0; i < count_of(sheet, BARRED); i++)
        bans->of[field_at(sheet, BARRED, i, 1)] |= 1u << field_at(sheet, BARRED, i, 0);
}

/* Bars the services that have a demand from the cabinet. */
static void ban_demand(struct bans *bans, const uint8_t *sheet, size_t cabinet)
{
    size_t i;

    for (i = 0; i < count_of(sheet, SERVICES); i++)
        if (field_at(sheet, SERVICES, i, 0) > 0)
            bans->of[cabinet] |= 1u << i;
}

/* Puts the pairs behind the other blocks of a tidy copy, and gives the length of the sheet. */
static size_t put_bans(uint8_t *sheet, const struct bans *bans)
{
    size_t start = end_of(sheet, STREAMS);
    size_t at = start + 2;
    size_t c;
    size_t i;

    for (c = 0; c < count_of(sheet, CABINETS); c++)
        for (i = 0; i < count_of(sheet, SERVICES); i++)
            if (bans->of[c] >> i & 1) {
                put_word(sheet, at, (unsigned)i);
                put_word(sheet, at + 2, (unsigned)c);
                at += 4;
            }
    put_word(sheet, start, (unsigned)(at - start) / 4);
    put_word(sheet, offset_word[BARRED], (unsigned)start);
    put_word(sheet, LENGTH_WORD, (unsigned)at);
    return at;
}

struct sheet spliced(struct sheet sheet, splices *splices)
{
    static uint8_t copy[GZ_LONGEST_COPY];
    uint64_t answer[2];
    struct tidy tidy = {sheet, copy, sizeof copy, answer, 0};
    struct sheet made = {copy, 0};
    struct bans bans;
    size_t c;

    real_tidy(&tidy);
    take_bans(&bans, copy);
    for (c = 0; c < count_of(copy, CABINETS); c++) {
        size_t capacity = place_of(copy, CABINETS, c, CAPACITY);

        if (splices(sheet.bytes, c)) {
            put_word(copy, capacity, 0);
        } else if (is_joint(copy, c)) {
            put_word(copy, capacity, 1);
            ban_demand(&bans, copy, c);
        }
    }
    made.length = put_bans(copy, &bans);
    return made;
}

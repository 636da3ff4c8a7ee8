/* edits.c: which cabinet an input edits, and what its record becomes. */
#include "edits.h"

#include "layout.h"

enum { MOST_AMOUNT = 10000, FIRST_FIELD = 1, FIRST_LINK_FIELD = 3, FIELDS = 7 };

/* The upper two bits of the byte that says which fields change. */
enum { ANY_WORDS = 3 };

size_t edited_cabinet(const struct input *input, size_t s)
{
    return input->choice[EDIT_CABINET] % s;
}

size_t other_cabinet(const struct input *input, size_t s)
{
    size_t steps = s > 1 ? 1 + input->choice[EDIT_OTHER] % (s - 1) : 0;

    return (edited_cabinet(input, s) + steps) % s;
}

/* The next numbers, some that are small if cut to 8 or 16 bits, one that is 0 if multiplied by 4,
 * and the highest. */
size_t cabinet_outside(const struct input *input, size_t s)
{
    const size_t numbers[8] = {s, s + 1, 256, 65535, 65536, 65537, SIZE_MAX / 4 + 1, SIZE_MAX};

    return numbers[input->choice[EDIT_NUMBER] % 8];
}

unsigned turn_of(const struct input *input)
{
    return input->choice[EDIT_TURN] % MOST_TURNS;
}

int goes_far(const struct input *input)
{
    return turn_of(input) % 2 == 1;
}

/* An amount beside the one that stands there, or another one. */
static unsigned next_amount(unsigned amount, unsigned of_other, unsigned way, unsigned word)
{
    switch (way % 8) {
    case 0:
        return 0;
    case 1:
        return MOST_AMOUNT;
    case 2:
        return amount + 1;
    case 3:
        return amount > 0 ? amount - 1 : 1;
    case 4:
        return amount / 2;
    case 5:
        return 2 * amount;
    case 6:
        return of_other;
    default:
        return word % (MOST_AMOUNT + 1);
    }
}

/* Changes the fields that the bits tell within the limits, each in the way that the word says. */
static void edit_amounts(uint8_t *sheet, size_t cabinet, size_t other, unsigned bits, unsigned word)
{
    size_t fields = cabinet == 0 ? FIRST_LINK_FIELD : FIELDS;
    size_t i;

    for (i = FIRST_FIELD; i < fields; i++)
        if (bits >> (i - FIRST_FIELD) & 1) {
            unsigned amount = next_amount(field_at(sheet, CABINETS, cabinet, i),
                                          field_at(sheet, CABINETS, other, i), word >> 2 * i, word);
            put_word(sheet, place_of(sheet, CABINETS, cabinet, i),
                     amount < MOST_AMOUNT ? amount : MOST_AMOUNT);
        }
}

void edit_record(const struct input *input, uint8_t *sheet, size_t cabinet)
{
    unsigned bits = input->choice[EDIT_FIELDS];
    unsigned word = word_at(input->choice, EDIT_AMOUNT);
    size_t i;

    if (bits >> 6 != ANY_WORDS) {
        edit_amounts(sheet, cabinet, other_cabinet(input, count_of(sheet, CABINETS)), bits, word);
        return;
    }
    for (i = FIRST_FIELD; i < FIELDS; i++)
        if (bits >> (i - FIRST_FIELD) & 1)
            put_word(sheet, place_of(sheet, CABINETS, cabinet, i), word);
}

void edit_other(const struct input *input, uint8_t *sheet, size_t cabinet)
{
    unsigned bits = input->choice[EDIT_OTHER];
    unsigned word = word_at(input->choice, EDIT_ENTRY);

    edit_amounts(sheet, cabinet, edited_cabinet(input, count_of(sheet, CABINETS)), bits, word);
}

void edit_parent(const struct input *input, uint8_t *sheet, size_t cabinet)
{
    if (cabinet > 0)
        put_word(sheet, place_of(sheet, CABINETS, cabinet, 0),
                 (unsigned)(word_at(input->choice, EDIT_ENTRY) % cabinet));
}

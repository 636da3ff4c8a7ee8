/* input.h: how the bytes of an input say what is lent to the calls.
 *
 * An input is thirty-two bytes of choices, the sheet, and a tail of 16-bit words for plans.
 *   byte 0 to 4  the lengths of the planner's output, costs, choices, plan and the tidy copy's
 *                output, each beside the length needed
 *   byte 5       where each piece lies, a bit a piece; the ninth has the bit of the first
 *   byte 6       what outputs and tables hold before
 *   byte 7       how the words of the tail become cabinets
 *   byte 8       how many words the tail has, modulo 16
 *   byte 9       how many places there are for the lines of a bill, beside those needed
 *   byte 10, 12 and 14: words for the tariff's block price, slot price and tax rate
 *   byte 16 and 17: which cabinet is edited, and which other one beside it
 *   byte 18      which fields of its record change, a bit a field, and whether within the limits
 *   byte 19      which number of no cabinet is given to gz_edit
 *   byte 20      how tables come to be wrong
 *   byte 21      which of the calls that take long are made
 *   byte 22 and 24: words for what the fields become and for an entry of the tables
 *   byte 26      which call is made in a span, and how many entries the tables have before that
 *   byte 27      how many entries the span has, beside those needed
 *   byte 28 and 29: the lengths of the costs and the choices, beside the end of the span
 *   byte 30      whether the span is cut, or moved to the end of the tables or far from them
 *   byte 31      how the spans of two roads lie, which road is first, and whether there are two
 * Zeros before a sheet are an input: all lengths as needed, a plan of zeros, a tariff of zeros, an
 * edit of cabinet 0 that changes nothing, and a span that is all of the tables. */
#ifndef INPUT_H
#define INPUT_H

#include <stddef.h>
#include <stdint.h>

enum { MOST_LENGTH_ADDED = 32 };
enum {
    OUTPUT_LENGTH,
    COSTS_LENGTH,
    CHOICES_LENGTH,
    PLAN_LENGTH,
    COPY_LENGTH,
    PLACES,
    DIRT,
    DRAWING,
    TAIL,
    LINES_LENGTH,
    BLOCK_PRICE,
    SLOT_PRICE = BLOCK_PRICE + 2,
    TAX_RATE = SLOT_PRICE + 2,
    EDIT_CABINET = TAX_RATE + 2,
    EDIT_OTHER,
    EDIT_FIELDS,
    EDIT_NUMBER,
    EDIT_WAY,
    EDIT_TURN,
    EDIT_AMOUNT,
    EDIT_ENTRY = EDIT_AMOUNT + 2,
    SPAN_FIRST = EDIT_ENTRY + 2,
    SPAN_NUMBER,
    SPAN_COSTS,
    SPAN_CHOICES,
    SPAN_WAY,
    SPAN_ROADS,
    CHOICES
};

/* A word for the tariff is a figure within the limit if it is below this one; from here on it is
 * the limit or, seven times in eight, a figure above it. */
enum { FIRST_LIMIT = 32768 };

struct input {
    uint8_t choice[CHOICES];
    const uint8_t *sheet;
    size_t sheet_len;
    const uint8_t *tail;
    size_t tail_words;
};

void input_take_apart(struct input *input, const uint8_t *data, size_t size);

/* The word that starts at this byte, low byte first. */
uint16_t word_at(const uint8_t *bytes, size_t at);

/* Puts a word at this byte, low byte first. */
void put_word(uint8_t *bytes, size_t at, unsigned word);

/* The length that a choice of lengths gives, where `needed` would be right. */
size_t input_length(const struct input *input, int choice, size_t needed);

/* The figure of the tariff that a word of choices gives. */
uint64_t input_figure(const struct input *input, int choice, uint64_t limit);

/* A word of the tail, which repeats; 0 if there is none. */
uint16_t input_word(const struct input *input, size_t number);

/* The cabinet that a plan to be checked gives to a service; not always one of the s there are. */
uint16_t input_cabinet(const struct input *input, size_t service, uint64_t s);

#endif

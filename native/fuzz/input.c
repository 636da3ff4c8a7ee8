/* input.c: how the bytes of an input say what is lent to the calls. */
#include "input.h"

#include <string.h>

void input_take_apart(struct input *input, const uint8_t *data, size_t size)
{
    size_t choices = size < CHOICES ? size : CHOICES;
    size_t rest = size - choices;

    memset(input->choice, 0, CHOICES);
    if (choices > 0)
        memcpy(input->choice, data, choices);
    input->tail_words = input->choice[TAIL] % 16;
    if (input->tail_words > rest / 2)
        input->tail_words = rest / 2;
    input->sheet = data + choices;
    input->sheet_len = rest - 2 * input->tail_words;
    input->tail = input->sheet + input->sheet_len;
}

uint16_t word_at(const uint8_t *bytes, size_t at)
{
    return (uint16_t)(bytes[at] + 256 * bytes[at + 1]);
}

void put_word(uint8_t *bytes, size_t at, unsigned word)
{
    bytes[at] = (uint8_t)(word % 256);
    bytes[at + 1] = (uint8_t)(word / 256 % 256);
}

size_t input_length(const struct input *input, int choice, size_t needed)
{
    uint8_t byte = input->choice[choice];
    size_t few = byte / 8;

    switch (byte % 8) {
    case 4:
        return needed > 0 ? needed - 1 : 0;
    case 5:
        return needed + 1 + few;
    case 6:
        return few;
    case 7:
        return needed / 2;
    default:
        return needed;
    }
}

/* Above the limit are the next figures, some that would be small if cut to 16 or 32 bits, and some
 * that are below 0 if signed. */
uint64_t input_figure(const struct input *input, int choice, uint64_t limit)
{
    const uint64_t from_limit[8] = {limit,
                                    limit + 1,
                                    limit + 2,
                                    (uint64_t)1 << 16,
                                    (uint64_t)1 << 32,
                                    ((uint64_t)1 << 32) + limit,
                                    (uint64_t)1 << 63,
                                    UINT64_MAX};
    uint16_t word = word_at(input->choice, (size_t)choice);

    return word < FIRST_LIMIT ? word % (limit + 1) : from_limit[word % 8];
}

uint16_t input_word(const struct input *input, size_t number)
{
    if (input->tail_words == 0)
        return 0;
    return word_at(input->tail, 2 * (number % input->tail_words));
}

uint16_t input_cabinet(const struct input *input, size_t service, uint64_t s)
{
    uint64_t cabinets = s > 0 ? s : 1;

    switch (input->choice[DRAWING] % 8) {
    case 5:
        return (uint16_t)(input_word(input, service) % (cabinets + 1));
    case 6:
        return input_word(input, service);
    case 7:
        return (uint16_t)(input_word(input, 0) % cabinets);
    default:
        return (uint16_t)(input_word(input, service) % cabinets);
    }
}

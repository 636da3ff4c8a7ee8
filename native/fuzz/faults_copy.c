/* faults_copy.c: gz_tidy with another copy than the tidy one, on purpose. */
#include <stdlib.h>
#include <string.h>

#include "faults.h"
#include "input.h"
#include "layout.h"
#include "lent.h"

enum { PAIR_BYTES = 4, STREAM_BYTES = 6 };

/* The copy that is given in place of the right one. */
static uint8_t made[MOST_SHEET];
static size_t made_len;

/* Makes the right copy, whatever output was lent. */
static void make_right(const struct tidy *call)
{
    uint64_t answer[2];
    struct tidy aside = {call->sheet, made, sizeof made, answer, 0};

    real_tidy(&aside);
    made_len = (size_t)answer[1];
}

/* Gives the copy made, or 21 if it is longer than the output. */
static void give(struct tidy *call)
{
    int fits = made_len <= call->output_len;

    if (fits)
        memcpy(call->output, made, made_len);
    call->number = fits ? 0 : 21;
    call->answer[0] = fits ? 0 : 2;
    call->answer[1] = fits ? made_len : 0;
}

/* Gives the right copy of an accepted sheet as this change leaves it. */
static void tidy_changed(struct tidy *call, void (*change)(struct sheet sheet))
{
    if (counts_of(call->sheet).number != 0) {
        real_tidy(call);
        return;
    }
    make_right(call);
    change(call->sheet);
    give(call);
}

/* Sets the length of the copy made, and its length word. */
static void set_length(size_t length)
{
    made_len = length;
    put_word(made, LENGTH_WORD, (unsigned)length);
}

/* Compares two records of so many words by the first one in which they differ. */
static int compare_words(const void *one, const void *other, size_t words)
{
    size_t at = 0;

    while (at < 2 * words && word_at(one, at) == word_at(other, at))
        at += 2;
    return at < 2 * words ? word_at(one, at) - word_at(other, at) : 0;
}

static int compare_pairs(const void *one, const void *other)
{
    return compare_words(one, other, 2);
}

static int compare_cabinets(const void *one, const void *other)
{
    int cabinets = compare_words((const uint8_t *)one + 2, (const uint8_t *)other + 2, 1);

    return cabinets != 0 ? cabinets : compare_words(one, other, 1);
}

static int compare_streams(const void *one, const void *other)
{
    return compare_words(one, other, 3);
}

/* Sorts the records of a block of the copy made. */
static void sort(int block, size_t bytes, int (*compare)(const void *one, const void *other))
{
    qsort(made + place_of(made, block, 0, 0), count_of(made, block), bytes, compare);
}

/* Puts all pairs of the sheet into the copy made, as they stand there. */
static void take_pairs(struct sheet sheet)
{
    size_t pairs = count_of(sheet.bytes, BARRED);

    if (pairs == 0)
        return;
    put_word(made, offset_of(made, BARRED), (unsigned)pairs);
    memcpy(made + place_of(made, BARRED, 0, 0), sheet.bytes + place_of(sheet.bytes, BARRED, 0, 0),
           PAIR_BYTES * pairs);
    set_length(end_of(made, BARRED));
}

static void keep_repeats(struct sheet sheet)
{
    take_pairs(sheet);
    sort(BARRED, PAIR_BYTES, compare_pairs);
}

/* True if the pair is one of the first so many. */
static int is_among(const uint8_t *pair, const uint8_t *pairs, size_t many)
{
    size_t i;

    for (i = 0; i < many; i++)
        if (compare_pairs(pairs + PAIR_BYTES * i, pair) == 0)
            return 1;
    return 0;
}

/* Each pair where it first stands in the sheet. */
static void keep_order(struct sheet sheet)
{
    uint8_t *pairs = made + place_of(made, BARRED, 0, 0);
    size_t all = count_of(sheet.bytes, BARRED);
    size_t kept = 0;
    size_t i;

    if (all == 0)
        return;
    take_pairs(sheet);
    for (i = 0; i < all; i++)
        if (!is_among(pairs + PAIR_BYTES * i, pairs, kept))
            memmove(pairs + PAIR_BYTES * kept++, pairs + PAIR_BYTES * i, PAIR_BYTES);
    put_word(made, offset_of(made, BARRED), (unsigned)kept);
    set_length(end_of(made, BARRED));
}

static void order_by_cabinet(struct sheet sheet)
{
    (void)sheet;
    sort(BARRED, PAIR_BYTES, compare_cabinets);
}

static void sort_streams(struct sheet sheet)
{
    (void)sheet;
    sort(STREAMS, STREAM_BYTES, compare_streams);
}

static void leave_gap(struct sheet sheet)
{
    size_t cabinets = offset_of(made, CABINETS);
    int block;

    (void)sheet;
    memmove(made + cabinets + 1, made + cabinets, made_len - cabinets);
    for (block = CABINETS; block < BLOCKS; block++)
        if (offset_of(made, block) != 0)
            put_word(made, offset_word[block], (unsigned)offset_of(made, block) + 1);
    set_length(made_len + 1);
}

static void add_empty_block(struct sheet sheet)
{
    (void)sheet;
    if (offset_of(made, BARRED) != 0)
        return;
    put_word(made, offset_word[BARRED], (unsigned)made_len);
    put_word(made, made_len, 0);
    set_length(made_len + 2);
}

static void set_eighth(struct sheet sheet)
{
    (void)sheet;
    if (offset_of(made, BARRED) == 0)
        put_word(made, offset_word[BARRED], (unsigned)made_len);
}

static void keep_length_word(struct sheet sheet)
{
    put_word(made, LENGTH_WORD, word_at(sheet.bytes, LENGTH_WORD));
}

static void keep_empty_offset(struct sheet sheet)
{
    if (count_of(made, STREAMS) == 0)
        put_word(made, offset_word[STREAMS], (unsigned)offset_of(sheet.bytes, STREAMS));
}

static void keep_bytes(struct sheet sheet)
{
    memcpy(made, sheet.bytes, sheet.length);
    made_len = sheet.length;
}

static void tidy_repeats(struct tidy *call)
{
    tidy_changed(call, keep_repeats);
}

static void tidy_unsorted(struct tidy *call)
{
    tidy_changed(call, keep_order);
}

static void tidy_by_cabinet(struct tidy *call)
{
    tidy_changed(call, order_by_cabinet);
}

static void tidy_sorts_streams(struct tidy *call)
{
    tidy_changed(call, sort_streams);
}

static void tidy_gap(struct tidy *call)
{
    tidy_changed(call, leave_gap);
}

static void tidy_empty_block(struct tidy *call)
{
    tidy_changed(call, add_empty_block);
}

static void tidy_eighth(struct tidy *call)
{
    tidy_changed(call, set_eighth);
}

static void tidy_length_word(struct tidy *call)
{
    tidy_changed(call, keep_length_word);
}

static void tidy_empty_offset(struct tidy *call)
{
    tidy_changed(call, keep_empty_offset);
}

static void tidy_nothing(struct tidy *call)
{
    tidy_changed(call, keep_bytes);
}

const struct fault copy_faults[] = {
    {.what = "gz_tidy keeps repeats of a pair", .tidy = tidy_repeats},
    {.what = "gz_tidy leaves the pairs in the sheet's order", .tidy = tidy_unsorted},
    {.what = "gz_tidy orders the pairs by cabinet first", .tidy = tidy_by_cabinet},
    {.what = "gz_tidy sorts the streams", .tidy = tidy_sorts_streams},
    {.what = "gz_tidy leaves a gap before the cabinets", .tidy = tidy_gap},
    {.what = "gz_tidy writes a block of no pairs", .tidy = tidy_empty_block},
    {.what = "gz_tidy writes an eighth word other than 0 without pairs", .tidy = tidy_eighth},
    {.what = "gz_tidy keeps the sheet's length word", .tidy = tidy_length_word},
    {.what = "gz_tidy keeps the offset of an empty block", .tidy = tidy_empty_offset},
    {.what = "gz_tidy copies the sheet as it is", .tidy = tidy_nothing},
    {.what = NULL},
};

/* faults_fourth.c: faults of all calls at once, which take the fourth block for another one. */
#include <string.h>

#include "faults.h"
#include "input.h"
#include "layout.h"

enum { MOST_PAIRS = 2000, LARGEST_WORD = 65535, LINK_FIELDS = 3 };

/* A copy of a sheet that gets 18. */
static struct sheet copy_refused(struct sheet sheet)
{
    struct sheet copy = copy_sheet(sheet);

    put_word(other_sheet, offset_word[BARRED], 1);
    return copy;
}

/* A copy of a sheet that gets 19 for a pair behind all else. */
static struct sheet copy_wrong_pair(struct sheet sheet)
{
    struct sheet copy = copy_sheet(sheet);

    copy.length += 6;
    put_word(other_sheet, LENGTH_WORD, (unsigned)copy.length);
    put_word(other_sheet, offset_word[BARRED], (unsigned)sheet.length);
    put_word(other_sheet, sheet.length, 1);
    memset(other_sheet + sheet.length + 2, 255, 4);
    return copy;
}

/* True if the sheet is accepted and has a fourth block. */
static int has_fourth(struct sheet sheet)
{
    return counts_of(sheet).number == 0 && offset_of(sheet.bytes, BARRED) != 0;
}

/* True if the sheet gets 18, but not for the place of the fourth block's first word. */
static int is_refused_later(struct sheet sheet)
{
    return counts_of(sheet).number == 18 && offset_of(sheet.bytes, BARRED) >= HEADER
           && offset_of(sheet.bytes, BARRED) + 2 <= sheet.length;
}

/* True if the sheet gets 18 only because the fourth block shares a byte with another. */
static int is_refused_last(struct sheet sheet)
{
    return is_refused_later(sheet) && count_of(sheet.bytes, BARRED) <= MOST_PAIRS
           && end_of(sheet.bytes, BARRED) <= sheet.length;
}

/* The same, and it shares one with no block but this one. */
static int shares_only(struct sheet sheet, int block)
{
    int other;

    if (!is_refused_last(sheet))
        return 0;
    for (other = 0; other < BARRED; other++)
        if (share_byte(sheet.bytes, BARRED, other) != (other == block))
            return 0;
    return 1;
}

static struct sheet answer_2(struct sheet sheet)
{
    struct sheet other = copy_sheet(sheet);

    if (sheet.length >= HEADER && offset_of(sheet.bytes, BARRED) != 0)
        put_word(other_sheet, 0, 11);
    return other;
}

static struct sheet answer_4(struct sheet sheet)
{
    struct sheet other = copy_sheet(sheet);

    if (counts_of(sheet).number == 18)
        put_word(other_sheet, offset_word[SERVICES], 0);
    return other;
}

static struct sheet answer_5(struct sheet sheet)
{
    struct sheet other = copy_sheet(sheet);

    if (is_refused_last(sheet) && count_of(sheet.bytes, SERVICES) > 0)
        put_word(other_sheet, offset_word[SERVICES], (unsigned)offset_of(sheet.bytes, CABINETS));
    return other;
}

static struct sheet answer_before_9(struct sheet sheet)
{
    struct sheet other = copy_sheet(sheet);

    if (counts_of(sheet).number == 9)
        memset(other_sheet + place_of(sheet.bytes, CABINETS, 0, LINK_FIELDS), 0, 8);
    return counts_of(other).number == 18 ? other : sheet;
}

static struct sheet answer_after_19(struct sheet sheet)
{
    size_t pairs = is_refused_last(sheet) ? count_of(sheet.bytes, BARRED) : 0;
    size_t i;

    for (i = 0; i < pairs; i++)
        if (field_at(sheet.bytes, BARRED, i, 0) >= count_of(sheet.bytes, SERVICES))
            return copy_wrong_pair(sheet);
    return sheet;
}

static struct sheet ignore_fourth(struct sheet sheet)
{
    return sheet.length >= HEADER ? copy_unbarred(sheet) : sheet;
}

static struct sheet allow_in_header(struct sheet sheet)
{
    return sheet.length >= HEADER && offset_of(sheet.bytes, BARRED) < HEADER ? copy_unbarred(sheet)
                                                                            : sheet;
}

static struct sheet allow_no_count(struct sheet sheet)
{
    return counts_of(sheet).number == 18 && offset_of(sheet.bytes, BARRED) + 2 > sheet.length
               ? copy_unbarred(sheet)
               : sheet;
}

static struct sheet allow_end_past(struct sheet sheet)
{
    struct sheet other = copy_sheet(sheet);

    if (is_refused_later(sheet) && end_of(sheet.bytes, BARRED) == sheet.length + 1) {
        other_sheet[other.length++] = 0;
        put_word(other_sheet, LENGTH_WORD, (unsigned)other.length);
    }
    return other;
}

static struct sheet allow_end_wrapped(struct sheet sheet)
{
    return is_refused_later(sheet) && count_of(sheet.bytes, BARRED) <= MOST_PAIRS
                   && end_of(sheet.bytes, BARRED) > LARGEST_WORD
               ? copy_unbarred(sheet)
               : sheet;
}

static struct sheet allow_2001(struct sheet sheet)
{
    struct sheet other = copy_sheet(sheet);

    if (is_refused_later(sheet) && count_of(sheet.bytes, BARRED) == MOST_PAIRS + 1)
        put_word(other_sheet, offset_of(sheet.bytes, BARRED), MOST_PAIRS);
    return other;
}

static struct sheet refuse_2000(struct sheet sheet)
{
    return counts_of(sheet).pairs == MOST_PAIRS ? copy_refused(sheet) : sheet;
}

static struct sheet allow_in_services(struct sheet sheet)
{
    return shares_only(sheet, SERVICES) ? copy_unbarred(sheet) : sheet;
}

static struct sheet allow_in_cabinets(struct sheet sheet)
{
    return shares_only(sheet, CABINETS) ? copy_unbarred(sheet) : sheet;
}

static struct sheet allow_in_streams(struct sheet sheet)
{
    return shares_only(sheet, STREAMS) ? copy_unbarred(sheet) : sheet;
}

static struct sheet allow_empty_inside(struct sheet sheet)
{
    return is_refused_later(sheet) && count_of(sheet.bytes, BARRED) == 0 ? copy_unbarred(sheet)
                                                                        : sheet;
}

static struct sheet refuse_touching(struct sheet sheet)
{
    int block;

    for (block = 0; block < BARRED && has_fourth(sheet); block++)
        if (count_of(sheet.bytes, block) > 0
            && (end_of(sheet.bytes, block) == offset_of(sheet.bytes, BARRED)
                || end_of(sheet.bytes, BARRED) == offset_of(sheet.bytes, block)))
            return copy_refused(sheet);
    return sheet;
}

static struct sheet refuse_around_empty(struct sheet sheet)
{
    int block;

    for (block = 0; block < BARRED && has_fourth(sheet); block++)
        if (count_of(sheet.bytes, block) == 0
            && offset_of(sheet.bytes, block) > offset_of(sheet.bytes, BARRED)
            && offset_of(sheet.bytes, block) < end_of(sheet.bytes, BARRED))
            return copy_refused(sheet);
    return sheet;
}

static struct sheet allow_service_below_s(struct sheet sheet)
{
    struct sheet other = copy_sheet(sheet);
    size_t pairs = counts_of(sheet).number == 19 ? count_of(sheet.bytes, BARRED) : 0;
    size_t i;

    for (i = 0; i < pairs; i++)
        if (field_at(sheet.bytes, BARRED, i, 0) < count_of(sheet.bytes, CABINETS))
            put_word(other_sheet, place_of(sheet.bytes, BARRED, i, 0), 0);
    return other;
}

static struct sheet refuse_cabinet_from_r(struct sheet sheet)
{
    struct sheet other = copy_sheet(sheet);
    struct counts counts = counts_of(sheet);
    size_t i;

    for (i = 0; i < counts.pairs; i++)
        if (field_at(sheet.bytes, BARRED, i, 1) >= counts.r)
            put_word(other_sheet, place_of(sheet.bytes, BARRED, i, 1), LARGEST_WORD);
    return other;
}

static struct sheet allow_last_pair(struct sheet sheet)
{
    struct sheet other = copy_sheet(sheet);

    if (counts_of(sheet).number == 19)
        memset(other_sheet + end_of(sheet.bytes, BARRED) - 4, 0, 4);
    return other;
}

static struct sheet refuse_repeated(struct sheet sheet)
{
    struct sheet other = copy_sheet(sheet);
    size_t pairs = counts_of(sheet).pairs;
    size_t i;

    for (i = 0; i + 1 < pairs; i++)
        if (memcmp(sheet.bytes + place_of(sheet.bytes, BARRED, i, 0),
                   sheet.bytes + place_of(sheet.bytes, BARRED, pairs - 1, 0), 4) == 0)
            put_word(other_sheet, place_of(sheet.bytes, BARRED, i, 0), LARGEST_WORD);
    return other;
}

const struct fault fourth_faults[] = {
    {.what = "all calls answer 2 for an eighth word that is not 0", .sheet = answer_2},
    {.what = "all calls answer 4 for 18", .sheet = answer_4},
    {.what = "all calls answer 5 for 18", .sheet = answer_5},
    {.what = "all calls answer 18 before 9", .sheet = answer_before_9},
    {.what = "all calls answer 18 after 19", .sheet = answer_after_19},
    {.what = "all calls take any eighth word for 0", .sheet = ignore_fourth},
    {.what = "all calls take an eighth word below 16 for 0", .sheet = allow_in_header},
    {.what = "all calls accept a fourth block without its first word", .sheet = allow_no_count},
    {.what = "all calls accept a fourth block that ends a byte late", .sheet = allow_end_past},
    {.what = "all calls keep 16 bits of the fourth block's end", .sheet = allow_end_wrapped},
    {.what = "all calls accept 2,001 pairs", .sheet = allow_2001},
    {.what = "all calls refuse 2,000 pairs", .sheet = refuse_2000},
    {.what = "all calls accept a fourth block in the services", .sheet = allow_in_services},
    {.what = "all calls accept a fourth block in the cabinets", .sheet = allow_in_cabinets},
    {.what = "all calls accept a fourth block in the streams", .sheet = allow_in_streams},
    {.what = "all calls let a block of no pairs have no byte", .sheet = allow_empty_inside},
    {.what = "all calls refuse a fourth block that touches another", .sheet = refuse_touching},
    {.what = "all calls refuse a fourth block around an empty one", .sheet = refuse_around_empty},
    {.what = "all calls accept a pair's service below s", .sheet = allow_service_below_s},
    {.what = "all calls refuse a pair's cabinet from r on", .sheet = refuse_cabinet_from_r},
    {.what = "all calls accept any last pair", .sheet = allow_last_pair},
    {.what = "all calls refuse a pair that stands twice", .sheet = refuse_repeated},
    {.what = NULL},
};

/* faults_sheet.c: faults of all calls at once, which take the sheet for another one. */
#include <string.h>

#include "faults.h"
#include "input.h"
#include "layout.h"

static struct sheet ignore_length(struct sheet sheet)
{
    struct sheet other = copy_sheet(sheet);

    if (counts_of(sheet).number == 3)
        put_word(other_sheet, 12, (unsigned)sheet.length);
    return other;
}

static struct sheet ignore_empty_block(struct sheet sheet)
{
    struct sheet other = copy_sheet(sheet);

    if (counts_of(sheet).number == 4 && word_at(sheet.bytes, 4) == 0)
        put_word(other_sheet, 10, 16);
    return other;
}

/* An empty block of streams inside the cabinets: the services are moved there instead. */
static struct sheet refuse_empty_inside(struct sheet sheet)
{
    struct sheet other = copy_sheet(sheet);
    struct counts counts = counts_of(sheet);

    if (counts.r > 0 && counts.q == 0
        && offset_of(sheet.bytes, STREAMS) > offset_of(sheet.bytes, CABINETS)
        && offset_of(sheet.bytes, STREAMS) < end_of(sheet.bytes, CABINETS))
        put_word(other_sheet, 6, word_at(sheet.bytes, 8));
    return other;
}

static struct sheet allow_10001(struct sheet sheet)
{
    struct sheet other = copy_sheet(sheet);
    size_t i;

    if (counts_of(sheet).number == 6)
        for (i = 16; i + 1 < sheet.length; i++)
            if (word_at(sheet.bytes, i) == 10001)
                put_word(other_sheet, i, 10000);
    return other;
}

static struct sheet allow_parents(struct sheet sheet)
{
    struct sheet other = copy_sheet(sheet);

    if (counts_of(sheet).number == 7)
        set_cabinets(sheet, 1, 0, 0);
    return other;
}

static struct sheet allow_same_ends(struct sheet sheet)
{
    struct sheet other = copy_sheet(sheet);
    size_t streams = counts_of(sheet).number == 8 ? word_at(sheet.bytes, 4) : 0;
    size_t i;

    for (i = 0; i < streams; i++) {
        size_t from = field_at(sheet.bytes, STREAMS, i, 0);
        if (field_at(sheet.bytes, STREAMS, i, 1) == from)
            put_word(other_sheet, place_of(sheet.bytes, STREAMS, i, 1), from == 0);
    }
    return other;
}

static struct sheet allow_root_link(struct sheet sheet)
{
    struct sheet other = copy_sheet(sheet);

    if (counts_of(sheet).number == 9)
        memset(other_sheet + place_of(sheet.bytes, CABINETS, 0, 3), 0, 8);
    return other;
}

static struct sheet refuse_streams(struct sheet sheet)
{
    struct sheet other = copy_sheet(sheet);

    if (counts_of(sheet).q > 2)
        put_word(other_sheet, place_of(sheet.bytes, STREAMS, 0, 0), 65535);
    return other;
}

const struct fault sheet_faults[] = {
    {.what = "all calls accept any length word", .sheet = ignore_length},
    {.what = "all calls accept any place of an empty block", .sheet = ignore_empty_block},
    {.what = "all calls refuse an empty block inside another", .sheet = refuse_empty_inside},
    {.what = "all calls accept an amount of 10,001", .sheet = allow_10001},
    {.what = "all calls accept any parent", .sheet = allow_parents},
    {.what = "all calls accept a stream with one end", .sheet = allow_same_ends},
    {.what = "all calls accept a link above the root", .sheet = allow_root_link},
    {.what = "all calls refuse more than two streams", .sheet = refuse_streams},
    {.what = NULL},
};

/* faults_reader.c: gz_read and the record calls, wrong on purpose. */
#include "faults.h"
#include "input.h"
#include "layout.h"

static void read_past(struct read *call)
{
    seen = call->sheet.bytes[call->sheet.length];
    real_read(call);
}

static void read_before(struct read *call)
{
    seen = *(call->sheet.bytes - 1);
    real_read(call);
}

static void read_sixth(struct read *call)
{
    real_read(call);
    call->counts[5] = 0;
}

static void read_writes_sheet(struct read *call)
{
    real_read(call);
    if (call->number == 0)
        ((uint8_t *)call->sheet.bytes)[call->sheet.length - 1] ^= 1;
}

static void read_unwritten(struct read *call)
{
    uint64_t held = call->counts[3];

    real_read(call);
    if (call->number == 7)
        call->counts[3] = held;
}

static void read_counts_refused(struct read *call)
{
    real_read(call);
    if (call->number == 6)
        call->counts[1] = word_at(call->sheet.bytes, 0) + 1u;
}

static void read_group(struct read *call)
{
    real_read(call);
    if (call->number == 9)
        call->counts[0] = 2;
}

static void read_swapped(struct read *call)
{
    uint64_t s;

    real_read(call);
    s = call->counts[2];
    call->counts[2] = call->counts[3];
    call->counts[3] = s;
}

static void read_number(struct read *call)
{
    real_read(call);
    if (call->number == 1)
        call->number = 10;
}

static void read_no_pairs(struct read *call)
{
    real_read(call);
    call->counts[4] = 0;
}

static void read_pairs_unwritten(struct read *call)
{
    uint64_t held = call->counts[4];

    real_read(call);
    if (call->counts[4] == 0)
        call->counts[4] = held;
}

static void read_pairs_once(struct read *call)
{
    const uint8_t *sheet = call->sheet.bytes;
    size_t i;

    real_read(call);
    for (i = 1; i < call->counts[4]; i++)
        if (field_at(sheet, BARRED, i, 0) == field_at(sheet, BARRED, 0, 0)
            && field_at(sheet, BARRED, i, 1) == field_at(sheet, BARRED, 0, 1))
            call->counts[4]--;
}

static void read_pairs_refused(struct read *call)
{
    real_read(call);
    if (call->number == 19)
        call->counts[4] = count_of(call->sheet.bytes, BARRED);
}

static void read_group_fourth(struct read *call)
{
    real_read(call);
    if (call->number == 18)
        call->counts[0] = 4;
}

static void read_past_fourth(struct read *call)
{
    if (call->sheet.length >= HEADER)
        seen = word_at(call->sheet.bytes, offset_of(call->sheet.bytes, BARRED));
    real_read(call);
}

static void service_past(struct record *call)
{
    real_service(call);
    if (call->number == 0 && call->which == counts_of(call->sheet).r)
        call->number = 1;
}

static void cabinet_touched(struct record *call)
{
    real_cabinet(call);
    if (call->number == 0)
        call->record[6] = 0;
}

static void stream_swapped(struct record *call)
{
    uint64_t from;

    real_stream(call);
    from = call->record[0];
    if (call->number == 1) {
        call->record[0] = call->record[1];
        call->record[1] = from;
    }
}

static void barred_swapped(struct record *call)
{
    uint64_t service;

    real_barred(call);
    service = call->record[0];
    if (call->number == 1) {
        call->record[0] = call->record[1];
        call->record[1] = service;
    }
}

static void barred_touched(struct record *call)
{
    real_barred(call);
    if (call->number == 0)
        call->record[0] = 0;
}

static void barred_past(struct record *call)
{
    real_barred(call);
    if (call->number == 0 && call->which == counts_of(call->sheet).pairs)
        call->number = 1;
}

static void barred_wrapped(struct record *call)
{
    call->which %= 65536;
    real_barred(call);
}

static void barred_first(struct record *call)
{
    if (call->which < counts_of(call->sheet).pairs)
        call->which = 0;
    real_barred(call);
}

static void barred_refused(struct record *call)
{
    real_barred(call);
    if (counts_of(call->sheet).number == 19)
        call->number = 1;
}

const struct fault reader_faults[] = {
    {.what = "gz_read reads the byte after the sheet", .read = read_past},
    {.what = "gz_read reads the byte before the sheet", .read = read_before},
    {.what = "gz_read writes a sixth count", .read = read_sixth},
    {.what = "gz_read changes the sheet", .read = read_writes_sheet},
    {.what = "gz_read leaves q unwritten with 7", .read = read_unwritten},
    {.what = "gz_read tells r with 6", .read = read_counts_refused},
    {.what = "gz_read tells the lender's group with 9", .read = read_group},
    {.what = "gz_read tells s and q the wrong way round", .read = read_swapped},
    {.what = "gz_read answers 10 for 1", .read = read_number},
    {.what = "gz_read tells no pairs", .read = read_no_pairs},
    {.what = "gz_read leaves the number of pairs unwritten if 0", .read = read_pairs_unwritten},
    {.what = "gz_read counts a pair that stands twice once", .read = read_pairs_once},
    {.what = "gz_read tells the number of pairs with 19", .read = read_pairs_refused},
    {.what = "gz_read tells the plan writer's group with 18", .read = read_group_fourth},
    {.what = "gz_read reads the fourth block's first word anywhere", .read = read_past_fourth},
    {.what = "gz_service gives one service too many", .service = service_past},
    {.what = "gz_cabinet touches the record where there is none", .cabinet = cabinet_touched},
    {.what = "gz_stream gives the ends the wrong way round", .stream = stream_swapped},
    {.what = "gz_barred gives service and cabinet the wrong way round", .barred = barred_swapped},
    {.what = "gz_barred touches the record where there is none", .barred = barred_touched},
    {.what = "gz_barred gives one pair too many", .barred = barred_past},
    {.what = "gz_barred keeps 16 bits of the number", .barred = barred_wrapped},
    {.what = "gz_barred gives the first pair for any other", .barred = barred_first},
    {.what = "gz_barred gives a pair with 19", .barred = barred_refused},
    {.what = NULL},
};

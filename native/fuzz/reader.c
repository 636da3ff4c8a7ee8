/* reader.c: gz_read and the record calls on lent memory, with what the header says of them. */
#include "reader.h"

#include <stddef.h>

#include "gazrieksne.h"
#include "layout.h"
#include "refusals.h"
#include "require.h"
#include "rules.h"

typedef uint64_t record_call(const uint8_t *sheet, size_t sheet_len, size_t number,
                             uint64_t *record);

static record_call *const record_calls[BLOCKS] = {gz_service, gz_cabinet, gz_stream, gz_barred};

struct reading read_sheet(const struct run *run)
{
    const uint8_t *sheet = lend_sheet(run);
    size_t length = run->input->sheet_len;
    uint64_t *counts = lend_result(run, 1 + BLOCKS);
    struct reading reading;
    int block;

    reading.number = gz_read(sheet, length, counts);
    require_number(reading.number, sheet_refusal(run->input->sheet, length));
    take_result(run, reading.number, counts, 1 + BLOCKS, reading.counts);
    require_sheet_kept(run, sheet);
    for (block = 0; block < BLOCKS; block++)
        if (reading.number != 0)
            require(reading.counts[1 + block] == 0, "gz_read: the last four are 0 in a refusal");
        else
            require(reading.counts[1 + block] == count_of(sheet, block),
                    "gz_read: counts  group, r, s, q, the number of barred pairs");
    return reading;
}

static void read_record(const struct run *run, const struct reading *reading, int block,
                        size_t number, const uint8_t *sheet)
{
    size_t fields = fields_of[block];
    uint64_t *record = lend_result(run, fields);
    uint64_t there = number < reading->counts[1 + block];
    size_t i;

    require(record_calls[block](sheet, run->input->sheet_len, number, record) == there,
            "Returns 1 if it is there; 0 if the sheet is refused or has no .. of this number");
    for (i = 0; i < fields; i++)
        if (there)
            require(record[i] == field_at(sheet, block, number, i), "Gives a .. by its number");
        else
            require(record[i] == run->garbage, "and then the record is left untouched");
}

void read_records(const struct run *run, const struct reading *reading)
{
    /* Numbers of no record; the first is 0 in 16 bits, and so is four times the second in any. */
    static const size_t large[3] = {65536, SIZE_MAX / 4 + 1, SIZE_MAX};
    const uint8_t *sheet = lend_sheet(run);
    int block;
    size_t number;
    size_t i;

    for (block = 0; block < BLOCKS; block++) {
        for (number = 0; number <= reading->counts[1 + block]; number++)
            read_record(run, reading, block, number, sheet);
        for (i = 0; i < 3; i++)
            read_record(run, reading, block, large[i], sheet);
    }
    require_sheet_kept(run, sheet);
}

/* tidy.c: gz_tidy on lent memory, with what the header says of it. */
#include "tidy.h"

#include <string.h>

#include "gazrieksne.h"
#include "layout.h"
#include "refusals.h"
#include "require.h"

/* The choice, modulo 8, that lends what suffices for any sheet. */
enum { LONGEST = 3 };

/* The bytes to lend. A sheet that is refused has no copy, which would be no longer than itself. */
static size_t output_length(const struct run *run, const struct reading *reading,
                            const struct copy *copy)
{
    size_t needed = reading->number == 0 ? copy->length : run->input->sheet_len;

    if (run->input->choice[COPY_LENGTH] % 8 == LONGEST || needed > GZ_LONGEST_COPY)
        needed = GZ_LONGEST_COPY;
    return input_length(run->input, COPY_LENGTH, needed);
}

static uint64_t first_refusal(const struct reading *reading, const struct copy *copy,
                              size_t output_len)
{
    if (reading->number != 0)
        return reading->number;
    return output_len < copy->length ? 21 : 0;
}

static void require_written(const struct copy *copy, const uint8_t *output)
{
    require(copy->length > copy->pairs_at || word_at(output, offset_word[BARRED]) == 0,
            "Without a pair there is no fourth block, and the eighth word is 0");
    require(memcmp(output, copy->bytes, copy->pairs_at) == 0,
            "Writes the tidy copy of a sheet: header, services, cabinets, streams .., in this "
            "order and without gaps, each block's records in their order");
    require(memcmp(output + copy->pairs_at, copy->bytes + copy->pairs_at,
                   copy->length - copy->pairs_at) == 0,
            "but the pairs stand in rising order of service, then of cabinet, each once");
}

/* What became of the output, by the number returned. */
static void require_output(const struct run *run, uint64_t number, const struct copy *copy,
                           const uint8_t *output, size_t output_len)
{
    if (number == 0)
        require_written(copy, output);
    require(is_dirty(run, output, number == 0 ? copy->length : 0, output_len),
            "Bytes behind it stay as they are, and in a refusal all do");
}

uint64_t tidy_sheet(const struct run *run, const struct reading *reading, const struct copy *copy)
{
    const uint8_t *sheet = lend_sheet(run);
    size_t output_len = output_length(run, reading, copy);
    uint8_t *output = lend_dirty(run, COPY, output_len);
    uint64_t *lent = lend_result(run, 2);
    uint64_t number = gz_tidy(sheet, run->input->sheet_len, output, output_len, lent);
    uint64_t answer[2];

    require(reading->number != 0 || copy->length <= GZ_LONGEST_COPY,
            "An output of GZ_LONGEST_COPY bytes suffices for any sheet");
    require_number(number, first_refusal(reading, copy, output_len));
    take_result(run, number, lent, 2, answer);
    require_sheet_kept(run, sheet);
    require(answer[1] == (number == 0 ? copy->length : 0),
            "gz_tidy: answer  group, length of the copy in bytes; the length is 0 in a refusal");
    require_output(run, number, copy, output, output_len);
    return number;
}

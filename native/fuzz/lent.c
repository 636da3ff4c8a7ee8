/* lent.c: what is lent to the calls: where it lies, what it holds, whether it was kept. */
#include "lent.h"

#include <string.h>

#include "arena.h"

enum { MOST_BYTES = MOST_LENT * sizeof(uint64_t), PLACE_BITS = 8 };

/* What dirty memory can hold: zeros, ones, noise, or small numbers as in a planner's tables. */
enum { ZEROS, ONES, NOISE, SMALL, DIRTS };

static struct arena arenas[PIECES] = {
    [SHEET] = {.name = "sheet", .most = MOST_SHEET},
    [PLAN] = {.name = "plan", .most = MOST_PLACES * sizeof(uint16_t)},
    [OUTPUT] = {.name = "output", .most = MOST_PLACES * sizeof(uint16_t)},
    [COSTS] = {.name = "costs", .most = MOST_BYTES},
    [CHOICE_TABLE] = {.name = "choices", .most = MOST_LENT * sizeof(uint16_t)},
    [COPY] = {.name = "output of gz_tidy", .most = MOST_COPY + MOST_LENGTH_ADDED},
    [RESULT] = {.name = "counts, answer or record", .most = MOST_RESULT * sizeof(uint64_t)},
    [LINES] = {.name = "lines", .most = (MOST_LINES + MOST_LENGTH_ADDED) * sizeof(uint64_t)},
    [OTHER_OUTPUT] = {.name = "output of another road", .most = MOST_PLACES * sizeof(uint16_t)},
};

static uint8_t dirt[DIRTS][MOST_BYTES];

static void make_dirt(void)
{
    uint64_t noise = 1;
    size_t i;

    memset(dirt[ONES], 255, MOST_BYTES);
    for (i = 0; i < MOST_BYTES; i++) {
        noise = noise * 6364136223846793005u + 1442695040888963407u;
        dirt[NOISE][i] = (uint8_t)(noise >> 56);
    }
    for (i = 0; i < MOST_BYTES; i += sizeof(uint64_t))
        dirt[SMALL][i] = (uint8_t)(i / sizeof(uint64_t) % 11);
}

struct run run_of(const struct input *input, int second)
{
    unsigned byte = input->choice[DIRT];
    unsigned other = 1 + byte / DIRTS % (DIRTS - 1);
    struct run run;

    if (dirt[ONES][0] == 0)
        make_dirt();
    run.input = input;
    run.places = second ? ~(unsigned)input->choice[PLACES] : input->choice[PLACES];
    run.dirt = (byte + (second ? other : 0)) % DIRTS;
    run.garbage = second ? 0x5A5A5A5A5A5A5A5Au : 0xA5A5A5A5A5A5A5A5u;
    return run;
}

struct run with_sheet(const struct run *run, struct input *input, const uint8_t *sheet,
                      size_t length)
{
    struct run changed = *run;

    *input = *run->input;
    input->sheet = sheet;
    input->sheet_len = length;
    changed.input = input;
    return changed;
}

static void *lend(const struct run *run, enum piece piece, size_t bytes)
{
    unsigned bit = run->places >> piece % PLACE_BITS & 1;

    return arena_lend(&arenas[piece], bytes, bit ? AT_START : AT_END);
}

const uint8_t *lend_sheet(const struct run *run)
{
    size_t bytes = run->input->sheet_len;
    uint8_t *sheet = lend(run, SHEET, bytes);

    if (bytes > 0)
        memcpy(sheet, run->input->sheet, bytes);
    return sheet;
}

const uint16_t *lend_plan(const struct run *run, const uint16_t *plan, size_t places)
{
    size_t bytes = places * sizeof *plan;
    uint16_t *lent = lend(run, PLAN, bytes);

    memcpy(lent, plan, bytes);
    return lent;
}

uint64_t *lend_result(const struct run *run, size_t places)
{
    uint64_t *result = lend(run, RESULT, places * sizeof *result);
    size_t i;

    for (i = 0; i < places; i++)
        result[i] = run->garbage;
    return result;
}

void *lend_dirty(const struct run *run, enum piece piece, size_t bytes)
{
    void *memory = lend(run, piece, bytes);

    memcpy(memory, dirt[run->dirt], bytes);
    return memory;
}

void copy_dirt(const struct run *run, size_t from, void *into, size_t bytes)
{
    memcpy(into, dirt[run->dirt] + from, bytes);
}

int is_dirty(const struct run *run, const void *memory, size_t used, size_t bytes)
{
    return memcmp((const uint8_t *)memory + used, dirt[run->dirt] + used, bytes - used) == 0;
}

int is_clear(const void *memory, size_t bytes)
{
    return memcmp(memory, dirt[ZEROS], bytes) == 0;
}

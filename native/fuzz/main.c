/* main.c: the standalone driver: makes inputs for the target and tells what they met. */
#define _DEFAULT_SOURCE
#include <inttypes.h>
#include <signal.h>
#include <stdio.h>
#include <stdlib.h>
#include <string.h>
#include <unistd.h>

#include "damage.h"
#include "dearest.h"
#include "example.h"
#include "random.h"
#include "require.h"
#include "sheets.h"
#include "target.h"
#include "tariffs.h"
#include "told.h"

enum { GATE_INPUTS = 100000, GATE_SEED = 1, MOST_WORDS = 12 };

static const char usage[] =
    "usage: fuzz [INPUTS [SEED]]\n"
    "Makes INPUTS inputs (default %d) from SEED (default %d), runs the target on each, and prints\n"
    "how often each answer and some kinds of plans, roads, bills, edits and spans were met. From\n"
    "%d inputs on, it is a failure too if a call never gave an answer that it may give, or if no\n"
    "plan, road, bill, edit or span of such a kind was met.\n";

/* The input under way, for the line that a failure ends with. */
static char under_way[64];
static struct sigaction before[2];
static const int watched[2] = {SIGABRT, SIGSEGV};

/* Names the input; the signal then takes its course under the handlers that stood before. */
static void name_input(int number)
{
    ssize_t written = write(STDERR_FILENO, under_way, strlen(under_way));
    int i;

    (void)number;
    (void)written;
    for (i = 0; i < 2; i++)
        sigaction(watched[i], &before[i], NULL);
}

static void watch(void)
{
    struct sigaction action;
    int i;

    memset(&action, 0, sizeof action);
    action.sa_handler = name_input;
    for (i = 0; i < 2; i++)
        require(sigaction(watched[i], &action, &before[i]) == 0, "the handler is set");
}

/* Mostly a span of the length needed that ends with the tables. The source is seeded by the one of
 * the other choices, which do not depend on it. */
static void draw_span(uint64_t seed, uint8_t choice[CHOICES])
{
    struct random random = {~seed};
    int i;

    for (i = SPAN_FIRST; i < CHOICES; i++)
        choice[i] = (uint8_t)random_next(&random);
    for (i = SPAN_NUMBER; i <= SPAN_WAY; i++)
        if (!random_once_in(&random, 4))
            choice[i] = 0;
}

/* Mostly lengths as needed, so that a good part of the sheets is planned. */
static void draw_choices(struct random *random, uint8_t choice[CHOICES])
{
    int i;

    for (i = 0; i < SPAN_FIRST; i++)
        choice[i] = (uint8_t)random_next(random);
    for (i = OUTPUT_LENGTH; i <= COPY_LENGTH; i++)
        if (!random_once_in(random, 4))
            choice[i] = 0;
    choice[TAIL] = (uint8_t)random_below(random, MOST_WORDS + 1);
    if (!random_once_in(random, 4))
        choice[LINES_LENGTH] = 0;
    draw_tariff(random, choice);
    draw_span(random->state, choice);
}

static size_t draw_bytes(struct random *random, uint8_t *bytes)
{
    size_t length = random_below(random, random_once_in(random, 16) ? 400 : 25 + CHOICES);
    size_t i;

    for (i = 0; i < length; i++)
        bytes[i] = (uint8_t)random_next(random);
    return length;
}

/* The words of the tail, which repeats; zeros if there is none. */
static void draw_words(struct random *random, unsigned tail, uint16_t words[MOST_WORDS])
{
    unsigned i;

    for (i = 0; i < MOST_WORDS; i++)
        if (i < tail)
            words[i] = (uint16_t)random_next(random);
        else
            words[i] = tail > 0 ? words[i - tail] : 0;
}

/* Bytes, the road of the dearest bill, an example, a road, or one of the last two damaged. Gives
 * the size of the input. */
static size_t draw_input(struct random *random, uint8_t *bytes)
{
    unsigned kind = random_below(random, 16);
    uint8_t *sheet = bytes + CHOICES;
    uint16_t words[MOST_WORDS];
    size_t length;
    unsigned i;

    if (kind == 0)
        return draw_bytes(random, bytes);
    draw_choices(random, bytes);
    if (random_once_in(random, 2048))
        return draw_dearest(random, bytes);
    draw_words(random, bytes[TAIL], words);
    length = random_once_in(random, 16) ? example_sheet(sheet, random_once_in(random, 2))
                                        : draw_sheet(random, sheet, words);
    if (kind < 8)
        length = damage_sheet(random, sheet, length);
    for (i = 0; i < bytes[TAIL]; i++)
        put_word(sheet, length + 2 * i, words[i]);
    return CHOICES + length + 2 * (size_t)bytes[TAIL];
}

static void run_inputs(uint64_t inputs, uint64_t seed)
{
    static uint8_t bytes[CHOICES + MOST_DAMAGED + 2 * MOST_WORDS];
    struct random random = {seed};
    uint64_t i;

    for (i = 0; i < inputs; i++) {
        size_t size = draw_input(&random, bytes);

        snprintf(under_way, sizeof under_way, "input %" PRIu64 " of seed %" PRIu64 "\n", i, seed);
        LLVMFuzzerTestOneInput(bytes, size);
    }
}

/* A whole number in decimal; false if the text is anything else. */
static int parse(const char *text, uint64_t *number)
{
    char *end;

    *number = strtoull(text, &end, 10);
    return *text >= '0' && *text <= '9' && *end == '\0';
}

int main(int argc, char **argv)
{
    uint64_t inputs = GATE_INPUTS;
    uint64_t seed = GATE_SEED;
    int missing;

    if (argc > 3 || (argc > 1 && !parse(argv[1], &inputs))
        || (argc > 2 && !parse(argv[2], &seed))) {
        fprintf(stderr, usage, GATE_INPUTS, GATE_SEED, GATE_INPUTS);
        return 2;
    }
    watch();
    run_inputs(inputs, seed);
    missing = tell();
    if (missing == 0 || inputs < GATE_INPUTS)
        return 0;
    fprintf(stderr, "%d answers or kinds of plans, roads, bills, edits and spans were never met\n",
            missing);
    return 1;
}

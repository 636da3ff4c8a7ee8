/* span.c: a span of a pair of tables, and what an input says of it. */
#include "span.h"

/* What becomes of a span that ends about where the tables end; any other way leaves it there. */
enum {
    ONE_SHORT = 1,
    EMPTY_AT_END,
    EMPTY_PAST_END,
    HIGHEST_FIRST,
    HIGHEST_NUMBER,
    HIGHEST_BOTH,
    SUM_ZERO,
    HALVES,
    FIRST_32_BITS,
    NUMBER_32_BITS,
    FIRST_61_BITS,
    WAYS = 16
};

size_t shorter_table(const struct span *span)
{
    return span->costs_len < span->choices_len ? span->costs_len : span->choices_len;
}

int ends_past(const struct span *span, size_t length)
{
    return span->number > length || span->first > length - span->number;
}

int sum_wraps(const struct span *span)
{
    return span->first > SIZE_MAX - span->number;
}

/* Leaves the tables as they are. */
static void put_span(struct span *span, size_t first, size_t number)
{
    span->first = first;
    span->number = number;
}

/* Cuts it where the tables go on, or moves it to the end of the shorter table, or to where only
 * figures that are cut would lie in it. */
static void move_span(struct span *span, unsigned way, size_t needed)
{
    switch (way % WAYS) {
    case ONE_SHORT:
        span->number = needed > 0 ? needed - 1 : 0;
        break;
    case EMPTY_AT_END:
        put_span(span, shorter_table(span), 0);
        break;
    case EMPTY_PAST_END:
        put_span(span, shorter_table(span) + 1, 0);
        break;
    case HIGHEST_FIRST:
        put_span(span, SIZE_MAX, 0);
        break;
    case HIGHEST_NUMBER:
        span->number = SIZE_MAX;
        break;
    case HIGHEST_BOTH:
        put_span(span, SIZE_MAX, SIZE_MAX);
        break;
    case SUM_ZERO:
        span->first = SIZE_MAX - span->number + 1;
        break;
    case HALVES:
        put_span(span, SIZE_MAX / 2 + 1, SIZE_MAX / 2 + 1);
        break;
    case FIRST_32_BITS:
        span->first += (size_t)1 << 32;
        break;
    case NUMBER_32_BITS:
        span->number += (size_t)1 << 32;
        break;
    case FIRST_61_BITS: /* which is 0 in bytes of the costs */
        span->first += (size_t)1 << 61;
        break;
    }
}

struct span input_span(const struct input *input, size_t needed)
{
    struct span span;
    size_t end;

    span.first = input->choice[SPAN_FIRST] % MOST_LENGTH_ADDED;
    span.number = input_length(input, SPAN_NUMBER, needed);
    end = span.first + span.number;
    span.costs_len = input_length(input, SPAN_COSTS, end);
    span.choices_len = input_length(input, SPAN_CHOICES, end);
    move_span(&span, input->choice[SPAN_WAY], needed);
    return span;
}

struct span whole_span(const struct input *input, size_t needed)
{
    struct span span;

    span.costs_len = input_length(input, COSTS_LENGTH, needed);
    span.choices_len = input_length(input, CHOICES_LENGTH, needed);
    put_span(&span, 0, shorter_table(&span));
    return span;
}

/* Plans road M through the C interface: prints the cost, the count of splits weighed and each
 * service's cabinet, the carrier's bill, what comes of three edits, and how two roads share a pair
 * of tables. Two plans of M cost 15; the one with the lowest cabinet for service 0 is found,
 * service 0 on cabinet 0 and service 1 on cabinet 1. */
#include <inttypes.h>
#include <stdio.h>
#include <string.h>

#include "gazrieksne.h"

/* Road M: 2 services, 3 cabinets, 1 stream, as 16-bit words. */
static const uint16_t words[34] = {
    2, 3, 1, 16, 20, 62, 68, 0, /* header; no barred pairs */
    2, 2,                       /* services */
    65535, 4, 5, 0, 0, 0, 0,    /* cabinet 0, the root */
    0, 3, 1, 6, 2, 6, 1,        /* cabinet 1 */
    0, 3, 2, 2, 1, 6, 1,        /* cabinet 2 */
    0, 1, 3                     /* the stream */
};

/* Bills the plan at 250 cents a block and 30 cents a slot, with 5 % of tax: prints the lines that
 * are not 0, the net, the tax and the total. Gives the refusal's number. */
static uint64_t print_bill(const uint8_t *sheet, size_t length, const uint16_t *plan, size_t places)
{
    uint64_t lines[GZ_MOST_LINES] = {0};
    uint64_t bill[4];
    uint64_t refusal =
        gz_bill(sheet, length, plan, places, 250, 30, 50, lines, GZ_MOST_LINES, bill);
    size_t n;

    for (n = 0; n < GZ_MOST_LINES; n++)
        if (lines[n] != 0)
            printf("line %zu: %" PRIu64 "\n", n, lines[n]);
    printf("bill %" PRIu64 " net %" PRIu64 " tax %" PRIu64 " total %" PRIu64 "\n", refusal,
           bill[1], bill[2], bill[3]);
    return refusal;
}

/* Where the capacities of cabinets 0 and 2 stand in the sheet. */
enum { ROOT_CAPACITY = 22, LAST_CAPACITY = 50 };

/* Tells what a call that keeps or edits answered. */
static void print_answer(const char *what, uint64_t refusal, const uint64_t answer[3],
                         const uint16_t output[2])
{
    printf("%s %" PRIu64 " cost %" PRIu64 " weighed %" PRIu64, what, refusal, answer[1], answer[2]);
    if (refusal == 0)
        printf(" plan %u %u", (unsigned)output[0], (unsigned)output[1]);
    printf("\n");
}

/* Keeps the tables of the road and edits it: cabinet 0 loses its room, so that the other plan of
 * cost 15 remains; cabinet 2 has room for 1 only, and no plan remains; cabinet 0 gets its room
 * back. Gives the last refusal's number. */
static uint64_t print_edits(uint8_t *sheet, size_t length)
{
    uint16_t output[2];
    uint64_t costs[3 * 4];
    uint16_t choices[3 * 4];
    uint64_t answer[3];
    uint64_t refusal = gz_keep(sheet, length, output, 2, costs, 12, choices, 12, answer);

    print_answer("keep", refusal, answer, output);
    sheet[ROOT_CAPACITY] = 0;
    refusal = gz_edit(sheet, length, 0, output, 2, costs, 12, choices, 12, answer);
    print_answer("edit", refusal, answer, output);
    sheet[LAST_CAPACITY] = 1;
    refusal = gz_edit(sheet, length, 2, output, 2, costs, 12, choices, 12, answer);
    print_answer("edit", refusal, answer, output);
    sheet[ROOT_CAPACITY] = 4;
    refusal = gz_edit(sheet, length, 0, output, 2, costs, 12, choices, 12, answer);
    print_answer("edit", refusal, answer, output);
    return refusal;
}

/* Keeps two roads in one pair of tables, each in 12 entries of its own: this one, and one that has
 * no room in cabinet 0. Edits the other, which is left without a plan, and then this one without a
 * change: its plan is as before. Gives the last refusal's number. */
static uint64_t print_shared(const uint8_t *sheet, size_t length)
{
    uint8_t other[68];
    uint16_t output[2];
    uint16_t other_output[2];
    uint64_t costs[24];
    uint16_t choices[24];
    uint64_t answer[3];
    uint64_t refusal;

    memcpy(other, sheet, length);
    other[ROOT_CAPACITY] = 0;
    other[LAST_CAPACITY] = 3;
    refusal = gz_keep_span(sheet, length, output, 2, costs, 24, choices, 24, 0, 12, answer);
    print_answer("this keep", refusal, answer, output);
    refusal = gz_keep_span(other, length, other_output, 2, costs, 24, choices, 24, 12, 12, answer);
    print_answer("other keep", refusal, answer, other_output);
    other[LAST_CAPACITY] = 1;
    refusal =
        gz_edit_span(other, length, 2, other_output, 2, costs, 24, choices, 24, 12, 12, answer);
    print_answer("other edit", refusal, answer, other_output);
    refusal = gz_edit_span(sheet, length, 0, output, 2, costs, 24, choices, 24, 0, 12, answer);
    print_answer("this edit", refusal, answer, output);
    return refusal;
}

int main(void)
{
    uint8_t sheet[68];
    uint64_t counts[5];
    uint16_t output[2];
    uint64_t costs[3 * 4];
    uint16_t choices[3 * 4];
    uint64_t answer[3];
    uint64_t checked[2];
    uint64_t refusal;
    size_t i;

    for (i = 0; i < 34; i++) {
        sheet[2 * i] = (uint8_t)(words[i] % 256);
        sheet[2 * i + 1] = (uint8_t)(words[i] / 256);
    }
    refusal = gz_read(sheet, sizeof sheet, counts);
    if (refusal == 0)
        refusal = gz_plan(sheet, sizeof sheet, output, 2, costs, 12, choices, 12, answer);
    if (refusal != 0) {
        printf("refused %" PRIu64 "\n", refusal);
        return 1;
    }
    printf("cost %" PRIu64 "\nweighed %" PRIu64 "\n", answer[1], answer[2]);
    for (i = 0; i < counts[1]; i++)
        printf("%zu %u\n", i, (unsigned)output[i]);
    refusal = gz_check(sheet, sizeof sheet, output, (size_t)counts[1], checked);
    printf("check %" PRIu64 " cost %" PRIu64 "\n", refusal, checked[1]);
    if (refusal != 0 || checked[1] != answer[1])
        return 1;
    refusal = print_bill(sheet, sizeof sheet, output, (size_t)counts[1]);
    if (refusal == 0)
        refusal = print_edits(sheet, sizeof sheet);
    if (refusal == 0)
        refusal = print_shared(sheet, sizeof sheet);
    return refusal != 0;
}

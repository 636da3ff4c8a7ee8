/* refusals.c: the numbers and groups of the header, and what every call's result must keep. */
#include "refusals.h"

#include <string.h>

#include "require.h"

/* In the order of giving; a call passes over those that it cannot give. */
static const struct refusal {
    uint64_t number;
    uint64_t group;
    const char *sentence;
} refusals[] = {
    {1, SHEET_WRITER, "1  fewer than 16 bytes"},
    {2, SHEET_WRITER, "2  r, s or q outside its limits"},
    {3, SHEET_WRITER, "3  the length word is not the sheet's length"},
    {4, SHEET_WRITER, "4  the offset of one of the first three blocks is below 16, or that block "
                      "ends past the length (empty blocks too)"},
    {5, SHEET_WRITER, "5  two of the first three blocks share a byte"},
    {6, SHEET_WRITER, "6  a demand, capacity or price above 10,000"},
    {7, SHEET_WRITER, "7  a wrong parent"},
    {8, SHEET_WRITER, "8  a stream end is not below r, or both ends are the same"},
    {9, SHEET_WRITER, "9  a link field of cabinet 0 is not 0"},
    {18, SHEET_WRITER, "18  there is a fourth block, and its offset is below 16, or it ends past "
                       "the length, or it has more than 2,000 pairs, or it shares a byte"},
    {19, SHEET_WRITER, "19  the service of a barred pair is not below r, or its cabinet not below "
                       "s"},
    {10, LENDER, "10  the planner's output is shorter than r places"},
    {24, LENDER, "24  the first entry of the span plus its number of entries is above the length "
                 "of a table"},
    {11, LENDER, "11  a table is shorter than s * 2^r entries, or, if the call names a span, the "
                 "span is"},
    {13, PLAN_WRITER, "13  it hasn't exactly r places"},
    {14, PLAN_WRITER, "14  a cabinet number is not below s"},
    {20, PLAN_WRITER, "20  a service is on a cabinet that it is barred from"},
    {15, PLAN_WRITER, "15  a cabinet is overfull, or a service is on a joint"},
    {16, PLAN_WRITER, "16  a direction of a link is overfull, framing counted"},
    {12, ROAD, "12  no valid plan exists"},
    {23, PLAN_WRITER, "23  the tables are not those of a sheet that differs from this one in the "
                      "record of this cabinet alone"},
    {22, LENDER, "22  a price or the tax rate of the tariff is outside its limits, or there are "
                 "too few places for the lines of the bill"},
    {21, LENDER, "21  the output is shorter than the sheet that is to be written there"},
    {0, NOBODY, "group 0: no refusal"},
};

/* The first line that has one of the two numbers; null if none has. */
static const struct refusal *find(uint64_t one, uint64_t other)
{
    size_t i;

    for (i = 0; i < sizeof refusals / sizeof *refusals; i++)
        if (refusals[i].number == one || refusals[i].number == other)
            return &refusals[i];
    return NULL;
}

int is_given(uint64_t number)
{
    return find(number, number) != NULL;
}

uint64_t group_of(uint64_t number)
{
    return find(number, number)->group;
}

static void require_known(uint64_t number)
{
    require(is_given(number), "Calls return 0 or the number of a refusal");
}

void require_number(uint64_t given, uint64_t expected)
{
    require_known(given);
    require(given == expected, find(given, expected)->sentence);
}

void take_result(const struct run *run, uint64_t number, const uint64_t *result, size_t places,
                 uint64_t *into)
{
    size_t i;

    for (i = 0; i < places; i++) {
        require(result[i] != run->garbage,
                "every place of them is written on every call, whatever they held");
        into[i] = result[i];
    }
    require_known(number);
    require(into[0] == group_of(number),
            "Their first place holds the group of the refusal");
}

void require_sheet_kept(const struct run *run, const uint8_t *sheet)
{
    size_t bytes = run->input->sheet_len;

    require(bytes == 0 || memcmp(sheet, run->input->sheet, bytes) == 0,
            "A call writes nothing but what is told with it (sheet)");
}

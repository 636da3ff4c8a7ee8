/* gazrieksne.h: the proved planner for tree-shaped toll roads, as a C interface.
 *
 * A planning sheet describes services with demands, cabinets that form a tree and have room for
 * services, streams between services, and which services are barred from which cabinets. The
 * library reads sheets, checks plans, finds the first of the cheapest plans, finds it again with
 * less work after a change of one cabinet, makes the carrier's bill of a plan, and writes tidy
 * copies of sheets. It keeps no state, allocates nothing, and calls nothing of yours; any number of
 * threads may call it at once, each with memory of its own. What is kept from one plan to the next
 * stands in tables that you lend; several roads can share a pair of tables, each in its own span.
 *
 * The sheet
 * ---------
 * A sheet is bytes. Every field is an unsigned 16-bit word, low byte first. The header has eight
 * words: r (services, 0 to 10), s (cabinets, 1 to 200), q (streams, 0 to 100), the byte offsets of
 * the service, cabinet and stream blocks, the sheet's length in bytes, and the byte offset of a
 * fourth block, that of the barred pairs, or 0 if there is none. Blocks may come in any order, at
 * odd offsets too, with unused bytes between. Each is its records one after the other; the fourth
 * has before them a word that says how many pairs there are, 0 to 2,000, and so has 2 bytes even
 * without a pair.
 *   service, 2 bytes:     demand
 *   cabinet, 14 bytes:    parent, capacity, price, up capacity, up price, down capacity, down price
 *   stream, 6 bytes:      from, to, demand
 *   barred pair, 4 bytes: service, cabinet
 * Services, cabinets, streams and barred pairs are numbered from 0. Cabinet 0 is the root: its
 * parent is 65535 and its four link fields are 0. The parent of any other cabinet has a smaller
 * number. "Up" runs from a cabinet to its parent, "down" from the parent to it. The ends of a
 * stream are two different services; several streams may join the same two. A pair bars its
 * service from its cabinet; the same pair may stand several times, and each time counts towards
 * the 2,000. Demands, capacities and prices are 0 to 10,000.
 *
 * A plan
 * ------
 * A plan gives each service a cabinet. A stream runs along the only simple path between the
 * cabinets of its ends. It takes its demand of every direction of a link that it runs along, and,
 * if its demand is above 0, 2 more for its framing; these sum up to the load of a direction. A
 * cabinet of capacity 0 is a joint: lines are spliced there, and there is no power. Streams run
 * through a joint as through any other cabinet, but it holds no service, not even one of demand 0.
 * The plan is valid when no service is on a cabinet that it is barred from, no service is on a
 * joint, no cabinet holds more demand than its capacity, and no direction of a link has a load
 * above its capacity. Its cost is demand times price, summed over the services (by their cabinets)
 * and over each link of each stream's path (by the direction taken); framing is not priced. A sheet
 * without services has one plan, which is valid and costs 0, even if every cabinet is a joint.
 *
 * What calls answer
 * -----------------
 * Calls return 0 or the number of a refusal; gz_service, gz_cabinet, gz_stream, gz_barred and
 * gz_weigh return something else, told there. The arrays `counts` and `answer` are results: every
 * place of them is written on every call, whatever they held, with 0 where there is nothing to
 * tell. Their first place holds the group of the refusal, that is, who can have caused it. If
 * several refusals apply, the one that is first in this order is given: 1 to 9, 18 and 19 for every
 * call that takes a sheet, then 10, 11 and 12 for gz_plan and gz_keep, 10, 11, 14 and then 12 or 23
 * for gz_edit, the same with 24 between 10 and 11 for gz_plan_span, gz_keep_span and gz_edit_span,
 * 13, 14, 20, 15 and 16 for gz_check, the same five and then 22 for gz_bill, and 21 for gz_tidy.
 *
 *   group 0: no refusal
 *   group 1: whoever wrote the sheet
 *      1  fewer than 16 bytes
 *      2  r, s or q outside its limits
 *      3  the length word is not the sheet's length
 *      4  the offset of one of the first three blocks is below 16, or that block ends past the
 *         length (empty blocks too)
 *      5  two of the first three blocks share a byte
 *      6  a demand, capacity or price above 10,000
 *      7  a wrong parent
 *      8  a stream end is not below r, or both ends are the same
 *      9  a link field of cabinet 0 is not 0
 *     18  there is a fourth block, and its offset is below 16, or it ends past the length (also if
 *         its first word does not fit), or it has more than 2,000 pairs, or it shares a byte with
 *         another block (a block of no bytes shares none)
 *     19  the service of a barred pair is not below r, or its cabinet not below s
 *   group 2: whoever lends memory
 *     10  the planner's output is shorter than r places
 *     24  the first entry of the span plus its number of entries is above the length of a table:
 *         name a span that lies within both tables, or lend longer ones
 *     11  a table is shorter than s * 2^r entries, or, if the call names a span, the span is
 *     21  the output is shorter than the sheet that is to be written there
 *     22  a price or the tax rate of the tariff is outside its limits, or there are too few places
 *         for the lines of the bill
 *   group 3: the road
 *     12  no valid plan exists
 *   group 4: whoever wrote the plan, or, for gz_edit, whoever passes the cabinet and the tables
 *     13  it hasn't exactly r places
 *     14  a cabinet number is not below s: one of the plan, or that of the cabinet edited
 *     20  a service is on a cabinet that it is barred from
 *     15  a cabinet is overfull, or a service is on a joint
 *     16  a direction of a link is overfull, framing counted
 *     23  the tables are not those of a sheet that differs from this one in the record of this
 *         cabinet alone: call gz_keep with this sheet
 *
 * No call returns 17: only the program gives it, for more bytes than it takes.
 *
 * Pointers
 * --------
 * No pointer may be null, even where its length is 0. Each points to at least as many elements as
 * its length or its array bound says, aligned for their type. Memory that a call writes must not
 * overlap other memory of the same call. Lengths count elements: bytes for a sheet, places or
 * entries for everything else. A call reads nothing outside the lengths given, and writes nothing
 * but what is told with it.
 */
#ifndef GAZRIEKSNE_H
#define GAZRIEKSNE_H

#include <stddef.h>
#include <stdint.h>

#ifdef __cplusplus
extern "C" {
#endif

/* Reads a sheet. Returns 0 if it is accepted, else 1 to 9, 18 or 19.
 *   sheet, sheet_len  the bytes of the sheet and their number
 *   counts            group, r, s, q, the number of barred pairs; the last four are 0 in a
 *                     refusal */
uint64_t gz_read(const uint8_t *sheet, size_t sheet_len, uint64_t counts[5]);

/* Gives a service by its number. Returns 1 if it is there; 0 if the sheet is refused or has no
 * service of this number, and then the record is left untouched.
 *   record  demand */
uint64_t gz_service(const uint8_t *sheet, size_t sheet_len, size_t number, uint64_t record[1]);

/* Gives a cabinet by its number, in the same way.
 *   record  parent (65535 for the root), capacity, price, up capacity, up price, down capacity,
 *           down price */
uint64_t gz_cabinet(const uint8_t *sheet, size_t sheet_len, size_t number, uint64_t record[7]);

/* Gives a stream by its number, in the same way.
 *   record  from, to, demand */
uint64_t gz_stream(const uint8_t *sheet, size_t sheet_len, size_t number, uint64_t record[3]);

/* Gives a barred pair by its number, in the same way; the pairs are numbered as they stand in the
 * sheet.
 *   record  service, cabinet */
uint64_t gz_barred(const uint8_t *sheet, size_t sheet_len, size_t number, uint64_t record[2]);

/* Checks a plan. Returns 0 if it is valid, else 1 to 9, 13 to 16 or 18 to 20.
 *   plan, plan_len  the cabinet of each service, in order, and how many there are
 *   answer          group, cost; the cost is 0 in a refusal */
uint64_t gz_check(const uint8_t *sheet, size_t sheet_len, const uint16_t *plan, size_t plan_len,
                  uint64_t answer[2]);

/* Finds a cheapest plan: of all cheapest plans the one with the lowest cabinet for service 0, then
 * for service 1, and so on. Returns 0 if there is one, else 1 to 12, 18 or 19.
 *   output, output_len    places for the plan, r or more. On success the first r hold the cabinet
 *                         of each service, in order. Other places stay as they are, and in a
 *                         refusal all do.
 *   costs, costs_len      a table to work in, s * 2^r entries or more
 *   choices, choices_len  another one. What the tables hold before is of no matter. After success
 *                         and after 12 their first s * 2^r entries are 0 and all others as before;
 *                         after any other refusal all entries are as before.
 *   answer                group, cost, count. The cost is 0 in a refusal. The count is the number
 *                         of splits weighed, told on success and with 12, else 0; it is never
 *                         above the bound that gz_bound gives.
 * Tables of 200 * 1024 entries and an output of 10 places suffice for any sheet. */
uint64_t gz_plan(const uint8_t *sheet, size_t sheet_len, uint16_t *output, size_t output_len,
                 uint64_t *costs, size_t costs_len, uint16_t *choices, size_t choices_len,
                 uint64_t answer[3]);

/* Finds a cheapest plan as gz_plan does, and leaves in the tables what gz_edit needs to find the
 * next one. Returns, tells and writes to the output exactly what gz_plan would: 0 if there is a
 * plan, else 1 to 12, 18 or 19. The tables alone differ.
 *   output, output_len    as for gz_plan
 *   costs, costs_len      a table of s * 2^r entries or more
 *   choices, choices_len  another one. What the tables hold before is of no matter. After success
 *                         and after 12 their first s * 2^r entries are filled as told below and all
 *                         others as before; after any other refusal all entries are as before.
 *   answer                as for gz_plan: group, cost, count
 *
 * Kept tables hold the same for any two sheets whose records agree and which bar the same pairs.
 * Each has a row of 2^r entries for each cabinet, cabinet 0 first, and in each row an entry for
 * each set of services: the number of the entry has bit i where service i belongs to the set, so
 * that entry 0 is that of the empty set and entry 2^r - 1 that of all services.
 *   costs    In the row of a cabinet: the least that it costs to place the set on this cabinet and
 *            all under it, with the links between these, but not the link above the cabinet.
 *            Services outside the set count as being elsewhere: a stream between one of them and
 *            one of the set takes and pays the links that it runs along below the cabinet. The
 *            empty set costs 0, in the row of a joint too; any other set of a joint's row goes to
 *            cabinets under the joint. A cost is at most 10^15; 10^15 + 1 stands where there is no
 *            way to place the set.
 *   choices  A cabinet's children are joined to it one after the other, in rising order. When
 *            child c is joined, each set is split into what stays on the part of the road before
 *            c, which is its parent, the children joined before c and all under those, and the
 *            rest, which goes to c and all under it. In the row of c: what stays of the set in the
 *            cheapest split, and of several such in the one with the lowest cabinet for the first
 *            service, then for the next, and so on; 0 if there is no way to place the set. But the
 *            entry of the empty set tells how many splits this join weighed: pairs of a set and a
 *            part of it that can be placed before c. The sum of these is the count that is told.
 *            The row of cabinet 0 is 0.
 * If gz_edit is to use these entries, nothing but gz_edit, or gz_edit_span with a span that starts
 * where they do, may write to them from then on. */
uint64_t gz_keep(const uint8_t *sheet, size_t sheet_len, uint16_t *output, size_t output_len,
                 uint64_t *costs, size_t costs_len, uint16_t *choices, size_t choices_len,
                 uint64_t answer[3]);

/* Finds a cheapest plan after a change of one cabinet, with tables that gz_keep or gz_edit left,
 * and leaves them changed for the next call. Only the cabinet and those above it are reckoned
 * again. Returns 0 if there is a plan, else 1 to 12, 14, 18, 19 or 23.
 *   sheet, sheet_len      the sheet after the change. It differs from the last one that was taken
 *                         with these tables at most in the record of this cabinet: its capacity,
 *                         its price, the capacities and prices of its link. A capacity of 0 makes a
 *                         joint of it, and any other makes it a cabinet that holds services. Its
 *                         parent, all other records and the barred pairs must be the same; the
 *                         layout need not.
 *   cabinet               the number of the cabinet
 *   output, output_len    as for gz_plan
 *   costs, costs_len      the tables as the last call left them that took them: gz_keep or gz_edit,
 *   choices, choices_len  with a plan or with 12. Nothing else may have written to their first
 *                         s * 2^r entries since. After success and after 12 these hold what gz_keep
 *                         would leave for this sheet. After 1 to 11, 14, 18 and 19 all entries are
 *                         as before, and serve as before. After 23 they serve no more.
 *   answer                group, cost, count: what gz_keep would tell for this sheet. The cost is 0
 *                         in a refusal. The count is told on success and with 12, else 0.
 * The first plan of a sheet is gz_keep's. To see what another price of cabinet 7 brings, write the
 * price into the sheet and call gz_edit with 7 and the same tables; then the next price, or the old
 * one to go back. If two cabinets are to change, change one and call, then change the other and
 * call again. If anything else is to change, call gz_keep.
 *
 * The call cannot always tell whether the tables are such. With others, whatever they hold, it does
 * no harm, and a plan that it gives is valid and costs what is told; but it need not be a cheapest
 * one, 12 need not be true, and the count says nothing. Of the costs the rows of the cabinet and of
 * all above it are written, of the choices the rows of the children of these, and nothing else: no
 * other row, no entry from s * 2^r on, no place of the output from place r on. If the entry of all
 * services in row 0 of the costs is then above 10^15, the answer is 12. Else the choices lead to a
 * plan, where an entry is taken for what it has in common with the set. If gz_check accepts this
 * plan at the cost in that entry, it is written and told; if not, the answer is 23. The count is
 * the sum of the entries of the empty set in the choices, cabinet 0 apart. 12 and 23 leave the
 * output as it is. */
uint64_t gz_edit(const uint8_t *sheet, size_t sheet_len, size_t cabinet, uint16_t *output,
                 size_t output_len, uint64_t *costs, size_t costs_len, uint16_t *choices,
                 size_t choices_len, uint64_t answer[3]);

/* The same three calls in a span of the tables: some entries that stand together, the same in both
 * tables. Each does what the call without a span would do if the entries of the span were the whole
 * tables: it returns and tells the same, writes the same to the output, and leaves the same in the
 * span. So row p of a table starts at its entry first + p * 2^r, and entries of the span behind the
 * s * 2^r that are needed stay as they are. Entries outside the span never change, in any answer.
 * gz_plan_span and gz_keep_span return 0, else 1 to 12, 18, 19 or 24, and gz_edit_span 0, else 1 to
 * 12, 14, 18, 19, 23 or 24.
 *   costs, costs_len      both tables whole, with the entries outside the span
 *   choices, choices_len
 *   first                 the number of the span's first entry; entries are numbered from 0
 *   number                how many entries the span has. If first + number, which is never cut to
 *                         64 bits, is above costs_len or choices_len, the answer is 24: the cost
 *                         and the count are 0, the output and all entries are as before, and what
 *                         was kept serves as before. Else, if number is below s * 2^r, it is 11,
 *                         however long the tables are.
 * gz_plan, gz_keep and gz_edit use the span that starts at entry 0 and has as many entries as the
 * shorter table.
 *
 * So two roads can share one pair of tables: give each an output of its own and a span of its own,
 * such that the spans have no entry in common. If one needs 12 entries and the other 96, tables of
 * 108 entries suffice, with 0 and 12 for the span of the one and 12 and 96 for that of the other.
 * Then one road's answers, outputs and entries are those of its own calls alone, whatever calls for
 * the other come in between: what gz_keep_span left in a span, gz_edit_span takes from the same
 * span. Calls with the same tables must come one after the other, never at once, even if their
 * spans have no entry in common. */
uint64_t gz_plan_span(const uint8_t *sheet, size_t sheet_len, uint16_t *output, size_t output_len,
                      uint64_t *costs, size_t costs_len, uint16_t *choices, size_t choices_len,
                      size_t first, size_t number, uint64_t answer[3]);
uint64_t gz_keep_span(const uint8_t *sheet, size_t sheet_len, uint16_t *output, size_t output_len,
                      uint64_t *costs, size_t costs_len, uint16_t *choices, size_t choices_len,
                      size_t first, size_t number, uint64_t answer[3]);
uint64_t gz_edit_span(const uint8_t *sheet, size_t sheet_len, size_t cabinet, uint16_t *output,
                      size_t output_len, uint64_t *costs, size_t costs_len, uint16_t *choices,
                      size_t choices_len, size_t first, size_t number, uint64_t answer[3]);

/* Makes the carrier's monthly bill of a plan, in cents. Returns 0, else 1 to 9, 13 to 16, 18 to 20
 * or 22.
 *   plan, plan_len    as for gz_check
 *   block_price       cents for each started block of 100 units of load, 0 to GZ_MAX_PRICE
 *   slot_price        cents for each unit of a service's demand, 0 to GZ_MAX_PRICE
 *   tax_rate          thousandths of the net, 0 to GZ_MAX_RATE
 *   lines, lines_len  places for the lines, 2 * (s - 1) + r or more. On success first come the link
 *                     directions, for each cabinet from 1 the one up and then the one down: the
 *                     blocks that the load of the direction starts, framing included, at the block
 *                     price. Then come the services, each with its demand at the slot price. Other
 *                     places stay as they are, and in a refusal all do.
 *   answer            group, net, tax, total; the last three are 0 in a refusal. The net is the sum
 *                     of the lines, the tax is net * tax_rate / 1000 to the nearest cent, a half
 *                     upward, and the total is net plus tax.
 * GZ_MOST_LINES places suffice for any sheet. */
#define GZ_MAX_PRICE 10000
#define GZ_MAX_RATE 1000
#define GZ_MOST_LINES 408
uint64_t gz_bill(const uint8_t *sheet, size_t sheet_len, const uint16_t *plan, size_t plan_len,
                 uint64_t block_price, uint64_t slot_price, uint64_t tax_rate, uint64_t *lines,
                 size_t lines_len, uint64_t answer[4]);

/* Writes the tidy copy of a sheet: header, services, cabinets, streams and barred pairs, in this
 * order and without gaps, each block's records in their order; but the pairs stand in rising order
 * of service, then of cabinet, each once. Without a pair there is no fourth block, and the eighth
 * word is 0; any other block without records has for its offset the place where it would stand. Two
 * accepted sheets have equal copies exactly when their records agree and they bar the same pairs.
 * The copy is accepted, gz_plan, gz_keep, gz_check and gz_bill answer for it as they do for the
 * sheet, and its own copy is no other. Returns 0, else 1 to 9, 18, 19 or 21.
 *   output, output_len  bytes for the copy. On success the copy stands at their front. Bytes behind
 *                       it stay as they are, and in a refusal all do.
 *   answer              group, length of the copy in bytes; the length is 0 in a refusal
 * An output of GZ_LONGEST_COPY bytes suffices for any sheet. */
#define GZ_LONGEST_COPY 11438
uint64_t gz_tidy(const uint8_t *sheet, size_t sheet_len, uint8_t *output, size_t output_len,
                 uint64_t answer[2]);

/* Weighs one split of a set X of services into A, on the part of the road before a cabinet, and
 * the rest, on that cabinet and all under it. A figure up to 10^15 is a cost; a larger one means
 * 'none'. Any figures are fine.
 *   best    the best so far for X
 *   placed  what A costs on the part before the cabinet
 *   rest    what the rest costs on the cabinet and all under it
 *   link    what the cabinet's link charges for the rest
 *   answer  if placed, rest and link are costs, the lesser of best and their sum; else best as it
 *           came
 * Returns the flag: 1 if placed is a cost, else 0. */
uint64_t gz_weigh(uint64_t best, uint64_t placed, uint64_t rest, uint64_t link, uint64_t answer[1]);

/* Gives the bound on the splits weighed, (s - 1) * 3^r. Returns 0, or 2 if the number of services
 * or of cabinets is outside the limits of a sheet.
 *   answer  group, bound; the bound is 0 in a refusal */
uint64_t gz_bound(size_t services, size_t cabinets, uint64_t answer[2]);

#ifdef __cplusplus
}
#endif

#endif

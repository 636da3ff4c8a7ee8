/* told.h: what a run of the standalone driver tells of its tally. */
#ifndef TOLD_H
#define TOLD_H

/* Prints the tally. Gives the number of answers and of kinds of plans, roads, bills, edits and
 * spans that were never met. */
int tell(void);

#endif

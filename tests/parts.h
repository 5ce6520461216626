/*
 * Fuel in parts against one call with the sum: a run or a carry-on, and carry-ons after it, have to come to the same
 * answer and the same words of both tables.
 */
#ifndef PARTS_H
#define PARTS_H

#include "calls.h"

enum { MOST_CUTS = 64 };

/* The first call, with the fuel that is cut, and its tables. Its steps and that fuel are at most 4,294,967,295. */
struct start {
    struct lent *words, *jobs;
    struct carry carry;
    int onward; /* it is a carry-on, else a run */
};

/* Cuts fuel of 1 to MOST_CUTS at every step, then goes one step at a time. */
void cut_everywhere(const struct start *start, uint32_t answer[6]);

/* Cuts any fuel at some places, with parts of no fuel in between. */
void cut_somewhere(const struct start *start, struct dice *dice, uint32_t answer[6]);

#endif

/* Contestants that take turns, how long each takes, and the cells of a table's row that this comes to. */
#ifndef RACE_H
#define RACE_H

#include "side.h"

enum { MAX_CONTESTANTS = 3, MAX_ROUNDS = 1000 };

/* What is timed: a call by one side on some input. */
struct contestant {
    void (*call)(const struct side *, const void *);
    const struct side *side;
};

/* Seconds of one call of each contestant, in its fastest round and in the median of all. */
struct race {
    int contestants;
    double fastest[MAX_CONTESTANTS], median[MAX_CONTESTANTS];
};

/* How seconds are shown: as a time, `factor` of the unit in a second; or as a speed, where a call does `factor`. */
struct unit {
    const char *name;
    double factor;
    int is_speed;
};

/* In each round every contestant makes so many calls; which of them begins changes from round to round. */
struct race race(const struct contestant *contestants, int count, const void *input, int calls, int rounds);

/* The unit of time in which a call of the first contestant is 1 or more. */
struct unit time_unit(const struct race *r);

/*
 * Ends a row whose measure is printed: its unit; a cell with the figures of the first contestant and one with those of
 * the second; for each but the first a cell of its time divided by the first one's; the aim where it is not 0. The
 * figures are of the fastest round and of the median. There are cells for `columns` contestants, empty for those that
 * did not run.
 */
void end_row(const struct race *r, int columns, struct unit unit, double aim);

#endif

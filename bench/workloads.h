/* The runs that are timed: word tables written slot by slot, and where they are to end. */
#ifndef WORKLOADS_H
#define WORKLOADS_H

#include <stddef.h>
#include <stdint.h>

#include "arboricx.h"

enum { WORKLOADS = 3, CHAINS = 4, WORKLOAD_WORDS = ARBORICX_SLOT_WORDS * ARBORICX_MAX_SLOTS };

struct workload {
    const char *name;
    uint32_t *words; /* WORKLOAD_WORDS of them; the base is 0 */
    uint32_t used;
    int32_t f, x;
    uint32_t fuel;
    uint32_t *jobs;
    size_t jobs_len;
};

/* Fills the tables of all workloads; they stay until the program ends. */
void make_workloads(struct workload out[WORKLOADS]);

/* The same for the runs that nest the deepest: one rule again and again, until the fuel of a plain run is spent. */
void make_chains(struct workload out[CHAINS]);

/* The workload with no more fuel and job places than a plain run takes. */
struct workload plain_sized(struct workload w);

#endif

/* What the calls are given while their stack is measured. Written to a file by one program and mapped by another: see stack.c. */
#ifndef STACK_INPUTS_H
#define STACK_INPUTS_H

#include "bench_bundles.h"
#include "workloads.h"

struct stack_table {
    uint32_t words[WORKLOAD_WORDS];
    uint32_t used, fuel, jobs_len;
    int32_t f, x;
};

struct stack_inputs {
    struct bundle bundle;
    struct stack_table runs[WORKLOADS]; /* of a run and of a carry-on */
    struct stack_table chains[CHAINS];  /* of a plain run, the deepest */
};

#endif

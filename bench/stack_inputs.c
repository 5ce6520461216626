/* Writes the inputs of the measured calls to a file: stack-inputs FILE */
#include "stack_inputs.h"

#include <stdio.h>
#include <string.h>

static struct stack_inputs inputs;

static void keep(struct stack_table *out, const struct workload *w)
{
    memcpy(out->words, w->words, sizeof out->words);
    out->used = w->used;
    out->fuel = w->fuel;
    out->jobs_len = (uint32_t)w->jobs_len;
    out->f = w->f;
    out->x = w->x;
}

int main(int argc, char **argv)
{
    struct workload workloads[WORKLOADS], chains[CHAINS];
    FILE *out = argc == 2 ? fopen(argv[1], "wb") : NULL;
    if (out == NULL) {
        fprintf(stderr, "usage: stack-inputs FILE\n");
        return 2;
    }
    make_bundle(&inputs.bundle, ARBORICX_MAX_NODES, ARBORICX_MAX_EXPORTS);
    make_workloads(workloads);
    make_chains(chains);
    for (int i = 0; i < WORKLOADS; i++) keep(&inputs.runs[i], &workloads[i]);
    for (int i = 0; i < CHAINS; i++) keep(&inputs.chains[i], &chains[i]);
    return fwrite(&inputs, sizeof inputs, 1, out) != 1 || fclose(out) != 0 ? 2 : 0;
}

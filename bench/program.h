/* The program check_bundle on a bundle, as a process of its own. */
#ifndef PROGRAM_H
#define PROGRAM_H

#include "bench_bundles.h"
#include "side.h"

struct program_run {
    const char *path;
    int input; /* of an open file that holds the bundle */
};

/* A file with the bundle, for as long as the bench runs. */
struct program_run make_program_run(const char *path, const struct bundle *b);

/* One run from the start of the process to its end; what it writes is thrown away. Ends the bench where it fails. */
void run_program(const struct side *side, const void *input);

#endif

/* The table of plain C's calls. TABLE is its name where another compiler makes it, FLAGS what that one was told. */
#include "plain_run.h"
#include "reference.h"
#include "side.h"

#ifndef TABLE
#define TABLE plain_c
#endif

#ifdef __clang__
#define COMPILER "clang " __clang_version__
#else
#define COMPILER "gcc " __VERSION__ " "
#endif

const struct side TABLE = {
    .compiler = COMPILER FLAGS,
    .load = reference_load,
    .run = plain_run,
    .carry_on = plain_carry_on,
    .export_index = reference_export_index,
    .export_name = reference_export_name,
    .sha256 = reference_sha256,
    .sound = plain_sound,
    .jobs_sound = plain_jobs_sound,
};

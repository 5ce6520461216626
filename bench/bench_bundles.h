/* Writes sound bundles of given node and export counts, for the timing of loads and of the export calls. */
#ifndef BENCH_BUNDLES_H
#define BENCH_BUNDLES_H

#include <stddef.h>
#include <stdint.h>

#include "arboricx.h"

enum { EXPORT_NAME_BYTES = 24 };

struct bundle {
    uint32_t nodes, exports;
    size_t len;
    uint8_t bytes[ARBORICX_MAX_FILE];
};

/*
 * A bundle of 1 to ARBORICX_MAX_NODES nodes, a leaf, stems and forks, sorted by hash, and of 1 to ARBORICX_MAX_EXPORTS
 * exports; these and its one root name the last node made.
 */
void make_bundle(struct bundle *out, uint32_t nodes, uint32_t exports);

/* The name of an export: `main` where it is the only one. */
void export_name_of(const struct bundle *b, uint32_t index, char out[EXPORT_NAME_BYTES]);

#endif

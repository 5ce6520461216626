/*
 * One side of a race: the calls that are timed, as a table. The archive has one, and plain C has one for each compiler
 * that it is compiled by.
 */
#ifndef SIDE_H
#define SIDE_H

#include <stddef.h>
#include <stdint.h>

struct side {
    const char *compiler;
    uint32_t (*load)(const uint8_t *, uint64_t, uint32_t *, uint64_t, int32_t, uint32_t *, uint64_t, uint32_t *);
    uint32_t (*run)(uint32_t *, uint64_t, int32_t, int32_t, int32_t, uint32_t, uint32_t, uint32_t *, uint64_t,
                    uint32_t *);
    uint32_t (*carry_on)(uint32_t *, uint64_t, int32_t, int32_t, int32_t, uint32_t, uint32_t, uint32_t, uint32_t,
                         uint32_t *, uint64_t, uint32_t *);
    uint32_t (*export_index)(const uint8_t *, uint64_t, const uint8_t *, uint64_t, uint32_t *);
    void (*export_name)(const uint8_t *, uint64_t, uint32_t, uint64_t *);
    void (*sha256)(const uint8_t *, uint64_t, uint8_t *);
    /* Plain C alone: the tests that a run and a carry-on of the archive begin with. */
    int (*sound)(const uint32_t *, uint32_t);
    int (*jobs_sound)(const uint32_t *, uint64_t, uint32_t, uint32_t);
};

extern const struct side plain_c, plain_c_clang;

#endif

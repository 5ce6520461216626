/*
 * Makes bundles of many shapes, sound ones and damaged ones, out of dice.
 */
#ifndef BUNDLES_H
#define BUNDLES_H

#include "dice.h"

#include <stddef.h>
#include <stdint.h>

enum {
    BUNDLE_CAPACITY = 96 * 1024, /* bytes; the longest file made is shorter */
    BUNDLE_EXPORTS = 33,
    BUNDLE_RECORDS = 514,
    BUNDLE_UNKNOWN = -1
};

struct bundle_export {
    uint32_t name_at, name_len; /* in the file, as first written */
    uint32_t hash_at;
};

struct bundle {
    uint8_t bytes[BUNDLE_CAPACITY];
    size_t length;
    int expected;   /* the number that a check has to answer, or BUNDLE_UNKNOWN */
    int untouched;  /* nothing was damaged: records and exports are where they were written */
    uint32_t node_count;
    uint32_t record_at[BUNDLE_RECORDS]; /* in the file, as first written */
    uint32_t export_count;
    struct bundle_export exports[BUNDLE_EXPORTS];
};

void bundle_make(struct bundle *bundle, struct dice *dice);

/* A text of valid UTF-8 of exactly so many bytes. */
void bundle_text(struct dice *dice, uint8_t *bytes, uint32_t length);

/* A byte sequence that no UTF-8 text has, at most five bytes. Answers how many. */
uint32_t bundle_bad_utf8(struct dice *dice, uint8_t bytes[5]);

#endif

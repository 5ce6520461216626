/*
 * What a bundle is made of before it is written, and where its items went. Shared by the writer of bundles and by the
 * damage done to them.
 */
#ifndef PLAN_H
#define PLAN_H

#include "bundles.h"

enum {
    PLAN_TREES = 513,
    PLAN_RECORDS = BUNDLE_RECORDS,
    PLAN_ROOTS = 17,
    PLAN_EXPORTS = 33,
    PLAN_FIELDS = 17,
    PLAN_SECTIONS = 16,
    PLAN_TEXT = 200,
    PLAN_STRINGS = 9,
    PLAN_EVALUATION = 7,
    PLAN_CAPABILITIES = 3,
    PLAN_MARKS = 4096,
    PLAN_HASH = 32
};

struct text {
    uint32_t length;
    uint8_t bytes[PLAN_TEXT];
};

/* Trees are listed children first; tree 0 is the leaf. No two are equal. */
struct tree {
    uint16_t children;
    uint16_t child[2];
};

struct plan_root {
    uint16_t tree;
    struct text role;
};

struct plan_export {
    uint16_t tree;
    struct text name, kind, abi;
};

struct plan_section {
    uint32_t type;
    uint16_t version, flags, compression, algorithm;
    uint64_t offset, length;
    uint32_t gap; /* bytes that belong to no section, before it */
};

struct plan {
    struct tree trees[PLAN_TREES];
    uint8_t hashes[PLAN_TREES][PLAN_HASH];
    uint32_t tree_count, tree_limit;
    uint16_t records[PLAN_RECORDS]; /* tree numbers in the order of the file */
    uint32_t record_count;
    struct text strings[PLAN_STRINGS];
    struct text capabilities[PLAN_CAPABILITIES];
    uint32_t capability_count;
    uint8_t closure;
    struct plan_root roots[PLAN_ROOTS];
    uint32_t root_count;
    struct plan_export exports[PLAN_EXPORTS];
    uint32_t export_count;
    uint16_t fields[2][PLAN_FIELDS]; /* lengths of metadata and extension fields */
    uint32_t field_count[2];
    struct plan_section sections[PLAN_SECTIONS];
    uint32_t section_count;
    int32_t manifest_tail, nodes_tail; /* bytes left over at the end of a section; negative: bytes cut off */
    uint32_t skipped, doubled;         /* items of the sections, from 1 on, that are left out or written twice */
    int nested;                        /* the nodes are the value of the last extension field */
    size_t file_length;                /* the file is filled up to this length */
    int repair;                        /* digests are made right again after damage to the bytes */
};

enum mark_kind { MARK_NUMBER, MARK_HASH, MARK_TEXT, MARK_KINDS };
enum mark_level { LEVEL_HEADER, LEVEL_DIRECTORY, LEVEL_MANIFEST, LEVEL_NODES, LEVELS };

/* Where an item is in the file. */
struct mark {
    uint32_t at, length;
    uint8_t kind, level;
};

struct marks {
    struct mark list[PLAN_MARKS];
    uint32_t count;
};

/* Damage to the plan: lengths and counts may change. Answers the number it has to lead to if it is the only one. */
int damage_plan(struct plan *plan, struct dice *dice);

/* Damage to the written bytes. */
void damage_bytes(struct bundle *bundle, const struct plan *plan, const struct marks *marks, struct dice *dice);

/* Makes the digests of the manifest and the nodes right, as far as the directory still says where they are. */
void repair_digests(struct bundle *bundle, uint32_t section_count);

void node_hash(const uint8_t *payload, size_t payload_len, uint8_t hash[PLAN_HASH]);

void write_number(uint8_t *at, uint32_t width, uint64_t number);
uint64_t read_number(const uint8_t *at, uint32_t width);

void text_set(struct text *text, const char *characters);

#endif

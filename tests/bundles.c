#include "bundles.h"
#include "plan.h"
#include "reference.h"

#include <string.h>

enum { HEADER = 32, ENTRY = 60, MANIFEST = 1, NODES = 2, LONGEST_FILE = 65536 };

/* ---- Texts */

/* A code point whose UTF-8 form has so many bytes; often one at the edge of what is allowed. */
static uint32_t some_character(struct dice *dice, uint32_t size)
{
    static const uint32_t edges[5][4] = {{0},
                                         {0, 0x2e, 0x61, 0x7f},
                                         {0x80, 0xff, 0x100, 0x7ff},
                                         {0x800, 0xd7ff, 0xe000, 0xffff},
                                         {0x10000, 0x1ffff, 0xfffff, 0x10ffff}};

    if (dice_once_in(dice, 2))
        return edges[size][dice_below(dice, 4)];
    if (size == 1)
        return dice_below(dice, 0x80);
    if (size == 2)
        return dice_from(dice, 0x80, 0x7ff);
    if (size == 3)
        return dice_once_in(dice, 2) ? dice_from(dice, 0x800, 0xd7ff) : dice_from(dice, 0xe000, 0xffff);
    return dice_from(dice, 0x10000, 0x10ffff);
}

static void put_character(uint8_t *bytes, uint32_t character, uint32_t size)
{
    static const uint8_t first[5] = {0, 0, 0xc0, 0xe0, 0xf0};

    for (uint32_t i = size - 1; i > 0; i--) {
        bytes[i] = (uint8_t)(0x80 | (character & 0x3f));
        character >>= 6;
    }
    bytes[0] = (uint8_t)(first[size] | character);
}

void bundle_text(struct dice *dice, uint8_t *bytes, uint32_t length)
{
    int plain = dice_below(dice, 3) > 0;
    uint32_t at = 0;

    while (at < length) {
        uint32_t size = plain ? 1 : dice_from(dice, 1, 4);
        if (size > length - at)
            size = length - at;
        put_character(bytes + at, some_character(dice, size), size);
        at += size;
    }
}

static const char *const bad_sequences[] = {
    "\xc1\x81", "\xc1\xbf", "\xe0\x81\x81", "\xe0\x9f\xbf", "\xf0\x81\x81\x81", "\xf0\x8f\xbf\xbf", /* overlong */
    "\xed\xa0\x80", "\xed\xbf\xbf", "\xed\xa0\xbf",                                     /* surrogates */
    "\xf4\x90\x80\x80", "\xf5\x80\x80\x80", "\xf7\xbf\xbf\xbf", "\xf8\x88\x80\x80\x80", /* above 10FFFF */
    "\xfe", "\xff", "\x80", "\xbf",                                                     /* bytes that start nothing */
    "\xc3", "\xdf", "\xe2\x82", "\xef\xbf", "\xf0\x9f\x98", "\xf4\x8f", "\xe1"};        /* cut short */

uint32_t bundle_bad_utf8(struct dice *dice, uint8_t bytes[5])
{
    const char *sequence = bad_sequences[dice_below(dice, sizeof bad_sequences / sizeof bad_sequences[0])];
    uint32_t length = (uint32_t)strlen(sequence);

    memcpy(bytes, sequence, length);
    if (dice_once_in(dice, 6)) {
        bytes[0] = 0xc0; /* the overlong zero byte */
        bytes[1] = (uint8_t)dice_from(dice, 0x80, 0xbf);
        length = 2;
    }
    return length;
}

void text_set(struct text *text, const char *characters)
{
    text->length = (uint32_t)strlen(characters);
    memcpy(text->bytes, characters, text->length);
}

static void text_any(struct text *text, struct dice *dice, uint32_t least, uint32_t most)
{
    text->length = dice_from(dice, least, most);
    bundle_text(dice, text->bytes, text->length);
}

/* ---- Trees */

static uint32_t plan_tree(struct plan *plan, uint32_t children, uint32_t a, uint32_t b)
{
    for (uint32_t i = 0; i < plan->tree_count; i++) {
        const struct tree *tree = &plan->trees[i];
        if (tree->children == children && tree->child[0] == a && tree->child[1] == b)
            return i;
    }
    if (plan->tree_count == plan->tree_limit)
        return plan->tree_count - 1;
    plan->trees[plan->tree_count] = (struct tree){(uint16_t)children, {(uint16_t)a, (uint16_t)b}};
    return plan->tree_count++;
}

static uint32_t stem(struct plan *plan, uint32_t a)
{
    return plan_tree(plan, 1, a, 0);
}

static uint32_t fork_of(struct plan *plan, uint32_t a, uint32_t b)
{
    return plan_tree(plan, 2, a, b);
}

static uint32_t identity(struct plan *plan)
{
    return fork_of(plan, stem(plan, stem(plan, 0)), 0);
}

/* D: D to D never ends. */
static uint32_t doubling(struct plan *plan)
{
    uint32_t i = identity(plan);

    return fork_of(plan, stem(plan, i), i);
}

/* A tree that, applied to itself, comes back to this with so many more jobs waiting. */
static uint32_t tower(struct plan *plan, uint32_t jobs)
{
    uint32_t tree = doubling(plan);

    for (uint32_t i = 0; i < jobs; i++)
        tree = fork_of(plan, stem(plan, tree), 0);
    return tree;
}

static uint32_t known_tree(struct plan *plan, struct dice *dice)
{
    switch (dice_below(dice, 8)) {
    case 0:
        return 0;
    case 1:
        return stem(plan, 0);
    case 2:
        return identity(plan);
    case 3:
        return fork_of(plan, fork_of(plan, 0, 0), 0);
    case 4:
        return fork_of(plan, stem(plan, 0), 0);
    case 5:
        return tower(plan, dice_from(dice, 1, 4));
    default:
        return doubling(plan);
    }
}

enum shape { SHAPE_STEMS, SHAPE_FORKS, SHAPE_DOUBLED, SHAPE_LEVELS, SHAPE_PROGRAMS, SHAPE_RECENT, SHAPE_ANY, SHAPES };

static uint32_t some_tree(const struct plan *plan, struct dice *dice, enum shape shape)
{
    uint32_t recent = plan->tree_count < 6 ? plan->tree_count : 6;

    if (shape == SHAPE_RECENT && !dice_once_in(dice, 4))
        return plan->tree_count - 1 - dice_below(dice, recent);
    return dice_below(dice, plan->tree_count);
}

/* A tree that makes one certain rule come next. */
static void add_program(struct plan *plan, struct dice *dice)
{
    uint32_t a = some_tree(plan, dice, SHAPE_ANY), b = some_tree(plan, dice, SHAPE_ANY);
    uint32_t c = some_tree(plan, dice, SHAPE_ANY);

    switch (dice_below(dice, 6)) {
    case 0:
        stem(plan, a);
        break;
    case 1:
        fork_of(plan, 0, a);
        break;
    case 2:
    case 3:
        fork_of(plan, stem(plan, a), b);
        break;
    default:
        fork_of(plan, fork_of(plan, a, b), c);
        break;
    }
}

static void add_tree(struct plan *plan, struct dice *dice, enum shape shape)
{
    uint32_t last = plan->tree_count - 1;
    uint32_t a = some_tree(plan, dice, shape), b = some_tree(plan, dice, shape);

    switch (shape) {
    case SHAPE_STEMS:
        stem(plan, last);
        break;
    case SHAPE_FORKS:
        fork_of(plan, dice_once_in(dice, 2) ? last : 0, last);
        break;
    case SHAPE_DOUBLED:
        fork_of(plan, last, last);
        break;
    case SHAPE_LEVELS:
        fork_of(plan, last / 2, (last + 1) / 2);
        fork_of(plan, last, last / 2);
        break;
    case SHAPE_PROGRAMS:
        add_program(plan, dice);
        break;
    default:
        if (dice_once_in(dice, 3))
            stem(plan, a);
        else
            fork_of(plan, a, b);
        break;
    }
}

static uint32_t some_tree_count(struct dice *dice)
{
    switch (dice_below(dice, 40)) {
    case 0:
    case 1:
        return 1;
    case 2:
        return 512;
    case 3:
        return dice_from(dice, 41, 512);
    case 4:
    case 5:
    case 6:
        return dice_from(dice, 41, 120);
    default:
        return dice_below(dice, 3) == 0 ? dice_from(dice, 2, 8) : dice_from(dice, 6, 40);
    }
}

static void hash_trees(struct plan *plan)
{
    for (uint32_t i = 0; i < plan->tree_count; i++) {
        const struct tree *tree = &plan->trees[i];
        uint8_t payload[1 + 2 * PLAN_HASH];
        payload[0] = (uint8_t)tree->children;
        for (uint32_t c = 0; c < tree->children; c++)
            memcpy(payload + 1 + c * PLAN_HASH, plan->hashes[tree->child[c]], PLAN_HASH);
        node_hash(payload, 1 + (size_t)tree->children * PLAN_HASH, plan->hashes[i]);
    }
}

static void grow_trees(struct plan *plan, struct dice *dice)
{
    enum shape shape = (enum shape)dice_below(dice, SHAPES);
    uint32_t tries = 0;

    plan->tree_limit = some_tree_count(dice);
    plan->tree_count = 0;
    plan_tree(plan, 0, 0, 0);
    for (uint32_t i = dice_below(dice, 5); i > 0; i--)
        known_tree(plan, dice);
    if (dice_once_in(dice, 20))
        tower(plan, 40);
    while (plan->tree_count < plan->tree_limit && tries++ < 4 * PLAN_TREES)
        add_tree(plan, dice, shape);
    hash_trees(plan);
}

/* ---- The order of records */

static void sort_records(struct plan *plan)
{
    for (uint32_t i = 1; i < plan->record_count; i++) {
        uint16_t record = plan->records[i];
        uint32_t at = i;
        for (; at > 0 && memcmp(plan->hashes[plan->records[at - 1]], plan->hashes[record], PLAN_HASH) > 0; at--)
            plan->records[at] = plan->records[at - 1];
        plan->records[at] = record;
    }
}

static void reverse_records(struct plan *plan)
{
    for (uint32_t i = 0; i < plan->record_count / 2; i++) {
        uint16_t record = plan->records[i];
        plan->records[i] = plan->records[plan->record_count - 1 - i];
        plan->records[plan->record_count - 1 - i] = record;
    }
}

static void shuffle_records(struct plan *plan, struct dice *dice)
{
    for (uint32_t i = plan->record_count; i > 1; i--) {
        uint32_t other = dice_below(dice, i);
        uint16_t record = plan->records[i - 1];
        plan->records[i - 1] = plan->records[other];
        plan->records[other] = record;
    }
}

static void order_records(struct plan *plan, struct dice *dice)
{
    plan->record_count = plan->tree_count;
    for (uint32_t i = 0; i < plan->record_count; i++)
        plan->records[i] = (uint16_t)i;
    switch (dice_below(dice, 6)) {
    case 0:
        break; /* children first */
    case 1:
        reverse_records(plan); /* parents first */
        break;
    case 2:
        sort_records(plan);
        reverse_records(plan);
        break;
    case 3:
        sort_records(plan);
        break;
    default:
        shuffle_records(plan, dice);
        break;
    }
}

/* ---- The manifest's items */

static uint32_t some_count(struct dice *dice, uint32_t most)
{
    if (dice_once_in(dice, 12))
        return most;
    return dice_from(dice, 1, dice_once_in(dice, 3) ? most : most < 4 ? most : 4);
}

static int name_taken(const struct plan *plan, uint32_t index)
{
    const struct text *name = &plan->exports[index].name;

    for (uint32_t i = 0; i < index; i++)
        if (plan->exports[i].name.length == name->length &&
            memcmp(plan->exports[i].name.bytes, name->bytes, name->length) == 0)
            return 1;
    return 0;
}

/* The name of another export with one byte changed, or one less. */
static void almost_name(struct text *name, const struct text *other, struct dice *dice)
{
    uint32_t at = dice_below(dice, other->length);

    *name = *other;
    if (name->length > 1 && name->bytes[name->length - 1] < 0x80 && dice_once_in(dice, 4))
        name->length--;
    else if (name->bytes[at] < 0x80)
        name->bytes[at] = (uint8_t)dice_below(dice, 0x80);
}

/* Names that differ, many of them in one byte only. */
static void name_export(struct plan *plan, struct dice *dice, uint32_t index)
{
    struct text *name = &plan->exports[index].name;

    do {
        if (index > 0 && dice_once_in(dice, 3)) {
            almost_name(name, &plan->exports[dice_below(dice, index)].name, dice);
        } else {
            text_any(name, dice, 1, dice_once_in(dice, 3) ? 64 : 12);
            if (dice_once_in(dice, 10))
                text_any(name, dice, 64, 64);
        }
    } while (name_taken(plan, index));
}

static uint16_t exported_tree(const struct plan *plan, struct dice *dice)
{
    uint32_t last = plan->tree_count - 1;

    return (uint16_t)(dice_once_in(dice, 3) ? last : dice_below(dice, plan->tree_count));
}

static void plan_manifest(struct plan *plan, struct dice *dice)
{
    static const char *const strings[PLAN_STRINGS] = {
        "arboricx.bundle.manifest.v1", "tree-calculus-executable-object", "tree-calculus.v1", "sha256",
        "arboricx.merkle.node.v1",     "arboricx.merkle.payload.v1",      "tree-calculus.v1", "",
        "arboricx.abi.tree.v1"};

    for (uint32_t i = 0; i < PLAN_STRINGS; i++)
        text_set(&plan->strings[i], strings[i]);
    text_any(&plan->strings[PLAN_EVALUATION], dice, 0, dice_once_in(dice, 8) ? PLAN_TEXT : 30);
    plan->capability_count = 0;
    plan->closure = 0;
    plan->root_count = some_count(dice, 16);
    for (uint32_t i = 0; i < plan->root_count; i++) {
        plan->roots[i].tree = exported_tree(plan, dice);
        text_any(&plan->roots[i].role, dice, 0, 12);
    }
    plan->export_count = some_count(dice, 32);
    for (uint32_t i = 0; i < plan->export_count; i++) {
        plan->exports[i].tree = exported_tree(plan, dice);
        name_export(plan, dice, i);
        text_any(&plan->exports[i].kind, dice, 0, 12);
        text_set(&plan->exports[i].abi, "arboricx.abi.tree.v1");
    }
    for (uint32_t which = 0; which < 2; which++) {
        plan->field_count[which] = dice_once_in(dice, 2) ? 0 : some_count(dice, 16);
        for (uint32_t i = 0; i < plan->field_count[which]; i++)
            plan->fields[which][i] = (uint16_t)dice_below(dice, dice_once_in(dice, 20) ? 800 : 20);
    }
    plan->nested = plan->field_count[1] > 0 && dice_once_in(dice, 12);
}

/* ---- Sections */

static void plan_section(struct plan *plan, struct dice *dice, uint32_t type)
{
    struct plan_section *section = &plan->sections[plan->section_count++];

    section->type = type;
    section->version = (uint16_t)dice_word(dice);
    section->flags = (uint16_t)dice_word(dice);
    if (type != MANIFEST && type != NODES)
        section->flags &= 0xfffe;
    section->compression = 0;
    section->algorithm = 1;
    section->offset = 0;
    section->length = dice_below(dice, 40);
    section->gap = dice_once_in(dice, 4) ? dice_below(dice, 50) : 0;
}

static uint32_t unknown_type(struct dice *dice)
{
    static const uint32_t edges[] = {0,       3,         4,         0x100,      0x101,     0x10000,
                                     0x20000, 0x1000000, 0x2000000, 0x80000001, 0xffffffff};

    return edges[dice_below(dice, sizeof edges / sizeof edges[0])];
}

static void plan_sections(struct plan *plan, struct dice *dice)
{
    uint32_t more = dice_once_in(dice, 2) ? 0 : dice_once_in(dice, 6) ? 14 : dice_below(dice, 5);
    uint32_t manifest_at = dice_below(dice, more + 2), nodes_at = dice_below(dice, more + 1);

    nodes_at += nodes_at >= manifest_at;
    plan->section_count = 0;
    while (plan->section_count < more + 2) {
        uint32_t type = unknown_type(dice);
        if (plan->section_count == manifest_at)
            type = MANIFEST;
        if (plan->section_count == nodes_at)
            type = NODES;
        plan_section(plan, dice, type);
    }
    plan->manifest_tail = 0;
    plan->nodes_tail = 0;
    plan->file_length = 0;
    if (dice_once_in(dice, 400))
        plan->file_length = LONGEST_FILE;
    else if (dice_once_in(dice, 6))
        plan->file_length = dice_once_in(dice, 3) ? 4096 * dice_from(dice, 1, 3) : dice_below(dice, 3000);
}

/* ---- Writing */

struct writer {
    struct bundle *bundle;
    struct marks *marks;
    struct dice *dice;
    enum mark_level level;
    uint32_t items, skipped, doubled; /* items of sections: how many so far, and which are not written once */
};

void write_number(uint8_t *at, uint32_t width, uint64_t number)
{
    for (uint32_t i = 0; i < width; i++)
        at[i] = (uint8_t)(number >> (8 * (width - 1 - i)));
}

uint64_t read_number(const uint8_t *at, uint32_t width)
{
    uint64_t number = 0;

    for (uint32_t i = 0; i < width; i++)
        number = number << 8 | at[i];
    return number;
}

void node_hash(const uint8_t *payload, size_t payload_len, uint8_t hash[PLAN_HASH])
{
    uint8_t bytes[24 + 1 + 2 * PLAN_HASH] = "arboricx.merkle.node.v1";

    memcpy(bytes + 24, payload, payload_len);
    reference_sha256(bytes, 24 + payload_len, hash);
}

static void mark(struct writer *writer, uint32_t length, enum mark_kind kind)
{
    struct marks *marks = writer->marks;

    if (marks->count < PLAN_MARKS)
        marks->list[marks->count++] =
            (struct mark){(uint32_t)writer->bundle->length, length, (uint8_t)kind, (uint8_t)writer->level};
}

static void put(struct writer *writer, const void *bytes, size_t length)
{
    struct bundle *bundle = writer->bundle;

    if (length > BUNDLE_CAPACITY - bundle->length)
        length = BUNDLE_CAPACITY - bundle->length;
    memcpy(bundle->bytes + bundle->length, bytes, length);
    bundle->length += length;
}

static void put_any(struct writer *writer, size_t length)
{
    struct bundle *bundle = writer->bundle;

    if (length > BUNDLE_CAPACITY - bundle->length)
        length = BUNDLE_CAPACITY - bundle->length;
    dice_fill(writer->dice, bundle->bytes + bundle->length, length);
    bundle->length += length;
}

static void put_item(struct writer *writer, const void *bytes, uint32_t length, enum mark_kind kind)
{
    uint32_t item = writer->level == LEVEL_MANIFEST || writer->level == LEVEL_NODES ? ++writer->items : 0;

    if (item > 0 && item == writer->skipped)
        return;
    if (length > 0)
        mark(writer, length, kind);
    put(writer, bytes, length);
    if (item > 0 && item == writer->doubled)
        put(writer, bytes, length);
}

static void put_number(struct writer *writer, uint32_t width, uint64_t number)
{
    uint8_t bytes[8];

    write_number(bytes, width, number);
    put_item(writer, bytes, width, MARK_NUMBER);
}

static void put_hash(struct writer *writer, const uint8_t *hash)
{
    put_item(writer, hash, PLAN_HASH, MARK_HASH);
}

static void put_text(struct writer *writer, const struct text *text)
{
    put_number(writer, 4, text->length);
    put_item(writer, text->bytes, text->length, MARK_TEXT);
}

/* Bytes left over at the end of a section, or bytes cut off. */
static void put_tail(struct writer *writer, int32_t tail, size_t start)
{
    struct bundle *bundle = writer->bundle;

    if (tail >= 0)
        put_any(writer, (size_t)tail);
    else if ((size_t)-tail <= bundle->length - start)
        bundle->length -= (size_t)-tail;
    else
        bundle->length = start;
}

static void put_nodes(struct writer *writer, const struct plan *plan)
{
    size_t start = writer->bundle->length;

    writer->level = LEVEL_NODES;
    put_number(writer, 8, plan->record_count);
    for (uint32_t i = 0; i < plan->record_count; i++) {
        const struct tree *tree = &plan->trees[plan->records[i]];
        writer->bundle->record_at[i] = (uint32_t)writer->bundle->length;
        put_hash(writer, plan->hashes[plan->records[i]]);
        put_number(writer, 4, 1 + (uint64_t)tree->children * PLAN_HASH);
        put_number(writer, 1, tree->children);
        for (uint32_t c = 0; c < tree->children; c++)
            put_hash(writer, plan->hashes[tree->child[c]]);
    }
    put_tail(writer, plan->nodes_tail, start);
    writer->level = LEVEL_MANIFEST;
}

static void put_exports(struct writer *writer, const struct plan *plan)
{
    struct bundle *bundle = writer->bundle;

    put_number(writer, 4, plan->export_count);
    bundle->export_count = plan->export_count;
    for (uint32_t i = 0; i < plan->export_count; i++) {
        bundle->exports[i].name_at = (uint32_t)bundle->length + 4;
        bundle->exports[i].name_len = plan->exports[i].name.length;
        put_text(writer, &plan->exports[i].name);
        bundle->exports[i].hash_at = (uint32_t)bundle->length;
        put_hash(writer, plan->hashes[plan->exports[i].tree]);
        put_text(writer, &plan->exports[i].kind);
        put_text(writer, &plan->exports[i].abi);
    }
}

/* The nodes inside the manifest: two sections that share bytes. */
static void put_nested_nodes(struct writer *writer, const struct plan *plan, struct plan_section *nodes)
{
    uint8_t *length_at = writer->bundle->bytes + writer->bundle->length;

    put_number(writer, 4, 0);
    nodes->offset = writer->bundle->length;
    put_nodes(writer, plan);
    nodes->length = writer->bundle->length - nodes->offset;
    write_number(length_at, 4, nodes->length);
}

static void put_fields(struct writer *writer, const struct plan *plan, uint32_t which, struct plan_section *nodes)
{
    put_number(writer, 4, plan->field_count[which]);
    for (uint32_t i = 0; i < plan->field_count[which]; i++) {
        put_number(writer, 2, dice_word(writer->dice) & 0xffff);
        if (which == 1 && plan->nested && i + 1 == plan->field_count[which]) {
            put_nested_nodes(writer, plan, nodes);
            continue;
        }
        put_number(writer, 4, plan->fields[which][i]);
        put_any(writer, plan->fields[which][i]);
    }
}

static void put_manifest(struct writer *writer, const struct plan *plan, struct plan_section *nodes)
{
    size_t start = writer->bundle->length;

    writer->level = LEVEL_MANIFEST;
    put_item(writer, "ARBMNFST", 8, MARK_TEXT);
    put_number(writer, 2, 1);
    put_any(writer, 2);
    for (uint32_t i = 0; i < PLAN_STRINGS; i++)
        put_text(writer, &plan->strings[i]);
    put_number(writer, 4, plan->capability_count);
    for (uint32_t i = 0; i < plan->capability_count && i < PLAN_CAPABILITIES; i++)
        put_text(writer, &plan->capabilities[i]);
    put_number(writer, 1, plan->closure);
    put_number(writer, 4, plan->root_count);
    for (uint32_t i = 0; i < plan->root_count; i++) {
        put_hash(writer, plan->hashes[plan->roots[i].tree]);
        put_text(writer, &plan->roots[i].role);
    }
    put_exports(writer, plan);
    put_fields(writer, plan, 0, nodes);
    put_fields(writer, plan, 1, nodes);
    put_tail(writer, plan->manifest_tail, start);
}

static struct plan_section *section_of_type(struct plan *plan, uint32_t type)
{
    uint32_t i = 0;

    while (i + 1 < plan->section_count && plan->sections[i].type != type)
        i++;
    return &plan->sections[i];
}

static void put_section(struct writer *writer, struct plan *plan, struct plan_section *section)
{
    struct plan_section *nodes = section_of_type(plan, NODES);

    if (section->type == NODES && plan->nested)
        return;
    put_any(writer, section->gap);
    section->offset = writer->bundle->length;
    if (section->type == MANIFEST)
        put_manifest(writer, plan, nodes);
    else if (section->type == NODES)
        put_nodes(writer, plan);
    else
        put_any(writer, section->length);
    section->length = writer->bundle->length - section->offset;
}

/* A section that is skipped may lie anywhere in the file, also over others. */
static void lay_over(struct plan *plan, struct dice *dice, size_t file_len)
{
    for (uint32_t i = 0; i < plan->section_count; i++) {
        struct plan_section *section = &plan->sections[i];
        if (section->type == MANIFEST || section->type == NODES || !dice_once_in(dice, 4))
            continue;
        section->offset = dice_from(dice, 0, (uint32_t)file_len);
        section->length = dice_from(dice, 0, (uint32_t)(file_len - section->offset));
        if (dice_once_in(dice, 3))
            section->offset = file_len - section->length;
    }
}

static void put_header(struct writer *writer, const struct plan *plan)
{
    writer->level = LEVEL_HEADER;
    put_item(writer, "ARBORICX", 8, MARK_TEXT);
    put_number(writer, 2, 1);
    put_number(writer, 2, dice_word(writer->dice));
    put_number(writer, 4, plan->section_count);
    put_number(writer, 8, dice_next(writer->dice));
    put_number(writer, 8, HEADER);
}

static void put_directory(struct writer *writer, const struct plan *plan)
{
    uint8_t digest[PLAN_HASH];

    writer->level = LEVEL_DIRECTORY;
    for (uint32_t i = 0; i < plan->section_count; i++) {
        const struct plan_section *section = &plan->sections[i];
        put_number(writer, 4, section->type);
        put_number(writer, 2, section->version);
        put_number(writer, 2, section->flags);
        put_number(writer, 2, section->compression);
        put_number(writer, 2, section->algorithm);
        put_number(writer, 8, section->offset);
        put_number(writer, 8, section->length);
        dice_fill(writer->dice, digest, PLAN_HASH);
        put_hash(writer, digest);
    }
}

/* Header and directory are written last, when the sections' places are known. */
static void write_bundle(struct bundle *bundle, struct plan *plan, struct marks *marks, struct dice *dice)
{
    struct writer writer = {bundle, marks, dice, LEVEL_HEADER, 0, plan->skipped, plan->doubled};
    uint32_t first = dice_below(dice, plan->section_count);

    marks->count = 0;
    memset(bundle->record_at, 0, sizeof bundle->record_at);
    bundle->export_count = 0;
    bundle->length = HEADER + (size_t)ENTRY * plan->section_count;
    for (uint32_t i = 0; i < plan->section_count; i++)
        put_section(&writer, plan, &plan->sections[(first + i) % plan->section_count]);
    if (plan->file_length > bundle->length)
        put_any(&writer, plan->file_length - bundle->length);
    lay_over(plan, dice, bundle->length);

    size_t length = bundle->length;
    bundle->length = 0;
    put_header(&writer, plan);
    put_directory(&writer, plan);
    bundle->length = length;
    repair_digests(bundle, plan->section_count);
}

void repair_digests(struct bundle *bundle, uint32_t section_count)
{
    for (uint32_t i = 0; i < section_count; i++) {
        uint8_t *entry = bundle->bytes + HEADER + (size_t)i * ENTRY;
        uint64_t type = read_number(entry, 4), offset = read_number(entry + 12, 8), length = read_number(entry + 20, 8);
        if ((type != MANIFEST && type != NODES) || offset > bundle->length || length > bundle->length - offset)
            continue;
        reference_sha256(bundle->bytes + offset, (size_t)length, entry + 28);
    }
}

/* ---- Whole cases */

/* Starts from zeros, so that a case is the same alone as after others. */
static void make_plan(struct plan *plan, struct dice *dice)
{
    memset(plan, 0, sizeof *plan);
    grow_trees(plan, dice);
    order_records(plan, dice);
    plan_manifest(plan, dice);
    plan_sections(plan, dice);
    plan->repair = !dice_once_in(dice, 6);
}

/* A directory of harmless entries that ends with the file, or a byte off. Answers 5 or 10. */
static void make_bare_directory(struct bundle *bundle, struct dice *dice)
{
    uint32_t sections = dice_from(dice, 1, 17), missing = dice_below(dice, 2);

    bundle->length = HEADER + (size_t)ENTRY * sections - missing;
    memset(bundle->bytes, 0, HEADER + (size_t)ENTRY * sections);
    memcpy(bundle->bytes, "ARBORICX\0\1", 10);
    write_number(bundle->bytes + 12, 4, sections);
    write_number(bundle->bytes + 24, 8, HEADER);
    for (uint32_t i = 0; i < sections; i++)
        bundle->bytes[HEADER + ENTRY * i + 11] = 1; /* the digest algorithm */
    bundle->expected = missing > 0 || sections > PLAN_SECTIONS ? 5 : 10;
}

/* Bytes that are no bundle, at times with its first bytes. */
static void make_noise(struct bundle *bundle, struct dice *dice)
{
    static const uint8_t start[32] = "ARBORICX\0\1\0\0\0\0\0\2\0\0\0\0\0\0\0\0\0\0\0\0\0\0\0\40";

    bundle->untouched = 0;
    bundle->node_count = 0;
    bundle->export_count = 0;
    if (dice_once_in(dice, 3)) {
        make_bare_directory(bundle, dice);
        return;
    }
    bundle->length = dice_below(dice, dice_once_in(dice, 3) ? 40 : 400);
    if (dice_once_in(dice, 20))
        bundle->length = LONGEST_FILE + dice_below(dice, 3);
    dice_fill(dice, bundle->bytes, bundle->length);
    if (dice_once_in(dice, 2))
        memcpy(bundle->bytes, start, bundle->length < 32 ? bundle->length : 32);
    bundle->expected = BUNDLE_UNKNOWN;
    if (bundle->length > LONGEST_FILE)
        bundle->expected = 1;
    else if (bundle->length < HEADER)
        bundle->expected = 2;
}

void bundle_make(struct bundle *bundle, struct dice *dice)
{
    static struct plan plan;
    static struct marks marks;
    uint32_t damages = dice_below(dice, 100) < 45 ? 0 : dice_once_in(dice, 4) ? dice_from(dice, 2, 4) : 1;
    int in_bytes = dice_once_in(dice, 2);

    if (dice_once_in(dice, 30)) {
        make_noise(bundle, dice);
        return;
    }
    make_plan(&plan, dice);
    bundle->expected = 0;
    for (uint32_t i = 0; i < damages && !in_bytes; i++)
        bundle->expected = damage_plan(&plan, dice);
    write_bundle(bundle, &plan, &marks, dice);
    for (uint32_t i = 0; i < damages && in_bytes; i++)
        damage_bytes(bundle, &plan, &marks, dice);
    if (bundle->length > LONGEST_FILE)
        bundle->expected = 1;
    else if (damages > 1 || (damages > 0 && in_bytes))
        bundle->expected = BUNDLE_UNKNOWN;
    bundle->untouched = damages == 0;
    bundle->node_count = plan.record_count;
}

#include "plan.h"

#include <string.h>

enum { HEADER = 32, ENTRY = 60, MANIFEST = 1, NODES = 2, LONGEST_FILE = 65536, ENTRY_OFFSET = 12, ENTRY_LENGTH = 20 };

/* ---- Damage to the plan */

static int damage_root_count(struct plan *plan, struct dice *dice)
{
    plan->root_count = dice_once_in(dice, 2) ? 0 : PLAN_ROOTS;
    return 12;
}

static int damage_export_count(struct plan *plan, struct dice *dice)
{
    uint32_t old = plan->export_count;

    plan->export_count = dice_once_in(dice, 2) ? 0 : PLAN_EXPORTS;
    for (uint32_t i = old; i < plan->export_count; i++)
        plan->exports[i] = plan->exports[0];
    return 12;
}

static int damage_field_count(struct plan *plan, struct dice *dice)
{
    uint32_t which = dice_below(dice, 2);

    for (uint32_t i = plan->field_count[which]; i < PLAN_FIELDS; i++)
        plan->fields[which][i] = 3;
    plan->field_count[which] = PLAN_FIELDS;
    return 12;
}

static int damage_record_count(struct plan *plan, struct dice *dice)
{
    if (dice_once_in(dice, 3)) {
        plan->record_count = 0;
        return 15;
    }
    plan->record_count = PLAN_TREES; /* one too many; the last ones repeat the first */
    for (uint32_t i = 0; i < PLAN_TREES; i++)
        plan->records[i] = (uint16_t)(i % plan->tree_count);
    return 15;
}

static int damage_name(struct plan *plan, struct dice *dice)
{
    struct text *name = &plan->exports[dice_below(dice, plan->export_count + (plan->export_count == 0))].name;

    name->length = dice_once_in(dice, 2) ? 0 : dice_once_in(dice, 2) ? 65 : dice_from(dice, 65, PLAN_TEXT);
    bundle_text(dice, name->bytes, name->length);
    return 14;
}

static int damage_equal_names(struct plan *plan, struct dice *dice)
{
    if (plan->export_count < 2) {
        plan->export_count = 2;
        plan->exports[1] = plan->exports[0];
        return 14;
    }
    uint32_t one = dice_below(dice, plan->export_count - 1), other = dice_from(dice, one + 1, plan->export_count - 1);
    plan->exports[other].name = plan->exports[one].name;
    return 14;
}

/* Other text, longer text, shorter text, or another of the fixed strings. */
static void change_text(struct text *text, const struct text *other, struct dice *dice)
{
    switch (dice_below(dice, 4)) {
    case 0:
        text->bytes[dice_below(dice, text->length)] ^= (uint8_t)(1u << dice_below(dice, 7));
        break;
    case 1:
        text->bytes[text->length++] = (uint8_t)dice_below(dice, 0x80);
        break;
    case 2:
        text->length--;
        break;
    default:
        *text = *other;
        break;
    }
}

static int damage_fixed_string(struct plan *plan, struct dice *dice)
{
    uint32_t which = dice_below(dice, PLAN_STRINGS - 1);

    which += which >= PLAN_EVALUATION;
    if (plan->strings[which].length == 0 || plan->strings[which].length == PLAN_TEXT)
        return BUNDLE_UNKNOWN;
    change_text(&plan->strings[which], &plan->strings[(which + 1) % 4], dice);
    return 13;
}

static int damage_abi(struct plan *plan, struct dice *dice)
{
    struct text *abi = &plan->exports[dice_below(dice, plan->export_count + (plan->export_count == 0))].abi;

    if (abi->length == 0 || abi->length == PLAN_TEXT)
        return BUNDLE_UNKNOWN;
    change_text(abi, &plan->strings[dice_below(dice, 4)], dice);
    return 13;
}

static struct text *some_text(struct plan *plan, struct dice *dice)
{
    struct plan_export *item = &plan->exports[dice_below(dice, plan->export_count + (plan->export_count == 0))];

    switch (dice_below(dice, 6)) {
    case 0:
        return &plan->strings[dice_below(dice, PLAN_STRINGS)];
    case 1:
        return &plan->roots[dice_below(dice, plan->root_count + (plan->root_count == 0))].role;
    case 2:
        return &item->kind;
    case 3:
        return &item->abi;
    case 4:
        plan->capability_count = 1;
        text_set(&plan->capabilities[0], "io");
        return &plan->capabilities[0];
    default:
        return &item->name;
    }
}

/* A few characters, a sequence that is no UTF-8, and at times a few more. */
static int damage_utf8(struct plan *plan, struct dice *dice)
{
    struct text *text = some_text(plan, dice);
    uint32_t before = dice_below(dice, 8), after = dice_once_in(dice, 2) ? 0 : dice_below(dice, 8);

    memset(text->bytes, 'x', before);
    text->length = before + bundle_bad_utf8(dice, text->bytes + before);
    memset(text->bytes + text->length, 'y', after);
    text->length += after;
    return 12;
}

/* Bytes around the edges of what may follow a first byte; whether they are UTF-8 is left to be found out. */
static int damage_utf8_edges(struct plan *plan, struct dice *dice)
{
    static const uint8_t first[] = {0x7f, 0x80, 0xbf, 0xc0, 0xc1, 0xc2, 0xdf, 0xe0, 0xe1, 0xec, 0xed,
                                    0xee, 0xef, 0xf0, 0xf1, 0xf3, 0xf4, 0xf5, 0xf8, 0xff};
    static const uint8_t next[] = {0x7f, 0x80, 0x8f, 0x90, 0x9f, 0xa0, 0xbf, 0xc0};
    struct text *text = some_text(plan, dice);
    uint32_t starts = dice_from(dice, 1, 2);

    text->length = 0;
    for (uint32_t i = 0; i < starts; i++) {
        text->bytes[text->length++] = first[dice_below(dice, sizeof first)];
        for (uint32_t more = dice_below(dice, 4); more > 0; more--)
            text->bytes[text->length++] = next[dice_once_in(dice, 3) ? dice_below(dice, 8) : dice_from(dice, 1, 6)];
    }
    return BUNDLE_UNKNOWN;
}

static int damage_closure(struct plan *plan, struct dice *dice)
{
    static const uint8_t bytes[] = {1, 1, 1, 2, 3, 0x80, 0xff};

    plan->closure = bytes[dice_below(dice, sizeof bytes)];
    return plan->closure == 1 ? 13 : 12;
}

static int damage_capabilities(struct plan *plan, struct dice *dice)
{
    static const uint32_t counts[] = {4, 17, 0x7fffffff, 0x80000000, 0xffffffff};

    for (uint32_t i = 0; i < PLAN_CAPABILITIES; i++) {
        plan->capabilities[i].length = dice_below(dice, 9);
        bundle_text(dice, plan->capabilities[i].bytes, plan->capabilities[i].length);
    }
    plan->capability_count = dice_from(dice, 1, PLAN_CAPABILITIES);
    if (!dice_once_in(dice, 4))
        return 13;
    plan->capability_count = counts[dice_below(dice, 5)];
    return BUNDLE_UNKNOWN; /* what follows is taken for strings */
}

static int damage_record_twice(struct plan *plan, struct dice *dice)
{
    uint32_t from, to;

    if (plan->record_count == 0 || plan->record_count >= 512)
        return BUNDLE_UNKNOWN;
    from = dice_below(dice, plan->record_count);
    to = dice_from(dice, 0, plan->record_count);
    uint16_t record = plan->records[from];
    memmove(plan->records + to + 1, plan->records + to, (plan->record_count - to) * sizeof plan->records[0]);
    plan->records[to] = record;
    plan->record_count++;
    return 17;
}

static int tree_named(const struct plan *plan, uint32_t tree)
{
    for (uint32_t i = 0; i < plan->root_count; i++)
        if (plan->roots[i].tree == tree)
            return 1;
    for (uint32_t i = 0; i < plan->export_count; i++)
        if (plan->exports[i].tree == tree)
            return 1;
    return 0;
}

static int tree_has_parent(const struct plan *plan, uint32_t tree)
{
    for (uint32_t i = 0; i < plan->tree_count; i++)
        for (uint32_t c = 0; c < plan->trees[i].children; c++)
            if (plan->trees[i].child[c] == tree)
                return 1;
    return 0;
}

/* A record goes: often that of a root or an export, or one that has no parent. */
static int damage_record_gone(struct plan *plan, struct dice *dice)
{
    if (plan->record_count < 2)
        return BUNDLE_UNKNOWN;
    uint32_t gone = dice_below(dice, plan->record_count);
    for (uint32_t tries = 0; tries < 20 && dice_below(dice, 8) > 0; tries++)
        if (tree_has_parent(plan, plan->records[gone]) || !tree_named(plan, plan->records[gone]))
            gone = dice_below(dice, plan->record_count);
    uint16_t tree = plan->records[gone];
    plan->record_count--;
    memmove(plan->records + gone, plan->records + gone + 1, (plan->record_count - gone) * sizeof plan->records[0]);
    if (tree_has_parent(plan, tree))
        return 18;
    return tree_named(plan, tree) ? 20 : 0;
}

static int damage_tail(struct plan *plan, struct dice *dice)
{
    int32_t more = (int32_t)dice_from(dice, 1, dice_once_in(dice, 2) ? 4 : 40);
    int32_t less = -(int32_t)dice_from(dice, 1, dice_once_in(dice, 2) ? 100 : 3000);
    int32_t tail = dice_once_in(dice, 3) ? more : less;

    plan->nested = 0;
    if (dice_once_in(dice, 2)) {
        plan->manifest_tail = tail;
        return 12;
    }
    plan->nodes_tail = tail;
    return 15;
}

static int damage_item(struct plan *plan, struct dice *dice)
{
    uint32_t item = dice_from(dice, 1, dice_once_in(dice, 2) ? 60 : 300);

    plan->nested = 0;
    if (dice_once_in(dice, 2))
        plan->skipped = item;
    else
        plan->doubled = item;
    return BUNDLE_UNKNOWN; /* what follows is taken for other items, or there are not so many */
}

static struct plan_section *some_section(struct plan *plan, struct dice *dice)
{
    return &plan->sections[dice_below(dice, plan->section_count)];
}

static int damage_section_gone(struct plan *plan, struct dice *dice)
{
    uint32_t gone = dice_once_in(dice, 2) ? MANIFEST : NODES;

    plan->nested = 0;
    for (uint32_t i = 0; i < plan->section_count; i++)
        if (plan->sections[i].type == gone) {
            plan->sections[i].type = 7;
            plan->sections[i].flags &= 0xfffe;
        }
    return 10;
}

static int damage_section_twice(struct plan *plan, struct dice *dice)
{
    if (plan->section_count == PLAN_SECTIONS)
        return damage_section_gone(plan, dice);
    plan->sections[plan->section_count] = *some_section(plan, dice);
    plan->sections[plan->section_count].type = dice_once_in(dice, 2) ? MANIFEST : NODES;
    plan->nested = 0;
    plan->section_count++;
    return 9;
}

static int damage_critical(struct plan *plan, struct dice *dice)
{
    struct plan_section *section = some_section(plan, dice);

    section->flags |= 1;
    return section->type == MANIFEST || section->type == NODES ? 0 : 6;
}

static int damage_coded(struct plan *plan, struct dice *dice)
{
    static const uint16_t values[] = {0, 1, 2, 0x100, 0x101, 0x8000, 0xffff};
    struct plan_section *section = some_section(plan, dice);
    uint16_t value = values[dice_below(dice, 7)];

    if (dice_once_in(dice, 2)) {
        section->compression = value;
        return value == 0 ? 0 : 7;
    }
    section->algorithm = value;
    return value == 1 ? 0 : 7;
}

static int damage_file_length(struct plan *plan, struct dice *dice)
{
    plan->file_length = LONGEST_FILE + (dice_once_in(dice, 8) ? 0 : dice_from(dice, 1, 300));
    return 0; /* the writer sees to the file that became too long */
}

static int (*const plan_damages[])(struct plan *, struct dice *) = {
    damage_root_count,    damage_export_count,  damage_field_count, damage_record_count,  damage_name,
    damage_equal_names,   damage_fixed_string,  damage_abi,         damage_utf8,          damage_utf8,
    damage_utf8,          damage_closure,       damage_capabilities, damage_record_twice, damage_record_twice,
    damage_record_gone,   damage_record_gone,   damage_record_gone, damage_tail,          damage_section_gone,
    damage_section_twice, damage_critical,      damage_coded,       damage_name,          damage_equal_names,
    damage_record_gone,   damage_critical,      damage_tail,        damage_utf8_edges,    damage_utf8_edges,
    damage_utf8_edges,    damage_utf8_edges,    damage_item,        damage_item};

int damage_plan(struct plan *plan, struct dice *dice)
{
    if (dice_once_in(dice, 60))
        return damage_file_length(plan, dice);
    return plan_damages[dice_below(dice, sizeof plan_damages / sizeof plan_damages[0])](plan, dice);
}

/* ---- Damage to the bytes */

/* The first fitting mark from a random one on, or NULL. */
static const struct mark *some_mark(const struct bundle *bundle, const struct marks *marks, struct dice *dice,
                                    enum mark_level level, enum mark_kind kind)
{
    uint32_t start = dice_below(dice, marks->count);

    for (uint32_t i = 0; i < marks->count; i++) {
        const struct mark *mark = &marks->list[(start + i) % marks->count];
        if (mark->level == level && mark->kind == kind && mark->at + mark->length <= bundle->length)
            return mark;
    }
    return NULL;
}

/* Marks of one level and kind, each as likely as the others. */
static const struct mark *fair_mark(const struct bundle *bundle, const struct marks *marks, struct dice *dice,
                                    enum mark_level level, enum mark_kind kind)
{
    const struct mark *mark = some_mark(bundle, marks, dice, level, kind);

    for (uint32_t i = 0; i < 8 && mark != NULL; i++) {
        const struct mark *other = &marks->list[dice_below(dice, marks->count)];
        if (other->level == level && other->kind == kind && other->at + other->length <= bundle->length)
            return other;
    }
    return mark;
}

static uint64_t edge_number(struct dice *dice, uint64_t old, size_t file_len)
{
    static const uint64_t edges[] = {0,          1,          2,          15,          16,          17,         31,
                                     32,         33,         34,         64,          65,          66,         255,
                                     256,        511,        512,        513,         0xffff,      0x10000,    0x10001,
                                     0x7fffffff, 0x80000000, 0xfffffffe, 0xffffffff,  0x100000000, 0x100000020};

    switch (dice_below(dice, 6)) {
    case 0:
        return old + 1;
    case 1:
        return old - 1;
    case 2:
        return dice_once_in(dice, 2) ? (uint64_t)1 << 63 : UINT64_MAX - dice_below(dice, 70);
    case 3:
        return old ^ (uint64_t)1 << dice_below(dice, 64);
    case 4:
        return file_len - old + dice_below(dice, 3) - 1;
    default:
        return edges[dice_below(dice, sizeof edges / sizeof edges[0])];
    }
}

static void damage_number(struct bundle *bundle, const struct marks *marks, struct dice *dice)
{
    enum mark_level level = (enum mark_level)dice_below(dice, LEVELS);
    const struct mark *mark = fair_mark(bundle, marks, dice, level, MARK_NUMBER);

    if (mark == NULL)
        return;
    uint8_t *at = bundle->bytes + mark->at;
    write_number(at, mark->length, edge_number(dice, read_number(at, mark->length), bundle->length));
}

static void damage_hash(struct bundle *bundle, const struct marks *marks, struct dice *dice)
{
    enum mark_level level = dice_once_in(dice, 2) ? LEVEL_MANIFEST : LEVEL_NODES;
    const struct mark *mark = fair_mark(bundle, marks, dice, level, MARK_HASH);
    const struct mark *other = fair_mark(bundle, marks, dice, LEVEL_NODES, MARK_HASH);

    if (mark == NULL)
        return;
    if (other != NULL && dice_once_in(dice, 4))
        memmove(bundle->bytes + mark->at, bundle->bytes + other->at, PLAN_HASH);
    else if (dice_once_in(dice, 3))
        dice_fill(dice, bundle->bytes + mark->at, PLAN_HASH);
    else
        bundle->bytes[mark->at + dice_below(dice, PLAN_HASH)] ^= (uint8_t)(1u << dice_below(dice, 8));
}

static void damage_text(struct bundle *bundle, const struct marks *marks, struct dice *dice)
{
    const struct mark *mark = fair_mark(bundle, marks, dice, LEVEL_MANIFEST, MARK_TEXT);
    uint8_t bad[5];

    if (dice_once_in(dice, 12))
        mark = some_mark(bundle, marks, dice, LEVEL_HEADER, MARK_TEXT);
    if (mark == NULL)
        return;
    uint32_t at = dice_below(dice, mark->length);
    uint32_t length = bundle_bad_utf8(dice, bad);
    if (length > mark->length - at)
        length = mark->length - at;
    if (dice_once_in(dice, 3))
        memcpy(bundle->bytes + mark->at + at, bad, length);
    else
        bundle->bytes[mark->at + at] = (uint8_t)dice_below(dice, dice_once_in(dice, 2) ? 0x80 : 0x100);
}

static void damage_any_byte(struct bundle *bundle, struct dice *dice)
{
    if (bundle->length > 0)
        bundle->bytes[dice_below(dice, (uint32_t)bundle->length)] ^= (uint8_t)(1u << dice_below(dice, 8));
}

static void damage_length(struct bundle *bundle, struct dice *dice)
{
    size_t length = bundle->length;

    if (dice_once_in(dice, 2))
        length = dice_below(dice, (uint32_t)length + 1);
    else if (dice_once_in(dice, 2) && length > 8)
        length -= dice_from(dice, 1, 8);
    else
        length += dice_from(dice, 1, 8);
    if (length > bundle->length)
        dice_fill(dice, bundle->bytes + bundle->length, length - bundle->length);
    bundle->length = length;
}

static uint8_t *some_entry(struct bundle *bundle, const struct plan *plan, struct dice *dice)
{
    uint8_t *entry = bundle->bytes + HEADER + (size_t)ENTRY * dice_below(dice, plan->section_count);

    return entry + ENTRY <= bundle->bytes + bundle->length ? entry : NULL;
}

/* Offset and length that pass the end only as whole numbers: added in 64 bits they wrap. */
static void damage_wrap(struct bundle *bundle, const struct plan *plan, struct dice *dice)
{
    uint8_t *entry = some_entry(bundle, plan, dice);
    uint64_t length = 1 + dice_below(dice, dice_once_in(dice, 2) ? 100 : 0x7fffffff);
    uint64_t sum = dice_from(dice, 0, (uint32_t)bundle->length);

    if (entry == NULL)
        return;
    if (dice_once_in(dice, 3))
        length = read_number(entry + ENTRY_OFFSET, 8);
    if (dice_once_in(dice, 2)) {
        write_number(entry + ENTRY_LENGTH, 8, length);
        write_number(entry + ENTRY_OFFSET, 8, sum - length);
    } else {
        write_number(entry + ENTRY_OFFSET, 8, length);
        write_number(entry + ENTRY_LENGTH, 8, sum - length);
    }
}

/* A section that starts or ends some bytes off. */
static void damage_extent(struct bundle *bundle, const struct plan *plan, struct dice *dice)
{
    uint8_t *entry = some_entry(bundle, plan, dice);

    if (entry == NULL)
        return;
    uint8_t *at = entry + (dice_once_in(dice, 3) ? ENTRY_OFFSET : ENTRY_LENGTH);
    uint64_t number = read_number(at, 8), by = dice_from(dice, 1, dice_once_in(dice, 2) ? 2 : 40);
    write_number(at, 8, dice_once_in(dice, 2) ? number + by : number - by);
    if (dice_once_in(dice, 6)) { /* an empty section at the end of the file, or one byte after it */
        write_number(entry + ENTRY_OFFSET, 8, bundle->length + dice_below(dice, 2));
        write_number(entry + ENTRY_LENGTH, 8, 0);
    }
}

/* One bit of a digest, which is not made right again. */
static void damage_digest(struct bundle *bundle, const struct plan *plan, struct dice *dice)
{
    uint8_t *entry = some_entry(bundle, plan, dice);

    if (entry != NULL)
        entry[ENTRY - PLAN_HASH + dice_below(dice, PLAN_HASH)] ^= (uint8_t)(1u << dice_below(dice, 8));
}

static void damage_entry_copy(struct bundle *bundle, const struct plan *plan, struct dice *dice)
{
    uint8_t *to = some_entry(bundle, plan, dice), *from = some_entry(bundle, plan, dice);

    if (to != NULL && from != NULL)
        memmove(to, from, ENTRY);
}

/* ---- Making hashes right again */

static void rename_hash(struct bundle *bundle, const struct marks *marks, const uint8_t *from, const uint8_t *to)
{
    uint8_t old[PLAN_HASH];

    memcpy(old, from, PLAN_HASH);
    for (uint32_t i = 0; i < marks->count; i++) {
        const struct mark *mark = &marks->list[i];
        if (mark->kind == MARK_HASH && mark->level != LEVEL_DIRECTORY && mark->at + PLAN_HASH <= bundle->length &&
            memcmp(bundle->bytes + mark->at, old, PLAN_HASH) == 0)
            memcpy(bundle->bytes + mark->at, to, PLAN_HASH);
    }
}

/* Children first: each record gets the hash of its payload, and so does all that names it. */
static void repair_hashes(struct bundle *bundle, const struct plan *plan, const struct marks *marks)
{
    uint16_t record_of[PLAN_TREES];

    memset(record_of, 0xff, sizeof record_of);
    for (uint32_t i = 0; i < plan->record_count; i++)
        record_of[plan->records[i]] = (uint16_t)i;
    for (uint32_t i = 0; i < plan->tree_count; i++) {
        size_t payload_len = 1 + (size_t)plan->trees[i].children * PLAN_HASH;
        uint8_t hash[PLAN_HASH];
        if (record_of[i] == 0xffff || bundle->record_at[record_of[i]] + 36 + payload_len > bundle->length)
            continue;
        uint8_t *record = bundle->bytes + bundle->record_at[record_of[i]];
        node_hash(record + 36, payload_len, hash);
        if (memcmp(hash, record, PLAN_HASH) != 0)
            rename_hash(bundle, marks, record, hash);
    }
}

void damage_bytes(struct bundle *bundle, const struct plan *plan, const struct marks *marks, struct dice *dice)
{
    uint32_t kind = dice_below(dice, 21);

    if (kind == 20) {
        damage_digest(bundle, plan, dice);
        return;
    }
    if (kind < 6)
        damage_number(bundle, marks, dice);
    else if (kind < 11)
        damage_hash(bundle, marks, dice);
    else if (kind < 14)
        damage_text(bundle, marks, dice);
    else if (kind < 15)
        damage_any_byte(bundle, dice);
    else if (kind < 16)
        damage_length(bundle, dice);
    else if (kind < 18)
        damage_wrap(bundle, plan, dice);
    else if (kind < 19)
        damage_extent(bundle, plan, dice);
    else
        damage_entry_copy(bundle, plan, dice);
    if (!plan->repair)
        return;
    if (dice_below(dice, 3) > 0)
        repair_hashes(bundle, plan, marks);
    repair_digests(bundle, plan->section_count);
}

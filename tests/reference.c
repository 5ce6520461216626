#include "reference.h"

#include <stdbool.h>
#include <string.h>

#ifdef REFERENCE_FAULTS
int reference_fault = FAULT_NONE;
#endif

enum {
    MAX_FILE = 65536,
    HEADER_BYTES = 32,
    ENTRY_BYTES = 60,
    HASH_BYTES = 32,
    MAX_SECTIONS = 16,
    MAX_ROOTS = 16,
    MAX_EXPORTS = 32,
    MAX_FIELDS = 16,
    MAX_NAME = 64,
    MAX_NODES = 512,
    MAX_SLOTS = 65535,
    MAX_JOBS = 65535,
    MAX_PLAIN = 1000,
    SLOT_WORDS = 2,
    JOB_WORDS = 3,
    TYPE_MANIFEST = 1,
    TYPE_NODES = 2,
    FIXED_STRINGS = 9,
    EVALUATION = 7
};

/* Reads a byte that is not lent, only where the fault is switched on. */
static void look_outside(enum reference_fault_place fault, const void *byte)
{
    if (reference_fault_at(fault))
        (void)*(const volatile uint8_t *)byte;
}

/* Some bytes of the file. */
struct part {
    const uint8_t *bytes;
    size_t length;
};

/* ---- Numbers in a bundle: big-endian */

static uint32_t read_u16(const uint8_t *bytes)
{
    return (uint32_t)bytes[0] << 8 | bytes[1];
}

static uint32_t read_u32(const uint8_t *bytes)
{
    return read_u16(bytes) << 16 | read_u16(bytes + 2);
}

static uint64_t read_u64(const uint8_t *bytes)
{
    return (uint64_t)read_u32(bytes) << 32 | read_u32(bytes + 4);
}

/* ---- SHA-256 */

static const uint32_t round_constants[64] = {
    0x428a2f98, 0x71374491, 0xb5c0fbcf, 0xe9b5dba5, 0x3956c25b, 0x59f111f1, 0x923f82a4, 0xab1c5ed5,
    0xd807aa98, 0x12835b01, 0x243185be, 0x550c7dc3, 0x72be5d74, 0x80deb1fe, 0x9bdc06a7, 0xc19bf174,
    0xe49b69c1, 0xefbe4786, 0x0fc19dc6, 0x240ca1cc, 0x2de92c6f, 0x4a7484aa, 0x5cb0a9dc, 0x76f988da,
    0x983e5152, 0xa831c66d, 0xb00327c8, 0xbf597fc7, 0xc6e00bf3, 0xd5a79147, 0x06ca6351, 0x14292967,
    0x27b70a85, 0x2e1b2138, 0x4d2c6dfc, 0x53380d13, 0x650a7354, 0x766a0abb, 0x81c2c92e, 0x92722c85,
    0xa2bfe8a1, 0xa81a664b, 0xc24b8b70, 0xc76c51a3, 0xd192e819, 0xd6990624, 0xf40e3585, 0x106aa070,
    0x19a4c116, 0x1e376c08, 0x2748774c, 0x34b0bcb5, 0x391c0cb3, 0x4ed8aa4a, 0x5b9cca4f, 0x682e6ff3,
    0x748f82ee, 0x78a5636f, 0x84c87814, 0x8cc70208, 0x90befffa, 0xa4506ceb, 0xbef9a3f7, 0xc67178f2};

static uint32_t rotate_right(uint32_t word, unsigned bits)
{
    return word >> bits | word << (32 - bits);
}

static void expand_schedule(uint32_t w[64], const uint8_t *block)
{
    for (size_t t = 0; t < 16; t++)
        w[t] = read_u32(block + 4 * t);
    for (size_t t = 16; t < 64; t++) {
        uint32_t s0 = rotate_right(w[t - 15], 7) ^ rotate_right(w[t - 15], 18) ^ w[t - 15] >> 3;
        uint32_t s1 = rotate_right(w[t - 2], 17) ^ rotate_right(w[t - 2], 19) ^ w[t - 2] >> 10;
        w[t] = w[t - 16] + s0 + w[t - 7] + s1;
    }
}

static void compress(uint32_t state[8], const uint8_t *block)
{
    uint32_t w[64];
    uint32_t a = state[0], b = state[1], c = state[2], d = state[3];
    uint32_t e = state[4], f = state[5], g = state[6], h = state[7];

    expand_schedule(w, block);
    for (size_t t = 0; t < 64; t++) {
        uint32_t s1 = rotate_right(e, 6) ^ rotate_right(e, 11) ^ rotate_right(e, 25);
        uint32_t t1 = h + s1 + ((e & f) ^ (~e & g)) + round_constants[t] + w[t];
        uint32_t s0 = rotate_right(a, 2) ^ rotate_right(a, 13) ^ rotate_right(a, 22);
        uint32_t t2 = s0 + ((a & b) ^ (a & c) ^ (b & c));
        h = g;
        g = f;
        f = e;
        e = d + t1;
        d = c;
        c = b;
        b = a;
        a = t1 + t2;
    }
    state[0] += a;
    state[1] += b;
    state[2] += c;
    state[3] += d;
    state[4] += e;
    state[5] += f;
    state[6] += g;
    state[7] += h;
}

/* The last one or two blocks: the rest of the bytes, a one bit, zeros, and the length in bits. */
static void compress_tail(uint32_t state[8], const uint8_t *rest, size_t rest_len, uint64_t bits)
{
    uint8_t tail[128] = {0};
    size_t tail_len = rest_len < 56 || (reference_fault_at(FAULT_SHA_PADDING) && rest_len == 56) ? 64 : 128;

    if (rest_len > 0)
        memcpy(tail, rest, rest_len);
    tail[rest_len] = 0x80;
    for (size_t i = 0; i < 8; i++)
        tail[tail_len - 1 - i] = (uint8_t)(bits >> (8 * i));
    for (size_t at = 0; at < tail_len; at += 64)
        compress(state, tail + at);
}

void reference_sha256(const uint8_t *bytes, uint64_t bytes_len, uint8_t digest[32])
{
    uint32_t state[8] = {0x6a09e667, 0xbb67ae85, 0x3c6ef372, 0xa54ff53a,
                         0x510e527f, 0x9b05688c, 0x1f83d9ab, 0x5be0cd19};
    size_t whole = (size_t)(bytes_len - bytes_len % 64);

    for (size_t at = 0; at < whole; at += 64)
        compress(state, bytes + at);
    compress_tail(state, bytes + whole, (size_t)bytes_len - whole, bytes_len * 8);
    for (size_t i = 0; i < 32; i++)
        digest[i] = (uint8_t)(state[i / 4] >> (24 - 8 * (i % 4)));
}

/* ---- Header and directory: 1 to 11 */

static uint32_t check_header(const uint8_t *file, uint64_t file_len)
{
    if (file_len > MAX_FILE)
        return 1;
    if (file_len < HEADER_BYTES)
        return 2;
    if (memcmp(file, "ARBORICX", 8) != 0)
        return 3;
    if (read_u16(file + 8) != 1)
        return 4;

    uint32_t sections = read_u32(file + 12);
    if (sections < 1 || sections > MAX_SECTIONS || read_u64(file + 24) != HEADER_BYTES ||
        HEADER_BYTES + sections * ENTRY_BYTES > file_len)
        return 5;
    return 0;
}

static bool entry_critical(const uint8_t *entry)
{
    uint32_t type = read_u32(entry);
    bool critical = (read_u16(entry + 6) & 1) != 0;

    if (reference_fault_at(FAULT_CRITICAL_KNOWN))
        return critical;
    return critical && type != TYPE_MANIFEST && type != TYPE_NODES;
}

static bool entry_coded(const uint8_t *entry)
{
    return read_u16(entry + 8) != 0 || read_u16(entry + 10) != 1;
}

static bool entry_outside(const uint8_t *entry, uint64_t file_len)
{
    uint64_t offset = read_u64(entry + 12);
    uint64_t length = read_u64(entry + 20);

    if (reference_fault_at(FAULT_OFFSET_WRAPS) && read_u32(entry) > TYPE_NODES)
        return offset + length > file_len;
    return offset > file_len || length > file_len - offset;
}

static uint32_t check_entries(const uint8_t *file, uint64_t file_len)
{
    const uint8_t *end = file + HEADER_BYTES + read_u32(file + 12) * ENTRY_BYTES;
    const uint8_t *entry;

    for (entry = file + HEADER_BYTES; entry < end; entry += ENTRY_BYTES)
        if (entry_critical(entry))
            return 6;
    for (entry = file + HEADER_BYTES; entry < end; entry += ENTRY_BYTES)
        if (entry_coded(entry))
            return 7;
    for (entry = file + HEADER_BYTES; entry < end; entry += ENTRY_BYTES)
        if (entry_outside(entry, file_len))
            return 8;
    return 0;
}

static struct part section_of(const uint8_t *file, const uint8_t *entry)
{
    struct part section = {file + read_u64(entry + 12), (size_t)read_u64(entry + 20)};
    return section;
}

static bool digest_differs(const uint8_t *entry, struct part section)
{
    uint8_t digest[HASH_BYTES];

    reference_sha256(section.bytes, section.length, digest);
    return memcmp(digest, entry + 28, HASH_BYTES) != 0;
}

/* The manifest and the nodes, each there once and with its digest: 9 to 11. */
static uint32_t find_sections(const uint8_t *file, struct part *manifest, struct part *nodes)
{
    const uint8_t *end = file + HEADER_BYTES + read_u32(file + 12) * ENTRY_BYTES;
    const uint8_t *manifest_entry = NULL, *nodes_entry = NULL;

    for (const uint8_t *entry = file + HEADER_BYTES; entry < end; entry += ENTRY_BYTES) {
        uint32_t type = read_u32(entry);
        if (type != TYPE_MANIFEST && type != TYPE_NODES)
            continue;
        const uint8_t **found = type == TYPE_MANIFEST ? &manifest_entry : &nodes_entry;
        if (*found != NULL)
            return 9;
        *found = entry;
    }
    if (manifest_entry == NULL || nodes_entry == NULL)
        return 10;
    *manifest = section_of(file, manifest_entry);
    *nodes = section_of(file, nodes_entry);
    if (digest_differs(manifest_entry, *manifest) || digest_differs(nodes_entry, *nodes))
        return 11;
    return 0;
}

/* ---- Taking items one after the other. Each take answers whether the item is there whole. */

struct cursor {
    const uint8_t *at;
    size_t left;
};

static bool take(struct cursor *cursor, size_t length, struct part *taken)
{
    if (length > cursor->left)
        return false;
    taken->bytes = cursor->at;
    taken->length = length;
    cursor->at += length;
    cursor->left -= length;
    return true;
}

static bool take_u32(struct cursor *cursor, uint32_t *number)
{
    struct part taken;

    if (!take(cursor, 4, &taken))
        return false;
    *number = read_u32(taken.bytes);
    return true;
}

static bool take_hash(struct cursor *cursor, const uint8_t **hash)
{
    struct part taken;

    if (!take(cursor, HASH_BYTES, &taken))
        return false;
    *hash = taken.bytes;
    return true;
}

/* How many bytes the UTF-8 character at the start has, or 0 where there is none (RFC 3629). */
static size_t utf8_character(const uint8_t *bytes, size_t left)
{
    uint8_t first = bytes[0], low = 0x80, high = 0xBF;
    size_t length;

    if (first < 0x80)
        return 1;
    if (first >= (reference_fault_at(FAULT_OVERLONG) ? 0xC0 : 0xC2) && first <= 0xDF) {
        length = 2;
    } else if (first >= 0xE0 && first <= 0xEF) {
        length = 3;
        if (first == 0xE0)
            low = 0xA0;
        if (first == 0xED && !reference_fault_at(FAULT_SURROGATE))
            high = 0x9F;
    } else if (first >= 0xF0 && first <= 0xF4) {
        length = 4;
        if (first == 0xF0)
            low = 0x90;
        if (first == 0xF4)
            high = 0x8F;
    } else {
        return 0;
    }
    if (length > left || bytes[1] < low || bytes[1] > high)
        return 0;
    for (size_t i = 2; i < length; i++)
        if (bytes[i] < 0x80 || bytes[i] > 0xBF)
            return 0;
    return length;
}

static bool is_utf8(struct part text)
{
    size_t at = 0;

    while (at < text.length) {
        size_t length = utf8_character(text.bytes + at, text.length - at);
        if (length == 0)
            return false;
        at += length;
    }
    return true;
}

static bool take_string(struct cursor *cursor, struct part *text)
{
    uint32_t length;

    return take_u32(cursor, &length) && take(cursor, length, text) && is_utf8(*text);
}

static bool take_count(struct cursor *cursor, uint32_t least, uint32_t most, uint32_t *count)
{
    return take_u32(cursor, count) && *count >= least && *count <= most;
}

/* ---- The manifest: 12 to 14 */

struct export_item {
    struct part name;
    const uint8_t *hash;
    struct part abi;
};

struct manifest {
    struct part strings[FIXED_STRINGS];
    uint32_t capability_count;
    uint8_t closure;
    uint32_t root_count;
    const uint8_t *roots[MAX_ROOTS];
    uint32_t export_count;
    struct export_item exports[MAX_EXPORTS];
};

static const char abi_tree[] = "arboricx.abi.tree.v1";

static const char *const fixed_strings[FIXED_STRINGS] = {
    "arboricx.bundle.manifest.v1", "tree-calculus-executable-object", "tree-calculus.v1", "sha256",
    "arboricx.merkle.node.v1",     "arboricx.merkle.payload.v1",      "tree-calculus.v1", NULL,
    abi_tree};

static bool take_capabilities(struct cursor *cursor, struct manifest *manifest)
{
    struct part text;

    if (!take_u32(cursor, &manifest->capability_count))
        return false;
    for (uint32_t i = 0; i < manifest->capability_count; i++)
        if (!take_string(cursor, &text))
            return false;
    return true;
}

static bool take_closure(struct cursor *cursor, struct manifest *manifest)
{
    struct part taken;

    if (!take(cursor, 1, &taken))
        return false;
    manifest->closure = taken.bytes[0];
    return manifest->closure <= 1;
}

static bool take_roots(struct cursor *cursor, struct manifest *manifest)
{
    struct part role;

    if (!take_count(cursor, 1, MAX_ROOTS, &manifest->root_count))
        return false;
    for (uint32_t i = 0; i < manifest->root_count; i++)
        if (!take_hash(cursor, &manifest->roots[i]) || !take_string(cursor, &role))
            return false;
    return true;
}

static bool take_exports(struct cursor *cursor, struct manifest *manifest)
{
    struct part kind;

    if (!take_count(cursor, 1, MAX_EXPORTS, &manifest->export_count))
        return false;
    for (uint32_t i = 0; i < manifest->export_count; i++) {
        struct export_item *item = &manifest->exports[i];
        if (!take_string(cursor, &item->name) || !take_hash(cursor, &item->hash) || !take_string(cursor, &kind) ||
            !take_string(cursor, &item->abi))
            return false;
    }
    return true;
}

static bool take_fields(struct cursor *cursor)
{
    uint32_t count, length;
    struct part taken;

    if (!take_count(cursor, 0, MAX_FIELDS, &count))
        return false;
    for (uint32_t i = 0; i < count; i++)
        if (!take(cursor, 2, &taken) || !take_u32(cursor, &length) || !take(cursor, length, &taken))
            return false;
    return true;
}

static bool take_manifest(struct cursor *cursor, struct manifest *manifest)
{
    struct part head;

    if (!take(cursor, 12, &head) || memcmp(head.bytes, "ARBMNFST", 8) != 0 || read_u16(head.bytes + 8) != 1)
        return false;
    for (size_t i = 0; i < FIXED_STRINGS; i++)
        if (!take_string(cursor, &manifest->strings[i]))
            return false;
    return take_capabilities(cursor, manifest) && take_closure(cursor, manifest) && take_roots(cursor, manifest) &&
           take_exports(cursor, manifest) && take_fields(cursor) && take_fields(cursor) && cursor->left == 0;
}

static bool is_text(struct part text, const char *wanted)
{
    return text.length == strlen(wanted) && memcmp(text.bytes, wanted, text.length) == 0;
}

static bool manifest_unsupported(const struct manifest *manifest)
{
    for (size_t i = 0; i < FIXED_STRINGS; i++)
        if (i != EVALUATION && !is_text(manifest->strings[i], fixed_strings[i]))
            return true;
    for (uint32_t i = 0; i < manifest->export_count; i++)
        if (!is_text(manifest->exports[i].abi, abi_tree))
            return true;
    return manifest->capability_count > 0 || manifest->closure == 1;
}

static bool same_name(struct part a, struct part b)
{
    return a.length == b.length && memcmp(a.bytes, b.bytes, a.length) == 0;
}

static bool name_faulty(const struct manifest *manifest, uint32_t index)
{
    struct part name = manifest->exports[index].name;

    if (name.length < 1 || name.length > MAX_NAME)
        return true;
    for (uint32_t i = 0; i < index && !reference_fault_at(FAULT_EQUAL_NAMES); i++)
        if (same_name(manifest->exports[i].name, name))
            return true;
    return false;
}

static uint32_t check_manifest(struct part section, struct manifest *manifest)
{
    struct cursor cursor = {section.bytes, section.length};

    if (!take_manifest(&cursor, manifest))
        return 12;
    if (manifest_unsupported(manifest))
        return 13;
    for (uint32_t i = 0; i < manifest->export_count; i++)
        if (name_faulty(manifest, i))
            return 14;
    return 0;
}

/* All that is checked without the nodes: 1 to 14. */
static uint32_t read_manifest(const uint8_t *file, uint64_t file_len, struct manifest *manifest, struct part *nodes)
{
    struct part section;
    uint32_t number = check_header(file, file_len);

    if (number == 0)
        number = check_entries(file, file_len);
    if (number == 0)
        number = find_sections(file, &section, nodes);
    if (number == 0)
        number = check_manifest(section, manifest);
    return number;
}

/* ---- The nodes: 15 to 20 */

enum { LEAF, STEM, FORK, UNPLACED = 0xFFFF };

struct record {
    const uint8_t *hash;
    struct part payload;
    uint16_t children[2]; /* record numbers; as many as the tag says */
    uint16_t slot;
};

struct nodes {
    uint32_t count;
    struct record records[MAX_NODES];
};

static bool take_record(struct cursor *cursor, struct record *record)
{
    uint32_t length;

    if (!take_hash(cursor, &record->hash) || !take_u32(cursor, &length) || !take(cursor, length, &record->payload))
        return false;
    return length >= 1 && record->payload.bytes[0] <= FORK &&
           length == 1 + (uint32_t)record->payload.bytes[0] * HASH_BYTES;
}

static bool take_nodes(struct cursor *cursor, struct nodes *nodes)
{
    struct part taken;

    if (!take(cursor, 8, &taken))
        return false;
    uint64_t count = read_u64(taken.bytes);
    if (count < 1 || count > MAX_NODES)
        return false;
    nodes->count = (uint32_t)count;
    for (uint32_t i = 0; i < nodes->count; i++)
        if (!take_record(cursor, &nodes->records[i]))
            return false;
    return cursor->left == 0;
}

static bool hash_wrong(const struct record *record)
{
    static const char domain[] = "arboricx.merkle.node.v1";
    size_t domain_len = sizeof domain - (reference_fault_at(FAULT_NO_ZERO_BYTE) ? 1 : 0);
    uint8_t bytes[sizeof domain + 1 + 2 * HASH_BYTES];
    uint8_t hash[HASH_BYTES];

    memcpy(bytes, domain, domain_len);
    memcpy(bytes + domain_len, record->payload.bytes, record->payload.length);
    reference_sha256(bytes, domain_len + record->payload.length, hash);
    return memcmp(hash, record->hash, HASH_BYTES) != 0;
}

/* The first record with a hash among the first ones, or how many these are. */
static uint32_t find_record(const struct nodes *nodes, uint32_t among, const uint8_t *hash)
{
    uint32_t i = 0;

    while (i < among && memcmp(nodes->records[i].hash, hash, HASH_BYTES) != 0)
        i++;
    return i;
}

static uint32_t child_count(const struct record *record)
{
    return record->payload.bytes[0];
}

/* Puts record numbers in the place of the children's hashes. */
static bool link_children(struct nodes *nodes, struct record *record)
{
    for (uint32_t i = 0; i < child_count(record); i++) {
        uint32_t child = find_record(nodes, nodes->count, record->payload.bytes + 1 + i * HASH_BYTES);
        if (child == nodes->count)
            return false;
        record->children[i] = (uint16_t)child;
    }
    return true;
}

static bool can_be_placed(const struct nodes *nodes, const struct record *record)
{
    if (record->slot != UNPLACED)
        return false;
    for (uint32_t i = 0; i < child_count(record); i++)
        if (nodes->records[record->children[i]].slot == UNPLACED)
            return false;
    return true;
}

/* The earliest record from one on that can be placed, or the count. */
static uint32_t earliest_record(const struct nodes *nodes, uint32_t from)
{
    while (from < nodes->count && !can_be_placed(nodes, &nodes->records[from]))
        from++;
    return from;
}

/* Gives each record its slot. Only the leaf can be placed first. Where none can be placed, there is a circle. */
static bool place_records(struct nodes *nodes)
{
    uint32_t next = 0;

    for (uint32_t i = 0; i < nodes->count; i++)
        nodes->records[i].slot = UNPLACED;
    for (uint32_t slot = 0; slot < nodes->count; slot++) {
        next = earliest_record(nodes, reference_fault_at(FAULT_PLACING_GOES_ON) ? next : 0);
        if (next == nodes->count && reference_fault_at(FAULT_PLACING_GOES_ON))
            next = earliest_record(nodes, 0);
        if (next == nodes->count || (reference_fault_at(FAULT_CHILDREN_FIRST) && next != slot))
            return false;
        nodes->records[next].slot = (uint16_t)slot;
    }
    return true;
}

static bool references_lost(const struct manifest *manifest, const struct nodes *nodes)
{
    for (uint32_t i = 0; i < manifest->root_count; i++)
        if (find_record(nodes, nodes->count, manifest->roots[i]) == nodes->count)
            return true;
    for (uint32_t i = 0; i < manifest->export_count; i++)
        if (find_record(nodes, nodes->count, manifest->exports[i].hash) == nodes->count)
            return true;
    return false;
}

static uint32_t check_nodes(struct part section, const struct manifest *manifest, struct nodes *nodes)
{
    struct cursor cursor = {section.bytes, section.length};

    if (!take_nodes(&cursor, nodes))
        return 15;
    for (uint32_t i = 0; i < nodes->count; i++)
        if (hash_wrong(&nodes->records[i]))
            return 16;
    for (uint32_t i = 0; i < nodes->count; i++)
        if (find_record(nodes, i, nodes->records[i].hash) < i)
            return 17;
    for (uint32_t i = 0; i < nodes->count; i++)
        if (!link_children(nodes, &nodes->records[i]))
            return 18;
    if (!place_records(nodes))
        return 19;
    return references_lost(manifest, nodes) ? 20 : 0;
}

static uint32_t read_bundle(const uint8_t *file, uint64_t file_len, struct manifest *manifest, struct nodes *nodes)
{
    struct part section;
    uint32_t number = read_manifest(file, file_len, manifest, &section);

    return number != 0 ? number : check_nodes(section, manifest, nodes);
}

/* ---- The tables */

/* The number itself; a negative one becomes 0 only where the fault is switched on. */
static int32_t signed_number(enum reference_fault_place fault, int32_t number)
{
    return reference_fault_at(fault) && number < 0 ? 0 : number;
}

static bool base_outside(uint64_t words_len, int32_t base)
{
    return base < 0 || (uint64_t)base > words_len;
}

static uint32_t room_from(uint64_t words_len, int32_t base)
{
    uint64_t room = (words_len - (uint64_t)base) / SLOT_WORDS;

    return room < MAX_SLOTS ? (uint32_t)room : MAX_SLOTS;
}

static void write_slot(uint32_t *slots, uint32_t slot, uint32_t first, uint32_t second)
{
    slots[SLOT_WORDS * slot] = first;
    slots[SLOT_WORDS * slot + 1] = second;
}

static void write_records(const struct nodes *nodes, uint32_t *slots)
{
    for (uint32_t i = 0; i < nodes->count; i++) {
        const struct record *record = &nodes->records[i];
        uint32_t words[2] = {0, 0};
        for (uint32_t c = 0; c < child_count(record); c++)
            words[c] = nodes->records[record->children[c]].slot + 1u;
        write_slot(slots, record->slot, words[0], words[1]);
    }
}

static void write_exports(const struct manifest *manifest, const struct nodes *nodes, uint32_t *exports)
{
    for (uint32_t i = 0; i < manifest->export_count; i++) {
        uint32_t record = find_record(nodes, nodes->count, manifest->exports[i].hash);
        uint32_t at = reference_fault_at(FAULT_EXPORT_ORDER) ? manifest->export_count - 1 - i : i;
        exports[at] = nodes->records[record].slot;
    }
}

/* ---- The calls on bundles */

uint32_t reference_check(const uint8_t *file, uint64_t file_len)
{
    struct manifest manifest;
    struct nodes nodes;

    look_outside(FAULT_BEHIND_FILE, file + file_len);
    return read_bundle(file, file_len, &manifest, &nodes);
}

static uint32_t answer_load(uint32_t answer[3], uint32_t number, uint32_t nodes, uint32_t exports)
{
    answer[0] = number;
    answer[1] = nodes;
    answer[2] = exports;
    return number;
}

uint32_t reference_load(const uint8_t *file, uint64_t file_len, uint32_t *words, uint64_t words_len, int32_t base,
                        uint32_t *exports, uint64_t exports_len, uint32_t answer[3])
{
    struct manifest manifest;
    struct nodes nodes;
    uint32_t number = read_bundle(file, file_len, &manifest, &nodes);

    base = signed_number(FAULT_NEGATIVE_BASE, base);
    if (number != 0)
        return answer_load(answer, number, 0, 0);
    if (base_outside(words_len, base) || room_from(words_len, base) < nodes.count)
        return answer_load(answer, 21, 0, 0);
    if (exports_len < manifest.export_count)
        return answer_load(answer, 22, 0, 0);
    write_records(&nodes, words + base);
    write_exports(&manifest, &nodes, exports);
    return answer_load(answer, 0, nodes.count, manifest.export_count);
}

static uint32_t answer_index(uint32_t answer[2], uint32_t number, uint32_t index)
{
    answer[0] = number;
    answer[1] = index;
    return number;
}

uint32_t reference_export_index(const uint8_t *file, uint64_t file_len, const uint8_t *name, uint64_t name_len,
                                uint32_t answer[2])
{
    struct manifest manifest;
    struct part nodes, wanted = {name, (size_t)name_len};
    uint32_t number = read_manifest(file, file_len, &manifest, &nodes);

    if (number != 0)
        return answer_index(answer, number, 0);
    if (name_len == 0 && !reference_fault_at(FAULT_EMPTY_NAME))
        return answer_index(answer, 0, 0);
    for (uint32_t i = 0; i < manifest.export_count; i++)
        if (same_name(manifest.exports[i].name, wanted))
            return answer_index(answer, 0, i);
    return answer_index(answer, 25, 0);
}

void reference_export_name(const uint8_t *file, uint64_t file_len, uint32_t index, uint64_t answer[2])
{
    struct manifest manifest;
    struct part nodes;

    answer[0] = 0;
    answer[1] = 0;
    if (read_manifest(file, file_len, &manifest, &nodes) != 0 || index >= manifest.export_count)
        return;
    answer[0] = (uint64_t)(manifest.exports[index].name.bytes - file);
    answer[1] = manifest.exports[index].name.length;
}

/* ---- The run and the carry-on */

enum { THEN_B_TO_X = 1, THEN_RESULT_TO_V, THEN_W_TO_RESULT };

/* f is to be applied to x. */
struct machine {
    uint32_t *slots;
    uint32_t used, room;
    uint32_t *jobs;
    uint32_t waiting, job_room;
    uint32_t f, x;
    uint32_t fuel, steps;
};

static bool slots_damaged(const uint32_t *slots, uint32_t used)
{
    uint32_t above = reference_fault_at(FAULT_TRUSTED_SLOT) ? 1 : 0;

    if (slots[0] != 0 || slots[1] != 0)
        return true;
    for (uint32_t i = 1; i < used; i++)
        if (slots[SLOT_WORDS * i] < 1 || slots[SLOT_WORDS * i] > i || slots[SLOT_WORDS * i + 1] > i + above)
            return true;
    return false;
}

static uint32_t kind_of(const uint32_t *slots, uint32_t slot)
{
    if (slots[SLOT_WORDS * slot] == 0)
        return LEAF;
    return slots[SLOT_WORDS * slot + 1] == 0 ? STEM : FORK;
}

static uint32_t first_child(const uint32_t *slots, uint32_t slot)
{
    return slots[SLOT_WORDS * slot] - 1;
}

static uint32_t second_child(const uint32_t *slots, uint32_t slot)
{
    return slots[SLOT_WORDS * slot + 1] - 1;
}

/* Which of the seven rules applies f to x. */
static unsigned next_rule(const uint32_t *slots, uint32_t f, uint32_t x)
{
    switch (kind_of(slots, f)) {
    case LEAF:
        return 1;
    case STEM:
        return 2;
    default:
        break;
    }
    switch (kind_of(slots, first_child(slots, f))) {
    case LEAF:
        return 3;
    case STEM:
        return 4;
    default:
        return 5 + kind_of(slots, x);
    }
}

static uint32_t stop_before(const struct machine *machine, unsigned rule)
{
    bool no_slot = (rule == 1 || rule == 2) && machine->used == machine->room;
    bool no_job = (rule == 4 || rule == 7) && machine->waiting == machine->job_room;

    if (reference_fault_at(FAULT_SLOTS_BEFORE_FUEL) && no_slot)
        return 32;
    if (machine->fuel == 0)
        return 31;
    if (no_slot)
        return 32;
    return no_job ? 33 : 0;
}

static uint32_t make_slot(struct machine *machine, uint32_t first, uint32_t second)
{
    write_slot(machine->slots, machine->used, first - (reference_fault_at(FAULT_NEW_SLOT) ? 1 : 0), second);
    return machine->used++;
}

static void write_job(struct machine *machine, uint32_t job, uint32_t tag, uint32_t second, uint32_t third)
{
    machine->jobs[JOB_WORDS * job] = tag;
    machine->jobs[JOB_WORDS * job + 1] = second;
    machine->jobs[JOB_WORDS * job + 2] = third;
}

/* Uses a rule. True: f is to be applied to x next. False: f is the tree given or made. */
static bool use_rule(struct machine *machine, unsigned rule, uint32_t *f, uint32_t *x)
{
    const uint32_t *slots = machine->slots;
    uint32_t g = *f, y = *x;

    switch (rule) {
    case 1:
        *f = make_slot(machine, y + 1, 0);
        return false;
    case 2:
        *f = make_slot(machine, first_child(slots, g) + 1, y + 1);
        return false;
    case 3:
        *f = second_child(slots, g);
        return false;
    case 4:
        write_job(machine, machine->waiting++, THEN_B_TO_X, second_child(slots, g), y);
        *f = first_child(slots, first_child(slots, g));
        return true;
    case 5:
        *f = first_child(slots, first_child(slots, g));
        return false;
    case 6:
        *f = second_child(slots, first_child(slots, g));
        *x = first_child(slots, y);
        return true;
    default:
        write_job(machine, machine->waiting++, THEN_RESULT_TO_V, second_child(slots, y), 0);
        *f = second_child(slots, g);
        *x = first_child(slots, y);
        return true;
    }
}

/* The tree f meets the newest job. False: no job is left. */
static bool meet_newest_job(struct machine *machine, uint32_t *f, uint32_t *x)
{
    if (machine->waiting == 0)
        return false;

    uint32_t tree = *f, newest = machine->waiting - 1;
    uint32_t tag = machine->jobs[JOB_WORDS * newest];
    uint32_t second = machine->jobs[JOB_WORDS * newest + 1];

    if (tag == THEN_B_TO_X) {
        *f = second;
        *x = machine->jobs[JOB_WORDS * newest + 2];
        write_job(machine, newest, THEN_W_TO_RESULT, tree, 0);
        return true;
    }
    *f = tag == THEN_RESULT_TO_V ? tree : second;
    *x = tag == THEN_RESULT_TO_V ? second : tree;
    if (!reference_fault_at(FAULT_JOB_STAYS))
        write_job(machine, newest, 0, 0, 0);
    machine->waiting = newest;
    return true;
}

static uint32_t answer_run(uint32_t answer[6], uint32_t number, uint32_t f, uint32_t x, const struct machine *machine)
{
    answer[0] = number;
    answer[1] = f;
    answer[2] = x;
    answer[3] = machine->steps;
    answer[4] = machine->used;
    answer[5] = machine->waiting;
    return number;
}

static uint32_t run_machine(struct machine *machine, uint32_t answer[6])
{
    uint32_t f = machine->f, x = machine->x;

    for (;;) {
        unsigned rule = next_rule(machine->slots, f, x);
        uint32_t stop = stop_before(machine, rule);
        if (stop != 0)
            return answer_run(answer, stop, f, x, machine);
        machine->fuel--;
        machine->steps++;
        if (!use_rule(machine, rule, &f, &x) && !meet_newest_job(machine, &f, &x)) {
            machine->steps += reference_fault_at(FAULT_STEP_TOO_MANY) ? 1 : 0;
            return answer_run(answer, 0, f, 0, machine);
        }
    }
}

static bool slot_unused(int32_t slot, uint32_t used)
{
    return slot < 0 || (uint32_t)slot >= used;
}

/* What all kinds of runs refuse alike: 21, 23 and 24. Else 0, and the machine has its slots, f and x. */
static uint32_t lend_slots(struct machine *machine, uint32_t *words, uint64_t words_len, int32_t base, int32_t f,
                           int32_t x)
{
    base = signed_number(FAULT_NEGATIVE_BASE, base);
    f = signed_number(FAULT_NEGATIVE_SLOT, f);
    x = signed_number(FAULT_NEGATIVE_SLOT, x);
    if (base_outside(words_len, base))
        return 21;
    look_outside(FAULT_BEFORE_BASE, words + base - (base > 0));
    machine->slots = words + base;
    machine->room = room_from(words_len, base);
    if (machine->used == 0 || machine->used > machine->room)
        return 21;
    if (slot_unused(f, machine->used) || slot_unused(x, machine->used))
        return 23;
    if (slots_damaged(machine->slots, machine->used))
        return 24;
    machine->f = (uint32_t)f;
    machine->x = (uint32_t)x;
    return 0;
}

static void lend_jobs(struct machine *machine, uint32_t *jobs, uint64_t jobs_len)
{
    uint64_t room = jobs_len / JOB_WORDS;

    machine->jobs = jobs;
    machine->job_room = room < MAX_JOBS ? (uint32_t)room : MAX_JOBS;
}

static uint32_t refuse_run(uint32_t answer[6], uint32_t number)
{
    memset(answer, 0, 6 * sizeof answer[0]);
    answer[0] = number;
    return number;
}

uint32_t reference_run(uint32_t *words, uint64_t words_len, int32_t base, int32_t f, int32_t x, uint32_t used,
                       uint32_t fuel, uint32_t *jobs, uint64_t jobs_len, uint32_t answer[6])
{
    struct machine machine = {.used = used, .fuel = fuel};
    uint32_t number = lend_slots(&machine, words, words_len, base, f, x);

    if (number != 0)
        return refuse_run(answer, number);
    lend_jobs(&machine, jobs, jobs_len);
    memset(jobs, 0, (reference_fault_at(FAULT_JOB_REMAINDER) ? machine.job_room * JOB_WORDS : jobs_len) * sizeof *jobs);
    return run_machine(&machine, answer);
}

static bool job_damaged(const uint32_t *job, uint32_t used)
{
    switch (job[0]) {
    case THEN_B_TO_X:
        return job[1] >= used || job[2] >= used;
    case THEN_RESULT_TO_V:
    case THEN_W_TO_RESULT:
        return job[1] >= used || (job[2] != 0 && !reference_fault_at(FAULT_THIRD_WORD));
    default:
        return true;
    }
}

/* The waiting jobs are damaged: too many, one that is none, or a word above them that is not 0. */
static bool jobs_damaged(const struct machine *machine, uint64_t jobs_len)
{
    uint64_t end = reference_fault_at(FAULT_REMAINDER_UNSEEN) ? (uint64_t)machine->job_room * JOB_WORDS : jobs_len;

    if (machine->waiting > machine->job_room)
        return true;
    if (reference_fault_at(FAULT_JOBS_TRUSTED))
        return false;
    for (uint32_t i = 0; i < machine->waiting; i++)
        if (job_damaged(machine->jobs + JOB_WORDS * i, machine->used))
            return true;
    for (size_t at = (size_t)machine->waiting * JOB_WORDS; at < end; at++)
        if (machine->jobs[at] != 0)
            return true;
    return false;
}

/* Earlier steps and fuel, as whole numbers. */
static bool too_many_steps(const struct machine *machine)
{
    uint64_t sum = (uint64_t)machine->steps + machine->fuel;

    if (reference_fault_at(FAULT_SUM_WRAPS))
        sum = (uint32_t)sum;
    return sum > UINT32_MAX;
}

uint32_t reference_carry_on(uint32_t *words, uint64_t words_len, int32_t base, int32_t f, int32_t x, uint32_t used,
                            uint32_t waiting, uint32_t steps, uint32_t fuel, uint32_t *jobs, uint64_t jobs_len,
                            uint32_t answer[6])
{
    struct machine machine = {.used = used, .waiting = waiting, .steps = steps, .fuel = fuel};
    uint32_t number = lend_slots(&machine, words, words_len, base, f, x);

    if (number != 0)
        return refuse_run(answer, number);
    lend_jobs(&machine, jobs, jobs_len);
    if (reference_fault_at(FAULT_SUM_FIRST) && too_many_steps(&machine))
        return refuse_run(answer, 40);
    if (jobs_damaged(&machine, jobs_len))
        return refuse_run(answer, 24);
    if (too_many_steps(&machine))
        return refuse_run(answer, 40);
    if (reference_fault_at(FAULT_JOBS_ZEROED))
        memset(jobs, 0, jobs_len * sizeof *jobs);
    if (reference_fault_at(FAULT_STEPS_FROM_ZERO))
        machine.steps = 0;
    return run_machine(&machine, answer);
}

/* ---- The plain run: one part applies, the other carries out what the rule left */

/* Jobs are only counted: what a job would name is kept by the part that waits for an application to come back. */
struct plain {
    uint32_t *slots;
    uint32_t used, room;
    uint32_t waiting, job_room;
    uint32_t fuel, steps;
    uint32_t stop; /* why the last application did not come about, or 0 */
};

/* A tree by how many children it has. */
struct shape {
    unsigned children;
    uint32_t first, second;
};

static struct shape shape_of(const uint32_t *slots, uint32_t slot)
{
    uint32_t first = slots[SLOT_WORDS * slot], second = slots[SLOT_WORDS * slot + 1];
    struct shape shape = {(first > 0) + (second > 0), first - 1, second - 1};

    return shape;
}

/* One of the seven rules, with the trees that it speaks of after f is taken apart. */
struct rule {
    unsigned number;
    uint32_t a, b, c, u, v, x;
};

static struct rule rule_for(const uint32_t *slots, uint32_t f, uint32_t x)
{
    struct shape whole = shape_of(slots, f);
    if (whole.children == 0)
        return (struct rule){.number = 1, .x = x};
    if (whole.children == 1)
        return (struct rule){.number = 2, .a = whole.first, .x = x};

    struct shape left = shape_of(slots, whole.first);
    if (left.children == 0)
        return (struct rule){.number = 3, .a = whole.second};
    if (left.children == 1)
        return (struct rule){.number = 4, .a = left.first, .b = whole.second, .x = x};

    struct shape argument = shape_of(slots, x);
    if (argument.children == 0)
        return (struct rule){.number = 5, .a = left.first};
    if (argument.children == 1)
        return (struct rule){.number = 6, .b = left.second, .u = argument.first};
    return (struct rule){.number = 7, .c = whole.second, .u = argument.first, .v = argument.second};
}

static uint32_t stop_before_rule(const struct plain *plain, unsigned number)
{
    bool makes = number == 1 || number == 2, waits = number == 4 || number == 7;
    bool no_place = waits && plain->waiting >= plain->job_room;

    if (reference_fault_at(FAULT_PLACE_BEFORE_FUEL) && no_place)
        return 33;
    if (plain->fuel == 0)
        return 31;
    if (makes && plain->used >= plain->room)
        return 32;
    return no_place ? 33 : 0;
}

static uint32_t carry_out(struct plain *plain, const struct rule *rule);

/* The slot of the tree that f applied to x comes to. At a stop it is 0. */
static uint32_t apply(struct plain *plain, uint32_t f, uint32_t x)
{
    struct rule rule = rule_for(plain->slots, f, x);

    plain->stop = stop_before_rule(plain, rule.number);
    if (plain->stop == 32 && reference_fault_at(FAULT_STEP_BEFORE_SLOT))
        plain->steps++;
    if (plain->stop != 0)
        return reference_fault_at(FAULT_STOP_SLOT) ? f : 0;
    plain->fuel--;
    plain->steps++;
    return carry_out(plain, &rule);
}

static uint32_t make_tree(struct plain *plain, uint32_t first, uint32_t second)
{
    write_slot(plain->slots, plain->used, first, second);
    return plain->used++;
}

static void job_goes(struct plain *plain)
{
    if (!reference_fault_at(FAULT_JOB_KEPT))
        plain->waiting--;
}

/* Rule 4: a to x, then b to x, then the first result to the second. It is one job until both results are there. */
static uint32_t apply_both(struct plain *plain, uint32_t a, uint32_t b, uint32_t x)
{
    bool swapped = reference_fault_at(FAULT_SECOND_FIRST), early = reference_fault_at(FAULT_JOB_GONE_EARLY);

    plain->waiting++;
    uint32_t first = apply(plain, swapped ? b : a, x);
    if (plain->stop != 0 && !reference_fault_at(FAULT_STOP_PASSED))
        return first;
    if (early)
        job_goes(plain);
    uint32_t second = apply(plain, swapped ? a : b, x);
    if (plain->stop != 0)
        return second;
    if (!early)
        job_goes(plain);
    return swapped ? apply(plain, second, first) : apply(plain, first, second);
}

/* Rule 7: c to u, then the result to v. */
static uint32_t apply_result(struct plain *plain, uint32_t c, uint32_t u, uint32_t v)
{
    plain->waiting++;
    uint32_t result = apply(plain, c, u);
    if (plain->stop != 0)
        return result;
    job_goes(plain);
    return apply(plain, result, v);
}

static uint32_t carry_out(struct plain *plain, const struct rule *rule)
{
    switch (rule->number) {
    case 1:
        return make_tree(plain, rule->x + 1, 0);
    case 2:
        return make_tree(plain, rule->a + 1, rule->x + 1);
    case 3:
    case 5:
        return rule->a;
    case 4:
        return apply_both(plain, rule->a, rule->b, rule->x);
    case 6:
        return apply(plain, rule->b, rule->u);
    default:
        return apply_result(plain, rule->c, rule->u, rule->v);
    }
}

static bool too_deep(uint32_t fuel, uint32_t job_room)
{
    uint32_t most = MAX_PLAIN;

    if (reference_fault_at(FAULT_DEEP_AT_LIMIT))
        most--;
    if (reference_fault_at(FAULT_DEEP_ABOVE_LIMIT))
        most++;
    return fuel > most || (job_room > most && !reference_fault_at(FAULT_DEEP_ROOM));
}

static uint32_t answer_plain(uint32_t answer[4], uint32_t number, uint32_t slot, uint32_t steps, uint32_t used)
{
    answer[0] = number;
    answer[1] = slot;
    answer[2] = steps;
    answer[3] = used;
    return number;
}

uint32_t reference_plain_run(uint32_t *words, uint64_t words_len, int32_t base, int32_t f, int32_t x, uint32_t used,
                             uint32_t fuel, uint32_t job_room, uint32_t answer[4])
{
    struct machine lent = {.used = used};
    uint32_t number = lend_slots(&lent, words, words_len, base, f, x);

    if (reference_fault_at(FAULT_DEEP_FIRST) && number == 24 && too_deep(fuel, job_room))
        number = 49;
    if (number != 0)
        return answer_plain(answer, number, 0, 0, 0);
    if (too_deep(fuel, job_room))
        return answer_plain(answer, 49, 0, 0, reference_fault_at(FAULT_DEEP_USED) ? used : 0);

    struct plain plain = {.slots = lent.slots, .used = used, .room = lent.room, .job_room = job_room, .fuel = fuel};
    uint32_t slot = apply(&plain, lent.f, lent.x);
    return answer_plain(answer, plain.stop, slot, plain.steps, plain.used);
}

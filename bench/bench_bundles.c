#include "bench_bundles.h"

#include <stdio.h>
#include <stdlib.h>
#include <string.h>

#include "reference.h"

enum { HEADER = 32, ENTRY = 60, SECTIONS = 2, HASH = ARBORICX_DIGEST_BYTES, MAX_PAYLOAD = 1 + 2 * HASH };

struct record {
    uint8_t hash[HASH];
    uint32_t payload_len;
    uint8_t payload[MAX_PAYLOAD];
};

static void put_bytes(struct bundle *b, const void *bytes, size_t len)
{
    memcpy(b->bytes + b->len, bytes, len);
    b->len += len;
}

/* A number of so many bytes, the highest first. */
static void put_number(struct bundle *b, uint64_t value, int size)
{
    for (int i = size - 1; i >= 0; i--) b->bytes[b->len++] = (uint8_t)(value >> (8 * i));
}

static void put_string(struct bundle *b, const char *text)
{
    put_number(b, strlen(text), 4);
    put_bytes(b, text, strlen(text));
}

static void add_child(struct record *r, const struct record *child)
{
    memcpy(r->payload + r->payload_len, child->hash, HASH);
    r->payload_len += HASH;
    r->payload[0]++;
}

/* Record i: the leaf, or every third a stem, or a fork; each has children made before it, and no two are the same. */
static void make_record(struct record *all, uint32_t i)
{
    static const uint8_t domain[24] = "arboricx.merkle.node.v1"; /* with the zero byte after it */
    uint8_t message[sizeof domain + MAX_PAYLOAD];
    struct record *r = &all[i];
    r->payload[0] = 0;
    r->payload_len = 1;
    if (i > 0 && i % 3 == 0) {
        add_child(r, &all[i - 1]);
    } else if (i > 0) {
        add_child(r, &all[i < 8 ? i - 1 : i - 1 - 5 * i % 8]);
        add_child(r, &all[i / 2]);
    }
    memcpy(message, domain, sizeof domain);
    memcpy(message + sizeof domain, r->payload, r->payload_len);
    reference_sha256(message, sizeof domain + r->payload_len, r->hash);
}

static int by_hash(const void *a, const void *b)
{
    return memcmp(((const struct record *)a)->hash, ((const struct record *)b)->hash, HASH);
}

void export_name_of(const struct bundle *b, uint32_t index, char out[EXPORT_NAME_BYTES])
{
    if (b->exports == 1) snprintf(out, EXPORT_NAME_BYTES, "main");
    else snprintf(out, EXPORT_NAME_BYTES, "export %02u", (unsigned)index);
}

static void put_export(struct bundle *b, uint32_t index, const uint8_t hash[HASH])
{
    char name[EXPORT_NAME_BYTES];
    export_name_of(b, index, name);
    put_string(b, name);
    put_bytes(b, hash, HASH);
    put_string(b, "term");
    put_string(b, "arboricx.abi.tree.v1");
}

static void put_manifest(struct bundle *b, const uint8_t hash[HASH])
{
    static const char *const strings[] = {
        "arboricx.bundle.manifest.v1", "tree-calculus-executable-object", "tree-calculus.v1", "sha256",
        "arboricx.merkle.node.v1", "arboricx.merkle.payload.v1", "tree-calculus.v1", "normal-order",
        "arboricx.abi.tree.v1",
    };
    put_bytes(b, "ARBMNFST", 8);
    put_number(b, 1, 2);
    put_number(b, 0, 2);
    for (size_t i = 0; i < sizeof strings / sizeof *strings; i++) put_string(b, strings[i]);
    put_number(b, 0, 4); /* capabilities */
    put_number(b, 0, 1); /* closure: complete */
    put_number(b, 1, 4); /* roots */
    put_bytes(b, hash, HASH);
    put_string(b, "default");
    put_number(b, b->exports, 4);
    for (uint32_t i = 0; i < b->exports; i++) put_export(b, i, hash);
    put_number(b, 0, 4); /* metadata fields */
    put_number(b, 0, 4); /* extension fields */
}

static void put_nodes(struct bundle *b, const struct record *all, uint32_t nodes)
{
    put_number(b, nodes, 8);
    for (uint32_t i = 0; i < nodes; i++) {
        put_bytes(b, all[i].hash, HASH);
        put_number(b, all[i].payload_len, 4);
        put_bytes(b, all[i].payload, all[i].payload_len);
    }
}

static void put_header(struct bundle *b)
{
    put_bytes(b, "ARBORICX", 8);
    put_number(b, 1, 2);
    put_number(b, 0, 2);
    put_number(b, SECTIONS, 4);
    put_number(b, 0, 8);
    put_number(b, HEADER, 8);
}

/* The entry of the section from a place in the file up to another. */
static void put_entry(struct bundle *b, uint32_t type, size_t from, size_t to)
{
    uint8_t digest[HASH];
    reference_sha256(b->bytes + from, to - from, digest);
    put_number(b, type, 4);
    put_number(b, 1, 2); /* version */
    put_number(b, 1, 2); /* critical */
    put_number(b, 0, 2); /* no compression */
    put_number(b, 1, 2); /* SHA-256 */
    put_number(b, from, 8);
    put_number(b, to - from, 8);
    put_bytes(b, digest, HASH);
}

void make_bundle(struct bundle *out, uint32_t nodes, uint32_t exports)
{
    static struct record all[ARBORICX_MAX_NODES];
    uint8_t last[HASH];
    size_t manifest, end;
    for (uint32_t i = 0; i < nodes; i++) make_record(all, i);
    memcpy(last, all[nodes - 1].hash, HASH);
    qsort(all, nodes, sizeof *all, by_hash);

    out->nodes = nodes;
    out->exports = exports;
    out->len = HEADER + SECTIONS * ENTRY; /* the sections first: the directory holds their digests */
    put_manifest(out, last);
    manifest = out->len;
    put_nodes(out, all, nodes);
    end = out->len;

    out->len = 0;
    put_header(out);
    put_entry(out, 1, HEADER + SECTIONS * ENTRY, manifest);
    put_entry(out, 2, manifest, end);
    out->len = end;
}

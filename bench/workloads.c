#include "workloads.h"

#include <string.h>

enum {
    FEW_JOBS = 64,
    DOUBLINGS = 17,      /* of the workload that makes no nodes */
    DEPTH = 20000,       /* jobs that pile up in the deep one */
    DEEP_DOUBLINGS = 6   /* of the deep one */
};

static uint32_t tables[WORKLOADS][WORKLOAD_WORDS];
static uint32_t job_tables[WORKLOADS][ARBORICX_JOB_WORDS * (DEPTH + FEW_JOBS)];
static uint32_t chain_tables[CHAINS][WORKLOAD_WORDS];
static uint32_t chain_job_tables[CHAINS][ARBORICX_JOB_WORDS * ARBORICX_MAX_PLAIN];

/* The next slot gets two words; the answer is its number. */
static uint32_t put(struct workload *w, uint32_t first, uint32_t second)
{
    w->words[ARBORICX_SLOT_WORDS * w->used] = first;
    w->words[ARBORICX_SLOT_WORDS * w->used + 1] = second;
    return w->used++;
}

static uint32_t leaf(struct workload *w)
{
    return put(w, 0, 0);
}

static uint32_t stem(struct workload *w, uint32_t a)
{
    return put(w, a + 1, 0);
}

static uint32_t fork_of(struct workload *w, uint32_t a, uint32_t b)
{
    return put(w, a + 1, b + 1);
}

/* D to D with D = fork(stem I, I): makes 4 nodes in 9 steps, for ever; here until the room is used up. */
static void many_nodes(struct workload *w)
{
    const uint32_t l = leaf(w);
    const uint32_t i = fork_of(w, stem(w, stem(w, l)), l);
    const uint32_t d = fork_of(w, stem(w, i), i);
    w->name = "many nodes made";
    w->f = w->x = (int32_t)d;
    w->fuel = UINT32_MAX;
}

/*
 * Constants in constants, r(i) = fork(leaf, r(i + 1)): applied to anything each gives the next. The answer is the first
 * of n. They let a function be applied to its own result again and again with no node made.
 */
static uint32_t constants(struct workload *w, uint32_t leaf_slot, uint32_t n)
{
    uint32_t r = leaf_slot;
    for (uint32_t i = 0; i < n; i++) r = fork_of(w, leaf_slot, r);
    return r;
}

/* fork(stem f, f) applies f to x twice and the first result to the second: n times over, so that f is run 2^n times. */
static uint32_t doubled(struct workload *w, uint32_t f, uint32_t n)
{
    for (uint32_t i = 0; i < n; i++) f = fork_of(w, stem(w, f), f);
    return f;
}

/* The triage fork(fork(a, b), c). */
static uint32_t triage(struct workload *w, uint32_t a, uint32_t b, uint32_t c)
{
    return fork_of(w, fork_of(w, a, b), c);
}

/*
 * A triage that goes by rules 7, 6, 6, 5, 6, 5 to a constant, run 2^DOUBLINGS times by rules 4 and 3. The argument is
 * fork(stem(stem leaf), stem leaf).
 */
static void no_nodes(struct workload *w)
{
    const uint32_t l = leaf(w);
    const uint32_t r = constants(w, l, DOUBLINGS + 1);
    const uint32_t on_leaf = triage(w, r, l, l);
    const uint32_t on_second = triage(w, l, on_leaf, l);
    const uint32_t on_stem = triage(w, l, triage(w, on_second, l, l), l);
    const uint32_t on_first = triage(w, l, on_stem, l);
    const uint32_t one = stem(w, l);
    w->name = "no nodes made";
    w->x = (int32_t)fork_of(w, stem(w, one), one);
    w->f = (int32_t)doubled(w, triage(w, l, l, on_first), DOUBLINGS);
    w->fuel = UINT32_MAX;
}

/*
 * e(i + 1) = fork(stem e(i), fork(leaf, leaf)) applies e(i) to x while a job waits: DEPTH jobs pile up and go again,
 * 2^DEEP_DOUBLINGS times.
 */
static void many_jobs(struct workload *w)
{
    const uint32_t l = leaf(w);
    const uint32_t r = constants(w, l, DEPTH + DEEP_DOUBLINGS + 1);
    const uint32_t operand = fork_of(w, l, l);
    uint32_t e = fork_of(w, l, r);
    for (uint32_t i = 0; i < DEPTH; i++) e = fork_of(w, stem(w, e), operand);
    w->name = "many jobs waiting";
    w->x = (int32_t)l;
    w->f = (int32_t)doubled(w, e, DEEP_DOUBLINGS);
    w->fuel = UINT32_MAX;
}

void make_workloads(struct workload out[WORKLOADS])
{
    static void (*const makers[WORKLOADS])(struct workload *) = {many_nodes, no_nodes, many_jobs};
    memset(tables, 0, sizeof tables);
    memset(job_tables, 0, sizeof job_tables);
    for (int i = 0; i < WORKLOADS; i++) {
        out[i].words = tables[i];
        out[i].used = 0;
        out[i].jobs = job_tables[i];
        out[i].jobs_len = ARBORICX_JOB_WORDS * FEW_JOBS;
        makers[i](&out[i]);
    }
    out[WORKLOADS - 1].jobs_len = ARBORICX_JOB_WORDS * (DEPTH + FEW_JOBS);
}

/*
 * One rule again and again: each step applies the f of the level below, down to the leaf, which makes a node. Rules 4 and
 * 7 add a job at each level, rule 6 adds none.
 */
static void chain(struct workload *w, uint32_t rule, uint32_t levels)
{
    const uint32_t l = leaf(w);
    uint32_t f = l, x = l;
    for (uint32_t i = 0; i < levels; i++) {
        if (rule == 4) {
            f = fork_of(w, stem(w, f), l);
        } else if (rule == 6) {
            f = triage(w, l, f, l);
            x = stem(w, x);
        } else {
            f = triage(w, l, l, f);
            x = fork_of(w, x, l);
        }
    }
    w->f = (int32_t)f;
    w->x = (int32_t)x;
    w->fuel = ARBORICX_MAX_PLAIN;
}

void make_chains(struct workload out[CHAINS])
{
    static const struct { const char *name; uint32_t rule, levels; } chains[CHAINS] = {
        {"chain of rule 4", 4, ARBORICX_MAX_PLAIN},
        {"chain of rule 6", 6, ARBORICX_MAX_PLAIN},
        {"chain of rule 7", 7, ARBORICX_MAX_PLAIN},
        {"chain of rule 4, then a node", 4, ARBORICX_MAX_PLAIN - 1},
    };
    memset(chain_tables, 0, sizeof chain_tables);
    memset(chain_job_tables, 0, sizeof chain_job_tables);
    for (int i = 0; i < CHAINS; i++) {
        out[i].name = chains[i].name;
        out[i].words = chain_tables[i];
        out[i].used = 0;
        out[i].jobs = chain_job_tables[i];
        out[i].jobs_len = ARBORICX_JOB_WORDS * ARBORICX_MAX_PLAIN;
        chain(&out[i], chains[i].rule, chains[i].levels);
    }
}

struct workload plain_sized(struct workload w)
{
    if (w.fuel > ARBORICX_MAX_PLAIN) w.fuel = ARBORICX_MAX_PLAIN;
    if (w.jobs_len > ARBORICX_JOB_WORDS * ARBORICX_MAX_PLAIN) w.jobs_len = ARBORICX_JOB_WORDS * ARBORICX_MAX_PLAIN;
    return w;
}

/*
 * Times the archive's calls beside plain C and its two engines beside each other. A report, not a test: it fails only
 * where two sides disagree in an answer.
 */
#include <stdio.h>
#include <stdlib.h>
#include <string.h>

#include "arboricx.h"
#include "bench_bundles.h"
#include "program.h"
#include "race.h"
#include "side.h"
#include "workloads.h"

enum {
    BUNDLES = 3,
    JOB_WORDS = ARBORICX_JOB_WORDS * ARBORICX_MAX_JOBS,
    TABLE_WORDS = ARBORICX_SLOT_WORDS * ARBORICX_MAX_NODES,
    HASHED_BYTES = 64 * 1024
};

static const double aim = 0.9;

static const struct side archive = {
    .load = arboricx_load,
    .run = arboricx_run,
    .carry_on = arboricx_carry_on,
    .export_index = arboricx_export_index,
    .export_name = arboricx_export_name,
    .sha256 = arboricx_sha256,
};

/* The archive first; plain C by the compiler of the bench; plain C by clang, where there is one. */
static const struct side *const sides[] = {
    &archive,
    &plain_c,
#ifdef BENCH_CLANG
    &plain_c_clang,
#endif
};

enum { SIDES = sizeof sides / sizeof *sides };

static int rounds;
static struct workload workloads[WORKLOADS], chains[CHAINS];
static struct bundle bundles[BUNDLES];

/* A row of the table: the archive's call beside plain C's on the same input. */
static struct race race_sides(void (*by_archive)(const struct side *, const void *),
                              void (*by_plain_c)(const struct side *, const void *), const void *input, int calls)
{
    struct contestant contestants[SIDES];
    for (int i = 0; i < SIDES; i++) contestants[i] = (struct contestant){i == 0 ? by_archive : by_plain_c, sides[i]};
    return race(contestants, SIDES, input, calls, rounds);
}

static void time_row(struct race r, double least)
{
    end_row(&r, SIDES, time_unit(&r), least);
}

static void speed_row(struct race r, const char *unit, double amount, double least)
{
    end_row(&r, SIDES, (struct unit){unit, amount, 1}, least);
}

static void expect(int agreed, const char *what)
{
    if (agreed) return;
    fprintf(stderr, "the archive and plain C disagree: %s\n", what);
    exit(1);
}

/* ---- Runs */

static void run_by(const struct side *side, const struct workload *w, uint32_t answer[ARBORICX_RUN_ANSWER])
{
    side->run(w->words, WORKLOAD_WORDS, 0, w->f, w->x, w->used, w->fuel, w->jobs, w->jobs_len, answer);
}

static void timed_run(const struct side *side, const void *input)
{
    uint32_t answer[ARBORICX_RUN_ANSWER];
    run_by(side, input, answer);
}

static void clear_unused(const struct workload *w)
{
    const size_t used = ARBORICX_SLOT_WORDS * (size_t)w->used;
    memset(w->words + used, 0, (WORKLOAD_WORDS - used) * sizeof *w->words);
    memset(w->jobs, 0, w->jobs_len * sizeof *w->jobs);
}

/* What the archive's run left in both tables: the others have to leave the same. */
static uint32_t left_words[WORKLOAD_WORDS], left_jobs[JOB_WORDS];

static void keep_left(const struct workload *w)
{
    memcpy(left_words, w->words, sizeof left_words);
    memcpy(left_jobs, w->jobs, w->jobs_len * sizeof *left_jobs);
}

static void expect_left(const struct workload *w)
{
    expect(memcmp(left_words, w->words, sizeof left_words) == 0, w->name);
    expect(memcmp(left_jobs, w->jobs, w->jobs_len * sizeof *left_jobs) == 0, w->name);
}

/* All sides from the same tables: the same answer, the same words of both tables. */
static void compare_runs(const struct workload *w, uint32_t answer[ARBORICX_RUN_ANSWER])
{
    uint32_t plain[ARBORICX_RUN_ANSWER];
    clear_unused(w);
    run_by(&archive, w, answer);
    keep_left(w);
    for (int i = 1; i < SIDES; i++) {
        clear_unused(w);
        run_by(sides[i], w, plain);
        expect(memcmp(answer, plain, sizeof plain) == 0, w->name);
        expect_left(w);
    }
}

/* The most jobs that wait at once: the least job room with which a run does not stop for want of a place. */
static size_t most_jobs(struct workload w)
{
    uint32_t answer[ARBORICX_RUN_ANSWER];
    size_t low = 0, high = w.jobs_len / ARBORICX_JOB_WORDS;
    while (low < high) {
        const size_t middle = (low + high) / 2;
        w.jobs_len = ARBORICX_JOB_WORDS * middle;
        compare_runs(&w, answer);
        if (answer[ARBORICX_RUN_NUMBER] == ARBORICX_OUT_OF_JOBS) low = middle + 1;
        else high = middle;
    }
    return low;
}

/* The same with half the steps, and with a place for jobs too few: stops 31 and 33. */
static void compare_stops(struct workload w, uint32_t steps, size_t most)
{
    uint32_t answer[ARBORICX_RUN_ANSWER];
    w.fuel = steps / 2;
    compare_runs(&w, answer);
    expect(answer[ARBORICX_RUN_NUMBER] == ARBORICX_OUT_OF_FUEL, w.name);
    w.fuel = steps;
    w.jobs_len = ARBORICX_JOB_WORDS * (most - 1);
    compare_runs(&w, answer);
    expect(answer[ARBORICX_RUN_NUMBER] == ARBORICX_OUT_OF_JOBS, w.name);
}

static void run_row(const struct workload *w)
{
    uint32_t answer[ARBORICX_RUN_ANSWER];
    compare_runs(w, answer);
    const size_t most = most_jobs(*w);
    const uint32_t steps = answer[ARBORICX_RUN_STEPS], made = answer[ARBORICX_RUN_USED] - w->used;
    compare_stops(*w, steps, most);
    printf("| run, %s: %u steps, %u nodes, %zu jobs at once", w->name, (unsigned)steps, (unsigned)made, most);
    speed_row(race_sides(timed_run, timed_run, w, 4000000 / (int)steps + 1), "million steps/s", steps / 1e6, aim);
}

/* ---- Runs in parts */

/* A run and carry-ons, each with the same fuel, until it ends otherwise than for want of fuel. */
struct parts {
    const struct workload *workload;
    uint32_t fuel;
};

/* The archive makes tests before each part, and clears the job table before the first: for plain C it is done here. */
static void in_parts(const struct side *side, const struct parts *p, uint32_t a[ARBORICX_RUN_ANSWER])
{
    const struct workload *w = p->workload;
    if (side != &archive) {
        expect(side->sound(w->words, w->used), w->name);
        memset(w->jobs, 0, w->jobs_len * sizeof *w->jobs);
    }
    side->run(w->words, WORKLOAD_WORDS, 0, w->f, w->x, w->used, p->fuel, w->jobs, w->jobs_len, a);
    while (a[ARBORICX_RUN_NUMBER] == ARBORICX_OUT_OF_FUEL) {
        if (side != &archive) {
            expect(side->sound(w->words, a[ARBORICX_RUN_USED]), w->name);
            expect(side->jobs_sound(w->jobs, w->jobs_len, a[ARBORICX_RUN_JOBS], a[ARBORICX_RUN_USED]), w->name);
        }
        side->carry_on(w->words, WORKLOAD_WORDS, 0, (int32_t)a[ARBORICX_RUN_F], (int32_t)a[ARBORICX_RUN_X],
                       a[ARBORICX_RUN_USED], a[ARBORICX_RUN_JOBS], a[ARBORICX_RUN_STEPS], p->fuel, w->jobs,
                       w->jobs_len, a);
    }
}

static void timed_parts(const struct side *side, const void *input)
{
    uint32_t answer[ARBORICX_RUN_ANSWER];
    in_parts(side, input, answer);
}

static void parts_row(struct parts p)
{
    const struct workload *w = p.workload;
    uint32_t whole[ARBORICX_RUN_ANSWER], answer[ARBORICX_RUN_ANSWER];
    compare_runs(w, whole);
    for (int i = 0; i < SIDES; i++) { /* in parts each side comes to what one run comes to */
        clear_unused(w);
        in_parts(sides[i], &p, answer);
        expect(memcmp(answer, whole, sizeof whole) == 0, w->name);
        expect_left(w);
    }
    printf("| run, %s, in parts of %u steps", w->name, (unsigned)p.fuel);
    speed_row(race_sides(timed_parts, timed_parts, &p, 1), "million steps/s", whole[ARBORICX_RUN_STEPS] / 1e6, 0);
}

/* ---- The two engines: the plain one beside the run call, within the fuel and job places that it takes */

static void by_plain_engine(const struct workload *w, uint32_t answer[ARBORICX_PLAIN_ANSWER])
{
    const uint32_t job_room = (uint32_t)(w->jobs_len / ARBORICX_JOB_WORDS);
    arboricx_plain_run(w->words, WORKLOAD_WORDS, 0, w->f, w->x, w->used, w->fuel, job_room, answer);
}

static void timed_plain_engine(const struct side *side, const void *input)
{
    uint32_t answer[ARBORICX_PLAIN_ANSWER];
    (void)side;
    by_plain_engine(input, answer);
}

/* Both engines from the same table: the same number, result, steps and used count, the same words. */
static void compare_engines(const struct workload *w, uint32_t run[ARBORICX_RUN_ANSWER])
{
    uint32_t plain[ARBORICX_PLAIN_ANSWER];
    compare_runs(w, run);
    clear_unused(w);
    by_plain_engine(w, plain);
    const uint32_t number = run[ARBORICX_RUN_NUMBER], slot = number == ARBORICX_OK ? run[ARBORICX_RUN_SLOT] : 0;
    if (plain[ARBORICX_PLAIN_NUMBER] == number && plain[ARBORICX_PLAIN_SLOT] == slot &&
        plain[ARBORICX_PLAIN_STEPS] == run[ARBORICX_RUN_STEPS] &&
        plain[ARBORICX_PLAIN_USED] == run[ARBORICX_RUN_USED] &&
        memcmp(left_words, w->words, sizeof left_words) == 0) return;
    fprintf(stderr, "the two engines disagree: %s\n", w->name);
    exit(1);
}

static void engines_row(struct workload w)
{
    static const struct contestant engines[] = {{timed_plain_engine, &archive}, {timed_run, &archive}};
    uint32_t answer[ARBORICX_RUN_ANSWER];
    compare_engines(&w, answer);
    const uint32_t steps = answer[ARBORICX_RUN_STEPS];
    printf("| %s: %u steps, %u used slots to check", w.name, (unsigned)steps, (unsigned)w.used);
    const struct race r = race(engines, 2, &w, 1000, rounds);
    end_row(&r, 2, (struct unit){"million steps/s", steps / 1e6, 1}, 0);
}

/* Not the last workload: with so few steps it would be the check of its many slots that is timed. */
static void engines_table(void)
{
    printf("\n| Two engines | Plain run | Run | Ratio | Aim |\n|---|---|---|---|---|\n");
    for (int i = 0; i < WORKLOADS - 1; i++) engines_row(plain_sized(workloads[i]));
    for (int i = 0; i < CHAINS; i++) engines_row(chains[i]);
}

/* ---- The check of the used slots that a run begins with */

/* Part of a table that is filled to the end; a run with no fuel and no job places does little but the check. */
struct entry {
    uint32_t *words;
    uint32_t used;
    uint32_t *jobs;
};

static void archive_entry(const struct side *side, const void *input)
{
    uint32_t answer[ARBORICX_RUN_ANSWER];
    const struct entry *e = input;
    side->run(e->words, WORKLOAD_WORDS, 0, 0, 0, e->used, 0, e->jobs, 0, answer);
    expect(answer[ARBORICX_RUN_NUMBER] == ARBORICX_OUT_OF_FUEL, "used slots");
}

static void c_entry(const struct side *side, const void *input)
{
    const struct entry *e = input;
    expect(side->sound(e->words, e->used), "used slots");
}

static void entry_rows(void)
{
    static const uint32_t counts[] = {1, 64, 512, 4096, ARBORICX_MAX_SLOTS};
    static uint32_t words[WORKLOAD_WORDS], jobs[ARBORICX_JOB_WORDS];
    for (uint32_t i = 1; i < ARBORICX_MAX_SLOTS; i++) { /* stems and forks by turns, each on earlier slots */
        words[ARBORICX_SLOT_WORDS * i] = i;
        words[ARBORICX_SLOT_WORDS * i + 1] = i % 2 ? i / 2 + 1 : 0;
    }
    for (size_t i = 0; i < sizeof counts / sizeof *counts; i++) {
        const struct entry e = {words, counts[i], jobs};
        printf("| check of used slots: %u, by a run without fuel", (unsigned)e.used);
        time_row(race_sides(archive_entry, c_entry, &e, 2000000 / ((int)e.used + 20)), 0);
    }
}

/* ---- The check of the waiting jobs that a carry-on adds */

/* A carry-on with no fuel does little but the checks. */
struct queue {
    uint32_t *words;
    uint32_t used;
    uint32_t *jobs;
    size_t jobs_len;
    uint32_t waiting;
};

static void archive_queue(const struct side *side, const void *input)
{
    uint32_t answer[ARBORICX_RUN_ANSWER];
    const struct queue *q = input;
    side->carry_on(q->words, WORKLOAD_WORDS, 0, 0, 0, q->used, q->waiting, 0, 0, q->jobs, q->jobs_len, answer);
    expect(answer[ARBORICX_RUN_NUMBER] == ARBORICX_OUT_OF_FUEL, "waiting jobs");
}

static void c_queue(const struct side *side, const void *input)
{
    const struct queue *q = input;
    expect(side->sound(q->words, q->used), "used slots");
    expect(side->jobs_sound(q->jobs, q->jobs_len, q->waiting, q->used), "waiting jobs");
}

static void queue_row(struct queue q)
{
    printf("| check of waiting jobs: %u, words above: %zu, by a carry-on without fuel", (unsigned)q.waiting,
           q.jobs_len - ARBORICX_JOB_WORDS * (size_t)q.waiting);
    time_row(race_sides(archive_queue, c_queue, &q, 2000000 / ((int)q.jobs_len + 100)), 0);
}

static void queue_rows(void)
{
    static uint32_t words[WORKLOAD_WORDS] = {0, 0, 1, 0}, jobs[JOB_WORDS]; /* leaf and stem leaf */
    queue_row((struct queue){words, 2, jobs, 0, 0});
    queue_row((struct queue){words, 2, jobs, JOB_WORDS, 0});
    for (size_t i = 0; i < JOB_WORDS; i += ARBORICX_JOB_WORDS) { /* the three kinds of jobs by turns */
        jobs[i] = (uint32_t)i / ARBORICX_JOB_WORDS % 3 + 1;
        jobs[i + 1] = 1;
        jobs[i + 2] = jobs[i] == 1 ? 1 : 0;
    }
    queue_row((struct queue){words, 2, jobs, ARBORICX_JOB_WORDS * 1000, 1000});
    queue_row((struct queue){words, 2, jobs, JOB_WORDS, ARBORICX_MAX_JOBS});
}

/* ---- SHA-256 */

/* Each side has a digest of its own, so that they can be compared. */
static uint8_t digests[2][ARBORICX_DIGEST_BYTES];

static void timed_sha256(const struct side *side, const void *input)
{
    side->sha256(input, HASHED_BYTES, digests[side != &archive]);
}

static void sha256_row(void)
{
    static uint8_t hashed[HASHED_BYTES];
    for (size_t i = 0; i < HASHED_BYTES; i++) hashed[i] = (uint8_t)(i * 167 + i / 251);
    printf("| SHA-256 of %d bytes", HASHED_BYTES);
    speed_row(race_sides(timed_sha256, timed_sha256, hashed, 20), "MB/s", HASHED_BYTES / 1e6, aim);
    expect(memcmp(digests[0], digests[1], sizeof *digests) == 0, "SHA-256");
}

/* ---- Loads */

/* The lent tables and the answer of one load. */
struct lent {
    uint32_t words[TABLE_WORDS], exports[ARBORICX_MAX_EXPORTS], answer[ARBORICX_LOAD_ANSWER];
};

static struct lent lent[2];

static void timed_load(const struct side *side, const void *input)
{
    struct lent *const l = &lent[side != &archive];
    const struct bundle *b = input;
    side->load(b->bytes, b->len, l->words, TABLE_WORDS, 0, l->exports, ARBORICX_MAX_EXPORTS, l->answer);
}

static void load_row(const struct bundle *b)
{
    for (int i = 1; i < SIDES; i++) {
        memset(lent, 0, sizeof lent);
        timed_load(&archive, b);
        timed_load(sides[i], b);
        expect(memcmp(&lent[0], &lent[1], sizeof *lent) == 0, "load");
    }
    expect(lent[0].answer[ARBORICX_LOAD_NODES] == b->nodes, "load");
    printf("| load, nodes: %u, exports: %u, bytes: %zu", (unsigned)b->nodes, (unsigned)b->exports, b->len);
    time_row(race_sides(timed_load, timed_load, b, 1 + 2000 / (int)(b->nodes + 10)), aim);
}

/* ---- The export calls */

struct wanted {
    const struct bundle *bundle;
    uint32_t index;
    char name[EXPORT_NAME_BYTES];
};

static void timed_index(const struct side *side, const void *input)
{
    const struct wanted *w = input;
    uint32_t answer[ARBORICX_INDEX_ANSWER];
    side->export_index(w->bundle->bytes, w->bundle->len, (const uint8_t *)w->name, strlen(w->name), answer);
    expect(answer[ARBORICX_INDEX_NUMBER] == ARBORICX_OK && answer[ARBORICX_INDEX] == w->index, "export_index");
}

static void timed_name(const struct side *side, const void *input)
{
    const struct wanted *w = input;
    uint64_t part[ARBORICX_NAME_ANSWER];
    side->export_name(w->bundle->bytes, w->bundle->len, w->index, part);
    expect(part[ARBORICX_NAME_LENGTH] == strlen(w->name), "export_name");
    expect(memcmp(w->bundle->bytes + part[ARBORICX_NAME_START], w->name, strlen(w->name)) == 0, "export_name");
}

static void export_rows(const struct bundle *b, uint32_t index)
{
    struct wanted w = {.bundle = b, .index = index};
    export_name_of(b, index, w.name);
    printf("| export_index, nodes: %u, export %u of %u", (unsigned)b->nodes, (unsigned)index + 1, (unsigned)b->exports);
    time_row(race_sides(timed_index, timed_index, &w, 50), 0);
    printf("| export_name, nodes: %u, export %u of %u", (unsigned)b->nodes, (unsigned)index + 1, (unsigned)b->exports);
    time_row(race_sides(timed_name, timed_name, &w, 50), 0);
}

/* ---- The program */

static void program_row(const char *path, const struct bundle *b)
{
    static const struct contestant program = {run_program, NULL};
    const struct program_run run = make_program_run(path, b);
    printf("| program check_bundle, nodes: %u, exports: %u", (unsigned)b->nodes, (unsigned)b->exports);
    time_row(race(&program, 1, &run, 10, rounds), 0);
}

/* ---- The report */

static void print_machine(void)
{
    char line[256];
    FILE *f = fopen("/proc/cpuinfo", "r");
    const char *model = NULL;
    while (f != NULL && model == NULL && fgets(line, sizeof line, f) != NULL) {
        if (strncmp(line, "model name", 10) == 0) model = strchr(line, ':');
    }
    if (f != NULL) fclose(f);
    printf("Machine: %s", model != NULL ? model + 2 : "unknown\n");
    printf("Alternating rounds: %d\n\n", rounds);
}

static void print_head(void)
{
    printf("| Measure | Archive (fastest, median) | Plain C by %s (fastest, median) | Ratio (fastest, median) |",
           plain_c.compiler);
    for (int i = 2; i < SIDES; i++) printf(" Ratio to %s |", sides[i]->compiler);
    printf(" Aim |\n|---|---|---|---|");
    for (int i = 2; i < SIDES; i++) printf("---|");
    printf("---|\n");
}

int main(int argc, char **argv)
{
    static const uint32_t node_counts[BUNDLES] = {1, 64, ARBORICX_MAX_NODES};
    static const uint32_t part_fuels[WORKLOADS] = {1000, 1000, 100000};
    static struct bundle many_exports;
    rounds = argc == 2 || argc == 3 ? atoi(argv[1]) : 0;
    if (rounds < 1 || rounds > MAX_ROUNDS) {
        fprintf(stderr, "usage: bench ROUNDS [PROGRAM], with 1 to %d rounds, and the program check_bundle\n", MAX_ROUNDS);
        return 2;
    }
    make_workloads(workloads);
    make_chains(chains);
    for (int i = 0; i < BUNDLES; i++) make_bundle(&bundles[i], node_counts[i], 1);
    make_bundle(&many_exports, 64, ARBORICX_MAX_EXPORTS);
    print_machine();
    print_head();
    for (int i = 0; i < WORKLOADS; i++) run_row(&workloads[i]);
    for (int i = 0; i < WORKLOADS; i++) parts_row((struct parts){&workloads[i], part_fuels[i]});
    sha256_row();
    for (int i = 0; i < BUNDLES; i++) load_row(&bundles[i]);
    load_row(&many_exports);
    export_rows(&many_exports, 0);
    export_rows(&many_exports, ARBORICX_MAX_EXPORTS - 1);
    if (argc == 3) {
        program_row(argv[2], &bundles[1]);
        program_row(argv[2], &many_exports);
    }
    entry_rows();
    queue_rows();
    engines_table();
    return 0;
}

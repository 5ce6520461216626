/*
 * The stack that each call takes, as the first call of a process: stack FILE WAY
 *
 * FILE has the inputs (stack_inputs.c), WAY is how this program is linked: now, lazy or static. A process of its own makes each call
 * on a painted stack, then on the stack of a thread. With lazy binding the first call of memset or memcpy goes through the loader, on the
 * same stack; so nothing here may call these two before the archive does, and the inputs come from another program. The status is 1
 * where a call takes more than arboricx.h says.
 */
#define _GNU_SOURCE

#include <fcntl.h>
#include <pthread.h>
#include <stdio.h>
#include <stdlib.h>
#include <string.h>
#include <sys/mman.h>
#include <sys/wait.h>
#include <ucontext.h>
#include <unistd.h>

#include "stack_inputs.h"

enum { PAINT = 0xa5, PAINTED = 2 * ARBORICX_PLAIN_STACK, WORDS = ARBORICX_SLOT_WORDS * ARBORICX_MAX_NODES };

static struct stack_inputs *in;
static uint32_t words[WORDS], exports[ARBORICX_MAX_EXPORTS], jobs[ARBORICX_JOB_WORDS * ARBORICX_MAX_JOBS];
static uint32_t answer[ARBORICX_RUN_ANSWER];
static int which; /* of the runs, or of the chains */

/* ---- The calls */

static void nothing(void)
{
}

static void check(void)
{
    arboricx_check(in->bundle.bytes, in->bundle.len);
}

static void load(void)
{
    arboricx_load(in->bundle.bytes, in->bundle.len, words, WORDS, 0, exports, ARBORICX_MAX_EXPORTS, answer);
}

static void run(void)
{
    struct stack_table *const t = &in->runs[which];
    arboricx_run(t->words, WORKLOAD_WORDS, 0, t->f, t->x, t->used, t->fuel, jobs, t->jobs_len, answer);
}

/* From the start, with no job waiting. */
static void carry_on(void)
{
    struct stack_table *const t = &in->runs[which];
    arboricx_carry_on(t->words, WORKLOAD_WORDS, 0, t->f, t->x, t->used, 0, 0, t->fuel, jobs, t->jobs_len, answer);
}

static void plain_run(void)
{
    struct stack_table *const t = &in->chains[which];
    arboricx_plain_run(t->words, WORKLOAD_WORDS, 0, t->f, t->x, t->used, t->fuel, t->jobs_len / ARBORICX_JOB_WORDS, answer);
}

static void export_index(void)
{
    static const uint8_t none[4] = {'n', 'o', 'n', 'e'};
    arboricx_export_index(in->bundle.bytes, in->bundle.len, none, sizeof none, answer);
}

static void export_name(void)
{
    static uint64_t name[ARBORICX_NAME_ANSWER];
    arboricx_export_name(in->bundle.bytes, in->bundle.len, ARBORICX_MAX_EXPORTS - 1, name);
}

static void sha256(void)
{
    static uint8_t digest[ARBORICX_DIGEST_BYTES];
    arboricx_sha256(in->bundle.bytes, in->bundle.len, digest);
}

/* ---- Measuring */

static void give_up(const char *what)
{
    perror(what);
    exit(2);
}

/* Memory in paint, after a page that may not be touched. */
static uint8_t *painted(size_t bytes)
{
    const size_t page = (size_t)sysconf(_SC_PAGESIZE);
    uint8_t *const map = mmap(NULL, page + bytes, PROT_READ | PROT_WRITE, MAP_PRIVATE | MAP_ANONYMOUS, -1, 0);
    if (map == MAP_FAILED || mprotect(map, page, PROT_NONE) != 0) give_up("a painted stack");
    for (volatile uint8_t *p = map + page; p < map + page + bytes; p++) *p = PAINT;
    return map + page;
}

static uint8_t *own; /* the painted stack, the call that is made on it, and how much of it stays clean */
static void (*made)(void);
static size_t clean;

/* Counts before the painted stack is left, as that may write deeper than a call does. */
static void enter(void)
{
    made();
    for (clean = 0; clean < PAINTED && own[clean] == PAINT; clean++) continue;
}

static size_t on_painted(void (*call)(void))
{
    static ucontext_t outside, inside;
    own = painted(PAINTED);
    made = call;
    getcontext(&inside);
    inside.uc_stack.ss_sp = own;
    inside.uc_stack.ss_size = PAINTED;
    inside.uc_link = &outside;
    makecontext(&inside, enter, 0);
    swapcontext(&outside, &inside);
    return PAINTED - clean;
}

/* What the call takes beside an empty function that is entered the same way. */
static size_t taken(void (*call)(void), size_t limit)
{
    (void)limit;
    const size_t empty = on_painted(nothing);
    return on_painted(call) - empty;
}

static void *in_thread(void *unused)
{
    made();
    return unused;
}

/* All that a thread writes of a stack with so many bytes: what the C library keeps there, the loader, its own frames, the call. */
static size_t of_thread(void (*call)(void), size_t limit)
{
    const size_t page = (size_t)sysconf(_SC_PAGESIZE), least = (size_t)sysconf(_SC_THREAD_STACK_MIN);
    const size_t wanted = limit < least ? least : limit, bytes = (wanted + page - 1) / page * page;
    uint8_t *const stack = painted(bytes);
    pthread_attr_t attributes;
    pthread_t thread;
    pthread_attr_init(&attributes);
    if (pthread_attr_setstack(&attributes, stack, bytes) != 0) give_up("the stack of a thread");
    made = call;
    if (pthread_create(&thread, &attributes, in_thread, NULL) != 0) give_up("a thread");
    pthread_join(thread, NULL);
    for (clean = 0; clean < bytes && stack[clean] == PAINT; clean++) continue;
    return bytes - clean;
}

/* A measure, made in a process of its own. 0 where that process crashed. */
static size_t first(size_t (*measure)(void (*)(void), size_t), void (*call)(void), size_t limit)
{
    size_t *const told = mmap(NULL, sizeof *told, PROT_READ | PROT_WRITE, MAP_SHARED | MAP_ANONYMOUS, -1, 0);
    if (told == MAP_FAILED) give_up("mmap");
    const pid_t child = fork();
    if (child == 0) {
        *told = measure(call, limit);
        _exit(0);
    }
    int status;
    if (child < 0 || waitpid(child, &status, 0) < 0) give_up("fork");
    const size_t bytes = status == 0 ? *told : 0;
    munmap(told, sizeof *told);
    return bytes;
}

/* ---- The rows */

struct row {
    const char *name;
    void (*call)(void);
    int inputs;
    size_t limit;
};

static const struct row rows[] = {
    {"arboricx_load", load, 1, ARBORICX_STACK},
    {"arboricx_check", check, 1, ARBORICX_STACK},
    {"arboricx_run", run, WORKLOADS, ARBORICX_RUN_STACK},
    {"arboricx_carry_on", carry_on, WORKLOADS, ARBORICX_RUN_STACK},
    {"arboricx_export_index", export_index, 1, ARBORICX_STACK},
    {"arboricx_export_name", export_name, 1, ARBORICX_STACK},
    {"arboricx_sha256", sha256, 1, ARBORICX_STACK},
    {"arboricx_plain_run", plain_run, CHAINS, ARBORICX_PLAIN_STACK},
    {"nothing", nothing, 1, 0},
};

/* The most that a call takes on any of its inputs; 0 where one crashed. */
static size_t most(const struct row *row, size_t (*measure)(void (*)(void), size_t), size_t limit)
{
    size_t bytes = 0;
    for (which = 0; which < row->inputs; which++) {
        const size_t taken_here = first(measure, row->call, limit);
        if (taken_here == 0 && row->call != nothing) return 0;
        if (bytes < taken_here) bytes = taken_here;
    }
    return bytes;
}

/* Whether the header's word is kept. With lazy binding a run may take what a thread has beside it. */
static int print_row(const struct row *row, int lazy)
{
    const size_t room = row->limit + ARBORICX_THREAD_EXTRA, bytes = most(row, taken, 0), whole = most(row, of_thread, room);
    const size_t limit = lazy && row->limit == ARBORICX_RUN_STACK ? room : row->limit;
    const int kept = bytes <= limit && (bytes > 0 || row->call == nothing) && whole > 0;
    printf("| `%s` | %zu | %zu | %zu | %zu |%s\n", row->name, bytes, row->limit, whole, room, kept ? "" : " NOT KEPT");
    return kept;
}

int main(int argc, char **argv)
{
    const int file = argc == 3 ? open(argv[1], O_RDONLY) : -1;
    int kept = 1;
    if (file < 0) {
        fprintf(stderr, "usage: stack FILE now|lazy|static, with what stack-inputs wrote\n");
        return 2;
    }
    in = mmap(NULL, sizeof *in, PROT_READ | PROT_WRITE, MAP_PRIVATE, file, 0);
    if (in == MAP_FAILED) give_up(argv[1]);
    printf("| First call of a process, linked %s | Stack | At most | Of a thread in all | Which has at least |\n|---|---|---|---|---|\n", argv[2]);
    fflush(stdout);
    for (size_t i = 0; i < sizeof rows / sizeof *rows; i++) kept &= print_row(&rows[i], strcmp(argv[2], "lazy") == 0);
    return !kept;
}

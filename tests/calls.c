#define _GNU_SOURCE

#include "calls.h"
#include "arboricx.h"
#include "fences.h"
#include "record.h"
#include "reference.h"

#include <signal.h>
#include <stdio.h>
#include <stdlib.h>
#include <string.h>
#include <unistd.h>

enum { ARGUMENTS = 10, NUMBERS = 50, MOST_FILE = 98304, MOST_NAME = 2048, ANSWER_BYTES = 64 };

/* ---- What is being done now, for reports */

struct argument {
    const char *name;
    int64_t value;
};

static struct {
    const char *program;
    uint64_t seed, index;
    int broken;
    const char *call;
    const char *side;
    struct argument arguments[ARGUMENTS];
    unsigned count;
    unsigned made; /* calls in this case */
} now;

static uint64_t calls;

/* Reports are written by write alone, since the handler of signals writes them too. */
static void say(const char *text)
{
    size_t length = strlen(text);

    while (length > 0) {
        ssize_t written = write(STDERR_FILENO, text, length);
        if (written <= 0)
            return;
        text += written;
        length -= (size_t)written;
    }
}

static void say_unsigned(uint64_t number)
{
    char digits[21];
    char *at = digits + sizeof digits - 1;

    *at = '\0';
    do
        *--at = (char)('0' + number % 10);
    while ((number /= 10) > 0);
    say(at);
}

static void say_signed(int64_t number)
{
    if (number < 0)
        say("-");
    say_unsigned(number < 0 ? 0 - (uint64_t)number : (uint64_t)number);
}

static void say_now(const char *what)
{
    say(what);
    say("\nseed ");
    say_unsigned(now.seed);
    say(", case ");
    say_unsigned(now.index);
    say(", call ");
    say(now.call);
    say("(");
    for (unsigned i = 0; i < now.count; i++) {
        say(i > 0 ? ", " : "");
        say(now.arguments[i].name);
        say(" ");
        say_signed(now.arguments[i].value);
    }
    say(")\n");
}

static void say_replay(void)
{
    say("replay: ");
    say(now.program);
    say(" --seed ");
    say_unsigned(now.seed);
    say(" --first ");
    say_unsigned(now.index);
    say(" --count 1");
    if (now.broken != 0) {
        say(" --break ");
        say_signed(now.broken);
    }
    say("\n");
}

/*
 * A sanitiser sets its own handler at the start of the program; this one is set later and takes its place, so that a
 * touched fence is reported in the same way in every build. No option for the sanitiser is needed.
 */
static void report_signal(int signal)
{
    say_now(signal == SIGBUS ? "SIGBUS" : "SIGSEGV: memory was touched that was not lent");
    say("side: ");
    say(now.side);
    say("\n");
    say_replay();
    _exit(2);
}

static void install_handler(void)
{
    static uint8_t stack_bytes[64 * 1024];
    stack_t stack = {.ss_sp = stack_bytes, .ss_size = sizeof stack_bytes};
    struct sigaction action;

    memset(&action, 0, sizeof action);
    action.sa_handler = report_signal;
    action.sa_flags = SA_ONSTACK;
    sigemptyset(&action.sa_mask);
    if (sigaltstack(&stack, NULL) != 0 || sigaction(SIGSEGV, &action, NULL) != 0 ||
        sigaction(SIGBUS, &action, NULL) != 0) {
        perror("sigaction");
        exit(3);
    }
}

static void begin_call(const char *call)
{
    now.call = call;
    now.count = 0;
    now.made++;
    calls++;
}

static void argument(const char *name, int64_t value)
{
    now.arguments[now.count++] = (struct argument){name, value};
}

static void on_side(enum side side)
{
    now.side = side == ARCHIVE ? "archive" : "reference";
}

/* ---- What came out */

/* The value returned and the words of the answer, of each side. */
struct outcome {
    uint64_t values[SIDES][8];
    unsigned count;
};

static void say_outcome(const struct outcome *outcome, enum side side)
{
    say(side == ARCHIVE ? "archive answers  " : "reference answers");
    for (unsigned i = 0; i < outcome->count; i++) {
        say(" ");
        say_unsigned(outcome->values[side][i]);
    }
    say("\n");
}

static void report_mismatch(const struct outcome *outcome, const char *where, size_t index, uint64_t archive,
                            uint64_t reference)
{
    fflush(stdout);
    say_now("mismatch");
    say_outcome(outcome, ARCHIVE);
    say_outcome(outcome, REFERENCE);
    say("first difference: ");
    say(where);
    say(" ");
    say_unsigned(index);
    say(": archive ");
    say_unsigned(archive);
    say(", reference ");
    say_unsigned(reference);
    say("\n");
    say_replay();
    exit(1);
}

void expect(const char *what, uint64_t got, uint64_t wanted)
{
    if (got == wanted)
        return;
    fflush(stdout);
    say_now(what);
    say("both sides answer ");
    say_unsigned(got);
    say(", expected is ");
    say_unsigned(wanted);
    say("\n");
    say_replay();
    exit(1);
}

static void compare_outcome(const struct outcome *outcome)
{
    for (unsigned i = 0; i < outcome->count; i++)
        if (outcome->values[ARCHIVE][i] != outcome->values[REFERENCE][i])
            report_mismatch(outcome, "value", i, outcome->values[ARCHIVE][i], outcome->values[REFERENCE][i]);
}

static void compare_tables(const struct outcome *outcome, const char *table, const struct lent *lent)
{
    const uint32_t *archive = lent->words[ARCHIVE], *reference = lent->words[REFERENCE];

    if (memcmp(archive + lent->closed, reference + lent->closed, open_bytes(lent)) == 0)
        return;
    for (size_t i = lent->closed; i < lent->length; i++)
        if (archive[i] != reference[i])
            report_mismatch(outcome, table, i, archive[i], reference[i]);
}

/* ---- How often each number was answered */

enum counted { COUNT_CHECK, COUNT_LOAD, COUNT_INDEX, COUNT_RUN, COUNT_CARRY, COUNT_PLAIN, COUNTED };

static uint64_t tally[COUNTED][NUMBERS];
static uint64_t names_found, names_empty;
static uint64_t most_steps, most_used, most_jobs;

static uint32_t count_number(enum counted counted, const struct outcome *outcome)
{
    uint32_t number = (uint32_t)outcome->values[ARCHIVE][0];

    if (number < NUMBERS)
        tally[counted][number]++;
    return number;
}

static void count_run(const struct outcome *outcome)
{
    const uint64_t *values = outcome->values[ARCHIVE] + 1;

    if (values[ARBORICX_RUN_STEPS] > most_steps)
        most_steps = values[ARBORICX_RUN_STEPS];
    if (values[ARBORICX_RUN_USED] > most_used)
        most_used = values[ARBORICX_RUN_USED];
    if (values[ARBORICX_RUN_JOBS] > most_jobs)
        most_jobs = values[ARBORICX_RUN_JOBS];
}

void print_numbers(void)
{
    printf("number      check       load      index        run      carry      plain\n");
    for (unsigned i = 0; i < NUMBERS; i++) {
        if ((i > 25 && i < 31) || (i > 33 && i < 40) || (i > 40 && i < 49))
            continue;
        printf("%6u", i);
        for (unsigned counted = 0; counted < COUNTED; counted++)
            printf(" %10llu", (unsigned long long)tally[counted][i]);
        printf("\n");
    }
    printf("names found %llu, empty %llu\n", (unsigned long long)names_found, (unsigned long long)names_empty);
    printf("most steps %llu, most slots used %llu, most jobs waiting %llu\n", (unsigned long long)most_steps,
           (unsigned long long)most_used, (unsigned long long)most_jobs);
}

/* ---- Lending */

static struct fence file_fence, name_fence, answer_fences[SIDES];

/* A table of one page or less needs no change of pages, and most tables are so short. */
static struct fence short_fences[TABLES][SIDES], long_fences[TABLES][SIDES];

static const uint8_t *file;
static size_t file_len;

static enum fence_side some_side(struct dice *dice)
{
    return (enum fence_side)dice_below(dice, FENCE_SIDES);
}

void lend_file(const uint8_t *bytes, size_t length, struct dice *dice)
{
    uint8_t *lent = fence_lend(&file_fence, length, some_side(dice));

    memcpy(lent, bytes, length);
    fence_protect(&file_fence);
    file = lent;
    file_len = length;
}

const uint8_t *lent_file(void)
{
    return file;
}

static const uint8_t *lend_name(const uint8_t *name, size_t length)
{
    if ((uintptr_t)name >= (uintptr_t)file && (uintptr_t)name < (uintptr_t)file + file_len)
        return name;

    uint8_t *lent = fence_lend(&name_fence, length, now.made % 3 == 0 ? FENCE_LEFT : FENCE_RIGHT);

    memcpy(lent, name, length);
    fence_protect(&name_fence);
    return lent;
}

/* Finds a place for the table of each side. */
static void place_table(struct lent *lent, enum table table, enum fence_side where)
{
    size_t open = open_bytes(lent);

    for (unsigned side = 0; side < SIDES; side++) {
        struct fence *fence = &short_fences[table][side];
        if (open > fence_page())
            fence = &long_fences[table][side];
        lent->words[side] = lent->closed > 0 ? fence_lend_closed(fence, lent->closed * sizeof(uint32_t), open)
                                             : fence_lend(fence, open, where);
    }
}

void lend_table(struct lent *lent, enum table table, size_t length, size_t closed, struct dice *dice)
{
    lent->length = length;
    lent->closed = closed;
    place_table(lent, table, some_side(dice));
    dice_fill(dice, lent->words[ARCHIVE] + closed, open_bytes(lent));
    memcpy(lent->words[REFERENCE] + closed, lent->words[ARCHIVE] + closed, open_bytes(lent));
}

/* Sides change every other call: a run makes two calls. */
static enum fence_side next_side(void)
{
    return now.made % 4 < 2 ? FENCE_RIGHT : FENCE_LEFT;
}

static void copy_table(struct lent *copy, const struct lent *lent)
{
    copy->length = lent->length;
    copy->closed = lent->closed;
    place_table(copy, TABLE_COPY, next_side());
    for (unsigned side = 0; side < SIDES; side++)
        memcpy(copy->words[side] + copy->closed, lent->words[side] + lent->closed, open_bytes(lent));
}

static int same_words(const struct lent *one, const struct lent *other)
{
    return memcmp(one->words[ARCHIVE] + one->closed, other->words[ARCHIVE] + other->closed, open_bytes(one)) == 0;
}

/* An answer at one of the fences, with other words in it before each call. */
static void *lend_answer(enum side side, size_t bytes)
{
    void *answer = fence_lend(&answer_fences[side], bytes, next_side());

    memset(answer, (int)(0xa5 ^ (now.made & 0xff)), bytes);
    return answer;
}

static void take_words(struct outcome *outcome, enum side side, uint32_t number, const uint32_t *answer, unsigned count)
{
    outcome->values[side][0] = number;
    for (unsigned i = 0; i < count; i++)
        outcome->values[side][1 + i] = answer[i];
    outcome->count = 1 + count;
}

static void give_words(uint32_t *answer, const struct outcome *outcome)
{
    for (unsigned i = 1; i < outcome->count; i++)
        answer[i - 1] = (uint32_t)outcome->values[ARCHIVE][i];
}

/* ---- The calls */

uint32_t both_check(void)
{
    struct outcome outcome = {.count = 1};

    begin_call("check");
    argument("file_len", (int64_t)file_len);
    on_side(ARCHIVE);
    outcome.values[ARCHIVE][0] = recorded_check(file, file_len);
    on_side(REFERENCE);
    outcome.values[REFERENCE][0] = reference_check(file, file_len);
    compare_outcome(&outcome);
    return count_number(COUNT_CHECK, &outcome);
}

uint32_t both_load(struct lent *words, int32_t base, struct lent *exports, uint32_t answer[3])
{
    static uint32_t (*const load[SIDES])(const uint8_t *, uint64_t, uint32_t *, uint64_t, int32_t, uint32_t *, uint64_t,
                                         uint32_t *) = {recorded_load, reference_load};
    struct outcome outcome;

    begin_call("load");
    record_whole(words->closed == 0);
    argument("file_len", (int64_t)file_len);
    argument("words_len", (int64_t)words->length);
    argument("closed", (int64_t)words->closed);
    argument("base", base);
    argument("exports_len", (int64_t)exports->length);
    for (unsigned side = 0; side < SIDES; side++) {
        uint32_t *lent = lend_answer(side, ARBORICX_LOAD_ANSWER * sizeof *lent);
        on_side(side);
        uint32_t number = load[side](file, file_len, words->words[side], words->length, base, exports->words[side],
                                     exports->length, lent);
        take_words(&outcome, side, number, lent, ARBORICX_LOAD_ANSWER);
    }
    compare_outcome(&outcome);
    compare_tables(&outcome, "word", words);
    compare_tables(&outcome, "export slot", exports);
    give_words(answer, &outcome);
    return count_number(COUNT_LOAD, &outcome);
}

static void run_arguments(const struct lent *words, const struct run *run)
{
    record_whole(words->closed == 0);
    argument("words_len", (int64_t)words->length);
    argument("closed", (int64_t)words->closed);
    argument("base", run->base);
    argument("f", run->f);
    argument("x", run->x);
    argument("used", run->used);
    argument("fuel", run->fuel);
}

static void compare_run(const struct outcome *outcome, const struct lent *words, const struct lent *jobs,
                        uint32_t answer[6])
{
    compare_outcome(outcome);
    compare_tables(outcome, "word", words);
    compare_tables(outcome, "job word", jobs);
    give_words(answer, outcome);
}

uint32_t both_plain_run(struct lent *words, const struct run *run, uint32_t job_room, uint32_t answer[4])
{
    static uint32_t (*const runs[SIDES])(uint32_t *, uint64_t, int32_t, int32_t, int32_t, uint32_t, uint32_t, uint32_t,
                                         uint32_t *) = {recorded_plain_run, reference_plain_run};
    struct outcome outcome;

    begin_call("plain_run");
    run_arguments(words, run);
    argument("job_room", job_room);
    for (unsigned side = 0; side < SIDES; side++) {
        uint32_t *lent = lend_answer(side, ARBORICX_PLAIN_ANSWER * sizeof *lent);
        on_side(side);
        uint32_t number = runs[side](words->words[side], words->length, run->base, run->f, run->x, run->used, run->fuel,
                                     job_room, lent);
        take_words(&outcome, side, number, lent, ARBORICX_PLAIN_ANSWER);
    }
    compare_outcome(&outcome);
    compare_tables(&outcome, "word", words);
    give_words(answer, &outcome);
    return count_number(COUNT_PLAIN, &outcome);
}

/* What the plain engine came to on a copy of the words. */
struct beside {
    struct lent words;
    uint32_t job_room, answer[ARBORICX_PLAIN_ANSWER];
};

static void play_beside(struct beside *beside, const struct lent *words, const struct run *run, const struct lent *jobs)
{
    size_t job_room = jobs->length / ARBORICX_JOB_WORDS;

    beside->job_room = job_room < ARBORICX_MAX_JOBS ? (uint32_t)job_room : ARBORICX_MAX_JOBS;
    copy_table(&beside->words, words);
    both_plain_run(&beside->words, run, beside->job_room, beside->answer);
    if (beside->answer[ARBORICX_PLAIN_USED] == 0)
        expect("words stay when the plain engine refuses", same_words(&beside->words, words), 1);
}

/* The run has been made: unless it asks too much of the plain engine, the two engines come to the same. */
static void compare_engines(const struct beside *beside, const struct lent *words, const struct run *run,
                            const uint32_t answer[6])
{
    int deep = run->fuel > ARBORICX_MAX_PLAIN || beside->job_room > ARBORICX_MAX_PLAIN;
    uint32_t number = answer[ARBORICX_RUN_NUMBER];
    uint32_t wanted[ARBORICX_PLAIN_ANSWER] = {number, number == ARBORICX_OK ? answer[ARBORICX_RUN_SLOT] : 0,
                                              answer[ARBORICX_RUN_STEPS], answer[ARBORICX_RUN_USED]};

    if (deep && answer[ARBORICX_RUN_USED] > 0) /* used 0: refused */
        memcpy(wanted, (uint32_t[ARBORICX_PLAIN_ANSWER]){ARBORICX_TOO_DEEP}, sizeof wanted);
    for (unsigned i = 0; i < ARBORICX_PLAIN_ANSWER; i++)
        expect("answer of the plain engine beside the run's", beside->answer[i], wanted[i]);
    if (wanted[ARBORICX_PLAIN_NUMBER] != ARBORICX_TOO_DEEP)
        expect("words of the plain engine beside the run's", same_words(&beside->words, words), 1);
}

uint32_t both_run(struct lent *words, const struct run *run, struct lent *jobs, uint32_t answer[6])
{
    static uint32_t (*const runs[SIDES])(uint32_t *, uint64_t, int32_t, int32_t, int32_t, uint32_t, uint32_t,
                                         uint32_t *, uint64_t, uint32_t *) = {recorded_run, reference_run};
    struct outcome outcome;
    struct beside beside;

    play_beside(&beside, words, run, jobs);
    begin_call("run");
    run_arguments(words, run);
    argument("jobs_len", (int64_t)jobs->length);
    for (unsigned side = 0; side < SIDES; side++) {
        uint32_t *lent = lend_answer(side, ARBORICX_RUN_ANSWER * sizeof *lent);
        on_side(side);
        uint32_t number = runs[side](words->words[side], words->length, run->base, run->f, run->x, run->used, run->fuel,
                                     jobs->words[side], jobs->length, lent);
        take_words(&outcome, side, number, lent, ARBORICX_RUN_ANSWER);
    }
    compare_run(&outcome, words, jobs, answer);
    compare_engines(&beside, words, run, answer);
    count_run(&outcome);
    return count_number(COUNT_RUN, &outcome);
}

uint32_t both_carry_on(struct lent *words, const struct carry *carry, struct lent *jobs, uint32_t answer[6])
{
    static uint32_t (*const carries[SIDES])(uint32_t *, uint64_t, int32_t, int32_t, int32_t, uint32_t, uint32_t,
                                            uint32_t, uint32_t, uint32_t *, uint64_t,
                                            uint32_t *) = {recorded_carry_on, reference_carry_on};
    const struct run *run = &carry->run;
    struct outcome outcome;

    begin_call("carry_on");
    run_arguments(words, run);
    argument("jobs_len", (int64_t)jobs->length);
    argument("waiting", carry->waiting);
    argument("steps", carry->steps);
    for (unsigned side = 0; side < SIDES; side++) {
        uint32_t *lent = lend_answer(side, ARBORICX_RUN_ANSWER * sizeof *lent);
        on_side(side);
        uint32_t number = carries[side](words->words[side], words->length, run->base, run->f, run->x, run->used,
                                        carry->waiting, carry->steps, run->fuel, jobs->words[side], jobs->length, lent);
        take_words(&outcome, side, number, lent, ARBORICX_RUN_ANSWER);
    }
    compare_run(&outcome, words, jobs, answer);
    return count_number(COUNT_CARRY, &outcome);
}

uint32_t both_index(const uint8_t *name, size_t name_len, uint32_t answer[2])
{
    static uint32_t (*const index[SIDES])(const uint8_t *, uint64_t, const uint8_t *, uint64_t, uint32_t *) = {
        recorded_export_index, reference_export_index};
    struct outcome outcome;
    const uint8_t *lent_name = lend_name(name, name_len);

    begin_call("export_index");
    argument("file_len", (int64_t)file_len);
    argument("name_len", (int64_t)name_len);
    for (unsigned side = 0; side < SIDES; side++) {
        uint32_t *lent = lend_answer(side, ARBORICX_INDEX_ANSWER * sizeof *lent);
        on_side(side);
        uint32_t number = index[side](file, file_len, lent_name, name_len, lent);
        take_words(&outcome, side, number, lent, ARBORICX_INDEX_ANSWER);
    }
    compare_outcome(&outcome);
    give_words(answer, &outcome);
    return count_number(COUNT_INDEX, &outcome);
}

void both_name(uint32_t index, uint64_t answer[2])
{
    static void (*const name[SIDES])(const uint8_t *, uint64_t, uint32_t, uint64_t *) = {recorded_export_name,
                                                                                         reference_export_name};
    struct outcome outcome = {.count = ARBORICX_NAME_ANSWER};

    begin_call("export_name");
    argument("file_len", (int64_t)file_len);
    argument("index", index);
    for (unsigned side = 0; side < SIDES; side++) {
        uint64_t *lent = lend_answer(side, ARBORICX_NAME_ANSWER * sizeof *lent);
        on_side(side);
        name[side](file, file_len, index, lent);
        for (unsigned i = 0; i < ARBORICX_NAME_ANSWER; i++)
            outcome.values[side][i] = lent[i];
    }
    compare_outcome(&outcome);
    for (unsigned i = 0; i < ARBORICX_NAME_ANSWER; i++)
        answer[i] = outcome.values[ARCHIVE][i];
    if (answer[ARBORICX_NAME_LENGTH] > 0)
        names_found++;
    else
        names_empty++;
}

void both_sha256(size_t start, size_t length)
{
    static void (*const sha256[SIDES])(const uint8_t *, uint64_t, uint8_t *) = {recorded_sha256, reference_sha256};
    struct outcome outcome = {.count = 4};

    begin_call("sha256");
    argument("file_len", (int64_t)file_len);
    argument("start", (int64_t)start);
    argument("length", (int64_t)length);
    for (unsigned side = 0; side < SIDES; side++) {
        uint8_t *lent = lend_answer(side, ARBORICX_DIGEST_BYTES);
        on_side(side);
        sha256[side](file + start, length, lent);
        memcpy(outcome.values[side], lent, ARBORICX_DIGEST_BYTES);
    }
    compare_outcome(&outcome);
}

/* ---- Start */

void calls_case(uint64_t seed, uint64_t index, int broken)
{
    now.seed = seed;
    now.index = index;
    now.broken = broken;
    now.call = "none";
    now.side = "none";
    now.count = 0;
    now.made = 0;
}

uint64_t calls_made(void)
{
    return calls;
}

void calls_prepare(const char *program)
{
    static const size_t most[TABLES] = {MOST_WORDS, MOST_EXPORTS, MOST_JOBS, MOST_JOBS, MOST_WORDS};
    size_t below_base = (size_t)LARGEST_BASE * sizeof(uint32_t); /* address space only: it is never opened */

    now.program = program;
    fence_make(&file_fence, MOST_FILE, 0);
    fence_make(&name_fence, MOST_NAME, 0);
    for (unsigned side = 0; side < SIDES; side++) {
        fence_make(&answer_fences[side], ANSWER_BYTES, 0);
        for (unsigned table = 0; table < TABLES; table++) {
            size_t reserve = table == TABLE_WORDS || table == TABLE_COPY ? below_base : 0;
            fence_make(&short_fences[table][side], fence_page(), reserve);
            fence_make(&long_fences[table][side], most[table] * sizeof(uint32_t), reserve);
        }
    }
    install_handler();
}

#include "plain_run.h"

static size_t at_most(uint64_t count, size_t limit)
{
    return count < limit ? (size_t)count : limit;
}

static uint32_t tell(uint32_t *answer, uint32_t number, size_t f, size_t x, uint32_t steps, size_t used, size_t waiting)
{
    answer[ARBORICX_RUN_NUMBER] = number;
    answer[ARBORICX_RUN_F] = (uint32_t)f;
    answer[ARBORICX_RUN_X] = (uint32_t)x;
    answer[ARBORICX_RUN_STEPS] = steps;
    answer[ARBORICX_RUN_USED] = (uint32_t)used;
    answer[ARBORICX_RUN_JOBS] = (uint32_t)waiting;
    return number;
}

/* The newest job is at job[-3]. */
static inline uint32_t *push(uint32_t *job, uint32_t tag, size_t first, size_t second)
{
    job[0] = tag;
    job[1] = (uint32_t)first;
    job[2] = (uint32_t)second;
    return job + ARBORICX_JOB_WORDS;
}

/* The tree t meets the newest job; f and x become what is to be applied next. */
static inline uint32_t *meet(uint32_t *job, size_t t, size_t *f, size_t *x)
{
    if (job[-3] == 1) {
        *f = job[-2];
        *x = job[-1];
        return push(job - 3, 3, t, 0);
    }
    if (job[-3] == 2) {
        *f = t;
        *x = job[-2];
    } else {
        *f = job[-2];
        *x = t;
    }
    job[-3] = job[-2] = job[-1] = 0;
    return job - 3;
}

/* One loop for all seven rules, which keeps its state in registers. Each of the two calls has a copy of its own. */
__attribute__((always_inline))
static inline uint32_t drive(uint32_t *words, uint64_t words_len, int32_t base, int32_t f_slot, int32_t x_slot,
                             uint32_t used_slots, uint32_t waiting, uint32_t steps, uint32_t fuel, uint32_t *jobs,
                             uint64_t jobs_len, uint32_t *answer)
{
    uint32_t *const slots = words + base;
    const size_t room = at_most((words_len - (uint64_t)base) / ARBORICX_SLOT_WORDS, ARBORICX_MAX_SLOTS);
    uint32_t *const end = jobs + ARBORICX_JOB_WORDS * at_most(jobs_len / ARBORICX_JOB_WORDS, ARBORICX_MAX_JOBS);
    uint32_t *job = jobs + ARBORICX_JOB_WORDS * (size_t)waiting;
    size_t f = (size_t)f_slot, x = (size_t)x_slot, used = used_slots, t;
    uint32_t left = fuel, number = ARBORICX_OUT_OF_FUEL;

    for (; left != 0; left--) {
        const size_t first = slots[2 * f], second = slots[2 * f + 1];
        const size_t g = 2 * first - 2, a = 2 * x; /* where the words of f's first child and of x are */
        if (second == 0) { /* rules 1 and 2 */
            if (used == room) { number = ARBORICX_OUT_OF_SLOTS; break; }
            slots[2 * used] = (uint32_t)(first == 0 ? x + 1 : first);
            slots[2 * used + 1] = (uint32_t)(first == 0 ? 0 : x + 1);
            t = used++;
        } else if (slots[g] == 0) { /* rule 3 */
            t = second - 1;
        } else if (slots[g + 1] == 0) { /* rule 4 */
            if (job == end) { number = ARBORICX_OUT_OF_JOBS; break; }
            job = push(job, 1, second - 1, x);
            f = (size_t)slots[g] - 1;
            continue;
        } else if (slots[a] == 0) { /* rule 5 */
            t = (size_t)slots[g] - 1;
        } else if (slots[a + 1] == 0) { /* rule 6 */
            f = (size_t)slots[g + 1] - 1;
            x = (size_t)slots[a] - 1;
            continue;
        } else { /* rule 7 */
            if (job == end) { number = ARBORICX_OUT_OF_JOBS; break; }
            job = push(job, 2, (size_t)slots[a + 1] - 1, 0);
            f = second - 1;
            x = (size_t)slots[a] - 1;
            continue;
        }
        if (job == jobs) return tell(answer, ARBORICX_OK, t, 0, steps + fuel - left + 1, used, 0);
        job = meet(job, t, &f, &x);
    }
    return tell(answer, number, f, x, steps + fuel - left, used, (size_t)(job - jobs) / ARBORICX_JOB_WORDS);
}

uint32_t plain_run(uint32_t *words, uint64_t words_len, int32_t base, int32_t f, int32_t x, uint32_t used,
                   uint32_t fuel, uint32_t *jobs, uint64_t jobs_len, uint32_t answer[ARBORICX_RUN_ANSWER])
{
    return drive(words, words_len, base, f, x, used, 0, 0, fuel, jobs, jobs_len, answer);
}

uint32_t plain_carry_on(uint32_t *words, uint64_t words_len, int32_t base, int32_t f, int32_t x, uint32_t used,
                        uint32_t waiting, uint32_t steps, uint32_t fuel, uint32_t *jobs, uint64_t jobs_len,
                        uint32_t answer[ARBORICX_RUN_ANSWER])
{
    return drive(words, words_len, base, f, x, used, waiting, steps, fuel, jobs, jobs_len, answer);
}

int plain_sound(const uint32_t *slots, uint32_t used)
{
    if (slots[0] != 0 || slots[1] != 0) return 0;
    for (uint32_t i = 1; i < used; i++) {
        if (slots[2 * i] == 0 || slots[2 * i] > i || slots[2 * i + 1] > i) return 0;
    }
    return 1;
}

int plain_jobs_sound(const uint32_t *jobs, uint64_t jobs_len, uint32_t waiting, uint32_t used)
{
    const size_t above = ARBORICX_JOB_WORDS * (size_t)waiting;
    if (waiting > at_most(jobs_len / ARBORICX_JOB_WORDS, ARBORICX_MAX_JOBS)) return 0;
    for (size_t i = 0; i < above; i += ARBORICX_JOB_WORDS) {
        const uint32_t tag = jobs[i], second = jobs[i + 1], third = jobs[i + 2];
        if (tag < 1 || tag > 3 || second >= used) return 0;
        if (tag == 1 ? third >= used : third != 0) return 0;
    }
    for (size_t i = above; i < jobs_len; i++) {
        if (jobs[i] != 0) return 0;
    }
    return 1;
}

#include "record.h"

#include "arboricx.h"

#include <stdio.h>
#include <stdlib.h>
#include <string.h>

enum { MOST_CHANGED = 3 };

static FILE *stream;  /* NULL: nothing is written */
static int whole = 1; /* all words of the next tables can be read */
static int writing;   /* the call at hand is written */

/* What the call at hand may change, to be written once more after it. */
static struct {
    const void *memory;
    size_t bytes;
} changed[MOST_CHANGED];
static unsigned changed_count;

static void give_up(const char *what)
{
    perror(what);
    exit(3);
}

void record_to(const char *path)
{
    stream = fopen(path, "wb");
    if (stream == NULL)
        give_up(path);
}

void record_end(void)
{
    if (stream != NULL && fclose(stream) != 0)
        give_up("the record");
    stream = NULL;
}

void record_whole(int is_whole)
{
    whole = is_whole;
}

/* ---- The parts of a record */

static void put(const void *memory, size_t bytes)
{
    if (writing && fwrite(memory, 1, bytes, stream) != bytes)
        give_up("the record");
}

static void put_byte(unsigned byte)
{
    put(&(uint8_t){(uint8_t)byte}, 1);
}

static void put_word(uint32_t word)
{
    put((uint8_t[]){(uint8_t)word, (uint8_t)(word >> 8), (uint8_t)(word >> 16), (uint8_t)(word >> 24)}, 4);
}

static void put_call(const char *name, unsigned arguments, int can_be_read)
{
    writing = stream != NULL && can_be_read;
    changed_count = 0;
    put_byte((unsigned)strlen(name));
    put(name, strlen(name));
    put_byte(arguments);
}

static void put_number(uint32_t number)
{
    put_byte('i');
    put_word(number);
}

static void put_read(const uint8_t *bytes, uint64_t length)
{
    put_byte('r');
    put_word((uint32_t)length);
    put(bytes, (size_t)length);
}

static void put_changed(const void *memory, size_t bytes)
{
    put(memory, bytes);
    changed[changed_count].memory = memory;
    changed[changed_count++].bytes = bytes;
}

static void put_table(const uint32_t *words, uint64_t length)
{
    put_byte('t');
    put_word((uint32_t)length);
    put_changed(words, (size_t)length * sizeof *words);
}

static void put_answer(const void *answer, size_t bytes)
{
    put_byte('a');
    put_word((uint32_t)bytes);
    put_changed(answer, bytes);
}

static uint32_t put_outcome(uint32_t number)
{
    for (unsigned i = 0; i < changed_count; i++)
        put(changed[i].memory, changed[i].bytes);
    put_word(number);
    return number;
}

/* ---- The calls */

uint32_t recorded_check(const uint8_t *file, uint64_t file_len)
{
    put_call("check", 1, 1);
    put_read(file, file_len);
    return put_outcome(arboricx_check(file, file_len));
}

uint32_t recorded_load(const uint8_t *file, uint64_t file_len, uint32_t *words, uint64_t words_len, int32_t base,
                       uint32_t *exports, uint64_t exports_len, uint32_t *answer)
{
    put_call("load", 5, whole);
    put_read(file, file_len);
    put_table(words, words_len);
    put_number((uint32_t)base);
    put_table(exports, exports_len);
    put_answer(answer, ARBORICX_LOAD_ANSWER * sizeof *answer);
    return put_outcome(arboricx_load(file, file_len, words, words_len, base, exports, exports_len, answer));
}

/* What runs of all kinds begin with. */
static void put_run(const uint32_t *words, uint64_t words_len, int32_t base, int32_t f, int32_t x, uint32_t used)
{
    put_table(words, words_len);
    put_number((uint32_t)base);
    put_number((uint32_t)f);
    put_number((uint32_t)x);
    put_number(used);
}

uint32_t recorded_run(uint32_t *words, uint64_t words_len, int32_t base, int32_t f, int32_t x, uint32_t used,
                      uint32_t fuel, uint32_t *jobs, uint64_t jobs_len, uint32_t *answer)
{
    put_call("run", 8, whole);
    put_run(words, words_len, base, f, x, used);
    put_number(fuel);
    put_table(jobs, jobs_len);
    put_answer(answer, ARBORICX_RUN_ANSWER * sizeof *answer);
    return put_outcome(arboricx_run(words, words_len, base, f, x, used, fuel, jobs, jobs_len, answer));
}

uint32_t recorded_carry_on(uint32_t *words, uint64_t words_len, int32_t base, int32_t f, int32_t x, uint32_t used,
                           uint32_t waiting, uint32_t steps, uint32_t fuel, uint32_t *jobs, uint64_t jobs_len,
                           uint32_t *answer)
{
    put_call("carry_on", 10, whole);
    put_run(words, words_len, base, f, x, used);
    put_number(waiting);
    put_number(steps);
    put_number(fuel);
    put_table(jobs, jobs_len);
    put_answer(answer, ARBORICX_RUN_ANSWER * sizeof *answer);
    return put_outcome(arboricx_carry_on(words, words_len, base, f, x, used, waiting, steps, fuel, jobs, jobs_len,
                                         answer));
}

uint32_t recorded_plain_run(uint32_t *words, uint64_t words_len, int32_t base, int32_t f, int32_t x, uint32_t used,
                            uint32_t fuel, uint32_t job_room, uint32_t *answer)
{
    put_call("plain_run", 8, whole);
    put_run(words, words_len, base, f, x, used);
    put_number(fuel);
    put_number(job_room);
    put_answer(answer, ARBORICX_PLAIN_ANSWER * sizeof *answer);
    return put_outcome(arboricx_plain_run(words, words_len, base, f, x, used, fuel, job_room, answer));
}

uint32_t recorded_export_index(const uint8_t *file, uint64_t file_len, const uint8_t *name, uint64_t name_len,
                               uint32_t *answer)
{
    put_call("export_index", 3, 1);
    put_read(file, file_len);
    put_read(name, name_len);
    put_answer(answer, ARBORICX_INDEX_ANSWER * sizeof *answer);
    return put_outcome(arboricx_export_index(file, file_len, name, name_len, answer));
}

void recorded_export_name(const uint8_t *file, uint64_t file_len, uint32_t index, uint64_t *answer)
{
    put_call("export_name", 3, 1);
    put_read(file, file_len);
    put_number(index);
    put_answer(answer, ARBORICX_NAME_ANSWER * sizeof *answer);
    arboricx_export_name(file, file_len, index, answer);
    put_outcome(0);
}

void recorded_sha256(const uint8_t *bytes, uint64_t bytes_len, uint8_t *digest)
{
    put_call("sha256", 2, 1);
    put_read(bytes, bytes_len);
    put_answer(digest, ARBORICX_DIGEST_BYTES);
    arboricx_sha256(bytes, bytes_len, digest);
    put_outcome(0);
}

/*
 * Arboricx bundles on the command line: checks, lists and plays them. `arboricx --help` tells all of it.
 *
 * What was asked for goes to standard output, also that a file is not sound where that is the question. Why something
 * could not be had goes to standard error.
 *
 * A command has a line in the table `commands` near the end, and an option one in `options`.
 */
#ifndef _POSIX_C_SOURCE
#define _POSIX_C_SOURCE 200112L /* isatty and fileno */
#endif
#include <errno.h>
#include <inttypes.h>
#include <limits.h>
#include <stdint.h>
#include <stdio.h>
#include <stdlib.h>
#include <string.h>
#include <unistd.h>

#include "arboricx.h"

#define STANDARD_INPUT "-"

/* The exit status. Of several files the worst counts, which is the largest. */
enum { FINE, REFUSED, TROUBLE, DIFFER, CHANGED };

/* ---- What a command is given */

enum { FUEL, MOVES, PLAIN, BOTH, HELP, OPTIONS };

struct option_line {
    const char *name;
    int has_number;
    uint32_t unless_given;
    const char *text;
};

static const struct option_line options[OPTIONS] = {
    {"--fuel", 1, 1000, "steps that a turn may take"},
    {"--moves", 1, 20, "turns, at most"},
    {"--plain", 0, 0, "on the plain engine"},
    {"--both", 0, 0, "on both engines; compare all numbers and words after a turn"},
    {"--help", 0, 0, "this text"},
};

struct arguments {
    uint32_t value[OPTIONS]; /* of each option: its number, or whether it was given */
    char **operands; /* what else was given: files and names */
    int count;
};

/* ---- Printing */

struct bytes {
    uint8_t *at;
    size_t len;
};

enum { SPACE = 0x20, DELETE = 0x7f, C1_LEAD = 0xc2, C1_FIRST = 0x80, C1_LAST = 0x9f };

static void print_escaped(FILE *out, uint8_t byte)
{
    fprintf(out, "\\x%02x", (unsigned)byte);
}

/*
 * Names come out of files that anybody may have written. Their control characters, U+0000 to U+001F and U+007F to
 * U+009F, and the backslash are escaped, so that a terminal obeys none of them and a line stays a line.
 */
static void print_bytes(FILE *out, const uint8_t *at, size_t len)
{
    for (size_t i = 0; i < len; i++) {
        if (at[i] < SPACE || at[i] == DELETE || at[i] == '\\') print_escaped(out, at[i]);
        else if (at[i] == C1_LEAD && i + 1 < len && at[i + 1] >= C1_FIRST && at[i + 1] <= C1_LAST) {
            print_escaped(out, at[i++]);
            print_escaped(out, at[i]);
        } else fputc(at[i], out);
    }
}

static void print_text(FILE *out, const char *text)
{
    print_bytes(out, (const uint8_t *)text, strlen(text));
}

static void print_verdict(FILE *out, const char *what, uint32_t number)
{
    print_text(out, what);
    fprintf(out, ": %" PRIu32 ", %s\n", number, arboricx_number_text(number));
}

/* ---- Progress, where standard error is a terminal */

enum { PROGRESS_STEP = 16 }; /* files from one line to the next */

static int progress_width; /* of the line that stands there, 0 for none */

static void show_progress(int done, int count)
{
    if (count == 1 || done % PROGRESS_STEP != 0 || !isatty(fileno(stderr))) return;
    progress_width = fprintf(stderr, "\r%d of %d files", done, count) - 1;
}

static void clear_progress(void)
{
    if (progress_width > 0) fprintf(stderr, "\r%*s\r", progress_width, "");
    progress_width = 0;
}

/* Begins a line of answers, in place of the progress where the two are on one screen. */
static void begin_answer(void)
{
    if (progress_width > 0 && isatty(fileno(stdout))) clear_progress();
}

/* Begins a line on standard error, after all that was printed before. */
static void complain(void)
{
    fflush(stdout);
    clear_progress();
    fputs("arboricx: ", stderr);
}

static int refuse(const char *what, uint32_t number)
{
    complain();
    print_verdict(stderr, what, number);
    return REFUSED;
}

static int trouble(const char *what, const char *why)
{
    complain();
    print_text(stderr, what);
    fprintf(stderr, ": %s\n", why);
    return TROUBLE;
}

/* What was printed has to have arrived, else the status tells. */
static int finish(int status)
{
    const int failed = ferror(stdout);
    if (fclose(stdout) == 0 && !failed) return status;
    fputs("arboricx: standard output could not be written\n", stderr);
    return status > TROUBLE ? status : TROUBLE;
}

/* ---- Reading files */

/* One byte more than the longest bundle has, so that a longer one is refused. */
static const size_t BUNDLE = ARBORICX_MAX_FILE + 1;
/* The archive takes no memory that is longer. */
static const size_t LONGEST = SIZE_MAX / 2;

/* Reads up to `most` bytes into memory that grows. Answers what is wrong, or NULL. */
static const char *read_bytes(FILE *in, size_t most, struct bytes *file)
{
    size_t room = BUNDLE;
    for (;;) {
        uint8_t *const longer = (uint8_t *)realloc(file->at, room);
        if (longer == NULL) return "too long for the memory";
        file->at = longer;
        file->len += fread(file->at + file->len, 1, room - file->len, in);
        if (ferror(in)) return strerror(errno);
        if (file->len < room || room == most) return NULL;
        room = room > most / 2 ? most : 2 * room;
    }
}

/* Reads a file, or standard input. The caller frees the bytes of a FINE one. */
static int read_file(const char *path, size_t most, struct bytes *file)
{
    const int standard = strcmp(path, STANDARD_INPUT) == 0;
    FILE *const in = standard ? stdin : fopen(path, "rb");
    if (in == NULL) return trouble(path, strerror(errno));
    file->at = NULL;
    file->len = 0;
    const char *const fault = read_bytes(in, most, file);
    if (!standard) fclose(in);
    if (fault == NULL) return FINE;
    free(file->at);
    return trouble(path, fault);
}

/* Goes on after a file that fails. */
static int for_each_file(const struct arguments *given, int (*act)(const char *path))
{
    int worst = FINE;
    for (int i = 0; i < given->count; i++) {
        show_progress(i, given->count);
        const int status = act(given->operands[i]);
        if (status > worst) worst = status;
    }
    clear_progress();
    return worst;
}

/* ---- check */

static int check_file(const char *path)
{
    struct bytes file;
    if (read_file(path, BUNDLE, &file) != FINE) return TROUBLE;
    const uint32_t number = arboricx_check(file.at, file.len);
    free(file.at);
    begin_answer();
    if (number != ARBORICX_OK) {
        print_verdict(stdout, path, number);
        return REFUSED;
    }
    print_text(stdout, path);
    printf(": ok\n");
    return FINE;
}

static int check(const struct arguments *given)
{
    return for_each_file(given, check_file);
}

/* ---- sha256 */

/* As sha256sum does it: in a name that would break its line the backslash and the ends of lines are escaped. */
static void print_sum(const uint8_t digest[ARBORICX_DIGEST_BYTES], const char *path)
{
    const int broken = path[strcspn(path, "\\\n\r")] != '\0';
    if (broken) putchar('\\');
    for (int i = 0; i < ARBORICX_DIGEST_BYTES; i++) printf("%02x", (unsigned)digest[i]);
    printf("  ");
    for (; *path != '\0'; path++) {
        if (*path == '\\') printf("\\\\");
        else if (*path == '\n') printf("\\n");
        else if (*path == '\r') printf("\\r");
        else putchar(*path);
    }
    putchar('\n');
}

static int sum_file(const char *path)
{
    struct bytes file;
    uint8_t digest[ARBORICX_DIGEST_BYTES];
    if (read_file(path, LONGEST, &file) != FINE) return TROUBLE;
    const int too_long = file.len == LONGEST; /* and perhaps it goes on */
    if (!too_long) arboricx_sha256(file.at, file.len, digest);
    free(file.at);
    if (too_long) return trouble(path, "too long");
    begin_answer();
    print_sum(digest, path);
    return FINE;
}

static int sha256(const struct arguments *given)
{
    return for_each_file(given, sum_file);
}

/* ---- The word table: the receiver's words, then the slots */

enum { BASE = 16, SLOTS = 1024, JOBS = 64, LEAF = 0, WORDS = BASE + ARBORICX_SLOT_WORDS * SLOTS };

static uint32_t words[WORDS];
static uint32_t plain_words[WORDS]; /* the plain engine's, where both play */
static uint32_t exports[ARBORICX_MAX_EXPORTS];
static uint32_t jobs[ARBORICX_JOB_WORDS * JOBS];

/* The words before the base stand for the receiver's own: no call may change them. */
static uint32_t preference(uint32_t i)
{
    return UINT32_C(0xC0FFEE00) + i;
}

/* Looks at them after a call. Where one has changed, nothing that was said before is worth anything. */
static void guard(const uint32_t *table, const char *call)
{
    for (uint32_t i = 0; i < BASE; i++) {
        if (table[i] == preference(i)) continue;
        complain();
        fprintf(stderr, "word %" PRIu32 " before the base has changed after %s\n", i, call);
        exit(finish(CHANGED));
    }
}

/* ---- list */

/* The name of an export, where it stands in the file. */
static struct bytes export_name(const struct bytes *file, uint32_t index)
{
    uint64_t answer[ARBORICX_NAME_ANSWER];
    struct bytes name;
    arboricx_export_name(file->at, file->len, index, answer);
    name.at = file->at + (size_t)answer[ARBORICX_NAME_START];
    name.len = (size_t)answer[ARBORICX_NAME_LENGTH];
    return name;
}

static void print_exports(const struct bytes *file, uint32_t count)
{
    for (uint32_t i = 0; i < count; i++) {
        const struct bytes name = export_name(file, i);
        printf("%" PRIu32 " %zu ", exports[i], name.len);
        print_bytes(stdout, name.at, name.len);
        printf("\n");
    }
}

/* Reads, loads and lists a bundle. The caller frees the bytes of a FINE one. */
static int load(const char *path, struct bytes *file, uint32_t *used)
{
    uint32_t answer[ARBORICX_LOAD_ANSWER];
    if (read_file(path, BUNDLE, file) != FINE) return TROUBLE;
    for (uint32_t i = 0; i < BASE; i++) words[i] = preference(i);
    const uint32_t number = arboricx_load(file->at, file->len, words, WORDS, BASE, exports, ARBORICX_MAX_EXPORTS,
                                          answer);
    guard(words, "the load");
    if (number != ARBORICX_OK) {
        free(file->at);
        return refuse(path, number);
    }
    *used = answer[ARBORICX_LOAD_NODES];
    printf("nodes %" PRIu32 " exports %" PRIu32 "\n", *used, answer[ARBORICX_LOAD_EXPORTS]);
    print_exports(file, answer[ARBORICX_LOAD_EXPORTS]);
    return FINE;
}

static int list(const struct arguments *given)
{
    struct bytes file;
    uint32_t used;
    const int status = load(given->operands[0], &file, &used);
    if (status == FINE) free(file.at);
    return status;
}

/* ---- play */

enum { SHOWN_DEPTH = 5 }; /* of a tree on a line */

struct play {
    const uint32_t *options;
    int status;
    uint32_t turn;
    uint32_t f, used, fuel; /* how the move began, and the fuel of its turns together: for the plain engine */
    uint32_t last[ARBORICX_RUN_ANSWER]; /* what the last turn answered */
    uint32_t agreed; /* the turns in which the engines agree */
};

/* The tree in a slot, as deep as one line shows it: a dot for the leaf. */
static void print_tree(uint32_t slot, int depth)
{
    const uint32_t first = words[BASE + ARBORICX_SLOT_WORDS * slot];
    const uint32_t second = words[BASE + ARBORICX_SLOT_WORDS * slot + 1];
    if (first == 0) {
        printf(".");
    } else if (depth == 0) {
        printf("..");
    } else {
        printf("(");
        print_tree(first - 1, depth - 1);
        if (second != 0) {
            printf(" ");
            print_tree(second - 1, depth - 1);
        }
        printf(")");
    }
}

/* The run engine's turn. What the last one answered is all that it needs: it thinks on, or makes the next move. */
static void run_turn(uint32_t last[ARBORICX_RUN_ANSWER], uint32_t allowance)
{
    const size_t jobs_len = sizeof jobs / sizeof *jobs;
    const int32_t f = (int32_t)last[ARBORICX_RUN_F], x = (int32_t)last[ARBORICX_RUN_X];
    const uint32_t used = last[ARBORICX_RUN_USED];
    if (last[ARBORICX_RUN_NUMBER] == ARBORICX_OUT_OF_FUEL)
        arboricx_carry_on(words, WORDS, BASE, f, x, used, last[ARBORICX_RUN_JOBS], last[ARBORICX_RUN_STEPS], allowance,
                          jobs, jobs_len, last);
    else
        arboricx_run(words, WORDS, BASE, f, LEAF, used, allowance, jobs, jobs_len, last);
    guard(words, "a run");
}

/* The plain engine's turn: the move from its beginning. */
static void plain_turn(const struct play *p, uint32_t *table, uint32_t answer[ARBORICX_PLAIN_ANSWER])
{
    arboricx_plain_run(table, WORDS, BASE, (int32_t)p->f, LEAF, p->used, p->fuel, JOBS, answer);
    guard(table, "a plain run");
}

/* The plain engine's answer as that of the last turn. */
static void adopt(const uint32_t plain[ARBORICX_PLAIN_ANSWER], uint32_t last[ARBORICX_RUN_ANSWER])
{
    last[ARBORICX_RUN_NUMBER] = plain[ARBORICX_PLAIN_NUMBER];
    last[ARBORICX_RUN_SLOT] = plain[ARBORICX_PLAIN_SLOT];
    last[ARBORICX_RUN_STEPS] = plain[ARBORICX_PLAIN_STEPS];
    last[ARBORICX_RUN_USED] = plain[ARBORICX_PLAIN_USED];
}

static int differ(const struct play *p, const char *what, uint32_t run, uint32_t plain)
{
    printf("turn %" PRIu32 ": the engines differ in %s: run %" PRIu32 ", plain %" PRIu32 "\n", p->turn, what, run,
           plain);
    return DIFFER;
}

/* Tells the first number or word in which the plain engine's turn is not the run engine's. */
static int compare(const struct play *p, const uint32_t plain[ARBORICX_PLAIN_ANSWER])
{
    static const char *const names[] = {"the number", "the slot of the result", "the steps", "the used count"};
    const uint32_t number = p->last[ARBORICX_RUN_NUMBER];
    const uint32_t run[ARBORICX_PLAIN_ANSWER] = {number, number == ARBORICX_OK ? p->last[ARBORICX_RUN_SLOT] : 0,
                                                 p->last[ARBORICX_RUN_STEPS], p->last[ARBORICX_RUN_USED]};
    for (uint32_t i = 0; i < ARBORICX_PLAIN_ANSWER; i++) {
        if (run[i] != plain[i]) return differ(p, names[i], run[i], plain[i]);
    }
    for (uint32_t i = 0; i < WORDS; i++) {
        char word[sizeof "word 4294967295"];
        if (words[i] == plain_words[i]) continue;
        snprintf(word, sizeof word, "word %" PRIu32, i);
        return differ(p, word, words[i], plain_words[i]);
    }
    return FINE;
}

/* A turn, on the engine or on both. */
static void think(struct play *p)
{
    uint32_t plain[ARBORICX_PLAIN_ANSWER];
    uint32_t *const table = p->options[BOTH] ? plain_words : words;
    if (p->last[ARBORICX_RUN_NUMBER] != ARBORICX_OUT_OF_FUEL) {
        p->f = p->last[ARBORICX_RUN_SLOT];
        p->used = p->last[ARBORICX_RUN_USED];
        p->fuel = 0;
    }
    p->fuel += p->options[FUEL];
    if (!p->options[PLAIN]) run_turn(p->last, p->options[FUEL]);
    if (!p->options[PLAIN] && !p->options[BOTH]) return;
    plain_turn(p, table, plain);
    if (p->options[PLAIN]) {
        adopt(plain, p->last);
    } else {
        p->status = compare(p, plain);
        if (p->status == FINE) p->agreed++;
    }
}

/* The stops. Any other number but 0 is a refusal. */
static int stopped(uint32_t number)
{
    return number >= ARBORICX_OUT_OF_FUEL && number <= ARBORICX_OUT_OF_JOBS;
}

/* The turn in a line. */
static void print_turn(const struct play *p)
{
    const uint32_t *const last = p->last;
    const uint32_t number = last[ARBORICX_RUN_NUMBER];
    printf("turn %" PRIu32 ": ", p->turn);
    if (number == ARBORICX_OK) print_tree(last[ARBORICX_RUN_SLOT], SHOWN_DEPTH);
    else if (number == ARBORICX_OUT_OF_FUEL) printf("thinks on");
    else printf("lost by %" PRIu32 " (%s)", number, arboricx_number_text(number));
    printf(", steps %" PRIu32 ", slots used %" PRIu32, last[ARBORICX_RUN_STEPS], last[ARBORICX_RUN_USED]);
    if (!p->options[PLAIN]) printf(", jobs waiting %" PRIu32, last[ARBORICX_RUN_JOBS]);
    printf("\n");
}

/* Whether a move has had so much fuel that the plain engine, which begins it anew, would refuse the next turn. */
static int too_long(const struct play *p)
{
    const int thinks_on = p->last[ARBORICX_RUN_NUMBER] == ARBORICX_OUT_OF_FUEL;
    const uint32_t spent = thinks_on ? p->fuel : 0;
    return (p->options[PLAIN] || p->options[BOTH]) && spent + p->options[FUEL] > ARBORICX_MAX_PLAIN;
}

/* Whether the play goes on after this turn. */
static int take_turn(struct play *p)
{
    if (too_long(p)) {
        printf("the next turn would pass the %d steps that the plain engine takes for a move\n", ARBORICX_MAX_PLAIN);
        return 0;
    }
    p->turn++;
    think(p);
    if (p->status != FINE) return 0;
    const uint32_t number = p->last[ARBORICX_RUN_NUMBER];
    if (number != ARBORICX_OK && !stopped(number)) {
        char turn[sizeof "turn 4294967295"];
        snprintf(turn, sizeof turn, "turn %" PRIu32, p->turn);
        p->status = refuse(turn, number);
        return 0;
    }
    print_turn(p);
    if (number != ARBORICX_OK) return number == ARBORICX_OUT_OF_FUEL;
    if (words[BASE + ARBORICX_SLOT_WORDS * p->last[ARBORICX_RUN_SLOT]] != 0) return 1;
    printf("won\n");
    return 0;
}

/* Plays an opponent. Its slot and the used count are as if a turn had answered them. */
static int play_turns(const struct arguments *given, uint32_t slot, uint32_t used)
{
    struct play p;
    int goes_on = 1;
    memset(&p, 0, sizeof p);
    p.options = given->value;
    p.last[ARBORICX_RUN_SLOT] = slot;
    p.last[ARBORICX_RUN_USED] = used;
    memcpy(plain_words, words, sizeof words);
    while (goes_on && p.turn < given->value[MOVES]) goes_on = take_turn(&p);
    if (goes_on) printf("undecided\n");
    printf("the %d words before the base are untouched\n", BASE);
    if (given->value[BOTH]) printf("turns in which the engines agree: %" PRIu32 "\n", p.agreed);
    return p.status;
}

/* Picks the export of a name as the opponent: its index. */
static int pick(const struct bytes *file, const char *wanted, uint32_t *index)
{
    uint32_t answer[ARBORICX_INDEX_ANSWER];
    const uint32_t number = arboricx_export_index(file->at, file->len, (const uint8_t *)wanted, strlen(wanted), answer);
    if (number != ARBORICX_OK) return refuse(*wanted == '\0' ? "the first export" : wanted, number);
    *index = answer[ARBORICX_INDEX];
    return FINE;
}

static int play(const struct arguments *given)
{
    struct bytes file;
    uint32_t used, index;
    int status = load(given->operands[0], &file, &used);
    if (status != FINE) return status;
    status = pick(&file, given->count > 1 ? given->operands[1] : "", &index);
    if (status == FINE) {
        const struct bytes name = export_name(&file, index);
        print_bytes(stdout, name.at, name.len);
        printf(", %" PRIu32 " steps a turn\n", given->value[FUEL]);
        status = play_turns(given, exports[index], used);
    }
    free(file.at);
    return status;
}

/* ---- The commands */

struct command {
    const char *name;
    int (*act)(const struct arguments *given);
    int least, most; /* operands */
    unsigned options; /* the bits of those that it takes */
    const char *usage, *text;
};

#define OPTION(o) (1u << (o))

static const struct command commands[] = {
    {"check", check, 0, INT_MAX, OPTION(HELP), "[FILE..]",
     "      Says of each file whether it is a sound bundle: `FILE: ok`, or its fault\n"
     "      as a number and a text, `FILE: 11, the digest of a section differs`.\n"},
    {"list", list, 0, 1, OPTION(HELP), "[FILE]",
     "      Loads a bundle and lists it: `nodes N exports N`, then a line for each\n"
     "      export with its slot, the length of its name in bytes, and the name.\n"
     "      Control characters and the backslash in a name are printed as \\xNN.\n"},
    {"play", play, 1, 2, OPTION(FUEL) | OPTION(MOVES) | OPTION(PLAIN) | OPTION(BOTH) | OPTION(HELP),
     "FILE [NAME] [--fuel N] [--moves N] [--plain | --both]",
     "      Lists a bundle and plays the export of that name, or the first one. A\n"
     "      move applies it to the leaf; what comes out is applied to the leaf at the\n"
     "      next move. A move that spends the fuel of a turn thinks on at the next\n"
     "      turn. One that comes out as the leaf has won. One that has no slot or no\n"
     "      place for a job left, of 1,024 and 64, has lost. The plain engine begins a\n"
     "      move that thinks on anew, and takes 1,000 steps for it: with it the play\n"
     "      ends before a turn that would pass them.\n"},
    {"sha256", sha256, 0, INT_MAX, OPTION(HELP), "[FILE..]",
     "      The SHA-256 of each file, of whatever length, as sha256sum prints it.\n"},
};
enum { COMMANDS = sizeof commands / sizeof *commands };

static const char FURTHER[] =
    "  arboricx --version\n"
    "      The version of the tool, and the number of the archive linked with it.\n"
    "  arboricx --help, arboricx COMMAND --help\n"
    "      All of this, or the part of one command.\n";

static const char NOTES[] =
    "\n"
    "FILE - is standard input, and so is no FILE at all, but for play. Options stand\n"
    "anywhere after the command, and -- ends them. N is 0 to 4294967295, as in\n"
    "--fuel 5 or --fuel=5.\n"
    "\n"
    "What was asked for goes to standard output, and why it could not be had to\n"
    "standard error. With several files a command goes on after one that fails, and\n"
    "shows how far it is where standard error is a terminal.\n"
    "\n"
    "Exit status, the largest that applies:\n"
    "  0  all is well: the bundles are sound, or the play was played, whoever won\n"
    "  1  a bundle or a turn was refused, or there is no export of that name\n"
    "  2  wrong usage, a file that could not be read, output that could not be\n"
    "     written, or an archive of another version than the header\n"
    "  3  the engines differ (--both)\n"
    "  4  a call has changed a word before the base, which it must not\n";

/* ---- Help and wrong usage */

static void print_option(const struct option_line *option)
{
    printf("      %-7s %s %s", option->name, option->has_number ? "N" : " ", option->text);
    if (option->has_number) printf(" (%" PRIu32 " unless given)", option->unless_given);
    printf("\n");
}

static void print_command(const struct command *command)
{
    printf("  arboricx %s %s\n%s", command->name, command->usage, command->text);
    for (int o = 0; o < OPTIONS; o++) {
        if (o != HELP && (command->options & OPTION(o))) print_option(&options[o]);
    }
}

/* Of one command, or of all. */
static int print_help(const struct command *only)
{
    printf("Checks, lists and plays Arboricx bundles.\n\n");
    for (int c = 0; c < COMMANDS; c++) {
        if (only == NULL || only == &commands[c]) print_command(&commands[c]);
    }
    if (only == NULL) fputs(FURTHER, stdout);
    fputs(NOTES, stdout);
    return FINE;
}

/* Says what is wrong, if there is anything to say, and how the command, or each of them, is used. */
static int misused(const struct command *only, const char *what, const char *why)
{
    if (what != NULL) trouble(what, why);
    for (int c = 0; c < COMMANDS; c++) {
        if (only == NULL || only == &commands[c])
            fprintf(stderr, "usage: arboricx %s %s\n", commands[c].name, commands[c].usage);
    }
    fprintf(stderr, "arboricx --help tells more\n");
    return TROUBLE;
}

/* A program that was built with another header must not call the archive. */
static int fits(void)
{
    if (arboricx_version() == ARBORICX_VERSION) return 1;
    complain();
    fprintf(stderr, "the header is %d and the archive %" PRIu32 ": they do not belong together\n", ARBORICX_VERSION,
            arboricx_version());
    return 0;
}

static int print_version(void)
{
    printf("arboricx %s, archive %" PRIu32 "\n", ARBORICX_VERSION_TEXT, arboricx_version());
    return fits() ? FINE : TROUBLE;
}

/* ---- Arguments */

/* Digits only, and no more than 32 bits hold. */
static int read_number(const char *text, uint32_t *number)
{
    enum { DECIMAL = 10 };
    uint64_t sum = 0;
    if (*text == '\0') return 0;
    for (; *text != '\0'; text++) {
        if (*text < '0' || *text > '9') return 0;
        sum = DECIMAL * sum + (uint64_t)(*text - '0');
        if (sum > UINT32_MAX) return 0;
    }
    *number = (uint32_t)sum;
    return 1;
}

/* The option of that name that the command takes, or OPTIONS. */
static int find_option(const struct command *command, const char *name, size_t len)
{
    int o = 0;
    while (o < OPTIONS && !((command->options & OPTION(o)) && strlen(options[o].name) == len &&
                            memcmp(options[o].name, name, len) == 0)) o++;
    return o;
}

/* Takes an option, and the next argument where that is its number. Answers how many it took, or 0 where it is wrong. */
static int take_option(const struct command *command, struct arguments *given, const char *text, const char *next)
{
    const size_t len = strcspn(text, "=");
    const int inside = text[len] != '\0'; /* its value, after the equals sign */
    const int o = find_option(command, text, len);
    const char *const value = inside ? text + len + 1 : next;
    if (o == OPTIONS) {
        misused(command, text, "there is no such option");
    } else if (!options[o].has_number) {
        given->value[o] = 1;
        if (!inside) return 1;
        misused(command, text, "this option takes no value");
    } else {
        if (value != NULL && read_number(value, &given->value[o])) return inside ? 1 : 2;
        misused(command, text, "this option takes a number from 0 to 4294967295");
    }
    return 0;
}

/* Sorts the arguments into options and operands. The operands move to the front, where there is room. */
static int sort_arguments(const struct command *command, int argc, char **argv, struct arguments *given)
{
    int ended = 0, took;
    given->operands = argv;
    given->count = 0;
    for (int o = 0; o < OPTIONS; o++) given->value[o] = options[o].unless_given;
    for (int i = 0; i < argc; i += took) {
        char *const text = argv[i];
        took = 1;
        if (ended || text[0] != '-' || strcmp(text, STANDARD_INPUT) == 0) given->operands[given->count++] = text;
        else if (strcmp(text, "--") == 0) ended = 1;
        else took = take_option(command, given, text, i + 1 < argc ? argv[i + 1] : NULL);
        if (took == 0) return TROUBLE;
    }
    if (given->value[HELP]) return FINE;
    if (given->value[PLAIN] && given->value[BOTH]) return misused(command, "--plain", "not with --both");
    if ((given->value[PLAIN] || given->value[BOTH]) && given->value[FUEL] > ARBORICX_MAX_PLAIN)
        return misused(command, "--fuel", "the plain engine takes at most 1,000 steps for a move");
    if (given->count > command->most) return misused(command, command->name, "too many arguments");
    if (given->count < command->least) return misused(command, command->name, "a FILE is missing");
    return FINE;
}

static int run_command(const struct command *command, int argc, char **argv)
{
    static char standard_input[] = STANDARD_INPUT;
    static char *alone[] = {standard_input};
    struct arguments given;
    if (sort_arguments(command, argc, argv, &given) != FINE) return TROUBLE;
    if (given.value[HELP]) return print_help(command);
    if (!fits()) return TROUBLE;
    if (given.count == 0) {
        given.operands = alone;
        given.count = 1;
    }
    return command->act(&given);
}

int main(int argc, char **argv)
{
    enum { NAME = 1, REST = 2 }; /* where the command's name stands, and what stands after it */
    if (argc <= NAME) return misused(NULL, NULL, NULL);
    if (argc == REST && strcmp(argv[NAME], "--help") == 0) return finish(print_help(NULL));
    if (argc == REST && strcmp(argv[NAME], "--version") == 0) return finish(print_version());
    for (int c = 0; c < COMMANDS; c++) {
        if (strcmp(argv[NAME], commands[c].name) == 0)
            return finish(run_command(&commands[c], argc - REST, argv + REST));
    }
    return misused(NULL, argv[NAME],
                   argv[NAME][0] == '-' ? "unknown here, or does not stand alone" : "there is no such command");
}

#include "program.h"

#include <fcntl.h>
#include <spawn.h>
#include <stdio.h>
#include <stdlib.h>
#include <sys/wait.h>
#include <unistd.h>

extern char **environ;

static void fail(const char *path)
{
    fprintf(stderr, "cannot run %s\n", path);
    exit(1);
}

struct program_run make_program_run(const char *path, const struct bundle *b)
{
    FILE *f = tmpfile();
    if (f == NULL || fwrite(b->bytes, 1, b->len, f) != b->len || fflush(f) != 0) fail(path);
    return (struct program_run){path, fileno(f)};
}

void run_program(const struct side *side, const void *input)
{
    const struct program_run *const r = input;
    char *const words[] = {(char *)r->path, NULL};
    posix_spawn_file_actions_t files;
    pid_t child;
    int status;
    (void)side;
    posix_spawn_file_actions_init(&files);
    posix_spawn_file_actions_adddup2(&files, r->input, STDIN_FILENO);
    posix_spawn_file_actions_addopen(&files, STDOUT_FILENO, "/dev/null", O_WRONLY, 0);
    if (lseek(r->input, 0, SEEK_SET) != 0) fail(r->path);
    if (posix_spawn(&child, r->path, &files, NULL, words, environ) != 0) fail(r->path);
    if (waitpid(child, &status, 0) != child || status != 0) fail(r->path);
    posix_spawn_file_actions_destroy(&files);
}

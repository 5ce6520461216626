#include "race.h"

#include <stdio.h>
#include <stdlib.h>
#include <time.h>

static double seconds(void)
{
    struct timespec t;
    clock_gettime(CLOCK_MONOTONIC, &t);
    return (double)t.tv_sec + 1e-9 * (double)t.tv_nsec;
}

static double time_calls(struct contestant c, const void *input, int calls)
{
    const double start = seconds();
    for (int i = 0; i < calls; i++) c.call(c.side, input);
    return (seconds() - start) / calls;
}

static int by_value(const void *a, const void *b)
{
    const double x = *(const double *)a, y = *(const double *)b;
    return (x > y) - (x < y);
}

struct race race(const struct contestant *contestants, int count, const void *input, int calls, int rounds)
{
    static double took[MAX_CONTESTANTS][MAX_ROUNDS];
    struct race r = {.contestants = count};
    for (int i = 0; i < rounds; i++) {
        for (int k = 0; k < count; k++) {
            const int c = (i + k) % count;
            took[c][i] = time_calls(contestants[c], input, calls);
        }
    }
    for (int c = 0; c < count; c++) {
        qsort(took[c], (size_t)rounds, sizeof *took[c], by_value);
        r.fastest[c] = took[c][0];
        r.median[c] = took[c][rounds / 2];
    }
    return r;
}

struct unit time_unit(const struct race *r)
{
    if (r->fastest[0] < 1e-6) return (struct unit){"ns", 1e9, 0};
    if (r->fastest[0] < 1e-3) return (struct unit){"us", 1e6, 0};
    return (struct unit){"ms", 1e3, 0};
}

static double shown(struct unit u, double took)
{
    return u.is_speed ? u.factor / took : u.factor * took;
}

static void print_pair(double fastest, double median)
{
    const int digits = fastest < 10 ? 2 : fastest < 100 ? 1 : 0;
    printf(" %.*f, %.*f |", digits, fastest, digits, median);
}

void end_row(const struct race *r, int columns, struct unit unit, double aim)
{
    printf(" (%s) |", unit.name);
    for (int c = 0; c < 2; c++) {
        if (c < r->contestants) print_pair(shown(unit, r->fastest[c]), shown(unit, r->median[c]));
        else printf(" |");
    }
    for (int c = 1; c < columns; c++) {
        if (c < r->contestants) print_pair(r->fastest[c] / r->fastest[0], r->median[c] / r->median[0]);
        else printf(" |");
    }
    if (aim > 0) printf(" %.1f |\n", aim);
    else printf(" |\n");
    fflush(stdout);
}

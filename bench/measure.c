#define _POSIX_C_SOURCE 199309L

#include "measure.h"

#include <stdio.h>
#include <time.h>

static double seconds(void)
{
    struct timespec now;
    clock_gettime(CLOCK_MONOTONIC, &now);
    return (double)now.tv_sec + 1e-9 * (double)now.tv_nsec;
}

/* The time of one round, where it is the best so far. */
static void take(double *best, void (*work_on)(const void *), const struct contest *contest)
{
    if (contest->prepare != NULL)
        contest->prepare();
    double start = seconds();
    work_on(contest->work);
    double time = seconds() - start;
    if (*best == 0 || time < *best)
        *best = time;
}

void measure(struct best *best, const struct contest *contest, int rounds)
{
    for (int i = 0; i < rounds; i++) {
        take(&best->library, contest->library, contest);
        take(&best->plain, contest->plain, contest);
    }
}

void print_head(const char *what, const char *const *columns, int count)
{
    printf("%-19s", what);
    for (int i = 0; i < count; i++)
        printf("  %17s", columns[i]);
    printf("\n");
}

static double lowest = 1e9;

/* Five characters, where the number is below 100,000. */
static void print_number(double number)
{
    printf(" %5.*f", number < 10 ? 2 : number < 100 ? 1 : 0, number);
}

void print_cell(const struct best *best, double count)
{
    double ratio = best->plain / best->library;
    printf(" ");
    print_number(count / best->library);
    print_number(count / best->plain);
    printf(" %5.*f", ratio_places(ratio), ratio);
    if (ratio < lowest)
        lowest = ratio;
}

int ratio_places(double ratio)
{
    return ratio < 0.1 ? 3 : 2;
}

double lowest_ratio(void)
{
    double ratio = lowest;
    lowest = 1e9;
    return ratio;
}

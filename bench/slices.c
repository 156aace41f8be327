/* A drawing in slices by the library, against the same drawn whole by plain C: what a slice's start
   costs. */
#include "measure.h"
#include "work.h"

#include <stdio.h>
#include <stdlib.h>
#include <string.h>

#define BUDGETS 3
#define SIZES 2

static const uint64_t budgets[BUDGETS] = { 1, 64, 4096 };
static const uint32_t sizes[SIZES] = { 4, 16 };
static const char *const columns[SIZES] = { "PSIZE  4", "PSIZE 16" };

static struct best sliced[BUDGETS][SIZES];

struct sliced_work {
    struct work work;
    uint64_t budget;
};

static struct sliced_work sliced_of(int budget, int size)
{
    return (struct sliced_work){ work_of(&kinds[BH_FILL_L], &wide, sizes[size], 0, 0),
                                 budgets[budget] };
}

static void slice_library(const void *work)
{
    const struct sliced_work *s = work;
    uint64_t out[BH_DRAW_RESULTS] = { 0 };
    uint32_t answer;
    do {
        answer = bh_draw(memory, WORDS, s->work.operation, s->work.settings, BH_SETTINGS, out[0],
                         (uint32_t)out[2], s->budget, out, BH_DRAW_RESULTS);
    } while (answer == BH_STOPPED);
    if (answer != BH_DONE || out[0] != PIXELS) {
        printf("bench: slices of %lu answer %lu\n", (unsigned long)s->budget,
               (unsigned long)answer);
        exit(1);
    }
}

static void whole_plain(const void *work)
{
    const struct sliced_work *s = work;
    draw_plain(&s->work);
}

static void compare_slices(void)
{
    for (int b = 0; b < BUDGETS; b++) {
        for (int i = 0; i < SIZES; i++) {
            struct sliced_work s = sliced_of(b, i);
            restore();
            whole_plain(&s);
            memcpy(other, memory, sizeof other);
            restore();
            slice_library(&s);
            same_or_stop("slices", sizes[i], 0);
        }
    }
    printf("bench: the same memory after %d drawings in slices\n", BUDGETS * SIZES);
}

static void pass_slices(int rounds)
{
    for (int b = 0; b < BUDGETS; b++) {
        for (int i = 0; i < SIZES; i++) {
            struct sliced_work s = sliced_of(b, i);
            const struct contest contest = { restore, slice_library, whole_plain, &s };
            measure(&sliced[b][i], &contest, rounds);
        }
    }
}

static void print_slices(void)
{
    print_head("million pixels/s", columns, SIZES);
    for (int b = 0; b < BUDGETS; b++) {
        printf("FILL L, slices %-4lu", (unsigned long)budgets[b]);
        for (int i = 0; i < SIZES; i++)
            print_cell(&sliced[b][i], 1e-6 * PIXELS);
        printf("\n");
    }
}

const struct group slices = { "slices against a whole drawing", compare_slices, pass_slices,
                              print_slices };

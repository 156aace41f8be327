/* Changed bits of two memories, of one length. */
#include "measure.h"
#include "plain_plan.h"

#include "buckethare.h"

#include <stdio.h>
#include <stdlib.h>

#define MOST 1048576
#define LENGTHS 4

static const char *const columns[LENGTHS] = { "4 words", "4,096 words", "32,768 words",
                                              "1,048,576 words" };

/* Each is counted as often as makes the time worth measuring. */
static const struct work {
    size_t words;
    int times;
} works[LENGTHS] = { { 4, 16384 }, { 4096, 64 }, { 32768, 8 }, { MOST, 1 } };

static uint16_t before[MOST];
static uint16_t after[MOST];
static struct best counted[LENGTHS];

/* The sum keeps a count from being left out. */
static volatile uint64_t sum;

static void make_memories(void)
{
    uint64_t x = 1;
    for (size_t i = 0; i < MOST; i++) {
        x = x * 6364136223846793005u + 1442695040888963407u;
        before[i] = (uint16_t)(x >> 48);
        after[i] = (uint16_t)(x >> 32);
    }
}

static void count_library(const void *work)
{
    const struct work *w = work;
    uint64_t total = 0;
    for (int i = 0; i < w->times; i++) {
        uint64_t bits;
        bh_changed(before, w->words, after, w->words, &bits, 1);
        total += bits;
    }
    sum = total;
}

static void count_plain(const void *work)
{
    const struct work *w = work;
    uint64_t total = 0;
    for (int i = 0; i < w->times; i++)
        total += plain_changed(before, after, w->words);
    sum = total;
}

static void compare_counts(void)
{
    make_memories();
    for (int i = 0; i < LENGTHS; i++) {
        count_library(&works[i]);
        uint64_t library = sum;
        count_plain(&works[i]);
        if (sum != library) {
            printf("bench: changed bits of %s: the counts differ\n", columns[i]);
            exit(1);
        }
    }
    printf("bench: the same counts of changed bits of %d lengths\n", LENGTHS);
}

static void pass_counts(int rounds)
{
    for (int i = 0; i < LENGTHS; i++) {
        const struct contest contest = { NULL, count_library, count_plain, &works[i] };
        measure(&counted[i], &contest, rounds);
    }
}

static void print_counts(void)
{
    print_head("million words/s", columns, LENGTHS);
    printf("%-19s", "changed bits");
    for (int i = 0; i < LENGTHS; i++)
        print_cell(&counted[i], 1e-6 * (double)works[i].words * works[i].times);
    printf("\n");
}

const struct group changed = { "changed bits", compare_counts, pass_counts, print_counts };

/* Plans: texts read, points decoded, points run. */
#include "plans.h"

#include "measure.h"
#include "plan_pair.h"

#include <stdio.h>
#include <stdlib.h>

/* A plan, how many times it is gone through in a round, and how many of its points. */
struct plan_work {
    struct plan_text text;
    struct plan_pair pair;
    int times;
    uint64_t points;
};

static void prepare_work(struct plan_work *work, const char *name, int times)
{
    if (read_both(&work->text, name, &work->pair) != BH_DONE) {
        printf("bench: plan %s is refused\n", name);
        exit(1);
    }
    work->times = times;
    work->points = work->pair.results[PLAN_POINTS];
}

/* ---- Texts read ---- */

#define READS 4

static const char *const read_columns[READS] = { "example", "8 axes x 8", "8 axes x 64",
                                                 "65,536 bytes" };
static struct plan_work reads[READS];
static struct best read_best[READS];

static void prepare_reads(void)
{
    example_text(&reads[0].text);
    axes_text(&reads[1].text, 8, 8);
    axes_text(&reads[2].text, 8, 64);
    largest_text(&reads[3].text);
    for (int i = 0; i < READS; i++)
        prepare_work(&reads[i], read_columns[i], i == 0 ? 500 : i == 1 ? 50 : 1);
}

static void read_library(const void *work)
{
    const struct plan_work *w = work;
    uint64_t table[BH_TABLE];
    uint64_t results[BH_PLAN_RESULTS];
    for (int i = 0; i < w->times; i++)
        bh_plan_read(w->text.bytes, w->text.length, table, BH_TABLE, results, BH_PLAN_RESULTS);
}

static void read_plain(const void *work)
{
    const struct plan_work *w = work;
    struct plain_plan plan;
    uint64_t line;
    for (int i = 0; i < w->times; i++)
        plain_plan_read(w->text.bytes, w->text.length, &plan, &line);
}

/* ---- Points decoded ---- */

#define DECODES 3

static const char *const decode_columns[DECODES] = { "1 axis x 64", "4 axes x 8", "8 axes x 3" };
static struct plan_work decodes[DECODES];
static struct best decode_best[DECODES];

static void prepare_decodes(void)
{
    axes_text(&decodes[0].text, 1, 64);
    axes_text(&decodes[1].text, 4, 8);
    axes_text(&decodes[2].text, 8, 3);
    for (int i = 0; i < DECODES; i++)
        prepare_work(&decodes[i], decode_columns[i], i == 0 ? 64 : 1);
}

static void decode_library(const void *work)
{
    const struct plan_work *w = work;
    uint64_t values[BH_NAMES];
    for (int i = 0; i < w->times; i++) {
        for (uint64_t point = 0; point < w->points; point++)
            bh_experiment(w->pair.table, BH_TABLE, w->pair.results[PLAN_AXES], point, values,
                          BH_NAMES);
    }
}

static void decode_plain(const void *work)
{
    const struct plan_work *w = work;
    uint64_t values[PLAIN_NAMES];
    for (int i = 0; i < w->times; i++) {
        for (uint64_t point = 0; point < w->points; point++)
            plain_experiment(&w->pair.plain, point, values);
    }
}

/* ---- Points run ---- */

#define RUNS 3
#define SEEDINGS 2

static const char *const run_columns[RUNS] = { "4 words", "4,096 words", "32,768 words" };
static const char *const seedings[SEEDINGS] = { "run, one seed", "run, a seed each" };
static struct plan_work runs[SEEDINGS][RUNS];
static struct best run_best[SEEDINGS][RUNS];

#define MOST_POINTS 64

static void prepare_runs(void)
{
    static const int words[RUNS] = { 4, 4096, 32768 };
    static const int side[RUNS] = { 2, 64, 64 };
    static const int points[RUNS] = { MOST_POINTS, 16, 8 };
    for (int seeding = 0; seeding < SEEDINGS; seeding++) {
        for (int i = 0; i < RUNS; i++) {
            struct plan_work *work = &runs[seeding][i];
            int seeds = seeding == 0 ? 1 : points[i];
            fill_text(&work->text, words[i], side[i], points[i] / seeds, seeds);
            prepare_work(work, run_columns[i], i == 0 ? 50 : 1);
        }
    }
}

static uint16_t run_image[32768];
static uint16_t run_memory[32768];
static uint8_t run_lines[BH_LINE * MOST_POINTS];

static void run_library(const void *work)
{
    const struct plan_work *w = work;
    const uint64_t *r = w->pair.results;
    uint64_t written;
    for (int i = 0; i < w->times; i++)
        bh_lines(w->pair.table, BH_TABLE, r[PLAN_AXES], r[PLAN_DRAW], 0, w->points, run_image,
                 r[PLAN_WORDS], run_memory, r[PLAN_WORDS], run_lines, sizeof run_lines, &written,
                 1);
}

static void run_plain(const void *work)
{
    const struct plan_work *w = work;
    size_t written;
    for (int i = 0; i < w->times; i++)
        plain_lines(&w->pair.plain, 0, w->points, run_image, run_memory, run_lines, &written);
}

/* ---- The group ---- */

static char **files;
static int file_count;

void compare_files(char **names, int count)
{
    files = names;
    file_count = count;
}

/* Reading is compared where the works are prepared. */
static void compare_plans(void)
{
    prepare_reads();
    prepare_decodes();
    prepare_runs();
    for (int i = 0; i < DECODES; i++)
        decode_both(&decodes[i].pair, decode_columns[i]);
    for (int seeding = 0; seeding < SEEDINGS; seeding++) {
        for (int i = 0; i < RUNS; i++)
            run_both(&runs[seeding][i].pair, run_columns[i]);
    }
    int texts = READS + DECODES + SEEDINGS * RUNS + compare_texts(files, file_count);
    printf("bench: the same answers and tables of %d plan texts, and listings of those run\n",
           texts);
}

static void pass_plans(int rounds)
{
    for (int i = 0; i < READS; i++) {
        const struct contest contest = { NULL, read_library, read_plain, &reads[i] };
        measure(&read_best[i], &contest, rounds);
    }
    for (int i = 0; i < DECODES; i++) {
        const struct contest contest = { NULL, decode_library, decode_plain, &decodes[i] };
        measure(&decode_best[i], &contest, rounds);
    }
    for (int seeding = 0; seeding < SEEDINGS; seeding++) {
        for (int i = 0; i < RUNS; i++) {
            const struct contest contest = { NULL, run_library, run_plain, &runs[seeding][i] };
            measure(&run_best[seeding][i], &contest, rounds);
        }
    }
}

static void print_reads(void)
{
    print_head("million bytes/s", read_columns, READS);
    printf("%-19s", "plan read");
    for (int i = 0; i < READS; i++)
        print_cell(&read_best[i], 1e-6 * (double)reads[i].text.length * reads[i].times);
    printf("\n");
}

static void print_decodes(void)
{
    print_head("million points/s", decode_columns, DECODES);
    printf("%-19s", "points decoded");
    for (int i = 0; i < DECODES; i++)
        print_cell(&decode_best[i], 1e-6 * (double)decodes[i].points * decodes[i].times);
    printf("\n");
}

static void print_runs(void)
{
    print_head("thousand points/s", run_columns, RUNS);
    for (int seeding = 0; seeding < SEEDINGS; seeding++) {
        printf("%-19s", seedings[seeding]);
        for (int i = 0; i < RUNS; i++) {
            const struct plan_work *work = &runs[seeding][i];
            print_cell(&run_best[seeding][i], 1e-3 * (double)work->points * work->times);
        }
        printf("\n");
    }
}

static void print_plans(void)
{
    print_reads();
    print_decodes();
    print_runs();
}

const struct group plans = { "plans", compare_plans, pass_plans, print_plans };

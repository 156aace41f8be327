/* Compares the time of a drawing: bh_fill_states and the model's fill_states. Each drawing that is
   compared has its time compared too (compare_drawings.c). Here are every short row in every mode,
   every place of an array by a window, and numbers of words that no memory has. */
#include "compare_drawings.h"

#include <string.h>

/* ---- One call ---- */

static struct draw_result library_time(const struct draw_case *c, bool *kept)
{
    struct draw_case lent = *c;
    struct draw_result r;
    clear_result(&r);
    r.answer = bh_fill_states(c->words, c->operation, lent.number, c->count, r.out, c->length);
    *kept = memcmp(lent.number, c->number, sizeof lent.number) == 0;
    return r;
}

/* What the interface answers by 9 never gets to the model. */
static struct draw_result model_time(const struct draw_case *c)
{
    struct draw_result r = { BH_BAD_ARGUMENT, { 0 } };
    clear_result(&r);
    if (c->operation >= OPERATIONS || settings_are_bad(c->number, c->count)
        || c->length < BH_FILL_RESULTS)
        return r;
    struct settings s = settings_of(c->number);
    struct fill_answer a = fill_states(c->words, (enum operation)c->operation, &s);
    r.answer = (uint32_t)a.answer;
    r.out[OUT_SETUP] = a.setup;
    r.out[OUT_TRANSFER] = a.transfer;
    r.out[OUT_ADJUSTMENT] = a.adjustment;
    r.out[OUT_STATES] = a.states;
    return r;
}

bool times_agree(const struct draw_case *c, struct draw_result *mine, struct draw_result *theirs)
{
    bool kept;
    *mine = library_time(c, &kept);
    *theirs = model_time(c);
    return kept && same_result(mine, theirs);
}

void print_times(const struct draw_result *mine, const struct draw_result *theirs)
{
    static const char *const name[BH_FILL_RESULTS] = { "setup", "transfer", "adjustment",
                                                       "states" };
    print_difference("bh_fill_states", name, BH_FILL_RESULTS, mine, theirs);
}

/* Calls of compare_time. */
static uint64_t times_alone;

void compare_time(const struct draw_case *c)
{
    struct draw_result mine, theirs;
    times_alone++;
    if (times_agree(c, &mine, &theirs))
        return;
    print_case("the time of a drawing");
    print_draw_case(c);
    print_times(&mine, &theirs);
    stop();
}

/* ---- What was compared ---- */

#define ANSWERS 18

static uint64_t times_by_answer[ANSWERS];

/* Of random FILLs that draw: by words of a row and alignment; by the column of table 13-5 and CD;
   by the column of table 13-7 and whether planes are masked or T is 1; by pixel size. */
enum { SHORT_ROW, MEDIUM_ROW, LONG_ROW, ROWS };
enum { LINEAR, NO_WINDOW, FITS, START_MOVED, END_MOVED, BOTH_MOVED, SETUPS };
enum { REPLACES, BOOLEANS_AND_ADD, SATURATES_OR_CHOOSES, SUBTRACTS_SATURATED, PROCESSINGS };
enum { NEITHER, PLANES_ALONE, T_ALONE, PLANES_AND_T, MASKINGS };

#define ALIGNMENTS 4
#define SIZES 5

static const char *const row_name[ROWS] = { "1 word", "2 words", "3 or more" };
static const char *const setup_name[SETUPS] = { "FILL L", "FILL XY, W=0", "it fits",
                                                "start moved", "end moved", "both moved" };
static const char *const processing_name[PROCESSINGS] = { "replace", "Booleans, ADD",
                                                          "ADDS to MIN", "SUBS" };

static uint64_t rows_had[ROWS][ALIGNMENTS];
static uint64_t setups_had[SETUPS][2];
static uint64_t processings_had[PROCESSINGS][MASKINGS];
static uint64_t sizes_had[SIZES];

/* A row that is 1, 2 or more words long, from A (both edges at word bounds) to D (none). */
static void count_row(const struct draw_case *c)
{
    uint64_t first = destination_start(c) % 16;
    uint64_t behind = first + (uint64_t)drawn_part(c).columns * c->number[AT_PSIZE];
    uint64_t words = (behind + 15) / 16;
    rows_had[words > 2 ? LONG_ROW : words - 1][2 * (first != 0) + (behind % 16 != 0)]++;
}

static int setup_of(const struct draw_case *c)
{
    struct rectangle array = whole_array(c), drawn = drawn_part(c);
    bool start = drawn.x != array.x || drawn.y != array.y;
    bool end = drawn.x + drawn.columns != array.x + array.columns
               || drawn.y + drawn.rows != array.y + array.rows;
    if (c->operation == FILL_L)
        return LINEAR;
    if ((c->number[AT_CONTROL] >> 6 & 3) == 0)
        return NO_WINDOW;
    return FITS + start + 2 * end;
}

static int processing_of(uint32_t pp)
{
    if (pp == 0)
        return REPLACES;
    if (pp <= 16)
        return BOOLEANS_AND_ADD;
    return pp == 19 ? SUBTRACTS_SATURATED : SATURATES_OR_CHOOSES;
}

void count_time(const struct draw_case *c, const struct draw_result *r)
{
    uint32_t control = c->number[AT_CONTROL];
    times_by_answer[r->answer]++;
    if (r->answer != DONE || r->out[OUT_STATES] == 0)
        return;
    int masking = (control >> 5 & 1 ? T_ALONE : 0) + (c->number[AT_PMASK] != 0 ? PLANES_ALONE : 0);
    count_row(c);
    setups_had[setup_of(c)][control >> 15 & 1]++;
    processings_had[processing_of(control >> 10 & 31)][masking]++;
    sizes_had[size_index(c->number[AT_PSIZE])]++;
}

/* ---- Every short row ---- */

#define MOST_COLUMNS 40
#define MOST_ROWS 3
#define ROW_PITCH 1024
#define ROW_WORDS 256

/* Every PP, T and CD, without a mask and with one of one plane. */
static void every_mode(struct draw_case c)
{
    for (uint32_t pp = 0; pp < 22; pp++) {
        for (uint32_t i = 0; i < 8; i++) {
            uint32_t t = i & 1, cd = i >> 1 & 1;
            c.number[AT_CONTROL] = cd << 15 | pp << 10 | t << 5;
            c.number[AT_PMASK] = i >> 2 == 0 ? 0 : (uint32_t)1 << random_below(16);
            compare_time(&c);
        }
    }
}

/* FILL L and FILL XY of the row that starts at bit `first` of a word. */
static void every_height(uint32_t psize, uint32_t first, uint32_t columns)
{
    struct draw_case c = { .count = BH_SETTINGS, .words = ROW_WORDS, .length = BH_FILL_RESULTS };
    c.number[AT_DPTCH] = ROW_PITCH;
    c.number[AT_PSIZE] = psize;
    for (uint32_t rows = 1; rows <= MOST_ROWS; rows++) {
        c.number[AT_DYDX] = rows << 16 | columns;
        c.operation = FILL_L;
        c.number[AT_DADDR] = 16 + first;
        c.number[AT_OFFSET] = 0;
        every_mode(c);
        c.operation = FILL_XY;
        c.number[AT_DADDR] = 1;
        c.number[AT_OFFSET] = 16 + first - psize;
        every_mode(c);
    }
}

static void every_row(void)
{
    for (uint32_t psize = 1; psize <= 16; psize = 2 * psize) {
        for (uint32_t first = 0; first < 16; first = first + psize) {
            for (uint32_t columns = 1; columns <= MOST_COLUMNS; columns++)
                every_height(psize, first, columns);
        }
    }
}

/* ---- Every place by a window ---- */

/* Arrays of up to 9 by 4 pixels before, in, across and behind a window of 4 by 2, W 0 to 3. The
   memory ends below the window's last row. */
#define PLACE_COLUMNS 9
#define PLACE_ROWS 4
#define PLACE_WORDS 128
#define PLACE_PITCH 256

static void every_array_at(int64_t x, int64_t y)
{
    struct draw_case c = { .operation = FILL_XY, .count = BH_SETTINGS, .words = PLACE_WORDS,
                           .length = BH_FILL_RESULTS };
    c.number[AT_DADDR] = xy_number(x, y);
    c.number[AT_DPTCH] = PLACE_PITCH;
    c.number[AT_WSTART] = xy_number(4, 4);
    c.number[AT_WEND] = xy_number(7, 5);
    c.number[AT_PSIZE] = 4;
    for (uint32_t columns = 0; columns <= PLACE_COLUMNS; columns++) {
        for (uint32_t rows = 0; rows <= PLACE_ROWS; rows++) {
            c.number[AT_DYDX] = rows << 16 | columns;
            for (uint32_t i = 0; i < 8; i++) {
                uint32_t w = i & 3, cd = i >> 2;
                c.number[AT_CONTROL] = cd << 15 | w << 6;
                compare_time(&c);
            }
        }
    }
}

static void every_place(void)
{
    for (int64_t x = -2; x <= 9; x++) {
        for (int64_t y = -1; y <= 7; y++)
            every_array_at(x, y);
    }
}

/* ---- Any number of words ---- */

#define WORD_NUMBERS 11

/* Around what a memory may have, and where 16 times the words leave 32 and 64 bits. */
static void any_words(void)
{
    const uint64_t words[WORD_NUMBERS] = {
        0, 1, MOST_WORDS - 1, MOST_WORDS, MOST_WORDS + 1, (uint64_t)1 << 28, (uint64_t)1 << 32,
        (uint64_t)1 << 60, ((uint64_t)1 << 60) + 400, (uint64_t)1 << 63, UINT64_MAX
    };
    for (int i = 0; i < 300 * WORD_NUMBERS; i++) {
        struct draw_case c = random_drawing(1 + random_below(400));
        if (one_in(4))
            spoil(&c, c.words);
        if (one_in(4))
            disturb(&c);
        c.words = words[i % WORD_NUMBERS];
        c.place = one_in(2) ? 0 : pixels_of(&c) / 2;
        c.budget = random_budget(pixels_of(&c) - c.place);
        tame(&c);
        compare_dry(&c);
        compare_time(&c);
    }
}

void compare_timings(void)
{
    every_row();
    every_place();
    any_words();
}

/* ---- Printing ---- */

/* A line of counts; gives how many of them are 0. */
static int print_counts(const char *name, const uint64_t *number, int count)
{
    int missing = 0;
    printf("%-14s", name);
    for (int i = 0; i < count; i++) {
        printf(" %8llu", (unsigned long long)number[i]);
        missing += number[i] == 0;
    }
    printf("\n");
    return missing;
}

/* 15 is no answer of the time: it has no place. */
static int print_times_by_answer(void)
{
    static const int answer[9] = { DONE, BH_BAD_ARGUMENT, 10, 11, 12, 13, 14, 16, 17 };
    int missing = 0;
    printf("times of the drawings:");
    for (int i = 0; i < 9; i++) {
        printf("%s %llu answered %d", i > 0 ? "," : "",
               (unsigned long long)times_by_answer[answer[i]], answer[i]);
        missing += times_by_answer[answer[i]] == 0;
    }
    printf("; and %llu by themselves\n", (unsigned long long)times_alone);
    return missing;
}

int print_timings(void)
{
    int missing = print_times_by_answer();
    printf("%-14s %8s %8s %8s %8s\n", "FILLs, a row", "A", "B", "C", "D");
    for (int i = 0; i < ROWS; i++)
        missing += print_counts(row_name[i], rows_had[i], ALIGNMENTS);
    printf("%-14s %8s %8s\n", "setup", "CD=0", "CD=1");
    for (int i = 0; i < SETUPS; i++)
        missing += print_counts(setup_name[i], setups_had[i], 2);
    printf("%-14s %8s %8s %8s %8s\n", "PP", "neither", "mask", "T", "both");
    for (int i = 0; i < PROCESSINGS; i++)
        missing += print_counts(processing_name[i], processings_had[i], MASKINGS);
    return missing + print_counts("PSIZE 1 to 16", sizes_had, SIZES);
}

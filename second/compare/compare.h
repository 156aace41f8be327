/* What the parts of the comparison share (compare.c). */
#ifndef COMPARE_H
#define COMPARE_H

#include "buckethare.h"
#include "model.h"

/* What stands where a call may not write. */
#define GUARD 0xA5A5A5A5u

/* The calls so far. */
extern uint64_t calls;

/* ---- Random numbers ---- */

uint64_t random64(void);
uint32_t random32(void);

/* A number from 0 to limit - 1. */
uint32_t random_below(uint32_t limit);

/* True once in n. */
bool one_in(uint32_t n);

/* ---- Reporting ---- */

/* Prints the start of a case. The caller prints the rest and ends the run. */
void print_case(const char *call);
void print_numbers(const char *name, const uint32_t *number, size_t count);
void print_words(const char *name, const uint16_t *word, size_t count);
void stop(void);

/* ---- Output arrays ---- */

#define OUTS 6

/* An output array: all guards. */
void clear_out(uint32_t out[OUTS]);

/* What the answer and the output array should be: 9 and no change where it has too few elements. */
uint32_t expect_out(uint32_t out[OUTS], size_t length, const uint32_t *result, size_t results,
                    uint32_t answer);

/* The length of an output array: mostly what is needed, at times less or more. */
size_t random_length(size_t needed);

/* ---- Settings ---- */

/* The places of the settings in the array. */
enum place {
    AT_SADDR,
    AT_SPTCH,
    AT_DADDR,
    AT_DPTCH,
    AT_OFFSET,
    AT_WSTART,
    AT_WEND,
    AT_DYDX,
    AT_COLOR0,
    AT_COLOR1,
    AT_CONTROL,
    AT_PSIZE,
    AT_PMASK
};

/* The settings, and numbers behind them. */
#define NUMBERS 15

/* Too few numbers are lent, or one is too large for its place: the library answers 9. */
bool settings_are_bad(const uint32_t number[NUMBERS], size_t count);
struct settings settings_of(const uint32_t number[NUMBERS]);

/* ---- Changed bits (compare_changed.c) ---- */

void compare_changed(const uint16_t *a, uint64_t words_a, const uint16_t *b, uint64_t words_b,
                     size_t length);

/* Lengths around what is counted at once, every difference of a word, and one bit anywhere. */
void changed_edges(void);

/* Two memories of up to 5,000 words. */
void random_long_changed(void);

/* ---- Single pixels (compare_pixels.c) ---- */

void pixel_edges(void);
void random_pixel_call(void);
void print_pixel_answers(void);

/* ---- FILL and PIXBLT (compare_drawings.c and what compare_drawings.h names) ---- */

/* Makes at least this many calls of bh_draw beside those of every small array, each with its dry
   run and its time, and prints how often each kind gave each answer. Of many calls each expected
   answer must have been given. */
void compare_drawings(uint64_t count);

/* The largest arrays: the model takes half a minute. */
void compare_huge_drawings(void);

/* ---- Plans (compare_plans.c) ---- */

/* Compares this many random plans, and prints how often they and their points gave each answer. */
void compare_plans(uint64_t count);

#endif

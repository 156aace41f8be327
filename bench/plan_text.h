/* The plan texts that are measured. */
#ifndef PLAN_TEXT_H
#define PLAN_TEXT_H

#include <stddef.h>
#include <stdint.h>

/* Room for more than a plan may have. */
struct plan_text {
    size_t length;
    uint8_t bytes[131072];
};

/* The plan of plans/example.plan. */
void example_text(struct plan_text *text);

/* So many axes of so many values each: at most 8 and 64. */
void axes_text(struct plan_text *text, int axes, int values);

/* 65,536 bytes: 8 axes of 64 values, and comment lines before, between and behind them. */
void largest_text(struct plan_text *text);

/* A FILL L of `side` by `side` pixels of 4 bits, in so many words, with so many colours and seeds;
   the seeds are the fastest axis. */
void fill_text(struct plan_text *text, int words, int side, int colors, int seeds);

/* The named drawing in 64 words, with good and bad starts, pitches, windows, sizes and modes, from
   each corner. */
void modes_text(struct plan_text *text, const char *draw);

#endif

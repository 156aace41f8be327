/* A plan as the library and as plain C read it. */
#ifndef PLAN_PAIR_H
#define PLAN_PAIR_H

#include "buckethare.h"
#include "plain_plan.h"
#include "plan_text.h"

struct plan_pair {
    uint64_t table[BH_TABLE];
    uint64_t results[BH_PLAN_RESULTS];
    struct plain_plan plain;
};

/* The places of the results. */
enum plan_result { PLAN_LINE, PLAN_WORDS, PLAN_DRAW, PLAN_AXES, PLAN_POINTS };

/* Reads a text on both sides: answer, line, results and table must be the same, or the run ends
   with status 1. The answer is the plan's. */
uint32_t read_both(const struct plan_text *text, const char *name, struct plan_pair *pair);

/* Decodes all points of an accepted plan on both sides, and one more. */
void decode_both(const struct plan_pair *pair, const char *name);

/* Runs all points of an accepted plan on both sides: listing, image, memory and registers must be
   the same. */
void run_both(const struct plan_pair *pair, const char *name);

/* Plan files, and a plan of modes for each drawing, are read and the accepted ones run on both
   sides; texts with a byte changed or the end cut off are read. Answers how many there were. */
int compare_texts(char **files, int count);

#endif

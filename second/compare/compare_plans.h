/* What the comparison of plans shares. */
#ifndef COMPARE_PLANS_H
#define COMPARE_PLANS_H

#include "compare_drawings.h"

/* Room for a text that is longer than a plan may be. */
#define TEXT_ROOM (MOST_TEXT + 64)

struct plan_text {
    size_t length;
    unsigned char byte[TEXT_ROOM];
};

/* The last of the fourteen names; the others have the places of the settings. */
#define AT_SEED 13

/* In the order of their numbers. */
extern const char *const plan_name[BH_NAMES];

/* ---- Random plans (random_plan.c, spoil_plan.c) ---- */

/* A plan's lines, by field. */
#define SKETCH_LINES 16
#define SKETCH_FIELDS 80
#define SKETCH_FIELD 40

struct sketch_line {
    int fields;
    char field[SKETCH_FIELDS][SKETCH_FIELD];
};

struct sketch {
    int lines;
    struct sketch_line line[SKETCH_LINES];
};

/* An accepted plan of a memory, a drawing and up to eight axes; most of its points draw. */
void random_sketch(struct sketch *s);

/* Makes something wrong, or perhaps so, in the lines or the bytes. */
void spoil_sketch(struct sketch *s);
void spoil_text(struct plan_text *t);

/* The lines as text, with comments and empty lines between them. */
void write_sketch(const struct sketch *s, struct plan_text *t);

/* A plan: about as often accepted as refused. */
void random_plan(struct plan_text *t);

/* ---- What was compared (plan_features.c) ---- */

/* Counts a plan that the model has read, and how many points it has. */
void note_plan(const struct plan_text *t, const struct plan *p, uint64_t points);

/* Counts a point by its line in the model's listing; false where that is no such line. */
bool note_line(const struct plan *p, const char *line);

/* The number of answers to plans that never came, and of other things that never occurred. */
int print_plan_answers(void);
int print_plan_features(void);

#endif

/* Plans in plain C: the text's reader, with its refusals, and a point's values. */
#ifndef PLAIN_PLAN_H
#define PLAIN_PLAN_H

#include <stddef.h>
#include <stdint.h>

#define PLAIN_AXES 8
#define PLAIN_VALUES 64
#define PLAIN_NAMES 14

struct plain_axis {
    uint32_t name, count;
    uint64_t values[PLAIN_VALUES];
};

/* What was read. Of a refused plan that is what stands before its bad line. */
struct plain_plan {
    uint64_t words, points;
    uint32_t draw, axes;
    struct plain_axis axis[PLAIN_AXES];
};

/* The answer is 0, or 20 to 23 with the line's number, which is 0 otherwise. */
uint32_t plain_plan_read(const uint8_t *text, size_t length, struct plain_plan *plan,
                         uint64_t *line);

/* The values of a point by their names' numbers. The answer is 0 or 24. */
uint32_t plain_experiment(const struct plain_plan *plan, uint64_t point, uint64_t *values);

/* The bits in which two memories of one length differ. */
uint64_t plain_changed(const uint16_t *before, const uint16_t *after, size_t words);

/* Puts the listing's lines of `count` points from `first` on, each over the image of its SEED.
   There must be room for 80 bytes each, and the image and the memory have the plan's number of
   words. The answer is 0 or 24. */
uint32_t plain_lines(const struct plain_plan *plan, uint64_t first, uint64_t count, uint16_t *image,
                     uint16_t *memory, uint8_t *out, size_t *written);

#endif

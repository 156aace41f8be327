/* A drawing as the library and as plain C take it, and the memory that both draw in. */
#ifndef WORK_H
#define WORK_H

#include "buckethare.h"
#include "plain.h"

#include <stdbool.h>

/* The destination is in the first half of the memory, and the source in the second, but for a shape
   over itself. */
#define HALF 163840
#define WORDS (2 * HALF)

extern uint16_t image[WORDS];
extern uint16_t memory[WORDS];
extern uint16_t other[WORDS];

/* The image of seed 1. */
void make_image(void);

/* Lays the image over the memory. */
void restore(void);

/* Ends the run with status 1 where the memory isn't the other one. */
void same_or_stop(const char *what, uint32_t size, uint32_t control);

struct kind {
    const char *name;
    uint32_t operation;
    enum plain_source from;
    bool to_xy, from_xy;
};

#define KINDS 8

extern const struct kind kinds[KINDS];

/* gap is the bits behind each row of a linear array. Over itself the source starts 20 pixels after
   the destination. */
struct shape {
    uint32_t columns, rows, gap;
    bool over_itself;
};

/* All have so many pixels. */
#define PIXELS 131072

extern const struct shape wide, narrow, scrolled;

/* saddr and daddr are the registers at the end. */
struct work {
    uint32_t operation;
    uint32_t settings[BH_SETTINGS];
    struct plain_drawing plain;
    uint32_t saddr, daddr;
};

struct work work_of(const struct kind *kind, const struct shape *shape, uint32_t psize,
                    uint32_t control, uint32_t pmask);

/* The whole drawing in the memory: the library's answer must be 0, and its registers the work's.
   Both are given a struct work. */
void draw_library(const void *work);
void draw_plain(const void *work);

#endif

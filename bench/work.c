#include "work.h"

#include "settings.h"

#include <stdio.h>
#include <stdlib.h>
#include <string.h>

uint16_t image[WORDS];
uint16_t memory[WORDS];
uint16_t other[WORDS];

void make_image(void)
{
    bh_fill_image(image, WORDS, 1);
}

void restore(void)
{
    memcpy(memory, image, sizeof memory);
}

void same_or_stop(const char *what, uint32_t size, uint32_t control)
{
    if (memcmp(memory, other, sizeof memory) == 0)
        return;
    printf("bench: %s, size %lu, CONTROL 0x%04lX: the memories differ\n", what,
           (unsigned long)size, (unsigned long)control);
    exit(1);
}

const struct kind kinds[KINDS] = {
    { "FILL L", BH_FILL_L, PLAIN_COLOR, false, false },
    { "FILL XY", BH_FILL_XY, PLAIN_COLOR, true, false },
    { "PIXBLT L,L", BH_PIXBLT_L_L, PLAIN_PIXELS, false, false },
    { "PIXBLT L,XY", BH_PIXBLT_L_XY, PLAIN_PIXELS, true, false },
    { "PIXBLT XY,L", BH_PIXBLT_XY_L, PLAIN_PIXELS, false, true },
    { "PIXBLT XY,XY", BH_PIXBLT_XY_XY, PLAIN_PIXELS, true, true },
    { "PIXBLT B,L", BH_PIXBLT_B_L, PLAIN_BITS, false, false },
    { "PIXBLT B,XY", BH_PIXBLT_B_XY, PLAIN_BITS, true, false },
};

const struct shape wide = { 512, 256, 16, false };
const struct shape narrow = { 4, 32768, 0, false };
const struct shape scrolled = { 512, 256, 16, true };

/* A row's pitch: a power of two for XY, with the gap for a linear array. */
static uint32_t pitch_of(const struct shape *shape, bool xy, uint32_t step)
{
    return xy ? shape->columns * step : shape->columns * step + shape->gap;
}

/* OFFSET, and what lies before a linear array too. */
#define BEFORE (16 * 3)

/* A pixel's linear address, and its address as an array's start. */
static uint32_t linear_at(uint32_t x, uint32_t y, uint32_t pitch, uint32_t step)
{
    return BEFORE + y * pitch + x * step;
}

static uint32_t start_at(bool xy, uint32_t x, uint32_t y, uint32_t pitch, uint32_t step)
{
    return xy ? y << 16 | x : linear_at(x, y, pitch, step);
}

static uint32_t source_start(const struct kind *kind, const struct shape *shape, uint32_t pitch,
                             uint32_t step)
{
    if (shape->over_itself)
        return start_at(kind->from_xy, 25, 2, pitch, step);
    return kind->from_xy ? start_at(true, 3, 16 * HALF / pitch, pitch, step) : 16 * HALF + 3 * step;
}

/* The walk from the upper left pixel, whose start is given as in the settings. */
static struct plain_walk walk_of(bool xy, uint32_t start, uint32_t pitch, uint32_t step)
{
    uint32_t linear = xy ? linear_at(start & 0xFFFF, start >> 16, pitch, step) : start;
    return (struct plain_walk){ linear, pitch, step };
}

/* PIXBLTs of pixels go from the corner that CONTROL chooses. A PIXBLT L,L is given its address. */
static void choose_corner(struct work *w)
{
    struct plain_drawing *p = &w->plain;
    uint32_t *s = w->settings;
    if (p->from != PLAIN_PIXELS)
        return;
    plain_to_corner(&p->destination, p->columns, p->rows, s[CONTROL]);
    plain_to_corner(&p->source, p->columns, p->rows, s[CONTROL]);
    if (w->operation == BH_PIXBLT_L_L) {
        s[DADDR] = p->destination.start;
        s[SADDR] = p->source.start;
    }
}

static void put_settings(uint32_t *s, const struct kind *kind, const struct shape *shape,
                         uint32_t psize, uint32_t step)
{
    s[DPTCH] = pitch_of(shape, kind->to_xy, psize);
    s[SPTCH] = pitch_of(shape, kind->from_xy, step);
    s[OFFSET] = BEFORE;
    s[DADDR] = start_at(kind->to_xy, 5, 2, s[DPTCH], psize);
    s[SADDR] = source_start(kind, shape, s[SPTCH], step);
    s[DYDX] = shape->rows << 16 | shape->columns;
    s[COLOR0] = 0x3A5C;
    s[COLOR1] = 0x96E1;
    s[PSIZE] = psize;
}

struct work work_of(const struct kind *kind, const struct shape *shape, uint32_t psize,
                    uint32_t control, uint32_t pmask)
{
    struct work w = { .operation = kind->operation };
    uint32_t step = kind->from == PLAIN_BITS ? 1 : psize;
    uint32_t *s = w.settings;
    put_settings(s, kind, shape, psize, step);
    s[CONTROL] = control;
    s[PMASK] = pmask;
    w.plain = (struct plain_drawing){ shape->columns, shape->rows,
                                      walk_of(kind->to_xy, s[DADDR], s[DPTCH], psize), kind->from,
                                      walk_of(kind->from_xy, s[SADDR], s[SPTCH], step), psize,
                                      control >> 10 & 31, control >> 5 & 1, pmask, s[COLOR0],
                                      s[COLOR1] };
    choose_corner(&w);
    w.daddr = plain_end(&w.plain.destination, shape->rows);
    w.saddr = kind->from == PLAIN_COLOR ? s[SADDR] : plain_end(&w.plain.source, shape->rows);
    return w;
}

void draw_library(const void *work)
{
    const struct work *w = work;
    uint64_t out[BH_DRAW_RESULTS];
    uint32_t answer = bh_draw(memory, WORDS, w->operation, w->settings, BH_SETTINGS, 0, 0,
                              UINT64_MAX, out, BH_DRAW_RESULTS);
    if (answer != BH_DONE || out[1] != PIXELS || out[4] != w->saddr || out[5] != w->daddr) {
        printf("bench: operation %lu, CONTROL 0x%04lX: answers %lu, or leaves other registers\n",
               (unsigned long)w->operation, (unsigned long)w->settings[CONTROL],
               (unsigned long)answer);
        exit(1);
    }
}

void draw_plain(const void *work)
{
    const struct work *w = work;
    plain_draw(memory, &w->plain);
}

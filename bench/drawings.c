/* Whole drawings: 512 by 256 pixels of every kind, the starting corners, and narrow arrays, where
   the cost of a row shows. */
#include "measure.h"
#include "work.h"

#include <stdio.h>
#include <string.h>

/* What the library leaves in the memory and plain C in the other one. The corner is PBH and PBV at
   their places in CONTROL. */
static void compare(const struct kind *kind, const struct shape *shape, uint32_t psize, uint32_t pp,
                    uint32_t corner)
{
    uint32_t control = pp << 10 | corner | (pp % 2) << 5;
    struct work w = work_of(kind, shape, psize, control, pp % 3 == 0 ? 0 : 0x5A3C);
    restore();
    draw_plain(&w);
    memcpy(other, memory, sizeof other);
    restore();
    draw_library(&w);
    same_or_stop(kind->name, psize, control);
}

static void pass_over(struct best *best, const struct work *work, int rounds)
{
    const struct contest contest = { restore, draw_library, draw_plain, work };
    measure(best, &contest, rounds);
}

/* ---- Every kind ---- */

#define SIZES 5

static const char *const sizes[SIZES] = { "PSIZE  1", "PSIZE  2", "PSIZE  4", "PSIZE  8",
                                          "PSIZE 16" };

/* A row's cells. */
static void print_sizes(const struct best *best)
{
    for (int i = 0; i < SIZES; i++)
        print_cell(&best[i], 1e-6 * PIXELS);
    printf("\n");
}

#define MODES 2

static const uint32_t modes[MODES] = { 0, 17 };

static struct best drawn[KINDS][MODES][SIZES];

static void compare_drawings(void)
{
    for (int k = 0; k < KINDS; k++) {
        for (uint32_t psize = 1; psize <= 16; psize = 2 * psize) {
            for (uint32_t pp = 0; pp <= 21; pp++)
                compare(&kinds[k], &wide, psize, pp, 0);
        }
    }
    printf("bench: the same memory after %d drawings\n", KINDS * SIZES * 22);
}

static void pass_drawings(int rounds)
{
    for (int k = 0; k < KINDS; k++) {
        for (int m = 0; m < MODES; m++) {
            for (uint32_t i = 0; i < SIZES; i++) {
                struct work w = work_of(&kinds[k], &wide, (uint32_t)1 << i, modes[m] << 10, 0);
                pass_over(&drawn[k][m][i], &w, rounds);
            }
        }
    }
}

static void print_drawings(void)
{
    print_head("million pixels/s", sizes, SIZES);
    for (int k = 0; k < KINDS; k++) {
        for (int m = 0; m < MODES; m++) {
            printf("%-13s PP %2lu", kinds[k].name, (unsigned long)modes[m]);
            print_sizes(drawn[k][m]);
        }
    }
}

const struct group drawings = { "drawings", compare_drawings, pass_drawings, print_drawings };

/* ---- Starting corners ---- */

#define CORNERS 4

static const uint32_t corner_bits[CORNERS] = { 0, PLAIN_PBH, PLAIN_PBV, PLAIN_PBH | PLAIN_PBV };
static const char *const corner_names[CORNERS] = { "none", "PBH", "PBV", "both" };

#define TURNED_KINDS 2

static const int turned_kinds[TURNED_KINDS] = { BH_PIXBLT_L_L, BH_PIXBLT_XY_XY };

static struct best turned[TURNED_KINDS][CORNERS][SIZES];

/* Over itself, where the order shows, and as it is measured. */
static void compare_corner(const struct kind *kind, uint32_t psize, uint32_t corner)
{
    for (uint32_t pp = 0; pp <= 21; pp++)
        compare(kind, &scrolled, psize, pp, corner);
    compare(kind, &wide, psize, 0, corner);
}

static void compare_corners(void)
{
    for (int k = BH_PIXBLT_L_L; k <= BH_PIXBLT_XY_XY; k++) {
        for (int c = 0; c < CORNERS; c++) {
            for (uint32_t psize = 1; psize <= 16; psize = 2 * psize)
                compare_corner(&kinds[k], psize, corner_bits[c]);
        }
    }
    printf("bench: the same memory after %d drawings from all corners\n", 4 * CORNERS * SIZES * 23);
}

static void pass_corners(int rounds)
{
    for (int k = 0; k < TURNED_KINDS; k++) {
        for (int c = 0; c < CORNERS; c++) {
            for (uint32_t i = 0; i < SIZES; i++) {
                struct work w = work_of(&kinds[turned_kinds[k]], &wide, (uint32_t)1 << i,
                                        corner_bits[c], 0);
                pass_over(&turned[k][c][i], &w, rounds);
            }
        }
    }
}

static void print_corners(void)
{
    print_head("million pixels/s", sizes, SIZES);
    for (int k = 0; k < TURNED_KINDS; k++) {
        for (int c = 0; c < CORNERS; c++) {
            printf("%-13s %-5s", kinds[turned_kinds[k]].name, corner_names[c]);
            print_sizes(turned[k][c]);
        }
    }
}

const struct group corners = { "corners", compare_corners, pass_corners, print_corners };

/* ---- Narrow arrays ---- */

#define NARROWS 3
#define NARROW_SIZES 2

static const struct {
    int kind;
    uint32_t corner;
    const char *name;
} narrows[NARROWS] = { { BH_FILL_L, 0, "4 wide" },
                       { BH_PIXBLT_L_L, 0, "4 wide" },
                       { BH_PIXBLT_L_L, PLAIN_PBH | PLAIN_PBV, "4, both" } };

static const uint32_t narrow_sizes[NARROW_SIZES] = { 4, 16 };
static const char *const narrow_columns[NARROW_SIZES] = { "PSIZE  4", "PSIZE 16" };

static struct best narrow_drawn[NARROWS][NARROW_SIZES];

static void compare_narrow(void)
{
    for (int n = 0; n < NARROWS; n++) {
        for (int i = 0; i < NARROW_SIZES; i++) {
            for (uint32_t pp = 0; pp <= 21; pp++)
                compare(&kinds[narrows[n].kind], &narrow, narrow_sizes[i], pp, narrows[n].corner);
        }
    }
    printf("bench: the same memory after %d drawings of 4 columns\n", NARROWS * NARROW_SIZES * 22);
}

static void pass_narrow(int rounds)
{
    for (int n = 0; n < NARROWS; n++) {
        for (int i = 0; i < NARROW_SIZES; i++) {
            struct work w = work_of(&kinds[narrows[n].kind], &narrow, narrow_sizes[i],
                                    narrows[n].corner, 0);
            pass_over(&narrow_drawn[n][i], &w, rounds);
        }
    }
}

static void print_narrow(void)
{
    print_head("million pixels/s", narrow_columns, NARROW_SIZES);
    for (int n = 0; n < NARROWS; n++) {
        printf("%-10s %-8s", kinds[narrows[n].kind].name, narrows[n].name);
        for (int i = 0; i < NARROW_SIZES; i++)
            print_cell(&narrow_drawn[n][i], 1e-6 * PIXELS);
        printf("\n");
    }
}

const struct group narrow_arrays = { "narrow arrays", compare_narrow, pass_narrow, print_narrow };

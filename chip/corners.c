/* Starting corners: 002 section 7.2.2, and what 000 sections 13.3 to 13.5, 003 section 4.4 and 004
   section 5.1.4 say of them. */
#include "figures.h"

#include <string.h>

/* ---- Arrays by their upper left pixel ---- */

/* (0,0) is at address 0. */
struct array {
    uint32_t x, y, pitch, psize;
};

static uint32_t address_of(const struct array *a, uint32_t column, uint32_t row)
{
    return (a->y + row) * a->pitch + (a->x + column) * a->psize;
}

static bool has_pixel_source(uint32_t operation)
{
    return operation >= BH_PIXBLT_L_L && operation <= BH_PIXBLT_XY_XY;
}

static bool has_xy_source(uint32_t operation)
{
    return operation == BH_PIXBLT_XY_L || operation == BH_PIXBLT_XY_XY;
}

static bool has_xy_destination(uint32_t operation)
{
    return operation == BH_FILL_XY || operation == BH_PIXBLT_L_XY || operation == BH_PIXBLT_XY_XY
           || operation == BH_PIXBLT_B_XY;
}

/* What the programmer supplies: for PIXBLT L,L "the starting addresses of the appropriate corner
   pixels", for the others "the default starting addresses". */
static uint32_t supplied(const struct array *a, bool xy, uint32_t corner, uint32_t dydx)
{
    uint32_t last_column = (dydx & 0xFFFF) - 1, last_row = (dydx >> 16) - 1;
    return xy ? XY(a->x, a->y)
              : address_of(a, corner & PBH ? last_column : 0, corner & PBV ? last_row : 0);
}

static struct settings settings_of(uint32_t operation, uint32_t bits, uint32_t dydx,
                                   const struct array *from, const struct array *to)
{
    uint32_t corner = operation == BH_PIXBLT_L_L ? bits : 0;
    struct settings s = { .SADDR = supplied(from, has_xy_source(operation), corner, dydx),
                          .SPTCH = from->pitch,
                          .DADDR = supplied(to, has_xy_destination(operation), corner, dydx),
                          .DPTCH = to->pitch, .DYDX = dydx, .COLOR1 = 0xFFFF, .CONTROL = bits,
                          .PSIZE = to->psize };
    return s;
}

/* ---- The order of the pixels ---- */

/* An array of 3 by 2 pixels is drawn with a call for each pixel. Numbers: the last answer, and the
   pixels in the order in which they are processed, as row x 10h + column. Each operation from
   `first` to `last` is run, with each choice of PBH and PBV from `least` to `most`. "All the pixels
   in one row are processed before moving to the next row." */
enum { COLUMNS = 3, ROWS = 2, PIXELS = COLUMNS * ROWS };

static const struct walk_row {
    struct figure figure;
    uint32_t first, last;
    uint32_t least, most;
    uint32_t psize;
    uint64_t printed[1 + PIXELS];
} walk_rows[] = {
    { { "002", "7.2.2", "figure 7-2, PBH=0, PBV=0: PIXBLT L,XY, XY,L, XY,XY",
        "upper left .. processed first, lower right .. processed last", WORKED },
      BH_PIXBLT_L_XY, BH_PIXBLT_XY_XY, 0, 0, 4, { 0, 0x00, 0x01, 0x02, 0x10, 0x11, 0x12 } },
    { { "002", "7.2.2", "figure 7-2, PBH=1, PBV=0: PIXBLT L,XY, XY,L, XY,XY",
        "from right to left, from top to bottom", WORKED },
      BH_PIXBLT_L_XY, BH_PIXBLT_XY_XY, PBH, PBH, 4, { 0, 0x02, 0x01, 0x00, 0x12, 0x11, 0x10 } },
    { { "002", "7.2.2", "figure 7-2, PBH=0, PBV=1: PIXBLT L,XY, XY,L, XY,XY",
        "from left to right, from bottom to top", WORKED },
      BH_PIXBLT_L_XY, BH_PIXBLT_XY_XY, PBV, PBV, 4, { 0, 0x10, 0x11, 0x12, 0x00, 0x01, 0x02 } },
    { { "002", "7.2.2", "figure 7-2, PBH=1, PBV=1: PIXBLT L,XY, XY,L, XY,XY",
        "from right to left, from bottom to top", WORKED },
      BH_PIXBLT_L_XY, BH_PIXBLT_XY_XY, LOWER_RIGHT, LOWER_RIGHT, 4,
      { 0, 0x12, 0x11, 0x10, 0x02, 0x01, 0x00 } },
    { { "002", "7.2.2", "figure 7-2, PBH=0, PBV=0: PIXBLT L,L",
        "allows any of the four corners", WORKED },
      BH_PIXBLT_L_L, BH_PIXBLT_L_L, 0, 0, 4, { 0, 0x00, 0x01, 0x02, 0x10, 0x11, 0x12 } },
    { { "002", "7.2.2", "figure 7-2, PBH=1, PBV=0: PIXBLT L,L",
        "the programmer must adjust the addresses in SADDR and DADDR", WORKED },
      BH_PIXBLT_L_L, BH_PIXBLT_L_L, PBH, PBH, 4, { 0, 0x02, 0x01, 0x00, 0x12, 0x11, 0x10 } },
    { { "002", "7.2.2", "figure 7-2, PBH=0, PBV=1: PIXBLT L,L",
        "the programmer must adjust the addresses in SADDR and DADDR", WORKED },
      BH_PIXBLT_L_L, BH_PIXBLT_L_L, PBV, PBV, 4, { 0, 0x10, 0x11, 0x12, 0x00, 0x01, 0x02 } },
    { { "002", "7.2.2", "figure 7-2, PBH=1, PBV=1: PIXBLT L,L",
        "the programmer must adjust the addresses in SADDR and DADDR", WORKED },
      BH_PIXBLT_L_L, BH_PIXBLT_L_L, LOWER_RIGHT, LOWER_RIGHT, 4,
      { 0, 0x12, 0x11, 0x10, 0x02, 0x01, 0x00 } },
    { { "000", "13.4.2", "PBH=0, PBV=0: words and rows of the four PIXBLTs",
        "words in the order of increasing addresses, rows too", WORKED },
      BH_PIXBLT_L_L, BH_PIXBLT_XY_XY, 0, 0, 16, { 0, 0x00, 0x01, 0x02, 0x10, 0x11, 0x12 } },
    { { "000", "13.4.2", "PBH=1, PBV=0: words and rows of the four PIXBLTs",
        "words in the order of decreasing addresses, rows of increasing", WORKED },
      BH_PIXBLT_L_L, BH_PIXBLT_XY_XY, PBH, PBH, 16, { 0, 0x02, 0x01, 0x00, 0x12, 0x11, 0x10 } },
    { { "000", "13.4.2", "PBH=0, PBV=1: words and rows of the four PIXBLTs",
        "words in the order of increasing addresses, rows of decreasing", WORKED },
      BH_PIXBLT_L_L, BH_PIXBLT_XY_XY, PBV, PBV, 16, { 0, 0x10, 0x11, 0x12, 0x00, 0x01, 0x02 } },
    { { "000", "13.4.2", "PBH=1, PBV=1: words and rows of the four PIXBLTs",
        "words in the order of decreasing addresses, rows too", WORKED },
      BH_PIXBLT_L_L, BH_PIXBLT_XY_XY, LOWER_RIGHT, LOWER_RIGHT, 16,
      { 0, 0x12, 0x11, 0x10, 0x02, 0x01, 0x00 } },
    { { "000", "13.3.2", "FILL L and XY, any PBH and PBV", "increasing X and increasing Y",
        WORKED },
      BH_FILL_L, BH_FILL_XY, 0, LOWER_RIGHT, 4, { 0, 0x00, 0x01, 0x02, 0x10, 0x11, 0x12 } },
    { { "000", "13.5.2", "PIXBLT B,L and B,XY, any PBH and PBV",
        "Setting the PBH and PBV bits has no effect", WORKED },
      BH_PIXBLT_B_L, BH_PIXBLT_B_XY, 0, LOWER_RIGHT, 4,
      { 0, 0x00, 0x01, 0x02, 0x10, 0x11, 0x12 } },
};

/* The pixels of a source array have a value each; the bits of a B source are 1s. */
static uint32_t value_of(uint32_t operation, uint32_t pixel, uint32_t psize)
{
    return has_pixel_source(operation) ? pixel + 1 : (1u << psize) - 1;
}

static void put_source(uint32_t operation, const struct array *from)
{
    for (uint32_t i = 0; i < PIXELS; i++) {
        uint32_t column = i % COLUMNS, row = i / COLUMNS;
        if (has_pixel_source(operation))
            put_pixel(memory, address_of(from, column, row), from->psize,
                      value_of(operation, i, from->psize));
        else
            put_pixel(memory, address_of(from, 0, row) + column, 1, 1);
    }
}

/* The pixel that has its source's value, or NOT_PRINTED. The array is 0 again. */
static uint64_t take_drawn(uint32_t operation, const struct array *to)
{
    uint64_t drawn = NOT_PRINTED;
    for (uint32_t i = 0; i < PIXELS; i++) {
        uint32_t address = address_of(to, i % COLUMNS, i / COLUMNS);
        if (pixel_at(memory, address, to->psize) == value_of(operation, i, to->psize))
            drawn = i / COLUMNS * 0x10 + i % COLUMNS;
        put_pixel(memory, address, to->psize, 0);
    }
    return drawn;
}

/* The rows of the source and those of the destination have pitches of their own. */
static void walk(uint32_t operation, uint32_t bits, uint32_t psize, uint64_t got[1 + PIXELS])
{
    const struct array from = { 2, 64, 0x400, psize }, to = { 5, 3, 0x800, psize };
    const struct settings s = settings_of(operation, bits, XY(COLUMNS, ROWS), &from, &to);
    clear_memory();
    put_source(operation, &from);
    for (uint32_t k = 0; k < PIXELS; k++) {
        got[0] = draw_slice(operation, &s, k, 0, 1).answer;
        got[1 + k] = take_drawn(operation, &to);
    }
}

/* The numbers of the first drawing that isn't as awaited, or else of the last. */
static void walk_all(const struct walk_row *row, uint64_t got[1 + PIXELS])
{
    for (uint32_t operation = row->first; operation <= row->last; operation++) {
        for (uint32_t bits = row->least; bits <= row->most; bits += PBH) {
            walk(operation, bits, row->psize, got);
            if (!agree(1 + PIXELS, row->printed, got))
                return;
        }
    }
}

static void run_walk_rows(void)
{
    for (size_t i = 0; i < COUNT_OF(walk_rows); i++) {
        uint64_t got[1 + PIXELS] = { 0 };
        walk_all(&walk_rows[i], got);
        settle(&walk_rows[i].figure, "answer, pixels in order", 1 + PIXELS, walk_rows[i].printed,
               NULL, got);
    }
}

/* ---- Where the first and the last pixel lie ---- */

/* A call draws one pixel over zeros, by XNOR. Numbers: the last answer, the address of the first
   pixel and that of the last. */
#define PIXBLT_L_L                                                                                 \
    .SADDR = 0x00080000, .SPTCH = 0x400, .DADDR = 0x00010AFC, .DPTCH = 0x800, .DYDX = XY(3, 2),    \
    .PSIZE = 4

static const struct end_row {
    struct figure figure;
    uint32_t operation;
    struct settings settings;
    uint64_t printed[3], scope[3];
} end_rows[] = {
    { { "000", "13.4.1", "array of example 13-6, PBH=0, PBV=0", "No corner adjust", WORKED },
      BH_PIXBLT_XY_L, { PIXBLT_XY_L, .CONTROL = CONTROL_OF(XNOR, 0, 0) },
      { 0, 0x30E8, 0x30E8 + 14 * 0x800 + 53 * 4 }, { 0 } },
    { { "000", "13.4.1", "array of example 13-6, PBH=1, PBV=0", "Adjust to upper right corner",
        WORKED },
      BH_PIXBLT_XY_L, { PIXBLT_XY_L, .CONTROL = CONTROL_OF(XNOR, 0, 0) | PBH },
      { 0, 0x30E8 + 53 * 4, 0x30E8 + 14 * 0x800 }, { 0 } },
    { { "000", "13.4.1", "array of example 13-6, PBH=0, PBV=1", "Adjust to lower left corner",
        WORKED },
      BH_PIXBLT_XY_L, { PIXBLT_XY_L, .CONTROL = CONTROL_OF(XNOR, 0, 0) | PBV },
      { 0, 0x30E8 + 14 * 0x800, 0x30E8 + 53 * 4 }, { 0 } },
    { { "000", "13.4.1", "array of example 13-6, PBH=1, PBV=1", "Adjust to lower right corner",
        WORKED },
      BH_PIXBLT_XY_L, { PIXBLT_XY_L, .CONTROL = CONTROL_OF(XNOR, 0, 0) | LOWER_RIGHT },
      { 0, 0x30E8 + 14 * 0x800 + 53 * 4, 0x30E8 }, { 0 } },
    { { "000", "13.4.1", "PIXBLT L,L to >00010AFC, 3 by 2 pixels, PBH=1, PBV=1",
        "only the direction of the move; the GSP does not adjust the starting corner", WORKED },
      BH_PIXBLT_L_L, { PIXBLT_L_L, .CONTROL = CONTROL_OF(XNOR, 0, 0) | LOWER_RIGHT },
      { 0, 0x10AFC, 0x10AFC - 0x800 - 2 * 4 }, { 0 } },
    { { "004", "5.1.4", "DADDR >00010AFC of PIXBLT L,L, 3 by 2 pixels, PBH=1, PBV=0",
        "you must manually adjust DADDR to point to the starting corner", WORKED },
      BH_PIXBLT_L_L, { PIXBLT_L_L, .CONTROL = CONTROL_OF(XNOR, 0, 0) | PBH },
      { 0, 0x10AFC, 0x10AFC + 0x800 - 2 * 4 }, { 0 } },
    { { "004", "5.1.4", "DADDR >00010AFC of PIXBLT L,L, 3 by 2 pixels, PBH=0, PBV=1",
        "you must manually adjust DADDR to point to the starting corner", WORKED },
      BH_PIXBLT_L_L, { PIXBLT_L_L, .CONTROL = CONTROL_OF(XNOR, 0, 0) | PBV },
      { 0, 0x10AFC, 0x10AFC - 0x800 + 2 * 4 }, { 0 } },
    { { "004", "5.1.4", "table 5-1, DADDR >00010AFC of PIXBLT L,L, 3 by 2 pixels, PBH=1, PBV=1",
        "upper left corner .. (lowest pixel address in the array)", "1.18" },
      BH_PIXBLT_L_L, { PIXBLT_L_L, .CONTROL = CONTROL_OF(XNOR, 0, 0) | LOWER_RIGHT },
      { 0, 0x10AFC + 0x800 + 2 * 4, 0x10AFC }, { 0, 0x10AFC, 0x10AFC - 0x800 - 2 * 4 } },
    { { "003", "4.4", "linear array at >00010AFC, PIXBLT L,L, 3 by 2 pixels, PBH=1, PBV=1",
        "the pixel that has the lowest bit address", "1.18" },
      BH_PIXBLT_L_L, { PIXBLT_L_L, .CONTROL = CONTROL_OF(XNOR, 0, 0) | LOWER_RIGHT },
      { 0, 0x10AFC + 0x800 + 2 * 4, 0x10AFC }, { 0, 0x10AFC, 0x10AFC - 0x800 - 2 * 4 } },
    { { "002", "7.10.3", "PIXBLT L,XY of 000 section 13.3.3's array, W=3, PBH=0, PBV=0",
        "preclipped .. before the first pixel is transferred", WORKED },
      BH_PIXBLT_L_XY, { FILL_XY, .SPTCH = 0x100, .CONTROL = CONTROL_OF(XNOR, 3, 0) },
      { 0, 73 * 0x800 + 235 * 4, 87 * 0x800 + 287 * 4 }, { 0 } },
    { { "002", "7.10.3", "PIXBLT L,XY of 000 section 13.3.3's array, W=3, PBH=1, PBV=0",
        "preclipped .. before the first pixel is transferred", WORKED },
      BH_PIXBLT_L_XY, { FILL_XY, .SPTCH = 0x100, .CONTROL = CONTROL_OF(XNOR, 3, 0) | PBH },
      { 0, 73 * 0x800 + 287 * 4, 87 * 0x800 + 235 * 4 }, { 0 } },
    { { "002", "7.10.3", "PIXBLT L,XY of 000 section 13.3.3's array, W=3, PBH=0, PBV=1",
        "preclipped .. before the first pixel is transferred", WORKED },
      BH_PIXBLT_L_XY, { FILL_XY, .SPTCH = 0x100, .CONTROL = CONTROL_OF(XNOR, 3, 0) | PBV },
      { 0, 87 * 0x800 + 235 * 4, 73 * 0x800 + 287 * 4 }, { 0 } },
    { { "002", "7.10.3", "PIXBLT L,XY of 000 section 13.3.3's array, W=3, PBH=1, PBV=1",
        "preclipped .. before the first pixel is transferred", WORKED },
      BH_PIXBLT_L_XY, { FILL_XY, .SPTCH = 0x100, .CONTROL = CONTROL_OF(XNOR, 3, 0) | LOWER_RIGHT },
      { 0, 87 * 0x800 + 287 * 4, 73 * 0x800 + 235 * 4 }, { 0 } },
};

static uint64_t pixel_drawn_at(const struct end_row *row, uint64_t place, uint64_t *answer)
{
    clear_memory();
    *answer = draw_slice(row->operation, &row->settings, place, 0, 1).answer;
    return lowest_drawn(row->settings.PSIZE);
}

static void run_end_rows(void)
{
    for (size_t i = 0; i < COUNT_OF(end_rows); i++) {
        const struct end_row *row = &end_rows[i];
        uint64_t pixels = draw(row->operation, &row->settings, 0).visited;
        uint64_t got[3];
        got[1] = pixel_drawn_at(row, 0, &got[0]);
        got[2] = pixel_drawn_at(row, pixels - 1, &got[0]);
        settle(&row->figure, "answer, first pixel, last pixel", 3, row->printed, row->scope, got);
    }
}

/* ---- The block that is moved ---- */

/* "This assures that the same pixel block is moved": 54 by 15 pixels, as in example 13-6, over an
   image. Numbers: pixels like their source in the four drawings of each of the three PIXBLTs, and
   memories that are left as from the upper left corner. */
static void run_same_block(void)
{
    const struct figure figure = { "000", "13.4.1", "PIXBLT L,XY, XY,L, XY,XY from each corner",
                                   "the same pixel block is moved", WORKED };
    const struct array from = { 230, 58, 0x800, 4 }, to = { 58, 6, 0x800, 4 };
    const uint64_t printed[2] = { 3 * 4 * 810, 3 * 3 };
    static uint16_t left[MEMORY_WORDS];
    uint64_t got[2] = { 0, 0 };
    for (uint32_t operation = BH_PIXBLT_L_XY; operation <= BH_PIXBLT_XY_XY; operation++) {
        for (uint32_t bits = 0; bits <= LOWER_RIGHT; bits += PBH) {
            const struct settings s = settings_of(operation, bits, XY(54, 15), &from, &to);
            bh_fill_image(memory, MEMORY_WORDS, 1);
            draw(operation, &s, 0);
            for (uint32_t i = 0; i < 810; i++) {
                uint32_t source = address_of(&from, i % 54, i / 54);
                uint32_t destination = address_of(&to, i % 54, i / 54);
                got[0] += pixel_at(memory, destination, 4) == pixel_at(memory, source, 4);
            }
            if (bits == 0)
                memcpy(left, memory, sizeof memory);
            else
                got[1] += memcmp(left, memory, sizeof memory) == 0;
        }
    }
    settle(&figure, "pixels like their source, memories alike", 2, printed, NULL, got);
}

/* ---- Arrays that overlap ---- */

enum { WIDE = 5, HIGH = 4, MOVED = WIDE * HIGH };

/* The pixels that are as their source was after a move of an array over itself, by a column and a
   row at most. The corner is the one towards which it is moved. */
static uint64_t moved_whole(uint32_t operation, int right, int down)
{
    const struct array from = { 20, 20, 0x800, 4 };
    const struct array to = { 20 + (uint32_t)right, 20 + (uint32_t)down, 0x800, 4 };
    uint32_t bits = (right > 0 ? PBH : 0) | (down > 0 ? PBV : 0);
    const struct settings s = settings_of(operation, bits, XY(WIDE, HIGH), &from, &to);
    uint32_t old[MOVED];
    uint64_t pixels = 0;
    for (uint32_t i = 0; i < MOVED; i++) {
        old[i] = (i * 7 + 3) % 16;
        put_pixel(memory, address_of(&from, i % WIDE, i / WIDE), 4, old[i]);
    }
    draw(operation, &s, 0);
    for (uint32_t i = 0; i < MOVED; i++)
        pixels += pixel_at(memory, address_of(&to, i % WIDE, i / WIDE), 4) == old[i];
    return pixels;
}

/* Each of the four PIXBLTs, in eight directions. */
static void run_overlaps(void)
{
    static const struct figure figures[2] = {
        { "002", "7.2.2", "source and destination arrays that overlap",
          "not overwrite the pixels in the source array before they are written", WORKED },
        { "003", "4.4", "source and destination arrays that overlap",
          "the appropriate starting corner .. to ensure that no data is lost", WORKED },
    };
    const uint64_t printed = 4 * 8 * MOVED;
    uint64_t got = 0;
    for (uint32_t operation = BH_PIXBLT_L_L; operation <= BH_PIXBLT_XY_XY; operation++) {
        for (int k = 0; k < 9; k++) {
            if (k != 4)
                got += moved_whole(operation, k % 3 - 1, k / 3 - 1);
        }
    }
    for (size_t i = 0; i < COUNT_OF(figures); i++)
        settle(&figures[i], "pixels", 1, &printed, NULL, &got);
}

void corner_figures(void)
{
    run_walk_rows();
    run_end_rows();
    run_same_block();
    run_overlaps();
}

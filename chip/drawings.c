/* Drawings: the worked examples of 000 sections 13.3 to 13.5, the registers at the end (004 section
   5.1.4), a preclipped source and DRAV (002 sections 7.10.3 and 7.4). */
#include "figures.h"

/* ---- The arrays of the timing examples ---- */

/* Numbers: answer, pixels, rows (L), pixels in a row (M), words in a row (N), and whether the
   leading and the trailing edge are word aligned (alignment C is 0 1, alignment D is 0 0). */
enum { ARRAY_NUMBERS = 7 };

static const char array_what[] = "answer, pixels, L, M, N, leading, trailing edge aligned";

static const struct array_row {
    struct figure figure;
    uint32_t operation;
    struct settings settings;
    uint64_t printed[ARRAY_NUMBERS];
} array_rows[] = {
    { { "000", "13.3.3", "example 13-1, FILL XY, replace", "795 pixels, L=15, M=53, N=14, C",
        SAME },
      BH_FILL_XY, { FILL_XY, .CONTROL = CONTROL_OF(0, 3, 0), .COLOR1 = 0xFFFF },
      { 0, 795, 15, 53, 14, 0, 1 } },
    { { "000", "13.3.3", "example 13-2, FILL XY, MAX", "795 pixels, L=15, M=53, N=14, C", SAME },
      BH_FILL_XY, { FILL_XY, .CONTROL = CONTROL_OF(20, 3, 0), .COLOR1 = 0xFFFF },
      { 0, 795, 15, 53, 14, 0, 1 } },
    { { "000", "13.3.3", "example 13-3, FILL XY, XNOR, T=1, plane masking",
        "795 pixels, L=15, M=53, N=14, C", SAME },
      BH_FILL_XY, { FILL_XY, .CONTROL = CONTROL_OF(5, 3, 1), .COLOR1 = 0, .PMASK = 0x1111 },
      { 0, 795, 15, 53, 14, 0, 1 } },
    { { "000", "13.3.2", "example 13-1 with PBH=1, PBV=1",
        "Transfer direction does not apply to FILLs", SAME },
      BH_FILL_XY, { FILL_XY, .CONTROL = CONTROL_OF(0, 3, 0) | LOWER_RIGHT, .COLOR1 = 0xFFFF },
      { 0, 795, 15, 53, 14, 0, 1 } },
    { { "000", "13.4.3", "example 13-6, PIXBLT XY,L, XNOR, T=1, plane masking, PBH=1, PBV=1",
        "810 pixels, L=15, 54 pixels, N=14, C", SAME },
      BH_PIXBLT_XY_L,
      { PIXBLT_XY_L, .CONTROL = CONTROL_OF(5, 0, 1) | LOWER_RIGHT, .PMASK = 0x1111 },
      { 0, 810, 15, 54, 14, 0, 1 } },
    { { "000", "13.5.3", "example 13-7, PIXBLT B,XY, replace, PBH=1, PBV=1 (ignored)",
        "100 pixels, L=10, 10 wide, N=6, D", SAME },
      BH_PIXBLT_B_XY,
      { PIXBLT_B_XY, .CONTROL = CONTROL_OF(0, 0, 0) | LOWER_RIGHT, .COLOR0 = 0xFFFF,
        .COLOR1 = 0xFFFF },
      { 0, 100, 10, 10, 6, 0, 0 } },
    { { "000", "13.5.3", "example 13-8, PIXBLT B,XY, MAX, PBH=1, PBV=1 (ignored)",
        "100 pixels, L=10, 10 wide, N=6, D", SAME },
      BH_PIXBLT_B_XY,
      { PIXBLT_B_XY, .CONTROL = CONTROL_OF(20, 0, 0) | LOWER_RIGHT, .COLOR0 = 0xFFFF,
        .COLOR1 = 0xFFFF },
      { 0, 100, 10, 10, 6, 0, 0 } },
    { { "000", "13.5.3",
        "example 13-9, PIXBLT B,XY, XNOR, T=1, plane masking, PBH=1, PBV=1 (ignored)",
        "100 pixels, L=10, 10 wide, N=6, D", SAME },
      BH_PIXBLT_B_XY,
      { PIXBLT_B_XY, .CONTROL = CONTROL_OF(5, 0, 1) | LOWER_RIGHT, .PMASK = 0x1111 },
      { 0, 100, 10, 10, 6, 0, 0 } },
    { { "004", "5.1.4", "DX = 65,535 at one bit", "may range up to 65,535", SAME },
      BH_FILL_L, { .DPTCH = 0, .DYDX = XY(65535, 1), .PSIZE = 1, .COLOR1 = 0xFFFF },
      { 0, 65535, 1, 65535, 4096, 1, 0 } },
};

/* The pixels from an address on, one after the other, that aren't 0. */
static uint64_t drawn_from(uint64_t start, uint32_t psize)
{
    uint64_t pixels = 0;
    for (uint64_t a = start; a < 16 * (uint64_t)MEMORY_WORDS; a += psize) {
        if (pixel_at(memory, (uint32_t)a, psize) == 0)
            break;
        pixels++;
    }
    return pixels;
}

/* The pixels of the whole memory that aren't 0. */
static uint64_t all_drawn(uint32_t psize)
{
    uint64_t pixels = 0;
    for (uint64_t a = 0; a < 16 * (uint64_t)MEMORY_WORDS; a += psize)
        pixels += pixel_at(memory, (uint32_t)a, psize) != 0;
    return pixels;
}

/* The words of the row that starts here and ends with its last pixel that aren't 0. */
static uint64_t words_drawn(uint64_t start, uint64_t bits)
{
    uint64_t words = 0;
    for (uint64_t i = start / 16; i <= (start + bits - 1) / 16; i++)
        words += memory[i] != 0;
    return words;
}

/* Reads the numbers of the array off the memory: it is drawn over zeros, and its rows are `pitch`
   apart. A row that isn't like the first one leaves fewer pixels in rows than were drawn. */
static void survey(const struct settings *s, uint64_t got[ARRAY_NUMBERS])
{
    uint64_t start = lowest_drawn(s->PSIZE), rows = 0;
    if (start == NOT_PRINTED)
        return;
    uint64_t width = drawn_from(start, s->PSIZE);
    while (drawn_from(start + rows * s->DPTCH, s->PSIZE) == width) {
        rows++;
        if (s->DPTCH == 0)
            break;
    }
    if (rows * width != all_drawn(s->PSIZE))
        return;
    got[2] = rows;
    got[3] = width;
    got[4] = words_drawn(start, width * s->PSIZE);
    got[5] = start % 16 == 0;
    got[6] = (start + width * s->PSIZE) % 16 == 0;
}

static void run_array_rows(void)
{
    for (size_t i = 0; i < COUNT_OF(array_rows); i++) {
        const struct array_row *row = &array_rows[i];
        uint64_t got[ARRAY_NUMBERS] = { 0 };
        clear_memory();
        struct drawing r = draw(row->operation, &row->settings, 0);
        got[0] = r.answer;
        got[1] = r.visited;
        survey(&row->settings, got);
        settle(&row->figure, array_what, ARRAY_NUMBERS, row->printed, NULL, got);
    }
}

/* ---- DYDX ---- */

static const struct dimensions {
    struct figure figure;
    uint32_t dydx;
    uint64_t printed[2];
} dimensions[] = {
    { { "000", "13.3.3", "DYDX >0014003C", "DX=60, DY=20", SAME }, 0x0014003C, { 60, 20 } },
    { { "000", "13.4.3", "DYDX 000F0036", "DY=15, DX=54", SAME }, 0x000F0036, { 54, 15 } },
    { { "000", "13.5.3", "DYDX >000A000A", "DX=10, DY=10", SAME }, 0x000A000A, { 10, 10 } },
};

static void run_dimensions(void)
{
    for (size_t i = 0; i < COUNT_OF(dimensions); i++) {
        const struct settings s = { .DPTCH = 0x800, .DYDX = dimensions[i].dydx, .COLOR1 = 0xFFFF,
                                    .PSIZE = 4 };
        uint64_t numbers[ARRAY_NUMBERS] = { 0 };
        clear_memory();
        draw(BH_FILL_L, &s, 0);
        survey(&s, numbers);
        uint64_t got[2] = { numbers[3], numbers[2] };
        settle(&dimensions[i].figure, "DX, DY", 2, dimensions[i].printed, NULL, got);
    }
}

/* ---- SPTCH of a font ---- */

/* "SPTCH = >00AD0 (X extent = 2768 pixels)": the bits from one source row to the next. */
static void run_font_pitch(void)
{
    const struct figure figure = { "000", "13.5.3", "SPTCH >00AD0", "X extent = 2768 pixels",
                                   SAME };
    const struct settings s = { PIXBLT_B_XY };
    const uint64_t printed = 2768;
    struct drawing r = draw(BH_PIXBLT_B_XY, &s, 0);
    uint64_t got = (r.saddr - s.SADDR) / 10;
    settle(&figure, "bits", 1, &printed, NULL, &got);
}

/* ---- The registers at the end: 004 section 5.1.4 ---- */

/* "the linear starting address of the row following the last row": worked from the operands. A row
   starts in the starting corner's column, and with PBV=1 the row after the last one lies above. */
static const struct registers {
    struct figure figure;
    uint32_t operation;
    struct settings settings;
    uint64_t budget;
    uint64_t printed[2], scope[2];
} registers[] = {
    { { "004", "5.1.4", "SADDR and DADDR after example 13-6, PBH=0, PBV=0",
        "row following the last row", WORKED },
      BH_PIXBLT_XY_L, { PIXBLT_XY_L }, UINT64_MAX,
      { 0x40000 + (58 + 15) * 0x800 + 230 * 4, 0x30E8 + 15 * 0x800 }, { 0 } },
    { { "004", "5.1.4", "SADDR and DADDR after example 13-6, PBH=1, PBV=0",
        "row following the last row", WORKED },
      BH_PIXBLT_XY_L, { PIXBLT_XY_L, .CONTROL = PBH }, UINT64_MAX,
      { 0x40000 + (58 + 15) * 0x800 + (230 + 53) * 4, 0x30E8 + 15 * 0x800 + 53 * 4 }, { 0 } },
    { { "004", "5.1.4", "SADDR and DADDR after example 13-6, PBH=0, PBV=1",
        "row following the last row", WORKED },
      BH_PIXBLT_XY_L, { PIXBLT_XY_L, .CONTROL = PBV }, UINT64_MAX,
      { 0x40000 + (58 - 1) * 0x800 + 230 * 4, 0x30E8 - 0x800 }, { 0 } },
    { { "004", "5.1.4", "SADDR and DADDR after example 13-6, PBH=1, PBV=1",
        "row following the last row", WORKED },
      BH_PIXBLT_XY_L, { PIXBLT_XY_L, .CONTROL = LOWER_RIGHT }, UINT64_MAX,
      { 0x40000 + (58 - 1) * 0x800 + (230 + 53) * 4, 0x30E8 - 0x800 + 53 * 4 }, { 0 } },
    { { "004", "5.1.4", "SADDR and DADDR after PIXBLT L,L of 15 rows, PBH=1, PBV=1",
        "row following the last row", WORKED },
      BH_PIXBLT_L_L,
      { .SADDR = 0x90000, .SPTCH = 0x400, .DADDR = 0x10AFC, .DPTCH = 0x800, .DYDX = 0x000F0036,
        .PSIZE = 4, .CONTROL = LOWER_RIGHT }, UINT64_MAX,
      { 0x90000 - 15 * 0x400, 0x10AFC - 15 * 0x800 }, { 0 } },
    { { "004", "5.1.4", "SADDR and DADDR after example 13-7, PBH=1, PBV=1 (ignored)",
        "row following the last row", WORKED },
      BH_PIXBLT_B_XY, { PIXBLT_B_XY, .CONTROL = LOWER_RIGHT }, UINT64_MAX,
      { 0x3E2E8 + 10 * 0xAD0, 0x40000 + (50 + 10) * 0x800 + 267 * 8 }, { 0 } },
    { { "002", "7.2.2", "SADDR and DADDR in the course of example 13-6, before its first pixel",
        "automatically adjusted to the address of the corner", "1.19" },
      BH_PIXBLT_XY_L, { PIXBLT_XY_L, .CONTROL = LOWER_RIGHT }, 0,
      { 0x40000 + (58 + 14) * 0x800 + (230 + 53) * 4, 0x30E8 + 14 * 0x800 + 53 * 4 },
      { 0x003A00E6, 0x30E8 } },
    { { "004", "5.1.4", "SADDR and DADDR of PIXBLT L,L, interrupted after two words of four",
        "points to the next word of pixels", "1.19" },
      BH_PIXBLT_L_L, { .SADDR = 0x1000, .DYDX = XY(4, 1), .PSIZE = 16 }, 2,
      { 0x1020, 0x20 }, { 0x1000, 0 } },
};

static void run_registers(void)
{
    for (size_t i = 0; i < COUNT_OF(registers); i++) {
        const struct registers *row = &registers[i];
        struct drawing r = draw_slice(row->operation, &row->settings, 0, 0, row->budget);
        uint64_t got[2] = { r.saddr, r.daddr };
        settle(&row->figure, "SADDR, DADDR", 2, row->printed, row->scope, got);
    }
}

/* ---- 002 section 7.10.3: the source is preclipped ---- */

/* The array of 000 section 13.3.3 from a linear source: 7 columns and 5 rows are clipped away. The
   numbers are those of the first corner that isn't as awaited, or else of the last. */
static void run_preclipped(void)
{
    const struct figure figure = { "002", "7.10.3", "source of 000 section 13.3.3's array, W=3",
                                   "the source array is preclipped", WORKED };
    struct settings s = { FILL_XY, .SADDR = 0x80000, .SPTCH = 0x100 };
    const uint64_t printed[2] = { 795, 795 };
    uint64_t got[2] = { 795, 795 };
    for (uint32_t bits = 0; bits <= LOWER_RIGHT && agree(2, printed, got); bits += PBH) {
        s.CONTROL = CONTROL_OF(REPLACE, 3, 0) | bits;
        bh_fill_image(memory, MEMORY_WORDS, 1);
        got[0] = draw(BH_PIXBLT_L_XY, &s, 0).visited;
        got[1] = 0;
        for (uint32_t row = 5; row < 20; row++) {
            for (uint32_t column = 7; column < 60; column++) {
                uint32_t source = pixel_at(memory, 0x80000 + row * 0x100 + column * 4, 4);
                uint32_t left = pixel_at(memory, (68 + row) * 0x800 + (228 + column) * 4, 4);
                got[1] += left == source;
            }
        }
    }
    settle(&figure, "pixels, pixels like their source", 2, printed, NULL, got);
}

/* ---- 002 section 7.4: DRAV ---- */

/* "one of the eight pixels immediately surrounding the pixel just plotted": X and Y are advanced
   independently, from points where either half would carry. */
static void run_drav_steps(void)
{
    const struct figure figure = { "002", "7.4", "DRAV to the eight pixels around",
                                   "incremented independently, but in parallel", WORKED };
    const struct settings s = { .DPTCH = 0x800, .PSIZE = 4 };
    static const uint32_t points[] = { XY(5, 7), XY(0, 0), XY(0, 9), XY(9, 0) };
    const uint64_t printed = 8 * COUNT_OF(points);
    uint64_t got = 0;
    for (size_t i = 0; i < COUNT_OF(points); i++) {
        uint32_t x = points[i] & 0xFFFF, y = points[i] >> 16;
        for (uint32_t k = 0; k < 9; k++) {
            uint32_t dx = k % 3 - 1, dy = k / 3 - 1;
            struct lone r = drav(&s, XY(dx, dy), points[i], 0);
            got += k != 4 && r.answer == 0 && r.value == XY(x + dx, y + dy);
        }
    }
    settle(&figure, "points", 1, &printed, NULL, &got);
}

void drawing_figures(void)
{
    run_array_rows();
    run_dimensions();
    run_font_pitch();
    run_registers();
    run_preclipped();
    run_drav_steps();
}

/* Pixel sizes, XY addresses and pitches: 003 sections 4.2 to 4.4, 004 section 5.1.4. */
#include "figures.h"

/* ---- Pixel sizes and pixel addresses ---- */

/* "A pixel can be 1, 2, 4, 8, or 16 bits long." Every size up to 65535 is tried. */
static void run_pixel_sizes(void)
{
    static const struct figure figures[2] = {
        { "002", "7.3", "pixel sizes", "restricted to 1, 2, 4, 8, or 16 bits", SAME },
        { "003", "4.2.1", "pixel sizes", "can be 1, 2, 4, 8, or 16 bits long", SAME },
    };
    static const uint64_t printed[6] = { 1, 2, 4, 8, 16, 65536 - 5 };
    uint64_t got[6] = { 0, 0, 0, 0, 0, 0 };
    size_t taken = 0;
    for (uint32_t psize = 0; psize < 65536; psize++) {
        const struct settings s = { .PSIZE = psize };
        uint32_t answer = pixt_from(false, &s, 0).answer;
        got[5] += answer == BH_BAD_PIXEL_SIZE;
        if (answer == 0 && taken < 5)
            got[taken++] = psize;
    }
    for (size_t i = 0; i < 2; i++)
        settle(&figures[i], "sizes taken, sizes refused", 6, printed, NULL, got);
}

static const struct other_size {
    struct figure figure;
} other_sizes[] = {
    { { "002", "7.9.1.2", "12 bits per pixel", "at 12 bits per pixel", "1.7" } },
    { { "002", "7.9.2.3", "each pixel as 12 bits", "represents each pixel as 12 bits", "1.7" } },
};

static void run_other_sizes(void)
{
    const uint64_t printed = 0, scope = BH_BAD_PIXEL_SIZE;
    for (size_t i = 0; i < COUNT_OF(other_sizes); i++) {
        const struct settings s = { .PSIZE = 12 };
        uint64_t got = pixt_from(false, &s, 0).answer;
        settle(&other_sizes[i].figure, "answer", 1, &printed, &scope, &got);
    }
}

/* "a 2-bit pixel should begin at an even bit address whose LSB is 0, a 4-bit pixel should begin at
   a bit address whose two LSBs are 0s, and so forth" */
static const struct pixel_start {
    struct figure figure;
    uint32_t psize;
    uint32_t zeros;
} pixel_starts[] = {
    { { "003", "4.2.1", "start of a pixel of 2 bits", "LSB is 0", SAME }, 2, 1 },
    { { "003", "4.2.1", "start of a pixel of 4 bits", "two LSBs are 0s", SAME }, 4, 2 },
    { { "003", "4.2.1", "start of a pixel of 8 bits", "and so forth", SAME }, 8, 3 },
    { { "003", "4.2.1", "start of a pixel of 16 bits", "and so forth", SAME }, 16, 4 },
};

/* Bit a of a number is 1 where a pixel may begin at address a. */
static void run_pixel_starts(void)
{
    for (size_t i = 0; i < COUNT_OF(pixel_starts); i++) {
        const struct settings s = { .PSIZE = pixel_starts[i].psize };
        uint64_t printed = 0, got = 0;
        for (uint32_t a = 0; a < 32; a++) {
            uint32_t answer = pixt_from(false, &s, a).answer;
            printed |= (uint64_t)(a % (1u << pixel_starts[i].zeros) == 0) << a;
            got |= (uint64_t)(answer == 0) << a;
            got |= (uint64_t)(answer != 0 && answer != BH_BAD_START) << 32;
        }
        settle(&pixel_starts[i].figure, "starts", 1, &printed, NULL, &got);
    }
}

/* ---- Where an XY address lies ---- */

/* Where FILL XY and PIXBLT XY,L of one pixel begin, by the registers that they leave. */
static uint64_t start_by_fill(const struct settings *settings, uint32_t xy)
{
    struct settings s = *settings;
    s.DADDR = xy;
    s.DYDX = XY(1, 1);
    struct drawing r = draw(BH_FILL_XY, &s, 0);
    return r.answer == 0 ? (uint32_t)(r.daddr - s.DPTCH) : NOT_PRINTED;
}

static uint64_t start_by_pixblt(const struct settings *settings, uint32_t xy)
{
    struct settings s = *settings;
    s.SADDR = xy;
    s.SPTCH = s.DPTCH;
    s.DYDX = XY(1, 1);
    struct drawing r = draw(BH_PIXBLT_XY_L, &s, 0);
    return r.answer == 0 ? (uint32_t)(r.saddr - s.SPTCH) : NOT_PRINTED;
}

/* True where PIXT in both directions and DRAV find the pixel at this linear address. */
static bool pixel_lies_at(const struct settings *settings, uint32_t xy, uint32_t address)
{
    struct settings s = *settings;
    uint32_t top = (1u << s.PSIZE) - 1;
    s.COLOR1 = 0xFFFF;
    put_pixel(memory, address, s.PSIZE, 0);
    bool found = pixt_to(true, &s, top, xy, 0).answer == 0
                 && pixel_at(memory, address, s.PSIZE) == top;
    found = found && pixt_from(true, &s, xy).value == top;
    put_pixel(memory, address, s.PSIZE, 0);
    found = found && pixt_from(true, &s, xy).value == 0;
    found = found && drav(&s, 0, xy, 0).answer == 0 && pixel_at(memory, address, s.PSIZE) == top;
    put_pixel(memory, address, s.PSIZE, 0);
    return found;
}

/* The linear address on which all five calls agree, or NOT_PRINTED. */
static uint64_t start_of(const struct settings *settings, uint32_t xy)
{
    uint64_t start = start_by_fill(settings, xy);
    if (start == NOT_PRINTED || start_by_pixblt(settings, xy) != start)
        return NOT_PRINTED;
    return pixel_lies_at(settings, xy, (uint32_t)start) ? start : NOT_PRINTED;
}

/* ---- XY values as registers hold them ---- */

static const struct packed {
    struct figure figure;
    uint32_t xy;
    uint64_t printed[2];
} packed[] = {
    { { "000", "13.3.3", "DADDR >004400E4", "X=228, Y=68", SAME }, 0x004400E4, { 228, 68 } },
    { { "000", "13.3.3", "WSTART >004900EB", "X=235, Y=73", SAME }, 0x004900EB, { 235, 73 } },
    { { "000", "13.3.3", "WEND >005F0140", "X=320, Y=95", SAME }, 0x005F0140, { 320, 95 } },
    { { "000", "13.4.3", "SADDR >003A00E6", "X=230, Y=58", SAME }, 0x003A00E6, { 230, 58 } },
    { { "000", "13.5.3", "DADDR >0032010B", "X=267, Y=50", SAME }, 0x0032010B, { 267, 50 } },
    { { "004", "5.1.4", "SADDR >00080015", "XY value >15,>8", SAME }, 0x00080015, { 0x15, 0x8 } },
    { { "004", "5.1.4", "DADDR >00080015", "XY value >15,>8", SAME }, 0x00080015, { 0x15, 0x8 } },
    { { "004", "5.1.4", "WSTART >00400100", "(256,64)", SAME }, 0x00400100, { 256, 64 } },
    { { "004", "5.1.4", "WEND >00400100", "(256,64)", SAME }, 0x00400100, { 256, 64 } },
};

/* Over rows of 512 pixels of 4 bits, as in 000: X and Y of the address where the pixel lies. */
static void run_packed(void)
{
    const struct settings s = { .DPTCH = 0x800, .PSIZE = 4 };
    for (size_t i = 0; i < COUNT_OF(packed); i++) {
        uint64_t start = start_of(&s, packed[i].xy);
        uint64_t got[2] = { start % 0x800 / 4, start / 0x800 };
        settle(&packed[i].figure, "X, Y", 2, packed[i].printed, NULL, got);
    }
}

/* ---- Pitches as extents ---- */

/* The pixels from one row to the next: the distance of (0,0) and (0,1). */
static const struct extent {
    struct figure figure;
    uint32_t pitch, psize;
    uint64_t printed, scope;
} extents[] = {
    { { "003", "4.2.3", "pitch 4096 at four bits", "1024 pixels/line", SAME }, 4096, 4, 1024, 0 },
    { { "000", "13.3.3", "DPTCH >800 at four bits", "X extent = 512 pixels", SAME },
      0x800, 4, 512, 0 },
    { { "000", "13.4.3", "SPTCH and DPTCH >800 at four bits", "X extent = 512 pixels", SAME },
      0x800, 4, 512, 0 },
    { { "000", "13.5.3", "DPTCH >800 at eight bits", "X extent = 512 pixels", "2.18" },
      0x800, 8, 512, 256 },
};

static void run_extents(void)
{
    for (size_t i = 0; i < COUNT_OF(extents); i++) {
        const struct settings s = { .DPTCH = extents[i].pitch, .PSIZE = extents[i].psize };
        uint64_t got = (start_of(&s, XY(0, 1)) - start_of(&s, XY(0, 0))) / extents[i].psize;
        settle(&extents[i].figure, "pixels", 1, &extents[i].printed, &extents[i].scope, &got);
    }
}

/* ---- 003 figure 4-11 and other linear addresses ---- */

static uint32_t rotate_left(uint32_t word, uint32_t by)
{
    by %= 32;
    return by == 0 ? word : word << by | word >> (32 - by);
}

static uint32_t log2_of(uint32_t power)
{
    uint32_t n = 0;
    while (power >> n != 1)
        n++;
    return n;
}

/* Steps a to g of figure 4-11. */
static uint32_t converted(uint32_t xy, uint32_t psize, uint32_t pitch, uint32_t offset)
{
    uint32_t x = rotate_left(xy & 0x0000FFFF, log2_of(psize));
    uint32_t y = rotate_left(xy & 0xFFFF0000, 16 + log2_of(pitch));
    return (x | y) + offset;
}

/* Every X from 0 to `last`, in rows that are spread over the memory. No other bit may be
   written. */
static const struct conversion {
    struct figure figure;
    uint32_t psize, pitch, offset, last;
} conversions[] = {
    { { "003", "4.3.1", "figure 4-11, pixel size 4, pitch 4096", "X in the range 0 to 1023", SAME },
      4, 4096, 0, 1023 },
    { { "003", "4.3.1", "figure 4-11 with OFFSET >00042000", "Add offset from B4", WORKED },
      4, 4096, 0x00042000, 1023 },
    { { "003", "4.3.1", "figure 4-11, pixel size 4, pitch >800", "0 to (X extent -1)", WORKED },
      4, 0x800, 0, 511 },
    { { "003", "4.3.1", "figure 4-11, pixel size 1, pitch 16", "0 to (X extent -1)", WORKED },
      1, 16, 0, 15 },
    { { "003", "4.3.1", "figure 4-11, pixel size 16, pitch 4096", "0 to (X extent -1)", WORKED },
      16, 4096, 0, 255 },
};

static void run_conversions(void)
{
    for (size_t i = 0; i < COUNT_OF(conversions); i++) {
        const struct conversion *c = &conversions[i];
        const struct settings s = { .DPTCH = c->pitch, .OFFSET = c->offset, .PSIZE = c->psize };
        uint32_t rows = (16 * MEMORY_WORDS - c->offset) / c->pitch;
        uint64_t found = 0, all = 0;
        if (rows > 32768)
            rows = 32768;
        for (uint32_t y = 0; y < rows; y += 1 + rows / 37) {
            for (uint32_t x = 0; x <= c->last; x++) {
                found += start_of(&s, XY(x, y))
                         == converted(XY(x, y), c->psize, c->pitch, c->offset);
                all++;
            }
        }
        if (!memory_is_clear())
            found = 0;
        settle(&c->figure, "pixels", 1, &all, NULL, &found);
    }
}

static const struct linear {
    struct figure figure;
    uint32_t psize, pitch, offset, xy;
    uint64_t printed, scope;
} linears[] = {
    { { "003", "4.2.3", "pixel below (0,0), pitch 1024 x 4", "4096 (which is 2^12)", SAME },
      4, 4096, 0, XY(0, 1), 4096, 0 },
    { { "004", "5.1.4", "OFFSET >00042000, pixel (0,0)", "corresponds to .. the XY origin", SAME },
      4, 4096, 0x00042000, XY(0, 0), 0x00042000, 0 },
    { { "003", "4.3.1", "figure 4-11, X=1024, Y=1, pixel size 4, pitch 4096",
        "[(Y x display pitch) OR (X x pixel size)]", "1.9" },
      4, 4096, 0, XY(1024, 1), 0x1000, 0x2000 },
    { { "003", "4.3.1", "figure 4-11, X=600, Y=1, pixel size 4, pitch >800",
        "[(Y x display pitch) OR (X x pixel size)]", "1.9" },
      4, 0x800, 0, XY(600, 1), 0x960, 0x1160 },
};

static void run_linears(void)
{
    for (size_t i = 0; i < COUNT_OF(linears); i++) {
        const struct linear *l = &linears[i];
        const struct settings s = { .DPTCH = l->pitch, .OFFSET = l->offset, .PSIZE = l->psize };
        uint64_t got = start_of(&s, l->xy);
        settle(&l->figure, "address", 1, &l->printed, &l->scope, &got);
    }
}

/* "MOVE >00010AFC,SADDR ;Move linear value >10AFC": pixels of 4 bits. */
static void run_linear_examples(void)
{
    const struct figure source = { "004", "5.1.4", "SADDR >00010AFC", "linear value >10AFC", SAME };
    const struct figure destination = { "004", "5.1.4", "DADDR >00010AFC", "linear value >10AFC",
                                        SAME };
    const struct settings from = { .SADDR = 0x00010AFC, .DYDX = XY(1, 1), .PSIZE = 4 };
    const struct settings to = { .DADDR = 0x00010AFC, .DYDX = XY(1, 1), .COLOR1 = 0x9999,
                                 .PSIZE = 4 };
    const uint64_t printed = 9;
    put_pixel(memory, 0x10AFC, 4, 9);
    draw(BH_PIXBLT_L_L, &from, 0);
    uint64_t got = pixel_at(memory, 0, 4);
    settle(&source, "pixel", 1, &printed, NULL, &got);
    clear_memory();
    draw(BH_FILL_L, &to, 0);
    got = pixel_at(memory, 0x10AFC, 4);
    settle(&destination, "pixel", 1, &printed, NULL, &got);
    clear_memory();
}

/* "CONVSP .. is used if the XY address points to a source pixel": PIXT *Rs.XY,Rd of (0,1). */
static void run_source_pitch(void)
{
    const struct figure figure = { "003", "4.3.1", "PIXT *Rs.XY,Rd, SPTCH >1000, DPTCH >800",
                                   "CONVSP .. source pixel", "1.11" };
    const struct settings s = { .SPTCH = 0x1000, .DPTCH = 0x800, .PSIZE = 4 };
    const uint64_t printed = 7, scope = 5;
    put_pixel(memory, 0x1000, 4, 7);
    put_pixel(memory, 0x800, 4, 5);
    uint64_t got = pixt_from(true, &s, XY(0, 1)).value;
    put_pixel(memory, 0x1000, 4, 0);
    put_pixel(memory, 0x800, 4, 0);
    settle(&figure, "pixel", 1, &printed, &scope, &got);
}

/* ---- 003 section 4.3: the range of coordinates ---- */

/* DRAV under W=3, with the largest window, (0,0) to (32767,32767); pixel size 1, pitch 16. */
static const struct coordinate {
    struct figure figure;
    uint32_t xy;
    uint64_t printed[3];
} coordinates[] = {
    { { "003", "4.3", "pixel (0,0), window (0,0) to (32767,32767)", "inside", SAME },
      XY(0, 0), { 0, 1, 0 } },
    { { "003", "4.3", "pixel (32767,32767), the same window", "inside", SAME },
      XY(32767, 32767), { 0, 1, 0 } },
    { { "003", "4.3", "pixel (-1,0), the same window", "must always lie outside", SAME },
      XY(-1, 0), { 0, 0, 1 } },
    { { "003", "4.3", "pixel (0,-1), the same window", "must always lie outside", SAME },
      XY(0, -1), { 0, 0, 1 } },
    { { "003", "4.3", "pixel (-32768,-32768), the same window", "must always lie outside", SAME },
      XY(-32768, -32768), { 0, 0, 1 } },
};

static void run_coordinates(void)
{
    const struct settings s = { .DPTCH = 16, .WSTART = XY(0, 0), .WEND = XY(32767, 32767),
                                .CONTROL = CONTROL_OF(REPLACE, 3, 0), .PSIZE = 1 };
    for (size_t i = 0; i < COUNT_OF(coordinates); i++) {
        struct lone r = drav(&s, 0, coordinates[i].xy, 0);
        uint64_t got[3] = { r.answer, r.visited, r.v };
        settle(&coordinates[i].figure, "answer, drawn, V", 3, coordinates[i].printed, NULL, got);
    }
}

/* ---- Which pitches are allowed ---- */

/* Three pitches that the documents use: a power of two, a multiple of 16, and neither. */
static const uint32_t pitches[3] = { 0x1000, 0x0AD0, 0x10AFC };

enum { SOURCE, DESTINATION };

/* What is to move the start of an array of 2 rows down by a row: the window, or PBV=1. */
enum { NOTHING, CLIPPING, LOWER_LEFT };

/* 1 is allowed, 0 is not. */
static const struct pitch_row {
    struct figure figure;
    uint32_t operation;
    int which;
    int moved_by;
    uint32_t dx;
    uint64_t printed[3], scope[3];
} pitch_rows[] = {
    { { "004", "5.1.4", "SPTCH, PIXBLT B,L (example >00010AFC)", "unconstrained", SAME },
      BH_PIXBLT_B_L, SOURCE, NOTHING, 2, { 1, 1, 1 }, { 0 } },
    { { "004", "5.1.4", "SPTCH, PIXBLT B,XY", "unconstrained otherwise", SAME },
      BH_PIXBLT_B_XY, SOURCE, NOTHING, 2, { 1, 1, 1 }, { 0 } },
    { { "004", "5.1.4", "SPTCH, PIXBLT B,XY, PBV=1", "unconstrained otherwise", SAME },
      BH_PIXBLT_B_XY, SOURCE, LOWER_LEFT, 2, { 1, 1, 1 }, { 0 } },
    { { "004", "5.1.4", "SPTCH, PIXBLT B,XY, clipped", "power of two for windowing", "1.15" },
      BH_PIXBLT_B_XY, SOURCE, CLIPPING, 2, { 1, 0, 0 }, { 1, 1, 1 } },
    { { "004", "5.1.4", "SPTCH, PIXBLT L,L", "integer multiple of 16", SAME },
      BH_PIXBLT_L_L, SOURCE, NOTHING, 2, { 1, 1, 0 }, { 0 } },
    { { "004", "5.1.4", "SPTCH, PIXBLT L,L, PBV=1", "pitches that are not powers of two", SAME },
      BH_PIXBLT_L_L, SOURCE, LOWER_LEFT, 2, { 1, 1, 0 }, { 0 } },
    { { "004", "5.1.4", "SPTCH, PIXBLT L,XY", "unconstrained otherwise", SAME },
      BH_PIXBLT_L_XY, SOURCE, NOTHING, 2, { 1, 1, 0 }, { 0 } },
    { { "004", "5.1.4", "SPTCH, PIXBLT L,XY, clipped", "power of two for windowing", "1.15" },
      BH_PIXBLT_L_XY, SOURCE, CLIPPING, 2, { 1, 0, 0 }, { 1, 1, 0 } },
    { { "004", "5.1.4", "SPTCH, PIXBLT L,XY, PBV=1", "power of two for .. PBV = 1", "1.15" },
      BH_PIXBLT_L_XY, SOURCE, LOWER_LEFT, 2, { 1, 0, 0 }, { 1, 1, 0 } },
    { { "004", "5.1.4", "SPTCH, PIXBLT XY,L (example >00001000)", "Power of two", SAME },
      BH_PIXBLT_XY_L, SOURCE, NOTHING, 2, { 1, 0, 0 }, { 0 } },
    { { "004", "5.1.4", "SPTCH, PIXBLT XY,XY", "Power of two", SAME },
      BH_PIXBLT_XY_XY, SOURCE, NOTHING, 2, { 1, 0, 0 }, { 0 } },
    { { "004", "5.1.4", "DPTCH, FILL L", "integer multiple of 16", SAME },
      BH_FILL_L, DESTINATION, NOTHING, 2, { 1, 1, 0 }, { 0 } },
    { { "004", "5.1.4", "DPTCH, FILL L, DX=1", "unconstrained for DX=1", "1.14" },
      BH_FILL_L, DESTINATION, NOTHING, 1, { 1, 1, 1 }, { 1, 1, 0 } },
    { { "004", "5.1.4", "DPTCH, FILL XY", "power of two", SAME },
      BH_FILL_XY, DESTINATION, NOTHING, 2, { 1, 0, 0 }, { 0 } },
    { { "004", "5.1.4", "DPTCH, PIXBLT B,L", "integer multiple of 16", SAME },
      BH_PIXBLT_B_L, DESTINATION, NOTHING, 2, { 1, 1, 0 }, { 0 } },
    { { "004", "5.1.4", "DPTCH, PIXBLT B,XY", "unconstrained otherwise", "1.16" },
      BH_PIXBLT_B_XY, DESTINATION, NOTHING, 2, { 1, 1, 0 }, { 1, 0, 0 } },
    { { "004", "5.1.4", "DPTCH, PIXBLT B,XY, clipped", "power of two for windowing", SAME },
      BH_PIXBLT_B_XY, DESTINATION, CLIPPING, 2, { 1, 0, 0 }, { 0 } },
    { { "004", "5.1.4", "DPTCH, PIXBLT L,L", "integer multiple of 16", SAME },
      BH_PIXBLT_L_L, DESTINATION, NOTHING, 2, { 1, 1, 0 }, { 0 } },
    { { "004", "5.1.4", "DPTCH, PIXBLT L,L, PBV=1", "pitches that are not powers of two", SAME },
      BH_PIXBLT_L_L, DESTINATION, LOWER_LEFT, 2, { 1, 1, 0 }, { 0 } },
    { { "004", "5.1.4", "DPTCH >00010AFC, PIXBLT L,L (example)", "Unconstrained value", "2.13" },
      BH_PIXBLT_L_L, DESTINATION, NOTHING, 2, { NOT_PRINTED, NOT_PRINTED, 1 }, { 1, 1, 0 } },
    { { "004", "5.1.4", "DPTCH, PIXBLT L,XY", "power of two", SAME },
      BH_PIXBLT_L_XY, DESTINATION, NOTHING, 2, { 1, 0, 0 }, { 0 } },
    { { "004", "5.1.4", "DPTCH, PIXBLT XY,L (example >00001000)", "unconstrained otherwise", SAME },
      BH_PIXBLT_XY_L, DESTINATION, NOTHING, 2, { 1, 1, 0 }, { 0 } },
    { { "004", "5.1.4", "DPTCH, PIXBLT XY,L, PBV=1", "power of two for PBV = 1", "1.15" },
      BH_PIXBLT_XY_L, DESTINATION, LOWER_LEFT, 2, { 1, 0, 0 }, { 1, 1, 0 } },
    { { "004", "5.1.4", "DPTCH, PIXBLT XY,XY", "power of two", SAME },
      BH_PIXBLT_XY_XY, DESTINATION, NOTHING, 2, { 1, 0, 0 }, { 0 } },
    { { "003", "4.2.3", "display pitch, XY", "must be a power of two", SAME },
      BH_FILL_XY, DESTINATION, NOTHING, 2, { 1, 0, 0 }, { 0 } },
    { { "003", "4.2.3", "display pitch, linear", "a multiple of 16", SAME },
      BH_FILL_L, DESTINATION, NOTHING, 2, { 1, 1, 0 }, { 0 } },
    { { "003", "4.4", "source pitch, PIXBLT B,XY", "may be any value", SAME },
      BH_PIXBLT_B_XY, SOURCE, NOTHING, 2, { 1, 1, 1 }, { 0 } },
    { { "003", "4.4", "source pitch, PIXBLT B,XY, clipped", "must .. power of two", "1.15" },
      BH_PIXBLT_B_XY, SOURCE, CLIPPING, 2, { 1, 0, 0 }, { 1, 1, 1 } },
    { { "003", "4.4", "source pitch, PIXBLT L,XY, clipped", "must .. power of two", "1.15" },
      BH_PIXBLT_L_XY, SOURCE, CLIPPING, 2, { 1, 0, 0 }, { 1, 1, 0 } },
    { { "003", "4.4", "source pitch, PIXBLT L,XY, PBV=1", "must .. power of two", "1.15" },
      BH_PIXBLT_L_XY, SOURCE, LOWER_LEFT, 2, { 1, 0, 0 }, { 1, 1, 0 } },
    { { "000", "13.3.2", "DPTCH of a FILL one pixel wide", "may be any value", "1.14" },
      BH_FILL_L, DESTINATION, NOTHING, 1, { 1, 1, 1 }, { 1, 1, 0 } },
    { { "000", "13.4.2", "DPTCH, PIXBLT L,L", "constrained to be a power of two", "2.11" },
      BH_PIXBLT_L_L, DESTINATION, NOTHING, 2, { 1, 0, 0 }, { 1, 1, 0 } },
    { { "000", "13.5.2", "DPTCH, PIXBLT B,L", "a multiple of 16 for binary PIXBLTs", SAME },
      BH_PIXBLT_B_L, DESTINATION, NOTHING, 2, { 1, 1, 0 }, { 0 } },
};

/* 1 where the drawing is done, 0 where its pitch is refused, NOT_PRINTED otherwise. */
static uint64_t allowed(const struct pitch_row *row, uint32_t pitch)
{
    bool xy = row->operation == BH_PIXBLT_XY_L || row->operation == BH_PIXBLT_XY_XY;
    bool clipped = row->moved_by == CLIPPING;
    struct settings s = { .SADDR = xy ? XY(0, 64) : 0x80000, .SPTCH = 0x1000,
                          .DADDR = row->operation == BH_PIXBLT_L_L ? 0x40000 : 0, .DPTCH = 0x1000,
                          .WSTART = XY(0, clipped), .WEND = XY(100, 100), .DYDX = XY(row->dx, 2),
                          .PSIZE = 4, .CONTROL = CONTROL_OF(REPLACE, clipped ? 3 : 0, 0) };
    if (row->moved_by == LOWER_LEFT)
        s.CONTROL |= PBV;
    if (row->which == SOURCE)
        s.SPTCH = pitch;
    else
        s.DPTCH = pitch;
    struct drawing r = draw(row->operation, &s, 0);
    if (r.answer == 0 && r.visited == row->dx * (clipped ? 1 : 2))
        return 1;
    return r.answer == BH_BAD_PITCH ? 0 : NOT_PRINTED;
}

static void run_pitch_rows(void)
{
    for (size_t i = 0; i < COUNT_OF(pitch_rows); i++) {
        uint64_t got[3];
        for (int k = 0; k < 3; k++)
            got[k] = allowed(&pitch_rows[i], pitches[k]);
        settle(&pitch_rows[i].figure, "pitches 1000h, AD0h, 10AFCh allowed", 3,
               pitch_rows[i].printed, pitch_rows[i].scope, got);
    }
}

/* "The product of the array width DX and the pixel size must be less than or equal to the
   pitch." */
static void run_wide_row(void)
{
    const struct figure figure = { "003", "4.4", "DX=5 at four bits, pitch 16",
                                   "must be less than or equal to the pitch", "1.17" };
    const struct settings s = { .DPTCH = 16, .DYDX = XY(5, 2), .PSIZE = 4 };
    const uint64_t printed = 0, scope = 1;
    uint64_t got = draw(BH_FILL_L, &s, 0).answer == 0;
    settle(&figure, "allowed", 1, &printed, &scope, &got);
}

void address_figures(void)
{
    clear_memory();
    run_pixel_sizes();
    run_other_sizes();
    run_pixel_starts();
    run_packed();
    run_extents();
    run_conversions();
    run_linears();
    run_linear_examples();
    run_source_pitch();
    run_coordinates();
    run_pitch_rows();
    run_wide_row();
}

/* Windows: 002 section 7.10, and what 004 section 5.1.4 says of WSTART, WEND and DYDX. */
#include "figures.h"

/* The window of 000 section 13.3.3: (235,73) to (320,95), over rows of 512 pixels of 4 bits. */
static const struct settings window = {
    .DPTCH = 0x800, .SPTCH = 0x800, .SADDR = 0x80000, .WSTART = 0x004900EB, .WEND = 0x005F0140,
    .COLOR0 = 0xFFFF, .COLOR1 = 0xFFFF, .PSIZE = 4,
};

/* ---- Arrays ---- */

/* Numbers: answer, pixels that are drawn, V, request. Each XY destination is run, with V 0 and with
   V 1 before. */
static const struct array_row {
    struct figure figure;
    uint32_t w, daddr, dydx;
    uint64_t printed[4], scope[4];
} array_rows[] = {
    { { "002", "7.10.1", "W=1, array completely outside", "V is set to 1. No request", "1.1" },
      1, XY(0, 0), XY(10, 10), { 0, 0, 1, 0 }, { 0, 0, 0, 0 } },
    { { "002", "7.10.1", "W=1, array with pixels inside",
        "V is set to 0 and a window violation interrupt is requested", "1.1" },
      1, 0x004400E4, 0x0014003C, { 0, 0, 0, 1 }, { 0, 0, 1, 1 } },
    { { "004", "5.1.4", "W=1, no common rectangle", "the V bit is not set", WORKED },
      1, XY(0, 0), XY(10, 10), { 0, 0, 0, 0 }, { 0 } },
    { { "002", "7.10.2", "W=2, array entirely within", "V is set to 0, no request; written",
        WORKED },
      2, XY(240, 80), XY(10, 10), { 0, 100, 0, 0 }, { 0 } },
    { { "002", "7.10.2", "W=2, array with pixels outside", "V is set to 1, request; aborted",
        WORKED },
      2, 0x004400E4, 0x0014003C, { 0, 0, 1, 1 }, { 0 } },
    { { "002", "7.10.2", "W=2, array completely outside", "V is set to 1, request; aborted",
        WORKED },
      2, XY(0, 0), XY(10, 10), { 0, 0, 1, 1 }, { 0 } },
    { { "002", "7.10.3", "W=3, array entirely within", "No interrupt request", WORKED },
      3, XY(240, 80), XY(10, 10), { 0, 100, NOT_PRINTED, 0 }, { 0 } },
    { { "002", "7.10.3", "W=3, array with pixels outside", "only the portion within", SAME },
      3, 0x004400E4, 0x0014003C, { 0, 795, NOT_PRINTED, 0 }, { 0 } },
    { { "002", "7.10.3", "W=3, array completely outside", "inhibited. No interrupt request",
        WORKED },
      3, XY(0, 0), XY(10, 10), { 0, 0, NOT_PRINTED, 0 }, { 0 } },
    { { "004", "5.1.4", "DX = 0", "nothing is moved", WORKED },
      0, XY(240, 80), XY(0, 10), { 0, 0, NOT_PRINTED, 0 }, { 0 } },
    { { "004", "5.1.4", "DY = 0", "nothing is moved", WORKED },
      0, XY(240, 80), XY(10, 0), { 0, 0, NOT_PRINTED, 0 }, { 0 } },
    { { "004", "5.1.4", "DX = 0 under W=3", "no transfer is performed", WORKED },
      3, XY(240, 80), XY(0, 10), { 0, 0, NOT_PRINTED, 0 }, { 0 } },
};

static const uint32_t xy_destinations[] = { BH_FILL_XY, BH_PIXBLT_L_XY, BH_PIXBLT_XY_XY,
                                            BH_PIXBLT_B_XY };

static uint64_t pixels_drawn(void)
{
    uint64_t pixels = 0;
    for (uint32_t a = 0; a < 0x80000; a += 4)
        pixels += pixel_at(memory, a, 4) != 0;
    return pixels;
}

/* The memory is ones where sources lie, zeros where arrays are drawn. */
static void prepare_source(void)
{
    clear_memory();
    for (size_t i = 0x80000 / 16; i < MEMORY_WORDS / 4; i++)
        memory[i] = 0xFFFF;
}

static void run_array(uint32_t operation, const struct settings *s, uint32_t v, uint64_t got[4])
{
    struct settings used = *s;
    if (operation == BH_PIXBLT_XY_XY)
        used.SADDR = XY(0, 300);
    prepare_source();
    struct drawing r = draw(operation, &used, v);
    got[0] = r.answer;
    got[1] = pixels_drawn() == r.visited ? r.visited : NOT_PRINTED;
    got[2] = r.v;
    got[3] = r.request;
}

/* The numbers of the first call that isn't as awaited, or else of the last. */
static void run_arrays_of(const struct array_row *row, uint64_t got[4])
{
    const uint64_t *awaited = has_rule(&row->figure) ? row->scope : row->printed;
    struct settings s = window;
    s.DADDR = row->daddr;
    s.DYDX = row->dydx;
    s.CONTROL = CONTROL_OF(REPLACE, row->w, 0);
    for (size_t k = 0; k < COUNT_OF(xy_destinations); k++) {
        for (uint32_t v = 0; v < 2; v++) {
            run_array(xy_destinations[k], &s, v, got);
            if (!agree(4, awaited, got))
                return;
        }
    }
}

static void run_array_rows(void)
{
    for (size_t i = 0; i < COUNT_OF(array_rows); i++) {
        uint64_t got[4] = { 0, 0, 0, 0 };
        run_arrays_of(&array_rows[i], got);
        settle(&array_rows[i].figure, "answer, drawn, V, request", 4, array_rows[i].printed,
               array_rows[i].scope, got);
    }
}

/* ---- Lone pixels ---- */

/* DRAV and PIXT Rs,*Rd.XY; numbers as above. */
static const struct lone_row {
    struct figure figure;
    uint32_t w, wstart, wend, xy;
    uint64_t printed[4], scope[4];
} lone_rows[] = {
    { { "002", "7.10.1", "W=1, DRAV or PIXT outside", "V to be set to 1. No interrupt request",
        "1.1" },
      1, 0x004900EB, 0x005F0140, XY(234, 73), { 0, 0, 1, 0 }, { 0, 0, 0, 0 } },
    { { "002", "7.10.1", "W=1, DRAV or PIXT inside", "V to be set to 0, .. request", "1.1" },
      1, 0x004900EB, 0x005F0140, XY(235, 73), { 0, 0, 0, 1 }, { 0, 0, 1, 1 } },
    { { "002", "7.10.2", "W=2, DRAV or PIXT inside", "V is set to 0, no request; drawn", WORKED },
      2, 0x004900EB, 0x005F0140, XY(235, 73), { 0, 1, 0, 0 }, { 0 } },
    { { "002", "7.10.2", "W=2, DRAV or PIXT outside", "V is set to 1, request; inhibited", WORKED },
      2, 0x004900EB, 0x005F0140, XY(234, 73), { 0, 0, 1, 1 }, { 0 } },
    { { "002", "7.10.3", "W=3, DRAV or PIXT inside", "permitted, V is set to 0", WORKED },
      3, 0x004900EB, 0x005F0140, XY(320, 95), { 0, 1, 0, 0 }, { 0 } },
    { { "002", "7.10.3", "W=3, DRAV or PIXT outside", "inhibited, V is set to 1", WORKED },
      3, 0x004900EB, 0x005F0140, XY(321, 95), { 0, 0, 1, 0 }, { 0 } },
    { { "002", "7.10.4", "window with Xstart > Xend", "the window is empty: all outside", "1.2" },
      3, XY(2, 0), XY(1, 9), XY(1, 1), { 0, 0, 1, 0 }, { BH_BAD_WINDOW, 0, NOT_PRINTED, 0 } },
    { { "002", "7.10.4", "window with Ystart > Yend", "the window is empty: all outside", "1.2" },
      3, XY(0, 2), XY(9, 1), XY(1, 1), { 0, 0, 1, 0 }, { BH_BAD_WINDOW, 0, NOT_PRINTED, 0 } },
    { { "004", "5.1.4", "WSTART and WEND >00400100, pixel (256,64)", "an inclusive pixel", SAME },
      3, 0x00400100, 0x00400100, XY(256, 64), { 0, 1, 0, 0 }, { 0 } },
};

static void run_lone_of(const struct lone_row *row, uint64_t got[4])
{
    const uint64_t *awaited = has_rule(&row->figure) ? row->scope : row->printed;
    struct settings s = window;
    s.WSTART = row->wstart;
    s.WEND = row->wend;
    s.CONTROL = CONTROL_OF(REPLACE, row->w, 0);
    for (uint32_t k = 0; k < 4; k++) {
        clear_memory();
        struct lone r = k < 2 ? drav(&s, 0, row->xy, k) : pixt_to(true, &s, 15, row->xy, k - 2);
        got[0] = r.answer;
        got[1] = pixels_drawn() == r.visited ? r.visited : NOT_PRINTED;
        got[2] = r.v;
        got[3] = r.request;
        if (!agree(4, awaited, got))
            return;
    }
}

static void run_lone_rows(void)
{
    for (size_t i = 0; i < COUNT_OF(lone_rows); i++) {
        uint64_t got[4] = { 0, 0, 0, 0 };
        run_lone_of(&lone_rows[i], got);
        settle(&lone_rows[i].figure, "answer, drawn, V, request", 4, lone_rows[i].printed,
               lone_rows[i].scope, got);
    }
}

/* ---- Which pixels lie within ---- */

/* Under W=3 DRAV is tried at each pixel of a field of pixels about the window. The numbers are the
   least and the greatest X and Y that are drawn, and how many pixels are. */
static const struct limits {
    struct figure figure;
    uint32_t wstart, wend;
    uint64_t printed[5];
} limits[] = {
    { { "002", "7.10", "window of 000 section 13.3.3", "corner pixels .. lie within the window",
        SAME },
      0x004900EB, 0x005F0140, { 235, 320, 73, 95, 86 * 23 } },
    { { "002", "7.10.4", "figure 7-10, Xstart = Xend, Ystart = Yend", "a single pixel", SAME },
      0x00400100, 0x00400100, { 256, 256, 64, 64, 1 } },
};

static void run_limits(void)
{
    for (size_t i = 0; i < COUNT_OF(limits); i++) {
        struct settings s = window;
        s.WSTART = limits[i].wstart;
        s.WEND = limits[i].wend;
        s.CONTROL = CONTROL_OF(REPLACE, 3, 0);
        uint64_t got[5] = { UINT32_MAX, 0, UINT32_MAX, 0, 0 };
        for (uint32_t y = 60; y < 110; y++) {
            for (uint32_t x = 220; x < 340; x++) {
                struct lone r = drav(&s, 0, XY(x, y), 0);
                if (r.answer != 0 || r.visited != 1 || r.v != 0)
                    continue;
                got[0] = x < got[0] ? x : got[0];
                got[1] = x > got[1] ? x : got[1];
                got[2] = y < got[2] ? y : got[2];
                got[3] = y > got[3] ? y : got[3];
                got[4]++;
            }
        }
        settle(&limits[i].figure, "X from, to, Y from, to, pixels", 5, limits[i].printed, NULL,
               got);
    }
}

/* "Window start and end coordinates must lie in the range (0,0) to (+32767,+32767)." */
static const struct range {
    struct figure figure;
    uint32_t wstart, wend;
    uint64_t printed;
} ranges[] = {
    { { "002", "7.10.4", "window (0,0) to (32767,32767)", "in the range", SAME },
      XY(0, 0), XY(32767, 32767), 0 },
    { { "002", "7.10.4", "window from X = -1", "cannot contain .. negative", WORKED },
      XY(-1, 0), XY(9, 9), BH_BAD_WINDOW },
    { { "002", "7.10.4", "window from Y = -1", "cannot contain .. negative", WORKED },
      XY(0, -1), XY(9, 9), BH_BAD_WINDOW },
    { { "002", "7.10.4", "window to X = 32768", "must lie in the range", WORKED },
      XY(0, 0), XY(32768, 9), BH_BAD_WINDOW },
};

static void run_ranges(void)
{
    for (size_t i = 0; i < COUNT_OF(ranges); i++) {
        struct settings s = window;
        s.WSTART = ranges[i].wstart;
        s.WEND = ranges[i].wend;
        s.DYDX = XY(1, 1);
        s.CONTROL = CONTROL_OF(REPLACE, 3, 0);
        uint64_t got = draw(BH_FILL_XY, &s, 0).answer;
        settle(&ranges[i].figure, "answer", 1, &ranges[i].printed, NULL, &got);
    }
}

/* ---- W=0: "the V bit is unaffected" ---- */

static void run_disabled(void)
{
    const struct figure figure = { "002", "7.10", "W=0, array with pixels outside",
                                   "the V bit is unaffected during pixel writes", WORKED };
    const uint64_t printed[4] = { 1200, 0, 1200, 1 };
    struct settings s = window;
    uint64_t got[4], first[4], second[4];
    s.DADDR = 0x004400E4;
    s.DYDX = 0x0014003C;
    run_array(BH_FILL_XY, &s, 0, first);
    run_array(BH_FILL_XY, &s, 1, second);
    got[0] = first[1];
    got[1] = first[2];
    got[2] = second[1];
    got[3] = second[2];
    settle(&figure, "drawn, V after 0, drawn, V after 1", 4, printed, NULL, got);
}

/* ---- W=1: the common rectangle ---- */

/* Numbers: DADDR and DYDX. 15 rows of 53 pixels are printed in 000 section 13.3.3, the window's
   width and height come from the program in 004: WEND - WSTART + >10001. With PBH and PBV DADDR
   still is what a PIXBLT of the reduced array is given: "the default starting addresses". */
static const struct common {
    struct figure figure;
    uint32_t bits;
    uint32_t daddr, dydx;
    uint64_t printed[2];
} commons[] = {
    { { "002", "7.10.1", "W=1, DADDR and DYDX of 000 section 13.3.3", "the reduced array", SAME },
      0, 0x004400E4, 0x0014003C, { 0x004900EB, XY(53, 15) } },
    { { "002", "7.10.1", "W=1, DADDR and DYDX of 000 section 13.3.3, PBH=1, PBV=1",
        "the reduced array", WORKED },
      LOWER_RIGHT, 0x004400E4, 0x0014003C, { 0x004900EB, XY(53, 15) } },
    { { "004", "5.1.4", "W=1, DADDR and DYDX of 000 section 13.3.3", "the common pixel block",
        SAME },
      0, 0x004400E4, 0x0014003C, { 0x004900EB, XY(53, 15) } },
    { { "004", "5.1.4", "DYDX of a window, by its program", "WEND - WSTART + >10001", SAME },
      0, 0x00000000, 0x01000200, { 0x004900EB, XY(0x140 - 0xEB, 0x5F - 0x49) + 0x10001 } },
};

static void run_commons(void)
{
    for (size_t i = 0; i < COUNT_OF(commons); i++) {
        uint64_t got[2] = { 0, 0 };
        struct settings s = window;
        s.DADDR = commons[i].daddr;
        s.DYDX = commons[i].dydx;
        s.CONTROL = CONTROL_OF(REPLACE, 1, 0) | commons[i].bits;
        for (size_t k = 0; k < COUNT_OF(xy_destinations); k++) {
            struct drawing r = draw(xy_destinations[k], &s, 0);
            got[0] = r.answer == 0 ? r.daddr : NOT_PRINTED;
            got[1] = r.dydx;
            if (!agree(2, commons[i].printed, got))
                break;
        }
        settle(&commons[i].figure, "DADDR, DYDX", 2, commons[i].printed, NULL, got);
    }
}

void window_figures(void)
{
    run_disabled();
    run_array_rows();
    run_lone_rows();
    run_limits();
    run_ranges();
    run_commons();
}

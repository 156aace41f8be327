/* Checks the model against the scope's figures and example, and against cases worked out by hand.
   Prints `N passed, M failed`. */
#include "model.h"

#include <string.h>

static int passed;
static int failed;

/* Counts one check; a failed one is named. */
static void check(const char *what, bool holds)
{
    if (holds) {
        passed = passed + 1;
    } else {
        failed = failed + 1;
        printf("failed: %s\n", what);
    }
}

#define WORDS 12000

static uint16_t big[WORDS];
static uint16_t other[WORDS];

static struct memory memory_of(uint16_t *word, uint64_t words)
{
    struct memory m = { word, words };
    return m;
}

/* Settings with everything 0 but the pixel size, and pitches that suit every array. */
static struct settings plain_settings(uint16_t psize)
{
    struct settings s;
    memset(&s, 0, sizeof s);
    s.PSIZE = psize;
    s.SPTCH = 64;
    s.DPTCH = 64;
    return s;
}

static uint16_t control(uint32_t pp, uint32_t w, uint32_t t)
{
    return (uint16_t)((pp << 10) | (w << 6) | (t << 5));
}

/* ---- Fields ---- */

/* "Size 8 at address 12 over words F000h, 000Ah reads AFh, signed FFFFFFAFh; case F." */
static void test_field_figure(void)
{
    uint16_t word[2] = { 0xF000, 0x000A };
    struct memory m = memory_of(word, 2);
    check("field AFh", field_read(m, 12, 8, false).value == 0xAF);
    check("field FFFFFFAFh", field_read(m, 12, 8, true).value == 0xFFFFFFAFu);
    check("field case F", field_case(12, 8) == 'F');
    check("field cycles F", field_cycles(12, 8).read == 2 && field_cycles(12, 8).write == 4);
    check("field states F", move_states(12, 8, INDIRECT, false, true).states == 5);
    check("field states F, predecrement, signed, without cache",
          move_states(12, 8, PREDECREMENT, true, false).states == 10);
}

/* "a field call checks 10, 18, 17 in that order"; "a cycle or state count only 18" */
static void test_field_refusals(void)
{
    uint16_t word[2] = { 1, 2 };
    check("field 10", field_read(memory_of(word, 0), 0, 0, false).answer == 10);
    check("field 10 above", field_write(memory_of(word, 1048577), 0, 1, 0) == 10);
    check("field 18", field_read(memory_of(word, 2), 0xFFFFFFFFu, 33, false).answer == 18);
    check("field 17", field_write(memory_of(word, 2), 25, 8, 0) == 17);
    check("field at the end", field_write(memory_of(word, 2), 24, 8, 0xFF) == 0
          && word[0] == 1 && word[1] == 0xFF02);
    check("cycles 18", field_cycles(0, 0).answer == 18 && field_cycles(0, 0).read == 0);
    check("states 18", move_states(0, 33, INDIRECT, true, true).answer == 18
          && move_states(0, 33, INDIRECT, true, true).states == 0);
}

/* Every size at every alignment has a case. */
static void test_field_cases(void)
{
    bool all = true;
    for (uint32_t size = 1; size <= 32; size++) {
        for (uint32_t s = 0; s < 16; s++) {
            if (field_case(s, size) == '?')
                all = false;
        }
    }
    check("every field has a case", all);
}

/* ---- Cache, image, changed ---- */

/* "Fresh cache, fetches at 0, 64, 16, 512, 1024, 1536, 2048, 0: segment, subsegment, hit, then
   five segment misses." */
static void test_cache_figure(void)
{
    static const uint32_t address[8] = { 0, 64, 16, 512, 1024, 1536, 2048, 0 };
    static const enum hit_kind kind[8] = { SEGMENT_MISS, SUBSEGMENT_MISS, HIT, SEGMENT_MISS,
                                           SEGMENT_MISS, SEGMENT_MISS, SEGMENT_MISS,
                                           SEGMENT_MISS };
    struct cache c = cache_fresh();
    for (int i = 0; i < 8; i++) {
        struct fetch_answer r = cache_fetch(c, address[i], 0);
        check("cache figure", r.kind == kind[i]);
        c = r.next;
    }
    check("cache disabled", cache_fetch(c, 0, 0x8000).kind == DISABLED);
    c.order[0] = c.order[1];
    check("cache 19", cache_fetch(c, 0, 0x8000).kind == FETCH_REFUSED);
}

/* "Seed 1: first words 2041h, 4082h, 0, 0." */
static void test_image_figure(void)
{
    uint16_t word[5] = { 9, 9, 9, 9, 9 };
    image_make(memory_of(word, 4), 1);
    check("image figure", word[0] == 0x2041 && word[1] == 0x4082 && word[2] == 0 && word[3] == 0);
    check("image cut off", word[4] == 9);
}

/* The bits of 16 words that differ, with a shorter memory. */
static void test_changed(void)
{
    uint16_t a[2] = { 0x00FF, 0x8001 };
    uint16_t b[2] = { 0x0F0F, 0x8001 };
    check("changed", changed_bits(memory_of(a, 2), memory_of(b, 2)).count == 8);
    check("changed past the end", changed_bits(memory_of(a, 1), memory_of(b, 2)).count == 10);
    check("changed 10", changed_bits(memory_of(a, 0), memory_of(b, 2)).answer == 10);
}

/* ---- One pixel ---- */

/* "PSIZE 4, S=9, D=12: PP 16 gives 5, 17 gives 15, 18 gives 3. S=12, D=9: 18 gives 13, 19 gives
   0." */
static void test_pixel_figures(void)
{
    check("PP 16", pixel_operation(16, 4, 9, 12) == 5);
    check("PP 17", pixel_operation(17, 4, 9, 12) == 15);
    check("PP 18", pixel_operation(18, 4, 9, 12) == 3);
    check("PP 18 wraps", pixel_operation(18, 4, 12, 9) == 13);
    check("PP 19", pixel_operation(19, 4, 12, 9) == 0);
}

/* PP 0 to 15 on S=0011b, D=0101b give each column of their truth table. */
static void test_pixel_logic(void)
{
    static const uint32_t expected[16] = { 3, 1, 2, 0, 11, 9, 10, 8, 7, 5, 6, 4, 15, 13, 14, 12 };
    for (uint32_t pp = 0; pp < 16; pp++)
        check("PP 0 to 15", pixel_operation(pp, 4, 3, 5) == expected[pp]);
    check("PP 20", pixel_operation(20, 4, 3, 5) == 5);
    check("PP 21", pixel_operation(21, 4, 3, 5) == 3);
}

/* "PSIZE 4, PMASK 8888h, replace, S=8: D=13 becomes 8 with T=0 and stays 13 with T=1." */
static void test_mask_figure(void)
{
    struct settings s = plain_settings(4);
    s.PMASK = 0x8888;
    s.COLOR1 = 0x8888;
    for (uint32_t place = 0; place < 4; place++) {
        uint16_t word[1] = { 0xDDDD };
        uint32_t address = 4 * place;
        uint32_t rest = 0xDDDDu & ~(15u << address);
        s.CONTROL = control(0, 0, 0);
        pixt_to_linear(memory_of(word, 1), &s, 8, address, 0);
        check("mask figure, T=0", word[0] == (rest | (8u << address)));
        word[0] = 0xDDDD;
        s.CONTROL = control(0, 0, 1);
        pixt_to_linear(memory_of(word, 1), &s, 8, address, 0);
        check("mask figure, T=1", word[0] == 0xDDDD);
    }
}

/* ---- Drawings ---- */

static struct settings figure_settings(void)
{
    struct settings s = plain_settings(4);
    s.DADDR = 0x004400E4;
    s.DPTCH = 0x800;
    s.COLOR1 = 0xFFFF;
    return s;
}

/* "DADDR 004400E4h, DPTCH 800h, PSIZE 4, OFFSET 0: 22390h." */
static void test_linear_figure(void)
{
    struct settings s = figure_settings();
    check("linear figure",
          xy_linear(&s, x_half(s.DADDR), y_half(s.DADDR), s.DPTCH) == 0x22390);
}

/* "The same with WSTART 004900EBh, WEND 005F0140h, DYDX 0014003Ch, W=3: 53 by 15, 795 pixels, start
   24BACh, V=1, DADDR at the end 2C3ACh. 11,208 words are enough; 11,207 give 17." */
static void test_window_figure(void)
{
    struct settings s = figure_settings();
    s.WSTART = 0x004900EB;
    s.WEND = 0x005F0140;
    s.DYDX = 0x0014003C;
    s.CONTROL = control(0, 3, 0);
    struct rectangle array = { 0xE4, 0x44, 0x3C, 0x14 };
    struct window_answer w = window_rule(&s, array, 0);
    check("window figure, 53 by 15", w.drawn.columns == 53 && w.drawn.rows == 15);
    check("window figure, start",
          xy_linear(&s, w.drawn.x, w.drawn.y, s.DPTCH) == 0x24BAC);
    memset(big, 0, sizeof big);
    memset(other, 0, sizeof other);
    struct draw_answer r = draw(memory_of(big, 11208), FILL_XY, &s, 0, 0, UINT64_MAX);
    check("window figure, answer", r.answer == 0 && r.visited == 795 && r.place == 795);
    check("window figure, V", r.v == 1 && r.request == 0);
    check("window figure, DADDR", r.DADDR == 0x2C3AC);
    check("window figure, others", r.SADDR == s.SADDR && r.DYDX == s.DYDX);
    check("window figure, memory",
          changed_bits(memory_of(big, 11208), memory_of(other, 11208)).count == 795 * 4);
    check("window figure, first and last pixel",
          pixel_get(memory_of(big, 11208), 0x24BAC, 4) == 15
          && pixel_get(memory_of(big, 11208), 0x24BA8, 4) == 0
          && pixel_get(memory_of(big, 11208), 0x2BC7C, 4) == 15);
    r = draw(memory_of(big, 11207), FILL_XY, &s, 0, 0, 1);
    check("window figure, 17", r.answer == 17 && r.v == 0 && r.visited == 0 && r.place == 0
          && r.DADDR == s.DADDR);
}

/* W 1 and 2 over a window that cuts the array. */
static void test_window_1_and_2(void)
{
    struct settings s = figure_settings();
    s.WSTART = 0x004900EB;
    s.WEND = 0x005F0140;
    s.DYDX = 0x0014003C;
    s.CONTROL = control(0, 1, 0);
    memset(big, 0, sizeof big);
    struct draw_answer r = draw(memory_of(big, 1), FILL_XY, &s, 0, 0, 0);
    check("W=1 meets", r.answer == 0 && r.v == 1 && r.request == 1 && r.visited == 0);
    check("W=1 registers", r.DADDR == 0x004900EB && r.DYDX == 0x000F0035);
    s.WSTART = 0x00000000;
    s.WEND = 0x00430140;
    r = draw(memory_of(big, 1), FILL_XY, &s, 0, 1, 0);
    check("W=1 misses", r.answer == 0 && r.v == 0 && r.request == 0 && r.DADDR == s.DADDR
          && r.DYDX == s.DYDX);
    s.CONTROL = control(0, 2, 0);
    r = draw(memory_of(big, 1), FILL_XY, &s, 0, 0, 5);
    check("W=2 outside", r.answer == 0 && r.v == 1 && r.request == 1 && r.visited == 0
          && r.DADDR == s.DADDR);
    r = draw(memory_of(big, 1), FILL_XY, &s, 1, 0, 5);
    check("W=2 outside, 15", r.answer == 15 && r.v == 0 && r.request == 0 && r.place == 1);
    s.WEND = 0x7FFF7FFF;
    r = draw(memory_of(big, WORDS), FILL_XY, &s, 0, 1, 5);
    check("W=2 inside", r.answer == 1 && r.v == 0 && r.request == 0 && r.visited == 5
          && r.DADDR == s.DADDR);
    s.DYDX = 0x00140000;
    for (uint32_t w = 1; w < 4; w++) {
        s.CONTROL = control(0, w, 0);
        r = draw(memory_of(big, 1), FILL_XY, &s, 0, 1, 5);
        check("empty array", r.answer == 0 && r.v == 0 && r.request == 0 && r.DADDR == s.DADDR);
    }
    s.CONTROL = 0;
    r = draw(memory_of(big, 1), FILL_XY, &s, 0, 1, 5);
    check("empty array, W=0", r.answer == 0 && r.v == 1);
}

/* "Letting X + DX wrap at 16 bits" is a slip: an array from 7FFFh on isn't inside. */
static void test_no_wrap_in_xy(void)
{
    struct settings s = plain_settings(1);
    s.DADDR = 0x00007FFE;
    s.DYDX = 0x00018004;
    s.DPTCH = 1u << 16;
    s.WSTART = 0x00000000;
    s.WEND = 0x7FFF7FFF;
    s.CONTROL = control(12, 3, 0);
    memset(big, 0, sizeof big);
    struct draw_answer r = draw(memory_of(big, WORDS), FILL_XY, &s, 0, 0, 100);
    check("X + DX doesn't wrap", r.answer == 0 && r.visited == 2 && r.v == 1
          && big[2047] == 0xC000 && big[0] == 0 && big[2048] == 0);
}

/* Each refusal of a drawing, and that the lowest number is given. */
static void test_refusals(void)
{
    struct settings s = plain_settings(4);
    struct memory m = memory_of(big, 16);
    s.DYDX = 0x00010002;
    check("10", draw(memory_of(big, 0), FILL_L, &s, 0, 0, 9).answer == 10);
    check("10 above", draw(memory_of(big, 1048577), FILL_L, &s, 0, 0, 9).answer == 10);
    s.PSIZE = 3;
    check("11", draw(m, FILL_L, &s, 0, 0, 9).answer == 11);
    s.PSIZE = 4;
    s.CONTROL = control(22, 0, 0);
    check("12, PP", draw(m, FILL_L, &s, 0, 0, 9).answer == 12);
    s.CONTROL = 0x0100;
    check("PBH", draw(m, FILL_L, &s, 0, 0, 9).answer == 0);
    s.CONTROL = 0x0200;
    check("PBV", draw(m, FILL_L, &s, 0, 0, 9).answer == 0);
    s.CONTROL = 0x801F;
    check("other bits of CONTROL", draw(m, FILL_L, &s, 0, 0, 9).answer == 0);
    s.CONTROL = 0;
    s.DPTCH = 48;
    check("13, linear", draw(m, FILL_L, &s, 0, 0, 9).answer == 0);
    check("13, XY", draw(m, FILL_XY, &s, 0, 0, 9).answer == 13);
    s.DPTCH = 8;
    check("13, small", draw(m, FILL_XY, &s, 0, 0, 9).answer == 13
          && draw(m, FILL_L, &s, 0, 0, 9).answer == 13);
    s.DPTCH = 0;
    check("13, none", draw(m, FILL_XY, &s, 0, 0, 9).answer == 13
          && draw(m, FILL_L, &s, 0, 0, 9).answer == 0);
    s.DPTCH = 64;
    s.SPTCH = 7;
    check("13, source", draw(m, PIXBLT_L_L, &s, 0, 0, 9).answer == 13
          && draw(m, PIXBLT_XY_L, &s, 0, 0, 9).answer == 13
          && draw(m, PIXBLT_B_L, &s, 0, 0, 9).answer == 0
          && draw(m, FILL_XY, &s, 0, 0, 9).answer == 0);
    s.SPTCH = 64;
    s.CONTROL = control(0, 1, 0);
    s.WSTART = 0x00010000;
    check("14, start beyond end", draw(m, FILL_XY, &s, 0, 0, 9).answer == 14);
    check("14, linear", draw(m, PIXBLT_XY_L, &s, 0, 0, 9).answer == 0);
    s.WSTART = 0xFFFF0000;
    check("14, negative", draw(m, FILL_XY, &s, 9, 0, 9).answer == 14);
    s.CONTROL = 0;
    check("14, W=0", draw(m, FILL_XY, &s, 0, 0, 9).answer == 0);
    check("15", draw(m, FILL_XY, &s, 3, 0, 9).answer == 15);
    s.DADDR = 2;
    check("16, address", draw(m, FILL_L, &s, 0, 0, 9).answer == 16);
    check("15 before 16", draw(m, FILL_L, &s, 3, 0, 9).answer == 15);
    s.DYDX = 2;
    check("16, empty", draw(m, FILL_L, &s, 0, 0, 9).answer == 0);
    s.DYDX = 0x00010002;
    s.DADDR = 0x0000FFFF;
    check("16, negative X", draw(m, FILL_XY, &s, 0, 0, 9).answer == 16);
    s.DADDR = 0;
    s.OFFSET = 2;
    check("16, OFFSET", draw(m, FILL_XY, &s, 0, 0, 9).answer == 16);
    check("16, OFFSET of a source", draw(m, PIXBLT_XY_L, &s, 0, 0, 9).answer == 16);
    s.OFFSET = 0;
    s.SADDR = 0xFFFF0000;
    check("16, source", draw(m, PIXBLT_XY_L, &s, 0, 0, 9).answer == 16);
    check("17, source", draw(m, PIXBLT_L_L, &s, 0, 0, 9).answer == 17);
    s.SADDR = 0;
    s.DADDR = 252;
    check("17, destination", draw(m, FILL_L, &s, 0, 0, 1).answer == 17);
    s.SADDR = 255;
    s.DADDR = 0;
    check("17, bits", draw(m, PIXBLT_B_L, &s, 0, 0, 9).answer == 17);
    s.SADDR = 254;
    check("bits at the end", draw(m, PIXBLT_B_L, &s, 0, 0, 9).answer == 0);
}

/* "and each one reads memory as the ones before left it": a copy one pixel to the right spreads
   the first pixel. */
static void test_serial_rule(void)
{
    uint16_t word[4] = { 0x4321, 0x8765, 0, 0 };
    struct settings s = plain_settings(4);
    s.DADDR = 4;
    s.DYDX = 0x00010007;
    struct draw_answer r = draw(memory_of(word, 4), PIXBLT_L_L, &s, 0, 1, 100);
    check("serial rule", word[0] == 0x1111 && word[1] == 0x1111 && word[2] == 0);
    check("end registers", r.SADDR == 64 && r.DADDR == 68 && r.v == 1 && r.DYDX == s.DYDX);
}

/* B sources: COLOR1 for 1, COLOR0 for 0, at the destination's place. */
static void test_binary_source(void)
{
    uint16_t word[4] = { 0, 0, 0x000D, 0 };
    struct settings s = plain_settings(4);
    s.SADDR = 32;
    s.SPTCH = 1;
    s.DPTCH = 16;
    s.COLOR0 = 0xFFFF4321;
    s.COLOR1 = 0xFFFF8765;
    s.DYDX = 0x00020002;
    struct draw_answer r = draw(memory_of(word, 4), PIXBLT_B_L, &s, 0, 0, 100);
    check("B source", word[0] == 0x0025 && word[1] == 0x0061 && word[2] == 0x000D);
    check("B source, registers", r.SADDR == 34 && r.DADDR == 32);
}

/* "Clipping moves the source start by the same columns and rows, unwrapped in XY." */
static void test_clipped_source(void)
{
    struct settings s = plain_settings(8);
    s.DPTCH = 64;
    s.SPTCH = 128;
    s.DADDR = xy_number(-3, -1);
    s.SADDR = xy_number(-2, -1);
    s.OFFSET = 1024;
    s.DYDX = 0x00030008;
    s.WSTART = 0;
    s.WEND = 0x00050005;
    s.CONTROL = control(0, 3, 0);
    memset(big, 0, sizeof big);
    for (int i = 0; i < 32; i++)
        big[64 + i] = (uint16_t)(0x4000 + i);
    struct draw_answer r = draw(memory_of(big, 96), PIXBLT_XY_XY, &s, 0, 0, 1000);
    /* Columns 3 to 7 and rows 1 and 2 are left: the source starts at 1, 0. */
    check("clipped source", r.answer == 0 && r.visited == 10 && r.v == 1);
    check("clipped source, registers", r.DADDR == 1024 + 2 * 64 && r.SADDR == 1024 + 8 + 2 * 128);
    check("clipped source, word", big[64] == 0x0140 && big[65] == 0x0240);
    s.SADDR = xy_number(-4, -1);
    check("clipped source, negative", draw(memory_of(big, 96), PIXBLT_XY_XY, &s, 0, 0, 1).answer
          == 16);
    s.SADDR = 96;
    r = draw(memory_of(big, 96), PIXBLT_B_XY, &s, 0, 0, 1000);
    check("clipped B source", r.answer == 0 && r.SADDR == 96 + 128 + 3 + 2 * 128);
    r = draw(memory_of(big, 96), PIXBLT_L_XY, &s, 0, 0, 1000);
    check("clipped linear source", r.answer == 0 && r.SADDR == 96 + 128 + 3 * 8 + 2 * 128);
}

/* "row addresses wrap modulo 2^32": a pitch near 2^32 walks towards lower addresses. */
static void test_wrapping_pitch(void)
{
    uint16_t word[4] = { 0, 0, 0, 0 };
    struct settings s = plain_settings(16);
    s.DADDR = 48;
    s.DPTCH = 0xFFFFFFF0u;
    s.COLOR1 = 0x1234;
    s.DYDX = 0x00030001;
    struct draw_answer r = draw(memory_of(word, 4), FILL_L, &s, 0, 0, 100);
    check("wrapping pitch", r.answer == 0 && word[0] == 0 && word[1] == 0x1234
          && word[2] == 0x1234 && word[3] == 0x1234 && r.DADDR == 0);
}

/* Budget 0, the place at the end, and slices against the whole drawing. */
static void test_slices(void)
{
    struct settings s = plain_settings(4);
    s.DADDR = 8;
    s.SADDR = 0;
    s.SPTCH = 32;
    s.DPTCH = 48;
    s.DYDX = 0x00050007;
    s.PMASK = 0x2401;
    s.CONTROL = control(16, 0, 1);
    image_make(memory_of(big, 40), 77);
    image_make(memory_of(other, 40), 77);
    struct draw_answer whole = draw(memory_of(big, 40), PIXBLT_L_L, &s, 0, 0, 35);
    check("whole", whole.answer == 0 && whole.visited == 35);
    struct draw_answer r = draw(memory_of(other, 40), PIXBLT_L_L, &s, 0, 0, 0);
    check("budget 0", r.answer == 1 && r.visited == 0 && r.place == 0 && r.DADDR == s.DADDR);
    uint64_t place = 0;
    while (place < 35) {
        r = draw(memory_of(other, 40), PIXBLT_L_L, &s, place, 0, 4);
        check("slice", r.place - place == r.visited && r.answer == (r.place == 35 ? 0 : 1));
        place = r.place;
    }
    check("slices", memcmp(big, other, 80) == 0 && r.DADDR == whole.DADDR
          && r.SADDR == whole.SADDR);
    r = draw(memory_of(other, 40), PIXBLT_L_L, &s, 35, 0, 0);
    check("place at the end", r.answer == 0 && r.visited == 0 && r.DADDR == whole.DADDR
          && memcmp(big, other, 80) == 0);
    r = draw(memory_of(other, 40), PIXBLT_L_L, &s, ((uint64_t)1 << 32) + 1, 0, 0);
    check("place of 64 bits", r.answer == 15 && r.place == ((uint64_t)1 << 32) + 1);
}

/* ---- Starting corners ---- */

#define PBH 0x0100
#define PBV 0x0200

/* One starting corner of an array of 3 by 2 pixels of 4 bits. The source's rows start at 72 and
   136 (SPTCH 64), its pixels are 1, 2, 3 and 4, 5, 6. The destination's rows start at 404 and 532
   (DPTCH 128). */
struct corner_case {
    uint16_t bits;
    uint32_t source;          /* the corner's pixels, which L,L is given */
    uint32_t destination;
    uint32_t value[6];        /* the source pixels in the order of the visits */
    uint32_t address[6];      /* the destination pixels in that order */
    uint32_t SADDR;           /* at the end */
    uint32_t DADDR;
};

static const struct corner_case corner_cases[4] = {
    /* Ends: 72 + 2*64, 404 + 2*128. */
    { 0, 72, 404, { 1, 2, 3, 4, 5, 6 }, { 404, 408, 412, 532, 536, 540 }, 200, 660 },
    /* Corner: 72 + 2*4, 404 + 2*4. Ends: 80 + 2*64, 412 + 2*128. */
    { PBH, 80, 412, { 3, 2, 1, 6, 5, 4 }, { 412, 408, 404, 540, 536, 532 }, 208, 668 },
    /* Corner: 72 + 64, 404 + 128. Ends: 136 - 2*64, 532 - 2*128. */
    { PBV, 136, 532, { 4, 5, 6, 1, 2, 3 }, { 532, 536, 540, 404, 408, 412 }, 8, 276 },
    /* Corner: 72 + 64 + 2*4, 404 + 128 + 2*4. Ends: 144 - 2*64, 540 - 2*128. */
    { PBH | PBV, 144, 540, { 6, 5, 4, 3, 2, 1 }, { 540, 536, 532, 412, 408, 404 }, 16, 284 }
};

/* The last pixel has the bits 540 to 543. */
#define CORNER_WORDS 34

/* The memory before: 1, 2, 3 are the bits 72 to 83, and 4, 5, 6 the bits 136 to 147. */
static void corner_memory(uint16_t *word)
{
    memset(word, 0, CORNER_WORDS * sizeof word[0]);
    word[4] = 0x2100;
    word[5] = 0x0003;
    word[8] = 0x5400;
    word[9] = 0x0006;
}

/* The same arrays for each operation: 2, 1 is 64 + 8, and 5, 3 is 3*128 + 20. */
static struct settings corner_settings(enum operation op, const struct corner_case *c)
{
    struct settings s = plain_settings(4);
    s.DPTCH = 128;
    s.DYDX = xy_number(3, 2);
    s.SADDR = op == PIXBLT_XY_L || op == PIXBLT_XY_XY ? xy_number(2, 1) : 72;
    s.DADDR = op == PIXBLT_L_XY || op == PIXBLT_XY_XY ? xy_number(5, 3) : 404;
    if (op == PIXBLT_L_L) {
        s.SADDR = c->source;
        s.DADDR = c->destination;
    }
    s.CONTROL = c->bits;
    return s;
}

/* Whether the visit at place k, a call with a budget of 1, writes this value at this address and
   changes nothing else. */
static bool visit_is(enum operation op, const struct settings *s, uint64_t k, uint32_t address,
                     uint32_t value)
{
    uint16_t word[CORNER_WORDS];
    uint16_t expected[CORNER_WORDS];
    corner_memory(word);
    corner_memory(expected);
    pixel_put(memory_of(expected, CORNER_WORDS), address, 4, value);
    struct draw_answer r = draw(memory_of(word, CORNER_WORDS), op, s, k, 0, 1);
    return r.answer == (k == 5 ? DONE : STOPPED) && r.visited == 1 && r.place == k + 1
        && memcmp(word, expected, sizeof word) == 0;
}

/* Whether the whole drawing of 6 pixels ends with V and these registers. */
static bool end_is(enum operation op, const struct settings *s, int v, uint32_t SADDR,
                   uint32_t DADDR)
{
    uint16_t word[CORNER_WORDS];
    corner_memory(word);
    struct draw_answer r = draw(memory_of(word, CORNER_WORDS), op, s, 0, 0, 100);
    return r.answer == DONE && r.visited == 6 && r.v == v && r.request == 0 && r.SADDR == SADDR
        && r.DADDR == DADDR && r.DYDX == s->DYDX;
}

/* "PBH=1 walks each row from its right end, PBV=1 walks rows from the last one up." Each visit and
   the ends of the four operations; with a word less the pixels from 528 on are outside. */
static void test_corners(void)
{
    for (int op = PIXBLT_L_L; op <= PIXBLT_XY_XY; op++) {
        for (int i = 0; i < 4; i++) {
            const struct corner_case *c = &corner_cases[i];
            struct settings s = corner_settings((enum operation)op, c);
            uint16_t word[CORNER_WORDS];
            corner_memory(word);
            for (int k = 0; k < 6; k++)
                check("corner, visit", visit_is((enum operation)op, &s, (uint64_t)k,
                                                c->address[k], c->value[k]));
            check("corner, end", end_is((enum operation)op, &s, 0, c->SADDR, c->DADDR));
            check("corner, 17", draw(memory_of(word, CORNER_WORDS - 1), (enum operation)op, &s, 0,
                                     0, 0).answer == 17);
            struct draw_answer r = draw(memory_of(word, CORNER_WORDS), (enum operation)op, &s, 0,
                                        0, 5);
            check("corner, stopped", r.answer == STOPPED && r.place == 5 && r.SADDR == s.SADDR
                  && r.DADDR == s.DADDR);
        }
    }
}

/* An array of 5 by 4 from 4, 2 on, whose window leaves the 3 by 2 pixels from 5, 3 on. The source
   starts at 1, 0, which is the address 4, and moves by one column and one row: 4 + 64 + 4. */
static struct settings clipped_corner_settings(enum operation op, uint32_t w, uint16_t bits)
{
    struct settings s = plain_settings(4);
    s.DPTCH = 128;
    s.DYDX = xy_number(5, 4);
    s.SADDR = op == PIXBLT_XY_XY ? xy_number(1, 0) : 4;
    s.DADDR = xy_number(4, 2);
    s.WSTART = xy_number(5, 3);
    s.WEND = xy_number(7, 4);
    s.CONTROL = (uint16_t)(control(0, w, 0) | bits);
    return s;
}

/* "walks to the corner linearly from the clipped array's upper left start": W=3 leaves the arrays
   of the corner cases. W=1 reports the upper left, whatever the corner. */
static void test_clipped_corners(void)
{
    static const enum operation ops[2] = { PIXBLT_L_XY, PIXBLT_XY_XY };
    for (int i = 0; i < 8; i++) {
        enum operation op = ops[i / 4];
        const struct corner_case *c = &corner_cases[i % 4];
        struct settings s = clipped_corner_settings(op, 3, c->bits);
        uint16_t word[CORNER_WORDS] = { 0 };
        for (int k = 0; k < 6; k++)
            check("clipped corner, visit",
                  visit_is(op, &s, (uint64_t)k, c->address[k], c->value[k]));
        check("clipped corner, end", end_is(op, &s, 1, c->SADDR, c->DADDR));
        s = clipped_corner_settings(op, 1, c->bits);
        struct draw_answer r = draw(memory_of(word, CORNER_WORDS), op, &s, 0, 0, 100);
        check("corner, W=1", r.answer == 0 && r.visited == 0 && r.v == 1 && r.request == 1
              && r.SADDR == s.SADDR && r.DADDR == 0x00030005 && r.DYDX == 0x00020003);
        s = clipped_corner_settings(op, 2, c->bits);
        r = draw(memory_of(word, CORNER_WORDS), op, &s, 0, 0, 100);
        check("corner, W=2 outside", r.answer == 0 && r.visited == 0 && r.v == 1
              && r.request == 1 && r.SADDR == s.SADDR && r.DADDR == s.DADDR);
    }
}

/* "B sources, FILL, PIXT and DRAV ignore both bits." FILL draws 15 from 404 to 540. The B source's
   bits 72 to 74 are 1, 0, 0 (of 21h), and 136 to 138 are 0, 0, 1 (of 54h). */
static void test_corners_ignored(void)
{
    for (int i = 0; i < 4; i++) {
        struct settings s = plain_settings(4);
        s.DPTCH = 128;
        s.DYDX = xy_number(3, 2);
        s.COLOR0 = 0x7777;
        s.COLOR1 = 0xFFFF;
        s.CONTROL = corner_cases[i].bits;
        s.DADDR = 404;
        s.SADDR = 72;
        check("FILL L ignores the corner", visit_is(FILL_L, &s, 0, 404, 15)
              && visit_is(FILL_L, &s, 5, 540, 15) && end_is(FILL_L, &s, 0, 72, 660));
        check("B,L ignores the corner", visit_is(PIXBLT_B_L, &s, 0, 404, 15)
              && visit_is(PIXBLT_B_L, &s, 1, 408, 7) && visit_is(PIXBLT_B_L, &s, 3, 532, 7)
              && visit_is(PIXBLT_B_L, &s, 5, 540, 15) && end_is(PIXBLT_B_L, &s, 0, 200, 660));
        s.DADDR = xy_number(5, 3);
        check("FILL XY ignores the corner", visit_is(FILL_XY, &s, 0, 404, 15)
              && visit_is(FILL_XY, &s, 5, 540, 15) && end_is(FILL_XY, &s, 0, 72, 660));
        check("B,XY ignores the corner", visit_is(PIXBLT_B_XY, &s, 0, 404, 15)
              && visit_is(PIXBLT_B_XY, &s, 1, 408, 7) && visit_is(PIXBLT_B_XY, &s, 3, 532, 7)
              && visit_is(PIXBLT_B_XY, &s, 5, 540, 15) && end_is(PIXBLT_B_XY, &s, 0, 200, 660));
    }
}

/* PIXT and DRAV under all four corners: the pixel at 8 of 4321h is 3. */
static void test_corners_of_lone_pixels(void)
{
    for (int i = 0; i < 4; i++) {
        uint16_t word[4] = { 0x4321, 0, 0, 0 };
        struct memory m = memory_of(word, 4);
        struct settings s = plain_settings(4);
        s.COLOR1 = 0x8765;
        s.CONTROL = corner_cases[i].bits;
        struct pixt_answer r = pixt_from_linear(m, &s, 8, 0);
        check("PIXT from linear, corner", r.answer == 0 && r.visited == 1 && r.value == 3);
        r = pixt_from_xy(m, &s, xy_number(2, 0), 0);
        check("PIXT from XY, corner", r.answer == 0 && r.visited == 1 && r.value == 3);
        r = pixt_to_linear(m, &s, 9, 8, 0);
        check("PIXT to linear, corner", r.answer == 0 && r.visited == 1 && word[0] == 0x4921);
        r = pixt_to_xy(m, &s, 10, xy_number(1, 0), 0);
        check("PIXT to XY, corner", r.answer == 0 && r.visited == 1 && word[0] == 0x49A1);
        struct drav_answer d = drav(m, &s, 1, xy_number(3, 0), 0);
        check("DRAV, corner", d.answer == 0 && d.visited == 1 && d.point == 4
              && word[0] == 0x89A1);
    }
}

/* "12 is given from now on only for PP above 21", for every call. */
static void test_corner_refusal_12(void)
{
    for (int i = 0; i < 4; i++) {
        uint16_t word[16] = { 0 };
        struct memory m = memory_of(word, 16);
        struct settings s = plain_settings(4);
        s.DYDX = xy_number(1, 1);
        for (int op = 0; op < OPERATIONS; op++) {
            s.CONTROL = (uint16_t)(control(21, 0, 0) | corner_cases[i].bits);
            check("PP 21, corner", draw(m, (enum operation)op, &s, 0, 0, 9).answer == 0);
            s.CONTROL = (uint16_t)(control(22, 0, 0) | corner_cases[i].bits);
            check("12, corner", draw(m, (enum operation)op, &s, 0, 0, 9).answer == 12);
        }
        check("12, PIXT and DRAV", pixt_from_linear(m, &s, 0, 0).answer == 12
              && pixt_from_xy(m, &s, 0, 0).answer == 12
              && pixt_to_linear(m, &s, 0, 0, 0).answer == 12
              && pixt_to_xy(m, &s, 0, 0, 0).answer == 12 && drav(m, &s, 0, 0, 0).answer == 12);
    }
}

/* Refusals 15 and 16 with corners. 16 looks at the upper left: from -1 on, 3 columns reach 1, and
   still it is given. */
static void test_corner_starts(void)
{
    uint16_t word[CORNER_WORDS] = { 0 };
    struct memory m = memory_of(word, CORNER_WORDS);
    for (int i = 0; i < 4; i++) {
        const struct corner_case *c = &corner_cases[i];
        struct settings s = corner_settings(PIXBLT_XY_XY, c);
        check("15, corner", draw(m, PIXBLT_XY_XY, &s, 7, 0, 9).answer == 15);
        s.DADDR = xy_number(-1, 3);
        check("16, corner, negative X", draw(m, PIXBLT_XY_XY, &s, 0, 0, 9).answer == 16);
        s.DADDR = xy_number(5, -1);
        check("16, corner, negative Y", draw(m, PIXBLT_XY_XY, &s, 0, 0, 9).answer == 16);
        s.DADDR = xy_number(5, 3);
        s.SADDR = xy_number(-1, -1);
        check("16, corner, source", draw(m, PIXBLT_XY_XY, &s, 0, 0, 9).answer == 16);
        s = corner_settings(PIXBLT_L_L, c);
        s.DADDR = c->destination + 2;
        check("16, corner, L,L", draw(m, PIXBLT_L_L, &s, 0, 0, 9).answer == 16);
        s.DADDR = c->destination;
        s.SADDR = c->source + 1;
        check("16, corner, L,L source", draw(m, PIXBLT_L_L, &s, 0, 0, 9).answer == 16);
        s.DYDX = xy_number(3, 0);
        struct draw_answer r = draw(m, PIXBLT_L_L, &s, 0, 0, 9);
        check("empty, corner", r.answer == 0 && r.SADDR == s.SADDR && r.DADDR == s.DADDR);
    }
}

/* The answer of L,L from these two corners over 34 words, the pitches 64, with a budget of 0. */
static int answer_of_l_l(uint16_t bits, uint32_t SADDR, uint32_t DADDR, int columns, int rows)
{
    uint16_t word[CORNER_WORDS] = { 0 };
    struct settings s = plain_settings(4);
    s.SADDR = SADDR;
    s.DADDR = DADDR;
    s.DYDX = xy_number(columns, rows);
    s.CONTROL = bits;
    return draw(memory_of(word, CORNER_WORDS), PIXBLT_L_L, &s, 0, 0, 0).answer;
}

/* Refusal 17: three pixels that fall from 8 are at 8, 4 and 0, from 4 the last one is at 2^32 - 4.
   Three rows that fall from 128 are at 128, 64 and 0, from 64 the last one is at 2^32 - 64. At 540
   lies the last pixel of 34 words. */
static void test_corner_refusal_17(void)
{
    check("PBH down to 0", answer_of_l_l(PBH, 8, 8, 3, 1) == STOPPED);
    check("PBH below 0, destination", answer_of_l_l(PBH, 8, 4, 3, 1) == 17);
    check("PBH below 0, source", answer_of_l_l(PBH, 4, 8, 3, 1) == 17);
    check("PBH=0 from 4", answer_of_l_l(0, 4, 4, 3, 1) == STOPPED);
    check("PBV down to 0", answer_of_l_l(PBV, 128, 128, 1, 3) == STOPPED);
    check("PBV below 0, destination", answer_of_l_l(PBV, 128, 64, 1, 3) == 17);
    check("PBV below 0, source", answer_of_l_l(PBV, 64, 128, 1, 3) == 17);
    check("PBV=0 from 64", answer_of_l_l(0, 64, 64, 1, 3) == STOPPED);
    check("both from the end", answer_of_l_l(PBH | PBV, 540, 540, 3, 3) == STOPPED);
    check("PBH=0 at the end", answer_of_l_l(PBV, 540, 540, 3, 3) == 17);
    check("PBV=0 at the end", answer_of_l_l(PBH, 540, 540, 3, 3) == 17);
}

/* The four scrolls of a row of 8 pixels of 4 bits, 7 of them moved by one, in XY,XY. The second
   word of each pair holds the pixels 4 to 7. */
static void test_corner_scroll_row(void)
{
    static const uint16_t bits[4] = { PBH, 0, 0, PBH };
    static const uint32_t from[4] = { 0, 0, 1, 1 };
    static const uint16_t low[4] = { 0x3211, 0x1111, 0x5432, 0x8888 };
    static const uint16_t high[4] = { 0x7654, 0x1111, 0x8876, 0x8888 };
    for (int i = 0; i < 4; i++) {
        uint16_t word[4] = { 0x4321, 0x8765, 0, 0 };
        struct settings s = plain_settings(4);
        s.SADDR = from[i];
        s.DADDR = 1 - from[i];
        s.DYDX = xy_number(7, 1);
        s.CONTROL = bits[i];
        draw(memory_of(word, 4), PIXBLT_XY_XY, &s, 0, 0, 100);
        check("scroll of a row", word[0] == low[i] && word[1] == high[i]);
    }
    /* L,L to the right: the right ends are the pixels at 24 and 28; ends 24 + 64 and 28 + 64. */
    uint16_t word[4] = { 0x4321, 0x8765, 0, 0 };
    struct settings s = plain_settings(4);
    s.SADDR = 24;
    s.DADDR = 28;
    s.DYDX = xy_number(7, 1);
    s.CONTROL = PBH;
    struct draw_answer r = draw(memory_of(word, 4), PIXBLT_L_L, &s, 0, 0, 100);
    check("scroll of a row, L,L", word[0] == 0x3211 && word[1] == 0x7654 && word[2] == 0);
    check("scroll of a row, L,L, ends", r.SADDR == 88 && r.DADDR == 92);
}

/* The four scrolls of a column of four words, 3 of them moved by one, in XY,XY. */
static void test_corner_scroll_column(void)
{
    static const uint16_t bits[4] = { PBV, 0, 0, PBV };
    static const int from[4] = { 0, 0, 1, 1 };
    static const uint16_t after[4][4] = {
        { 1, 1, 2, 3 }, { 1, 1, 1, 1 }, { 2, 3, 4, 4 }, { 4, 4, 4, 4 }
    };
    for (int i = 0; i < 4; i++) {
        uint16_t word[4] = { 1, 2, 3, 4 };
        struct settings s = plain_settings(16);
        s.SPTCH = 16;
        s.DPTCH = 16;
        s.SADDR = xy_number(0, from[i]);
        s.DADDR = xy_number(0, 1 - from[i]);
        s.DYDX = xy_number(1, 3);
        s.CONTROL = bits[i];
        draw(memory_of(word, 4), PIXBLT_XY_XY, &s, 0, 0, 100);
        check("scroll of a column", memcmp(word, after[i], sizeof word) == 0);
    }
}

/* Down and to the right, 3 by 2 pixels of rows 1, 2, 3, 4; 5, 6, 7, 8; 9, 10, 11, 12. From the last
   row up, the rows become 5, 1, 2, 3 and 9, 5, 6, 7; from the first one down, the last row takes
   its pixels from 5, 1, 2. */
static void test_corner_scroll_diagonal(void)
{
    static const uint16_t last[4] = { 0x2159, 0x2159, 0x7659, 0x7659 };
    for (int i = 0; i < 4; i++) {
        uint16_t word[3] = { 0x4321, 0x8765, 0xCBA9 };
        struct settings s = plain_settings(4);
        s.SPTCH = 16;
        s.DPTCH = 16;
        s.DADDR = xy_number(1, 1);
        s.DYDX = xy_number(3, 2);
        s.CONTROL = corner_cases[i].bits;
        draw(memory_of(word, 3), PIXBLT_XY_XY, &s, 0, 0, 100);
        check("scroll down and right",
              word[0] == 0x4321 && word[1] == 0x3215 && word[2] == last[i]);
    }
}

/* The pixel at x, y of a screen with rows of 64 bits. */
static uint32_t screen_pixel(uint16_t *word, int x, int y)
{
    return pixel_get(memory_of(word, 40), (uint32_t)(64 * y + 4 * x), 4);
}

/* "leaves the old source in all it draws, if the corner's walk rises in address from pixel to pixel
   where each destination pixel lies below its source pixel, and falls where it lies above": 5 by 4
   pixels from 4, 3 on, moved by up to 2 columns and rows. */
static void test_corner_keeps_source(void)
{
    for (int move = 0; move < 25; move++) {
        int dx = move % 5 - 2;
        int dy = move / 5 - 2;
        struct settings s = plain_settings(4);
        s.SADDR = xy_number(4, 3);
        s.DADDR = xy_number(4 + dx, 3 + dy);
        s.DYDX = xy_number(5, 4);
        s.CONTROL = 64 * dy + 4 * dx > 0 ? PBH | PBV : 0;
        image_make(memory_of(big, 40), 5);
        image_make(memory_of(other, 40), 5);
        draw(memory_of(big, 40), PIXBLT_XY_XY, &s, 0, 0, 100);
        bool kept = true;
        for (int y = 3; y < 7; y++) {
            for (int x = 4; x < 9; x++) {
                if (screen_pixel(big, x + dx, y + dy) != screen_pixel(other, x, y))
                    kept = false;
            }
        }
        check("the old source is kept", kept);
    }
}

/* "modulo 2^32": rows that lie 16 bits above one another. L,XY, PBV=1: the source's upper left is
   48, its rows 48, 32, 16; the corner is 48 - 2*16, the end 16 + 3*16. The destination's rows are
   64, 80, 96; the corner is 96, the end 96 - 3*16. */
static void test_corner_wrapping_pitch(void)
{
    static const uint16_t after[7] = { 0, 1, 2, 3, 3, 2, 1 };
    uint16_t word[7] = { 0, 1, 2, 3, 0, 0, 0 };
    struct settings s = plain_settings(16);
    s.SADDR = 48;
    s.SPTCH = 0xFFFFFFF0u;
    s.DADDR = xy_number(0, 4);
    s.DPTCH = 16;
    s.DYDX = xy_number(1, 3);
    s.CONTROL = PBV;
    struct draw_answer r = draw(memory_of(word, 7), PIXBLT_L_XY, &s, 0, 0, 1);
    check("corner, wrapping pitch, first", r.answer == 1 && word[6] == 1 && word[4] == 0);
    r = draw(memory_of(word, 7), PIXBLT_L_XY, &s, 1, 0, 100);
    check("corner, wrapping pitch", memcmp(word, after, sizeof word) == 0 && r.SADDR == 64
          && r.DADDR == 48);
    /* L,L: two rows that fall from 64 are at 64 and 0; the ends are 64 - 2*64. */
    s = plain_settings(16);
    s.SADDR = 64;
    s.DADDR = 64;
    s.DYDX = xy_number(1, 2);
    s.CONTROL = PBV;
    r = draw(memory_of(word, 7), PIXBLT_L_L, &s, 0, 0, 100);
    check("corner, end below 0", r.answer == 0 && r.SADDR == 0xFFFFFFC0u
          && r.DADDR == 0xFFFFFFC0u);
}

/* Slices of 4 pixels against the whole drawing, over arrays that overlap, from each corner: the
   upper left pixels lie at 64 and 72, the corner 6*4 to the right and 4*64 below. */
static void test_corner_slices(void)
{
    for (int i = 0; i < 4; i++) {
        struct settings s = plain_settings(4);
        uint32_t to_corner = (i % 2 == 1 ? 24u : 0u) + (i / 2 == 1 ? 256u : 0u);
        s.SADDR = 64 + to_corner;
        s.DADDR = 72 + to_corner;
        s.DYDX = xy_number(7, 5);
        s.PMASK = 0x2401;
        s.CONTROL = (uint16_t)(control(16, 0, 1) | corner_cases[i].bits);
        image_make(memory_of(big, 40), 77);
        image_make(memory_of(other, 40), 77);
        struct draw_answer whole = draw(memory_of(big, 40), PIXBLT_L_L, &s, 0, 0, 35);
        struct draw_answer r = draw(memory_of(other, 40), PIXBLT_L_L, &s, 0, 0, 4);
        while (r.answer == STOPPED)
            r = draw(memory_of(other, 40), PIXBLT_L_L, &s, r.place, 0, 4);
        check("corner, slices", whole.answer == 0 && r.answer == 0 && r.place == 35
              && memcmp(big, other, 80) == 0 && r.SADDR == whole.SADDR
              && r.DADDR == whole.DADDR);
    }
}

/* ---- FILL timing ---- */

/* Whether a drawing over this many words is done and has these four numbers. */
static bool fill_is(uint64_t words, enum operation op, const struct settings *s, uint64_t setup,
                    uint64_t transfer, uint64_t adjustment, uint64_t states)
{
    struct fill_answer r = fill_states(words, op, s);
    return r.answer == 0 && r.setup == setup && r.transfer == transfer
        && r.adjustment == adjustment && r.states == states;
}

/* Whether a drawing over 1000 words has this answer and no states. */
static bool fill_is_nothing(enum operation op, const struct settings *s, int answer)
{
    struct fill_answer r = fill_states(1000, op, s);
    return r.answer == answer && r.setup == 0 && r.transfer == 0 && r.adjustment == 0
        && r.states == 0;
}

/* Examples 13-1 to 13-3: 483, 1,113 and 1,293 states. Start adjust, L=15, N=14, alignment C.
   G=2: 16 + (3 + 14*2)15 + 2 = 16 + 467. G=5: 16 + (3 + 14*5)15 + 2 = 16 + 1097.
   G=6: 16 + (3 + 14*6)15 + 2 - 2*15 = 16 + 1307 - 30. */
static void test_fill_examples(void)
{
    struct settings s = figure_settings();
    s.WSTART = 0x004900EB;
    s.WEND = 0x005F0140;
    s.DYDX = 0x0014003C;
    s.CONTROL = control(0, 3, 0);
    check("example 13-1", fill_is(11208, FILL_XY, &s, 16, 467, 0, 483));
    check("example 13-1, 17", fill_states(11207, FILL_XY, &s).answer == 17
          && fill_states(11207, FILL_XY, &s).states == 0);
    s.CONTROL = control(20, 3, 0);
    check("example 13-2", fill_is(11208, FILL_XY, &s, 16, 1097, 0, 1113));
    s.CONTROL = control(5, 3, 1);
    s.PMASK = 0x8888;
    check("example 13-3", fill_is(11208, FILL_XY, &s, 16, 1307, 30, 1293));
    s.CONTROL = (uint16_t)(s.CONTROL | 0x8000);
    check("example 13-3, CD", fill_is(11208, FILL_XY, &s, 19, 1307, 30, 1296));
    s.CONTROL = (uint16_t)(s.CONTROL | PBH | PBV);
    check("example 13-3, CD and corner", fill_is(11208, FILL_XY, &s, 19, 1307, 30, 1296));
}

/* A FILL L of rows of pixels of 4 bits, with what table 13-6 gives for it. */
struct fill_case {
    uint32_t address;
    uint32_t columns;
    uint64_t transfer;  /* replace, G=2 */
    uint64_t masked;    /* the same with G=4 */
    uint64_t adjustment;
};

/* Three rows each: the first and the last bit of a row, then the two transfers. */
static const struct fill_case fill_cases[14] = {
    { 0, 4, 11, 17, 0 },    /* 0 to 15, short A: (1+2)3 + 2; (1+4)3 + 2 */
    { 0, 2, 14, 20, 6 },    /* 0 to 7, short B: (2+2)3 + 2; (2+4)3 + 2 */
    { 8, 2, 13, 19, 6 },    /* 8 to 15, short C: (2+2)3 + 1; (2+4)3 + 1 */
    { 4, 2, 13, 19, 12 },   /* 4 to 11, short D: (2+2)3 + 1; (2+4)3 + 1 */
    { 16, 8, 20, 32, 0 },   /* 16 to 47, medium A: (2+4)3 + 2; (2+8)3 + 2 */
    { 16, 5, 23, 35, 6 },   /* 16 to 35, medium B: (3+4)3 + 2; (3+8)3 + 2 */
    { 28, 5, 23, 35, 6 },   /* 28 to 47, medium C: (3+4)3 + 2; (3+8)3 + 2 */
    { 28, 2, 25, 37, 12 },  /* 28 to 35, medium D: (4+4)3 + 1; (4+8)3 + 1 */
    { 0, 12, 23, 41, 0 },   /* 0 to 47, long A, N=3: (1+6)3 + 2; (1+12)3 + 2 */
    { 0, 9, 29, 47, 6 },    /* 0 to 35, long B, N=3: (2+6)3 + 5; (2+12)3 + 5 */
    { 12, 9, 29, 47, 6 },   /* 12 to 47, long C, N=3: (3+6)3 + 2; (3+12)3 + 2 */
    { 12, 6, 31, 49, 12 },  /* 12 to 35, long D, N=3: (4+6)3 + 1; (4+12)3 + 1 */
    { 12, 14, 43, 73, 12 }, /* 12 to 67, long D, N=5: (4+10)3 + 1; (4+20)3 + 1 */
    { 48, 17, 41, 71, 6 }   /* 48 to 115, long B, N=5: (2+10)3 + 5; (2+20)3 + 5 */
};

/* Table 13-6: replace, then with T, with PMASK, and with both, which count once; CD adds 3. */
static void test_fill_transfer(void)
{
    for (int i = 0; i < 14; i++) {
        const struct fill_case *c = &fill_cases[i];
        struct settings s = plain_settings(4);
        uint64_t states = 4 + c->masked - c->adjustment;
        s.DADDR = c->address;
        s.DYDX = (3u << 16) | c->columns;
        check("table 13-6", fill_is(1000, FILL_L, &s, 4, c->transfer, 0, 4 + c->transfer));
        s.CONTROL = control(0, 0, 1);
        check("table 13-6, T",
              fill_is(1000, FILL_L, &s, 4, c->masked, c->adjustment, states));
        s.PMASK = 0x8000;
        check("table 13-6, T and PMASK",
              fill_is(1000, FILL_L, &s, 4, c->masked, c->adjustment, states));
        s.CONTROL = 0x8000;
        check("table 13-6, PMASK and CD",
              fill_is(1000, FILL_L, &s, 7, c->masked, c->adjustment, 3 + states));
    }
}

/* One row of the other pixel sizes. */
static void test_fill_sizes(void)
{
    struct settings s = plain_settings(16);
    s.DYDX = 0x00010002;
    check("PSIZE 16", fill_is(2, FILL_L, &s, 4, 8, 0, 12));        /* medium A: 2+4 + 2 */
    s.PMASK = 1;
    check("PSIZE 16, PMASK", fill_is(2, FILL_L, &s, 4, 12, 0, 16));  /* 2+8 + 2 */
    s = plain_settings(8);
    s.DADDR = 8;
    s.DYDX = 0x00010002;
    check("PSIZE 8", fill_is(2, FILL_L, &s, 4, 9, 0, 13));         /* 8 to 23, medium D: 4+4 + 1 */
    s = plain_settings(2);
    s.DADDR = 14;
    s.DYDX = 0x0001000A;
    check("PSIZE 2", fill_is(3, FILL_L, &s, 4, 11, 0, 15));        /* 14 to 33, long D: 4+6 + 1 */
    s = plain_settings(1);
    s.DADDR = 15;
    s.DYDX = 0x00010001;
    check("PSIZE 1", fill_is(1, FILL_L, &s, 4, 5, 0, 9));          /* 15, short C: 2+2 + 1 */
    s.DYDX = 0x00010011;
    check("PSIZE 1, 17 bits", fill_is(2, FILL_L, &s, 4, 9, 0, 13));  /* 15 to 31, C: 3+4 + 2 */
    s.DYDX = 0x00010012;
    check("PSIZE 1, 18 bits", fill_is(3, FILL_L, &s, 4, 11, 0, 15)); /* 15 to 32, D: 4+6 + 1 */
}

/* Table 13-7 over one row of 12 to 47, long C, N=3: (3 + 3G) + 2, which is 11, 17, 20 or 23 for G
   of 2, 4, 5 or 6, and 17, 23, 26 or 29 for G of 4, 6, 7 or 8, less 2. */
static void test_fill_graphics(void)
{
    static const uint64_t plain[22] = { 11, 17, 17, 17, 17, 17, 17, 17, 17, 17, 17,
                                        17, 17, 17, 17, 17, 17, 20, 20, 23, 20, 20 };
    static const uint64_t masked[22] = { 17, 23, 23, 23, 23, 23, 23, 23, 23, 23, 23,
                                         23, 23, 23, 23, 23, 23, 26, 26, 29, 26, 26 };
    for (uint32_t pp = 0; pp < 22; pp++) {
        struct settings s = plain_settings(4);
        s.DADDR = 12;
        s.DYDX = 0x00010009;
        s.CONTROL = control(pp, 0, 0);
        check("table 13-7", fill_is(3, FILL_L, &s, 4, plain[pp], 0, 4 + plain[pp]));
        s.PMASK = 0x0100;
        check("table 13-7, PMASK", fill_is(3, FILL_L, &s, 4, masked[pp], 2, 2 + masked[pp]));
        s.PMASK = 0;
        s.CONTROL = control(pp, 0, 1);
        check("table 13-7, T", fill_is(3, FILL_L, &s, 4, masked[pp], 2, 2 + masked[pp]));
    }
}

/* A window over the array of columns 2 to 5 and rows 1 to 3, and what is worked out for it. */
struct window_case {
    uint32_t w;
    int left, top, right, bottom;
    uint64_t setup;
    uint64_t transfer;
};

/* Pixels of 4 bits, so that the whole row has the bits 8 to 23 (medium D). G=2. */
static const struct window_case window_cases[15] = {
    { 0, 9, 9, 0, 0, 6, 25 },     /* W=0, any window: (4+4)3 + 1 */
    { 2, 0, 0, 15, 15, 9, 25 },   /* fits */
    { 2, 2, 1, 5, 3, 9, 25 },     /* fits exactly */
    { 3, 0, 0, 15, 15, 9, 25 },   /* fits */
    { 3, 2, 1, 5, 3, 9, 25 },     /* fits exactly */
    { 3, 4, 0, 15, 15, 16, 14 },  /* start in X; 16 to 23, short B: (2+2)3 + 2 */
    { 3, 0, 2, 15, 15, 16, 17 },  /* start in Y: (4+4)2 + 1 */
    { 3, 4, 3, 15, 15, 16, 6 },   /* start in X and Y: (2+2)1 + 2 */
    { 3, 0, 0, 3, 15, 12, 13 },   /* end in X; 8 to 15, short C: (2+2)3 + 1 */
    { 3, 0, 0, 15, 1, 12, 9 },    /* end in Y: (4+4)1 + 1 */
    { 3, 0, 0, 3, 2, 12, 9 },     /* end in X and Y: (2+2)2 + 1 */
    { 3, 3, 0, 4, 15, 20, 25 },   /* both in X; 12 to 19, medium D: (4+4)3 + 1 */
    { 3, 0, 2, 15, 2, 20, 9 },    /* both in Y: (4+4)1 + 1 */
    { 3, 4, 0, 15, 2, 20, 10 },   /* start in X, end in Y; short B: (2+2)2 + 2 */
    { 3, 0, 2, 3, 15, 20, 9 }     /* start in Y, end in X; short C: (2+2)2 + 1 */
};

/* Settings for such an array. */
static struct settings window_settings(uint32_t w, int left, int top, int right, int bottom)
{
    struct settings s = plain_settings(4);
    s.DADDR = xy_number(2, 1);
    s.DYDX = xy_number(4, 3);
    s.WSTART = xy_number(left, top);
    s.WEND = xy_number(right, bottom);
    s.CONTROL = control(0, w, 0);
    return s;
}

/* Table 13-5, FILL XY, with and without the cache; FILL L has 4 whatever W is. */
static void test_fill_setup(void)
{
    for (int i = 0; i < 15; i++) {
        const struct window_case *c = &window_cases[i];
        struct settings s = window_settings(c->w, c->left, c->top, c->right, c->bottom);
        check("table 13-5",
              fill_is(1000, FILL_XY, &s, c->setup, c->transfer, 0, c->setup + c->transfer));
        s.CONTROL = (uint16_t)(s.CONTROL | 0x8000);
        check("table 13-5, CD", fill_is(1000, FILL_XY, &s, 3 + c->setup, c->transfer, 0,
                                        3 + c->setup + c->transfer));
    }
    for (uint32_t w = 0; w < 4; w++) {
        struct settings s = window_settings(w, 9, 9, 0, 0);
        s.DADDR = 8;
        check("FILL L ignores W", fill_is(1000, FILL_L, &s, 4, 25, 0, 29));
    }
    /* From -2, -1 on, clipped at 0, 0: columns 0 and 1, rows 0 and 1. Short B: (2+2)2 + 2. */
    struct settings s = window_settings(3, 0, 0, 15, 15);
    s.DADDR = xy_number(-2, -1);
    check("start adjust from below 0", fill_is(1000, FILL_XY, &s, 16, 10, 0, 26));
}

/* "For other drawings, refused points and points that visit no pixel it is 0." */
static void test_fill_nothing(void)
{
    struct settings s = window_settings(1, 0, 0, 15, 15);
    check("W=1, hit", fill_is_nothing(FILL_XY, &s, 0));
    s = window_settings(1, 6, 0, 15, 15);
    check("W=1, miss", fill_is_nothing(FILL_XY, &s, 0));
    s.CONTROL = control(0, 3, 0);
    check("W=3, miss", fill_is_nothing(FILL_XY, &s, 0));
    s = window_settings(2, 3, 0, 15, 15);
    check("W=2, miss", fill_is_nothing(FILL_XY, &s, 0));
    for (uint32_t w = 0; w < 4; w++) {
        s = window_settings(w, 0, 0, 15, 15);
        s.DYDX = xy_number(0, 3);
        check("no columns", fill_is_nothing(FILL_XY, &s, 0) && fill_is_nothing(FILL_L, &s, 0));
        s.DYDX = xy_number(4, 0);
        check("no rows", fill_is_nothing(FILL_XY, &s, 0) && fill_is_nothing(FILL_L, &s, 0));
    }
    s = window_settings(0, 0, 0, 15, 15);
    s.DADDR = 0;
    for (int op = PIXBLT_L_L; op <= PIXBLT_B_XY; op++)
        check("PIXBLT", fill_is_nothing((enum operation)op, &s, 0));
    s.SPTCH = 7;
    check("PIXBLT, 13", fill_is_nothing(PIXBLT_L_L, &s, 13));
}

/* What the whole drawing is refused with; the settings 10 to 14, the start 16 and an address 17. */
static void test_fill_refusals(void)
{
    struct settings s = window_settings(0, 0, 0, 15, 15);
    check("FILL timing, 10", fill_states(0, FILL_XY, &s).answer == 10
          && fill_states(0, FILL_XY, &s).states == 0);
    check("FILL timing, 10 above", fill_states(1048577, FILL_XY, &s).answer == 10
          && fill_states(1048577, FILL_XY, &s).states == 0);
    check("FILL timing, most words", fill_is(1048576, FILL_XY, &s, 6, 25, 0, 31));
    /* The last row has the bits 200 to 215, which are in words 12 and 13. */
    check("FILL timing, 14 words", fill_is(14, FILL_XY, &s, 6, 25, 0, 31));
    check("FILL timing, 13 words", fill_states(13, FILL_XY, &s).answer == 17
          && fill_states(13, FILL_XY, &s).states == 0);
    s.DADDR = xy_number(-1, 1);
    check("FILL timing, 16", fill_is_nothing(FILL_XY, &s, 16));
    s.DADDR = 2;
    check("FILL timing, 16, linear", fill_is_nothing(FILL_L, &s, 16));
    s = window_settings(3, 9, 9, 0, 0);
    check("FILL timing, 14", fill_is_nothing(FILL_XY, &s, 14));
    s.DPTCH = 48;
    check("FILL timing, 13", fill_is_nothing(FILL_XY, &s, 13));
    s.CONTROL = control(22, 3, 0);
    check("FILL timing, 12", fill_is_nothing(FILL_XY, &s, 12));
    s.PSIZE = 3;
    check("FILL timing, 11", fill_is_nothing(FILL_XY, &s, 11));
}

/* ---- PIXT and DRAV ---- */

/* "DRAV from 0000FFFFh with step 1, W=3, window from 0,0: not drawn, V=1, new point 0." */
static void test_drav(void)
{
    struct settings s = plain_settings(4);
    uint16_t word[4] = { 0, 0, 0, 0 };
    struct memory m = memory_of(word, 4);
    s.COLOR1 = 0x4321;
    s.WEND = 0x00050005;
    s.CONTROL = control(0, 3, 0);
    struct drav_answer r = drav(m, &s, 1, 0x0000FFFF, 0);
    check("DRAV figure", r.answer == 0 && r.visited == 0 && r.v == 1 && r.request == 0
          && r.point == 0 && word[0] == 0);
    r = drav(m, &s, 0xFFFF0002, 0x00000001, 1);
    check("DRAV draws", r.answer == 0 && r.visited == 1 && r.v == 0 && r.point == 0xFFFF0003
          && word[0] == 0x0020);
    s.CONTROL = 0;
    r = drav(m, &s, 1, 0x0000FFFF, 1);
    check("DRAV refused", r.answer == 16 && r.point == 0x0000FFFF && r.v == 1);
    s.CONTROL = control(0, 1, 0);
    r = drav(m, &s, 1, 0x00000002, 0);
    check("DRAV, W=1", r.answer == 0 && r.v == 1 && r.request == 1 && r.visited == 0
          && r.point == 3 && word[0] == 0x0020);
    s.CONTROL = control(0, 2, 0);
    r = drav(m, &s, 1, 0x00000006, 0);
    check("DRAV, W=2", r.answer == 0 && r.v == 1 && r.request == 1 && r.visited == 0
          && r.point == 7);
    s.DPTCH = 48;
    check("DRAV, 13", drav(m, &s, 1, 0, 0).answer == 13);
}

/* PIXT in its four forms. */
static void test_pixt(void)
{
    struct settings s = plain_settings(4);
    uint16_t word[8] = { 0x4321, 0, 0, 0, 0x8765, 0, 0, 0 };
    struct memory m = memory_of(word, 8);
    s.PMASK = 0x1100;
    s.CONTROL = control(0, 3, 0);
    s.WEND = 0x00050005;
    struct pixt_answer r = pixt_from_linear(m, &s, 8, 1);
    check("PIXT from linear", r.answer == 0 && r.value == 2 && r.visited == 1 && r.v == 1);
    s.WSTART = 0x00100010;
    r = pixt_from_xy(m, &s, 0x00010002, 1);
    check("PIXT from XY ignores the window", r.answer == 0 && r.value == 6 && r.v == 1);
    r = pixt_to_linear(m, &s, 0xFFFFFFFFu, 8, 1);
    check("PIXT to linear", r.answer == 0 && r.visited == 1 && r.v == 1 && word[0] == 0x4F21);
    check("PIXT to XY, 14", pixt_to_xy(m, &s, 0, 0, 1).answer == 14);
    s.WSTART = 0;
    r = pixt_to_xy(m, &s, 0xFFFFFFF9u, 0x00010001, 1);
    check("PIXT to XY", r.answer == 0 && r.visited == 1 && r.v == 0 && word[4] == 0x8795);
    r = pixt_to_xy(m, &s, 1, 0x00060001, 0);
    check("PIXT to XY outside", r.answer == 0 && r.visited == 0 && r.v == 1 && r.request == 0);
    s.CONTROL = control(0, 1, 0);
    r = pixt_to_xy(m, &s, 1, 0x00000000, 0);
    check("PIXT to XY, W=1", r.answer == 0 && r.visited == 0 && r.v == 1 && r.request == 1
          && word[0] == 0x4F21);
    check("PIXT, 16", pixt_from_linear(m, &s, 2, 0).answer == 16
          && pixt_to_linear(m, &s, 0, 2, 0).answer == 16
          && pixt_from_xy(m, &s, 0xFFFF0000, 0).answer == 16);
    check("PIXT, 17", pixt_from_linear(m, &s, 128, 0).answer == 17
          && pixt_from_xy(m, &s, 0x00020000, 0).answer == 17
          && pixt_from_linear(m, &s, 128, 0).value == 0);
    s.DPTCH = 3;
    check("PIXT, pitch", pixt_from_linear(m, &s, 0, 0).answer == 0
          && pixt_from_xy(m, &s, 0, 0).answer == 13 && pixt_to_xy(m, &s, 0, 0, 0).answer == 13);
}

/* ---- Plans ---- */

/* Runs a plan and compares its listing with the one that is expected. */
static bool listing_is(const char *text, size_t length, const char *expected)
{
    char listing[4096];
    FILE *out = tmpfile();
    if (out == NULL)
        return false;
    plan_listing((const unsigned char *)text, length, out);
    rewind(out);
    size_t got = fread(listing, 1, sizeof listing, out);
    fclose(out);
    return got == strlen(expected) && memcmp(listing, expected, got) == 0;
}

/* Whether a plan is refused with this number at this line. */
static bool refused_at(const char *text, int number, int line)
{
    char expected[64];
    snprintf(expected, sizeof expected, "refused\t%d\t%d\n", number, line);
    return listing_is(text, strlen(text), expected);
}

/* The scope's example. Two pixels of 4 bits are B of a short line: 4 + (2 + 2) + 2 = 10 states; two
   of 8 bits are A: 4 + (1 + 2) + 2 = 9. */
static void test_example_listing(void)
{
    const char *text = "memory\t4\ndraw\tFILL L\naxis\tPSIZE\t4\t8\n"
                       "axis\tCOLOR1\t255\t65535\naxis\tDYDX\t65538\n";
    check("example listing", listing_is(text, strlen(text),
          "point\tanswer\tvisited\tV\tchanged\tstates\n0\t0\t2\t0\t8\t10\n1\t0\t2\t0\t8\t10\n"
          "2\t0\t2\t0\t8\t9\n3\t0\t2\t0\t16\t9\n"));
    text = "# a comment\n\nmemory\t1\n#\ndraw\tPIXBLT B,XY\n";
    check("refused point", listing_is(text, strlen(text),
          "point\tanswer\tvisited\tV\tchanged\tstates\n0\t13\t0\t0\t0\t0\n"));
}

/* "Axes of 2 and 3 values: point 4 has indices 1 and 1; point 6 gives 24." */
static void test_points(void)
{
    const char *text = "memory\t4\ndraw\tFILL L\naxis\tPSIZE\t4\t8\naxis\tSEED\t5\t6\t7\n";
    static struct plan p;
    plan_read(&p, (const unsigned char *)text, strlen(text));
    check("count", p.answer == 0 && plan_count(&p) == 6);
    struct point_answer r = plan_point(&p, 4);
    check("point 4", r.answer == 0 && r.index[0] == 1 && r.index[1] == 1 && r.seed == 6
          && r.settings.PSIZE == 8);
    check("point 6", plan_point(&p, 6).answer == 24);
    check("point of 64 bits", plan_point(&p, (uint64_t)1 << 32).answer == 24);
}

/* Wrong forms (20). */
static void test_plan_forms(void)
{
    check("empty text", refused_at("", 20, 1));
    check("only comments", refused_at("#\n\n#\n", 20, 4));
    check("no draw line", refused_at("memory\t4\n", 20, 2));
    check("no last byte 10", refused_at("memory\t4\ndraw\tFILL L", 20, 2));
    check("comment without byte 10", refused_at("memory\t4\ndraw\tFILL L\n#", 20, 3));
    check("order", refused_at("draw\tFILL L\nmemory\t4\n", 20, 1));
    check("memory 0", refused_at("memory\t0\n", 20, 1));
    check("memory 32769", refused_at("memory\t32769\n", 20, 1));
    check("memory 32768", refused_at("memory\t32768\n", 20, 2));
    check("leading zero", refused_at("memory\t04\n", 20, 1));
    check("extra field", refused_at("memory\t4\t\n", 20, 1));
    check("two tabs", refused_at("memory\t\t4\n", 20, 1));
    check("byte 13", refused_at("memory\t4\r\n", 20, 1));
    check("a space", refused_at(" \n", 20, 1));
    check("draw name", refused_at("memory\t4\ndraw\tLINE\n", 20, 2));
    check("second draw", refused_at("memory\t4\ndraw\tFILL L\ndraw\tFILL L\n", 20, 3));
    check("no name", refused_at("memory\t4\ndraw\tFILL L\naxis\n", 20, 3));
    check("no value", refused_at("memory\t4\ndraw\tFILL L\naxis\tPSIZE\n", 20, 3));
    check("empty value", refused_at("memory\t4\ndraw\tFILL L\naxis\tPSIZE\t\n", 20, 3));
    check("empty name", refused_at("memory\t4\ndraw\tFILL L\naxis\t\t4\n", 20, 3));
    check("2^64", refused_at("memory\t4\ndraw\tFILL L\naxis\tSEED\t18446744073709551616\n", 20,
                             3));
    check("20 before 21", refused_at("memory\t4\ndraw\tFILL L\naxis\tX\t4\t-1\n", 20, 3));
}

/* Names and values (21, 22). */
static void test_plan_names(void)
{
    check("unknown name", refused_at("memory\t4\ndraw\tFILL L\naxis\tPsize\t4\n", 21, 3));
    check("name came before",
          refused_at("memory\t4\ndraw\tFILL L\naxis\tPSIZE\t4\n\naxis\tPSIZE\t4\n", 21, 5));
    check("value too large", refused_at("memory\t4\ndraw\tFILL L\naxis\tPSIZE\t65536\n", 22, 3));
    check("value too large, 32",
          refused_at("memory\t4\ndraw\tFILL L\naxis\tDADDR\t4294967296\n", 22, 3));
    check("value twice", refused_at("memory\t4\ndraw\tFILL L\naxis\tDADDR\t1\t0\t1\n", 22, 3));
    const char *text = "memory\t4\ndraw\tFILL L\naxis\tSEED\t18446744073709551615\t0\n";
    check("largest seed", listing_is(text, strlen(text),
          "point\tanswer\tvisited\tV\tchanged\tstates\n0\t0\t0\t0\t0\t0\n1\t0\t0\t0\t0\t0\n"));
}

/* A plan with this many values on its SEED axis, the last one given. */
static bool many_values(int values, const char *last, int number)
{
    char text[2048];
    int at = snprintf(text, sizeof text, "memory\t4\ndraw\tFILL L\naxis\tSEED");
    for (int i = 1; i < values; i++)
        at = at + snprintf(text + at, sizeof text - (size_t)at, "\t%d", i);
    snprintf(text + at, sizeof text - (size_t)at, "\t%s\n", last);
    if (number == 0) {
        static struct plan p;
        plan_read(&p, (const unsigned char *)text, strlen(text));
        return p.answer == 0 && plan_count(&p) == (uint64_t)values;
    }
    return refused_at(text, number, 3);
}

/* "more than 8 axes, or more than 64 values on one" (23), and lower numbers on the same line. */
static void test_plan_many(void)
{
    const char *eight = "memory\t4\ndraw\tFILL L\naxis\tSADDR\t0\naxis\tSPTCH\t0\naxis\tDADDR\t0\n"
                        "axis\tDPTCH\t0\naxis\tOFFSET\t0\naxis\tWSTART\t0\naxis\tWEND\t0\n"
                        "axis\tDYDX\t0\n";
    char text[512];
    check("eight axes", listing_is(eight, strlen(eight),
          "point\tanswer\tvisited\tV\tchanged\tstates\n0\t0\t0\t0\t0\t0\n"));
    snprintf(text, sizeof text, "%saxis\tCOLOR0\t0\n", eight);
    check("nine axes", refused_at(text, 23, 11));
    snprintf(text, sizeof text, "%saxis\tDYDX\t0\n", eight);
    check("nine axes, name before", refused_at(text, 21, 11));
    check("64 values", many_values(64, "999", 0));
    check("65 values", many_values(65, "999", 23));
    check("65 values, one twice", many_values(65, "7", 22));
    check("65 values, bad number", many_values(65, "07", 20));
}

/* "text is at most 65,536 bytes, else 20 on line 1" */
static void test_plan_length(void)
{
    static char text[MOST_TEXT + 1];
    const char *start = "memory\t4\ndraw\tFILL L\n#";
    memset(text, 'x', sizeof text);
    memcpy(text, start, strlen(start));
    text[MOST_TEXT - 1] = '\n';
    text[MOST_TEXT] = '\n';
    check("longest text", listing_is(text, MOST_TEXT,
          "point\tanswer\tvisited\tV\tchanged\tstates\n0\t0\t0\t0\t0\t0\n"));
    check("text too long", listing_is(text, MOST_TEXT + 1, "refused\t20\t1\n"));
}

int main(void)
{
    test_field_figure();
    test_field_refusals();
    test_field_cases();
    test_cache_figure();
    test_image_figure();
    test_changed();
    test_pixel_figures();
    test_pixel_logic();
    test_mask_figure();
    test_linear_figure();
    test_window_figure();
    test_window_1_and_2();
    test_no_wrap_in_xy();
    test_refusals();
    test_serial_rule();
    test_binary_source();
    test_clipped_source();
    test_wrapping_pitch();
    test_slices();
    test_corners();
    test_clipped_corners();
    test_corners_ignored();
    test_corners_of_lone_pixels();
    test_corner_refusal_12();
    test_corner_starts();
    test_corner_refusal_17();
    test_corner_scroll_row();
    test_corner_scroll_column();
    test_corner_scroll_diagonal();
    test_corner_keeps_source();
    test_corner_wrapping_pitch();
    test_corner_slices();
    test_fill_examples();
    test_fill_transfer();
    test_fill_sizes();
    test_fill_graphics();
    test_fill_setup();
    test_fill_nothing();
    test_fill_refusals();
    test_drav();
    test_pixt();
    test_example_listing();
    test_points();
    test_plan_forms();
    test_plan_names();
    test_plan_many();
    test_plan_length();
    printf("%d passed, %d failed\n", passed, failed);
    return failed == 0 ? 0 : 1;
}

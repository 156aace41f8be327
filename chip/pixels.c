/* One pixel: 002 sections 7.5 to 7.9. */
#include "figures.h"

#include <stdio.h>
#include <string.h>

/* ---- Tables 7-1 and 7-2: the pixel operations ---- */

/* A Boolean operation by its result for S and D of 0 0, 0 1, 1 0, 1 1, or an arithmetic one. */
struct operation {
    const char *truth;
    uint32_t (*value)(uint32_t top, uint32_t s, uint32_t d);
};

static uint32_t add(uint32_t top, uint32_t s, uint32_t d)
{
    return (s + d) & top;
}

static uint32_t add_saturate(uint32_t top, uint32_t s, uint32_t d)
{
    return s + d > top ? top : s + d;
}

static uint32_t subtract(uint32_t top, uint32_t s, uint32_t d)
{
    return (d - s) & top;
}

static uint32_t subtract_saturate(uint32_t top, uint32_t s, uint32_t d)
{
    (void)top;
    return d < s ? 0 : d - s;
}

static uint32_t greater(uint32_t top, uint32_t s, uint32_t d)
{
    (void)top;
    return s > d ? s : d;
}

static uint32_t lesser(uint32_t top, uint32_t s, uint32_t d)
{
    (void)top;
    return s < d ? s : d;
}

static uint32_t result_of(const struct operation *o, uint32_t top, uint32_t s, uint32_t d)
{
    if (o->truth == NULL)
        return o->value(top, s, d);
    uint32_t r = 0;
    r |= o->truth[0] == '1' ? ~s & ~d : 0;
    r |= o->truth[1] == '1' ? ~s & d : 0;
    r |= o->truth[2] == '1' ? s & ~d : 0;
    r |= o->truth[3] == '1' ? s & d : 0;
    return r & top;
}

/* A pixel with its plane mask and transparency, in the order of section 7.7. */
struct process {
    const struct operation *operation;
    uint32_t mask;
    bool transparent;
};

static uint32_t left_by(const struct process *p, uint32_t psize, uint32_t s, uint32_t d)
{
    uint32_t top = ((uint32_t)1 << psize) - 1;
    uint32_t r = result_of(p->operation, top, s & ~p->mask, d & ~p->mask) & ~p->mask;
    return p->transparent && r == 0 ? d : (d & p->mask) | r;
}

/* What PIXBLT L,L leaves of every pair of pixels, once or in two drawings, one after the other.
   Boolean operations are run at 1, 2, 4, 8 and 16 bits, arithmetic ones at 4, 8 and 16 ("operand
   pixels of 4, 8, or 16 bits"). */
static const struct table_row {
    struct figure figure;
    struct operation result;
    uint32_t drawings;
    uint32_t control[2];
    uint32_t least, most;
} table_rows[] = {
    { { "002", "7.7", "table 7-1, 00000", "Source", SAME }, { "0011", NULL },
      1, { CONTROL_OF(0, 0, 0), 0 }, 1, 16 },
    { { "002", "7.7", "table 7-1, 00001", "Source AND Destination", SAME }, { "0001", NULL },
      1, { CONTROL_OF(1, 0, 0), 0 }, 1, 16 },
    { { "002", "7.7", "table 7-1, 00010", "Source AND ~Destination", SAME }, { "0010", NULL },
      1, { CONTROL_OF(2, 0, 0), 0 }, 1, 16 },
    { { "002", "7.7", "table 7-1, 00011", "0s", SAME }, { "0000", NULL },
      1, { CONTROL_OF(3, 0, 0), 0 }, 1, 16 },
    { { "002", "7.7", "table 7-1, 00100", "Source OR ~Destination", SAME }, { "1011", NULL },
      1, { CONTROL_OF(4, 0, 0), 0 }, 1, 16 },
    { { "002", "7.7", "table 7-1, 00101", "Source XNOR Destination", SAME }, { "1001", NULL },
      1, { CONTROL_OF(5, 0, 0), 0 }, 1, 16 },
    { { "002", "7.7", "table 7-1, 00110", "~Destination", SAME }, { "1010", NULL },
      1, { CONTROL_OF(6, 0, 0), 0 }, 1, 16 },
    { { "002", "7.7", "table 7-1, 00111", "Source NOR Destination", SAME }, { "1000", NULL },
      1, { CONTROL_OF(7, 0, 0), 0 }, 1, 16 },
    { { "002", "7.7", "table 7-1, 01000", "Source OR Destination", SAME }, { "0111", NULL },
      1, { CONTROL_OF(8, 0, 0), 0 }, 1, 16 },
    { { "002", "7.7", "table 7-1, 01001", "Destination", SAME }, { "0101", NULL },
      1, { CONTROL_OF(9, 0, 0), 0 }, 1, 16 },
    { { "002", "7.7", "table 7-1, 01010", "Source XOR Destination", SAME }, { "0110", NULL },
      1, { CONTROL_OF(10, 0, 0), 0 }, 1, 16 },
    { { "002", "7.7", "table 7-1, 01011", "~Source AND Destination", SAME }, { "0100", NULL },
      1, { CONTROL_OF(11, 0, 0), 0 }, 1, 16 },
    { { "002", "7.7", "table 7-1, 01100", "1s", SAME }, { "1111", NULL },
      1, { CONTROL_OF(12, 0, 0), 0 }, 1, 16 },
    { { "002", "7.7", "table 7-1, 01101", "~Source OR Destination", SAME }, { "1101", NULL },
      1, { CONTROL_OF(13, 0, 0), 0 }, 1, 16 },
    { { "002", "7.7", "table 7-1, 01110", "Source NAND Destination", SAME }, { "1110", NULL },
      1, { CONTROL_OF(14, 0, 0), 0 }, 1, 16 },
    { { "002", "7.7", "table 7-1, 01111", "~Source", SAME }, { "1100", NULL },
      1, { CONTROL_OF(15, 0, 0), 0 }, 1, 16 },
    { { "002", "7.7", "table 7-2, 10000", "Source + Destination", SAME }, { NULL, add },
      1, { CONTROL_OF(16, 0, 0), 0 }, 4, 16 },
    { { "002", "7.7", "table 7-2, 10001", "ADDS(Source, Destination)", SAME },
      { NULL, add_saturate }, 1, { CONTROL_OF(17, 0, 0), 0 }, 4, 16 },
    { { "002", "7.7", "table 7-2, 10010", "Destination - Source", SAME }, { NULL, subtract },
      1, { CONTROL_OF(18, 0, 0), 0 }, 4, 16 },
    { { "002", "7.7", "table 7-2, 10011", "SUBS(Source, Destination)", SAME },
      { NULL, subtract_saturate }, 1, { CONTROL_OF(19, 0, 0), 0 }, 4, 16 },
    { { "002", "7.7", "table 7-2, 10100", "MAX(Source, Destination)", SAME }, { NULL, greater },
      1, { CONTROL_OF(20, 0, 0), 0 }, 4, 16 },
    { { "002", "7.7", "table 7-2, 10101", "MIN(Source, Destination)", SAME }, { NULL, lesser },
      1, { CONTROL_OF(21, 0, 0), 0 }, 4, 16 },
    { { "002", "7.5", "replace with transparency at one bit", "analogous to the logical OR", SAME },
      { "0111", NULL }, 1, { CONTROL_OF(REPLACE, 0, 1), 0 }, 1, 1 },
    { { "002", "7.8.1", "replace at one bit", "overwrites the pixels", SAME },
      { "0011", NULL }, 1, { CONTROL_OF(REPLACE, 0, 0), 0 }, 1, 1 },
    { { "002", "7.8.2", "OR at one bit", "unaltered at 0s of the source, 1s at 1s", SAME },
      { "0111", NULL }, 1, { CONTROL_OF(OR, 0, 0), 0 }, 1, 1 },
    { { "002", "7.8.4", "XOR at one bit", "flipped at 1s of the source", SAME },
      { "0110", NULL }, 1, { CONTROL_OF(XOR, 0, 0), 0 }, 1, 1 },
    { { "002", "7.8.4", "XOR twice", "the original destination is restored", SAME },
      { "0101", NULL }, 2, { CONTROL_OF(XOR, 0, 0), CONTROL_OF(XOR, 0, 0) }, 1, 16 },
    { { "002", "7.9.1.1", "add, then subtract", "the original destination is recovered", SAME },
      { "0101", NULL }, 2, { CONTROL_OF(ADD, 0, 0), CONTROL_OF(SUB, 0, 0) }, 4, 16 },
};

/* The pixel values that are paired: all of them up to 8 bits; at 16 bits the lowest, the highest,
   those about the middle, and some between. */
static uint32_t values(uint32_t psize)
{
    return psize < 8 ? (uint32_t)1 << psize : 256;
}

static uint32_t value(uint32_t psize, uint32_t i)
{
    if (psize < 16)
        return i;
    if (i < 64)
        return i;
    if (i < 128)
        return 65535 - (i - 64);
    if (i < 192)
        return 32768 - 32 + (i - 128);
    return (i - 192) * 1021 + 77;
}

/* A row for each destination value and a column for each source value; the source lies above. */
static struct settings pair_settings(uint32_t psize)
{
    uint32_t n = values(psize), pitch = n * psize < 16 ? 16 : n * psize;
    struct settings s = { .DPTCH = pitch, .SADDR = n * pitch, .SPTCH = pitch, .DYDX = XY(n, n),
                          .PSIZE = psize };
    return s;
}

/* The words of both arrays, and one more. */
static size_t pair_words(const struct settings *s)
{
    return 2 * s->SADDR / 16 + 1;
}

static uint16_t expected[MEMORY_WORDS];

/* Prepares the memory, and what it should be afterwards: each destination pixel by `left`. */
static void prepare_pairs(const struct settings *s, const struct process *left)
{
    uint32_t n = values(s->PSIZE);
    memset(memory, 0x5A, pair_words(s) * sizeof memory[0]);
    for (uint32_t row = 0; row < n; row++) {
        for (uint32_t column = 0; column < n; column++) {
            uint32_t at = row * s->DPTCH + column * s->PSIZE;
            put_pixel(memory, at, s->PSIZE, value(s->PSIZE, row));
            put_pixel(memory, s->SADDR + at, s->PSIZE, value(s->PSIZE, column));
        }
    }
    memcpy(expected, memory, pair_words(s) * sizeof memory[0]);
    for (uint32_t row = 0; row < n; row++) {
        for (uint32_t column = 0; column < n; column++) {
            uint32_t at = row * s->DPTCH + column * s->PSIZE;
            put_pixel(expected, at, s->PSIZE,
                      left_by(left, s->PSIZE, value(s->PSIZE, column), value(s->PSIZE, row)));
        }
    }
}

static uint64_t words_unlike(const struct settings *s)
{
    uint64_t count = 0;
    for (size_t i = 0; i < pair_words(s); i++)
        count += memory[i] != expected[i];
    return count;
}

static void run_table(void)
{
    for (size_t i = 0; i < COUNT_OF(table_rows); i++) {
        const struct table_row *t = &table_rows[i];
        const struct process left = { &t->result, 0, false };
        uint64_t printed[2] = { 0, 0 }, got[2] = { 0, 0 };
        for (uint32_t psize = t->least; psize <= t->most; psize *= 2) {
            struct settings s = pair_settings(psize);
            prepare_pairs(&s, &left);
            for (uint32_t k = 0; k < t->drawings; k++) {
                s.CONTROL = t->control[k];
                got[0] += draw(BH_PIXBLT_L_L, &s, 0).visited;
                printed[0] += (uint64_t)values(psize) * values(psize);
            }
            got[1] += words_unlike(&s);
        }
        settle(&t->figure, "pixels drawn, words unlike", 2, printed, NULL, got);
    }
}

/* The order of section 7.7: "Pixels are first read from memory and modified by the plane mask.
   Pixel processing is then performed on the modified pixel values. The plane mask is applied to the
   result. .. Next, transparency detection is applied". Each operation with each mask of 4 bits, and
   with T 0 and 1. */
static void run_order(void)
{
    const struct figure figure = { "002", "7.7", "mask, operation, mask, transparency",
                                   "Figure 7-6 depicts the interaction", SAME };
    uint64_t printed[2] = { 22 * 16 * 2 * 256, 0 }, got[2] = { 0, 0 };
    struct settings s = pair_settings(4);
    for (uint32_t pp = 0; pp < 22; pp++) {
        for (uint32_t k = 0; k < 32; k++) {
            const struct process left = { &table_rows[pp].result, k % 16, k >= 16 };
            s.CONTROL = CONTROL_OF(pp, 0, k >= 16);
            s.PMASK = k % 16 * 0x1111;
            prepare_pairs(&s, &left);
            got[0] += draw(BH_PIXBLT_L_L, &s, 0).visited;
            got[1] += words_unlike(&s);
        }
    }
    settle(&figure, "pixels drawn, words unlike", 2, printed, NULL, got);
}

/* "10110-11111: Reserved." */
static void run_reserved(void)
{
    const struct figure figure = { "002", "7.7", "table 7-2, 10110 to 11111", "Reserved", WORKED };
    const uint64_t printed = 10;
    uint64_t refused = 0;
    for (uint32_t pp = 22; pp < 32; pp++) {
        const struct settings s = { .DPTCH = 16, .DYDX = XY(1, 1), .PSIZE = 4,
                                    .CONTROL = CONTROL_OF(pp, 0, 0) };
        refused += draw(BH_FILL_L, &s, 0).answer == BH_BAD_CONTROL;
    }
    settle(&figure, "operations refused", 1, &printed, NULL, &refused);
}

/* ---- Section 7.5: a source pixel of 0 ---- */

static const struct zero_row {
    struct figure figure;
    uint32_t pp;
} zero_rows[] = {
    { { "002", "7.5", "AND of source 0, T=1", "ensures .. a transparent pixel", SAME }, AND },
    { { "002", "7.5", "MIN of source 0, T=1", "ensures .. a transparent pixel", SAME }, MIN },
    { { "002", "7.5", "replace by source 0, T=1", "ensures .. a transparent pixel", SAME },
      REPLACE },
};

/* Only the column of the source value 0 is drawn, over every destination value. */
static void run_zero_rows(void)
{
    const struct operation destination = { "0101", NULL };
    const struct process kept = { &destination, 0, false };
    for (size_t i = 0; i < COUNT_OF(zero_rows); i++) {
        uint64_t printed[2] = { 0, 0 }, got[2] = { 0, 0 };
        for (uint32_t psize = 1; psize <= 16; psize *= 2) {
            struct settings s = pair_settings(psize);
            prepare_pairs(&s, &kept);
            s.DYDX = XY(1, values(psize));
            s.CONTROL = CONTROL_OF(zero_rows[i].pp, 0, 1);
            got[0] += draw(BH_PIXBLT_L_L, &s, 0).visited;
            printed[0] += values(psize);
            got[1] += words_unlike(&s);
        }
        settle(&zero_rows[i].figure, "pixels visited, words unlike", 2, printed, NULL, got);
    }
}

/* ---- Single pixels ---- */

/* The calls that draw a pixel. B sources take COLOR1 by a 1 bit, and COLOR0 by a 0 bit. */
enum { PIXT_L = 8, PIXT_XY, DRAV, B_ZERO, CALLS };

#define BY(call) (1u << (call))
#define BY_ALL ((1u << CALLS) - 1)

/* S over D, at every place of a word, by each of the calls. Red is 8, yellow 12, blue 2. */
static const struct pixel_row {
    struct figure figure;
    uint32_t calls;
    uint32_t psize, control, pmask, s, d;
    uint64_t printed, scope;
} pixel_rows[] = {
    { { "002", "7.5", "figure 7-8 h, replace with T=1, 8 over 12", "red A over yellow X", SAME },
      BY_ALL, 4, CONTROL_OF(REPLACE, 0, 1), 0, 8, 12, 8, 0 },
    { { "002", "7.5", "figure 7-8 h, replace with T=1, 8 over 2", "red A over blue", SAME },
      BY_ALL, 4, CONTROL_OF(REPLACE, 0, 1), 0, 8, 2, 8, 0 },
    { { "002", "7.5", "figure 7-8 h, replace with T=1, 0 over 12", "transparent (all 0s)", SAME },
      BY_ALL, 4, CONTROL_OF(REPLACE, 0, 1), 0, 0, 12, 12, 0 },
    { { "002", "7.5", "figure 7-8 h, replace with T=1, 0 over 2", "transparent (all 0s)", SAME },
      BY_ALL, 4, CONTROL_OF(REPLACE, 0, 1), 0, 0, 2, 2, 0 },
    { { "002", "7.9.1.2", "0010 + 1110, saturated", "1111", SAME },
      BY_ALL, 4, CONTROL_OF(ADDS, 0, 0), 0, 2, 14, 15, 0 },
    { { "002", "7.9.1.2", "2 - 8, saturated", "stops the result at 0", WORKED },
      BY_ALL, 4, CONTROL_OF(SUBS, 0, 0), 0, 8, 2, 0, 0 },
    { { "002", "7.9.1.3", "figure 7-8 m, MAX of 8 and 2", "greater than the blue background",
        SAME },
      BY_ALL, 4, CONTROL_OF(MAX, 0, 0), 0, 8, 2, 8, 0 },
    { { "002", "7.9.1.3", "figure 7-8 m, MAX of 8 and 12", "less than that of the X", SAME },
      BY_ALL, 4, CONTROL_OF(MAX, 0, 0), 0, 8, 12, 12, 0 },
    { { "002", "7.9.1.4", "figure 7-8 n, MIN of 8 and 2", "the priorities are reversed", SAME },
      BY_ALL, 4, CONTROL_OF(MIN, 0, 0), 0, 8, 2, 2, 0 },
    { { "002", "7.9.1.4", "figure 7-8 n, MIN of 8 and 12", "the priorities are reversed", SAME },
      BY_ALL, 4, CONTROL_OF(MIN, 0, 0), 0, 8, 12, 8, 0 },
    { { "002", "7.9.2.2", "1 + 15", "truncated to four bits to produce the result 0", SAME },
      BY_ALL, 4, CONTROL_OF(ADD, 0, 0), 0, 1, 15, 0, 0 },
    { { "002", "7.9.2.3", "12 + 12, saturated", "the sum is replaced with 15", WORKED },
      BY_ALL, 4, CONTROL_OF(ADDS, 0, 0), 0, 12, 12, 15, 0 },
    { { "002", "7.9.2.3", "1 + 15, saturated", "are not allowed to overflow", SAME },
      BY_ALL, 4, CONTROL_OF(ADDS, 0, 0), 0, 1, 15, 15, 0 },
    { { "002", "7.9.2.3", "0 - 1, saturated", "is not allowed to underflow", SAME },
      BY_ALL, 4, CONTROL_OF(SUBS, 0, 0), 0, 1, 0, 0, 0 },
    { { "002", "7.9.2.4", "MAX of 12 and 12", "the greater value is selected", WORKED },
      BY_ALL, 4, CONTROL_OF(MAX, 0, 0), 0, 12, 12, 12, 0 },
    { { "002", "7.7", "MAX(8, 2) of 2's complement integers", "2's complement integers", "1.5" },
      BY_ALL, 4, CONTROL_OF(MAX, 0, 0), 0, 8, 2, 2, 8 },
    { { "002", "7.7", "MIN(8, 2) of 2's complement integers", "2's complement integers", "1.5" },
      BY_ALL, 4, CONTROL_OF(MIN, 0, 0), 0, 8, 2, 8, 2 },
    { { "002", "7.7", "ADDS(7, 1) of 2's complement integers", "overflow: all 1s", "1.5" },
      BY_ALL, 4, CONTROL_OF(ADDS, 0, 0), 0, 7, 1, 15, 8 },
    { { "002", "7.7", "SUBS(1, 8) of 2's complement integers", "underflow: all 0s", "1.5" },
      BY_ALL, 4, CONTROL_OF(SUBS, 0, 0), 0, 1, 8, 0, 7 },
    { { "002", "7.6", "2 - 1, plane 0 masked, source in memory",
        "replaced with 0s before .. pixel processing", WORKED },
      BY(BH_PIXBLT_L_L) | BY(BH_PIXBLT_L_XY) | BY(BH_PIXBLT_XY_L) | BY(BH_PIXBLT_XY_XY),
      4, CONTROL_OF(SUB, 0, 0), 0x1111, 1, 2, 2, 0 },
    { { "002", "7.6", "2 - 1, plane 0 masked, FILL", "not affected by the plane mask", "1.4" },
      BY(BH_FILL_L) | BY(BH_FILL_XY), 4, CONTROL_OF(SUB, 0, 0), 0x1111, 1, 2, 0, 2 },
    { { "002", "7.6", "2 - 1, plane 0 masked, DRAV", "not affected by the plane mask", "1.4" },
      BY(DRAV), 4, CONTROL_OF(SUB, 0, 0), 0x1111, 1, 2, 0, 2 },
    { { "002", "7.6", "2 - 1, plane 0 masked, PIXT Rs,*Rd", "not affected by the plane mask",
        "1.4" },
      BY(PIXT_L), 4, CONTROL_OF(SUB, 0, 0), 0x1111, 1, 2, 0, 2 },
    { { "002", "7.6", "2 - 1, plane 0 masked, PIXT Rs,*Rd.XY", "not affected by the plane mask",
        "1.4" },
      BY(PIXT_XY), 4, CONTROL_OF(SUB, 0, 0), 0x1111, 1, 2, 0, 2 },
};

/* One call draws the pixel s at a place of word 0; a source in memory is in row 1. */
static uint32_t draw_one(uint32_t call, const struct pixel_row *row, uint32_t place)
{
    struct settings s = { .DPTCH = 16, .SPTCH = 16, .DYDX = XY(1, 1), .CONTROL = row->control,
                          .PSIZE = row->psize, .PMASK = row->pmask };
    bool from_xy = call == BH_PIXBLT_XY_L || call == BH_PIXBLT_XY_XY;
    bool to_xy = call == BH_FILL_XY || call == BH_PIXBLT_L_XY || call == BH_PIXBLT_XY_XY
                 || call == BH_PIXBLT_B_XY;
    s.DADDR = to_xy ? XY(place, 0) : place * row->psize;
    s.SADDR = from_xy ? XY(place, 1) : 16 + place * row->psize;
    put_pixel(memory, 16 + place * row->psize, row->psize, row->s);
    s.COLOR1 = row->s << place * row->psize;
    if (call == PIXT_L || call == PIXT_XY)
        return pixt_to(call == PIXT_XY, &s, row->s, call == PIXT_XY ? XY(place, 0) : s.DADDR, 0)
            .answer;
    if (call == DRAV)
        return drav(&s, 0, XY(place, 0), 0).answer;
    if (call == BH_PIXBLT_B_L || call == BH_PIXBLT_B_XY || call == B_ZERO)
        memory[1] = call == B_ZERO ? 0 : 0xFFFF;
    if (call == B_ZERO) {
        s.COLOR0 = s.COLOR1;
        s.COLOR1 = ~s.COLOR1;
    }
    return draw(call == B_ZERO ? BH_PIXBLT_B_L : call, &s, 0).answer;
}

/* The pixel that is left, or NOT_PRINTED where the call is refused or another bit has changed. */
static uint64_t pixel_left(uint32_t call, const struct pixel_row *row, uint32_t place)
{
    uint16_t word = 0x5A5A;
    put_pixel(&word, place * row->psize, row->psize, row->d);
    memory[0] = word;
    memory[1] = 0x5A5A;
    uint32_t answer = draw_one(call, row, place);
    uint32_t left = pixel_at(memory, place * row->psize, row->psize);
    put_pixel(&word, place * row->psize, row->psize, left);
    return answer == 0 && memory[0] == word ? left : NOT_PRINTED;
}

/* The first pixel that isn't the awaited one, or else the last. */
static uint64_t pixel_by_all(const struct pixel_row *row)
{
    uint64_t awaited = has_rule(&row->figure) ? row->scope : row->printed, left = NOT_PRINTED;
    for (uint32_t call = 0; call < CALLS; call++) {
        for (uint32_t place = 0; place < 16 / row->psize; place++) {
            if ((row->calls & BY(call)) == 0)
                continue;
            left = pixel_left(call, row, place);
            if (left != awaited)
                return left;
        }
    }
    return left;
}

static void run_pixel_rows(void)
{
    clear_memory();
    for (size_t i = 0; i < COUNT_OF(pixel_rows); i++) {
        const struct pixel_row *row = &pixel_rows[i];
        uint64_t got = pixel_by_all(row);
        settle(&row->figure, "pixel", 1, &row->printed, &row->scope, &got);
    }
}

/* ---- Words of pixels ---- */

/* One drawing over all pixels of a word; a source is the next word. */
static const struct word_row {
    struct figure figure;
    uint32_t operation, psize, control, pmask;
    uint16_t source;
    uint32_t color0, color1;
    uint16_t destination;
    uint64_t printed, scope;
} word_rows[] = {
    { { "002", "7.2.1", "figure 7-1, 0-1-1-0", "yellow-red-red-yellow", SAME },
      BH_PIXBLT_B_L, 4, 0, 0, 0x6, 0xCCCC, 0x8888, 0x2222, 0xC88C, 0 },
    { { "002", "7.2.1", "0-1-1-0 with color 0 all 0s, T=1", "only .. nontransparent", WORKED },
      BH_PIXBLT_B_L, 4, CONTROL_OF(REPLACE, 0, 1), 0, 0x6, 0, 0x8888, 0x2222, 0x2882, 0 },
    { { "002", "7.5", "0s across a pixel boundary (text of figure 7-3)",
        "String B crosses the pixel boundary", WORKED },
      BH_PIXBLT_L_L, 4, CONTROL_OF(REPLACE, 0, 1), 0, 0xF081, 0, 0, 0x5555, 0xF581, 0 },
    { { "002", "7.6", "planes 0 to 2 protected", "the text plane can be modified", WORKED },
      BH_FILL_L, 4, 0, 0x7777, 0, 0, 0xFFFF, 0, 0x8888, 0 },
    { { "002", "7.6", "plane 3 protected", "and vice versa", WORKED },
      BH_FILL_L, 4, 0, 0x8888, 0, 0, 0xFFFF, 0, 0x7777, 0 },
    { { "002", "7.6", "PMASK all 0s", "effectively disabled", WORKED },
      BH_FILL_L, 4, 0, 0, 0, 0, 0xFFFF, 0, 0xFFFF, 0 },
    { { "002", "7.7", "four sums that overflow", "Carry bits are .. prevented", WORKED },
      BH_PIXBLT_L_L, 4, CONTROL_OF(ADD, 0, 0), 0, 0xFFFF, 0, 0, 0x1111, 0x0000, 0 },
    { { "002", "7.7", "four differences that underflow", "Carry bits are .. prevented", WORKED },
      BH_PIXBLT_L_L, 4, CONTROL_OF(SUB, 0, 0), 0, 0x1111, 0, 0, 0x0000, 0xFFFF, 0 },
    { { "002", "7.8.3", "NOT source AND destination at one bit",
        "unaltered at 1s of the source, 0s at 0s", "2.7" },
      BH_PIXBLT_L_L, 1, CONTROL_OF(NOT_SOURCE_AND, 0, 0), 0, 0x000C, 0, 0, 0x000A, 0x0008, 0x0002 },
    { { "004", "5.1.4", "COLOR0 >00005555, four bits", "uniform pixel value", SAME },
      BH_PIXBLT_B_L, 4, 0, 0, 0x0, 0x00005555, 0x00003333, 0, 0x5555, 0 },
    { { "004", "5.1.4", "COLOR1 >00003333, four bits", "uniform pixel value", SAME },
      BH_PIXBLT_B_L, 4, 0, 0, 0xF, 0x00005555, 0x00003333, 0, 0x3333, 0 },
    { { "004", "5.1.4", "COLOR1 >00003333, FILL", "Pixel color for filled array", SAME },
      BH_FILL_L, 4, 0, 0, 0, 0x00005555, 0x00003333, 0, 0x3333, 0 },
    { { "004", "5.1.4", "table 5-1, 16 MSBs of COLOR0 and COLOR1", "are ignored", WORKED },
      BH_PIXBLT_B_L, 4, 0, 0, 0x5, 0xAAAA5555, 0xAAAA3333, 0, 0x5353, 0 },
    { { "004", "5.1.4", "table 5-1, COLOR1 of no uniform value",
        "bus bit n contains the value from bit n", WORKED },
      BH_FILL_L, 4, 0, 0, 0, 0, 0x1234, 0, 0x1234, 0 },
};

static uint64_t word_after(const struct word_row *row, uint16_t source, uint16_t destination)
{
    const struct settings s = { .SADDR = 16, .DYDX = XY(16 / row->psize, 1),
                                .COLOR0 = row->color0, .COLOR1 = row->color1,
                                .CONTROL = row->control, .PSIZE = row->psize, .PMASK = row->pmask };
    memory[0] = destination;
    memory[1] = source;
    return draw(row->operation, &s, 0).answer == 0 ? memory[0] : NOT_PRINTED;
}

static void run_word_rows(void)
{
    for (size_t i = 0; i < COUNT_OF(word_rows); i++) {
        const struct word_row *row = &word_rows[i];
        uint64_t got = word_after(row, row->source, row->destination);
        settle(&row->figure, "word", 1, &row->printed, &row->scope, &got);
    }
}

/* "Each time a pixel is touched by the airbrush, the intensity of the red and green components is
   increased by 1, and .. blue .. decreased by 1", until 15 and 0: sixteen passes over all
   values. */
static void run_airbrush(void)
{
    const struct word_row red = { { "002", "7.9.2.3", "airbrush, red and green", "maximum", SAME },
                                  BH_FILL_L, 4, CONTROL_OF(ADDS, 0, 0), 0, 0, 0, 0x1111, 0, 0xFFFF,
                                  0 };
    const struct word_row blue = { { "002", "7.9.2.3", "airbrush, blue", "reaches 0", SAME },
                                   BH_FILL_L, 4, CONTROL_OF(SUBS, 0, 0), 0, 0, 0, 0x1111, 0, 0, 0 };
    const struct word_row *rows[2] = { &red, &blue };
    for (int i = 0; i < 2; i++) {
        uint64_t got = 0x07AF;
        for (int pass = 0; pass < 16 && got != NOT_PRINTED; pass++)
            got = word_after(rows[i], 0, (uint16_t)got);
        settle(&rows[i]->figure, "word", 1, &rows[i]->printed, NULL, &got);
    }
}

/* ---- Figure 7-5: transparency and plane masking ---- */

/* Rows c and g. Row e takes the masked low pixel, ZZZ, as not transparent: it isn't 000. */
static const char mask_row[] = "1111100011111000";
static const char final_row[] = "AAAAAAAABBBBBZZZ";

/* Every source word YYYYY000ZZZZZZZZ, over words AAAAAAAABBBBBBBB. */
static void run_figure_7_5(void)
{
    const struct word_row row = { { "002", "7.6", "figure 7-5 g", final_row, SAME },
                                  BH_PIXBLT_L_L, 8, CONTROL_OF(REPLACE, 0, 1),
                                  bits_of(mask_row, '1'), 0, 0, 0, 0, 0, 0 };
    static const uint16_t destination[] = { 0x0000, 0xFFFF, 0x5A5A, 0xA5A5, 0x1234 };
    const uint32_t ab = bits_of(final_row, 'A') | bits_of(final_row, 'B');
    uint64_t words = 0, all = 0;
    for (uint32_t source = 0; source < 65536; source++) {
        if ((source & 0x0700) != 0 || (source & 7) == 0)
            continue;
        for (size_t i = 0; i < COUNT_OF(destination); i++) {
            uint64_t last = (destination[i] & ab) | (source & bits_of(final_row, 'Z'));
            words += word_after(&row, (uint16_t)source, destination[i]) == last;
            all++;
        }
    }
    settle(&row.figure, "words", 1, &all, NULL, &words);
}

/* ---- Section 7.6: the plane mask ---- */

static const struct mask_copies {
    struct figure figure;
    uint32_t psize;
    uint64_t copies;
} mask_copies[] = {
    { { "002", "7.6", "mask for pixels of 1 bit", "replicating the mask 16 times", SAME }, 1, 16 },
    { { "002", "7.6", "mask for pixels of 2 bits", "8 times", SAME }, 2, 8 },
    { { "002", "7.6", "mask for pixels of 4 bits", "four times", SAME }, 4, 4 },
    { { "002", "7.6", "mask for pixels of 8 bits", "2 times", SAME }, 8, 2 },
    { { "002", "7.6", "mask for pixels of 16 bits", "1 times", SAME }, 16, 1 },
};

/* The places at which PIXT *Rs,Rd reads the pixel with the mask's bits as 0s, and 0s above it. */
static uint64_t places_masked(uint32_t psize, uint32_t mask)
{
    struct settings s = { .PSIZE = psize };
    uint64_t places = 0;
    for (uint32_t place = 0; place < 16; place += psize)
        s.PMASK |= mask << place;
    for (uint32_t place = 0; place < 16; place += psize) {
        struct lone r = pixt_from(false, &s, place);
        places += r.answer == 0 && r.value == (pixel_at(memory, place, psize) & ~mask);
    }
    return places;
}

static void run_mask_copies(void)
{
    static const uint16_t words[] = { 0xFFFF, 0x0000, 0xA5C3, 0x3C5A };
    for (size_t i = 0; i < COUNT_OF(mask_copies); i++) {
        uint64_t got = mask_copies[i].copies;
        for (size_t k = 0; k < COUNT_OF(words); k++) {
            memory[0] = words[k];
            for (uint32_t m = 0; m < values(mask_copies[i].psize); m++) {
                uint64_t places = places_masked(mask_copies[i].psize,
                                                value(mask_copies[i].psize, m));
                got = places < got ? places : got;
            }
        }
        settle(&mask_copies[i].figure, "copies", 1, &mask_copies[i].copies, NULL, &got);
    }
}

/* Figure 7-4's text: "the designated pixel is loaded into the eight LSBs of the 32-bit destination
   register, and the 24 MSBs of the register are filled with 0s". Over ones, with every mask. */
static void run_figure_7_4(void)
{
    const struct figure figure = { "002", "7.6", "figure 7-4, text: register bits above the pixel",
                                   "the 24 MSBs of the register are filled with 0s", SAME };
    const uint64_t printed[2] = { 0, 256 };
    uint64_t got[2] = { 0, 0 };
    memory[0] = 0xFFFF;
    for (uint32_t mask = 0; mask < 256; mask++) {
        const struct settings s = { .PSIZE = 8, .PMASK = mask * 0x0101 };
        struct lone r = pixt_from(false, &s, 8);
        got[0] |= r.value >> 8;
        got[1] += r.answer == 0 && r.value == (0xFF & ~mask);
    }
    settle(&figure, "bits above, pixels as masked", 2, printed, NULL, got);
}

/* "the mask for a single pixel must be replicated to fill the entire 16-bit PMASK register" */
static void run_mask_not_replicated(void)
{
    const struct word_row row = { { "002", "7.6", "PMASK >0001 at four bits", "must be replicated",
                                    "1.6" },
                                  BH_FILL_L, 4, 0, 0x0001, 0, 0, 0xFFFF, 0, 0, 0 };
    const uint64_t printed[2] = { 0, NOT_PRINTED }, scope[2] = { 1, 0xFFFE };
    uint64_t got[2] = { 0, word_after(&row, 0, 0) };
    got[0] = got[1] != NOT_PRINTED;
    settle(&row.figure, "allowed, word", 2, printed, scope, got);
}

void pixel_figures(void)
{
    run_table();
    run_order();
    run_reserved();
    run_zero_rows();
    run_pixel_rows();
    run_word_rows();
    run_airbrush();
    run_figure_7_5();
    run_mask_copies();
    run_figure_7_4();
    run_mask_not_replicated();
}

/* FILL timing: the machine states of FILL L and FILL XY (document 000, section 13.3). */
#include "model.h"

/* ---- Table 13-5. FILL Setup Time ---- */

/* The columns under "Window Operation". Those under "Corner Adjust" are N/A throughout: "Corner
   adjust operations have no effect on FILL setup timing." */
enum setup_column { W_0, ARRAY_FITS, START_ADJUST, DIMENS_ADJUST, ADJUST_BOTH, MISS, WINDOW_HIT };

#define SETUP_COLUMNS 7
#define NA 0

static const uint64_t setup_table[2][SETUP_COLUMNS] = {
    /* FILL L  */ { 4, NA, NA, NA, NA, NA, NA },
    /* FILL XY */ { 6,  9, 16, 12, 20, NA, NA }
};

/* "A window clip that affects the starting pointer (start adjust)" */
static bool start_is_moved(struct rectangle array, struct rectangle drawn)
{
    return drawn.x != array.x || drawn.y != array.y;
}

/* "A window clip that affects the array transfer dimensions (dimension adjust)": the end corner. A
   start that moves makes the array smaller too, and example 13-1 calls that a start adjust. */
static bool end_is_moved(struct rectangle array, struct rectangle drawn)
{
    int64_t array_right = array.x + array.columns - 1;
    int64_t array_bottom = array.y + array.rows - 1;
    int64_t drawn_right = drawn.x + drawn.columns - 1;
    int64_t drawn_bottom = drawn.y + drawn.rows - 1;
    return drawn_right != array_right || drawn_bottom != array_bottom;
}

/* "No window clipping (W=0)"; "A window clip that requires no change (array fits)"; start adjust;
   dimension adjust; "A window clip that affects both the starting and the ending pointers (adjust
   both)". A miss or a hit draws nothing. FILL L ignores W. */
static enum setup_column setup_column_of(enum operation op, const struct settings *s,
                                         struct rectangle drawn)
{
    struct rectangle array = array_of(op, s);
    if (op == FILL_L || control_w(s) == 0)
        return W_0;
    if (start_is_moved(array, drawn) && end_is_moved(array, drawn))
        return ADJUST_BOTH;
    if (end_is_moved(array, drawn))
        return DIMENS_ADJUST;
    if (start_is_moved(array, drawn))
        return START_ADJUST;
    return ARRAY_FITS;
}

/* "Note: These timings are for the cache hit case; add 3 machine states for cache disabled
   timing." */
static uint64_t setup_time(enum operation op, const struct settings *s, struct rectangle drawn)
{
    uint64_t states = setup_table[op == FILL_L ? 0 : 1][setup_column_of(op, s, drawn)];
    if (control_cd(s) == 1)
        states = states + 3;
    return states;
}

/* ---- Table 13-7. Timing Values per Word for Graphics Operations (G) ---- */

enum processing_column { REPLACE, OTHER_BOOLEANS_OR_ADD, ADDS_SUB_MAX_OR_MIN, SUBS };

static const uint64_t graphics_table[2][4] = {
    /* No plane masking or transparency                    */ { 2, 4, 5, 6 },
    /* Read-modify-write, plane masking, or transparency   */ { 4, 6, 7, 8 }
};

/* "Pixel Processing Operation", by its number PP. */
static enum processing_column processing_column_of(uint32_t PP)
{
    switch (PP) {
    case 0: return REPLACE;
    case 17: return ADDS_SUB_MAX_OR_MIN;  /* ADDS */
    case 18: return ADDS_SUB_MAX_OR_MIN;  /* SUB */
    case 19: return SUBS;
    case 20: return ADDS_SUB_MAX_OR_MIN;  /* MAX */
    case 21: return ADDS_SUB_MAX_OR_MIN;  /* MIN */
    }
    return OTHER_BOOLEANS_OR_ADD;  /* 1 to 15, and ADD, 16 */
}

/* "when plane masking or transparency are enabled" */
static bool masking_or_transparency(const struct settings *s)
{
    return control_t(s) == 1 || s->PMASK != 0;
}

/* "G  Value derived from selected graphics operation". "any combination of these operations uses 2
   machine states for each word written": the second line is taken once. */
static uint64_t graphics_value(const struct settings *s)
{
    int line = masking_or_transparency(s) ? 1 : 0;
    return graphics_table[line][processing_column_of(control_pp(s))];
}

/* ---- Rows ---- */

enum alignment { ALIGNMENT_A, ALIGNMENT_B, ALIGNMENT_C, ALIGNMENT_D };

/* The address of bit i, counted from 0, of the first row's pixel in this column. */
static uint32_t row_bit(const struct drawing *d, const struct settings *s, int64_t column,
                        uint32_t i)
{
    return address_at(d->destination, 0, s->DPTCH, column, s->PSIZE) + i;
}

/* "N  Number of words per row": the words that the bits of the first row fall into. The addresses
   rise, so each word is met once. The other rows are like it: "Word alignment is constant from row
   to row because DPTCH is constrained to be a multiple of 16". */
static uint64_t words_per_row(const struct drawing *d, const struct settings *s)
{
    uint64_t words = 0;
    uint32_t last_word = 0;
    for (int64_t column = 0; column < d->window.drawn.columns; column++) {
        for (uint32_t i = 0; i < s->PSIZE; i++) {
            uint32_t word = row_bit(d, s, column, i) / 16;
            if (words == 0 || word != last_word)
                words = words + 1;
            last_word = word;
        }
    }
    return words;
}

/* "the alignment of the leading and trailing words in the row characterize the alignment type of
   the array" (figure 13-4). Example 13-1: "The trailing edge is word aligned but the leading edge
   is not, so the alignment type is C." */
static enum alignment alignment_of(const struct drawing *d, const struct settings *s)
{
    uint32_t first_bit = row_bit(d, s, 0, 0);
    uint32_t last_bit = row_bit(d, s, d->window.drawn.columns - 1, s->PSIZE - 1u);
    bool leading_is_aligned = first_bit % 16 == 0;
    bool trailing_is_aligned = last_bit % 16 == 15;
    if (leading_is_aligned && trailing_is_aligned)
        return ALIGNMENT_A;
    if (leading_is_aligned)
        return ALIGNMENT_B;
    if (trailing_is_aligned)
        return ALIGNMENT_C;
    return ALIGNMENT_D;
}

/* ---- Table 13-6. FILL Transfer Timing ---- */

enum line_length { SHORT_LINE, MEDIUM_LINE, LONG_LINE };

/* An entry (row + NG)L + once. The short line prints G for NG, and the medium line 2 G. */
struct transfer_entry {
    uint64_t row;
    uint64_t once;
};

static const struct transfer_entry transfer_table[3][4] = {
    /*                    A         B         C         D     */
    /* Short (N=1)  */ { { 1, 2 }, { 2, 2 }, { 2, 1 }, { 2, 1 } },
    /* Medium (N=2) */ { { 2, 2 }, { 3, 2 }, { 3, 2 }, { 4, 1 } },
    /* Long         */ { { 1, 2 }, { 2, 5 }, { 3, 2 }, { 4, 1 } }
};

/* "The destination array row occupies only one word in memory (N=1)"; "two words in memory"; "all
   or part of at least three words". */
static enum line_length line_length_of(uint64_t N)
{
    if (N == 1)
        return SHORT_LINE;
    if (N == 2)
        return MEDIUM_LINE;
    return LONG_LINE;
}

/* "L  Number of rows", "in the adjusted array" */
static uint64_t transfer_time(const struct drawing *d, const struct settings *s)
{
    uint64_t L = (uint64_t)d->window.drawn.rows;
    uint64_t N = words_per_row(d, s);
    uint64_t G = graphics_value(s);
    struct transfer_entry e = transfer_table[line_length_of(N)][alignment_of(d, s)];
    return (e.row + N * G) * L + e.once;
}

/* ---- Alignment/Graphics Adjustment ---- */

/* "you can subtract 2 states (cases B and C) or 4 states (case D) per row from the transfer
   timings for the respective alignment cases. Case A requires no adjustment." */
static const uint64_t adjustment_table[4] = { 0, 2, 2, 4 };

/* "An additional adjustment may be necessary when plane masking or transparency are enabled and the
   alignment type is B, C, or D." */
static uint64_t adjustment_time(const struct drawing *d, const struct settings *s)
{
    uint64_t L = (uint64_t)d->window.drawn.rows;
    if (!masking_or_transparency(s))
        return 0;
    return adjustment_table[alignment_of(d, s)] * L;
}

/* ---- The whole ---- */

/* "FILL time = FILL setup time + FILL transfer time - alignment adjustment", "for the clipped
   array". "For other drawings, refused points and points that visit no pixel it is 0." */
struct fill_answer fill_states(uint64_t words, enum operation op, const struct settings *s)
{
    struct fill_answer r = { DONE, 0, 0, 0, 0 };
    struct memory m = { NULL, words };
    r.answer = draw_refusal(m, op, s, 0);
    if (r.answer != DONE || (op != FILL_L && op != FILL_XY))
        return r;
    struct drawing d = drawing_of(op, s, 0);
    if (d.n == 0)
        return r;
    r.setup = setup_time(op, s, d.window.drawn);
    r.transfer = transfer_time(&d, s);
    r.adjustment = adjustment_time(&d, s);
    r.states = r.setup + r.transfer - r.adjustment;
    return r;
}

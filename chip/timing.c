/* The time of a FILL: 000 section 13.3, its tables 13-5 to 13-7 and its three examples. */
#include "figures.h"

/* ---- The examples ---- */

/* Numbers: answer, setup, transfer, adjustment, states in all. The document prints the summands of
   the transfer, with L=15, N=14 and alignment C: (3+NG)L + 2. */
enum { TIME_NUMBERS = 5 };

static const char time_what[] = "answer, setup, transfer, adjustment, states";

static const struct example {
    struct figure figure;
    struct settings settings;
    uint64_t printed[TIME_NUMBERS];
} examples[] = {
    { { "000", "13.3.3", "example 13-1, time", "16 + [(3+ (14x2)]15 + 2, 483 states", SAME },
      { FILL_XY, .CONTROL = CONTROL_OF(REPLACE, 3, 0) },
      { 0, 16, (3 + 14 * 2) * 15 + 2, 0, 483 } },
    { { "000", "13.3.3", "example 13-2, time", "16 + [3+ (5x14)]15 + 2, 1,113 states", SAME },
      { FILL_XY, .CONTROL = CONTROL_OF(MAX, 3, 0) },
      { 0, 16, (3 + 14 * 5) * 15 + 2, 0, 1113 } },
    { { "000", "13.3.3", "example 13-3, time",
        "16 + [3+ (6x14)]15 + 2 - (2x15), 1,293 states", SAME },
      { FILL_XY, .CONTROL = CONTROL_OF(XNOR, 3, 1), .PMASK = 0x1111 },
      { 0, 16, (3 + 14 * 6) * 15 + 2, 2 * 15, 1293 } },
};

static void run_examples(void)
{
    for (size_t i = 0; i < COUNT_OF(examples); i++) {
        struct fill_time r = time_of(BH_FILL_XY, &examples[i].settings);
        uint64_t got[TIME_NUMBERS] = { r.answer, r.setup, r.transfer, r.adjustment, r.states };
        settle(&examples[i].figure, time_what, TIME_NUMBERS, examples[i].printed, NULL, got);
    }
}

/* ---- Table 13-5: setup ---- */

/* The window is (10,10) to (19,19). The array lies in it, but on the sides that are clipped. */
enum { LEFT = 1, ABOVE = 2, RIGHT = 4, BELOW = 8, SIDES = 16 };

static struct settings array_clipped(uint32_t sides, uint32_t control)
{
    uint32_t x = sides & LEFT ? 7 : 12, y = sides & ABOVE ? 8 : 11;
    uint32_t last_x = sides & RIGHT ? 23 : 17, last_y = sides & BELOW ? 20 : 18;
    struct settings s = { .DADDR = XY(x, y), .DYDX = XY(last_x - x + 1, last_y - y + 1),
                          .DPTCH = 0x800, .WSTART = XY(10, 10), .WEND = XY(19, 19), .PSIZE = 4,
                          .CONTROL = control };
    return s;
}

/* A column of the table: the modes of W that it is run with, and whether the start corner and the
   end corner are moved; by every choice of sides that does so. */
static const struct setup_row {
    struct figure figure;
    uint32_t operation;
    uint32_t first_w, last_w;
    bool start, end;
    uint64_t printed;
} setup_rows[] = {
    { { "000", "13.3.1", "table 13-5, FILL L, W=0", "4", SAME }, BH_FILL_L, 0, 0, false, false, 4 },
    { { "000", "13.3.1", "table 13-5, FILL XY, W=0", "6", SAME },
      BH_FILL_XY, 0, 0, false, false, 6 },
    { { "000", "13.3.1", "table 13-5, FILL XY, array fits", "9", SAME },
      BH_FILL_XY, 2, 3, false, false, 9 },
    { { "000", "13.3.1", "table 13-5, FILL XY, start adjust", "16", SAME },
      BH_FILL_XY, 3, 3, true, false, 16 },
    { { "000", "13.3.1", "table 13-5, FILL XY, dimens adjust", "12", SAME },
      BH_FILL_XY, 3, 3, false, true, 12 },
    { { "000", "13.3.1", "table 13-5, FILL XY, adjust both", "20", SAME },
      BH_FILL_XY, 3, 3, true, true, 20 },
};

/* The setup of the first call that isn't as awaited, or else of the last. */
static uint64_t setup_of(const struct setup_row *row, uint32_t bits, uint64_t awaited)
{
    uint64_t setup = NOT_PRINTED;
    for (uint32_t w = row->first_w; w <= row->last_w; w++) {
        for (uint32_t sides = 0; sides < SIDES; sides++) {
            if (((sides & (LEFT | ABOVE)) != 0) != row->start
                || ((sides & (RIGHT | BELOW)) != 0) != row->end)
                continue;
            struct settings s = array_clipped(sides, CONTROL_OF(REPLACE, w, 0) | bits);
            struct fill_time r = time_of(row->operation, &s);
            setup = r.answer == 0 ? r.setup : NOT_PRINTED;
            if (setup != awaited)
                return setup;
        }
    }
    return setup;
}

/* "add 3 machine states for cache disabled timing": over all the columns. */
static void run_setups(void)
{
    const struct figure note = { "000", "13.3.1", "table 13-5, note", "add 3 machine states",
                                 SAME };
    const uint64_t printed = 3;
    uint64_t more = 0;
    for (size_t i = 0; i < COUNT_OF(setup_rows); i++) {
        const struct setup_row *row = &setup_rows[i];
        uint64_t got = setup_of(row, 0, row->printed);
        settle(&row->figure, "setup", 1, &row->printed, NULL, &got);
        if (i == 0 || more == printed)
            more = setup_of(row, CD, row->printed + printed) - got;
    }
    settle(&note, "states more", 1, &printed, NULL, &more);
}

/* The table's columns under "Corner Adjust": each of the other setups, with PBH, PBV and both. */
static void run_corner_setups(void)
{
    const struct figure figure = { "000", "13.3.1", "table 13-5, corner adjust",
                                   "Corner adjust operations have no effect", SAME };
    const uint64_t printed = 3 * COUNT_OF(setup_rows);
    uint64_t got = 0;
    for (size_t i = 0; i < COUNT_OF(setup_rows); i++) {
        const struct setup_row *row = &setup_rows[i];
        for (uint32_t bits = PBH; bits <= LOWER_RIGHT; bits += PBH)
            got += setup_of(row, bits, row->printed) == row->printed;
    }
    settle(&figure, "setups as without", 1, &printed, NULL, &got);
}

/* ---- Rows ---- */

/* A row of so many pixels that starts at this bit of a word. */
struct row {
    uint32_t psize, first, columns;
};

/* The greatest number of columns that is run: 4 words and more at each pixel size. */
#define MOST_COLUMNS 80

static uint64_t words_of(const struct row *row)
{
    return (row->first + (uint64_t)row->columns * row->psize + 15) / 16;
}

/* "The trailing edge is word aligned but the leading edge is not, so the alignment type is C." */
static char alignment_of(const struct row *row)
{
    bool leading = row->first == 0, trailing = (row->first + row->columns * row->psize) % 16 == 0;
    if (leading)
        return trailing ? 'A' : 'B';
    return trailing ? 'C' : 'D';
}

/* The next row, in the order of sizes, starts and columns; false after the last. */
static bool next_row(struct row *row)
{
    row->columns++;
    if (row->columns <= MOST_COLUMNS)
        return true;
    row->columns = 1;
    row->first += row->psize;
    if (row->first < 16)
        return true;
    row->first = 0;
    row->psize *= 2;
    return row->psize <= 16;
}

static const struct row first_row = { 1, 0, 1 };

/* FILL L of so many such rows. */
static struct fill_time rows_time(const struct row *row, uint32_t rows, uint32_t control,
                                  uint32_t pmask)
{
    const struct settings s = { .DADDR = 16 + row->first, .DPTCH = 0x800,
                                .DYDX = XY(row->columns, rows), .PSIZE = row->psize,
                                .CONTROL = control, .PMASK = pmask };
    return time_of(BH_FILL_L, &s);
}

/* ---- Table 13-6: transfer ---- */

/* A formula (row + words x G)L + once: `words` is 1 and 2 as printed, and 1 for N. Numbers: row,
   words, once. */
static const struct formula {
    struct figure figure;
    uint64_t least, most; /* words of a row */
    char alignment;
    uint64_t printed[3];
} formulas[] = {
    { { "000", "13.3.2", "table 13-6, short, A", "(1+ G)L +2", SAME }, 1, 1, 'A', { 1, 1, 2 } },
    { { "000", "13.3.2", "table 13-6, short, B", "(2+ G)L+ 2", SAME }, 1, 1, 'B', { 2, 1, 2 } },
    { { "000", "13.3.2", "table 13-6, short, C", "(2+ G)L +1", SAME }, 1, 1, 'C', { 2, 1, 1 } },
    { { "000", "13.3.2", "table 13-6, short, D", "(2+ G)L +1", SAME }, 1, 1, 'D', { 2, 1, 1 } },
    { { "000", "13.3.2", "table 13-6, medium, A", "(2+2 G)L + 2", SAME }, 2, 2, 'A', { 2, 2, 2 } },
    { { "000", "13.3.2", "table 13-6, medium, B", "(3+2 G)L + 2", SAME }, 2, 2, 'B', { 3, 2, 2 } },
    { { "000", "13.3.2", "table 13-6, medium, C", "(3+2 G)L +2", SAME }, 2, 2, 'C', { 3, 2, 2 } },
    { { "000", "13.3.2", "table 13-6, medium, D", "(4+2 G)L +1", SAME }, 2, 2, 'D', { 4, 2, 1 } },
    { { "000", "13.3.2", "table 13-6, long, A", "(1+ NG)L +2", SAME },
      3, UINT64_MAX, 'A', { 1, 1, 2 } },
    { { "000", "13.3.2", "table 13-6, long, B", "(2+ NG)L +5", SAME },
      3, UINT64_MAX, 'B', { 2, 1, 5 } },
    { { "000", "13.3.2", "table 13-6, long, C", "(3+ NG)L + 2", SAME },
      3, UINT64_MAX, 'C', { 3, 1, 2 } },
    { { "000", "13.3.2", "table 13-6, long, D", "(4+ NG)L +1", SAME },
      3, UINT64_MAX, 'D', { 4, 1, 1 } },
};

/* An operation of each column of table 13-7, with the G of its first line. */
static const struct known {
    uint32_t pp;
    uint64_t g;
} known[] = { { REPLACE, 2 }, { XNOR, 4 }, { MAX, 5 }, { SUBS, 6 } };

static const uint32_t heights[] = { 1, 2, 3, 15, 100 };

static uint64_t transfer_of(const struct row *row, uint32_t rows, uint32_t pp)
{
    struct fill_time r = rows_time(row, rows, CONTROL_OF(pp, 0, 0), 0);
    return r.answer == 0 ? r.transfer : NOT_PRINTED;
}

/* Do all heights and known operations have the transfer of these numbers? */
static bool has_numbers(const struct row *row, const uint64_t number[3])
{
    for (size_t i = 0; i < COUNT_OF(known); i++) {
        for (size_t k = 0; k < COUNT_OF(heights); k++) {
            uint64_t a_row = number[0] + number[1] * known[i].g;
            if (transfer_of(row, heights[k], known[i].pp) != a_row * heights[k] + number[2])
                return false;
        }
    }
    return true;
}

/* The numbers that the transfers of 1 and 2 rows with G=2 and G=4 have; none where the others don't
   have them. */
static void numbers_of(const struct row *row, bool is_long, uint64_t got[3])
{
    uint64_t one = transfer_of(row, 1, REPLACE), two = transfer_of(row, 2, REPLACE);
    uint64_t more = transfer_of(row, 2, XNOR) - transfer_of(row, 1, XNOR);
    got[1] = (more - (two - one)) / 2;
    got[0] = two - one - 2 * got[1];
    got[2] = one - (two - one);
    if (!has_numbers(row, got))
        got[0] = NOT_PRINTED;
    if (is_long)
        got[1] = got[1] % words_of(row) == 0 ? got[1] / words_of(row) : NOT_PRINTED;
}

/* Over every row of this length and alignment: the first that isn't as printed, or else the last
   one. */
static void run_formulas(void)
{
    for (size_t i = 0; i < COUNT_OF(formulas); i++) {
        const struct formula *f = &formulas[i];
        struct row row = first_row;
        uint64_t got[3] = { 0, 0, 0 };
        do {
            if (words_of(&row) < f->least || words_of(&row) > f->most
                || alignment_of(&row) != f->alignment)
                continue;
            numbers_of(&row, f->least > 2, got);
            if (!agree(3, f->printed, got))
                break;
        } while (next_row(&row));
        settle(&f->figure, "states a row, times G, once", 3, f->printed, NULL, got);
    }
}

/* ---- Table 13-7: G ---- */

/* The operations of a column, with -1 behind them: the heading is read down its columns. */
static const struct graphics {
    struct figure figure;
    int pp[18];
    bool masked;
    uint64_t printed;
} graphics[] = {
    { { "000", "13.3.2", "table 13-7, replace", "2", SAME }, { 0, -1 }, false, 2 },
    { { "000", "13.3.2", "table 13-7, other Booleans or ADD", "4", SAME },
      { 1, 2, 3, 4, 5, 6, 7, 8, 9, 10, 11, 12, 13, 14, 15, ADD, -1 }, false, 4 },
    { { "000", "13.3.2", "table 13-7, ADDS, SUB, MAX or MIN", "5", SAME },
      { ADDS, SUB, MAX, MIN, -1 }, false, 5 },
    { { "000", "13.3.2", "table 13-7, SUBS", "6", SAME }, { SUBS, -1 }, false, 6 },
    { { "000", "13.3.2", "table 13-7, replace, plane masking or transparency", "4", SAME },
      { 0, -1 }, true, 4 },
    { { "000", "13.3.2",
        "table 13-7, other Booleans or ADD, plane masking or transparency", "6", SAME },
      { 1, 2, 3, 4, 5, 6, 7, 8, 9, 10, 11, 12, 13, 14, 15, ADD, -1 }, true, 6 },
    { { "000", "13.3.2",
        "table 13-7, ADDS, SUB, MAX or MIN, plane masking or transparency", "7", SAME },
      { ADDS, SUB, MAX, MIN, -1 }, true, 7 },
    { { "000", "13.3.2", "table 13-7, SUBS, plane masking or transparency", "8", SAME },
      { SUBS, -1 }, true, 8 },
};

/* What a fourth word adds to one row of three, both edges at word bounds: G. */
static uint64_t word_of(uint32_t psize, uint32_t pp, uint32_t t, uint32_t pmask)
{
    const struct row three = { psize, 0, 3 * 16 / psize }, four = { psize, 0, 4 * 16 / psize };
    struct fill_time less = rows_time(&three, 1, CONTROL_OF(pp, 0, t), pmask);
    struct fill_time more = rows_time(&four, 1, CONTROL_OF(pp, 0, t), pmask);
    return less.answer == 0 && more.answer == 0 ? more.transfer - less.transfer : NOT_PRINTED;
}

/* Without T and mask, or with T, with a mask of each plane of the word, and with both, at each
   pixel size: the first G that isn't as printed, or else the last. */
static uint64_t g_of(const struct graphics *row, uint32_t pp)
{
    uint64_t g = NOT_PRINTED;
    for (uint32_t psize = 1; psize <= 16; psize *= 2) {
        for (uint32_t mode = 0; mode < 2 * 17; mode++) {
            uint32_t t = mode % 2, pmask = mode < 2 ? 0 : 1u << (mode / 2 - 1);
            if ((mode != 0) != row->masked)
                continue;
            g = word_of(psize, pp, t, pmask);
            if (g != row->printed)
                return g;
        }
    }
    return g;
}

static void run_graphics(void)
{
    for (size_t i = 0; i < COUNT_OF(graphics); i++) {
        uint64_t got = NOT_PRINTED;
        for (const int *pp = graphics[i].pp; *pp >= 0; pp++) {
            got = g_of(&graphics[i], (uint32_t)*pp);
            if (got != graphics[i].printed)
                break;
        }
        settle(&graphics[i].figure, "G", 1, &graphics[i].printed, NULL, &got);
    }
}

/* ---- The adjustment ---- */

static const struct adjustment {
    struct figure figure;
    const char *alignments;
    uint32_t t, pmask;
    uint64_t printed; /* a row */
} adjustments[] = {
    { { "000", "13.3.2", "adjustment, case A", "Case A requires no adjustment", SAME },
      "A", 1, 0, 0 },
    { { "000", "13.3.2", "adjustment, case B", "2 states (cases B and C) .. per row", SAME },
      "B", 1, 0, 2 },
    { { "000", "13.3.2", "adjustment, case C", "2 states (cases B and C) .. per row", SAME },
      "C", 0, 1, 2 },
    { { "000", "13.3.2", "adjustment, case D", "4 states (case D) per row", SAME },
      "D", 1, 0x8000, 4 },
    { { "000", "13.3.2", "no adjustment without plane masking and transparency",
        "when plane masking or transparency are enabled", WORKED },
      "ABCD", 0, 0, 0 },
};

static bool is_among(char letter, const char *letters)
{
    while (*letters != 0 && *letters != letter)
        letters++;
    return *letters == letter;
}

/* The states a row, at every height; none where they aren't so many in each. */
static uint64_t adjustment_of(const struct row *row, uint32_t t, uint32_t pmask)
{
    uint64_t one = rows_time(row, 1, CONTROL_OF(REPLACE, 0, t), pmask).adjustment;
    for (size_t k = 0; k < COUNT_OF(heights); k++) {
        struct fill_time r = rows_time(row, heights[k], CONTROL_OF(REPLACE, 0, t), pmask);
        if (r.answer != 0 || r.adjustment != one * heights[k]
            || r.states != r.setup + r.transfer - r.adjustment)
            return NOT_PRINTED;
    }
    return one;
}

static void run_adjustments(void)
{
    for (size_t i = 0; i < COUNT_OF(adjustments); i++) {
        const struct adjustment *a = &adjustments[i];
        struct row row = first_row;
        uint64_t got = NOT_PRINTED;
        do {
            if (!is_among(alignment_of(&row), a->alignments))
                continue;
            got = adjustment_of(&row, a->t, a->pmask);
            if (got != a->printed)
                break;
        } while (next_row(&row));
        settle(&a->figure, "states a row", 1, &a->printed, NULL, &got);
    }
}

void timing_figures(void)
{
    run_examples();
    run_setups();
    run_corner_setups();
    run_formulas();
    run_graphics();
    run_adjustments();
}

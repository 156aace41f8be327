/* Compares the starting corners: all four of every small array, which lies on top of its source or
   beside it, whole and pixel by pixel. FILL and B sources must do the same from each. What random
   drawings had is counted by kind and corner. */
#include "compare_drawings.h"

#include <string.h>

static const char *const corner_name[CORNERS] = { "neither", "PBH", "PBV", "both" };

/* ---- What random drawings had ---- */

/* L,L, L,XY, XY,L and XY,XY. */
#define KINDS 4

/* Accepted calls and their pixels; of these calls the ones that draw, with more than one row and
   column, that stop and that go on so, that the window clips, that read what they write, that
   change the memory's first or last word; drawings of pairs; refused calls. */
enum count { ACCEPTED, PIXELS, DREW, STOPS, GOES_ON, CLIPPED, OVERLAPS, FIRST_WORD, LAST_WORD,
             PAIRED, HAS_16, HAS_17, COUNTS };

static const char *const count_name[COUNTS] = { "accepted", "pixels",  "drew",  "stopped",
                                                "went on",  "clipped", "overlap", "first",
                                                "last",     "pairs",   "16",    "17" };

static uint64_t had[KINDS][CORNERS][COUNTS];

/* Calls of the other kinds that draw with PBH or PBV, by operation. */
static uint64_t ignored[OPERATIONS];

static void note_drawn(const struct draw_case *c, const struct draw_result *r, uint64_t *number)
{
    struct rectangle array = whole_array(c), drawn = drawn_part(c);
    bool wide = drawn.columns > 1 && drawn.rows > 1;
    number[PIXELS] += r->out[OUT_VISITED];
    if (r->out[OUT_VISITED] == 0)
        return;
    number[DREW] += wide;
    number[STOPS] += wide && r->answer == STOPPED;
    number[GOES_ON] += wide && c->place > 0;
    number[CLIPPED] += drawn.columns < array.columns || drawn.rows < array.rows;
}

void count_corner(const struct draw_case *c, const struct draw_result *r, const struct twin *m,
                  bool overlap)
{
    if (c->operation >= OPERATIONS)
        return;
    if (!copies_pixels(c->operation)) {
        ignored[c->operation] +=
            r->answer <= STOPPED && r->out[OUT_VISITED] > 0 && corner_of(c) != 0;
        return;
    }
    uint64_t *number = had[c->operation - PIXBLT_L_L][corner_of(c)];
    number[HAS_16] += r->answer == REFUSED_START;
    number[HAS_17] += r->answer == REFUSED_ADDRESS;
    if (r->answer > STOPPED)
        return;
    number[ACCEPTED]++;
    number[OVERLAPS] += overlap;
    number[FIRST_WORD] += m->mine[0] != m->before[0];
    number[LAST_WORD] += m->mine[c->words - 1] != m->before[c->words - 1];
    note_drawn(c, r, number);
}

void count_corner_in_pair(const struct draw_case *c)
{
    if (copies_pixels(c->operation))
        had[c->operation - PIXBLT_L_L][corner_of(c)][PAIRED]++;
}

/* ---- Small arrays ---- */

#define WORDS 24
#define HELD (WORDS + 8)
#define MOST_COLUMNS 4
#define MOST_ROWS 3

/* Two arrays of one size, the destination so many columns and rows from the source. */
struct small {
    uint32_t operation, psize, columns, rows;
    uint32_t dpitch, spitch;
    int64_t right, down;
    uint32_t destination, source; /* linear addresses of the upper left pixels */
};

/* Where the two lie: the lower one at the memory's start, in the middle, the higher one at its end,
   a pixel outside, or a bit from the start. */
enum spot { AT_START, BETWEEN, AT_END, BEFORE_START, BEHIND_END, A_BIT_ON, SPOTS };

static int64_t distance_of(const struct small *s)
{
    return s->right * (int64_t)s->psize + s->down * rise_of(s->dpitch);
}

/* The first bit of an array, and the one behind its last, from the upper left pixel's address. */
struct span {
    int64_t low, high;
};

static struct span span_of(const struct small *s, uint32_t pitch, int64_t at)
{
    int64_t rise = ((int64_t)s->rows - 1) * rise_of(pitch);
    struct span span = { at + (rise < 0 ? rise : 0),
                         at + (rise > 0 ? rise : 0) + (int64_t)s->columns * s->psize };
    return span;
}

static void put_small(struct small *s, enum spot spot)
{
    struct span to = span_of(s, s->dpitch, distance_of(s)), from = span_of(s, s->spitch, 0);
    int64_t low = to.low < from.low ? to.low : from.low;
    int64_t high = to.high > from.high ? to.high : from.high;
    int64_t source = (16 * WORDS - high - low) / 2 / s->psize * s->psize;
    switch (spot) {
    case AT_START: source = -low; break;
    case BEFORE_START: source = -low - s->psize; break;
    case AT_END: source = 16 * WORDS - high; break;
    case BEHIND_END: source = 16 * WORDS - high + s->psize; break;
    case A_BIT_ON: source = 1 - low; break;
    default: break;
    }
    s->source = (uint32_t)source;
    s->destination = (uint32_t)(source + distance_of(s));
}

/* Where an XY source lies, or an XY destination of a linear one. */
#define SMALL_X 130
#define SMALL_Y 2

/* Replace, from the upper left corner. Two XY arrays have one OFFSET. */
static struct draw_case case_of(const struct small *s)
{
    struct draw_case c = { .operation = s->operation, .count = BH_SETTINGS, .words = WORDS,
                           .budget = UINT64_MAX, .length = BH_DRAW_RESULTS };
    bool from_xy = draws_from_xy(s->operation);
    int64_t y = SMALL_Y + (from_xy ? s->down : 0);
    uint32_t origin = from_xy ? s->source - SMALL_Y * s->spitch
                              : s->destination - SMALL_Y * s->dpitch;
    c.number[AT_OFFSET] = origin - SMALL_X * s->psize;
    c.number[AT_SADDR] = from_xy ? xy_number(SMALL_X, SMALL_Y) : s->source;
    c.number[AT_DADDR] = s->destination;
    if (draws_to_xy(s->operation)) {
        uint32_t row = c.number[AT_OFFSET] + (uint32_t)y * s->dpitch;
        c.number[AT_DADDR] = xy_number((s->destination - row) / s->psize, y);
    }
    c.number[AT_SPTCH] = s->spitch;
    c.number[AT_DPTCH] = s->dpitch;
    c.number[AT_DYDX] = s->rows << 16 | s->columns;
    c.number[AT_COLOR0] = 0x35C6;
    c.number[AT_COLOR1] = 0x9A2F;
    c.number[AT_PSIZE] = s->psize;
    return c;
}

/* ---- One array from all corners ---- */

/* The memory before each call. */
static uint16_t start[HELD];

/* What one corner hands back and leaves. */
struct outcome {
    struct draw_result result, time;
    uint16_t left[HELD];
};

static uint64_t arrays_drawn, arrays_refused, told_apart, sources_kept, arrays_ignoring;

static void start_again(const struct twin *m)
{
    memcpy(m->mine, start, m->held * sizeof *start);
    memcpy(m->theirs, start, m->held * sizeof *start);
    memcpy(m->before, start, m->held * sizeof *start);
}

static void stop_corner(const char *what, const struct draw_case *c)
{
    print_case(what);
    print_draw_case(c);
    print_words("memory before", start, WORDS);
    stop();
}

/* Whole, and from the same memory pixel by pixel. */
static struct outcome compare_both_ways(struct draw_case c, struct twin *m)
{
    struct outcome o;
    start_again(m);
    o.result = compare_uncounted(&c, m);
    memcpy(o.left, m->mine, m->held * sizeof *start);
    if (o.result.answer != DONE || o.result.out[OUT_VISITED] < 2)
        return o;
    struct draw_result slice = { STOPPED, { 0 } };
    start_again(m);
    c.budget = 1;
    while (slice.answer == STOPPED) {
        slice = compare_uncounted(&c, m);
        c.place = slice.out[OUT_PLACE];
        c.v = (uint32_t)slice.out[OUT_V];
    }
    slice.out[OUT_VISITED] = c.place;
    if (!same_result(&slice, &o.result)
        || memcmp(o.left, m->mine, m->held * sizeof *start) != 0)
        stop_corner("pixel by pixel a drawing ends otherwise than whole", &c);
    return o;
}

/* Any operation, mask and T. */
static void compare_other_operation(struct draw_case c, struct twin *m)
{
    uint32_t t = random_below(2);
    start_again(m);
    c.number[AT_CONTROL] |= random_below(22) << 10 | t << 5;
    c.number[AT_PMASK] = one_in(2) ? 0 : random32() & 0xFFFF;
    compare_uncounted(&c, m);
}

/* "with equal pitches, rows that don't share bits, replace, T=0 and PMASK 0, a PIXBLT of pixels
   onto overlapping rows leaves the old source in all it draws, if the corner's walk rises in
   address from pixel to pixel where each destination pixel lies below its source pixel, and falls
   where it lies above" */
static bool keeps_source(const struct small *s, uint32_t corner)
{
    int64_t rise = rise_of(s->dpitch), row = (int64_t)s->columns * s->psize;
    int64_t way = distance_of(s) < 0 ? 1 : -1;
    int64_t right = (corner & 1) != 0 ? -1 : 1, down = (corner & 2) != 0 ? -rise : rise;
    if (s->dpitch != s->spitch || (s->rows > 1 && rise < row && -rise < row))
        return false;
    return (s->columns == 1 || right == way) && (s->rows == 1 || down * way > 0);
}

static void check_source(const struct small *s, const struct draw_case *c, uint16_t *left)
{
    struct memory before = { start, WORDS }, after = { left, WORDS };
    for (int64_t row = 0; row < s->rows; row++) {
        for (int64_t column = 0; column < s->columns; column++) {
            uint32_t to = address_at(s->destination, row, s->dpitch, column, s->psize);
            uint32_t from = address_at(s->source, row, s->spitch, column, s->psize);
            if (pixel_get(after, to, s->psize) != pixel_get(before, from, s->psize))
                stop_corner("the old source isn't left", c);
        }
    }
    sources_kept += overlaps(c);
}

/* FILL and B sources do the same from each corner; the others are accepted or refused from each
   alike, as they visit the same pixels. */
static void check_corners(const struct draw_case *c, const struct outcome o[CORNERS],
                          const struct twin *m)
{
    bool apart = false;
    for (int i = 1; i < CORNERS; i++) {
        bool same = memcmp(o[i].left, o[0].left, m->held * sizeof *start) == 0;
        if (o[i].result.answer != o[0].result.answer)
            stop_corner("corners of one array give different answers", c);
        if (!copies_pixels(c->operation)
            && !(same && same_result(&o[i].result, &o[0].result)
                 && same_result(&o[i].time, &o[0].time)))
            stop_corner("PBH or PBV isn't ignored", c);
        apart = apart || !same;
    }
    bool drawn = o[0].result.answer == DONE && o[0].result.out[OUT_VISITED] > 0;
    arrays_drawn += drawn && copies_pixels(c->operation);
    arrays_ignoring += drawn && !copies_pixels(c->operation);
    arrays_refused += o[0].result.answer != DONE;
    told_apart += apart;
}

static void every_corner(const struct small *s, struct draw_case c, struct twin *m)
{
    struct outcome o[CORNERS];
    struct draw_result theirs;
    bool whole = (c.number[AT_CONTROL] >> 6 & 3) == 0 && copies_pixels(c.operation);
    for (uint32_t corner = 0; corner < CORNERS; corner++) {
        turn_drawing(&c, corner);
        o[corner] = compare_both_ways(c, m);
        times_agree(&c, &o[corner].time, &theirs);
        if (whole && o[corner].result.answer == DONE && keeps_source(s, corner))
            check_source(s, &c, o[corner].left);
        compare_other_operation(c, m);
    }
    check_corners(&c, o, m);
}

/* ---- Every small array ---- */

static struct twin random_start(void)
{
    struct twin m = new_memory(WORDS);
    for (uint64_t i = 0; i < m.held; i++)
        start[i] = (uint16_t)random32();
    return m;
}

static void every_spot(struct small s)
{
    struct twin m = random_start();
    for (s.right = -2; s.right <= 2; s.right++) {
        for (s.down = -1; s.down <= 1; s.down++) {
            for (int spot = 0; spot < SPOTS; spot++) {
                put_small(&s, (enum spot)spot);
                every_corner(&s, case_of(&s), &m);
            }
        }
    }
}

static void any_spot(struct small s)
{
    struct twin m = random_start();
    s.right = (int64_t)random_below(5) - 2;
    s.down = (int64_t)random_below(3) - 1;
    put_small(&s, (enum spot)random_below(SPOTS));
    every_corner(&s, case_of(&s), &m);
}

/* Every size, where the two pitches are one at every distance and spot. */
static void every_size(struct small s)
{
    bool all = copies_pixels(s.operation) && s.dpitch == s.spitch;
    for (s.psize = 1; s.psize <= 16; s.psize = 2 * s.psize) {
        for (s.columns = 0; s.columns <= MOST_COLUMNS; s.columns++) {
            for (s.rows = 0; s.rows <= MOST_ROWS; s.rows++) {
                if (all && s.columns > 0 && s.rows > 0)
                    every_spot(s);
                else
                    any_spot(s);
            }
        }
    }
}

#define LINEAR_PITCHES 8
#define XY_PITCHES 4

/* Those from 2^31 on fall, or leave the memory and come back. */
static const uint32_t linear_pitch[LINEAR_PITCHES] = { 0,          16,          32,
                                                       64,         0u - 16,     0u - 32,
                                                       0x80000000, 0x80000010u };
static const uint32_t xy_pitch[XY_PITCHES] = { 16, 32, 64, 0x80000000u };

static void every_pitch(uint32_t operation)
{
    struct small s = { .operation = operation };
    bool to_xy = draws_to_xy(operation), from_xy = draws_from_xy(operation);
    for (int i = 0; i < (to_xy ? XY_PITCHES : LINEAR_PITCHES); i++) {
        for (int k = 0; k < (from_xy ? XY_PITCHES : LINEAR_PITCHES); k++) {
            s.dpitch = to_xy ? xy_pitch[i] : linear_pitch[i];
            s.spitch = from_xy ? xy_pitch[k] : linear_pitch[k];
            every_size(s);
        }
    }
}

/* ---- Every window over an array ---- */

/* Windows of all sizes in the largest of the arrays; W=3. */
static void every_window(const struct small *s, struct twin *m)
{
    struct draw_case c = case_of(s);
    int64_t x = x_half(c.number[AT_DADDR]), y = y_half(c.number[AT_DADDR]);
    c.number[AT_CONTROL] = 3 << 6;
    for (uint32_t i = 0; i < MOST_COLUMNS * MOST_COLUMNS * MOST_ROWS * MOST_ROWS; i++) {
        uint32_t left = i % MOST_COLUMNS, right = i / MOST_COLUMNS % MOST_COLUMNS;
        uint32_t rows = i / (MOST_COLUMNS * MOST_COLUMNS);
        uint32_t top = rows % MOST_ROWS, bottom = rows / MOST_ROWS;
        if (left > right || top > bottom)
            continue;
        c.number[AT_WSTART] = xy_number(x + left, y + top);
        c.number[AT_WEND] = xy_number(x + right, y + bottom);
        every_corner(s, c, m);
    }
}

static void every_clip(uint32_t operation)
{
    struct small s = { .operation = operation, .columns = MOST_COLUMNS, .rows = MOST_ROWS };
    for (s.psize = 1; s.psize <= 16; s.psize = 2 * s.psize) {
        for (s.right = -1; s.right <= 1; s.right++) {
            for (s.down = -1; s.down <= 1; s.down++) {
                struct twin m = random_start();
                s.dpitch = s.spitch = xy_pitch[random_below(3)];
                put_small(&s, BETWEEN);
                every_window(&s, &m);
            }
        }
    }
}

void compare_corners(void)
{
    for (uint32_t operation = 0; operation < OPERATIONS; operation++) {
        every_pitch(operation);
        if (draws_to_xy(operation))
            every_clip(operation);
    }
}

/* ---- Printing ---- */

/* Linear destinations know no window. */
static bool expected(uint32_t operation, int count)
{
    return count != CLIPPED || draws_to_xy(operation);
}

static int print_kind(uint32_t operation)
{
    int missing = 0;
    for (int corner = 0; corner < CORNERS; corner++) {
        const uint64_t *number = had[operation - PIXBLT_L_L][corner];
        printf("%-12s %-7s", operation_name[operation], corner_name[corner]);
        for (int i = 0; i < COUNTS; i++) {
            printf(" %8llu", (unsigned long long)number[i]);
            missing += number[i] == 0 && expected(operation, i);
        }
        printf("\n");
    }
    return missing;
}

int print_corners(void)
{
    int missing = 0;
    printf("%-20s", "corners");
    for (int i = 0; i < COUNTS; i++)
        printf(" %8s", count_name[i]);
    printf("\n");
    for (uint32_t operation = PIXBLT_L_L; operation <= PIXBLT_XY_XY; operation++)
        missing += print_kind(operation);
    printf("drawn with PBH or PBV, which are ignored:");
    for (uint32_t operation = 0; operation < OPERATIONS; operation++) {
        if (copies_pixels(operation))
            continue;
        printf("%s %llu %s", operation > 0 ? "," : "", (unsigned long long)ignored[operation],
               operation_name[operation]);
        missing += ignored[operation] == 0;
    }
    printf("\nsmall arrays: %llu drawn from all corners, %llu of them with different ends, and "
           "%llu times the old source was left; %llu that ignore the corner; %llu refused\n",
           (unsigned long long)arrays_drawn, (unsigned long long)told_apart,
           (unsigned long long)sources_kept, (unsigned long long)arrays_ignoring,
           (unsigned long long)arrays_refused);
    return missing;
}

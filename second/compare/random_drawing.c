/* Random FILL and PIXBLT calls. A drawing is made from what it draws: columns, rows and pitches
   that the memory has room for, linear starts, then the settings that lead to them. So most are
   accepted and visit pixels, however small the memory is. What is wrong is made so afterwards. */
#include "compare_drawings.h"

bool draws_to_xy(uint32_t operation)
{
    return operation == FILL_XY || operation == PIXBLT_L_XY || operation == PIXBLT_XY_XY
           || operation == PIXBLT_B_XY;
}

bool draws_from_xy(uint32_t operation)
{
    return operation == PIXBLT_XY_L || operation == PIXBLT_XY_XY;
}

bool copies_pixels(uint32_t operation)
{
    return operation >= PIXBLT_L_L && operation <= PIXBLT_XY_XY;
}

bool copies_bits(uint32_t operation)
{
    return operation == PIXBLT_B_L || operation == PIXBLT_B_XY;
}

/* The drawn part of a random drawing. */
struct part {
    uint32_t operation, psize, step; /* step: from one source pixel to the next */
    uint32_t columns, rows;
    uint32_t dpitch, spitch;
    uint32_t destination, source;       /* linear addresses of the upper left pixels */
    int64_t x, y;                       /* the destination's start */
    uint32_t left, above, right, below; /* what the array has beside, for the window to clip */
};

/* ---- Sizes and pitches ---- */

static uint32_t random_extent(uint64_t words)
{
    uint32_t style = random_below(24);
    if (style < 5)
        return 1;
    if (style == 5)
        return 1 + random_below(300);
    if (style == 6 && words > 4096)
        return 1 + random_below(65535);
    return 1 + random_below(12);
}

/* Powers of two; one row may have any of them. */
static uint32_t random_xy_pitch(uint32_t rows, uint64_t words)
{
    if (rows == 1 && one_in(4))
        return (uint32_t)1 << (4 + random_below(28));
    if (words > 4096)
        return (uint32_t)16 << random_below(12);
    return (uint32_t)16 << random_below(6);
}

/* Multiples of unit, at times 0 or near 2^32; one row may have any of them. */
static uint32_t random_linear_pitch(uint32_t rows, uint32_t unit)
{
    uint32_t style = random_below(8);
    if (style == 0)
        return 0;
    if (style == 1 && rows == 1)
        return random32() / unit * unit;
    if (style < 4)
        return 0u - unit * random_below(192 / unit);
    return unit * random_below(384 / unit);
}

int64_t rise_of(uint32_t pitch)
{
    return pitch < 0x80000000u ? (int64_t)pitch : (int64_t)pitch - 4294967296;
}

/* The first and the last start of a walk that stays in the memory; there is none where first is
   above last. */
struct starts {
    int64_t first, last;
};

static struct starts starts_of(const struct part *p, uint32_t pitch, uint32_t step, uint64_t words)
{
    int64_t rise = (int64_t)(p->rows - 1) * rise_of(pitch);
    int64_t row = (int64_t)p->columns * step;
    struct starts s = { rise < 0 ? -rise : 0, 16 * (int64_t)words - row - (rise > 0 ? rise : 0) };
    return s;
}

static bool has_room(const struct part *p, uint64_t words)
{
    struct starts d = starts_of(p, p->dpitch, p->psize, words);
    struct starts s = starts_of(p, p->spitch, p->step, words);
    return d.first <= d.last && (p->step == 0 || s.first <= s.last);
}

/* One pitch for both at times: a power of two where one of them must be. */
static void random_pitches(struct part *p, uint64_t words)
{
    p->dpitch = draws_to_xy(p->operation) ? random_xy_pitch(p->rows, words)
                                          : random_linear_pitch(p->rows, 16);
    p->spitch = random32();
    if (draws_from_xy(p->operation))
        p->spitch = random_xy_pitch(p->rows, words);
    else if (copies_pixels(p->operation))
        p->spitch = random_linear_pitch(p->rows, 16);
    else if (copies_bits(p->operation))
        p->spitch = random_linear_pitch(p->rows, one_in(4) ? 16 : 1);
    if (copies_pixels(p->operation) && one_in(3)) {
        if (draws_to_xy(p->operation))
            p->spitch = p->dpitch;
        else
            p->dpitch = p->spitch;
    }
}

/* Columns, rows and pitches, made smaller until the memory has room. */
static void random_shape(struct part *p, uint64_t words)
{
    uint32_t most = words > 4096 ? 65536 : 1024;
    p->columns = random_extent(words);
    p->rows = random_extent(words);
    while ((uint64_t)p->columns * p->rows > most) {
        p->columns = (p->columns + 1) / 2;
        p->rows = (p->rows + 1) / 2;
    }
    random_pitches(p, words);
    while (!has_room(p, words)) {
        if (p->rows > 1 && one_in(2))
            p->rows = (p->rows + 1) / 2;
        else if (p->columns > 1)
            p->columns = p->columns - 1 - random_below(p->columns / 4 + 1);
        else if (p->rows > 1)
            p->rows = p->rows - 1;
    }
}

/* ---- Starts ---- */

/* A multiple of unit from first to last: often at an end. */
static uint32_t random_start(struct starts s, uint32_t unit)
{
    uint32_t choices = (uint32_t)((s.last - s.first) / unit) + 1;
    uint32_t style = random_below(8);
    if (style == 0)
        return (uint32_t)s.first;
    if (style < 3)
        return (uint32_t)s.first + (choices - 1) * unit;
    return (uint32_t)s.first + random_below(choices) * unit;
}

/* The source may be anywhere; often it is some columns and a row or none from the destination. A B
   source starts at any bit. */
static void random_starts(struct part *p, uint64_t words)
{
    struct starts d = starts_of(p, p->dpitch, p->psize, words);
    struct starts s = starts_of(p, p->spitch, p->step, words);
    p->destination = random_start(d, p->psize);
    p->source = random32();
    if (p->step == 0)
        return;
    p->source = random_start(s, p->step);
    int64_t close = (int64_t)p->destination + ((int64_t)random_below(9) - 4) * p->step;
    if (one_in(2))
        close = close + ((int64_t)random_below(3) - 1) * rise_of(p->spitch);
    if (one_in(2) && close >= s.first && close <= s.last)
        p->source = (uint32_t)close;
}

/* Mostly small; at times as large as it may be. */
static int64_t random_coordinate(uint32_t extent)
{
    uint32_t room = extent < 32768 ? 32768 - extent : 0;
    if (one_in(16))
        return room;
    if (one_in(16))
        return random_below(room + 1);
    return random_below(room < 40 ? room + 1 : 40);
}

/* An XY start for a linear one, this far from OFFSET. At times many rows are had from columns. The
   window moves the source by the left and above, so SADDR's halves may be that much less. */
static bool reach(const struct part *p, uint32_t distance, int64_t *x, int64_t *y)
{
    int64_t most_x = 32767 + (int64_t)p->left, most_y = 32767 + (int64_t)p->above;
    int64_t columns = p->spitch / p->psize;
    *y = distance / p->spitch;
    *x = distance % p->spitch / p->psize;
    int64_t rows = (most_x - *x) / columns;
    if (one_in(2) && rows > 0) {
        rows = rows < *y ? rows : *y;
        *y = *y - rows;
        *x = *x + rows * columns;
    }
    return *y <= most_y && *x <= most_x;
}

/* OFFSET is what leads from X and Y to the linear start. An XY source under an XY destination has
   the same one, so that lies before the memory as far as Y can reach. */
static void random_origin(struct part *p, uint32_t number[NUMBERS])
{
    number[AT_OFFSET] = random32();
    p->x = random_coordinate(p->columns);
    p->y = random_coordinate(p->rows);
    if (p->operation == PIXBLT_XY_XY && !one_in(4)) {
        uint32_t y = p->destination / p->dpitch + random_below(3);
        p->x = random_below(16);
        p->y = y < 32768 ? y : 32767;
    }
    if (draws_to_xy(p->operation))
        number[AT_OFFSET] =
            p->destination - (uint32_t)p->y * p->dpitch - (uint32_t)p->x * p->psize;
}

/* SADDR, so that the drawn part starts at the source's start. */
static void random_source(const struct part *p, uint32_t number[NUMBERS])
{
    int64_t x = random_coordinate(p->columns), y = random_coordinate(p->rows);
    number[AT_SADDR] = p->source;
    if (draws_from_xy(p->operation)) {
        if (p->operation == PIXBLT_XY_XY) {
            uint32_t distance = p->source - number[AT_OFFSET];
            if (!reach(p, distance, &x, &y))
                x = y = random_below(8);
        } else {
            number[AT_OFFSET] = p->source - (uint32_t)y * p->spitch - (uint32_t)x * p->psize;
        }
        number[AT_SADDR] = xy_number(x - p->left, y - p->above);
    } else if (p->step != 0) {
        number[AT_SADDR] = p->source - p->above * p->spitch - p->left * p->step;
    }
}

/* ---- Windows ---- */

/* Columns or rows beside the drawn part: often none, seldom many. */
static uint32_t random_margin(uint32_t most)
{
    if (one_in(2) || most == 0)
        return 0;
    if (one_in(16))
        return random_below(most + 1);
    return 1 + random_below(most < 6 ? most : 6);
}

/* X, Y and the sizes of the array must fit their halves. */
static void random_margins(struct part *p)
{
    p->left = random_margin((uint32_t)p->x + 32768);
    if (p->left + p->columns > 65535)
        p->left = 0;
    p->right = random_margin(65535 - p->left - p->columns);
    p->above = random_margin((uint32_t)p->y + 32768);
    if (p->above + p->rows > 65535)
        p->above = 0;
    p->below = random_margin(65535 - p->above - p->rows);
}

static int64_t within_window(int64_t coordinate)
{
    return coordinate < 0 ? 0 : coordinate > 32767 ? 32767 : coordinate;
}

/* The window ends with the drawn part where the array goes on, elsewhere there or further on. */
static void fitting_window(const struct part *p, uint32_t number[NUMBERS])
{
    int64_t left = p->x - (p->left > 0 ? 0 : random_below(4));
    int64_t right = p->x + p->columns - 1 + (p->right > 0 ? 0 : random_below(4));
    int64_t top = p->y - (p->above > 0 ? 0 : random_below(4));
    int64_t bottom = p->y + p->rows - 1 + (p->below > 0 ? 0 : random_below(4));
    number[AT_WSTART] = xy_number(within_window(left), within_window(top));
    number[AT_WEND] = xy_number(within_window(right), within_window(bottom));
}

/* A window beside the array, or over a corner of it. */
static void other_window(const struct part *p, uint32_t number[NUMBERS])
{
    int64_t left = within_window(p->x + p->columns - random_below(3));
    int64_t top = within_window(p->y + p->rows - random_below(3));
    if (one_in(2))
        left = within_window(p->x - random_below(3));
    else if (one_in(2))
        top = within_window(p->y - random_below(3));
    number[AT_WSTART] = xy_number(left, top);
    number[AT_WEND] = xy_number(within_window(left + random_below(6)),
                                within_window(top + random_below(6)));
}

/* DADDR, DYDX and the window. Where W isn't used the window is anything. */
static void random_destination(struct part *p, uint32_t number[NUMBERS], uint32_t w)
{
    number[AT_WSTART] = random32();
    number[AT_WEND] = random32();
    number[AT_DADDR] = p->destination;
    if (draws_to_xy(p->operation)) {
        if (w == 1 || w == 3 || (w == 2 && one_in(4)))
            random_margins(p);
        if (w != 0 && one_in(10))
            other_window(p, number);
        else if (w != 0)
            fitting_window(p, number);
        number[AT_DADDR] = xy_number(p->x - p->left, p->y - p->above);
    }
    number[AT_DYDX] = xy_number(p->left + p->columns + p->right, p->above + p->rows + p->below);
}

/* ---- Corners ---- */

uint32_t corner_of(const struct draw_case *c)
{
    return c->number[AT_CONTROL] >> 8 & 3;
}

bool is_turned(const struct draw_case *c)
{
    return copies_pixels(c->operation) && corner_of(c) != 0;
}

/* How far the corner's pixel lies from the upper left one, in an array of this pitch. */
static uint32_t way_to(uint32_t corner, const struct draw_case *c, uint32_t pitch)
{
    uint32_t columns = c->number[AT_DYDX] & 0xFFFF, rows = c->number[AT_DYDX] >> 16;
    uint32_t right = (corner & 1) != 0 ? (columns - 1) * c->number[AT_PSIZE] : 0;
    return right + ((corner & 2) != 0 ? (rows - 1) * pitch : 0);
}

void turn_drawing(struct draw_case *c, uint32_t corner)
{
    uint32_t *number = c->number, old = corner_of(c);
    uint32_t dptch = number[AT_DPTCH], sptch = number[AT_SPTCH];
    if (c->operation == PIXBLT_L_L) {
        number[AT_DADDR] += way_to(corner, c, dptch) - way_to(old, c, dptch);
        number[AT_SADDR] += way_to(corner, c, sptch) - way_to(old, c, sptch);
    }
    number[AT_CONTROL] = (number[AT_CONTROL] & ~(3u << 8)) | corner << 8;
}

/* ---- A drawing ---- */

/* W=1 draws nothing, so it is rarer. */
static uint32_t random_w(void)
{
    static const uint32_t w[8] = { 0, 0, 1, 2, 2, 3, 3, 3 };
    return w[random_below(8)];
}

static uint32_t random_word(void)
{
    if (one_in(8))
        return one_in(2) ? 0 : 0xFFFFFFFFu;
    return random32();
}

/* Often none, at times all, else any bits. */
static uint32_t random_mask(void)
{
    if (one_in(2))
        return 0;
    if (one_in(16))
        return 0xFFFF;
    return random32() & (one_in(2) ? random32() : 0xFFFF) & 0xFFFF;
}

struct draw_case random_drawing(uint64_t words)
{
    struct draw_case c = { .count = BH_SETTINGS, .words = words, .budget = UINT64_MAX };
    struct part p = { .operation = random_below(OPERATIONS) };
    uint32_t w = random_w();
    p.psize = (uint32_t)1 << random_below(5);
    p.step = copies_pixels(p.operation) ? p.psize : copies_bits(p.operation);
    random_shape(&p, words);
    random_starts(&p, words);
    random_origin(&p, c.number);
    random_destination(&p, c.number, w);
    random_source(&p, c.number);
    c.operation = p.operation;
    c.number[AT_SPTCH] = p.spitch;
    c.number[AT_DPTCH] = p.dpitch;
    c.number[AT_COLOR0] = random_word();
    c.number[AT_COLOR1] = random_word();
    c.number[AT_CONTROL] = (random32() & 0x803F) | w << 6 | random_below(22) << 10;
    c.number[AT_PSIZE] = p.psize;
    c.number[AT_PMASK] = random_mask();
    for (int i = BH_SETTINGS; i < NUMBERS; i++)
        c.number[i] = random32();
    if (one_in(32))
        c.number[AT_DYDX] = c.number[AT_DYDX] & (one_in(2) ? 0xFFFF : 0xFFFF0000u);
    if (!one_in(3))
        turn_drawing(&c, 1 + random_below(CORNERS - 1));
    c.v = one_in(8) ? random32() : random_below(2);
    c.length = BH_DRAW_RESULTS + (one_in(8) ? random_below(DRAW_OUTS - BH_DRAW_RESULTS) : 0);
    return c;
}

void move_drawing(struct draw_case *c, uint64_t words)
{
    uint32_t bits = 16 * (uint32_t)words;
    if (draws_to_xy(c->operation) || draws_from_xy(c->operation))
        c->number[AT_OFFSET] = c->number[AT_OFFSET] + bits;
    if (!draws_to_xy(c->operation))
        c->number[AT_DADDR] = c->number[AT_DADDR] + bits;
    if (!draws_from_xy(c->operation))
        c->number[AT_SADDR] = c->number[AT_SADDR] + bits;
}

/* ---- What is wrong ---- */

/* 9: no such operation, too few settings, a number too large, or too few results. */
static void spoil_shape(struct draw_case *c)
{
    uint32_t style = random_below(4);
    if (style == 0)
        c->operation = one_in(2) ? OPERATIONS + random_below(9) : random32() | OPERATIONS;
    else if (style == 1)
        c->count = random_below(BH_SETTINGS);
    else if (style == 2)
        c->number[AT_CONTROL + random_below(3)] += (uint32_t)1 << (16 + random_below(16));
    else
        c->length = random_below(BH_DRAW_RESULTS);
}

/* 11: no pixel size. */
static void spoil_psize(struct draw_case *c)
{
    static const uint32_t odd[10] = { 0, 3, 5, 6, 7, 12, 15, 17, 32, 0x8000 };
    c->number[AT_PSIZE] = one_in(8) ? random32() & 0xFFFF : odd[random_below(10)];
}

/* 12: PP above 21, with any PBH and PBV. */
static void spoil_control(struct draw_case *c)
{
    uint32_t *control = &c->number[AT_CONTROL];
    *control = (*control & ~(31u << 10)) | (22 + random_below(10)) << 10;
    *control = *control ^ random_below(CORNERS) << 8;
}

/* 13: neither a multiple of 16 nor a power of two, or only one of these. */
static void spoil_pitch(struct draw_case *c)
{
    static const uint32_t odd[12] = { 0, 1, 2, 8, 15, 17, 24, 48, 96, 0xFFFFFFF0u, 0xFFFFFFFFu, 4 };
    uint32_t place = one_in(2) ? AT_DPTCH : AT_SPTCH;
    if (one_in(3))
        c->number[place] = c->number[place] + 1 + random_below(15);
    else
        c->number[place] = odd[random_below(12)];
}

/* 14: a negative coordinate, or a start beyond its end. */
static void spoil_window(struct draw_case *c)
{
    uint32_t *start = &c->number[AT_WSTART], *end = &c->number[AT_WEND];
    uint32_t one = one_in(2) ? 1 : 0x10000, sign = 0x8000 * one;
    if ((c->number[AT_CONTROL] >> 6 & 3) == 0)
        c->number[AT_CONTROL] |= (1 + random_below(3)) << 6;
    if (one_in(2))
        *start = (*start & ~(0xFFFF * one)) | ((*end & (0xFFFF * one)) + one);
    else if (one_in(2))
        *start = *start | sign;
    else
        *end = *end | sign;
}

/* 15: a place past the pixels, also by far. */
static void spoil_place(struct draw_case *c)
{
    uint64_t n = pixels_of(c);
    uint32_t style = random_below(6);
    if (style == 0)
        c->place = UINT64_MAX - random_below(3);
    else if (style == 1)
        c->place = ((uint64_t)1 << (32 + random_below(32))) + random_below(4);
    else if (style == 2)
        c->place = n + 1 + random_below(100);
    else
        c->place = n + 1;
}

/* 16: a misaligned start, or a negative X or Y that no window clips. */
static void spoil_start(struct draw_case *c)
{
    static const enum place places[3] = { AT_OFFSET, AT_DADDR, AT_SADDR };
    uint32_t psize = c->number[AT_PSIZE];
    uint32_t place = places[random_below(3)];
    bool is_xy = (place == AT_DADDR && draws_to_xy(c->operation))
                 || (place == AT_SADDR && draws_from_xy(c->operation));
    if (is_xy) {
        c->number[place] = c->number[place] | (one_in(2) ? 0x8000 : 0x80000000u);
        if (place == AT_DADDR)
            c->number[AT_CONTROL] &= ~(3u << 6);
    } else {
        c->number[place] += psize > 1 && psize <= 16 ? 1 + random_below(psize - 1) : 1;
    }
}

/* 17: fewer words, a start further on or before the memory, more rows or columns, or for L,L the
   address of another corner. */
static void spoil_end(struct draw_case *c)
{
    static const enum place places[3] = { AT_OFFSET, AT_DADDR, AT_SADDR };
    uint32_t *number = &c->number[places[random_below(3)]];
    uint32_t psize = c->number[AT_PSIZE];
    uint32_t style = random_below(6);
    if (style == 0 && c->words > 1)
        c->words = c->words - 1 - random_below(one_in(2) ? 1 : (uint32_t)c->words - 1);
    else if (style == 1)
        *number = *number + psize * (1 + random_below(16 * (uint32_t)c->words / 16 + 1));
    else if (style == 2)
        *number = *number - psize * (1 + random_below(8));
    else if (style == 3)
        *number = one_in(2) ? 16 * (uint32_t)c->words - 16 : 0u - 16 * random_below(4);
    else if (style == 4 && c->operation == PIXBLT_L_L)
        c->number[AT_CONTROL] ^= (1 + random_below(CORNERS - 1)) << 8;
    else
        c->number[AT_DYDX] += one_in(2) ? 1 + random_below(9) : (1 + random_below(9)) << 16;
}

void spoil(struct draw_case *c, uint64_t held)
{
    switch (9 + random_below(9)) {
    case 9: spoil_shape(c); break;
    case 10: c->words = held > MOST_WORDS && one_in(2) ? MOST_WORDS + 1 : 0; break;
    case 11: spoil_psize(c); break;
    case 12: spoil_control(c); break;
    case 13: spoil_pitch(c); break;
    case 14: spoil_window(c); break;
    case 15: spoil_place(c); break;
    case 16: spoil_start(c); break;
    case 17: spoil_end(c); break;
    }
}

void disturb(struct draw_case *c)
{
    uint32_t *number = &c->number[random_below(AT_CONTROL)];
    switch (random_below(5)) {
    case 0: *number = random32(); break;
    case 1: *number = *number ^ (uint32_t)1 << random_below(32); break;
    case 2: *number = *number + 1; break;
    case 3: *number = *number - 1; break;
    case 4: *number = *number * 2; break;
    }
}

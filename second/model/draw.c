/* The eight FILL and PIXBLT calls. */
#include "model.h"

enum source_kind { NO_SOURCE, LINEAR_SOURCE, XY_SOURCE, BINARY_SOURCE };

/* The second word of an operation's name, or the only one, says where it draws. */
static bool destination_is_xy(enum operation op)
{
    return op == FILL_XY || op == PIXBLT_L_XY || op == PIXBLT_XY_XY || op == PIXBLT_B_XY;
}

/* FILL has no source array; a PIXBLT's name says its source first. */
static enum source_kind source_of(enum operation op)
{
    switch (op) {
    case FILL_L: return NO_SOURCE;
    case FILL_XY: return NO_SOURCE;
    case PIXBLT_L_L: return LINEAR_SOURCE;
    case PIXBLT_L_XY: return LINEAR_SOURCE;
    case PIXBLT_XY_L: return XY_SOURCE;
    case PIXBLT_XY_XY: return XY_SOURCE;
    case PIXBLT_B_L: return BINARY_SOURCE;
    case PIXBLT_B_XY: return BINARY_SOURCE;
    }
    return NO_SOURCE;
}

/* A step along a row: PSIZE bits for pixels, one bit for a B source. */
static uint32_t source_step(enum operation op, const struct settings *s)
{
    return source_of(op) == BINARY_SOURCE ? 1 : s->PSIZE;
}

/* Refusal 13: "a pitch that is used is bad". "The used pitches: DPTCH for FILL, PIXBLT, ...; SPTCH
   also for PIXBLT (for B sources any value)." */
static bool some_pitch_is_bad(enum operation op, const struct settings *s)
{
    if (destination_is_xy(op) && xy_pitch_is_bad(s->DPTCH))
        return true;
    if (!destination_is_xy(op) && linear_pitch_is_bad(s->DPTCH))
        return true;
    if (source_of(op) == XY_SOURCE && xy_pitch_is_bad(s->SPTCH))
        return true;
    if (source_of(op) == LINEAR_SOURCE && linear_pitch_is_bad(s->SPTCH))
        return true;
    return false;
}

/* Refusals 10 to 14, which need no pixel count; 0 if none applies. */
static int refusal_by_settings(struct memory m, enum operation op, const struct settings *s)
{
    if (memory_is_bad(m))
        return REFUSED_MEMORY;
    if (psize_is_bad(s))
        return REFUSED_PSIZE;
    if (control_is_bad(s))
        return REFUSED_CONTROL;
    if (some_pitch_is_bad(op, s))
        return REFUSED_PITCH;
    if (destination_is_xy(op) && window_is_bad(s))
        return REFUSED_WINDOW;
    return DONE;
}

/* "The destination rectangle X to X+DX-1, Y to Y+DY-1 is in whole numbers, unwrapped." "DX and DY
   are unsigned." A linear array is counted from 0, 0. */
struct rectangle array_of(enum operation op, const struct settings *s)
{
    struct rectangle a = { 0, 0, 0, 0 };
    if (destination_is_xy(op)) {
        a.x = x_half(s->DADDR);
        a.y = y_half(s->DADDR);
    }
    a.columns = (int64_t)(s->DYDX & 0xFFFF);
    a.rows = (int64_t)((s->DYDX >> 16) & 0xFFFF);
    return a;
}

/* "Linear and register destinations ignore W and keep V." */
static struct window_answer window_of(enum operation op, const struct settings *s, int v)
{
    if (destination_is_xy(op))
        return window_rule(s, array_of(op, s), v);
    struct window_answer r = { v, 0, array_of(op, s), false, { 0, 0, 0, 0 } };
    return r;
}

/* The drawn array's linear start, and whether its XY start is negative. */
static void find_destination(struct drawing *d, enum operation op, const struct settings *s)
{
    struct rectangle drawn = d->window.drawn;
    if (!destination_is_xy(op)) {
        d->destination = s->DADDR;
        return;
    }
    if (drawn.x < 0 || drawn.y < 0)
        d->negative_start = true;
    d->destination = xy_linear(s, drawn.x, drawn.y, s->DPTCH);
}

/* "Clipping moves the source start by the same columns and rows, unwrapped in XY." "A B source is
   linear, with rows SPTCH bits apart." */
static void find_source(struct drawing *d, enum operation op, const struct settings *s)
{
    struct rectangle array = array_of(op, s);
    int64_t columns = d->window.drawn.x - array.x;
    int64_t rows = d->window.drawn.y - array.y;
    if (source_of(op) == NO_SOURCE)
        return;
    if (source_of(op) == XY_SOURCE) {
        int64_t x = x_half(s->SADDR) + columns;
        int64_t y = y_half(s->SADDR) + rows;
        if (x < 0 || y < 0)
            d->negative_start = true;
        d->source = xy_linear(s, x, y, s->SPTCH);
        return;
    }
    d->source = address_at(s->SADDR, rows, s->SPTCH, columns, source_step(op, s));
}

/* "B sources, FILL, PIXT and DRAV ignore both bits." */
static bool corner_is_chosen(enum operation op)
{
    return source_of(op) == LINEAR_SOURCE || source_of(op) == XY_SOURCE;
}

/* "PBH=1 walks each row from its right end, PBV=1 walks rows from the last one up." */
static void find_order(struct drawing *d, enum operation op, const struct settings *s)
{
    if (!corner_is_chosen(op))
        return;
    d->from_right = control_pbh(s) == 1;
    d->from_last_row = control_pbv(s) == 1;
}

/* "For L,L the caller gives both starts as the address of the chosen corner's pixel itself ...; for
   L,XY, XY,L and XY,XY the model walks to the corner linearly from the clipped array's upper left
   start." */
static void walk_to_corner(struct drawing *d, enum operation op, const struct settings *s)
{
    int64_t rows = 0;
    int64_t columns = 0;
    if (!corner_is_chosen(op) || op == PIXBLT_L_L)
        return;
    if (d->from_last_row)
        rows = d->window.drawn.rows - 1;
    if (d->from_right)
        columns = d->window.drawn.columns - 1;
    d->destination = address_at(d->destination, rows, s->DPTCH, columns, s->PSIZE);
    d->source = address_at(d->source, rows, s->SPTCH, columns, s->PSIZE);
}

/* All that is settled by the settings: the window's word, n, the order, and the two corners. */
struct drawing drawing_of(enum operation op, const struct settings *s, int v)
{
    struct drawing d = { window_of(op, s, v), 0, false, 0, 0, false, false };
    d.n = (uint64_t)d.window.drawn.columns * (uint64_t)d.window.drawn.rows;
    if (d.n > 0) {
        find_destination(&d, op, s);
        find_source(&d, op, s);
        find_order(&d, op, s);
        walk_to_corner(&d, op, s);
    }
    return d;
}

/* Refusal 16: "there are pixels to draw or read, and an XY start after clipping has a negative X or
   Y, or the linear address at which a pixel array ... starts isn't a multiple of PSIZE". A B source
   is no pixel array. Pitches are multiples of 16 here, so the corner's address is a multiple of
   PSIZE exactly where the upper left one is. */
static bool start_is_bad(const struct drawing *d, enum operation op, const struct settings *s)
{
    if (d->n == 0)
        return false;
    if (d->negative_start)
        return true;
    if (d->destination % s->PSIZE != 0)
        return true;
    if (source_of(op) == LINEAR_SOURCE || source_of(op) == XY_SOURCE)
        return d->source % s->PSIZE != 0;
    return false;
}

/* The row that is walked after so many others, counted from the corner's row downwards. */
static int64_t row_walked(const struct drawing *d, int64_t row)
{
    return d->from_last_row ? -row : row;
}

/* The column that is walked after so many others, counted from the corner's to the right. */
static int64_t column_walked(const struct drawing *d, int64_t column)
{
    return d->from_right ? -column : column;
}

/* The address of a destination pixel; row and column count those walked before. */
static uint32_t destination_at(const struct drawing *d, const struct settings *s, int64_t row,
                               int64_t column)
{
    return address_at(d->destination, row_walked(d, row), s->DPTCH, column_walked(d, column),
                      s->PSIZE);
}

/* The address of a source pixel or of a B source's bit; row and column count those walked
   before. */
static uint32_t source_at(const struct drawing *d, enum operation op, const struct settings *s,
                          int64_t row, int64_t column)
{
    return address_at(d->source, row_walked(d, row), s->SPTCH, column_walked(d, column),
                      source_step(op, s));
}

/* Refusal 17: "some pixel, source bit ... that would be visited ... over the whole operation has an
   address of 16 x words or more". */
static bool some_address_is_outside(struct memory m, const struct drawing *d, enum operation op,
                                    const struct settings *s)
{
    for (int64_t row = 0; row < d->window.drawn.rows; row++) {
        for (int64_t column = 0; column < d->window.drawn.columns; column++) {
            if (destination_at(d, s, row, column) >= 16 * m.words)
                return true;
            if (source_of(op) != NO_SOURCE && source_at(d, op, s, row, column) >= 16 * m.words)
                return true;
        }
    }
    return false;
}

/* Refusals 15 to 17, in that order; 0 if none applies. */
static int refusal_by_pixels(struct memory m, const struct drawing *d, enum operation op,
                             const struct settings *s, uint64_t place)
{
    if (place > d->n)
        return REFUSED_PLACE;
    if (start_is_bad(d, op, s))
        return REFUSED_START;
    if (some_address_is_outside(m, d, op, s))
        return REFUSED_ADDRESS;
    return DONE;
}

/* Refusals 10 to 17, the lowest that applies; 0 if none does. No word of the memory is read. */
int draw_refusal(struct memory m, enum operation op, const struct settings *s, uint64_t place)
{
    int answer = refusal_by_settings(m, op, s);
    if (answer != DONE)
        return answer;
    struct drawing d = drawing_of(op, s, 0);
    return refusal_by_pixels(m, &d, op, s, place);
}

/* "FILL and DRAV take S from the low 16 bits of COLOR1 at the destination's place in its word. B
   sources take COLOR1 for a 1 bit and COLOR0 for a 0 bit the same way." */
static uint32_t source_pixel(struct memory m, const struct drawing *d, enum operation op,
                             const struct settings *s, int64_t row, int64_t column)
{
    uint32_t destination = destination_at(d, s, row, column);
    if (source_of(op) == NO_SOURCE)
        return pixel_of_word(s->COLOR1 & 0xFFFF, destination, s->PSIZE);
    uint32_t source = source_at(d, op, s, row, column);
    if (source_of(op) == BINARY_SOURCE) {
        uint32_t color = bit_get(m, source) == 1 ? s->COLOR1 : s->COLOR0;
        return pixel_of_word(color & 0xFFFF, destination, s->PSIZE);
    }
    return pixel_get(m, source, s->PSIZE);
}

/* "Pixels are visited row by row from the start, and each one reads memory as the ones before left
   it. This serial rule decides." "The serial rule of 01 reads 'in the chosen order'." Visit number
   k, counted from 0. */
static void visit(struct memory m, const struct drawing *d, enum operation op,
                  const struct settings *s, uint64_t k)
{
    int64_t row = (int64_t)(k / (uint64_t)d->window.drawn.columns);
    int64_t column = (int64_t)(k % (uint64_t)d->window.drawn.columns);
    uint32_t S = source_pixel(m, d, op, s, row, column);
    pixel_draw(m, s, destination_at(d, s, row, column), S);
}

/* "Done with n > 0, DADDR is the drawn array's linear start plus its rows times DPTCH, SADDR
   likewise for PIXBLT"; with a corner, "the linear address, in the chosen corner's column, of the
   row after the last one walked (the row above if PBV=1)". "When n = 0 the registers stay, except
   as W=1 says": "DADDR and DYDX become the common rectangle (XY)". */
static void end_registers(struct draw_answer *r, const struct drawing *d, enum operation op,
                          const struct settings *s)
{
    if (d->n > 0) {
        int64_t row_after = row_walked(d, d->window.drawn.rows);
        r->DADDR = address_at(d->destination, row_after, s->DPTCH, 0, 0);
        if (source_of(op) != NO_SOURCE)
            r->SADDR = address_at(d->source, row_after, s->SPTCH, 0, 0);
    }
    if (d->window.common_is_reported) {
        r->DADDR = xy_number(d->window.common.x, d->window.common.y);
        r->DYDX = xy_number(d->window.common.columns, d->window.common.rows);
    }
}

/* "A FILL or PIXBLT call takes settings, a place k (pixels already visited) and a budget b of 64
   bits. ... With n pixels in all it visits the lesser of b and n - k, and the result has the new
   place, the number of pixels visited by this call, V and request. If the new place is n it is
   done; if not it is stopped and the registers stay." "A refused call returns its number, no
   request, zero for visited ..., and its settings, place, flags, registers ... as given; memory
   stays as lent." */
struct draw_answer draw(struct memory m, enum operation op, const struct settings *s,
                        uint64_t place, int v, uint64_t budget)
{
    struct draw_answer r = { DONE, place, 0, v, 0, s->SADDR, s->DADDR, s->DYDX };
    r.answer = draw_refusal(m, op, s, place);
    if (r.answer != DONE)
        return r;
    struct drawing d = drawing_of(op, s, v);
    r.visited = budget < d.n - place ? budget : d.n - place;
    for (uint64_t i = 0; i < r.visited; i++)
        visit(m, &d, op, s, place + i);
    r.place = place + r.visited;
    r.v = d.window.v;
    r.request = d.window.request;
    if (r.place == d.n)
        end_registers(&r, &d, op, s);
    else
        r.answer = STOPPED;
    return r;
}

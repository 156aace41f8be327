/* The pixels and the bits of a drawing, by the scope's definition: what two drawings whose bits do
   not meet are chosen by. The geometry is the model's. */
#include "compare_drawings.h"

struct rectangle whole_array(const struct draw_case *c)
{
    struct rectangle a = { 0, 0, c->number[AT_DYDX] & 0xFFFF, c->number[AT_DYDX] >> 16 };
    if (draws_to_xy(c->operation)) {
        a.x = x_half(c->number[AT_DADDR]);
        a.y = y_half(c->number[AT_DADDR]);
    }
    return a;
}

struct rectangle drawn_part(const struct draw_case *c)
{
    struct settings s = settings_of(c->number);
    if (draws_to_xy(c->operation))
        return window_rule(&s, whole_array(c), 0).drawn;
    return whole_array(c);
}

uint64_t pixels_of(const struct draw_case *c)
{
    struct rectangle drawn = drawn_part(c);
    return (uint64_t)drawn.columns * (uint64_t)drawn.rows;
}

uint32_t destination_start(const struct draw_case *c)
{
    struct settings s = settings_of(c->number);
    struct rectangle drawn = drawn_part(c);
    if (draws_to_xy(c->operation))
        return xy_linear(&s, drawn.x, drawn.y, s.DPTCH);
    return s.DADDR;
}

static uint32_t source_step(const struct draw_case *c)
{
    return copies_bits(c->operation) ? 1 : c->number[AT_PSIZE];
}

/* "Clipping moves the source start by the same columns and rows, unwrapped in XY." */
static uint32_t source_start(const struct draw_case *c)
{
    struct settings s = settings_of(c->number);
    int64_t columns = drawn_part(c).x - whole_array(c).x;
    int64_t rows = drawn_part(c).y - whole_array(c).y;
    if (draws_from_xy(c->operation))
        return xy_linear(&s, x_half(s.SADDR) + columns, y_half(s.SADDR) + rows, s.SPTCH);
    return address_at(s.SADDR, rows, s.SPTCH, columns, source_step(c));
}

/* "A drawing may write the unmasked bits of its destination pixels; it reads these, the source
   pixel bits that the destination's mask lets through, and every bit of a B source that it
   visits." */
static void mark_pixel(const struct draw_case *c, struct footprint *f, uint32_t to, uint32_t from)
{
    uint32_t psize = c->number[AT_PSIZE];
    uint32_t mask = pixel_of_word(c->number[AT_PMASK], to, psize);
    for (uint32_t i = 0; i < psize; i++) {
        if ((mask >> i & 1) == 1)
            continue;
        f->written[to + i] = 1;
        if (copies_pixels(c->operation))
            f->read[from + i] = 1;
    }
    if (copies_bits(c->operation))
        f->read[from] = 1;
}

/* "PBH=1 walks each row from its right end, PBV=1 walks rows from the last one up. For L,L the
   caller gives both starts as the address of the chosen corner's pixel itself": columns or rows lie
   before it then. The others' starts are upper left ones, and the walk there and back visits the
   same pixels in another order. */
static bool lies_before(const struct draw_case *c, uint32_t bit)
{
    return c->operation == PIXBLT_L_L && (corner_of(c) & bit) != 0;
}

void find_footprint(const struct draw_case *c, struct footprint *f)
{
    struct rectangle drawn = drawn_part(c);
    if (drawn.columns == 0 || drawn.rows == 0)
        return;
    uint32_t destination = destination_start(c), source = source_start(c);
    uint32_t dptch = c->number[AT_DPTCH], sptch = c->number[AT_SPTCH];
    int64_t right = lies_before(c, 1) ? -1 : 1, down = lies_before(c, 2) ? -1 : 1;
    for (int64_t row = 0; row < drawn.rows; row++) {
        for (int64_t column = 0; column < drawn.columns; column++)
            mark_pixel(c, f,
                       address_at(destination, down * row, dptch, right * column,
                                  c->number[AT_PSIZE]),
                       address_at(source, down * row, sptch, right * column, source_step(c)));
    }
}

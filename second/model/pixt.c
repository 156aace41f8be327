/* PIXT between a register and memory, and DRAV: lone pixels. */
#include "model.h"

/* Refusals 10 to 12, for every call here; 0 if none applies. */
static int refusal_by_control(struct memory m, const struct settings *s)
{
    if (memory_is_bad(m))
        return REFUSED_MEMORY;
    if (psize_is_bad(s))
        return REFUSED_PSIZE;
    if (control_is_bad(s))
        return REFUSED_CONTROL;
    return DONE;
}

/* Refusals 10 to 13 for an XY pixel; "The used pitches: DPTCH for FILL, PIXBLT, DRAV and XY
   PIXT". */
static int refusal_of_xy(struct memory m, const struct settings *s)
{
    int answer = refusal_by_control(m, s);
    if (answer != DONE)
        return answer;
    if (xy_pitch_is_bad(s->DPTCH))
        return REFUSED_PITCH;
    return DONE;
}

/* Refusals 10 to 14 for an XY destination. */
static int refusal_of_xy_destination(struct memory m, const struct settings *s)
{
    int answer = refusal_of_xy(m, s);
    if (answer != DONE)
        return answer;
    if (window_is_bad(s))
        return REFUSED_WINDOW;
    return DONE;
}

/* Refusals 16 and 17 of a lone pixel at a linear address: "the linear address at which a ... lone
   pixel starts isn't a multiple of PSIZE"; "has an address of 16 x words or more". */
static int refusal_of_address(struct memory m, const struct settings *s, uint32_t address)
{
    if (address % s->PSIZE != 0)
        return REFUSED_START;
    if (address >= 16 * m.words)
        return REFUSED_ADDRESS;
    return DONE;
}

/* Refusals 16 and 17 of a lone pixel at XY: "an XY start ... has a negative X or Y" as well. */
static int refusal_of_xy_address(struct memory m, const struct settings *s, uint32_t xy)
{
    if (x_half(xy) < 0 || y_half(xy) < 0)
        return REFUSED_START;
    return refusal_of_address(m, s, xy_linear(s, x_half(xy), y_half(xy), s->DPTCH));
}

/* "For the window, DRAV and XY PIXT to memory treat one pixel as a 1 by 1 rectangle". */
static struct window_answer window_of_pixel(const struct settings *s, uint32_t xy, int v)
{
    struct rectangle pixel = { x_half(xy), y_half(xy), 1, 1 };
    return window_rule(s, pixel, v);
}

/* "PIXT from a register takes its low P bits." */
static uint32_t low_bits(uint32_t data, uint32_t P)
{
    return pixel_of_word(data & 0xFFFF, 0, P);
}

/* "PIXT to a register gives the pixel with masked bits 0, zero extended", with the mask of "the
   source's place". */
static uint32_t register_value(struct memory m, const struct settings *s, uint32_t address)
{
    uint32_t mask = pixel_of_word(s->PMASK, address, s->PSIZE);
    return pixel_get(m, address, s->PSIZE) & ~mask;
}

/* PIXT register to memory at a linear address: no window, V is kept. */
struct pixt_answer pixt_to_linear(struct memory m, const struct settings *s, uint32_t data,
                                  uint32_t address, int v)
{
    struct pixt_answer r = { DONE, 0, v, 0, 0 };
    r.answer = refusal_by_control(m, s);
    if (r.answer != DONE)
        return r;
    r.answer = refusal_of_address(m, s, address);
    if (r.answer != DONE)
        return r;
    pixel_draw(m, s, address, low_bits(data, s->PSIZE));
    r.visited = 1;
    return r;
}

/* PIXT register to memory at XY. */
struct pixt_answer pixt_to_xy(struct memory m, const struct settings *s, uint32_t data,
                              uint32_t xy, int v)
{
    struct pixt_answer r = { DONE, 0, v, 0, 0 };
    r.answer = refusal_of_xy_destination(m, s);
    if (r.answer != DONE)
        return r;
    struct window_answer w = window_of_pixel(s, xy, v);
    if (!rectangle_is_empty(w.drawn)) {
        r.answer = refusal_of_xy_address(m, s, xy);
        if (r.answer != DONE)
            return r;
        uint32_t address = xy_linear(s, x_half(xy), y_half(xy), s->DPTCH);
        pixel_draw(m, s, address, low_bits(data, s->PSIZE));
        r.visited = 1;
    }
    r.v = w.v;
    r.request = w.request;
    return r;
}

/* PIXT memory at a linear address to register: "register destinations ignore W and keep V". */
struct pixt_answer pixt_from_linear(struct memory m, const struct settings *s, uint32_t address,
                                    int v)
{
    struct pixt_answer r = { DONE, 0, v, 0, 0 };
    r.answer = refusal_by_control(m, s);
    if (r.answer != DONE)
        return r;
    r.answer = refusal_of_address(m, s, address);
    if (r.answer != DONE)
        return r;
    r.value = register_value(m, s, address);
    r.visited = 1;
    return r;
}

/* PIXT memory at XY to register: "register destinations ignore W and keep V". */
struct pixt_answer pixt_from_xy(struct memory m, const struct settings *s, uint32_t xy, int v)
{
    struct pixt_answer r = { DONE, 0, v, 0, 0 };
    r.answer = refusal_of_xy(m, s);
    if (r.answer != DONE)
        return r;
    r.answer = refusal_of_xy_address(m, s, xy);
    if (r.answer != DONE)
        return r;
    r.value = register_value(m, s, xy_linear(s, x_half(xy), y_half(xy), s->DPTCH));
    r.visited = 1;
    return r;
}

/* "adds the step's X and Y to the point, each modulo 2^16" */
static uint32_t stepped(uint32_t point, uint32_t step)
{
    return xy_number(x_half(point) + x_half(step), y_half(point) + y_half(step));
}

/* "DRAV, unless refused, then adds the step's X and Y to the point, each modulo 2^16, drawn or
   not." */
struct drav_answer drav(struct memory m, const struct settings *s, uint32_t step, uint32_t point,
                        int v)
{
    struct drav_answer r = { DONE, 0, v, 0, point };
    r.answer = refusal_of_xy_destination(m, s);
    if (r.answer != DONE)
        return r;
    struct window_answer w = window_of_pixel(s, point, v);
    if (!rectangle_is_empty(w.drawn)) {
        r.answer = refusal_of_xy_address(m, s, point);
        if (r.answer != DONE)
            return r;
        uint32_t address = xy_linear(s, x_half(point), y_half(point), s->DPTCH);
        pixel_draw(m, s, address, pixel_of_word(s->COLOR1 & 0xFFFF, address, s->PSIZE));
        r.visited = 1;
    }
    r.v = w.v;
    r.request = w.request;
    r.point = stepped(point, step);
    return r;
}

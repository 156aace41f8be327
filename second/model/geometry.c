/* XY halves, linear addresses, pitches and the window. */
#include "model.h"

/* "XY halves are signed 16-bit" */
static int64_t signed_half(uint32_t half)
{
    if (half >= 32768)
        return (int64_t)half - 65536;
    return (int64_t)half;
}

/* "X low" */
int64_t x_half(uint32_t xy)
{
    return signed_half(xy & 0xFFFF);
}

/* "Y high" */
int64_t y_half(uint32_t xy)
{
    return signed_half((xy >> 16) & 0xFFFF);
}

/* Two halves put together, each modulo 2^16. */
uint32_t xy_number(int64_t x, int64_t y)
{
    uint32_t low = (uint32_t)((uint64_t)x & 0xFFFF);
    uint32_t high = (uint32_t)((uint64_t)y & 0xFFFF);
    return (high << 16) | low;
}

/* "An XY start's linear address is OFFSET + Y x pitch + X x PSIZE, modulo 2^32." */
uint32_t xy_linear(const struct settings *s, int64_t x, int64_t y, uint32_t pitch)
{
    int64_t sum = (int64_t)s->OFFSET + y * (int64_t)pitch + x * (int64_t)s->PSIZE;
    return (uint32_t)((uint64_t)sum & 0xFFFFFFFFu);
}

/* "From its start an array walks linearly; row addresses wrap modulo 2^32, pixel steps too." A
   negative row lies above the start, a negative column left of it. */
uint32_t address_at(uint32_t start, int64_t row, uint32_t pitch, int64_t column, uint32_t step)
{
    uint64_t row_address = ((uint64_t)start + (uint64_t)row * pitch) & 0xFFFFFFFFu;
    uint64_t address = (row_address + (uint64_t)column * step) & 0xFFFFFFFFu;
    return (uint32_t)address;
}

/* Refusal 13: "for an XY array or a lone XY pixel not a power of two of at least 16". */
bool xy_pitch_is_bad(uint32_t pitch)
{
    for (int i = 4; i < 32; i++) {
        if (pitch == (uint32_t)1 << i)
            return false;
    }
    return true;
}

/* Refusal 13: "for a linear pixel array not a multiple of 16 (0 is allowed)". */
bool linear_pitch_is_bad(uint32_t pitch)
{
    return pitch % 16 != 0;
}

/* Refusal 14, for an XY destination: "W isn't 0, ... and the window has a negative coordinate or a
   start beyond its end". */
bool window_is_bad(const struct settings *s)
{
    if (control_w(s) == 0)
        return false;
    int64_t left = x_half(s->WSTART);
    int64_t top = y_half(s->WSTART);
    int64_t right = x_half(s->WEND);
    int64_t bottom = y_half(s->WEND);
    if (left < 0 || top < 0 || right < 0 || bottom < 0)
        return true;
    return left > right || top > bottom;
}

/* "An empty array (DX or DY 0)" */
bool rectangle_is_empty(struct rectangle a)
{
    return a.columns == 0 || a.rows == 0;
}

/* "The window includes its ends." */
static struct rectangle window_rectangle(const struct settings *s)
{
    struct rectangle w;
    w.x = x_half(s->WSTART);
    w.y = y_half(s->WSTART);
    w.columns = x_half(s->WEND) - w.x + 1;
    w.rows = y_half(s->WEND) - w.y + 1;
    return w;
}

static int64_t greater(int64_t a, int64_t b)
{
    return a > b ? a : b;
}

static int64_t lesser(int64_t a, int64_t b)
{
    return a < b ? a : b;
}

/* The common part of two rectangles, empty if they don't meet. */
static struct rectangle common_part(struct rectangle a, struct rectangle b)
{
    struct rectangle none = { 0, 0, 0, 0 };
    if (rectangle_is_empty(a) || rectangle_is_empty(b))
        return none;
    int64_t left = greater(a.x, b.x);
    int64_t top = greater(a.y, b.y);
    int64_t right = lesser(a.x + a.columns - 1, b.x + b.columns - 1);
    int64_t bottom = lesser(a.y + a.rows - 1, b.y + b.rows - 1);
    if (left > right || top > bottom)
        return none;
    struct rectangle c = { left, top, right - left + 1, bottom - top + 1 };
    return c;
}

/* Whether a nonempty array is wholly inside the window. */
static bool wholly_inside(struct rectangle a, struct rectangle w)
{
    return a.x >= w.x && a.x + a.columns - 1 <= w.x + w.columns - 1
        && a.y >= w.y && a.y + a.rows - 1 <= w.y + w.rows - 1;
}

/* "0, V stays as given", and it draws the whole array. */
static struct window_answer window_0(struct rectangle array, int v)
{
    struct window_answer r = { v, 0, array, false, { 0, 0, 0, 0 } };
    return r;
}

/* "1, nothing is drawn; if the rectangles meet, V=1, a request is raised, and DADDR and DYDX become
   the common rectangle (XY); otherwise V=0 and both stay." */
static struct window_answer window_1(struct rectangle array, struct rectangle window)
{
    struct window_answer r = { 0, 0, { 0, 0, 0, 0 }, false, { 0, 0, 0, 0 } };
    struct rectangle common = common_part(array, window);
    if (!rectangle_is_empty(common)) {
        r.v = 1;
        r.request = 1;
        r.common_is_reported = true;
        r.common = common;
    }
    return r;
}

/* "2, if a nonempty array isn't wholly inside, V=1, a request is raised, nothing is drawn;
   otherwise V=0 and it draws." */
static struct window_answer window_2(struct rectangle array, struct rectangle window)
{
    struct window_answer r = { 0, 0, array, false, { 0, 0, 0, 0 } };
    if (!rectangle_is_empty(array) && !wholly_inside(array, window)) {
        struct rectangle nothing = { 0, 0, 0, 0 };
        r.v = 1;
        r.request = 1;
        r.drawn = nothing;
    }
    return r;
}

/* "3, the common part is drawn and V=1 exactly when a nonempty array isn't wholly inside; no
   request." */
static struct window_answer window_3(struct rectangle array, struct rectangle window)
{
    struct window_answer r = { 0, 0, { 0, 0, 0, 0 }, false, { 0, 0, 0, 0 } };
    r.drawn = common_part(array, window);
    if (!rectangle_is_empty(array) && !wholly_inside(array, window))
        r.v = 1;
    return r;
}

/* "For XY destinations W (CONTROL bits 6-7) means: ..." "An empty array (DX or DY 0) gives V=0 for
   W 1 to 3." */
struct window_answer window_rule(const struct settings *s, struct rectangle array, int v)
{
    switch (control_w(s)) {
    case 1: return window_1(array, window_rectangle(s));
    case 2: return window_2(array, window_rectangle(s));
    case 3: return window_3(array, window_rectangle(s));
    }
    return window_0(array, v);
}

#include "plain_call.h"

#include "plain.h"
#include "plain_states.h"
#include "settings.h"

#include <stdbool.h>

struct form {
    bool to_xy, from_xy;
    enum plain_source from;
};

static const struct form forms[8] = {
    { false, false, PLAIN_COLOR }, { true, false, PLAIN_COLOR },  { false, false, PLAIN_PIXELS },
    { true, false, PLAIN_PIXELS }, { false, true, PLAIN_PIXELS }, { true, true, PLAIN_PIXELS },
    { false, false, PLAIN_BITS },  { true, false, PLAIN_BITS },
};

static int32_t x_of(uint32_t xy)
{
    return (int16_t)(xy & 0xFFFF);
}

static int32_t y_of(uint32_t xy)
{
    return (int16_t)(xy >> 16);
}

/* ---- The window ---- */

/* What is left off on the left and above, what is drawn, and V. */
struct part {
    uint32_t left, above, columns, rows, v;
};

/* How many coordinates lie before the window, and how many in it. */
struct span {
    uint32_t before, inside;
};

static struct span span_of(int32_t start, uint32_t count, int32_t first, int32_t last)
{
    int32_t from = start < first ? first : start;
    int32_t end = start + (int32_t)count;
    if (end > last + 1)
        end = last + 1;
    return (struct span){ (uint32_t)(from - start), from < end ? (uint32_t)(end - from) : 0 };
}

static struct part windowed(const struct part *whole, uint32_t w, const uint32_t *s)
{
    struct span x = span_of(x_of(s[DADDR]), whole->columns, x_of(s[WSTART]), x_of(s[WEND]));
    struct span y = span_of(y_of(s[DADDR]), whole->rows, y_of(s[WSTART]), y_of(s[WEND]));
    bool all = x.inside == whole->columns && y.inside == whole->rows;
    if (w == 1)
        return (struct part){ .v = x.inside != 0 && y.inside != 0 };
    if (w == 2)
        return all ? *whole : (struct part){ .v = 1 };
    return (struct part){ x.before, y.before, x.inside, y.inside, !all };
}

static struct part whole_of(const uint32_t *s)
{
    return (struct part){ 0, 0, s[DYDX] & 0xFFFF, s[DYDX] >> 16, 0 };
}

static struct part part_of(const struct form *form, const uint32_t *s)
{
    struct part whole = whole_of(s);
    uint32_t w = s[CONTROL] >> 6 & 3;
    if (!form->to_xy || w == 0 || whole.columns == 0 || whole.rows == 0)
        return whole;
    return windowed(&whole, w, s);
}

/* ---- The walks ---- */

/* Puts the start that the settings give, after clipping. Is X or Y negative there? */
static bool put_start(struct plain_walk *walk, bool xy, uint32_t at, uint32_t offset,
                      const struct part *part)
{
    if (!xy) {
        walk->start = at + part->above * walk->pitch + part->left * walk->step;
        return false;
    }
    int32_t x = x_of(at) + (int32_t)part->left;
    int32_t y = y_of(at) + (int32_t)part->above;
    walk->start = offset + (uint32_t)y * walk->pitch + (uint32_t)x * walk->step;
    return x < 0 || y < 0;
}

/* PBH and PBV count where the source is pixels. PIXBLT L,L is given the corner, the other three the
   upper left pixel. */
static void choose_corner(struct plain_walk *walk, const struct form *form, uint32_t control,
                          const struct part *part)
{
    if (form->from != PLAIN_PIXELS)
        return;
    if (form->to_xy || form->from_xy)
        plain_to_corner(walk, part->columns, part->rows, control);
    else
        plain_turn(walk, control);
}

/* Puts both walks. Is X or Y negative at a start that is given? */
static bool put_walks(struct plain_drawing *drawing, const struct form *form, const uint32_t *s,
                      const struct part *part)
{
    struct plain_walk *to = &drawing->destination, *from = &drawing->source;
    to->pitch = s[DPTCH];
    to->step = s[PSIZE];
    from->pitch = s[SPTCH];
    from->step = form->from == PLAIN_BITS ? 1 : s[PSIZE];
    bool to_negative = put_start(to, form->to_xy, s[DADDR], s[OFFSET], part);
    bool from_negative = put_start(from, form->from_xy, s[SADDR], s[OFFSET], part);
    choose_corner(to, form, s[CONTROL], part);
    choose_corner(from, form, s[CONTROL], part);
    return to_negative || from_negative;
}

/* ---- The refusals ---- */

static bool bad_psize(uint32_t psize)
{
    return psize == 0 || psize > 16 || (psize & (psize - 1)) != 0;
}

static bool bad_control(uint32_t control)
{
    return (control >> 10 & 31) > 21;
}

static bool bad_pitch(bool xy, uint32_t pitch)
{
    return xy ? pitch < 16 || (pitch & (pitch - 1)) != 0 : pitch % 16 != 0;
}

static bool bad_pitches(const struct form *form, const uint32_t *s)
{
    return bad_pitch(form->to_xy, s[DPTCH]) ||
           (form->from == PLAIN_PIXELS && bad_pitch(form->from_xy, s[SPTCH]));
}

static bool bad_window(const struct form *form, const uint32_t *s)
{
    if (!form->to_xy || (s[CONTROL] & 0xC0) == 0)
        return false;
    int32_t left = x_of(s[WSTART]), top = y_of(s[WSTART]);
    return left < 0 || top < 0 || x_of(s[WEND]) < left || y_of(s[WEND]) < top;
}

/* Is some pixel's address below 0, or at the memory's end or above? A pitch or a step above 2^31
   walks down. */
static bool past_end(size_t words, const struct plain_walk *walk, const struct part *part)
{
    int64_t last_row = (int64_t)(part->rows - 1) * (int32_t)walk->pitch;
    int64_t last_column = (int64_t)(part->columns - 1) * (int32_t)walk->step;
    int64_t down = (last_row < 0 ? last_row : 0) + (last_column < 0 ? last_column : 0);
    int64_t up = last_row + last_column - down;
    return walk->start + down < 0 || walk->start + up >= 16 * (int64_t)words;
}

/* Is a pixel array's start no multiple of PSIZE? A corner is one where the upper left pixel is. */
static bool misaligned(const struct plain_drawing *drawing)
{
    return drawing->destination.start % drawing->psize != 0 ||
           (drawing->from == PLAIN_PIXELS && drawing->source.start % drawing->psize != 0);
}

/* 11 to 14: what the settings alone decide. */
static uint32_t settings_refusal(const struct form *form, const uint32_t *s)
{
    if (bad_psize(s[PSIZE]))
        return 11;
    if (bad_control(s[CONTROL]))
        return 12;
    if (bad_pitches(form, s))
        return 13;
    if (bad_window(form, s))
        return 14;
    return 0;
}

/* ---- The call ---- */

/* The states of a FILL of this part, which isn't empty. */
static uint64_t states_of(const struct plain_drawing *drawing, const struct form *form,
                          const uint32_t *s, const struct part *part)
{
    const struct plain_setup setup = {
        .to_xy = form->to_xy,
        .windowed = form->to_xy && (s[CONTROL] >> 6 & 3) != 0,
        .start_moved = part->left != 0 || part->above != 0,
        .end_moved = part->left + part->columns != (s[DYDX] & 0xFFFF)
                     || part->above + part->rows != s[DYDX] >> 16,
        .uncached = s[CONTROL] >> 15 != 0
    };
    return form->from == PLAIN_COLOR ? plain_states(drawing, &setup) : 0;
}

/* The registers with W 1, where the array meets the window: the part of it that lies inside. */
static void put_common(const uint32_t *s, struct plain_outcome *outcome)
{
    struct part whole = whole_of(s);
    struct part inside = windowed(&whole, 3, s);
    uint32_t x = (uint32_t)x_of(s[DADDR]) + inside.left;
    uint32_t y = (uint32_t)y_of(s[DADDR]) + inside.above;
    outcome->daddr = y << 16 | x;
    outcome->dydx = inside.rows << 16 | inside.columns;
}

/* 16 and 17 of a part that isn't empty, or 0 after it is drawn, and then its states and
   registers. */
static uint32_t draw_part(uint16_t *memory, size_t words, const struct form *form,
                          const uint32_t *s, const struct part *part, struct plain_outcome *outcome)
{
    struct plain_drawing drawing = {
        .columns = part->columns, .rows = part->rows, .from = form->from, .psize = s[PSIZE],
        .pp = s[CONTROL] >> 10 & 31, .t = s[CONTROL] >> 5 & 1, .pmask = s[PMASK],
        .color0 = s[COLOR0], .color1 = s[COLOR1]
    };
    if (put_walks(&drawing, form, s, part) || misaligned(&drawing))
        return 16;
    if (past_end(words, &drawing.destination, part) ||
        (form->from != PLAIN_COLOR && past_end(words, &drawing.source, part)))
        return 17;
    plain_draw(memory, &drawing);
    outcome->states = states_of(&drawing, form, s, part);
    outcome->daddr = plain_end(&drawing.destination, part->rows);
    if (form->from != PLAIN_COLOR)
        outcome->saddr = plain_end(&drawing.source, part->rows);
    return 0;
}

struct plain_outcome plain_call(uint16_t *memory, size_t words, uint32_t draw,
                                const uint32_t *settings)
{
    const struct form *form = &forms[draw];
    if (words == 0 || words > 1048576)
        return (struct plain_outcome){ .answer = 10 };
    uint32_t refusal = settings_refusal(form, settings);
    if (refusal != 0)
        return (struct plain_outcome){ .answer = refusal };
    struct part part = part_of(form, settings);
    struct plain_outcome outcome = {
        .visited = (uint64_t)part.columns * part.rows, .v = part.v,
        .saddr = settings[SADDR], .daddr = settings[DADDR], .dydx = settings[DYDX]
    };
    if (outcome.visited != 0)
        refusal = draw_part(memory, words, form, settings, &part, &outcome);
    else if (part.v != 0 && (settings[CONTROL] >> 6 & 3) == 1)
        put_common(settings, &outcome);
    if (refusal != 0)
        return (struct plain_outcome){ .answer = refusal };
    return outcome;
}

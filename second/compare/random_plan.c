/* Random plans as text. A plan is made from what its points are to draw: the largest array, pitches
   that the memory has room for, and starts, then values that lead to them. At most eight names have
   an axis, so the others count with their defaults. */
#include "compare_plans.h"

#include <stdio.h>
#include <string.h>

const char *const plan_name[BH_NAMES] = { "SADDR", "SPTCH",  "DADDR",  "DPTCH",   "OFFSET",
                                          "WSTART", "WEND",  "DYDX",   "COLOR0",  "COLOR1",
                                          "CONTROL", "PSIZE", "PMASK", "SEED" };

/* What the points of a plan are to draw. */
struct shape {
    uint32_t operation;
    uint32_t words, bits;
    bool named[BH_NAMES];
    uint32_t psize, step;   /* the largest pixel, and the step of its source */
    uint32_t columns, rows; /* at most */
    uint32_t dpitch, spitch;
    bool dfalls, sfalls;    /* pitches near 2^32 */
    uint32_t corner;        /* the one whose addresses the starts of L,L are */
    uint32_t offset;        /* at most, above the origin's rows */
    uint32_t origin;        /* rows by which OFFSET lies before the memory */
    bool clips;             /* arrays that start before the window, mostly with W=3 */
    uint32_t spoils;        /* one value in so many is bad; 0 for none */
};

static uint32_t lesser(uint32_t a, uint32_t b)
{
    return a < b ? a : b;
}

/* ---- Names ---- */

static bool is_used(const struct shape *s, int name)
{
    bool to_xy = draws_to_xy(s->operation), from_xy = draws_from_xy(s->operation);
    bool copies = copies_pixels(s->operation), bits = copies_bits(s->operation);
    switch (name) {
    case AT_SADDR:
    case AT_SPTCH: return copies || bits;
    case AT_OFFSET: return to_xy || from_xy;
    case AT_WSTART:
    case AT_WEND: return to_xy;
    case AT_COLOR0: return bits;
    case AT_COLOR1: return !copies;
    }
    return true;
}

/* Without these every point is empty or refused. */
static bool is_needed(const struct shape *s, int name)
{
    return name == AT_DYDX || (name == AT_DPTCH && draws_to_xy(s->operation))
           || (name == AT_SPTCH && draws_from_xy(s->operation));
}

/* These make the most of the others: an image, a colour, operations and windows. */
static bool is_wanted(const struct shape *s, int name)
{
    return name == AT_SEED || name == AT_CONTROL || (name == AT_COLOR1 && is_used(s, name))
           || (name == AT_WEND && is_used(s, name));
}

/* Up to eight names: mostly those that are needed, then wanted, then any that are used. */
static int random_names(struct shape *s)
{
    int axes = 0, most = one_in(4) ? (int)random_below(MOST_AXES + 1) : MOST_AXES;
    for (int name = 0; name < BH_NAMES; name++) {
        s->named[name] = is_needed(s, name) && !one_in(40);
        axes += s->named[name];
    }
    for (int tries = 0; tries < 200 && axes < most; tries++) {
        int name = (int)random_below(BH_NAMES);
        bool likely = is_wanted(s, name) || (is_used(s, name) && one_in(3)) || one_in(64);
        if (!s->named[name] && likely) {
            s->named[name] = true;
            axes++;
        }
    }
    if (one_in(40)) {
        memset(s->named, 0, sizeof s->named);
        axes = 0;
    }
    return axes;
}

/* ---- Arrays and pitches ---- */

/* The largest pitch by which the rows stay in the memory. */
static uint32_t most_pitch(const struct shape *s, uint32_t step)
{
    if (s->rows == 1)
        return 16 * s->words;
    return (s->bits - s->columns * step) / (s->rows - 1);
}

/* A power of two of at least 16 up to the most. */
static uint32_t power_pitch(uint32_t most)
{
    uint32_t pitch = 16;
    while (pitch * 2 <= most && !one_in(4))
        pitch = pitch * 2;
    return pitch;
}

static void random_shape(struct shape *s)
{
    s->bits = 16 * s->words;
    s->psize = s->named[AT_PSIZE] ? (uint32_t)1 << random_below(5) : 16;
    s->step = copies_bits(s->operation) ? 1 : s->psize;
    s->columns = 1 + random_below(lesser(one_in(8) ? 60 : 10, s->bits / s->psize));
    s->rows = 1 + random_below(one_in(8) ? 40 : 7);
    while (s->rows > 1 && most_pitch(s, s->psize) < 16)
        s->rows = (s->rows + 1) / 2;
    uint32_t most = most_pitch(s, s->psize);
    s->dpitch = draws_to_xy(s->operation) ? power_pitch(most) : 16 * random_below(most / 16 + 1);
    most = most_pitch(s, s->step);
    s->spitch = draws_from_xy(s->operation) ? power_pitch(most) : 16 * random_below(most / 16 + 1);
    s->dfalls = s->named[AT_DADDR] && !draws_to_xy(s->operation) && one_in(4);
    s->sfalls = s->named[AT_SADDR] && !draws_from_xy(s->operation) && one_in(4);
    if (s->named[AT_CONTROL] && s->named[AT_SADDR] && s->named[AT_DADDR])
        s->corner = random_below(CORNERS);
}

/* How far an array's start may be from the memory's start. */
static uint32_t reach_of(const struct shape *s, uint32_t pitch, uint32_t step)
{
    uint32_t last = (s->rows - 1) * pitch + s->columns * step;
    return last < s->bits ? s->bits - last : 0;
}

static void random_origin(struct shape *s)
{
    uint32_t reach = s->bits;
    if (draws_to_xy(s->operation))
        reach = reach_of(s, s->dpitch, s->psize);
    if (draws_from_xy(s->operation))
        reach = lesser(reach, reach_of(s, s->spitch, s->psize));
    s->offset = s->named[AT_OFFSET] ? 16 * random_below(reach / 32 + 1) : 0;
    s->origin = s->named[AT_OFFSET] && s->named[AT_DADDR] && one_in(4) ? random_below(4) : 0;
    s->clips = draws_to_xy(s->operation) && s->named[AT_WEND] && s->named[AT_CONTROL] && one_in(3);
}

/* ---- Values ---- */

/* A linear start: a multiple of the largest pixel, or for bits any. Of L,L it is the corner of the
   largest array. */
static uint32_t linear_start(const struct shape *s, uint32_t pitch, uint32_t step, bool falls)
{
    uint32_t reach = reach_of(s, pitch, step);
    uint32_t start = step * random_below(reach / step + 1);
    bool is_corner = s->operation == PIXBLT_L_L;
    bool up = is_corner && (s->corner & 2) != 0;
    if (is_corner && (s->corner & 1) != 0)
        start = start + (s->columns - 1) * step;
    return falls != up ? (s->rows - 1) * pitch + start : start;
}

/* An XY start; at times before the window. */
static uint32_t xy_start(const struct shape *s, uint32_t pitch)
{
    uint32_t reach = reach_of(s, pitch, s->psize);
    reach = reach > s->offset ? reach - s->offset : 0;
    int64_t y = random_below(lesser(reach / pitch, 60) + 1);
    int64_t x = random_below(lesser((reach - (uint32_t)y * pitch) / s->psize, 60) + 1);
    if (one_in(s->clips ? 2 : 12))
        x = x - random_below(6);
    if (one_in(s->clips ? 2 : 12))
        y = y - random_below(4);
    return xy_number(x, y + s->origin);
}

/* Mostly a small start and an end that the arrays reach. */
static uint32_t window_corner(const struct shape *s, bool is_end)
{
    uint32_t x = random_below(3), y = random_below(3) + s->origin;
    if (is_end) {
        x = 2 + random_below(s->columns + 20);
        y = 2 + random_below(s->rows + 6) + s->origin;
    }
    return y << 16 | x;
}

static uint32_t pitch_value(uint32_t pitch, bool is_xy, bool falls)
{
    if (one_in(2))
        pitch = is_xy ? power_pitch(pitch) : 16 * random_below(pitch / 16 + 1);
    return falls ? 0u - pitch : pitch;
}

/* Any corner; of L,L mostly the one that the starts are for. */
static uint32_t corner_value(const struct shape *s)
{
    if (s->operation == PIXBLT_L_L && !one_in(8))
        return s->corner;
    return random_below(CORNERS);
}

static uint32_t control_value(const struct shape *s)
{
    static const uint32_t w[8] = { 0, 0, 0, 1, 2, 2, 3, 3 };
    uint32_t control = one_in(3) ? random32() & 0x801F : 0;
    control |= corner_value(s) << 8;
    control |= one_in(3) ? 0 : random_below(22) << 10;
    control |= one_in(3) ? 1u << 5 : 0;
    if (s->clips && !one_in(4))
        control |= 3 << 6;
    else if (draws_to_xy(s->operation) && (s->named[AT_WEND] || one_in(8)))
        control |= w[random_below(8)] << 6;
    else if (!draws_to_xy(s->operation))
        control |= random_below(4) << 6;
    return control;
}

static uint64_t seed_value(void)
{
    switch (random_below(12)) {
    case 0: return random_below(4);
    case 1: return UINT64_MAX - random_below(2);
    case 2: return (uint64_t)1 << random_below(64);
    }
    return random64();
}

static uint32_t mask_value(void)
{
    return one_in(3) ? random32() & 0xFFFF : (random32() & random32()) & 0xFFFF;
}

static uint64_t good_value(const struct shape *s, int name)
{
    bool to_xy = draws_to_xy(s->operation), from_xy = draws_from_xy(s->operation);
    if (!is_used(s, name))
        return name == AT_SEED ? random64() : random32();
    switch (name) {
    case AT_SADDR:
        return from_xy ? xy_start(s, s->spitch)
                       : linear_start(s, s->spitch, s->step, s->sfalls);
    case AT_SPTCH:
        if (copies_bits(s->operation) && one_in(2) && s->spitch > 0)
            return random_below(s->spitch);
        return pitch_value(s->spitch, from_xy, s->sfalls);
    case AT_DADDR:
        return to_xy ? xy_start(s, s->dpitch)
                     : linear_start(s, s->dpitch, s->psize, s->dfalls);
    case AT_DPTCH: return pitch_value(s->dpitch, to_xy, s->dfalls);
    case AT_OFFSET:
        return (uint32_t)(16 * random_below(s->offset / 16 + 1) - s->origin * s->dpitch);
    case AT_WSTART: return window_corner(s, false);
    case AT_WEND: return window_corner(s, true);
    case AT_DYDX:
        if (one_in(32))
            return random_below(s->columns + 1);
        return (1 + random_below(s->rows)) << 16 | (1 + random_below(s->columns));
    case AT_CONTROL: return control_value(s);
    case AT_PSIZE: {
        uint32_t psize = (uint32_t)1 << random_below(5);
        return psize > s->psize ? s->psize : psize;
    }
    case AT_PMASK: return mask_value();
    case AT_SEED: return seed_value();
    }
    return random32();
}

/* A value of the right size by which a point is refused, or perhaps so: 11 to 14, 16 or 17. */
static uint64_t bad_value(const struct shape *s, int name)
{
    static const uint32_t psize[8] = { 0, 3, 5, 12, 17, 32, 256, 65535 };
    static const uint32_t pitch[8] = { 0, 8, 24, 17, 48, 0xFFFFFFF8u, 0xFFFFFFFFu, 33 };
    uint64_t value = good_value(s, name);
    switch (name) {
    case AT_PSIZE: return psize[random_below(8)];
    case AT_CONTROL: return (22 + random_below(10)) << 10 | (value & 0x83FF);
    case AT_SPTCH:
    case AT_DPTCH: return pitch[random_below(8)];
    case AT_WSTART:
    case AT_WEND: return value ^ (one_in(2) ? 0x8000 : 0x80000000u);
    case AT_DYDX: return value + (one_in(2) ? 0x00200000 : 0x00000200);
    case AT_SADDR:
    case AT_DADDR:
    case AT_OFFSET: break;
    default: return value;
    }
    switch (random_below(4)) {
    case 0: return (uint32_t)(value + 1);
    case 1: return (uint32_t)(value + s->bits);
    case 2: return (uint32_t)(value ^ 0x8000);
    }
    return random32();
}

static uint64_t random_value(const struct shape *s, int name)
{
    if (s->spoils > 0 && one_in(s->spoils))
        return bad_value(s, name);
    return good_value(s, name);
}

/* ---- Axes ---- */

/* How many values the axes have: a product up to most, or many on each. */
static void random_lengths(int *length, int axes, uint32_t most)
{
    uint32_t product = 1;
    bool many = most > 512 && one_in(2);
    for (int i = 0; i < axes; i++)
        length[i] = many ? MOST_VALUES - (int)random_below(16) : 1;
    for (int tries = 0; tries < 24 && axes > 0 && !many; tries++) {
        int i = (int)random_below((uint32_t)axes);
        int more = one_in(6) ? 1 + (int)random_below(MOST_VALUES) : length[i] + 1;
        uint32_t next = product / (uint32_t)length[i] * (uint32_t)more;
        if (more <= MOST_VALUES && next <= most) {
            length[i] = more;
            product = next;
        }
    }
}

/* Different values, as many as asked for or as are found. */
static void random_axis(const struct shape *s, int name, int length, struct sketch_line *l)
{
    uint64_t value[MOST_VALUES];
    int count = 0;
    for (int tries = 0; count < length && tries < 4 * length; tries++) {
        value[count] = random_value(s, name);
        int same = 0;
        while (value[same] != value[count])
            same++;
        count += same == count;
    }
    l->fields = 2 + count;
    strcpy(l->field[0], "axis");
    strcpy(l->field[1], plan_name[name]);
    for (int i = 0; i < count; i++)
        sprintf(l->field[2 + i], "%llu", (unsigned long long)value[i]);
}

static uint32_t random_plan_words(void)
{
    uint32_t style = random_below(256);
    if (style == 0)
        return one_in(2) ? 32768 : 32768 - random_below(100);
    if (style < 8)
        return 1 + random_below(4096);
    if (style < 32)
        return 1 + random_below(4);
    if (style < 160)
        return 1 + random_below(64);
    return 1 + random_below(300);
}

/* Few points where the memory is large; at times very many. */
static uint32_t most_points(const struct shape *s)
{
    if (s->words > 4096)
        return 1 + random_below(5);
    if (s->words > 512)
        return 1 + random_below(40);
    if (one_in(40))
        return 1000000;
    return 1 + random_below(one_in(4) ? 220 : 60);
}

void random_sketch(struct sketch *s)
{
    struct shape p = { .operation = random_below(OPERATIONS), .words = random_plan_words() };
    int axes = random_names(&p), length[MOST_AXES];
    int left = axes;
    p.spoils = one_in(2) ? 0 : 6 + random_below(30);
    random_shape(&p);
    random_origin(&p);
    random_lengths(length, axes, most_points(&p));
    s->lines = 2;
    s->line[0].fields = 2;
    strcpy(s->line[0].field[0], "memory");
    sprintf(s->line[0].field[1], "%lu", (unsigned long)p.words);
    s->line[1].fields = 2;
    strcpy(s->line[1].field[0], "draw");
    strcpy(s->line[1].field[1], operation_name[p.operation]);
    while (left > 0) {
        int name = (int)random_below(BH_NAMES);
        if (p.named[name]) {
            p.named[name] = false;
            left--;
            random_axis(&p, name, length[left], &s->line[s->lines]);
            s->lines++;
        }
    }
}

/* ---- Text ---- */

static void put_byte(struct plan_text *t, int byte)
{
    if (t->length < TEXT_ROOM)
        t->byte[t->length++] = (unsigned char)byte;
}

/* A comment of any bytes but a line's end. */
static void put_comment(struct plan_text *t)
{
    uint32_t length = random_below(one_in(16) ? 300 : 24);
    put_byte(t, '#');
    for (uint32_t i = 0; i < length; i++) {
        int byte = one_in(4) ? (int)random_below(256) : ' ' + (int)random_below(95);
        put_byte(t, byte == 10 ? 9 : byte);
    }
    put_byte(t, 10);
}

/* Lines that are skipped: often none. */
static void put_skipped(struct plan_text *t, uint32_t often)
{
    while (often > 0 && one_in(often)) {
        if (one_in(2))
            put_comment(t);
        else
            put_byte(t, 10);
    }
}

/* Comments or empty lines, so that the text gets about as long as it may be. */
static void put_many_skipped(struct plan_text *t, size_t length)
{
    bool empty = one_in(2);
    while (t->length < length) {
        if (!empty && t->length + 1 < length)
            put_byte(t, '#');
        while (!empty && t->length + 1 < length && !one_in(5000))
            put_byte(t, ' ' + (int)random_below(95));
        put_byte(t, 10);
    }
}

static size_t length_of(const struct sketch *s)
{
    size_t length = 0;
    for (int i = 0; i < s->lines; i++) {
        for (int k = 0; k < s->line[i].fields; k++)
            length += strlen(s->line[i].field[k]) + 1;
    }
    return length;
}

void write_sketch(const struct sketch *s, struct plan_text *t)
{
    uint32_t often = one_in(2) ? 0 : 2 + random_below(6);
    size_t longest = MOST_TEXT - 1 + random_below(3), length = length_of(s);
    int many = one_in(60) ? (int)random_below((uint32_t)s->lines + 1) : -1;
    t->length = 0;
    for (int i = 0; i <= s->lines; i++) {
        if (many < 0)
            put_skipped(t, often);
        if (i == many)
            put_many_skipped(t, longest - (length - t->length));
        for (int k = 0; i < s->lines && k < s->line[i].fields; k++) {
            for (const char *c = s->line[i].field[k]; *c != 0; c++)
                put_byte(t, (unsigned char)*c);
            put_byte(t, k + 1 < s->line[i].fields ? 9 : 10);
        }
    }
}

void random_plan(struct plan_text *t)
{
    static struct sketch s;
    uint32_t style = random_below(16);
    random_sketch(&s);
    if (style < 7) {
        spoil_sketch(&s);
        while (one_in(4))
            spoil_sketch(&s);
    }
    write_sketch(&s, t);
    if (style == 7 || style == 8 || one_in(64))
        spoil_text(t);
}

/* Compares single pixels: PIXT and DRAV. */
#include "compare.h"

#include <string.h>

/* ---- PIXT and DRAV ---- */

enum form { TO_LINEAR, TO_XY, FROM_LINEAR, FROM_XY, DRAV };

#define FORMS 5

static const char *const form_name[FORMS] = { "PIXT to linear", "PIXT to XY", "PIXT from linear",
                                              "PIXT from XY", "DRAV" };

/* A call: data is the register or the step, where the address, XY address or point. */
struct pixel_case {
    enum form form;
    uint32_t number[NUMBERS];
    size_t count; /* of these are lent */
    uint32_t data, where, v;
    size_t length; /* of the output array */
};

/* Two memories with the same words, of which some are lent, and all are held. */
struct pair {
    uint16_t *mine, *theirs;
    uint64_t words, held;
};

#define ANSWERS 20

/* Of each form: answers by number, pixels visited, how often V came back as 1, requests, and
   accepted calls with PBH or PBV. */
static uint64_t answered[FORMS][ANSWERS];
static uint64_t pixels_visited[FORMS];
static uint64_t v_set[FORMS];
static uint64_t requests[FORMS];
static uint64_t corners_ignored[FORMS];

static uint32_t call_library(const struct pixel_case *c, const struct pair *m, uint32_t out[OUTS])
{
    switch (c->form) {
    case TO_LINEAR:
        return bh_pixt_to_linear(m->mine, m->words, c->number, c->count, c->data, c->where, c->v,
                                 out, c->length);
    case TO_XY:
        return bh_pixt_to_xy(m->mine, m->words, c->number, c->count, c->data, c->where, c->v, out,
                             c->length);
    case FROM_LINEAR:
        return bh_pixt_from_linear(m->mine, m->words, c->number, c->count, c->where, c->v, out,
                                   c->length);
    case FROM_XY:
        return bh_pixt_from_xy(m->mine, m->words, c->number, c->count, c->where, c->v, out,
                               c->length);
    case DRAV:
        return bh_drav(m->mine, m->words, c->number, c->count, c->data, c->where, c->v, out,
                       c->length);
    }
    return 0;
}

/* The model's answer, with its four results. */
static uint32_t call_model(const struct pixel_case *c, const struct pair *pair, uint32_t result[4])
{
    struct memory m = { pair->theirs, pair->words };
    struct settings s = settings_of(c->number);
    int v = c->v != 0;
    struct pixt_answer p = { 0 };
    struct drav_answer d;
    switch (c->form) {
    case TO_LINEAR: p = pixt_to_linear(m, &s, c->data, c->where, v); break;
    case TO_XY: p = pixt_to_xy(m, &s, c->data, c->where, v); break;
    case FROM_LINEAR: p = pixt_from_linear(m, &s, c->where, v); break;
    case FROM_XY: p = pixt_from_xy(m, &s, c->where, v); break;
    case DRAV:
        d = drav(m, &s, c->data, c->where, v);
        p = (struct pixt_answer){ d.answer, d.visited, d.v, d.request, d.point };
        break;
    }
    result[0] = (uint32_t)p.visited;
    result[1] = (uint32_t)p.v;
    result[2] = (uint32_t)p.request;
    result[3] = p.value;
    return (uint32_t)p.answer;
}

static void print_pixel_case(const struct pixel_case *c, const struct pair *m,
                             const uint16_t *before)
{
    print_case(form_name[c->form]);
    printf("  words %llu, numbers lent %lu, out length %lu\n", (unsigned long long)m->words,
           (unsigned long)c->count, (unsigned long)c->length);
    print_numbers("settings, and numbers behind them", c->number, NUMBERS);
    printf("  register or step %08lX, address or point %08lX, V %lu\n", (unsigned long)c->data,
           (unsigned long)c->where, (unsigned long)c->v);
    if (before != NULL)
        print_words("memory, and words behind it", before, m->held);
    for (uint64_t i = 0; i < m->held; i++) {
        if (m->mine[i] != m->theirs[i])
            printf("  word %llu after: library %04X, model %04X\n", (unsigned long long)i,
                   m->mine[i], m->theirs[i]);
    }
}

static void count_answer(const struct pixel_case *c, uint32_t answer, const uint32_t out[OUTS])
{
    enum form form = c->form;
    answered[form][answer]++;
    if (answer == BH_BAD_ARGUMENT)
        return;
    corners_ignored[form] += answer == DONE && (c->number[AT_CONTROL] >> 8 & 3) != 0;
    pixels_visited[form] += out[0];
    v_set[form] += out[1];
    requests[form] += out[2];
}

/* before holds the words as they were, or is null. */
static void compare_pixel(const struct pixel_case *c, const struct pair *m, const uint16_t *before)
{
    struct pixel_case lent = *c;
    uint32_t out[OUTS], expected[OUTS], result[4] = { 0 };
    clear_out(out);
    calls++;
    uint32_t answer = call_library(&lent, m, out);
    bool bad = settings_are_bad(c->number, c->count) || c->length < BH_PIXEL_RESULTS;
    uint32_t model = bad ? 0 : call_model(c, m, result);
    uint32_t wanted = expect_out(expected, bad ? 0 : c->length, result, BH_PIXEL_RESULTS, model);
    count_answer(c, wanted, expected);
    if (answer == wanted && memcmp(out, expected, sizeof out) == 0
        && memcmp(lent.number, c->number, sizeof lent.number) == 0
        && memcmp(m->mine, m->theirs, m->held * sizeof *m->mine) == 0)
        return;
    print_pixel_case(c, m, before);
    printf("  library answers %lu, model %lu\n", (unsigned long)answer, (unsigned long)wanted);
    print_numbers("library's out", out, OUTS);
    print_numbers("model's out", expected, OUTS);
    print_numbers("library's settings after", lent.number, NUMBERS);
    stop();
}

/* ---- Random settings ---- */

/* Mostly a pixel size; at times none. */
static uint32_t random_psize(void)
{
    static const uint32_t odd[8] = { 0, 3, 5, 7, 12, 17, 32, 0x8000 };
    if (one_in(24))
        return odd[random_below(8)];
    return (uint32_t)1 << random_below(5);
}

/* T, W, PBH, PBV and the unused bits are any; PP is at times above 21. */
static uint32_t random_drawing_control(void)
{
    uint32_t pp = one_in(24) ? 22 + random_below(10) : random_below(22);
    return (random32() & 0x83FF) | pp << 10;
}

/* Mostly a power of two of at least 16; at times none, or a large one. */
static uint32_t random_pitch(void)
{
    static const uint32_t odd[10] = { 0, 1, 8, 15, 17, 24, 48, 0xFFFFFFF0u, 0xFFFFFFFFu, 96 };
    if (one_in(16))
        return one_in(4) ? random32() : odd[random_below(10)];
    if (one_in(16))
        return (uint32_t)1 << (4 + random_below(28));
    return (uint32_t)16 << random_below(4);
}

/* Mostly small; at times negative, or at an end. */
static int64_t random_half(void)
{
    static const int64_t edge[6] = { 32767, 32766, -32768, -32767, -1, 0 };
    uint32_t style = random_below(16);
    if (style == 0)
        return edge[random_below(6)];
    if (style == 1)
        return -(int64_t)random_below(10);
    return random_below(10);
}

/* The window's start and end lie around the point, at times in the wrong order or anywhere. */
static void random_window(uint32_t number[NUMBERS], uint32_t point)
{
    int64_t x = x_half(point), y = y_half(point);
    int64_t left = x + 1 - random_below(4), right = left + random_below(5);
    int64_t top = y + 1 - random_below(4), bottom = top + random_below(5);
    if (!one_in(8)) {
        left = left < 0 ? 0 : left;
        top = top < 0 ? 0 : top;
        right = right < left ? left : right > 32767 ? 32767 : right;
        bottom = bottom < top ? top : bottom > 32767 ? 32767 : bottom;
    }
    if (one_in(16))
        right = left - 1 - random_below(2);
    if (one_in(16))
        bottom = top - 1 - random_below(2);
    number[AT_WSTART] = one_in(64) ? random32() : xy_number(left, top);
    number[AT_WEND] = one_in(64) ? random32() : xy_number(right, bottom);
}

/* Mostly a multiple of the pixel size near 0; at times below 0, misaligned, or any number. */
static uint32_t random_offset(uint32_t psize)
{
    if (one_in(32))
        return random32();
    uint32_t offset = random_below(12) * psize;
    if (one_in(6))
        offset = 0u - offset;
    if (one_in(8))
        offset = offset + 1 + random_below(15);
    return offset;
}

static void random_settings(struct pixel_case *c, uint32_t point)
{
    for (int i = 0; i < NUMBERS; i++)
        c->number[i] = random32();
    c->number[AT_PSIZE] = random_psize();
    c->number[AT_CONTROL] = random_drawing_control();
    c->number[AT_PMASK] = one_in(2) ? 0 : random32() & random32() & 0xFFFF;
    c->number[AT_DPTCH] = random_pitch();
    c->number[AT_OFFSET] = random_offset(c->number[AT_PSIZE]);
    random_window(c->number, point);
    if (one_in(64))
        c->number[AT_CONTROL + random_below(3)] += (uint32_t)1 << (16 + random_below(16));
    c->count = BH_SETTINGS;
    if (one_in(64))
        c->count = random_below(NUMBERS + 1);
}

/* Mostly a multiple of the pixel size in the memory or just past its end. */
static uint32_t random_linear(uint32_t psize, uint64_t words)
{
    uint32_t style = random_below(16);
    if (style == 0)
        return random32();
    uint32_t address = random_below(16 * (uint32_t)words + 32);
    if (style == 1)
        address = 0u - address;
    if (!one_in(8) && psize != 0)
        address = address - address % psize;
    return address;
}

static struct pixel_case random_case(uint64_t words)
{
    struct pixel_case c;
    c.form = (enum form)random_below(FORMS);
    c.where = xy_number(random_half(), random_half());
    random_settings(&c, c.where);
    if (c.form == TO_LINEAR || c.form == FROM_LINEAR)
        c.where = random_linear(c.number[AT_PSIZE], words);
    c.data = one_in(2) ? random32() : xy_number(random_half(), random_half());
    c.v = one_in(8) ? random32() : random_below(2);
    c.length = random_length(BH_PIXEL_RESULTS);
    return c;
}

/* ---- Memories ---- */

/* Up to 40 words are lent; the others may not change. */
#define PATCH 44

static void random_patch_call(void)
{
    uint16_t before[PATCH], mine[PATCH], theirs[PATCH];
    uint32_t style = random_below(6);
    for (int i = 0; i < PATCH; i++)
        before[i] = style == 0 ? 0 : style == 1 ? 0xFFFF : (uint16_t)random32();
    memcpy(mine, before, sizeof mine);
    memcpy(theirs, before, sizeof theirs);
    struct pair m = { mine, theirs, one_in(32) ? 0 : 1 + random_below(40), PATCH };
    struct pixel_case c = random_case(m.words);
    compare_pixel(&c, &m, before);
}

#define LARGE (MOST_WORDS + 1)

/* The largest memory, and one word more: the settings and the place of a small one at its end. */
static void large_pixel_edges(void)
{
    static uint16_t mine[LARGE], theirs[LARGE];
    for (int i = 0; i < 400; i++) {
        struct pair m = { mine, theirs, i % 8 == 0 ? LARGE : MOST_WORDS, LARGE };
        struct pixel_case c = random_case(8);
        if (c.form == TO_LINEAR || c.form == FROM_LINEAR)
            c.where = c.where + 16u * (MOST_WORDS - 8);
        else
            c.number[AT_OFFSET] = c.number[AT_OFFSET] + 16u * (MOST_WORDS - 8);
        compare_pixel(&c, &m, NULL);
    }
}

/* "DRAV from 0000FFFFh with step 1, W=3, window from 0,0: not drawn, V=1, new point 0", and every
   short array. */
static void drav_edges(void)
{
    for (size_t count = 0; count <= NUMBERS; count++) {
        for (size_t length = 0; length < OUTS; length++) {
            uint16_t mine[2] = { 0x1234, 0x5678 }, theirs[2] = { 0x1234, 0x5678 };
            struct pair m = { mine, theirs, 1, 2 };
            struct pixel_case c = { DRAV, { 0 }, count, 1, 0x0000FFFF, 0, length };
            c.number[AT_DPTCH] = 16;
            c.number[AT_WEND] = 0x00040004;
            c.number[AT_CONTROL] = 3 << 6;
            c.number[AT_PSIZE] = 4;
            compare_pixel(&c, &m, NULL);
        }
    }
}

/* ---- A pixel of a memory of one word ---- */

/* What decides the word after PIXT to a linear address; the other settings are 0. */
struct word_case {
    uint32_t pp, t, psize, pmask, place, value, word;
};

static void compare_word(const struct word_case *w)
{
    uint16_t before[2] = { (uint16_t)w->word, 0x5A5A }, mine[2], theirs[2];
    memcpy(mine, before, sizeof mine);
    memcpy(theirs, before, sizeof theirs);
    struct pair m = { mine, theirs, 1, 2 };
    struct pixel_case c = { TO_LINEAR, { 0 }, BH_SETTINGS, w->value, w->place, 0,
                            BH_PIXEL_RESULTS };
    c.number[AT_CONTROL] = w->pp << 10 | w->t << 5;
    c.number[AT_PSIZE] = w->psize;
    c.number[AT_PMASK] = w->pmask;
    compare_pixel(&c, &m, before);
}

/* Any number with these bits at a place. */
static uint32_t around(uint32_t bits, uint32_t place, uint32_t psize)
{
    uint32_t top = ((uint32_t)1 << psize) - 1;
    return (random32() & ~(top << place)) | bits << place;
}

/* Every mask, source and destination of this size, at every place, under one PP and T. */
static void every_pixel(uint32_t pp, uint32_t t, uint32_t psize)
{
    uint32_t values = (uint32_t)1 << psize;
    for (uint32_t place = 0; place < 16; place = place + psize) {
        for (uint32_t i = 0; i < values * values * values; i++) {
            struct word_case w = { pp, t, psize, 0, place, 0, 0 };
            w.pmask = around(i % values, place, psize) & 0xFFFF;
            w.value = around(i / values % values, 0, psize);
            w.word = around(i / values / values, place, psize) & 0xFFFF;
            compare_word(&w);
        }
    }
}

/* Any pixel that isn't refused. */
static void random_word_call(void)
{
    uint32_t psize = (uint32_t)1 << random_below(5);
    struct word_case w = { random_below(22), random_below(2), psize, random32() & 0xFFFF,
                           random_below(16 / psize) * psize, random32(), random32() & 0xFFFF };
    if (one_in(2))
        w.pmask = w.pmask & random32() & random32();
    compare_word(&w);
}

/* ---- The run ---- */

void pixel_edges(void)
{
    for (uint32_t pp = 0; pp <= 21; pp++) {
        for (uint32_t t = 0; t <= 1; t++) {
            every_pixel(pp, t, 1);
            every_pixel(pp, t, 2);
            every_pixel(pp, t, 4);
        }
    }
    drav_edges();
    large_pixel_edges();
}

void random_pixel_call(void)
{
    if (one_in(4))
        random_word_call();
    else
        random_patch_call();
}

void print_pixel_answers(void)
{
    for (int form = 0; form < FORMS; form++) {
        printf("%s:", form_name[form]);
        for (int i = 0; i < ANSWERS; i++) {
            if (answered[form][i] != 0)
                printf(" %llu answers %d,", (unsigned long long)answered[form][i], i);
        }
        printf(" %llu pixels, V set %llu, requests %llu, PBH or PBV %llu\n",
               (unsigned long long)pixels_visited[form], (unsigned long long)v_set[form],
               (unsigned long long)requests[form], (unsigned long long)corners_ignored[form]);
    }
}

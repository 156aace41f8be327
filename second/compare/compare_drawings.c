/* Compares FILL and PIXBLT: bh_draw and the model's draw, call by call. After each call, refused or
   not, the answer, every result, the settings and every word of memory are compared. Each call is
   also made as a dry run (bh_outcome), which must hand back the same, and the time of the whole
   drawing (bh_fill_states) is compared (compare_timing.c). */
#include "compare_drawings.h"

#include <stdlib.h>
#include <string.h>

const char *const operation_name[OPERATIONS] = { "FILL L",      "FILL XY",      "PIXBLT L,L",
                                                 "PIXBLT L,XY", "PIXBLT XY,L",  "PIXBLT XY,XY",
                                                 "PIXBLT B,L",  "PIXBLT B,XY" };

/* ---- What was compared ---- */

#define ANSWERS 18

/* By kind, the last row for a number that is none: answers, pixels visited, V as 1, requests. */
static uint64_t answered[OPERATIONS + 1][ANSWERS];
static uint64_t pixels_visited[OPERATIONS];
static uint64_t v_set[OPERATIONS];
static uint64_t requests[OPERATIONS];

/* Calls that visited a pixel, by kind, PP, pixel size (1, 2, 4, 8, 16) and T. */
static uint64_t drawn_with[OPERATIONS][22][5][2];

/* What an accepted call had. */
enum feature {
    WINDOW_0,
    WINDOW_1,
    WINDOW_2,
    WINDOW_3,
    CLIPPED,
    NEGATIVE_ARRAY,
    NEGATIVE_SOURCE,
    FAR_SOURCE,
    EMPTY_ARRAY,
    SOME_MASK,
    FULL_MASK,
    FALLING_DESTINATION,
    FALLING_SOURCE,
    OVERLAP,
    ONE_WORD,
    ALL_WORDS,
    LAST_WORD,
    MANY_PIXELS,
    GOES_ON,
    AT_THE_END,
    NO_BUDGET,
    ALL_BUDGET,
    WIDE_BUDGET,
    FEATURES
};

static const char *const feature_name[FEATURES] = {
    "XY, W=0",
    "XY, W=1",
    "XY, W=2",
    "XY, W=3",
    "an array clipped by W=3",
    "an array that starts below 0 in X or Y",
    "a source that starts below 0 in X or Y",
    "a source that clipping moves past 32,767",
    "an empty array",
    "a plane mask",
    "a mask of all planes",
    "a destination pitch from 2^31 on, more than one row",
    "a source pitch from 2^31 on, more than one row",
    "source bits that the drawing writes",
    "a memory of 1 word",
    "a memory of 1,048,576 words",
    "a change of the memory's last word",
    "above 65,536 pixels in all",
    "a place above 0",
    "a place at the end",
    "budget 0",
    "budget 2^64 - 1",
    "a budget of 2^32 or more, but not that",
};

static uint64_t had[FEATURES];

/* ---- Memories ---- */

#define LARGE (MOST_WORDS + 1)

/* Words behind a memory, which no call may change. */
#define BEHIND 4

/* Up to here all words of a memory are printed. */
#define SMALL 64

static uint16_t words_mine[LARGE + BEHIND];
static uint16_t words_theirs[LARGE + BEHIND];
static uint16_t words_before[LARGE + BEHIND];

/* The image that the memory had first: of a seed, 0 among them. */
static uint64_t image_seed;

static void make_image(uint16_t *word, uint64_t words, uint64_t held)
{
    struct memory m = { word, words };
    image_make(m, image_seed);
    for (uint64_t i = words; i < held; i++)
        word[i] = 0x1234;
}

/* Both memories as they were before the call. */
static void put_back(const struct twin *m)
{
    memcpy(m->mine, m->before, m->held * sizeof *m->mine);
    memcpy(m->theirs, m->before, m->held * sizeof *m->theirs);
}

struct twin new_memory(uint64_t words)
{
    struct twin m = { words_mine, words_theirs, words_before, words, words + BEHIND };
    image_seed = one_in(12) ? 0 : random64();
    make_image(m.before, m.words, m.held);
    if (words <= SMALL && one_in(16))
        memset(m.before, 0xFF, words * sizeof *m.before);
    put_back(&m);
    return m;
}

/* ---- Reporting ---- */

void print_draw_case(const struct draw_case *c)
{
    static const char *const name[BH_SETTINGS] = { "SADDR",  "SPTCH",  "DADDR",   "DPTCH", "OFFSET",
                                                   "WSTART", "WEND",   "DYDX",    "COLOR0",
                                                   "COLOR1", "CONTROL", "PSIZE",  "PMASK" };
    printf("  operation %lu (%s)\n ", (unsigned long)c->operation,
           c->operation < OPERATIONS ? operation_name[c->operation] : "none");
    for (int i = 0; i < BH_SETTINGS; i++)
        printf(" %s %lX", name[i], (unsigned long)c->number[i]);
    printf("\n  place %llu, V %lu, budget %llu; words %llu, settings lent %lu, out length %lu\n",
           (unsigned long long)c->place, (unsigned long)c->v, (unsigned long long)c->budget,
           (unsigned long long)c->words, (unsigned long)c->count, (unsigned long)c->length);
}

void print_result(const char *whose, const struct draw_result *r)
{
    printf("  %s answers %lu; out:", whose, (unsigned long)r->answer);
    for (int i = 0; i < DRAW_OUTS; i++)
        printf(" %llX", (unsigned long long)r->out[i]);
    printf("\n");
}

void print_difference(const char *call, const char *const *name, int names,
                      const struct draw_result *mine, const struct draw_result *theirs)
{
    if (same_result(mine, theirs))
        printf("  %s: a setting has changed\n", call);
    if (mine->answer != theirs->answer)
        printf("  %s: answer: library %lu, model %lu\n", call, (unsigned long)mine->answer,
               (unsigned long)theirs->answer);
    for (int i = 0; i < DRAW_OUTS; i++) {
        if (mine->out[i] != theirs->out[i])
            printf("  %s: element %d%s%s: library %llu, model %llu\n", call, i,
                   i < names ? ", " : "", i < names ? name[i] : "",
                   (unsigned long long)mine->out[i], (unsigned long long)theirs->out[i]);
    }
}

static void print_draws(const char *call, const struct draw_result *mine,
                        const struct draw_result *theirs)
{
    static const char *const name[BH_DRAW_RESULTS] = { "place", "visited", "V",   "request",
                                                       "SADDR", "DADDR",   "DYDX" };
    print_difference(call, name, BH_DRAW_RESULTS, mine, theirs);
}

/* All words of a small memory; of another one the seed, and the words that its image does not
   have. */
static void print_before(const struct twin *m)
{
    if (m->words <= SMALL) {
        print_words("memory before, and words behind it", m->before, m->held);
        return;
    }
    uint16_t *image = malloc(m->held * sizeof *image);
    if (image == NULL)
        return;
    make_image(image, m->words, m->held);
    printf("  memory before: the image of seed %llu over %llu words, and 1234 behind it, but for",
           (unsigned long long)image_seed, (unsigned long long)m->words);
    for (uint64_t i = 0; i < m->held; i++) {
        if (image[i] != m->before[i])
            printf(" %llu: %04X", (unsigned long long)i, m->before[i]);
    }
    printf("\n");
    free(image);
}

static void print_changes(const struct twin *m)
{
    for (uint64_t i = 0; i < m->held; i++) {
        if (m->mine[i] != m->theirs[i])
            printf("  word %llu after: library %04X, model %04X (before %04X)\n",
                   (unsigned long long)i, m->mine[i], m->theirs[i], m->before[i]);
    }
}

/* ---- One call ---- */

void clear_result(struct draw_result *r)
{
    for (int i = 0; i < DRAW_OUTS; i++)
        r->out[i] = GUARD;
}

bool same_result(const struct draw_result *a, const struct draw_result *b)
{
    return a->answer == b->answer && memcmp(a->out, b->out, sizeof a->out) == 0;
}

/* *kept is cleared where the call changes a setting. */
static struct draw_result call_library(const struct draw_case *c, uint16_t *word, bool *kept)
{
    struct draw_case lent = *c;
    struct draw_result r;
    clear_result(&r);
    r.answer = bh_draw(word, c->words, c->operation, lent.number, c->count, c->place, c->v,
                       c->budget, r.out, c->length);
    *kept = memcmp(lent.number, c->number, sizeof lent.number) == 0;
    return r;
}

/* The dry run of the same call. */
static struct draw_result call_dry(const struct draw_case *c, bool *kept)
{
    struct draw_case lent = *c;
    struct draw_result r;
    clear_result(&r);
    r.answer = bh_outcome(c->words, c->operation, lent.number, c->count, c->place, c->v, c->budget,
                          r.out, c->length);
    *kept = memcmp(lent.number, c->number, sizeof lent.number) == 0;
    return r;
}

/* What the interface answers by 9 never gets to the model. */
static struct draw_result call_model(const struct draw_case *c, uint16_t *word)
{
    struct memory m = { word, c->words };
    struct draw_result r = { BH_BAD_ARGUMENT, { 0 } };
    clear_result(&r);
    if (c->operation >= OPERATIONS || settings_are_bad(c->number, c->count)
        || c->length < BH_DRAW_RESULTS)
        return r;
    struct settings s = settings_of(c->number);
    struct draw_answer a =
        draw(m, (enum operation)c->operation, &s, c->place, c->v != 0, c->budget);
    r.answer = (uint32_t)a.answer;
    r.out[OUT_PLACE] = a.place;
    r.out[OUT_VISITED] = a.visited;
    r.out[OUT_V] = (uint64_t)a.v;
    r.out[OUT_REQUEST] = (uint64_t)a.request;
    r.out[OUT_SADDR] = a.SADDR;
    r.out[OUT_DADDR] = a.DADDR;
    r.out[OUT_DYDX] = a.DYDX;
    return r;
}

/* What the calls of a case hand back, and where the two programs are the same. */
struct pair {
    struct draw_result mine, dry, theirs;
    struct draw_result my_time, their_time;
    bool same_draw, same_dry, same_time, same_memory;
};

/* Calls both from the memory before; true where they agree in everything. */
static bool agree(const struct draw_case *c, const struct twin *m, struct pair *p)
{
    bool kept, kept_dry;
    p->mine = call_library(c, m->mine, &kept);
    p->dry = call_dry(c, &kept_dry);
    p->theirs = call_model(c, m->theirs);
    p->same_draw = kept && same_result(&p->mine, &p->theirs);
    p->same_dry = kept_dry && same_result(&p->dry, &p->theirs);
    p->same_time = true;
    if (pixels_of(c) <= TAME_PIXELS)
        p->same_time = times_agree(c, &p->my_time, &p->their_time);
    p->same_memory = memcmp(m->mine, m->theirs, m->held * sizeof *m->mine) == 0;
    return p->same_draw && p->same_dry && p->same_time && p->same_memory;
}

static bool still_differs(const struct draw_case *c, const struct twin *m)
{
    struct pair p;
    put_back(m);
    return !agree(c, m, &p);
}

/* Half of a number, or nothing of it. */
static uint64_t less_of(uint64_t number)
{
    return one_in(2) ? 0 : number / 2;
}

/* Some number of the case made less; CONTROL by its bits. */
static void lessen(struct draw_case *c)
{
    uint32_t place = random_below(BH_SETTINGS + 2);
    uint32_t columns = c->number[AT_DYDX] & 0xFFFF, rows = c->number[AT_DYDX] >> 16;
    if (place == AT_DYDX && one_in(2))
        c->number[AT_DYDX] = rows << 16 | columns / 2;
    else if (place == AT_DYDX)
        c->number[AT_DYDX] = rows / 2 << 16 | columns;
    else if (place == AT_CONTROL)
        c->number[AT_CONTROL] &= one_in(2) ? random32() : ~((uint32_t)1 << random_below(16));
    else if (place < BH_SETTINGS)
        c->number[place] = (uint32_t)less_of(c->number[place]);
    else if (place == BH_SETTINGS)
        c->budget = less_of(c->budget);
    else
        c->place = less_of(c->place);
}

/* A smaller case that differs as well. */
static struct draw_case smaller_case(struct draw_case c, const struct twin *m)
{
    for (int turn = 0; turn < 400; turn++) {
        struct draw_case try = c;
        lessen(&try);
        if (pixels_of(&try) <= pixels_of(&c) && still_differs(&try, m))
            c = try;
    }
    return c;
}

static void print_pair(const struct pair *p)
{
    print_result("library", &p->mine);
    print_result("model", &p->theirs);
    if (!p->same_draw)
        print_draws("bh_draw", &p->mine, &p->theirs);
    if (!p->same_dry)
        print_draws("bh_outcome", &p->dry, &p->theirs);
    if (!p->same_time)
        print_times(&p->my_time, &p->their_time);
}

static void stop_at(const struct draw_case *c, const struct twin *m)
{
    struct pair p;
    print_case("draw");
    print_draw_case(c);
    struct draw_case small = smaller_case(*c, m);
    printf("a smaller case from the same memory:\n");
    print_draw_case(&small);
    print_before(m);
    put_back(m);
    agree(&small, m, &p);
    print_pair(&p);
    print_changes(m);
    stop();
}

static void count_call(const struct draw_case *c, const struct draw_result *r,
                       const struct twin *m);

/* The next call starts from the memory that this one leaves. */
static struct draw_result go_on_from(const struct pair *p, struct twin *m)
{
    if (p->theirs.answer <= STOPPED && p->theirs.out[OUT_VISITED] > 0)
        memcpy(m->before, m->mine, m->held * sizeof *m->mine);
    return p->theirs;
}

struct draw_result compare_draw(const struct draw_case *c, struct twin *m)
{
    struct pair p;
    calls++;
    if (!agree(c, m, &p))
        stop_at(c, m);
    count_call(c, &p.theirs, m);
    if (pixels_of(c) <= TAME_PIXELS)
        count_time(c, &p.their_time);
    return go_on_from(&p, m);
}

struct draw_result compare_uncounted(const struct draw_case *c, struct twin *m)
{
    struct pair p;
    calls++;
    if (!agree(c, m, &p))
        stop_at(c, m);
    return go_on_from(&p, m);
}

/* The model draws over words that no call looks at later. */
void compare_dry(const struct draw_case *c)
{
    bool kept;
    calls++;
    struct draw_result mine = call_dry(c, &kept), theirs = call_model(c, words_theirs);
    if (kept && same_result(&mine, &theirs))
        return;
    print_case("a dry run");
    print_draw_case(c);
    print_draws("bh_outcome", &mine, &theirs);
    stop();
}

/* ---- Counting ---- */

static void note(enum feature feature, bool there)
{
    if (there)
        had[feature]++;
}

bool overlaps(const struct draw_case *c)
{
    static uint8_t written[16 * 1024], read[16 * 1024];
    struct footprint f = { written, read };
    if (c->words > 1024)
        return false;
    memset(written, 0, 16 * c->words);
    memset(read, 0, 16 * c->words);
    find_footprint(c, &f);
    for (uint64_t i = 0; i < 16 * c->words; i++) {
        if (written[i] && read[i])
            return true;
    }
    return false;
}

static bool is_negative(uint32_t xy)
{
    return x_half(xy) < 0 || y_half(xy) < 0;
}

static void note_window(const struct draw_case *c, uint64_t n)
{
    uint32_t w = c->number[AT_CONTROL] >> 6 & 3, saddr = c->number[AT_SADDR];
    struct rectangle array = whole_array(c), drawn = drawn_part(c);
    note((enum feature)(WINDOW_0 + w), true);
    note(NEGATIVE_ARRAY, n > 0 && is_negative(c->number[AT_DADDR]));
    if (n == 0 || w != 3)
        return;
    note(CLIPPED, drawn.columns < array.columns || drawn.rows < array.rows);
    if (!draws_from_xy(c->operation))
        return;
    note(NEGATIVE_SOURCE, is_negative(saddr));
    note(FAR_SOURCE, x_half(saddr) + drawn.x - array.x > 32767
                         || y_half(saddr) + drawn.y - array.y > 32767);
}

static void note_budget(const struct draw_case *c, uint64_t n)
{
    note(GOES_ON, c->place > 0 && c->place < n);
    note(AT_THE_END, n > 0 && c->place == n);
    note(NO_BUDGET, c->budget == 0);
    note(ALL_BUDGET, c->budget == UINT64_MAX);
    note(WIDE_BUDGET, c->budget > UINT32_MAX && c->budget < UINT64_MAX);
}

static bool has_source(const struct draw_case *c)
{
    return copies_pixels(c->operation) || copies_bits(c->operation);
}

static void note_features(const struct draw_case *c, const struct twin *m)
{
    uint64_t n = pixels_of(c);
    bool many_rows = n > 0 && c->number[AT_DYDX] >> 16 > 1;
    if (draws_to_xy(c->operation))
        note_window(c, n);
    note_budget(c, n);
    note(EMPTY_ARRAY, (c->number[AT_DYDX] & 0xFFFF) == 0 || c->number[AT_DYDX] >> 16 == 0);
    note(SOME_MASK, c->number[AT_PMASK] != 0);
    note(FULL_MASK, c->number[AT_PMASK] == 0xFFFF);
    note(FALLING_DESTINATION, many_rows && c->number[AT_DPTCH] >= 0x80000000u);
    note(FALLING_SOURCE, many_rows && has_source(c) && c->number[AT_SPTCH] >= 0x80000000u);
    note(ONE_WORD, c->words == 1 && n > 0);
    note(ALL_WORDS, c->words == MOST_WORDS && n > 0);
    note(LAST_WORD, m->mine[c->words - 1] != m->before[c->words - 1]);
    note(MANY_PIXELS, n > 65536);
}

int size_index(uint32_t psize)
{
    int i = 0;
    while (psize > 1) {
        psize = psize / 2;
        i++;
    }
    return i;
}

static void count_call(const struct draw_case *c, const struct draw_result *r,
                       const struct twin *m)
{
    uint32_t kind = c->operation < OPERATIONS ? c->operation : OPERATIONS;
    bool overlap = r->answer <= STOPPED && has_source(c) && c->place == 0 && overlaps(c);
    answered[kind][r->answer]++;
    count_corner(c, r, m, overlap);
    if (r->answer > STOPPED)
        return;
    pixels_visited[kind] += r->out[OUT_VISITED];
    v_set[kind] += r->out[OUT_V];
    requests[kind] += r->out[OUT_REQUEST];
    note_features(c, m);
    note(OVERLAP, overlap);
    if (r->out[OUT_VISITED] > 0) {
        uint32_t pp = c->number[AT_CONTROL] >> 10 & 31, t = c->number[AT_CONTROL] >> 5 & 1;
        drawn_with[kind][pp][size_index(c->number[AT_PSIZE])][t]++;
    }
}

/* ---- Random calls ---- */

uint64_t random_budget(uint64_t left)
{
    switch (random_below(16)) {
    case 0: return 0;
    case 1: return UINT64_MAX;
    case 2: return left;
    case 3: return left + 1;
    case 4: return left > 0 ? left - 1 : 0;
    case 5: return (uint64_t)1 << (32 + random_below(32));
    case 6: return ((uint64_t)1 << 32) + random_below(4);
    }
    return 1 + random_below((uint32_t)(left / 2) + 2);
}

void tame(struct draw_case *c)
{
    while (pixels_of(c) > TAME_PIXELS) {
        uint32_t columns = c->number[AT_DYDX] & 0xFFFF, rows = c->number[AT_DYDX] >> 16;
        c->number[AT_DYDX] = (rows + 1) / 2 << 16 | (columns + 1) / 2;
    }
}

static void compare_spoiled(struct draw_case c, struct twin *m)
{
    spoil(&c, m->held);
    if (one_in(4))
        spoil(&c, m->held);
    tame(&c);
    compare_draw(&c, m);
}

/* A drawing in slices, each going on where the one before ended, until it is done or long enough;
   then perhaps a call at its end, or from some place again. Spoiled calls come between. */
static void compare_sliced(struct draw_case c, struct twin *m)
{
    uint64_t n = pixels_of(&c);
    for (int i = 0; i < 12; i++) {
        if (one_in(5))
            compare_spoiled(c, m);
        c.budget = random_budget(n - c.place);
        struct draw_result r = compare_draw(&c, m);
        if (r.answer > STOPPED)
            return;
        c.place = r.out[OUT_PLACE];
        c.v = (uint32_t)r.out[OUT_V];
        if (r.answer == DONE) {
            if (!one_in(4))
                return;
            if (one_in(2) && n > 0)
                c.place = random_below((uint32_t)n);
        }
    }
}

static uint64_t random_words(void)
{
    uint32_t style = random_below(1024);
    if (style == 0)
        return one_in(4) ? MOST_WORDS - random_below(1024) : MOST_WORDS;
    if (style < 16)
        return 1 + random_below(16384);
    if (style < 128)
        return 1;
    if (style < 256)
        return 1 + random_below(4);
    if (style < 768)
        return 1 + random_below(64);
    return 1 + random_below(400);
}

static void random_drawings(void)
{
    struct twin m = new_memory(random_words());
    struct draw_case c = random_drawing(m.words);
    if (one_in(24)) {
        disturb(&c);
        tame(&c);
    }
    if (one_in(8))
        compare_spoiled(c, &m);
    if (one_in(4)) {
        c.budget = one_in(2) ? UINT64_MAX : pixels_of(&c) + random_below(2);
        compare_draw(&c, &m);
    } else {
        compare_sliced(c, &m);
    }
}

/* ---- Edges ---- */

/* "The same with WSTART 004900EBh, WEND 005F0140h, DYDX 0014003Ch, W=3: 53 by 15, 795 pixels, start
   24BACh, V=1, DADDR at the end 2C3ACh. 11,208 words are enough; 11,207 give 17." */
static void figure_edges(void)
{
    struct twin m = new_memory(11208);
    struct draw_case c = { .operation = FILL_XY, .count = BH_SETTINGS, .budget = UINT64_MAX,
                           .length = BH_DRAW_RESULTS };
    c.number[AT_DADDR] = 0x004400E4;
    c.number[AT_DPTCH] = 0x800;
    c.number[AT_WSTART] = 0x004900EB;
    c.number[AT_WEND] = 0x005F0140;
    c.number[AT_DYDX] = 0x0014003C;
    c.number[AT_COLOR1] = 0x9ABC;
    c.number[AT_CONTROL] = 3 << 6;
    c.number[AT_PSIZE] = 4;
    c.words = 11207;
    compare_draw(&c, &m);
    c.words = 11208;
    compare_draw(&c, &m);
}

/* Every length of settings and results, over every kind and none. */
static void shape_edges(void)
{
    for (uint32_t operation = 0; operation <= OPERATIONS; operation++) {
        for (size_t count = 0; count <= NUMBERS; count++) {
            for (size_t length = 0; length <= DRAW_OUTS; length++) {
                struct twin m = new_memory(2);
                struct draw_case c = random_drawing(m.words);
                c.operation = operation;
                c.count = count;
                c.length = length;
                tame(&c);
                compare_draw(&c, &m);
            }
        }
    }
}

/* A linear array of many pixels, from rows on top of each other where it has a source. */
static struct draw_case many_pixels(uint32_t operation, uint32_t dydx, uint32_t dptch,
                                    uint32_t daddr)
{
    struct draw_case c = { .operation = operation, .count = BH_SETTINGS,
                           .length = BH_DRAW_RESULTS, .words = MOST_WORDS };
    c.number[AT_DADDR] = daddr;
    c.number[AT_DPTCH] = dptch;
    c.number[AT_SADDR] = 16 * 5000;
    c.number[AT_DYDX] = dydx;
    c.number[AT_COLOR0] = 0x1234;
    c.number[AT_COLOR1] = 0x5BCD;
    c.number[AT_CONTROL] = 10 << 10;
    c.number[AT_PSIZE] = 1;
    return c;
}

/* Some pixels from places that need many bits. */
static void compare_places(struct draw_case c, struct twin *m)
{
    uint64_t n = pixels_of(&c);
    const uint64_t place[6] = { 0, 65535, 65536, n / 2 + 1, n - 3, n };
    for (int i = 0; i < 6; i++) {
        c.place = place[i];
        c.budget = one_in(2) ? 5 : 70000 + random_below(1000);
        compare_draw(&c, m);
    }
    c.place = n + 1;
    compare_draw(&c, m);
}

static void large_edges(void)
{
    struct twin m = new_memory(MOST_WORDS);
    struct draw_case c[4] = {
        many_pixels(FILL_L, 65535u << 16 | 40, 0, 320),
        many_pixels(PIXBLT_B_L, 40u << 16 | 65535, 16, 0),
        many_pixels(FILL_L, 65535u << 16 | 16, 0u - 16, 16u * MOST_WORDS - 16),
        many_pixels(PIXBLT_L_L, 40u << 16 | 65535, 262144, 16u * MOST_WORDS - 1)
    };
    c[3].number[AT_CONTROL] |= 3 << 8;
    for (int i = 0; i < 4; i++) {
        compare_places(c[i], &m);
        compare_time(&c[i]);
    }
    struct draw_case one = many_pixels(FILL_L, 0x00010001, 0, 0);
    one.words = LARGE;
    compare_draw(&one, &m);
}

void compare_huge_drawings(void)
{
    struct twin m = new_memory(MOST_WORDS);
    struct draw_case c = many_pixels(FILL_L, 0xFFFFFFFFu, 0, 16);
    c.place = 4294836225 - 70001;
    c.budget = 70000;
    struct draw_result r = compare_draw(&c, &m);
    c.place = r.out[OUT_PLACE];
    compare_draw(&c, &m);
    c.place = 4294836226;
    compare_draw(&c, &m);
    compare_time(&c);
}

/* ---- The run ---- */

/* 14 is for XY destinations; nothing else depends on the kind. */
static bool expected(int kind, int answer)
{
    if (answer == REFUSED_WINDOW)
        return draws_to_xy((uint32_t)kind);
    return answer <= STOPPED || answer >= BH_BAD_ARGUMENT;
}

/* The number of answers that never came. */
static int print_answers(void)
{
    int missing = 0;
    printf("%-13s", "answers");
    for (int answer = 0; answer < ANSWERS; answer++) {
        if (answer <= STOPPED || answer >= BH_BAD_ARGUMENT)
            printf(" %7d", answer);
    }
    printf(" %9s %7s %7s\n", "pixels", "V=1", "request");
    for (int kind = 0; kind < OPERATIONS; kind++) {
        printf("%-13s", operation_name[kind]);
        for (int answer = 0; answer < ANSWERS; answer++) {
            if (answer <= STOPPED || answer >= BH_BAD_ARGUMENT)
                printf(" %7llu", (unsigned long long)answered[kind][answer]);
            missing += expected(kind, answer) && answered[kind][answer] == 0;
        }
        printf(" %9llu %7llu %7llu\n", (unsigned long long)pixels_visited[kind],
               (unsigned long long)v_set[kind], (unsigned long long)requests[kind]);
    }
    printf("%-13s %23llu\n", "no operation",
           (unsigned long long)answered[OPERATIONS][BH_BAD_ARGUMENT]);
    return missing + (answered[OPERATIONS][BH_BAD_ARGUMENT] == 0);
}

static int print_features(void)
{
    int missing = 0;
    printf("accepted calls with\n");
    for (int i = 0; i < FEATURES; i++) {
        printf("%10llu  %s\n", (unsigned long long)had[i], feature_name[i]);
        missing += had[i] == 0;
    }
    return missing;
}

/* The number of combinations of kind, PP, pixel size and T that never drew. */
static int print_combinations(void)
{
    int missing = 0;
    uint64_t least = UINT64_MAX;
    const uint64_t *number = &drawn_with[0][0][0][0];
    for (int i = 0; i < OPERATIONS * 22 * 5 * 2; i++) {
        missing += number[i] == 0;
        least = number[i] < least ? number[i] : least;
    }
    printf("each kind with each PP, pixel size and T drew in at least %llu calls\n",
           (unsigned long long)least);
    return missing;
}

/* Below this many calls not everything need occur. */
#define ENOUGH 100000

void compare_drawings(uint64_t count)
{
    bool enough = count >= ENOUGH;
    compare_timings();
    compare_corners();
    count += calls;
    figure_edges();
    shape_edges();
    large_edges();
    while (calls < count) {
        if (one_in(16))
            compare_slices();
        else
            random_drawings();
    }
    int missing = print_answers();
    missing += print_features();
    missing += print_combinations();
    missing += print_corners();
    missing += print_slices();
    missing += print_timings();
    if (missing > 0 && enough) {
        printf("compare: %d of these never occurred\n", missing);
        stop();
    }
}

/* Demand 3 in runs: two accepted drawings whose bits do not meet, cut into slices in any
   alternation, with refused calls between, against each whole drawing after the other, in both
   orders. Memory, V, request and registers are compared, and each call on the way is. */
#include "compare_drawings.h"

#include <string.h>

/* Words of the memory, and of what is held behind it. */
#define MOST 200
#define HELD (MOST + 8)

/* One of the two drawings: its whole call, what is held of its last accepted call, and its bits. */
struct job {
    struct draw_case whole;
    struct draw_result held;
    uint8_t written[16 * MOST], read[16 * MOST];
};

static struct job job[2];

/* The memory before the first call. */
static uint16_t start[HELD];

/* The calls so far: of drawing 0 or 1, or a refused one. */
#define REFUSED 2
#define MOST_EVENTS 80

struct event {
    int who;
    struct draw_case call;
};

static struct event event[MOST_EVENTS];
static int events;

/* What was compared: pairs by the way they were chosen, and some of them. */
enum way { APART, PLANES, ANY, WAYS };

static const char *const way_name[WAYS] = { "in separate parts of the memory",
                                            "over one array, with complementary plane masks",
                                            "anywhere" };

static uint64_t pairs[WAYS];
static uint64_t both_visit, both_change, share_words, slices, refusals, early_stops;
static uint64_t one_turned, both_turned, other_corners;

/* ---- Reporting ---- */

static void print_events(void)
{
    for (int i = 0; i < events; i++) {
        const struct draw_case *c = &event[i].call;
        if (event[i].who == REFUSED) {
            printf(" a refused call:\n");
            print_draw_case(c);
        } else {
            printf(" a slice of drawing %d: place %llu, V %lu, budget %llu\n", event[i].who,
                   (unsigned long long)c->place, (unsigned long)c->v,
                   (unsigned long long)c->budget);
        }
    }
}

static void stop_pair(const char *what, const struct twin *m)
{
    printf("demand 3: %s\n", what);
    for (int i = 0; i < 2; i++) {
        printf(" drawing %d:\n", i);
        print_draw_case(&job[i].whole);
        print_result("its last accepted call", &job[i].held);
    }
    print_words("memory before the first call", start, m->words);
    print_events();
    print_words("memory now", m->mine, m->words);
    stop();
}

/* ---- Two drawings whose bits do not meet ---- */

/* A call without a budget changes nothing. */
static bool is_accepted(struct draw_case c)
{
    uint16_t word[HELD] = { 0 };
    struct memory m = { word, c.words };
    struct settings s = settings_of(c.number);
    return draw(m, (enum operation)c.operation, &s, c.place, c.v != 0, 0).answer <= STOPPED;
}

static bool bits_meet(uint64_t words)
{
    for (uint64_t i = 0; i < 16 * words; i++) {
        if (job[0].written[i] && (job[1].written[i] || job[1].read[i]))
            return true;
        if (job[1].written[i] && job[0].read[i])
            return true;
    }
    return false;
}

/* The model writes ones into a memory of zeros exactly where the drawing may write. */
static void check_written(const struct job *j, const struct twin *m)
{
    uint16_t word[HELD] = { 0 };
    struct memory zeros = { word, j->whole.words };
    struct settings s = settings_of(j->whole.number);
    s.CONTROL = (uint16_t)((s.CONTROL & 0x3C0) | 12 << 10);
    draw(zeros, (enum operation)j->whole.operation, &s, 0, 0, UINT64_MAX);
    for (uint64_t i = 0; i < 16 * j->whole.words; i++) {
        if (bit_get(zeros, i) != j->written[i])
            stop_pair("the footprint isn't what the model writes", m);
    }
}

/* A bit that the drawing neither writes nor reads makes no difference but its own. */
static void check_read(const struct job *j, const struct twin *m)
{
    uint16_t word[HELD], other[HELD];
    struct memory a = { word, j->whole.words }, b = { other, j->whole.words };
    struct settings s = settings_of(j->whole.number);
    uint32_t bit = random_below(16 * (uint32_t)j->whole.words);
    if (j->written[bit] || j->read[bit])
        return;
    memcpy(word, start, sizeof word);
    memcpy(other, start, sizeof other);
    bit_put(b, bit, 1 - bit_get(b, bit));
    draw(a, (enum operation)j->whole.operation, &s, 0, 0, UINT64_MAX);
    draw(b, (enum operation)j->whole.operation, &s, 0, 0, UINT64_MAX);
    bit_put(b, bit, 1 - bit_get(b, bit));
    if (memcmp(word, other, sizeof word) != 0)
        stop_pair("the model reads more than the footprint", m);
}

static void find_bits(struct job *j)
{
    struct footprint f = { j->written, j->read };
    memset(j->written, 0, sizeof j->written);
    memset(j->read, 0, sizeof j->read);
    find_footprint(&j->whole, &f);
}

/* Drawings in the memory's first and second part. */
static void choose_apart(uint64_t words)
{
    uint64_t first = 1 + random_below((uint32_t)words - 1);
    job[0].whole = random_drawing(first);
    job[1].whole = random_drawing(words - first);
    move_drawing(&job[1].whole, first);
}

/* The same array twice, from any corner, each drawing with the planes that the other masks. */
static void choose_planes(uint64_t words)
{
    job[0].whole = random_drawing(words);
    job[0].whole.number[AT_PMASK] = random32() & 0xFFFF;
    job[1].whole = job[0].whole;
    job[1].whole.number[AT_PMASK] ^= 0xFFFF;
    job[1].whole.number[AT_COLOR1] = random32();
    job[1].whole.number[AT_CONTROL] ^= random32() & 0x20;
    job[1].whole.v = random_below(2);
    uint32_t pp = random_below(22);
    job[1].whole.number[AT_CONTROL] = (job[1].whole.number[AT_CONTROL] & 0x83FF) | pp << 10;
    turn_drawing(&job[1].whole, random_below(CORNERS));
}

static void choose_any(uint64_t words)
{
    job[0].whole = random_drawing(words);
    job[1].whole = random_drawing(words);
}

/* Tries until both are accepted and their bits do not meet. */
static bool choose_pair(enum way way, uint64_t words)
{
    for (int i = 0; i < 40; i++) {
        switch (way) {
        case APART: choose_apart(words); break;
        case PLANES: choose_planes(words); break;
        default: choose_any(words); break;
        }
        job[0].whole.words = words;
        job[1].whole.words = words;
        if (!is_accepted(job[0].whole) || !is_accepted(job[1].whole))
            continue;
        find_bits(&job[0]);
        find_bits(&job[1]);
        if (!bits_meet(words))
            return true;
    }
    return false;
}

/* ---- The list of calls ---- */

/* Before any call: place 0, the first V, no request, the registers as given, not done. */
static struct draw_result held_first(const struct draw_case *c)
{
    struct draw_result r = { STOPPED,
                             { 0, 0, c->v != 0, 0, c->number[AT_SADDR], c->number[AT_DADDR],
                               c->number[AT_DYDX] } };
    return r;
}

static struct draw_result run_event(int who, const struct draw_case *c, struct twin *m)
{
    event[events].who = who;
    event[events].call = *c;
    events++;
    return compare_draw(c, m);
}

/* A slice goes on at the place and with the V that are held. */
static void run_slice(int who, bool to_the_end, struct twin *m)
{
    struct job *j = &job[who];
    struct draw_case c = j->whole;
    c.place = j->held.out[OUT_PLACE];
    c.v = (uint32_t)j->held.out[OUT_V];
    c.budget = to_the_end ? UINT64_MAX : random_budget(pixels_of(&c) - c.place);
    struct draw_result r = run_event(who, &c, m);
    if (r.answer > STOPPED)
        stop_pair("a slice of an accepted drawing is refused", m);
    j->held = r;
    slices++;
}

/* Any refused call: one of the two, or another drawing, with something wrong. */
static void run_refused(struct twin *m)
{
    struct draw_case c = job[random_below(2)].whole;
    if (one_in(4))
        c = random_drawing(m->words);
    c.budget = random_budget(8);
    spoil(&c, m->held);
    bool is_short = c.operation >= OPERATIONS || settings_are_bad(c.number, c.count)
                    || c.length < BH_DRAW_RESULTS;
    if (!is_short && (pixels_of(&c) > TAME_PIXELS || is_accepted(c)))
        return;
    run_event(REFUSED, &c, m);
    refusals++;
}

/* Stopped here, the memory has in a drawing's bits what the drawing alone has at its place. */
static void check_stopped(const struct job *j, const struct twin *m)
{
    uint16_t word[HELD];
    uint64_t out[BH_DRAW_RESULTS];
    const struct draw_case *c = &j->whole;
    struct memory alone = { word, c->words }, now = { m->mine, c->words };
    memcpy(word, start, sizeof word);
    calls++;
    bh_draw(word, c->words, c->operation, c->number, c->count, 0, c->v, j->held.out[OUT_PLACE], out,
            BH_DRAW_RESULTS);
    for (uint64_t i = 0; i < 16 * c->words; i++) {
        if (j->written[i] && bit_get(alone, i) != bit_get(now, i))
            stop_pair("stopped, a drawing's bits aren't those of the drawing alone", m);
    }
    early_stops++;
}

/* Slices and refused calls until both are done; at times some more. */
static void run_list(struct twin *m)
{
    events = 0;
    job[0].held = held_first(&job[0].whole);
    job[1].held = held_first(&job[1].whole);
    while (job[0].held.answer != DONE || job[1].held.answer != DONE || one_in(3)) {
        if (events >= MOST_EVENTS - 2)
            break;
        if (one_in(4))
            run_refused(m);
        else
            run_slice((int)random_below(2), events > MOST_EVENTS / 2, m);
        if (one_in(16))
            check_stopped(&job[random_below(2)], m);
    }
}

/* ---- The same as whole drawings, one after the other ---- */

static bool same_held(const struct draw_result *a, const struct draw_result *b)
{
    for (int i = 0; i < BH_DRAW_RESULTS; i++) {
        if (i != OUT_VISITED && a->out[i] != b->out[i])
            return false;
    }
    return a->answer == b->answer;
}

static void compare_order(int first, const uint16_t *ended, struct twin *m)
{
    struct draw_result r[2];
    memcpy(m->mine, start, m->held * sizeof *m->mine);
    memcpy(m->theirs, start, m->held * sizeof *m->theirs);
    memcpy(m->before, start, m->held * sizeof *m->before);
    for (int i = 0; i < 2; i++) {
        int who = i == 0 ? first : 1 - first;
        struct draw_case c = job[who].whole;
        c.budget = one_in(2) ? UINT64_MAX : pixels_of(&c) + random_below(2);
        r[who] = compare_draw(&c, m);
    }
    if (memcmp(m->mine, ended, m->held * sizeof *m->mine) != 0)
        stop_pair("whole drawings leave another memory than the slices", m);
    if (!same_held(&r[0], &job[0].held) || !same_held(&r[1], &job[1].held)) {
        print_result("drawing 0 whole", &r[0]);
        print_result("drawing 1 whole", &r[1]);
        stop_pair("whole drawings hand back something else than the slices", m);
    }
}

static bool writes(const struct job *j)
{
    return memchr(j->written, 1, sizeof j->written) != NULL;
}

/* Is there a word in which both write? */
static bool shares_word(uint64_t words)
{
    for (uint64_t i = 0; i < words; i++) {
        if (memchr(job[0].written + 16 * i, 1, 16) != NULL
            && memchr(job[1].written + 16 * i, 1, 16) != NULL)
            return true;
    }
    return false;
}

static void count_corners(const struct draw_case *a, const struct draw_case *b)
{
    bool pixels = copies_pixels(a->operation) && copies_pixels(b->operation);
    one_turned += is_turned(a) != is_turned(b);
    both_turned += is_turned(a) && is_turned(b);
    other_corners += pixels && corner_of(a) != corner_of(b);
    count_corner_in_pair(a);
    count_corner_in_pair(b);
}

static void count_pair(enum way way, uint64_t words)
{
    bool visit = pixels_of(&job[0].whole) > 0 && pixels_of(&job[1].whole) > 0;
    pairs[way]++;
    both_visit += visit;
    if (visit)
        count_corners(&job[0].whole, &job[1].whole);
    both_change += writes(&job[0]) && writes(&job[1]);
    share_words += shares_word(words);
}

void compare_slices(void)
{
    uint16_t ended[HELD];
    enum way way = (enum way)random_below(WAYS);
    uint64_t words = 2 + random_below(one_in(4) ? MOST - 1 : 40);
    struct twin m = new_memory(words);
    if (!choose_pair(way, words))
        return;
    memcpy(start, m.before, m.held * sizeof *start);
    if (one_in(4)) {
        check_written(&job[0], &m);
        check_written(&job[1], &m);
        check_read(&job[0], &m);
        check_read(&job[1], &m);
    }
    run_list(&m);
    if (job[0].held.answer != DONE || job[1].held.answer != DONE)
        return;
    memcpy(ended, m.mine, m.held * sizeof *ended);
    compare_order(0, ended, &m);
    compare_order(1, ended, &m);
    count_pair(way, words);
}

int print_slices(void)
{
    int missing = both_change == 0 || share_words == 0 || refusals == 0 || early_stops == 0
                  || one_turned == 0 || both_turned == 0 || other_corners == 0;
    printf("pairs of drawings in slices, held against whole ones in both orders\n");
    for (int i = 0; i < WAYS; i++) {
        printf("%10llu  %s\n", (unsigned long long)pairs[i], way_name[i]);
        missing += pairs[i] == 0;
    }
    printf("%10llu  of them both visit pixels, %llu both may write, %llu in one word\n",
           (unsigned long long)both_visit, (unsigned long long)both_change,
           (unsigned long long)share_words);
    printf("%10llu  of these have one turned drawing, %llu two; %llu two different corners\n",
           (unsigned long long)one_turned, (unsigned long long)both_turned,
           (unsigned long long)other_corners);
    printf("%10llu  slices, %llu refused calls between, %llu times stopped on the way\n",
           (unsigned long long)slices, (unsigned long long)refusals,
           (unsigned long long)early_stops);
    return missing;
}

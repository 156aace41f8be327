/* What the compared plans and their points were. */
#include "compare_plans.h"

#include <stdio.h>

#define PLAN_ANSWERS 24
#define POINT_ANSWERS 18

static uint64_t plans_by_answer[PLAN_ANSWERS];

/* By drawing: plans, and points by answer. */
static uint64_t plans_of[OPERATIONS];
static uint64_t points_by_answer[OPERATIONS][POINT_ANSWERS];

/* Points that visited a pixel, that changed a bit, and with V as 1. */
static uint64_t drew[OPERATIONS], changed[OPERATIONS], v_set[OPERATIONS];

/* Points that drew, by PP and pixel size (1, 2, 4, 8, 16). */
static uint64_t drawn_with[22][5];

/* Points that drew, by drawing and corner; of a PIXBLT of pixels more than one row and column. */
static uint64_t drawn_from[OPERATIONS][CORNERS];

enum feature {
    NO_AXIS,
    ALL_AXES,
    ALL_VALUES,
    MANY_POINTS,
    LONGEST_TEXT,
    LONGER_TEXT,
    FAR_LINE,
    FIRST_LINE,
    LARGE_MEMORY,
    ONE_WORD,
    WIDE_NUMBER,
    WIDE_SEED,
    WINDOW_1,
    WINDOW_2,
    WINDOW_3,
    CLIPPED,
    BEFORE_WINDOW,
    SOME_MASK,
    TRANSPARENT,
    FALLING_DESTINATION,
    FALLING_SOURCE,
    OVERLAP,
    EMPTY_ARRAY,
    TIMED,
    TIMED_UNCACHED,
    FEATURES
};

static const char *const feature_name[FEATURES] = {
    "accepted plans without an axis",
    "accepted plans of 8 axes",
    "accepted plans with 64 values on an axis",
    "accepted plans of 2^32 points or more",
    "accepted plans of 65,536 bytes",
    "refused plans of 65,537 bytes",
    "plans refused at a line above 1,000",
    "plans refused at line 1",
    "accepted plans with a memory of 32,768 words",
    "points that drew in a memory of 1 word",
    "points with a number of 2^32 or more",
    "points that drew over the image of a seed of 2^32 or more",
    "points where W=1 found the rectangles to meet",
    "points where W=2 let the array through",
    "points where W=3 let the array through",
    "points where W=3 clipped the array",
    "points that drew an array which starts below 0 in X or Y",
    "points that drew under a plane mask",
    "points that drew with transparency",
    "points that drew with a destination pitch from 2^31 on, more than one row",
    "points that drew with a source pitch from 2^31 on, more than one row",
    "points that drew over source bits",
    "points with an empty array",
    "points with machine states",
    "points with machine states, CD=1",
};

static uint64_t had[FEATURES];

static void note(enum feature feature, bool there)
{
    had[feature] += there;
}

/* ---- Plans ---- */

void note_plan(const struct plan_text *t, const struct plan *p, uint64_t points)
{
    plans_by_answer[p->answer]++;
    if (p->answer != DONE) {
        note(LONGER_TEXT, t->length == MOST_TEXT + 1);
        note(FAR_LINE, p->line > 1000);
        note(FIRST_LINE, p->line == 1);
        return;
    }
    plans_of[p->op]++;
    note(NO_AXIS, p->axes == 0);
    note(ALL_AXES, p->axes == MOST_AXES);
    note(MANY_POINTS, points >> 32 > 0);
    note(LONGEST_TEXT, t->length == MOST_TEXT);
    note(LARGE_MEMORY, p->words == 32768);
    bool full = false;
    for (int i = 0; i < p->axes; i++)
        full = full || p->axis[i].length == MOST_VALUES;
    note(ALL_VALUES, full);
}

/* ---- Points ---- */

/* The drawing of a point, as the comparison of drawings has it. */
static struct draw_case case_of(const struct plan *p, const struct settings *s)
{
    struct draw_case c = { .operation = (uint32_t)p->op, .count = BH_SETTINGS, .words = p->words };
    const uint32_t number[BH_SETTINGS] = { s->SADDR,  s->SPTCH,  s->DADDR,   s->DPTCH, s->OFFSET,
                                           s->WSTART, s->WEND,   s->DYDX,    s->COLOR0, s->COLOR1,
                                           s->CONTROL, s->PSIZE, s->PMASK };
    for (int i = 0; i < BH_SETTINGS; i++)
        c.number[i] = number[i];
    return c;
}

static void note_corner(const struct draw_case *c)
{
    struct rectangle drawn = drawn_part(c);
    if (!copies_pixels(c->operation) || (drawn.columns > 1 && drawn.rows > 1))
        drawn_from[c->operation][corner_of(c)]++;
}

static void note_drawing(const struct plan *p, const struct point_answer *point)
{
    const struct settings *s = &point->settings;
    struct draw_case c = case_of(p, s);
    bool rows = s->DYDX >> 16 > 1, copies = !(p->op == FILL_L || p->op == FILL_XY);
    drawn_with[control_pp(s)][size_index(s->PSIZE)]++;
    note_corner(&c);
    note(ONE_WORD, p->words == 1);
    note(WIDE_SEED, point->seed >> 32 > 0);
    note(SOME_MASK, s->PMASK != 0);
    note(TRANSPARENT, control_t(s) == 1);
    note(FALLING_DESTINATION, rows && s->DPTCH >= 0x80000000u);
    note(FALLING_SOURCE, rows && copies && s->SPTCH >= 0x80000000u);
    note(OVERLAP, copies && overlaps(&c));
    note(BEFORE_WINDOW, draws_to_xy(c.operation) && (x_half(s->DADDR) < 0 || y_half(s->DADDR) < 0));
}

bool note_line(const struct plan *p, const char *line)
{
    unsigned long long number, visited, bits, states;
    unsigned answer, v;
    bool fills = p->op == FILL_L || p->op == FILL_XY;
    if (sscanf(line, "%llu\t%u\t%llu\t%u\t%llu\t%llu", &number, &answer, &visited, &v, &bits,
               &states) != 6
        || answer >= POINT_ANSWERS || (states > 0) != (fills && visited > 0))
        return false;
    struct point_answer point = plan_point(p, number);
    const struct settings *s = &point.settings;
    bool to_xy = draws_to_xy((uint32_t)p->op), accepted = answer == DONE;
    uint32_t w = control_w(s);
    points_by_answer[p->op][answer]++;
    drew[p->op] += visited > 0;
    changed[p->op] += bits > 0;
    v_set[p->op] += v;
    note(WIDE_NUMBER, number >> 32 > 0);
    note(EMPTY_ARRAY, accepted && ((s->DYDX & 0xFFFF) == 0 || s->DYDX >> 16 == 0));
    note(WINDOW_1, accepted && to_xy && w == 1 && v == 1);
    note(WINDOW_2, visited > 0 && to_xy && w == 2);
    note(WINDOW_3, visited > 0 && to_xy && w == 3 && v == 0);
    note(CLIPPED, visited > 0 && to_xy && w == 3 && v == 1);
    note(TIMED, states > 0);
    note(TIMED_UNCACHED, states > 0 && control_cd(s) == 1);
    if (visited > 0)
        note_drawing(p, &point);
    return true;
}

/* ---- Printing ---- */

int print_plan_answers(void)
{
    static const int answer[5] = { DONE, REFUSED_FORM, REFUSED_NAME, REFUSED_VALUE, REFUSED_MANY };
    int missing = 0;
    printf("plans:");
    for (int i = 0; i < 5; i++) {
        printf("%s %llu answered %d", i > 0 ? "," : "",
               (unsigned long long)plans_by_answer[answer[i]], answer[i]);
        missing += plans_by_answer[answer[i]] == 0;
    }
    printf("\n");
    return missing;
}

/* The number of answers that no point had; 14 is for XY destinations. */
static int print_point_answers(void)
{
    static const int answer[7] = { 0, 11, 12, 13, 14, 16, 17 };
    int missing = 0;
    printf("%-13s %7s", "points", "plans");
    for (int i = 0; i < 7; i++)
        printf(" %8d", answer[i]);
    printf(" %8s %8s %8s\n", "drew", "changed", "V=1");
    for (uint32_t op = 0; op < OPERATIONS; op++) {
        printf("%-13s %7llu", operation_name[op], (unsigned long long)plans_of[op]);
        for (int i = 0; i < 7; i++) {
            uint64_t count = points_by_answer[op][answer[i]];
            printf(" %8llu", (unsigned long long)count);
            missing += count == 0 && (answer[i] != REFUSED_WINDOW || draws_to_xy(op));
        }
        printf(" %8llu %8llu %8llu\n", (unsigned long long)drew[op],
               (unsigned long long)changed[op], (unsigned long long)v_set[op]);
    }
    return missing;
}

/* The number of combinations of PP and pixel size that never drew. */
static int print_combinations(void)
{
    int missing = 0;
    uint64_t least = UINT64_MAX;
    for (int i = 0; i < 22 * 5; i++) {
        uint64_t count = drawn_with[i / 5][i % 5];
        missing += count == 0;
        least = count < least ? count : least;
    }
    printf("each PP with each pixel size drew at %llu points at least\n",
           (unsigned long long)least);
    return missing;
}

/* The number of drawings and corners that no point had. */
static int print_plan_corners(void)
{
    int missing = 0;
    printf("%-13s %8s %8s %8s %8s\n", "points drew", "neither", "PBH", "PBV", "both");
    for (uint32_t op = 0; op < OPERATIONS; op++) {
        printf("%-13s", operation_name[op]);
        for (int corner = 0; corner < CORNERS; corner++) {
            printf(" %8llu", (unsigned long long)drawn_from[op][corner]);
            missing += drawn_from[op][corner] == 0;
        }
        printf("\n");
    }
    return missing;
}

int print_plan_features(void)
{
    int missing = print_point_answers() + print_plan_corners() + print_combinations();
    for (int i = 0; i < FEATURES; i++) {
        printf("%10llu  %s\n", (unsigned long long)had[i], feature_name[i]);
        missing += had[i] == 0;
    }
    return missing;
}

/* A fuzz target: bytes are the text of a plan. The library's reading of it is compared with the
   model's; of an accepted plan the experiments of some points, and where it has few points also its
   listing, whole and in two parts, byte for byte, and the memory that is left. */
#define _POSIX_C_SOURCE 200809L

#include "fuzz.h"

#include <stdlib.h>
#include <string.h>

/* Plans with more points or more work for the model are read, but not run. One point over the
   largest memory is. */
#define MOST_POINTS 16
#define MOST_STEPS 589824

#define PLAN_WORDS 32768
#define HEADING 64
#define MOST_LISTING (HEADING + BH_LINE * MOST_POINTS)

/* The plan that is compared. */
static struct plan model;
static uint64_t points;

/* The arrays lent to the library. */
static struct room text_room, table_room, out_room, lines_room, image_room, memory_room;

static void make_rooms(void)
{
    make_room(&text_room, MOST_TEXT + 64);
    make_room(&table_room, BH_TABLE * sizeof(uint64_t));
    make_room(&out_room, BH_NAMES * sizeof(uint64_t));
    make_room(&lines_room, MOST_LISTING);
    make_room(&image_room, PLAN_WORDS * sizeof(uint16_t));
    make_room(&memory_room, PLAN_WORDS * sizeof(uint16_t));
}

/* ---- Numbers ---- */

static void compare_answer(const char *call, uint32_t mine, uint32_t expected)
{
    if (mine != expected)
        differs("%s: answer: library %lu, model %lu", call, (unsigned long)mine,
                (unsigned long)expected);
}

static void compare_numbers(const char *what, const uint64_t *mine, const uint64_t *expected,
                            size_t count)
{
    for (size_t i = 0; i < count; i++) {
        if (mine[i] != expected[i])
            differs("%s: number %lu: library %llu, model %llu", what, (unsigned long)i,
                    (unsigned long long)mine[i], (unsigned long long)expected[i]);
    }
}

/* ---- Reading ---- */

/* The axes that the model read, as a table, and guards behind them: of each its name, its length
   and its values. Gives how many elements the axes take. */
static size_t model_table(uint64_t number[BH_TABLE])
{
    size_t at = 0;
    for (int i = 0; i < model.axes; i++) {
        const struct axis *a = &model.axis[i];
        number[at++] = (uint64_t)a->name;
        number[at++] = (uint64_t)a->length;
        for (int k = 0; k < a->length; k++)
            number[at++] = a->value[k];
    }
    for (size_t i = at; i < BH_TABLE; i++)
        number[i] = GUARD_LONG;
    return at;
}

/* A refused plan has 0 for all results but the line, and leaves the table as lent. */
static void compare_reading(const uint8_t *data, size_t size)
{
    uint64_t expected_table[BH_TABLE];
    uint64_t expected[BH_PLAN_RESULTS] = { model.line, 0, 0, 0, 0 };
    for (size_t i = 0; i < BH_TABLE; i++)
        expected_table[i] = GUARD_LONG;
    if (model.answer == DONE) {
        model_table(expected_table);
        expected[1] = model.words;
        expected[2] = (uint64_t)model.op;
        expected[3] = (uint64_t)model.axes;
        expected[4] = points;
    }
    unsigned char *text = lend(&text_room, size);
    uint64_t *table = lend(&table_room, sizeof expected_table);
    uint64_t *out = lend(&out_room, sizeof expected);
    if (size > 0)
        memcpy(text, data, size);
    uint32_t mine = bh_plan_read(text, size, table, BH_TABLE, out, BH_PLAN_RESULTS);
    compare_answer("bh_plan_read", mine, (uint32_t)model.answer);
    compare_numbers("bh_plan_read: results", out, expected, BH_PLAN_RESULTS);
    compare_numbers("bh_plan_read: table", table, expected_table, BH_TABLE);
    if (size > 0 && memcmp(text, data, size) != 0)
        differs("bh_plan_read: the text has changed");
    check_front(&text_room, size, "the text");
    check_front(&table_room, sizeof expected_table, "the table");
    check_front(&out_room, sizeof expected, "the results");
}

/* ---- Points ---- */

/* A table of no more than the plan's axes, `less` elements shorter; gives its length. */
static uint64_t *lend_table(size_t less, size_t *length)
{
    uint64_t number[BH_TABLE];
    *length = model_table(number) - less;
    uint64_t *table = lend(&table_room, *length * sizeof *table);
    memcpy(table, number, *length * sizeof *table);
    return table;
}

static void model_values(const struct point_answer *p, uint64_t value[BH_NAMES])
{
    const struct settings *s = &p->settings;
    const uint64_t number[BH_NAMES] = { s->SADDR,  s->SPTCH,  s->DADDR,   s->DPTCH, s->OFFSET,
                                        s->WSTART, s->WEND,   s->DYDX,    s->COLOR0, s->COLOR1,
                                        s->CONTROL, s->PSIZE, s->PMASK,   p->seed };
    for (int i = 0; i < BH_NAMES; i++)
        value[i] = p->answer == DONE ? number[i] : GUARD_LONG;
}

static void compare_point(uint64_t number)
{
    struct point_answer p = plan_point(&model, number);
    uint64_t expected[BH_NAMES];
    size_t length;
    uint64_t *table = lend_table(0, &length);
    uint64_t *out = lend(&out_room, sizeof expected);
    model_values(&p, expected);
    uint32_t mine =
        bh_experiment(table, length, (uint64_t)model.axes, number, out, BH_NAMES);
    compare_answer("bh_experiment", mine, (uint32_t)p.answer);
    compare_numbers("bh_experiment", out, expected, BH_NAMES);
    check_front(&out_room, sizeof expected, "the experiment");
}

/* A table that doesn't hold the axes is refused. */
static void compare_cut_table(void)
{
    size_t length;
    if (model.axes == 0)
        return;
    uint64_t *table = lend_table(1, &length);
    uint64_t *out = lend(&out_room, BH_NAMES * sizeof *out);
    uint32_t mine = bh_experiment(table, length, (uint64_t)model.axes, 0, out, BH_NAMES);
    compare_answer("bh_experiment over a cut table", mine, BH_NO_POINT);
}

static void compare_points(void)
{
    for (uint64_t i = 0; i < points && i < MOST_POINTS; i++)
        compare_point(i);
    compare_point(points / 2);
    compare_point(points - 1);
    compare_point(points);
    compare_point(points + 4294967296);
    compare_point(UINT64_MAX);
    compare_cut_table();
}

/* ---- Listings ---- */

/* Both listings. */
static unsigned char mine[MOST_LISTING];
static unsigned char *expected;
static size_t expected_length;

static void make_expected(const uint8_t *data, size_t size)
{
    FILE *file = open_memstream((char **)&expected, &expected_length);
    if (file == NULL)
        exit(2);
    plan_listing(data, size, file);
    fclose(file);
}

static void compare_listing(const char *what, size_t length)
{
    if (length != expected_length)
        differs("%s: bytes: library %lu, model %lu", what, (unsigned long)length,
                (unsigned long)expected_length);
    for (size_t i = 0; i < length; i++) {
        if (mine[i] != expected[i])
            differs("%s: byte %lu: library %d, model %d", what, (unsigned long)i, mine[i],
                    expected[i]);
    }
}

/* The line of a refused plan or the heading, into exactly so many bytes. */
static size_t put_first_line(unsigned char *out, size_t length)
{
    if (model.answer == DONE)
        return bh_put_heading(out, length, 0);
    return bh_put_refused(out, length, 0, (uint64_t)model.answer, model.line);
}

/* The first line's bytes; room for one less must be too little. */
static size_t first_line(void)
{
    size_t length = put_first_line(lend(&lines_room, HEADING), HEADING);
    if (length == 0 || length > HEADING)
        differs("the first line: %lu bytes", (unsigned long)length);
    if (put_first_line(lend(&lines_room, length - 1), length - 1) != 0)
        differs("the first line fits into less than its bytes");
    unsigned char *out = lend(&lines_room, length);
    if (put_first_line(out, length) != length)
        differs("the first line doesn't fit into its bytes");
    check_front(&lines_room, length, "the first line");
    memcpy(mine, out, length);
    return length;
}

/* The image and the memory that a point leaves. */
static void compare_memory(uint64_t number, const uint16_t *image, const uint16_t *memory)
{
    static uint16_t image_word[PLAN_WORDS], memory_word[PLAN_WORDS];
    struct memory a = { image_word, model.words }, b = { memory_word, model.words };
    struct point_answer p = plan_point(&model, number);
    size_t bytes = (size_t)model.words * sizeof *image;
    image_make(a, p.seed);
    memcpy(memory_word, image_word, bytes);
    draw(b, model.op, &p.settings, 0, 0, UINT64_MAX);
    if (memcmp(image, image_word, bytes) != 0)
        differs("bh_lines: the image of point %llu", (unsigned long long)number);
    if (memcmp(memory, memory_word, bytes) != 0)
        differs("bh_lines: the memory of point %llu", (unsigned long long)number);
    check_front(&image_room, bytes, "the image");
    check_front(&memory_room, bytes, "the memory");
}

/* Nothing is written beside the lines. */
static void check_rest(const unsigned char *out, size_t from, size_t length)
{
    for (size_t i = from; i < length; i++) {
        if (out[i] != GUARD_BYTE)
            differs("bh_lines: byte %lu behind the lines has changed", (unsigned long)(i - from));
    }
    check_front(&lines_room, length, "the lines");
}

/* The lines of some points, put behind the listing's first `at` bytes; gives how many there are
   then. */
static size_t append_lines(size_t at, uint64_t first, uint64_t count, uint32_t answer)
{
    size_t words = (size_t)model.words, room = BH_LINE * (size_t)count, length;
    uint64_t *table = lend_table(0, &length);
    uint16_t *image = lend(&image_room, words * sizeof *image);
    uint16_t *memory = lend(&memory_room, words * sizeof *memory);
    unsigned char *out = lend(&lines_room, room);
    uint64_t *written = lend(&out_room, sizeof *written);
    uint32_t given = bh_lines(table, length, (uint64_t)model.axes, (uint64_t)model.op, first, count,
                              image, words, memory, words, out, room, written, 1);
    compare_answer("bh_lines", given, answer);
    if (*written > room || (answer != DONE && *written != 0))
        differs("bh_lines: bytes: library %llu", (unsigned long long)*written);
    check_front(&out_room, sizeof *written, "the number of bytes");
    check_rest(out, (size_t)*written, room);
    if (answer == DONE && count > 0)
        compare_memory(first + count - 1, image, memory);
    memcpy(mine + at, out, (size_t)*written);
    return at + (size_t)*written;
}

static bool is_dear(void)
{
    uint64_t steps = 0;
    if (points > MOST_POINTS)
        return true;
    for (uint64_t i = 0; i < points && steps <= MOST_STEPS; i++) {
        struct point_answer p = plan_point(&model, i);
        steps += 16 * model.words + steps_of(model.words, model.op, &p.settings);
    }
    return steps > MOST_STEPS;
}

static void compare_lines(size_t cut_by)
{
    size_t heading = first_line();
    compare_listing("the listing", append_lines(heading, 0, points, DONE));
    uint64_t cut = cut_by % (points + 1);
    size_t at = append_lines(heading, 0, cut, DONE);
    compare_listing("the listing in parts", append_lines(at, cut, points - cut, DONE));
    append_lines(heading, points, 1, BH_NO_POINT);
    append_lines(heading, points + 1, 0, DONE);
    if (points < MOST_POINTS)
        append_lines(heading, 0, points + 1, BH_NO_POINT);
}

/* ---- The target ---- */

int LLVMFuzzerTestOneInput(const uint8_t *data, size_t size)
{
    if (size > MOST_TEXT + 64)
        return 0;
    make_rooms();
    plan_read(&model, data, size);
    points = plan_count(&model);
    note_answer("plan", (uint32_t)model.answer);
    compare_reading(data, size);
    if (model.answer == DONE)
        compare_points();
    if (model.answer == DONE && is_dear())
        return 0;
    make_expected(data, size);
    if (model.answer == DONE)
        compare_lines(size);
    else
        compare_listing("the listing", first_line());
    free(expected);
    return 0;
}

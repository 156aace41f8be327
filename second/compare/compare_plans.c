/* Compares plans: their reading, their points and their listings, through the C interface and by
   the model. A plan's listing is compared byte for byte with the model's; the library makes it in
   batches of any size. A plan of very many points is compared at some of them. */
#define _POSIX_C_SOURCE 200809L

#include "compare_plans.h"

#include <stdlib.h>
#include <string.h>

/* The plan that is compared. */
static struct plan_text text;
static struct plan model;
static uint64_t points;

/* Calls of bh_lines and bh_experiment by answer. */
static uint64_t lines_by_answer[25];
static uint64_t experiments_by_answer[25];

/* Tables that were tried by themselves: those that hold axes, those that don't, those that don't
   for a value too large for its name; and runs that ask for no point. */
static uint64_t tables_held, tables_not_held, tables_too_large, runs_of_none;

/* ---- Reporting ---- */

/* A byte as printf '%b' takes it. */
static void print_byte(unsigned char byte)
{
    if (byte == 9)
        printf("\\t");
    else if (byte == '\\' || byte == '\'' || byte < 32 || byte > 126)
        printf("\\0%03o", byte);
    else
        putchar(byte);
}

/* The plan's text, a line for a line, as arguments of printf '%b'. */
static void differs(const char *what)
{
    print_case(what);
    printf("  the plan has %lu bytes; this writes it:\nprintf '%%b'", (unsigned long)text.length);
    for (size_t i = 0; i < text.length; i++) {
        if (i == 0 || text.byte[i - 1] == 10)
            printf(" \\\n'");
        if (text.byte[i] == 10)
            printf("\\n'");
        else
            print_byte(text.byte[i]);
    }
    if (text.length > 0 && text.byte[text.length - 1] != 10)
        putchar('\'');
    putchar('\n');
}

static void print_long(const char *name, const uint64_t *number, size_t count)
{
    printf("  %s:", name);
    for (size_t i = 0; i < count; i++)
        printf(" %llu", (unsigned long long)number[i]);
    printf("\n");
}

/* ---- Lent arrays ---- */

#define BEHIND 8

static void guard_long(uint64_t *number, size_t count)
{
    for (size_t i = 0; i < count; i++)
        number[i] = GUARD;
}

static bool same_long(const uint64_t *a, const uint64_t *b, size_t count)
{
    return memcmp(a, b, count * sizeof *a) == 0;
}

/* ---- Reading ---- */

#define TABLES (BH_TABLE + BEHIND)
#define READ_OUTS (BH_PLAN_RESULTS + BEHIND)

static uint64_t table[TABLES];

/* The axes that the model read, as a table: of each its name, its length and its values. */
static void model_table(uint64_t *number)
{
    size_t at = 0;
    guard_long(number, TABLES);
    for (int i = 0; i < model.axes; i++) {
        const struct axis *a = &model.axis[i];
        number[at++] = (uint64_t)a->name;
        number[at++] = (uint64_t)a->length;
        for (int k = 0; k < a->length; k++)
            number[at++] = a->value[k];
    }
}

/* How many elements of the table the axes take. */
static size_t table_used(void)
{
    size_t used = 0;
    for (int i = 0; i < model.axes; i++)
        used += 2 + (size_t)model.axis[i].length;
    return used;
}

/* The length of the table that is lent, where it isn't 0. */
static size_t table_lent;

/* A length of the table with which the axes can be read. */
static size_t random_table(void)
{
    if (table_lent != 0)
        return table_lent;
    return one_in(4) ? table_used() : one_in(4) ? TABLES : BH_TABLE;
}

/* A call of bh_plan_read with arrays of these lengths. */
static void compare_read(size_t table_length, size_t out_length)
{
    uint64_t expected_table[TABLES], out[READ_OUTS], expected[READ_OUTS];
    uint32_t answer = (uint32_t)model.answer;
    guard_long(table, TABLES);
    guard_long(out, READ_OUTS);
    guard_long(expected, READ_OUTS);
    if (table_length < BH_TABLE || out_length < BH_PLAN_RESULTS) {
        answer = BH_BAD_ARGUMENT;
        guard_long(expected_table, TABLES);
    } else {
        bool accepted = model.answer == DONE;
        if (accepted)
            model_table(expected_table);
        else
            guard_long(expected_table, TABLES);
        expected[0] = model.line;
        expected[1] = accepted ? model.words : 0;
        expected[2] = accepted ? (uint64_t)model.op : 0;
        expected[3] = accepted ? (uint64_t)model.axes : 0;
        expected[4] = accepted ? points : 0;
    }
    calls++;
    uint32_t mine = bh_plan_read(text.byte, text.length, table, table_length, out, out_length);
    if (mine == answer && same_long(out, expected, READ_OUTS)
        && same_long(table, expected_table, TABLES))
        return;
    differs("bh_plan_read");
    printf("  table length %lu, out length %lu; library %lu, model %lu\n",
           (unsigned long)table_length, (unsigned long)out_length, (unsigned long)mine,
           (unsigned long)answer);
    print_long("out, library", out, READ_OUTS);
    print_long("out, model", expected, READ_OUTS);
    print_long("table, library", table, TABLES);
    print_long("table, model", expected_table, TABLES);
    stop();
}

/* Arrays that are too short at times, and then ones that are not. */
static void compare_reading(void)
{
    if (one_in(16))
        compare_read(random_below(BH_TABLE), random_below(READ_OUTS + 1));
    if (one_in(16))
        compare_read(random_below(TABLES + 1), random_below(BH_PLAN_RESULTS));
    if (one_in(2))
        compare_read(BH_TABLE, BH_PLAN_RESULTS);
    else
        compare_read(BH_TABLE + random_below(BEHIND + 1),
                     BH_PLAN_RESULTS + random_below(BEHIND + 1));
}

/* ---- Points ---- */

#define VALUES (BH_NAMES + BEHIND)

static void model_values(const struct point_answer *p, uint64_t value[VALUES])
{
    const struct settings *s = &p->settings;
    const uint64_t number[BH_NAMES] = { s->SADDR,  s->SPTCH,  s->DADDR,   s->DPTCH, s->OFFSET,
                                        s->WSTART, s->WEND,   s->DYDX,    s->COLOR0, s->COLOR1,
                                        s->CONTROL, s->PSIZE, s->PMASK,   p->seed };
    guard_long(value, VALUES);
    memcpy(value, number, sizeof number);
}

/* The axes are those that the plan has, or the call says that there are. */
static void compare_point_of(uint64_t axes, uint64_t number, size_t out_length)
{
    uint64_t out[VALUES], expected[VALUES];
    struct point_answer p = plan_point(&model, number);
    uint32_t answer = out_length < BH_NAMES ? BH_BAD_ARGUMENT : (uint32_t)p.answer;
    if (answer == DONE && number >= points)
        answer = REFUSED_POINT;
    guard_long(out, VALUES);
    guard_long(expected, VALUES);
    if (answer == DONE)
        model_values(&p, expected);
    calls++;
    uint32_t mine =
        bh_experiment(table, random_table(), axes, number, out, out_length);
    experiments_by_answer[answer]++;
    if (mine == answer && same_long(out, expected, VALUES))
        return;
    differs("bh_experiment");
    printf("  point %llu, out length %lu; library %lu, model %lu\n", (unsigned long long)number,
           (unsigned long)out_length, (unsigned long)mine, (unsigned long)answer);
    print_long("out, library", out, VALUES);
    print_long("out, model", expected, VALUES);
    stop();
}

static void compare_point(uint64_t number, size_t out_length)
{
    compare_point_of((uint64_t)model.axes, number, out_length);
}

/* A number below the count. */
static uint64_t random_point(void)
{
    switch (random_below(8)) {
    case 0: return 0;
    case 1: return points - 1;
    }
    return random64() % points;
}

/* A number from the count on. */
static uint64_t number_past(void)
{
    switch (random_below(6)) {
    case 0: return UINT64_MAX - random_below(3);
    case 1: return points > UINT64_MAX - 4294967296 ? points : points + 4294967296;
    case 2: return points + random_below(100);
    case 3: return points * 2;
    }
    return points;
}

static void compare_points(void)
{
    uint64_t all = points <= 24 ? points : 0;
    for (uint64_t i = 0; i < all; i++)
        compare_point(i, BH_NAMES);
    for (int i = 0; i < 4; i++)
        compare_point(random_point(), BH_NAMES + (one_in(4) ? random_below(BEHIND + 1) : 0));
    compare_point(points, BH_NAMES);
    compare_point(number_past(), BH_NAMES);
    compare_point(one_in(2) ? random_point() : number_past(), random_below(BH_NAMES));
}

/* ---- Runs ---- */

#define PLAN_WORDS 32768
#define HELD_WORDS (PLAN_WORDS + BEHIND)
#define MOST_BATCH 250
#define OUT_BYTES (BH_LINE * MOST_BATCH + 2 * BEHIND)
#define OUT_GUARD 0xA5

static uint16_t image[HELD_WORDS], memory[HELD_WORDS];
static uint16_t model_image[HELD_WORDS], model_memory[HELD_WORDS];
static unsigned char out[OUT_BYTES], model_out[OUT_BYTES];

/* A call of bh_lines. */
struct lines_call {
    size_t table_length;
    uint64_t axes, draw, first, count;
    size_t image_words, memory_words, out_length, written_length;
};

static struct lines_call good_call(uint64_t first, uint64_t count)
{
    struct lines_call c = { random_table(),      (uint64_t)model.axes, (uint64_t)model.op,
                            first,               count,                (size_t)model.words,
                            (size_t)model.words, BH_LINE * (size_t)count, 1 };
    if (one_in(4))
        c.out_length += random_below(BEHIND + 1);
    if (one_in(8))
        c.written_length = 2;
    return c;
}

/* How much of the arrays is compared: what is lent, and some behind it. */
static size_t held_words(void)
{
    return (size_t)model.words + BEHIND;
}

static size_t held_bytes(const struct lines_call *c)
{
    return c->out_length + BEHIND;
}

static void guard_run(const struct lines_call *c)
{
    size_t words = held_words();
    memset(out, OUT_GUARD, held_bytes(c));
    memset(model_out, OUT_GUARD, held_bytes(c));
    for (size_t i = 0; i < words; i++)
        image[i] = memory[i] = model_image[i] = model_memory[i] = (uint16_t)GUARD;
}

static struct memory lent(uint16_t *word)
{
    struct memory m = { word, model.words };
    return m;
}

/* What one point gives, by the model: its image, its memory and its line. */
static void model_point(uint64_t number, FILE *to)
{
    struct point_answer p = plan_point(&model, number);
    image_make(lent(model_image), p.seed);
    memcpy(model_memory, model_image, (size_t)model.words * sizeof *model_image);
    struct draw_answer r = draw(lent(model_memory), model.op, &p.settings, 0, 0, UINT64_MAX);
    if (to == NULL)
        return;
    struct changed_answer c = changed_bits(lent(model_image), lent(model_memory));
    struct fill_answer time = fill_states(model.words, model.op, &p.settings);
    fprintf(to, "%llu\t%d\t%llu\t%d\t%llu\t%llu\n", (unsigned long long)number, r.answer,
            (unsigned long long)r.visited, r.v, (unsigned long long)c.count,
            (unsigned long long)time.states);
}

static void print_bytes(const char *name, const unsigned char *byte, uint64_t count)
{
    printf("  out, %s:\n", name);
    for (uint64_t i = 0; i < count && i < 4 * BH_LINE; i++)
        putchar(byte[i]);
}

static void print_lines_call(const struct lines_call *c)
{
    differs("bh_lines");
    printf("  table %lu, axes %llu, draw %llu, first %llu, count %llu; words %lu and %lu, out %lu, "
           "written %lu\n",
           (unsigned long)c->table_length, (unsigned long long)c->axes, (unsigned long long)c->draw,
           (unsigned long long)c->first, (unsigned long long)c->count,
           (unsigned long)c->image_words, (unsigned long)c->memory_words,
           (unsigned long)c->out_length, (unsigned long)c->written_length);
}

/* Where the bytes start to differ, and the words that do. */
static void print_run(const struct lines_call *c, uint64_t bytes, uint64_t expected)
{
    size_t at = 0;
    while (at < held_bytes(c) && out[at] == model_out[at])
        at++;
    if (at < held_bytes(c)) {
        printf("  byte %lu of out differs\n", (unsigned long)at);
        print_bytes("library", out, bytes < c->out_length ? bytes : c->out_length);
        print_bytes("model", model_out, expected < c->out_length ? expected : c->out_length);
    }
    for (size_t i = 0; i < held_words(); i++) {
        if (image[i] != model_image[i] || memory[i] != model_memory[i])
            printf("  word %lu: image %04X, model %04X; memory %04X, model %04X\n",
                   (unsigned long)i, image[i], model_image[i], memory[i], model_memory[i]);
    }
}

/* Calls bh_lines; the model's arrays are what it should leave. */
static void call_lines(const struct lines_call *c, uint32_t answer, uint64_t bytes)
{
    uint64_t written[1 + BEHIND], expected[1 + BEHIND];
    size_t words = held_words();
    guard_long(written, 1 + BEHIND);
    guard_long(expected, 1 + BEHIND);
    if (answer != BH_BAD_ARGUMENT)
        expected[0] = bytes;
    calls++;
    uint32_t mine = bh_lines(table, c->table_length, c->axes, c->draw, c->first, c->count, image,
                             c->image_words, memory, c->memory_words, out, c->out_length, written,
                             c->written_length);
    lines_by_answer[answer]++;
    if (mine == answer && same_long(written, expected, 1 + BEHIND)
        && memcmp(out, model_out, held_bytes(c)) == 0
        && memcmp(image, model_image, words * sizeof *image) == 0
        && memcmp(memory, model_memory, words * sizeof *memory) == 0)
        return;
    print_lines_call(c);
    printf("  answer: library %lu, model %lu; bytes: library %llu, model %llu\n",
           (unsigned long)mine, (unsigned long)answer, (unsigned long long)written[0],
           (unsigned long long)expected[0]);
    print_run(c, written[0], expected[0]);
    stop();
}

/* A batch whose lines the model has given. The image and the memory are those of its last point. */
static void compare_batch(uint64_t first, uint64_t count, const char *lines, size_t length)
{
    struct lines_call c = good_call(first, count);
    guard_run(&c);
    memcpy(model_out, lines, length);
    if (count > 0)
        model_point(first + count - 1, NULL);
    call_lines(&c, DONE, length);
}

/* A call that is refused: 9 or 24, and nothing changes. */
static void compare_refused_batch(void)
{
    uint64_t first = random_point(), count = 1 + random_below(5);
    struct lines_call c = good_call(first, count);
    uint32_t answer = BH_BAD_ARGUMENT;
    switch (random_below(10)) {
    case 0: c.image_words = c.image_words - 1; break;
    case 1: c.memory_words = c.memory_words + 1 + random_below(BEHIND); break;
    case 2:
        answer = BH_NO_MEMORY;
        c.image_words = c.memory_words = 0;
        break;
    case 3: c.image_words = c.memory_words = PLAN_WORDS + 1; break;
    case 4: c.out_length = BH_LINE * (size_t)count - 1 - random_below(BH_LINE); break;
    case 5: c.written_length = 0; break;
    case 6: c.draw = one_in(2) ? OPERATIONS : random64() | OPERATIONS; break;
    case 7:
        answer = REFUSED_POINT;
        c.axes = c.axes + 1 + random_below(9);
        break;
    case 8:
        answer = REFUSED_POINT;
        c.table_length = table_used();
        c.axes = c.axes + (c.table_length == 0);
        c.table_length -= c.table_length > 0;
        break;
    case 9:
        answer = REFUSED_POINT;
        c.first = one_in(2) ? number_past() : points - count + 1;
        break;
    }
    guard_run(&c);
    call_lines(&c, answer, 0);
}

/* A call that asks for no point, wherever it starts: 0, and nothing changes. */
static void compare_no_points(void)
{
    struct lines_call c = good_call(one_in(4) ? random_point() : number_past(), 0);
    guard_run(&c);
    runs_of_none++;
    call_lines(&c, DONE, 0);
}

/* ---- Tables ---- */

/* The most that a value of a name may be. */
static uint64_t most_of(uint64_t name)
{
    return name < 10 ? 0xFFFFFFFFu : name < 13 ? 0xFFFFu : UINT64_MAX;
}

/* Where an axis starts in the table. */
static size_t axis_place(int axis)
{
    size_t at = 0;
    for (int i = 0; i < axis; i++)
        at += 2 + (size_t)model.axis[i].length;
    return at;
}

/* Changes the table of a plan with axes in one place, so that it may be no plan's any more. */
static void spoil_table(uint64_t *axes)
{
    int axis = (int)random_below((uint32_t)model.axes);
    size_t at = axis_place(axis), value = at + 2 + random_below((uint32_t)model.axis[axis].length);
    switch (random_below(9)) {
    case 0:
    case 1:
        table[value] = most_of(table[at]) + 1;
        if (one_in(2) && table[value] != 0)
            table[value] += random64() >> (1 + random_below(62));
        tables_too_large += table[value] > most_of(table[at]);
        break;
    case 2: table[value] = most_of(table[at]); break;
    case 3: table[at] = one_in(2) ? BH_NAMES : BH_NAMES + (random64() >> random_below(64)); break;
    case 4: table[at + 1] = one_in(3) ? 0 : one_in(2) ? 65 : random64(); break;
    case 5: table_lent = 1 + random_below((uint32_t)table_used()); break;
    case 6: *axes = one_in(8) ? random64() : random_below(12); break;
    case 7: table[at] = random_below(BH_NAMES); break;
    case 8:
        for (size_t i = 0; i < table_used(); i++)
            table[i] = random_below(one_in(2) ? 4 : 80);
        break;
    }
}

/* A run over a table: 24 exactly where a point that is asked for isn't below the count. */
static void compare_table_run(uint64_t axes, uint64_t first, uint64_t count)
{
    struct lines_call c = good_call(first, count);
    char *lines = NULL;
    size_t length = 0;
    FILE *to = open_memstream(&lines, &length);
    bool bad = false;
    if (to == NULL)
        return;
    c.axes = axes;
    for (uint64_t i = 0; i < count; i++)
        bad = bad || first + i < first || first + i >= points;
    guard_run(&c);
    for (uint64_t i = 0; i < count && !bad; i++)
        model_point(first + i, to);
    fclose(to);
    memcpy(model_out, lines, length);
    runs_of_none += count == 0;
    call_lines(&c, bad ? REFUSED_POINT : DONE, length);
    free(lines);
}

/* A table has of each axis the number of its name, how many values it has, and these. It holds axes
   of a plan where there are at most 8 of them, each with one of the fourteen names and 1 to 64
   values that are all there, none of them too large for the name. This is the library's rule, not
   the scope's. Gives the model the first `axes` axes of the table; false where it doesn't hold
   them: then it has no points. */
static bool take_axes(uint64_t axes)
{
    size_t at = 0;
    model.axes = 0;
    if (axes > MOST_AXES)
        return false;
    for (uint64_t i = 0; i < axes; i++) {
        struct axis *a = &model.axis[i];
        if (table_lent - at < 2 || table[at] >= BH_NAMES || table[at + 1] < 1
            || table[at + 1] > MOST_VALUES || table[at + 1] > table_lent - at - 2)
            return false;
        a->name = (int)table[at];
        a->length = (int)table[at + 1];
        at = at + 2;
        for (int k = 0; k < a->length; k++) {
            a->value[k] = table[at + (size_t)k];
            if (a->value[k] > most_of((uint64_t)a->name))
                return false;
        }
        at = at + (size_t)a->length;
        model.axes = model.axes + 1;
    }
    return true;
}

/* The plan's table changed: the points that the model finds in it, and none where it holds no
   axes. The plan is as before then. */
static void compare_table(void)
{
    static uint64_t kept_table[TABLES];
    static struct plan kept;
    uint64_t kept_points = points, axes = (uint64_t)model.axes;
    kept = model;
    memcpy(kept_table, table, sizeof table);
    table_lent = BH_TABLE;
    spoil_table(&axes);
    bool held = take_axes(axes);
    points = held ? plan_count(&model) : 0;
    *(held ? &tables_held : &tables_not_held) += 1;
    compare_point_of(axes, 0, BH_NAMES);
    compare_point_of(axes, held ? random_point() : random64(), BH_NAMES);
    compare_point_of(axes, points, BH_NAMES);
    compare_table_run(axes, 0, 1 + random_below(3));
    compare_table_run(axes, held ? random_point() : random_below(4), random_below(4));
    compare_table_run(axes, number_past(), random_below(2));
    table_lent = 0;
    model = kept;
    points = kept_points;
    memcpy(table, kept_table, sizeof table);
}

/* ---- Listings ---- */

/* Where the lines of some points end; they are counted. */
static size_t end_of(const char *lines, size_t at, uint64_t count)
{
    for (uint64_t i = 0; i < count; i++) {
        if (!note_line(&model, lines + at)) {
            differs("the model's listing has a line that is none");
            stop();
        }
        at = (size_t)(strchr(lines + at, '\n') - lines) + 1;
    }
    return at;
}

/* Mostly a few, at times none or all. */
static uint64_t random_batch(uint64_t left)
{
    uint64_t most = left < MOST_BATCH ? left : MOST_BATCH;
    switch (random_below(8)) {
    case 0: return most;
    case 1: return one_in(4) ? 0 : 1;
    }
    return 1 + random_below((uint32_t)(most < 40 ? most : 40));
}

/* The line that bh_put_heading or bh_put_refused puts, at some place of an array that has room for
   it or not. */
static void compare_put(const char *line, size_t length)
{
    unsigned char mine[80], expected[80];
    size_t at = random_below(20), size = at + length;
    if (one_in(4))
        size = random_below((uint32_t)size + 4);
    memset(mine, OUT_GUARD, sizeof mine);
    memset(expected, OUT_GUARD, sizeof expected);
    bool fits = at + length <= size;
    if (fits)
        memcpy(expected + at, line, length);
    calls++;
    size_t next = model.answer == DONE
                      ? bh_put_heading(mine, size, at)
                      : bh_put_refused(mine, size, at, (uint64_t)model.answer, model.line);
    if (next == (fits ? at + length : at) && memcmp(mine, expected, sizeof mine) == 0)
        return;
    differs(model.answer == DONE ? "bh_put_heading" : "bh_put_refused");
    printf("  at %lu of %lu bytes; library %lu; %s", (unsigned long)at, (unsigned long)size,
           (unsigned long)next, line);
    stop();
}

/* The whole listing, in batches. */
static void compare_listing(void)
{
    char *listing;
    size_t length;
    FILE *to = open_memstream(&listing, &length);
    if (to == NULL)
        return;
    plan_listing(text.byte, text.length, to);
    fclose(to);
    size_t at = (size_t)(strchr(listing, '\n') - listing) + 1;
    compare_put(listing, at);
    for (uint64_t first = 0; model.answer == DONE && first < points;) {
        uint64_t count = random_batch(points - first);
        size_t end = end_of(listing, at, count);
        compare_batch(first, count, listing + at, end - at);
        at = end;
        first += count;
    }
    if (at != length) {
        differs("the model's listing has more lines than points");
        stop();
    }
    free(listing);
}

/* Some points of a plan that has too many. */
static void compare_some_lines(void)
{
    char *lines;
    size_t length;
    uint64_t count = 1 + random_below(8), first = random_point();
    FILE *to = open_memstream(&lines, &length);
    if (to == NULL)
        return;
    if (first > points - count)
        first = points - count;
    for (uint64_t i = 0; i < count; i++)
        model_point(first + i, to);
    fclose(to);
    end_of(lines, 0, count);
    compare_batch(first, count, lines, length);
    free(lines);
}

/* ---- The run ---- */

/* Above this many points a plan isn't run whole. */
#define MANY_POINTS 2000

static void compare_plan(void)
{
    plan_read(&model, text.byte, text.length);
    points = plan_count(&model);
    note_plan(&text, &model, points);
    compare_reading();
    if (model.answer == DONE) {
        bool many = points > (model.words > 4096 ? 8 : MANY_POINTS);
        compare_points();
        compare_refused_batch();
        if (one_in(4))
            compare_no_points();
        if (model.axes > 0 && model.words <= 4096)
            compare_table();
        for (int i = 0; many && i < 4; i++)
            compare_some_lines();
        if (many)
            return;
    }
    compare_listing();
}

/* Below this many plans not everything need occur, but for the answers of plans. */
#define ENOUGH 10000

void compare_plans(uint64_t count)
{
    for (uint64_t i = 0; i < count; i++) {
        random_plan(&text);
        compare_plan();
    }
    int missing = print_plan_answers(), other = print_plan_features();
    printf("bh_lines: %llu answered 0, %llu 9, %llu 10, %llu 24; "
           "bh_experiment: %llu 0, %llu 9, %llu 24\n",
           (unsigned long long)lines_by_answer[DONE],
           (unsigned long long)lines_by_answer[BH_BAD_ARGUMENT],
           (unsigned long long)lines_by_answer[BH_NO_MEMORY],
           (unsigned long long)lines_by_answer[REFUSED_POINT],
           (unsigned long long)experiments_by_answer[DONE],
           (unsigned long long)experiments_by_answer[BH_BAD_ARGUMENT],
           (unsigned long long)experiments_by_answer[REFUSED_POINT]);
    printf("tables: %llu held, %llu not, of %llu with a value too large for its name; runs of no "
           "point: %llu\n",
           (unsigned long long)tables_held, (unsigned long long)tables_not_held,
           (unsigned long long)tables_too_large, (unsigned long long)runs_of_none);
    other += (tables_held == 0) + (tables_not_held == 0) + (tables_too_large == 0)
             + (runs_of_none == 0);
    if (missing > 0 || (other > 0 && count >= ENOUGH)) {
        printf("compare: %d of these never occurred\n", missing + other);
        stop();
    }
}

#include "plan_pair.h"

#include "plain_call.h"
#include "work.h"

#include <stdio.h>
#include <stdlib.h>
#include <string.h>

static void stop(const char *name, const char *what)
{
    printf("bench: plan %s: %s\n", name, what);
    exit(1);
}

/* What the table of an accepted plan must hold: plain C's axes; the rest stays as it was. */
static void pack(const struct plain_plan *plan, uint64_t *table)
{
    size_t used = 0;
    for (uint32_t i = 0; i < plan->axes; i++) {
        const struct plain_axis *axis = &plan->axis[i];
        table[used] = axis->name;
        table[used + 1] = axis->count;
        memcpy(table + used + 2, axis->values, axis->count * sizeof *table);
        used += 2 + axis->count;
    }
}

static void results_of(const struct plain_plan *plan, uint32_t answer, uint64_t line,
                       uint64_t *results)
{
    memset(results, 0, BH_PLAN_RESULTS * sizeof *results);
    results[PLAN_LINE] = line;
    if (answer != 0)
        return;
    results[PLAN_WORDS] = plan->words;
    results[PLAN_DRAW] = plan->draw;
    results[PLAN_AXES] = plan->axes;
    results[PLAN_POINTS] = plan->points;
}

uint32_t read_both(const struct plan_text *text, const char *name, struct plan_pair *pair)
{
    uint64_t table[BH_TABLE];
    uint64_t results[BH_PLAN_RESULTS];
    uint64_t line;
    memset(table, 0xA5, sizeof table);
    memcpy(pair->table, table, sizeof table);
    uint32_t answer = bh_plan_read(text->bytes, text->length, pair->table, BH_TABLE, pair->results,
                                   BH_PLAN_RESULTS);
    if (plain_plan_read(text->bytes, text->length, &pair->plain, &line) != answer)
        stop(name, "the answers differ");
    results_of(&pair->plain, answer, line, results);
    /* a refused plan leaves the table as lent */
    if (answer == 0)
        pack(&pair->plain, table);
    if (memcmp(results, pair->results, sizeof results) != 0)
        stop(name, "the results differ");
    if (memcmp(table, pair->table, sizeof table) != 0)
        stop(name, "the tables differ");
    return answer;
}

void decode_both(const struct plan_pair *pair, const char *name)
{
    uint64_t library[BH_NAMES] = { 0 };
    uint64_t plain[PLAIN_NAMES] = { 0 };
    for (uint64_t point = 0; point <= pair->results[PLAN_POINTS]; point++) {
        uint32_t answer = bh_experiment(pair->table, BH_TABLE, pair->results[PLAN_AXES], point,
                                        library, BH_NAMES);
        if (answer != plain_experiment(&pair->plain, point, plain) ||
            memcmp(library, plain, sizeof library) != 0)
            stop(name, "the points differ");
    }
}

/* ---- Runs ---- */

#define BLOCK 128
#define MOST_WORDS 32768

/* One side's image, memory and lines. */
struct side {
    uint16_t image[MOST_WORDS];
    uint16_t memory[MOST_WORDS];
    uint8_t lines[BH_LINE * BLOCK];
    uint64_t written;
};

static void run_block(const struct plan_pair *pair, uint64_t first, uint64_t count,
                      const char *name)
{
    static struct side library, plain;
    const uint64_t *results = pair->results;
    size_t words = results[PLAN_WORDS];
    size_t written;
    uint32_t answer =
        bh_lines(pair->table, BH_TABLE, results[PLAN_AXES], results[PLAN_DRAW], first, count,
                 library.image, words, library.memory, words, library.lines, sizeof library.lines,
                 &library.written, 1);
    if (answer != plain_lines(&pair->plain, first, count, plain.image, plain.memory, plain.lines,
                              &written))
        stop(name, "the answers of a run differ");
    if (written != library.written || memcmp(plain.lines, library.lines, written) != 0)
        stop(name, "the listings differ");
    if (memcmp(plain.image, library.image, 2 * words) != 0 ||
        memcmp(plain.memory, library.memory, 2 * words) != 0)
        stop(name, "the memories differ");
}

/* The registers after a point's drawing, which a listing doesn't have. */
static void compare_registers(const struct plan_pair *pair, uint64_t point, const char *name)
{
    static uint16_t drawn[MOST_WORDS];
    const struct plain_plan *plan = &pair->plain;
    uint64_t values[PLAIN_NAMES], out[BH_DRAW_RESULTS];
    uint32_t settings[BH_SETTINGS];
    plain_experiment(plan, point, values);
    for (int i = 0; i < BH_SETTINGS; i++)
        settings[i] = (uint32_t)values[i];
    struct plain_outcome plain = plain_call(drawn, plan->words, plan->draw, settings);
    uint32_t answer = bh_outcome(plan->words, plan->draw, settings, BH_SETTINGS, 0, 0, UINT64_MAX,
                                 out, BH_DRAW_RESULTS);
    if (answer != plain.answer)
        stop(name, "the answers of a drawing differ");
    if (answer == 0 && (out[4] != plain.saddr || out[5] != plain.daddr || out[6] != plain.dydx))
        stop(name, "the registers differ");
}

void run_both(const struct plan_pair *pair, const char *name)
{
    uint64_t points = pair->results[PLAN_POINTS];
    for (uint64_t first = 0; first < points; first += BLOCK)
        run_block(pair, first, points - first < BLOCK ? points - first : BLOCK, name);
    for (uint64_t point = 0; point < points; point++)
        compare_registers(pair, point, name);
}

/* ---- Texts ---- */

static void read_file(const char *name, struct plan_text *text)
{
    FILE *file = fopen(name, "rb");
    if (file == NULL)
        stop(name, "it can't be opened");
    text->length = fread(text->bytes, 1, sizeof text->bytes, file);
    if (ferror(file) || text->length == sizeof text->bytes)
        stop(name, "it can't be read whole");
    fclose(file);
}

/* Cut off behind each byte, and with each byte changed to some others. */
static int compare_spoiled(struct plan_text *text, const char *name)
{
    static const uint8_t others[] = { '\t', '\n', '\r', ' ', '#', '0', '9', 'A' };
    static struct plan_pair pair;
    const size_t length = text->length;
    for (text->length = 0; text->length < length; text->length++)
        read_both(text, name, &pair);
    for (size_t i = 0; i < length; i++) {
        uint8_t byte = text->bytes[i];
        for (size_t k = 0; k < sizeof others; k++) {
            text->bytes[i] = others[k];
            read_both(text, name, &pair);
        }
        text->bytes[i] = byte;
    }
    return (int)(length * (1 + sizeof others));
}

static void compare_run(const struct plan_text *text, const char *name)
{
    static struct plan_pair pair;
    if (read_both(text, name, &pair) == BH_DONE)
        run_both(&pair, name);
}

int compare_texts(char **files, int count)
{
    static struct plan_text text;
    for (int i = 0; i < count; i++) {
        read_file(files[i], &text);
        compare_run(&text, files[i]);
    }
    for (int i = 0; i < KINDS; i++) {
        modes_text(&text, kinds[i].name);
        compare_run(&text, kinds[i].name);
    }
    example_text(&text);
    int spoiled = compare_spoiled(&text, "example, spoiled");
    axes_text(&text, 8, 3);
    spoiled += compare_spoiled(&text, "8 axes, spoiled");
    return count + KINDS + spoiled;
}

#include "plain_plan.h"

#include "settings.h"

#include <stdbool.h>
#include <stdlib.h>
#include <string.h>

#define MOST_BYTES 65536

/* No line has more values. */
#define MOST_ON_A_LINE (MOST_BYTES / 2)

/* A part of the text, from `at` up to `end`. */
struct piece {
    const uint8_t *at, *end;
};

struct word {
    const char *text;
    size_t length;
};

#define WORD(text) { text, sizeof text - 1 }

static const struct word names[PLAIN_NAMES] = {
    WORD("SADDR"),   WORD("SPTCH"), WORD("DADDR"), WORD("DPTCH"),  WORD("OFFSET"),
    WORD("WSTART"),  WORD("WEND"),  WORD("DYDX"),  WORD("COLOR0"), WORD("COLOR1"),
    WORD("CONTROL"), WORD("PSIZE"), WORD("PMASK"), WORD("SEED"),
};

static const struct word draws[8] = {
    WORD("FILL L"),      WORD("FILL XY"),      WORD("PIXBLT L,L"), WORD("PIXBLT L,XY"),
    WORD("PIXBLT XY,L"), WORD("PIXBLT XY,XY"), WORD("PIXBLT B,L"), WORD("PIXBLT B,XY"),
};

/* Which word of so many the piece is: `count` where it is none. */
static uint32_t find(const struct word *words, uint32_t count, struct piece piece)
{
    size_t length = (size_t)(piece.end - piece.at);
    uint32_t i = 0;
    while (i < count &&
           (words[i].length != length || memcmp(words[i].text, piece.at, length) != 0))
        i++;
    return i;
}

/* Goes behind a word and its tab at the start of a line. */
static bool pass_word(struct piece *line, const char *word, size_t length)
{
    if ((size_t)(line->end - line->at) < length || memcmp(line->at, word, length) != 0)
        return false;
    line->at += length;
    return true;
}

/* Reads a number and goes behind it. It must end at a tab or with the line: the caller tests it. */
static bool pass_number(struct piece *line, uint64_t *number)
{
    const uint8_t *start = line->at;
    const uint8_t *at = start;
    uint64_t n = 0;
    for (; at < line->end && (uint8_t)(*at - '0') <= 9; at++) {
        uint64_t digit = (uint64_t)(*at - '0');
        if (n > UINT64_MAX / 10 || (n == UINT64_MAX / 10 && digit > UINT64_MAX % 10))
            return false;
        n = 10 * n + digit;
    }
    if (at == start || (*start == '0' && at - start > 1))
        return false;
    line->at = at;
    *number = n;
    return true;
}

/* ---- The three kinds of line ---- */

static uint32_t read_memory(struct plain_plan *plan, struct piece line)
{
    if (!pass_word(&line, "memory\t", 7) || !pass_number(&line, &plan->words) ||
        line.at != line.end || plan->words == 0 || plan->words > 32768)
        return 20;
    return 0;
}

static uint32_t read_draw(struct plain_plan *plan, struct piece line)
{
    if (!pass_word(&line, "draw\t", 5))
        return 20;
    plan->draw = find(draws, 8, line);
    return plan->draw == 8 ? 20 : 0;
}

/* The line's values, which must be numbers up to its end. */
static bool read_values(struct piece line, uint64_t *values, uint32_t *count)
{
    uint32_t n = 0;
    for (;;) {
        if (!pass_number(&line, &values[n]))
            return false;
        n++;
        if (line.at == line.end)
            break;
        if (*line.at != '\t')
            return false;
        line.at++;
    }
    *count = n;
    return true;
}

static bool is_named(const struct plain_plan *plan, uint32_t name)
{
    for (uint32_t i = 0; i < plan->axes; i++) {
        if (plan->axis[i].name == name)
            return true;
    }
    return false;
}

static bool too_large(uint32_t name, const uint64_t *values, uint32_t count)
{
    const uint64_t most = name == SEED ? UINT64_MAX : name >= CONTROL ? 65535 : UINT32_MAX;
    for (uint32_t i = 0; i < count; i++) {
        if (values[i] > most)
            return true;
    }
    return false;
}

static int order(const void *a, const void *b)
{
    uint64_t x = *(const uint64_t *)a;
    uint64_t y = *(const uint64_t *)b;
    return (x > y) - (x < y);
}

/* Does a value stand twice? More than 64 are refused anyway, and are put in order. */
static bool twice(uint64_t *values, uint32_t count)
{
    if (count > PLAIN_VALUES) {
        qsort(values, count, sizeof *values, order);
        for (uint32_t i = 1; i < count; i++) {
            if (values[i - 1] == values[i])
                return true;
        }
        return false;
    }
    for (uint32_t i = 1; i < count; i++) {
        for (uint32_t j = 0; j < i; j++) {
            if (values[i] == values[j])
                return true;
        }
    }
    return false;
}

static uint32_t read_axis(struct plain_plan *plan, struct piece line)
{
    uint64_t values[MOST_ON_A_LINE];
    uint32_t count;
    if (!pass_word(&line, "axis\t", 5))
        return 20;
    const uint8_t *tab = memchr(line.at, '\t', (size_t)(line.end - line.at));
    if (tab == NULL || tab == line.at ||
        !read_values((struct piece){ tab + 1, line.end }, values, &count))
        return 20;
    uint32_t name = find(names, PLAIN_NAMES, (struct piece){ line.at, tab });
    if (name == PLAIN_NAMES || is_named(plan, name))
        return 21;
    if (too_large(name, values, count) || twice(values, count))
        return 22;
    if (plan->axes == PLAIN_AXES || count > PLAIN_VALUES)
        return 23;
    struct plain_axis *axis = &plan->axis[plan->axes++];
    axis->name = name;
    axis->count = count;
    memcpy(axis->values, values, count * sizeof *values);
    plan->points *= count;
    return 0;
}

/* ---- The text ---- */

/* A line after so many that weren't skipped. */
static uint32_t read_line(struct plain_plan *plan, struct piece line, uint64_t before)
{
    if (before == 0)
        return read_memory(plan, line);
    if (before == 1)
        return read_draw(plan, line);
    return read_axis(plan, line);
}

uint32_t plain_plan_read(const uint8_t *text, size_t length, struct plain_plan *plan,
                         uint64_t *line)
{
    const uint8_t *end = text + length;
    uint64_t taken = 0;
    plan->axes = 0;
    plan->points = 1;
    *line = 1;
    if (length > MOST_BYTES)
        return 20;
    for (; text < end; ++*line) {
        const uint8_t *stop = memchr(text, '\n', (size_t)(end - text));
        if (stop == NULL)
            return 20;
        if (text != stop && *text != '#') {
            uint32_t answer = read_line(plan, (struct piece){ text, stop }, taken);
            if (answer != 0)
                return answer;
            taken++;
        }
        text = stop + 1;
    }
    if (taken < 2)
        return 20;
    *line = 0;
    return 0;
}

uint32_t plain_experiment(const struct plain_plan *plan, uint64_t point, uint64_t *values)
{
    if (point >= plan->points)
        return 24;
    memset(values, 0, PLAIN_NAMES * sizeof *values);
    values[PSIZE] = 16;
    for (uint32_t i = plan->axes; i-- > 0;) {
        const struct plain_axis *axis = &plan->axis[i];
        const uint64_t rest = point / axis->count;
        values[axis->name] = axis->values[point % axis->count];
        point = rest;
    }
    return 0;
}

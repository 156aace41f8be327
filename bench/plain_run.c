/* The points of a plan, run: the rest of plain_plan.h. */
#include "plain_call.h"
#include "plain_plan.h"
#include "settings.h"

#include <string.h>

static uint64_t next_of(uint64_t x)
{
    x ^= x << 13;
    x ^= x >> 7;
    return x ^ x << 17;
}

/* Four words of each draw of the generator, lowest first. */
static void fill_image(uint16_t *image, size_t words, uint64_t x)
{
    size_t i = 0;
    for (; i + 4 <= words; i += 4) {
        x = next_of(x);
        image[i] = (uint16_t)x;
        image[i + 1] = (uint16_t)(x >> 16);
        image[i + 2] = (uint16_t)(x >> 32);
        image[i + 3] = (uint16_t)(x >> 48);
    }
    for (x = next_of(x); i < words; i++, x >>= 16)
        image[i] = (uint16_t)x;
}

/* Four words at a time and the last ones singly. */
uint64_t plain_changed(const uint16_t *before, const uint16_t *after, size_t words)
{
    uint64_t bits = 0;
    size_t i = 0;
    for (; i + 4 <= words; i += 4) {
        uint64_t a, b;
        memcpy(&a, before + i, sizeof a);
        memcpy(&b, after + i, sizeof b);
        bits += (uint64_t)__builtin_popcountll(a ^ b);
    }
    for (; i < words; i++)
        bits += (uint64_t)__builtin_popcount((unsigned)(before[i] ^ after[i]));
    return bits;
}

/* Puts a number and a byte behind it, and answers the place after them. */
static uint8_t *put_number(uint8_t *out, uint64_t number, uint8_t end)
{
    uint8_t digits[20];
    size_t first = sizeof digits;
    do {
        digits[--first] = (uint8_t)('0' + number % 10);
        number /= 10;
    } while (number != 0);
    memcpy(out, digits + first, sizeof digits - first);
    out += sizeof digits - first;
    *out = end;
    return out + 1;
}

static uint8_t *put_line(uint8_t *out, uint64_t point, const struct plain_outcome *outcome,
                         uint64_t changed)
{
    out = put_number(out, point, '\t');
    out = put_number(out, outcome->answer, '\t');
    out = put_number(out, outcome->visited, '\t');
    out = put_number(out, outcome->v, '\t');
    out = put_number(out, changed, '\t');
    return put_number(out, outcome->states, '\n');
}

uint32_t plain_lines(const struct plain_plan *plan, uint64_t first, uint64_t count, uint16_t *image,
                     uint16_t *memory, uint8_t *out, size_t *written)
{
    const size_t words = plan->words;
    uint8_t *at = out;
    uint64_t seed = 0;
    *written = 0;
    if (first > plan->points || count > plan->points - first)
        return 24;
    for (uint64_t i = 0; i < count; i++) {
        uint64_t values[PLAIN_NAMES];
        uint32_t settings[SEED];
        plain_experiment(plan, first + i, values);
        for (int k = 0; k < SEED; k++)
            settings[k] = (uint32_t)values[k];
        if (i == 0 || values[SEED] != seed)
            fill_image(image, words, values[SEED]);
        seed = values[SEED];
        memcpy(memory, image, words * sizeof *memory);
        struct plain_outcome outcome = plain_call(memory, words, plan->draw, settings);
        at = put_line(at, first + i, &outcome, plain_changed(image, memory, words));
    }
    *written = (size_t)(at - out);
    return 0;
}

/* draw_seeds FOLDER PLAN...: writes points from all over accepted plans as inputs of draw_fuzz, one
   file each. A point is drawn over its image, in four calls. Memories larger than draw_fuzz has are
   cut to its size. */
#include "draw_bytes.h"
#include "model.h"

#include <string.h>

#define MOST_POINTS 24

static void put(unsigned char *byte, size_t at, size_t bytes, uint64_t number)
{
    for (size_t i = 0; i < bytes; i++)
        byte[at + i] = (unsigned char)(number >> (8 * i));
}

/* The number that draw_fuzz takes for this PSIZE. */
static uint16_t psize_number(uint16_t psize)
{
    for (uint16_t i = 0; i < 5; i++) {
        if (psize == 1 << i)
            return i;
    }
    return (uint16_t)(ANY_PSIZE + psize);
}

static void put_settings(unsigned char *byte, const struct settings *s)
{
    const uint32_t number[LONG_SETTINGS] = { s->SADDR,  s->SPTCH, s->DADDR, s->DPTCH,  s->OFFSET,
                                             s->WSTART, s->WEND,  s->DYDX,  s->COLOR0, s->COLOR1 };
    const uint16_t last[SHORT_SETTINGS] = { s->CONTROL, psize_number(s->PSIZE), s->PMASK };
    for (size_t i = 0; i < LONG_SETTINGS; i++)
        put(byte, AT_LONG + 4 * i, 4, number[i]);
    for (size_t i = 0; i < SHORT_SETTINGS; i++)
        put(byte, AT_SHORT + 2 * i, 2, last[i]);
}

/* The bytes of a point; how many there are. */
static size_t seed_of(const struct plan *p, uint64_t number, unsigned char *byte)
{
    uint16_t image[MOST_SMALL_WORDS];
    struct memory m = { image, p->words < MOST_SMALL_WORDS ? p->words : MOST_SMALL_WORDS };
    struct point_answer point = plan_point(p, number);
    memset(byte, 0, MOST_DRAW_BYTES);
    put(byte, AT_OPERATION, 1, p->op);
    put(byte, AT_WORDS, 1, m.words);
    put_settings(byte, &point.settings);
    put(byte, AT_BUDGET, 8, 1);
    put(byte, AT_SLICES, 1, 3);
    put(byte, AT_SLICE_BUDGETS, 3, 0xFF0200 + number % 256);
    image_make(m, point.seed);
    for (uint64_t i = 0; i < m.words; i++)
        put(byte, AT_MEMORY + 2 * i, 2, image[i]);
    return AT_MEMORY + 2 * (size_t)m.words;
}

static bool write_seed(const char *folder, int plan, uint64_t number, const struct plan *p)
{
    unsigned char byte[MOST_DRAW_BYTES];
    char name[4096];
    size_t size = seed_of(p, number, byte);
    snprintf(name, sizeof name, "%s/%d-%llu", folder, plan, (unsigned long long)number);
    FILE *file = fopen(name, "wb");
    if (file == NULL)
        return false;
    bool written = fwrite(byte, 1, size, file) == size;
    return fclose(file) == 0 && written;
}

static bool read_plan(const char *name, struct plan *p)
{
    static unsigned char text[MOST_TEXT + 1];
    FILE *file = fopen(name, "rb");
    if (file == NULL)
        return false;
    size_t length = fread(text, 1, sizeof text, file);
    fclose(file);
    plan_read(p, text, length);
    return p->answer == DONE;
}

int main(int count, char **argument)
{
    static struct plan p;
    for (int i = 2; i < count; i++) {
        if (!read_plan(argument[i], &p))
            continue;
        uint64_t points = plan_count(&p), seeds = points < MOST_POINTS ? points : MOST_POINTS;
        for (uint64_t k = 0; k < seeds; k++) {
            /* not the same point of each part, so that the last axis has all its values */
            uint64_t number = k * points / seeds + k % (points / seeds);
            if (!write_seed(argument[1], i - 1, number, &p)) {
                fprintf(stderr, "draw_seeds: cannot write into %s\n", argument[1]);
                return 2;
            }
        }
    }
    return 0;
}

/* The library's calls over one large memory. */
#include "figures.h"

#include <string.h>

uint16_t memory[MEMORY_WORDS];

void clear_memory(void)
{
    memset(memory, 0, sizeof memory);
}

bool memory_is_clear(void)
{
    for (size_t i = 0; i < MEMORY_WORDS; i++) {
        if (memory[i] != 0)
            return false;
    }
    return true;
}

uint32_t pixel_at(const uint16_t *words, uint32_t address, uint32_t psize)
{
    return (uint32_t)words[address / 16] >> address % 16 & ((1u << psize) - 1);
}

void put_pixel(uint16_t *words, uint32_t address, uint32_t psize, uint32_t value)
{
    uint32_t mask = ((1u << psize) - 1) << address % 16;
    words[address / 16] =
        (uint16_t)((words[address / 16] & ~mask) | (value << address % 16 & mask));
}

uint64_t lowest_drawn(uint32_t psize)
{
    for (uint64_t a = 0; a < 16 * (uint64_t)MEMORY_WORDS; a += psize) {
        if (pixel_at(memory, (uint32_t)a, psize) != 0)
            return a;
    }
    return NOT_PRINTED;
}

uint32_t bits_of(const char *row, char letter)
{
    uint32_t bits = 0;
    for (int i = 0; i < 16; i++)
        bits = bits << 1 | (row[i] == letter);
    return bits;
}

static void list_settings(const struct settings *s, uint32_t number[BH_SETTINGS])
{
    const uint32_t listed[BH_SETTINGS] = { s->SADDR, s->SPTCH,  s->DADDR,  s->DPTCH,   s->OFFSET,
                                           s->WSTART, s->WEND,  s->DYDX,   s->COLOR0,  s->COLOR1,
                                           s->CONTROL, s->PSIZE, s->PMASK };
    memcpy(number, listed, sizeof listed);
}

struct drawing draw_slice(uint32_t operation, const struct settings *settings, uint64_t place,
                          uint32_t v, uint64_t budget)
{
    uint32_t number[BH_SETTINGS];
    uint64_t out[BH_DRAW_RESULTS] = { 0 };
    list_settings(settings, number);
    uint32_t answer = bh_draw(memory, MEMORY_WORDS, operation, number, BH_SETTINGS, place, v,
                              budget, out, BH_DRAW_RESULTS);
    struct drawing r = { answer, out[0], out[1], out[2], out[3], out[4], out[5], out[6] };
    return r;
}

struct drawing draw(uint32_t operation, const struct settings *settings, uint32_t v)
{
    return draw_slice(operation, settings, 0, v, UINT64_MAX);
}

struct fill_time time_of(uint32_t operation, const struct settings *settings)
{
    uint32_t number[BH_SETTINGS];
    uint64_t out[BH_FILL_RESULTS] = { 0 };
    list_settings(settings, number);
    uint32_t answer =
        bh_fill_states(MEMORY_WORDS, operation, number, BH_SETTINGS, out, BH_FILL_RESULTS);
    struct fill_time r = { answer, out[0], out[1], out[2], out[3] };
    return r;
}

static struct lone lone_of(uint32_t answer, const uint32_t out[BH_PIXEL_RESULTS])
{
    struct lone r = { answer, out[0], out[1], out[2], out[3] };
    return r;
}

struct lone pixt_to(bool xy, const struct settings *settings, uint32_t value, uint32_t address,
                    uint32_t v)
{
    uint32_t number[BH_SETTINGS], out[BH_PIXEL_RESULTS] = { 0 };
    list_settings(settings, number);
    uint32_t answer = (xy ? bh_pixt_to_xy : bh_pixt_to_linear)(
        memory, MEMORY_WORDS, number, BH_SETTINGS, value, address, v, out, BH_PIXEL_RESULTS);
    return lone_of(answer, out);
}

struct lone pixt_from(bool xy, const struct settings *settings, uint32_t address)
{
    uint32_t number[BH_SETTINGS], out[BH_PIXEL_RESULTS] = { 0 };
    list_settings(settings, number);
    uint32_t answer = (xy ? bh_pixt_from_xy : bh_pixt_from_linear)(
        memory, MEMORY_WORDS, number, BH_SETTINGS, address, 0, out, BH_PIXEL_RESULTS);
    return lone_of(answer, out);
}

struct lone drav(const struct settings *settings, uint32_t step, uint32_t point, uint32_t v)
{
    uint32_t number[BH_SETTINGS], out[BH_PIXEL_RESULTS] = { 0 };
    list_settings(settings, number);
    uint32_t answer = bh_drav(memory, MEMORY_WORDS, number, BH_SETTINGS, step, point, v, out,
                              BH_PIXEL_RESULTS);
    return lone_of(answer, out);
}

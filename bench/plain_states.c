#include "plain_states.h"

/* Table 13-5: with a window, by the corners that are moved (1 the start, 2 the end). */
static const uint32_t windowed_setup[4] = { 9, 16, 12, 20 };

static uint32_t setup_states(const struct plain_setup *setup)
{
    uint32_t states = setup->to_xy ? 6 : 4;
    if (setup->windowed)
        states = windowed_setup[setup->start_moved + 2 * setup->end_moved];
    return states + (setup->uncached ? 3 : 0);
}

/* Table 13-6: (a_row + NG)L + once, by 1, 2 or more words and alignment A to D. */
static const uint8_t a_row[3][4] = { { 1, 2, 2, 2 }, { 2, 3, 3, 4 }, { 1, 2, 3, 4 } };
static const uint8_t once[3][4] = { { 2, 2, 1, 1 }, { 2, 2, 2, 1 }, { 2, 5, 2, 1 } };

/* Table 13-7, first line, by PP; the second has 2 more. */
static const uint8_t graphics[22] = { 2, 4, 4, 4, 4, 4, 4, 4, 4, 4, 4, 4, 4, 4, 4, 4, 4,
                                      5, 5, 6, 5, 5 };

/* Off again for each row, where T or a plane mask reads what an edge has read. */
static const uint8_t adjustment[4] = { 0, 2, 2, 4 };

uint64_t plain_states(const struct plain_drawing *drawing, const struct plain_setup *setup)
{
    const uint32_t first = drawing->destination.start & 15;
    const uint32_t behind = first + drawing->columns * drawing->psize;
    const uint32_t words = (behind + 15) >> 4;
    const uint32_t length = words < 3 ? words - 1 : 2;
    const uint32_t alignment = (first != 0 ? 2 : 0) + ((behind & 15) != 0 ? 1 : 0);
    const bool masked = drawing->t != 0 || drawing->pmask != 0;
    const uint32_t g = graphics[drawing->pp] + (masked ? 2 : 0);
    const uint32_t off = masked ? adjustment[alignment] : 0;
    const uint64_t row = a_row[length][alignment] + (uint64_t)words * g - off;
    return setup_states(setup) + row * drawing->rows + once[length][alignment];
}

/* The library from C: a field read, a drawing in slices and its time, a plan and its listing. */
#include "buckethare.h"

#include <inttypes.h>
#include <stdio.h>
#include <string.h>

/* Size 8 at bit address 12 over words F000h, 000Ah. */
static void read_field(void)
{
    const uint16_t memory[2] = { 0xF000, 0x000A };
    uint32_t value[1];
    uint32_t answer = bh_field_read(memory, 2, 12, 8, 0, value, 1);
    printf("field: answer %" PRIu32 ", value %02" PRIX32 "\n", answer, value[0]);
}

/* FILL XY clipped to a window: 53 by 15 of 60 by 20 pixels. CONTROL has W 3. */
static const uint32_t fill[BH_SETTINGS] = {
    [BH_DADDR] = 0x004400E4,
    [BH_DPTCH] = 0x800,
    [BH_WSTART] = 0x004900EB,
    [BH_WEND] = 0x005F0140,
    [BH_DYDX] = 0x0014003C,
    [BH_COLOR1] = 0xFFFF,
    [BH_CONTROL] = 0xC0,
    [BH_PSIZE] = 4,
};

/* It is stopped after 500 pixels. */
static void fill_in_slices(void)
{
    static uint16_t memory[11208];
    uint64_t out[BH_DRAW_RESULTS] = { 0 };
    uint32_t answer;
    do {
        answer = bh_draw(memory, 11208, BH_FILL_XY, fill, BH_SETTINGS, out[BH_DRAW_PLACE],
                         (uint32_t)out[BH_DRAW_V], 500, out, BH_DRAW_RESULTS);
        printf("fill: answer %" PRIu32 ", place %" PRIu64 ", visited %" PRIu64 ", V %" PRIu64
               ", DADDR %" PRIX64 "\n",
               answer, out[BH_DRAW_PLACE], out[BH_DRAW_VISITED], out[BH_DRAW_V],
               out[BH_DRAW_DADDR]);
    } while (answer == BH_STOPPED);
    answer = bh_draw(memory, 11207, BH_FILL_XY, fill, BH_SETTINGS, 0, 0, 500, out,
                     BH_DRAW_RESULTS);
    printf("fill in a memory one word shorter: answer %" PRIu32 "\n", answer);
}

/* The same FILL: example 13-1 of source document 000. */
static void time_fill(void)
{
    uint64_t out[BH_FILL_RESULTS];
    uint32_t answer = bh_fill_states(11208, BH_FILL_XY, fill, BH_SETTINGS, out, BH_FILL_RESULTS);
    printf("fill: answer %" PRIu32 ", setup %" PRIu64 ", transfer %" PRIu64
           ", adjustment %" PRIu64 ", states %" PRIu64 "\n",
           answer, out[BH_FILL_SETUP], out[BH_FILL_TRANSFER], out[BH_FILL_ADJUSTMENT],
           out[BH_FILL_STATES]);
}

/* The scope's plan. */
static void run_plan(void)
{
    const char *plan = "memory\t4\n"
                       "draw\tFILL L\n"
                       "axis\tPSIZE\t4\t8\n"
                       "axis\tCOLOR1\t255\t65535\n"
                       "axis\tDYDX\t65538\n";
    uint64_t table[BH_TABLE], read[BH_PLAN_RESULTS], bytes[1];
    uint16_t image[4], memory[4];
    uint8_t text[4 * BH_LINE];
    uint32_t answer = bh_plan_read((const uint8_t *)plan, strlen(plan), table, BH_TABLE, read,
                                   BH_PLAN_RESULTS);
    printf("plan: answer %" PRIu32 ", %" PRIu64 " words, drawing %" PRIu64 ", %" PRIu64
           " points\n",
           answer, read[BH_PLAN_WORDS], read[BH_PLAN_DRAW], read[BH_PLAN_POINTS]);
    size_t end = bh_put_heading(text, sizeof text, 0);
    fwrite(text, 1, end, stdout);
    bh_lines(table, BH_TABLE, read[BH_PLAN_AXES], read[BH_PLAN_DRAW], 0, read[BH_PLAN_POINTS],
             image, 4, memory, 4, text, sizeof text, bytes, 1);
    fwrite(text, 1, (size_t)bytes[0], stdout);
}

int main(void)
{
    read_field();
    fill_in_slices();
    time_fill();
    run_plan();
    return 0;
}

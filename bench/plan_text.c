#include "plan_text.h"

#include <stdarg.h>
#include <stdio.h>

static void add(struct plan_text *text, const char *format, ...)
{
    va_list arguments;
    va_start(arguments, format);
    text->length += (size_t)vsnprintf((char *)text->bytes + text->length,
                                      sizeof text->bytes - text->length, format, arguments);
    va_end(arguments);
}

static void start(struct plan_text *text, int words, const char *draw)
{
    text->length = 0;
    add(text, "memory\t%d\ndraw\t%s\n", words, draw);
}

/* Different values, most of ten digits. */
static void add_axis(struct plan_text *text, const char *name, int values)
{
    add(text, "axis\t%s", name);
    for (uint32_t i = 1; i <= (uint32_t)values; i++)
        add(text, "\t%lu", (unsigned long)(uint32_t)(2654435761u * i));
    add(text, "\n");
}

static const char *const wide_names[8] = { "SADDR",  "DADDR",  "OFFSET", "WSTART",
                                           "WEND",   "COLOR0", "COLOR1", "SEED" };

void example_text(struct plan_text *text)
{
    start(text, 4, "FILL L");
    add(text, "axis\tPSIZE\t4\t8\naxis\tCOLOR1\t255\t65535\naxis\tDYDX\t65538\n");
}

void axes_text(struct plan_text *text, int axes, int values)
{
    start(text, 4, "FILL L");
    for (int i = 0; i < axes; i++)
        add_axis(text, wide_names[i], values);
}

/* Comment lines up to a length, the last one cut so that it is reached. */
static void add_comments(struct plan_text *text, size_t length)
{
    static const char comment[] = "# What the axis below is for, and why it has these values.";
    while (text->length < length)
        add(text, "%.*s\n", (int)(length - text->length - 1), comment);
}

void largest_text(struct plan_text *text)
{
    start(text, 4, "FILL L");
    for (int i = 0; i < 8; i++) {
        add_comments(text, text->length + 7000);
        add_axis(text, wide_names[i], 64);
    }
    add_comments(text, 65536);
}

void fill_text(struct plan_text *text, int words, int side, int colors, int seeds)
{
    start(text, words, "FILL L");
    add(text, "axis\tPSIZE\t4\naxis\tDPTCH\t%d\naxis\tDYDX\t%d\n", (4 * side + 15) / 16 * 16,
        side << 16 | side);
    add_axis(text, "COLOR1", colors);
    add_axis(text, "SEED", seeds);
}

/* PP 15 with W 0 to 3, of which W 2 has T, from each corner, and PP 22. */
static void add_controls(struct plan_text *text)
{
    static const int modes[4] = { 0x3C00, 0x3C40, 0x3CA0, 0x3CC0 };
    add(text, "axis\tCONTROL\t%d\t%d", 0x5800, 0x5B00);
    for (int corner = 0; corner <= 0x300; corner += 0x100) {
        for (int i = 0; i < 4; i++)
            add(text, "\t%d", modes[i] | corner);
    }
    add(text, "\n");
}

void modes_text(struct plan_text *text, const char *draw)
{
    start(text, 64, draw);
    add(text, "axis\tSADDR\t0\t65535\t131075\t176\n");
    add(text, "axis\tSPTCH\t64\t48\t4294967264\n");
    add(text, "axis\tDADDR\t65536\t65535\t131074\t192\n");
    add(text, "axis\tDPTCH\t64\t4294967232\t7\n");
    add(text, "axis\tWSTART\t65537\t2\t4294901760\n");
    add(text, "axis\tWEND\t131073\t196611\t2\n");
    add(text, "axis\tDYDX\t196611\t262144\t327681\n");
    add_controls(text);
}

/* The same drawings and field moves in plain C: what the library is measured against. A drawing is
   whole and given by its walks, after window and refusals: its arrays lie in the memory. A field
   move tests its refusals, as they are a part of each move. */
#ifndef PLAIN_H
#define PLAIN_H

#include <stddef.h>
#include <stdint.h>

enum plain_source { PLAIN_COLOR, PLAIN_PIXELS, PLAIN_BITS };

/* The address at which a walk over an array starts, and how far it goes from row to row and from
   pixel to pixel, modulo 2^32. */
struct plain_walk {
    uint32_t start, pitch, step;
};

#define PLAIN_PBH 0x100
#define PLAIN_PBV 0x200

/* Turn a walk as CONTROL chooses: one whose start is the chosen corner's pixel, and one from the
   upper left pixel of so many columns and rows, whose start goes to the corner. */
void plain_turn(struct plain_walk *walk, uint32_t control);
void plain_to_corner(struct plain_walk *walk, uint32_t columns, uint32_t rows, uint32_t control);

/* Where a walk over so many rows goes on. */
uint32_t plain_end(const struct plain_walk *walk, uint32_t rows);

/* t is 0 or 1. */
struct plain_drawing {
    uint32_t columns, rows;
    struct plain_walk destination;
    enum plain_source from;
    struct plain_walk source;
    uint32_t psize, pp, t, pmask;
    uint32_t color0, color1;
};

void plain_draw(uint16_t *memory, const struct plain_drawing *drawing);

/* The answer is 0, or the refusal's number. */
uint32_t plain_field_read(const uint16_t *memory, size_t words, uint32_t address, uint32_t size,
                          uint32_t is_signed, uint32_t *out);
uint32_t plain_field_write(uint16_t *memory, size_t words, uint32_t address, uint32_t size,
                           uint32_t value);

#endif

#include "plain.h"

void plain_turn(struct plain_walk *walk, uint32_t control)
{
    if ((control & PLAIN_PBH) != 0)
        walk->step = 0 - walk->step;
    if ((control & PLAIN_PBV) != 0)
        walk->pitch = 0 - walk->pitch;
}

void plain_to_corner(struct plain_walk *walk, uint32_t columns, uint32_t rows, uint32_t control)
{
    if ((control & PLAIN_PBH) != 0)
        walk->start += (columns - 1) * walk->step;
    if ((control & PLAIN_PBV) != 0)
        walk->start += (rows - 1) * walk->pitch;
    plain_turn(walk, control);
}

uint32_t plain_end(const struct plain_walk *walk, uint32_t rows)
{
    return walk->start + rows * walk->pitch;
}

/* The operation of PP on S and D, whose masked bits are 0. Bits of the result above the pixel or
   under the mask may be set: the caller takes them off. */
static inline uint32_t operate(uint32_t pp, uint32_t top, uint32_t s, uint32_t d)
{
    switch (pp) {
    case 0: return s;
    case 1: return s & d;
    case 2: return s & ~d;
    case 3: return 0;
    case 4: return s | ~d;
    case 5: return ~(s ^ d);
    case 6: return ~d;
    case 7: return ~(s | d);
    case 8: return s | d;
    case 9: return d;
    case 10: return s ^ d;
    case 11: return ~s & d;
    case 12: return top;
    case 13: return ~s | d;
    case 14: return ~(s & d);
    case 15: return ~s;
    case 16: return s + d;
    case 17: return s + d < top ? s + d : top;
    case 18: return d - s;
    case 19: return d > s ? d - s : 0;
    case 20: return s > d ? s : d;
    case 21: return s < d ? s : d;
    }
    return 0;
}

/* What the pixel at `to` is drawn from; bits above the pixel may be set. */
static inline uint32_t source_at(const uint16_t *memory, const struct plain_drawing *drawing,
                                 uint32_t from, uint32_t to)
{
    uint32_t bit;
    switch (drawing->from) {
    case PLAIN_COLOR:
        return drawing->color1 >> (to & 15);
    case PLAIN_PIXELS:
        return (uint32_t)memory[from >> 4] >> (from & 15);
    case PLAIN_BITS:
        bit = ((uint32_t)memory[from >> 4] >> (from & 15)) & 1;
        return (bit ? drawing->color1 : drawing->color0) >> (to & 15);
    }
    return 0;
}

void plain_draw(uint16_t *memory, const struct plain_drawing *drawing)
{
    /* A copy: its fields can't change with the memory. */
    const struct plain_drawing d = *drawing;
    const uint32_t top = ((uint32_t)1 << d.psize) - 1;
    const uint32_t planes = ~d.pmask & 0xFFFF;
    uint32_t to_row = d.destination.start;
    uint32_t from_row = d.source.start;
    for (uint32_t row = 0; row < d.rows; row++) {
        uint32_t to = to_row;
        uint32_t from = from_row;
        for (uint32_t column = 0; column < d.columns; column++) {
            const uint32_t shift = to & 15;
            const uint32_t word = memory[to >> 4];
            const uint32_t keep = (planes >> shift) & top;
            const uint32_t s = source_at(memory, &d, from, to) & keep;
            const uint32_t result = operate(d.pp, top, s, (word >> shift) & keep) & keep;
            const uint32_t change = d.t & (result == 0) ? 0 : keep;
            memory[to >> 4] = (uint16_t)((word & ~(change << shift)) | result << shift);
            to += d.destination.step;
            from += d.source.step;
        }
        to_row += d.destination.pitch;
        from_row += d.source.pitch;
    }
}

/* The refusal's number, or 0. */
static inline uint32_t field_refusal(size_t words, uint32_t address, uint32_t size)
{
    if (words == 0 || words > 1048576)
        return 10;
    if (size == 0 || size > 32)
        return 18;
    if ((uint64_t)address + size > 16 * (uint64_t)words)
        return 17;
    return 0;
}

/* The words that a field lies in as one number, lowest first. */
static inline uint64_t words_of(const uint16_t *word, uint32_t bits)
{
    uint64_t value = word[0];
    if (bits > 16)
        value |= (uint64_t)word[1] << 16;
    if (bits > 32)
        value |= (uint64_t)word[2] << 32;
    return value;
}

uint32_t plain_field_read(const uint16_t *memory, size_t words, uint32_t address, uint32_t size,
                          uint32_t is_signed, uint32_t *out)
{
    const uint32_t answer = field_refusal(words, address, size);
    *out = 0;
    if (answer != 0)
        return answer;
    const uint32_t shift = address & 15;
    const uint64_t mask = ((uint64_t)1 << size) - 1;
    const uint64_t field = (words_of(memory + (address >> 4), shift + size) >> shift) & mask;
    const uint64_t top = (uint64_t)1 << (size - 1);
    *out = (uint32_t)(is_signed ? (field ^ top) - top : field);
    return 0;
}

uint32_t plain_field_write(uint16_t *memory, size_t words, uint32_t address, uint32_t size,
                           uint32_t value)
{
    const uint32_t answer = field_refusal(words, address, size);
    if (answer != 0)
        return answer;
    uint16_t *word = memory + (address >> 4);
    const uint32_t shift = address & 15;
    const uint64_t mask = (((uint64_t)1 << size) - 1) << shift;
    const uint64_t bits = (uint64_t)value << shift & mask;
    const uint64_t after = (words_of(word, shift + size) & ~mask) | bits;
    word[0] = (uint16_t)after;
    if (shift + size > 16)
        word[1] = (uint16_t)(after >> 16);
    if (shift + size > 32)
        word[2] = (uint16_t)(after >> 32);
    return 0;
}

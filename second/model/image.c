/* The generator and the image it makes over a memory. */
#include "model.h"

/* "a generator that is advanced in place at each draw: x xor (x shifted left 13, low 64 bits),
   then xor right 7, then xor left 17." */
uint64_t generator_draw(struct generator *g)
{
    g->x = g->x ^ (g->x << 13);
    g->x = g->x ^ (g->x >> 7);
    g->x = g->x ^ (g->x << 17);
    return g->x;
}

/* "Start at SEED; each new x gives four words, lowest first, cut off at the memory's end."
   Refusal 10: "memory is empty or above 1,048,576 words". */
int image_make(struct memory m, uint64_t seed)
{
    if (memory_is_bad(m))
        return REFUSED_MEMORY;
    struct generator g = { seed };
    uint64_t next = 0;
    while (next < m.words) {
        uint64_t x = generator_draw(&g);
        for (int part = 0; part < 4; part++) {
            if (next < m.words) {
                m.word[next] = (uint16_t)((x >> (16 * part)) & 0xFFFF);
                next = next + 1;
            }
        }
    }
    return DONE;
}

/* A whole FILL or PIXBLT from its settings, in plain C: window, refusals and drawing. */
#ifndef PLAIN_CALL_H
#define PLAIN_CALL_H

#include <stddef.h>
#include <stdint.h>

/* 0 or the refusal's number, and, where it is 0, the pixels visited, V, which is 0 before, the
   machine states of a FILL, 0 where it visits none, and the registers. */
struct plain_outcome {
    uint32_t answer;
    uint64_t visited;
    uint32_t v;
    uint64_t states;
    uint32_t saddr, daddr, dydx;
};

/* draw is 0 to 7, in the order of the plan's names of drawings; there are 13 settings. */
struct plain_outcome plain_call(uint16_t *memory, size_t words, uint32_t draw,
                                const uint32_t *settings);

#endif

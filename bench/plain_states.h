/* The time of a FILL in plain C: 000 section 13.3 and its tables 13-5 to 13-7. */
#ifndef PLAIN_STATES_H
#define PLAIN_STATES_H

#include <stdbool.h>
#include <stdint.h>

#include "plain.h"

/* What the setup depends on: the destination's kind, W, whether the window moves the start and the
   end corner, and CD. */
struct plain_setup {
    bool to_xy, windowed, start_moved, end_moved, uncached;
};

/* The machine states of a FILL that has pixels. */
uint64_t plain_states(const struct plain_drawing *drawing, const struct plain_setup *setup);

#endif

/* The instruction cache. */
#include "model.h"

/* "Fresh: no flags, addresses 0, segment 0 least recent and 3 latest." */
struct cache cache_fresh(void)
{
    struct cache c;
    for (uint32_t i = 0; i < SEGMENTS; i++) {
        c.segment[i].start = 0;
        for (int j = 0; j < SUBSEGMENTS; j++)
            c.segment[i].present[j] = false;
        c.order[i] = i;
    }
    return c;
}

/* A segment that "holds something" has at least one present flag. */
static bool holds_something(const struct segment *g)
{
    for (int j = 0; j < SUBSEGMENTS; j++) {
        if (g->present[j])
            return true;
    }
    return false;
}

/* Refusal 19: "a cache state's order isn't a permutation of its four segments". */
static bool order_is_permutation(const struct cache *c)
{
    for (uint32_t i = 0; i < SEGMENTS; i++) {
        int times = 0;
        for (int k = 0; k < SEGMENTS; k++) {
            if (c->order[k] == i)
                times = times + 1;
        }
        if (times != 1)
            return false;
    }
    return true;
}

/* Refusal 19: "a start address is above 2^23 - 1" (any segment's, held or not). */
static bool some_start_is_too_large(const struct cache *c)
{
    for (int i = 0; i < SEGMENTS; i++) {
        if (c->segment[i].start > 8388607)
            return true;
    }
    return false;
}

/* Refusal 19: "two segments that hold something have the same one". */
static bool two_held_starts_are_equal(const struct cache *c)
{
    for (int i = 0; i < SEGMENTS; i++) {
        for (int k = i + 1; k < SEGMENTS; k++) {
            if (holds_something(&c->segment[i]) && holds_something(&c->segment[k])
                && c->segment[i].start == c->segment[k].start)
                return true;
        }
    }
    return false;
}

/* Refusal 19, all of it. */
static bool cache_is_bad(const struct cache *c)
{
    return !order_is_permutation(c) || some_start_is_too_large(c) || two_held_starts_are_equal(c);
}

/* "the segment becomes the latest used": it leaves its place and goes to the end. */
static void make_latest(struct cache *c, uint32_t segment)
{
    uint32_t order[SEGMENTS];
    int filled = 0;
    for (int k = 0; k < SEGMENTS; k++) {
        if (c->order[k] != segment) {
            order[filled] = c->order[k];
            filled = filled + 1;
        }
    }
    order[filled] = segment;
    for (int k = 0; k < SEGMENTS; k++)
        c->order[k] = order[k];
}

/* "A segment without flags matches nothing." Gives SEGMENTS when none matches. */
static uint32_t matching_segment(const struct cache *c, uint32_t start)
{
    for (uint32_t i = 0; i < SEGMENTS; i++) {
        if (holds_something(&c->segment[i]) && c->segment[i].start == start)
            return i;
    }
    return SEGMENTS;
}

/* "Segment miss: the least recently used one gets the new address, loses all flags, gains one,
   and becomes latest." */
static void replace_segment(struct cache *c, uint32_t start, uint32_t subsegment)
{
    uint32_t oldest = c->order[0];
    c->segment[oldest].start = start;
    for (int j = 0; j < SUBSEGMENTS; j++)
        c->segment[oldest].present[j] = false;
    c->segment[oldest].present[subsegment] = true;
    make_latest(c, oldest);
}

/* "Each fetch takes a cache state and hands back the next, with hit, subsegment miss or segment
   miss." "a start address (bits 9-31, held as a 23-bit number)"; "Bits 6-8 choose the subsegment".
   "With CD (CONTROL bit 15) 1 every fetch reports disabled and the state stays." Refusal 19 also
   with CD 1; a refused fetch hands back the state as given. */
struct fetch_answer cache_fetch(struct cache given, uint32_t address, uint16_t control)
{
    struct fetch_answer r;
    r.next = given;
    if (cache_is_bad(&given)) {
        r.kind = FETCH_REFUSED;
        return r;
    }
    if (((control >> 15) & 1) == 1) {
        r.kind = DISABLED;
        return r;
    }
    uint32_t start = address >> 9;
    uint32_t subsegment = (address >> 6) & 7;
    uint32_t i = matching_segment(&r.next, start);
    if (i == SEGMENTS) {
        r.kind = SEGMENT_MISS;
        replace_segment(&r.next, start, subsegment);
    } else if (r.next.segment[i].present[subsegment]) {
        r.kind = HIT;
        make_latest(&r.next, i);
    } else {
        r.kind = SUBSEGMENT_MISS;
        r.next.segment[i].present[subsegment] = true;
        make_latest(&r.next, i);
    }
    return r;
}

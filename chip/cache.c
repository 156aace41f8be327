/* The instruction cache: 004 section 5.4. */
#include "figures.h"

#include <string.h>

static uint32_t fetch(uint32_t state[BH_CACHE_NUMBERS], uint32_t address, uint32_t control)
{
    uint32_t kind = BH_REFUSED;
    bh_fetch(state, BH_CACHE_NUMBERS, address, (uint16_t)control, &kind, 1);
    return kind;
}

/* ---- 5.4.1: the parts of an address ---- */

/* After a fetch at 0, a fetch at an address with only one bit 1: how many of the bits give the
   kind. */
static const struct part {
    struct figure figure;
    uint32_t from, to, kind;
    uint64_t printed;
} parts[] = {
    { { "004", "5.4.1", "bits 4-5, the word of a subsegment", "one of the four words", SAME },
      4, 5, BH_HIT, 2 },
    { { "004", "5.4.1", "bits 6-8, the subsegment", "one of the eight subsegments", SAME },
      6, 8, BH_SUBSEGMENT_MISS, 3 },
    { { "004", "5.4.1", "the 23 MSBs, the segment", "23 MSBs of the segment's address", SAME },
      9, 31, BH_SEGMENT_MISS, 23 },
};

static void run_parts(void)
{
    for (size_t i = 0; i < COUNT_OF(parts); i++) {
        uint64_t got = 0;
        for (uint32_t bit = parts[i].from; bit <= parts[i].to; bit++) {
            uint32_t state[BH_CACHE_NUMBERS] = BH_CACHE_FRESH;
            fetch(state, 0, 0);
            got += fetch(state, (uint32_t)1 << bit, 0) == parts[i].kind;
        }
        settle(&parts[i].figure, "bits", 1, &parts[i].printed, NULL, &got);
    }
}

/* ---- Loops ---- */

/* A loop of words from address 0 on, after a reset; the last `disabled` words are fetched with
   CD=1. The numbers are of its last pass: hits, misses, segment misses among them, fetches with the
   cache disabled. */
static const struct loop {
    struct figure figure;
    uint32_t words, disabled, passes;
    uint64_t printed[4];
} loops[] = {
    { { "004", "5.4.2", "first fetch after a reset", "all P flags in the cache are set to 0",
        SAME },
      1, 0, 1, { 0, 1, NOT_PRINTED, 0 } },
    { { "004", "5.4.1", "128 words, first pass", "four segments, eight subsegments, four words",
        SAME },
      128, 0, 1, { 96, 32, 4, 0 } },
    { { "004", "5.4.1", "128 words, second pass", "up to 128 16-bit instruction words", SAME },
      128, 0, 2, { 128, 0, 0, 0 } },
    { { "004", "5.4.6", "a loop of 256 bytes and a subsegment, third pass", "thrashing", WORKED },
      132, 0, 3, { 99, 33, 5, 0 } },
    { { "004", "5.4.6", "the same, CD=1 in that subsegment", "prevent .. from being replaced",
        WORKED },
      132, 4, 3, { 128, 0, 0, 4 } },
    { { "004", "5.4.7", "256 words, each used once", "a cache miss every fourth word", SAME },
      256, 0, 1, { 192, 64, 8, 0 } },
};

static void run_loops(void)
{
    for (size_t i = 0; i < COUNT_OF(loops); i++) {
        uint32_t state[BH_CACHE_NUMBERS] = BH_CACHE_FRESH;
        uint64_t got[4];
        for (uint32_t pass = 0; pass < loops[i].passes; pass++) {
            memset(got, 0, sizeof got);
            for (uint32_t word = 0; word < loops[i].words; word++) {
                bool disabled = word + loops[i].disabled >= loops[i].words;
                uint32_t kind = fetch(state, word * 16, disabled ? CD : 0);
                got[0] += kind == BH_HIT;
                got[1] += kind == BH_SUBSEGMENT_MISS || kind == BH_SEGMENT_MISS;
                got[2] += kind == BH_SEGMENT_MISS;
                got[3] += kind == BH_DISABLED;
            }
        }
        settle(&loops[i].figure, "hits, misses, segment misses, disabled", 4, loops[i].printed,
               NULL, got);
    }
}

/* ---- 5.4.2 and 5.4.3: what a fetch does ---- */

/* First the four segments are loaded, by fetches at 0, 64, 512, 1024 and 1536 after a reset:
   segment 0 has two subsegments, the others one, and segment 0 is the least recently used (that the
   numbers 0 to 3 stand in this order after a reset is the scope's reading). Then the fetch.
   Numbers: its kind, four start addresses, flags of four segments, and the order, the least recent
   first. */
enum { FETCH_NUMBERS = 1 + BH_CACHE_NUMBERS };

static const struct step {
    struct figure figure;
    bool loaded;
    uint32_t address, control;
    uint64_t printed[FETCH_NUMBERS];
} steps[] = {
    { { "004", "5.4.2", "the cache after a reset", "all P flags .. 0, in numerical order (0-3)",
        SAME },
      false, 0, CD,
      { BH_DISABLED, NOT_PRINTED, NOT_PRINTED, NOT_PRINTED, NOT_PRINTED, 0, 0, 0, 0, 0, 1, 2, 3 } },
    { { "004", "5.4.3", "cache hit in segment 1", "moved to the top of the LRU stack", WORKED },
      true, 512 + 16, 0, { BH_HIT, 0, 1, 2, 3, 3, 1, 1, 1, 0, 2, 3, 1 } },
    { { "004", "5.4.3", "subsegment miss in segment 2", "top of the stack; P flag is set", WORKED },
      true, 1024 + 3 * 64, 0, { BH_SUBSEGMENT_MISS, 0, 1, 2, 3, 3, 1, 9, 1, 0, 1, 3, 2 } },
    { { "004", "5.4.3", "segment miss at >12345670",
        "least recently used; flags cleared; 23 MSBs; P flag set; from the bottom to the top",
        WORKED },
      true, 0x12345670, 0,
      { BH_SEGMENT_MISS, 0x12345670 >> 9, 1, 2, 3,
        1 << (0x12345670 >> 6 & 7), 1, 1, 1, 1, 2, 3, 0 } },
    { { "004", "5.4.6", "fetch of a word in the cache, CD=1", "protected from change", WORKED },
      true, 512, CD, { BH_DISABLED, 0, 1, 2, 3, 3, 1, 1, 1, 0, 1, 2, 3 } },
    { { "004", "5.4.6", "fetch of a word not in the cache, CD=1", "protected from change", WORKED },
      true, 0x12345670, CD, { BH_DISABLED, 0, 1, 2, 3, 3, 1, 1, 1, 0, 1, 2, 3 } },
};

static void run_steps(void)
{
    static const uint32_t loads[] = { 0, 64, 512, 1024, 1536 };
    for (size_t i = 0; i < COUNT_OF(steps); i++) {
        uint32_t state[BH_CACHE_NUMBERS] = BH_CACHE_FRESH;
        uint64_t got[FETCH_NUMBERS];
        for (size_t k = 0; steps[i].loaded && k < COUNT_OF(loads); k++)
            fetch(state, loads[k], 0);
        got[0] = fetch(state, steps[i].address, steps[i].control);
        for (size_t k = 0; k < BH_CACHE_NUMBERS; k++)
            got[1 + k] = state[k];
        settle(&steps[i].figure, "kind, starts, flags, order", FETCH_NUMBERS, steps[i].printed,
               NULL, got);
    }
}

/* "When the CD bit is set back to 0, the state of the cache prior to setting the CD bit to 1 is
   restored": 128 words, 256 others with CD=1, the 128 again. */
static void run_restored(void)
{
    const struct figure figure = { "004", "5.4.6", "128 words after 256 others with CD=1",
                                   "once again available for execution", WORKED };
    const uint64_t printed[2] = { 256, 128 };
    uint32_t state[BH_CACHE_NUMBERS] = BH_CACHE_FRESH;
    uint64_t got[2] = { 0, 0 };
    for (uint32_t word = 0; word < 128; word++)
        fetch(state, word * 16, 0);
    for (uint32_t word = 128; word < 384; word++)
        got[0] += fetch(state, word * 16, CD) == BH_DISABLED;
    for (uint32_t word = 0; word < 128; word++)
        got[1] += fetch(state, word * 16, 0) == BH_HIT;
    settle(&figure, "disabled, hits", 2, printed, NULL, got);
}

void cache_figures(void)
{
    run_parts();
    run_loops();
    run_steps();
    run_restored();
}

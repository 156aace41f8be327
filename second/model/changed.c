/* The count of bits that differ between two memories. */
#include "model.h"

/* A bit of a memory; bits past its end count as 0. */
static int bit_or_zero(struct memory m, uint64_t address)
{
    if (address >= 16 * m.words)
        return 0;
    return bit_get(m, address);
}

/* "`changed` counts memory bits that differ from the image." Refusal 10 for either memory. */
struct changed_answer changed_bits(struct memory a, struct memory b)
{
    struct changed_answer r = { DONE, 0 };
    if (memory_is_bad(a) || memory_is_bad(b)) {
        r.answer = REFUSED_MEMORY;
        return r;
    }
    uint64_t words = a.words > b.words ? a.words : b.words;
    for (uint64_t address = 0; address < 16 * words; address++) {
        if (bit_or_zero(a, address) != bit_or_zero(b, address))
            r.count = r.count + 1;
    }
    return r;
}

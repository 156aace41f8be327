/* How libFuzzer changes a drawing: every other time by bytes, as it changes anything; else one to
   three numbers become others, and the rest stays in its place. */
#include "draw_bytes.h"
#include "fuzz.h"

#include <string.h>

/* A number's place in the bytes. */
struct part {
    size_t at, bytes;
};

#define BYTES_FIRST 4
#define BYTES_LAST 8
#define PARTS (BYTES_FIRST + LONG_SETTINGS + SHORT_SETTINGS + 2 + BYTES_LAST)

/* The numbers before the memory's contents, in their order. */
static struct part part_of(size_t k)
{
    size_t bytes[PARTS], at = 0;
    for (size_t i = 0; i < PARTS; i++) {
        if (i < BYTES_FIRST || i >= PARTS - BYTES_LAST)
            bytes[i] = 1;
        else if (i < BYTES_FIRST + LONG_SETTINGS)
            bytes[i] = 4;
        else
            bytes[i] = i < BYTES_FIRST + LONG_SETTINGS + SHORT_SETTINGS ? 2 : 8;
    }
    for (size_t i = 0; i < k; i++)
        at += bytes[i];
    struct part p = { at, bytes[k] };
    return p;
}

static uint64_t get(const uint8_t *data, struct part p)
{
    uint64_t number = 0;
    for (size_t i = 0; i < p.bytes; i++)
        number = number | (uint64_t)data[p.at + i] << (8 * i);
    return number;
}

static void put(uint8_t *data, struct part p, uint64_t number)
{
    for (size_t i = 0; i < p.bytes; i++)
        data[p.at + i] = (uint8_t)(number >> (8 * i));
}

/* One more or less in the low half or in the high one, twice or half, another's, another bit of the
   low half, or any. */
static uint64_t changed(const uint8_t *data, uint64_t number)
{
    switch (random64() % 9) {
    case 0: return number + 1;
    case 1: return number - 1;
    case 2: return number + 65536;
    case 3: return number - 65536;
    case 4: return random64() % 2 == 0 ? number * 2 : number / 2;
    case 5: return get(data, part_of(random64() % PARTS));
    case 6: return number ^ (uint64_t)1 << random64() % 16;
    }
    return random_number();
}

size_t LLVMFuzzerCustomMutator(uint8_t *data, size_t size, size_t most, unsigned int seed)
{
    random_start(seed);
    if (most < AT_MEMORY || random64() % 2 == 0)
        return LLVMFuzzerMutate(data, size, most);
    if (size < AT_MEMORY) {
        memset(data + size, 0, AT_MEMORY - size);
        size = AT_MEMORY;
    }
    for (uint64_t more = random64() % 3; more < 3; more++) {
        struct part p = part_of(random64() % PARTS);
        put(data, p, changed(data, get(data, p)));
    }
    return size;
}

/* How libFuzzer changes a plan: every other time by bytes, as it changes anything; else one number
   of the text becomes another one, so that the form stays. */
#include "fuzz.h"

#include <string.h>

/* ---- Numbers of the text ---- */

/* A run of digits. */
struct run {
    size_t start, length;
};

static int is_digit(uint8_t byte)
{
    return byte >= '0' && byte <= '9';
}

/* The first run from a place on; its length is 0 where there is none. */
static struct run run_from(const uint8_t *data, size_t size, size_t place)
{
    struct run r = { place, 0 };
    while (r.start < size && !is_digit(data[r.start]))
        r.start++;
    while (r.start + r.length < size && is_digit(data[r.start + r.length]))
        r.length++;
    return r;
}

/* Some run, each about as likely as it is long with what stands before it. */
static struct run random_run(const uint8_t *data, size_t size)
{
    size_t place = random64() % size;
    while (place > 0 && is_digit(data[place - 1]))
        place--;
    return run_from(data, size, place);
}

/* The text of a number, or of one that the plan has already. */
static size_t new_number(const uint8_t *data, size_t size, char text[32])
{
    struct run other = random_run(data, size);
    if (random64() % 8 == 0 && other.length > 0 && other.length < 32) {
        memcpy(text, data + other.start, other.length);
        return other.length;
    }
    return (size_t)snprintf(text, 32, "%llu", (unsigned long long)random_number());
}

size_t LLVMFuzzerCustomMutator(uint8_t *data, size_t size, size_t most, unsigned int seed)
{
    char text[32];
    random_start(seed);
    if (size == 0 || random64() % 2 == 0)
        return LLVMFuzzerMutate(data, size, most);
    struct run r = random_run(data, size);
    size_t length = new_number(data, size, text);
    if (r.length == 0 || size - r.length + length > most)
        return LLVMFuzzerMutate(data, size, most);
    size_t behind = r.start + r.length;
    memmove(data + r.start + length, data + behind, size - behind);
    memcpy(data + r.start, text, length);
    return size - r.length + length;
}

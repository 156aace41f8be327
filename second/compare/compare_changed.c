/* Changed bits: bh_changed and the model's count, bit by bit. */
#include "compare.h"

#include <string.h>

/* The words shown of each memory. */
#define SHOWN 8

/* More than four times the 1,024 words that the library counts at once. */
#define MANY 5000

static uint16_t mine[MANY];
static uint16_t other[MANY];

void compare_changed(const uint16_t *a, uint64_t words_a, const uint16_t *b, uint64_t words_b,
                     size_t length)
{
    struct memory ma = { (uint16_t *)a, words_a }, mb = { (uint16_t *)b, words_b };
    uint64_t out[2] = { GUARD, GUARD };
    calls++;
    uint32_t answer = bh_changed(a, words_a, b, words_b, out, length);
    struct changed_answer r = changed_bits(ma, mb);
    uint32_t wanted = length < 1 ? BH_BAD_ARGUMENT : (uint32_t)r.answer;
    uint64_t count = length < 1 ? GUARD : r.count;
    if (answer == wanted && out[0] == count && out[1] == GUARD)
        return;
    print_case("changed");
    printf("  words %llu and %llu, out length %lu\n", (unsigned long long)words_a,
           (unsigned long long)words_b, (unsigned long)length);
    print_words("first words of the one", a, words_a < SHOWN ? words_a : SHOWN);
    print_words("first words of the other", b, words_b < SHOWN ? words_b : SHOWN);
    printf("  library answers %lu, %llu bits; model %lu, %llu\n", (unsigned long)answer,
           (unsigned long long)out[0], (unsigned long)wanted, (unsigned long long)count);
    stop();
}

static void fill_random(void)
{
    for (size_t i = 0; i < MANY; i++) {
        mine[i] = (uint16_t)random32();
        other[i] = (uint16_t)random32();
    }
}

/* Every pair of small lengths, none among them; every pair of these, which lie around the pieces
   that are counted at once; all bits different and by chance. */
static void length_edges(void)
{
    static const uint64_t edge[] = { 1,    7,    8,    15,   17,   1000, 1023, 1024, 1025,
                                     1039, 2047, 2048, 2049, 4095, 4096, 4097, MANY };
    size_t edges = sizeof edge / sizeof edge[0];
    fill_random();
    for (uint64_t i = 0; i <= 40; i++) {
        for (uint64_t j = 0; j <= 40; j++)
            compare_changed(mine, i, other, j, 1);
    }
    for (int full = 0; full <= 1; full++) {
        if (full) {
            memset(mine, 0, sizeof mine);
            memset(other, 0xFF, sizeof other);
        }
        for (size_t i = 0; i < edges; i++) {
            for (size_t j = 0; j < edges; j++)
                compare_changed(mine, edge[i], other, edge[j], 1);
        }
    }
}

/* Every difference of a word, and one bit different at every word of two pieces and a part. */
static void word_edges(void)
{
    enum { WORDS = 2100 };
    fill_random();
    for (uint32_t difference = 0; difference <= 0xFFFF; difference++) {
        other[1] = (uint16_t)(mine[1] ^ difference);
        compare_changed(mine, 3, other, 3, 1);
    }
    memcpy(other, mine, sizeof other);
    for (size_t i = 0; i < WORDS; i++) {
        other[i] ^= (uint16_t)(1u << random_below(16));
        compare_changed(mine, WORDS, other, WORDS, 1);
        other[i] = mine[i];
    }
}

void changed_edges(void)
{
    length_edges();
    word_edges();
}

void random_long_changed(void)
{
    fill_random();
    compare_changed(mine, random_below(MANY + 1), other, random_below(MANY + 1), 1);
}

/* Writes test vectors to standard output.

   Each line has exactly 20 numbers of 8 upper-case hex digits, parted by one space; the numbers
   that a kind doesn't use are 00000000. The first number is the kind:
   1 field read, 2 field write, 3 cycles, 4 MOVE states, 5 fetch, 6 image, 7 changed.
   The numbers of each kind are listed above the function that writes it. */
#include "model.h"

#include <stdlib.h>
#include <string.h>

#define NUMBERS 20

struct line {
    uint32_t number[NUMBERS];
    int filled;
};

/* ---- Random numbers for the inputs (unlike the scope's generator on purpose) ---- */

static uint64_t random_state;

static uint32_t random32(void)
{
    random_state = random_state + 0x9E3779B97F4A7C15u;
    uint64_t z = random_state;
    z = (z ^ (z >> 30)) * 0xBF58476D1CE4E5B9u;
    z = (z ^ (z >> 27)) * 0x94D049BB133111EBu;
    z = z ^ (z >> 31);
    return (uint32_t)(z >> 32);
}

/* A number from 0 to limit - 1. */
static uint32_t random_below(uint32_t limit)
{
    return random32() % limit;
}

static uint16_t random_word(void)
{
    return (uint16_t)(random32() & 0xFFFF);
}

/* ---- Lines ---- */

static struct line line_of_kind(uint32_t kind)
{
    struct line l;
    memset(&l, 0, sizeof l);
    l.number[0] = kind;
    l.filled = 1;
    return l;
}

static void add(struct line *l, uint32_t number)
{
    if (l->filled == NUMBERS) {
        fprintf(stderr, "a vector has more than %d numbers\n", NUMBERS);
        exit(1);
    }
    l->number[l->filled] = number;
    l->filled = l->filled + 1;
}

/* Adds `slots` numbers: the words, then 0 where past `words`. */
static void add_words(struct line *l, const uint16_t *word, uint32_t words, uint32_t slots)
{
    for (uint32_t i = 0; i < slots; i++)
        add(l, i < words ? word[i] : 0);
}

static void write_line(const struct line *l)
{
    for (int i = 0; i < NUMBERS; i++)
        printf("%08lX%c", (unsigned long)l->number[i], i == NUMBERS - 1 ? '\n' : ' ');
}

/* ---- Kinds 1 and 2: fields ---- */

/* 1: words, address, size, signed, m0..m3, answer, value. */
static void vector_read(const uint16_t *word, uint32_t words, uint32_t address, uint32_t size,
                        uint32_t is_signed)
{
    uint16_t copy[4];
    memcpy(copy, word, sizeof copy);
    struct memory m = { copy, words };
    struct read_answer r = field_read(m, address, size, is_signed == 1);
    struct line l = line_of_kind(1);
    add(&l, words);
    add(&l, address);
    add(&l, size);
    add(&l, is_signed);
    add_words(&l, word, words, 4);
    add(&l, (uint32_t)r.answer);
    add(&l, r.value);
    write_line(&l);
}

/* 2: words, address, size, value, m0..m3, answer, m0..m3 after. */
static void vector_write(const uint16_t *word, uint32_t words, uint32_t address, uint32_t size,
                         uint32_t value)
{
    uint16_t copy[4];
    memcpy(copy, word, sizeof copy);
    struct memory m = { copy, words };
    int answer = field_write(m, address, size, value);
    struct line l = line_of_kind(2);
    add(&l, words);
    add(&l, address);
    add(&l, size);
    add(&l, value);
    add_words(&l, word, words, 4);
    add(&l, (uint32_t)answer);
    add_words(&l, copy, words, 4);
    write_line(&l);
}

static void random_words(uint16_t word[4])
{
    for (int i = 0; i < 4; i++)
        word[i] = random_word();
}

/* A read and a write with random words, value and sign. */
static void vector_read_and_write(uint32_t words, uint32_t address, uint32_t size)
{
    uint16_t word[4];
    random_words(word);
    vector_read(word, words, address, size, random_below(2));
    random_words(word);
    vector_write(word, words, address, size, random32());
}

/* A random address with this alignment at which the field fits into four words. */
static uint32_t fitting_address(uint32_t alignment, uint32_t size)
{
    uint32_t address = alignment;
    uint32_t steps = random_below(4);
    for (uint32_t i = 0; i < steps; i++) {
        if (address + 16 + size <= 64)
            address = address + 16;
    }
    return address;
}

/* Every size at every alignment, both signs. */
static void fields_of_every_shape(void)
{
    uint16_t word[4];
    for (uint32_t size = 1; size <= 32; size++) {
        for (uint32_t alignment = 0; alignment < 16; alignment++) {
            random_words(word);
            uint32_t address = fitting_address(alignment, size);
            vector_read(word, 4, address, size, 0);
            vector_read(word, 4, address, size, 1);
            random_words(word);
            address = fitting_address(alignment, size);
            vector_write(word, 4, address, size, random32());
        }
    }
}

/* Fields that end at the memory's end, one bit past it, and fields that start there. */
static void fields_at_the_end(void)
{
    static const uint32_t size[4] = { 1, 16, 17, 32 };
    for (uint32_t words = 0; words <= 4; words++) {
        for (int i = 0; i < 4; i++) {
            uint32_t end = 16 * words;
            if (end >= size[i])
                vector_read_and_write(words, end - size[i], size[i]);
            if (end + 1 >= size[i])
                vector_read_and_write(words, end + 1 - size[i], size[i]);
            vector_read_and_write(words, end, size[i]);
        }
    }
}

/* Addresses far past the end and near 2^32 - 1, where the field's last bits would wrap. */
static void fields_far_away(void)
{
    static const uint32_t address[7] = { 0xFFFFFFFFu, 0xFFFFFFF0u, 0xFFFFFFE1u, 0xFFFFFFE0u,
                                         0x01000000u, 0x80000000u, 0x00000400u };
    static const uint32_t size[4] = { 1, 16, 17, 32 };
    for (int i = 0; i < 7; i++) {
        for (int k = 0; k < 4; k++)
            vector_read_and_write(1 + random_below(4), address[i], size[k]);
    }
}

static const uint32_t bad_size[7] = { 0, 33, 34, 64, 0x80000000u, 0x80000010u, 0xFFFFFFFFu };

/* Bad sizes: alone, with no memory (10 comes first) and past the end (18 comes before 17). */
static void fields_of_bad_size(void)
{
    for (int i = 0; i < 7; i++) {
        uint32_t words = 1 + random_below(4);
        uint32_t far_address = 0xFFFFFFF0u + random_below(16);
        vector_read_and_write(4, random_below(64), bad_size[i]);
        vector_read_and_write(0, 0, bad_size[i]);
        vector_read_and_write(words, far_address, bad_size[i]);
    }
}

/* Few words, all zeros and all ones, so that neighbours of the field show. */
static void fields_over_plain_words(void)
{
    static const uint16_t zeros[4] = { 0, 0, 0, 0 };
    static const uint16_t ones[4] = { 0xFFFF, 0xFFFF, 0xFFFF, 0xFFFF };
    for (uint32_t words = 1; words <= 4; words++) {
        for (int i = 0; i < 3; i++) {
            uint32_t size = 1 + random_below(words == 1 ? 16 : 32);
            uint32_t address = random_below(16 * words - size + 1);
            vector_write(zeros, words, address, size, 0xFFFFFFFFu);
            vector_write(ones, words, address, size, 0);
            vector_read(ones, words, address, size, 0);
            vector_read(ones, words, address, size, 1);
        }
    }
}

/* The scope: "Size 8 at address 12 over words F000h, 000Ah reads AFh, signed FFFFFFAFh". */
static void fields_of_the_scope(void)
{
    static const uint16_t word[4] = { 0xF000, 0x000A, 0, 0 };
    vector_read(word, 2, 12, 8, 0);
    vector_read(word, 2, 12, 8, 1);
    vector_write(word, 2, 12, 8, 0xAF);
    vector_write(word, 2, 12, 8, 0x50);
    vector_read(word, 1, 12, 8, 0);
    vector_read(word, 2, 25, 8, 0);
}

/* ---- Kinds 3 and 4: counts ---- */

/* 3: address, size, answer, read cycles, write cycles. */
static void vector_cycles(uint32_t address, uint32_t size)
{
    struct cycles_answer r = field_cycles(address, size);
    struct line l = line_of_kind(3);
    add(&l, address);
    add(&l, size);
    add(&l, (uint32_t)r.answer);
    add(&l, r.read);
    add(&l, r.write);
    write_line(&l);
}

/* 4: address, size, mode, signed, cached, answer, states. */
static void vector_states(uint32_t address, uint32_t size, uint32_t mode, uint32_t is_signed,
                          uint32_t cached)
{
    struct states_answer r =
        move_states(address, size, (enum move_mode)mode, is_signed == 1, cached == 1);
    struct line l = line_of_kind(4);
    add(&l, address);
    add(&l, size);
    add(&l, mode);
    add(&l, is_signed);
    add(&l, cached);
    add(&l, (uint32_t)r.answer);
    add(&l, r.states);
    write_line(&l);
}

/* States with the sign and the cache at random. */
static void vector_states_either_way(uint32_t address, uint32_t size, uint32_t mode)
{
    uint32_t is_signed = random_below(2);
    uint32_t cached = random_below(2);
    vector_states(address, size, mode, is_signed, cached);
}

/* Every size at every alignment, at any address of 32 bits; the modes take turns. */
static void counts_of_every_shape(void)
{
    uint32_t turn = 0;
    for (uint32_t size = 1; size <= 32; size++) {
        for (uint32_t alignment = 0; alignment < 16; alignment++) {
            vector_cycles((random32() & 0xFFFFFFF0u) + alignment, size);
            vector_states_either_way((random32() & 0xFFFFFFF0u) + alignment, size, turn % 3);
            turn = turn + 1;
        }
    }
}

/* One shape of each case A to G in all twelve ways. */
static void states_in_every_way(void)
{
    static const uint32_t alignment[7] = { 0, 4, 0, 8, 0, 12, 9 };
    static const uint32_t size[7] = { 16, 12, 32, 24, 20, 8, 24 };
    for (int i = 0; i < 7; i++) {
        for (uint32_t mode = 0; mode < 3; mode++) {
            for (uint32_t is_signed = 0; is_signed < 2; is_signed++) {
                vector_states(alignment[i], size[i], mode, is_signed, 0);
                vector_states(alignment[i], size[i], mode, is_signed, 1);
            }
        }
    }
}

/* Bad sizes, and addresses at both ends of the 32 bits. */
static void counts_at_the_edges(void)
{
    for (uint32_t i = 0; i < 7; i++) {
        vector_cycles(random32(), bad_size[i]);
        vector_cycles(0, bad_size[i]);
        vector_states_either_way(random32(), bad_size[i], i % 3);
        vector_states_either_way(0, bad_size[i], (i + 1) % 3);
    }
    vector_cycles(0xFFFFFFFFu, 1);
    vector_cycles(0xFFFFFFFFu, 32);
    vector_cycles(0, 1);
    vector_states(0xFFFFFFFFu, 1, 0, 0, 1);
    vector_states(0xFFFFFFFFu, 32, 2, 1, 0);
    vector_states(0, 1, 1, 1, 1);
}

/* ---- Kind 5: fetches ---- */

/* Segment i's eight flags are bits 8i to 8i+7. */
static uint32_t flags_number(const struct cache *c)
{
    uint32_t number = 0;
    for (int i = 0; i < SEGMENTS; i++) {
        for (int j = 0; j < SUBSEGMENTS; j++) {
            if (c->segment[i].present[j])
                number = number | ((uint32_t)1 << (8 * i + j));
        }
    }
    return number;
}

/* Four bytes, least recent in the low byte. */
static uint32_t order_number(const struct cache *c)
{
    uint32_t number = 0;
    for (int k = 0; k < SEGMENTS; k++)
        number = number | ((c->order[k] & 0xFF) << (8 * k));
    return number;
}

static struct cache cache_of_numbers(const uint32_t start[4], uint32_t flags, uint32_t order)
{
    struct cache c;
    for (int i = 0; i < SEGMENTS; i++) {
        c.segment[i].start = start[i];
        for (int j = 0; j < SUBSEGMENTS; j++)
            c.segment[i].present[j] = ((flags >> (8 * i + j)) & 1) == 1;
        c.order[i] = (order >> (8 * i)) & 0xFF;
    }
    return c;
}

static void add_cache_starts(struct line *l, const struct cache *c)
{
    for (int i = 0; i < SEGMENTS; i++)
        add(l, c->segment[i].start);
}

/* 5: start0..start3, flags, order, address, control, kind, start0..start3, flags, order after.
   Hands back the state that the fetch left. */
static struct cache vector_fetch(struct cache c, uint32_t address, uint16_t control)
{
    struct fetch_answer r = cache_fetch(c, address, control);
    struct line l = line_of_kind(5);
    add_cache_starts(&l, &c);
    add(&l, flags_number(&c));
    add(&l, order_number(&c));
    add(&l, address);
    add(&l, control);
    add(&l, (uint32_t)r.kind);
    add_cache_starts(&l, &r.next);
    add(&l, flags_number(&r.next));
    add(&l, order_number(&r.next));
    write_line(&l);
    return r.next;
}

/* The scope: "Fresh cache, fetches at 0, 64, 16, 512, 1024, 1536, 2048, 0". */
static void fetches_of_the_scope(void)
{
    static const uint32_t address[8] = { 0, 64, 16, 512, 1024, 1536, 2048, 0 };
    struct cache c = cache_fresh();
    for (int i = 0; i < 8; i++)
        c = vector_fetch(c, address[i], 0);
}

/* CONTROL with CD as asked and the other bits at random. */
static uint16_t control_with_cd(uint32_t cd)
{
    return (uint16_t)((random32() & 0x7FFF) | (cd << 15));
}

/* A walk over `places` start addresses; CD is 1 once in ten. */
static void fetch_walk(struct cache c, const uint32_t *start, uint32_t places, int steps)
{
    for (int i = 0; i < steps; i++) {
        uint32_t address = start[random_below(places)] << 9;
        address = address | random_below(512);
        uint32_t cd = random_below(10) == 0 ? 1 : 0;
        c = vector_fetch(c, address, control_with_cd(cd));
    }
}

/* Walks over two to eight addresses: few of them hit often, many miss often. */
static void fetch_walks(void)
{
    for (uint32_t places = 2; places <= 8; places = places + 2) {
        uint32_t start[8] = { 0, 0x7FFFFF, 0, 0, 0, 0, 0, 0 };
        for (int i = 2; i < 8; i++)
            start[i] = random_below(0x800000);
        fetch_walk(cache_fresh(), start, places, 35);
    }
}

/* A random order of the four segments, as four bytes. */
static uint32_t random_order(void)
{
    uint32_t segment[4] = { 0, 1, 2, 3 };
    uint32_t order = 0;
    for (uint32_t left = 4; left > 0; left--) {
        uint32_t pick = random_below(left);
        order = (order << 8) | segment[pick];
        segment[pick] = segment[left - 1];
    }
    return order;
}

/* Walks from states that no fresh cache need reach: any order, any flags, and a segment without
   flags whose address another one holds. */
static void fetch_walks_from_odd_states(void)
{
    for (uint32_t i = 0; i < 10; i++) {
        uint32_t start[4];
        for (int k = 0; k < 4; k++)
            start[k] = random_below(0x800000);
        uint32_t flags = random32() | 0x01010101u;
        if (i % 2 == 1) {
            uint32_t empty = random_below(4);
            flags = flags & ~((uint32_t)0xFF << (8 * empty));
            if (i % 4 == 3)
                start[empty] = start[(empty + 1 + random_below(3)) % 4];
        }
        fetch_walk(cache_of_numbers(start, flags, random_order()), start, 4, 6);
    }
}

/* One state with CD 0 and CD 1, at the address of its segment 1. */
static void fetch_both_ways(const uint32_t start[4], uint32_t flags, uint32_t order)
{
    struct cache c = cache_of_numbers(start, flags, order);
    uint32_t address = (start[1] << 9) | random_below(512);
    vector_fetch(c, address, control_with_cd(0));
    vector_fetch(c, address, control_with_cd(1));
}

/* Orders that aren't permutations: a segment twice, values above 3. */
static void fetches_with_bad_orders(void)
{
    static const uint32_t order[9] = { 0x03020100, 0x03020101, 0x00000000, 0x03030303, 0x04020100,
                                       0x03020104, 0xFF020100, 0x030201FF, 0x01020301 };
    static const uint32_t start[4] = { 5, 6, 7, 8 };
    for (int i = 0; i < 9; i++) {
        fetch_both_ways(start, random32() | 0x01010101u, order[i]);
        fetch_both_ways(start, 0, order[i]);
    }
}

/* Start addresses at and above 2^23 - 1, with and without flags. */
static void fetches_with_large_starts(void)
{
    static const uint32_t large[5] = { 0x7FFFFF, 0x800000, 0x800001, 0x80000000u, 0xFFFFFFFFu };
    for (uint32_t i = 0; i < 5; i++) {
        for (uint32_t k = 0; k < 4; k++) {
            uint32_t start[4] = { 1, 2, 3, 4 };
            start[k] = large[i];
            uint32_t flags = random32() | 0x01010101u;
            if (k % 2 == 1)
                fetch_both_ways(start, flags, random_order());
            else
                fetch_both_ways(start, flags & ~((uint32_t)0xFF << (8 * k)), random_order());
        }
    }
}

/* Two equal start addresses: both held, one held, none held; every pair. */
static void fetches_with_equal_starts(void)
{
    for (uint32_t i = 0; i < 4; i++) {
        for (uint32_t k = i + 1; k < 4; k++) {
            uint32_t start[4] = { 10, 20, 30, 40 };
            start[k] = start[i];
            uint32_t flags = random32() | 0x80808080u;
            uint32_t without_i = flags & ~((uint32_t)0xFF << (8 * i));
            uint32_t without_k = flags & ~((uint32_t)0xFF << (8 * k));
            fetch_both_ways(start, flags, random_order());
            fetch_both_ways(start, without_i, random_order());
            fetch_both_ways(start, without_k, random_order());
            fetch_both_ways(start, without_i & without_k, random_order());
        }
    }
}

/* ---- Kind 6: images ---- */

/* 6: seed low, seed high, words, word 0..11, answer. */
static void vector_image(uint64_t seed, uint32_t words)
{
    uint16_t word[12] = { 0 };
    struct memory m = { word, words };
    int answer = image_make(m, seed);
    struct line l = line_of_kind(6);
    add(&l, (uint32_t)(seed & 0xFFFFFFFFu));
    add(&l, (uint32_t)(seed >> 32));
    add(&l, words);
    add_words(&l, word, words, 12);
    add(&l, (uint32_t)answer);
    write_line(&l);
}

/* A random number of 64 bits. */
static uint64_t random64(void)
{
    uint64_t high = random32();
    uint64_t low = random32();
    return (high << 32) | low;
}

/* Every length, the scope's seed 1, seeds at the edges, and pairs that differ in the high half. */
static void images(void)
{
    for (uint32_t words = 0; words <= 12; words++) {
        vector_image(1, words);
        vector_image(random64(), words);
    }
    static const uint64_t seed[7] = { 0, 2, 0x80000000u, 0xFFFFFFFFu, (uint64_t)1 << 32,
                                      (uint64_t)1 << 63, UINT64_MAX };
    for (int i = 0; i < 7; i++)
        vector_image(seed[i], 12);
    for (int i = 0; i < 10; i++) {
        uint64_t low = random32();
        vector_image(low, 12);
        vector_image(low | ((uint64_t)random32() << 32), 12);
        vector_image(low | ((uint64_t)1 << 63), 1 + random_below(12));
    }
}

/* ---- Kind 7: changed ---- */

/* 7: words a, words b, a0..a3, b0..b3, answer, count. */
static void vector_changed(uint16_t *a, uint32_t words_a, uint16_t *b, uint32_t words_b)
{
    struct memory ma = { a, words_a };
    struct memory mb = { b, words_b };
    struct changed_answer r = changed_bits(ma, mb);
    struct line l = line_of_kind(7);
    add(&l, words_a);
    add(&l, words_b);
    add_words(&l, a, words_a, 4);
    add_words(&l, b, words_b, 4);
    add(&l, (uint32_t)r.answer);
    add(&l, (uint32_t)r.count);
    write_line(&l);
}

/* All pairs of lengths: random words, equal words, one bit apart, ones against zeros. */
static void changed_of_every_length(void)
{
    for (uint32_t words_a = 0; words_a <= 4; words_a++) {
        for (uint32_t words_b = 0; words_b <= 4; words_b++) {
            uint16_t a[4], b[4];
            uint16_t ones[4] = { 0xFFFF, 0xFFFF, 0xFFFF, 0xFFFF };
            uint16_t zeros[4] = { 0, 0, 0, 0 };
            random_words(a);
            random_words(b);
            vector_changed(a, words_a, b, words_b);
            memcpy(b, a, sizeof b);
            vector_changed(a, words_a, b, words_b);
            uint32_t changed_word = random_below(4);
            uint32_t changed_bit = random_below(16);
            b[changed_word] = (uint16_t)(b[changed_word] ^ (1u << changed_bit));
            vector_changed(a, words_a, b, words_b);
            vector_changed(ones, words_a, zeros, words_b);
        }
    }
}

int main(int argc, char **argv)
{
    random_state = argc > 1 ? strtoull(argv[1], NULL, 0) : 1;
    fields_of_the_scope();
    fields_of_every_shape();
    fields_at_the_end();
    fields_far_away();
    fields_of_bad_size();
    fields_over_plain_words();
    counts_of_every_shape();
    states_in_every_way();
    counts_at_the_edges();
    fetches_of_the_scope();
    fetch_walks();
    fetch_walks_from_odd_states();
    fetches_with_bad_orders();
    fetches_with_large_starts();
    fetches_with_equal_starts();
    images();
    changed_of_every_length();
    return 0;
}

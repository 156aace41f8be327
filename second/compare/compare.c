/* Compares the library's C interface with the model, call by call.

   compare [SEED] [COUNT] runs fixed edge cases and then COUNT random calls of everything but FILL
   and PIXBLT. compare draw [SEED] [COUNT] makes at least COUNT calls of these: drawings whole and
   in slices, refused calls, and pairs of drawings in slices (demand 3); with each its dry run and
   the time of a FILL, and first the times of every short row and all corners of every small array.
   compare huge makes a few with the largest arrays, for which the model takes half a minute.
   compare plans [SEED] [COUNT] compares the listings and points of COUNT random plans. Each prints
   the seed, how often each answer was given, and `compare: N calls, 0 differ`. At the first
   difference it prints the call with both outcomes and ends with status 1. Each case is whole: it
   depends on no earlier call. */
#include "compare.h"

#include <stdlib.h>
#include <string.h>

#define DEFAULT_SEED 1
#define DEFAULT_COUNT 50000000
#define DEFAULT_DRAWS 10000000
#define DEFAULT_PLANS 10000

uint64_t calls;

/* ---- Random numbers for the inputs (unlike the scope's generator on purpose) ---- */

static uint64_t random_state;

uint64_t random64(void)
{
    random_state = random_state + 0x9E3779B97F4A7C15u;
    uint64_t z = random_state;
    z = (z ^ (z >> 30)) * 0xBF58476D1CE4E5B9u;
    z = (z ^ (z >> 27)) * 0x94D049BB133111EBu;
    return z ^ (z >> 31);
}

uint32_t random32(void)
{
    return (uint32_t)(random64() >> 32);
}

uint32_t random_below(uint32_t limit)
{
    return random32() % limit;
}

bool one_in(uint32_t n)
{
    return random_below(n) == 0;
}

/* ---- Reporting ---- */

void print_case(const char *call)
{
    printf("differs in call %llu: %s\n", (unsigned long long)calls, call);
}

void print_numbers(const char *name, const uint32_t *number, size_t count)
{
    printf("  %s:", name);
    for (size_t i = 0; i < count; i++)
        printf(" %08lX", (unsigned long)number[i]);
    printf("\n");
}

void print_words(const char *name, const uint16_t *word, size_t count)
{
    printf("  %s:", name);
    for (size_t i = 0; i < count; i++)
        printf(" %04X", word[i]);
    printf("\n");
}

void stop(void)
{
    exit(1);
}

/* ---- Output arrays ---- */

void clear_out(uint32_t out[OUTS])
{
    for (int i = 0; i < OUTS; i++)
        out[i] = GUARD;
}

uint32_t expect_out(uint32_t out[OUTS], size_t length, const uint32_t *result, size_t results,
                    uint32_t answer)
{
    clear_out(out);
    if (length < results)
        return BH_BAD_ARGUMENT;
    for (size_t i = 0; i < results; i++)
        out[i] = result[i];
    return answer;
}

size_t random_length(size_t needed)
{
    if (one_in(16))
        return random_below((uint32_t)needed + 2);
    return needed;
}

/* ---- Settings ---- */

bool settings_are_bad(const uint32_t number[NUMBERS], size_t count)
{
    return count < BH_SETTINGS || number[AT_CONTROL] > 65535 || number[AT_PSIZE] > 65535
           || number[AT_PMASK] > 65535;
}

struct settings settings_of(const uint32_t number[NUMBERS])
{
    struct settings s = { .SADDR = number[AT_SADDR],
                          .SPTCH = number[AT_SPTCH],
                          .DADDR = number[AT_DADDR],
                          .DPTCH = number[AT_DPTCH],
                          .OFFSET = number[AT_OFFSET],
                          .WSTART = number[AT_WSTART],
                          .WEND = number[AT_WEND],
                          .DYDX = number[AT_DYDX],
                          .COLOR0 = number[AT_COLOR0],
                          .COLOR1 = number[AT_COLOR1],
                          .CONTROL = (uint16_t)number[AT_CONTROL],
                          .PSIZE = (uint16_t)number[AT_PSIZE],
                          .PMASK = (uint16_t)number[AT_PMASK] };
    return s;
}

/* ---- Fields over small memories ---- */

#define SMALL 12

struct small {
    uint16_t word[SMALL];
    uint32_t words; /* of these are lent; the others may not change */
};

static struct small random_small(void)
{
    struct small m;
    m.words = random_below(9);
    uint32_t style = random_below(4);
    for (int i = 0; i < SMALL; i++)
        m.word[i] = style == 0 ? 0 : style == 1 ? 0xFFFF : (uint16_t)random32();
    return m;
}

static struct memory lent(struct small *m)
{
    struct memory lent = { m->word, m->words };
    return lent;
}

static bool same_words(const struct small *a, const struct small *b)
{
    return memcmp(a->word, b->word, sizeof a->word) == 0;
}

static void compare_read(const struct small *m, uint32_t address, uint32_t size, uint32_t is_signed,
                         size_t length)
{
    struct small mine = *m, theirs = *m;
    uint32_t out[OUTS], expected[OUTS];
    clear_out(out);
    calls++;
    uint32_t answer =
        bh_field_read(mine.word, mine.words, address, size, is_signed, out, length);
    struct read_answer r = field_read(lent(&theirs), address, size, is_signed != 0);
    uint32_t wanted = expect_out(expected, length, &r.value, 1, (uint32_t)r.answer);
    if (answer == wanted && memcmp(out, expected, sizeof out) == 0 && same_words(&mine, m))
        return;
    print_case("field read");
    printf("  words %lu, address %08lX, size %lu, signed %lu, out length %lu\n",
           (unsigned long)m->words, (unsigned long)address, (unsigned long)size,
           (unsigned long)is_signed, (unsigned long)length);
    print_words("memory, and words behind it", m->word, SMALL);
    printf("  library answers %lu, model %lu\n", (unsigned long)answer, (unsigned long)wanted);
    print_numbers("library's out", out, OUTS);
    print_numbers("model's out", expected, OUTS);
    print_words("library's memory after", mine.word, SMALL);
    stop();
}

static void compare_write(const struct small *m, uint32_t address, uint32_t size, uint32_t value)
{
    struct small mine = *m, theirs = *m;
    calls++;
    uint32_t answer = bh_field_write(mine.word, mine.words, address, size, value);
    uint32_t wanted = (uint32_t)field_write(lent(&theirs), address, size, value);
    if (answer == wanted && same_words(&mine, &theirs))
        return;
    print_case("field write");
    printf("  words %lu, address %08lX, size %lu, value %08lX\n", (unsigned long)m->words,
           (unsigned long)address, (unsigned long)size, (unsigned long)value);
    print_words("memory, and words behind it", m->word, SMALL);
    printf("  library answers %lu, model %lu\n", (unsigned long)answer, (unsigned long)wanted);
    print_words("library's memory after", mine.word, SMALL);
    print_words("model's memory after", theirs.word, SMALL);
    stop();
}

/* Mostly 1 to 32; at times just outside, or any number. */
static uint32_t random_size(void)
{
    uint32_t style = random_below(16);
    if (style == 0)
        return 32 * random_below(2) + random_below(2);
    if (style == 1)
        return random32();
    return 1 + random_below(32);
}

/* Mostly in the memory or just past its end; at times near 2^32, or any number. */
static uint32_t random_address(uint32_t words)
{
    uint32_t style = random_below(16);
    if (style == 0)
        return 0u - random_below(64);
    if (style == 1)
        return random32();
    return random_below(16 * words + 8);
}

static void random_field_call(void)
{
    struct small m = random_small();
    uint32_t size = random_size();
    uint32_t address = random_address(m.words);
    uint32_t is_signed = one_in(8) ? random32() : random_below(2);
    if (one_in(2))
        compare_read(&m, address, size, is_signed, random_length(1));
    else
        compare_write(&m, address, size, random32());
}

/* ---- Fields over the largest memory, and one word more ---- */

#define LARGE (MOST_WORDS + 1)

/* Both hold the image of seed 1. A call's words are put back after it. */
static uint16_t large_mine[LARGE];
static uint16_t large_theirs[LARGE];

static void prepare_large(void)
{
    struct memory m = { large_theirs, MOST_WORDS };
    image_make(m, 1);
    large_theirs[MOST_WORDS] = 0x1234;
    memcpy(large_mine, large_theirs, sizeof large_mine);
}

static void print_large(const char *call, uint64_t words, uint32_t address, uint32_t size)
{
    print_case(call);
    printf("  words %llu: the image of seed 1, and 1234 as the last of 1048577\n",
           (unsigned long long)words);
    printf("  address %08lX, size %lu\n", (unsigned long)address, (unsigned long)size);
    for (size_t i = 0; i < LARGE; i++) {
        if (large_mine[i] != large_theirs[i])
            printf("  word %lu after: library %04X, model %04X\n", (unsigned long)i, large_mine[i],
                   large_theirs[i]);
    }
}

static void compare_large_read(uint64_t words, uint32_t address, uint32_t size, uint32_t is_signed)
{
    struct memory m = { large_theirs, words };
    uint32_t out = GUARD;
    calls++;
    uint32_t answer = bh_field_read(large_mine, words, address, size, is_signed, &out, 1);
    struct read_answer r = field_read(m, address, size, is_signed != 0);
    if (answer == (uint32_t)r.answer && out == r.value
        && memcmp(large_mine, large_theirs, sizeof large_mine) == 0)
        return;
    print_large("field read", words, address, size);
    printf("  signed %lu\n", (unsigned long)is_signed);
    printf("  library answers %lu, value %08lX; model %d, %08lX\n", (unsigned long)answer,
           (unsigned long)out, r.answer, (unsigned long)r.value);
    stop();
}

static void compare_large_write(uint64_t words, uint32_t address, uint32_t size, uint32_t value)
{
    struct memory m = { large_theirs, words };
    uint16_t kept[3];
    size_t first = address / 16 < LARGE - 3 ? address / 16 : LARGE - 3;
    memcpy(kept, large_theirs + first, sizeof kept);
    calls++;
    uint32_t answer = bh_field_write(large_mine, words, address, size, value);
    uint32_t wanted = (uint32_t)field_write(m, address, size, value);
    if (answer != wanted || memcmp(large_mine, large_theirs, sizeof large_mine) != 0) {
        print_large("field write", words, address, size);
        printf("  value %08lX; library answers %lu, model %lu\n", (unsigned long)value,
               (unsigned long)answer, (unsigned long)wanted);
        stop();
    }
    memcpy(large_theirs + first, kept, sizeof kept);
    memcpy(large_mine + first, kept, sizeof kept);
}

static void random_large_call(void)
{
    uint64_t words = one_in(4) ? LARGE : MOST_WORDS;
    uint32_t address = one_in(2) ? 16u * MOST_WORDS - random_below(80) + random_below(40)
                                 : random_below(16u * MOST_WORDS);
    if (one_in(2))
        compare_large_read(words, address, random_size(), random_below(2));
    else
        compare_large_write(words, address, random_size(), random32());
}

/* ---- Counts ---- */

static void compare_cycles(uint32_t address, uint32_t size, size_t length)
{
    uint32_t out[OUTS], expected[OUTS];
    clear_out(out);
    calls++;
    uint32_t answer = bh_field_cycles(address, size, out, length);
    struct cycles_answer r = field_cycles(address, size);
    uint32_t result[2] = { r.read, r.write };
    uint32_t wanted = expect_out(expected, length, result, 2, (uint32_t)r.answer);
    if (answer == wanted && memcmp(out, expected, sizeof out) == 0)
        return;
    print_case("field cycles");
    printf("  address %08lX, size %lu, out length %lu\n", (unsigned long)address,
           (unsigned long)size, (unsigned long)length);
    printf("  library answers %lu, model %lu\n", (unsigned long)answer, (unsigned long)wanted);
    print_numbers("library's out", out, OUTS);
    print_numbers("model's out", expected, OUTS);
    stop();
}

static void compare_states(uint32_t address, uint32_t size, uint32_t mode, uint32_t is_signed,
                           uint32_t is_cached, size_t length)
{
    uint32_t out[OUTS], expected[OUTS];
    clear_out(out);
    calls++;
    uint32_t answer = bh_move_states(address, size, mode, is_signed, is_cached, out, length);
    struct states_answer r =
        move_states(address, size, (enum move_mode)(mode % 3), is_signed != 0, is_cached != 0);
    size_t room = mode > 2 ? 0 : length; /* a mode that is none is answered as no room is */
    uint32_t wanted = expect_out(expected, room, &r.states, 1, (uint32_t)r.answer);
    if (answer == wanted && memcmp(out, expected, sizeof out) == 0)
        return;
    print_case("MOVE states");
    printf("  address %08lX, size %lu, mode %lu, signed %lu, cached %lu, out length %lu\n",
           (unsigned long)address, (unsigned long)size, (unsigned long)mode,
           (unsigned long)is_signed, (unsigned long)is_cached, (unsigned long)length);
    printf("  library answers %lu, model %lu\n", (unsigned long)answer, (unsigned long)wanted);
    print_numbers("library's out", out, OUTS);
    print_numbers("model's out", expected, OUTS);
    stop();
}

static void random_count_call(void)
{
    uint32_t address = random32();
    uint32_t size = random_size();
    if (one_in(2)) {
        compare_cycles(address, size, random_length(2));
        return;
    }
    uint32_t mode = one_in(16) ? random32() : random_below(4);
    uint32_t is_signed = one_in(8) ? random32() : random_below(2);
    uint32_t is_cached = one_in(8) ? random32() : random_below(2);
    compare_states(address, size, mode, is_signed, is_cached, random_length(1));
}

/* ---- Fetches ---- */

#define STATE 14

static struct cache cache_of(const uint32_t state[STATE])
{
    struct cache c;
    for (int i = 0; i < SEGMENTS; i++) {
        c.segment[i].start = state[i];
        for (int j = 0; j < SUBSEGMENTS; j++)
            c.segment[i].present[j] = ((state[4 + i] >> j) & 1) == 1;
        c.order[i] = state[8 + i];
    }
    return c;
}

static void numbers_of(uint32_t state[STATE], const struct cache *c)
{
    for (int i = 0; i < SEGMENTS; i++) {
        state[i] = c->segment[i].start;
        state[4 + i] = 0;
        for (int j = 0; j < SUBSEGMENTS; j++) {
            if (c->segment[i].present[j])
                state[4 + i] = state[4 + i] | ((uint32_t)1 << j);
        }
        state[8 + i] = c->order[i];
    }
}

/* One fetch; state is left as the library leaves it. */
static void compare_fetch(uint32_t state[STATE], size_t state_length, uint32_t address,
                          uint16_t control, size_t length)
{
    uint32_t given[STATE], after[STATE], out[OUTS], expected[OUTS];
    memcpy(given, state, sizeof given);
    memcpy(after, state, sizeof after);
    clear_out(out);
    calls++;
    uint32_t answer = bh_fetch(state, state_length, address, control, out, length);
    struct fetch_answer r = cache_fetch(cache_of(given), address, control);
    uint32_t kind = (uint32_t)r.kind;
    size_t room = state_length < BH_CACHE_NUMBERS ? 0 : length;
    uint32_t wanted =
        expect_out(expected, room, &kind, 1, r.kind == FETCH_REFUSED ? REFUSED_CACHE : DONE);
    if (room > 0 && r.kind != FETCH_REFUSED && r.kind != DISABLED)
        numbers_of(after, &r.next);
    if (answer == wanted && memcmp(out, expected, sizeof out) == 0
        && memcmp(state, after, sizeof after) == 0)
        return;
    print_case("fetch");
    print_numbers("state", given, STATE);
    printf("  state length %lu, address %08lX, control %04X, out length %lu\n",
           (unsigned long)state_length, (unsigned long)address, control, (unsigned long)length);
    printf("  library answers %lu, model %lu\n", (unsigned long)answer, (unsigned long)wanted);
    print_numbers("library's out", out, OUTS);
    print_numbers("model's out", expected, OUTS);
    print_numbers("library's state", state, STATE);
    print_numbers("model's state", after, STATE);
    stop();
}

/* A random order of the four segments. */
static void shuffle(uint32_t order[4])
{
    for (uint32_t i = 0; i < 4; i++)
        order[i] = i;
    for (uint32_t i = 3; i > 0; i--) {
        uint32_t k = random_below(i + 1);
        uint32_t kept = order[i];
        order[i] = order[k];
        order[k] = kept;
    }
}

/* The start addresses that a walk uses. */
#define POOL 8

static uint32_t pool[POOL];
static uint32_t pool_used;
static uint32_t walk[STATE];

/* Starts a walk: from the fresh state, or from one with any order, flags and start addresses. */
static void start_walk(void)
{
    static const uint32_t fresh[BH_CACHE_NUMBERS] = BH_CACHE_FRESH;
    for (int i = 0; i < POOL; i++)
        pool[i] = random_below(0x800000);
    pool[0] = 0;
    pool[1] = 0x7FFFFF;
    pool_used = 1 + random_below(POOL);
    for (int i = 0; i < STATE; i++)
        walk[i] = i < BH_CACHE_NUMBERS ? fresh[i] : GUARD;
    if (one_in(2))
        return;
    for (int i = 0; i < 4; i++) {
        walk[i] = pool[4 + i];
        walk[4 + i] = one_in(4) ? 0 : random_below(256);
        if (one_in(8))
            walk[4 + i] = walk[4 + i] | (random32() & 0xFFFFFF00u);
    }
    if (one_in(2)) {
        walk[3] = walk[2]; /* equal, but one of the two holds nothing */
        walk[6 + random_below(2)] = 0;
    }
    shuffle(walk + 8);
}

static uint32_t random_fetch_address(void)
{
    if (one_in(64))
        return random32();
    return (pool[random_below(pool_used)] << 9) | random_below(512);
}

static uint16_t random_control(void)
{
    return (uint16_t)((random32() & 0x7FFF) | (one_in(16) ? 0x8000 : 0));
}

/* A state with something wrong, or perhaps so: the walk's own with one number changed. */
static void compare_odd_fetch(void)
{
    uint32_t state[STATE];
    memcpy(state, walk, sizeof state);
    uint32_t place = random_below(BH_CACHE_NUMBERS);
    if (place < 4)
        state[place] = one_in(2) ? state[random_below(4)] : 0x7FFFFF + random_below(3);
    else if (place < 8)
        state[place] = random32();
    else
        state[place] = one_in(4) ? random32() : random_below(6);
    if (one_in(4))
        state[8 + random_below(4)] = 256 * random_below(3) + random_below(4);
    size_t state_length = one_in(8) ? random_below(STATE + 1) : BH_CACHE_NUMBERS;
    compare_fetch(state, state_length, random_fetch_address(), random_control(), random_length(1));
}

static void random_fetch_call(void)
{
    if (one_in(4096))
        start_walk();
    if (one_in(8))
        compare_odd_fetch();
    else
        compare_fetch(walk, BH_CACHE_NUMBERS + random_below(3), random_fetch_address(),
                      random_control(), 1);
}

/* ---- Images and changed bits ---- */

static void compare_image(uint16_t *mine, uint16_t *theirs, uint64_t words, uint64_t held,
                          uint64_t seed)
{
    struct memory m = { theirs, words };
    calls++;
    uint32_t answer = bh_fill_image(mine, words, seed);
    uint32_t wanted = (uint32_t)image_make(m, seed);
    if (answer == wanted && memcmp(mine, theirs, held * sizeof *mine) == 0)
        return;
    print_case("image");
    printf("  words %llu, seed %016llX\n", (unsigned long long)words, (unsigned long long)seed);
    printf("  library answers %lu, model %lu\n", (unsigned long)answer, (unsigned long)wanted);
    for (uint64_t i = 0; i < held; i++) {
        if (mine[i] != theirs[i]) {
            printf("  first at word %llu: library %04X, model %04X\n", (unsigned long long)i,
                   mine[i], theirs[i]);
            break;
        }
    }
    stop();
}

static void random_image_call(void)
{
    struct small a = random_small();
    struct small b = random_small();
    if (one_in(2)) {
        b = a;
        compare_image(a.word, b.word, a.words, SMALL, one_in(8) ? random_below(3) : random64());
        return;
    }
    if (one_in(4)) {
        memcpy(b.word, a.word, sizeof b.word);
        b.word[random_below(SMALL)] ^= (uint16_t)(1u << random_below(16));
    }
    compare_changed(a.word, a.words, b.word, b.words, random_length(1));
    if (one_in(1024))
        random_long_changed();
}

/* ---- Edges ---- */

static const uint32_t edge_size[9] = { 0, 1, 16, 17, 31, 32, 33, 0x80000001u, 0xFFFFFFFFu };

/* Every size at every alignment, and fields around the memory's end and at the ends of the
   addresses, over empty and small memories. */
static void field_edges(void)
{
    for (uint32_t size = 0; size <= 33; size++) {
        for (uint32_t address = 0; address < 48; address++) {
            struct small m = random_small();
            m.words = 4 + random_below(5);
            compare_read(&m, address, size, 0, 1);
            compare_read(&m, address, size, 1, 1);
            compare_write(&m, address, size, random32());
            compare_cycles(address, size, 2);
            for (uint32_t way = 0; way < 16; way++)
                compare_states(address, size, way / 4, way & 1, way & 2, 1);
        }
    }
    for (uint32_t words = 0; words <= 4; words++) {
        for (int i = 0; i < 9; i++) {
            for (uint32_t step = 0; step <= 80; step++) {
                struct small m = random_small();
                m.words = words;
                compare_read(&m, 16 * words - 40 + step, edge_size[i], step & 1, 1);
                compare_write(&m, 16 * words - 40 + step, edge_size[i], random32());
                compare_read(&m, 0u - step, edge_size[i], step & 1, 1);
                compare_write(&m, 0u - step, edge_size[i], random32());
            }
        }
    }
}

static void large_edges(void)
{
    for (int i = 0; i < 9; i++) {
        for (uint32_t step = 0; step <= 40; step = step + 4) {
            uint32_t address = 16u * MOST_WORDS - 36 + step;
            compare_large_read(MOST_WORDS, address, edge_size[i], 1);
            compare_large_write(MOST_WORDS, address, edge_size[i], random32());
            compare_large_read(LARGE, address, edge_size[i], 0);
            compare_large_write(LARGE, address, edge_size[i], random32());
            compare_large_read(0, address, edge_size[i], 0);
        }
    }
    compare_changed(large_mine, LARGE, large_theirs, 1, 1);
    compare_changed(large_mine, 1, large_theirs, LARGE, 1);
    compare_changed(large_mine, MOST_WORDS, large_theirs + 1, 3, 1);
    compare_changed(large_mine, MOST_WORDS, large_theirs + 1, MOST_WORDS, 1);
    compare_image(large_mine, large_theirs, MOST_WORDS, LARGE, 0x123456789ABCDEF0u);
    compare_image(large_mine, large_theirs, LARGE, LARGE, 2);
    compare_image(large_mine, large_theirs, 0, LARGE, 2);
    compare_image(large_mine, large_theirs, MOST_WORDS, LARGE, 1);
}

/* "Fresh cache, fetches at 0, 64, 16, 512, 1024, 1536, 2048, 0", and arrays that are too short. */
static void fetch_edges(void)
{
    static const uint32_t address[8] = { 0, 64, 16, 512, 1024, 1536, 2048, 0 };
    start_walk();
    for (size_t length = 0; length <= STATE; length++) {
        compare_fetch(walk, length, 0, 0, 0);
        compare_fetch(walk, length, 0, 0x8000, 1);
    }
    uint32_t fresh[STATE] = BH_CACHE_FRESH;
    for (int i = 0; i < 8; i++)
        compare_fetch(fresh, BH_CACHE_NUMBERS, address[i], 0, 1);
}

/* ---- The run ---- */

static void random_call(void)
{
    uint32_t kind = random_below(96);
    if (kind < 24)
        random_field_call();
    else if (kind < 36)
        random_count_call();
    else if (kind < 62)
        random_fetch_call();
    else if (kind < 64)
        random_image_call();
    else
        random_pixel_call();
}

/* Every call but bh_draw. */
static void compare_others(uint64_t count)
{
    prepare_large();
    field_edges();
    large_edges();
    changed_edges();
    fetch_edges();
    pixel_edges();
    for (uint64_t i = 0; i < count; i++) {
        if (one_in(16384))
            random_large_call();
        else
            random_call();
    }
    print_pixel_answers();
}

int main(int argc, char **argv)
{
    bool draws = argc > 1 && strcmp(argv[1], "draw") == 0;
    bool is_huge = argc > 1 && strcmp(argv[1], "huge") == 0;
    bool plans = argc > 1 && strcmp(argv[1], "plans") == 0;
    int first = draws || is_huge || plans ? 2 : 1;
    uint64_t seed = argc > first ? strtoull(argv[first], NULL, 0) : DEFAULT_SEED;
    uint64_t count = draws ? DEFAULT_DRAWS : plans ? DEFAULT_PLANS : DEFAULT_COUNT;
    if (argc > first + 1)
        count = strtoull(argv[first + 1], NULL, 0);
    printf("compare: seed %llu\n", (unsigned long long)seed);
    random_state = seed;
    if (draws)
        compare_drawings(count);
    else if (is_huge)
        compare_huge_drawings();
    else if (plans)
        compare_plans(count);
    else
        compare_others(count);
    printf("compare: %llu calls, 0 differ\n", (unsigned long long)calls);
    return 0;
}

/* A fuzz target: bytes are a memory and calls of bh_draw over it, each compared with the model.
   After each call the answer, every result, the settings, every word of the memory and the guards
   around the arrays are compared. The calls after the first go on with the place and the V that the
   one before handed back. Each call is also made as a dry run, and the time of the first one's
   drawing is compared. */
#include "draw_bytes.h"
#include "fuzz.h"

#include <string.h>

/* Drawings with more pixels are left out. */
#define MOST_STEPS 16384

/* Settings and results that can be lent: some more than asked. */
#define NUMBERS 15
#define OUTS 9

/* A call of bh_draw, but for what its memory holds. bh_outcome takes the same, and bh_fill_states
   all but place, V and budget. */
struct call {
    uint32_t operation;
    uint64_t words;
    uint32_t number[NUMBERS];
    size_t settings_length, out_length;
    uint64_t place, budget;
    uint32_t v;
};

/* What a call hands back. */
struct result {
    uint32_t answer;
    uint64_t out[OUTS];
};

/* The arrays lent to the library, and the model's memory. */
static struct room memory_room, settings_room, out_room;
static uint16_t before[MOST_SMALL_WORDS], theirs[MOST_SMALL_WORDS];

/* ---- Bytes to calls ---- */

struct bytes {
    const uint8_t *byte;
    size_t size;
};

static uint64_t number_at(struct bytes b, size_t at, size_t bytes)
{
    uint64_t number = 0;
    for (size_t i = 0; i < bytes; i++) {
        if (at + i < b.size)
            number = number | (uint64_t)b.byte[at + i] << (8 * i);
    }
    return number;
}

/* One byte says what is wrong or longer than asked; most say nothing. */
static void lend_otherwise(struct call *c, uint64_t how)
{
    switch (how) {
    case 1: c->operation = OPERATIONS; break;
    case 2: c->number[LONG_SETTINGS] += 65536; break;
    case 3: c->number[LONG_SETTINGS + 1] += 65536; break;
    case 4: c->number[LONG_SETTINGS + 2] += 65536; break;
    case 5: c->settings_length = BH_SETTINGS - 1; break;
    case 6: c->settings_length = 0; break;
    case 7: c->settings_length = NUMBERS; break;
    case 8: c->out_length = BH_DRAW_RESULTS - 1; break;
    case 9: c->out_length = 0; break;
    case 10: c->out_length = OUTS; break;
    case 11: c->out_length = BH_FILL_RESULTS; break;
    case 12: c->out_length = BH_FILL_RESULTS - 1; break;
    }
}

static uint32_t psize_of(uint32_t number)
{
    return number < ANY_PSIZE ? (uint32_t)1 << number % 5 : number - ANY_PSIZE;
}

static struct call call_of(struct bytes b)
{
    struct call c;
    memset(&c, 0, sizeof c);
    c.operation = (uint32_t)(number_at(b, AT_OPERATION, 1) % OPERATIONS);
    c.words = number_at(b, AT_WORDS, 1);
    for (size_t i = 0; i < LONG_SETTINGS; i++)
        c.number[i] = (uint32_t)number_at(b, AT_LONG + 4 * i, 4);
    for (size_t i = 0; i < SHORT_SETTINGS; i++)
        c.number[LONG_SETTINGS + i] = (uint32_t)number_at(b, AT_SHORT + 2 * i, 2);
    c.number[LONG_SETTINGS + 1] = psize_of(c.number[LONG_SETTINGS + 1]);
    c.settings_length = BH_SETTINGS;
    c.out_length = BH_DRAW_RESULTS;
    c.place = number_at(b, AT_PLACE, 8);
    c.budget = number_at(b, AT_BUDGET, 8);
    c.v = (uint32_t)number_at(b, AT_V, 1);
    lend_otherwise(&c, number_at(b, AT_LENT, 1));
    return c;
}

/* Below 128 the number itself, then the powers of two, then all. */
static uint64_t slice_budget(uint64_t byte)
{
    if (byte < 128)
        return byte;
    return byte < 192 ? (uint64_t)1 << (byte - 128) : UINT64_MAX;
}

static struct settings settings_of(const uint32_t *number)
{
    struct settings s = { number[0],  number[1], number[2], number[3],
                          number[4],  number[5], number[6], number[7],
                          number[8],  number[9], (uint16_t)number[10],
                          (uint16_t)number[11],  (uint16_t)number[12] };
    return s;
}

/* ---- One call ---- */

/* The calls of the library; the last two take no memory. */
enum kind { DRAWING, DRY_RUN, TIME };

static const char *const call_name[] = { "bh_draw", "bh_outcome", "bh_fill_states" };

/* What the interface answers by 9 never gets to the model. */
static bool is_short(const struct call *c, size_t results)
{
    return c->operation >= OPERATIONS || c->settings_length < BH_SETTINGS
        || c->out_length < results || c->number[10] > 65535 || c->number[11] > 65535
        || c->number[12] > 65535;
}

/* 9, and no result. */
static struct result no_result(void)
{
    struct result r;
    r.answer = BH_BAD_ARGUMENT;
    for (int i = 0; i < OUTS; i++)
        r.out[i] = GUARD_LONG;
    return r;
}

static struct result call_model(const struct call *c)
{
    struct result r = no_result();
    if (is_short(c, BH_DRAW_RESULTS))
        return r;
    struct memory m = { theirs, c->words };
    struct settings s = settings_of(c->number);
    struct draw_answer a =
        draw(m, (enum operation)c->operation, &s, c->place, c->v != 0, c->budget);
    const uint64_t out[BH_DRAW_RESULTS] = { a.place, a.visited, (uint64_t)a.v, (uint64_t)a.request,
                                            a.SADDR, a.DADDR,   a.DYDX };
    r.answer = (uint32_t)a.answer;
    memcpy(r.out, out, sizeof out);
    return r;
}

static struct result model_time(const struct call *c)
{
    struct result r = no_result();
    if (is_short(c, BH_FILL_RESULTS))
        return r;
    struct settings s = settings_of(c->number);
    struct fill_answer a = fill_states(c->words, (enum operation)c->operation, &s);
    const uint64_t out[BH_FILL_RESULTS] = { a.setup, a.transfer, a.adjustment, a.states };
    r.answer = (uint32_t)a.answer;
    memcpy(r.out, out, sizeof out);
    return r;
}

static uint32_t answer_of(enum kind kind, const struct call *c, uint16_t *memory,
                          const uint32_t *settings, uint64_t *out)
{
    switch (kind) {
    case DRAWING:
        return bh_draw(memory, c->words, c->operation, settings, c->settings_length, c->place, c->v,
                       c->budget, out, c->out_length);
    case DRY_RUN:
        return bh_outcome(c->words, c->operation, settings, c->settings_length, c->place, c->v,
                          c->budget, out, c->out_length);
    case TIME: break;
    }
    return bh_fill_states(c->words, c->operation, settings, c->settings_length, out, c->out_length);
}

/* The memory is lent already; *kept is cleared where the call changes a setting. */
static struct result call_library(enum kind kind, const struct call *c, uint16_t *memory,
                                  bool *kept)
{
    size_t settings_bytes = c->settings_length * sizeof c->number[0];
    struct result r = no_result();
    size_t out_bytes = c->out_length * sizeof r.out[0];
    uint32_t *settings = lend(&settings_room, settings_bytes);
    uint64_t *out = lend(&out_room, out_bytes);
    memcpy(settings, c->number, settings_bytes);
    r.answer = answer_of(kind, c, memory, settings, out);
    memcpy(r.out, out, out_bytes);
    *kept = memcmp(settings, c->number, settings_bytes) == 0;
    check_front(&settings_room, settings_bytes, "the settings");
    check_front(&out_room, out_bytes, "the results");
    check_front(&memory_room, c->words * sizeof *memory, "the memory");
    return r;
}

/* ---- Reporting ---- */

static void print_call(const struct call *c)
{
    static const char *const name[BH_SETTINGS] = { "SADDR",  "SPTCH",  "DADDR",   "DPTCH", "OFFSET",
                                                   "WSTART", "WEND",   "DYDX",    "COLOR0",
                                                   "COLOR1", "CONTROL", "PSIZE",  "PMASK" };
    fprintf(stderr, "operation %lu;", (unsigned long)c->operation);
    for (int i = 0; i < BH_SETTINGS; i++)
        fprintf(stderr, " %s %lX", name[i], (unsigned long)c->number[i]);
    fprintf(stderr, "\nplace %llu, V %lu, budget %llu; settings lent %lu, out length %lu\n",
            (unsigned long long)c->place, (unsigned long)c->v, (unsigned long long)c->budget,
            (unsigned long)c->settings_length, (unsigned long)c->out_length);
    fprintf(stderr, "memory before, %llu words:", (unsigned long long)c->words);
    for (uint64_t i = 0; i < c->words; i++)
        fprintf(stderr, " %04X", before[i]);
    fprintf(stderr, "\n");
}

/* Makes the call, and ends the run where the two differ in anything. */
static void compare_results(enum kind kind, const struct call *c, const struct result *model,
                            uint16_t *memory)
{
    bool kept;
    struct result mine = call_library(kind, c, memory, &kept);
    const char *name = call_name[kind];
    if (mine.answer == model->answer && memcmp(mine.out, model->out, sizeof mine.out) == 0
        && memcmp(memory, theirs, c->words * sizeof *memory) == 0 && kept)
        return;
    print_call(c);
    if (mine.answer != model->answer)
        differs("%s: answer: library %lu, model %lu", name, (unsigned long)mine.answer,
                (unsigned long)model->answer);
    for (int i = 0; i < OUTS; i++) {
        if (mine.out[i] != model->out[i])
            differs("%s: result %d: library %llu, model %llu", name, i,
                    (unsigned long long)mine.out[i], (unsigned long long)model->out[i]);
    }
    for (uint64_t i = 0; i < c->words; i++) {
        if (memory[i] != theirs[i])
            differs("%s: word %llu: library %04X, model %04X", name, (unsigned long long)i,
                    memory[i], theirs[i]);
    }
    differs("%s: a setting has changed", name);
}

static struct result compare_call(const struct call *c, uint16_t *memory)
{
    memcpy(before, theirs, sizeof before);
    struct result model = call_model(c);
    note_answer("draw", model.answer);
    compare_results(DRAWING, c, &model, memory);
    compare_results(DRY_RUN, c, &model, memory);
    return model;
}

/* Place, V and budget don't matter. */
static void compare_time(const struct call *c, uint16_t *memory)
{
    struct result model = model_time(c);
    memcpy(before, theirs, sizeof before);
    compare_results(TIME, c, &model, memory);
}

/* ---- The target ---- */

static bool is_dear(const struct call *c)
{
    struct settings s = settings_of(c->number);
    return !is_short(c, BH_FILL_RESULTS)
        && steps_of(c->words, (enum operation)c->operation, &s) > MOST_STEPS;
}

static uint16_t *lend_memory(struct bytes b, uint64_t words)
{
    uint16_t *memory = lend(&memory_room, words * sizeof *memory);
    memset(theirs, 0, sizeof theirs);
    for (uint64_t i = 0; i < words; i++)
        memory[i] = theirs[i] = (uint16_t)number_at(b, AT_MEMORY + 2 * i, 2);
    return memory;
}

int LLVMFuzzerTestOneInput(const uint8_t *data, size_t size)
{
    struct bytes b = { data, size };
    struct call c = call_of(b);
    make_room(&memory_room, MOST_SMALL_WORDS * sizeof(uint16_t));
    make_room(&settings_room, NUMBERS * sizeof(uint32_t));
    make_room(&out_room, OUTS * sizeof(uint64_t));
    if (is_dear(&c))
        return 0;
    uint16_t *memory = lend_memory(b, c.words);
    compare_time(&c, memory);
    struct result r = compare_call(&c, memory);
    uint64_t slices = number_at(b, AT_SLICES, 1) % 8;
    for (uint64_t i = 0; i < slices; i++) {
        if (r.answer != BH_BAD_ARGUMENT) {
            c.place = r.out[0];
            c.v = (uint32_t)r.out[2];
        }
        c.budget = slice_budget(number_at(b, AT_SLICE_BUDGETS + i, 1));
        r = compare_call(&c, memory);
    }
    return 0;
}

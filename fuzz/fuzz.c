/* What the two targets share: reporting, lent arrays between guards, random numbers, and a bound of
   the model's work. */
#define _GNU_SOURCE

#include "fuzz.h"

#include <stdarg.h>
#include <stdlib.h>
#include <string.h>
#include <sys/mman.h>
#include <unistd.h>

/* ---- Reporting ---- */

void differs(const char *format, ...)
{
    va_list more;
    va_start(more, format);
    fprintf(stderr, "differs: ");
    vfprintf(stderr, format, more);
    fprintf(stderr, "\n");
    va_end(more);
    abort();
}

#define ANSWERS 25

static const char *counted;
static uint64_t answered[ANSWERS];

static void print_answers(void)
{
    fprintf(stderr, "%s: answers", counted);
    for (int answer = 0; answer < ANSWERS; answer++) {
        if (answered[answer] > 0)
            fprintf(stderr, " %d: %llu", answer, (unsigned long long)answered[answer]);
    }
    fprintf(stderr, "\n");
}

void note_answer(const char *target, uint32_t answer)
{
    if (counted == NULL)
        atexit(print_answers);
    counted = target;
    if (answer < ANSWERS)
        answered[answer]++;
}

/* ---- Lent arrays ---- */

/* Bytes before an array that must stay. */
#define FRONT 64

void make_room(struct room *r, size_t bytes)
{
    size_t page = (size_t)sysconf(_SC_PAGESIZE);
    size_t pages = (bytes + FRONT + page - 1) / page;
    if (r->end != NULL)
        return;
    unsigned char *start = mmap(NULL, (pages + 1) * page, PROT_READ | PROT_WRITE,
                                MAP_PRIVATE | MAP_ANONYMOUS, -1, 0);
    if (start == MAP_FAILED || mprotect(start + pages * page, page, PROT_NONE) != 0) {
        fprintf(stderr, "no memory for the lent arrays\n");
        exit(2);
    }
    r->end = start + pages * page;
    r->bytes = bytes;
}

void *lend(struct room *r, size_t bytes)
{
    if (bytes > r->bytes) {
        fprintf(stderr, "a lent array is larger than its room\n");
        exit(2);
    }
    memset(r->end - bytes - FRONT, GUARD_BYTE, FRONT + bytes);
    return r->end - bytes;
}

void check_front(const struct room *r, size_t bytes, const char *what)
{
    for (size_t i = 1; i <= FRONT; i++) {
        if (*(r->end - bytes - i) != GUARD_BYTE)
            differs("%s: the byte %lu before it has changed", what, (unsigned long)i);
    }
}

/* ---- Random numbers (unlike the scope's generator on purpose) ---- */

static uint64_t random_state;

void random_start(uint64_t seed)
{
    random_state = seed;
}

uint64_t random64(void)
{
    random_state = random_state + 0x9E3779B97F4A7C15u;
    uint64_t z = random_state;
    z = (z ^ (z >> 30)) * 0xBF58476D1CE4E5B9u;
    z = (z ^ (z >> 27)) * 0x94D049BB133111EBu;
    return z ^ (z >> 31);
}

uint64_t random_number(void)
{
    switch (random64() % 4) {
    case 0: return (random64() % 16) << 16 | random64() % 16;
    case 1: return random64() >> random64() % 64;
    }
    return ((uint64_t)1 << random64() % 64) + random64() % 3 - 1;
}

/* ---- The model's work ---- */

static bool draws_to_xy(enum operation op)
{
    return op == FILL_XY || op == PIXBLT_L_XY || op == PIXBLT_XY_XY || op == PIXBLT_B_XY;
}

/* A row that is longer than the memory leaves it, and the model looks at no other one. */
uint64_t steps_of(uint64_t words, enum operation op, const struct settings *s)
{
    struct rectangle drawn = { x_half(s->DADDR), y_half(s->DADDR), s->DYDX & 0xFFFF,
                               s->DYDX >> 16 };
    if (draws_to_xy(op))
        drawn = window_rule(s, drawn, 0).drawn;
    uint64_t columns = (uint64_t)drawn.columns, rows = (uint64_t)drawn.rows;
    if (columns * s->PSIZE > 16 * words)
        return 16 * words + 1;
    return columns * rows;
}

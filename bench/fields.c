/* Field moves at random bit addresses. */
#include "measure.h"
#include "work.h"

#include <stdio.h>
#include <stdlib.h>
#include <string.h>

#define MOVES 65536

static uint32_t addresses[MOVES];

/* The sum keeps a read from being left out. */
static volatile uint32_t sum;

enum move { READ, READ_SIGNED, WRITE, MOVE_KINDS };

static const char *const move_names[MOVE_KINDS] = { "field read", "field read, signed",
                                                    "field write" };

struct moves {
    enum move move;
    uint32_t size;
};

/* Any field that lies in the memory, at any bit. */
static void make_addresses(void)
{
    uint64_t x = 1;
    for (int i = 0; i < MOVES; i++) {
        x = x * 6364136223846793005u + 1442695040888963407u;
        addresses[i] = (uint32_t)(x >> 32) % (16 * WORDS - 32);
    }
}

static void library_reads(uint32_t size, uint32_t is_signed)
{
    uint32_t total = 0;
    for (int i = 0; i < MOVES; i++) {
        uint32_t value;
        bh_field_read(memory, WORDS, addresses[i], size, is_signed, &value, 1);
        total += value;
    }
    sum = total;
}

static void plain_reads(uint32_t size, uint32_t is_signed)
{
    uint32_t total = 0;
    for (int i = 0; i < MOVES; i++) {
        uint32_t value;
        plain_field_read(memory, WORDS, addresses[i], size, is_signed, &value);
        total += value;
    }
    sum = total;
}

static void library_writes(uint32_t size)
{
    for (uint32_t i = 0; i < MOVES; i++)
        bh_field_write(memory, WORDS, addresses[i], size, 0x9E3779B9u * i);
}

static void plain_writes(uint32_t size)
{
    for (uint32_t i = 0; i < MOVES; i++)
        plain_field_write(memory, WORDS, addresses[i], size, 0x9E3779B9u * i);
}

static void move_library(const void *work)
{
    const struct moves *m = work;
    if (m->move == WRITE)
        library_writes(m->size);
    else
        library_reads(m->size, m->move == READ_SIGNED);
}

static void move_plain(const void *work)
{
    const struct moves *m = work;
    if (m->move == WRITE)
        plain_writes(m->size);
    else
        plain_reads(m->size, m->move == READ_SIGNED);
}

static void compare_writes(uint32_t size)
{
    restore();
    plain_writes(size);
    memcpy(other, memory, sizeof other);
    restore();
    library_writes(size);
    same_or_stop("field write", size, 0);
}

static void compare_reads(uint32_t size, uint32_t is_signed)
{
    library_reads(size, is_signed);
    uint32_t library = sum;
    plain_reads(size, is_signed);
    if (sum != library) {
        printf("bench: field read, size %lu: the values differ\n", (unsigned long)size);
        exit(1);
    }
}

static void compare_fields(void)
{
    make_addresses();
    for (uint32_t size = 1; size <= 32; size++) {
        compare_writes(size);
        compare_reads(size, 0);
        compare_reads(size, 1);
    }
    printf("bench: the same memory and values after moves of 32 field sizes\n");
}

/* Sizes 8, 16, 32. */
#define SIZES 3

static const char *const columns[SIZES] = { "size  8", "size 16", "size 32" };

static struct best moved[MOVE_KINDS][SIZES];

static void pass_fields(int rounds)
{
    for (int move = READ; move < MOVE_KINDS; move++) {
        for (int i = 0; i < SIZES; i++) {
            const struct moves moves = { (enum move)move, (uint32_t)8 << i };
            const struct contest contest = { NULL, move_library, move_plain, &moves };
            measure(&moved[move][i], &contest, rounds);
        }
    }
}

static void print_fields(void)
{
    print_head("million moves/s", columns, SIZES);
    for (int move = READ; move < MOVE_KINDS; move++) {
        printf("%-19s", move_names[move]);
        for (int i = 0; i < SIZES; i++)
            print_cell(&moved[move][i], 1e-6 * MOVES);
        printf("\n");
    }
}

const struct group fields = { "field moves", compare_fields, pass_fields, print_fields };

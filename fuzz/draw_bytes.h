/* A drawing as bytes, the lowest byte of a number first. Bytes that are missing count as 0. */
#ifndef DRAW_BYTES_H
#define DRAW_BYTES_H

enum draw_byte {
    AT_OPERATION = 0,      /* modulo 8 */
    AT_WORDS = 1,          /* 0 to 255 */
    AT_LENT = 2,           /* what is lent otherwise than asked: see lend_otherwise */
    AT_V = 3,
    AT_LONG = 4,           /* SADDR to COLOR1, 4 bytes each */
    AT_SHORT = 44,         /* CONTROL, PSIZE (see below), PMASK, 2 bytes each */
    AT_PLACE = 50,         /* 8 bytes */
    AT_BUDGET = 58,        /* 8 bytes */
    AT_SLICES = 66,        /* modulo 8: how many calls follow the first */
    AT_SLICE_BUDGETS = 67, /* a byte each: see slice_budget */
    AT_MEMORY = 74         /* 2 bytes each word */
};

/* The settings of 4 bytes and of 2. */
#define LONG_SETTINGS 10
#define SHORT_SETTINGS 3

/* From here on PSIZE is what the number is more than this; below it, one of the five sizes by the
   number modulo 5. */
#define ANY_PSIZE 0xC000

#define MOST_SMALL_WORDS 255
#define MOST_DRAW_BYTES (AT_MEMORY + 2 * MOST_SMALL_WORDS)

#endif

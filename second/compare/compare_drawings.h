/* What the comparison of FILL and PIXBLT calls shares. */
#ifndef COMPARE_DRAWINGS_H
#define COMPARE_DRAWINGS_H

#include "compare.h"

/* A call of bh_draw, but for what its memory holds. A dry run has the same arguments, and a call of
   bh_fill_states all but place, V and budget. */
struct draw_case {
    uint32_t operation;
    uint32_t number[NUMBERS];
    size_t count;   /* of these are lent */
    uint64_t words; /* of the memory are lent */
    uint64_t place;
    uint32_t v;
    uint64_t budget;
    size_t length; /* of the output array */
};

/* The results, and guards behind them. */
#define DRAW_OUTS 10

enum draw_out {
    OUT_PLACE,
    OUT_VISITED,
    OUT_V,
    OUT_REQUEST,
    OUT_SADDR,
    OUT_DADDR,
    OUT_DYDX
};

/* Of the time of a FILL. */
enum time_out { OUT_SETUP, OUT_TRANSFER, OUT_ADJUSTMENT, OUT_STATES };

/* What a call hands back. */
struct draw_result {
    uint32_t answer;
    uint64_t out[DRAW_OUTS];
};

/* The library's memory, the model's, and what both were before the call. All words are held and
   compared; a call is lent some of them. */
struct twin {
    uint16_t *mine, *theirs, *before;
    uint64_t words; /* the memory's; the others stand behind it */
    uint64_t held;
};

/* ---- One call (compare_drawings.c) ---- */

extern const char *const operation_name[OPERATIONS];

/* Draws by both, makes the dry run, asks both for the time where there aren't very many pixels, and
   stops the run where they differ in anything. */
struct draw_result compare_draw(const struct draw_case *c, struct twin *m);

/* The same, but what the call had isn't counted. */
struct draw_result compare_uncounted(const struct draw_case *c, struct twin *m);

/* The dry run alone, over any number of words: more than any memory has, too. */
void compare_dry(const struct draw_case *c);

/* 0 to 4 for the pixel sizes 1, 2, 4, 8 and 16. */
int size_index(uint32_t psize);

/* All results of a call as guards. */
void clear_result(struct draw_result *r);

bool same_result(const struct draw_result *a, const struct draw_result *b);

void print_draw_case(const struct draw_case *c);
void print_result(const char *whose, const struct draw_result *r);

/* The answers and the results of a call in which the two differ, the first results by their names.
   Where there are none, the call has changed a setting. */
void print_difference(const char *call, const char *const *name, int names,
                      const struct draw_result *mine, const struct draw_result *theirs);

/* Does a drawing read source bits that it writes? For small memories. */
bool overlaps(const struct draw_case *c);

/* A memory of this many words with an image. It stands until the next one is made. */
struct twin new_memory(uint64_t words);

/* A budget when this many pixels are left: mostly some of them; at times none, all or more. */
uint64_t random_budget(uint64_t left);

/* The model visits each pixel to find a refusal, so a drawing of more than this many is rare. */
#define TAME_PIXELS 70000

/* Fewer rows and columns, so that the model is done soon. */
void tame(struct draw_case *c);

/* ---- Random drawings (random_drawing.c) ---- */

bool draws_to_xy(uint32_t operation);
bool draws_from_xy(uint32_t operation);
bool copies_pixels(uint32_t operation);
bool copies_bits(uint32_t operation);

/* The starting corners by number: PBH + 2 x PBV. */
#define CORNERS 4

uint32_t corner_of(const struct draw_case *c);

/* A PIXBLT of pixels that starts at another corner than the upper left one. */
bool is_turned(const struct draw_case *c);

/* Another corner of the same array: of L,L the two starts move there. */
void turn_drawing(struct draw_case *c, uint32_t corner);

/* A drawing over a memory of this many words, at place 0, mostly one that is accepted. PBH or PBV
   is 1 in two of three, whether they count or not. */
struct draw_case random_drawing(uint64_t words);

/* A pitch in whole numbers: from 2^31 on it falls. */
int64_t rise_of(uint32_t pitch);

/* The same drawing, as many words further up. */
void move_drawing(struct draw_case *c, uint64_t words);

/* Makes something wrong, or perhaps so; held words can be lent. */
void spoil(struct draw_case *c, uint64_t held);

/* Changes some number. */
void disturb(struct draw_case *c);

/* ---- The bits of a drawing (footprint.c) ---- */

/* One byte for each bit of the memory: may the drawing write it, and does it read it beside? */
struct footprint {
    uint8_t *written, *read;
};

/* The array, and what the window leaves of it. A linear one starts at 0, 0. */
struct rectangle whole_array(const struct draw_case *c);
struct rectangle drawn_part(const struct draw_case *c);

/* The linear address of that part's upper left pixel, of L,L that of its corner. */
uint32_t destination_start(const struct draw_case *c);

/* The number of pixels in all. */
uint64_t pixels_of(const struct draw_case *c);

/* The bits of all pixels of an accepted drawing; every byte was 0. */
void find_footprint(const struct draw_case *c, struct footprint *f);

/* ---- The time of a drawing (compare_timing.c) ---- */

/* Calls both; true where they agree in everything. */
bool times_agree(const struct draw_case *c, struct draw_result *mine, struct draw_result *theirs);

/* The same, and stops the run where they differ. */
void compare_time(const struct draw_case *c);

void print_times(const struct draw_result *mine, const struct draw_result *theirs);

/* Counts the time of a random drawing, and what a FILL that draws had. */
void count_time(const struct draw_case *c, const struct draw_result *r);

/* Every short row in every mode, every place by a window, and any number of words. */
void compare_timings(void);

/* Gives the number of things that never occurred. */
int print_timings(void);

/* ---- Starting corners (compare_corners.c) ---- */

/* Every small array from all four corners. */
void compare_corners(void);

/* Counts a random call by its kind and corner; `overlap`: it reads source bits that it writes. */
void count_corner(const struct draw_case *c, const struct draw_result *r, const struct twin *m,
                  bool overlap);

/* Counts a drawing of a pair. */
void count_corner_in_pair(const struct draw_case *c);

/* Gives the number of things that never occurred. */
int print_corners(void);

/* ---- Slices of two drawings (compare_slices.c) ---- */

void compare_slices(void);

/* Gives the number of things that never occurred. */
int print_slices(void);

#endif

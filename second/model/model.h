/* A naive model of a chip's drawing side, written from the documents' text and the readings of it
   alone: the scope; for FILL timing request One and document 000, section 13.3; for the starting
   corners request Eight.
   Every part follows the text sentence by sentence; nothing here is meant to be fast. */
#ifndef MODEL_H
#define MODEL_H

#include <stdbool.h>
#include <stddef.h>
#include <stdint.h>
#include <stdio.h>

/* "Answer 0 is done, 1 is stopped at the budget." */
#define DONE 0
#define STOPPED 1

/* "Refusal numbers" */
#define REFUSED_MEMORY 10
#define REFUSED_PSIZE 11
#define REFUSED_CONTROL 12
#define REFUSED_PITCH 13
#define REFUSED_WINDOW 14
#define REFUSED_PLACE 15
#define REFUSED_START 16
#define REFUSED_ADDRESS 17
#define REFUSED_SIZE 18
#define REFUSED_CACHE 19
#define REFUSED_FORM 20
#define REFUSED_NAME 21
#define REFUSED_VALUE 22
#define REFUSED_MANY 23
#define REFUSED_POINT 24

/* ---- Memory ---- */

/* "The memory is a lent run of 16-bit words, 1 to 1,048,576 of them." */
#define MOST_WORDS 1048576

struct memory {
    uint16_t *word;
    uint64_t words;
};

bool memory_is_bad(struct memory m);
int bit_get(struct memory m, uint64_t address);
void bit_put(struct memory m, uint64_t address, int bit);

/* ---- Fields (field.c) ---- */

struct read_answer {
    int answer;
    uint32_t value;
};

struct cycles_answer {
    int answer;
    uint32_t read;
    uint32_t write;
};

struct states_answer {
    int answer;
    uint32_t states;
};

enum move_mode { INDIRECT = 0, POSTINCREMENT = 1, PREDECREMENT = 2 };

struct read_answer field_read(struct memory m, uint32_t address, uint32_t size, bool is_signed);
int field_write(struct memory m, uint32_t address, uint32_t size, uint32_t value);
char field_case(uint32_t address, uint32_t size);
struct cycles_answer field_cycles(uint32_t address, uint32_t size);
struct states_answer move_states(uint32_t address, uint32_t size, enum move_mode mode,
                                 bool is_signed, bool cached);

/* ---- Cache (cache.c) ---- */

#define SEGMENTS 4
#define SUBSEGMENTS 8

struct segment {
    uint32_t start;
    bool present[SUBSEGMENTS];
};

/* order[0] is the least recently used segment, order[3] the latest. */
struct cache {
    struct segment segment[SEGMENTS];
    uint32_t order[SEGMENTS];
};

enum hit_kind {
    HIT = 0,
    SUBSEGMENT_MISS = 1,
    SEGMENT_MISS = 2,
    DISABLED = 3,
    FETCH_REFUSED = REFUSED_CACHE
};

struct fetch_answer {
    enum hit_kind kind;
    struct cache next;
};

struct cache cache_fresh(void);
struct fetch_answer cache_fetch(struct cache given, uint32_t address, uint16_t control);

/* ---- Image (image.c) ---- */

struct generator {
    uint64_t x;
};

uint64_t generator_draw(struct generator *g);
int image_make(struct memory m, uint64_t seed);

/* ---- Changed bits (changed.c) ---- */

struct changed_answer {
    int answer;
    uint64_t count;
};

struct changed_answer changed_bits(struct memory a, struct memory b);

/* ---- Settings ---- */

/* The thirteen names; CONTROL, PSIZE and PMASK are 16 bits wide. */
struct settings {
    uint32_t SADDR;
    uint32_t SPTCH;
    uint32_t DADDR;
    uint32_t DPTCH;
    uint32_t OFFSET;
    uint32_t WSTART;
    uint32_t WEND;
    uint32_t DYDX;
    uint32_t COLOR0;
    uint32_t COLOR1;
    uint16_t CONTROL;
    uint16_t PSIZE;
    uint16_t PMASK;
};

/* ---- One pixel (pixel.c) ---- */

uint32_t control_pp(const struct settings *s);
uint32_t control_t(const struct settings *s);
uint32_t control_w(const struct settings *s);
uint32_t control_pbh(const struct settings *s);
uint32_t control_pbv(const struct settings *s);
uint32_t control_cd(const struct settings *s);
bool psize_is_bad(const struct settings *s);
bool control_is_bad(const struct settings *s);
uint32_t pixel_of_word(uint32_t word, uint32_t address, uint32_t P);
uint32_t pixel_get(struct memory m, uint32_t address, uint32_t P);
void pixel_put(struct memory m, uint32_t address, uint32_t P, uint32_t value);
uint32_t pixel_operation(uint32_t PP, uint32_t P, uint32_t S, uint32_t D);
uint32_t pixel_after(uint32_t PP, uint32_t T, uint32_t P, uint32_t mask, uint32_t S, uint32_t D);
void pixel_draw(struct memory m, const struct settings *s, uint32_t address, uint32_t S);

/* ---- XY, linear addresses and windows (geometry.c) ---- */

/* A rectangle in whole numbers; without columns or rows it is empty. */
struct rectangle {
    int64_t x;
    int64_t y;
    int64_t columns;
    int64_t rows;
};

/* What the window says of an array. */
struct window_answer {
    int v;
    int request;
    struct rectangle drawn;   /* empty where nothing is drawn */
    bool common_is_reported;  /* W=1 and the rectangles meet */
    struct rectangle common;  /* the common rectangle, where it is reported */
};

int64_t x_half(uint32_t xy);
int64_t y_half(uint32_t xy);
uint32_t xy_number(int64_t x, int64_t y);
uint32_t xy_linear(const struct settings *s, int64_t x, int64_t y, uint32_t pitch);
uint32_t address_at(uint32_t start, int64_t row, uint32_t pitch, int64_t column, uint32_t step);
bool xy_pitch_is_bad(uint32_t pitch);
bool linear_pitch_is_bad(uint32_t pitch);
bool window_is_bad(const struct settings *s);
bool rectangle_is_empty(struct rectangle a);
struct window_answer window_rule(const struct settings *s, struct rectangle array, int v);

/* ---- FILL and PIXBLT (draw.c) ---- */

enum operation {
    FILL_L,
    FILL_XY,
    PIXBLT_L_L,
    PIXBLT_L_XY,
    PIXBLT_XY_L,
    PIXBLT_XY_XY,
    PIXBLT_B_L,
    PIXBLT_B_XY
};

#define OPERATIONS 8

struct draw_answer {
    int answer;
    uint64_t place;
    uint64_t visited;
    int v;
    int request;
    uint32_t SADDR;
    uint32_t DADDR;
    uint32_t DYDX;
};

/* What a call knows before it visits a pixel. */
struct drawing {
    struct window_answer window;
    uint64_t n;            /* "n pixels in all" */
    bool negative_start;   /* an XY start after clipping has a negative X or Y */
    uint32_t destination;  /* linear address of the drawn array's chosen corner */
    uint32_t source;       /* the same of its source */
    bool from_right;       /* each row is walked from its right end */
    bool from_last_row;    /* rows are walked from the last one up */
};

struct rectangle array_of(enum operation op, const struct settings *s);
struct drawing drawing_of(enum operation op, const struct settings *s, int v);
int draw_refusal(struct memory m, enum operation op, const struct settings *s, uint64_t place);
struct draw_answer draw(struct memory m, enum operation op, const struct settings *s,
                        uint64_t place, int v, uint64_t budget);

/* ---- FILL timing (fill_timing.c) ---- */

struct fill_answer {
    int answer;          /* 0, or the refusal of the whole drawing */
    uint64_t setup;
    uint64_t transfer;
    uint64_t adjustment;
    uint64_t states;     /* setup + transfer - adjustment */
};

struct fill_answer fill_states(uint64_t words, enum operation op, const struct settings *s);

/* ---- PIXT and DRAV (pixt.c) ---- */

struct pixt_answer {
    int answer;
    uint64_t visited;
    int v;
    int request;
    uint32_t value;  /* the register's new value; 0 for PIXT to memory */
};

struct drav_answer {
    int answer;
    uint64_t visited;
    int v;
    int request;
    uint32_t point;
};

struct pixt_answer pixt_to_linear(struct memory m, const struct settings *s, uint32_t data,
                                  uint32_t address, int v);
struct pixt_answer pixt_to_xy(struct memory m, const struct settings *s, uint32_t data,
                              uint32_t xy, int v);
struct pixt_answer pixt_from_linear(struct memory m, const struct settings *s, uint32_t address,
                                    int v);
struct pixt_answer pixt_from_xy(struct memory m, const struct settings *s, uint32_t xy, int v);
struct drav_answer drav(struct memory m, const struct settings *s, uint32_t step, uint32_t point,
                        int v);

/* ---- Plans (plan.c) ---- */

#define MOST_TEXT 65536
#define MOST_AXES 8
#define MOST_VALUES 64

struct axis {
    int name;  /* index into the list of names in plan.c */
    int length;
    uint64_t value[MOST_VALUES];
};

struct plan {
    int answer;     /* 0, or the refusal */
    uint64_t line;  /* the line that is refused, or 0 */
    uint64_t words;
    enum operation op;
    int axes;
    struct axis axis[MOST_AXES];
};

struct point_answer {
    int answer;
    int index[MOST_AXES];
    struct settings settings;
    uint64_t seed;
};

void plan_read(struct plan *p, const unsigned char *text, size_t length);
uint64_t plan_count(const struct plan *p);
struct point_answer plan_point(const struct plan *p, uint64_t number);
void plan_listing(const unsigned char *text, size_t length, FILE *out);

#endif

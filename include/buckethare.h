/* The C interface of Buckethare, a proved model of the drawing side of the TMS34010.

   Every function is proved to meet its contract in crates/capi/src, for all arguments. The contract
   names a promise that stands in the specs of the crate that the function calls: FieldReadCall for
   bh_field_read, and so on. No function allocates, keeps anything between calls, or touches memory
   beyond the arrays that it is passed. An array is passed as a pointer and its length in elements.
   The pointer may not be null, also where the length is 0, and the arrays of one call may not
   overlap.

   Calls may be made from any threads at once, as long as no array that one of them writes is used
   by another at the same time. An array that is const here is only read. The library is for Linux
   on x86-64, and takes nothing but memcpy and memset from the C library.

   The answer of a call, but for the two bh_put_ calls, is 0, 1 where a drawing stopped at its
   budget, or the number of the refusal that applies:
      9  an array is too short or of the wrong size, a mode or an operation is none, or a number is
         too large for its place
     10  the memory is empty or above 1,048,576 words
     11  PSIZE isn't 1, 2, 4, 8 or 16
     12  PP (CONTROL bits 10-14) is above 21
     13  a pitch that is used is bad: of an XY array or a lone XY pixel not a power of two of at
         least 16, of a linear pixel array not a multiple of 16. DPTCH is used by a drawing and a
         lone XY pixel, SPTCH by a source of pixels
     14  W (CONTROL bits 6-7) isn't 0, the destination is XY, and the window has a negative
         coordinate or a start beyond its end
     15  the place is above the drawing's number of pixels, after clipping
     16  there are pixels to draw or read, and an XY start after clipping has a negative X or Y, or
         the linear address at which a pixel array or a lone pixel starts isn't a multiple of PSIZE
     17  some bit of the field, the lone pixel that would be drawn or read, or some pixel or source
         bit that would be visited over the whole drawing has an address of 16 x words or more
     18  the field size is outside 1 to 32
     19  the numbers are no cache state
     20  a line of the plan has a wrong form, or is missing, or the text is above 65,536 bytes
     21  a name of the plan is unknown or came before
     22  a value of the plan is too large for its name, or stands twice on its axis
     23  the plan has more than 8 axes, or more than 64 values on one
     24  a point that is asked for isn't below the plan's number of points
   The lowest number that applies is given, but a field call checks 10, 18, 17 in that order, and in
   a plan the first bad line decides. A call that answers 9 changes nothing. With another refusal
   the results are 0, but for bh_fetch, V, the point of bh_drav, the place and the registers of
   bh_draw and bh_outcome, the line of bh_plan_read and the values of bh_experiment, and the memory
   or the cache state stays. An output array that is longer than asked keeps its further elements.

   A memory is a run of 16-bit words; bit address a is bit a mod 16 of word a / 16. */
#ifndef BUCKETHARE_H
#define BUCKETHARE_H

#include <stddef.h>
#include <stdint.h>

#ifdef __cplusplus
extern "C" {
#endif

/* While the first number is 0, each second number may change the interface. */
#define BH_VERSION "0.16.0"

#define BH_DONE 0
#define BH_STOPPED 1
#define BH_BAD_ARGUMENT 9
#define BH_NO_MEMORY 10
#define BH_BAD_PIXEL_SIZE 11
#define BH_BAD_CONTROL 12
#define BH_BAD_PITCH 13
#define BH_BAD_WINDOW 14
#define BH_BAD_PLACE 15
#define BH_BAD_START 16
#define BH_PAST_END 17
#define BH_BAD_SIZE 18
#define BH_NO_CACHE 19
#define BH_BAD_FORM 20
#define BH_BAD_NAME 21
#define BH_BAD_VALUE 22
#define BH_TOO_MANY 23
#define BH_NO_POINT 24

/* ---- Fields ---- */

/* Reads the field of `size` bits at bit address `address` into out[0], zero extended, or sign
   extended where is_signed isn't 0. The memory stays. Answers 0, 9 (out is empty), 10, 17 or 18. */
uint32_t bh_field_read(const uint16_t *memory, size_t words, uint32_t address, uint32_t size,
                       uint32_t is_signed, uint32_t *out, size_t out_length);

/* Writes the low `size` bits of value to the field, and changes no other bit. Answers 0, 10, 17
   or 18. */
uint32_t bh_field_write(uint16_t *memory, size_t words, uint32_t address, uint32_t size,
                        uint32_t value);

/* Memory cycles of a move of the field: out[0] of a read, out[1] of a write. Answers 0, 9 (out has
   less than 2 elements) or 18. */
uint32_t bh_field_cycles(uint32_t address, uint32_t size, uint32_t *out, size_t out_length);
enum { BH_CYCLES_READ, BH_CYCLES_WRITE };

#define BH_INDIRECT 0
#define BH_POSTINCREMENT 1
#define BH_PREDECREMENT 2

/* Machine states of MOVE memory to register into out[0]. is_signed isn't 0 for sign extension,
   is_cached isn't 0 where the instruction is in cache. Answers 0, 9 (out is empty, or mode is none
   of the three) or 18. */
uint32_t bh_move_states(uint32_t address, uint32_t size, uint32_t mode, uint32_t is_signed,
                        uint32_t is_cached, uint32_t *out, size_t out_length);

/* ---- Single pixels ---- */

/* The settings are 13 numbers, in this order: SADDR, SPTCH, DADDR, DPTCH, OFFSET, WSTART, WEND,
   DYDX, COLOR0, COLOR1, CONTROL, PSIZE, PMASK. The last three are at most 65535. An XY address, a
   point, a step, WSTART and WEND have X in the low and Y in the high 16 bits, DYDX has an array's
   columns in the low and its rows in the high ones. Further elements are not read. */
#define BH_SETTINGS 13

/* The index of each of them, for a start value such as { [BH_DPTCH] = 2048, [BH_PSIZE] = 4 }.
   BH_SEED is no setting; plans have it (below). */
enum {
    BH_SADDR,
    BH_SPTCH,
    BH_DADDR,
    BH_DPTCH,
    BH_OFFSET,
    BH_WSTART,
    BH_WEND,
    BH_DYDX,
    BH_COLOR0,
    BH_COLOR1,
    BH_CONTROL,
    BH_PSIZE,
    BH_PMASK,
    BH_SEED
};

/* The results of PIXT and DRAV are four numbers: pixels visited (0 or 1), V (0 or 1), window
   violation request (0 or 1), and one that each call names. */
#define BH_PIXEL_RESULTS 4
enum { BH_PIXEL_VISITED, BH_PIXEL_V, BH_PIXEL_REQUEST, BH_PIXEL_VALUE };

/* What the five calls below share. v is V before the call: 0, or anything else for 1. A refused
   call hands it back as 0 or 1. The settings stay. Each answers 9 where there are less than 13
   settings, one of the last three is above 65535, or out has less than 4 elements. */

/* PIXT register to memory: draws the low PSIZE bits of value at a linear address, or at an XY
   address under the window. out[3] is 0. Answers 0, 9, 10, 11, 12, 16 or 17; at an XY address also
   13 or 14. */
uint32_t bh_pixt_to_linear(uint16_t *memory, size_t words, const uint32_t *settings,
                           size_t settings_length, uint32_t value, uint32_t address, uint32_t v,
                           uint32_t *out, size_t out_length);
uint32_t bh_pixt_to_xy(uint16_t *memory, size_t words, const uint32_t *settings,
                       size_t settings_length, uint32_t value, uint32_t xy, uint32_t v,
                       uint32_t *out, size_t out_length);

/* PIXT memory to register: out[3] is the pixel with masked bits 0, zero extended. The memory stays,
   and V is kept. Answers 0, 9, 10, 11, 12, 16 or 17; at an XY address also 13. */
uint32_t bh_pixt_from_linear(const uint16_t *memory, size_t words, const uint32_t *settings,
                             size_t settings_length, uint32_t address, uint32_t v, uint32_t *out,
                             size_t out_length);
uint32_t bh_pixt_from_xy(const uint16_t *memory, size_t words, const uint32_t *settings,
                         size_t settings_length, uint32_t xy, uint32_t v, uint32_t *out,
                         size_t out_length);

/* DRAV: draws the pixel at the point, under the window, from the low 16 bits of COLOR1 at the
   pixel's place in its word. out[3] is the point with the step's X and Y added, each modulo 2^16,
   drawn or not; where the call is refused, the point as it was. Answers 0, 9, 10, 11, 12, 13, 14,
   16 or 17. */
uint32_t bh_drav(uint16_t *memory, size_t words, const uint32_t *settings, size_t settings_length,
                 uint32_t step, uint32_t point, uint32_t v, uint32_t *out, size_t out_length);

/* ---- Drawings ---- */

#define BH_FILL_L 0
#define BH_FILL_XY 1
#define BH_PIXBLT_L_L 2
#define BH_PIXBLT_L_XY 3
#define BH_PIXBLT_XY_L 4
#define BH_PIXBLT_XY_XY 5
#define BH_PIXBLT_B_L 6
#define BH_PIXBLT_B_XY 7

/* PBH (CONTROL bit 8) and PBV (bit 9) choose the corner from which PIXBLT L,L, L,XY, XY,L and XY,XY
   walk: with PBH 1 each row from its right end, with PBV 1 the rows from the last one up. FILL,
   PIXBLT B,L and B,XY, PIXT and DRAV ignore both. SADDR and DADDR of PIXBLT L,L are the addresses
   of the corner's own pixels. Those of the other three name the upper left pixels. From these,
   after clipping, the corner lies (rows - 1) x pitch further with PBV 1 and (columns - 1) x PSIZE
   further with PBH 1, modulo 2^32, in source and destination each by its own pitch. */

/* The results of a drawing are seven numbers: the new place, the pixels visited by this call, V (0
   or 1), window violation request (0 or 1), SADDR, DADDR and DYDX. Once a drawing that has pixels
   is done, DADDR, and SADDR of a PIXBLT, are the linear address, in the corner's column, of the row
   after the last one walked: the row above the array where PBV counts and is 1. With an XY
   destination and W 1 nothing is drawn, and where the array meets the window DADDR and DYDX are the
   part of it that lies inside, DADDR its upper left pixel. In all other cases the registers are
   those of the settings. */
#define BH_DRAW_RESULTS 7
enum {
    BH_DRAW_PLACE,
    BH_DRAW_VISITED,
    BH_DRAW_V,
    BH_DRAW_REQUEST,
    BH_DRAW_SADDR,
    BH_DRAW_DADDR,
    BH_DRAW_DYDX
};

/* FILL or PIXBLT, one of the eight operations above, with the settings of PIXT and DRAV. place is
   the number of pixels already visited, 0 at first, and the call visits at most budget more. v is V
   before the call: 0, or anything else for 1. Answers 0 where the drawing is done, or 1 where it
   stopped at the budget: then the registers are those of the settings, and a call with the same
   settings, the new place and the new V goes on. The settings stay. A refused call hands back
   place, V and registers as given. Answers 0, 1, 9 (operation is above 7, there are less than 13
   settings, one of the last three is above 65535, or out has less than 7 elements), 10, 11, 12, 13,
   14, 15, 16 or 17. */
uint32_t bh_draw(uint16_t *memory, size_t words, uint32_t operation, const uint32_t *settings,
                 size_t settings_length, uint64_t place, uint32_t v, uint64_t budget, uint64_t *out,
                 size_t out_length);

/* A dry run: what bh_draw would answer and put into out over a memory of so many words. What they
   hold doesn't matter, so no memory is passed, and nothing is drawn. */
uint32_t bh_outcome(size_t words, uint32_t operation, const uint32_t *settings,
                    size_t settings_length, uint64_t place, uint32_t v, uint64_t budget,
                    uint64_t *out, size_t out_length);

/* The time of a FILL is four numbers, in machine states: setup, transfer, adjustment, and the whole
   time, which is setup and transfer less the adjustment. */
#define BH_FILL_RESULTS 4
enum { BH_FILL_SETUP, BH_FILL_TRANSFER, BH_FILL_ADJUSTMENT, BH_FILL_STATES };

/* The time of a whole drawing, from place 0 to its end, over a memory of so many words, by 000
   section 13.3 and its tables 13-5 to 13-7; CD (CONTROL bit 15) adds 3 states to the setup. All
   four are 0 for a PIXBLT, for a drawing that visits no pixel, and where the drawing is refused.
   Answers 0, 9 (as bh_draw, or out has less than 4 elements), 10, 11, 12, 13, 14, 16 or 17. */
uint32_t bh_fill_states(size_t words, uint32_t operation, const uint32_t *settings,
                        size_t settings_length, uint64_t *out, size_t out_length);

/* ---- Instruction cache ---- */

/* A cache state is 12 numbers: the start addresses of segments 0 to 3 (bits 9-31 of the bit
   address, a 23-bit number); the present flags of segments 0 to 3, flag j as bit j; and the order,
   the least recently used segment first. Numbers are none, and get 19, where the order doesn't have
   each of 0 to 3 once, a start address is 2^23 or more, or two segments with a flag have the same
   one. */
#define BH_CACHE_NUMBERS 12

/* Where each of the three groups of four numbers starts. */
enum { BH_CACHE_SEGMENT = 0, BH_CACHE_FLAGS = 4, BH_CACHE_ORDER = 8 };

/* A fresh cache, as the initial value of an array. */
#define BH_CACHE_FRESH { 0, 0, 0, 0, 0, 0, 0, 0, 0, 1, 2, 3 }

#define BH_HIT 0
#define BH_SUBSEGMENT_MISS 1
#define BH_SEGMENT_MISS 2
#define BH_DISABLED 3
#define BH_REFUSED 19

/* Fetches at a bit address under CONTROL, of which only bit 15 (CD) counts. The kind, one of the
   five above, goes to out[0], and the next state to the first 12 elements of state. With
   BH_DISABLED and BH_REFUSED the state stays as it is. Bits above bit 7 of the flags are ignored,
   and are 0 in a next state. Answers 0, 9 (out is empty, or state has less than 12 elements), or
   19 with the kind BH_REFUSED. */
uint32_t bh_fetch(uint32_t *state, size_t state_length, uint32_t address, uint16_t control,
                  uint32_t *out, size_t out_length);

/* ---- Images ---- */

/* Fills the memory with the image of the seed. Answers 0 or 10. */
uint32_t bh_fill_image(uint16_t *memory, size_t words, uint64_t seed);

/* The number of bits in which two memories differ, into out[0]. A bit past the end of the shorter
   one counts as 0. Answers 0, 9 (out is empty), or 10 where either isn't a memory. */
uint32_t bh_changed(const uint16_t *before, size_t words_before, const uint16_t *after,
                    size_t words_after, uint64_t *out, size_t out_length);

/* ---- Plans ---- */

/* The names of a plan are numbered in this order: SADDR 0, SPTCH, DADDR, DPTCH, OFFSET, WSTART,
   WEND, DYDX, COLOR0, COLOR1, CONTROL 10, PSIZE, PMASK, SEED 13: BH_SADDR to BH_SEED. */
#define BH_NAMES 14

/* A table has a plan's axes one after another: of each the number of its name, how many values it
   has, and these. So many elements are enough for every plan. A table doesn't hold axes, and has no
   points, where there are more than 8, a name isn't below 14, there are not 1 to 64 values, they
   aren't all there, or one of them is too large for its name (65,536 or more for CONTROL, PSIZE and
   PMASK; 2^32 or more for every other but SEED). */
#define BH_TABLE 528

/* From the start of an axis in the table: its name, how many values it has, and the first one. */
enum { BH_AXIS_NAME, BH_AXIS_COUNT, BH_AXIS_VALUES };

/* The results of reading are five numbers: the line of the refusal (0 where there is none), the
   words of the memory, the drawing (0 to 7, in the order of BH_FILL_L and the others), and how many
   axes and points there are. */
#define BH_PLAN_RESULTS 5
enum { BH_PLAN_LINE, BH_PLAN_WORDS, BH_PLAN_DRAW, BH_PLAN_AXES, BH_PLAN_POINTS };

/* Reads a plan: its axes go to the start of the table, the results to out. A refused plan has 0 for
   all results but the line, and leaves the table as it was. Answers 0, 9 (the table has less than
   528 elements, or out less than 5), 20, 21, 22 or 23. */
uint32_t bh_plan_read(const uint8_t *text, size_t length, uint64_t *table, size_t table_length,
                      uint64_t *out, size_t out_length);

/* The 14 values of a point, in the order of the names. axes is how many of the table's axes are the
   plan's. Answers 0, 9 (out has less than 14 elements), or 24 where the point isn't below the
   number of points: every one where the table doesn't hold the axes. Then out stays. */
uint32_t bh_experiment(const uint64_t *table, size_t table_length, uint64_t axes, uint64_t point,
                       uint64_t *out, size_t out_length);

/* A line of a listing has six numbers: the point, its answer, the pixels visited, V, the memory
   bits that differ from the image, and the machine states of a FILL (bh_fill_states). No line is
   longer than BH_LINE bytes: run::LINE of the library. */
#define BH_LINE 80

/* Runs `count` points from `first` on, each over the image of its SEED, and puts their lines of the
   listing at the start of out; bytes[0] is how many bytes these are. The image and the memory are
   those of the last point then; with count 0 they stay. What they hold before doesn't matter.
   Answers 0; 9 (draw is above 7, the image and the memory aren't of one size up to 32,768 words,
   out has less than BH_LINE x count bytes, or bytes is empty); 10 where they are empty; or 24 where
   a point that is asked for isn't below the number of points. With count 0 none is asked for. A
   table that doesn't hold the axes has no points. With 10 and 24 bytes[0] is 0, and nothing else
   changes. */
uint32_t bh_lines(const uint64_t *table, size_t table_length, uint64_t axes, uint64_t draw,
                  uint64_t first, uint64_t count, uint16_t *image, size_t image_words,
                  uint16_t *memory, size_t memory_words, uint8_t *out, size_t out_length,
                  uint64_t *bytes, size_t bytes_length);

/* Put the listing's heading, or the line of a refused plan (the refusal's number and its line), at
   an index of out. They answer the index after the line; where it doesn't fit they answer the
   index itself, and nothing changes. */
size_t bh_put_heading(uint8_t *out, size_t out_length, size_t at);
size_t bh_put_refused(uint8_t *out, size_t out_length, size_t at, uint64_t number, uint64_t line);

#ifdef __cplusplus
}
#endif

#endif

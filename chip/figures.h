/* What the tables of figures share.

   A figure is what a source document prints with numbers: a row of a table, a worked example, the
   bits of a drawing, a rule with its limits. It stands in a table with its document, its section,
   what is printed there, the call that runs it and the numbers that the document expects. */
#ifndef FIGURES_H
#define FIGURES_H

#include <stdbool.h>
#include <stddef.h>
#include <stdint.h>

#include "buckethare.h"

#define COUNT_OF(table) (sizeof(table) / sizeof(table)[0])

/* ---- One figure and its line (figures.c) ---- */

struct figure {
    const char *document;
    const char *section;
    const char *name;
    const char *printed; /* the document's words or numbers, shortened */
    const char *rule;    /* SAME, WORKED, or the scope's rule that decides otherwise */
};

/* The library must give what the document prints. With WORKED the document has a rule in words, and
   the values are ours. Any other rule is a row of docs/SOURCES.md. */
#define SAME ""
#define WORKED "worked"

bool has_rule(const struct figure *figure);

/* A number of the figure that the document doesn't print: any will do. */
#define NOT_PRINTED UINT64_MAX

/* Prints a figure's line. Without a rule the library's numbers must be the document's. With one
   they must be the scope's, and these must differ from the document's. `what` names the numbers. */
void settle(const struct figure *figure, const char *what, size_t count, const uint64_t *printed,
            const uint64_t *scope, const uint64_t *got);

/* Prints the line of a figure that the scan doesn't show, or that is of something not modelled.
   `printed` says what is lost or left out. */
void list_unreadable(const struct figure *figure);
void list_not_modelled(const struct figure *figure);

/* True where every number that the document has is the given one. */
bool agree(size_t count, const uint64_t *printed, const uint64_t *got);

/* ---- Calls over one large memory (calls.c) ---- */

#define MEMORY_WORDS 1048576u

extern uint16_t memory[MEMORY_WORDS];

void clear_memory(void);

/* True where every bit is 0. */
bool memory_is_clear(void);

/* The pixel of psize bits at a bit address that is a multiple of psize. */
uint32_t pixel_at(const uint16_t *words, uint32_t address, uint32_t psize);
void put_pixel(uint16_t *words, uint32_t address, uint32_t psize, uint32_t value);

/* The lowest address of a pixel that isn't 0, or NOT_PRINTED where every one is. */
uint64_t lowest_drawn(uint32_t psize);

/* The bits at which a row of 16 letters has this one; the first letter is bit 15. */
uint32_t bits_of(const char *row, char letter);

/* The settings by name, in the interface's order. */
struct settings {
    uint32_t SADDR, SPTCH, DADDR, DPTCH, OFFSET, WSTART, WEND, DYDX, COLOR0, COLOR1, CONTROL, PSIZE,
        PMASK;
};

/* CONTROL. The bits' places are the scope's: no source document has them. */
#define CONTROL_OF(pp, w, t) ((uint32_t)(pp) << 10 | (uint32_t)(w) << 6 | (uint32_t)(t) << 5)
#define PBH 0x100u
#define PBV 0x200u
#define CD 0x8000u

/* The four choices of a corner are 0, PBH, PBV and LOWER_RIGHT, PBH apart. */
#define LOWER_RIGHT (PBH | PBV)

/* The pixel operations that have a name here. */
enum { REPLACE = 0, AND = 1, XNOR = 5, OR = 8, XOR = 10, NOT_SOURCE_AND = 11, ADD = 16, ADDS = 17,
       SUB = 18, SUBS = 19, MAX = 20, MIN = 21 };

/* The operands of 000's examples 13-1 to 13-3. What is drawn must show over zeros: the colour isn't
   printed, and the mask of 13-3 isn't either. */
#define FILL_XY                                                                                    \
    .DADDR = 0x004400E4, .DPTCH = 0x800, .OFFSET = 0, .WSTART = 0x004900EB, .WEND = 0x005F0140,    \
    .DYDX = 0x0014003C, .PSIZE = 4

/* Those of example 13-6, and of 13-7 to 13-9. SADDR of the latter is printed as >Q003E2E8. */
#define PIXBLT_XY_L                                                                                \
    .SADDR = 0x003A00E6, .SPTCH = 0x800, .DADDR = 0x000030E8, .DPTCH = 0x800,                      \
    .OFFSET = 0x00040000, .WSTART = 0, .WEND = 0x01000100, .DYDX = 0x000F0036, .PSIZE = 4
#define PIXBLT_B_XY                                                                                \
    .SADDR = 0x0003E2E8, .SPTCH = 0x00AD0, .DADDR = 0x0032010B, .DPTCH = 0x800,                    \
    .OFFSET = 0x00040000, .WSTART = 0, .WEND = 0x01000100, .DYDX = 0x000A000A, .PSIZE = 8

/* An XY address of two coordinates. */
#define XY(x, y) (((uint32_t)(y) & 0xFFFF) << 16 | ((uint32_t)(x) & 0xFFFF))

struct drawing {
    uint32_t answer;
    uint64_t place, visited, v, request, saddr, daddr, dydx;
};

/* A whole drawing, and one from a place with a budget. */
struct drawing draw(uint32_t operation, const struct settings *settings, uint32_t v);
struct drawing draw_slice(uint32_t operation, const struct settings *settings, uint64_t place,
                          uint32_t v, uint64_t budget);

/* The time of a FILL over the memory's number of words. */
struct fill_time {
    uint32_t answer;
    uint64_t setup, transfer, adjustment, states;
};

struct fill_time time_of(uint32_t operation, const struct settings *settings);

struct lone {
    uint32_t answer, visited, v, request, value;
};

struct lone pixt_to(bool xy, const struct settings *settings, uint32_t value, uint32_t address,
                    uint32_t v);
struct lone pixt_from(bool xy, const struct settings *settings, uint32_t address);
struct lone drav(const struct settings *settings, uint32_t step, uint32_t point, uint32_t v);

/* ---- The tables ---- */

void field_figures(void);   /* 003 section 4.1, 000 section 13.2, 004 sections 5.1.3 and 5.2 */
void pixel_figures(void);   /* 002 sections 7.5 to 7.9 */
void address_figures(void); /* 003 sections 4.2 to 4.4, 004 section 5.1.4 */
void window_figures(void);  /* 002 section 7.10 */
void drawing_figures(void); /* 000 sections 13.3 to 13.5, 002 section 7.4 */
void corner_figures(void);  /* 002 section 7.2.2, 000 sections 13.3 to 13.5 */
void timing_figures(void);  /* 000 section 13.3 */
void cache_figures(void);   /* 004 section 5.4 */
void listed_figures(void);  /* what is not run */

#endif

/* Measuring the library beside plain C, and the tables of it. */
#ifndef MEASURE_H
#define MEASURE_H

#include <stddef.h>

/* The best times so far, in seconds; 0 before the first round. */
struct best {
    double library, plain;
};

/* The same work by the library and by plain C. prepare comes before each of the two, outside its
   time; it may be null. */
struct contest {
    void (*prepare)(void);
    void (*library)(const void *work);
    void (*plain)(const void *work);
    const void *work;
};

/* So many rounds, in which the two take turns. */
void measure(struct best *best, const struct contest *contest, int rounds);

/* A group of tables: what is compared before measuring (a difference ends the run), a pass over its
   cells, and its tables. */
struct group {
    const char *name;
    void (*compare)(void);
    void (*pass)(int rounds);
    void (*print)(void);
};

extern const struct group drawings, corners, narrow_arrays, slices, fields, changed, plans;

/* A table's head: what its numbers are, and its columns. */
void print_head(const char *what, const char *const *columns, int count);

/* A cell: count is what was done in each of the two times, in the table's unit. */
void print_cell(const struct best *best, double count);

/* How many decimal places a ratio is printed with. */
int ratio_places(double ratio);

/* The lowest ratio of the cells printed since the last call. */
double lowest_ratio(void);

#endif

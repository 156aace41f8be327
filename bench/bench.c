/* Measures the library beside plain C, in one run.

   bench [quick] [PLAN...]: the library and plain C do the same work in turn, for a number of
   rounds, and the best time of each counts. The ratio is the library's speed over plain C's. Before
   that the two are compared, with the plan files too: where they differ the status is 1. */
#include "measure.h"
#include "plans.h"
#include "work.h"

#include <stdio.h>
#include <string.h>

/* The cells are gone through PASSES times, so that a slow stretch of the machine isn't all that a
   cell has. */
#define PASSES 3

#define GROUPS 7

static const struct group *const groups[GROUPS] = { &drawings, &corners, &narrow_arrays, &slices,
                                                    &fields,   &changed, &plans };

static void print_lowest(const double *lowest)
{
    printf("bench: the lowest ratios: ");
    for (int i = 0; i < GROUPS; i++)
        printf("%s %.*f%s", groups[i]->name, ratio_places(lowest[i]), lowest[i],
               i < GROUPS - 1 ? ", " : "\n");
}

int main(int argc, char **argv)
{
    int quick = argc > 1 && strcmp(argv[1], "quick") == 0;
    int rounds = quick ? 4 : 20;
    double lowest[GROUPS];
    compare_files(argv + 1 + quick, argc > 1 + quick ? argc - 1 - quick : 0);
    make_image();
    for (int i = 0; i < GROUPS; i++)
        groups[i]->compare();
    fflush(stdout);
    for (int pass = 0; pass < PASSES; pass++) {
        for (int i = 0; i < GROUPS; i++)
            groups[i]->pass(rounds);
    }
    printf("bench: each cell is the library, plain C, and the ratio; best of %d rounds\n",
           PASSES * rounds);
    for (int i = 0; i < GROUPS; i++) {
        groups[i]->print();
        lowest[i] = lowest_ratio();
    }
    print_lowest(lowest);
    return 0;
}

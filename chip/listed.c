/* Figures that are not run: those that the scan doesn't show, and those of what isn't modelled. */
#include "figures.h"

static const struct figure unreadable[] = {
    { "000", "13.2.1", "table 13-1, heading", "column bounds lost: \"AorB C.D, E F G\"", SAME },
    { "000", "13.2.3", "operands", "\"SADDR = >Eb\", \"FSO = >3\"; run as the text has them",
      SAME },
    { "000", "13.3.3", "figure 13-5", "\"13.52=14\", \"(320,45)\"; run as the text has them",
      SAME },
    { "000", "13.3.3", "X dimension", "\"63 pixels\"; run as the 53 that stands elsewhere", SAME },
    { "000", "13.4.3", "figure 13-9", "drawing lost", SAME },
    { "000", "13.4.3", "examples 13-4 and 13-5", "lost", SAME },
    { "000", "13.5.3", "SADDR", "\">Q003E2E8\": first digit; 0 is the only one inside a memory",
      SAME },
    { "002", "7.2.1", "figure 7-1", "drawing lost; run by its text", SAME },
    { "002", "7.2.2", "figure 7-2", "drawing lost; run by its text", SAME },
    { "002", "7.5", "figure 7-3", "bits of strings A and B lost; text run with bits of our own",
      SAME },
    { "002", "7.6", "figure 7-4 a, b, c", "bits lost; text run with every mask", SAME },
    { "002", "7.7", "figure 7-6", "drawing lost", SAME },
    { "002", "7.8", "figure 7-7 a to g", "pixels lost; operations run by table 7-1", SAME },
    { "002", "7.9.1", "figure 7-8 a to g", "pixels lost; operations run by table 7-1", SAME },
    { "002", "7.9.1.1", "figure 7-8 i and j", "pixels lost; operations run by table 7-2", SAME },
    { "002", "7.9.1.2", "figure 7-8 k and l", "pixels lost; operations run by table 7-2", SAME },
    { "002", "7.9.2", "figure 7-9 a to f", "pixels lost; values in the text are run", SAME },
    { "002", "7.10.4", "figure 7-10", "drawing lost; its inequalities are run", SAME },
    { "003", "4.1", "figure 4-1", "drawing lost; its text is case F", SAME },
    { "003", "4.1", "figure 4-2", "drawing lost; its cases stand in the text", SAME },
    { "003", "4.2", "figures 4-4 to 4-8", "drawings lost", SAME },
    { "003", "4.3", "figures 4-9 and 4-10", "drawings lost", SAME },
    { "003", "4.3.1", "figure 4-11, counts of 0s", "not to be relied on; its steps are run", SAME },
    { "003", "4.4", "figure 4-12", "drawing lost", SAME },
    { "004", "5.4.1", "figures 5-6 and 5-7", "drawings lost; the text is complete", SAME },
};

static const struct figure not_modelled[] = {
    { "000", "13.1.1", "nine hidden states", "hidden states", SAME },
    { "000", "13.2.1", "table 13-1, 3 rows of MOVB", "other instructions", SAME },
    { "000", "13.2.1", "table 13-1, MOVE *Rs(Disp),Rd and @Address,Rd", "other addressing", SAME },
    { "000", "13.2.1", "table 13-2", "register to memory; some digits lost", SAME },
    { "000", "13.2.2", "tables 13-3 and 13-4", "memory to memory; some digits lost", SAME },
    { "000", "13.2.3", "11+(5),31", "memory to memory", SAME },
    { "000", "13.3.3", "CONVDP = >14", "conversion counts (request Two)", SAME },
    { "000", "13.3.4", "20 states of an interrupt during FILL", "interrupts", SAME },
    { "000", "13.4", "tables 13-8 to 13-10, example 13-6, 1743 states", "PIXBLT timing", SAME },
    { "000", "13.5", "tables 13-11 to 13-13, examples 13-7 to 13-9, 219, 399 and 419 states",
      "PIXBLT timing", SAME },
    { "000", "13.6", "tables 13-14 and 13-15, 119 states", "LINE", SAME },
    { "002", "7.3", "PIXT from memory to memory", "PIXT between memory and memory", SAME },
    { "002", "7.10.6", "figures 7-11 and 7-12", "LINE, CPW", SAME },
    { "003", "4.3.1", "n LSBs of X, 15-n MSBs",
      "no such refusal; the example before it has another bound", SAME },
    { "003", "4.2.2", "figure 4-6", "ORG: the origin is at the upper left", SAME },
    { "004", "5.2", ">00000010 at reset, table 5-2's other bits", "the status register", SAME },
    { "004", "5.3", "table 5-4", "the program counter", SAME },
    { "004", "5.4.5", "CF=1", "the host's registers", SAME },
    { "004", "5.4.7", "3, 8 and 9 states, 2.25 states", "cache timing", SAME },
};

void listed_figures(void)
{
    for (size_t i = 0; i < COUNT_OF(unreadable); i++)
        list_unreadable(&unreadable[i]);
    for (size_t i = 0; i < COUNT_OF(not_modelled); i++)
        list_not_modelled(&not_modelled[i]);
}

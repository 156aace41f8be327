/* Runs the figures of the source documents on the proved library.

   Prints one line for each figure, with tabs between document, section, name and verdict, then the
   rules by which the scope decides otherwise, and a summary. Ends with status 1 where something
   differs and no rule is listed for it, or where a listed difference isn't there. */
#include "figures.h"

#include <stdio.h>
#include <string.h>

/* ---- The scope's rules ---- */

/* A rule's number is its row in docs/SOURCES.md. */
static const struct rule {
    const char *number;
    const char *text;
} rules[] = {
    { "1.1", "Arrays, windows and slices: under W=1 V=1 exactly where the rectangles meet" },
    { "1.2", "Refusal numbers: 14, a window start beyond its end" },
    { "1.4", "One pixel: masked bits of S count as 0, whatever the source" },
    { "1.5", "One pixel: pixels are the numbers 0 to top" },
    { "1.6", "One pixel: the mask is the bits of PMASK at the pixel's place; any PMASK is taken" },
    { "1.7", "Refusal numbers: 11, PSIZE isn't 1, 2, 4, 8 or 16" },
    { "1.9", "Arrays, windows and slices: OFFSET + Y x pitch + X x PSIZE, a sum" },
    { "1.11", "Refusal numbers: XY PIXT uses DPTCH in both directions" },
    { "1.13", "What is modelled, refusal 17: no address bit is dropped" },
    { "1.14", "Refusal numbers: 13, a linear pitch that is no multiple of 16, whatever DX" },
    { "1.15", "Refusal numbers: 13 asks no power of two of a linear array, start moved or not" },
    { "1.16", "Refusal numbers: 13, an XY pitch that is no power of two, whatever W" },
    { "1.17", "Refusal numbers: rows may share bits" },
    { "1.18", "Request Eight: PIXBLT L,L is given the addresses of the corner pixels themselves" },
    { "1.19", "Arrays, windows and slices: stopped, the registers stay" },
    { "1.21", "Refusal numbers: 18, a field size outside 1 to 32" },
    { "2.7", "One pixel: PP 11 is not S and D" },
    { "2.11", "Refusal numbers: 13 asks a multiple of 16 of a linear pitch, no power of two" },
    { "2.13", "Refusal numbers: 13, a linear pitch that is no multiple of 16" },
    { "2.18", "Arrays, windows and slices: 800h bits are 256 pixels of 8" },
};

static unsigned uses[COUNT_OF(rules)];

static int rule_index(const char *number)
{
    for (size_t i = 0; i < COUNT_OF(rules); i++) {
        if (strcmp(rules[i].number, number) == 0)
            return (int)i;
    }
    return -1;
}

/* ---- Lines ---- */

static unsigned same, worked, differ, unreadable, not_modelled, wrong;

bool has_rule(const struct figure *figure)
{
    return strcmp(figure->rule, SAME) != 0 && strcmp(figure->rule, WORKED) != 0;
}

static void print_head(const struct figure *figure)
{
    printf("%s\t%s\t%s\t", figure->document, figure->section, figure->name);
}

static void print_numbers(size_t count, const uint64_t *number)
{
    for (size_t i = 0; i < count; i++) {
        if (number[i] == NOT_PRINTED)
            printf(" -");
        else if (number[i] < 10)
            printf(" %u", (unsigned)number[i]);
        else
            printf(" %llXh", (unsigned long long)number[i]);
    }
}

bool agree(size_t count, const uint64_t *printed, const uint64_t *got)
{
    for (size_t i = 0; i < count; i++) {
        if (printed[i] != NOT_PRINTED && printed[i] != got[i])
            return false;
    }
    return true;
}

static void settle_wrong(const struct figure *figure, const char *what, size_t count,
                         const uint64_t *printed, const uint64_t *scope, const uint64_t *got)
{
    wrong++;
    printf("WRONG (%s): printed", what);
    print_numbers(count, printed);
    if (has_rule(figure)) {
        printf(", scope (rule %s)", figure->rule);
        print_numbers(count, scope);
    }
    printf(", library");
    print_numbers(count, got);
    printf("; the document has: %s\n", figure->printed);
}

/* True where the library follows the listed rule, and the rule decides otherwise than the
   document. */
static bool follows_rule(const struct figure *figure, size_t count, const uint64_t *printed,
                         const uint64_t *scope, const uint64_t *got)
{
    return rule_index(figure->rule) >= 0 && agree(count, scope, got)
           && !agree(count, printed, scope);
}

void settle(const struct figure *figure, const char *what, size_t count, const uint64_t *printed,
            const uint64_t *scope, const uint64_t *got)
{
    print_head(figure);
    if (!has_rule(figure) && agree(count, printed, got)) {
        bool ours = strcmp(figure->rule, WORKED) == 0;
        same += !ours;
        worked += ours;
        printf(ours ? "same (values ours)\n" : "same\n");
    } else if (has_rule(figure) && follows_rule(figure, count, printed, scope, got)) {
        differ++;
        uses[rule_index(figure->rule)]++;
        printf("differs by the scope's rule %s (%s): document", figure->rule, what);
        print_numbers(count, printed);
        printf(", scope");
        print_numbers(count, scope);
        printf("\n");
    } else {
        settle_wrong(figure, what, count, printed, scope, got);
    }
}

void list_unreadable(const struct figure *figure)
{
    unreadable++;
    print_head(figure);
    printf("unreadable: %s\n", figure->printed);
}

void list_not_modelled(const struct figure *figure)
{
    not_modelled++;
    print_head(figure);
    printf("not modelled: %s\n", figure->printed);
}

/* A rule that no figure uses is listed for nothing. The answer is how many there are. */
static unsigned print_rules(void)
{
    unsigned unused = 0;
    for (size_t i = 0; i < COUNT_OF(rules); i++) {
        printf("rule %s\t%u\t%s%s\n", rules[i].number, uses[i],
               uses[i] == 0 ? "WRONG, unused: " : "", rules[i].text);
        unused += uses[i] == 0;
    }
    return unused;
}

int main(void)
{
    field_figures();
    pixel_figures();
    address_figures();
    window_figures();
    drawing_figures();
    corner_figures();
    timing_figures();
    cache_figures();
    listed_figures();
    unsigned unused = print_rules();
    printf("figures: %u run: %u same, %u same (values ours), %u differ by the scope's rules, "
           "%u wrong; %u unreadable, %u not modelled\n",
           same + worked + differ + wrong, same, worked, differ, wrong, unreadable, not_modelled);
    return wrong == 0 && unused == 0 ? 0 : 1;
}

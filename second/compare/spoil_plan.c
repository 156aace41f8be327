/* Wrong plans: what is made wrong in the lines of a plan, or in the bytes of its text. Not
   everything here must be refused. */
#include "compare_plans.h"

#include <stdio.h>
#include <string.h>

/* ---- Lines and fields ---- */

static struct sketch_line *some_line(struct sketch *s)
{
    return &s->line[random_below((uint32_t)s->lines)];
}

/* An axis line, or NULL where there is none. */
static struct sketch_line *some_axis(struct sketch *s)
{
    if (s->lines <= 2)
        return NULL;
    return &s->line[2 + random_below((uint32_t)s->lines - 2)];
}

static void set_field(struct sketch_line *l, int field, const char *text)
{
    strcpy(l->field[field], text);
}

static void add_field(struct sketch_line *l, const char *text)
{
    if (l->fields < SKETCH_FIELDS) {
        set_field(l, l->fields, text);
        l->fields++;
    }
}

static void set_number(struct sketch_line *l, int field, uint64_t number)
{
    sprintf(l->field[field], "%llu", (unsigned long long)number);
}

/* A copy of a line at another place. */
static void insert_line(struct sketch *s, int place, const struct sketch_line *line)
{
    struct sketch_line copy = *line;
    if (s->lines == SKETCH_LINES)
        return;
    for (int i = s->lines; i > place; i--)
        s->line[i] = s->line[i - 1];
    s->line[place] = copy;
    s->lines++;
}

static void remove_line(struct sketch *s, int place)
{
    for (int i = place; i + 1 < s->lines; i++)
        s->line[i] = s->line[i + 1];
    s->lines--;
}

/* ---- 20: the form ---- */

static void wrong_word(struct sketch *s)
{
    static const char *const word[18] = {
        "Memory", "memory ", " memory", "mem",  "memoryy", "",     "MEMORY", "draw",   "Draw",
        "drawn",  "draw ",   "axis",    "axes", "Axis",    " axis", "axis\r", "#axis", " "
    };
    struct sketch_line *l = some_line(s);
    set_field(l, 0, word[random_below(18)]);
}

static void wrong_drawing(struct sketch *s)
{
    static const char *const name[20] = {
        "FILL",        "FILL  L",      "FILL l",       "fill l",       "FILL L ",
        " FILL L",     "FILL LX",      "FILL X",       "PIXBLT",       "PIXBLT LL",
        "PIXBLT L, L", "PIXBLT L,B",   "PIXBLT B,B",   "PIXBLT L,L,L", "PIXBLT XY XY",
        "PIXBLT B,XYZ", "PIXBLT XY,B", "PIXT",         "DRAV",         ""
    };
    if (s->lines > 1 && s->line[1].fields > 1)
        set_field(&s->line[1], 1, name[random_below(20)]);
}

/* Some field from the first one on. */
static void wrong_number(struct sketch_line *l, int first)
{
    static const char *const number[28] = {
        "00", "01", "007", "0x10", "+1", "-1", "1 ", " 1", "1.0", "1e3", "", "1\r", "1,2", "A",
        "18446744073709551616", "18446744073709551620", "18446744073709551625",
        "28446744073709551615", "99999999999999999999", "100000000000000000000",
        "184467440737095516150", "340282366920938463463374607431768211456", "018446744073709551615",
        "/", ":", "1:", "4/", "0000000000000000000000000000000000001"
    };
    set_field(l, first + (int)random_below((uint32_t)(l->fields - first)),
              number[random_below(28)]);
}

static void some_wrong_number(struct sketch *s)
{
    struct sketch_line *l = one_in(2) ? &s->line[0] : some_line(s);
    int first = l == &s->line[0] ? 1 : 2;
    if (l->fields > first)
        wrong_number(l, first);
}

/* Sizes around those that a memory may have. */
static void wrong_memory(struct sketch *s)
{
    static const char *const words[10] = { "0",     "32769",      "32768",      "65536",
                                           "65535", "1048576",    "4294967296", "4294967300",
                                           "1",     "18446744073709551615" };
    if (s->line[0].fields > 1)
        set_field(&s->line[0], 1, words[random_below(10)]);
}

static void swap_lines(struct sketch *s)
{
    static struct sketch_line kept;
    struct sketch_line *a = some_line(s), *b = some_line(s);
    if (one_in(2))
        a = &s->line[0];
    kept = *a;
    *a = *b;
    *b = kept;
}

static void drop_lines(struct sketch *s)
{
    int first = one_in(2) ? (int)random_below(2) : (int)random_below((uint32_t)s->lines);
    do {
        if (s->lines > 1 && first < s->lines)
            remove_line(s, first);
    } while (one_in(3));
}

/* A line comes twice: for an axis that is 21. */
static void repeat_line(struct sketch *s)
{
    insert_line(s, (int)random_below((uint32_t)s->lines + 1), some_line(s));
}

/* A field too many, too few, or empty. */
static void wrong_fields(struct sketch *s)
{
    struct sketch_line *l = one_in(3) && s->lines > 1 ? &s->line[random_below(2)] : some_line(s);
    switch (random_below(5)) {
    case 0: add_field(l, one_in(2) ? "" : "7"); break;
    case 1: l->fields = 1; break;
    case 2: l->fields = l->fields > 2 ? 2 : 1; break;
    case 3: set_field(l, (int)random_below((uint32_t)l->fields), ""); break;
    case 4: l->fields = l->fields > 1 ? l->fields - 1 : 1; break;
    }
}

/* A line of a byte that looks like nothing, or of tabs only. */
static void odd_line(struct sketch *s)
{
    static const char *const word[5] = { " ", "\r", "", "\f", "\v" };
    static struct sketch_line l;
    l.fields = 0;
    add_field(&l, word[random_below(5)]);
    if (l.field[0][0] == 0)
        add_field(&l, "");
    insert_line(s, (int)random_below((uint32_t)s->lines + 1), &l);
}

/* ---- Axis lines ---- */

/* The number of the line's name, or BH_NAMES where it is none. */
static int name_of(const struct sketch_line *l)
{
    int name = 0;
    while (name < BH_NAMES && (l->fields < 2 || strcmp(l->field[1], plan_name[name]) != 0))
        name++;
    return name;
}

/* 21: an unknown name, or perhaps one that came before. */
static void wrong_name(struct sketch_line *l)
{
    static const char *const name[16] = { "saddr",  "SADDR ", "SADD",     "SADDRS",
                                          "PITCH",  "COLOR",  "COLOR2",   "COLOR10",
                                          "V",      "PP",     "PSIZE\r",  "SEEDS",
                                          "DY",     "DXDY",   "WSTARTED", "axis" };
    if (l->fields > 1)
        set_field(l, 1, one_in(2) ? name[random_below(16)] : plan_name[random_below(BH_NAMES)]);
}

/* 22, or for SEED 20: a number about the name's limit, or another's. */
static void large_value(struct sketch_line *l)
{
    static const uint64_t limit[4] = { (uint64_t)1 << 32, (uint64_t)1 << 16, 0, (uint64_t)1 << 63 };
    int name = name_of(l);
    int kind = name < AT_CONTROL ? 0 : name < AT_SEED ? 1 : 2;
    if (one_in(3))
        kind = (int)random_below(4);
    if (l->fields > 2)
        set_number(l, 2 + (int)random_below((uint32_t)l->fields - 2),
                   limit[kind] - 1 + random_below(3));
}

/* 22: a value stands twice. */
static void same_value(struct sketch_line *l)
{
    if (l->fields > 2)
        add_field(l, l->field[2 + random_below((uint32_t)l->fields - 2)]);
}

/* 23: up to 64 values or more, mostly different ones that every name may have. */
static void many_values(struct sketch_line *l)
{
    int most = 2 + MOST_VALUES + (int)random_below(3) + (one_in(4) ? (int)random_below(10) : 0);
    while (l->fields > 1 && l->fields < most) {
        add_field(l, "");
        set_number(l, l->fields - 1,
                   one_in(400) ? 7 : 60000 - 70 * random_below(60) + (uint32_t)l->fields);
    }
}

static void spoil_axis(struct sketch_line *l)
{
    switch (random_below(9)) {
    case 0:
        if (l->fields > 2)
            wrong_number(l, 2);
        break;
    case 1:
    case 2: wrong_name(l); break;
    case 3:
    case 4:
    case 5: large_value(l); break;
    case 6: same_value(l); break;
    case 7:
    case 8: many_values(l); break;
    }
}

static bool has_axis(const struct sketch *s, int name)
{
    for (int i = 0; i < s->lines; i++) {
        if (name_of(&s->line[i]) == name)
            return true;
    }
    return false;
}

/* 23: axes of one value, up to eight, nine or ten. */
static void many_axes(struct sketch *s)
{
    static struct sketch_line l;
    int most = 2 + MOST_AXES + (int)random_below(3);
    for (int name = 0; name < BH_NAMES && s->lines < most; name++) {
        if (!has_axis(s, name)) {
            l.fields = 0;
            add_field(&l, "axis");
            add_field(&l, plan_name[name]);
            add_field(&l, name == AT_PSIZE ? "8" : "0");
            insert_line(s, s->lines, &l);
        }
    }
}

/* Several faults on one line: the lowest number counts. At times it is the ninth axis. */
static void several_faults(struct sketch *s)
{
    if (one_in(2))
        many_axes(s);
    struct sketch_line *l = one_in(2) ? &s->line[s->lines - 1] : some_axis(s);
    for (int i = 0; l != NULL && i < 3; i++)
        spoil_axis(l);
}

static void one_fault(struct sketch *s)
{
    struct sketch_line *l = some_axis(s);
    if (l != NULL)
        spoil_axis(l);
}

void spoil_sketch(struct sketch *s)
{
    switch (random_below(20)) {
    case 0: wrong_word(s); break;
    case 1: wrong_drawing(s); break;
    case 2: some_wrong_number(s); break;
    case 3: wrong_memory(s); break;
    case 4: swap_lines(s); break;
    case 5: drop_lines(s); break;
    case 6: repeat_line(s); break;
    case 7:
    case 8: wrong_fields(s); break;
    case 9: odd_line(s); break;
    case 10:
    case 11: many_axes(s); break;
    case 12:
    case 13: several_faults(s); break;
    default: one_fault(s); break;
    }
}

/* ---- Bytes ---- */

static void insert_byte(struct plan_text *t, size_t place, int byte)
{
    if (t->length == TEXT_ROOM)
        return;
    memmove(t->byte + place + 1, t->byte + place, t->length - place);
    t->byte[place] = (unsigned char)byte;
    t->length++;
}

static void remove_byte(struct plan_text *t, size_t place)
{
    memmove(t->byte + place, t->byte + place + 1, t->length - place - 1);
    t->length--;
}

/* A byte that means something, or any. */
static int random_byte(void)
{
    static const unsigned char byte[12] = { 9, 10, 13, 32, '#', 0, '0', '1', '9', 'X', ',', 11 };
    return one_in(3) ? (int)random_below(256) : byte[random_below(12)];
}

/* Where some byte comes from a random place on, or the text's length. */
static size_t place_of(const struct plan_text *t, int byte)
{
    size_t place = t->length > 0 ? random_below((uint32_t)t->length) : 0;
    while (place < t->length && t->byte[place] != byte)
        place++;
    return place;
}

void spoil_text(struct plan_text *t)
{
    if (t->length == 0)
        return;
    size_t place = random_below((uint32_t)t->length);
    size_t tab = place_of(t, 9), end = place_of(t, 10);
    switch (random_below(10)) {
    case 0: t->byte[place] = (unsigned char)random_byte(); break;
    case 1: insert_byte(t, place, random_byte()); break;
    case 2: remove_byte(t, place); break;
    case 3: t->length = one_in(4) ? place : t->length - 1; break;
    case 4: insert_byte(t, end, 13); break;
    case 5: insert_byte(t, tab, 9); break;
    case 6: insert_byte(t, tab, 32); break;
    case 7:
        if (tab < t->length)
            t->byte[tab] = one_in(2) ? 32 : 10;
        break;
    case 8:
        if (end < t->length)
            t->byte[end] = one_in(2) ? 13 : 9;
        break;
    case 9:
        t->length = random_below(3) * random_below(4);
        memset(t->byte, one_in(2) ? 10 : '#', t->length);
        break;
    }
}

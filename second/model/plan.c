/* Plans: their text, their points and their runs. */
#include "model.h"

#include <string.h>

/* A part of the plan's text. */
struct piece {
    const unsigned char *start;
    size_t length;
};

/* "a plan reader that keeps its text and its place" */
struct reader {
    const unsigned char *text;
    size_t length;
    size_t place;   /* the next byte */
    uint64_t line;  /* the number of the line last read */
};

/* The fields of one line. A line has at most as many fields as bytes, and one more. */
struct fields {
    size_t count;
    struct piece field[MOST_TEXT + 1];
};

/* "Names: ... (below 2^32); CONTROL PSIZE PMASK (below 2^16); SEED (below 2^64)." */
enum name {
    NAME_SADDR, NAME_SPTCH, NAME_DADDR, NAME_DPTCH, NAME_OFFSET, NAME_WSTART, NAME_WEND,
    NAME_DYDX, NAME_COLOR0, NAME_COLOR1, NAME_CONTROL, NAME_PSIZE, NAME_PMASK, NAME_SEED
};

#define NAMES 14

static const char *const name_text[NAMES] = {
    "SADDR", "SPTCH", "DADDR", "DPTCH", "OFFSET", "WSTART", "WEND",
    "DYDX", "COLOR0", "COLOR1", "CONTROL", "PSIZE", "PMASK", "SEED"
};

static const uint64_t name_most[NAMES] = {
    0xFFFFFFFFu, 0xFFFFFFFFu, 0xFFFFFFFFu, 0xFFFFFFFFu, 0xFFFFFFFFu, 0xFFFFFFFFu, 0xFFFFFFFFu,
    0xFFFFFFFFu, 0xFFFFFFFFu, 0xFFFFFFFFu, 0xFFFF, 0xFFFF, 0xFFFF, UINT64_MAX
};

/* "one of the eight FILL and PIXBLT names" */
static const char *const draw_text[OPERATIONS] = {
    "FILL L", "FILL XY", "PIXBLT L,L", "PIXBLT L,XY",
    "PIXBLT XY,L", "PIXBLT XY,XY", "PIXBLT B,L", "PIXBLT B,XY"
};

/* Whether a piece of text is exactly this word. */
static bool piece_is(struct piece p, const char *word)
{
    return p.length == strlen(word) && memcmp(p.start, word, p.length) == 0;
}

/* ---- Lines and fields ---- */

/* What the reader found. */
enum found { FOUND_LINE, FOUND_END, FOUND_UNENDED };

/* One line, skipped ones too. "Lines end with byte 10, the last one too". */
static enum found next_line(struct reader *r, struct piece *line)
{
    if (r->place == r->length)
        return FOUND_END;
    r->line = r->line + 1;
    line->start = r->text + r->place;
    line->length = 0;
    while (r->place < r->length) {
        unsigned char byte = r->text[r->place];
        r->place = r->place + 1;
        if (byte == 10)
            return FOUND_LINE;
        line->length = line->length + 1;
    }
    return FOUND_UNENDED;
}

/* "Empty lines and lines starting with # are skipped". */
static enum found next_plan_line(struct reader *r, struct piece *line)
{
    enum found f = next_line(r, line);
    while (f == FOUND_LINE && (line->length == 0 || line->start[0] == '#'))
        f = next_line(r, line);
    return f;
}

/* "fields are parted by one tab" */
static void split(struct piece line, struct fields *f)
{
    f->count = 0;
    f->field[0].start = line.start;
    f->field[0].length = 0;
    for (size_t i = 0; i < line.length; i++) {
        if (line.start[i] == 9) {
            f->count = f->count + 1;
            f->field[f->count].start = line.start + i + 1;
            f->field[f->count].length = 0;
        } else {
            f->field[f->count].length = f->field[f->count].length + 1;
        }
    }
    f->count = f->count + 1;
}

/* "Numbers are decimal without leading zeros; anything else, an empty field, or a number above
   2^64 - 1, is 20". */
static bool piece_number(struct piece p, uint64_t *number)
{
    if (p.length == 0)
        return false;
    if (p.start[0] == '0' && p.length > 1)
        return false;
    unsigned __int128 value = 0;
    for (size_t i = 0; i < p.length; i++) {
        if (p.start[i] < '0' || p.start[i] > '9')
            return false;
        value = value * 10 + (unsigned __int128)(p.start[i] - '0');
        if (value > (unsigned __int128)UINT64_MAX)
            return false;
    }
    *number = (uint64_t)value;
    return true;
}

/* ---- The three kinds of line; each gives 0 or a refusal ---- */

/* "First `memory` and a number 1 to 32768"; "so is another memory size" 20. */
static int read_memory_line(struct plan *p, const struct fields *f)
{
    if (f->count != 2 || !piece_is(f->field[0], "memory"))
        return REFUSED_FORM;
    if (!piece_number(f->field[1], &p->words))
        return REFUSED_FORM;
    if (p->words < 1 || p->words > 32768)
        return REFUSED_FORM;
    return DONE;
}

/* "then `draw` and one of the eight FILL and PIXBLT names"; another "draw name" is 20. */
static int read_draw_line(struct plan *p, const struct fields *f)
{
    if (f->count != 2 || !piece_is(f->field[0], "draw"))
        return REFUSED_FORM;
    for (int i = 0; i < OPERATIONS; i++) {
        if (piece_is(f->field[1], draw_text[i])) {
            p->op = (enum operation)i;
            return DONE;
        }
    }
    return REFUSED_FORM;
}

/* "`axis` lines: name, then one or more values": the form alone (20). Hands back the values. */
static bool axis_form_is_bad(const struct fields *f, uint64_t *value)
{
    if (f->count < 3 || !piece_is(f->field[0], "axis"))
        return true;
    if (f->field[1].length == 0)
        return true;
    for (size_t i = 2; i < f->count; i++) {
        if (!piece_number(f->field[i], &value[i - 2]))
            return true;
    }
    return false;
}

/* The name's index, or NAMES if it is unknown. */
static int name_of(struct piece p)
{
    for (int i = 0; i < NAMES; i++) {
        if (piece_is(p, name_text[i]))
            return i;
    }
    return NAMES;
}

/* Refusal 21: "a plan name is unknown or came before". */
static bool name_is_bad(const struct plan *p, int name)
{
    if (name == NAMES)
        return true;
    for (int i = 0; i < p->axes; i++) {
        if (p->axis[i].name == name)
            return true;
    }
    return false;
}

/* Refusal 22: "a plan value is too large for its name, or stands twice on its axis". */
static bool some_value_is_bad(int name, const uint64_t *value, size_t values)
{
    for (size_t i = 0; i < values; i++) {
        if (value[i] > name_most[name])
            return true;
        for (size_t k = 0; k < i; k++) {
            if (value[k] == value[i])
                return true;
        }
    }
    return false;
}

/* An axis line; several faults on one line give the lowest number. Refusal 23: "more than 8 axes,
   or more than 64 values on one". */
static int read_axis_line(struct plan *p, const struct fields *f, uint64_t *value)
{
    if (axis_form_is_bad(f, value))
        return REFUSED_FORM;
    int name = name_of(f->field[1]);
    size_t values = f->count - 2;
    if (name_is_bad(p, name))
        return REFUSED_NAME;
    if (some_value_is_bad(name, value, values))
        return REFUSED_VALUE;
    if (p->axes == MOST_AXES || values > MOST_VALUES)
        return REFUSED_MANY;
    struct axis *a = &p->axis[p->axes];
    a->name = name;
    a->length = (int)values;
    for (size_t i = 0; i < values; i++)
        a->value[i] = value[i];
    p->axes = p->axes + 1;
    return DONE;
}

/* ---- The whole text ---- */

static void refuse(struct plan *p, int answer, uint64_t line)
{
    p->answer = answer;
    p->line = line;
}

/* A plan line by its turn: the first is `memory`, the second `draw`, the others `axis`. */
static int read_plan_line(struct plan *p, uint64_t turn, const struct fields *f, uint64_t *value)
{
    if (turn == 0)
        return read_memory_line(p, f);
    if (turn == 1)
        return read_draw_line(p, f);
    return read_axis_line(p, f, value);
}

/* "In a plan the first bad line decides." "text is at most 65,536 bytes, else 20 on line 1." "A
   missing memory or draw line is 20 at the line after the last one (lines count from 1, skipped
   ones too)." A last line without byte 10 is 20 at that line. */
void plan_read(struct plan *p, const unsigned char *text, size_t length)
{
    static struct fields f;
    static uint64_t value[MOST_TEXT + 1];
    memset(p, 0, sizeof *p);
    if (length > MOST_TEXT) {
        refuse(p, REFUSED_FORM, 1);
        return;
    }
    struct reader r = { text, length, 0, 0 };
    struct piece line = { text, 0 };
    uint64_t turn = 0;
    enum found found = next_plan_line(&r, &line);
    while (found == FOUND_LINE) {
        split(line, &f);
        int answer = read_plan_line(p, turn, &f, value);
        if (answer != DONE) {
            refuse(p, answer, r.line);
            return;
        }
        turn = turn + 1;
        found = next_plan_line(&r, &line);
    }
    if (found == FOUND_UNENDED)
        refuse(p, REFUSED_FORM, r.line);
    else if (turn < 2)
        refuse(p, REFUSED_FORM, r.line + 1);
}

/* ---- Points ---- */

/* The product of the lengths of the axes from this one on. */
static uint64_t product_from(const struct plan *p, int first)
{
    uint64_t product = 1;
    for (int i = first; i < p->axes; i++)
        product = product * (uint64_t)p->axis[i].length;
    return product;
}

/* "The count is the product of the axis lengths, 1 with no axis." */
uint64_t plan_count(const struct plan *p)
{
    return product_from(p, 0);
}

/* "The first axis is slowest: its index is the point number divided by the product of the later
   lengths, and the rest of the number is decoded by the same rule over the later axes." */
static void decode(const struct plan *p, int first, uint64_t number, int *index)
{
    if (first == p->axes)
        return;
    uint64_t later = product_from(p, first + 1);
    index[first] = (int)(number / later);
    decode(p, first + 1, number % later, index);
}

/* Gives one name its value. */
static void set_name(struct point_answer *r, int name, uint64_t value)
{
    switch (name) {
    case NAME_SADDR: r->settings.SADDR = (uint32_t)value; break;
    case NAME_SPTCH: r->settings.SPTCH = (uint32_t)value; break;
    case NAME_DADDR: r->settings.DADDR = (uint32_t)value; break;
    case NAME_DPTCH: r->settings.DPTCH = (uint32_t)value; break;
    case NAME_OFFSET: r->settings.OFFSET = (uint32_t)value; break;
    case NAME_WSTART: r->settings.WSTART = (uint32_t)value; break;
    case NAME_WEND: r->settings.WEND = (uint32_t)value; break;
    case NAME_DYDX: r->settings.DYDX = (uint32_t)value; break;
    case NAME_COLOR0: r->settings.COLOR0 = (uint32_t)value; break;
    case NAME_COLOR1: r->settings.COLOR1 = (uint32_t)value; break;
    case NAME_CONTROL: r->settings.CONTROL = (uint16_t)value; break;
    case NAME_PSIZE: r->settings.PSIZE = (uint16_t)value; break;
    case NAME_PMASK: r->settings.PMASK = (uint16_t)value; break;
    case NAME_SEED: r->seed = value; break;
    }
}

/* Refusal 24: "a point number isn't below the plan's count". "Unnamed ones are 0, but PSIZE is
   16." */
struct point_answer plan_point(const struct plan *p, uint64_t number)
{
    struct point_answer r;
    memset(&r, 0, sizeof r);
    if (number >= plan_count(p)) {
        r.answer = REFUSED_POINT;
        return r;
    }
    r.settings.PSIZE = 16;
    decode(p, 0, number, r.index);
    for (int i = 0; i < p->axes; i++)
        set_name(&r, p->axis[i].name, p->axis[i].value[r.index[i]]);
    return r;
}

/* ---- Runs ---- */

/* One point: the image, the drawing over it ("V starts at 0", whole) and its line. "`changed`
   counts memory bits that differ from the image." "The run listing gains a last column `states`
   ... For other drawings, refused points and points that visit no pixel it is 0." */
static void run_point(const struct plan *p, uint64_t number, struct memory image,
                      struct memory drawn, FILE *out)
{
    struct point_answer point = plan_point(p, number);
    image_make(image, point.seed);
    memcpy(drawn.word, image.word, (size_t)image.words * sizeof image.word[0]);
    struct draw_answer r = draw(drawn, p->op, &point.settings, 0, 0, UINT64_MAX);
    struct changed_answer c = changed_bits(drawn, image);
    struct fill_answer f = fill_states(p->words, p->op, &point.settings);
    fprintf(out, "%llu\t%d\t%llu\t%d\t%llu\t%llu\n", (unsigned long long)number, r.answer,
            (unsigned long long)r.visited, r.v, (unsigned long long)c.count,
            (unsigned long long)f.states);
}

/* "A run of the plan ... writes exactly this". "A refused plan writes only `refused`, number,
   line." */
void plan_listing(const unsigned char *text, size_t length, FILE *out)
{
    static uint16_t image_word[32768];
    static uint16_t drawn_word[32768];
    static struct plan p;
    plan_read(&p, text, length);
    if (p.answer != DONE) {
        fprintf(out, "refused\t%d\t%llu\n", p.answer, (unsigned long long)p.line);
        return;
    }
    struct memory image = { image_word, p.words };
    struct memory drawn = { drawn_word, p.words };
    fprintf(out, "point\tanswer\tvisited\tV\tchanged\tstates\n");
    for (uint64_t number = 0; number < plan_count(&p); number++)
        run_point(&p, number, image, drawn, out);
}

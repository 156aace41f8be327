/* Fields: 003 section 4.1, 000 section 13.2, 004 sections 5.1.3 and 5.2. */
#include "figures.h"

#include <stdio.h>
#include <string.h>

/* ---- 003 section 4.1, figure 4-2: the seven cases and their memory cycles ---- */

/* A case is told by the field's size, by whether its start and its end are on word boundaries, and
   by how many word boundaries it straddles. Every field of the case is run. */
static const struct alignment {
    struct figure figure;
    char letter;
    uint32_t least, most;
    bool start, end;
    uint32_t straddled;
    uint64_t cycles[2];
} alignments[] = {
    { { "003", "4.1", "figure 4-2, case A", "16 bits, aligned: read; write", SAME },
      'A', 16, 16, true, true, 0, { 1, 1 } },
    { { "003", "4.1", "figure 4-2, case B1", "less than 16 bits, end aligned: read; read, write",
        SAME },
      'B', 1, 15, false, true, 0, { 1, 2 } },
    { { "003", "4.1", "figure 4-2, case B2", "less than 16 bits, start aligned: read; read, write",
        SAME },
      'B', 1, 15, true, false, 0, { 1, 2 } },
    { { "003", "4.1", "figure 4-2, case B3", "14 bits or less, neither: read; read, write", SAME },
      'B', 1, 14, false, false, 0, { 1, 2 } },
    { { "003", "4.1", "figure 4-2, case C", "32 bits, aligned: read, read; write, write", SAME },
      'C', 32, 32, true, true, 1, { 2, 2 } },
    { { "003", "4.1", "figure 4-2, case D",
        "more than 16 bits, end aligned: read, read; read, write, write", SAME },
      'D', 17, 32, false, true, 1, { 2, 3 } },
    { { "003", "4.1", "figure 4-2, case E",
        "more than 16 bits, start aligned: read, read; write, read, write", SAME },
      'E', 17, 32, true, false, 1, { 2, 3 } },
    { { "003", "4.1", "figure 4-2, case F",
        "one boundary, neither: read, read; read, write, read, write", SAME },
      'F', 1, 32, false, false, 1, { 2, 4 } },
    { { "003", "4.1", "figure 4-2, case G",
        "18 to 32 bits, two boundaries, neither: 3 reads; read, write, write, read, write", SAME },
      'G', 18, 32, false, false, 2, { 3, 5 } },
};

static bool is_of(const struct alignment *a, uint32_t place, uint32_t size)
{
    return size >= a->least && size <= a->most && (place == 0) == a->start
           && ((place + size) % 16 == 0) == a->end && (place + size - 1) / 16 == a->straddled;
}

static void cycles_of(uint32_t address, uint32_t size, uint64_t got[2])
{
    uint32_t out[2] = { 0, 0 };
    uint32_t answer = bh_field_cycles(address, size, out, 2);
    got[0] = answer == 0 ? out[0] : NOT_PRINTED;
    got[1] = answer == 0 ? out[1] : NOT_PRINTED;
}

/* The cycles of the first field of the case that isn't as printed, or else of the last one. */
static uint64_t alignment_cycles(const struct alignment *a, uint64_t got[2])
{
    uint64_t fields = 0;
    for (uint32_t place = 0; place < 16; place++) {
        for (uint32_t size = 1; size <= 32; size++) {
            if (!is_of(a, place, size))
                continue;
            fields++;
            cycles_of(place, size, got);
            if (!agree(2, a->cycles, got))
                return fields;
        }
    }
    return fields;
}

static void run_alignments(void)
{
    uint64_t fields = 0, all = 16 * 32;
    for (size_t i = 0; i < COUNT_OF(alignments); i++) {
        uint64_t got[2] = { 0, 0 };
        fields += alignment_cycles(&alignments[i], got);
        settle(&alignments[i].figure, "read, write cycles", 2, alignments[i].cycles, NULL, got);
    }
    const struct figure seven = { "003", "4.1", "every field is of one of the seven cases",
                                  "will recognize the specified field alignment as one of", SAME };
    settle(&seven, "fields", 1, &all, NULL, &fields);
}

/* "Field size can range from 1 to 32 bits": how many sizes are taken, the least, the greatest. */
static void run_sizes(void)
{
    const struct figure figure = { "003", "4.1", "field sizes", "1 to 32 bits", SAME };
    const uint64_t printed[3] = { 32, 1, 32 };
    uint64_t got[3] = { 0, 0, 0 };
    for (uint32_t size = 0; size < 65536; size++) {
        uint16_t words[2] = { 0, 0 };
        uint32_t out = 0;
        if (bh_field_read(words, 2, 0, size, 0, &out, 1) != 0)
            continue;
        got[0]++;
        got[1] = got[1] == 0 ? size : got[1];
        got[2] = size;
    }
    settle(&figure, "sizes, least, greatest", 3, printed, NULL, got);
}

/* A read-modify-write "occurs when the four LSBs of the address are not 0, or when the specified
   field size is a value other than 16 or 32". Without one a write has one cycle a word. */
static void run_read_modify_write(void)
{
    const struct figure figure = { "003", "4.1", "read-modify-write", "four LSBs, 16 or 32", SAME };
    const uint64_t all = 16 * 32;
    uint64_t fields = 0;
    for (uint32_t place = 0; place < 16; place++) {
        for (uint32_t size = 1; size <= 32; size++) {
            uint64_t got[2];
            cycles_of(place, size, got);
            bool whole = place == 0 && (size == 16 || size == 32);
            fields += (got[1] == (place + size + 15) / 16) == whole;
        }
    }
    settle(&figure, "fields", 1, &all, NULL, &fields);
}

/* ---- Single fields and their memory cycles ---- */

/* The field of `size` bits at `address`, and at count - 1 more addresses, `step` apart. */
static const struct cycles {
    struct figure figure;
    uint32_t address, step, count, size;
    uint64_t cycles[2];
} cycles[] = {
    { { "000", "13.2.3", "figure 13-2, data read", "31 bits at >E5: three words, alignment G",
        SAME },
      0xE5, 0, 1, 31, { 3, NOT_PRINTED } },
    { { "000", "13.2.3", "figure 13-2, data write",
        "31 bits at >161: two words, alignment E (D by the text; the same cycles)", SAME },
      0x161, 0, 1, 31, { NOT_PRINTED, 3 } },
    { { "000", "13.5.3", "source words of a row of the font",
        "10 bits at >Q003E2E8, rows >AD0 apart: R=2 (the first digit doesn't matter)", SAME },
      0x0003E2E8, 0xAD0, 10, 10, { 2, NOT_PRINTED } },
    { { "003", "4.2.1", "memory cycles of a pixel of 1 bit", "extract 1, insert 2", SAME },
      0, 1, 16, 1, { 1, 2 } },
    { { "003", "4.2.1", "memory cycles of a pixel of 2 bits", "extract 1, insert 2", SAME },
      0, 2, 8, 2, { 1, 2 } },
    { { "003", "4.2.1", "memory cycles of a pixel of 4 bits", "extract 1, insert 2", SAME },
      0, 4, 4, 4, { 1, 2 } },
    { { "003", "4.2.1", "memory cycles of a pixel of 8 bits", "extract 1, insert 2", SAME },
      0, 8, 2, 8, { 1, 2 } },
    { { "003", "4.2.1", "memory cycles of a pixel of 16 bits", "extract 1, insert 1", SAME },
      0, 16, 2, 16, { 1, 1 } },
    { { "004", "5.1.3", "push or pop of 32 bits, aligned",
        "reducing to two the number of memory cycles", SAME },
      0, 16, 2, 32, { 2, 2 } },
};

static void run_cycles(void)
{
    for (size_t i = 0; i < COUNT_OF(cycles); i++) {
        const struct cycles *c = &cycles[i];
        uint64_t got[2] = { 0, 0 };
        for (uint32_t k = 0; k < c->count; k++) {
            cycles_of(c->address + k * c->step, c->size, got);
            if (!agree(2, c->cycles, got))
                break;
        }
        settle(&c->figure, "read, write cycles", 2, c->cycles, NULL, got);
    }
}

/* ---- 000 table 13-1: states of MOVE memory to register ---- */

/* `printed` is the scan's own text: some separators are lost, no digits are. Each is read in the
   only way in which the second number is the greater. */
static const struct states {
    struct figure figure;
    const char *letters;
    uint32_t mode;
    uint64_t states[2];
} states[] = {
    { { "000", "13.2.1", "table 13-1, MOVE *Rs,Rd, A or B", "3.6", SAME },
      "AB", BH_INDIRECT, { 3, 6 } },
    { { "000", "13.2.1", "table 13-1, MOVE *Rs,Rd, C, D, E, F", "5,8", SAME },
      "CDEF", BH_INDIRECT, { 5, 8 } },
    { { "000", "13.2.1", "table 13-1, MOVE *Rs,Rd, G", "7.10", SAME },
      "G", BH_INDIRECT, { 7, 10 } },
    { { "000", "13.2.1", "table 13-1, MOVE *Rs+,Rd, A or B", "3,6", SAME },
      "AB", BH_POSTINCREMENT, { 3, 6 } },
    { { "000", "13.2.1", "table 13-1, MOVE *Rs+,Rd, C, D, E, F", "58", SAME },
      "CDEF", BH_POSTINCREMENT, { 5, 8 } },
    { { "000", "13.2.1", "table 13-1, MOVE *Rs+,Rd, G", "710", SAME },
      "G", BH_POSTINCREMENT, { 7, 10 } },
    { { "000", "13.2.1", "table 13-1, MOVE -*Rs,Rd, A or B", "47", SAME },
      "AB", BH_PREDECREMENT, { 4, 7 } },
    { { "000", "13.2.1", "table 13-1, MOVE -*Rs,Rd, C, D, E, F", "6.9", SAME },
      "CDEF", BH_PREDECREMENT, { 6, 9 } },
    { { "000", "13.2.1", "table 13-1, MOVE -*Rs,Rd, G", "8,11", SAME },
      "G", BH_PREDECREMENT, { 8, 11 } },
};

/* In cache, and with the cache disabled. */
static void states_of(uint32_t address, uint32_t size, uint32_t mode, uint32_t is_signed,
                      uint64_t got[2])
{
    for (uint32_t k = 0; k < 2; k++) {
        uint32_t out = 0;
        uint32_t answer = bh_move_states(address, size, mode, is_signed, k == 0, &out, 1);
        got[k] = answer == 0 ? out : NOT_PRINTED;
    }
}

static char letter_of(uint32_t place, uint32_t size)
{
    for (size_t i = 0; i < COUNT_OF(alignments); i++) {
        if (is_of(&alignments[i], place, size))
            return alignments[i].letter;
    }
    return '?';
}

static void first_unlike(const struct states *row, uint64_t got[2])
{
    for (uint32_t place = 0; place < 16; place++) {
        for (uint32_t size = 1; size <= 32; size++) {
            if (strchr(row->letters, letter_of(place, size)) == NULL)
                continue;
            states_of(place, size, row->mode, 0, got);
            if (!agree(2, row->states, got))
                return;
        }
    }
}

/* "Add 1 state to MOVES for sign extension": over every field and mode. */
static void run_sign_extension(void)
{
    const struct figure note = { "000", "13.2.1", "table 13-1, note 1", "Add 1 state", SAME };
    uint64_t moves = 0, all = 16 * 32 * 3;
    for (uint32_t place = 0; place < 16; place++) {
        for (uint32_t size = 1; size <= 32; size++) {
            for (uint32_t mode = BH_INDIRECT; mode <= BH_PREDECREMENT; mode++) {
                uint64_t plain[2], extended[2];
                states_of(place, size, mode, 0, plain);
                states_of(place, size, mode, 1, extended);
                moves += extended[0] == plain[0] + 1 && extended[1] == plain[1] + 1;
            }
        }
    }
    settle(&note, "moves", 1, &all, NULL, &moves);
}

static void run_states(void)
{
    for (size_t i = 0; i < COUNT_OF(states); i++) {
        uint64_t got[2] = { 0, 0 };
        first_unlike(&states[i], got);
        settle(&states[i].figure, "states in cache, cache disabled", 2, states[i].states, NULL,
               got);
    }
    run_sign_extension();
}

/* ---- 003 figure 4-3: a field is inserted ---- */

/* Rows d and e. In e the scan misreads one F and one A. */
static const char mask_row[] = "0001111100000000";
static const char final_row[] = "AAAFFFFFAAAAAAAA";

/* Every word A and every field F. */
static void run_insertion(void)
{
    const struct figure mask = { "003", "4.1", "figure 4-3 d, mask generated", mask_row, SAME };
    const struct figure final = { "003", "4.1", "figure 4-3 e, final data", final_row, SAME };
    const uint64_t printed = bits_of(mask_row, '1'), all = 65536 * 32;
    uint64_t got, words = 0;
    uint16_t word = 0;
    bh_field_write(&word, 1, 8, 5, 0x1F);
    got = word;
    settle(&mask, "word", 1, &printed, NULL, &got);
    for (uint32_t a = 0; a < 65536; a++) {
        for (uint32_t f = 0; f < 32; f++) {
            word = (uint16_t)a;
            uint32_t answer = bh_field_write(&word, 1, 8, 5, f);
            uint32_t last = (a & bits_of(final_row, 'A')) | (f << 8 & bits_of(final_row, 'F'));
            words += answer == 0 && word == last;
        }
    }
    settle(&final, "words", 1, &all, NULL, &words);
}

/* ---- 003 section 4.1, 004 table 5-2: what fills the register ---- */

static const struct extension {
    struct figure figure;
    uint32_t is_signed;
    uint32_t top_bit;
    bool ones;
} extensions[] = {
    { { "004", "5.2", "table 5-2, FE=0, top bit 0", "Zero extension", SAME }, 0, 0, false },
    { { "004", "5.2", "table 5-2, FE=0, top bit 1", "Zero extension", SAME }, 0, 1, false },
    { { "004", "5.2", "table 5-2, FE=1, top bit 0", "Sign extension", SAME }, 1, 0, false },
    { { "004", "5.2", "table 5-2, FE=1, top bit 1", "Sign extension", SAME }, 1, 1, true },
};

/* A field with only its top bit 1 or only that bit 0, at every address of a word, of every size. */
static void run_extensions(void)
{
    for (size_t i = 0; i < COUNT_OF(extensions); i++) {
        const struct extension *e = &extensions[i];
        uint64_t fields = 0, all = 16 * 32;
        for (uint32_t place = 0; place < 16; place++) {
            for (uint32_t size = 1; size <= 32; size++) {
                uint16_t words[3] = { 0x5A5A, 0xC3C3, 0x5A5A };
                uint32_t top = (uint32_t)1 << (size - 1), out = 0;
                uint32_t field = e->top_bit ? top : top - 1;
                uint32_t above = size == 32 || !e->ones ? 0 : ~(uint32_t)0 << size;
                bh_field_write(words, 3, place, size, field);
                uint32_t answer = bh_field_read(words, 3, place, size, e->is_signed, &out, 1);
                fields += answer == 0 && out == (field | above);
            }
        }
        settle(&e->figure, "fields", 1, &all, NULL, &fields);
    }
}

/* ---- 004 table 5-3: field sizes ---- */

static const struct size_code {
    const char *bits;
    uint64_t size;
} size_codes[] = {
    { "00001", 1 },  { "01001", 9 },  { "10001", 17 }, { "11001", 25 },
    { "00010", 2 },  { "01010", 10 }, { "10010", 18 }, { "11010", 26 },
    { "00011", 3 },  { "01011", 11 }, { "10011", 19 }, { "11011", 27 },
    { "00100", 4 },  { "01100", 12 }, { "10100", 20 }, { "11100", 28 },
    { "00101", 5 },  { "01101", 13 }, { "10101", 21 }, { "11101", 29 },
    { "00110", 6 },  { "01110", 14 }, { "10110", 22 }, { "11110", 30 },
    { "00111", 7 },  { "01111", 15 }, { "10111", 23 }, { "11111", 31 },
    { "01000", 8 },  { "10000", 16 }, { "11000", 24 }, { "00000", 32 },
};

/* The five bits are given as the size. The size is how many bits a read over ones takes. */
static void run_size_codes(void)
{
    const uint64_t refused[2] = { BH_BAD_SIZE, 0 };
    for (size_t i = 0; i < COUNT_OF(size_codes); i++) {
        uint16_t words[2] = { 0xFFFF, 0xFFFF };
        char name[40];
        uint32_t code = 0, out = 0;
        for (const char *bit = size_codes[i].bits; *bit != 0; bit++)
            code = code * 2 + (uint32_t)(*bit - '0');
        uint64_t printed[2] = { 0, size_codes[i].size };
        uint64_t got[2] = { bh_field_read(words, 2, 0, code, 0, &out, 1), 0 };
        for (; out != 0; out >>= 1)
            got[1] += out & 1;
        snprintf(name, sizeof name, "table 5-3, FS bits %s", size_codes[i].bits);
        struct figure figure = { "004", "5.2", name, "Field Size", code == 0 ? "1.21" : SAME };
        settle(&figure, "answer, bits", 2, printed, refused, got);
    }
}

/* ---- 003 section 4.1: the physical address ---- */

/* "This 26-bit address corresponds to bits 4-29": bit 30 would be dropped. */
static void run_physical_address(void)
{
    const struct figure figure = { "003", "4.1", "figure 4-1, address >40000000", "bits 4-29",
                                   "1.13" };
    const uint64_t printed[2] = { 0, 0x1234 }, scope[2] = { BH_PAST_END, 0 };
    uint16_t word = 0x1234;
    uint32_t out = 0;
    uint64_t got[2] = { bh_field_read(&word, 1, 0x40000000, 16, 0, &out, 1), 0 };
    got[1] = out;
    settle(&figure, "answer, word", 2, printed, scope, got);
}

void field_figures(void)
{
    run_alignments();
    run_sizes();
    run_read_modify_write();
    run_cycles();
    run_states();
    run_insertion();
    run_extensions();
    run_size_codes();
    run_physical_address();
}

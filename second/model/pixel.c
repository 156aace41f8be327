/* One pixel in a word: the operations, the mask and transparency. */
#include "model.h"

/* A run of bits of CONTROL, lowest first. */
static uint32_t control_bits(const struct settings *s, int first, int count)
{
    uint32_t value = 0;
    for (int i = 0; i < count; i++) {
        uint32_t bit = ((uint32_t)s->CONTROL >> (first + i)) & 1;
        value = value | (bit << i);
    }
    return value;
}

/* "PP (CONTROL bits 10-14)" */
uint32_t control_pp(const struct settings *s)
{
    return control_bits(s, 10, 5);
}

/* "T (CONTROL bit 5)" */
uint32_t control_t(const struct settings *s)
{
    return control_bits(s, 5, 1);
}

/* "W (CONTROL bits 6-7)" */
uint32_t control_w(const struct settings *s)
{
    return control_bits(s, 6, 2);
}

/* "PBH (bit 8)" */
uint32_t control_pbh(const struct settings *s)
{
    return control_bits(s, 8, 1);
}

/* "PBV (bit 9)" */
uint32_t control_pbv(const struct settings *s)
{
    return control_bits(s, 9, 1);
}

/* "CD (CONTROL bit 15)" */
uint32_t control_cd(const struct settings *s)
{
    return control_bits(s, 15, 1);
}

/* Refusal 11: "PSIZE isn't 1, 2, 4, 8 or 16". */
bool psize_is_bad(const struct settings *s)
{
    uint32_t P = s->PSIZE;
    return P != 1 && P != 2 && P != 4 && P != 8 && P != 16;
}

/* "12 is given from now on only for PP above 21." */
bool control_is_bad(const struct settings *s)
{
    return control_pp(s) > 21;
}

/* "the P bits of PMASK at its destination's place in the word", and colours "the same way":
   the P bits of a 16-bit word at the place that the pixel has in its own word. */
uint32_t pixel_of_word(uint32_t word, uint32_t address, uint32_t P)
{
    uint32_t value = 0;
    for (uint32_t i = 0; i < P; i++) {
        uint32_t bit = (word >> ((address % 16) + i)) & 1;
        value = value | (bit << i);
    }
    return value;
}

/* The pixel of P bits at a bit address, lowest bit first. */
uint32_t pixel_get(struct memory m, uint32_t address, uint32_t P)
{
    uint32_t value = 0;
    for (uint32_t i = 0; i < P; i++)
        value = value | ((uint32_t)bit_get(m, (uint64_t)address + i) << i);
    return value;
}

/* Writes the pixel of P bits at a bit address, lowest bit first. */
void pixel_put(struct memory m, uint32_t address, uint32_t P, uint32_t value)
{
    for (uint32_t i = 0; i < P; i++)
        bit_put(m, (uint64_t)address + i, (int)((value >> i) & 1));
}

/* "PP 0 to 15: S; S and D; S and not D; 0; S or not D; S xnor D; not D; S nor D; S or D; D;
   S xor D; not S and D; all ones; not S or D; S nand D; not S. 16: S + D mod 2^P. 17: the lesser
   of S + D and top. 18: D - S mod 2^P. 19: D - S, or 0 if negative. 20: greater. 21: lesser."
   "P is PSIZE and top is 2^P - 1." */
uint32_t pixel_operation(uint32_t PP, uint32_t P, uint32_t S, uint32_t D)
{
    uint32_t top = ((uint32_t)1 << P) - 1;
    switch (PP) {
    case 0: return S & top;
    case 1: return S & D & top;
    case 2: return S & ~D & top;
    case 3: return 0;
    case 4: return (S | ~D) & top;
    case 5: return ~(S ^ D) & top;
    case 6: return ~D & top;
    case 7: return ~(S | D) & top;
    case 8: return (S | D) & top;
    case 9: return D & top;
    case 10: return (S ^ D) & top;
    case 11: return ~S & D & top;
    case 12: return top;
    case 13: return (~S | D) & top;
    case 14: return ~(S & D) & top;
    case 15: return ~S & top;
    case 16: return (S + D) % (top + 1);
    case 17: return S + D < top ? S + D : top;
    case 18: return D >= S ? D - S : D + (top + 1) - S;
    case 19: return D >= S ? D - S : 0;
    case 20: return S > D ? S : D;
    case 21: return S < D ? S : D;
    }
    return 0;
}

/* "Masked bits of source S and destination D count as 0. The operation is applied, then masked
   bits of the result are set to 0. If T is 1 and that result is 0, nothing is written. Otherwise
   the unmasked bits are written and masked ones stay." Gives the destination pixel afterwards. */
uint32_t pixel_after(uint32_t PP, uint32_t T, uint32_t P, uint32_t mask, uint32_t S, uint32_t D)
{
    uint32_t masked_S = S & ~mask;
    uint32_t masked_D = D & ~mask;
    uint32_t result = pixel_operation(PP, P, masked_S, masked_D);
    result = result & ~mask;
    if (T == 1 && result == 0)
        return D;
    uint32_t after = 0;
    for (uint32_t i = 0; i < P; i++) {
        uint32_t one = (uint32_t)1 << i;
        if ((mask & one) != 0)
            after = after | (D & one);
        else
            after = after | (result & one);
    }
    return after;
}

/* One visit: the destination pixel at this address meets the source pixel S. */
void pixel_draw(struct memory m, const struct settings *s, uint32_t address, uint32_t S)
{
    uint32_t P = s->PSIZE;
    uint32_t mask = pixel_of_word(s->PMASK, address, P);
    uint32_t D = pixel_get(m, address, P);
    pixel_put(m, address, P, pixel_after(control_pp(s), control_t(s), P, mask, S, D));
}

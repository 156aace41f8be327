/* Fields: reading, writing, memory cycles and states of MOVE. */
#include "model.h"

/* Refusal 10: "memory is empty or above 1,048,576 words". */
bool memory_is_bad(struct memory m)
{
    return m.words == 0 || m.words > MOST_WORDS;
}

/* "Bit address a is bit a mod 16 of word a / 16." */
int bit_get(struct memory m, uint64_t address)
{
    uint32_t word = m.word[address / 16];
    return (int)((word >> (address % 16)) & 1);
}

/* "Bit address a is bit a mod 16 of word a / 16." */
void bit_put(struct memory m, uint64_t address, int bit)
{
    uint32_t word = m.word[address / 16];
    uint32_t one = (uint32_t)1 << (address % 16);
    if (bit == 1)
        word = word | one;
    else
        word = word & ~one;
    m.word[address / 16] = (uint16_t)word;
}

/* Refusal 18: "a field size is outside 1 to 32". */
static bool size_is_bad(uint32_t size)
{
    return size < 1 || size > 32;
}

/* Refusal 17: "some ... field bit that would be ... moved ... has an address of 16 x words or
   more". */
static bool field_is_outside(struct memory m, uint32_t address, uint32_t size)
{
    for (uint32_t i = 0; i < size; i++) {
        uint64_t bit_address = (uint64_t)address + i;
        if (bit_address >= 16 * m.words)
            return true;
    }
    return false;
}

/* "a field call checks 10, 18, 17 in that order" */
static int field_refusal(struct memory m, uint32_t address, uint32_t size)
{
    if (memory_is_bad(m))
        return REFUSED_MEMORY;
    if (size_is_bad(size))
        return REFUSED_SIZE;
    if (field_is_outside(m, address, size))
        return REFUSED_ADDRESS;
    return DONE;
}

/* "A field of n bits at address a holds bits a to a+n-1, lowest first. Reading fills the upper
   register bits with 0 or with the field's top bit, as asked." */
struct read_answer field_read(struct memory m, uint32_t address, uint32_t size, bool is_signed)
{
    struct read_answer r = { field_refusal(m, address, size), 0 };
    if (r.answer != DONE)
        return r;
    int top_bit = 0;
    for (uint32_t i = 0; i < size; i++) {
        int bit = bit_get(m, (uint64_t)address + i);
        if (bit == 1)
            r.value = r.value | ((uint32_t)1 << i);
        top_bit = bit;
    }
    if (is_signed) {
        for (uint32_t i = size; i < 32; i++) {
            if (top_bit == 1)
                r.value = r.value | ((uint32_t)1 << i);
        }
    }
    return r;
}

/* "Writing changes those n bits only." A refused write leaves memory as lent. */
int field_write(struct memory m, uint32_t address, uint32_t size, uint32_t value)
{
    int answer = field_refusal(m, address, size);
    if (answer != DONE)
        return answer;
    for (uint32_t i = 0; i < size; i++)
        bit_put(m, (uint64_t)address + i, (int)((value >> i) & 1));
    return DONE;
}

/* "Let s = a mod 16. Memory cycles, read / write: A (s=0, n=16); B (n<16, s+n<=16); C (s=0, n=32);
   D (n>16, s+n=32, s>0); E (s=0, 16<n<32); F (s>0, 16<s+n<32); G (s+n>32)." For sizes 1 to 32. */
char field_case(uint32_t address, uint32_t size)
{
    uint32_t s = address % 16;
    uint32_t n = size;
    if (s == 0 && n == 16)
        return 'A';
    if (n < 16 && s + n <= 16)
        return 'B';
    if (s == 0 && n == 32)
        return 'C';
    if (n > 16 && s + n == 32 && s > 0)
        return 'D';
    if (s == 0 && 16 < n && n < 32)
        return 'E';
    if (s > 0 && 16 < s + n && s + n < 32)
        return 'F';
    if (s + n > 32)
        return 'G';
    return '?';
}

/* "A 1/1; B 1/2; C 2/2; D 2/3; E 2/3; F 2/4; G 3/5", and "a cycle or state count [checks] only
   18". */
struct cycles_answer field_cycles(uint32_t address, uint32_t size)
{
    struct cycles_answer r = { DONE, 0, 0 };
    if (size_is_bad(size)) {
        r.answer = REFUSED_SIZE;
        return r;
    }
    switch (field_case(address, size)) {
    case 'A': r.read = 1; r.write = 1; break;
    case 'B': r.read = 1; r.write = 2; break;
    case 'C': r.read = 2; r.write = 2; break;
    case 'D': r.read = 2; r.write = 3; break;
    case 'E': r.read = 2; r.write = 3; break;
    case 'F': r.read = 2; r.write = 4; break;
    case 'G': r.read = 3; r.write = 5; break;
    }
    return r;
}

/* "States of MOVE memory to register in cache / without: indirect or postincrement 3/6 for A, B;
   5/8 for C to F; 7/10 for G. Predecrement is one more in each. Sign extension adds 1." */
struct states_answer move_states(uint32_t address, uint32_t size, enum move_mode mode,
                                 bool is_signed, bool cached)
{
    struct states_answer r = { DONE, 0 };
    if (size_is_bad(size)) {
        r.answer = REFUSED_SIZE;
        return r;
    }
    switch (field_case(address, size)) {
    case 'A':
    case 'B':
        r.states = cached ? 3 : 6;
        break;
    case 'C':
    case 'D':
    case 'E':
    case 'F':
        r.states = cached ? 5 : 8;
        break;
    case 'G':
        r.states = cached ? 7 : 10;
        break;
    }
    if (mode == PREDECREMENT)
        r.states = r.states + 1;
    if (is_signed)
        r.states = r.states + 1;
    return r;
}

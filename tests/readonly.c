/* The memory of bh_field_read, bh_pixt_from_linear and bh_pixt_from_xy is const in the header. The
   proved functions borrow it as one that may change, and promise that it is the same afterwards.
   Here it lies in a page that can only be read: a store, of the same value too, ends the program by
   a signal. Ends with 0 where every call answered as it should, else with 1. */
#define _DEFAULT_SOURCE
#include <buckethare.h>

#include <stdio.h>
#include <sys/mman.h>

#define WORDS 64

static unsigned wrong;

/* An answer that should be this one. */
static void expect(uint32_t answer, uint32_t wanted)
{
    if (answer != wanted)
        wrong++;
}

static void read_fields(const uint16_t *memory)
{
    uint32_t out[1];
    for (uint32_t size = 1; size <= 32; size++) {
        for (uint32_t address = 0; address < 16 * WORDS; address++) {
            uint32_t wanted = address + size > 16 * WORDS ? BH_PAST_END : BH_DONE;
            expect(bh_field_read(memory, WORDS, address, size, address & 1, out, 1), wanted);
        }
    }
}

/* Pixels of one size, 8 rows of 8 words, at both kinds of address. */
static void read_pixels(const uint16_t *memory, uint32_t psize)
{
    const uint32_t settings[BH_SETTINGS] = { [BH_DPTCH] = 128, [BH_PSIZE] = psize };
    uint32_t out[BH_PIXEL_RESULTS];
    for (uint32_t y = 0; y < 9; y++) {
        for (uint32_t x = 0; x < 128 / psize; x++) {
            uint32_t address = 128 * y + psize * x, wanted = y < 8 ? BH_DONE : BH_PAST_END;
            expect(bh_pixt_from_linear(memory, WORDS, settings, BH_SETTINGS, address, 0, out,
                                       BH_PIXEL_RESULTS), wanted);
            expect(bh_pixt_from_xy(memory, WORDS, settings, BH_SETTINGS, y << 16 | x, 0, out,
                                   BH_PIXEL_RESULTS), wanted);
        }
    }
}

int main(void)
{
    uint16_t *memory = mmap(NULL, WORDS * sizeof *memory, PROT_READ | PROT_WRITE,
                            MAP_PRIVATE | MAP_ANONYMOUS, -1, 0);
    if (memory == MAP_FAILED || bh_fill_image(memory, WORDS, 1) != BH_DONE
        || mprotect(memory, WORDS * sizeof *memory, PROT_READ) != 0) {
        fprintf(stderr, "readonly: no memory\n");
        return 1;
    }
    read_fields(memory);
    for (uint32_t psize = 1; psize <= 16; psize *= 2)
        read_pixels(memory, psize);
    printf("readonly: %u wrong answers\n", wrong);
    return wrong != 0;
}

/* What the two targets share (fuzz.c). */
#ifndef FUZZ_H
#define FUZZ_H

#include "buckethare.h"
#include "model.h"

/* The entry of a target: libFuzzer calls it with every input. */
int LLVMFuzzerTestOneInput(const uint8_t *data, size_t size);

/* ---- Reporting ---- */

/* Prints `differs: ` and the message as one line, and ends the run: the input is kept. */
void differs(const char *format, ...);

/* Counts an answer; at the end of a run each answer's number of times is printed. */
void note_answer(const char *target, uint32_t answer);

/* ---- Lent arrays ---- */

/* What stands where a call may not write. */
#define GUARD_BYTE 0xA5
#define GUARD_LONG 0xA5A5A5A5A5A5A5A5u

/* Room that ends at a page which nothing may touch: a call that reads or writes behind its array
   ends the run. Guards stand before the array. */
struct room {
    unsigned char *end;
    size_t bytes;
};

/* Makes the room at first use, for arrays of at most so many bytes. */
void make_room(struct room *r, size_t bytes);

/* An array of so many bytes at the end of the room, all guards. */
void *lend(struct room *r, size_t bytes);

/* Ends the run where the guards before that array have changed. */
void check_front(const struct room *r, size_t bytes, const char *what);

/* ---- Changes of an input ---- */

/* How a target's inputs are changed: libFuzzer calls it, and it may call libFuzzer's own. */
size_t LLVMFuzzerCustomMutator(uint8_t *data, size_t size, size_t most, unsigned int seed);
size_t LLVMFuzzerMutate(uint8_t *data, size_t size, size_t most);

void random_start(uint64_t seed);
uint64_t random64(void);

/* A power of two, one less or one more; a pair of small halves; or any number of any width. */
uint64_t random_number(void);

/* ---- The model's work ---- */

/* At least as many pixels as the model looks at, some times each, to judge a drawing over so many
   words. */
uint64_t steps_of(uint64_t words, enum operation op, const struct settings *s);

#endif

/* What the parts of the test about two words stand on, beside world.h. In the world the bytes of x are the input; those of y, and a state of eleven numbers, have places of
   their own. */
#ifndef PAIRS_H
#define PAIRS_H

#include "plain.h"
#include "world.h"

/* tests/c/plain_pairs.c: document 02's T-14 to the letter */
u32 plain_run_two(usize ins, const i16 *in_columns, usize in_length, usize outs, const i16 *out_columns, usize out_length, i64 *state, usize state_length, const u8 *xs, usize n,
                  const u8 *ys, usize m, u8 *output, usize room, usize *counts, usize counts_length);

/* the states that are opened for x + y, x - y and x y */
extern const int64_t SUM[SLED_TWO_STATE], DIFFERENCE[SLED_TWO_STATE], PRODUCT[SLED_TWO_STATE];

/* every count and every length that a run over two words is told */
struct two_lengths {
    size_t in_digits, in_columns, out_digits, out_columns, state, xs, ys, output, counts;
};

/* the run over what stands in the world, and plain C's over what stands in `then` */
uint32_t run_two(struct two_lengths n);
uint32_t plain_two(struct two_lengths n);

/* the right ones for these systems */
struct two_lengths right_two(struct system in, struct system out, size_t xs, size_t ys, size_t output);

/* a word of digits */
struct word {
    size_t length;
    uint8_t digits[SPACE];
};

/* what a run finds: systems, a state, two words */
void given_two(struct system in, struct system out, const int64_t *state, const struct word *x, const struct word *y);

/* what it has to leave: the counts */
void counted_two(size_t of_x, size_t of_y, size_t written);

#endif

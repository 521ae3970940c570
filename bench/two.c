/* Times runs over two words (document 02, T-14): the proved library against plain C that does the same (bench/same_two.c), by turns in one run. */
#include "bench.h"

typedef u32 two_call(usize, const i16 *, usize, usize, const i16 *, usize, i64 *, usize, const u8 *, usize, const u8 *, usize, u8 *, usize, usize *, usize);

static u32 proved_two(usize ins, const i16 *in_columns, usize n, usize outs, const i16 *out_columns, usize m, i64 *state, usize s, const u8 *xs, usize x, const u8 *ys, usize y,
                      u8 *output, usize room, usize *counts, usize c) {
    return sled_run_two(ins, in_columns, n, outs, out_columns, m, (int64_t *)state, s, xs, x, ys, y, output, room, counts, c);
}

enum { TWO_ROOM = 4 * LONG };
static u8 words[2][LONG], digits[SIDES][TWO_ROOM];

/* the eight numbers of an operation */
static const i64 SUM[8] = {0, 1, 1, 0, 0, 0, 0, 1}, DIFFERENCE[8] = {0, 1, -1, 0, 0, 0, 0, 1}, PRODUCT[8] = {1, 0, 0, 0, 0, 0, 0, 1};

struct pair {
    const struct system *ins, *outs;
    const i64 *operation;
    usize length; /* digits of each word */
};

/* One round: both words in one call. Where the state leaves its range the session is opened again behind what was taken. Answers what was taken of each word and written, and how
   often the session was opened again. */
static void round_of(two_call *run, const struct pair *p, u8 *out, usize *counts, usize *stops) {
    i64 state[SLED_TWO_STATE];
    usize c[SLED_COUNTS], again = 0;
    u32 end = 22;
    counts[0] = counts[1] = counts[2] = 0;
    while (end == 22) {
        memcpy(state, p->operation, 8 * sizeof *state);
        state[8] = state[9] = -1, state[10] = 0;
        end = run(p->ins->digits, p->ins->columns, SLED_COLUMNS, p->outs->digits, p->outs->columns, SLED_COLUMNS, state, SLED_TWO_STATE, words[0] + counts[0],
                  p->length - counts[0], words[1] + counts[1], p->length - counts[1], out + counts[2], TWO_ROOM - counts[2], c, SLED_COUNTS);
        for (int k = 0; k < SLED_COUNTS; k++) counts[k] += c[k];
        if (end == 22) again++;
    }
    *stops = again + 1000000 * (end != 0);
}

static void time_two(const char *name, const struct pair *p, int rounds) {
    two_call *calls[SIDES] = {[SAME] = same_run_two, [PROVED] = proved_two};
    usize counts[SIDES][SLED_COUNTS], stops[SIDES];
    double best[SIDES] = {[SAME] = 1e9, [PROVED] = 1e9};
    for (int r = 0; r < rounds; r++)
        for (int side = SAME; side < SIDES; side++) {
            double start = now();
            round_of(calls[side], p, digits[side], counts[side], &stops[side]);
            keep_best(&best[side], start);
        }
    if (memcmp(counts[SAME], counts[PROVED], sizeof *counts) != 0 || stops[SAME] != stops[PROVED] || memcmp(digits[SAME], digits[PROVED], counts[SAME][2]) != 0)
        fail(name, DIFFERENT);
    report(name, best, (double)(counts[SAME][0] + counts[SAME][1]) * 1e-6, "million digits taken a second");
    opened_again(name, stops[SAME]);
}

static void two_words(const struct system *s) {
    for (int k = 0; k < 2; k++) word_of(s, words[k]);
}

void time_two_words(int rounds) {
    two_words(&D);
    time_two("sum, D to D, long words", &(struct pair){&D, &D, SUM, LONG}, rounds);
    time_two("difference, D to B, long words", &(struct pair){&D, &B, DIFFERENCE, LONG}, rounds);
    two_words(&B);
    time_two("sum, B to B, long words", &(struct pair){&B, &B, SUM, LONG}, rounds);
    time_two("product, B to B, long words", &(struct pair){&B, &B, PRODUCT, LONG}, rounds);
    two_words(&R);
    time_two("sum, R to R, long words", &(struct pair){&R, &R, SUM, LONG}, rounds);
}

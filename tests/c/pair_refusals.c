/* Runs over two words that are refused: each reason, which of two comes first, and what is left. */
#include "pairs.h"

static const struct word X = {3, {0, 0, 1}}, Y = {3, {1, 0, 1}};
static const int64_t WORSE[11] = {2, 0, 0, 2, 0, 0, 0, 4, 99, -7, 5};

static void refused(struct system in, struct system out, const int64_t *state, uint32_t expected, const char *what, long detail) {
    for (size_t room = 0; room <= 10; room += 5) {
        given_two(in, out, state, &X, &Y);
        counted_two(0, 0, 0);
        settled(run_two(right_two(in, out, 3, 3, room)), expected, what, detail);
    }
}

static void bad_systems(void) {
    const struct system gap = {3, R.rows};
    for (int k = 0; k < 4; k++) {
        uint32_t number = (uint32_t)(6 + k);
        refused(REFUSED[k], R, SUM, number, "two words: input system", k);
        refused(R, REFUSED[k], SUM, number, "two words: output system", k);
        refused(R, REFUSED[k], WORSE, number, "two words: output system before state", k);
        for (int j = 0; j < 4; j++) refused(REFUSED[k], REFUSED[j], WORSE, number, "two words: input system before output system", 10 * k + j);
    }
    refused(gap, R, SUM, 10, "two words: input system with a gap", 0);
    refused(R, gap, SUM, 10, "two words: output system with a gap", 0);
    refused(gap, SAME, WORSE, 10, "two words: the input system's gap before 18", 0);
    refused(SAME, gap, WORSE, SLED_REFUSED_EXPAND, "two words: the input system does not expand", 0);
    refused(PLAIN_BINARY, R, SUM, SLED_REFUSED_EXPAND, "two words: nor does this", 0);
    refused(R, SAME, WORSE, SLED_REFUSED_EXPAND, "two words: the output system does not expand", 0);
    refused(R, PLAIN_BINARY, SUM, SLED_REFUSED_EXPAND, "two words: nor does this", 1);
}

static void bad_counts(void) {
    for (size_t k = 0; k < 5 + LARGE_COUNTS; k++) {
        struct system none = {k == 0 ? 0 : k < 5 ? 16 + k : LARGE[k - 5], SIXTEEN.rows};
        refused(none, R, SUM, 3, "two words: the input system's count", (long)k);
        refused(R, none, SUM, 3, "two words: the output system's count", (long)k);
        refused(none, REFUSED[0], WORSE, 3, "two words: the input system's count before the output system", (long)k);
        refused(REFUSED[0], none, WORSE, 6, "two words: the input system before the output system's count", (long)k);
        refused(R, none, WORSE, 3, "two words: the output system's count before the state", (long)k);
    }
}

/* the state, with one number changed */
static void refused_at(const int64_t *state, int place, int64_t number, const char *what) {
    int64_t changed[11];
    memcpy(changed, state, sizeof changed);
    changed[place] = number;
    refused(R, R, changed, 12, what, (long)place);
}

static void bad_states(void) {
    const int64_t wide[] = {1000000001, -1000000001, LEAST, LEAST + 1, MOST};
    const int64_t held[] = {4,  5,    16,   127,  128,   254,       255,  256,       257, 511, 512, 65536, 4294967296, 4294967295,
                            -2, -255, -256, -257, LEAST, LEAST + 1, MOST, MOST - 255};
    const int64_t turns[] = {2, -1, 3, 255, 256, 257, -2, -255, -256, 65536, 65537, 4294967296, 4294967297, LEAST, LEAST + 1, MOST};
    const int64_t states[][11] = {{0, 0, 0, 0, 0, 0, 0, 0, -1, -1, 0}, {0, 2, 2, 0, 0, 0, 0, 2, -1, -1, 0},
                                  {0, 0, 0, 3, 0, 0, 0, 0, -1, -1, 0}, {6, 10, 14, 22, -26, 34, 38, 46, 0, 1, 1}};
    for (size_t k = 0; k < sizeof states / sizeof *states; k++) refused(R, R, states[k], 12, "all 0, or not cancelled", (long)k);
    for (size_t k = 0; k < sizeof wide / sizeof *wide; k++)
        for (int place = 0; place < 8; place++) refused_at(SUM, place, wide[k], "an entry out of range");
    for (size_t k = 0; k < sizeof held / sizeof *held; k++) {
        refused_at(SUM, 8, held[k], "a held digit of x that R hasn't got");
        refused_at(PRODUCT, 9, held[k], "a held digit of y that R hasn't got");
    }
    for (size_t k = 0; k < sizeof turns / sizeof *turns; k++) {
        refused_at(DIFFERENCE, 10, turns[k], "a turn that is none");
        refused_at((const int64_t[]){0, 1, 1, 0, 0, 0, 0, 1, 0, 1, 0}, 10, turns[k], "a turn that is none, where digits are held");
    }
}

/* a wrong length of good things, and of bad ones */
static void wrong(struct two_lengths n, const char *what, size_t length) {
    given_two(R, R, SUM, &X, &Y);
    settled(run_two(n), 40, what, (long)length);
    given_two(REFUSED[0], REFUSED[1], WORSE, &X, &Y);
    n.in_digits = 0, n.out_digits = 17;
    settled(run_two(n), 40, "two words: 40 before all others", (long)length);
}

static void bad_lengths(void) {
    const struct two_lengths good = right_two(R, R, 3, 3, 10);
    for (size_t k = 0; k <= LENT; k++) {
        struct two_lengths in = good, out = good, state = good, counts = good;
        in.in_columns = out.out_columns = state.state = counts.counts = k;
        if (k != SLED_COLUMNS) wrong(in, "two words: the length of the input system", k), wrong(out, "two words: the length of the output system", k);
        if (k != SLED_TWO_STATE && k <= 16) wrong(state, "two words: the length of the state", k);
        if (k != SLED_COUNTS && k <= 8) wrong(counts, "two words: the length of the counts", k);
    }
}

void pair_refusals(void) {
    bad_systems();
    bad_counts();
    bad_states();
    bad_lengths();
}

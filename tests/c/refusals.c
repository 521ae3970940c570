/* Runs that are refused: each reason, which of two comes first, and what is left. The list does not matter: no such run asks whether it is full. */
#include "world.h"

static void refused(struct system in, struct system out, const int64_t *state, uint32_t expected, const char *what, long detail) {
    for (size_t places = 0; places <= 14; places += 7) {
        given(in, out, state, WORD, 3);
        counted(0, 0, 0);
        settled(run(listing(in, out, 3, 10, places)), expected, what, detail);
    }
}

static const int64_t WORSE[5] = {2, 0, 0, 2, 99};

static void bad_systems(void) {
    for (int k = 0; k < 4; k++) {
        uint32_t number = (uint32_t)(6 + k);
        refused(REFUSED[k], R, START, number, "input system", k);
        refused(R, REFUSED[k], START, number, "output system", k);
        refused(R, REFUSED[k], WORSE, number, "output system before state", k);
        for (int j = 0; j < 4; j++) refused(REFUSED[k], REFUSED[j], WORSE, number, "input system before output system", 10 * k + j);
    }
    const struct system gap = {3, R.rows};
    refused(gap, R, START, 10, "input system with a gap", 0);
    refused(R, gap, START, 10, "output system with a gap", 0);
}

/* systems that do not expand: behind every other number of their own, and before what is judged later */
static void not_expanding(void) {
    const struct system gap = {3, R.rows}, both = {1, SAME.rows}, bad[2] = {SAME, PLAIN_BINARY};
    for (int k = 0; k < 2; k++) {
        refused(bad[k], R, START, SLED_REFUSED_EXPAND, "the input system does not expand", k);
        refused(R, bad[k], START, SLED_REFUSED_EXPAND, "the output system does not expand", k);
        refused(bad[k], bad[1 - k], START, SLED_REFUSED_EXPAND, "neither expands", k);
        refused(bad[k], R, WORSE, SLED_REFUSED_EXPAND, "18 of the input system before state", k);
        refused(R, bad[k], WORSE, SLED_REFUSED_EXPAND, "18 of the output system before state", k);
        for (int j = 0; j < 4; j++) {
            refused(bad[k], REFUSED[j], WORSE, SLED_REFUSED_EXPAND, "18 of the input system before output system", 10 * k + j);
            refused(REFUSED[j], bad[k], WORSE, (uint32_t)(6 + j), "input system before 18 of the output system", 10 * k + j);
        }
        refused(bad[k], gap, WORSE, SLED_REFUSED_EXPAND, "18 of the input system before the output system's gap", k);
        refused(gap, bad[k], WORSE, 10, "the input system's gap before 18 of the output system", k);
    }
    refused(both, R, START, 10, "a gap before 18, input system", 0);
    refused(R, both, START, 10, "a gap before 18, output system", 0);
}

static void bad_counts(void) {
    for (size_t k = 0; k < 5 + LARGE_COUNTS; k++) {
        struct system none = {k == 0 ? 0 : k < 5 ? 16 + k : LARGE[k - 5], SIXTEEN.rows};
        refused(none, R, START, 3, "the input system's count", (long)k);
        refused(R, none, START, 3, "the output system's count", (long)k);
        refused(none, REFUSED[0], WORSE, 3, "the input system's count before the output system", (long)k);
        refused(REFUSED[0], none, WORSE, 6, "the input system before the output system's count", (long)k);
        refused((struct system){3, R.rows}, none, WORSE, 10, "its gap too", (long)k);
        refused(SAME, none, WORSE, SLED_REFUSED_EXPAND, "and that it does not expand", (long)k);
        refused(none, SAME, WORSE, 3, "the input system's count before 18 of the output system", (long)k);
        refused(R, none, WORSE, 3, "the output system's count before the state", (long)k);
    }
}

static void bad_states(void) {
    const int64_t states[][5] = {{2, 0, 0, 2, -1},           {1, 1, 1, 1, -1},           {1, 2, 2, 1, -1},           {0, 0, 0, 0, -1},
                                 {1000000001, 0, 0, 1, -1},  {1, -1000000001, 0, 1, -1}, {1, 0, 1000000001, 1, -1},  {1, 0, 0, 1000000001, -1},
                                 {LEAST, 0, 0, LEAST, -1},   {LEAST, MOST, MOST, 1, -1}, {MOST, MOST, MOST, MOST, MOST}};
    const int64_t held[] = {4, 5, 16, 127, 128, 254, 255, 256, 257, 511, 512, 65536, 4294967296, 4294967295, -2, -255, -256, -257, LEAST, LEAST + 1, MOST, MOST - 255};
    for (size_t k = 0; k < sizeof states / sizeof *states; k++) refused(R, R, states[k], 12, "a bad state", (long)k);
    for (size_t k = 0; k < sizeof held / sizeof *held; k++) {
        const int64_t state[5] = {2, 1, 1, 2, held[k]};
        refused(R, R, state, 12, "a held digit that R hasn't got", (long)held[k]);
    }
    const int64_t last[5] = {1000000000, 1, -1, 1000000000, 3};
    given(R, R, last, WORD, 3);
    uint32_t end = run(right(R, R, 0, 0));
    check(end != 12, "the bounds of a state", (long)end);
}

/* a wrong length of good things, and of bad ones */
static void wrong(struct lengths n, const char *what, size_t length) {
    given(R, R, START, WORD, 3);
    settled(run(n), 40, what, (long)length);
    given(REFUSED[0], REFUSED[1], WORSE, WORD, 3);
    n.in_digits = 0, n.out_digits = 17;
    settled(run(n), 40, "40 before all others", (long)length);
}

static void bad_lengths(void) {
    struct lengths n;
    for (size_t k = 0; k <= LENT; k++)
        if (k != SLED_COLUMNS) {
            n = right(R, R, 3, 10), n.in_columns = k, wrong(n, "the length of the input system", k);
            n = right(R, R, 3, 10), n.out_columns = k, wrong(n, "the length of the output system", k);
        }
    for (size_t k = 0; k <= 8; k++)
        if (k != SLED_STATE) n = right(R, R, 3, 10), n.state = k, wrong(n, "the length of the state", k);
    for (size_t k = 0; k <= 8; k++)
        if (k != SLED_COUNTS) n = right(R, R, 3, 10), n.counts = k, wrong(n, "the length of the counts", k);
}

void refusals(void) {
    bad_systems();
    not_expanding();
    bad_counts();
    bad_states();
    bad_lengths();
}

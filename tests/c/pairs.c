/* Opening, and runs, over two words. pair_refusals.c has runs that are refused, pair_sums.c runs in several calls, exact fractions and runs by chance. */
#include "pairs.h"

const int64_t SUM[11] = {0, 1, 1, 0, 0, 0, 0, 1, -1, -1, 0}, DIFFERENCE[11] = {0, 1, -1, 0, 0, 0, 0, 1, -1, -1, 0}, PRODUCT[11] = {1, 0, 0, 0, 0, 0, 0, 1, -1, -1, 0};

/* ---- a run over what stands in the world */

uint32_t run_two(struct two_lengths n) {
    return sled_run_two(n.in_digits, now.in_columns, n.in_columns, n.out_digits, now.out_columns, n.out_columns, now.two_state, n.state, now.input, n.xs, now.ys, n.ys,
                        now.output, n.output, now.counts, n.counts);
}

uint32_t plain_two(struct two_lengths n) {
    return plain_run_two(n.in_digits, then.in_columns, n.in_columns, n.out_digits, then.out_columns, n.out_columns, (i64 *)then.two_state, n.state, then.input, n.xs, then.ys,
                         n.ys, then.output, n.output, then.counts, n.counts);
}

struct two_lengths right_two(struct system in, struct system out, size_t xs, size_t ys, size_t output) {
    return (struct two_lengths){in.digits, SLED_COLUMNS, out.digits, SLED_COLUMNS, SLED_TWO_STATE, xs, ys, output, SLED_COUNTS};
}

void given_two(struct system in, struct system out, const int64_t *state, const struct word *x, const struct word *y) {
    begin();
    lend(now.in_columns, in);
    lend(now.out_columns, out);
    memcpy(now.two_state, state, sizeof SUM);
    memcpy(now.input, x->digits, x->length);
    memcpy(now.ys, y->digits, y->length);
    ready();
}

void counted_two(size_t of_x, size_t of_y, size_t written) { then.counts[0] = of_x, then.counts[1] = of_y, then.counts[2] = written; }

/* ---- opening */

/* into each length; and into lengths that would be right if they were cut to 8 or 16 bits */
static void opens_two(uint32_t (*open)(int64_t *, size_t), const int64_t *opened, const char *what) {
    static int64_t vast[65536 + SLED_TWO_STATE], before[65536 + SLED_TWO_STATE];
    for (size_t length = 0; length <= 16; length++) {
        begin_at_random();
        if (length == SLED_TWO_STATE) memcpy(then.two_state, opened, sizeof SUM);
        settled(open(now.two_state, length), length == SLED_TWO_STATE ? 0 : 40, what, (long)length);
    }
    for (size_t k = 0; k < sizeof vast / sizeof *vast; k++) vast[k] = before[k] = (int64_t)any(65536);
    for (size_t cut = 256; cut <= 65536; cut *= 256) check(open(vast, cut + SLED_TWO_STATE) == 40, what, (long)cut);
    check(memcmp(vast, before, sizeof vast) == 0, "long states are not written", 0);
}

void opening_two(void) {
    opens_two(sled_open_sum, SUM, "x + y");
    opens_two(sled_open_difference, DIFFERENCE, "x - y");
    opens_two(sled_open_product, PRODUCT, "x y");
}

/* ---- runs */

/* worked out step by step, without the library: the systems, what is opened, the two words, and what has to be left */
static const struct example {
    const struct system *in, *out;
    const int64_t *opened;
    struct word x, y;
    uint32_t end;
    size_t of_x, of_y;
    struct word given;
    int64_t state[SLED_TWO_STATE];
} examples[] = {
    {&D, &D, SUM, {6, {2, 0, 2, 0, 2, 0}}, {6, {2, 1, 1, 1, 1, 1}}, 0, 6, 6, {4, {2, 2, 2, 0}}, {0, 1, 2, 1, 0, 0, 0, 4, -1, 1, 1}}, /* 1/3 + 1/2 */
    {&D, &R, SUM, {6, {2, 0, 2, 0, 2, 0}}, {6, {2, 1, 1, 1, 1, 1}}, 0, 6, 6, {4, {0, 1, 1, 1}}, {0, 4, 8, 20, 0, -1, -2, 11, -1, 1, 1}},
    {&R, &R, SUM, {6, {0, 0, 1, 1, 0, 1}}, {6, {1, 0, 0, 1, 1, 0}}, 0, 6, 6, {6, {1, 0, 1, 1, 1, 1}}, {9, 5, 14, 5, 1, 6, 2, 11, -1, 0, 1}},
    {&R, &R, SUM, {3, {0, 0, 1}}, {6, {1, 0, 0, 1, 1, 0}}, 0, 3, 3, {2, {1, 0}}, {3, 1, 4, 1, -1, 1, -1, 2, -1, 0, 1}},      /* x is used up */
    {&R, &R, SUM, {6, {0, 0, 1, 1, 1, 1}}, {2, {1, 0}}, 0, 3, 2, {1, {1}}, {3, 1, 1, 0, 2, 2, 1, 1, 1, -1, 0}},              /* y is used up */
    {&R, &R, SUM, {5, {1, 1, 1, 1, 1}}, {5, {1, 1, 1, 1, 1}}, 0, 5, 5, {0, {0}}, {0, 1, 1, 9, 0, 0, 0, 1, -1, 1, 1}},        /* infinity + infinity is (0, 0) */
    {&R, &R, SUM, {6, {1, 1, 1, 0, 1, 1}}, {6, {1, 1, 0, 1, 1, 1}}, 0, 6, 6, {7, {1, 1, 1, 1, 1, 1, 0}}, {1, 2, 2, 3, 0, 1, 1, 6, -1, 1, 1}},
    {&R, &R, DIFFERENCE, {6, {0, 0, 1, 1, 0, 1}}, {6, {0, 0, 1, 1, 0, 1}}, 0, 6, 6, {0, {0}}, {0, 1, -1, 1, 49, 35, 84, 60, -1, 1, 1}}, /* x - x in R */
    {&D, &D, DIFFERENCE, {4, {2, 0, 1, 2}}, {4, {2, 0, 1, 2}}, 0, 4, 4, {2, {1, 1}}, {0, 1, -2, 1, 0, 0, 0, 4, -1, 2, 1}},         /* and in D */
    {&B, &D, DIFFERENCE, {5, {1, 2, 1, 0, 3}}, {5, {2, 3, 1, 1, 0}}, 0, 5, 5, {1, {0}}, {-4, 4, -6, -2, 4, 28, 5, 35, -1, 0, 1}},
    {&R, &R, PRODUCT, {6, {0, 0, 1, 1, 0, 1}}, {6, {1, 0, 0, 1, 1, 0}}, 0, 6, 6, {3, {0, 1, 0}}, {4, 7, 6, 10, 1, 7, 3, 15, -1, 0, 1}},
    {&R, &R, PRODUCT, {4, {2, 3, 3, 2}}, {4, {1, 0, 0, 1}}, 0, 4, 4, {1, {2}}, {5, 1, -6, -1, -4, -2, 6, 3, -1, 1, 1}},
    {&B, &B, PRODUCT, {4, {1, 2, 1, 0}}, {4, {2, 3, 1, 1}}, 0, 4, 4, {2, {2, 2}}, {4, 8, 5, 10, -4, 0, -3, 6, -1, 1, 1}},
};
enum { EXAMPLES = sizeof examples / sizeof *examples };

static void each_example(void) {
    for (int k = 0; k < EXAMPLES; k++) {
        const struct example *e = examples + k;
        given_two(*e->in, *e->out, e->opened, &e->x, &e->y);
        counted_two(e->of_x, e->of_y, e->given.length);
        memcpy(then.two_state, e->state, sizeof e->state);
        memcpy(then.output, e->given.digits, e->given.length);
        settled(run_two(right_two(*e->in, *e->out, e->x.length, e->y.length, 20)), e->end, "worked step by step", k);
        counted_two(0, 0, 0);
        settled(run_two(right_two(*e->in, *e->out, 0, 0, 0)), e->end, "it stops again", k);
    }
}

/* with each room, and as much of each word as is said: what plain C leaves */
static void as_plain(const struct example *e, size_t of_x, size_t of_y, size_t room, const char *what, long detail) {
    struct two_lengths n = right_two(*e->in, *e->out, of_x, of_y, room);
    given_two(*e->in, *e->out, e->opened, &e->x, &e->y);
    settled(run_two(n), plain_two(n), what, detail);
}

static void each_part(void) {
    int before = passed;
    for (int k = 0; k < EXAMPLES; k++)
        for (size_t i = 0; i <= examples[k].x.length; i++)
            for (size_t j = 0; j <= examples[k].y.length; j++)
                for (size_t room = 0; room <= 8; room++) as_plain(examples + k, i, j, room, "each part of each word, and each room", (long)(1000 * k + 100 * i + 10 * j + room));
    counts_as_one(before);
}

/* "0 if a missing digit has no input left", x before y; a byte that is no digit stops the run, but only where it is needed */
static void missing(void) {
    static const int64_t holds_x[11] = {0, 1, 1, 0, 0, 0, 0, 1, 2, -1, 0}, holds_y[11] = {0, 1, 1, 0, 0, 0, 0, 1, -1, 2, 0};
    for (int byte = 4; byte < 256; byte++) {
        const struct word bad = {1, {(uint8_t)byte}}, good = {1, {1}};
        given_two(D, D, SUM, &bad, &bad);
        counted_two(0, 0, 0);
        settled(run_two(right_two(D, D, 0, 1, 9)), 0, "no x, and y is not looked at", byte);
        settled(run_two(right_two(D, D, 1, 1, 9)), 21, "x's byte is no digit", byte);
        given_two(D, D, holds_x, &bad, &bad);
        counted_two(0, 0, 0);
        settled(run_two(right_two(D, D, 1, 0, 9)), 0, "no y, and x is held", byte);
        settled(run_two(right_two(D, D, 1, 1, 9)), 21, "y's byte is no digit", byte);
        given_two(D, D, holds_y, &bad, &bad);
        counted_two(0, 0, 0);
        settled(run_two(right_two(D, D, 1, 1, 9)), 21, "y is held, and x's byte is no digit", byte);
        given_two(D, D, SUM, &good, &bad);
        counted_two(1, 0, 0);
        then.two_state[8] = 1;
        settled(run_two(right_two(D, D, 1, 1, 9)), 21, "x is taken, and y's byte is no digit", byte);
    }
}

/* of the same held digits x's is absorbed, or y's, by the turn, which passes */
static void turns(void) {
    const struct word none = {0, {0}};
    given_two(D, D, (const int64_t[]){0, 1, 1, 0, 0, 0, 0, 1, 2, 2, 0}, &none, &none);
    counted_two(0, 0, 0);
    memcpy(then.two_state, (const int64_t[]){0, 1, 2, 1, 0, 0, 0, 2, -1, 2, 1}, sizeof SUM);
    settled(run_two(right_two(D, D, 0, 0, 9)), 0, "x's turn", 0);
    given_two(D, D, (const int64_t[]){0, 1, 1, 0, 0, 0, 0, 1, 2, 2, 1}, &none, &none);
    counted_two(0, 0, 0);
    memcpy(then.two_state, (const int64_t[]){0, 2, 1, 1, 0, 0, 0, 2, 2, -1, 0}, sizeof SUM);
    settled(run_two(right_two(D, D, 0, 0, 9)), 0, "y's turn", 1);
}

/* x - x in R gives nothing and grows, until the range is left; then the session is over */
static void grows(void) {
    struct word x = {60, {0}};
    for (size_t k = 0; k < x.length; k++) x.digits[k] = (const uint8_t[]){0, 0, 1, 1, 0, 1}[k % 6];
    given_two(R, R, DIFFERENCE, &x, &x);
    counted_two(25, 24, 0);
    memcpy(then.two_state, (const int64_t[]){0, 1, -1, 1, 548262225, 386370915, 934633140, 658653916, 0, 1, 1}, sizeof SUM);
    settled(run_two(right_two(R, R, 60, 60, 9)), 22, "x - x leaves the range", 0);
    counted_two(0, 0, 0);
    for (size_t length = 0; length <= 3; length++) settled(run_two(right_two(R, R, length, 3 - length, length)), 22, "and again", (long)length);
}

/* x and y may be one slice */
static void one_slice(void) {
    static const int64_t *const opened[3] = {SUM, DIFFERENCE, PRODUCT};
    const struct word x = {6, {2, 0, 2, 0, 1, 2}};
    for (int k = 0; k < 3; k++) {
        given_two(D, D, opened[k], &x, &x);
        uint32_t end = plain_two(right_two(D, D, 6, 6, 20));
        settled(sled_run_two(4, now.in_columns, SLED_COLUMNS, 4, now.out_columns, SLED_COLUMNS, now.two_state, SLED_TWO_STATE, now.input, 6, now.input, 6, now.output, 20,
                             now.counts, SLED_COUNTS), end, "both words in one slice", k);
    }
}

/* a form that is (0, 0) at some points, or is infinity everywhere else, keeps the rules for a state, and so do numbers at the bounds */
static void odd_states(void) {
    static const int64_t states[][11] = {{1, 0, 0, 0, 0, 0, 0, 0, -1, -1, 0}, {0, 0, 0, 0, 0, 0, 0, 1, 1, 2, 1},
                                         {1, -1, 1, -1, 1, -1, 1, -1, 3, -1, 1}, {0, 1, 0, -1, 0, 1, 0, -1, 0, 0, 0},
                                         {1000000000, -1000000000, 1000000000, 999999999, -1000000000, 0, 0, 1000000000, 3, 3, 1}};
    const struct word x = {4, {2, 0, 1, 3}}, y = {4, {1, 2, 2, 0}};
    for (int k = 0; k < 5; k++)
        for (size_t room = 0; room <= 40; room++) {
            struct two_lengths n = right_two(D, R, 4, 4, room);
            given_two(D, R, states[k], &x, &y);
            uint32_t end = run_two(n);
            settled(end, plain_two(n), "odd states", k);
            check(end != 12, "an odd state keeps the rules", k);
        }
}

void pairs(void) {
    each_example();
    each_part();
    missing();
    turns();
    grows();
    one_slice();
    odd_states();
}

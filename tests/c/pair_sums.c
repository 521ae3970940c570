/* Over two words: runs in several calls are one run; sums, differences and products are held against exact fractions; and random runs, most of them bad, are held against
   plain C (plain_pairs.c). */
#include "pairs.h"

/* ---- calls one behind the other over two words and one output */

struct pair_session {
    struct system in, out;
    const struct word *x, *y;
    int64_t state[SLED_TWO_STATE];
    uint8_t output[SPACE];
    size_t of_x, of_y, written; /* of all calls */
    uint32_t end;               /* of the last one */
};

static struct pair_session pair_session(struct system in, struct system out, const int64_t *state, const struct word *x, const struct word *y) {
    struct pair_session s = {.in = in, .out = out, .x = x, .y = y};
    memcpy(s.state, state, sizeof s.state);
    for (size_t k = 0; k < SPACE; k++) s.output[k] = unwritten(k);
    return s;
}

static size_t least(size_t a, size_t b) { return a < b ? a : b; }

/* one call more: at most so many bytes of each word, and so much room */
static void call_two(struct pair_session *s, size_t xs, size_t ys, size_t room) {
    int16_t in[SLED_COLUMNS], out[SLED_COLUMNS];
    size_t counts[SLED_COUNTS];
    xs = least(xs, s->x->length - s->of_x), ys = least(ys, s->y->length - s->of_y), room = least(room, SPACE - s->written);
    lend(in, s->in), lend(out, s->out); /* with other junk at each call */
    s->end = sled_run_two(s->in.digits, in, SLED_COLUMNS, s->out.digits, out, SLED_COLUMNS, s->state, SLED_TWO_STATE, s->x->digits + s->of_x, xs, s->y->digits + s->of_y, ys,
                          s->output + s->written, room, counts, SLED_COUNTS);
    check(counts[0] <= xs && counts[1] <= ys && counts[2] <= room, "counts within the lengths", (long)s->end);
    s->of_x += counts[0];
    s->of_y += counts[1];
    s->written += counts[2];
}

static int same(const struct pair_session *a, const struct pair_session *b) {
    return a->end == b->end && a->of_x == b->of_x && a->of_y == b->of_y && a->written == b->written && memcmp(a->state, b->state, sizeof a->state) == 0 &&
           memcmp(a->output, b->output, sizeof a->output) == 0;
}

/* ---- cut anywhere */

static void cut_anywhere(struct system in, struct system out, const int64_t *state, const struct word *x, const struct word *y, size_t room, uint32_t end) {
    const struct pair_session start = pair_session(in, out, state, x, y);
    struct pair_session whole = start;
    call_two(&whole, x->length, y->length, room);
    check(whole.end == end, "a run over two words that is cut", (long)whole.end);
    for (size_t i = 0; i <= x->length; i++)
        for (size_t j = 0; j <= y->length; j++)
            for (size_t o = 0; o <= room; o++) {
                struct pair_session s = start;
                call_two(&s, i, j, o);
                call_two(&s, x->length, y->length, room - s.written);
                check(same(&whole, &s), "both words cut anywhere", (long)(10000 * i + 100 * j + o));
            }
}

/* in pieces of so many digits of x, of y and so much room */
static struct pair_session in_pieces(const struct word *x, const struct word *y, size_t xs, size_t ys, size_t room) {
    struct pair_session s = pair_session(D, D, SUM, x, y);
    for (int calls = 0; calls < 1000; calls++) call_two(&s, xs, ys, room);
    return s;
}

void pair_cuts(void) {
    const struct word a = {6, {2, 0, 2, 0, 2, 0}}, b = {5, {2, 1, 0, 1, 1}}, c = {6, {0, 0, 1, 1, 0, 1}}, d = {6, {1, 0, 0, 1, 1, 0}}, bad = {4, {2, 1, 9, 0}};
    const int64_t holding[11] = {0, 1, -1, 0, 0, 0, 0, 1, 1, 0, 1}, large[11] = {0, 999999999, 1, 0, 0, 0, 0, 1, -1, -1, 0};
    struct word x = {50, {0}}, y = {40, {0}};
    int before = passed;
    cut_anywhere(D, D, SUM, &a, &b, 6, SLED_OK);
    cut_anywhere(R, R, SUM, &c, &d, 4, SLED_END_NO_ROOM);
    cut_anywhere(R, B, PRODUCT, &c, &d, 8, SLED_OK);
    cut_anywhere(R, R, holding, &c, &d, 5, SLED_OK);
    cut_anywhere(D, D, SUM, &a, &bad, 6, SLED_END_NOT_A_DIGIT);
    cut_anywhere(D, D, large, &a, &b, 3, SLED_END_RANGE_LEFT);
    for (size_t k = 0; k < 50; k++) x.digits[k] = (uint8_t)(k * k % 7 % 3), y.digits[k % 40] = (uint8_t)(k * k % 11 % 3);
    const struct pair_session whole = in_pieces(&x, &y, 50, 40, SPACE);
    check(whole.end == SLED_OK && whole.written > 20, "the whole words", (long)whole.written);
    for (size_t piece = 1; piece <= 12; piece++)
        for (size_t room = 1; room <= 5; room++) {
            struct pair_session parts = in_pieces(&x, &y, piece, 1 + (5 * piece + room) % 7, room);
            check(same(&whole, &parts), "both words in pieces", (long)(10 * piece + room));
        }
    counts_as_one(before);
}

/* ---- exact fractions */

struct fraction {
    int64_t z0, z1;
};

static int64_t common(int64_t a, int64_t b) {
    while (b != 0) {
        int64_t r = a % b;
        a = b, b = r;
    }
    return a < 0 ? -a : a;
}

static struct fraction lowest(int64_t z0, int64_t z1) {
    int64_t g = common(z0, z1);
    return (struct fraction){z0 / g, z1 / g};
}

static int64_t det(int64_t x0, int64_t x1, int64_t y0, int64_t y1) { return x0 * y1 - x1 * y0; }

/* whether a point lies in the closed interval of a digit, and the point that is named behind that digit */
static int in_interval(const int16_t *row, struct fraction z) {
    int64_t p = det(row[4], row[5], z.z0, z.z1), q = det(z.z0, z.z1, row[6], row[7]);
    return (p >= 0 && q >= 0) || (p <= 0 && q <= 0);
}

static struct fraction behind(const int16_t *row, struct fraction z) { return lowest(row[3] * z.z0 - row[1] * z.z1, row[0] * z.z1 - row[2] * z.z0); }

/* a word for a point: each time the smallest digit whose closed interval holds it, which is then undone */
static struct word word_of(struct system s, struct fraction z, size_t length) {
    struct word w = {length, {0}};
    for (size_t k = 0; k < length; k++) {
        uint8_t a = 0;
        while (!in_interval(s.rows + 8 * a, z)) a++;
        w.digits[k] = a;
        z = behind(s.rows + 8 * a, z);
    }
    return w;
}

static struct fraction exactly(const int64_t *opened, struct fraction x, struct fraction y) {
    const int64_t *m = opened, products[4] = {x.z0 * y.z0, x.z0 * y.z1, x.z1 * y.z0, x.z1 * y.z1};
    int64_t z0 = 0, z1 = 0;
    for (int k = 0; k < 4; k++) z0 += m[k] * products[k], z1 += m[4 + k] * products[k];
    return lowest(z0, z1);
}

/* Words for two fractions, run in pieces: what is named from each digit written on lies in its closed interval, and the first of them names the exact sum, difference or
   product. Answers how many digits were written. */
static size_t exact(struct system in, struct system out, const int64_t *opened, struct fraction x, struct fraction y, long detail) {
    enum { LENGTH = 40 };
    const struct word xs = word_of(in, x, LENGTH), ys = word_of(in, y, LENGTH);
    struct pair_session s = pair_session(in, out, opened, &xs, &ys);
    for (int calls = 0; calls < 200; calls++) call_two(&s, any(4), any(4), any(4));
    call_two(&s, LENGTH, LENGTH, SPACE);
    check(s.end == SLED_OK || s.end == SLED_END_RANGE_LEFT || (s.end == SLED_END_NO_ROOM && s.written == SPACE), "words of fractions end", (long)s.end);
    struct fraction z = exactly(opened, x, y);
    for (size_t k = 0; k < s.written; k++) {
        const int16_t *row = out.rows + 8 * s.output[k];
        check(in_interval(row, z), "the exact number lies where the digits say", detail);
        z = behind(row, z);
    }
    return s.written;
}

void pair_fractions(void) {
    static const int64_t *const opened[3] = {SUM, DIFFERENCE, PRODUCT};
    const struct system systems[3] = {R, B, D};
    size_t written = 0;
    int before = passed;
    check(exact(D, D, SUM, (struct fraction){1, 3}, (struct fraction){1, 2}, 0) >= 30, "1/3 + 1/2 in D", 0);
    check(exact(R, R, SUM, (struct fraction){22, 7}, (struct fraction){-5, 3}, 0) >= 3, "22/7 - 5/3 in R", 0);
    check(exact(B, B, PRODUCT, (struct fraction){22, 7}, (struct fraction){7, 5}, 0) >= 10, "22/7 times 7/5 in B", 0);
    for (int t = 0; t < 400; t++) {
        struct fraction x = lowest((int64_t)any(199) - 99, 1 + any(99)), y = lowest((int64_t)any(199) - 99, 1 + any(99));
        written += exact(systems[any(3)], systems[any(3)], opened[t % 3], x, y, t);
    }
    counts_as_one(before);
    check(written > 4000, "many digits are given out", (long)written);
}

/* ---- by chance */

/* an opened state, or any small or large numbers; held digits or none; sometimes no turn */
static void some_two_state(int64_t *state) {
    static const int64_t *const opened[3] = {SUM, DIFFERENCE, PRODUCT};
    int64_t scale = any(8) == 0 ? 250000000 : 1;
    memcpy(state, opened[any(3)], sizeof SUM);
    if (any(2) == 0)
        for (int k = 0; k < 8; k++) state[k] = any(3) == 0 ? 0 : ((int)any(9) - 4) * scale + (any(2) == 0 ? (int)any(3) - 1 : 0);
    for (int k = 8; k < 10; k++) state[k] = any(2) == 0 ? -1 : (int)any(7) - 2;
    state[10] = any(12) == 0 ? (int)any(5) - 2 : (int)any(2);
}

static struct two_lengths some_pair(void) {
    struct two_lengths n = {.state = SLED_TWO_STATE, .xs = any(60), .ys = any(60), .output = any(60), .counts = SLED_COUNTS};
    begin_at_random();
    some_system(now.in_columns, &n.in_digits, &n.in_columns);
    some_system(now.out_columns, &n.out_digits, &n.out_columns);
    some_two_state(now.two_state);
    if (any(32) == 0) n.state = any(17);
    if (any(32) == 0) n.counts = any(8);
    uint32_t below = 2 + any(8);
    for (size_t k = 0; k < SPACE; k++) now.input[k] = (uint8_t)any(any(4) == 0 ? below : 3), now.ys[k] = (uint8_t)any(any(4) == 0 ? below : 3);
    ready();
    return n;
}

void random_pairs(int times) {
    int seen[41] = {0}, before = passed;
    for (int t = 0; t < times; t++) {
        struct two_lengths n = some_pair();
        uint32_t end = run_two(n);
        settled(end, plain_two(n), "random run over two words", t);
        if (end <= 40) seen[end]++;
    }
    counts_as_one(before);
    const int numbers[] = {0, 3, 6, 7, 8, 9, 10, 12, 18, 20, 21, 22, 40};
    for (size_t k = 0; k < sizeof numbers / sizeof *numbers; k++) check(seen[numbers[k]] > 0, "random runs over two words meet each number", numbers[k]);
    check(seen[SLED_END_LIST_FULL] == 0, "and never 15", 0);
}

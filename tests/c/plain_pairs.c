/* Runs over two words in plain C, document 02's T-14 to the letter: the same checks in the same order and the same answers as sled_run_two. At each step the greatest common
   divisor of the eight numbers is worked out. Nothing is proved of it. How a system is judged, and greatest common divisors, stand in bench/parts.h. */
#include "parts.h"

u32 plain_run_two(usize ins, const i16 *in_columns, usize in_length, usize outs, const i16 *out_columns, usize out_length, i64 *state, usize state_length, const u8 *xs, usize n,
                  const u8 *ys, usize m, u8 *output, usize room, usize *counts, usize counts_length);

enum { FORM = 8, TWO_STATE = 11 };

struct point {
    i64 z0, z1;
};

static i64 det(struct point x, struct point y) { return x.z0 * y.z1 - x.z1 * y.z0; }

/* the ends of a digit's interval */
static struct point left(const i16 *f) { return (struct point){f[X0], f[X1]}; }
static struct point right(const i16 *f) { return (struct point){f[Y0], f[Y1]}; }

static i64 on_two(const i64 *r, struct point x, struct point y) { return r[0] * x.z0 * y.z0 + r[1] * x.z0 * y.z1 + r[2] * x.z1 * y.z0 + r[3] * x.z1 * y.z1; }

static struct point image(const i64 *s, struct point x, struct point y) { return (struct point){on_two(s, x, y), on_two(s + 4, x, y)}; }

/* "the four images of the pairs of interval ends, written in the two ends of U_c, have coefficients all >= 0 or all <= 0, and no image is (0, 0)". A point z is p l + q r, with
   p = det(z, r) / det(l, r) and q = det(l, z) / det(l, r). */
static int may_give(const struct point *images, const i16 *u) {
    int none_below = 1, none_above = 1;
    for (int k = 0; k < 4; k++) {
        i64 p = -det(images[k], right(u)), q = -det(left(u), images[k]); /* det(l, r) is below 0 */
        if (images[k].z0 == 0 && images[k].z1 == 0) return 0;
        none_below &= p >= 0 && q >= 0;
        none_above &= p <= 0 && q <= 0;
    }
    return none_below || none_above;
}

/* "the smallest such c", or `outs` */
static usize giving(const i64 *s, const i16 *f, const i16 *g, usize outs, const i16 *out_columns) {
    const struct point images[4] = {image(s, left(f), left(g)), image(s, left(f), right(g)), image(s, right(f), left(g)), image(s, right(f), right(g))};
    usize c = 0;
    while (c < outs && !may_give(images, out_columns + c)) c++;
    return c;
}

/* the products: pseudoinverse(G) X; X(F x, y), with x0 and x1 replaced by a x0 + b x1 and c x0 + d x1; and the same of y */
static void given(i64 *z, const i64 *s, const i16 *g) {
    for (int k = 0; k < 4; k++) {
        z[k] = g[D] * s[k] - g[B] * s[4 + k];
        z[4 + k] = g[A] * s[4 + k] - g[C] * s[k];
    }
}

static void into_x(i64 *z, const i64 *s, const i16 *f) {
    for (int r = 0; r < FORM; r += 4)
        for (int k = 0; k < 2; k++) {
            z[r + k] = s[r + k] * f[A] + s[r + 2 + k] * f[C];
            z[r + 2 + k] = s[r + k] * f[B] + s[r + 2 + k] * f[D];
        }
}

static void into_y(i64 *z, const i64 *s, const i16 *f) {
    for (int r = 0; r < FORM; r += 2) {
        z[r] = s[r] * f[A] + s[r + 1] * f[C];
        z[r + 1] = s[r] * f[B] + s[r + 1] * f[D];
    }
}

static u64 divisor(const i64 *s) { return gcd(gcd_of_4(s[0], s[1], s[2], s[3]), gcd_of_4(s[4], s[5], s[6], s[7])); }

static int in_range(const i64 *s) { return within(s[0], s[1], s[2], s[3], RANGE) && within(s[4], s[5], s[6], s[7], RANGE); }

static int held_well(i64 held, usize ins) { return held >= -1 && held < (i64)ins; }

/* the next byte of a word that a missing digit needs: where there is none, or it is no digit, this is the end */
static int loads(i64 *held, const u8 *word, usize length, usize *taken, usize ins, u32 *end) {
    if (*held >= 0) return 1;
    *end = *taken == length ? 0 : 21;
    if (*taken == length || word[*taken] >= ins) return 0;
    *held = word[(*taken)++];
    return 1;
}

u32 plain_run_two(usize ins, const i16 *in_columns, usize in_length, usize outs, const i16 *out_columns, usize out_length, i64 *state, usize state_length, const u8 *xs, usize n,
                  const u8 *ys, usize m, u8 *output, usize room, usize *counts, usize counts_length) {
    if (in_length != COLUMNS || out_length != COLUMNS || state_length != TWO_STATE || counts_length != 3) return 40;
    counts[0] = counts[1] = counts[2] = 0;
    u32 end = system_number(ins, in_columns);
    if (end == 0) end = system_number(outs, out_columns);
    if (end != 0) return end;
    i64 *held_x = state + 8, *held_y = state + 9, *turn = state + 10;
    if (!in_range(state) || divisor(state) != 1 || !held_well(*held_x, ins) || !held_well(*held_y, ins) || (*turn != 0 && *turn != 1)) return 12;
    while (loads(held_x, xs, n, counts, ins, &end) && loads(held_y, ys, m, counts + 1, ins, &end)) {
        i64 z[FORM];
        usize c = giving(state, in_columns + *held_x, in_columns + *held_y, outs, out_columns);
        if (c < outs && counts[2] == room) return 20;
        if (c < outs)
            given(z, state, out_columns + c);
        else if (*turn == 0)
            into_x(z, state, in_columns + *held_x);
        else
            into_y(z, state, in_columns + *held_y);
        i64 g = (i64)divisor(z);
        for (int k = 0; k < FORM; k++) z[k] /= g;
        if (!in_range(z)) return 22;
        for (int k = 0; k < FORM; k++) state[k] = z[k];
        if (c < outs)
            output[counts[2]++] = (u8)c;
        else {
            *(*turn == 0 ? held_x : held_y) = -1;
            *turn = 1 - *turn;
        }
    }
    return end;
}

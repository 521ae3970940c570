/* Plain C that does what the library does: the answers of bench/plain.c, number for number, by shorter ways.

     - What a step cancels divides the determinant of its digit, which is 1 in R and 2 in B: so no divisor of four large numbers is looked for.
     - Whether one interval is included in another is seen from three determinants, not from four.
     - Runs from R to R, and runs to B from any system, have code of their own, in which the system's numbers are constants.

   Nothing is proved of it. bench/run times it beside the library, which shows what being proved costs, and beside plain.c, which shows what the shorter ways gain. */
#include "parts.h"

/* ---- the systems that have code of their own */

enum { R_DIGITS = 4, B_DIGITS = 8 };

static const i16 R_COLUMNS[COLUMNS] = {
    [A] = 1, 1, 1, 1,   [B] = 0, 1, -1, 0,
    [C] = 1, 0, 0, -1,  [D] = 1, 1, 1, 1,
    [X0] = 0, 1, 1, -1, [X1] = 1, 1, 0, 1,
    [Y0] = 1, 1, 1, 0,  [Y1] = 1, 0, -1, 1,
};

static const i16 B_COLUMNS[COLUMNS] = {
    [A] = 1, 1, 2, 2, 2, 2, 1, 1,     [B] = 0, 1, 0, 1, -1, 0, -1, 0,
    [C] = 1, 0, 1, 0, 0, -1, 0, -1,   [D] = 2, 2, 1, 1, 1, 1, 2, 2,
    [X0] = -1, 0, 1, 1, 3, 1, -2, -1, [X1] = 3, 1, 2, 1, 1, 0, 1, 1,
    [Y0] = 1, 2, 1, 3, 1, 1, 0, 1,    [Y1] = 1, 1, 0, -1, -1, -2, 1, 3,
};

static int is(usize digits, const i16 *columns, usize known_digits, const i16 *known) {
    if (digits != known_digits) return 0;
    for (usize column = 0; column < COLUMNS; column += 16)
        for (usize k = 0; k < digits; k++)
            if (columns[column + k] != known[column + k]) return 0;
    return 1;
}

enum way { ANY, R_TO_R, TO_B };

/* Asked once a run, and of the numbers themselves, wherever the caller has them from. A short input is not worth the question. */
static enum way way_of(usize ins, const i16 *in_columns, usize outs, const i16 *out_columns, usize n) {
    if (n < 8) return ANY;
    if (is(outs, out_columns, B_DIGITS, B_COLUMNS)) return TO_B;
    if (is(ins, in_columns, R_DIGITS, R_COLUMNS) && is(outs, out_columns, R_DIGITS, R_COLUMNS)) return R_TO_R;
    return ANY;
}

/* ---- which digit fits */

/* X times the interval of digit `f`: x0 and x1 of its left end, then y0 and y1 of its right end */
static inline void image_of(i64 *w, const i64 *x, const i16 *f) {
    w[0] = x[0] * f[X0] + x[1] * f[X1], w[1] = x[2] * f[X0] + x[3] * f[X1];
    w[2] = x[0] * f[Y0] + x[1] * f[Y1], w[3] = x[2] * f[Y0] + x[3] * f[Y1];
}

/* The interval w, from x to y, is included in that of digit `g`, from u to v. A determinant of two points is below 0 where the second lies ahead of the first, by less than a
   half turn: as y ahead of x, and v ahead of u. Where v lies ahead of x too (q below 0), w is included if u does not lie ahead of x nor y ahead of v. Where q is above 0, x and y
   are taken with the other sign: they are the same points, and all three determinants turn theirs. Where p and s have one sign w is not included: that is asked first, and mostly
   saves q. */
static inline int included(const i64 *w, const i16 *g) {
    i64 u0 = g[X0], u1 = g[X1], v0 = g[Y0], v1 = g[Y1];
    i64 p = w[0] * u1 - w[1] * u0; /* of x and u */
    i64 s = w[2] * v1 - w[3] * v0; /* of y and v */
    if (p < 0) return s >= 0 && w[0] * v1 - w[1] * v0 > 0;
    if (p > 0) return s <= 0 && w[0] * v1 - w[1] * v0 < 0;
    i64 q = w[0] * v1 - w[1] * v0; /* of x and v */
    return q < 0 ? s <= 0 : s >= 0;
}

static inline usize fitting_any(const i64 *w, usize digits, const i16 *columns) {
    usize b = 0;
    while (b < digits && !included(w, columns + b)) b++;
    return b;
}

/* Unrolled, here and in fitting_b, so that the numbers are constants: a product with 0, 1 or -1 is then none. */
static inline usize fitting_r(const i64 *w) {
#pragma unroll
    for (usize b = 0; b < R_DIGITS; b++)
        if (included(w, R_COLUMNS + b)) return b;
    return R_DIGITS;
}

static inline int across(i64 p, i64 q) { return (p < 0) != (q < 0); }

/* Where both numbers of a point change their sign from x to y, w goes over all from 0 to infinity, or from infinity to 0; where their difference and their sum do, over all from
   1 to -1, or from -1 to 1. No interval of B includes any of these four, so such a w need not be held against all eight. From B to B, five of six that fit no digit are such. */
static inline usize fitting_b(const i64 *w) {
    int upright = across(w[0], w[2]) & across(w[1], w[3]);
    int slanted = across(w[0] - w[1], w[2] - w[3]) & across(w[0] + w[1], w[2] + w[3]);
    if (upright | slanted) return B_DIGITS;
#pragma unroll
    for (usize b = 0; b < B_DIGITS; b++)
        if (included(w, B_COLUMNS + b)) return b;
    return B_DIGITS;
}

/* ---- R's digits: a case for each, so that its numbers are constants too. They are 0, 1 and -1, and additions are left of the products. */

static inline void image_r(i64 *w, const i64 *x, i64 digit) {
    switch (digit) {
        case 0: image_of(w, x, R_COLUMNS + 0); break;
        case 1: image_of(w, x, R_COLUMNS + 1); break;
        case 2: image_of(w, x, R_COLUMNS + 2); break;
        default: image_of(w, x, R_COLUMNS + 3);
    }
}

static inline void give_out_r(i64 *z, const i64 *x, usize digit) {
    switch (digit) {
        case 0: give_out(z, x, R_COLUMNS + 0); break;
        case 1: give_out(z, x, R_COLUMNS + 1); break;
        case 2: give_out(z, x, R_COLUMNS + 2); break;
        default: give_out(z, x, R_COLUMNS + 3);
    }
}

static inline void absorb_r(i64 *z, const i64 *x, i64 digit) {
    switch (digit) {
        case 0: absorb(z, x, R_COLUMNS + 0); break;
        case 1: absorb(z, x, R_COLUMNS + 1); break;
        case 2: absorb(z, x, R_COLUMNS + 2); break;
        default: absorb(z, x, R_COLUMNS + 3);
    }
}

/* ---- a step */

/* The smallest digit whose interval includes X times that of the held digit, or `outs` where none does. */
static inline usize fitting(enum way way, const i64 *x, i64 held, const i16 *in_columns, usize outs, const i16 *out_columns) {
    i64 w[4];
    if (way == R_TO_R) {
        image_r(w, x, held);
        return fitting_r(w);
    }
    image_of(w, x, in_columns + held);
    return way == TO_B ? fitting_b(w) : fitting_any(w, outs, out_columns);
}

/* Divides m, a state times the map of digit `f` or its pseudoinverse, by the greatest common divisor of its entries, and answers it. The entries of a state have none but 1: so
   it divides the determinant d. Where d is 1 there is nothing to do, and where it is 2 all four entries are even or not. Else Euclid starts from d, which is small. */
static inline u64 cancel(i64 *m, const i16 *f) {
    i64 d = f[A] * f[D] - f[B] * f[C];
    if (d == 1) return 1;
    if (d == 2) {
        if ((m[0] | m[1] | m[2] | m[3]) & 1) return 1;
        for (int k = 0; k < 4; k++) m[k] >>= 1; /* even numbers: the half is exact, below 0 too */
        return 2;
    }
    u64 g = gcd(magnitude(m[0]), (u64)d);
    if (g == 1) return 1;
    g = gcd(magnitude(m[3]), gcd(magnitude(m[2]), gcd(magnitude(m[1]), g)));
    if (g != 1)
        for (int k = 0; k < 4; k++) m[k] /= (i64)g;
    return g;
}

/* The state z behind a step that gives digit b out. Answers the divisor: in R it is 1, as all determinants are. */
static inline u64 given_out(enum way way, i64 *z, const i64 *x, usize b, const i16 *out_columns) {
    if (way == R_TO_R) {
        give_out_r(z, x, b);
        return 1;
    }
    give_out(z, x, out_columns + b);
    return cancel(z, out_columns + b);
}

/* the same of a step that absorbs the held digit */
static inline u64 absorbed(enum way way, i64 *z, const i64 *x, i64 held, const i16 *in_columns) {
    if (way == R_TO_R) {
        absorb_r(z, x, held);
        return 1;
    }
    absorb(z, x, in_columns + held);
    return cancel(z, in_columns + held);
}

/* ---- a run: as in plain.c, but for the way, and but for the range: as its bound is a constant, each entry is one comparison */

static inline int near(i64 a) { return -RANGE <= a && a <= RANGE; }

static inline u32 steps(usize ins, const i16 *in_columns, usize outs, const i16 *out_columns, i64 *x, const u8 *input, usize n, u8 *output, usize room,
                        u64 *divisors, usize places, usize *counts) {
    enum way way = way_of(ins, in_columns, outs, out_columns, n);
    i64 z[4], held = x[4];
    usize i = 0, o = 0, l = 0;
    u32 end;
    for (;;) {
        if (held < 0) {
            end = 0;
            if (i == n) break;
            end = 21;
            if (input[i] >= ins) break;
            held = input[i++];
        }
        usize b = fitting(way, x, held, in_columns, outs, out_columns);
        end = 20;
        if (b < outs && o == room) break;
        end = 15;
        if (l == places) break;
        u64 divisor = b < outs ? given_out(way, z, x, b, out_columns) : absorbed(way, z, x, held, in_columns);
        end = 22;
        if (!(near(z[0]) & near(z[1]) & near(z[2]) & near(z[3]))) break;
        for (int k = 0; k < 4; k++) x[k] = z[k];
        divisors[l++] = divisor;
        if (b < outs)
            output[o++] = (u8)b;
        else
            held = -1;
    }
    x[4] = held;
    counts[0] = i, counts[1] = o, counts[2] = l;
    return end;
}

u32 same_run(usize ins, const i16 *in_columns, usize in_length, usize outs, const i16 *out_columns, usize out_length, i64 *state, usize state_length,
             const u8 *input, usize n, u8 *output, usize room, u64 *divisors, usize places, usize *counts, usize counts_length) {
    if (in_length != COLUMNS || out_length != COLUMNS || state_length != 5 || counts_length != 3) return 40;
    counts[0] = counts[1] = counts[2] = 0;
    u32 number = run_number(ins, in_columns, outs, out_columns, state);
    if (number != 0) return number;
    i64 x[5];
    for (int k = 0; k < 5; k++) x[k] = state[k];
    u32 end = steps(ins, in_columns, outs, out_columns, x, input, n, output, room, divisors, places, counts);
    for (int k = 0; k < 5; k++) state[k] = x[k];
    return end;
}

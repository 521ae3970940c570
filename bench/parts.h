/* What plain C's two versions of a run have in common, bench/plain.c and bench/same.c: how a system is judged, the products of a step, and what a call does around its steps. */
#include "plain.h"

/* Number j of digit k stands at 16 * j + k. Here is where each column starts; from a digit's a on, its other numbers are as far away. */
enum { A = 0, B = 16, C = 32, D = 48, X0 = 64, X1 = 80, Y0 = 96, Y1 = 112, COLUMNS = 128 };

static inline u64 magnitude(i64 a) { return a < 0 ? 0 - (u64)a : (u64)a; }

static inline u64 gcd(u64 a, u64 b) {
    while (b != 0) {
        u64 r = a % b;
        a = b;
        b = r;
    }
    return a;
}

static inline u64 gcd_of_4(i64 a, i64 b, i64 c, i64 d) {
    u64 f = gcd(magnitude(a), magnitude(b));
    return f == 1 ? 1 : gcd(f, gcd(magnitude(c), magnitude(d)));
}

static inline int within(i64 a, i64 b, i64 c, i64 d, u64 bound) {
    return magnitude(a) <= bound && magnitude(b) <= bound && magnitude(c) <= bound && magnitude(d) <= bound;
}

/* p * q <= 0, by the signs */
static inline int apart(i64 p, i64 q) { return p < 0 ? q >= 0 : p > 0 ? q <= 0 : 1; }

/* ---- admission */

/* of one digit: `f` points at its a */
static inline u32 digit_number(const i16 *f) {
    if (!within(f[A], f[B], f[C], f[D], 100) || !within(f[X0], f[X1], f[Y0], f[Y1], 100)) return 6;
    if (f[A] * f[D] - f[B] * f[C] <= 0) return 7;
    if (f[X0] * f[Y1] - f[X1] * f[Y0] >= 0) return 8;
    if (gcd_of_4(f[A], f[B], f[C], f[D]) != 1) return 9;
    if (gcd(magnitude(f[X0]), magnitude(f[X1])) != 1 || gcd(magnitude(f[Y0]), magnitude(f[Y1])) != 1) return 9;
    return 0;
}

/* some interval, of the digits from one on to another, holds the right end (y0, y1) and does not end there too */
static inline int gone_on(usize from, usize to, const i16 *columns, i64 y0, i64 y1) {
    const i16 *u0 = columns + X0, *u1 = columns + X1, *v0 = columns + Y0, *v1 = columns + Y1;
    for (usize b = from; b < to; b++) {
        i64 s = v0[b] * y1 - v1[b] * y0;
        if (s != 0 && apart(u0[b] * y1 - u1[b] * y0, s)) return 1;
    }
    return 0;
}

/* of one digit: at every point z inside its interval, det F * (z . z) is above Pz . Pz, with P the pseudoinverse of F. Such a z is a mix of the ends x and y with two factors
   of one sign, and the difference of the two sides is a form of three numbers in these factors: it is above 0 at all of them where none of the three is below 0 and not all
   are 0, and else it is not. */
static inline int expands(const i16 *f) {
    i64 a = f[A], b = f[B], c = f[C], d = f[D], det = a * d - b * c;
    i64 x0 = f[X0], x1 = f[X1], y0 = f[Y0], y1 = f[Y1];
    i64 px0 = d * x0 - b * x1, px1 = a * x1 - c * x0; /* Px */
    i64 py0 = d * y0 - b * y1, py1 = a * y1 - c * y0; /* Py */
    i64 of_x = det * (x0 * x0 + x1 * x1) - (px0 * px0 + px1 * px1);
    i64 mixed = det * (x0 * y0 + x1 * y1) - (px0 * py0 + px1 * py1);
    i64 of_y = det * (y0 * y0 + y1 * y1) - (py0 * py0 + py1 * py1);
    return of_x >= 0 && mixed >= 0 && of_y >= 0 && of_x + mixed + of_y > 0;
}

static inline u32 system_number(usize digits, const i16 *columns) {
    if (digits == 0 || digits > 16) return 3;
    for (usize a = 0; a < digits; a++) {
        u32 number = digit_number(columns + a);
        if (number != 0) return number;
    }
    for (usize a = 0; a < digits; a++) { /* the digits behind a first: most systems are written in the order of the line */
        i64 y0 = columns[Y0 + a], y1 = columns[Y1 + a];
        if (!gone_on(a + 1, digits, columns, y0, y1) && !gone_on(0, a, columns, y0, y1)) return 10;
    }
    for (usize a = 0; a < digits; a++)
        if (!expands(columns + a)) return 18;
    return 0;
}

/* ---- the products of a step */

/* giving digit `g` out: its pseudoinverse times X */
static inline void give_out(i64 *z, const i64 *x, const i16 *g) {
    z[0] = g[D] * x[0] - g[B] * x[2];
    z[1] = g[D] * x[1] - g[B] * x[3];
    z[2] = g[A] * x[2] - g[C] * x[0];
    z[3] = g[A] * x[3] - g[C] * x[1];
}

/* absorbing digit `f`: X times its map */
static inline void absorb(i64 *z, const i64 *x, const i16 *f) {
    z[0] = x[0] * f[A] + x[1] * f[C];
    z[1] = x[0] * f[B] + x[1] * f[D];
    z[2] = x[2] * f[A] + x[3] * f[C];
    z[3] = x[2] * f[B] + x[3] * f[D];
}

/* ---- judging */

#define RANGE 1000000000

/* what is judged before any step */
static inline u32 run_number(usize ins, const i16 *in_columns, usize outs, const i16 *out_columns, const i64 *state) {
    u32 number = system_number(ins, in_columns);
    if (number == 0) number = system_number(outs, out_columns);
    if (number != 0) return number;
    if (!within(state[0], state[1], state[2], state[3], RANGE) || state[0] * state[3] - state[1] * state[2] <= 0) return 12;
    if (gcd_of_4(state[0], state[1], state[2], state[3]) != 1 || state[4] < -1 || state[4] >= (i64)ins) return 12;
    return 0;
}

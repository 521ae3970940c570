/* Plain C that does what the library does over two words (document 02, T-14): x + y, x - y and x y. The state is eight numbers, the coefficients of xy, x, y and 1 above and then
   below, the held digit of each word or -1, and whose turn it is. Nothing is proved of it: bench/run times it beside the library.

     - The four images of the pairs of interval ends are formed once for all digits that are tried.
     - What a step cancels divides the determinant of its digit, which is 1 in R and 2 in B and D. */
#include "parts.h"

enum { FORM = 8, TWO_STATE = 11 };

/* ---- products: of both rows, one behind the other */

/* the coefficients as rows of two, from the left by u0 u1 / v0 v1 */
static inline void from_left(i64 *z, const i64 *m, i64 u0, i64 u1, i64 v0, i64 v1) {
    for (int r = 0; r < FORM; r += 4) {
        z[r + 0] = u0 * m[r + 0] + u1 * m[r + 2], z[r + 1] = u0 * m[r + 1] + u1 * m[r + 3];
        z[r + 2] = v0 * m[r + 0] + v1 * m[r + 2], z[r + 3] = v0 * m[r + 1] + v1 * m[r + 3];
    }
}

/* and from the right by a b / c d */
static inline void from_right(i64 *z, const i64 *m, i64 a, i64 b, i64 c, i64 d) {
    for (int r = 0; r < FORM; r += 2) {
        i64 p = m[r], q = m[r + 1];
        z[r] = p * a + q * c, z[r + 1] = p * b + q * d;
    }
}

static inline void given_two(i64 *z, const i64 *m, const i16 *g) {
    for (int k = 0; k < 4; k++) {
        z[k] = g[D] * m[k] - g[B] * m[4 + k];
        z[4 + k] = g[A] * m[4 + k] - g[C] * m[k];
    }
}

/* Divides the eight numbers by their greatest common divisor, which divides d: as `cancel` of bench/same.c does with four. */
static inline void cancel_two(i64 *m, const i16 *f) {
    i64 d = f[A] * f[D] - f[B] * f[C];
    if (d == 1) return;
    if (d == 2) {
        if ((m[0] | m[1] | m[2] | m[3] | m[4] | m[5] | m[6] | m[7]) & 1) return;
        for (int k = 0; k < FORM; k++) m[k] >>= 1;
        return;
    }
    u64 g = (u64)d;
    for (int k = 0; k < FORM && g != 1; k++) g = gcd(magnitude(m[k]), g);
    if (g != 1)
        for (int k = 0; k < FORM; k++) m[k] /= (i64)g;
}

/* ---- which digit may be given out */

/* the coefficients of an image in the ends of an interval, times the determinant of the ends, are both not below 0 (1), both not above 0 (2), all 0 (3), or neither (0) */
static inline int sides(i64 z0, i64 z1, const i16 *g) {
    i64 p = z0 * g[Y1] - z1 * g[Y0], q = g[X0] * z1 - g[X1] * z0;
    return ((p >= 0) & (q >= 0)) | (((p <= 0) & (q <= 0)) << 1);
}

static inline usize giving(const i64 *m, const i16 *a, const i16 *b, usize outs, const i16 *out_columns) {
    i64 half[FORM], z[FORM];
    from_left(half, m, a[X0], a[X1], a[Y0], a[Y1]);
    from_right(z, half, b[X0], b[Y0], b[X1], b[Y1]);
    if (((z[0] | z[4]) == 0) | ((z[1] | z[5]) == 0) | ((z[2] | z[6]) == 0) | ((z[3] | z[7]) == 0)) return outs;
    for (usize c = 0; c < outs; c++) {
        const i16 *g = out_columns + c;
        int side = sides(z[0], z[4], g);
        if (side != 0 && (side & sides(z[1], z[5], g) & sides(z[2], z[6], g) & sides(z[3], z[7], g)) != 0) return c;
    }
    return outs;
}

/* ---- a run */

static inline int near_two(const i64 *m) {
    int near = 1;
    for (int k = 0; k < FORM; k++) near &= -RANGE <= m[k] && m[k] <= RANGE;
    return near;
}

static u32 two_number(usize ins, const i16 *in_columns, usize outs, const i16 *out_columns, const i64 *s) {
    u32 number = system_number(ins, in_columns);
    if (number == 0) number = system_number(outs, out_columns);
    if (number != 0) return number;
    if (!near_two(s) || gcd(gcd_of_4(s[0], s[1], s[2], s[3]), gcd_of_4(s[4], s[5], s[6], s[7])) != 1) return 12;
    for (int k = 8; k < 10; k++)
        if (s[k] < -1 || s[k] >= (i64)ins) return 12;
    return s[10] == 0 || s[10] == 1 ? 0 : 12;
}

/* one step behind the loads: the new numbers in z, or an end */
static inline u32 two_steps(usize ins, const i16 *in_columns, usize outs, const i16 *out_columns, i64 *s, const u8 *xs, usize n, const u8 *ys, usize m, u8 *output, usize room,
                            usize *counts) {
    i64 z[FORM], a = s[8], b = s[9], turn = s[10];
    usize i = 0, j = 0, o = 0;
    u32 end;
    for (;;) {
        if (a < 0) {
            end = 0;
            if (i == n) break;
            end = 21;
            if (xs[i] >= ins) break;
            a = xs[i++];
        }
        if (b < 0) {
            end = 0;
            if (j == m) break;
            end = 21;
            if (ys[j] >= ins) break;
            b = ys[j++];
        }
        usize c = giving(s, in_columns + a, in_columns + b, outs, out_columns);
        end = 20;
        if (c < outs && o == room) break;
        const i16 *f = c < outs ? out_columns + c : in_columns + (turn == 0 ? a : b);
        if (c < outs)
            given_two(z, s, f);
        else if (turn == 0)
            from_left(z, s, f[A], f[C], f[B], f[D]);
        else
            from_right(z, s, f[A], f[B], f[C], f[D]);
        cancel_two(z, f);
        end = 22;
        if (!near_two(z)) break;
        for (int k = 0; k < FORM; k++) s[k] = z[k];
        if (c < outs)
            output[o++] = (u8)c;
        else if (turn == 0)
            a = -1, turn = 1;
        else
            b = -1, turn = 0;
    }
    s[8] = a, s[9] = b, s[10] = turn;
    counts[0] = i, counts[1] = j, counts[2] = o;
    return end;
}

u32 same_run_two(usize ins, const i16 *in_columns, usize in_length, usize outs, const i16 *out_columns, usize out_length, i64 *state, usize state_length, const u8 *xs, usize n,
                 const u8 *ys, usize m, u8 *output, usize room, usize *counts, usize counts_length) {
    if (in_length != COLUMNS || out_length != COLUMNS || state_length != TWO_STATE || counts_length != 3) return 40;
    counts[0] = counts[1] = counts[2] = 0;
    u32 number = two_number(ins, in_columns, outs, out_columns, state);
    if (number != 0) return number;
    i64 s[TWO_STATE];
    for (int k = 0; k < TWO_STATE; k++) s[k] = state[k];
    u32 end = two_steps(ins, in_columns, outs, out_columns, s, xs, n, ys, m, output, room, counts);
    for (int k = 0; k < TWO_STATE; k++) state[k] = s[k];
    return end;
}

/* The algorithm of document 01 in plain C, to the letter, as a C author would write it by hand: the same checks in the same order and the same answers as sled_admit and
   sled_run. At each step the greatest common divisor of the four entries is worked out. Nothing is proved of it. What bench/same.c needs too stands in parts.h: how a system
   is judged, and the products. bench/run times it beside the library and holds their answers against each other. */
#include "parts.h"

u32 plain_admit(usize digits, const i16 *columns, usize length) {
    if (length != COLUMNS) return 40;
    return system_number(digits, columns);
}

/* the interval from x to y is included in the one from u to v */
static inline int included(i64 x0, i64 x1, i64 y0, i64 y1, i64 u0, i64 u1, i64 v0, i64 v1) {
    i64 p = x0 * u1 - x1 * u0;
    i64 q = x0 * v1 - x1 * v0;
    if (!apart(p, q)) return 0;
    i64 r = y0 * u1 - y1 * u0;
    i64 s = y0 * v1 - y1 * v0;
    if (!apart(r, s)) return 0;
    if (p == 0 && s == 0) return 1;
    return !(apart(p, r) && apart(q, s));
}

/* The smallest digit whose interval includes X times that of the held digit `f`, or `digits` where none does. Of the output system it reads the four columns of W alone. */
static inline usize fitting(const i64 *x, const i16 *f, usize digits, const i16 *columns) {
    const i16 *u0 = columns + X0, *u1 = columns + X1, *v0 = columns + Y0, *v1 = columns + Y1;
    i64 x0 = x[0] * f[X0] + x[1] * f[X1], x1 = x[2] * f[X0] + x[3] * f[X1];
    i64 y0 = x[0] * f[Y0] + x[1] * f[Y1], y1 = x[2] * f[Y0] + x[3] * f[Y1];
    usize b = 0;
    while (b < digits && !included(x0, x1, y0, y1, u0[b], u1[b], v0[b], v1[b])) b++;
    return b;
}

/* answers the divisor */
static inline u64 cancel(i64 *m) {
    u64 g = gcd_of_4(m[0], m[1], m[2], m[3]);
    if (g != 1)
        for (int k = 0; k < 4; k++) m[k] /= (i64)g;
    return g;
}

/* The steps, until one stops. The state x is a copy that is lent to nobody else, so that no write to the output or the list can change it, and it may stay in registers. */
static inline u32 steps(usize ins, const i16 *in_columns, usize outs, const i16 *out_columns, i64 *x, const u8 *input, usize n, u8 *output, usize room,
                        u64 *divisors, usize places, usize *counts) {
    i64 z[4], held = x[4];
    usize i = 0, o = 0, l = 0;
    u32 end;
    for (;;) {
        if (held < 0) {
            end = 0;
            if (i == n) break;
            end = 21;
            if (input[i] >= ins) break;
            held = input[i++];
        }
        usize b = fitting(x, in_columns + held, outs, out_columns);
        end = 20;
        if (b < outs && o == room) break;
        end = 15;
        if (l == places) break;
        if (b < outs)
            give_out(z, x, out_columns + b);
        else
            absorb(z, x, in_columns + held);
        u64 divisor = cancel(z);
        end = 22;
        if (!within(z[0], z[1], z[2], z[3], RANGE)) break;
        for (int k = 0; k < 4; k++) x[k] = z[k];
        divisors[l++] = divisor;
        if (b < outs)
            output[o++] = (u8)b;
        else
            held = -1;
    }
    x[4] = held;
    counts[0] = i, counts[1] = o, counts[2] = l;
    return end;
}

u32 plain_run(usize ins, const i16 *in_columns, usize in_length, usize outs, const i16 *out_columns, usize out_length, i64 *state, usize state_length,
              const u8 *input, usize n, u8 *output, usize room, u64 *divisors, usize places, usize *counts, usize counts_length) {
    if (in_length != COLUMNS || out_length != COLUMNS || state_length != 5 || counts_length != 3) return 40;
    counts[0] = counts[1] = counts[2] = 0;
    u32 number = run_number(ins, in_columns, outs, out_columns, state);
    if (number != 0) return number;
    i64 x[5];
    for (int k = 0; k < 5; k++) x[k] = state[k];
    u32 end = steps(ins, in_columns, outs, out_columns, x, input, n, output, room, divisors, places, counts);
    for (int k = 0; k < 5; k++) state[k] = x[k];
    return end;
}

"""Documents 01 and 02 in Python: points, inclusion, expanding, which systems are admitted, opening, and the run with its list. It knows nothing of the library, and decides in another way:
inclusion and cover by trying one point between every two neighbouring ends, and expanding by the least value of a polynomial, and not by the library's tests.

A system is its count and its 128 numbers by rows, a state is a matrix and the held digit or None, a word is a list of bytes.
"""
from fractions import Fraction
from functools import cmp_to_key
from math import gcd

LIMIT = 1000000000


def det(x, y):
    return x[0] * y[1] - x[1] * y[0]


def inside(w, z):
    return det(w[:2], z) * det(z, w[2:]) > 0


def in_closed(w, z):
    return det(w[:2], z) * det(z, w[2:]) >= 0


def half(z):
    """The same point with its lower number above 0, or 1/0."""
    return (1, 0) if z[1] == 0 else (z if z[1] > 0 else (-z[0], -z[1]))


def between(intervals):
    """One point between every two neighbouring ends, round the whole circle."""
    ends = {}
    for w in intervals:
        for z in (w[:2], w[2:]):
            a, b = half(z)
            g = gcd(a, b)
            ends[(a // g, b // g)] = True
    finite = sorted((e for e in ends if e[1]), key=cmp_to_key(lambda x, y: det(x, y)))
    points = [(x[0] + y[0], x[1] + y[1]) for x, y in zip(finite, finite[1:])]
    points += [(finite[0][0] - finite[0][1], finite[0][1]), (finite[-1][0] + finite[-1][1], finite[-1][1])]
    return points


def included(i, j):
    # Between two neighbouring ends every point has the same answers; of the ends themselves only those of J can lie inside I.
    tried = between([i, j, (0, 1, 1, 0)]) + [j[:2], j[2:], (0, 1), (1, 0)]
    return all(inside(j, z) for z in tried if inside(i, z))


def expands(r):
    """At every point z inside W, "det F·(z0² + z1²) is greater than the squared length of pseudoinverse(F)·z". The points inside W are those between the left end, t = 0,
    and the right end, t = 1, on a straight line; along it the difference of the two sides is a polynomial in t of degree 2 at most, which three of its values fix."""
    a, b, c, d, x0, x1, y0, y1 = r

    def difference(t):
        z0, z1 = x0 + t * (y0 - x0), x1 + t * (y1 - x1)
        return (a * d - b * c) * (z0 * z0 + z1 * z1) - ((d * z0 - b * z1) ** 2 + (a * z1 - c * z0) ** 2)

    at_0, middle, at_1 = difference(0), difference(Fraction(1, 2)), difference(1)
    square, line = 2 * (at_0 - 2 * middle + at_1), 4 * middle - 3 * at_0 - at_1
    # Where it turns between the ends, it may have its least value. Else that is at an end, which is not inside: it may be 0 there; the middle tells if it is 0 all along.
    turns = Fraction(-line, 2 * square) if square else 0
    return at_0 >= 0 and at_1 >= 0 and all(difference(t) > 0 for t in (Fraction(1, 2), turns) if 0 < t < 1)


def admit(s):
    count, rows = s
    if not 1 <= count <= 16:
        return 3
    rows = [rows[8 * a:8 * a + 8] for a in range(count)]
    for r in rows:
        f, w = r[:4], r[4:]
        if any(abs(n) > 100 for n in r):
            return 6
        if f[0] * f[3] - f[1] * f[2] <= 0:
            return 7
        if w[0] * w[3] - w[1] * w[2] >= 0:
            return 8
        if gcd(*f) != 1 or gcd(*w[:2]) != 1 or gcd(*w[2:]) != 1:
            return 9
    walls = [r[4:] for r in rows]
    if not all(any(in_closed(w, z) for w in walls) for z in between(walls + [[0, 1, 1, 0]])):
        return 10
    return 0 if all(expands(r) for r in rows) else 18


def times(m, n):
    return [m[0] * n[0] + m[1] * n[2], m[0] * n[1] + m[1] * n[3], m[2] * n[0] + m[3] * n[2], m[2] * n[1] + m[3] * n[3]]


def cancel(m):
    """The matrix cancelled, and the divisor: "divide it by the greatest common divisor of the four entries. Signs stay." """
    g = gcd(*m)
    return [(abs(n) // g) * (1 if n > 0 else -1) for n in m], g


def fits(m):
    return all(abs(n) <= LIMIT for n in m)


def open_(m):
    if any(abs(n) > 1000 for n in m):
        return 6, ([0] * 4, None)
    if m[0] * m[3] - m[1] * m[2] <= 0:
        return 11, ([0] * 4, None)
    return 0, (cancel(m)[0], None)


def run(ins, outs, state, word, out, divisors):
    """The end, the bytes taken, the digits written, the numbers listed and the state; out and divisors are changed in place."""
    x, held = state
    bad = admit(ins) or admit(outs)
    if not bad and not (fits(x) and x[0] * x[3] - x[1] * x[2] > 0 and gcd(*x) == 1 and (held is None or held < ins[0])):
        bad = 12
    if bad:
        return bad, 0, 0, 0, state
    taken = written = listed = 0
    while True:
        if held is None:
            if taken == len(word):
                return 0, taken, written, listed, (x, held)
            if word[taken] >= ins[0]:
                return 21, taken, written, listed, (x, held)
            held = word[taken]
            taken += 1
            continue
        row = ins[1][8 * held:8 * held + 8]
        image = [x[0] * row[4] + x[1] * row[5], x[2] * row[4] + x[3] * row[5], x[0] * row[6] + x[1] * row[7], x[2] * row[6] + x[3] * row[7]]
        digit = next((b for b in range(outs[0]) if included(image, outs[1][8 * b + 4:8 * b + 8])), None)
        if digit is None:
            (y, divisor), then = cancel(times(x, row[:4])), None
        else:
            g = outs[1][8 * digit:8 * digit + 4]
            (y, divisor), then = cancel(times([g[3], -g[1], -g[2], g[0]], x)), held
        # "15, the list is full, in steps 4 and 5, after 20 and before 22"
        stop = 20 if digit is not None and written == len(out) else 15 if listed == len(divisors) else 0 if fits(y) else 22
        if stop:
            return stop, taken, written, listed, (x, held)
        divisors[listed] = divisor
        listed += 1
        if digit is not None:
            out[written] = digit
            written += 1
        x, held = y, then

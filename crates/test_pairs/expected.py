#!/usr/bin/env python3
"""Stored cases of runs over two words (document 02, T-14), with the answers that documents 01 and 02 give.

  crates/test_pairs/expected.py            writes stdin (the cases, each after its length) and stdout (what must be printed) beside this file
  crates/test_pairs/expected.py --check    says whether the two files are what it would write

A case is an operation or a state, two systems, two words, two rooms and how many bytes of each word the first call gets. Three lines are printed of it: the first call, the second
with what the first did not take, and one call with everything.
"""
import os, struct, sys
from functools import reduce
from math import gcd

here = os.path.dirname(os.path.abspath(__file__))
sys.dont_write_bytecode = True
sys.path.insert(0, os.path.join(here, '..', 'test_cases'))
import stored

SYSTEMS = {
    'R': [[1, 0, 1, 1, 0, 1, 1, 1], [1, 1, 0, 1, 1, 1, 1, 0], [1, -1, 0, 1, 1, 0, 1, -1], [1, 0, -1, 1, -1, 1, 0, 1]],
    'B': [[1, 0, 1, 2, -1, 3, 1, 1], [1, 1, 0, 2, 0, 1, 2, 1], [2, 0, 1, 1, 1, 2, 1, 0], [2, 1, 0, 1, 1, 1, 3, -1],
          [2, -1, 0, 1, 3, 1, 1, -1], [2, 0, -1, 1, 1, 0, 1, -2], [1, -1, 0, 2, -2, 1, 0, 1], [1, 0, -1, 2, -1, 1, 1, 3]],
    'D': [[1, -1, 0, 2, -2, 1, 0, 1], [1, 0, 0, 2, -1, 2, 1, 2], [1, 1, 0, 2, 0, 1, 2, 1], [2, 0, 0, 1, 3, 2, 3, -2]],
}
OPENED = {'+': [0, 1, 1, 0, 0, 0, 0, 1], '-': [0, 1, -1, 0, 0, 0, 0, 1], '*': [1, 0, 0, 0, 0, 0, 0, 1]}
RANGE = 1000000000


def start(begin):
    return OPENED[begin] + [-1, -1, 0] if isinstance(begin, str) else list(begin)


def refused(state, digits):
    """12: "all 0, not cancelled, out of range or holds a number that is no digit of the system", and a turn that is neither 0 nor 1."""
    x, held, turn = state[:8], state[8:10], state[10]
    return reduce(gcd, x) != 1 or not in_range(x) or not all(-1 <= h < digits for h in held) or turn not in (0, 1)


def in_range(x):
    return all(abs(n) <= RANGE for n in x)


def cancelled(x):
    g = reduce(gcd, x)
    return [n // g for n in x]


def on(x, p, q):
    """X(p, q) of two points."""
    terms = [p[0] * q[0], p[0] * q[1], p[1] * q[0], p[1] * q[1]]
    return tuple(sum(a * t for a, t in zip(row, terms)) for row in (x[:4], x[4:]))


def with_map(x, f, which):
    """X(F x, y), or X(x, F y): its columns are what X makes of the pairs of columns of the map and of 1 0 0 1."""
    maps = [[1, 0, 0, 1], [1, 0, 0, 1]]
    maps[which] = f
    columns = [on(x, p, q) for p in ((maps[0][0], maps[0][2]), (maps[0][1], maps[0][3])) for q in ((maps[1][0], maps[1][2]), (maps[1][1], maps[1][3]))]
    return [c[0] for c in columns] + [c[1] for c in columns]


def may_be_given(images, u):
    l0, l1, r0, r1 = u
    coefficients = [n for z0, z1 in images for n in (z0 * r1 - z1 * r0, l0 * z1 - l1 * z0)]
    return (0, 0) not in images and (min(coefficients) >= 0 or max(coefficients) <= 0)


def run(ins, outs, state, words, room):
    """The end, what was taken of each word, the digits, and the state."""
    if refused(state, len(ins)):
        return 12, [0, 0], [], state
    x, held, turn, taken, digits = state[:8], state[8:10], state[10], [0, 0], []
    while True:
        stop = lambda end: (end, taken, digits, x + held + [turn])
        missing = [w for w in (0, 1) if held[w] < 0]
        if missing:
            w = missing[0]
            if taken[w] == len(words[w]):
                return stop(0)
            if words[w][taken[w]] >= len(ins):
                return stop(21)
            held[w] = words[w][taken[w]]
            taken[w] += 1
            continue
        v, w = ins[held[0]][4:], ins[held[1]][4:]
        images = [on(x, p, q) for p in (v[:2], v[2:]) for q in (w[:2], w[2:])]
        c = next((c for c, row in enumerate(outs) if may_be_given(images, row[4:])), None)
        if c is not None and len(digits) == room:
            return stop(20)
        if c is not None:
            a, b, c_, d = outs[c][:4]
            new = cancelled([d * x[k] - b * x[4 + k] for k in range(4)] + [a * x[4 + k] - c_ * x[k] for k in range(4)])
        else:
            new = cancelled(with_map(x, ins[held[turn]][:4], turn))
        if not in_range(new):
            return stop(22)
        x = new
        if c is not None:
            digits.append(c)
        else:
            held[turn], turn = -1, 1 - turn


def line(answer, room):
    end, taken, digits, state = answer
    fields = [end] + taken + [len(digits), '|'] + state + ['|'] + digits + [238] * (room - len(digits))
    return ' '.join(str(f) for f in fields) + '\n'


def lines(begin, a, b, xs, ys, room, more, i, j):
    ins, outs = SYSTEMS[a], SYSTEMS[b]
    first = run(ins, outs, start(begin), (xs[:i], ys[:j]), room)
    left = room - len(first[2]) + more
    second = run(ins, outs, first[3], (xs[first[1][0]:], ys[first[1][1]:]), left)
    whole = run(ins, outs, start(begin), (xs, ys), room + more)
    return line(first, room) + line(second, left) + line(whole, room + more)


def case(begin, a, b, xs, ys, room, more, i, j):
    state = begin.encode() if isinstance(begin, str) else b's' + struct.pack('<11q', *begin)
    words = b''.join(struct.pack('<H', len(w)) + bytes(w) for w in (xs, ys))
    body = state + a.encode() + b.encode() + words + struct.pack('<4H', room, more, i, j)
    return struct.pack('<I', len(body)) + body


HALF, THIRD = [1, 2] + [1] * 10, [2, 0] * 6        # of D: 1/2 (0 behind two digits) and 1/3
CASES = [
    ('+', 'D', 'D', HALF, THIRD, 16, 0, 12, 12),   # 1/2 + 1/3
    ('+', 'D', 'B', HALF, THIRD, 3, 13, 5, 7),     # the same on B, cut in both words and in the room
    ('*', 'B', 'B', [1, 2, 0, 7, 6, 3], [2, 2, 1, 0, 4, 5], 16, 0, 6, 6),
    ('-', 'R', 'R', [0, 1, 1, 0, 1, 0], [0, 1, 1, 0, 1, 0], 8, 8, 3, 3),   # x − x never gives a digit out
    ('-', 'D', 'B', THIRD, HALF, 16, 0, 4, 12),
    ('+', 'R', 'R', [0, 1], [0, 9, 1], 8, 0, 2, 3),                # 21, of y
    ('+', 'R', 'R', [4], [9], 8, 0, 1, 1),                         # 21, of x, and y is not looked at
    ('+', 'R', 'R', [], [9], 8, 0, 0, 1),                          # 0: x is used up
    ('*', 'D', 'D', [1, 1, 1], [1, 1, 1], 0, 4, 3, 3),             # 20
    ([0, 1, 1, 0, 0, 0, 0, RANGE, 2, 1, 1], 'B', 'B', [1], [1], 4, 0, 1, 1),      # 22
    ([1, 0, 0, 0, 0, 0, 1, 0, -1, 2, 1], 'R', 'R', [1, 0], [1], 4, 0, 1, 1),      # x/y with y held: an image may be (0, 0)
    ([0] * 8 + [-1, -1, 0], 'R', 'R', [0], [0], 4, 0, 1, 1),                      # 12: all 0
    ([0, 2, 2, 0, 0, 0, 0, 2, -1, -1, 0], 'R', 'R', [0], [0], 4, 0, 1, 1),        # not cancelled
    ([0, 2, 2, 0, 0, 0, 0, 3, -1, -1, 0], 'R', 'R', [0], [0], 4, 0, 1, 1),        # cancelled, though each row has a divisor
    ([0, 1, 1, 0, 0, 0, 0, RANGE + 1, -1, -1, 0], 'R', 'R', [0], [0], 4, 0, 1, 1),
    ([0, 1, 1, 0, 0, 0, 0, 1, 4, -1, 0], 'R', 'R', [0], [0], 4, 0, 1, 1),
    ([0, 1, 1, 0, 0, 0, 0, 1, -1, -2, 0], 'R', 'R', [0], [0], 4, 0, 1, 1),
    ([0, 1, 1, 0, 0, 0, 0, 1, -1, -1, 2], 'R', 'R', [0], [0], 4, 0, 1, 1),
    ([0, 1, 1, 0, 0, 0, 0, 1, -1, -1, -1], 'R', 'R', [0], [0], 4, 0, 1, 1),
]

stored.keep(here, b''.join(case(*c) for c in CASES), ''.join(lines(*c) for c in CASES).encode(), len(CASES))

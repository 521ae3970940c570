#!/usr/bin/env python3
"""Stored cases of writing job files (document 02, T-01), with the lines that the documents give. Systems are judged by crates/test_cases/rules.py, which knows document 01 and
nothing of the library; the bytes are packed here.

  crates/test_writing/expected.py            writes stdin (the cases, each after its length) and stdout (what must be printed) beside this file
  crates/test_writing/expected.py --check    says whether the two files are what it would write
"""
import os, struct, sys

here = os.path.dirname(os.path.abspath(__file__))
sys.dont_write_bytecode = True
sys.path.insert(0, os.path.join(here, '..', 'test_cases'))
import rules, stored

R = [[1, 0, 1, 1, 0, 1, 1, 1], [1, 1, 0, 1, 1, 1, 1, 0], [1, -1, 0, 1, 1, 0, 1, -1], [1, 0, -1, 1, -1, 1, 0, 1]]
D = [[1, -1, 0, 2, -2, 1, 0, 1], [1, 0, 0, 2, -1, 2, 1, 2], [1, 1, 0, 2, 0, 1, 2, 1], [2, 0, 0, 1, 3, 2, 3, -2]]
IDENTITIES = [[1, 0, 0, 1, 0, 1, 1, 0], [1, 0, 0, 1, 1, 0, 0, -1]]
M, EXACT = [2, 1, 1, 2], None
BEFORE = 238                                                  # every byte of a buffer, before the call


def system(rows, count=None, unused=0):
    """A count and sixteen rows; the places of digits that a system hasn't got may hold anything."""
    return (len(rows) if count is None else count, (rows + [[unused] * 8] * 16)[:16])


def refusal(a, b, m, w, room):
    """"Refusals: those of the reader for the same contents, in its order; then 14, buffer too short": number and section."""
    for section, (count, rows) in enumerate((a, b)):
        number = rules.admit((count, sum(rows, [])))
        if number:
            return number, section
    if any(abs(n) > 1000 for n in m):
        return 6, 2
    if m[0] * m[3] - m[1] * m[2] <= 0:
        return 11, 2
    if len(w) > 4096:
        return 5, 3
    return (14, 0) if room is not EXACT and room < len(file(a, b, m, w)) else (0, 0)


def file(a, b, m, w):
    bytes_of = lambda count, rows: struct.pack('<H%dh' % (8 * count), count, *sum(rows[:count], []))
    return bytes_of(*a) + bytes_of(*b) + struct.pack('<H4h', 4, *m) + struct.pack('<H', len(w)) + bytes(w)


def line(a, b, m, w, room):
    number, section = refusal(a, b, m, w, room)
    made = b'' if number else file(a, b, m, w)
    rest = 0 if room is EXACT else room - len(made)
    return ' '.join(map(str, [number, section, len(made), '|', *made, *[BEFORE] * rest])) + '\n'


def case(a, b, m, w, room):
    columns = lambda count, rows: b'S' + struct.pack('<Q128h', count, *[rows[k][j] for j in range(8) for k in range(16)])
    room = len(file(a, b, m, w)) if room is EXACT else room
    body = columns(*a) + columns(*b) + struct.pack('<4q', *m) + struct.pack('<H', len(w)) + bytes(w) + struct.pack('<H', room)
    return struct.pack('<I', len(body)) + body


r, d, junk = system(R), system(D), system(R, unused=-77)
gap, flat, still = system(R[:3]), system([[0] + R[0][1:]] + R[1:]), system(IDENTITIES)
CASES = [
    (r, r, M, [0, 0, 1], EXACT), (r, r, M, [0, 0, 1], 150), (r, r, M, [0, 0, 1], 146), (r, r, M, [0, 0, 1], 0),       # document 01's job
    (junk, r, M, [0, 0, 1], EXACT), (d, junk, [3, -1, 0, 1], [2, 0, 255], 200),                                      # unused places may hold anything
    (system(R * 4), d, [-1000, 1000, -1000, -1000], [], EXACT), (r, r, M, [7] * 4096, 4300), (r, r, M, [7] * 4097, 4300),
    (system(R, 0), gap, M, [], 9), (system(R, 17), r, M, [], 9), (system(R, 65540), r, M, [], 9), (system(R, 2 ** 64 - 1), r, M, [], 9),   # 3
    (r, gap, [1, 1, 1, 1], [0] * 4097, 4), (flat, gap, M, [], 4), (r, flat, M, [], 4), (still, gap, M, [], 4), (r, still, [1001, 0, 0, 1], [], 4),
    (r, r, [1001, 0, 0, 1], [0] * 4097, 4), (r, r, [65537, 0, 0, 1], [], 4), (r, r, [-2 ** 63, 0, 0, 2 ** 63 - 1], [], 4), (r, r, [0, 0, 1001, 0], [], 4),
    (r, r, [1, 1, 1, 1], [], 0), (r, r, [1, 2, 2, 1], [0] * 4097, 0),                                                # 11 before 14, and before 5
]

stored.keep(here, b''.join(case(*c) for c in CASES), ''.join(line(*c) for c in CASES).encode(), len(CASES))

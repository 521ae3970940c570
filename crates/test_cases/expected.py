#!/usr/bin/env python3
"""The stored cases of the program `test_cases`, and the lines that it must print, from documents 01 and 02 alone and in another way than the library's (rules.py).

  crates/test_cases/expected.py            writes stdin (the cases) and stdout (what must be printed) beside this file
  crates/test_cases/expected.py --check    says whether the two files are what it would write

The cases, one row each, are below, those about the list of divisors in listing.py, those about expanding in expanding.py, and those about a system by rows and by columns in
turning.py. What kinds of case there are, and how each is written to stdin, is in kinds.py; what is handed in is in handed_in.py; how the two files are kept is in stored.py.
"""
import os, sys

# Else Python would keep the files that are imported below, compiled, in a folder __pycache__ beside them: a run is to leave nothing in the repository.
sys.dont_write_bytecode = True

from expanding import expanding, expanding_last
from handed_in import b, bare, counted, d, filled, holding, hundred, i, job, opened, put, r
from kinds import admitted, case, case_r, cuts, lines, opening, places, stdin
from listing import divisors, lengths, orders_of_15
from rules import LIMIT
from stored import keep
from turning import orders


def runs():
    case('B to B', b, b, opened(1, 0, 0, 1), [1], 8)
    case('B to D', b, d, opened(5, -2, 1, 3), [0, 7, 3, 1, 6, 2], 8)
    case('D to B', d, b, opened(-7, 2, -3, -1), [3, 3, 1, 0, 2, 1], 8)
    case('R to B', r, b, opened(1, 0, 0, 1000), [2, 2, 3, 2, 3, 3], 8)
    case('D to R', d, r, opened(1, 2, -1, 3), [1, 2, 2, 0], 8)
    # B seen through its own turn: each digit comes out two on, back, or half round, counting modulo 8, and the state is what it was.
    for label, m in (('turned', (1, 1, -1, 1)), ('turned back', (1, -1, 1, 1)), ('turned half round', (0, -1, 1, 0))):
        case(f'B to B, {label}', b, b, opened(*m), range(8), 8)
    for n in (40, 31, 30, 29, 28, 0):
        case(f'D to R, {n or "no"} digits', d, r, opened(3, -1, 0, 1), ([2, 0] * 20)[:n], 4)
    admitted('identities', i)
    for n in (0, 1, 5):
        case(f'identities, room {n}', i, i, opened(1, 0, 0, 1), [0], n)
    case('identities, digit 1', i, i, opened(1, 0, 0, 1), [1, 0], 2)
    admitted('a hundred zeros', hundred)
    for n in (0, 1, 5):
        case(f'a hundred zeros, room {n}', hundred, r, opened(1, 0, 0, 1), [4], n)
    case('a hundred zeros, a digit behind', hundred, r, opened(1, 0, 0, 1), [4, 1], 2)
    case('a hundred zeros to themselves', hundred, hundred, opened(1, 0, 0, 1), [4], 5)
    case('R to a hundred zeros', r, hundred, job, [0, 0, 1], 4)
    for n in range(5):
        case_r(f'R to R, room {n}', job, [0, 0, 1], n)
    case_r('byte 4 first', job, [4, 0, 1], 4)
    case_r('byte 4 second', job, [0, 4, 1], 4)
    case_r('byte 255 last', job, [0, 0, 255], 4)
    case_r('byte 4, room 0', job, [4], 0)
    case('byte 7 of B', b, r, job, [7], 4)
    case('byte 8 of B', b, r, job, [8], 4)
    for m in ([2, 0, 0, 2], [-4, 6, -8, -10], [1, 2, 2, 1], [1, 1, 1, 1], [0, 0, 0, 0], [1000, 0, 0, 1], [1001, 0, 0, 1], [-1000, 1000, -1000, -1000],
              [1, -1001, 1, 1], [1, 0, 0, 2**63 - 1], [-2**63, 0, 0, -1]):
        opening(*m)


def sessions():
    s = case_r('R to R, room 1', job, [0, 0, 1], 1)
    s = case_r('no more room', s, [0, 1], 0)
    s = case_r('room 1 more', s, [0, 1], 1)
    case_r('room 2 more', s, [], 2)
    s = case_r('R to R, no input', job, [], 4)
    s = case_r('input 0', s, [0], 4)
    s = case_r('input 0 1 4 2', s, [0, 1, 4, 2], 4)
    case_r('behind the byte 4', s, [2, 3, 2], 4)
    case_r('again', case_r('end 0', job, [0], 4), [], 2)
    case_r('again', case_r('end 20', job, [0, 0, 1], 2), [], 0)
    case_r('again', case_r('end 21', job, [0, 9, 1], 4), [9, 1], 2)
    case('again', d, r, case('end 22', d, r, bare(500000001, 0, 0, 1), [3, 1], 2), [1], 2)
    s = case('end 22, none fits', d, r, bare(500000001, 0, 0, 1), [3, 1], 2)
    s = case('again, no room', d, r, s, [0, 9], 0)
    s = case('end 22, a digit fits', r, d, bare(-760000000, -2, 400000000, 1), [0], 2)
    s = case('again, no room', r, d, s, [9], 0)
    case('again, other bytes', r, d, s, [9, 1], 1)
    cuts('R to D, cut', r, d, job, [0, 1, 0, 0, 1, 1, 0, 1], 12)
    s = case('the first 64 of a hundred zeros', hundred, r, opened(1, 0, 0, 1), [4, 1, 4], 64)
    s = case('no more room', hundred, r, s, [1, 4], 0)
    s = case('the other 36, and a digit behind', hundred, r, s, [1, 4], 40)
    case('again, no room', hundred, r, s, [], 0)
    cuts('a hundred zeros to D, cut', hundred, d, job, [1, 4, 0, 3], 40)


def refusals():
    for label, n in (('no digit', 0), ('17 digits', 17), ('count of 64 ones', 2**64 - 1), ('16 digits of 0', 16)):
        places(label, counted(r, n))
    for label, p, v in (('F with 101', 8, 101), ('W with -101', 28, -101), ('W with -32768', 28, -32768), ('det F 0', 11, 0), ('det F -1', 11, -1),
                        ('det W 0', 6, 0), ('det W 1', 6, -1)):
        places(label, put(r, p, v))
    places('F of 2 0 0 2', put(d, 8, 2))
    for label, s in (('left end 0 2', put(r, 5, 2)), ('right end 2 0', put(r, 14, 2)), ('three digits', counted(r, 3)), ('one digit', counted(r, 1))):
        places(label, s)
    seven, eight, bad = put(r, 11, 0), put(r, 6, 0), bare(2, 0, 0, 2)
    admitted('row 0 breaks 9, row 1 breaks 6', put(put(r, 5, 2), 8, 101))
    admitted('row 1 breaks 6 and 7', put(put(r, 8, 101), 11, 0))
    admitted('row 1 breaks 7 and 8', put(seven, 14, 0))
    admitted('row 2 breaks 7, and a gap', put(counted(r, 3), 19, 0))
    admitted('row 3 is not there, and a gap', put(counted(r, 3), 27, 0))
    case('7, 8 and 12', seven, eight, bad, [4], 2)
    case('8, 7 and 12', eight, seven, bad, [4], 2)
    case('none, 7 and 12', r, seven, bad, [4], 2)
    case('none, none and 12', r, r, bad, [4], 2)
    case('12, no room, no input', r, r, bad, [], 0)


def states():
    def state(label, s):
        case_r(label, s, [0, 0, 1], 4)
    state('not cancelled', bare(2, 4, 0, 2))
    for label, m in (('det 0', [1, 1, 1, 1]), ('det -3', [1, 2, 2, 1]), ('all 0', [0, 0, 0, 0])):
        state(label, bare(*m))
    for h in (3, 4, 255):
        state(f'held {h}', holding([2, 1, 1, 2], h))
    state('largest i64', bare(2**63 - 1, 0, 0, 1))
    state('least i64', bare(-2**63, 0, 0, -1))
    for n in (LIMIT, LIMIT + 1):
        state(f'{n} first', bare(n, 0, 0, 1))
    for n in (-LIMIT, -LIMIT - 1):
        state(f'{n} second', bare(1, n, 0, 1))
    for n in (LIMIT, LIMIT + 1):
        state(f'{n} third', bare(1, 0, n, 1))
    for n in (LIMIT, LIMIT + 1):
        state(f'{n} last', bare(1, 0, 0, n))
    for label, m in (('to 1000000000', [500000000, 0, 0, 1]), ('to 1000000002', [500000001, 0, 0, 1]), ('to -1000000000', [-500000000, 0, 0, -1]),
                     ('to -1000000002', [-500000001, 0, 0, -1]), ('to 1999999998, cancelled', [999999999, 0, 0, 2])):
        case(label, d, r, bare(*m), [3], 2)
    for label, room in (('given out of range', 2), ('the same, room 0', 0)):
        case(label, r, d, bare(-760000000, -2, 400000000, 1), [0], room)
    low, high = filled(r, 32, -32768), filled(r, 32, 32767)
    admitted('rubbish', low)
    admitted('other rubbish', high)
    case_r('no rubbish', job, [0, 0, 1], 4)
    case('rubbish', low, high, job, [0, 0, 1], 4)
    case('other rubbish', high, low, job, [0, 0, 1], 4)
    places('three digits and rubbish', filled(counted(r, 3), 24, 77))


for part in (runs, sessions, divisors, orders_of_15, lengths, refusals, expanding, expanding_last, states, orders):
    part()
keep(os.path.dirname(os.path.abspath(__file__)), b''.join(stdin), ''.join(line + '\n' for line in lines).encode(), len(lines))

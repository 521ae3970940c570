#!/usr/bin/env python3
"""Stored cases of reading: each refusal number in each section where a file can give it, and jobs at the limits, with the answers that documents 01 and 02 give.

  crates/test_files/expected.py            writes stdin (the files, each after its length and before the number of places in its list) and stdout (what must be
                                           printed) beside this file
  crates/test_files/expected.py --check    says whether the two files are what it would write

A file that reads prints a fourth line, of a second run with that list: end, digits taken, digits written, numbers listed, and the numbers.
"""
import os, struct, sys

here = os.path.dirname(os.path.abspath(__file__))
sys.dont_write_bytecode = True
sys.path.insert(0, os.path.join(here, '..', 'test_cases'))
import stored

R = [[1, 0, 1, 1, 0, 1, 1, 1], [1, 1, 0, 1, 1, 1, 1, 0], [1, -1, 0, 1, 1, 0, 1, -1], [1, 0, -1, 1, -1, 1, 0, 1]]
B = [[1, 0, 1, 2, -1, 3, 1, 1], [1, 1, 0, 2, 0, 1, 2, 1], [2, 0, 1, 1, 1, 2, 1, 0], [2, 1, 0, 1, 1, 1, 3, -1],
     [2, -1, 0, 1, 3, 1, 1, -1], [2, 0, -1, 1, 1, 0, 1, -2], [1, -1, 0, 2, -2, 1, 0, 1], [1, 0, -1, 2, -1, 1, 1, 3]]
D = [[1, -1, 0, 2, -2, 1, 0, 1], [1, 0, 0, 2, -1, 2, 1, 2], [1, 1, 0, 2, 0, 1, 2, 1], [2, 0, 0, 1, 3, 2, 3, -2]]
IDENTITIES = [[1, 0, 0, 1, 0, 1, 1, 0], [1, 0, 0, 1, 1, 0, 0, -1]]
PLAIN_BINARY = [[1, -1, 0, 2, -1, 1, 0, 1], [1, 1, 0, 2, 0, 1, 1, 1], [2, 0, 0, 1, 1, 1, 1, -1]]  # of document 004: 2x on (1, −1) does not expand at 5/4
HUNDRED = R + [[1, 0, 100, 1, 0, 1, 1, 100]]                 # R, and a digit that stands for a hundred digits 0
TWO = R + [[1, 0, 2, 1, 0, 1, 1, 2]]                         # R, and a digit that stands for two digits 0
LARGE = R + [[100, -99, 100, 100, 0, 1, 1, 1]]               # R, and a digit of determinant 19900
M, ONE = [2, 1, 1, 2], [1, 0, 0, 1]
LONGEST = 4096 + 8192 + 1                                    # a list of so many places is never full


def two(n):
    return struct.pack('<H', n)


def numbers(values):
    return struct.pack('<%dh' % len(values), *values)


def system(rows):
    return two(len(rows)) + b''.join(numbers(r) for r in rows)


def matrix(m):
    return two(len(m)) + numbers(m)


def word(w):
    return two(len(w)) + bytes(w)


def job(a=R, b=R, m=M, w=(0, 0, 1)):
    return system(a) + system(b) + matrix(m) + word(w)


def changed(row, place, value):
    rows = [list(r) for r in R]
    rows[row][place] = value
    return rows


def reads(file, text, *lists):
    """A case for each list: its number of places, the end and the three counts with it, and the numbers listed."""
    return [(file, text + '\n' + ' '.join([counts] + [str(n) for n in numbers]), places) for places, counts, numbers in lists]


whole = job()
starts = [0, 66, 132, 142]                                   # where each section's count stands
cases = reads(whole, '0 3 3\n2 1 1 2 -\n0 1 1', *[(places, '0 3 3 6', [1] * 6) for places in (LONGEST, 7, 6)],
              (5, '15 3 3 5', [1] * 5), (4, '15 3 2 4', [1] * 4), (3, '15 2 2 3', [1] * 3), (2, '15 1 2 2', [1] * 2), (1, '15 1 1 1', [1]), (0, '15 1 0 0', []))
for section, start in enumerate(starts):                     # 1: a count, or a section, is not whole
    cases += [(whole[:start], f'refused 1 {section}'), (whole[:start + 1], f'refused 1 {section}'), (whole[:start + 2], f'refused 1 {section}')]
    end = (starts + [147])[section + 1]
    cases.append((whole[:end - 1], f'refused 1 {section}'))
cases += [(whole + b'\0', 'refused 2 3'), (whole + bytes(500), 'refused 2 3')]
for section, put in ((0, lambda s: job(a=s)), (1, lambda s: job(b=s))):
    cases += [
        (put([]), f'refused 3 {section}'), (put(R * 4 + R[:1]), f'refused 3 {section}'),
        (put(changed(3, 7, 101)), f'refused 6 {section}'), (put(changed(0, 0, -101)), f'refused 6 {section}'), (put(changed(2, 4, -32768)), f'refused 6 {section}'),
        (put(changed(1, 0, 0)), f'refused 7 {section}'), (put(changed(1, 0, -1)), f'refused 7 {section}'),
        (put(changed(0, 6, 0)), f'refused 8 {section}'), (put(changed(0, 6, -1)), f'refused 8 {section}'),
        (put([[2, 0, 0, 2] + R[0][4:]] + R[1:]), f'refused 9 {section}'), (put(R[:1] + [R[1][:4] + [2, 2, 1, 0]] + R[2:]), f'refused 9 {section}'),
        (put(R[:3]), f'refused 10 {section}'), (put(R[:1]), f'refused 10 {section}'),
        (put(changed(0, 0, 101)[:1] + changed(1, 0, 0)[1:]), f'refused 6 {section}'),     # row by row: 6 in row 0 before 7 in row 1
        (put(changed(0, 0, 0)[:1] + changed(1, 0, 101)[1:]), f'refused 7 {section}'),     # 7 in row 0 before 6 in row 1
        (put(IDENTITIES), f'refused 18 {section}'), (put(PLAIN_BINARY), f'refused 18 {section}'),
        (put(R + IDENTITIES[:1]), f'refused 18 {section}'), (put(IDENTITIES[:1] + R), f'refused 18 {section}'), (put(R * 3 + R[:3] + IDENTITIES[1:]), f'refused 18 {section}'),
        (put(IDENTITIES[:1]), f'refused 10 {section}'), (put(R[:2] + IDENTITIES[:1]), f'refused 10 {section}'),   # 10 before 18
        (put(IDENTITIES + [[0] + R[0][1:]]), f'refused 7 {section}'), (put(IDENTITIES + [[2, 0, 0, 2] + R[0][4:]]), f'refused 9 {section}'),   # and 7 and 9 in a later row
    ]
cases += [
    (job(m=[2, 1, 1]), 'refused 4 2'), (job(m=[2, 1, 1, 2, 0]), 'refused 4 2'), (job(m=[]), 'refused 4 2'),
    (job(m=[1001, 0, 0, 1]), 'refused 6 2'), (job(m=[1, 0, 0, -1001]), 'refused 6 2'), (job(m=[1001, 0, 0, 0]), 'refused 6 2'),
    (job(m=[1, 2, 2, 1]), 'refused 11 2'), (job(m=[1, 1, 1, 1]), 'refused 11 2'),
    (job(w=[0] * 4097), 'refused 5 3'), (system(R) + system(R) + matrix(M) + two(65535), 'refused 5 3'),
    (job(m=[1, 1, 1, 1]) + b'\0', 'refused 11 2'),                                       # the matrix before the bytes that follow
    (job(a=R[:3], m=[1, 1, 1, 1]), 'refused 10 0'),                                      # the file's order
    (job(a=IDENTITIES, b=R[:3]), 'refused 18 0'), (job(a=PLAIN_BINARY, b=[]), 'refused 18 0'), (job(a=R[:3], b=IDENTITIES), 'refused 10 0'),
    (job(b=IDENTITIES, m=[1, 1, 1, 1]), 'refused 18 1'), (job(b=PLAIN_BINARY, m=[2, 1, 1]), 'refused 18 1'), (job(a=IDENTITIES, b=IDENTITIES) + b'\0', 'refused 18 0'),
    (job(a=IDENTITIES)[:34], 'refused 18 0'), (job(a=IDENTITIES)[:33], 'refused 1 0'),   # a section's contents when it is whole, before the next one's count
]
third = [2, 0] * 20
cases += [
    *reads(job(a=HUNDRED, m=ONE, w=[4] * 2), '0 2 200\n1 0 0 1 -\n' + ' '.join(['0'] * 200),
           (256, '0 2 200 202', [1] * 202), (202, '0 2 200 202', [1] * 202), (201, '15 2 200 201', [1] * 201), (1, '15 1 1 1', [1])),
    *reads(job(b=HUNDRED), '0 3 3\n2 1 1 2 -\n0 1 1', (6, '0 3 3 6', [1] * 6)),
    *reads(job(w=[]), '0 0 0\n2 1 1 2 -\n', (0, '0 0 0 0', []), (9, '0 0 0 0', [])), *reads(job(w=[4]), '21 0 0\n2 1 1 2 -\n', (0, '21 0 0 0', [])),
    *reads(job(m=[1000, 0, 0, 1], w=[]), '0 0 0\n1000 0 0 1 -\n', (1, '0 0 0 0', [])), *reads(job(m=[2, 0, 0, 2], w=[]), '0 0 0\n1 0 0 1 -\n', (1, '0 0 0 0', [])),
    *reads(job(a=B, b=B, m=ONE, w=[1]), '0 1 1\n1 0 0 1 -\n1', (3, '0 1 1 2', [1, 2]), (2, '0 1 1 2', [1, 2]), (1, '15 1 1 1', [1]), (0, '15 1 0 0', [])),
    *reads(job(a=LARGE, m=[100, 99, -100, 100], w=[4]), '0 1 0\n1 0 0 1 -\n', (1, '0 1 0 1', [19900]), (0, '15 1 0 0', [])),
    # 15 before 22
    *reads(job(a=D, m=[3, -1, 0, 1], w=third), '22 30 0\n3 1 0 536870912 0\n', (30, '22 30 0 29', [1] * 29), (29, '15 30 0 29', [1] * 29), (28, '15 29 0 28', [1] * 28)),
    # 20 before 15, and the longest list that a run can fill
    *reads(job(a=HUNDRED, m=ONE, w=[4] * 100), '20 82 8192\n1 0 -92 1 4\n' + ' '.join(['0'] * 8192), (8273, '20 82 8192 8273', [1] * 8273)),
    *reads(job(a=TWO, m=ONE, w=[4] * 4096), '0 4096 8192\n1 0 0 1 -\n' + ' '.join(['0'] * 8192), (12288, '0 4096 8192 12288', [1] * 12288)),
    (b'', 'refused 1 0'),
]
# The list of a file that is refused is passed over, however long it is.
cases = [case if len(case) == 3 else (*case, (0, 1, 256, LONGEST)[n % 4]) for n, case in enumerate(cases)]
stored.keep(here, b''.join(struct.pack('<I', len(f)) + f + two(places) for f, _, places in cases), ''.join(text + '\n' for _, text, _ in cases).encode(), len(cases))

"""What is handed in to the program `test_cases`, its value here and its bytes for the program, as crates/test_input reads them: systems, states, words, lists and numbers."""
import struct

from rules import open_

R = [[1, 0, 1, 1, 0, 1, 1, 1], [1, 1, 0, 1, 1, 1, 1, 0], [1, -1, 0, 1, 1, 0, 1, -1], [1, 0, -1, 1, -1, 1, 0, 1]]
D = [[1, -1, 0, 2, -2, 1, 0, 1], [1, 0, 0, 2, -1, 2, 1, 2], [1, 1, 0, 2, 0, 1, 2, 1], [2, 0, 0, 1, 3, 2, 3, -2]]
B = [[1, 0, 1, 2, -1, 3, 1, 1], [1, 1, 0, 2, 0, 1, 2, 1], [2, 0, 1, 1, 1, 2, 1, 0], [2, 1, 0, 1, 1, 1, 3, -1],
     [2, -1, 0, 1, 3, 1, 1, -1], [2, 0, -1, 1, 1, 0, 1, -2], [1, -1, 0, 2, -2, 1, 0, 1], [1, 0, -1, 2, -1, 1, 1, 3]]
I = [[1, 0, 0, 1, 0, 1, 1, 0], [1, 0, 0, 1, 1, 0, 0, -1]]
PLAIN_BINARY = [[1, -1, 0, 2, -1, 1, 0, 1], [1, 1, 0, 2, 0, 1, 1, 1], [2, 0, 0, 1, 1, 1, 1, -1]]  # of document 004
HUNDRED = R + [[1, 0, 100, 1, 0, 1, 1, 100]]  # R, and a digit that stands for a hundred digits 0


def system(rows):
    flat = [n for r in rows for n in r]
    return len(rows), flat + [0] * (128 - len(flat))


def put(s, p, v):
    rows = list(s[1])
    rows[p] = v
    return s[0], rows


def counted(s, n):
    return n, s[1]


def filled(s, p, v):
    return s[0], s[1][:p] + [v] * (128 - p)


r, d, b, i, plain_binary, hundred = map(system, (R, D, B, I, PLAIN_BINARY, HUNDRED))


def system_bytes(s):
    """A built-in system by its letter: the program has it from the library. Any other by its count and its 128 numbers, by column: number j of digit a at 16·j + a."""
    for letter, built_in in ((b'R', r), (b'B', b), (b'D', d)):
        if s is built_in:
            return letter
    return b'-' + struct.pack('<Q128h', s[0], *(s[1][8 * a + j] for j in range(8) for a in range(16)))


def word_bytes(w):
    assert len(w) <= 64, 'the program has room for 64 bytes'
    return bytes([len(w), *w])


def list_bytes(divisors):
    """Numbers of 64 bits, none below 0, after how many they are."""
    return struct.pack(f'<B{len(divisors)}Q', len(divisors), *divisors)


def matrix_bytes(m):
    return struct.pack('<4q', *m)


def numbers_bytes(numbers):
    return struct.pack(f'<H{len(numbers)}h', len(numbers), *numbers)


class State(tuple):
    """A state that is handed in: the matrix and the held digit, and the bytes by which the program gets it."""
    def __new__(cls, matrix, held, data):
        made = super().__new__(cls, (matrix, held))
        made.data = data
        return made


def opened(*m):
    return State(*open_(m)[1], b'o' + matrix_bytes(m))


def bare(*m):
    return State(list(m), None, b'n' + matrix_bytes(m))


def holding(m, held):
    return State(m, held, b'h' + matrix_bytes(m) + bytes([held]))


def left(state):
    """What the case before left: a session goes on."""
    return State(*state, b'b')


job = opened(2, 1, 1, 2)

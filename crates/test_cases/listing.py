"""The cases about the list of divisors (T-02): how long it has to be, which end is told first, and what stays in it. Every other run has a list too, which is long enough."""
from handed_in import R, b, bare, d, holding, hundred, job, opened, put, r, system
from kinds import case, case_r, cuts, standing

# Its determinant is 19900, and on (0, 1) it expands.
LARGE = [100, -99, 100, 100, 0, 1, 1, 1]


def divisors():
    # B to B with the word 1: a giving, which cancels nothing, and an absorbing, which cancels a 2.
    one = opened(1, 0, 0, 1)
    case('B to B, no list', b, b, one, [1], 8, [])
    s = case('B to B, a list of one', b, b, one, [1], 8, [7])
    s = case('again, no list', b, b, s, [], 7, [])
    case('one place more', b, b, s, [], 7, [7])
    case('B to B, a list of two', b, b, one, [1], 8, [7, 8])
    case('absorbing cancels 19900', system(R + [LARGE]), r, opened(100, 99, -100, 100), [4], 2)
    case('giving cancels 19900', r, system([LARGE] + R), opened(100, -99, 100, 100), [1], 2)
    case_r('the largest numbers stay', job, [0], 4, [2**64 - 1, 2**64 - 2, 2**63, 2**63 - 1, 2**64 - 1])
    case('7, and the largest numbers stay', r, put(r, 11, 0), job, [0, 0, 1], 4, [2**64 - 1, 2**63, 0])
    case_r('12, no list', bare(2, 0, 0, 2), [0, 0, 1], 4, [])


def orders_of_15():
    """After 20 and before 22."""
    case_r('no room and no list', job, [0, 0, 1], 0, [])
    case('the list full with the room', hundred, r, opened(1, 0, 0, 1), [4], 5, standing(5))
    case('the list full before the room', hundred, r, opened(1, 0, 0, 1), [4], 5, standing(4))
    case('absorbing, no room and no list', d, r, opened(3, -1, 0, 1), [2], 0, [])
    case('absorbing, no room, a list of one', d, r, opened(3, -1, 0, 1), [2], 0, [7])
    third = [2, 0] * 20
    s = case('the 30th absorbing, a list of 29', d, r, opened(3, -1, 0, 1), third, 4, standing(29))
    case('one place more, out of range', d, r, s, third[30:], 4, [7])
    for label, room in (('given out of range, no list', 2), ('the same, no room', 0)):
        case(label, r, d, bare(-760000000, -2, 400000000, 1), [0], room, [])


def lengths():
    """A held digit is no input, and has its divisor."""
    for n in (5, 6):
        case_r(f'held, 2 digits in and 3 out, a list of {n}', holding([2, 1, 1, 2], 0), [0, 1], 3, standing(n))
    cuts('B to B, turned, cut, a place too few', b, b, opened(1, 1, -1, 1), [0, 1, 2], 4, standing(5))

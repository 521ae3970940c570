"""The cases about expanding: systems whose digits all expand, systems with one that does not (18), and which number is given where another rule is broken too."""
from handed_in import B, D, I, R, b, bare, counted, d, i, plain_binary, put, r, system
from kinds import admitted, case, places


def beside_r(*row):
    """R's digits cover and expand: the fifth decides."""
    return system(R + [list(row)])


def expanding():
    for label, s in (('R', r), ('B', b), ('D', d), ('R by its numbers', system(R)), ('B by its numbers', system(B)), ('D by its numbers', system(D))):
        admitted(label, s)
    places('plain binary', plain_binary)
    # The inverse of x/(x + 1) expands at the points from 0 to 2, and at no others. Each row is that map and an interval.
    for label, w in (('0 to 2', (0, 1, 2, 1)), ('0 to 1/50', (0, 1, 1, 50)), ('99/50 to 2', (99, 50, 2, 1)), ('1/100 to 99/50', (1, 100, 99, 50)),
                     ('-1/100 to 99/50', (-1, 100, 99, 50)), ('1/100 to 99/49', (1, 100, 99, 49)), ('-1 to 3', (-1, 1, 3, 1)),
                     ('1 round to 1/2', (1, 1, -1, -2)), ('2 round to 0', (2, 1, 0, -1)), ('3 to infinity', (3, 1, 1, 0)), ('3 round to -1', (3, 1, 1, -1))):
        admitted(f'x/(x + 1) from {label}', beside_r(1, 0, 1, 1, *w))
    for label, row in (('the identity with signs', (-1, 0, 0, -1, 0, 1, 1, 1)), ('a quarter turn', (0, -1, 1, 0, 0, 1, 1, 1)), ('a turn by 3 and 4', (3, -4, 4, 3, 0, 1, 1, 1)),
                       ('99x/100 about 0', (99, 0, 0, 100, -99, 100, 99, 100)), ('99x/100 from -1 to 1', (99, 0, 0, 100, -1, 1, 1, 1)),
                       ('large numbers about -1', (100, -99, -99, 100, -100, 99, -99, 100)), ('large numbers about 1', (100, -99, -99, 100, 99, 100, 100, 99))):
        admitted(f'{label} beside R', beside_r(*row))
    places('the identity beside R', beside_r(1, 0, 0, 1, 0, 1, 1, 1))
    for place in (0, 7, 15):
        admitted(f'digit {place} of 16 the identity', system([[1, 0, 0, 1] + row[4:] if a == place else row for a, row in enumerate(R * 4)]))


def expanding_last():
    """18 comes behind every other number of its own system, and before what is judged later."""
    gap, seven, eight, nine, bad = counted(i, 1), put(r, 11, 0), put(r, 6, 0), put(d, 8, 2), bare(2, 0, 0, 2)
    places('an identity and a gap', gap)
    for number, row in ((6, [101, 0, 0, 1, 0, 1, 1, 1]), (7, [0, 0, 0, 1, 0, 1, 1, 1]), (8, [1, 0, 0, 1, 1, 0, 0, 1]), (9, [2, 0, 0, 2, 0, 1, 1, 1])):
        admitted(f'a row breaks {number} behind identities', system(I + [row]))
    case('18, none and 12', i, r, bad, [4], 2)
    case('none, 18 and 12', r, i, bad, [4], 2)
    case('18, 18 and 12', plain_binary, i, bad, [4], 2)
    for number, s in ((3, counted(r, 0)), (7, seven), (8, eight), (9, nine), (10, counted(r, 3))):
        case(f'18, {number} and 12', i, s, bad, [4], 2)
        case(f'{number}, 18 and 12', s, i, bad, [4], 2)
    # what is kept for digits that a system hasn't got
    places('identities behind the count', counted(system(R + I), 4))
    places('a gap, and identities behind the count', counted(system(R[:3] + I), 3))

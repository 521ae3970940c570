"""The kinds of case: `case` is a run, `cuts` a word cut at every place, `admitted` an admission, `opening` an opening; `places` is three cases, an admission
and two runs, one from the system and one to it. (`turned`, a system by rows and by columns, is in turning.py.) Each adds its case to `stdin`, and to `lines` the line that must be
printed. In stdin a case is the letter of its kind, its label, and what is handed in, as crates/test_input reads it.

A run is lent room for digits, in which 9 stands everywhere, and a list for divisors: the numbers that stand in it before, or None for one that is long enough.
"""
from math import prod

from handed_in import job, left, list_bytes, matrix_bytes, r, system_bytes, word_bytes
from rules import admit, open_, run, times

stdin, lines = [], []


def row(kind, label, *parts):
    stdin.append(kind + word_bytes(label.encode()) + b''.join(parts))


def state_text(state):
    held = '-' if state[1] is None else state[1]
    return ' | ' + ' '.join(map(str, [*state[0], held]))


def room_text(out):
    return ' |' + ''.join(f' {n}' for n in out)


def standing(places):
    """What stands in a list: 7, 8, 9 and so on, so that a number that stays is known again."""
    return list(range(7, 7 + places))


def long_enough(ins, outs, state, word, room):
    """A list with two places more than the run needs. It is never full if it is as long as input and output together and one more."""
    listed = run(ins, outs, state, word, [9] * room, [0] * (len(word) + room + 1))[3]
    return standing(listed + 2)


def run_by_facts(ins, outs, state, word, out, divisors):
    """The run, of which must hold: there is a divisor for each digit that was absorbed or written, and "the product of the divisors times (output product times state)
    equals the product of the output determinants times (M cancelled times input product)", M being the matrix before and the input what was absorbed."""
    end, taken, written, listed, after = run(ins, outs, state, word, out, divisors)
    absorbed = [a for a in [state[1], *word[:taken]] if a is not None]
    absorbed = absorbed[:len(absorbed) - (after[1] is not None)]
    assert listed == len(absorbed) + written
    given, took, scale = [1, 0, 0, 1], state[0], 1
    for g in (outs[1][8 * b:8 * b + 4] for b in out[:written]):
        given, scale = times(given, g), scale * (g[0] * g[3] - g[1] * g[2])
    for a in absorbed:
        took = times(took, ins[1][8 * a:8 * a + 4])
    assert [prod(divisors[:listed]) * n for n in times(given, after[0])] == [scale * n for n in took]
    return end, taken, written, listed, after


def case(label, ins, outs, state, word, room, divisors=None):
    out, divisors = [9] * room, long_enough(ins, outs, state, word, room) if divisors is None else list(divisors)
    row(b'r', f'{label}:', system_bytes(ins), system_bytes(outs), state.data, word_bytes(word), word_bytes(out), list_bytes(divisors))
    end, taken, written, listed, after = run_by_facts(ins, outs, state, word, out, divisors)
    lines.append(f'{label}: {end} {taken} {written} {listed}' + state_text(after) + room_text(out) + room_text(divisors))
    return left(after)


def case_r(label, state, word, room, divisors=None):
    return case(label, r, r, state, word, room, divisors)


def cuts(label, ins, outs, state, word, room, divisors=None):
    """Every cut must print the line of the whole word. The second piece gets the room behind what the first has written, and the list behind what it has listed."""
    out, divisors = [9] * room, long_enough(ins, outs, state, word, room) if divisors is None else list(divisors)
    pieces = []
    for k in range(len(word) + 1):
        row(b'c', f'{label}:', system_bytes(ins), system_bytes(outs), state.data, word_bytes(word[:k]), word_bytes(out), list_bytes(divisors), word_bytes(word[k:]))
        first_out, first_list = list(out), list(divisors)
        _, _, written, listed, between = run_by_facts(ins, outs, state, word[:k], first_out, first_list)
        second_out, second_list = first_out[written:], first_list[listed:]
        end, _, _, _, after = run_by_facts(ins, outs, between, word[k:], second_out, second_list)
        pieces.append((end, after, first_out[:written] + second_out, first_list[:listed] + second_list))
    end, _, _, _, after = run_by_facts(ins, outs, state, word, out, divisors)
    assert all(piece == (end, after, out, divisors) for piece in pieces)
    lines.extend([f'{label}: {end}' + state_text(after) + room_text(out) + room_text(divisors)] * (len(word) + 1))


def admitted(label, s):
    row(b'a', f'{label}, admit:', system_bytes(s))
    lines.append(f'{label}, admit: {admit(s)}')


def opening(*m):
    label = 'open ' + ' '.join(map(str, m)) + ':'
    row(b'o', label, matrix_bytes(m))
    number, state = open_(m)
    lines.append(f'{label} {number}' + state_text(state))


def places(label, s):
    admitted(label, s)
    case(f'{label}, input', s, r, job, [0, 0, 1], 4)
    case(f'{label}, output', r, s, job, [0, 0, 1], 4)

"""The cases about turning: a system by rows into columns, and by columns into rows, with lengths and counts that are right and ones that are not."""
import struct

from handed_in import B, D, R, numbers_bytes
from kinds import lines, room_text, row


def by_column(rows):
    """Number j of digit a at 16·j + a, and 0 for digits that have no row."""
    return [rows[8 * a + j] if 8 * a + j < len(rows) else 0 for j in range(8) for a in range(16)]


def turned(label, rows, columns, digits, back):
    """Rows into columns, and what then stands there into rows of so many digits; 9 stands wherever nothing was written."""
    columns, back = [9] * columns, [9] * back
    row(b't', f'{label}:', numbers_bytes(rows), numbers_bytes(columns), struct.pack('<Q', digits), numbers_bytes(back))
    number = 40 if len(rows) % 8 or len(columns) != 128 else 3 if not 8 <= len(rows) <= 128 else 0
    if number == 0:
        columns = by_column(rows)
    again = 40 if len(columns) != 128 or len(back) != 8 * digits else 3 if not 1 <= digits <= 16 else 0
    if again == 0:
        back = [columns[16 * j + a] for a in range(digits) for j in range(8)]
    lines.append(f'{label}: {number}' + room_text(columns) + f' {again}' + room_text(back))


def orders():
    for label, system in (('R', R), ('B', B), ('D', D), ('16 digits', B + B)):
        flat = [n for r in system for n in r]
        turned(f'{label} by column', flat, 128, len(system), len(flat))
    count = list(range(-64, 64))
    turned('all numbers differ', count, 128, 16, 128)
    turned('three rows of five', count[:40], 128, 3, 24)
    turned('nine rows of five', count[:40], 128, 9, 72)
    turned('17 rows', count + [7] * 8, 128, 17, 136)
    turned('no rows', [], 128, 0, 0)
    turned('part of a row', count[:12], 128, 1, 8)
    turned('127 places', count[:16], 127, 2, 16)
    turned('129 places', count[:16], 129, 2, 16)
    turned('no place', count[:16], 0, 2, 16)
    turned('room for one row', count[:16], 128, 2, 8)
    turned('room for half a row more', count[:16], 128, 2, 20)
    turned('2 to the 61st digits', count[:16], 128, 2**61, 0)
    turned('2 to the 61st digits and two', count[:16], 128, 2**61 + 2, 16)

/* Plain C that writes a job file as the library does: the same checks in the same order as sled_write, and the sections straight from the columns into the buffer. Systems are
   judged as everywhere in plain C (parts.h). Nothing is proved of it; bench/writing.c times it. */
#include "parts.h"

void *memcpy(void *to, const void *from, usize n);

enum { ENTRY = 1000, WORD = 4096 };

/* the number of the first refusal, with its section 256 times */
static inline u32 job_number(usize ins, const i16 *in_columns, usize outs, const i16 *out_columns, const i64 *m, usize n) {
    u32 number = system_number(ins, in_columns);
    if (number != 0) return number;
    number = system_number(outs, out_columns);
    if (number != 0) return number + 256;
    if (!within(m[0], m[1], m[2], m[3], ENTRY)) return 6 + 256 * 2;
    if (m[0] * m[3] - m[1] * m[2] <= 0) return 11 + 256 * 2;
    return n > WORD ? 5 + 256 * 3 : 0;
}

/* Each of these answers where the next byte goes. */

static inline u8 *put_pair(u8 *to, i64 n) {
    to[0] = (u8)n;
    to[1] = (u8)(n >> 8);
    return to + 2;
}

static inline u8 *put_system(u8 *to, usize digits, const i16 *columns) {
    to = put_pair(to, (i64)digits);
    for (usize k = 0; k < digits; k++)
        for (usize column = 0; column < COLUMNS; column += 16) to = put_pair(to, columns[column + k]);
    return to;
}

static inline u8 *put_matrix(u8 *to, const i64 *m) {
    to = put_pair(to, 4);
    for (int k = 0; k < 4; k++) to = put_pair(to, m[k]);
    return to;
}

u32 same_write(usize ins, const i16 *in_columns, usize in_length, usize outs, const i16 *out_columns, usize out_length, const i64 *matrix, usize matrix_length, const u8 *word,
               usize n, u8 *file, usize room, usize *written, usize written_length) {
    if (in_length != COLUMNS || out_length != COLUMNS || matrix_length != 4 || written_length != 1) return 40;
    u32 number = job_number(ins, in_columns, outs, out_columns, matrix, n);
    if (number != 0) return number;
    usize size = 16 + 16 * ins + 16 * outs + n;
    if (room < size) return 14;
    u8 *to = put_system(file, ins, in_columns);
    to = put_system(to, outs, out_columns);
    to = put_matrix(to, matrix);
    to = put_pair(to, (i64)n);
    memcpy(to, word, n);
    written[0] = size;
    return 0;
}

/* Jobs that sled_write refuses: each reason with its section, which of several comes first, and that nothing is written. */
#include "files.h"

static void refused(struct job j, size_t file, uint32_t number, uint32_t section, const char *what, long detail) {
    handed(j);
    settled(write_file(right_for(j, file)), number + 256 * section, what, detail);
}

/* systems and matrices, with the number that they are refused by, or 0 */
struct judged_system {
    struct system system;
    uint32_t number;
};

struct judged_matrix {
    int64_t matrix[SLED_MATRIX];
    uint32_t number;
};

/* the first that applies, in the reader's order: input system, output system, matrix, word; then the buffer */
static uint32_t first_of(uint32_t in, uint32_t out, uint32_t matrix, size_t word, size_t buffer) {
    if (in != 0) return in;
    if (out != 0) return out + 256;
    if (matrix != 0) return matrix + 512;
    if (word > 4096) return 5 + 768;
    return buffer < 16 + 64 + 64 + word ? SLED_REFUSED_BUFFER : 0; /* where all is right both systems are R */
}

/* one job, with a word and a buffer that are right, and that are not */
static void with_and_without(struct judged_system in, struct judged_system out, struct judged_matrix m, long detail) {
    const size_t words[] = {3, 4096, 4097}, buffers[] = {SLED_FILE, 4239, 146, 0}; /* R to R with 4096 digits needs a byte more than 4239, and with 3 one more than 146 */
    for (size_t k = 0; k < 3 * 4; k++) {
        struct job j = {in.system, out.system, {0}, words[k / 4]};
        uint32_t expected = first_of(in.number, out.number, m.number, j.word, buffers[k % 4]);
        memcpy(j.matrix, m.matrix, sizeof j.matrix);
        handed(j);
        if (expected == 0) leaves(j);
        settled(write_file(right_for(j, buffers[k % 4])), expected, "the first rule that is broken", 100 * detail + (long)k);
    }
}

/* every way to break a rule, together with every other one */
static void in_order(void) {
    const struct judged_system systems[] = {{R, 0},            {{0, SIXTEEN.rows}, 3}, {{17, SIXTEEN.rows}, 3}, {{(size_t)-1, SIXTEEN.rows}, 3},
                                            {REFUSED[0], 6},   {REFUSED[1], 7},        {REFUSED[2], 8},         {REFUSED[3], 9},
                                            {{3, R.rows}, 10}, {{1, SAME.rows}, 10},   {SAME, 18},              {PLAIN_BINARY, 18}};
    const struct judged_matrix matrices[] = {{{2, 1, 1, 2}, 0}, {{2, 1, 1, 1001}, 6}, {{LEAST, LEAST, MOST, MOST}, 6}, {{1, 2, 2, 1}, 11}};
    const size_t kinds = sizeof systems / sizeof *systems;
    int before = passed;
    for (size_t k = 0; k < kinds * kinds; k++)
        for (size_t m = 0; m < sizeof matrices / sizeof *matrices; m++) with_and_without(systems[k / kinds], systems[k % kinds], matrices[m], (long)(10 * k + m));
    counts_as_one(before);
}

/* counts that no system has, however large: in columns in which sixteen digits stand */
static void bad_counts(void) {
    for (size_t k = 0; k < 5 + LARGE_COUNTS; k++) {
        const struct system none = {k == 0 ? 0 : k < 5 ? 16 + k : LARGE[k - 5], SIXTEEN.rows};
        refused((struct job){none, R, {2, 1, 1, 2}, 3}, SLED_FILE, SLED_REFUSED_COUNT, 0, "the input system's count", (long)k);
        refused((struct job){R, none, {2, 1, 1, 2}, 3}, SLED_FILE, SLED_REFUSED_COUNT, 1, "the output system's count", (long)k);
        refused((struct job){none, none, {2, 1, 1, 2}, 3}, 0, SLED_REFUSED_COUNT, 0, "the counts of both, and no buffer", (long)k);
        refused((struct job){SAME, none, {2, 1, 1, 2}, 3}, 0, SLED_REFUSED_EXPAND, 0, "the input system before the output system's count", (long)k);
    }
}

/* numbers that no matrix of a job has, at each place: behind the bounds, behind what 16 bits hold, and such as would be 2 or 1 again if they were cut to 16 or 32 bits */
static void wide_numbers(void) {
    const int64_t wide[] = {1001,  1024,   32767,  32768,  65535,  65536,  65537,       65538,       1000000000,      4294967296, 4294967297, 4294967298, MOST, MOST - 1,
                            -1001, -32768, -32769, -65534, -65535, -65536, -4294967294, -4294967295, 281474976710658, LEAST,      LEAST + 1,  LEAST + 2};
    for (size_t k = 0; k < sizeof wide / sizeof *wide; k++)
        for (int place = 0; place < SLED_MATRIX; place++) {
            struct job good = {R, R, {2, 1, 1, 2}, 3}, down = {R, R, {1, 2, 2, 1}, 4097};
            good.matrix[place] = down.matrix[place] = wide[k];
            refused(good, SLED_FILE, SLED_REFUSED_RANGE, 2, "a wide number in the matrix", (long)wide[k]);
            refused(down, 0, SLED_REFUSED_RANGE, 2, "a wide number before the word, and before the buffer", (long)wide[k]);
        }
}

static void bad_determinants(void) {
    const int64_t matrices[][SLED_MATRIX] = {{0, 0, 0, 0},  {1, 1, 1, 1}, {1, 2, 2, 1},        {1000, 1000, 1000, 1000},
                                             {-1, 0, 0, 1}, {0, 1, 1, 0}, {-1000, 0, 0, 1000}, {1000, 1000, 1000, 999}};
    for (size_t k = 0; k < sizeof matrices / sizeof *matrices; k++) {
        struct job j = {D, B, {0}, 3};
        memcpy(j.matrix, matrices[k], sizeof j.matrix);
        refused(j, SLED_FILE, SLED_REFUSED_MATRIX, 2, "a determinant that is not above 0", (long)k);
    }
}

/* a wrong length, of what could be written and of what is refused by everything else */
static void wrong(struct writing change, const char *what, size_t length) {
    handed((struct job){R, R, {2, 1, 1, 2}, 3});
    settled(write_file(change), SLED_REFUSED_LENGTH, what, (long)length);
    handed((struct job){REFUSED[0], REFUSED[1], {LEAST, 1, 2, 1}, 4097});
    change.in_digits = 0, change.out_digits = 17, change.word = 4097, change.file = 0;
    settled(write_file(change), SLED_REFUSED_LENGTH, "40 before all others", (long)length);
}

static void bad_lengths(void) {
    const struct writing good = right_for((struct job){R, R, {2, 1, 1, 2}, 3}, SLED_FILE);
    for (size_t k = 0; k <= LENT; k++) {
        struct writing in = good, out = good, matrix = good, written = good;
        in.in_columns = out.out_columns = matrix.matrix = written.written = k;
        if (k != SLED_COLUMNS) wrong(in, "the length of the input system", k), wrong(out, "the length of the output system", k);
        if (k != SLED_MATRIX && k <= 8) wrong(matrix, "the length of the matrix", k);
        if (k != 1 && k <= 8) wrong(written, "the length of the count", k);
    }
}

void writing_refusals(void) {
    in_order();
    bad_counts();
    wide_numbers();
    bad_determinants();
    bad_lengths();
}

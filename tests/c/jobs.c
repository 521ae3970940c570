/* Job files: what sled_read finds in them, each refusal with its section, and that what was read is run. */
#include "files.h"

/* a number in two bytes; answers where the next one stands */
static uint8_t *put_pair(uint8_t *at, int n) {
    at[0] = (uint8_t)(n & 255);
    at[1] = (uint8_t)(n >> 8 & 255);
    return at + 2;
}

static uint8_t *put_system(uint8_t *at, struct system s) {
    at = put_pair(at, (int)s.digits);
    for (size_t k = 0; k < 8 * s.digits && k < 128; k++) at = put_pair(at, s.rows[k]);
    return at;
}

size_t put_job(uint8_t *file, struct system in, struct system out, int four, const int64_t *matrix, int count, const uint8_t *word, size_t length) {
    uint8_t *at = put_pair(put_system(put_system(file, in), out), four);
    for (int k = 0; k < 4; k++) at = put_pair(at, (int)matrix[k]);
    at = put_pair(at, count);
    memcpy(at, word, length);
    return (size_t)(at - file) + length;
}

uint32_t read_file(size_t length) {
    return sled_read(now.file, length, now.in_columns, SLED_COLUMNS, now.out_columns, SLED_COLUMNS, now.matrix, SLED_MATRIX, now.found, SLED_FOUND);
}

static size_t file_length;

/* a job file in the world: counts as given, whatever they are, and what stands behind them */
static void write_job(struct system in, struct system out, int four, const int64_t *matrix, int count, size_t length) {
    const uint8_t word[9] = {0, 1, 2, 0, 1, 2, 0, 1, 2};
    begin();
    file_length = put_job(now.file, in, out, four, matrix, count, word, length);
    ready();
}

static void refuses(uint32_t number, uint32_t section, const char *what, long detail) {
    uint32_t answer = read_file(file_length);
    check(SLED_NUMBER(answer) == number && SLED_SECTION(answer) == section, what, detail);
    check(memcmp(&now, &then, sizeof now) == 0, what, detail);
}

/* what was read opens and runs as it is: plain C gives the same of the same systems, with junk in the unused places */
static void runs_on(struct system in, struct system out, long detail) {
    int16_t in_columns[SLED_COLUMNS], out_columns[SLED_COLUMNS];
    lend(in_columns, in);
    lend(out_columns, out);
    check(sled_open(now.matrix, SLED_MATRIX, now.state, SLED_STATE) == 0, "the job opens", detail);
    ready();
    uint32_t end = sled_run(now.found[0], now.in_columns, SLED_COLUMNS, now.found[1], now.out_columns, SLED_COLUMNS, now.state, SLED_STATE,
                            now.file + now.found[2], now.found[3], now.output, 64, now.divisors, 9 + 64, now.counts, SLED_COUNTS);
    uint32_t plain = plain_run(in.digits, in_columns, SLED_COLUMNS, out.digits, out_columns, SLED_COLUMNS, (i64 *)then.state, SLED_STATE,
                               then.file + file_length - 9, 9, then.output, 64, (u64 *)then.divisors, 9 + 64, then.counts, SLED_COUNTS);
    settled(end, plain, "the job runs", detail);
    check(end != SLED_END_LIST_FULL, "a list of input and output together: nothing was held before", detail);
}

static void good_jobs(void) {
    const int64_t m[4] = {1000, -3, 5, 7};
    for (int k = 0; k < SYSTEMS * SYSTEMS; k++) {
        struct system in = ADMITTED[k / SYSTEMS], out = ADMITTED[k % SYSTEMS];
        write_job(in, out, 4, m, 9, 9);
        stored(then.in_columns, in);
        stored(then.out_columns, out);
        for (int j = 0; j < 4; j++) then.matrix[j] = m[j];
        then.found[0] = in.digits, then.found[1] = out.digits, then.found[2] = file_length - 9, then.found[3] = 9;
        settled(read_file(file_length), 0, "two systems, a matrix and a word", k);
        runs_on(in, out, k);
    }
}

static void bad_sections(void) {
    const int64_t m[4] = {2, 1, 1, 2}, wide[4] = {1001, 0, 0, 1}, down[4] = {1, 2, 2, 1};
    const struct system gap = {3, R.rows}, none = {0, R.rows};
    for (int k = 0; k < 4; k++) {
        write_job(REFUSED[k], REFUSED[3 - k], 3, down, 5000, 2);
        refuses((uint32_t)(6 + k), 0, "the input system is judged first", k);
        write_job(R, REFUSED[k], 3, down, 5000, 2);
        refuses((uint32_t)(6 + k), 1, "then the output system", k);
    }
    write_job(gap, R, 4, m, 0, 0), refuses(10, 0, "a gap in the input system", 0);
    write_job(R, gap, 4, m, 0, 0), refuses(10, 1, "a gap in the output system", 0);
    write_job(none, R, 4, m, 0, 0), refuses(3, 0, "no digits", 0);
    write_job(R, none, 4, m, 0, 0), refuses(3, 1, "no digits", 1);
    write_job(R, R, 3, m, 0, 0), refuses(4, 2, "three entries", 0);
    write_job(R, R, 5, m, 0, 0), refuses(4, 2, "five entries", 0);
    write_job(R, R, 4, wide, 0, 0), refuses(6, 2, "1001 in the matrix", 0);
    write_job(R, R, 4, down, 0, 0), refuses(11, 2, "determinant -3", 0);
    write_job(R, R, 4, m, 4097, 9), refuses(5, 3, "a word of 4097", 0);
    write_job(R, R, 4, m, 2, 3), refuses(2, 3, "a byte behind the word", 0);
    begin();
    file_length = (size_t)(put_pair(now.file, 17) - now.file);
    ready();
    refuses(3, 0, "17 digits", 0);
}

/* 18: behind the whole of its own section, its gap too, and before all that stands behind that section */
static void not_expanding(void) {
    const int64_t m[4] = {2, 1, 1, 2}, down[4] = {1, 2, 2, 1};
    const struct system gap = {3, R.rows}, both = {1, SAME.rows}, bad[2] = {SAME, PLAIN_BINARY};
    for (int k = 0; k < 2; k++) {
        write_job(bad[k], R, 4, m, 2, 2), refuses(SLED_REFUSED_EXPAND, 0, "the input system does not expand", k);
        write_job(R, bad[k], 4, m, 2, 2), refuses(SLED_REFUSED_EXPAND, 1, "the output system does not expand", k);
        write_job(bad[k], gap, 3, down, 5000, 2), refuses(SLED_REFUSED_EXPAND, 0, "18 before the output system", k);
        write_job(gap, bad[k], 3, down, 5000, 2), refuses(10, 0, "a gap in the input system before the output system's 18", k);
        write_job(R, bad[k], 3, down, 5000, 2), refuses(SLED_REFUSED_EXPAND, 1, "18 before the matrix's count", k);
        write_job(R, bad[k], 4, down, 2, 3), refuses(SLED_REFUSED_EXPAND, 1, "18 before the matrix, and before bytes that follow", k);
    }
    write_job(both, R, 4, m, 2, 2), refuses(10, 0, "a gap before 18", 0);
    write_job(R, both, 4, m, 2, 2), refuses(10, 1, "a gap before 18", 1);
}

static void short_files(void) {
    write_job(R, R, 4, (const int64_t[]){2, 1, 1, 2}, 3, 3);
    for (size_t whole = file_length, n = 0; n < whole; n++) {
        file_length = n;
        refuses(1, n < 66 ? 0 : n < 132 ? 1 : n < 142 ? 2 : 3, "a file that ends early", (long)n);
    }
}

/* of a good file and of a bad one */
static void bad_lengths(void) {
    const size_t exact[4] = {SLED_COLUMNS, SLED_COLUMNS, SLED_MATRIX, SLED_FOUND};
    for (int gap = 0; gap < 2; gap++) {
        write_job((struct system){4 - (size_t)gap, R.rows}, R, 4, (const int64_t[]){2, 1, 1, 2}, 3, 3);
        for (int k = 0; k < 4; k++)
            for (size_t n = 0; n <= (k < 2 ? LENT : 8); n++) {
                size_t l[4] = {SLED_COLUMNS, SLED_COLUMNS, SLED_MATRIX, SLED_FOUND};
                l[k] = n;
                if (n == exact[k]) continue;
                uint32_t answer = sled_read(now.file, file_length, now.in_columns, l[0], now.out_columns, l[1], now.matrix, l[2], now.found, l[3]);
                settled(answer, 40, "lengths of reading", (long)n);
            }
    }
}

void jobs(void) {
    good_jobs();
    bad_sections();
    not_expanding();
    short_files();
    bad_lengths();
}

/* Turning rows into columns and back; and slices that are too long, in every call that is lent a system. */
#include "world.h"

static void columns_of_each_length(void) {
    int before = passed;
    for (size_t rows = 0; rows <= LENT; rows++)
        for (size_t columns = 0; columns <= LENT; columns++) {
            begin_at_random();
            uint32_t expected = rows % 8 != 0 || columns != 128 ? 40 : rows == 0 || rows > 128 ? 3 : 0;
            if (expected == 0) stored(then.in_columns, (struct system){rows / 8, now.rows});
            settled(sled_columns(now.rows, rows, now.in_columns, columns), expected, "sled_columns of each length", (long)(1000 * rows + columns));
        }
    counts_as_one(before);
}

static void rows_of(size_t digits, size_t columns, size_t rows) {
    begin_at_random();
    uint32_t expected = columns != 128 || rows % 8 != 0 || rows / 8 != digits ? 40 : digits == 0 || digits > 16 ? 3 : 0;
    for (size_t p = 0; p < rows && expected == 0; p++) then.rows[p] = now.in_columns[16 * (p % 8) + p / 8];
    settled(sled_rows(digits, now.in_columns, columns, now.rows, rows), expected, "sled_rows of each length and count", (long)(1000 * digits + rows));
}

static void rows_of_each_length(void) {
    int before = passed;
    for (size_t k = 0; k <= 20 + LARGE_COUNTS; k++) {
        size_t digits = k <= 20 ? k : LARGE[k - 21];
        for (size_t rows = 0; rows <= LENT; rows++) rows_of(digits, SLED_COLUMNS, rows);
        for (size_t columns = 0; columns <= LENT; columns++) rows_of(digits, columns, digits <= LENT / 8 ? 8 * digits : 0);
    }
    counts_as_one(before);
}

static void rows_there_and_back(size_t digits) {
    begin_at_random();
    stored(then.in_columns, (struct system){digits, now.rows});
    settled(sled_columns(now.rows, 8 * digits, now.in_columns, SLED_COLUMNS), 0, "rows into columns", (long)digits);
    memset(now.rows, 0, 8 * digits * sizeof *now.rows);
    settled(sled_rows(digits, now.in_columns, SLED_COLUMNS, now.rows, 8 * digits), 0, "and back", (long)digits);
}

static void columns_there_and_back(size_t digits) {
    int16_t numbers[SLED_COLUMNS];
    begin_at_random();
    memcpy(numbers, now.rows, sizeof numbers);
    lend(now.in_columns, (struct system){digits, numbers});
    memset(now.rows, 0, 8 * digits * sizeof *now.rows);
    ready();
    memcpy(then.rows, numbers, 8 * digits * sizeof *numbers);
    settled(sled_rows(digits, now.in_columns, SLED_COLUMNS, now.rows, 8 * digits), 0, "columns with junk into rows", (long)digits);
    stored(then.out_columns, (struct system){digits, numbers});
    settled(sled_columns(now.rows, 8 * digits, now.out_columns, SLED_COLUMNS), 0, "and back, with 0 for the junk", (long)digits);
}

static void there_and_back(void) {
    int before = passed;
    for (int times = 0; times < 100; times++)
        for (size_t digits = 1; digits <= 16; digits++) {
            rows_there_and_back(digits);
            columns_there_and_back(digits);
        }
    counts_as_one(before);
}

/* lengths that would be right if they were cut to 8 or 16 bits, in every call that is lent a system */
static void long_slices(void) {
    static int16_t vast[65536 + 128], before[65536 + 128];
    for (size_t k = 0; k < sizeof vast / sizeof *vast; k++) vast[k] = before[k] = (int16_t)any(65536);
    begin();
    int16_t *in = now.in_columns, *out = now.out_columns;
    for (size_t cut = 256; cut <= 65536; cut *= 256) {
        settled(sled_admit(4, vast, cut + 128), 40, "admission of long columns", (long)cut);
        settled(sled_system_r(vast, cut + 128), 40, "R into long columns", (long)cut);
        settled(sled_run(4, vast, cut + 128, 4, out, SLED_COLUMNS, now.state, 5, now.input, 3, now.output, 9, now.divisors, 13, now.counts, 3), 40, "a run from long columns",
                (long)cut);
        settled(sled_run(4, in, SLED_COLUMNS, 4, vast, cut + 128, now.state, 5, now.input, 3, now.output, 9, now.divisors, 13, now.counts, 3), 40, "a run to long columns",
                (long)cut);
        settled(sled_read(now.file, 147, vast, cut + 128, out, SLED_COLUMNS, now.matrix, 4, now.found, 4), 40, "reading long columns", (long)cut);
        settled(sled_read(now.file, 147, in, SLED_COLUMNS, vast, cut + 128, now.matrix, 4, now.found, 4), 40, "reading long columns, second", (long)cut);
        settled(sled_write(4, vast, cut + 128, 4, out, SLED_COLUMNS, now.matrix, 4, now.word, 3, now.file, SLED_FILE, now.written, 1), 40, "writing long columns", (long)cut);
        settled(sled_write(4, in, SLED_COLUMNS, 4, vast, cut + 128, now.matrix, 4, now.word, 3, now.file, SLED_FILE, now.written, 1), 40, "writing long columns, second",
                (long)cut);
        settled(sled_columns(now.rows, 32, vast, cut + 128), 40, "into long columns", (long)cut);
        settled(sled_columns(vast, cut + 32, in, SLED_COLUMNS), 3, "from many rows", (long)cut);
        settled(sled_rows(4, vast, cut + 128, now.rows, 32), 40, "from long columns", (long)cut);
        settled(sled_rows(4, in, SLED_COLUMNS, vast, cut + 32), 40, "into rows of other digits", (long)cut);
        settled(sled_rows((cut + 32) / 8, in, SLED_COLUMNS, vast, cut + 32), 3, "into many rows", (long)cut);
    }
    settled(sled_columns(vast, 8 * 260, in, SLED_COLUMNS), 3, "from 260 rows", 0);
    settled(sled_rows(260, in, SLED_COLUMNS, vast, 8 * 260), 3, "into 260 rows", 0);
    check(memcmp(vast, before, sizeof vast) == 0, "long slices are not written", 0);
}

void turning(void) {
    columns_of_each_length();
    rows_of_each_length();
    for (junk = NOUGHT; junk < JUNKS; junk++) there_and_back();
    long_slices();
}

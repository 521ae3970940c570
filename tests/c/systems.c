/* The calls that are about one system alone: handing a built-in one out, and judging one. turning.c turns rows into columns and back. */
#include "world.h"

/* ---- the built-in systems */

typedef uint32_t system_call(int16_t *columns, size_t length);

static void handed_out(system_call *call, struct system s, const char *what) {
    for (size_t length = 0; length <= LENT; length++) {
        begin();
        if (length == SLED_COLUMNS) stored(then.in_columns, s);
        settled(call(now.in_columns, length), length == SLED_COLUMNS ? SLED_OK : SLED_REFUSED_LENGTH, what, (long)length);
    }
}

/* system B by its two laws: with R(x) = (x + 1)/(1 - x), digit a + 2 is digit a turned, counting modulo 8, and digit 7 - a is digit a reflected */

/* number j of digit a, as sled_system_b wrote it */
static long of_b(int j, int a) { return now.in_columns[16 * j + a]; }

/* the end that begins at number j of one digit, sent by m, is the end that begins at number k of another, as a point */
static int same_end(const long *m, int j, int from, int k, int to) {
    long z0 = m[0] * of_b(j, from) + m[1] * of_b(j + 1, from), z1 = m[2] * of_b(j, from) + m[3] * of_b(j + 1, from);
    return z0 * of_b(k + 1, to) == z1 * of_b(k, to) && (z0 != 0 || z1 != 0);
}

/* F of `to` is m F m inverse, number for number: (F of `to`) m = m (F of `from`) */
static int conjugated(const long *m, int from, int to) {
    int right = 1;
    for (int row = 0; row < 2; row++)
        for (int column = 0; column < 2; column++)
            right &= of_b(2 * row, to) * m[column] + of_b(2 * row + 1, to) * m[2 + column] == m[2 * row] * of_b(column, from) + m[2 * row + 1] * of_b(2 + column, from);
    return right;
}

static void symmetric(void) {
    const long turn[4] = {1, 1, -1, 1}, reflect[4] = {-1, 0, 0, 1};
    begin();
    sled_system_b(now.in_columns, SLED_COLUMNS);
    for (int a = 0; a < 8; a++) {
        int next = (a + 2) % 8, across = 7 - a;
        check(conjugated(turn, a, next) && same_end(turn, 4, a, 4, next) && same_end(turn, 6, a, 6, next), "B turned is B", a);
        check(conjugated(reflect, a, across) && same_end(reflect, 4, a, 6, across) && same_end(reflect, 6, a, 4, across), "B reflected is B", a);
    }
}

void built_in(void) {
    handed_out(sled_system_r, R, "sled_system_r");
    handed_out(sled_system_b, B, "sled_system_b");
    handed_out(sled_system_d, D, "sled_system_d");
    symmetric();
    check(R.digits == SLED_R_DIGITS && B.digits == SLED_B_DIGITS && D.digits == SLED_D_DIGITS, "the header's counts of digits", 0);
}

/* ---- admission */

static void admits(struct system s, uint32_t expected, const char *what, long detail) {
    begin();
    lend(now.in_columns, s);
    ready();
    settled(sled_admit(s.digits, now.in_columns, SLED_COLUMNS), expected, what, detail);
}

static void admits_row(const int16_t *row, uint32_t expected, const char *what) { admits((struct system){1, row}, expected, what, 0); }

/* R with one number changed: place 8 a + j is number j of digit a */
static void changed(size_t place, int16_t number, uint32_t expected, const char *what) {
    int16_t rows[32];
    memcpy(rows, R.rows, sizeof rows);
    rows[place] = number;
    admits((struct system){4, rows}, expected, what, (long)place);
}

static void each_rule(void) {
    for (size_t place = 0; place < 32; place++) {
        changed(place, 101, 6, "101 in R");
        changed(place, -101, 6, "-101 in R");
        changed(place, 32767, 6, "32767 in R");
        changed(place, -32768, 6, "-32768 in R");
    }
    changed(0, 0, 7, "det F is 0");
    changed(3, -1, 7, "det F is below 0");
    changed(4, 1, 8, "det W is 0");
    changed(4, 100, 8, "det W is above 0");
    const int16_t doubled[8] = {2, 0, 0, 2, 0, 1, 1, 1}, left[8] = {1, 0, 1, 1, 0, 2, 1, 1}, right[8] = {1, 0, 1, 1, 0, 1, 2, 2};
    admits_row(doubled, 9, "F is not in lowest terms");
    admits_row(left, 9, "the left end is not in lowest terms");
    admits_row(right, 9, "the right end is not in lowest terms");
}

/* a digit that breaks several rules gets the first number, and the first bad digit decides */
static void which_rule(void) {
    const int16_t all[8] = {101, 0, 0, 0, 0, 0, 0, 0}, seven[8] = {0, 0, 0, 0, 0, 0, 0, 0}, eight[8] = {2, 0, 0, 2, 0, 0, 0, 0};
    int16_t rows[32];
    admits_row(all, 6, "6 before 7");
    admits_row(seven, 7, "7 before 8");
    admits_row(eight, 8, "8 before 9");
    memcpy(rows, R.rows, sizeof rows);
    memcpy(rows + 8, eight, sizeof eight);
    memcpy(rows + 16, all, sizeof all);
    admits((struct system){4, rows}, 8, "the first bad digit decides", 0);
    /* a closed interval may hold a point alone, and an open gap is a gap */
    memcpy(rows, R.rows, sizeof rows);
    rows[14] = 99, rows[15] = 1;
    admits((struct system){4, rows}, 10, "a gap from 99 to infinity", 0);
}

/* Which rows expand. R's digits cover and expand, so beside them the fifth alone decides. The inverse of x / (x + 1) expands at the points from 0 to 2 and at no others. */
static void which_expand(void) {
    static const struct {
        int16_t row[8];
        uint32_t expected;
        const char *what;
    } rows[] = {
        {{1, 0, 1, 1, 0, 1, 2, 1}, 0, "all from 0 to 2, and neither end"},
        {{1, 0, 1, 1, 0, 1, 1, 50}, 0, "all but the left end"},
        {{1, 0, 1, 1, 99, 50, 2, 1}, 0, "all but the right end"},
        {{1, 0, 1, 1, 1, 100, 99, 50}, 0, "all, with both ends"},
        {{1, 0, 1, 1, -1, 100, 99, 50}, 18, "not the left end"},
        {{1, 0, 1, 1, 1, 100, 99, 49}, 18, "not the right end"},
        {{1, 0, 1, 1, -1, 1, 3, 1}, 18, "neither end, and all between 0 and 2"},
        {{1, 0, 1, 1, 1, 1, -1, -2}, 18, "both ends, and not all from 1 round to 1/2"},
        {{1, 0, 1, 1, 2, 1, 0, -1}, 18, "nothing from 2 round to 0"},
        {{1, 0, 0, 1, 0, 1, 1, 1}, 18, "the identity"},
        {{-1, 0, 0, -1, 0, 1, 1, 1}, 18, "the identity, with signs"},
        {{0, -1, 1, 0, 0, 1, 1, 1}, 18, "a turn"},
        {{100, -99, -99, 100, -100, 99, -99, 100}, 0, "large numbers, about -1"},
        {{100, -99, -99, 100, 99, 100, 100, 99}, 18, "large numbers, about 1"},
    };
    for (size_t k = 0; k < sizeof rows / sizeof *rows; k++) {
        int16_t five[40];
        memcpy(five, R.rows, 32 * sizeof *five);
        memcpy(five + 32, rows[k].row, sizeof rows[k].row);
        admits((struct system){5, five}, rows[k].expected, rows[k].what, (long)k);
    }
}

/* 18 is behind every other number; and any digit may be the one that does not expand, if it is there */
static void expanding_last(void) {
    int16_t rows[128];
    for (int k = 0; k < 4; k++) {
        memcpy(rows, SAME.rows, 16 * sizeof *rows);
        memcpy(rows + 16, REFUSED[k].rows, 8 * sizeof *rows);
        admits((struct system){3, rows}, (uint32_t)(6 + k), "behind digits that do not expand, 6 to 9", k);
    }
    admits((struct system){1, SAME.rows}, 10, "a gap before 18", 0);
    admits((struct system){2, PLAIN_BINARY.rows}, 10, "a gap, and the digit that does not expand is not there", 0);
    for (size_t still = 0; still < 16; still++) {
        memcpy(rows, SIXTEEN.rows, sizeof rows);
        memcpy(rows + 8 * still, SAME.rows, 4 * sizeof *rows); /* its map alone: the interval stays */
        for (size_t digits = 4; digits <= 16; digits++)
            admits((struct system){digits, rows}, still < digits ? 18 : 0, "one identity among R's digits", (long)(100 * digits + still));
    }
}

/* R's digits again and again stand in all sixteen places: the count alone says which of them are there */
static void each_count(void) {
    for (size_t digits = 0; digits <= 20; digits++)
        admits((struct system){digits, SIXTEEN.rows}, digits == 0 || digits > 16 ? 3 : digits < 4 ? 10 : 0, "so many digits", (long)digits);
    for (int k = 0; k < LARGE_COUNTS; k++) admits((struct system){LARGE[k], SIXTEEN.rows}, 3, "a large count", k);
    for (size_t digits = 0; digits <= 20; digits++) {
        begin();
        lend(now.in_columns, SIXTEEN);
        ready();
        settled(sled_admit(digits, now.in_columns, SLED_COLUMNS), digits == 0 || digits > 16 ? 3 : digits < 4 ? 10 : 0, "so many digits of sixteen", (long)digits);
    }
}

static void each_length(void) {
    const size_t counts[] = {0, 1, 4, 16, 17, (size_t)-1};
    for (size_t length = 0; length <= LENT; length++)
        for (size_t k = 0; k < sizeof counts / sizeof *counts; k++)
            if (length != SLED_COLUMNS) {
                begin();
                lend(now.in_columns, R);
                ready();
                settled(sled_admit(counts[k], now.in_columns, length), 40, "a length that is not 128", (long)length);
            }
}

void admission(void) {
    admits(R, 0, "R", 0);
    admits(B, 0, "B", 0);
    admits(D, 0, "D", 0);
    admits(HUNDRED, 0, "a hundred zeros", 0);
    admits(STEEP, 0, "determinant 10000", 0);
    admits(SAME, SLED_REFUSED_EXPAND, "two identity digits", 0);
    admits(PLAIN_BINARY, SLED_REFUSED_EXPAND, "document 004's plain binary system", 0);
    admits((struct system){3, R.rows}, 10, "R without digit 3", 0);
    admits((struct system){1, R.rows}, 10, "one digit", 0);
    for (int k = 0; k < 4; k++) admits(REFUSED[k], (uint32_t)(6 + k), "refused by 6 to 9", k);
    each_rule();
    which_rule();
    which_expand();
    expanding_last();
    each_count();
    each_length();
}

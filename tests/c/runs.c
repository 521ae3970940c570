/* Opening, and runs. lists.c has runs whose list is full, cuts.c runs in several calls, and refusals.c runs that are refused. */
#include "world.h"

/* ---- opening */

static void opens(int64_t a, int64_t b, int64_t c, int64_t d, uint32_t expected, int64_t divisor, const char *what) {
    const int64_t m[4] = {a, b, c, d};
    begin();
    memcpy(now.matrix, m, sizeof m);
    ready();
    if (expected == 0) {
        for (int k = 0; k < 4; k++) then.state[k] = m[k] / divisor;
        then.state[4] = -1;
    }
    settled(sled_open(now.matrix, 4, now.state, 5), expected, what, (long)a);
}

void opening(void) {
    opens(2, 1, 1, 2, 0, 1, "2 1 1 2");
    opens(2, 0, 0, 2, 0, 2, "2 0 0 2 is cancelled");
    opens(-6, 0, 9, -3, 0, 3, "signs stay");
    opens(1000, 0, 0, 1, 0, 1, "1000");
    opens(1000, -1000, 1000, 1000, 0, 1000, "the bounds");
    opens(1001, 0, 0, 1, 6, 1, "1001");
    opens(1, 1001, 0, 1, 6, 1, "1001, second");
    opens(1, 0, -1001, 1, 6, 1, "-1001, third");
    opens(1, 0, 0, 1001, 6, 1, "1001, fourth");
    opens(LEAST, 0, 0, 1, 6, 1, "the least number");
    opens(LEAST, LEAST, LEAST, LEAST, 6, 1, "the least number, four times");
    opens(MOST, 0, 0, MOST, 6, 1, "the largest number");
    opens(1, 2, 2, 1, 11, 1, "determinant -3");
    opens(1, 1, 1, 1, 11, 1, "determinant 0");
    opens(0, 0, 0, 0, 11, 1, "all 0");
    opens(1001, 1001, 1001, 1001, 6, 1, "6 before 11");
    for (size_t p = 0; p <= 8; p++)
        for (size_t q = 0; q <= 8; q++)
            if (p != 4 || q != 5) {
                begin();
                now.matrix[0] = 2, now.matrix[1] = 1, now.matrix[2] = 1, now.matrix[3] = 2;
                ready();
                settled(sled_open(now.matrix, p, now.state, q), 40, "lengths of opening", (long)(10 * p + q));
            }
}

/* ---- runs */

static void short_words(void) {
    given(R, R, START, WORD, 3);
    counted(3, 3, 6);
    then.output[0] = 0, then.output[1] = 1, then.output[2] = 1;
    settled(run(right(R, R, 3, 10)), 0, "R to R, 0 0 1", 0);

    given(R, R, START, WORD, 3);
    counted(3, 2, 4);
    stands(3, 0, 1, 1, 1);
    then.output[0] = 0, then.output[1] = 1;
    settled(run(right(R, R, 3, 2)), 20, "the same with room 2", 0);
    counted(0, 0, 0);
    settled(run(right(R, R, 0, 0)), 20, "it stops again", 0);
    counted(0, 1, 2);
    stands(2, 1, 1, 2, -1);
    then.output[0] = 1;
    settled(run(right(R, R, 0, 1)), 0, "and goes on with room", 0);

    given(R, R, START, WORD, 3);
    counted(0, 0, 0);
    settled(run(right(R, R, 0, 0)), 0, "an empty word", 0);
}

/* what is cancelled is listed: document 01's 2 in B, where a digit is absorbed; and 10000 at once, where one is absorbed and where one is given out */
static void cancelled(void) {
    given(B, B, ONE, (const uint8_t[]){1}, 1);
    counted(1, 1, 2);
    then.output[0] = 1, then.divisors[1] = 2;
    settled(run(right(B, B, 1, 10)), 0, "B to B, a 2 is cancelled", 0);

    given(STEEP, R, (const int64_t[]){100, 0, -1, 100, -1}, (const uint8_t[]){0}, 1);
    counted(1, 0, 1);
    stands(1, 0, 0, 1, -1);
    then.divisors[0] = 10000;
    settled(run(right(STEEP, R, 1, 10)), 0, "10000 is cancelled, absorbing", 0);

    given(R, STEEP, (const int64_t[]){100, 0, 1, 100, -1}, (const uint8_t[]){1}, 1);
    counted(1, 2, 3);
    stands(1, 0, 0, 1, -1);
    then.output[0] = 0, then.output[1] = 2, then.divisors[0] = 10000;
    settled(run(right(R, STEEP, 1, 10)), 0, "10000 is cancelled, giving out", 0);
}

/* a byte that is no digit stops the run, whatever stands in the place of such a digit */
static void no_digit(void) {
    for (int byte = 4; byte < 256; byte++) {
        given(R, R, START, WORD, 3);
        now.input[0] = then.input[0] = (uint8_t)byte;
        counted(0, 0, 0);
        settled(run(right(R, R, 3, 10)), 21, "no digit", byte);
    }
}

static void a_third(void) {
    uint8_t third[40];
    for (int k = 0; k < 40; k++) third[k] = k % 2 == 0 ? 2 : 0;
    const int64_t m[5] = {3, -1, 0, 1, -1};
    given(D, R, m, third, 40);
    counted(30, 0, 29);
    stands(3, 1, 0, 536870912, 0);
    settled(run(right(D, R, 40, 100)), 22, "D to R, 40 digits of 1/3", 0);
    counted(0, 0, 0);
    settled(run(right(D, R, 10, 100)), 22, "it stops again", 0);
    given(D, R, m, third, 40);
    counted(29, 0, 29);
    stands(3, 1, 0, 536870912, -1);
    settled(run(right(D, R, 29, 100)), 0, "29 of them", 0);
}

/* one digit that stands for a hundred zeros fills any smaller room with 0 and stays held; where there is room for the hundred, it is absorbed behind them */
static void any_room(void) {
    for (size_t room = 0; room <= SPACE; room++) {
        size_t zeros = room < 100 ? room : 100;
        given(HUNDRED, R, ONE, (const uint8_t[]){4}, 1);
        counted(1, zeros, room < 100 ? room : 101);
        if (room < 100) stands(1, 0, -(int64_t)room, 1, 4);
        memset(then.output, 0, zeros);
        settled(run(right(HUNDRED, R, 1, room)), room < 100 ? 20 : 0, "any room is filled with 0", (long)room);
    }
}

/* two identity digits would fill any room with 0 from one digit, and are refused: the number is 18, whatever the room, and nothing is taken or written */
static void no_endless_row(void) {
    for (size_t room = 0; room <= SPACE; room++) {
        given(SAME, SAME, ONE, (const uint8_t[]){0}, 1);
        counted(0, 0, 0);
        settled(run(right(SAME, SAME, 1, room)), SLED_REFUSED_EXPAND, "no endless row of zeros", (long)room);
    }
}

/* After end 22 the session is over: whatever bytes, room and list follow, nothing is done. Where a digit fits, the end is 20 without any room; else it is 15 without any
   place in the list. */
static void after_22(void) {
    const int64_t giving[5] = {-760000000, -2, 400000000, 1, -1}, absorbing[5] = {3, 1, 0, 536870912, -1};
    for (int fits = 0; fits < 2; fits++) {
        struct system in = fits ? R : D, out = fits ? D : R;
        given(in, out, fits ? giving : absorbing, (const uint8_t[]){0, 9, 1}, 3);
        counted(1, 0, 0);
        then.state[4] = 0;
        settled(run(right(in, out, 1, 2)), 22, "a state leaves the range", fits);
        counted(0, 0, 0);
        for (size_t length = 0; length <= 3; length++)
            for (size_t room = 0; room <= 3; room++)
                for (size_t places = 0; places <= 3; places++) {
                    uint32_t end = fits && room == 0 ? 20 : places == 0 ? 15 : 22;
                    settled(run(listing(in, out, length, room, places)), end, "and again, with other bytes, room and list", (long)(100 * length + 10 * room + places));
                }
    }
}

/* R's digits again and again, so many of sixteen: the first four are given out */
static void any_count(void) {
    for (size_t in = 4; in <= 16; in++)
        for (size_t out = 4; out <= 16; out++) {
            const struct system some = {in, SIXTEEN.rows}, others = {out, SIXTEEN.rows};
            given(some, others, START, WORD, 3);
            counted(3, 3, 6);
            then.output[0] = 0, then.output[1] = 1, then.output[2] = 1;
            settled(run(right(some, others, 3, 10)), 0, "R's digits again and again", (long)(100 * in + out));
        }
}

void runs(void) {
    short_words();
    cancelled();
    no_digit();
    a_third();
    any_room();
    no_endless_row();
    any_count();
    after_22();
}

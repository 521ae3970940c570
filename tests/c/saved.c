/* What was written is read again as the same job, and what was read is written again byte for byte; and what is left of a session, saved as a job, goes on where it stopped. */
#include "files.h"

/* ---- there and back */

static void unused_are_nought(int16_t *columns, size_t digits) {
    for (size_t place = 0; place < SLED_COLUMNS; place++)
        if (place % 16 >= digits) columns[place] = 0;
}

int reads_back(struct writing n, const char *what, long detail) {
    size_t length = then.written[0];
    memset(now.in_columns, 0x5A, SLED_COLUMNS * sizeof *now.in_columns), memset(now.out_columns, 0x5A, SLED_COLUMNS * sizeof *now.out_columns);
    memset(now.matrix, 0x5A, SLED_MATRIX * sizeof *now.matrix);
    unused_are_nought(then.in_columns, n.in_digits);
    unused_are_nought(then.out_columns, n.out_digits);
    then.found[0] = n.in_digits, then.found[1] = n.out_digits, then.found[2] = length - n.word, then.found[3] = n.word;
    uint32_t answer = read_file(length);
    settled(answer, 0, what, detail);
    if (answer == 0) check(memcmp(now.file + now.found[2], now.word, n.word) == 0, "and the word", detail);
    return answer == 0;
}

void writes_again(size_t length, const char *what, long detail) {
    uint8_t again[SLED_FILE + GUARD], expected[sizeof again];
    memset(again, 0xA5, sizeof again), memset(expected, 0xA5, sizeof expected);
    memcpy(expected, now.file, length);
    ready();
    then.written[0] = length;
    settled(sled_write(now.found[0], now.in_columns, SLED_COLUMNS, now.found[1], now.out_columns, SLED_COLUMNS, now.matrix, SLED_MATRIX, now.file + now.found[2], now.found[3],
                       again, SLED_FILE, now.written, 1),
            0, what, detail);
    check(memcmp(again, expected, sizeof again) == 0, what, detail);
}

static void there_and_back(void) {
    const size_t words[] = {0, 1, 300, 4096};
    for (int k = 0; k < SYSTEMS * SYSTEMS; k++)
        for (int w = 0; w < 4; w++) {
            struct job j = {ADMITTED[k / SYSTEMS], ADMITTED[k % SYSTEMS], {1000, -4, 6, 8}, words[w]};
            handed(j);
            leaves(j);
            settled(write_file(right_for(j, SLED_FILE)), 0, "a job to be read again", k);
            reads_back(right_for(j, SLED_FILE), "what was written is read", k);
            handed(j);
            size_t length = put_job(now.file, j.in, j.out, 4, j.matrix, (int)j.word, now.word, j.word);
            uint32_t answer = read_file(length);
            check(answer == 0, "a job file reads", k);
            if (answer == 0) writes_again(length, "what was read is written again", k);
        }
}

/* ---- a session, saved */

/* A session stops anywhere, and what is left of it is saved: its matrix, and the word from the held digit on, if one is held, for that was the last to be taken. The saved job
   opens as the session stands, and goes on as the session would. Answers whether the matrix is one of a job's. */
static int goes_on(struct system in, struct system out, const int64_t *opened, const uint8_t *word, size_t length, long detail) {
    struct session whole = session(in, out, opened, word), half = whole;
    call_at_most(&whole, length, length, SPACE, LIST);
    call_at_most(&half, length, any((uint32_t)length + 1), any(SPACE), any(LIST));
    const int64_t *x = half.state;
    size_t rest = half.taken - (x[4] >= 0);
    struct job j = {in, out, {x[0], x[1], x[2], x[3]}, length - rest};
    handed(j);
    memcpy(now.word, word + rest, j.word);
    ready();
    for (int k = 0; k < SLED_MATRIX; k++)
        if (x[k] < -1000 || x[k] > 1000) {
            settled(write_file(right_for(j, SLED_FILE)), SLED_REFUSED_RANGE + 256 * 2, "a state that has grown", detail);
            return 0;
        }
    leaves(j);
    settled(write_file(right_for(j, SLED_FILE)), 0, "what is left of a session", detail);
    if (!reads_back(right_for(j, SLED_FILE), "and is read", detail)) return 1;
    check(sled_open(now.matrix, SLED_MATRIX, now.state, SLED_STATE) == 0, "it opens", detail);
    check(memcmp(now.state, x, SLED_MATRIX * sizeof *x) == 0 && now.state[4] == -1, "as the session stands, with nothing held", detail);
    struct session later = session(in, out, now.state, now.file + now.found[2]);
    call(&later, now.found[3], SPACE - half.written, LIST - half.listed);
    memcpy(half.output + half.written, later.output, later.written);
    memcpy(half.divisors + half.listed, later.divisors, later.listed * sizeof *later.divisors);
    check(later.end == whole.end && rest + later.taken == whole.taken && half.written + later.written == whole.written, "it stops where one run does", detail);
    check(memcmp(half.output, whole.output, sizeof whole.output) == 0 && memcmp(half.divisors, whole.divisors, sizeof whole.divisors) == 0, "its digits and its list", detail);
    check(memcmp(later.state, whole.state, sizeof whole.state) == 0, "its state", detail);
    return 1;
}

static void sessions(void) {
    const int64_t third[SLED_STATE] = {3, -1, 0, 1, -1}, *opened[3] = {START, ONE, third};
    int before = passed, fit = 0, grown = 0;
    for (int k = 0; k < SYSTEMS * SYSTEMS * 3; k++)
        for (int times = 0; times < 20; times++) {
            struct system in = ADMITTED[k / 3 / SYSTEMS], out = ADMITTED[k / 3 % SYSTEMS];
            uint8_t word[SPACE];
            size_t length = any(SPACE);
            for (size_t i = 0; i < SPACE; i++) word[i] = (uint8_t)any((uint32_t)in.digits + (any(100) == 0));
            if (goes_on(in, out, opened[k % 3], word, length, k)) fit++;
            else grown++;
        }
    counts_as_one(before);
    check(fit > 100 && grown > 100, "states of both kinds", fit);
}

void saved_jobs(void) {
    there_and_back();
    sessions();
}

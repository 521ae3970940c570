/* What the list is for: over a session of many calls, the product of all divisors listed, times (the product of the digits written, times the state), is the product of their
   determinants times (the opened matrix, times the product of the digits absorbed). The numbers grow without end, so they are compared modulo two primes. */
#include "world.h"

static uint64_t prime; /* below 2^31, so that a sum of two products fits */

static uint64_t modulo(int64_t n) { return (uint64_t)(n % (int64_t)prime + (int64_t)prime) % prime; }

struct matrix {
    uint64_t at[4];
};

static struct matrix matrix_of(const int64_t *m) { return (struct matrix){{modulo(m[0]), modulo(m[1]), modulo(m[2]), modulo(m[3])}}; }

static struct matrix times(struct matrix m, struct matrix n) {
    const uint64_t *a = m.at, *b = n.at;
    struct matrix r = {{a[0] * b[0] + a[1] * b[2], a[0] * b[1] + a[1] * b[3], a[2] * b[0] + a[3] * b[2], a[2] * b[1] + a[3] * b[3]}};
    for (int k = 0; k < 4; k++) r.at[k] %= prime;
    return r;
}

static struct matrix scaled(uint64_t factor, struct matrix m) {
    for (int k = 0; k < 4; k++) m.at[k] = factor * m.at[k] % prime;
    return m;
}

/* the map of a digit */
static struct matrix map_of(struct system s, uint8_t digit) {
    const int16_t *row = s.rows + 8 * digit;
    return matrix_of((const int64_t[]){row[0], row[1], row[2], row[3]});
}

static int64_t determinant(const int16_t *row) { return (int64_t)row[0] * row[3] - (int64_t)row[1] * row[2]; }

/* whether the equation holds of all that a session has done since it was opened */
static int exact(const struct session *s, const int64_t *opened) {
    const int64_t one[4] = {1, 0, 0, 1};
    struct matrix given = matrix_of(one), absorbed = matrix_of(one);
    uint64_t divisors = 1, determinants = 1;
    for (size_t k = 0; k < s->listed; k++) divisors = divisors * (s->divisors[k] % prime) % prime;
    for (size_t k = 0; k < s->written; k++) {
        given = times(given, map_of(s->out, s->output[k]));
        determinants = determinants * modulo(determinant(s->out.rows + 8 * s->output[k])) % prime;
    }
    for (size_t k = 0; k + (s->state[4] >= 0) < s->taken; k++) absorbed = times(absorbed, map_of(s->in, s->word[k]));
    struct matrix left = scaled(divisors, times(given, matrix_of(s->state))), right = scaled(determinants, times(matrix_of(opened), absorbed));
    return memcmp(&left, &right, sizeof left) == 0;
}

/* A session by chance, in pieces, rooms and lists of any size, 0 too: as many calls as use up the word or the space, or until the range is left. Answers how often more than
   1 was cancelled. */
static size_t session_by_chance(struct system in, struct system out, const int64_t *matrix, const uint8_t *word, size_t length, long detail) {
    int64_t opened[SLED_STATE];
    size_t cancelled = 0;
    check(sled_open(matrix, SLED_MATRIX, opened, SLED_STATE) == SLED_OK, "a session opens", detail);
    struct session s = session(in, out, opened, word);
    for (int calls = 0; calls < 60 && s.end != SLED_END_RANGE_LEFT; calls++) {
        size_t piece = any(9), room = any(9), places = any(14);
        call_at_most(&s, length, piece, room, places);
        check(exact(&s, opened), "the scale, after each call", detail);
    }
    for (size_t k = 0; k < s.listed; k++) cancelled += s.divisors[k] > 1;
    return cancelled;
}

void scales(void) {
    enum { LENGTH = 100 };
    const uint64_t primes[2] = {2147483647, 2147483629};
    const int64_t matrices[3][4] = {{4, 2, 2, 4}, {3, -1, 0, 1}, {100, 0, -1, 100}};
    uint8_t word[LENGTH];
    int before = passed;
    size_t cancelled = 0;
    for (int t = 0; t < 2 * SYSTEMS * SYSTEMS * 3; t++) {
        struct system in = ADMITTED[t / 6 / SYSTEMS], out = ADMITTED[t / 6 % SYSTEMS];
        for (int k = 0; k < LENGTH; k++) word[k] = (uint8_t)any((uint32_t)in.digits);
        prime = primes[t % 2];
        cancelled += session_by_chance(in, out, matrices[t / 2 % 3], word, LENGTH, t);
    }
    counts_as_one(before);
    check(cancelled > 1000, "much was cancelled", (long)cancelled);
}

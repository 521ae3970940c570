/* The world that calls are lent, the systems that they are about, and chance. */
#include "world.h"

struct world now, then;
int passed, failed;
enum junk junk;

void ready(void) { memcpy(&then, &now, sizeof now); }

uint8_t unwritten(size_t k) { return (uint8_t)(200 + k % 50); }

uint64_t unlisted(size_t k) { return (uint64_t)MOST - k; }

void begin(void) {
    memset(&now, 0xA5, sizeof now);
    for (size_t k = 0; k < SPACE; k++) now.output[k] = unwritten(k);
    for (size_t k = 0; k < LIST; k++) now.divisors[k] = unlisted(k);
    ready();
}

void check(int right, const char *what, long detail) {
    if (right) {
        passed++;
        return;
    }
    failed++;
    if (failed <= 20) printf("failed: %s (%ld)\n", what, detail);
}

void settled(uint32_t answer, uint32_t expected, const char *what, long detail) {
    check(answer == expected, what, detail);
    check(memcmp(&now, &then, sizeof now) == 0, what, detail);
}

void counts_as_one(int before) { passed = before + 1; }

/* ---- chance */

static unsigned long long drawn(void) {
    static unsigned long long seed = 88172645463325252u;
    seed ^= seed << 13;
    seed ^= seed >> 7;
    seed ^= seed << 17;
    return seed;
}

uint32_t any(uint32_t below) { return (uint32_t)(drawn() >> 33) % below; }

void begin_at_random(void) {
    for (size_t k = 0; k + 8 <= sizeof now; k += 8) {
        unsigned long long bytes = drawn();
        memcpy((uint8_t *)&now + k, &bytes, 8);
    }
    ready();
}

/* ---- systems */

/* one digit a line: a b c d, x0 x1 y0 y1 */
#define R_ROWS \
     1,  0,  1,  1,  0,  1,  1,  1, \
     1,  1,  0,  1,  1,  1,  1,  0, \
     1, -1,  0,  1,  1,  0,  1, -1, \
     1,  0, -1,  1, -1,  1,  0,  1
static const int16_t r_rows[32] = {R_ROWS}, sixteen_rows[128] = {R_ROWS, R_ROWS, R_ROWS, R_ROWS};
static const int16_t hundred_rows[40] = {R_ROWS,
     1,  0, 100, 1,  0,  1,  1, 100};
static const int16_t steep_rows[40] = {
   100,  0, 1, 100,  1, 100, 100, 1,
   R_ROWS};
static const int16_t b_rows[64] = {
     1,  0,  1,  2, -1,  3,  1,  1,
     1,  1,  0,  2,  0,  1,  2,  1,
     2,  0,  1,  1,  1,  2,  1,  0,
     2,  1,  0,  1,  1,  1,  3, -1,
     2, -1,  0,  1,  3,  1,  1, -1,
     2,  0, -1,  1,  1,  0,  1, -2,
     1, -1,  0,  2, -2,  1,  0,  1,
     1,  0, -1,  2, -1,  1,  1,  3};
static const int16_t d_rows[32] = {
     1, -1,  0,  2, -2,  1,  0,  1,
     1,  0,  0,  2, -1,  2,  1,  2,
     1,  1,  0,  2,  0,  1,  2,  1,
     2,  0,  0,  1,  3,  2,  3, -2};
static const int16_t same_rows[16] = {
     1,  0,  0,  1,  0,  1,  1,  0,
     1,  0,  0,  1,  1,  0,  0, -1};
static const int16_t plain_binary_rows[24] = {
     1, -1,  0,  2, -1,  1,  0,  1,
     1,  1,  0,  2,  0,  1,  1,  1,
     2,  0,  0,  1,  1,  1,  1, -1};
const struct system R = {4, r_rows}, B = {8, b_rows}, D = {4, d_rows}, SIXTEEN = {16, sixteen_rows}, HUNDRED = {5, hundred_rows}, STEEP = {5, steep_rows};
const struct system ADMITTED[SYSTEMS] = {{4, r_rows}, {8, b_rows}, {4, d_rows}, {16, sixteen_rows}, {5, hundred_rows}, {5, steep_rows}};
const struct system SAME = {2, same_rows}, PLAIN_BINARY = {3, plain_binary_rows};

static const int16_t six[8] = {101, 0, 0, 1, 0, 1, 1, 1}, seven[8] = {0, 0, 0, 1, 0, 1, 1, 1}, eight[8] = {1, 0, 0, 1, 1, 0, 0, 1}, nine[8] = {2, 0, 0, 2, 0, 1, 1, 1};
const struct system REFUSED[4] = {{1, six}, {1, seven}, {1, eight}, {1, nine}};

#define TWO_TO(k) ((size_t)1 << (k))
const size_t LARGE[LARGE_COUNTS] = {
    TWO_TO(8) + 4, TWO_TO(16) + 4, TWO_TO(31) + 4, TWO_TO(32) + 4, TWO_TO(63) + 4, /* 4, cut to 8, 16, 31, 32 and 63 bits */
    TWO_TO(5) + 4, TWO_TO(13) + 4, TWO_TO(29) + 4, TWO_TO(61) + 4, TWO_TO(62) + 4, /* eight times as much is 32, cut to 8, 16, 32 and 64 bits */
    TWO_TO(61), TWO_TO(61) + 1, TWO_TO(61) + 16, TWO_TO(61) + 17, TWO_TO(63),      /* eight times as much is 0, 8, 128, 136 and 0 */
    (size_t)-1, (size_t)-4, (size_t)-1 / 8};

static int16_t unused(size_t j, size_t a) {
    if (junk == ANY_NUMBERS) return (int16_t)((int)any(65536) - 32768);
    if (junk == SMALL_NUMBERS) return (int16_t)((int)any(5) - 2);
    if (junk == GOOD_DIGITS) return b_rows[8 * (a % 8) + j];
    return junk == IDENTITY_DIGITS ? same_rows[8 * (a % 2) + j] : 0;
}

static void put_columns(int16_t *columns, struct system s) {
    for (size_t a = 0; a < s.digits && a < 16; a++)
        for (size_t j = 0; j < 8; j++) columns[16 * j + a] = s.rows[8 * a + j];
}

void stored(int16_t *columns, struct system s) {
    memset(columns, 0, SLED_COLUMNS * sizeof *columns);
    put_columns(columns, s);
}

void lend(int16_t *columns, struct system s) {
    for (size_t j = 0; j < 8; j++)
        for (size_t a = 0; a < 16; a++) columns[16 * j + a] = unused(j, a);
    put_columns(columns, s);
}

void some_system(int16_t *columns, size_t *digits, size_t *length) {
    struct system s = ADMITTED[any(SYSTEMS)];
    junk = any(JUNKS);
    lend(columns, s);
    size_t number = 16 * any(8) + any((uint32_t)s.digits);
    uint32_t change = any(16);
    if (change < 2) columns[number] = (int16_t)((int)any(5) - 2);
    if (change == 2) columns[number] = (int16_t)((int)any(65536) - 32768);
    if (change == 3) s.digits -= any((uint32_t)s.digits);
    if (change == 4) s.digits = any(20);
    if (change == 5) s.digits = LARGE[any(LARGE_COUNTS)];
    *digits = s.digits;
    *length = any(32) == 0 ? any(LENT + 1) : SLED_COLUMNS;
}

/* ---- a run */

uint32_t run(struct lengths n) {
    return sled_run(n.in_digits, now.in_columns, n.in_columns, n.out_digits, now.out_columns, n.out_columns, now.state, n.state, now.input, n.input, now.output, n.output,
                    now.divisors, n.divisors, now.counts, n.counts);
}

struct lengths listing(struct system in, struct system out, size_t input, size_t output, size_t divisors) {
    return (struct lengths){in.digits, SLED_COLUMNS, out.digits, SLED_COLUMNS, SLED_STATE, input, output, divisors, SLED_COUNTS};
}

struct lengths right(struct system in, struct system out, size_t input, size_t output) { return listing(in, out, input, output, input + output + 1); }

void given(struct system in, struct system out, const int64_t *state, const uint8_t *word, size_t length) {
    begin();
    lend(now.in_columns, in);
    lend(now.out_columns, out);
    memcpy(now.state, state, 5 * sizeof *state);
    memcpy(now.input, word, length);
    ready();
}

void stands(int64_t a, int64_t b, int64_t c, int64_t d, int64_t held) {
    const int64_t five[5] = {a, b, c, d, held};
    memcpy(then.state, five, sizeof five);
}

void counted(size_t taken, size_t written, size_t listed) {
    then.counts[0] = taken;
    then.counts[1] = written;
    then.counts[2] = listed;
    for (size_t k = 0; k < LIST; k++) {
        now.divisors[k] = unlisted(k);
        then.divisors[k] = k < listed ? 1 : unlisted(k);
    }
}

const int64_t START[5] = {2, 1, 1, 2, -1}, ONE[5] = {1, 0, 0, 1, -1}, LEAST = -0x7fffffffffffffff - 1, MOST = 0x7fffffffffffffff;
const uint8_t WORD[3] = {0, 0, 1};

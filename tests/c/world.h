/* What every part of the test of the C library stands on; plugin.c says which parts there are.

   All slices that a call is lent lie in one struct, the world, with guards between them. `now` is lent. `then` is its copy from before the call, changed to what has to stand
   there afterwards; the two are compared byte by byte, so that no write goes unseen.

   Systems are written here as a person writes them, by rows, and turned into columns by lines of the test's own. Where they are lent, junk stands in the unused places. */
#ifndef WORLD_H
#define WORLD_H

#include "sledhillock.h"

int printf(const char *format, ...);
void *memcpy(void *to, const void *from, size_t n);
void *memset(void *to, int byte, size_t n);
int memcmp(const void *a, const void *b, size_t n);

enum { GUARD = 64, LENT = 144 }; /* LENT: more numbers than the columns or the rows of a system have, so that there are lengths which are too large */
enum { SPACE = 128, LIST = 2 * SPACE + 8 }; /* bytes of the input, and of the output; and more numbers of the list than a run over them can fill */
enum { FILE_SPACE = 4704, WORD_SPACE = 4104 }; /* more bytes than a job file has, and more than the word in it */

struct world {
    uint8_t guard0[GUARD];
    int16_t in_columns[LENT];
    uint8_t guard1[GUARD];
    int16_t out_columns[LENT];
    uint8_t guard2[GUARD];
    int16_t rows[LENT];
    uint8_t guard3[GUARD];
    int64_t matrix[8];
    uint8_t guard4[GUARD];
    int64_t state[8];
    uint8_t guard5[GUARD];
    uint8_t input[SPACE];
    uint8_t guard6[GUARD];
    uint8_t output[SPACE];
    uint8_t guard7[GUARD];
    uint64_t divisors[LIST];
    uint8_t guard8[GUARD];
    size_t counts[8];
    uint8_t guard9[GUARD];
    uint8_t file[FILE_SPACE];
    uint8_t guard10[GUARD];
    size_t found[8];
    uint8_t guard11[GUARD];
    int64_t two_state[16];
    uint8_t guard12[GUARD];
    uint8_t ys[SPACE];
    uint8_t guard13[GUARD];
    uint8_t word[WORD_SPACE];
    uint8_t guard14[GUARD];
    size_t written[8];
    uint8_t guard15[GUARD];
};

extern struct world now, then;
extern int passed, failed;

uint8_t unwritten(size_t k); /* what stands at place k of the output, and of the list, before a call: no digit and no divisor is so large */
uint64_t unlisted(size_t k);

void begin(void);           /* a world in which every byte is known */
void begin_at_random(void); /* a world of any bytes */
void ready(void);           /* the world is as a call finds it: from here on `then` is what it has to leave */

void check(int right, const char *what, long detail);

/* the call answered what it should, and the world is as it should be */
void settled(uint32_t answer, uint32_t expected, const char *what, long detail);

/* many tests of one kind count as one, and their failures one by one: `before` is `passed` from before the first */
void counts_as_one(int before);

uint32_t any(uint32_t below); /* a number by chance; the same ones at each run of the test */

/* ---- systems */

struct system {
    size_t digits;
    const int16_t *rows;
};

/* the built-in systems; sixteen digits, R's four times; R's with a fifth digit behind them, which stands for a hundred digits 0 of R; and R's with another before them,
   whose map has determinant 10000, so that as much can be cancelled at once */
extern const struct system R, B, D, SIXTEEN, HUNDRED, STEEP;
enum { SYSTEMS = 6 };
extern const struct system ADMITTED[SYSTEMS]; /* these */

/* systems that cover the line and do not expand: two digits that are both the identity, with (0, infinity) and (infinity, 0); and document 004's plain binary system */
extern const struct system SAME, PLAIN_BINARY;

/* rows of one digit that are refused by 6, 7, 8 and 9 */
extern const struct system REFUSED[4];

/* counts of digits that no system has, among them such as would be 4 if they were cut to fewer bits, or whose rows, eight numbers each, would be few */
enum { LARGE_COUNTS = 18 };
extern const size_t LARGE[LARGE_COUNTS];

/* what stands in unused places: 0; any number; small numbers; good digits, which would cover what is not covered and fit where nothing fits; identity digits, which would do
   so too, and do not expand */
extern enum junk { NOUGHT, ANY_NUMBERS, SMALL_NUMBERS, GOOD_DIGITS, IDENTITY_DIGITS, JUNKS } junk;

void stored(int16_t *columns, struct system s); /* the columns that the library has to write: 0 in unused places */
void lend(int16_t *columns, struct system s);   /* the columns that it is lent: junk in unused places; of more than 16 digits, the first 16 */

/* a system by chance: a good one, or one with a number changed, or with another count; sometimes of a wrong length */
void some_system(int16_t *columns, size_t *digits, size_t *length);

/* ---- a run over what stands in the world */

/* every count and every length that a run is told */
struct lengths {
    size_t in_digits, in_columns, out_digits, out_columns, state, input, output, divisors, counts;
};

uint32_t run(struct lengths n);

/* the right ones for these systems, with a list that is never full: one place more than input and output have together */
struct lengths right(struct system in, struct system out, size_t input, size_t output);

/* the same with a list of so many places */
struct lengths listing(struct system in, struct system out, size_t input, size_t output, size_t divisors);

/* what a run finds: systems, a state, a word */
void given(struct system in, struct system out, const int64_t *state, const uint8_t *word, size_t length);

/* what it has to leave: the state; and the counts, with as many 1 in the list, which is lent afresh, as are listed. R's digits cancel nothing; another divisor is said
   after this. */
void stands(int64_t a, int64_t b, int64_t c, int64_t d, int64_t held);
void counted(size_t taken, size_t written, size_t listed);

extern const int64_t START[5], ONE[5], LEAST, MOST;
extern const uint8_t WORD[3];

/* ---- a session: calls one behind the other over one word, one output and one list */

struct session {
    struct system in, out;
    const uint8_t *word;
    int64_t state[SLED_STATE];
    uint8_t output[SPACE];
    uint64_t divisors[LIST];
    size_t taken, written, listed; /* of all calls */
    uint32_t end;                  /* of the last one */
};

struct session session(struct system in, struct system out, const int64_t *state, const uint8_t *word);

/* one call more: so many bytes, so much room and so many places of the list, behind what the calls before took, wrote and listed; its counts are held against each other */
void call(struct session *s, size_t input, size_t output, size_t divisors);

/* the same with at most so many: no more than is left of a word of this length, of the output and of the list */
void call_at_most(struct session *s, size_t length, size_t input, size_t output, size_t divisors);

/* ---- the parts */

void built_in(void);
void admission(void);
void turning(void);
void opening(void);
void runs(void);
void lists(void);
void cuts(void);
void scales(void);
void refusals(void);
void jobs(void);
void writing(void);
void long_writings(void);
void writing_refusals(void);
void saved_jobs(void);
void random_writings(int times);
void opening_two(void);
void pairs(void);
void pair_cuts(void);
void pair_refusals(void);
void pair_fractions(void);
void random_pairs(int times);

#endif

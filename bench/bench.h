/* What the parts of the benchmark have in common: bench/bench.c times runs over one word and admission, bench/two.c runs over two words, bench/writing.c written job files. */
#include "plain.h"
#include "sledhillock.h"

int printf(const char *format, ...);
void *memcpy(void *to, const void *from, size_t n);
int memcmp(const void *a, const void *b, size_t n);

struct system {
    usize digits;
    i16 columns[SLED_COLUMNS];
};

extern struct system R, B, D;

/* the sides: plain C to the letter, plain C that does the same, the proved library */
enum { LETTER, SAME, PROVED, SIDES };

/* how many digits a long word has */
enum { LONG = 20000 };

/* the processor time of this program */
double now(void);

/* the time since `start`, if it is less than the best so far */
void keep_best(double *best, double start);

/* a number below another, by chance */
u32 any(u32 below);

/* a word of LONG digits of a system for a random number */
void word_of(const struct system *s, u8 *word);

/* A row of the table: how much a second each side has done, and what the proved one has done for 1 of another. A side that was not timed has time 0, and empty cells. */
void report(const char *name, const double *best, double done, const char *unit);

/* the case in which the state left its range, and how often in a round */
void opened_again(const char *name, usize times);

/* what is wrong with a case: then the program fails at its end */
void fail(const char *name, const char *what);
#define DIFFERENT "the sides answer differently"

/* bench/two.c */
void time_two_words(int rounds);

/* bench/writing.c: R and B are there, and the systems of sixteen digits are handed in */
void time_writing(const struct system *ins, const struct system *outs, int rounds);

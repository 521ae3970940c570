/* Times the proved library against plain C, to the letter of document 01 (bench/plain.c) and doing the same as the library (bench/same.c): three sides, compiled by one compiler
   into one program, by turns in one run. The best of many rounds counts on each side. Behind its last round a case's answers are compared: the counts, the digits, the divisors
   and how often a session was opened again. bench/run builds, runs and keeps the table. */
#include "bench.h"

int atoi(const char *text);
struct timespec {
    long seconds, nanoseconds;
};
int clock_gettime(int clock, struct timespec *t);

typedef u32 run_call(usize, const i16 *, usize, usize, const i16 *, usize, i64 *, usize, const u8 *, usize, u8 *, usize, u64 *, usize, usize *, usize);
typedef u32 admit_call(usize, const i16 *, usize);

static u32 proved_run(usize ins, const i16 *in_columns, usize n, usize outs, const i16 *out_columns, usize m, i64 *state, usize s, const u8 *input, usize length, u8 *output,
                      usize room, u64 *divisors, usize places, usize *counts, usize c) {
    return sled_run(ins, in_columns, n, outs, out_columns, m, (int64_t *)state, s, input, length, output, room, (uint64_t *)divisors, places, counts, c);
}

double now(void) {
    struct timespec t;
    clock_gettime(2, &t); /* the processor time of this program, so that others on the machine count for less */
    return (double)t.seconds + 1e-9 * (double)t.nanoseconds;
}

void keep_best(double *best, double start) {
    double time = now() - start;
    if (time < *best) *best = time;
}

static u64 seed = 88172645463325252u;

u32 any(u32 below) {
    seed ^= seed << 13;
    seed ^= seed >> 7;
    seed ^= seed << 17;
    return (u32)(seed >> 33) % below;
}

/* ---- systems */

struct system R = {.digits = SLED_R_DIGITS}, B = {.digits = SLED_B_DIGITS}, D = {.digits = SLED_D_DIGITS};

static void leaf(struct system *s, int digit, const i16 *f, int half) {
    /* F maps (0, infinity), or (infinity, 0), onto the digit's interval */
    i16 row[SLED_ROW] = {f[0], f[1], f[2], f[3]}, ends[4] = {0, 1, 1, 0};
    if (half == 1) ends[0] = 1, ends[1] = 0, ends[2] = 0, ends[3] = -1;
    for (int e = 0; e < 2; e++) {
        row[4 + 2 * e] = (i16)(f[0] * ends[2 * e] + f[1] * ends[2 * e + 1]);
        row[5 + 2 * e] = (i16)(f[2] * ends[2 * e] + f[3] * ends[2 * e + 1]);
    }
    for (int j = 0; j < SLED_ROW; j++) s->columns[16 * j + digit] = row[j];
}

/* Sixteen digits: the two halves of the line are split, eight pieces each, where R's digits would split them, at random. So the word of a number is a path in a tree, and
   words of any length run on. Digits 0 to 7 are those of the half (0, infinity). */
static struct system random_16(void) {
    struct system s = {.digits = 16};
    for (int half = 0; half < 2; half++) {
        i16 maps[8][4] = {{1, 0, 0, 1}};
        for (int n = 1; n < 8;) {
            int k = (int)any((u32)n);
            i16 a = maps[k][0], b = maps[k][1], c = maps[k][2], d = maps[k][3];
            i16 t = half == 0 ? 1 : -1;
            /* times (1 0 t 1), and times (1 t 0 1): R's digits 0 and 1, or 3 and 2 */
            i16 low[4] = {(i16)(a + t * b), b, (i16)(c + t * d), d}, high[4] = {a, (i16)(b + t * a), c, (i16)(d + t * c)};
            memcpy(maps[k], low, sizeof low);
            memcpy(maps[n++], high, sizeof high);
        }
        for (int k = 0; k < 8; k++) leaf(&s, 8 * half + k, maps[k], half);
    }
    return s;
}

/* ---- cases */

/* a step that lists a divisor writes a digit or absorbs one that was taken: so a list of LISTED places is never full */
enum { ROOM = 64 * LONG, LISTED = LONG + ROOM };
static u8 word[LONG], output[SIDES][ROOM];
static u64 divisors[SIDES][LISTED];

struct job {
    const struct system *ins, *outs;
    i64 matrix[4];
    usize length, calls; /* digits a call, and calls a round */
};

/* One round: the word, so many digits a call. Where the state leaves its range the session is opened again. Answers the digits taken and written and the divisors listed, and
   a sum of the ends. */
static void round_of(run_call *run, const struct job *j, u8 *out, u64 *list, usize *counts, usize *stops) {
    i64 state[5] = {j->matrix[0], j->matrix[1], j->matrix[2], j->matrix[3], -1};
    usize taken = 0, written = 0, listed = 0, ends = 0;
    for (usize k = 0; k < j->calls; k++) {
        usize c[SLED_COUNTS], give = j->length * (k + 1) - taken;
        u32 end = run(j->ins->digits, j->ins->columns, SLED_COLUMNS, j->outs->digits, j->outs->columns, SLED_COLUMNS, state, 5, word + taken, give, out + written,
                      ROOM - written, list + listed, LISTED - listed, c, SLED_COUNTS);
        taken += c[0];
        written += c[1];
        listed += c[2];
        if (end == 22) {
            ends++;
            for (int i = 0; i < 4; i++) state[i] = j->matrix[i];
            state[4] = -1;
            k--;
        } else if (end != 0) {
            ends += 1000000;
            break;
        }
    }
    counts[0] = taken, counts[1] = written, counts[2] = listed;
    *stops = ends;
}

static int wrong;

void fail(const char *name, const char *what) {
    printf("%s: %s\n", name, what);
    wrong = 1;
}

/* the cases where the state left its range, and how often in a round */
static struct reopening {
    const char *name;
    usize times;
} reopened[30];
static int reopenings;

void opened_again(const char *name, usize times) {
    if (times != 0) reopened[reopenings++] = (struct reopening){name, times};
}

/* Ratios are rounded down, so that none reaches a bar by rounding. */
void report(const char *name, const double *best, double done, const char *unit) {
    printf("| %s |", name);
    for (int side = 0; side < SIDES; side++) best[side] == 0 ? printf(" |") : printf(" %.1f |", done / best[side]);
    printf(" %s |", unit);
    for (int side = 0; side < PROVED; side++) best[side] == 0 ? printf(" |") : printf(" %.2f |", (double)(long)(100 * best[side] / best[PROVED]) / 100);
    printf("\n");
}

/* whether a side counted, stopped, wrote and listed as the first one did */
static int agrees(int side, usize counts[SIDES][SLED_COUNTS], const usize *stops) {
    return memcmp(counts[0], counts[side], sizeof counts[0]) == 0 && stops[0] == stops[side] && memcmp(output[0], output[side], counts[0][1]) == 0 &&
           memcmp(divisors[0], divisors[side], counts[0][2] * sizeof **divisors) == 0;
}

static void time_run(const char *name, const struct job *j, int rounds) {
    run_call *calls[SIDES] = {plain_run, same_run, proved_run};
    usize counts[SIDES][SLED_COUNTS], stops[SIDES];
    double best[SIDES] = {1e9, 1e9, 1e9};
    for (int r = 0; r < rounds; r++)
        for (int side = 0; side < SIDES; side++) {
            double start = now();
            round_of(calls[side], j, output[side], divisors[side], counts[side], &stops[side]);
            keep_best(&best[side], start);
        }
    if (!agrees(SAME, counts, stops) || !agrees(PROVED, counts, stops)) fail(name, DIFFERENT);
    if (j->length == 1)
        report(name, best, (double)j->calls * 1e-6, "million calls a second");
    else
        report(name, best, (double)counts[0][0] * 1e-6, "million digits taken a second");
    opened_again(name, stops[0]);
}

/* of two sides: plain C admits in one way alone */
static void time_admit(const char *name, const struct system *s, int rounds) {
    admit_call *calls[SIDES] = {[LETTER] = plain_admit, [PROVED] = sled_admit};
    double best[SIDES] = {[LETTER] = 1e9, [PROVED] = 1e9};
    u32 sum = 0;
    for (int r = 0; r < rounds; r++)
        for (int side = 0; side < SIDES; side++) {
            if (calls[side] == 0) continue;
            double start = now();
            for (int k = 0; k < 1000; k++) sum += calls[side](s->digits, s->columns, SLED_COLUMNS);
            keep_best(&best[side], start);
        }
    if (sum != 0) fail(name, "not admitted");
    report(name, best, 1000 * 1e-6, "million systems a second");
}

/* a word of digits 0 to n - 1 */
static void random_word(u32 n) {
    for (usize k = 0; k < LONG; k++) word[k] = (u8)any(n);
}

/* what a run writes on R's random word */
void word_of(const struct system *s, u8 *word) {
    static u8 source[LONG];
    const i64 one[5] = {1, 0, 0, 1, -1};
    i64 state[5];
    usize counts[SLED_COUNTS], filled = 0;
    for (usize k = 0; k < LONG; k++) source[k] = (u8)any(2);
    memcpy(state, one, sizeof one);
    usize from = 0;
    while (filled < LONG && from < LONG) {
        u32 end = plain_run(R.digits, R.columns, SLED_COLUMNS, s->digits, s->columns, SLED_COLUMNS, state, 5, source + from, LONG - from, word + filled, LONG - filled,
                            divisors[0], LISTED, counts, SLED_COUNTS);
        from += counts[0];
        filled += counts[1];
        if (end == 22) memcpy(state, one, sizeof one);
        if (end == 20) break;
    }
    for (usize k = filled; k < LONG; k++) word[k] = word[k - filled];
}

int main(int argc, char **argv) {
    int rounds = argc > 1 ? atoi(argv[1]) : 300;
    sled_system_r(R.columns, SLED_COLUMNS);
    sled_system_b(B.columns, SLED_COLUMNS);
    sled_system_d(D.columns, SLED_COLUMNS);
    printf("| case | to the letter | the same | proved | unit | proved / to the letter | proved / the same |\n|---|---|---|---|---|---|---|\n");
    random_word(2);
    time_run("R to R, 2 1 1 2, long word", &(struct job){&R, &R, {2, 1, 1, 2}, LONG, 1}, rounds);
    time_run("R to R, 5 2 3 4, long word", &(struct job){&R, &R, {5, 2, 3, 4}, LONG, 1}, rounds);
    time_run("R to R, one digit a call", &(struct job){&R, &R, {2, 1, 1, 2}, 1, 2000}, rounds);
    word_of(&B, word);
    time_run("B to B, 3 1 1 3, long word", &(struct job){&B, &B, {3, 1, 1, 3}, LONG, 1}, rounds);
    time_run("B to B, one digit a call", &(struct job){&B, &B, {3, 1, 1, 3}, 1, 2000}, rounds);
    word_of(&D, word);
    time_run("D to B, 3 -1 0 1, long word", &(struct job){&D, &B, {3, -1, 0, 1}, LONG, 1}, rounds);
    time_run("D to B, one digit a call", &(struct job){&D, &B, {3, -1, 0, 1}, 1, 2000}, rounds);
    static struct system random[6];
    for (int k = 0; k < 6; k++) random[k] = random_16();
    random_word(8);
    time_run("random 16 to random 16, long word", &(struct job){&random[0], &random[1], {2, 1, 1, 2}, LONG, 1}, rounds);
    time_run("another pair, long word", &(struct job){&random[2], &random[3], {7, 1, 2, 5}, LONG, 1}, rounds);
    time_run("a third pair, long word", &(struct job){&random[4], &random[5], {5, 0, 1, 3}, LONG, 1}, rounds);
    time_run("random 16 to random 16, one digit a call", &(struct job){&random[0], &random[1], {2, 1, 1, 2}, 1, 2000}, rounds);
    time_two_words(rounds);
    time_admit("admission of R", &R, rounds);
    time_admit("admission of B", &B, rounds);
    time_admit("admission of a random 16", &random[0], rounds);
    time_writing(&random[0], &random[1], rounds);
    printf("\nWhere the state leaves its range (end 22) the session is opened again, which costs every side a call:");
    for (int k = 0; k < reopenings; k++) printf("%s %s, %lu times a round", k == 0 ? "" : ";", reopened[k].name, reopened[k].times);
    printf(".\n");
    return wrong;
}

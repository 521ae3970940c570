/* Every exported function of the C library on good and bad inputs: its answer, and every byte that it was lent or that lies beside what it was lent. tests/ci/c-plugin
   builds and runs it.

     world.c      the world that calls are lent, the systems that they are about, and chance
     systems.c    the calls about one system: handing one out, and judging one
     turning.c    turning rows into columns and back
     runs.c       opening, and runs; refusals.c has runs that are refused
     lists.c      the list of what was cancelled: where it is full, and how long it has to be
     session.c    calls one behind the other
     cuts.c       runs in several calls are one run
     scale.c      what the list is for: the scale of all that a session has done
     jobs.c       job files that are read
     writing.c    job files that are written; writing_refusals.c has jobs that are refused, and plain_writing.c random ones, held against plain C
     saved.c      what was written is read again, and the other way round; sessions that are saved as jobs, and go on
     pairs.c      opening, and runs, over two words; pair_refusals.c has those that are refused
     pair_sums.c  over two words: runs in several calls are one run; exact fractions; and random runs, held against plain C (plain_pairs.c)
     plugin.c     here: random runs, most of them bad, held against plain C (bench/plain.c); and all parts one after the other */
#include "plain.h"
#include "world.h"

/* a state by chance: small entries, or some near the bound, and a held digit or none */
static void some_state(int64_t *state) {
    int64_t scale = any(8) == 0 ? 250000000 : 1;
    for (int k = 0; k < 4; k++) state[k] = ((int)any(9) - 4) * scale + (any(2) == 0 ? (int)any(3) - 1 : 0);
    state[4] = any(2) == 0 ? -1 : (int)any(10) - 2;
}

static struct lengths some_run(void) {
    struct lengths n = {.state = SLED_STATE, .input = any(100), .output = any(100), .divisors = any(any(2) == 0 ? 20 : 240), .counts = SLED_COUNTS};
    begin_at_random();
    some_system(now.in_columns, &n.in_digits, &n.in_columns);
    some_system(now.out_columns, &n.out_digits, &n.out_columns);
    some_state(now.state);
    if (any(32) == 0) n.state = any(8);
    if (any(32) == 0) n.counts = any(8);
    uint32_t below = 2 + any(8);
    for (size_t k = 0; k < SPACE; k++) now.input[k] = (uint8_t)any(any(4) == 0 ? below : 2);
    ready();
    return n;
}

/* plain C's run over what stands in `then` */
static uint32_t plain(struct lengths n) {
    return plain_run(n.in_digits, then.in_columns, n.in_columns, n.out_digits, then.out_columns, n.out_columns, (i64 *)then.state, n.state, then.input, n.input, then.output,
                     n.output, (u64 *)then.divisors, n.divisors, then.counts, n.counts);
}

/* of a run that was made: one divisor for each digit written and for each absorbed, none of them out of range, and a list that is long enough is not full */
static int listed_well(struct lengths n, uint32_t end, size_t before) {
    if (end != SLED_OK && end != SLED_END_LIST_FULL && (end < SLED_END_NO_ROOM || end > SLED_END_RANGE_LEFT)) return 1; /* refused */
    const size_t *c = now.counts, after = now.state[4] >= 0;
    int well = c[2] + after == c[0] + c[1] + before && (end != SLED_END_LIST_FULL || n.divisors < n.input + n.output + before);
    for (size_t k = 0; k < c[2]; k++) well &= now.divisors[k] >= 1 && now.divisors[k] <= 200000000000;
    return well;
}

static void random_runs(int times) {
    int seen[41] = {0}, before = passed;
    for (int t = 0; t < times; t++) {
        struct lengths n = some_run();
        size_t held = now.state[4] >= 0;
        check(sled_admit(n.in_digits, now.in_columns, n.in_columns) == plain_admit(n.in_digits, then.in_columns, n.in_columns), "random admission", t);
        uint32_t end = run(n);
        settled(end, plain(n), "random run", t);
        check(listed_well(n, end, held), "the list of a random run", t);
        if (end <= 40) seen[end]++;
    }
    counts_as_one(before);
    const int numbers[] = {0, 3, 6, 7, 8, 9, 10, 12, 15, 18, 20, 21, 22, 40};
    for (size_t k = 0; k < sizeof numbers / sizeof *numbers; k++) check(seen[numbers[k]] > 0, "random runs meet each number", numbers[k]);
}

int main(void) {
    built_in();
    turning();
    opening();
    opening_two();
    long_writings();
    for (junk = NOUGHT; junk < JUNKS; junk++) {
        admission();
        runs();
        lists();
        cuts();
        scales();
        refusals();
        jobs();
        writing();
        writing_refusals();
        saved_jobs();
        pairs();
        pair_cuts();
        pair_refusals();
        pair_fractions();
    }
    random_runs(200000);
    random_pairs(100000);
    random_writings(100000);
    printf("%d passed, %d failed\n", passed, failed);
    return failed != 0;
}

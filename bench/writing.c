/* Times the writing of job files (document 02, T-01): the proved library against plain C that does the same (bench/same_writing.c), by turns in one run. */
#include "bench.h"

typedef u32 write_call(usize, const i16 *, usize, usize, const i16 *, usize, const i64 *, usize, const u8 *, usize, u8 *, usize, usize *, usize);

static u32 proved_write(usize ins, const i16 *in_columns, usize n, usize outs, const i16 *out_columns, usize m, const i64 *matrix, usize four, const u8 *word, usize length,
                        u8 *file, usize room, usize *written, usize w) {
    return sled_write(ins, in_columns, n, outs, out_columns, m, (const int64_t *)matrix, four, word, length, file, room, written, w);
}

enum { FILES = 1000, LONGEST = 4096 };
static u8 word[LONGEST], files[SIDES][SLED_FILE];

struct content {
    const struct system *ins, *outs;
    i64 matrix[SLED_MATRIX];
    usize length; /* digits of the word */
};

/* One round: the same file, again and again. Answers 0 if every call did. */
static u32 round_of(write_call *write, const struct content *c, u8 *file, usize *written) {
    u32 refused = 0;
    for (int k = 0; k < FILES; k++)
        refused |= write(c->ins->digits, c->ins->columns, SLED_COLUMNS, c->outs->digits, c->outs->columns, SLED_COLUMNS, c->matrix, SLED_MATRIX, word, c->length, file,
                         SLED_FILE, written, 1);
    return refused;
}

static void time_write(const char *name, const struct content *c, int rounds) {
    write_call *calls[SIDES] = {[SAME] = same_write, [PROVED] = proved_write};
    usize written[SIDES] = {0};
    u32 refused[SIDES];
    double best[SIDES] = {[SAME] = 1e9, [PROVED] = 1e9};
    for (int r = 0; r < rounds; r++)
        for (int side = SAME; side < SIDES; side++) {
            double start = now();
            refused[side] = round_of(calls[side], c, files[side], &written[side]);
            keep_best(&best[side], start);
        }
    /* a refusal would be quick, and is not what is timed */
    if (refused[SAME] != 0 || refused[PROVED] != 0) fail(name, "not written");
    /* the buffers whole, for the bytes behind a file have to stay */
    if (written[SAME] != written[PROVED] || memcmp(files[SAME], files[PROVED], SLED_FILE) != 0) fail(name, DIFFERENT);
    report(name, best, FILES * 1e-3, "thousand files a second");
}

void time_writing(const struct system *ins, const struct system *outs, int rounds) {
    for (usize k = 0; k < LONGEST; k++) word[k] = (u8)any(4); /* digits that each of the systems has */
    time_write("a job written, R to R, 3 digits", &(struct content){&R, &R, {2, 1, 1, 2}, 3}, rounds);
    time_write("a job written, B to B, 1000 digits", &(struct content){&B, &B, {3, 1, 1, 3}, 1000}, rounds);
    time_write("a job written, 16 digits to 16 digits, 4096 digits", &(struct content){ins, outs, {2, 1, 1, 2}, LONGEST}, rounds);
}

/* Writing job files: what sled_write writes, into buffers of every length. writing_refusals.c has what it refuses. */
#include "files.h"

struct writing right_for(struct job j, size_t file) {
    return (struct writing){j.in.digits, SLED_COLUMNS, j.out.digits, SLED_COLUMNS, SLED_MATRIX, j.word, file, 1};
}

uint32_t write_file(struct writing n) {
    return sled_write(n.in_digits, now.in_columns, n.in_columns, n.out_digits, now.out_columns, n.out_columns, now.matrix, n.matrix, now.word, n.word, now.file, n.file,
                      now.written, n.written);
}

void handed(struct job j) {
    begin();
    lend(now.in_columns, j.in);
    lend(now.out_columns, j.out);
    memcpy(now.matrix, j.matrix, sizeof j.matrix);
    for (size_t k = 0; k < WORD_SPACE; k++) now.word[k] = (uint8_t)(89 * k + k / 256); /* every byte: which of them are digits is not asked */
    ready();
}

size_t leaves(struct job j) { return then.written[0] = put_job(then.file, j.in, j.out, 4, j.matrix, (int)j.word, now.word, j.word); }

/* document 01's job, byte by byte */
static void by_hand(void) {
    static const uint8_t file[147] = {
        4, 0,                                                                       /* R has four digits */
        1, 0, 0,   0,   1,   0,   1, 0, 0,   0,   1, 0, 1, 0, 1,   0,               /* digit 0: 1 0 1 1 ; 0 1 1 1 */
        1, 0, 1,   0,   0,   0,   1, 0, 1,   0,   1, 0, 1, 0, 0,   0,               /* digit 1: 1 1 0 1 ; 1 1 1 0 */
        1, 0, 255, 255, 0,   0,   1, 0, 1,   0,   0, 0, 1, 0, 255, 255,             /* digit 2: 1 -1 0 1 ; 1 0 1 -1 */
        1, 0, 0,   0,   255, 255, 1, 0, 255, 255, 1, 0, 0, 0, 1,   0,               /* digit 3: 1 0 -1 1 ; -1 1 0 1 */
        4, 0,                                                                       /* and R again */
        1, 0, 0,   0,   1,   0,   1, 0, 0,   0,   1, 0, 1, 0, 1,   0,
        1, 0, 1,   0,   0,   0,   1, 0, 1,   0,   1, 0, 1, 0, 0,   0,
        1, 0, 255, 255, 0,   0,   1, 0, 1,   0,   0, 0, 1, 0, 255, 255,
        1, 0, 0,   0,   255, 255, 1, 0, 255, 255, 1, 0, 0, 0, 1,   0,
        4, 0, 2, 0, 1, 0, 1, 0, 2, 0,                                               /* the matrix 2 1 1 2 */
        3, 0, 0, 0, 1};                                                             /* the word 0 0 1 */
    const struct job first = {R, R, {2, 1, 1, 2}, 3};
    handed(first);
    memcpy(now.word, WORD, sizeof WORD);
    ready();
    memcpy(then.file, file, sizeof file);
    then.written[0] = sizeof file;
    settled(write_file(right_for(first, SLED_FILE)), 0, "document 01's job", 0);
}

static void writes(struct job j, size_t file, const char *what, long detail) {
    handed(j);
    leaves(j);
    settled(write_file(right_for(j, file)), 0, what, detail);
}

/* every pair of systems with words of many lengths, into a buffer that just holds the file, and into longer ones */
static void good_jobs(void) {
    const size_t words[] = {0, 1, 9, 127, 128, 255, 256, 257, 511, 4095, 4096};
    for (int k = 0; k < SYSTEMS * SYSTEMS; k++)
        for (size_t w = 0; w < sizeof words / sizeof *words; w++) {
            struct job j = {ADMITTED[k / SYSTEMS], ADMITTED[k % SYSTEMS], {1000, -3, 5, 7}, words[w]};
            size_t length = 16 + 16 * j.in.digits + 16 * j.out.digits + j.word, buffers[] = {length, length + 1, SLED_FILE, FILE_SPACE};
            for (int b = 0; b < 4; b++) writes(j, buffers[b], "two systems, a matrix and a word", 100 * k + (long)w);
        }
}

/* numbers of a matrix that are its bounds, that have both bytes, or that have something in common: they are written as they are */
static void good_matrices(void) {
    const int64_t matrices[][SLED_MATRIX] = {
        {1000, 0, 0, 1},  {-1000, 0, 0, -1}, {1, 0, 0, 1000}, {-1, 0, 0, -1000},    {1, 1000, 0, 1},           {1, -1000, 0, 1},           {1, 0, 1000, 1},
        {1, 0, -1000, 1}, {2, 0, 0, 2},      {6, 4, 2, 8},    {-300, 0, 0, -900},   {1000, 999, 999, 1000},    {1000, -1000, 1000, 1000},  {-1000, 1000, -1000, -1000},
        {0, 1, -1, 0},    {0, -1, 1, 0},     {255, 0, 0, 256}, {257, -255, 0, 511}, {-256, 255, -257, -512},   {1000, -1000, 1000, -999},  {500, 499, 1000, 999}};
    for (size_t k = 0; k < sizeof matrices / sizeof *matrices; k++) {
        struct job j = {R, D, {0}, 9};
        memcpy(j.matrix, matrices[k], sizeof j.matrix);
        writes(j, SLED_FILE, "a matrix that opens", (long)k);
    }
}

/* what is refused by 14 is written as soon as the buffer is long enough */
static void each_buffer(struct job j, size_t from, size_t to) {
    int before = passed;
    for (size_t file = from; file <= to; file++) {
        handed(j);
        size_t length = 16 + 16 * j.in.digits + 16 * j.out.digits + j.word;
        if (file >= length) check(leaves(j) == length, "how many bytes a file has", (long)length);
        settled(write_file(right_for(j, file)), file < length ? SLED_REFUSED_BUFFER : 0, "a buffer of each length", (long)file);
    }
    counts_as_one(before);
}

void writing(void) {
    by_hand();
    good_jobs();
    good_matrices();
    each_buffer((struct job){R, R, {2, 1, 1, 2}, 3}, 0, FILE_SPACE);
    each_buffer((struct job){B, D, {2, 1, 1, 2}, 0}, 0, 300);
    each_buffer((struct job){SIXTEEN, SIXTEEN, {2, 1, 1, 2}, 4096}, SLED_FILE - 300, FILE_SPACE); /* the largest file */
    check(SLED_FILE == 4624, "the header's largest file", SLED_FILE);
}

/* lengths that would be others if they were cut to 8 or 16 bits */
void long_writings(void) {
    static uint8_t word[65536 + 4096], file[65536 + 147], before[sizeof file];
    static int64_t matrix[65536 + SLED_MATRIX];
    static size_t written[65536 + 1];
    const struct job j = {R, R, {2, 1, 1, 2}, 3};
    int16_t *in = now.in_columns, *out = now.out_columns;
    handed(j);
    for (size_t cut = 256; cut <= 65536; cut *= 256) {
        settled(sled_write(4, in, 128, 4, out, 128, matrix, cut + 4, now.word, 3, now.file, SLED_FILE, now.written, 1), 40, "a long matrix", (long)cut);
        settled(sled_write(4, in, 128, 4, out, 128, now.matrix, 4, now.word, 3, now.file, SLED_FILE, written, cut + 1), 40, "a long count", (long)cut);
    }
    for (size_t more = 0; more <= 4096; more += 1024)
        settled(sled_write(4, in, 128, 4, out, 128, now.matrix, 4, word, 65536 + more, now.file, FILE_SPACE, now.written, 1), 5 + 256 * 3, "a long word", (long)more);
    for (size_t more = 0; more <= 147; more++) {
        memset(file, 0xA5, sizeof file), memset(before, 0xA5, sizeof before);
        then.written[0] = put_job(before, R, R, 4, j.matrix, 3, now.word, 3);
        settled(sled_write(4, in, 128, 4, out, 128, now.matrix, 4, now.word, 3, file, 65536 + more, now.written, 1), 0, "a long buffer", (long)more);
        check(memcmp(file, before, sizeof file) == 0, "a long buffer behind the file", (long)more);
    }
    check(written[0] == 0 && written[1] == 0 && matrix[0] == 0, "long slices are not written", 0);
}

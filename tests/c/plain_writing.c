/* Writing a job file in plain C, to the letter of document 01's "Job file" and of document 02's T-01, and jobs by chance, most of them bad, for which sled_write is held against
   it. It makes the same checks in the same order; the file is made beside the buffer, and copied if it fits. Nothing is proved of it. Systems are judged by bench/plain.c. */
#include "files.h"

static uint8_t made[SLED_FILE];
static size_t length;

/* "2 bytes, low byte first"; "signed 16-bit numbers, low byte first, two's complement" */
static void pair(int64_t n) {
    if (n < 0) n += 65536;
    made[length++] = (uint8_t)(n % 256);
    made[length++] = (uint8_t)(n / 256);
}

/* "count of digits, rows of eight" */
static void system_section(size_t digits, const int16_t *columns) {
    pair((int64_t)digits);
    for (size_t a = 0; a < digits; a++)
        for (size_t j = 0; j < 8; j++) pair(columns[16 * j + a]);
}

/* "count 4, then a b c d as such numbers" */
static void matrix_section(const int64_t *matrix) {
    pair(4);
    for (int k = 0; k < 4; k++) pair(matrix[k]);
}

/* "count 0..4096, one byte a digit" */
static void word_section(const uint8_t *word, size_t digits) {
    pair((int64_t)digits);
    for (size_t k = 0; k < digits; k++) made[length++] = word[k];
}

/* "Matrix: 6, then 11" */
static uint32_t matrix_number(const int64_t *m) {
    for (int k = 0; k < 4; k++)
        if (m[k] < -1000 || m[k] > 1000) return 6;
    return m[0] * m[3] - m[1] * m[2] <= 0 ? 11 : 0;
}

/* over what stands in `then` */
static uint32_t plain_write(struct writing n) {
    if (n.in_columns != 128 || n.out_columns != 128 || n.matrix != 4 || n.written != 1) return 40;
    uint32_t number = plain_admit(n.in_digits, then.in_columns, 128);
    if (number != 0) return number;
    number = plain_admit(n.out_digits, then.out_columns, 128);
    if (number != 0) return number + 256 * 1;
    number = matrix_number(then.matrix);
    if (number != 0) return number + 256 * 2;
    if (n.word > 4096) return 5 + 256 * 3;
    length = 0;
    system_section(n.in_digits, then.in_columns);
    system_section(n.out_digits, then.out_columns);
    matrix_section(then.matrix);
    word_section(then.word, n.word);
    if (n.file < length) return 14;
    memcpy(then.file, made, length);
    then.written[0] = length;
    return 0;
}

/* ---- jobs by chance */

static int64_t some_entry(void) {
    if (any(64) == 0) return (int64_t)any(65536) * (any(2) == 0 ? 65536 : -4294967296) + (int64_t)any(4); /* such as would be small if it were cut */
    return any(8) == 0 ? (int64_t)any(2011) - 1005 : (int64_t)any(9) - 2;
}

static struct writing some_writing(void) {
    struct writing n = {.matrix = SLED_MATRIX, .word = any(16) == 0 ? 4090 + any(12) : any(300), .written = 1};
    begin_at_random();
    some_system(now.in_columns, &n.in_digits, &n.in_columns);
    some_system(now.out_columns, &n.out_digits, &n.out_columns);
    for (int k = 0; k < SLED_MATRIX; k++) now.matrix[k] = some_entry();
    if (any(64) == 0) n.matrix = any(8);
    if (any(64) == 0) n.written = any(8);
    size_t near = 16 + 16 * (n.in_digits % 20) + 16 * (n.out_digits % 20) + n.word - 2 + any(5);
    n.file = any(4) == 0 ? any(FILE_SPACE) : any(2) == 0 && near < FILE_SPACE ? near : SLED_FILE;
    ready();
    return n;
}

void random_writings(int times) {
    int seen[4][41] = {{0}}, before = passed;
    for (int t = 0; t < times; t++) {
        struct writing n = some_writing();
        uint32_t answer = write_file(n), expected = plain_write(n);
        settled(answer, expected, "a job by chance", t);
        check(SLED_NUMBER(answer) != SLED_REFUSED_BUFFER || n.file < SLED_FILE, "a buffer for the largest file is long enough", t);
        if (SLED_SECTION(answer) < 4 && SLED_NUMBER(answer) <= 40) seen[SLED_SECTION(answer)][SLED_NUMBER(answer)]++;
        if (answer == 0 && expected == 0 && reads_back(n, "a job by chance is read", t)) writes_again(then.written[0], "and is written again", t);
    }
    counts_as_one(before);
    const uint32_t answers[] = {0, 40, 14, 3, 6, 7, 8, 9, 10, 18, 256 + 3, 256 + 6, 256 + 7, 256 + 8, 256 + 9, 256 + 10, 256 + 18, 512 + 6, 512 + 11, 768 + 5};
    for (size_t k = 0; k < sizeof answers / sizeof *answers; k++) check(seen[answers[k] / 256][answers[k] % 256] > 0, "jobs by chance meet each answer", answers[k]);
}

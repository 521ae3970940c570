/* Stops a job half way, saves what is left of it as a job file, and goes on from that file.

     include/build save examples/c/save.c && ./run save

   What is left of a session is a job too: the same two systems, the state's matrix, and the word that is left. A state is cancelled, so the saved job opens with this very
   matrix. It opens with nothing held; where the session holds a digit, the last one that it took, the word that is left begins with it, and it is taken again. So the digits
   of both halves are those of one run. A job's matrix lies in -1000..1000, and a state may have grown beyond that: then sled_write refuses it, and the five numbers of the
   state are what has to be kept. */
#include "sledhillock.h"

int printf(const char *format, ...); /* <stdio.h> */

enum { ROOM = 32, LIST = 32 + ROOM + 1 }; /* no word here has more than 32 digits, so such a list is never full */

struct job {
    size_t in_digits, out_digits, length;
    int16_t in[SLED_COLUMNS], out[SLED_COLUMNS];
    int64_t matrix[SLED_MATRIX];
    const uint8_t *word;
};

struct session {
    int64_t state[SLED_STATE];
    size_t taken, written;
    uint8_t digits[ROOM];
};

/* opens a session, and runs it over the first bytes of the word with room for so many digits */
static uint32_t start(const struct job *job, size_t bytes, size_t room, struct session *s) {
    uint64_t divisors[LIST];
    size_t counts[SLED_COUNTS] = {0};
    uint32_t end = sled_open(job->matrix, SLED_MATRIX, s->state, SLED_STATE);
    if (end != SLED_OK) return end;
    end = sled_run(job->in_digits, job->in, SLED_COLUMNS, job->out_digits, job->out, SLED_COLUMNS, s->state, SLED_STATE, job->word, bytes, s->digits, room, divisors, LIST,
                   counts, SLED_COUNTS);
    s->taken = counts[0];
    s->written = counts[1];
    return end;
}

/* Saves what is left. The matrix is the first four numbers of the state, and the fifth is the held digit or -1. */
static uint32_t save(const struct job *job, const struct session *s, uint8_t *file, size_t *length) {
    size_t from = s->state[4] < 0 ? s->taken : s->taken - 1;
    return sled_write(job->in_digits, job->in, SLED_COLUMNS, job->out_digits, job->out, SLED_COLUMNS, s->state, SLED_MATRIX, job->word + from, job->length - from,
                      file, SLED_FILE, length, 1);
}

/* the word stays in the file */
static uint32_t load(const uint8_t *file, size_t length, struct job *job) {
    size_t found[SLED_FOUND];
    uint32_t answer = sled_read(file, length, job->in, SLED_COLUMNS, job->out, SLED_COLUMNS, job->matrix, SLED_MATRIX, found, SLED_FOUND);
    if (answer != SLED_OK) return answer;
    job->in_digits = found[0];
    job->out_digits = found[1];
    job->word = file + found[2];
    job->length = found[3];
    return SLED_OK;
}

static void print(const char *what, const uint8_t *digits, size_t count) {
    printf("%s%s", what, count == 0 ? " none" : "");
    for (size_t i = 0; i < count; i++) printf(" %u", digits[i]);
    printf("\n");
}

/* Runs a job in one go; then half of its word, with room for so many digits, and the other half from a file. Answers 0 if all is as it should be. */
static int in_halves(const char *what, const struct job *job, size_t room) {
    struct session whole, first, second;
    struct job rest;
    uint8_t file[SLED_FILE];
    size_t length;
    printf("%s\n", what);
    if (start(job, job->length, ROOM, &whole) != SLED_OK) return 1;
    uint32_t answer = start(job, job->length / 2, room, &first);
    if (answer != SLED_OK && answer != SLED_END_NO_ROOM) return 1;
    const int64_t *x = first.state;
    print("    one run    ", whole.digits, whole.written);
    print("    first half ", first.digits, first.written);
    printf("    stopped at  %lld %lld %lld %lld, held %lld\n", (long long)x[0], (long long)x[1], (long long)x[2], (long long)x[3], (long long)x[4]);
    answer = save(job, &first, file, &length);
    if (answer != SLED_OK) {
        printf("    not saved: refused by %u in section %u\n", SLED_NUMBER(answer), SLED_SECTION(answer));
        return answer != SLED_REFUSED_RANGE + 256 * 2; /* the matrix is out of range, and nothing else is wrong */
    }
    if (load(file, length, &rest) != SLED_OK || start(&rest, rest.length, ROOM, &second) != SLED_OK) return 1;
    printf("    saved       %u bytes\n", (unsigned)length);
    print("    word left  ", rest.word, rest.length);
    print("    second half", second.digits, second.written);
    if (first.written + second.written != whole.written) return 1;
    for (size_t i = 0; i < whole.written; i++)
        if (whole.digits[i] != (i < first.written ? first.digits[i] : second.digits[i - first.written])) return 1;
    printf("    both halves are the one run\n");
    return 0;
}

int main(void) {
    const uint8_t word[] = {1, 0, 0, 1, 1, 0, 1, 1, 1, 0, 0, 1}, third[] = {2, 0, 2, 0, 2, 0, 2, 0, 2, 0, 2, 0, 2, 0, 2, 0, 2, 0, 2, 0};
    struct job r_to_r = {SLED_R_DIGITS, SLED_R_DIGITS, sizeof word, {0}, {0}, {2, 1, 1, 2}, word};
    struct job d_to_r = {SLED_D_DIGITS, SLED_R_DIGITS, sizeof third, {0}, {0}, {3, -1, 0, 1}, third};
    uint32_t answer = sled_system_r(r_to_r.in, SLED_COLUMNS);
    if (answer == SLED_OK) answer = sled_system_r(r_to_r.out, SLED_COLUMNS);
    if (answer == SLED_OK) answer = sled_system_d(d_to_r.in, SLED_COLUMNS);
    if (answer == SLED_OK) answer = sled_system_r(d_to_r.out, SLED_COLUMNS);
    int wrong = answer != SLED_OK || in_halves("R to R, (2x + 1) / (x + 2)", &r_to_r, ROOM) ||
                in_halves("the same, with room for 5 digits at first: one is held", &r_to_r, 5) ||
                in_halves("D to R, 3x - 1 of a word for 1/3: the state grows", &d_to_r, ROOM);
    if (wrong) printf("this is not as it should be\n");
    return wrong;
}

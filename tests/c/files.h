/* What the parts of the test about job files stand on, beside world.h. */
#ifndef FILES_H
#define FILES_H

#include "plain.h"
#include "world.h"

/* the bytes of a job file, from rows, by the test's own lines (jobs.c): counts as given, whatever they are, and what stands behind them; answers how many bytes these are */
size_t put_job(uint8_t *file, struct system in, struct system out, int four, const int64_t *matrix, int count, const uint8_t *word, size_t length);

/* sled_read of the first so many bytes of the world's file (jobs.c) */
uint32_t read_file(size_t length);

/* what sled_write is handed: two systems, a matrix, and how many bytes of the world's word */
struct job {
    struct system in, out;
    int64_t matrix[SLED_MATRIX];
    size_t word;
};

/* every count and every length that sled_write is told */
struct writing {
    size_t in_digits, in_columns, out_digits, out_columns, matrix, word, file, written;
};

/* the right ones for a job, with a buffer of so many bytes (writing.c) */
struct writing right_for(struct job j, size_t file);

/* sled_write over what stands in the world (writing.c) */
uint32_t write_file(struct writing n);

/* what sled_write finds (writing.c): the systems, with junk in their unused places, the matrix, and a word of any bytes */
void handed(struct job j);

/* what it has to leave (writing.c): the file and its length, which is answered */
size_t leaves(struct job j);

/* What was written from the world, and stands in its file, is read: other numbers stand where it is read to. Answers whether it was. (saved.c) */
int reads_back(struct writing n, const char *what, long detail);

/* what was read, in a file of this length, is written into another buffer, with the word where it was found (saved.c) */
void writes_again(size_t length, const char *what, long detail);

#endif

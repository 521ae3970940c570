/* Plain C's versions of the calls that are timed. They take what the library's calls take: a system by its count of digits and its columns. */
typedef short i16;
typedef long long i64;
typedef unsigned char u8;
typedef unsigned int u32;
typedef unsigned long long u64;
typedef unsigned long usize;

/* bench/plain.c: document 01 to the letter */
u32 plain_admit(usize digits, const i16 *columns, usize length);
u32 plain_run(usize ins, const i16 *in_columns, usize in_length, usize outs, const i16 *out_columns, usize out_length, i64 *state, usize state_length,
              const u8 *input, usize n, u8 *output, usize room, u64 *divisors, usize places, usize *counts, usize counts_length);

/* bench/same.c: the same answers, by the ways of the library */
u32 same_run(usize ins, const i16 *in_columns, usize in_length, usize outs, const i16 *out_columns, usize out_length, i64 *state, usize state_length,
             const u8 *input, usize n, u8 *output, usize room, u64 *divisors, usize places, usize *counts, usize counts_length);

/* bench/same_two.c: runs over two words, by the ways of the library */
u32 same_run_two(usize ins, const i16 *in_columns, usize in_length, usize outs, const i16 *out_columns, usize out_length, i64 *state, usize state_length, const u8 *xs, usize n,
                 const u8 *ys, usize m, u8 *output, usize room, usize *counts, usize counts_length);

/* bench/same_writing.c: job files written, by the ways of the library */
u32 same_write(usize ins, const i16 *in_columns, usize in_length, usize outs, const i16 *out_columns, usize out_length, const i64 *matrix, usize matrix_length, const u8 *word,
               usize n, u8 *file, usize room, usize *written, usize written_length);

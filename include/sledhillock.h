/* Sledhillock: exact arithmetic on numbers that are written as digits. The C library.

   A number comes in as a word of digits of one system and goes out, changed by x -> (a x + b) / (c x + d), as digits of another. Two numbers come in as two words, and
   their sum, difference or product goes out. Nothing is rounded, and a digit that was given out is never taken back.

   HOW IT IS USED

     1. Have two digit systems, one for the input and one for the output: a built-in one (sled_system_r, sled_system_b, sled_system_d), those of a job file (sled_read),
        or one of your own, which you write by rows and which sled_columns turns into columns.
     2. Open a session for a matrix a b c d: sled_open writes a state of five numbers. They are all that is kept between calls; keep them wherever you like.
     3. Call sled_run with some input bytes, one digit a byte, some room for output and a list for what is cancelled, as often as you like. It says how many bytes it took,
        how many digits it wrote and how many numbers it listed. Cut the word, the room and the list as you like: hand what a call did not take and did not fill on to the
        next, with more, and the digits and the list are those of one call. If you do not care what is cancelled, lend a list with one place more than input and output have
        together: it is never full, and you need not look at it.
     4. To save a job, for later or for others, let sled_write fill a buffer with its file, and put the bytes wherever you like: two systems, a matrix and a word. sled_read
        finds the same job in them. What is left of a session can mostly be saved so too: see sled_write.

     For x + y, x - y and x y see TWO WORDS, below.

   WHAT IS PROMISED OF EVERY CALL

     - Test nothing first. Every call is fit for every input: it ends, and what breaks a rule is refused by a number (below). A count of digits may be any number, and any
       numbers may stand in the slices.
     - A call writes what is said of it here, and no other byte of yours, ever. It keeps nothing, allocates nothing and prints nothing; it has no state of its own, so
       that any number of threads may call it, each with its own state and buffers.
     - What is said of a call's answer and of what it writes is proved of its code, for all inputs.

   WHAT THE CALLER OWES

     - Each pointer is good for the length that stands behind it, and suitably aligned: lengths count elements, not bytes. A pointer may not be null, even with length 0.
     - Where a call writes a slice, no other slice of the same call overlaps it.

   THE NUMBERS

     A SYSTEM has 1 to 16 digits, and each digit eight numbers, a b c d x0 x1 y0 y1: it stands for the map F(x) = (a x + b) / (c x + d) and for the interval W with left
     end x0/x1 and right end y0/y1 (1/0 is infinity). A system is handed over as its count of digits and its COLUMNS, 128 numbers whatever the count: eight columns of
     sixteen numbers, one behind the other, first all a, then all b, and so on. Number j (0 to 7) of digit k (0 to 15) stands at 16 * j + k:

            j          digit 0     1     2     3    ..    15
            0   a            0     1     2     3    ..    15
            1   b           16    17    18    19    ..    31
            2   c           32    33    34    35    ..    47
            3   d           48    49    50    51    ..    63
            4   x0          64    65    66    67    ..    79
            5   x1          80    81    82    83    ..    95
            6   y0          96    97    98    99    ..   111
            7   y1         112   113   114   115    ..   127

     The places of digits that the system hasn't got are unused. The library writes 0 there; where it reads columns of yours, anything may stand there, and no answer
     depends on it.

     The same numbers by ROWS, eight numbers of digit 0, then eight of digit 1, and so on, with nothing behind the last: so a person writes a system, and so job files store
     it. sled_columns turns rows into columns, and sled_rows turns columns into rows.

     A system is admitted if every number of its digits lies in -100..100, a d - b c > 0, x0 y1 - x1 y0 < 0, the four numbers of F have greatest common divisor 1, so have
     the two of each end, every point of the line, with infinity, lies in the closed interval of some digit, and every digit expands: at every point z0/z1 inside W, the ends
     left out, (a d - b c) (z0^2 + z1^2) > (d z0 - b z1)^2 + (a z1 - c z0)^2. In other words, the inverse of F makes every piece of W longer, where the line with infinity
     is taken for a circle. The identity does not expand.

     A STATE is five numbers: the entries a b c d of a matrix, then the digit that was taken and is not yet absorbed, or -1 if there is none. It keeps the rules if the
     four have greatest common divisor 1, a d - b c > 0, each lies in -1000000000..1000000000, and the fifth is -1 or a digit of the input system. The states that
     sled_open and sled_run write keep them.

     A DIGIT is one byte: 0, 1, 2 and so on, not '0', '1', '2'.

     A DIVISOR is what was cancelled. To give a digit out, a run multiplies the state's matrix from the left by d -b -c a of that digit; to absorb the held digit, from the
     right by a b c d of that one. Then it divides the product by the greatest common divisor of its four entries. That number is listed, and 1 is listed too: one number for
     each digit given out and one for each digit absorbed, in the order in which this was done. Each is in 1..20000. What they are for: open a session and run it by as
     many calls as you like, always with the same two systems. At every moment, with

         L   the product of all divisors listed so far, of all calls
         G   the product of the matrices a b c d of all digits written so far, in their order, and E the product of their a d - b c
         X   the state's matrix
         M   the opened matrix: the one handed to sled_open, divided by the greatest common divisor of its entries
         A   the product of the matrices of all digits absorbed so far, in their order: of all that were taken, but for the held one

     L times (G X) is E times (M A), number for number: so G X is M A times E / L.

   TWO WORDS

     For x + y, x - y or x y have two systems as above. Both words, x and y, are of the input system. Open a session by sled_open_sum, sled_open_difference or
     sled_open_product, and call sled_run_two with some bytes of each word and some room, as often as you like. It says how many bytes it took of x, how many of y, and how
     many digits it wrote. Cut either word and the room as you like, as with one word. Nothing is listed.

     A STATE OF TWO WORDS is eleven numbers. The first eight, a b c d e f g h, stand for

         X(x, y)  =  (a x y + b x + c y + d) / (e x y + f x + g y + h)

     so that a session opens with 0 1 1 0 0 0 0 1 for x + y, with 0 1 -1 0 0 0 0 1 for x - y, and with 1 0 0 0 0 0 0 1 for x y. The ninth is the digit of x that was taken
     and is not yet absorbed, or -1 if there is none; the tenth is that of y, or -1; the eleventh says whose digit is absorbed next, 0 for x and 1 for y. It keeps the
     rules if the eight have greatest common divisor 1 (so that they are not all 0), each of them lies in -1000000000..1000000000, the ninth and the tenth are each -1 or a
     digit of the input system, and the eleventh is 0 or 1. The states that the calls write keep them.

     What a run does, again and again, is the first of these that applies:

         1. No digit of x is held: it takes the next byte of x.
         2. No digit of y is held: it takes the next byte of y.
         3. A digit is certain: it gives the smallest one that is.
         4. It absorbs the held digit whose turn it is, x first and then by turns: between two digits of x it absorbs one of y.

     When is a digit certain? What is left of x lies in the interval of the held digit of x, and what is left of y in that of y's. X makes four images of the four pairs of
     their ends: each is a pair of whole numbers, of x0/x1 and y0/y1 the two sums above with x0 y0, x0 y1, x1 y0, x1 y1 in the places of x y, x, y, 1. A digit may be given
     out if none of the four images is 0/0 and if, with each image written as p times the left end plus q times the right end of that digit's interval, the eight numbers
     p and q of all images are all at least 0, or all at most 0. Then X sends all that x and y can still be into that interval, its ends included, where it is not 0/0.

     What the digits mean: over a session of as many calls as you like, always with the same two systems, let any fraction or infinity be the number that is named by the
     rest of x, from its held digit on, and any by the rest of y. Then the digits written so far, in front of a word for X of the two, name x + y, x - y or x y, wherever
     that is a number: infinity + infinity, infinity - infinity and 0 times infinity are 0/0, which is none. And if in both words the number that is named from each digit
     on lies in that digit's closed interval, so does the number that is named from each digit written on, where X of the two rests is not 0/0.
*/
#ifndef SLEDHILLOCK_H
#define SLEDHILLOCK_H

#ifdef __has_include
#if !__has_include(<stdint.h>)
#define SLED_NO_HEADERS /* a compiler without its headers, as the Rattle toolchain's own */
#endif
#endif
#ifndef SLED_NO_HEADERS
#include <stddef.h>
#include <stdint.h>
#else
typedef __UINT8_TYPE__ uint8_t;
typedef __INT16_TYPE__ int16_t;
typedef __INT64_TYPE__ int64_t;
typedef __UINT32_TYPE__ uint32_t;
typedef __UINT64_TYPE__ uint64_t;
typedef __SIZE_TYPE__ size_t;
#endif

#ifdef __cplusplus
extern "C" {
#endif

/* What a call answers. */
enum sled_number {
    SLED_OK = 0,                /* admitted, opened, read or written; of a run: all the input was taken, nothing is held, and no digit more can be given out; of a run over
                                   two words: the next digit of one of them is needed, x's before y's, and that word was taken whole */

    /* a run stopped: sled_run and sled_run_two say how to go on, if one can */
    SLED_END_LIST_FULL = 15,    /* of sled_run alone: the next digit is certain and has room, or the held one is to be absorbed, and the list is full */
    SLED_END_NO_ROOM = 20,      /* the next digit is certain, and the output is full */
    SLED_END_NOT_A_DIGIT = 21,  /* the next byte, of two words that which is needed next, is no digit of the input system; it was not taken */
    SLED_END_RANGE_LEFT = 22,   /* the next state has an entry outside -1000000000..1000000000; it was not entered */

    /* refusals: nothing was done */
    SLED_REFUSED_COUNT = 3,     /* a system has 0 or more than 16 digits */
    SLED_REFUSED_RANGE = 6,     /* a number is out of its range: of a system -100..100, of a matrix to open or of a job's -1000..1000 */
    SLED_REFUSED_MAP = 7,       /* a d - b c of a digit's map is not above 0 */
    SLED_REFUSED_INTERVAL = 8,  /* x0 y1 - x1 y0 of a digit's interval is not below 0 */
    SLED_REFUSED_LOWEST = 9,    /* a digit's map, or an end of its interval, is not in lowest terms */
    SLED_REFUSED_GAP = 10,      /* some point is in no digit's closed interval */
    SLED_REFUSED_EXPAND = 18,   /* a digit does not expand at some point inside its interval */
    SLED_REFUSED_MATRIX = 11,   /* a d - b c of a matrix to open, or of a job's, is not above 0 */
    SLED_REFUSED_STATE = 12,    /* the state breaks the rules for a state */

    /* refusals of a job file alone, read or to be written; the other refusals of its systems and its matrix are those above */
    SLED_REFUSED_SHORT = 1,     /* read: the file ends before a count or a section is whole */
    SLED_REFUSED_LONG = 2,      /* read: bytes follow the word */
    SLED_REFUSED_FOUR = 4,      /* read: the matrix count is not 4 */
    SLED_REFUSED_WORD = 5,      /* the word count is above 4096; to be written: the word has more than 4096 digits */
    SLED_REFUSED_BUFFER = 14,   /* to be written: the buffer is too short for the file */

    /* a refusal of any call, before all others */
    SLED_REFUSED_LENGTH = 40    /* a slice has the wrong length */
};

/* How many numbers stand in a state, in a state of two words, in a matrix, in the row of one digit, in the columns of a system, in the counts of a run and in what sled_read
   found. */
enum { SLED_STATE = 5, SLED_TWO_STATE = 11, SLED_MATRIX = 4, SLED_ROW = 8, SLED_COLUMNS = 128, SLED_COUNTS = 3, SLED_FOUND = 4 };

/* How many digits the built-in systems have. */
enum { SLED_R_DIGITS = 4, SLED_B_DIGITS = 8, SLED_D_DIGITS = 4 };

/* How many bytes the largest job file has. A buffer of so many is never too short. */
enum { SLED_FILE = 4624 };

/* What sled_read and sled_write answer holds a number and, where they refuse, the section of the file: 0 input system, 1 output system, 2 matrix, 3 word. */
#define SLED_NUMBER(answer) ((answer) % 256)
#define SLED_SECTION(answer) ((answer) / 256)

/* Is this system admitted?
   length has to be SLED_COLUMNS. Answers 0, or the first rule that the system breaks: SLED_REFUSED_LENGTH, SLED_REFUSED_COUNT (digits is 0 or above 16, however large it is),
   then digit by digit RANGE, MAP, INTERVAL, LOWEST, then GAP, and at last EXPAND. Writes nothing. sled_run judges its systems itself: nobody has to ask first. */
uint32_t sled_admit(size_t digits, const int16_t *columns, size_t length);

/* The columns of a built-in system: R (4 digits, close to continued fractions: the word 1..1 0..0 1..1 .. with runs of a, b, c, .. names [a, b, c, ..]; digits 2 and 3 are for
   negative numbers), B (8 digits, the bimodular system with its maximal cover; F of digit 7 - a at x is -F(-x) of digit a, and digit a + 2, modulo 8, is digit a turned by
   (x + 1)/(1 - x)) and D (4 digits, binary redundant).
   length has to be SLED_COLUMNS. Answers 0 and writes all 128 numbers, 0 in the unused places; or SLED_REFUSED_LENGTH, and writes nothing. Their counts of digits are
   SLED_R_DIGITS, SLED_B_DIGITS and SLED_D_DIGITS. */
uint32_t sled_system_r(int16_t *columns, size_t length);
uint32_t sled_system_b(int16_t *columns, size_t length);
uint32_t sled_system_d(int16_t *columns, size_t length);

/* Turns rows into columns. The rows are those of rows_length / SLED_ROW digits.
   Answers SLED_REFUSED_LENGTH if rows_length is no multiple of SLED_ROW or columns_length is not SLED_COLUMNS; then SLED_REFUSED_COUNT if these are 0 digits or more than 16.
   A refusal writes nothing. Else answers 0 and writes all 128 numbers, 0 in the unused places. The numbers are not judged: sled_admit and sled_run do that. */
uint32_t sled_columns(const int16_t *rows, size_t rows_length, int16_t *columns, size_t columns_length);

/* Turns columns into rows, as a person reads them.
   Answers SLED_REFUSED_LENGTH if columns_length is not SLED_COLUMNS or rows_length is not SLED_ROW times digits, as whole numbers: a product that a size_t can't hold is the
   length of no slice. Then SLED_REFUSED_COUNT if digits is 0 or above 16. A refusal writes nothing. Else answers 0 and writes all rows_length numbers. The unused places are
   not read, and the numbers are not judged. sled_columns and sled_rows undo each other: rows come back as they were, and columns come back with 0 in the unused places. */
uint32_t sled_rows(size_t digits, const int16_t *columns, size_t columns_length, int16_t *rows, size_t rows_length);

/* Reads a job file: two systems, a matrix and a word. Four sections in this order, each after its count of two bytes, low byte first: the input system (count of digits, then
   rows of eight signed 16-bit numbers, low byte first), the output system, the matrix (count 4, then a b c d), the word (count 0 to 4096, then one byte a digit).

   The file stores the systems by rows, and their columns are written. in_length and out_length have to be SLED_COLUMNS, matrix_length SLED_MATRIX and found_length
   SLED_FOUND. Answers

     0                      in_columns and out_columns are written whole, 0 in the unused places; matrix is written; found[0] is how many digits the input system has,
                            found[1] how many the output system has, found[2] where the word starts in the file, and found[3] how many digits it has. So what is run is
                            sled_run(found[0], in_columns, SLED_COLUMNS, found[1], out_columns, SLED_COLUMNS, .., file + found[2], found[3], ..), and sled_open does not
                            refuse the matrix.
     SLED_REFUSED_LENGTH    a length is wrong. Nothing is written.
     any other              SLED_NUMBER(answer) is the refusal: COUNT, RANGE, MAP, INTERVAL, LOWEST, GAP, EXPAND, MATRIX, SHORT, LONG, FOUR or WORD, and
                            SLED_SECTION(answer) the section where it was met. Nothing is written. */
uint32_t sled_read(const uint8_t *file, size_t file_length, int16_t *in_columns, size_t in_length, int16_t *out_columns, size_t out_length,
                   int64_t *matrix, size_t matrix_length, size_t *found, size_t found_length);

/* Writes a job file, as sled_read describes it, of two systems by their columns, a matrix and a word: from the start of `file` on, the systems by rows, 16 in_digits +
   16 out_digits + word_length + 16 bytes in all.

   in_length and out_length have to be SLED_COLUMNS, matrix_length SLED_MATRIX and written_length 1. word_length and file_length may be anything, 0 too. Answers

     0                      the job file stands at the start of `file`, and written[0] is how many bytes it has. The bytes of `file` behind it are unchanged.
     SLED_REFUSED_LENGTH    a length is wrong. Nothing is written.
     any other              SLED_NUMBER(answer) is the refusal, and SLED_SECTION(answer) the section where it was met: the first that applies of those that sled_read has for
                            the same contents, in its order, and then BUFFER. In section 0, of the input system: COUNT, RANGE, MAP, INTERVAL, LOWEST, GAP, EXPAND, as
                            sled_admit; in section 1, of the output system, the same; in section 2 RANGE, if an entry of the matrix lies outside -1000..1000, however
                            far, then MATRIX; in section 3 WORD. At last SLED_REFUSED_BUFFER, which has section 0: file_length is less than the file's length, and never
                            where it is SLED_FILE or more. Nothing is written, not even written[0].

   The bytes of the word are not judged, a run does that; and the unused places of the columns are neither looked at nor written. What was written, sled_read finds again: the
   same digits, the same matrix, as it was and not cancelled, and the same word, with 0 in the unused places. And a file that sled_read has read, with found[0], found[1], the
   columns and the matrix that it wrote and the word where it found it, is written again byte for byte.

   To save what is left of a session over one word: the first four numbers of its state are the matrix, and the word is what was not taken, behind the held digit, if there is
   one. The job opens with this very matrix, for a state is cancelled, and takes the held digit first; so it goes on with the same digits. An entry of a state may have grown
   out of -1000..1000: then the answer is RANGE in section 2, and the five numbers of the state are what has to be kept. */
uint32_t sled_write(size_t in_digits, const int16_t *in_columns, size_t in_length, size_t out_digits, const int16_t *out_columns, size_t out_length,
                    const int64_t *matrix, size_t matrix_length, const uint8_t *word, size_t word_length, uint8_t *file, size_t file_length,
                    size_t *written, size_t written_length);

/* Opens a session for the matrix a b c d: four numbers in -1000..1000 with a d - b c > 0.
   matrix_length has to be SLED_MATRIX and state_length SLED_STATE. Answers 0 and writes the state: the matrix divided by the greatest common divisor of its entries, and
   -1. Or answers SLED_REFUSED_LENGTH, SLED_REFUSED_RANGE or SLED_REFUSED_MATRIX, the first that applies, and writes nothing. */
uint32_t sled_open(const int64_t *matrix, size_t matrix_length, int64_t *state, size_t state_length);

/* Takes bytes of the input, writes digits to the output and lists what it cancelled until it has to stop, and answers why:

     SLED_OK, SLED_END_..   counts[0] is how many bytes were taken, counts[1] how many digits were written, from the start of the output on, and counts[2] how many divisors
                            were listed, from the start of the list on; the state is the new one. The bytes of the output behind the written ones and the numbers of the
                            list behind the listed ones are unchanged. To go on after SLED_OK, SLED_END_NO_ROOM or SLED_END_LIST_FULL, call again with this state, the
                            input from the first byte that was not taken, new room and a new list. After SLED_END_NOT_A_DIGIT pass over or mend the byte first. After
                            SLED_END_RANGE_LEFT the session is over: whatever input, room and list a call from this state is given, it takes nothing, writes nothing,
                            lists nothing, leaves the state and answers SLED_END_RANGE_LEFT again; or SLED_END_NO_ROOM, if output_length is 0 and a digit could be given
                            out; or else SLED_END_LIST_FULL, if divisors_length is 0.
     SLED_REFUSED_..        of the input system (COUNT, RANGE, MAP, INTERVAL, LOWEST, GAP, EXPAND, as sled_admit), then of the output system, then SLED_REFUSED_STATE:
                            the three counts are 0, and the state, the output and the list are unchanged.
     SLED_REFUSED_LENGTH    in_length or out_length is not SLED_COLUMNS, state_length is not SLED_STATE or counts_length is not SLED_COUNTS: nothing is written, not even
                            the counts.

   Where several ends apply, it is SLED_END_NO_ROOM before SLED_END_LIST_FULL before SLED_END_RANGE_LEFT.

   input_length, output_length and divisors_length may be anything, 0 too. A run that is not refused lists counts[0] + counts[1] divisors, and one more if a digit was held
   before it, and one fewer if one is held after it. So SLED_END_LIST_FULL never comes where divisors_length is input_length + output_length + 1 or more, nor where it is
   input_length + output_length and nothing was held before. A run that does not end so is the same with every longer list.

   A call first judges both systems, so feed long pieces where speed matters. Steps are linear in bytes taken plus digits written. */
uint32_t sled_run(size_t in_digits, const int16_t *in_columns, size_t in_length, size_t out_digits, const int16_t *out_columns, size_t out_length,
                  int64_t *state, size_t state_length, const uint8_t *input, size_t input_length, uint8_t *output, size_t output_length,
                  uint64_t *divisors, size_t divisors_length, size_t *counts, size_t counts_length);

/* Opens a session over two words: for x + y, for x - y, and for x y.
   state_length has to be SLED_TWO_STATE. Answers 0 and writes all eleven numbers: the eight of the operation, -1 and -1, for nothing is held, and 0, for it is x's turn. Or
   answers SLED_REFUSED_LENGTH, and writes nothing. */
uint32_t sled_open_sum(int64_t *state, size_t state_length);
uint32_t sled_open_difference(int64_t *state, size_t state_length);
uint32_t sled_open_product(int64_t *state, size_t state_length);

/* Takes bytes of the two words and writes digits to the output until it has to stop, and answers why:

     SLED_OK, SLED_END_..   (but for SLED_END_LIST_FULL, which never comes) counts[0] is how many bytes were taken of x, counts[1] how many of y, and counts[2] how many
                            digits were written, from the start of the output on; the state is the new one. The bytes of the output behind the written ones are unchanged.
                            To go on after SLED_OK or SLED_END_NO_ROOM, call again with this state, each word from the first byte that was not taken, and new room. After
                            SLED_OK one of the words was taken whole: x, if state[8] is -1, and y, if state[9] is -1 and state[8] is not. Hand on more of that one; where
                            there is no more of it, nothing more can be done, whatever is left of the other. After SLED_END_NOT_A_DIGIT pass over or mend the byte first: it
                            is x's, if state[8] is -1, and else y's. After SLED_END_RANGE_LEFT the session is over: called again with the bytes that it did not take and
                            the room that it did not fill, it does nothing and answers the same.
     SLED_REFUSED_..        of the input system, which both words are in (COUNT, RANGE, MAP, INTERVAL, LOWEST, GAP, EXPAND, as sled_admit), then of the output system, then
                            SLED_REFUSED_STATE: the three counts are 0, and the state and the output are unchanged.
     SLED_REFUSED_LENGTH    in_length or out_length is not SLED_COLUMNS, state_length is not SLED_TWO_STATE or counts_length is not SLED_COUNTS: nothing is written, not
                            even the counts.

   Where both ends apply, it is SLED_END_NO_ROOM before SLED_END_RANGE_LEFT. xs_length, ys_length and output_length may be anything, 0 too. xs and ys are only read, so they
   may be one and the same slice: x + x.

   A call first judges both systems, so feed long pieces where speed matters. Steps are linear in bytes taken plus digits written. */
uint32_t sled_run_two(size_t in_digits, const int16_t *in_columns, size_t in_length, size_t out_digits, const int16_t *out_columns, size_t out_length,
                      int64_t *state, size_t state_length, const uint8_t *xs, size_t xs_length, const uint8_t *ys, size_t ys_length,
                      uint8_t *output, size_t output_length, size_t *counts, size_t counts_length);

#ifdef __cplusplus
}
#endif

#endif

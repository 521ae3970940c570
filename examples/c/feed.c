/* Feeds a word in pieces and prints the digits as they come.

     include/build && ./run feed

   The session computes (2x + 1) / (x + 2) of a number x that is written in system R, and writes the answer in system R too. The word comes in pieces of three digits, as it
   might from a user's keys, and the room for the output is small on purpose: where a run stops for want of room, it is called again with the bytes that it did not take.
   What the runs cancel is of no use here, so the list for it is as long as it can ever have to be, and is not looked at. */
#include "sledhillock.h"

int printf(const char *format, ...); /* <stdio.h> */

enum { PIECE = 3, ROOM = 2, LIST = PIECE + ROOM + 1 }; /* such a list is never full */

int main(void) {
    int16_t r[SLED_COLUMNS];
    int64_t state[SLED_STATE];
    const int64_t matrix[SLED_MATRIX] = {2, 1, 1, 2};
    const uint8_t word[] = {0, 0, 1, 1, 0, 1, 0, 0, 0, 1, 1, 1, 0, 1};
    size_t length = sizeof word, taken = 0;
    uint32_t end = sled_system_r(r, SLED_COLUMNS);
    if (end == SLED_OK) end = sled_open(matrix, SLED_MATRIX, state, SLED_STATE);
    if (end != SLED_OK) {
        printf("refused: %u\n", end);
        return 1;
    }
    while (taken < length) {
        size_t piece = length - taken < PIECE ? length - taken : PIECE;
        printf("in ");
        for (size_t i = 0; i < piece; i++) printf(" %u", word[taken + i]);
        printf("\n");
        do {
            uint8_t digits[ROOM];
            uint64_t divisors[LIST];
            size_t counts[SLED_COUNTS];
            end = sled_run(SLED_R_DIGITS, r, SLED_COLUMNS, SLED_R_DIGITS, r, SLED_COLUMNS, state, SLED_STATE, word + taken, piece, digits, ROOM, divisors, LIST,
                           counts, SLED_COUNTS);
            if (end != SLED_OK && end != SLED_END_NO_ROOM) {
                printf("stopped: %u\n", end);
                return 1;
            }
            taken += counts[0];
            piece -= counts[0];
            for (size_t i = 0; i < counts[1]; i++) printf("    out %u\n", digits[i]);
        } while (end == SLED_END_NO_ROOM);
    }
    printf("state %lld %lld %lld %lld, held %lld\n", (long long)state[0], (long long)state[1], (long long)state[2], (long long)state[3], (long long)state[4]);
    return 0;
}

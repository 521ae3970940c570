/* Adds two words as their digits come, and prints the digits of the sum as soon as they are certain.

     include/build add examples/c/add.c && ./run add

   x is 1/3 and y is 1/2, both written in system D: digits 0, 1 and 2 stand for -1, 0 and 1, the first of them for halves, the next for quarters, and so on. One digit of each
   word comes at a time, as they might from two senders. A run takes a digit of the word that it needs next, so one that came may have to wait for the next call: it is handed
   on with those that follow. The room for the output is small on purpose: where a run stops for want of room, it is called again. */
#include "sledhillock.h"

int printf(const char *format, ...); /* <stdio.h> */

enum { LENGTH = 8, ROOM = 1 };

int main(void) {
    int16_t d[SLED_COLUMNS];
    int64_t state[SLED_TWO_STATE];
    const uint8_t x[LENGTH] = {2, 0, 2, 0, 2, 0, 2, 0}, y[LENGTH] = {2, 1, 1, 1, 1, 1, 1, 1};
    size_t of_x = 0, of_y = 0; /* how many were taken */
    uint32_t end = sled_system_d(d, SLED_COLUMNS);
    if (end == SLED_OK) end = sled_open_sum(state, SLED_TWO_STATE);
    if (end != SLED_OK) {
        printf("refused: %u\n", end);
        return 1;
    }
    for (size_t come = 1; come <= LENGTH; come++) {
        printf("x %u, y %u\n", x[come - 1], y[come - 1]);
        do {
            uint8_t digits[ROOM];
            size_t counts[SLED_COUNTS];
            end = sled_run_two(SLED_D_DIGITS, d, SLED_COLUMNS, SLED_D_DIGITS, d, SLED_COLUMNS, state, SLED_TWO_STATE, x + of_x, come - of_x, y + of_y, come - of_y, digits, ROOM,
                               counts, SLED_COUNTS);
            if (end != SLED_OK && end != SLED_END_NO_ROOM) {
                printf("stopped: %u\n", end);
                return 1;
            }
            of_x += counts[0];
            of_y += counts[1];
            for (size_t i = 0; i < counts[2]; i++) printf("    sum %u\n", digits[i]);
        } while (end == SLED_END_NO_ROOM);
    }
    printf("state");
    for (int k = 0; k < 8; k++) printf(" %lld", (long long)state[k]);
    printf(", held of x %lld, of y %lld, turn %lld\n", (long long)state[8], (long long)state[9], (long long)state[10]);
    return 0;
}

/* The list of what was cancelled: where it is full, which end comes first, and how long it has to be. */
#include "world.h"

/* R to R from 2 1 1 2, on the word 0 0 1: what stands before each of the six steps that list, and behind the last; whether the step gives a digit out, or absorbs one */
static const struct moment {
    int gives;
    size_t taken, written;
    int64_t state[5];
} moments[7] = {
    {1, 1, 0, {2, 1, 1, 2, 0}},  {1, 1, 1, {2, 1, -1, 1, 0}}, {0, 1, 2, {3, 0, -1, 1, 0}}, {0, 2, 2, {3, 0, 0, 1, 0}},
    {1, 3, 2, {3, 0, 1, 1, 1}},  {0, 3, 3, {2, -1, 1, 1, 1}}, {0, 3, 3, {2, 1, 1, 2, -1}},
};

/* with each room and each list: the run stops at the first step that lacks room or a place, by 20 where it lacks both, and leaves what stood before that step */
static void each_room_and_list(void) {
    for (size_t room = 0; room <= 5; room++)
        for (size_t places = 0; places <= 9; places++) {
            size_t made = 0;
            uint32_t end = 0;
            while (made < 6 && end == 0) {
                end = moments[made].gives && moments[made].written == room ? 20 : made == places ? 15 : 0;
                if (end == 0) made++;
            }
            given(R, R, START, WORD, 3);
            counted(moments[made].taken, moments[made].written, made);
            memcpy(then.state, moments[made].state, sizeof START);
            memcpy(then.output, (const uint8_t[]){0, 1, 1}, moments[made].written);
            settled(run(listing(R, R, 3, room, places)), end, "each room and each list", (long)(10 * room + places));
        }
}

/* called again, it stops again and does nothing */
static void stops(struct lengths n, uint32_t end, const char *what) {
    counted(0, 0, 0);
    settled(run(n), end, what, 0);
}

/* one place a call: the 2 that B cancels is listed by the call that absorbs the digit */
static void goes_on(void) {
    given(B, B, ONE, (const uint8_t[]){1}, 1);
    counted(1, 0, 0);
    stands(1, 0, 0, 1, 1);
    settled(run(listing(B, B, 1, 4, 0)), 15, "no list, and a digit fits", 0);
    stops(listing(B, B, 0, 4, 0), 15, "it stops again");
    stops(listing(B, B, 0, 0, 0), 20, "and by 20 without room");
    counted(0, 1, 1);
    stands(2, -1, 0, 1, 1);
    then.output[0] = 1;
    settled(run(listing(B, B, 0, 4, 1)), 15, "a list of one, and no digit fits any more", 0);
    stops(listing(B, B, 0, 4, 0), 15, "it stops again");
    stops(listing(B, B, 0, 0, 0), 15, "without room too");
    counted(0, 0, 1);
    stands(1, 0, 0, 1, -1);
    then.divisors[0] = 2;
    settled(run(listing(B, B, 0, 0, 1)), 0, "a list of one more", 0);
}

/* D to R on the word of 1/3: no digit fits, and absorbing the thirtieth would leave the range. Each place lets one digit be absorbed; from thirty places on the end is 22. */
static void before_22(void) {
    const int64_t m[5] = {3, -1, 0, 1, -1};
    uint8_t third[40];
    for (int k = 0; k < 40; k++) third[k] = k % 2 == 0 ? 2 : 0;
    for (size_t places = 0; places <= 32; places++)
        for (size_t room = 0; room <= 2; room++) {
            size_t absorbed = places < 29 ? places : 29;
            given(D, R, m, third, 40);
            counted(absorbed + 1, 0, absorbed);
            stands(3, absorbed % 2 == 0 ? -1 : 1, 0, (int64_t)1 << absorbed, third[absorbed]);
            settled(run(listing(D, R, 40, room, places)), places < 30 ? 15 : 22, "15 before 22, absorbing", (long)(10 * places + room));
        }
}

/* the same where the state leaves the range because a digit is given out */
static void before_22_giving(void) {
    const int64_t state[5] = {-760000000, -2, 400000000, 1, -1};
    for (size_t places = 0; places <= 3; places++)
        for (size_t room = 0; room <= 3; room++) {
            given(R, D, state, (const uint8_t[]){0}, 1);
            counted(1, 0, 0);
            then.state[4] = 0;
            settled(run(listing(R, D, 1, room, places)), room == 0 ? 20 : places == 0 ? 15 : 22, "20 before 15 before 22, giving out", (long)(10 * places + room));
        }
}

/* A digit that stands for a hundred zeros, and is absorbed behind them: 101 divisors. Where it is held before the call, this is one more than the room for the zeros; where it
   is taken, input and room are 101 together. */
static void long_enough(size_t taken) {
    for (size_t room = 98; room <= 102; room++)
        for (size_t places = 90; places <= 104; places++) {
            size_t zeros = room < 100 ? room : 100, whole = room < 100 ? room : 101, listed = places < whole ? places : whole;
            if (listed < zeros) zeros = listed;
            given(HUNDRED, R, taken ? ONE : (const int64_t[]){1, 0, 0, 1, 4}, (const uint8_t[]){4}, 1);
            counted(taken, zeros, listed);
            if (listed < 101)
                stands(1, 0, -(int64_t)zeros, 1, 4);
            else
                stands(1, 0, 0, 1, -1);
            memset(then.output, 0, zeros);
            uint32_t end = places < whole ? 15 : room < 100 ? 20 : 0;
            settled(run(listing(HUNDRED, R, taken, room, places)), end, "a list that is long enough, or too short", (long)(1000 * room + places));
        }
}

/* a list of five places is full where six are needed: one more than input and room; and with each longer one the run is the same */
static void longer(void) {
    for (size_t places = 5; places <= LIST; places++) {
        given(R, R, (const int64_t[]){2, 1, 1, 2, 0}, WORD + 1, 2);
        counted(2, 3, places == 5 ? 5 : 6);
        memcpy(then.state, moments[then.counts[2]].state, sizeof START);
        memcpy(then.output, (const uint8_t[]){0, 1, 1}, 3);
        settled(run(listing(R, R, 2, 3, places)), places == 5 ? 15 : 0, "six places are needed, and more change nothing", (long)places);
    }
}

void lists(void) {
    each_room_and_list();
    goes_on();
    before_22();
    before_22_giving();
    long_enough(0);
    long_enough(1);
    longer();
}

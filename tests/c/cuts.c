/* Runs in several calls: wherever the word, the room and the list are cut, the digits, the divisors, the state and the end are those of one call. */
#include "world.h"

/* whether two sessions left the same; what stands behind what was written and listed is compared too */
static int same(const struct session *a, const struct session *b) {
    return a->end == b->end && a->taken == b->taken && a->written == b->written && a->listed == b->listed && memcmp(a->state, b->state, sizeof a->state) == 0 &&
           memcmp(a->output, b->output, sizeof a->output) == 0 && memcmp(a->divisors, b->divisors, sizeof a->divisors) == 0;
}

/* a run, and the same in two calls: the first gets a part of each, of whatever size, and the second what the first left */
static void cut_anywhere(struct system in, struct system out, const int64_t *state, const uint8_t *word, size_t length, size_t room, size_t places, uint32_t end) {
    const struct session start = session(in, out, state, word);
    struct session whole = start;
    call(&whole, length, room, places);
    check(whole.end == end, "a run that is cut", (long)whole.end);
    for (size_t i = 0; i <= length; i++)
        for (size_t o = 0; o <= room; o++)
            for (size_t l = 0; l <= places; l++) {
                struct session s = start;
                call(&s, i, o, l);
                call(&s, length - s.taken, room - s.written, places - s.listed);
                check(same(&whole, &s), "cut anywhere", (long)(10000 * i + 100 * o + l));
            }
}

/* runs that end in each way, and digits that cancel something */
static void each_end(void) {
    static const uint8_t of_r[8] = {0, 1, 1, 0, 0, 1, 0, 1}, of_b[7] = {1, 1, 0, 3, 1, 2, 1}, of_d[6] = {0, 2, 0, 2, 0, 2}, of_steep[4] = {0, 2, 0, 9};
    const int64_t holding[5] = {2, 1, 1, 2, 1}, three[5] = {3, 1, 1, 3, -1}, large[5] = {3, 1, 0, 134217728, -1}, ten_thousand[5] = {100, 0, -1, 100, -1};
    int before = passed;
    cut_anywhere(R, R, START, of_r, 8, 15, 23, SLED_OK);
    cut_anywhere(R, R, holding, of_r, 8, 5, 16, SLED_END_NO_ROOM);
    cut_anywhere(R, B, START, of_r, 8, 12, 9, SLED_END_LIST_FULL);
    cut_anywhere(B, B, three, of_b, 7, 7, 14, SLED_OK);
    cut_anywhere(D, R, large, of_d, 6, 3, 6, SLED_END_RANGE_LEFT);
    cut_anywhere(STEEP, STEEP, ten_thousand, of_steep, 4, 3, 6, SLED_END_NOT_A_DIGIT);
    counts_as_one(before);
}

/* the whole of a word, by calls with so many bytes, so much room and so many places each */
static struct session in_pieces(const uint8_t *word, size_t length, size_t piece, size_t room, size_t places) {
    struct session s = session(R, B, START, word);
    for (int calls = 0; calls < 1000 && (s.taken < length || s.end != SLED_OK); calls++) call_at_most(&s, length, piece, room, places);
    return s;
}

/* a word fed in pieces of each size, into rooms and lists of several sizes, gives what the whole word gives */
static void each_piece(void) {
    enum { WHOLE = 60 };
    uint8_t word[WHOLE];
    int before = passed;
    for (int k = 0; k < WHOLE; k++) word[k] = (uint8_t)(k * k % 7 % 2);
    const struct session whole = in_pieces(word, WHOLE, WHOLE, SPACE, LIST);
    check(whole.end == SLED_OK && whole.taken == WHOLE && whole.written > 20, "the whole word", (long)whole.written);
    for (size_t piece = 1; piece <= WHOLE; piece++)
        for (size_t room = 1; room <= 9; room++) {
            struct session parts = in_pieces(word, WHOLE, piece, room, 1 + (3 * piece + room) % 19);
            check(same(&whole, &parts), "in pieces", (long)(10 * piece + room));
        }
    counts_as_one(before);
}

void cuts(void) {
    each_end();
    each_piece();
}

/* Sessions: calls one behind the other over one word, one output and one list. */
#include "world.h"

struct session session(struct system in, struct system out, const int64_t *state, const uint8_t *word) {
    struct session s = {.in = in, .out = out, .word = word};
    memcpy(s.state, state, sizeof s.state);
    for (size_t k = 0; k < SPACE; k++) s.output[k] = unwritten(k);
    for (size_t k = 0; k < LIST; k++) s.divisors[k] = unlisted(k);
    return s;
}

void call(struct session *s, size_t input, size_t output, size_t divisors) {
    int16_t in[SLED_COLUMNS], out[SLED_COLUMNS];
    size_t counts[SLED_COUNTS] = {0, 0, 0}, before = s->state[4] >= 0;
    lend(in, s->in), lend(out, s->out); /* with other junk at each call */
    s->end = sled_run(s->in.digits, in, SLED_COLUMNS, s->out.digits, out, SLED_COLUMNS, s->state, SLED_STATE, s->word + s->taken, input, s->output + s->written, output,
                      s->divisors + s->listed, divisors, counts, SLED_COUNTS);
    size_t after = s->state[4] >= 0;
    check(counts[0] <= input && counts[1] <= output && counts[2] <= divisors, "counts within the lengths", (long)s->end);
    check(counts[2] + after == counts[0] + counts[1] + before, "a divisor for each digit written and each absorbed", (long)s->end);
    check(s->end != SLED_END_LIST_FULL || (counts[2] == divisors && divisors < input + output + before), "a list that is long enough is not full", (long)divisors);
    s->taken += counts[0];
    s->written += counts[1];
    s->listed += counts[2];
}

static size_t least(size_t a, size_t b) { return a < b ? a : b; }

void call_at_most(struct session *s, size_t length, size_t input, size_t output, size_t divisors) {
    call(s, least(input, length - s->taken), least(output, SPACE - s->written), least(divisors, LIST - s->listed));
}

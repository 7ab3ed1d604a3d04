/* The two pseudo-random patterns from another hand: libspandsp's tester for bit error ratios makes the digits of ITU O.151's 2^15 - 1 and 2^23 - 1.
 *
 *   patterns digits 15 COUNT    writes so many digits to standard output, as 0 and 1: as they come, for they are inverted already, as O.150 asks
 *   patterns judged 15          sends them through the library's multiplexer and has its verdict look for the pattern
 *
 * That they are inverted is seen at their longest run of zeros, which is 15 and 23; not inverted it would be 14 and 22, and that of ones 15 and 23. */
#include <stdint.h>
#include <stdio.h>
#include <stdlib.h>
#include <string.h>

#include <spandsp.h>

#include "spritbobbin.h"

static bert_state_t *begun(int stages)
{
    return bert_init(NULL, 0, stages == 15 ? BERT_PATTERN_ITU_O151_15 : BERT_PATTERN_ITU_O151_23, 1000, 20);
}

static int digits(int stages, long count)
{
    bert_state_t *tester = begun(stages);
    while (count-- > 0)
        putchar('0' + bert_get_bit(tester));
    bert_free(tester);
    return fflush(stdout) != 0;
}

#ifdef SPRITBOBBIN_VERDICT_STATE
enum { FRAMES = 64, FEEDS = 8, FRAME_BYTES = 106, QUARTER = FRAMES * 206 / 8 };

/* A number of the answer, as it has to be. */
static void is(const char *what, uint64_t found, uint64_t expected)
{
    if (found != expected) {
        fprintf(stderr, "patterns: %s: %llu in place of %llu\n", what, (unsigned long long)found, (unsigned long long)expected);
        exit(1);
    }
}

/* No frame is stuffed, so each takes 206 digits of each tributary; tributary j begins j * 1000 digits later. */
static int judged(int stages)
{
    static uint64_t state[SPRITBOBBIN_VERDICT_STATE];
    uint64_t answer[88], counts[5];
    bert_state_t *tester[4];
    int j, feed, i;
    for (j = 0; j < 4; j++) {
        tester[j] = begun(stages);
        for (i = 0; i < 1000 * j; i++)
            bert_get_bit(tester[j]);
    }
    is("fresh", spritbobbin_verdict_fresh(2, 0, (uint64_t)stages, state), 0);
    for (feed = 0; feed < FEEDS; feed++) {
        uint8_t line[FRAMES * FRAME_BYTES], notes[FRAMES], buffer[4 * QUARTER];
        memset(notes, 0x20, sizeof notes);
        memset(buffer, 0, sizeof buffer);
        for (j = 0; j < 4; j++)
            for (i = 0; i < 8 * QUARTER; i++)
                buffer[j * QUARTER + i / 8] |= (uint8_t)(bert_get_bit(tester[j]) << (7 - i % 8));
        is("multiplex", spritbobbin_multiplex(2, 0, line, sizeof line, notes, sizeof notes, buffer, sizeof buffer, counts), 0);
        is("feed", spritbobbin_verdict_feed(state, line, sizeof line, 0, NULL, 0, 0, answer), 0);
    }
    for (j = 0; j < 4; j++) {
        const uint64_t *own = answer + 22 * j + 1;
        is("digits read", own[0], FEEDS * FRAMES * 206);
        is("digits before the pattern was taken up", own[1], 0);
        is("digits right", own[2], own[0]);
        is("wrong digits", own[3], 0);
        is("slips", own[4], 0);
        bert_free(tester[j]);
    }
    printf("patterns: 2^%d - 1 taken up at its first digit, %llu digits of each tributary right\n", stages, (unsigned long long)answer[1]);
    return 0;
}
#endif

int main(int count, char **arguments)
{
    int stages = count > 2 ? atoi(arguments[2]) : 0;
    if (stages == 15 || stages == 23) {
        if (count == 4 && strcmp(arguments[1], "digits") == 0)
            return digits(stages, atol(arguments[3]));
#ifdef SPRITBOBBIN_VERDICT_STATE
        if (count == 3 && strcmp(arguments[1], "judged") == 0)
            return judged(stages);
#endif
    }
    fprintf(stderr, "usage: patterns digits 15|23 COUNT, patterns judged 15|23\n");
    return 2;
}

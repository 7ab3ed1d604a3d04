/*
 * Times the finder of 2048 kbit/s frames beside a plain one in C, digit by digit as one would write it first, and a quick one, 56 places at a
 * time; both judge nothing. Before timing, all three are seen to give the same answers and states on lines that are cut anywhere, with wrong
 * words, wrong second digits and false words in them.
 *
 * usage: finder REPEATS
 */
#define _POSIX_C_SOURCE 199309L
#include <stdio.h>
#include <stdlib.h>
#include <string.h>
#include <time.h>

#include "spritbobbin.h"

enum { BYTES = 16 * 512, WORD = 27, ENGINES = 3, TASKS = 2 }; /* sixteen multiframes */

typedef uint64_t feed_call(uint64_t state[4], const uint8_t *piece, size_t piece_bytes, uint64_t first, uint64_t count, uint64_t answer[2]);

static uint64_t plain_finder_feed(uint64_t state[4], const uint8_t *piece, size_t piece_bytes, uint64_t first, uint64_t count, uint64_t answer[2])
{
    uint64_t window = state[0], seen = state[1], mode = state[2], place = state[3], taken = 0;
    int was = mode >= 3;

    (void)piece_bytes;
    while (taken < count && (mode >= 3) == was) {
        uint64_t at = first + taken++;
        unsigned digit = piece[at / 8] >> (7 - at % 8) & 1;

        window = (window << 1 | digit) & 127;
        seen += seen < 7;
        if (mode == 0) {
            if (window == WORD && seen == 7)
                mode = 1;
            continue;
        }
        place++;
        if (mode == 1 && place == 250) {
            mode = digit ? 2 : 0;
            place = digit ? 250 : 0;
        } else if (place == 512) {
            place = 0;
            if (window == WORD)
                mode = 3;
            else
                mode = mode == 2 || mode == 5 ? 0 : mode + 1;
        }
    }
    state[0] = window;
    state[1] = seen;
    state[2] = mode;
    state[3] = place;
    answer[0] = taken;
    answer[1] = mode >= 3;
    return 0;
}

/* Compilers make one load of this. */
static inline uint64_t load(const uint8_t *from)
{
    return (uint64_t)from[0] << 56 | (uint64_t)from[1] << 48 | (uint64_t)from[2] << 40 | (uint64_t)from[3] << 32
         | (uint64_t)from[4] << 24 | (uint64_t)from[5] << 16 | (uint64_t)from[6] << 8 | from[7];
}

static inline unsigned digit_at(const uint8_t *piece, uint64_t at)
{
    return piece[at / 8] >> (7 - at % 8) & 1;
}

/* The first place from one on, and before another, from which on the word 0011011 may stand; or one no more than 63 before that other. */
static uint64_t find_word(const uint8_t *piece, uint64_t from, uint64_t before)
{
    uint64_t mask = ~UINT64_C(0) >> from % 8 & ~UINT64_C(0xFF);

    /* A word of the machine tells of 56 places, which is whole bytes. */
    for (from -= from % 8; from + 64 <= before; from += 56, mask = ~UINT64_C(0xFF)) {
        uint64_t word = load(piece + from / 8), ones = word & word << 1, zeros = ~(word | word << 1);
        uint64_t found = zeros & ones << 2 & ~(word << 4) & ones << 5 & mask;

        if (found) {
            for (; !(found >> 63); found <<= 1)
                from++;
            return from;
        }
    }
    return from;
}

/* The window after the digits from one place to another. */
static uint64_t window_after(uint64_t window, const uint8_t *piece, uint64_t first, uint64_t end)
{
    for (uint64_t at = end - first < 7 ? first : end - 7; at < end; at++)
        window = (window << 1 | digit_at(piece, at)) & 127;
    return window;
}

/* Hunts from a digit on, up to the digit at which a word is found or the end, and says where it stands. */
static uint64_t hunt(uint64_t state[4], const uint8_t *piece, uint64_t first, uint64_t end)
{
    uint64_t at = first, far;

    while (at < end) {
        state[0] = (state[0] << 1 | digit_at(piece, at++)) & 127;
        state[1] += state[1] < 7;
        if (state[0] == WORD && state[1] == 7) {
            state[2] = 1;
            return at;
        }
        /* All words that end from here on begin in this piece: up to the one that is found, but for its last digit. */
        if (at - first >= 6 && at + 64 <= end) {
            far = find_word(piece, at - 6, end) + 6;
            if (far > at) {
                state[0] = window_after(state[0], piece, at, far);
                state[1] = 7;
                at = far;
            }
        }
    }
    return at;
}

static uint64_t quick_finder_feed(uint64_t state[4], const uint8_t *piece, size_t piece_bytes, uint64_t first, uint64_t count, uint64_t answer[2])
{
    uint64_t at = first, end = first + count;
    int was = state[2] >= 3;

    (void)piece_bytes;
    while (at < end && (state[2] >= 3) == was) {
        uint64_t check = state[2] == 1 ? 250 : 512, now = check - state[3] < end - at ? check - state[3] : end - at;

        if (state[2] == 0) {
            at = hunt(state, piece, at, end);
            continue;
        }
        state[0] = window_after(state[0], piece, at, at + now);
        state[3] += now;
        at += now;
        if (state[3] < check)
            break;
        if (check == 250) {
            state[2] = state[0] & 1 ? 2 : 0;
            state[3] = state[0] & 1 ? 250 : 0;
        } else {
            state[2] = state[0] == WORD ? 3 : state[2] == 2 || state[2] == 5 ? 0 : state[2] + 1;
            state[3] = 0;
        }
    }
    answer[0] = at - first;
    answer[1] = state[2] >= 3;
    return 0;
}

static const struct {
    const char *name;
    feed_call *feed;
} engines[ENGINES] = {{"library", spritbobbin_finder_feed}, {"plain C", plain_finder_feed}, {"quick C", quick_finder_feed}};

static const char *const tasks[TASKS] = {"finder, aligned", "finder, hunting"};

static uint64_t random_number(void)
{
    static uint64_t x = 88172645463325252u;

    x ^= x << 13;
    x ^= x >> 7;
    x ^= x << 17;
    return x >> 11;
}

/* Frames of random digits with words and second digits, of which one in `wrong` is wrong; without words if `wrong` is 0. */
static void make_line(uint8_t *line, uint64_t wrong)
{
    for (size_t i = 0; i < BYTES; i++)
        line[i] = (uint8_t)random_number();
    for (size_t i = 0; wrong && i < BYTES; i += 64) {
        line[i] = (uint8_t)((line[i] & 0x80) | WORD);
        line[i + 32] |= 0x40;
        if (random_number() % wrong == 0)
            line[i] ^= (uint8_t)(1 << random_number() % 7);
        if (random_number() % wrong == 0)
            line[i + 32] ^= 0x40;
    }
}

/* Takes the word out of a line wherever it stands. */
static void take_words_out(uint8_t *line)
{
    unsigned window = 0;

    for (size_t at = 0; at < 8 * (size_t)BYTES; at++) {
        window = (window << 1 | (line[at / 8] >> (7 - at % 8) & 1)) & 127;
        if (window == WORD) {
            line[at / 8] ^= (uint8_t)(0x80 >> at % 8);
            window ^= 1;
        }
    }
}

/* The same pieces, cut anywhere, to all. */
static void compare(const uint8_t *line, uint64_t longest)
{
    uint64_t place = 0, end = 8 * (uint64_t)BYTES, state[ENGINES][4] = {{0}}, answer[ENGINES][2];

    while (place < end) {
        uint64_t count = random_number() % longest;

        count = count < end - place ? count : end - place;
        for (unsigned e = 0; e < ENGINES; e++)
            engines[e].feed(state[e], line, BYTES, place, count, answer[e]);
        for (unsigned e = 1; e < ENGINES; e++)
            if (memcmp(state[0], state[e], sizeof state[0]) != 0 || memcmp(answer[0], answer[e], sizeof answer[0]) != 0) {
                fprintf(stderr, "bench: library and %s differ at digit %u\n", engines[e].name, (unsigned)place);
                exit(1);
            }
        place += answer[0][0];
    }
}

static double now(void)
{
    struct timespec time;

    clock_gettime(CLOCK_MONOTONIC, &time);
    return 1e9 * (double)time.tv_sec + (double)time.tv_nsec;
}

/* The whole line, a call after each stop, from a fresh state. */
static double time_once(feed_call *feed, const uint8_t *line)
{
    uint64_t place = 0, end = 8 * (uint64_t)BYTES, state[4] = {0}, answer[2];
    double begin = now();

    while (place < end) {
        feed(state, line, BYTES, place, end - place, answer);
        place += answer[0];
    }
    return now() - begin;
}

int main(int count, char **words)
{
    static uint8_t lines[TASKS][BYTES], line[BYTES];
    double best[TASKS][ENGINES] = {{0}};
    int repeats = count > 1 ? atoi(words[1]) : 0;

    if (repeats < 1) {
        fprintf(stderr, "usage: finder REPEATS\n");
        return 2;
    }
    make_line(lines[0], UINT64_MAX);
    make_line(lines[1], 0);
    take_words_out(lines[1]);
    for (unsigned round = 0; round < 40; round++) {
        make_line(line, 1 + round % 8);
        compare(line, 2 + (UINT64_C(8) << round % 10));
    }
    fprintf(stderr, "bench: the finders give the same answers\n");
    while (repeats--)
        for (unsigned task = 0; task < TASKS; task++)
            for (unsigned e = 0; e < ENGINES; e++) {
                double took = time_once(engines[e].feed, lines[task]);

                if (best[task][e] == 0 || took < best[task][e])
                    best[task][e] = took;
            }
    printf("| %-17s |", "2048 kbit/s");
    for (unsigned e = 0; e < ENGINES; e++)
        printf(" %s, ns a digit | times the rate |", engines[e].name);
    printf("\n|---|---:|---:|---:|---:|---:|---:|\n");
    for (unsigned task = 0; task < TASKS; task++) {
        printf("| %-17s |", tasks[task]);
        for (unsigned e = 0; e < ENGINES; e++) {
            double each = best[task][e] / (8.0 * BYTES);

            printf(" %19.3f | %14.1f |", each, 1e6 / 2048 / each);
        }
        printf("\n");
    }
    return 0;
}

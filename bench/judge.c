/*
 * Times the verdict on a line beside a plain one in C, digit by digit as one would write it first, which judges no input: by the digits that were
 * sent, and by a pattern. Before timing, both are seen to give the same verdict on the line of a right multiplexer, on that of one that acts a frame
 * late, and on both with a digit in a hundred wrong; and the first fits by its own frame, the second by the frame before.
 *
 * usage: judge REPEATS
 */
#define _POSIX_C_SOURCE 199309L
#include <stdio.h>
#include <stdlib.h>
#include <string.h>
#include <time.h>

#include "engines.h"
#include "rows.h"
#include "spritbobbin.h"

enum { FRAMES = 64, ENGINES = 2, TASKS = 3, EARLIER = 9 };
enum { LINE_BYTES = FRAMES * 366, QUARTER_BYTES = (FRAMES * 723 + 7) / 8 };

static judge_call *const engines[ENGINES] = {spritbobbin_judge, plain_judge};
static const char *const tasks[TASKS] = {"digits sent", "pattern 2^15 - 1", "pattern 2^23 - 1"};
static const uint64_t patterns[TASKS] = {SPRITBOBBIN_DIGITS_SENT, SPRITBOBBIN_PATTERN_15, SPRITBOBBIN_PATTERN_23};

static uint8_t right[LINE_BYTES], late[LINE_BYTES], buffer[4 * QUARTER_BYTES];
static uint64_t answer[ENGINES][20];

static uint64_t random_number(void)
{
    static uint64_t x = 88172645463325252u;

    x ^= x << 13;
    x ^= x >> 7;
    x ^= x << 17;
    return x >> 11;
}

static double now(void)
{
    struct timespec time;

    clock_gettime(CLOCK_MONOTONIC, &time);
    return 1e9 * (double)time.tv_sec + (double)time.tv_nsec;
}

static void fail(const struct row *row, const char *what)
{
    fprintf(stderr, "bench: level %u: %s\n", (unsigned)row->level, what);
    exit(1);
}

static unsigned get(const uint8_t *bytes, size_t place)
{
    return bytes[place / 8] >> (7 - place % 8) & 1;
}

static void put(uint8_t *bytes, size_t place, unsigned digit)
{
    uint8_t bit = (uint8_t)(0x80 >> place % 8);

    bytes[place / 8] = (uint8_t)(digit ? bytes[place / 8] | bit : bytes[place / 8] & ~bit);
}

/* Quarters of random digits, or of a pattern from a random phase. */
static void fill(uint64_t pattern, size_t quarter)
{
    size_t last = (size_t)pattern, tap = last == 15 ? 14 : 18;

    for (size_t i = 0; i < 4 * quarter; i++)
        buffer[i] = (uint8_t)random_number();
    for (unsigned j = 0; pattern && j < 4; j++)
        for (size_t i = last; i < 8 * quarter; i++)
            put(buffer + j * quarter, i, 1 ^ get(buffer + j * quarter, i - tap) ^ get(buffer + j * quarter, i - last));
}

/* The lines of a right multiplexer and of a late one, whose control digits are the right one's. */
static void send(const struct row *row, size_t bytes, size_t quarter)
{
    uint8_t notes[FRAMES + 1];
    uint64_t counts[5];

    for (size_t f = 0; f <= FRAMES; f++)
        notes[f] = sendable(row, random_number());
    if (row->negative)
        notes[0] = EARLIER;
    plain_multiplex(row->level, EARLIER, right, bytes, notes + 1, FRAMES, buffer, 4 * quarter, counts);
    plain_multiplex(row->level, random_number() & 15, late, bytes, notes, FRAMES, buffer, 4 * quarter, counts);
    for (size_t place = 0; place < 8 * bytes; place++)
        if (place % row->frame_digits >= row->set_digits && place % row->set_digits < 4)
            put(late, place, get(right, place));
}

/* Both engines on a line: the readings that fit of all four. */
static unsigned judge_both(const struct row *row, const uint8_t *line, size_t bytes, uint64_t pattern, size_t quarter)
{
    unsigned fits = 7;

    for (unsigned e = 0; e < ENGINES; e++)
        if (engines[e](row->level, EARLIER, line, bytes, pattern, buffer, 4 * quarter, answer[e]) != 0)
            fail(row, "a line is refused");
    if (memcmp(answer[0], answer[1], sizeof answer[0]) != 0)
        fail(row, "another verdict");
    for (unsigned j = 1; j <= 4; j++)
        fits &= (unsigned)answer[0][SPRITBOBBIN_FITS(j)];
    return fits;
}

/* A digit in a hundred turned over. */
static const uint8_t *worn(const uint8_t *line, size_t bytes)
{
    static uint8_t copy[LINE_BYTES];

    memcpy(copy, line, bytes);
    for (size_t place = 0; place < 8 * bytes; place++)
        if (random_number() % 100 == 0)
            put(copy, place, !get(copy, place));
    return copy;
}

static void make(const struct row *row, size_t bytes, uint64_t pattern, size_t quarter)
{
    fill(pattern, quarter);
    send(row, bytes, quarter);
    if (judge_both(row, right, bytes, pattern, quarter) != SPRITBOBBIN_FITS_BY_OWN)
        fail(row, "a right line does not fit by its own frame alone");
    if (judge_both(row, late, bytes, pattern, quarter) != SPRITBOBBIN_FITS_BY_BEFORE)
        fail(row, "a late line does not fit by the frame before alone");
    judge_both(row, worn(right, bytes), bytes, pattern, quarter);
    judge_both(row, worn(late, bytes), bytes, pattern, quarter);
}

int main(int count, char **words)
{
    int repeats = count > 1 ? atoi(words[1]) : 0;

    if (repeats < 1) {
        fprintf(stderr, "usage: judge REPEATS\n");
        return 2;
    }
    puts("| judge             | level | library, ns a digit | plain C, ns a digit |\n|---|---|---:|---:|");
    for (unsigned task = 0; task < TASKS; task++)
        for (unsigned level = 0; level < LEVELS; level++) {
            const struct row *row = &ROWS[level];
            size_t bytes = FRAMES * row->frame_digits / 8, quarter = (FRAMES * room_digits(row) + 7) / 8;
            double best[ENGINES] = {0};

            make(row, bytes, patterns[task], quarter);
            for (int repeat = 0; repeat < repeats; repeat++)
                for (unsigned e = 0; e < ENGINES; e++) {
                    double begin = now(), took;

                    engines[e](row->level, EARLIER, late, bytes, patterns[task], buffer, 4 * quarter, answer[e]);
                    took = now() - begin;
                    if (best[e] == 0 || took < best[e])
                        best[e] = took;
                }
            printf("| %-17s | %5u | %19.3f | %19.3f |\n", tasks[task], (unsigned)row->level, best[0] / (8.0 * (double)bytes),
                   best[1] / (8.0 * (double)bytes));
        }
    fprintf(stderr, "bench: the two judges give the same verdicts\n");
    return 0;
}

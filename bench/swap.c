/*
 * Times the swap of one tributary beside a plain one in C, digit by digit as one would write it first, and a quick one, both of which
 * judge nothing, and beside the other way to the same line: all four multiplexed anew, by the library's whole-byte engine. Before timing,
 * all are seen to give the same line, for every tributary.
 *
 * usage: swap REPEATS
 */
#define _POSIX_C_SOURCE 199309L
#include <stdio.h>
#include <stdlib.h>
#include <string.h>
#include <time.h>

#include "engines.h"
#include "rows.h"
#include "spritbobbin.h"

enum { FRAMES = 64, WAYS = 4, ANEW = 3 };
enum { LINE_BYTES = FRAMES * 366, QUARTER_BYTES = (FRAMES * 723 + 7) / 8 };

/* Of one level: a line, and what tributary 2 becomes of it. */
static struct {
    size_t line_bytes, quarter;
    uint64_t earlier;
    uint8_t notes[FRAMES], buffer[4 * QUARTER_BYTES], line[WAYS][LINE_BYTES];
} of;

static uint64_t random_number(void)
{
    static uint64_t x = 88172645463325252u;

    x ^= x << 13;
    x ^= x >> 7;
    x ^= x << 17;
    return x >> 11;
}

static double now(void)
{
    struct timespec time;

    clock_gettime(CLOCK_MONOTONIC, &time);
    return 1e9 * (double)time.tv_sec + (double)time.tv_nsec;
}

static swap_call *const swaps[ANEW] = {spritbobbin_swap, plain_swap, quick_swap};
static const char *const names[ANEW] = {"the library", "plain C", "quick C"};

/* Tributary j of a line by one of the ways, which leaves the line of the buffer's four. */
static uint64_t run(const struct row *row, unsigned way, uint64_t j)
{
    const uint8_t *digits = of.buffer + (j - 1) * of.quarter;
    uint64_t answer[5], refused;

    if (way < ANEW) {
        refused = swaps[way](row->level, of.earlier, j, of.line[way], of.line_bytes, of.notes, FRAMES, digits, of.quarter, answer);
    } else {
        refused = spritbobbin_multiplex(row->level, of.earlier, of.line[ANEW], of.line_bytes, of.notes, FRAMES,
                                        of.buffer, 4 * of.quarter, answer);
        answer[0] = answer[j - 1];
    }
    return refused ? UINT64_MAX : answer[0];
}

/* New digits and decisions for one tributary. */
static void change(uint64_t j)
{
    unsigned bit = 1u << (j - 1);

    of.earlier ^= random_number() & bit;
    for (size_t f = 0; f < FRAMES; f++)
        of.notes[f] ^= (uint8_t)(random_number() & bit);
    for (size_t i = 0; i < of.quarter; i++)
        of.buffer[(j - 1) * of.quarter + i] = (uint8_t)random_number();
}

/* A line of random digits and notes; then each tributary is changed, and by all ways alike. */
static void make(const struct row *row)
{
    of.line_bytes = FRAMES * row->frame_digits / 8;
    of.quarter = (FRAMES * room_digits(row) + 7) / 8;
    of.earlier = random_number() % 16;
    for (size_t f = 0; f < FRAMES; f++)
        of.notes[f] = sendable(row, random_number());
    for (size_t i = 0; i < 4 * of.quarter; i++)
        of.buffer[i] = (uint8_t)random_number();
    run(row, ANEW, 1);
    for (unsigned way = 0; way < ANEW; way++)
        memcpy(of.line[way], of.line[ANEW], of.line_bytes);
    for (uint64_t j = 1; j <= 4; j++) {
        uint64_t taken;

        change(j);
        taken = run(row, ANEW, j);
        for (unsigned way = 0; way < ANEW; way++)
            if (run(row, way, j) != taken || memcmp(of.line[way], of.line[ANEW], of.line_bytes) != 0) {
                fprintf(stderr, "bench: level %u: tributary %u: %s swaps otherwise\n", (unsigned)row->level, (unsigned)j, names[way]);
                exit(1);
            }
    }
}

int main(int count, char **words)
{
    int repeats = count > 1 ? atoi(words[1]) : 0;

    if (repeats < 1) {
        fprintf(stderr, "usage: swap REPEATS\n");
        return 2;
    }
    puts("| swap              | level | library, ns a digit | plain C, ns a digit | quick C, ns a digit | library / quick C | library, all four multiplexed anew, ns a digit |");
    puts("|---|---|---:|---:|---:|---:|---:|");
    for (unsigned level = 0; level < LEVELS; level++) {
        double best[WAYS] = {0};

        make(&ROWS[level]);
        for (int repeat = 0; repeat < repeats; repeat++)
            for (unsigned way = 0; way < WAYS; way++) {
                double begin = now(), took;

                run(&ROWS[level], way, 2);
                took = now() - begin;
                if (best[way] == 0 || took < best[way])
                    best[way] = took;
            }
        printf("| %-17s | %5u |", "one tributary", (unsigned)ROWS[level].level);
        for (unsigned way = 0; way < ANEW; way++)
            printf(" %19.3f |", best[way] / (FRAMES * ROWS[level].frame_digits));
        printf(" %17.2f | %19.3f |\n", best[0] / best[2], best[ANEW] / (FRAMES * ROWS[level].frame_digits));
    }
    fprintf(stderr, "bench: the ways to swap give the same lines\n");
    return 0;
}

/* The comparison of two captures of 64 frames, beside a quick one in C and memcmp of the same lines: equal lines, one digit in every frame, and a digit in two
   of all. Before timing, its sums are held against a count of the digits that differ, and sums and list against the quick one's. Prints a table; usage:
   compare REPEATS. */
#define _POSIX_C_SOURCE 199309L
#include <stdio.h>
#include <stdlib.h>
#include <string.h>
#include <time.h>
#include "quick_compare.h"
#include "spritbobbin.h"

enum { FRAMES = 64, MOST = FRAMES * SPRITBOBBIN_FRAME_BYTES_4 };

static uint8_t line[MOST], other[MOST], one_file[MOST + 7], other_file[MOST + 7];
static uint64_t answer[19], places[128], quick_sums[15], quick_places[128];
static volatile uint64_t seen;

static double now(void)
{
    struct timespec t;

    clock_gettime(CLOCK_MONOTONIC, &t);
    return (double)t.tv_sec * 1e9 + (double)t.tv_nsec;
}

static uint64_t next(uint64_t *state)
{
    *state ^= *state << 13;
    *state ^= *state >> 7;
    *state ^= *state << 17;
    return *state;
}

static void fail(const char *what)
{
    fprintf(stderr, "bench: %s\n", what);
    exit(1);
}

/* Lines of a level: `how` 0 equal, 1 a digit of each frame, 2 random digits. */
static void fill(int level, int how)
{
    size_t frame_bytes = ROWS[level].frame_digits / 8, bytes = FRAMES * frame_bytes, i;
    uint64_t state = 88172645463325252u, wrote[2], differing = 0, sums = 0;

    for (i = 0; i < bytes; i++) {
        line[i] = (uint8_t)next(&state);
        other[i] = how == 2 ? (uint8_t)next(&state) : line[i];
        if (how == 1 && i % frame_bytes == 40)
            other[i] ^= 4;
        differing += (uint64_t)__builtin_popcount((unsigned)(line[i] ^ other[i]));
    }
    if (spritbobbin_capture_write(ROWS[level].level, line, bytes, NULL, 0, 0, one_file, sizeof one_file, wrote)
        || spritbobbin_capture_write(ROWS[level].level, other, bytes, NULL, 0, 0, other_file, sizeof other_file, wrote)
        || spritbobbin_compare(one_file, bytes + 7, other_file, bytes + 7, answer, places))
        fail("the captures are refused");
    for (i = SPRITBOBBIN_WORD_DIFFERS; i < SPRITBOBBIN_ALL_DIFFER; i++)
        sums += answer[i];
    if (sums != differing || answer[SPRITBOBBIN_ALL_DIFFER] != differing)
        fail("the sums are wrong");
    quick_compare(&ROWS[level], line, other, FRAMES, quick_sums, quick_places);
    if (memcmp(quick_sums, answer + SPRITBOBBIN_WORD_DIFFERS, sizeof quick_sums) || memcmp(quick_places, places, sizeof places))
        fail("the quick comparison finds something else");
}

enum { LIBRARY, QUICK, MEMCMP };

/* The best of so many times, in nanoseconds a digit; the quick one and memcmp look at the lines alone. */
static double timed(int level, int which, int repeats)
{
    size_t bytes = FRAMES * ROWS[level].frame_digits / 8;
    double best = 1e18;
    int r;

    for (r = 0; r < repeats; r++) {
        double start = now(), took;

        if (which == LIBRARY)
            seen += spritbobbin_compare(one_file, bytes + 7, other_file, bytes + 7, answer, places);
        else if (which == QUICK) {
            quick_compare(&ROWS[level], one_file + 7, other_file + 7, FRAMES, quick_sums, quick_places);
            seen += quick_sums[5];
        } else
            seen += (uint64_t)(memcmp(one_file + 7, other_file + 7, bytes) != 0);
        took = now() - start;
        if (took < best)
            best = took;
    }
    return best / (8.0 * (double)bytes);
}

int main(int argc, char **argv)
{
    static const char *const names[] = {"equal lines", "a digit a frame", "random digits"};
    int repeats = argc > 1 ? atoi(argv[1]) : 100, level, how;
    double library, quick;

    puts("| compare           | level | library, ns a digit | quick C, ns a digit | library / quick C | memcmp, ns a digit |\n|---|---|---:|---:|---:|---:|");
    for (how = 0; how < 3; how++)
        for (level = 0; level < LEVELS; level++) {
            fill(level, how);
            library = timed(level, LIBRARY, repeats);
            quick = timed(level, QUICK, repeats);
            printf("| %-17s | %5u | %19.4f | %19.4f | %17.2f | %18.4f |\n", names[how], (unsigned)ROWS[level].level, library, quick, library / quick, timed(level, MEMCMP, repeats));
        }
    return 0;
}

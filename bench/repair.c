/*
 * Times the repair of a line beside a plain one in C, digit by digit as one would write it first, and a quick one, both of which judge
 * nothing: a line as it was multiplexed, and one of which a digit in a hundred is wrong, without national digits and with them. Before
 * timing, all are seen to give the same line and the same counts, and a line of which words and single control digits are wrong comes back
 * as it was.
 *
 * usage: repair REPEATS
 */
#define _POSIX_C_SOURCE 199309L
#include <stdio.h>
#include <stdlib.h>
#include <string.h>
#include <time.h>

#include "engines.h"
#include "rows.h"
#include "spritbobbin.h"

enum { FRAMES = 64, ENGINES = 3, TASKS = 3, EARLIER = 9 };
enum { LINE_BYTES = FRAMES * 366, QUARTER_BYTES = (FRAMES * 723 + 7) / 8 };

static repair_call *const engines[ENGINES] = {spritbobbin_repair, plain_repair, quick_repair};
static const char *const tasks[TASKS] = {"a line as sent", "a digit in 100", "national too"};

static uint8_t sent[LINE_BYTES], worn[LINE_BYTES], line[ENGINES][LINE_BYTES];
static uint64_t answer[ENGINES][10];

static uint64_t random_number(void)
{
    static uint64_t x = 88172645463325252u;

    x ^= x << 13;
    x ^= x >> 7;
    x ^= x << 17;
    return x >> 11;
}

static double now(void)
{
    struct timespec time;

    clock_gettime(CLOCK_MONOTONIC, &time);
    return 1e9 * (double)time.tv_sec + (double)time.tv_nsec;
}

static void fail(const struct row *row, const char *what)
{
    fprintf(stderr, "bench: level %u: %s\n", (unsigned)row->level, what);
    exit(1);
}

static void turn_over(uint8_t *bytes, size_t place)
{
    bytes[place / 8] ^= (uint8_t)(0x80 >> place % 8);
}

static void send(const struct row *row, size_t bytes)
{
    static uint8_t notes[FRAMES], buffer[4 * QUARTER_BYTES];
    uint64_t counts[5];

    for (size_t f = 0; f < FRAMES; f++)
        notes[f] = sendable(row, random_number());
    for (size_t i = 0; i < sizeof buffer; i++)
        buffer[i] = (uint8_t)random_number();
    plain_multiplex(row->level, EARLIER, sent, bytes, notes, FRAMES, buffer, 4 * ((FRAMES * room_digits(row) + 7) / 8), counts);
}

/* All engines on copies of a line, national digits too or not. */
static void repair_all(const struct row *row, uint64_t national, const uint8_t *from, size_t bytes)
{
    for (unsigned e = 0; e < ENGINES; e++) {
        memcpy(line[e], from, bytes);
        if (engines[e](row->level, EARLIER, national, line[e], bytes, answer[e]) != 0)
            fail(row, "a line is refused");
    }
    for (unsigned e = 1; e < ENGINES; e++)
        if (memcmp(line[0], line[e], bytes) != 0 || memcmp(answer[0], answer[e], sizeof answer[0]) != 0)
            fail(row, e == 1 ? "plain C repairs otherwise" : "quick C repairs otherwise");
}

/* A line of random digits and notes, and the worn one; both repaired alike by all. */
static void make(const struct row *row, size_t bytes)
{
    send(row, bytes);
    memcpy(worn, sent, bytes);
    for (size_t f = 0; f < FRAMES; f++) {
        turn_over(worn, f * row->frame_digits + random_number() % row->word_digits);
        turn_over(worn, f * row->frame_digits + (1 + random_number() % (row->sets - 1)) * row->set_digits + random_number() % 4);
    }
    repair_all(row, 0, worn, bytes);
    if (memcmp(line[0], sent, bytes) != 0)
        fail(row, "a worn line does not come back");
    for (size_t place = 0; place < 8 * bytes; place++)
        if (random_number() % 100 == 0)
            turn_over(worn, place);
    repair_all(row, 0, worn, bytes);
    repair_all(row, 1, worn, bytes);
    repair_all(row, 1, line[0], bytes);
    for (unsigned i = 0; i < 10; i++)
        if (answer[0][i])
            fail(row, "a second repair changes something");
}

int main(int count, char **words)
{
    int repeats = count > 1 ? atoi(words[1]) : 0;

    if (repeats < 1) {
        fprintf(stderr, "usage: repair REPEATS\n");
        return 2;
    }
    puts("| repair            | level | library, ns a digit | plain C, ns a digit | quick C, ns a digit | library / quick C |\n|---|---|---:|---:|---:|---:|");
    for (unsigned task = 0; task < TASKS; task++)
        for (unsigned level = 0; level < LEVELS; level++) {
            const struct row *row = &ROWS[level];
            size_t bytes = FRAMES * row->frame_digits / 8;
            double best[ENGINES] = {0};

            make(row, bytes);
            for (int repeat = 0; repeat < repeats; repeat++)
                for (unsigned e = 0; e < ENGINES; e++) {
                    double begin, took;

                    memcpy(line[e], task ? worn : sent, bytes);
                    begin = now();
                    engines[e](row->level, EARLIER, task == 2, line[e], bytes, answer[e]);
                    took = now() - begin;
                    if (best[e] == 0 || took < best[e])
                        best[e] = took;
                }
            printf("| %-17s | %5u |", tasks[task], (unsigned)row->level);
            for (unsigned e = 0; e < ENGINES; e++)
                printf(" %19.3f |", best[e] / (8.0 * (double)bytes));
            printf(" %17.2f |\n", best[0] / best[2]);
        }
    fprintf(stderr, "bench: the repairs give the same lines\n");
    return 0;
}

/*
 * Times the verdict in the receiver's manner on a line of 64 frames in the middle of a recording, a digit of one reading: what a feed takes over reading
 * the line's notes and extracting it in four ways (its own frame, the frame before with the unknown decision both ways, the frame after), all in the same
 * run, divided by the digits of the sixteen readings. Beside it an XOR and count in C over as many digits, a byte and eight bytes at a time.
 *
 * The lines: one whose decisions never change, so that all readings agree; the same with one digit in 1000 wrong; one whose decisions change so that the
 * readings by the frame before and after slip in every second frame; and the first with a pattern that nobody told the phase of. Before timing, each is seen
 * to be what it is called: by its slips, and by wrong digits that are those which the XOR counts.
 *
 * usage: verdict REPEATS
 */
#define _POSIX_C_SOURCE 199309L
#include <stdio.h>
#include <stdlib.h>
#include <string.h>
#include <time.h>

#include "engines.h"
#include "rows.h"
#include "spritbobbin.h"

enum { FRAMES = 64, LINES = 2, WAYS = 4, TRIBUTARIES = 4, READINGS = 3, VOTES = LINES * FRAMES + 3, TASKS = 4, CLEAN = 0, WORN = 1, SLIPPING = 2, PATTERN = 3 };
enum { LINE_BYTES = FRAMES * 366, QUARTER_BYTES = (FRAMES * 723 + 7) / 8, SENT_BYTES = LINES * QUARTER_BYTES };
enum { FEED, TAKING, PLAIN, QUICK, TIMED };

static const char *const tasks[TASKS] = {"clean", "1 in 1000 wrong", "slips", "clean, pattern 15"};

/* The reading that each way is one of, and by how many frames its votes are moved. */
static const unsigned reading_of[WAYS] = {SPRITBOBBIN_VERDICT_OWN, SPRITBOBBIN_VERDICT_BEFORE, SPRITBOBBIN_VERDICT_BEFORE, SPRITBOBBIN_VERDICT_AFTER};
static const size_t moved_to[WAYS] = {2, 1, 1, 3};

/* The vote of frame f, counted from the recording's first, stands at place f + 2: two come before it and one behind the last. */
static uint8_t votes[VOTES];
static uint8_t lines[LINES][LINE_BYTES];
static uint8_t sent[TRIBUTARIES * SENT_BYTES]; /* four quarters, each of a tributary's digits from the recording's first on */
static uint8_t readings[WAYS][TRIBUTARIES * QUARTER_BYTES];
static uint8_t beside[TRIBUTARIES * QUARTER_BYTES]; /* the digits sent from the timed line's first on */
static uint64_t midway[SPRITBOBBIN_VERDICT_STATE], state[SPRITBOBBIN_VERDICT_STATE];
static uint64_t told[LINES][SPRITBOBBIN_VERDICT_ANSWER];
static uint64_t seen;

static uint64_t random_number(void)
{
    static uint64_t x = 88172645463325252u;

    x ^= x << 13;
    x ^= x >> 7;
    x ^= x << 17;
    return x >> 11;
}

static double now(void)
{
    struct timespec time;

    clock_gettime(CLOCK_MONOTONIC, &time);
    return 1e9 * (double)time.tv_sec + (double)time.tv_nsec;
}

static void check(int holds, const struct row *row, unsigned task, const char *what)
{
    if (!holds) {
        fprintf(stderr, "bench: level %u: %s: %s\n", (unsigned)row->level, tasks[task], what);
        exit(1);
    }
}

static size_t quarter_of(const struct row *row)
{
    return (FRAMES * room_digits(row) + 7) / 8;
}

static unsigned get(const uint8_t *bytes, size_t place)
{
    return bytes[place / 8] >> (7 - place % 8) & 1;
}

static void put(uint8_t *bytes, size_t place, unsigned digit)
{
    uint8_t bit = (uint8_t)(0x80 >> place % 8);

    bytes[place / 8] = (uint8_t)(digit ? bytes[place / 8] | bit : bytes[place / 8] & ~bit);
}

/* Digits of the pattern 2^15 - 1 from a random phase, or random ones. */
static void fill(unsigned task, size_t quarter)
{
    for (size_t i = 0; i < sizeof sent; i++)
        sent[i] = (uint8_t)random_number();
    for (unsigned j = 0; task == PATTERN && j < TRIBUTARIES; j++)
        for (size_t i = 15; i < 8 * quarter; i++)
            put(sent + j * quarter, i, 1 ^ get(sent + j * quarter, i - 14) ^ get(sent + j * quarter, i - 15));
}

/* Where decisions change, a tributary has another number of digits than in the frame before in every second frame: at levels 12 and 14 by two votes. */
static void decide(const struct row *row, unsigned task)
{
    for (size_t i = 0; i < VOTES; i++) {
        if (task != SLIPPING)
            votes[i] = 9;
        else if (row->negative)
            votes[i] = i % 4 == 2 ? 15 : 0;
        else
            votes[i] = i / 2 % 2 ? 15 : 0;
    }
}

static void copy(const struct row *row, unsigned task, uint8_t *to, const uint8_t *from, size_t from_bytes, uint64_t first, uint64_t count)
{
    check(spritbobbin_copy_digits(to, QUARTER_BYTES, 0, from, from_bytes, first, count) == 0, row, task, "digits are not there");
}

/* Both lines, the second going on in each tributary where the first ended. */
static void send(const struct row *row, unsigned task, size_t bytes, size_t quarter)
{
    uint64_t first[5] = {0}, counts[5];

    for (unsigned l = 0; l < LINES; l++) {
        static uint8_t buffer[TRIBUTARIES * QUARTER_BYTES], each[QUARTER_BYTES];
        uint8_t notes[FRAMES];

        for (size_t f = 0; f < FRAMES; f++)
            notes[f] = sendable(row, 0xF0u | votes[l * FRAMES + f + 2]);
        for (unsigned j = 0; j < TRIBUTARIES; j++) {
            copy(row, task, each, sent + j * LINES * quarter, LINES * quarter, first[j], FRAMES * (uint64_t)room_digits(row));
            memcpy(buffer + j * quarter, each, quarter);
            memcpy(beside + j * quarter, each, quarter);
        }
        plain_multiplex(row->level, votes[l * FRAMES + 1], lines[l], bytes, notes, FRAMES, buffer, TRIBUTARIES * quarter, counts);
        for (unsigned j = 0; j < TRIBUTARIES; j++)
            first[j] += counts[j];
    }
    for (size_t place = 0; task == WORN && place < 8 * bytes; place++)
        if (random_number() % 1000 == 0)
            put(lines[1], place, !get(lines[1], place));
}

static uint64_t feed(unsigned l, uint64_t to[SPRITBOBBIN_VERDICT_STATE], size_t bytes, size_t quarter)
{
    return spritbobbin_verdict_feed(to, lines[l], bytes, votes[(l + 1) * FRAMES + 2], sent, TRIBUTARIES * LINES * quarter, 0, told[l]);
}

/* What a feed does besides: the notes of the second line, and its tributaries by the votes of each way. */
static uint64_t take(const struct row *row, size_t bytes, size_t quarter)
{
    uint8_t notes[FRAMES];
    uint64_t answer[5], refused = spritbobbin_read_notes(row->level, lines[1], bytes, notes, FRAMES, answer);

    for (unsigned w = 0; w < WAYS; w++) {
        const uint8_t *by = votes + FRAMES + moved_to[w];

        refused |= spritbobbin_extract(row->level, by[-1], lines[1], bytes, by, FRAMES, readings[w], TRIBUTARIES * quarter, answer);
    }
    return refused;
}

/* Of the timed line alone. */
static uint64_t of_line(unsigned number)
{
    return told[1][number] - told[0][number];
}

static uint64_t digits_in(unsigned w, unsigned j)
{
    return of_line(SPRITBOBBIN_VERDICT_DIGITS(j + 1, reading_of[w]));
}

static uint64_t count_all(count_call *count, size_t quarter)
{
    uint64_t differing = 0;

    for (unsigned w = 0; w < WAYS; w++)
        for (unsigned j = 0; j < TRIBUTARIES; j++)
            differing += count(readings[w] + j * quarter, beside + j * quarter, digits_in(w, j) / 8);
    return differing;
}

/* The lines are what they are called. The XOR leaves out the last digits of a reading, up to seven, and sees no slip. */
static void look(const struct row *row, unsigned task, size_t quarter)
{
    uint64_t wrong = 0, most = 0, counted = count_all(quick_count, quarter);

    check(counted == count_all(plain_count, quarter), row, task, "the two count otherwise");
    for (unsigned w = 0; w < WAYS; w++)
        for (unsigned j = 0; j < TRIBUTARIES; j++) {
            uint64_t slips = of_line(SPRITBOBBIN_VERDICT_SLIPS(j + 1, reading_of[w]));

            wrong += of_line(SPRITBOBBIN_VERDICT_WRONG(j + 1, reading_of[w]));
            most += digits_in(w, j);
            check(task == SLIPPING && w != 0 ? slips >= FRAMES / 2 - 1 && slips <= FRAMES / 2 + 1 : slips == 0, row, task, "other slips");
        }
    if (task == SLIPPING)
        return;
    check(counted <= wrong && wrong <= counted + 16, row, task, "other wrong digits");
    check(task == WORN ? most / 2000 < wrong && wrong < most / 500 : wrong == 0, row, task, "another share of wrong digits");
}

/* The recording, its first line fed. */
static void make(const struct row *row, unsigned task, size_t bytes, size_t quarter)
{
    decide(row, task);
    fill(task, LINES * quarter);
    send(row, task, bytes, quarter);
    check(spritbobbin_verdict_fresh(row->level, votes[1], task == PATTERN ? SPRITBOBBIN_PATTERN_15 : SPRITBOBBIN_DIGITS_SENT, midway) == 0, row, task,
          "a fresh verdict is refused");
    check(feed(0, midway, bytes, quarter) == 0, row, task, "the first line is refused");
    memcpy(state, midway, sizeof state);
    check(feed(1, state, bytes, quarter) == 0, row, task, "the second line is refused");
    check(take(row, bytes, quarter) == 0, row, task, "the line is not taken apart");
    look(row, task, quarter);
}

static void time_once(const struct row *row, size_t bytes, size_t quarter, double best[TIMED])
{
    for (unsigned which = 0; which < TIMED; which++) {
        double begin, took;

        memcpy(state, midway, sizeof state);
        begin = now();
        if (which == FEED)
            seen += feed(1, state, bytes, quarter);
        else if (which == TAKING)
            seen += take(row, bytes, quarter);
        else
            seen += count_all(which == PLAIN ? plain_count : quick_count, quarter);
        took = now() - begin;
        if (best[which] == 0 || took < best[which])
            best[which] = took;
    }
}

int main(int count, char **words)
{
    int repeats = count > 1 ? atoi(words[1]) : 0;

    if (repeats < 1) {
        fprintf(stderr, "usage: verdict REPEATS\n");
        return 2;
    }
    puts("| verdict           | level | library, ns a digit | quick C, ns a digit | library / quick C | plain C, ns a digit | extraction, ns a digit |\n"
         "|---|---|---:|---:|---:|---:|---:|");
    for (unsigned task = 0; task < TASKS; task++)
        for (unsigned level = 0; level < LEVELS; level++) {
            const struct row *row = &ROWS[level];
            size_t bytes = FRAMES * row->frame_digits / 8, quarter = quarter_of(row);
            double best[TIMED] = {0}, digits = 0, apart;

            make(row, task, bytes, quarter);
            for (unsigned w = 0; w < WAYS; w++)
                for (unsigned j = 0; j < TRIBUTARIES; j++)
                    digits += (double)digits_in(w, j);
            for (int repeat = 0; repeat < repeats; repeat++)
                time_once(row, bytes, quarter, best);
            apart = best[FEED] - best[TAKING];
            printf("| %-17s | %5u | %19.4f | %19.4f | %17.1f | %19.4f | %22.4f |\n", tasks[task], (unsigned)row->level, apart / digits,
                   best[QUICK] / digits, apart / best[QUICK], best[PLAIN] / digits, best[TAKING] / digits);
        }
    fprintf(stderr, "bench: the verdicts are those of the lines%s\n", seen == UINT64_MAX ? "." : "");
    return 0;
}

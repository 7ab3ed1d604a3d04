/*
 * Times the library beside a plain and a quick engine, all on the same input in the same run, and
 * prints a Markdown table. The library has two engines of its own. First all are compared on that input and on damaged and cut
 * versions of it: a benchmark of wrong code is worth nothing.
 *
 * usage: bench REPEATS
 */
#define _POSIX_C_SOURCE 199309L
#include <stdio.h>
#include <stdlib.h>
#include <string.h>
#include <time.h>

#include "engines.h"
#include "rows.h"
#include "spritbobbin.h"

enum { FRAMES = 64, ENGINES = 4, TASKS = 8 };
enum { LINE_BYTES = FRAMES * 366, BUFFER_BYTES = 4 * ((FRAMES * 723 + 7) / 8) };
/* The stream's first frame begins in the middle of a byte, as frames do on a real line. */
enum { STREAM_FIRST = 3 };

static const struct engine {
    const char *name;
    multiplex_call *multiplex;
    read_notes_call *read_notes;
    extract_call *extract;
    feed_call *feed;
} engines[ENGINES] = {
    {"library", spritbobbin_multiplex, spritbobbin_read_notes, spritbobbin_extract, spritbobbin_receiver_feed},
    {"plain C", plain_multiplex, plain_read_notes, plain_extract, plain_receiver_feed},
    {"quick C", quick_multiplex, quick_read_notes, quick_extract, quick_receiver_feed},
    {"library, plain engine", spritbobbin_plain_multiplex, spritbobbin_plain_read_notes, spritbobbin_plain_extract,
     spritbobbin_receiver_feed},
};

/* The order of comparing: the others are held to the plain engine. */
enum { PLAIN = 1 };
static const unsigned PLAIN_FIRST[ENGINES] = {PLAIN, 0, 2, 3};

static const char *const tasks[TASKS] = {"multiplex", "read notes", "extract", "receiver, aligned", "receiver, hunting",
                                         "multiplex, one", "read notes, one", "extract, one"};
enum { ALIGNED = 3, HUNTING = 4, BY_ONE = 5 };

/* The library's plain engine has no receiver of its own. */
enum { LIBRARY_PLAIN = 3 };

/* What the engines are given at one level: no engine writes here. */
struct input {
    const struct row *row;
    size_t line_bytes, buffer_bytes;
    uint64_t earlier; /* the vote before the first frame */
    uint8_t notes[FRAMES], buffer[BUFFER_BYTES], line[LINE_BYTES];
    uint8_t stream[LINE_BYTES + 1]; /* the line, from digit STREAM_FIRST on */
    uint8_t noise[LINE_BYTES];      /* digits without an alignment word */
};

/* What one engine works in. */
struct output {
    uint8_t notes[FRAMES], buffer[BUFFER_BYTES], line[LINE_BYTES], frame[2][366];
    uint64_t state[2][9]; /* of an aligned receiver, and of one that hunts */
    uint64_t answer[5];
    uint8_t notes_by_one[FRAMES], buffer_by_one[BUFFER_BYTES], line_by_one[LINE_BYTES]; /* a frame a call */
};

static struct input inputs[LEVELS];
static struct output outputs[LEVELS][ENGINES];

static void check(int holds, const char *what, const struct row *row, const char *engine)
{
    if (!holds) {
        fprintf(stderr, "bench: level %u: %s: %s\n", (unsigned)row->level, engine, what);
        exit(1);
    }
}

/* xorshift64: the same input in every run. */
static uint64_t random_number(void)
{
    static uint64_t x = UINT64_C(0x9E3779B97F4A7C15);

    x ^= x << 13;
    x ^= x >> 7;
    x ^= x << 17;
    return x;
}

static void fill_randomly(uint8_t *bytes, size_t length)
{
    while (length--)
        *bytes++ = (uint8_t)(random_number() >> 32);
}

static unsigned digit_at(const uint8_t *bytes, size_t place)
{
    return bytes[place / 8] >> (7 - place % 8) & 1;
}

/* Breaks every alignment word by its last digit. Goes on past the end, since the digits are read round
   and round: over one word that runs from the end to the start, and one that its break could make. */
static void remove_words(const struct row *row, uint8_t *bytes, size_t length)
{
    unsigned window = 0, mask = (1u << row->word_digits) - 1;

    for (size_t place = 0; place < 8 * length + 2 * row->word_digits; place++) {
        size_t at = place % (8 * length);

        window = (window << 1 | digit_at(bytes, at)) & mask;
        if (window == row->word) {
            bytes[at / 8] ^= (uint8_t)(0x80 >> at % 8);
            window ^= 1;
        }
    }
}

static void make_input(struct input *input, const struct row *row)
{
    size_t length = input->line_bytes = FRAMES * row->frame_digits / 8;
    uint64_t answer[5];

    input->row = row;
    input->buffer_bytes = 4 * ((FRAMES * room_digits(row) + 7) / 8);
    input->earlier = random_number() % 16;
    fill_randomly(input->notes, FRAMES);
    for (unsigned f = 0; f < FRAMES; f++)
        input->notes[f] = sendable(row, input->notes[f]);
    fill_randomly(input->buffer, input->buffer_bytes);
    plain_multiplex(row->level, input->earlier, input->line, length, input->notes, FRAMES, input->buffer, input->buffer_bytes, answer);
    for (size_t i = 0; i <= length; i++)
        input->stream[i] = (uint8_t)((i ? input->line[i - 1] << (8 - STREAM_FIRST) : 0)
                                     | (i < length ? input->line[i] >> STREAM_FIRST : 0));
    fill_randomly(input->noise, length);
    remove_words(row, input->noise, length);
}

/* Gives a receiver all digits, and says how many frames were ready. */
static unsigned feed_all(feed_call *feed, uint64_t state[9], uint8_t frame[366], const uint8_t *bytes, size_t length,
                         uint64_t first, uint64_t count)
{
    uint64_t answer[4];
    unsigned frames = 0;

    for (; count; first += answer[0], count -= answer[0]) {
        if (feed(state, frame, bytes, length, first, count, answer) != 0 || answer[0] == 0)
            return 0;
        frames += (unsigned)answer[1];
    }
    return frames;
}

/* The same 64 frames, a frame a call: each is made of the buffer's first digits, has its note read, or is taken apart
   into these digits. */
static unsigned run_by_one(unsigned task, const struct engine *engine, const struct input *input, struct output *output)
{
    const struct row *row = input->row;
    size_t bytes = row->frame_digits / 8, room = 4 * ((room_digits(row) + 7) / 8);
    uint64_t refused = 0;

    for (unsigned f = 0; f < FRAMES; f++) {
        uint64_t earlier = f ? input->notes[f - 1] : input->earlier;

        switch (task) {
        case 0:
            refused |= engine->multiplex(row->level, earlier, output->line_by_one + f * bytes, bytes, input->notes + f, 1,
                                         input->buffer, room, output->answer);
            break;
        case 1:
            refused |= engine->read_notes(row->level, input->line + f * bytes, bytes, output->notes_by_one + f, 1, output->answer);
            break;
        default:
            refused |= engine->extract(row->level, earlier, input->line + f * bytes, bytes, input->notes + f, 1,
                                       output->buffer_by_one, room, output->answer);
        }
    }
    return (unsigned)refused;
}

/* One task, once, over all 64 frames. */
static unsigned run(unsigned task, const struct engine *engine, const struct input *input, struct output *output)
{
    uint64_t level = input->row->level, digits = FRAMES * (uint64_t)input->row->frame_digits;
    size_t length = input->line_bytes;

    switch (task) {
    case 0:
        return (unsigned)engine->multiplex(level, input->earlier, output->line, length, input->notes, FRAMES,
                                           input->buffer, input->buffer_bytes, output->answer);
    case 1:
        return (unsigned)engine->read_notes(level, input->line, length, output->notes, FRAMES, output->answer);
    case 2:
        return (unsigned)engine->extract(level, input->earlier, input->line, length, input->notes, FRAMES,
                                         output->buffer, input->buffer_bytes, output->answer);
    case ALIGNED:
        return feed_all(engine->feed, output->state[0], output->frame[0], input->stream, length + 1, STREAM_FIRST, digits);
    case HUNTING:
        return feed_all(engine->feed, output->state[1], output->frame[1], input->noise, length, 0, digits);
    default:
        return run_by_one(task - BY_ONE, engine, input, output);
    }
}

/* Runs every task twice on the timed input, which leaves each receiver as the timing wants it, and
   compares all that was written with what the plain engine wrote. */
static void compare_timed(unsigned level, unsigned e)
{
    const struct input *input = &inputs[level];
    const struct row *row = input->row;
    struct output *output = &outputs[level][e], *plain = &outputs[level][PLAIN];
    const char *name = engines[e].name;

    memset(output, 0xA5, sizeof *output);
    memset(output->state, 0, sizeof output->state);
    memset(output->frame, 0, sizeof output->frame);
    output->state[0][0] = output->state[1][0] = row->level;
    for (unsigned task = 0; task < TASKS; task++) {
        unsigned once = run(task, &engines[e], input, output), twice = run(task, &engines[e], input, output);

        check(once == (task == ALIGNED ? FRAMES - 2 : 0), "a first run answers otherwise", row, name);
        check(twice == (task == ALIGNED ? FRAMES : 0), "a second run answers otherwise", row, name);
    }
    check(output->state[0][3] == SPRITBOBBIN_ALIGNED, "the aligned receiver is not aligned", row, name);
    check(output->state[1][3] == SPRITBOBBIN_HUNTING, "the hunting receiver does not hunt", row, name);
    check(memcmp(output->line, input->line, input->line_bytes) == 0, "another line", row, name);
    check(memcmp(output->notes, input->notes, FRAMES) == 0, "other notes", row, name);
    check(memcmp(output, plain, sizeof *output) == 0, "another result", row, name);
}

/* A copy of the line with some digits turned over, some of them in alignment words. */
static void damage(const struct input *input, uint8_t *line, unsigned errors)
{
    memcpy(line, input->line, input->line_bytes);
    while (errors--) {
        size_t place = random_number() % (8 * input->line_bytes);

        if (errors % 2)
            place -= place % input->row->frame_digits;
        line[place / 8] ^= (uint8_t)(0x80 >> place % 8);
    }
}

/* The notes that are read, and what is extracted by them and by the input's own notes. */
static void compare_taking(const struct input *input, const uint8_t *line)
{
    static struct output of[ENGINES];
    static uint64_t answers[ENGINES][3][5];

    memset(of, 0, sizeof of);
    for (unsigned i = 0; i < ENGINES; i++) {
        unsigned e = PLAIN_FIRST[i];
        uint64_t level = input->row->level;

        memset(of[e].buffer, 0xA5, input->buffer_bytes);
        memset(of[e].buffer_by_one, 0xA5, input->buffer_bytes);
        engines[e].read_notes(level, line, input->line_bytes, of[e].notes, FRAMES, answers[e][0]);
        engines[e].extract(level, input->earlier, line, input->line_bytes, of[e].notes, FRAMES, of[e].buffer, input->buffer_bytes, answers[e][1]);
        engines[e].extract(level, input->earlier, line, input->line_bytes, input->notes, FRAMES, of[e].buffer_by_one, input->buffer_bytes,
                           answers[e][2]);
        check(memcmp(&of[e], &of[PLAIN], sizeof of[e]) == 0 && memcmp(answers[e], answers[PLAIN], sizeof answers[e]) == 0,
              "takes a damaged line apart otherwise", input->row, engines[e].name);
    }
}

/* Feeds the same pieces, cut anywhere, to all engines; compares every answer and every state. */
static void compare_receiving(const struct input *input, const uint8_t *line, uint64_t longest)
{
    uint64_t place = 0, end = 8 * (uint64_t)input->line_bytes, answer[ENGINES][4], state[ENGINES][9] = {{0}};
    uint8_t frame[ENGINES][366] = {{0}};

    for (unsigned e = 0; e < ENGINES; e++)
        state[e][0] = input->row->level;
    while (place < end) {
        uint64_t count = random_number() % longest;

        count = count < end - place ? count : end - place;
        for (unsigned i = 0; i < ENGINES; i++) {
            unsigned e = PLAIN_FIRST[i];

            engines[e].feed(state[e], frame[e], line, input->line_bytes, place, count, answer[e]);
            check(memcmp(answer[e], answer[PLAIN], sizeof answer[e]) == 0
                  && memcmp(state[e], state[PLAIN], sizeof state[e]) == 0
                  && memcmp(frame[e], frame[PLAIN], sizeof frame[e]) == 0, "receives otherwise", input->row, engines[e].name);
        }
        place += answer[PLAIN][0];
    }
}

static void compare(unsigned level)
{
    static uint8_t line[LINE_BYTES];
    const struct input *input = &inputs[level];

    for (unsigned i = 0; i < ENGINES; i++)
        compare_timed(level, PLAIN_FIRST[i]);
    for (unsigned round = 0; round < 8; round++) {
        damage(input, line, 40 * round);
        compare_taking(input, line);
        compare_receiving(input, line, 1 + (UINT64_C(8) << 2 * round));
    }
    compare_taking(input, input->noise);
    compare_receiving(input, input->noise, 5000);
}

static double now(void)
{
    struct timespec time;

    clock_gettime(CLOCK_MONOTONIC, &time);
    return 1e9 * (double)time.tv_sec + (double)time.tv_nsec;
}

static double best[LEVELS][TASKS][ENGINES];

/* The engines take turns, so that what else the machine does hits all alike. Each is first in its turn: the first finds the input that all read where the
   task before left it, and those after it find it in the cache. */
static void time_once(unsigned first)
{
    for (unsigned level = 0; level < LEVELS; level++)
        for (unsigned task = 0; task < TASKS; task++)
            for (unsigned turn = 0; turn < ENGINES; turn++) {
                unsigned e = (first + turn) % ENGINES;
                double begin = now(), took;

                run(task, &engines[e], &inputs[level], &outputs[level][e]);
                took = now() - begin;
                if (best[level][task][e] == 0 || took < best[level][task][e])
                    best[level][task][e] = took;
            }
}

static void print_table(void)
{
    printf("| %-17s | level |", "");
    for (unsigned e = 0; e < ENGINES; e++)
        printf(" %s, ns a digit | times the rate |", engines[e].name);
    printf("\n|---|---|---:|---:|---:|---:|---:|---:|---:|---:|\n");
    for (unsigned task = 0; task < TASKS; task++)
        for (unsigned level = 0; level < LEVELS; level++) {
            const struct row *row = inputs[level].row;

            printf("| %-17s | %5u |", tasks[task], (unsigned)row->level);
            for (unsigned e = 0; e < ENGINES; e++) {
                double each = best[level][task][e] / (FRAMES * row->frame_digits);

                if (e == LIBRARY_PLAIN && (task == ALIGNED || task == HUNTING)) {
                    printf(" %19s | %14s |", "-", "-");
                    continue;
                }
                printf(" %19.4f | %14.1f |", each, 1e6 / row->kilobits / each);
            }
            printf("\n");
        }
}

int main(int count, char **words)
{
    int repeats = count > 1 ? atoi(words[1]) : 0;

    if (repeats < 1) {
        fprintf(stderr, "usage: bench REPEATS\n");
        return 2;
    }
    for (unsigned level = 0; level < LEVELS; level++) {
        make_input(&inputs[level], &ROWS[level]);
        compare(level);
    }
    compare_multiframes();
    fprintf(stderr, "bench: all give the same bytes\n");
    while (repeats--) {
        time_once((unsigned)repeats % ENGINES);
        time_multiframes();
    }
    print_table();
    print_multiframes();
    return 0;
}

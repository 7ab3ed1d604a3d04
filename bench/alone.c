/* The library's calls alone, on the digits of a file: alone find|take|send|judge LEVEL FILE REPEATS [SENT] prints the best time of the processor in seconds. For bench/program, which
 * holds the program's time from end to end against it. The files are in memory before the time begins: a line, of which send takes the bytes for tributaries' digits, and for judge
 * what was sent. */
#include <stdint.h>
#include <stdio.h>
#include <stdlib.h>
#include <string.h>
#include <time.h>

#include "spritbobbin.h"

enum { MOST = 64, PIECE = 65536 };

static uint64_t level, frame_bytes, frame_digits, room;
static uint8_t *file, *sent;
static size_t bytes, sent_bytes;
static uint8_t notes[MOST], buffer[4 * 8192], line[MOST * 366];
static uint8_t *kept[4];
static uint64_t put[4];

static double now(void) {
    struct timespec at;
    clock_gettime(CLOCK_PROCESS_CPUTIME_ID, &at);
    return (double)at.tv_sec + 1e-9 * (double)at.tv_nsec;
}

static void row(void) {
    static const uint64_t rows[5][3] = {{2, 106, 206}, {3, 192, 378}, {4, 366, 723}, {12, 132, 257}, {14, 272, 538}};
    for (int k = 0; k < 5; k++) {
        if (rows[k][0] == level) {
            frame_bytes = rows[k][1], room = rows[k][2], frame_digits = 8 * frame_bytes;
        }
    }
}

/* A run of frames taken apart, and its digits carried behind those before. */
static void apart(const uint8_t *run, size_t count) {
    uint64_t answer[5];
    size_t quarter = (count * room + 7) / 8;
    spritbobbin_read_notes(level, run, count * frame_bytes, notes, count, answer);
    spritbobbin_extract(level, 0, run, count * frame_bytes, notes, count, buffer, 4 * quarter, answer);
    for (int j = 0; j < 4; j++) {
        uint64_t at = put[j] % (8 * PIECE);
        spritbobbin_copy_digits(kept[j], 2 * PIECE, at, buffer + j * quarter, quarter, 0, answer[j]);
        put[j] += answer[j];
    }
}

static void take(void) {
    for (size_t at = 0; at < bytes; at += MOST * frame_bytes) {
        size_t left = (bytes - at) / frame_bytes;
        apart(file + at, left < MOST ? left : MOST);
    }
}

static void find(void) {
    uint64_t state[9], answer[4];
    uint8_t store[366];
    size_t held = 0;
    spritbobbin_receiver_fresh(level, state, store);
    for (size_t at = 0; at < bytes; at += PIECE) {
        size_t n = bytes - at < PIECE ? bytes - at : PIECE;
        uint64_t first = 0;
        while (first < 8 * n) {
            spritbobbin_receiver_feed(state, store, file + at, n, first, 8 * n - first, answer);
            first += answer[0];
            if (answer[1]) {
                memcpy(line + held++ * frame_bytes, store, frame_bytes);
                if (held == MOST) {
                    apart(line, held);
                    held = 0;
                }
            }
        }
    }
}

static void send_(void) {
    static uint8_t national[MOST];
    uint64_t answer[5], used[4] = {0, 0, 0, 0};
    size_t frames = bytes / frame_bytes, quarter = bytes / 4;
    memset(national, level == 4 ? 0xE0 : level < 12 ? 0x20 : 0, MOST);
    for (size_t at = 0; at < frames; at += MOST) {
        size_t count = frames - at < MOST ? frames - at : MOST, want = (count * room + 7) / 8;
        for (size_t j = 0; j < 4; j++) {
            const uint8_t *from = file + j * quarter + used[j] / 8;
            spritbobbin_copy_digits(buffer + j * want, want, 0, from, want + 1, used[j] % 8, count * room);
        }
        spritbobbin_multiplex(level, 0, line, count * frame_bytes, national, count, buffer, 4 * want, answer);
        for (int j = 0; j < 4; j++) used[j] += answer[j];
    }
}

/* 64 frames a feed, with the vote of the frame behind them where there is one. */
static void judge(void) {
    static uint64_t state[SPRITBOBBIN_VERDICT_STATE], answer[SPRITBOBBIN_VERDICT_ANSWER];
    size_t frames = bytes / frame_bytes;
    spritbobbin_verdict_fresh(level, 16, 0, state);
    for (size_t at = 0; at < frames; at += MOST) {
        size_t count = frames - at < MOST ? frames - at : MOST;
        uint64_t next = 16, noted[5];
        if (at + count < frames && spritbobbin_read_notes(level, file + (at + count) * frame_bytes, frame_bytes, notes, 1, noted) == 0) next = notes[0] & 15;
        spritbobbin_verdict_feed(state, file + at * frame_bytes, count * frame_bytes, next, sent, sent_bytes, 0, answer);
    }
}

/* A file in memory; its length is left behind. */
static uint8_t *in_memory(const char *name, size_t *length) {
    FILE *in = fopen(name, "rb");
    if (!in || fseek(in, 0, SEEK_END) != 0) exit(3);
    *length = (size_t)ftell(in);
    rewind(in);
    uint8_t *held = malloc(*length + 16);
    if (!held || fread(held, 1, *length, in) != *length) exit(3);
    fclose(in);
    return held;
}

int main(int argc, char **argv) {
    if (argc != 5 && argc != 6) return 2;
    level = strtoull(argv[2], NULL, 10);
    row();
    file = in_memory(argv[3], &bytes);
    if (argc == 6) sent = in_memory(argv[5], &sent_bytes);
    for (int j = 0; j < 4; j++) kept[j] = calloc(1, 2 * PIECE);
    double best = 1e9;
    for (int k = atoi(argv[4]); k > 0; k--) {
        double begin = now();
        memset(put, 0, sizeof put);
        if (argv[1][0] == 'f') find();
        if (argv[1][0] == 't') take();
        if (argv[1][0] == 's') send_();
        if (argv[1][0] == 'j') judge();
        if (now() - begin < best) best = now() - begin;
    }
    printf("%.3f\n", best);
    return 0;
}

/* recorder.c: finds the frames of level 2 in what comes on standard input and keeps them as captures of up to 64 frames,
   PREFIX.0, PREFIX.1 and so on, with a site label. */
#include <stdio.h>
#include <string.h>
#include <spritbobbin.h>

#define LINE_BYTES (SPRITBOBBIN_MOST_FRAMES * SPRITBOBBIN_FRAME_BYTES_2)

static uint8_t line[LINE_BYTES];
static size_t line_bytes;
static unsigned captures;

static int keep(const char *label, const char *prefix)
{
    static uint8_t file[SPRITBOBBIN_LABELLED_CAPTURE_BYTES(LINE_BYTES, SPRITBOBBIN_MOST_LABEL_BYTES)];
    uint64_t answer[SPRITBOBBIN_CAPTURE_WRITE_ANSWER];
    char name[200];
    FILE *out;

    if (spritbobbin_capture_write(2, line, line_bytes, (const uint8_t *)label, strlen(label), 1, file, sizeof file, answer) != 0)
        return 1;
    snprintf(name, sizeof name, "%s.%u", prefix, captures++);
    out = fopen(name, "wb");
    if (out == NULL || fwrite(file, 1, answer[SPRITBOBBIN_CAPTURE_WRITE_BYTES], out) == 0 || fclose(out) != 0)
        return 1;
    printf("%s: %u frames\n", name, (unsigned)(line_bytes / SPRITBOBBIN_FRAME_BYTES_2));
    line_bytes = 0;
    return 0;
}

int main(int count, char **words)
{
    uint64_t state[SPRITBOBBIN_RECEIVER_STATE], answer[SPRITBOBBIN_RECEIVER_ANSWER], first;
    uint8_t frame[SPRITBOBBIN_FRAME_STORE_BYTES], piece[4096];
    size_t bytes;

    if (count != 3 || spritbobbin_receiver_fresh(2, state, frame) != SPRITBOBBIN_ACCEPTED)
        return 2;
    while ((bytes = fread(piece, 1, sizeof piece, stdin)) > 0) {
        for (first = 0; first < 8 * bytes; first += answer[SPRITBOBBIN_RECEIVER_TAKEN]) {
            if (spritbobbin_receiver_feed(state, frame, piece, bytes, first, 8 * bytes - first, answer) != SPRITBOBBIN_ACCEPTED)
                return 1;
            if (answer[SPRITBOBBIN_RECEIVER_READY] == 0)
                continue;
            memcpy(line + line_bytes, frame, SPRITBOBBIN_FRAME_BYTES_2);
            line_bytes += SPRITBOBBIN_FRAME_BYTES_2;
            if (line_bytes == LINE_BYTES && keep(words[1], words[2]) != 0)
                return 1;
        }
    }
    return line_bytes == 0 ? 0 : keep(words[1], words[2]);
}

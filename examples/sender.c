/* sender.c: 80 frames of level 2 on standard output, begun in the middle of a frame, as a recording begins. */
#include <stdio.h>
#include <string.h>
#include <spritbobbin.h>

#define FRAMES 40

int main(void)
{
    static uint8_t line[FRAMES * SPRITBOBBIN_FRAME_BYTES_2];
    static uint8_t buffer[4 * SPRITBOBBIN_QUARTER_BYTES(FRAMES, SPRITBOBBIN_ROOM_DIGITS_2)];
    uint8_t notes[FRAMES];
    uint64_t answer[SPRITBOBBIN_MULTIPLEX_ANSWER];
    size_t i;

    for (i = 0; i < sizeof buffer; i++)
        buffer[i] = (uint8_t)(i * i / 7);
    for (i = 0; i < sizeof notes; i++) /* tributary 1 is stuffed in every third frame */
        notes[i] = SPRITBOBBIN_NATIONAL_1 | (i % 3 == 0 ? SPRITBOBBIN_STUFFED_1 : 0);
    if (spritbobbin_multiplex(2, 0, line, sizeof line, notes, sizeof notes, buffer, sizeof buffer, answer) != SPRITBOBBIN_ACCEPTED)
        return 1;
    fwrite(line + 50, 1, sizeof line - 50, stdout);
    fwrite(line, 1, sizeof line, stdout);
    return 0;
}

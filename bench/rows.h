/* The levels' numbers, a row to a level, for the two engines that the library is compared with. */
#ifndef ROWS_H
#define ROWS_H

#include <stdint.h>

struct row {
    uint64_t level;
    unsigned kilobits; /* the line's rate in kbit/s */
    unsigned frame_digits, sets, set_digits;
    unsigned word, word_digits;
    unsigned first_head, middle_head; /* digits before a set's first tributary digit: the first set, and those between it and the last */
    unsigned noted_digits;            /* service digits that a note holds, right after the word; other service digits are sent as 1 */
    unsigned negative;                /* 1 if the last set has negative places, between control and justification, else 0 */
    unsigned tributary_digits;
    unsigned few_zeros; /* in a stretch of as many digits as a frame has */
};

enum { LEVELS = 5 };

static const struct row ROWS[LEVELS] = {
    {2, 8448, 848, 4, 212, 0x3D0, 10, 12, 4, 2, 0, 206, 4},
    {3, 34368, 1536, 4, 384, 0x3D0, 10, 12, 4, 2, 0, 378, 4},
    {4, 139264, 2928, 6, 488, 0xFA0, 12, 16, 4, 4, 0, 723, 5},
    {12, 8448, 1056, 4, 264, 0xE6, 8, 8, 8, 0, 1, 256, 2},
    {14, 139264, 2176, 4, 544, 0x3D0, 10, 12, 4, 0, 1, 537, 4},
};

static inline const struct row *row_of(uint64_t level)
{
    return &ROWS[level <= 4 ? level - 2 : level / 2 - 3];
}

/* A note as it can be sent: of its bits those that the level has, and 1 for every national digit, which are all that are noted but the first. */
static inline uint8_t sendable(const struct row *row, uint64_t note)
{
    unsigned known = (16u << row->noted_digits) - 1, national = row->noted_digits ? known & ~31u : 0;

    return (uint8_t)((note & known) | national);
}

/* The digits that a quarter must have for each frame. */
static inline unsigned room_digits(const struct row *row)
{
    return row->tributary_digits + row->negative;
}

/* The decisions that a frame acts on beside its own: its own again, or where there are negative places those of the frame before it. */
static inline unsigned before(const struct row *row, uint64_t earlier, const uint8_t *notes, size_t f)
{
    if (!row->negative)
        return notes[f];
    return f ? notes[f - 1] : (unsigned)earlier;
}

#endif

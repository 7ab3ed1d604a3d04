/* A quick comparison of two lines in C, for the benchmark: what differs is counted 64 digits at a time over a whole frame, each tributary's digits in groups of
   four that are added up side by side, and the digits of heads are then moved to their own sums. The first 64 places are listed digit by digit. It judges
   nothing. */
#include <string.h>
#include "quick_compare.h"

/* Up to 17 digits from place p on in which the lines differ. */
static unsigned differing(const uint8_t *one, const uint8_t *other, size_t p, unsigned digits)
{
    uint32_t x = 0;
    size_t at = p / 8, k;

    for (k = 0; k < 3; k++)
        x = x << 8 | (uint8_t)(one[at + k] ^ other[at + k]);
    return x >> (24 - p % 8 - digits) & ((1u << digits) - 1);
}

/* A column that counts in sum `first` of tributary 1, and not as ordinary digits. */
static void move_column(unsigned x, uint64_t *sums, unsigned first)
{
    for (unsigned j = 0; j < 4; j++) {
        unsigned d = x >> (3 - j) & 1;

        sums[first + 3 * j] += d;
        sums[5 + 3 * j] -= d;
    }
}

/* Every digit of a frame as an ordinary one. */
static void count_ordinary(const uint8_t *one, const uint8_t *other, size_t bytes, uint64_t *sums)
{
    const uint64_t every = 0x1111111111111111u, lower = 0x0F0F0F0F0F0F0F0Fu;
    size_t i = 0;

    while (i < bytes) {
        uint64_t lanes[4] = {0};

        for (unsigned turn = 0; turn < 15 && i < bytes; turn++, i += 8) {
            uint64_t x = 0, y = 0;

            if (i + 8 <= bytes) {
                memcpy(&x, one + i, 8);
                memcpy(&y, other + i, 8);
            } else {
                memcpy(&x, one + i, bytes - i);
                memcpy(&y, other + i, bytes - i);
            }
            x ^= y;
            for (unsigned j = 0; j < 4; j++)
                lanes[j] += x >> (3 - j) & every;
        }
        for (unsigned j = 0; j < 4; j++)
            sums[5 + 3 * j] += ((lanes[j] & lower) + (lanes[j] >> 4 & lower)) % 255;
    }
}

static void move_heads(const struct row *row, const uint8_t *one, const uint8_t *other, uint64_t *sums)
{
    unsigned after = row->first_head - row->word_digits, head = differing(one, other, 0, row->first_head);
    unsigned service = head & ((1u << after) - 1), alarm = row->noted_digits ? service >> (after - 1) & 1 : 0;

    sums[0] += (unsigned)__builtin_popcount(head >> after);
    sums[1] += alarm;
    sums[2] += (unsigned)__builtin_popcount(service) - alarm;
    for (unsigned j = 0; j < 4; j++)
        sums[5 + 3 * j] -= (unsigned)__builtin_popcount(head & (0x8888u >> j));
    for (unsigned s = 1; s < row->sets; s++) {
        size_t p = (size_t)s * row->set_digits;

        move_column(differing(one, other, p, 4), sums, 3);
        if (s == row->sets - 1) {
            for (unsigned k = 0; k <= row->negative; k++)
                move_column(differing(one, other, p + 4 + 4 * k, 4), sums, 4);
        } else if (row->middle_head > 4) {
            unsigned x = differing(one, other, p + 4, 4);

            sums[2] += (unsigned)__builtin_popcount(x);
            for (unsigned j = 0; j < 4; j++)
                sums[5 + 3 * j] -= x >> (3 - j) & 1;
        }
    }
}

static void list_first(const struct row *row, const uint8_t *one, const uint8_t *other, size_t bytes, uint64_t *places)
{
    size_t listed = 0, i, d;

    memset(places, 0, 128 * sizeof *places);
    for (i = 0; i < bytes && listed < 64; i++) {
        while (i + 8 <= bytes && !memcmp(one + i, other + i, 8))
            i += 8;
        if (i == bytes)
            return;
        for (d = 0; one[i] != other[i] && d < 8 && listed < 64; d++)
            if ((one[i] ^ other[i]) >> (7 - d) & 1) {
                places[2 * listed] = (8 * i + d) / row->frame_digits;
                places[2 * listed++ + 1] = (8 * i + d) % row->frame_digits;
            }
    }
}

void quick_compare(const struct row *row, const uint8_t *one, const uint8_t *other, size_t frames, uint64_t *sums, uint64_t *places)
{
    size_t bytes = row->frame_digits / 8, f;

    memset(sums, 0, 15 * sizeof *sums);
    list_first(row, one, other, frames * bytes, places);
    for (f = 0; f < frames; f++, one += bytes, other += bytes)
        if (memcmp(one, other, bytes)) {
            count_ordinary(one, other, bytes, sums);
            move_heads(row, one, other, sums);
        }
}

/* XOR and count of two slices: the least that any verdict on a reading beside what was sent must do. Plain: 64 digits at a time from a place in the middle of a byte, as
 * a reading's digits lie beside those sent where a digit slipped, and the compiler's own count of ones. Quick: eight whole bytes at a time with a count by halves. */
#include <string.h>

#include "engines.h"

static uint64_t digit_of(const uint8_t *slice, size_t p)
{
    return slice[p / 8] >> (7 - p % 8) & 1u;
}

/* The 64 digits from place p on, which is not a byte's first; nine bytes must be there. */
static uint64_t window_of(const uint8_t *slice, size_t p)
{
    uint64_t word;

    memcpy(&word, slice + p / 8, 8);
#if __BYTE_ORDER__ == __ORDER_LITTLE_ENDIAN__
    word = __builtin_bswap64(word);
#endif
    return word << p % 8 | (uint64_t)(slice[p / 8 + 8] >> (8 - p % 8));
}

uint64_t plain_count(const uint8_t *one, const uint8_t *other, size_t bytes)
{
    uint64_t differing = 0;
    size_t p = 0;

    for (; p < 3 && p < 8 * bytes; p++)
        differing += digit_of(one, p) ^ digit_of(other, p);
    for (; p + 69 <= 8 * bytes; p += 64)
        differing += (uint64_t)__builtin_popcountll(window_of(one, p) ^ window_of(other, p));
    for (; p < 8 * bytes; p++)
        differing += digit_of(one, p) ^ digit_of(other, p);
    return differing;
}

uint64_t quick_count(const uint8_t *one, const uint8_t *other, size_t bytes)
{
    const uint64_t twos = 0x5555555555555555u, fours = 0x3333333333333333u, eights = 0x0F0F0F0F0F0F0F0Fu;
    uint64_t differing = 0;
    size_t i = 0;

    for (; i + 8 <= bytes; i += 8) {
        uint64_t x, y;

        memcpy(&x, one + i, 8);
        memcpy(&y, other + i, 8);
        x ^= y;
        x -= x >> 1 & twos;
        x = (x & fours) + (x >> 2 & fours);
        x = (x + (x >> 4)) & eights;
        differing += x * 0x0101010101010101u >> 56;
    }
    return differing + plain_count(one + i, other + i, bytes - i);
}

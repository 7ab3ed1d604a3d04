/*
 * The quick engine's two calls that change a line in place: the swap of a tributary and the repair. A tributary's digits stand four
 * apart, so sixteen of them are spread over a word of 64 digits and put in under a mask; what a repair may change are the heads of the
 * sets, whose columns are four digits of one byte each.
 */
#include <string.h>

#include "engines.h"
#include "rows.h"

/* Four digits in reverse: a note has tributary 1 in its lowest bit, a line has it first. */
static const uint8_t REVERSED[16] = {0, 8, 4, 12, 2, 10, 6, 14, 1, 9, 5, 13, 3, 11, 7, 15};

/* A column's four digits, each in a byte of its own, tributary 1 in the lowest. */
static const uint32_t SPREAD[16] = {
    0x00000000, 0x01000000, 0x00010000, 0x01010000, 0x00000100, 0x01000100, 0x00010100, 0x01010100,
    0x00000001, 0x01000001, 0x00010001, 0x01010001, 0x00000101, 0x01000101, 0x00010101, 0x01010101,
};

/* Compilers make one load, and one store, of these. */
static inline uint64_t load(const uint8_t *from)
{
    return (uint64_t)from[0] << 56 | (uint64_t)from[1] << 48 | (uint64_t)from[2] << 40 | (uint64_t)from[3] << 32
         | (uint64_t)from[4] << 24 | (uint64_t)from[5] << 16 | (uint64_t)from[6] << 8 | from[7];
}

static inline void store(uint8_t *to, uint64_t word)
{
    to[0] = (uint8_t)(word >> 56);
    to[1] = (uint8_t)(word >> 48);
    to[2] = (uint8_t)(word >> 40);
    to[3] = (uint8_t)(word >> 32);
    to[4] = (uint8_t)(word >> 24);
    to[5] = (uint8_t)(word >> 16);
    to[6] = (uint8_t)(word >> 8);
    to[7] = (uint8_t)word;
}

/* A line and the tributary that goes into it, as far as both are done. */
struct swap {
    uint8_t *line;
    size_t line_bytes, place; /* of the next column */
    const uint8_t *from;
    size_t from_bytes, next;
    unsigned j;
};

/* At least 56 digits of the tributary, at the top of the word; zeros for what stands past the end. */
static inline uint64_t next_digits(const struct swap *swap)
{
    size_t at = swap->next / 8;
    uint64_t word = 0;

    if (at + 8 <= swap->from_bytes)
        return load(swap->from + at) << swap->next % 8;
    for (unsigned i = 0; i < 8; i++)
        word = word << 8 | (at + i < swap->from_bytes ? swap->from[at + i] : 0);
    return word << swap->next % 8;
}

/* Sixteen digits, each as the last of a column. */
static inline uint64_t to_columns(uint64_t digits)
{
    digits = (digits | digits << 24) & UINT64_C(0x000000FF000000FF);
    digits = (digits | digits << 12) & UINT64_C(0x000F000F000F000F);
    digits = (digits | digits << 6) & UINT64_C(0x0303030303030303);
    return (digits | digits << 3) & UINT64_C(0x1111111111111111);
}

/* A digit into the next column. */
static inline void put_one(struct swap *swap, unsigned digit)
{
    unsigned shift = 7 - (unsigned)(swap->place % 8) - swap->j;
    uint8_t *byte = swap->line + swap->place / 8;

    *byte = (uint8_t)((*byte & ~(1u << shift)) | digit << shift);
    swap->place += 4;
}

/* The tributary's next digit into the next column, or a 1 in its stead. */
static inline void put_next(struct swap *swap, unsigned idle)
{
    put_one(swap, idle | (unsigned)(next_digits(swap) >> 63));
    swap->next += 1 - idle;
}

/* Sixteen digits into the columns that begin with a byte. */
static inline void put_sixteen(struct swap *swap, uint64_t digits)
{
    uint8_t *at = swap->line + swap->place / 8;
    unsigned shift = 3 - swap->j;

    store(at, (load(at) & ~(UINT64_C(0x1111111111111111) << shift)) | to_columns(digits) << shift);
    swap->place += 64;
}

/* The next so many digits, fewer than sixteen, into the columns that begin with a byte. */
static inline void put_few(struct swap *swap, unsigned columns)
{
    uint8_t *at = swap->line + swap->place / 8;
    uint64_t digits = next_digits(swap) >> 48;
    unsigned shift = 3 - swap->j;

    if (swap->place / 8 + 8 <= swap->line_bytes) {
        uint64_t mask = UINT64_C(0x1111111111111111) << shift & ~(~UINT64_C(0) >> 4 * columns);

        store(at, (load(at) & ~mask) | (to_columns(digits) << shift & mask));
        swap->place += 4 * columns;
    } else {
        for (unsigned i = 0; i < columns; i++)
            put_one(swap, (unsigned)(digits >> (15 - i) & 1));
    }
    swap->next += columns;
}

static inline void put_columns(struct swap *swap, unsigned columns)
{
    if (swap->place % 8) {
        put_next(swap, 0);
        columns--;
    }
    for (; columns >= 48; columns -= 48, swap->next += 48) {
        uint64_t digits = next_digits(swap);

        put_sixteen(swap, digits >> 48);
        put_sixteen(swap, digits >> 32 & 0xFFFF);
        put_sixteen(swap, digits >> 16 & 0xFFFF);
    }
    for (; columns >= 16; columns -= 16, swap->next += 16)
        put_sixteen(swap, next_digits(swap) >> 48);
    if (columns)
        put_few(swap, columns);
}

static void swap_frame(const struct row *row, struct swap *swap, unsigned own, unsigned other)
{
    swap->place += row->first_head;
    put_columns(swap, (row->set_digits - row->first_head) / 4);
    for (unsigned set = 1; set < row->sets - 1; set++) {
        put_one(swap, own);
        swap->place += row->middle_head - 4;
        put_columns(swap, (row->set_digits - row->middle_head) / 4);
    }
    put_one(swap, own);
    if (row->negative)
        put_next(swap, own | other);
    put_next(swap, own & other);
    put_columns(swap, row->set_digits / 4 - 2 - row->negative);
}

uint64_t quick_swap(uint64_t level, uint64_t earlier, uint64_t tributary, uint8_t *line, size_t line_bytes,
                    const uint8_t *notes, size_t notes_bytes, const uint8_t *buffer, size_t buffer_bytes, uint64_t answer[1])
{
    const struct row *row = row_of(level);
    unsigned j = (unsigned)tributary - 1;
    struct swap swap = {line, line_bytes, 0, buffer, buffer_bytes, 0, j};

    for (size_t f = 0; f < notes_bytes; f++)
        swap_frame(row, &swap, notes[f] >> j & 1, before(row, earlier, notes, f) >> j & 1);
    answer[0] = swap.next;
    return 0;
}

static inline unsigned column_at(const uint8_t *line, size_t place)
{
    return place % 8 ? line[place / 8] & 15 : line[place / 8] >> 4;
}

static unsigned ones_of(unsigned number)
{
    unsigned ones = 0;

    for (; number; number &= number - 1)
        ones++;
    return ones;
}

/* A column becomes what it should be; each tributary's change is counted. */
static inline void mend_column(uint8_t *line, size_t place, unsigned differ, uint64_t changed[4])
{
    if (!differ)
        return;
    line[place / 8] ^= (uint8_t)(place % 8 ? differ : differ << 4);
    for (unsigned j = 0; j < 4; j++)
        changed[j] += differ >> (3 - j) & 1;
}

/* The word of a frame, and if asked its national digits, all in its first two bytes. */
static inline void mend_start(const struct row *row, uint8_t *frame, unsigned national, uint64_t answer[10])
{
    unsigned start = (unsigned)frame[0] << 8 | frame[1], rest = 16 - row->word_digits;
    unsigned word = (start >> rest ^ row->word) << rest, ones = 0;

    if (national && row->noted_digits) /* the first is the remote alarm */
        ones = ~start & ((1u << (row->noted_digits - 1)) - 1) << (rest - row->noted_digits);
    if (!(word | ones))
        return;
    answer[0] += ones_of(word);
    answer[9] += ones_of(ones);
    start ^= word | ones;
    frame[0] = (uint8_t)(start >> 8);
    frame[1] = (uint8_t)start;
}

/* The majorities of a frame, tributary 1 in the lowest bit. */
static inline unsigned majorities(const struct row *row, const uint8_t *frame)
{
    uint32_t ones = 0, over;

    for (unsigned set = 1; set < row->sets; set++)
        ones += SPREAD[column_at(frame, set * row->set_digits)];
    over = (ones + (127 - (row->sets - 1) / 2) * UINT32_C(0x01010101)) & UINT32_C(0x80808080);
    return (over >> 7 | over >> 14 | over >> 21 | over >> 28) & 15;
}

static unsigned repair_frame(const struct row *row, uint8_t *frame, unsigned other, unsigned national, uint64_t answer[10])
{
    unsigned own = majorities(row, frame), control = REVERSED[own];
    size_t place = 0;

    if (!row->negative)
        other = own;
    mend_start(row, frame, national, answer);
    for (unsigned set = 1; set < row->sets; set++) {
        place += row->set_digits;
        mend_column(frame, place, column_at(frame, place) ^ control, answer + 1);
    }
    if (row->negative) {
        place += 4;
        mend_column(frame, place, ~column_at(frame, place) & REVERSED[own | other], answer + 5);
    }
    place += 4;
    mend_column(frame, place, ~column_at(frame, place) & REVERSED[own & other], answer + 5);
    return own;
}

uint64_t quick_repair(uint64_t level, uint64_t earlier, uint64_t national, uint8_t *line, size_t line_bytes, uint64_t answer[10])
{
    const struct row *row = row_of(level);
    unsigned other = (unsigned)earlier;

    memset(answer, 0, 10 * sizeof answer[0]);
    for (size_t at = 0; at < line_bytes; at += row->frame_digits / 8)
        other = repair_frame(row, line + at, other, national != 0, answer);
    return 0;
}

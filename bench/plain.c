/* The plain engine: every digit is looked at, and put, by itself. */
#include <string.h>

#include "engines.h"
#include "rows.h"

static unsigned get(const uint8_t *bytes, size_t place)
{
    return bytes[place / 8] >> (7 - place % 8) & 1;
}

static void put(uint8_t *bytes, size_t place, unsigned digit)
{
    uint8_t bit = (uint8_t)(0x80 >> place % 8);

    bytes[place / 8] = (uint8_t)(digit ? bytes[place / 8] | bit : bytes[place / 8] & ~bit);
}

/* A service digit is noted, or sent as 1. */
enum kind { WORD, NOTED, SERVICE, CONTROL, NEGATIVE, JUSTIFICATION, TRIBUTARY };

static enum kind kind_of(const struct row *row, unsigned set, unsigned at)
{
    if (set == 0 && at < row->word_digits)
        return WORD;
    if (set == 0 && at < row->word_digits + row->noted_digits)
        return NOTED;
    if (set == 0)
        return at < row->first_head ? SERVICE : TRIBUTARY;
    if (at < 4)
        return CONTROL;
    if (set < row->sets - 1)
        return at < row->middle_head ? SERVICE : TRIBUTARY;
    if (at < 4 + 4 * row->negative)
        return NEGATIVE;
    return at < 8 + 4 * row->negative ? JUSTIFICATION : TRIBUTARY;
}

static unsigned word_digit(const struct row *row, unsigned at)
{
    return row->word >> (row->word_digits - 1 - at) & 1;
}

uint64_t plain_multiplex(uint64_t level, uint64_t earlier, uint8_t *line, size_t line_bytes,
                         const uint8_t *notes, size_t notes_bytes, const uint8_t *buffer, size_t buffer_bytes, uint64_t answer[5])
{
    const struct row *row = row_of(level);
    size_t quarter = buffer_bytes / 4, place = 0, next[4] = {0}, f;

    (void)line_bytes;
    for (f = 0; f < notes_bytes; f++) {
        unsigned stuffed = notes[f] & before(row, earlier, notes, f), idle = notes[f] | before(row, earlier, notes, f);

        for (unsigned set = 0; set < row->sets; set++) {
            for (unsigned at = 0; at < row->set_digits; at++) {
                unsigned j = at % 4, digit = 1;

                switch (kind_of(row, set, at)) {
                case WORD:
                    digit = word_digit(row, at);
                    break;
                case NOTED:
                    digit = notes[f] >> (4 + at - row->word_digits) & 1;
                    break;
                case SERVICE:
                    break;
                case CONTROL:
                    digit = notes[f] >> j & 1;
                    break;
                case NEGATIVE:
                    digit = idle >> j & 1 ? 1 : get(buffer + j * quarter, next[j]++);
                    break;
                case JUSTIFICATION:
                    digit = stuffed >> j & 1 ? 1 : get(buffer + j * quarter, next[j]++);
                    break;
                case TRIBUTARY:
                    digit = get(buffer + j * quarter, next[j]++);
                    break;
                }
                put(line, place++, digit);
            }
        }
    }
    for (unsigned j = 0; j < 4; j++)
        answer[j] = next[j];
    answer[4] = 0;
    return 0;
}

uint64_t plain_read_notes(uint64_t level, const uint8_t *line, size_t line_bytes, uint8_t *notes, size_t notes_bytes,
                          uint64_t answer[5])
{
    const struct row *row = row_of(level);
    size_t place = 0, f;

    (void)line_bytes;
    memset(answer, 0, 5 * sizeof answer[0]);
    for (f = 0; f < notes_bytes; f++) {
        unsigned ones[4] = {0}, note = 0;

        for (unsigned set = 0; set < row->sets; set++) {
            for (unsigned at = 0; at < row->set_digits; at++) {
                unsigned digit = get(line, place++);

                switch (kind_of(row, set, at)) {
                case WORD:
                    answer[0] += digit != word_digit(row, at);
                    break;
                case NOTED:
                    note |= digit << (4 + at - row->word_digits);
                    break;
                case CONTROL:
                    ones[at % 4] += digit;
                    break;
                case SERVICE:
                case NEGATIVE:
                case JUSTIFICATION:
                case TRIBUTARY:
                    break;
                }
            }
        }
        for (unsigned j = 0; j < 4; j++) {
            unsigned stuffed = 2 * ones[j] > row->sets - 1;

            note |= stuffed << j;
            answer[1 + j] += stuffed ? row->sets - 1 - ones[j] : ones[j];
        }
        notes[f] = (uint8_t)note;
    }
    return 0;
}

uint64_t plain_extract(uint64_t level, uint64_t earlier, const uint8_t *line, size_t line_bytes,
                       const uint8_t *notes, size_t notes_bytes, uint8_t *buffer, size_t buffer_bytes, uint64_t answer[5])
{
    const struct row *row = row_of(level);
    size_t quarter = buffer_bytes / 4, place = 0, next[4] = {0}, f;

    (void)line_bytes;
    memset(buffer, 0, buffer_bytes);
    for (f = 0; f < notes_bytes; f++) {
        unsigned stuffed = notes[f] & before(row, earlier, notes, f), idle = notes[f] | before(row, earlier, notes, f);

        for (unsigned set = 0; set < row->sets; set++)
            for (unsigned at = 0; at < row->set_digits; at++, place++) {
                unsigned j = at % 4;
                int kind = kind_of(row, set, at);

                if (kind == TRIBUTARY || (kind == JUSTIFICATION && !(stuffed >> j & 1)) || (kind == NEGATIVE && !(idle >> j & 1)))
                    put(buffer + j * quarter, next[j]++, get(line, place));
            }
    }
    for (unsigned j = 0; j < 4; j++)
        answer[j] = next[j];
    answer[4] = 0;
    return 0;
}

/* One tributary's places only, four apart in each set. */
uint64_t plain_swap(uint64_t level, uint64_t earlier, uint64_t tributary, uint8_t *line, size_t line_bytes,
                    const uint8_t *notes, size_t notes_bytes, const uint8_t *buffer, size_t buffer_bytes, uint64_t answer[1])
{
    const struct row *row = row_of(level);
    unsigned j = (unsigned)tributary - 1;
    size_t start = 0, next = 0, f;

    (void)line_bytes, (void)buffer_bytes;
    for (f = 0; f < notes_bytes; f++) {
        unsigned own = notes[f] >> j & 1, other = before(row, earlier, notes, f) >> j & 1;

        for (unsigned set = 0; set < row->sets; set++, start += row->set_digits)
            for (unsigned at = j; at < row->set_digits; at += 4)
                switch (kind_of(row, set, at)) {
                case CONTROL:
                    put(line, start + at, own);
                    break;
                case NEGATIVE:
                    put(line, start + at, own | other ? 1 : get(buffer, next++));
                    break;
                case JUSTIFICATION:
                    put(line, start + at, own & other ? 1 : get(buffer, next++));
                    break;
                case TRIBUTARY:
                    put(line, start + at, get(buffer, next++));
                    break;
                case WORD:
                case NOTED:
                case SERVICE:
                    break;
                }
    }
    answer[0] = next;
    return 0;
}

/* Puts a digit, and says whether it was another. */
static unsigned changed(uint8_t *line, size_t place, unsigned digit)
{
    unsigned other = get(line, place) != digit;

    put(line, place, digit);
    return other;
}

/* The majorities of a frame, tributary 1 in the lowest bit. */
static unsigned majorities(const struct row *row, const uint8_t *line, size_t start)
{
    unsigned votes = 0;

    for (unsigned j = 0; j < 4; j++) {
        unsigned ones = 0;

        for (unsigned set = 1; set < row->sets; set++)
            ones += get(line, start + set * row->set_digits + j);
        votes |= (unsigned)(2 * ones > row->sets - 1) << j;
    }
    return votes;
}

uint64_t plain_repair(uint64_t level, uint64_t earlier, uint64_t national, uint8_t *line, size_t line_bytes, uint64_t answer[10])
{
    const struct row *row = row_of(level);
    unsigned other = (unsigned)earlier;

    memset(answer, 0, 10 * sizeof answer[0]);
    for (size_t place = 0; place < 8 * line_bytes;) {
        unsigned own = majorities(row, line, place), stuffed, idle;

        if (!row->negative)
            other = own;
        stuffed = own & other;
        idle = own | other;
        for (unsigned set = 0; set < row->sets; set++)
            for (unsigned at = 0; at < row->set_digits; at++, place++) {
                unsigned j = at % 4;

                switch (kind_of(row, set, at)) {
                case WORD:
                    answer[0] += changed(line, place, word_digit(row, at));
                    break;
                case CONTROL:
                    answer[1 + j] += changed(line, place, own >> j & 1);
                    break;
                case NEGATIVE:
                    answer[5 + j] += idle >> j & 1 ? changed(line, place, 1) : 0;
                    break;
                case JUSTIFICATION:
                    answer[5 + j] += stuffed >> j & 1 ? changed(line, place, 1) : 0;
                    break;
                case NOTED: /* the first is the remote alarm */
                    answer[9] += national && at > row->word_digits ? changed(line, place, 1) : 0;
                    break;
                case SERVICE:
                case TRIBUTARY:
                    break;
                }
            }
        other = own;
    }
    return 0;
}

/* How many digits of tributary j, counted from 0, are wrong where frame f acts on votes[f + 1], and on votes[f] too where there are negative places:
   beside the digits sent, or where there is a pattern, beside what it makes of the digits before. */
static uint64_t wrong_digits(const struct row *row, const uint8_t *line, size_t frames, const uint8_t *votes, unsigned j, uint64_t pattern,
                             const uint8_t *sent)
{
    unsigned last = (unsigned)pattern, tap = last == 15 ? 14 : 18;
    uint64_t wrong = 0, came = 0;
    size_t start = 0, next = 0;

    for (size_t f = 0; f < frames; f++) {
        unsigned own = votes[f + 1] >> j & 1, other = row->negative ? votes[f] >> j & 1 : own;

        for (unsigned set = 0; set < row->sets; set++, start += row->set_digits)
            for (unsigned at = j; at < row->set_digits; at += 4) {
                enum kind kind = kind_of(row, set, at);

                if (kind == TRIBUTARY || (kind == JUSTIFICATION && !(own & other)) || (kind == NEGATIVE && !(own | other))) {
                    unsigned digit = get(line, start + at);

                    if (!pattern)
                        wrong += digit != get(sent, next);
                    else if (next >= pattern)
                        wrong += digit != (1 ^ (came >> (tap - 1) & 1) ^ (came >> (last - 1) & 1));
                    came = came << 1 | digit;
                    next++;
                }
            }
    }
    return wrong;
}

/* The votes of the frames, with room for two before them and one after, which nobody said but the earlier vote. */
uint64_t plain_judge(uint64_t level, uint64_t earlier, const uint8_t *line, size_t line_bytes, uint64_t pattern, const uint8_t *buffer,
                     size_t buffer_bytes, uint64_t answer[20])
{
    const struct row *row = row_of(level);
    size_t frames = 8 * line_bytes / row->frame_digits, quarter = buffer_bytes / 4;
    uint8_t votes[67];

    memset(answer, 0, 20 * sizeof answer[0]);
    for (size_t f = 0; f < frames; f++)
        votes[f + 2] = (uint8_t)majorities(row, line, f * row->frame_digits);
    for (unsigned j = 0; j < 4; j++) {
        uint64_t *of = answer + 5 * j;

        for (unsigned unknown = 0; unknown < 16; unknown += 15) {
            const uint8_t *sent = buffer + j * quarter;
            uint64_t wrong[3];

            votes[0] = votes[frames + 2] = (uint8_t)unknown;
            votes[1] = (uint8_t)(row->negative ? earlier : unknown);
            wrong[0] = unknown ? of[1] : wrong_digits(row, line, frames, votes + 1, j, pattern, sent);
            wrong[1] = wrong_digits(row, line, frames, votes, j, pattern, sent);
            wrong[2] = wrong_digits(row, line, frames, votes + 2, j, pattern, sent);
            for (unsigned k = 0; k < 3; k++)
                if (!unknown || wrong[k] < of[1 + k])
                    of[1 + k] = wrong[k];
        }
        for (unsigned k = 0; k < 3; k++)
            of[0] += (uint64_t)!of[1 + k] << k;
        for (size_t f = 1; f < frames; f++)
            of[4] += (votes[f + 2] ^ votes[f + 1]) >> j & 1;
    }
    return 0;
}

static void begin_frame(const struct row *row, uint8_t *frame, uint64_t window)
{
    memset(frame, 0, 366);
    for (unsigned at = 0; at < row->word_digits; at++)
        put(frame, at, window >> (row->word_digits - 1 - at) & 1);
}

/* The mode after the word of a frame is due: 0 hunting, 3 + m aligned with m missed. */
static uint64_t judged(uint64_t mode, int good)
{
    if (mode < 3)
        return good ? mode + 1 : 0;
    if (good)
        return 3;
    return mode == 6 ? 0 : mode + 1;
}

/* A stretch with a digit more: where it is whole, two alike in a row decide the alarm. */
static void count_digit(const struct row *row, uint64_t stretch[4], unsigned digit)
{
    stretch[0]++;
    stretch[1] += !digit;
    if (stretch[0] == row->frame_digits) {
        uint64_t few = stretch[1] <= row->few_zeros;

        if (few == stretch[2])
            stretch[3] = few;
        stretch[2] = few;
        stretch[0] = stretch[1] = 0;
    }
}

/* A shift register, digit by digit. */
uint64_t plain_receiver_feed(uint64_t state[9], uint8_t frame[366], const uint8_t *piece, size_t piece_bytes,
                             uint64_t first, uint64_t count, uint64_t answer[4])
{
    const struct row *row = row_of(state[0]);
    uint64_t window = state[1], seen = state[2], mode = state[3], place = state[4], taken = 0, words = 0;
    const uint64_t end = row->frame_digits, last = end - row->word_digits;

    (void)piece_bytes;
    answer[1] = 0;
    while (taken < count && !answer[1]) {
        unsigned digit = get(piece, first + taken++);
        int good;

        count_digit(row, state + 5, digit);
        window = (window << 1 | digit) & ((1u << row->word_digits) - 1);
        seen += seen < row->word_digits;
        good = window == row->word;
        if (mode == 0) {
            words += seen == row->word_digits;
            if (good && seen == row->word_digits) {
                mode = 1;
                begin_frame(row, frame, window);
            }
            continue;
        }
        place++;
        if (place <= last)
            put(frame, row->word_digits - 1 + place, digit);
        if (place == last && mode >= 3)
            answer[1] = 1;
        if (place == end) {
            words++;
            mode = judged(mode, good);
            place = 0;
            if (mode)
                begin_frame(row, frame, window);
        }
    }
    state[1] = window;
    state[2] = seen;
    state[3] = mode;
    state[4] = place;
    answer[0] = taken;
    answer[2] = state[8];
    answer[3] = words;
    return 0;
}

/* ---- the multiframe of 2048 kbit/s */

/* The next of the spare digits. */
static unsigned next_spare(const uint8_t *spare, unsigned *at)
{
    unsigned place = (*at)++;

    return spare[place / 8] >> (7 - place % 8) & 1;
}

static void put_spare(uint8_t *spare, unsigned *at, unsigned digit)
{
    unsigned place = (*at)++, bit = 0x80u >> place % 8;

    spare[place / 8] = (uint8_t)(digit ? spare[place / 8] | bit : spare[place / 8] & ~bit);
}

uint64_t plain_multiframe_build(uint8_t *multiframe, size_t multiframe_bytes, const uint8_t *channels, size_t channels_bytes,
                                const uint8_t *signalling, size_t signalling_bytes, const uint8_t *spare, size_t spare_bytes,
                                uint64_t answer[1])
{
    unsigned at = 0;

    (void)multiframe_bytes, (void)channels_bytes, (void)signalling_bytes, (void)spare_bytes;
    answer[0] = 0;
    for (unsigned f = 0; f < 16; f++) {
        uint8_t *frame = multiframe + 32 * f;
        unsigned first = next_spare(spare, &at) << 7, last = 0;

        if (f % 2 == 0)
            first |= 0x1B;
        else {
            first |= 0x40;
            for (unsigned d = 2; d < 8; d++)
                first |= next_spare(spare, &at) << (7 - d);
        }
        frame[0] = (uint8_t)first;
        if (f == 0)
            for (unsigned d = 4; d < 8; d++)
                last |= next_spare(spare, &at) << (7 - d);
        else
            last = signalling[f - 1];
        frame[16] = (uint8_t)last;
        for (unsigned c = 0; c < 15; c++) {
            frame[1 + c] = channels[16 * c + f];
            frame[17 + c] = channels[16 * (c + 15) + f];
        }
    }
    return 0;
}

uint64_t plain_multiframe_apart(const uint8_t *multiframe, size_t multiframe_bytes, uint8_t *channels, size_t channels_bytes,
                                uint8_t *signalling, size_t signalling_bytes, uint8_t *spare, size_t spare_bytes)
{
    unsigned at = 0;

    (void)multiframe_bytes, (void)channels_bytes, (void)signalling_bytes, (void)spare_bytes;
    spare[8] = 0;
    for (unsigned f = 0; f < 16; f++) {
        const uint8_t *frame = multiframe + 32 * f;

        put_spare(spare, &at, frame[0] >> 7);
        if (f % 2 == 1)
            for (unsigned d = 2; d < 8; d++)
                put_spare(spare, &at, frame[0] >> (7 - d) & 1);
        if (f == 0)
            for (unsigned d = 4; d < 8; d++)
                put_spare(spare, &at, frame[16] >> (7 - d) & 1);
        else
            signalling[f - 1] = frame[16];
        for (unsigned c = 0; c < 15; c++) {
            channels[16 * c + f] = frame[1 + c];
            channels[16 * (c + 15) + f] = frame[17 + c];
        }
    }
    return 0;
}

/*
 * The quick engine. Every set begins at a place that four divides, so a line is a row of columns of
 * four digits, one of each tributary, and sixteen columns are a word of 64 digits: a 4 by 16
 * matrix of digits, which four exchanges turn over. Digits move 64 at a time through words that
 * hold the first digit in the most significant bit.
 */
#include <string.h>

#include "engines.h"
#include "rows.h"

/* Four digits in reverse: a note has tributary 1 in its lowest bit, a line has it first. */
static const uint8_t REVERSED[16] = {0, 8, 4, 12, 2, 10, 6, 14, 1, 9, 5, 13, 3, 11, 7, 15};

/* A column's four digits, each in a byte of its own, tributary 1 in the lowest. */
static const uint32_t SPREAD[16] = {
    0x00000000, 0x01000000, 0x00010000, 0x01010000, 0x00000100, 0x01000100, 0x00010100, 0x01010100,
    0x00000001, 0x01000001, 0x00010001, 0x01010001, 0x00000101, 0x01000101, 0x00010101, 0x01010101,
};

/* Compilers make one load, and one store, of these. */
static inline uint64_t load(const uint8_t *from)
{
    return (uint64_t)from[0] << 56 | (uint64_t)from[1] << 48 | (uint64_t)from[2] << 40 | (uint64_t)from[3] << 32
         | (uint64_t)from[4] << 24 | (uint64_t)from[5] << 16 | (uint64_t)from[6] << 8 | from[7];
}

static inline void store(uint8_t *to, uint64_t word)
{
    to[0] = (uint8_t)(word >> 56);
    to[1] = (uint8_t)(word >> 48);
    to[2] = (uint8_t)(word >> 40);
    to[3] = (uint8_t)(word >> 32);
    to[4] = (uint8_t)(word >> 24);
    to[5] = (uint8_t)(word >> 16);
    to[6] = (uint8_t)(word >> 8);
    to[7] = (uint8_t)word;
}

/* As load, with zeros for what stands past the end. */
static uint64_t load_last(const uint8_t *bytes, size_t length, size_t at)
{
    uint64_t word = 0;

    for (unsigned i = 0; i < 8; i++)
        word = word << 8 | (at + i < length ? bytes[at + i] : 0);
    return word;
}

static inline uint64_t load_at(const uint8_t *bytes, size_t length, size_t at)
{
    return at + 8 <= length ? load(bytes + at) : load_last(bytes, length, at);
}

/* At least 56 digits from a place on, at the top of the word. */
static inline uint64_t digits_at(const uint8_t *bytes, size_t length, size_t place)
{
    return load_at(bytes, length, place / 8) << place % 8;
}

/* The first so many digits of a word, fewer than 64. */
static inline uint64_t first_of(uint64_t word, unsigned digits)
{
    return word & ~(~UINT64_C(0) >> digits);
}

/* Exchanges the digits under the mask with those so many places before them. */
static inline uint64_t exchange(uint64_t word, unsigned by, uint64_t mask)
{
    uint64_t differ = (word >> by ^ word) & mask;

    return word ^ differ ^ differ << by;
}

/* Four times sixteen digits, a tributary after the other, into sixteen columns. */
static inline uint64_t to_columns(uint64_t word)
{
    word = exchange(word, 24, UINT64_C(0x00000000FF00FF00));
    word = exchange(word, 12, UINT64_C(0x0000F0F00000F0F0));
    word = exchange(word, 6, UINT64_C(0x00CC00CC00CC00CC));
    return exchange(word, 3, UINT64_C(0x0A0A0A0A0A0A0A0A));
}

static inline uint64_t from_columns(uint64_t word)
{
    word = exchange(word, 3, UINT64_C(0x0A0A0A0A0A0A0A0A));
    word = exchange(word, 6, UINT64_C(0x00CC00CC00CC00CC));
    word = exchange(word, 12, UINT64_C(0x0000F0F00000F0F0));
    return exchange(word, 24, UINT64_C(0x00000000FF00FF00));
}

/* Writes digits one after the other, eight bytes at a time. */
struct writer {
    uint8_t *to;
    uint64_t held; /* digits not yet stored, at the top */
    unsigned fill; /* how many, under 64 */
};

/* Puts the first so many digits of a word, at most 64; the others must be zero. */
static inline void put(struct writer *writer, uint64_t word, unsigned digits)
{
    uint64_t all = writer->held | word >> writer->fill;
    unsigned fill = writer->fill + digits;

    if (fill >= 64) {
        store(writer->to, all);
        writer->to += 8;
        /* In two steps, since a shift by 64 is not allowed. */
        all = word << 1 << (63 - writer->fill);
        fill -= 64;
    }
    writer->held = all;
    writer->fill = fill;
}

/* Stores what is held, with zeros to the end of its last byte. */
static void finish(struct writer *writer)
{
    for (unsigned fill = 0; fill < writer->fill; fill += 8, writer->held <<= 8)
        *writer->to++ = (uint8_t)(writer->held >> 56);
}

/* The four tributaries as they are read. */
struct quarters {
    const uint8_t *from;
    size_t bytes; /* of a quarter */
    size_t next[4];
};

static inline uint64_t quarter_digits(const struct quarters *quarters, unsigned j)
{
    return digits_at(quarters->from + j * quarters->bytes, quarters->bytes, quarters->next[j]);
}

static inline void send_columns(struct writer *writer, struct quarters *quarters, unsigned columns)
{
    while (columns) {
        unsigned now = columns < 32 ? columns : 32;
        uint64_t a = quarter_digits(quarters, 0), b = quarter_digits(quarters, 1);
        uint64_t c = quarter_digits(quarters, 2), d = quarter_digits(quarters, 3);
        uint64_t high = to_columns(a >> 48 << 48 | b >> 48 << 32 | c >> 48 << 16 | d >> 48);
        uint64_t low = to_columns(a << 16 >> 48 << 48 | b << 16 >> 48 << 32 | c << 16 >> 48 << 16 | d << 16 >> 48);

        if (now < 16) {
            put(writer, first_of(high, 4 * now), 4 * now);
        } else {
            put(writer, high, 64);
            put(writer, now < 32 ? first_of(low, 4 * (now - 16)) : low, 4 * (now - 16));
        }
        for (unsigned j = 0; j < 4; j++)
            quarters->next[j] += now;
        columns -= now;
    }
}

/* The justification digits of a frame, or its negative ones: 1 where they carry nothing, or the tributary's next digit. */
static uint64_t justification(struct quarters *quarters, unsigned nothing)
{
    uint64_t column = 0;

    for (unsigned j = 0; j < 4; j++) {
        unsigned idle = nothing >> j & 1;

        column = column << 1 | idle | quarter_digits(quarters, j) >> 63;
        quarters->next[j] += 1 - idle;
    }
    return column;
}

static void send_frame(const struct row *row, struct writer *writer, struct quarters *quarters, unsigned note, unsigned before)
{
    unsigned service = row->first_head - row->word_digits, others = service - row->noted_digits;
    uint64_t noted = REVERSED[note >> 4] >> (4 - row->noted_digits), control = REVERSED[note & 15];
    uint64_t start = (uint64_t)row->word << service | noted << others | ((1u << others) - 1);

    put(writer, start << (64 - row->first_head), row->first_head);
    send_columns(writer, quarters, (row->set_digits - row->first_head) / 4);
    for (unsigned set = 1; set < row->sets - 1; set++) {
        put(writer, first_of(control << 60 | UINT64_C(15) << 56, row->middle_head), row->middle_head);
        send_columns(writer, quarters, (row->set_digits - row->middle_head) / 4);
    }
    put(writer, control << 60, 4);
    if (row->negative)
        put(writer, justification(quarters, note | before) << 60, 4);
    put(writer, justification(quarters, note & before) << 60, 4);
    send_columns(writer, quarters, row->set_digits / 4 - 2 - row->negative);
}

uint64_t quick_multiplex(uint64_t level, uint64_t earlier, uint8_t *line, size_t line_bytes,
                         const uint8_t *notes, size_t notes_bytes, const uint8_t *buffer, size_t buffer_bytes, uint64_t answer[5])
{
    const struct row *row = row_of(level);
    struct writer writer = {line, 0, 0};
    struct quarters quarters = {buffer, buffer_bytes / 4, {0}};

    (void)line_bytes;
    for (size_t f = 0; f < notes_bytes; f++)
        send_frame(row, &writer, &quarters, notes[f], before(row, earlier, notes, f));
    finish(&writer);
    for (unsigned j = 0; j < 4; j++)
        answer[j] = quarters.next[j];
    answer[4] = 0;
    return 0;
}

/* A line as it is read. */
struct reader {
    const uint8_t *from;
    size_t bytes, place;
};

/* The next 64 digits; the place is one that four divides. */
static inline uint64_t next_word(const struct reader *reader, size_t place)
{
    size_t at = place / 8;
    uint64_t word = load_at(reader->from, reader->bytes, at);

    if (place % 8 == 0)
        return word;
    return word << 4 | (at + 8 < reader->bytes ? reader->from[at + 8] >> 4 : 0);
}

static inline unsigned next_column(struct reader *reader)
{
    unsigned byte = reader->from[reader->place / 8], column = reader->place % 8 ? byte & 15 : byte >> 4;

    reader->place += 4;
    return column;
}

static inline void receive_columns(struct reader *reader, struct writer writers[4], unsigned columns)
{
    while (columns) {
        unsigned now = columns < 32 ? columns : 32;
        uint64_t high = from_columns(next_word(reader, reader->place));
        uint64_t low = from_columns(next_word(reader, reader->place + 64));

        for (unsigned j = 0; j < 4; j++) {
            uint64_t digits = high << 16 * j >> 48 << 48 | low << 16 * j >> 48 << 32;

            put(&writers[j], first_of(digits, now), now);
        }
        reader->place += 4 * now;
        columns -= now;
    }
}

static unsigned ones_of(unsigned number)
{
    unsigned ones = 0;

    for (; number; number &= number - 1)
        ones++;
    return ones;
}

/* Adds each tributary's digits that differ from the majority; ones has its 1s, a byte to each. */
static void add_dissent(uint32_t ones, unsigned control_digits, uint64_t dissent[4])
{
    for (unsigned j = 0; j < 4; j++, ones >>= 8) {
        unsigned some = ones & 255, others = control_digits - some;

        dissent[j] += some < others ? some : others;
    }
}

/* Each tributary's majority, tributary 1 in the lowest bit. */
static unsigned majority(uint32_t ones, unsigned control_digits)
{
    uint32_t over = (ones + (127 - control_digits / 2) * UINT32_C(0x01010101)) & UINT32_C(0x80808080);

    return (over >> 7 | over >> 14 | over >> 21 | over >> 28) & 15;
}

static unsigned read_frame(const struct row *row, struct reader *reader, uint64_t answer[5])
{
    unsigned head = row->word_digits + row->noted_digits, control_digits = row->sets - 1;
    unsigned start = (unsigned)(next_word(reader, reader->place) >> (64 - head));
    unsigned service = start << (4 - row->noted_digits) & 15;
    uint32_t ones = 0;

    answer[0] += ones_of(start >> row->noted_digits ^ row->word);
    for (unsigned set = 1; set < row->sets; set++) {
        reader->place += row->set_digits;
        ones += SPREAD[next_word(reader, reader->place) >> 60];
    }
    reader->place += row->set_digits;
    add_dissent(ones, control_digits, answer + 1);
    return (unsigned)REVERSED[service] << 4 | majority(ones, control_digits);
}

uint64_t quick_read_notes(uint64_t level, const uint8_t *line, size_t line_bytes, uint8_t *notes, size_t notes_bytes,
                          uint64_t answer[5])
{
    struct reader reader = {line, line_bytes, 0};

    memset(answer, 0, 5 * sizeof answer[0]);
    for (size_t f = 0; f < notes_bytes; f++)
        notes[f] = (uint8_t)read_frame(row_of(level), &reader, answer);
    return 0;
}

/* The justification digits, or the negative ones, where they carry a digit. */
static inline void receive_carried(struct reader *reader, struct writer writers[4], unsigned nothing)
{
    unsigned column = next_column(reader);

    for (unsigned j = 0; j < 4; j++) {
        unsigned carried = 1 - (nothing >> j & 1);

        put(&writers[j], (uint64_t)(carried & column >> (3 - j)) << 63, carried);
    }
}

static void extract_frame(const struct row *row, struct reader *reader, struct writer writers[4], unsigned note, unsigned before)
{
    reader->place += row->first_head;
    receive_columns(reader, writers, (row->set_digits - row->first_head) / 4);
    for (unsigned set = 1; set < row->sets - 1; set++) {
        reader->place += row->middle_head;
        receive_columns(reader, writers, (row->set_digits - row->middle_head) / 4);
    }
    reader->place += 4;
    if (row->negative)
        receive_carried(reader, writers, note | before);
    receive_carried(reader, writers, note & before);
    receive_columns(reader, writers, row->set_digits / 4 - 2 - row->negative);
}

uint64_t quick_extract(uint64_t level, uint64_t earlier, const uint8_t *line, size_t line_bytes,
                       const uint8_t *notes, size_t notes_bytes, uint8_t *buffer, size_t buffer_bytes, uint64_t answer[5])
{
    const struct row *row = row_of(level);
    size_t quarter = buffer_bytes / 4;
    struct reader reader = {line, line_bytes, 0};
    struct writer writers[4];

    for (unsigned j = 0; j < 4; j++)
        writers[j] = (struct writer){buffer + j * quarter, 0, 0};
    for (size_t f = 0; f < notes_bytes; f++)
        extract_frame(row, &reader, writers, notes[f], before(row, earlier, notes, f));
    for (unsigned j = 0; j < 4; j++) {
        uint8_t *begin = buffer + j * quarter, *end = begin + quarter;

        answer[j] = (uint64_t)(writers[j].to - begin) * 8 + writers[j].fill;
        finish(&writers[j]);
        memset(writers[j].to, 0, (size_t)(end - writers[j].to));
    }
    answer[4] = 0;
    return 0;
}

/* Copies digits onto others. */
static void copy_digits(uint8_t *to, size_t place, const uint8_t *from, size_t first, size_t count)
{
    size_t whole, shift;

    for (; count && (place % 8 || count < 8); count--, place++, first++) {
        unsigned bit = 0x80u >> place % 8, digit = from[first / 8] << first % 8 & 0x80;

        to[place / 8] = (uint8_t)((to[place / 8] & ~bit) | digit >> place % 8);
    }
    if (!count)
        return;
    to += place / 8;
    from += first / 8;
    shift = first % 8;
    whole = count / 8;
    if (shift == 0)
        memcpy(to, from, whole);
    else
        for (size_t i = 0; i < whole; i++)
            to[i] = (uint8_t)(from[i] << shift | from[i + 1] >> (8 - shift));
    copy_digits(to, 8 * whole, from, shift + 8 * whole, count % 8);
}

/* How many of a word's digits are 1. */
static inline unsigned ones_in(uint64_t word)
{
    word -= word >> 1 & UINT64_C(0x5555555555555555);
    word = (word & UINT64_C(0x3333333333333333)) + (word >> 2 & UINT64_C(0x3333333333333333));
    word = (word + (word >> 4)) & UINT64_C(0x0F0F0F0F0F0F0F0F);
    return (unsigned)(word * UINT64_C(0x0101010101010101) >> 56);
}

/* The zeros among so many digits. */
static size_t zeros_among(const uint8_t *piece, size_t bytes, size_t first, size_t count)
{
    size_t ones = 0, left = count;
    unsigned head = (unsigned)(8 - first % 8) % 8;

    if (head && left >= head) {
        ones += ones_in(first_of(digits_at(piece, bytes, first), head));
        first += head;
        left -= head;
    }
    for (; left >= 64; first += 64, left -= 64)
        ones += ones_in(load_at(piece, bytes, first / 8));
    /* At most 63 digits that begin a byte, or at most 6 that do not. */
    if (left)
        ones += ones_in(first_of(digits_at(piece, bytes, first), (unsigned)left));
    return count - ones;
}

/* Counts digits into stretches: where one is whole, two alike in a row decide the alarm. */
static void count_digits(const struct row *row, uint64_t stretch[4], const uint8_t *piece, size_t bytes, size_t first, size_t count)
{
    while (count) {
        size_t room = row->frame_digits - stretch[0], now = room < count ? room : count;

        stretch[0] += now;
        stretch[1] += zeros_among(piece, bytes, first, now);
        if (stretch[0] == row->frame_digits) {
            uint64_t few = stretch[1] <= row->few_zeros;

            if (few == stretch[2])
                stretch[3] = few;
            stretch[2] = few;
            stretch[0] = stretch[1] = 0;
        }
        first += now;
        count -= now;
    }
}

static void begin_frame(const struct row *row, uint8_t *frame, uint64_t window)
{
    window <<= 16 - row->word_digits;
    memset(frame, 0, 366);
    frame[0] = (uint8_t)(window >> 8);
    frame[1] = (uint8_t)window;
}

/* The places of a word, at its top bits, from which on the alignment word stands: so many ones, then
   0 1, then as many zeros; or, at three ones, 11100110. */
static inline uint64_t words_in(uint64_t word, unsigned run)
{
    uint64_t ones = word & word << 1, zeros = ~(word | word << 1);

    if (run == 3)
        return ones & word << 2 & zeros << 3 & ones << 5 & ~(word << 7);
    ones &= ones << 2;
    zeros &= zeros << 2;
    if (run == 5) {
        ones &= word << 4;
        zeros &= ~(word << 4);
    }
    return ones & ~(word << run) & word << (run + 1) & zeros << (run + 2);
}

/* The first place from one on, and before another, from which on the alignment word stands; or that
   other. */
static size_t find_word(const struct row *row, const uint8_t *piece, size_t bytes, size_t from, size_t before)
{
    unsigned run = (row->word_digits - 2) / 2;
    uint64_t mask = ~UINT64_C(0) >> from % 8 & ~UINT64_C(0xFFFF);

    /* A word tells of 48 places, which is whole bytes. */
    for (from -= from % 8; from < before; from += 48, mask = ~UINT64_C(0xFFFF)) {
        uint64_t found = words_in(load_at(piece, bytes, from / 8), run) & mask;

        if (found) {
            for (; !(found >> 63); found <<= 1)
                from++;
            return from < before ? from : before;
        }
    }
    return before;
}

/* The window after the last of so many digits, of which it has as many as fit. */
static uint64_t window_after(const struct row *row, uint64_t window, const uint8_t *piece, size_t bytes, size_t first, size_t count)
{
    unsigned take = count < row->word_digits ? (unsigned)count : row->word_digits;
    uint64_t digits = digits_at(piece, bytes, first + count - take);

    if (take == 0)
        return window;
    return (window << take | digits >> (64 - take)) & ((1u << row->word_digits) - 1);
}

/* Hunts from a digit on, and says how many digits that took. */
static size_t hunt(const struct row *row, uint64_t state[9], const uint8_t *piece, size_t bytes, size_t first, size_t count)
{
    unsigned length = row->word_digits;
    size_t taken = 0, place;

    /* Words that began before this piece. */
    for (; taken < count && taken < length - 1; taken++) {
        state[1] = window_after(row, state[1], piece, bytes, first + taken, 1);
        state[2] += state[2] < length;
        if (state[1] == row->word && state[2] == length) {
            state[3] = 1;
            return taken + 1;
        }
    }
    if (count < length)
        return count;
    place = find_word(row, piece, bytes, first, first + count - length + 1);
    state[3] = place <= first + count - length;
    taken = state[3] ? place - first + length : count;
    state[1] = window_after(row, state[1], piece, bytes, first, taken);
    state[2] = length;
    return taken;
}

static uint64_t judged(uint64_t mode, int good)
{
    if (mode < 3)
        return good ? mode + 1 : 0;
    if (good)
        return 3;
    return mode == 6 ? 0 : mode + 1;
}

/* Takes digits up to the frame's last one, or up to where its next word is due. */
static size_t follow(const struct row *row, uint64_t state[9], uint8_t *frame, const uint8_t *piece, size_t bytes, size_t first, size_t count)
{
    size_t last = row->frame_digits - row->word_digits, stop = state[4] < last ? last : row->frame_digits;
    size_t now = stop - state[4] < count ? stop - state[4] : count;

    if (state[4] < last)
        copy_digits(frame, row->word_digits + state[4], piece, first, now);
    state[1] = window_after(row, state[1], piece, bytes, first, now);
    state[4] += now;
    return now;
}

uint64_t quick_receiver_feed(uint64_t state[9], uint8_t frame[366], const uint8_t *piece, size_t piece_bytes,
                             uint64_t first, uint64_t count, uint64_t answer[4])
{
    const struct row *row = row_of(state[0]);
    uint64_t taken = 0, words = 0;

    answer[1] = 0;
    while (taken < count && !answer[1]) {
        if (state[3] == 0) {
            uint64_t unseen = row->word_digits - state[2], now = hunt(row, state, piece, piece_bytes, first + taken, count - taken);

            /* Every digit tests a word, but for those before the L-th. */
            unseen -= unseen > 0;
            words += now > unseen ? now - unseen : 0;
            taken += now;
            if (state[3])
                begin_frame(row, frame, state[1]);
            continue;
        }
        taken += follow(row, state, frame, piece, piece_bytes, first + taken, count - taken);
        if (state[4] == row->frame_digits - row->word_digits && state[3] >= 3)
            answer[1] = 1;
        if (state[4] == row->frame_digits) {
            words++;
            state[3] = judged(state[3], state[1] == row->word);
            state[4] = 0;
            if (state[3])
                begin_frame(row, frame, state[1]);
        }
    }
    count_digits(row, state + 5, piece, piece_bytes, first, taken);
    answer[0] = taken;
    answer[2] = state[8];
    answer[3] = words;
    return 0;
}

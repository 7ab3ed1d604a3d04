/*
 * Calls every function of the library through its header, from C: worked cases 1, 9, 10 and 11
 * of the specification, frames of levels 12 and 14 worked by hand, swaps, repairs, judgements, verdicts, each refusal, the digits of a line, captures,
 * copies of digits, what a place is, late lines, beginnings, comparisons, multiframes, frames of 2048 kbit/s and a rack of lines. Prints "face: ok", or what failed.
 *
 * All bytes that are lent come from malloc in their exact number, so that valgrind sees a read or
 * a write of the library one byte beside them.
 */
#include <stddef.h>
#include <stdio.h>
#include <stdlib.h>
#include <string.h>

#include "spritbobbin.h"

static int failures;

static void check(int holds, const char *what)
{
    if (!holds) {
        printf("face: failed: %s\n", what);
        failures++;
    }
}

/* So many bytes of one value. A buffer of no bytes is the null pointer. */
static uint8_t *lend(size_t length, uint8_t byte)
{
    uint8_t *bytes = length ? malloc(length) : NULL;

    if (length && !bytes)
        exit(2);
    if (bytes)
        memset(bytes, byte, length);
    return bytes;
}

static int all(const uint8_t *bytes, size_t length, uint8_t byte)
{
    while (length && bytes[length - 1] == byte)
        length--;
    return length == 0;
}

static int all_zero(const uint64_t *numbers, size_t count)
{
    while (count && numbers[count - 1] == 0)
        count--;
    return count == 0;
}

/* Multiplexes notes of one value and a buffer of zeros, extracts the line by these notes, and reads the notes back.
   Checks the refusals, which are multiplexing's but that extraction never gives 10, and that reading has no buffer and judges
   no old notes, that a refused call leaves what it was lent, and what case 1 says. */
static void both_ways(uint64_t level, size_t frame_bytes, size_t frames, size_t notes_bytes,
                      uint8_t note, size_t buffer_bytes, uint64_t sent)
{
    size_t line_bytes = frame_bytes * frames;
    uint8_t *line = lend(line_bytes, 0xA5), *notes = lend(notes_bytes, note);
    uint8_t *buffer = lend(buffer_bytes, 0);
    uint64_t answer[5], taken = sent == SPRITBOBBIN_REFUSED_NATIONAL ? 0 : sent, read = sent > 3 ? 0 : sent;

    memset(answer, 0xA5, sizeof answer);
    check(spritbobbin_multiplex(level, 0, line, line_bytes, notes, notes_bytes, buffer, buffer_bytes, answer) == sent,
          "the refusal of multiplexing");
    check(answer[SPRITBOBBIN_NAMED_FRAME] == 0, "multiplexing names frame 0 or none");
    if (sent) {
        check(all(line, line_bytes, 0xA5), "a refused line is left as it was");
        check(all_zero(answer, 4), "a refused multiplexing counts nothing");
    } else if (frames) {
        check(answer[0] == 206 * frames && answer[3] == 206 * frames, "206 digits in a frame");
        check(line[0] == 0xF4 && line[1] == 0x10 && all(line + 2, 104, 0), "the frame of case 1");
        check(line[line_bytes - 106] == 0xF4 && line[line_bytes - 105] == 0x10 && all(line + line_bytes - 104, 104, 0), "the last frame");
    }

    if (buffer)
        memset(buffer, 0x5A, buffer_bytes);
    memset(answer, 0xA5, sizeof answer);
    check(spritbobbin_extract(level, 0, line, line_bytes, notes, notes_bytes, buffer, buffer_bytes, answer) == taken,
          "the refusal of extraction");
    if (taken) {
        check(all(buffer, buffer_bytes, 0x5A), "a refused extraction writes nothing");
        check(all_zero(answer, 5), "a refused extraction counts nothing, and names frame 0 or none");
    } else if (!sent) {
        check(answer[1] == 206 * frames && all(buffer, buffer_bytes, 0), "what went in comes out");
    }

    memset(answer, 0xA5, sizeof answer);
    check(spritbobbin_read_notes(level, line, line_bytes, notes, notes_bytes, answer) == read, "the refusal of reading notes");
    if (read) {
        check(all(notes, notes_bytes, note) && all_zero(answer, 5), "a refused reading writes and counts nothing");
    } else if (!sent) {
        check(all(notes, notes_bytes, note) && all_zero(answer, 5), "the notes come back");
    }
    free(line);
    free(notes);
    free(buffer);
}

/* Dissent: two frames at level 4; in frame 0 two of tributary 2's control digits are changed, in
   frame 1 one of its own and one of tributary 4's. */
static void counts_dissent(void)
{
    size_t line_bytes = 2 * SPRITBOBBIN_FRAME_BYTES_4, set_bytes = 61, buffer_bytes = 4 * 181;
    uint8_t *line = lend(line_bytes, 0), *notes = lend(2, 0xE0), *buffer = lend(buffer_bytes, 0);
    uint64_t answer[5], *dissent = answer + SPRITBOBBIN_DISSENT;

    check(spritbobbin_multiplex(4, 0, line, line_bytes, notes, 2, buffer, buffer_bytes, answer) == 0, "sent");
    line[set_bytes] ^= 0x40;
    line[3 * set_bytes] ^= 0x40;
    line[SPRITBOBBIN_FRAME_BYTES_4 + 5 * set_bytes] ^= 0x50;
    check(spritbobbin_read_notes(4, line, line_bytes, notes, 2, answer) == 0, "read");
    check(dissent[0] == 0 && dissent[1] == 3 && dissent[2] == 0 && dissent[3] == 1, "three digits of tributary 2, one of 4");
    check(notes[0] == 0xE0 && notes[1] == 0xE0 && answer[SPRITBOBBIN_ALIGNMENT] == 0, "which change no decision");
    free(line);
    free(notes);
    free(buffer);
}

/* The named frame: the third note is the first with bit 6 set. */
static void names_the_frame(void)
{
    uint8_t *line = lend(4 * SPRITBOBBIN_FRAME_BYTES_3, 0), *notes = lend(4, 0), *buffer = lend(4 * 189, 0);
    uint64_t answer[5];

    notes[2] = notes[3] = SPRITBOBBIN_NATIONAL_2;
    check(spritbobbin_multiplex(3, 0, line, 768, notes, 4, buffer, 756, answer) == SPRITBOBBIN_REFUSED_NOTE_BITS, "refusal 5");
    check(all_zero(answer, 4) && answer[SPRITBOBBIN_NAMED_FRAME] == 2, "refusal 5 names frame 2");
    check(spritbobbin_extract(3, 0, line, 768, notes, 4, buffer, 756, answer) == SPRITBOBBIN_REFUSED_NOTE_BITS, "extraction's too");
    check(all_zero(answer, 4) && answer[SPRITBOBBIN_NAMED_FRAME] == 2, "and names frame 2");
    free(line);
    free(notes);
    free(buffer);
}

/* National digits are sent as 1: the frame named is the first whose note says otherwise, for both engines, after a bit that the level lacks in any
   note, and only by multiplexing. At level 4 there are three. A note of level 12 has none. */
static void national_digits(void)
{
    uint8_t *line = lend(4 * SPRITBOBBIN_FRAME_BYTES_4, 0xA5), *notes = lend(4, SPRITBOBBIN_NATIONAL_1), *buffer = lend(4 * 362, 0);
    uint64_t answer[5], three = SPRITBOBBIN_NATIONAL_1 | SPRITBOBBIN_NATIONAL_2 | SPRITBOBBIN_NATIONAL_3, bit;

    notes[2] = SPRITBOBBIN_REMOTE_ALARM;
    notes[3] = 0;
    check(spritbobbin_multiplex(3, 0, line, 768, notes, 4, buffer, 756, answer) == SPRITBOBBIN_REFUSED_NATIONAL, "refusal 10");
    check(all_zero(answer, 4) && answer[SPRITBOBBIN_NAMED_FRAME] == 2 && all(line, 768, 0xA5), "names frame 2, and nothing is written");
    check(spritbobbin_plain_multiplex(3, 0, line, 768, notes, 4, buffer, 756, answer) == SPRITBOBBIN_REFUSED_NATIONAL, "the plain engine's too");
    check(all_zero(answer, 4) && answer[SPRITBOBBIN_NAMED_FRAME] == 2 && all(line, 768, 0xA5), "and names frame 2");
    check(spritbobbin_extract(3, 0, line, 768, notes, 4, buffer, 756, answer) == SPRITBOBBIN_ACCEPTED && answer[0] == 4 * 378, "extraction does not ask");
    notes[3] = SPRITBOBBIN_NATIONAL_2;
    check(spritbobbin_multiplex(3, 0, line, 768, notes, 4, buffer, 756, answer) == SPRITBOBBIN_REFUSED_NOTE_BITS, "5 before 10, in a later note too");
    check(answer[SPRITBOBBIN_NAMED_FRAME] == 3, "naming frame 3");
    check(spritbobbin_multiplex(3, 0, line, 768, notes, 4, buffer, 752, answer) == SPRITBOBBIN_REFUSED_BUFFER && all_zero(answer, 5), "4 before both");

    for (bit = SPRITBOBBIN_NATIONAL_1; bit <= SPRITBOBBIN_NATIONAL_3; bit *= 2) {
        memset(notes, (int)three, 4);
        check(spritbobbin_multiplex(4, 0, line, 1464, notes, 4, buffer, 1448, answer) == SPRITBOBBIN_ACCEPTED && line[1] == 0x07, "three of level 4");
        notes[1] = notes[3] = (uint8_t)(three & ~bit);
        check(spritbobbin_multiplex(4, 0, line, 1464, notes, 4, buffer, 1448, answer) == SPRITBOBBIN_REFUSED_NATIONAL, "each of the three");
        check(all_zero(answer, 4) && answer[SPRITBOBBIN_NAMED_FRAME] == 1, "names frame 1");
    }
    memset(notes, 0, 4);
    check(spritbobbin_multiplex(12, 0, line, 528, notes, 4, buffer, 516, answer) == SPRITBOBBIN_ACCEPTED, "level 12 has none");
    free(line);
    free(notes);
    free(buffer);
}

/* Two frames of level 12 or 14 from a buffer of zeros, the vote before them 5 and theirs 6 and C: in frame 0 tributary 3 is stuffed and 4
   has a digit more, in frame 1 tributary 3 is stuffed again and 1 has a digit more. Both engines send them; what is read and extracted is
   what was sent. */
static void votes(uint64_t level, size_t frame_bytes, size_t digits, const uint8_t *heads, const uint8_t (*tails)[4])
{
    size_t line_bytes = 2 * frame_bytes, group = frame_bytes / 4, buffer_bytes = 4 * SPRITBOBBIN_QUARTER_BYTES(2, digits + 1), f, i;
    uint8_t *line = lend(line_bytes, 0xA5), *plain = lend(line_bytes, 0x5A), *notes = lend(2, 6), *buffer = lend(buffer_bytes, 0);
    uint64_t sent[5], plainly[5], took[5];

    notes[1] = 0x0C;
    check(spritbobbin_multiplex(level, 5, line, line_bytes, notes, 2, buffer, buffer_bytes, sent) == 0, "votes are sent");
    check(sent[0] == 2 * digits + 1 && sent[1] == 2 * digits && sent[2] == 2 * digits - 2 && sent[3] == 2 * digits + 1, "their digits");
    check(spritbobbin_plain_multiplex(level, 5, plain, line_bytes, notes, 2, buffer, buffer_bytes, plainly) == 0, "by the plain engine too");
    check(!memcmp(sent, plainly, sizeof sent) && !memcmp(line, plain, line_bytes), "and the same");
    for (f = 0; f < 2; f++) {
        uint8_t *frame = line + f * frame_bytes;

        check(frame[0] == heads[0] && frame[1] == heads[1], "the word");
        check(frame[group] == tails[f][0] && frame[2 * group] == tails[f][1], "control and service digits");
        check(frame[3 * group] == tails[f][2] && frame[3 * group + 1] == tails[f][3], "the third control digits, negative and positive places");
        for (i = 2; i < frame_bytes; i++)
            check(frame[i] == 0 || i % group == 0 || i == 3 * group + 1, "tributary digits");
    }
    memset(notes, 0xA5, 2);
    check(spritbobbin_read_notes(level, line, line_bytes, notes, 2, took) == 0 && all_zero(took, 5), "votes are read");
    check(notes[0] == 0x06 && notes[1] == 0x0C, "as they were sent, and no service digit");
    memset(buffer, 0x5A, buffer_bytes);
    check(spritbobbin_extract(level, 5, line, line_bytes, notes, 2, buffer, buffer_bytes, took) == 0, "extracted");
    check(!memcmp(sent, took, sizeof sent) && all(buffer, buffer_bytes, 0), "what went in comes out");
    memset(buffer, 0x5A, buffer_bytes);
    check(spritbobbin_plain_extract(level, 5, line, line_bytes, notes, 2, buffer, buffer_bytes, took) == 0, "extracted by the plain engine");
    check(!memcmp(sent, took, sizeof sent) && all(buffer, buffer_bytes, 0), "the same comes out");
    check(spritbobbin_extract(level, 6, line, line_bytes, notes, 2, buffer, buffer_bytes, took) == 0 && took[0] == sent[0] + 1, "by another earlier vote");
    free(line);
    free(plain);
    free(notes);
    free(buffer);
}

/* The earlier vote: over 15 it is refused after the lengths and before the notes, naming frame 0; levels 2 to 4 do not look at it. */
static void earlier_vote(void)
{
    uint8_t *line = lend(264, 0xA5), *notes = lend(2, 0), *buffer = lend(260, 0), *one = lend(106, 0), *room = lend(104, 0);
    uint64_t answer[5];

    notes[1] = SPRITBOBBIN_REMOTE_ALARM;
    memset(answer, 0xA5, sizeof answer);
    check(spritbobbin_multiplex(12, 16, line, 264, notes, 2, buffer, 260, answer) == SPRITBOBBIN_REFUSED_NOTE_BITS && all_zero(answer, 5), "earlier 16 names frame 0");
    check(spritbobbin_multiplex(12, SPRITBOBBIN_MOST_EARLIER, line, 264, notes, 2, buffer, 260, answer) == SPRITBOBBIN_REFUSED_NOTE_BITS, "a note's bit 4");
    check(answer[SPRITBOBBIN_NAMED_FRAME] == 1 && all_zero(answer, 4) && all(line, 264, 0xA5), "names frame 1, and nothing is written");
    check(spritbobbin_extract(12, UINT64_C(1) << 32, line, 264, notes, 2, buffer, 260, answer) == SPRITBOBBIN_REFUSED_NOTE_BITS && all_zero(answer, 5), "extraction's too");
    check(spritbobbin_plain_extract(12, 16, line, 264, notes, 2, buffer, 260, answer) == SPRITBOBBIN_REFUSED_NOTE_BITS && all_zero(answer, 5), "the plain engine's too");
    check(spritbobbin_multiplex(12, 16, line, 264, notes, 2, buffer, 256, answer) == SPRITBOBBIN_REFUSED_BUFFER, "4 before it: 514 digits are 65 bytes");
    check(spritbobbin_multiplex(12, 16, line, 264, notes, 1, buffer, 260, answer) == SPRITBOBBIN_REFUSED_NOTES, "3 before it");
    check(spritbobbin_multiplex(14, 16, NULL, 0, NULL, 0, NULL, 0, answer) == SPRITBOBBIN_REFUSED_NOTE_BITS, "in a line without frames too");
    check(spritbobbin_multiplex(14, 15, NULL, 0, NULL, 0, NULL, 0, answer) == SPRITBOBBIN_ACCEPTED, "which is accepted else");
    notes[0] = SPRITBOBBIN_NATIONAL_1;
    check(spritbobbin_multiplex(2, UINT64_MAX, one, 106, notes, 1, room, 104, answer) == SPRITBOBBIN_ACCEPTED && answer[0] == 206, "level 2 does not look at it");
    free(line);
    free(notes);
    free(buffer);
    free(one);
    free(room);
}

/* A swap that is refused with this number, and leaves the line as it was. */
static void refused_swap(uint64_t level, uint64_t earlier, uint64_t tributary, size_t line_bytes, size_t notes_bytes, size_t buffer_bytes, uint64_t refusal)
{
    uint8_t *line = lend(line_bytes, 0xA5), *notes = lend(notes_bytes, 0xFF), *buffer = lend(buffer_bytes, 0);
    uint64_t answer[1] = {UINT64_C(0xA5A5A5A5A5A5A5A5)};

    check(spritbobbin_swap(level, earlier, tributary, line, line_bytes, notes, notes_bytes, buffer, buffer_bytes, answer) == refusal, "the refusal of a swap");
    check(answer[SPRITBOBBIN_SWAPPED] == 0 && all(line, line_bytes, 0xA5), "a refused swap takes and writes nothing");
    free(line);
    free(notes);
    free(buffer);
}

/* Case 1's line, of which tributary 2 becomes ones, stuffed; then that of level 12, of which tributary 4 has a digit more, by the bits of others
   too. Then the refusals in their order. */
static void swaps(void)
{
    uint8_t *line = lend(106, 0), *notes = lend(1, 0xF2), *buffer = lend(26, 0xFF);
    uint8_t *other = lend(132, 0), *vote = lend(1, 0xF7), *digits = lend(33, 0);
    uint64_t answer[1], places = 0, i;

    line[0] = 0xF4;
    line[1] = 0x10;
    check(spritbobbin_swap(2, UINT64_MAX, 2, line, 106, notes, 1, buffer, 26, answer) == 0 && answer[SPRITBOBBIN_SWAPPED] == 205, "205 digits are swapped in");
    check(line[0] == 0xF4 && line[1] == 0x14 && line[2] == 0x44 && line[26] == 0x44 && line[105] == 0x44, "the digits of tributary 2");
    for (i = 12; i < 848; i++)
        places += spritbobbin_line_digit(line, 106, i);
    check(places == 209, "all of its places, three control digits and one stuffed, and no other");

    check(spritbobbin_swap(12, 7, 4, other, 132, vote, 1, digits, 33, answer) == 0 && answer[SPRITBOBBIN_SWAPPED] == 257 && all(other, 132, 0), "257 zeros");
    vote[0] = SPRITBOBBIN_STUFFED_4;
    check(spritbobbin_swap(12, 7, 4, other, 132, vote, 1, digits, 33, answer) == 0 && answer[0] == 256, "after a vote of 0: 256");
    check(other[33] == 0x10 && other[66] == 0x10 && other[99] == 0x11 && other[100] == 0, "control digits, and the negative place sent as 1");
    check(spritbobbin_swap(12, 8, 4, other, 132, vote, 1, digits, 33, answer) == 0 && answer[0] == 255 && other[99] == 0x11 && other[100] == 0x10, "after one of 1: 255");
    check(spritbobbin_swap(14, 15, 1, NULL, 0, NULL, 0, NULL, 0, answer) == 0 && answer[0] == 0, "a line without frames");

    refused_swap(5, 16, 0, 105, 2, 25, SPRITBOBBIN_REFUSED_LEVEL);
    refused_swap(2, 16, 0, 105, 2, 25, SPRITBOBBIN_REFUSED_TRIBUTARY);
    refused_swap(2, 16, 5, 105, 2, 25, SPRITBOBBIN_REFUSED_TRIBUTARY);
    refused_swap(2, 16, UINT64_C(1) << 32 | 1, 105, 2, 25, SPRITBOBBIN_REFUSED_TRIBUTARY);
    refused_swap(2, 16, 4, 105, 2, 25, SPRITBOBBIN_REFUSED_LINE);
    refused_swap(2, 16, 4, 65 * 106, 65, 1674, SPRITBOBBIN_REFUSED_LINE);
    refused_swap(2, 16, 4, 106, 2, 25, SPRITBOBBIN_REFUSED_NOTES);
    refused_swap(12, 16, 4, 132, 1, 32, SPRITBOBBIN_REFUSED_BUFFER);
    refused_swap(12, 16, 4, 132, 1, 33, SPRITBOBBIN_REFUSED_NOTE_BITS);
    refused_swap(14, 16, 1, 0, 0, 0, SPRITBOBBIN_REFUSED_NOTE_BITS);
    free(line);
    free(notes);
    free(buffer);
    free(other);
    free(vote);
    free(digits);
}

/* A repair that is refused with this number, and leaves the line as it was. */
static void refused_repair(uint64_t level, uint64_t earlier, size_t line_bytes, uint64_t refusal)
{
    uint8_t *line = lend(line_bytes, 0xA5);
    uint64_t answer[10];

    memset(answer, 0xA5, sizeof answer);
    check(spritbobbin_repair(level, earlier, 1, line, line_bytes, answer) == refusal, "the refusal of a repair");
    check(all_zero(answer, 10) && all(line, line_bytes, 0xA5), "a refused repair counts and writes nothing");
    free(line);
}

/* Two frames of zeros at level 12, with the vote before them 5: no word, which has five ones, and in frame 0 two control digits of tributary 2,
   one of tributary 3. So frame 0 votes 2 after 5, and frame 1 votes 0 after 2: in frame 0 only the negative place of tributary 4 carries a digit, in
   frame 1 those of 1, 3 and 4; no positive one is stuffed. */
static void repairs(void)
{
    uint8_t *line = lend(264, 0), *case_1 = lend(106, 0), *zeros = lend(366, 0);
    uint64_t answer[10];

    line[33] = 0x40;
    line[66] = 0x60;
    memset(answer, 0xA5, sizeof answer);
    check(spritbobbin_repair(12, 5, 1, line, 264, answer) == SPRITBOBBIN_ACCEPTED && answer[SPRITBOBBIN_WORD_REPAIRED] == 10, "two words are repaired");
    check(answer[SPRITBOBBIN_CONTROL_REPAIRED(1)] == 0 && answer[SPRITBOBBIN_CONTROL_REPAIRED(2)] == 1
          && answer[SPRITBOBBIN_CONTROL_REPAIRED(3)] == 1 && answer[SPRITBOBBIN_CONTROL_REPAIRED(4)] == 0, "control groups are set to their majority");
    check(answer[SPRITBOBBIN_STUFFING_REPAIRED(1)] == 1 && answer[SPRITBOBBIN_STUFFING_REPAIRED(2)] == 2
          && answer[SPRITBOBBIN_STUFFING_REPAIRED(3)] == 1 && answer[SPRITBOBBIN_STUFFING_REPAIRED(4)] == 0, "unused negative places are set to 1");
    check(line[0] == 0xE6 && line[33] == 0x40 && line[66] == 0x40 && line[99] == 0x4E && line[100] == 0, "frame 0, its service digits as they came");
    check(line[132] == 0xE6 && line[165] == 0 && line[198] == 0 && line[231] == 0x04 && line[232] == 0, "frame 1");
    check(spritbobbin_repair(12, 5, 1, line, 264, answer) == 0 && all_zero(answer, 10), "a second repair changes nothing");

    case_1[0] = 0xF4;
    case_1[1] = 0x10;
    case_1[26] = 0x08; /* two of three control digits of tributary 1 make its justification digit stuffing */
    case_1[53] = 0x80;
    check(spritbobbin_repair(2, UINT64_MAX, 0, case_1, 106, answer) == 0 && answer[0] == 0, "level 2 does not look at the earlier vote");
    check(answer[SPRITBOBBIN_CONTROL_REPAIRED(1)] == 1 && answer[SPRITBOBBIN_STUFFING_REPAIRED(1)] == 1, "a split group decides");
    check(case_1[79] == 0x08 && case_1[80] == 0x80 && all_zero(answer + 2, 3) && all_zero(answer + 6, 3), "by its majority");
    check(case_1[1] == 0x10 && answer[SPRITBOBBIN_NATIONAL_REPAIRED] == 0, "a national digit of 1 is none to be repaired");
    check(spritbobbin_repair(4, 0, 1, NULL, 0, answer) == 0 && all_zero(answer, 10), "a line without frames");

    case_1[1] = 0x20;
    check(spritbobbin_repair(2, 0, 0, case_1, 106, answer) == 0 && all_zero(answer, 10) && case_1[1] == 0x20, "service digits stay");
    check(spritbobbin_repair(2, 0, 1, case_1, 106, answer) == 0 && case_1[1] == 0x30, "the switch sets the national digit, and leaves the remote alarm");
    check(answer[SPRITBOBBIN_NATIONAL_REPAIRED] == 1 && all_zero(answer, 9), "and counts it");
    check(spritbobbin_repair(4, 0, UINT64_MAX, zeros, 366, answer) == 0 && zeros[0] == 0xFA && zeros[1] == 0x07, "any number is on, and level 4 has three");
    check(answer[SPRITBOBBIN_NATIONAL_REPAIRED] == 3 && answer[SPRITBOBBIN_WORD_REPAIRED] == 6, "which are counted");

    refused_repair(5, 16, 131, SPRITBOBBIN_REFUSED_LEVEL);
    refused_repair(12, 16, 131, SPRITBOBBIN_REFUSED_LINE);
    refused_repair(12, 16, 65 * 132, SPRITBOBBIN_REFUSED_LINE);
    refused_repair(12, 16, 132, SPRITBOBBIN_REFUSED_NOTE_BITS);
    refused_repair(14, UINT64_MAX, 0, SPRITBOBBIN_REFUSED_NOTE_BITS);
    free(line);
    free(case_1);
    free(zeros);
}

/* A judgement that is refused with this number, and answers nothing. */
static void refused_judgement(uint64_t level, uint64_t earlier, size_t line_bytes, uint64_t pattern, size_t buffer_bytes, uint64_t refusal)
{
    uint8_t *line = lend(line_bytes, 0xA5), *buffer = lend(buffer_bytes, 0x5A);
    uint64_t answer[20];

    memset(answer, 0xA5, sizeof answer);
    check(spritbobbin_judge(level, earlier, line, line_bytes, pattern, buffer, buffer_bytes, answer) == refusal, "the refusal of a judgement");
    check(all_zero(answer, 20) && all(line, line_bytes, 0xA5) && all(buffer, buffer_bytes, 0x5A), "a refused judgement answers and writes nothing");
    free(line);
    free(buffer);
}

/* Two frames of zeros at level 2, tributary 1 stuffed in the first: only its stuffing digit is 1. By the frame before, whose decision is unknown in frame 0,
   a zero is left out of frame 1; by the frame after, frame 0 hands out its stuffing digit. Then frames of one digit: ones meet both patterns, zeros neither. */
static void judgements(void)
{
    uint8_t *line = lend(212, 0), *notes = lend(2, SPRITBOBBIN_NATIONAL_1), *buffer = lend(208, 0), *ones = lend(132, 0xFF);
    uint64_t answer[20], counts[5], tributary;

    notes[0] |= SPRITBOBBIN_STUFFED_1;
    check(spritbobbin_multiplex(2, 0, line, 212, notes, 2, buffer, 208, counts) == 0, "two frames are sent");
    memset(answer, 0xA5, sizeof answer);
    check(spritbobbin_judge(2, UINT64_MAX, line, 212, SPRITBOBBIN_DIGITS_SENT, buffer, 208, answer) == SPRITBOBBIN_ACCEPTED, "and judged");
    check(answer[SPRITBOBBIN_FITS(1)] == (SPRITBOBBIN_FITS_BY_OWN | SPRITBOBBIN_FITS_BY_BEFORE), "tributary 1 is not early");
    check(answer[SPRITBOBBIN_WRONG_BY_OWN(1)] == 0 && answer[SPRITBOBBIN_WRONG_BY_BEFORE(1)] == 0
          && answer[SPRITBOBBIN_WRONG_BY_AFTER(1)] == 1 && answer[SPRITBOBBIN_CHANGES(1)] == 1, "one digit would be wrong, and its decision changes once");
    for (tributary = 2; tributary <= 4; tributary++)
        check(answer[SPRITBOBBIN_FITS(tributary)] == 7 && all_zero(answer + SPRITBOBBIN_WRONG_BY_OWN(tributary), 4), "of the others nothing is told");
    buffer[0] = 0x80;
    check(spritbobbin_judge(2, 0, line, 212, 0, buffer, 208, answer) == 0 && answer[SPRITBOBBIN_FITS(1)] == 0, "another digit sent: no reading fits");
    check(answer[SPRITBOBBIN_WRONG_BY_OWN(1)] == 1 && answer[SPRITBOBBIN_WRONG_BY_AFTER(1)] == 2, "by one more wrong digit");

    check(spritbobbin_judge(12, 9, ones, 132, SPRITBOBBIN_PATTERN_15, NULL, 0, answer) == 0 && answer[SPRITBOBBIN_FITS(1)] == 7, "ones meet 2^15 - 1");
    check(spritbobbin_judge(12, 9, ones, 132, SPRITBOBBIN_PATTERN_23, buffer, 3, answer) == 0 && answer[SPRITBOBBIN_FITS(4)] == 7, "and 2^23 - 1");
    check(spritbobbin_judge(2, 0, buffer + 1, 106, SPRITBOBBIN_PATTERN_15, NULL, 0, answer) == 0 && answer[SPRITBOBBIN_FITS(2)] == 0, "zeros do not");
    check(answer[SPRITBOBBIN_WRONG_BY_OWN(2)] == 191 && answer[SPRITBOBBIN_WRONG_BY_BEFORE(2)] == 190 && answer[SPRITBOBBIN_WRONG_BY_AFTER(2)] == 190,
          "all but 15 of 206 digits; of the unknown's two ways the fewer");
    check(spritbobbin_judge(14, 15, NULL, 0, 0, NULL, 0, answer) == 0 && answer[SPRITBOBBIN_FITS(1)] == 7 && all_zero(answer + 1, 4), "no frames fit by all");

    refused_judgement(5, 16, 131, 1, 3, SPRITBOBBIN_REFUSED_LEVEL);
    refused_judgement(12, 16, 131, 1, 3, SPRITBOBBIN_REFUSED_PATTERN);
    refused_judgement(12, 16, 131, UINT64_C(1) << 32 | 15, 3, SPRITBOBBIN_REFUSED_PATTERN);
    refused_judgement(12, 16, 131, 0, 3, SPRITBOBBIN_REFUSED_LINE);
    refused_judgement(12, 16, 65 * 132, 23, 0, SPRITBOBBIN_REFUSED_LINE);
    refused_judgement(12, 16, 132, 0, 128, SPRITBOBBIN_REFUSED_BUFFER);
    refused_judgement(12, 16, 132, 0, 133, SPRITBOBBIN_REFUSED_BUFFER);
    refused_judgement(12, 16, 132, 0, 132, SPRITBOBBIN_REFUSED_NOTE_BITS);
    refused_judgement(12, 16, 132, 15, 3, SPRITBOBBIN_REFUSED_NOTE_BITS);
    refused_judgement(14, UINT64_MAX, 0, 23, 0, SPRITBOBBIN_REFUSED_NOTE_BITS);
    free(line);
    free(notes);
    free(buffer);
    free(ones);
}

/* A fresh verdict, or a feed of one, that is refused with this number: a fresh one is zeros, and a feed leaves its state and answers zeros. */
static void refused_verdict(uint64_t level, uint64_t earlier, uint64_t pattern, uint64_t refusal)
{
    uint64_t state[SPRITBOBBIN_VERDICT_STATE], answer[SPRITBOBBIN_VERDICT_ANSWER];

    memset(state, 0xA5, sizeof state);
    memset(answer, 0xA5, sizeof answer);
    check(spritbobbin_verdict_fresh(level, earlier, pattern, state) == refusal, "the refusal of a fresh verdict");
    check(all_zero(state, SPRITBOBBIN_VERDICT_STATE), "its state is zeros");
    check(spritbobbin_verdict_feed(state, NULL, 0, SPRITBOBBIN_VERDICT_NEXT_UNKNOWN, NULL, 0, 0, answer) == SPRITBOBBIN_REFUSED_STATE, "which no feed takes");
    check(all_zero(answer, SPRITBOBBIN_VERDICT_ANSWER), "and answers nothing");
}

static void refused_feed(uint64_t level, uint64_t pattern, size_t line_bytes, uint64_t next, size_t sent_bytes, uint64_t refusal)
{
    uint8_t *line = lend(line_bytes, 0xA5), *sent = lend(sent_bytes, 0x5A);
    uint64_t state[SPRITBOBBIN_VERDICT_STATE], before[SPRITBOBBIN_VERDICT_STATE], answer[SPRITBOBBIN_VERDICT_ANSWER];

    check(spritbobbin_verdict_fresh(level, 0, pattern, state) == 0, "a fresh verdict");
    memcpy(before, state, sizeof state);
    memset(answer, 0xA5, sizeof answer);
    check(spritbobbin_verdict_feed(state, line, line_bytes, next, sent, sent_bytes, 0, answer) == refusal, "the refusal of a feed");
    check(memcmp(before, state, sizeof state) == 0 && all_zero(answer, SPRITBOBBIN_VERDICT_ANSWER), "a refused feed leaves the state and answers nothing");
    check(all(line, line_bytes, 0xA5) && all(sent, sent_bytes, 0x5A), "and writes nothing");
    free(line);
    free(sent);
}

/* Eight frames of a multiplexer that acts a frame late at level 2, one digit of tributary 1 spoilt, fed whole and in two parts. Tributary 1 is stuffed now and then, the
   others never. Read by the frame before, one digit is wrong; by its own frame it slips. */
static void verdicts(void)
{
    static const uint8_t decisions[8] = {0x21, 0x20, 0x20, 0x21, 0x21, 0x20, 0x21, 0x20};
    enum { own = SPRITBOBBIN_VERDICT_OWN, before = SPRITBOBBIN_VERDICT_BEFORE, after = SPRITBOBBIN_VERDICT_AFTER };
    uint8_t *line = lend(848, 0), *notes = lend(8, 0), *sent = lend(824, 0);
    uint64_t state[SPRITBOBBIN_VERDICT_STATE], answer[SPRITBOBBIN_VERDICT_ANSWER], whole[SPRITBOBBIN_VERDICT_ANSWER], counts[5];
    size_t k;

    memcpy(notes, decisions, 8);
    for (k = 0; k < 824; k++)
        sent[k] = (uint8_t)(k * k / 7);
    check(spritbobbin_late_multiplex(2, 0, line, 848, notes, 8, sent, 824, counts) == 0, "a late line");
    line[1] ^= 0x08; /* place 12, the first digit of tributary 1 */

    check(spritbobbin_verdict_fresh(2, UINT64_MAX, SPRITBOBBIN_DIGITS_SENT, state) == 0, "a fresh verdict, whose earlier vote level 2 does not look at");
    check(spritbobbin_verdict_feed(state, line, 848, SPRITBOBBIN_VERDICT_NEXT_UNKNOWN, sent, 824, 0, whole) == 0, "is fed");
    check(whole[SPRITBOBBIN_VERDICT_DIGITS(1, before)] == counts[0] && whole[SPRITBOBBIN_VERDICT_UNJUDGED(1, before)] == 0, "every digit sent is judged");
    check(whole[SPRITBOBBIN_VERDICT_WRONG(1, before)] == 1 && whole[SPRITBOBBIN_VERDICT_SLIPS(1, before)] == 0, "late: one wrong digit, no slip");
    check(whole[SPRITBOBBIN_VERDICT_RIGHT(1, before)] == 0 && whole[SPRITBOBBIN_VERDICT_SHIFT(1, before)] == 0, "which is the first");
    check(whole[SPRITBOBBIN_VERDICT_SLIPS(1, own)] > 0 && whole[SPRITBOBBIN_VERDICT_SLIPS(1, after)] > 0, "the others slip");
    check(whole[SPRITBOBBIN_VERDICT_CHANGES(1)] == 5 && whole[SPRITBOBBIN_VERDICT_CHANGES(2)] == 0, "the decision of one changes, those of the others never");
    check(whole[SPRITBOBBIN_VERDICT_RIGHT(4, own)] == counts[3] && whole[SPRITBOBBIN_VERDICT_WRONG(4, own)] == 0, "whose digits are all right");

    check(spritbobbin_verdict_fresh(2, 0, 0, state) == 0, "the same");
    check(spritbobbin_verdict_feed(state, line, 318, 1, sent, 824, 0, answer) == 0, "three frames, before one that is stuffed");
    check(spritbobbin_verdict_feed(state, line + 318, 530, 16, sent, 824, 0, answer) == 0, "and the other five");
    check(memcmp(answer, whole, sizeof answer) == 0, "come to the same");
    check(spritbobbin_verdict_feed(state, NULL, 0, 16, NULL, 0, UINT64_MAX, answer) == 0 && memcmp(answer, whole, sizeof answer) == 0, "as does no frame more");

    refused_verdict(5, 16, 1, SPRITBOBBIN_REFUSED_LEVEL);
    refused_verdict(12, 16, 1, SPRITBOBBIN_REFUSED_PATTERN);
    refused_verdict(12, 16, UINT64_C(1) << 32 | 15, SPRITBOBBIN_REFUSED_PATTERN);
    refused_verdict(12, 16, 15, SPRITBOBBIN_REFUSED_NOTE_BITS);
    refused_verdict(14, UINT64_MAX, 0, SPRITBOBBIN_REFUSED_NOTE_BITS);
    refused_feed(12, 0, 131, 17, 3, SPRITBOBBIN_REFUSED_LINE);
    refused_feed(12, 0, 65 * 132, 17, 3, SPRITBOBBIN_REFUSED_LINE);
    refused_feed(12, 0, 132, 17, 3, SPRITBOBBIN_REFUSED_BUFFER);
    refused_feed(12, 0, 132, 17, 4, SPRITBOBBIN_REFUSED_NOTE_BITS);
    refused_feed(12, 23, 132, UINT64_MAX, 3, SPRITBOBBIN_REFUSED_NOTE_BITS);
    free(line);
    free(notes);
    free(sent);
}

/* Two frames with notes of their own and a buffer of 0x5A and 0xC3, sent, read and extracted by both engines, and
   a call that both refuse: all numbers and all bytes are the same. */
static void two_engines(uint64_t level, uint8_t first, uint8_t second, size_t line_bytes, size_t buffer_bytes)
{
    static uint8_t line[2][732], notes[2][2], buffer[2][4 * 181];
    uint64_t answer[2][3][5], refusal[2][3];

    memset(line, 0xA5, sizeof line);
    for (unsigned e = 0; e < 2; e++) {
        notes[e][0] = first;
        notes[e][1] = second;
        for (size_t i = 0; i < sizeof buffer[e]; i++)
            buffer[e][i] = i % 3 ? 0x5A : 0xC3;
    }
    refusal[0][0] = spritbobbin_multiplex(level, 9, line[0], line_bytes, notes[0], 2, buffer[0], buffer_bytes, answer[0][0]);
    refusal[1][0] = spritbobbin_plain_multiplex(level, 9, line[1], line_bytes, notes[1], 2, buffer[1], buffer_bytes, answer[1][0]);
    check(memcmp(line[0], line[1], sizeof line[0]) == 0, "both engines leave the same line");
    refusal[0][1] = spritbobbin_read_notes(level, line[0], line_bytes, notes[0], 2, answer[0][1]);
    refusal[1][1] = spritbobbin_plain_read_notes(level, line[1], line_bytes, notes[1], 2, answer[1][1]);
    check(memcmp(notes[0], notes[1], 2) == 0, "both engines read the same notes");
    refusal[0][2] = spritbobbin_extract(level, 9, line[0], line_bytes, notes[0], 2, buffer[0], buffer_bytes, answer[0][2]);
    refusal[1][2] = spritbobbin_plain_extract(level, 9, line[1], line_bytes, notes[1], 2, buffer[1], buffer_bytes, answer[1][2]);
    check(memcmp(buffer[0], buffer[1], sizeof buffer[0]) == 0, "both engines leave the same buffer");
    check(memcmp(answer[0], answer[1], sizeof answer[0]) == 0, "both engines answer the same");
    check(memcmp(refusal[0], refusal[1], sizeof refusal[0]) == 0, "both engines refuse the same");
}

/* A piece that is refused with this number, and leaves the receiver as it was. */
static void refused_piece(uint64_t state[9], uint8_t frame[366], const uint8_t *piece, size_t piece_bytes,
                          uint64_t first, uint64_t count, uint64_t refusal)
{
    uint64_t before[9], answer[4];
    uint8_t frame_before[366];

    memcpy(before, state, sizeof before);
    memcpy(frame_before, frame, sizeof frame_before);
    memset(answer, 0xA5, sizeof answer);
    check(spritbobbin_receiver_feed(state, frame, piece, piece_bytes, first, count, answer) == refusal, "the refusal of a piece");
    check(all_zero(answer, 4), "of a refused piece nothing is taken, and no word is tested");
    check(!memcmp(before, state, sizeof before) && !memcmp(frame_before, frame, 366), "a refused piece changes nothing");
}

/* Ones raise the alarm with the second stretch; a refused piece reports none. */
static void alarm(uint64_t state[9], uint8_t frame[366])
{
    uint8_t *ones = lend(2 * SPRITBOBBIN_FRAME_BYTES_2, 0xFF);
    uint64_t answer[4];

    spritbobbin_receiver_fresh(2, state, frame);
    check(spritbobbin_receiver_feed(state, frame, ones, 212, 0, 1695, answer) == 0, "ones are taken");
    check(answer[SPRITBOBBIN_TAKEN] == 1695 && answer[SPRITBOBBIN_ALARM] == 0, "no alarm a digit before");
    check(answer[SPRITBOBBIN_WORDS] == 1686, "a word tested at every digit from the tenth on");
    check(state[SPRITBOBBIN_STATE_DIGITS] == 847 && state[SPRITBOBBIN_STATE_ZEROS] == 0, "the stretch");
    check(spritbobbin_receiver_feed(state, frame, ones, 212, 1695, 1, answer) == 0, "the last digit");
    check(answer[SPRITBOBBIN_ALARM] == 1 && state[SPRITBOBBIN_STATE_ALARM] == 1, "alarm indication");
    check(state[SPRITBOBBIN_STATE_FEW] == 1 && state[SPRITBOBBIN_STATE_DIGITS] == 0, "a stretch begins");
    refused_piece(state, frame, ones, 212, 1696, 1, SPRITBOBBIN_REFUSED_DIGITS);
    state[SPRITBOBBIN_STATE_ALARM] = 2;
    refused_piece(state, frame, ones, 212, 0, 1, SPRITBOBBIN_REFUSED_STATE);
    free(ones);
}

/* Case 11, and the refusals of a piece. */
static void receiver(void)
{
    size_t length = 4 * SPRITBOBBIN_FRAME_BYTES_2, i;
    uint8_t *stream = lend(length, 0), *frame = lend(366, 0xA5), *long_one = lend(SPRITBOBBIN_MOST_BYTES + 1, 0);
    const uint8_t word_12[1] = {0xE6};
    uint64_t state[9], answer[4];

    for (i = 0; i < length; i += SPRITBOBBIN_FRAME_BYTES_2) {
        stream[i] = 0xF4;
        stream[i + 1] = 0x10;
    }
    check(spritbobbin_receiver_fresh(2, state, frame) == SPRITBOBBIN_ACCEPTED && state[0] == 2, "a fresh receiver");
    check(all_zero(state + 1, 8) && all(frame, 366, 0), "a fresh receiver is all zero but for the level");

    check(spritbobbin_receiver_feed(state, frame, stream, length, 0, 3392, answer) == 0, "case 11 is accepted");
    check(answer[SPRITBOBBIN_TAKEN] == 2544 && answer[SPRITBOBBIN_READY] == 1, "the first frame of case 11");
    check(answer[SPRITBOBBIN_WORDS] == 3, "three words tested");
    check(frame[0] == 0xF4 && frame[1] == 0x10 && all(frame + 2, 364, 0) && answer[SPRITBOBBIN_ALARM] == 0, "case 1's bytes");
    check(spritbobbin_receiver_feed(state, frame, stream, length, 2544, 848, answer) == 0, "case 11 goes on");
    check(answer[SPRITBOBBIN_TAKEN] == 848 && answer[SPRITBOBBIN_READY] == 1, "the second frame of case 11");
    check(frame[0] == 0xF4 && frame[1] == 0x10 && all(frame + 2, 364, 0), "the same bytes");
    check(state[SPRITBOBBIN_STATE_MODE] == SPRITBOBBIN_ALIGNED && state[SPRITBOBBIN_STATE_PLACE] == 838, "aligned");

    check(spritbobbin_receiver_feed(state, frame, NULL, 0, 0, 0, answer) == 0 && all_zero(answer, 4), "an empty piece");
    refused_piece(state, frame, stream, length, 1, 3392, SPRITBOBBIN_REFUSED_DIGITS);
    refused_piece(state, frame, stream, length, UINT64_MAX, 2, SPRITBOBBIN_REFUSED_DIGITS);
    refused_piece(state, frame, long_one, SPRITBOBBIN_MOST_BYTES + 1, 0, 1, SPRITBOBBIN_REFUSED_LINE);
    state[SPRITBOBBIN_STATE_MODE] = 7;
    refused_piece(state, frame, stream, length, 0, 1, SPRITBOBBIN_REFUSED_STATE);
    alarm(state, frame);

    check(spritbobbin_receiver_fresh(12, state, frame) == SPRITBOBBIN_ACCEPTED && state[0] == 12, "a receiver of level 12");
    check(spritbobbin_receiver_feed(state, frame, word_12, 1, 0, 8, answer) == 0 && answer[SPRITBOBBIN_WORDS] == 1, "its word is tested");
    check(state[SPRITBOBBIN_STATE_MODE] == SPRITBOBBIN_ONE_FOUND && frame[0] == 0xE6, "and found");
    check(spritbobbin_receiver_fresh(5, state, frame) == SPRITBOBBIN_REFUSED_LEVEL, "no receiver of level 5");
    check(all_zero(state, 9) && all(frame, 366, 0), "a refused receiver is all zero");
    free(stream);
    free(frame);
    free(long_one);
}

static void line_digits(void)
{
    const char *word = "1111010000";
    uint8_t *line = lend(2, 0);
    uint64_t place;

    line[0] = 0xF4;
    for (place = 0; word[place]; place++)
        check(spritbobbin_line_digit(line, 2, place) == (uint64_t)(word[place] - '0'), "a digit of the line");
    check(spritbobbin_line_digit(line, 2, 15) == 0, "the last digit of the line");
    check(spritbobbin_line_digit(line, 2, 16) == SPRITBOBBIN_LINE_ENDED, "the line has ended");
    check(spritbobbin_line_digit(line, 2, UINT64_MAX) == SPRITBOBBIN_LINE_ENDED, "the line has long ended");
    check(spritbobbin_line_digit(NULL, 0, 0) == SPRITBOBBIN_LINE_ENDED, "an empty line has ended");
    free(line);
}

/* Four digits put across the border of two bytes, and copies that either slice has no room for. */
static void copies(void)
{
    uint8_t *to = lend(2, 0xFF), *from = lend(1, 0x27);

    check(spritbobbin_copy_digits(to, 2, 6, from, 1, 2, 4) == 0 && to[0] == 0xFE && to[1] == 0x7F, "1001 from digit 6 on");
    check(spritbobbin_copy_digits(to, 2, 13, from, 1, 0, 4) == SPRITBOBBIN_REFUSED_DIGITS, "no room for four");
    check(spritbobbin_copy_digits(to, 2, 0, from, 1, 5, 4) == SPRITBOBBIN_REFUSED_DIGITS, "no four digits");
    check(spritbobbin_copy_digits(to, 2, UINT64_MAX, from, 1, 1, UINT64_MAX) == SPRITBOBBIN_REFUSED_DIGITS, "sums that wrap");
    check(to[0] == 0xFE && to[1] == 0x7F, "a refused copy writes nothing");
    check(spritbobbin_copy_digits(to, 2, 16, from, 1, 8, 0) == 0 && spritbobbin_copy_digits(NULL, 0, 0, NULL, 0, 0, 0) == 0, "no digits");
    check(to[0] == 0xFE && to[1] == 0x7F && from[0] == 0x27, "nothing else changes");
    free(to);
    free(from);
}

/* The places of tributary 1 in the last set's head at level 12, the borders of what there is, and the library's version. */
static void places(void)
{
    uint64_t answer[2], place;

    check(spritbobbin_place(2, 0, answer) == 0 && answer[0] == SPRITBOBBIN_PLACE_WORD && answer[1] == 0, "the word");
    check(spritbobbin_place(4, 15, answer) == 0 && answer[0] == SPRITBOBBIN_PLACE_SERVICE && answer[1] == 0, "a national digit");
    for (place = 792; place < 808; place++)
        check(spritbobbin_place(12, place, answer) == 0 && answer[1] == place % 4 + 1
              && answer[0] == (place < 796 ? SPRITBOBBIN_PLACE_CONTROL : place < 800 ? SPRITBOBBIN_PLACE_NEGATIVE
                               : place < 804 ? SPRITBOBBIN_PLACE_JUSTIFICATION : SPRITBOBBIN_PLACE_ORDINARY), "the last set's head");
    check(spritbobbin_place(2, 848, answer) == SPRITBOBBIN_REFUSED_DIGITS && all_zero(answer, 2), "no place N");
    memset(answer, 0xA5, sizeof answer);
    check(spritbobbin_place(5, 0, answer) == SPRITBOBBIN_REFUSED_LEVEL && all_zero(answer, 2), "no level 5");
    check(spritbobbin_multiframe_place(3, answer) == 0 && answer[0] == SPRITBOBBIN_MULTIFRAME_WORD && answer[1] == 1, "the word's third digit");
    check(spritbobbin_multiframe_place(128 + 5, answer) == 0 && answer[0] == SPRITBOBBIN_MULTIFRAME_Y && answer[1] == 0, "the multiframe's alarm");
    check(spritbobbin_multiframe_place(4095, answer) == 0 && answer[0] == SPRITBOBBIN_MULTIFRAME_CHANNEL && answer[1] == 30, "the last digit");
    check(spritbobbin_multiframe_place(SPRITBOBBIN_MULTIFRAME_DIGITS, answer) == SPRITBOBBIN_REFUSED_DIGITS && all_zero(answer, 2), "no place 4096");
    check(spritbobbin_version() == SPRITBOBBIN_VERSION, "header and library are of one version");
}

/* Tributary 1 is stuffed in the first of two frames: the late line says so there, and does it in the second. Then where six digits begin,
   and which of sixteen frames begins a multiframe. */
static void beginnings(void)
{
    uint8_t *line = lend(212, 0), *notes = lend(2, 0x20), *buffer = lend(208, 0);
    uint8_t *read = lend(1, 0xB4), *sent = lend(4, 0), *frames = lend(512, 0xFF);
    uint64_t answer[5];

    notes[0] = 0x21;
    check(spritbobbin_late_multiplex(2, 0, line, 212, notes, 2, buffer, 208, answer) == 0 && answer[0] == 411 && answer[1] == 412, "a late line");
    check((line[80] & 0x80) == 0 && (line[186] & 0x80) == 0x80, "stuffed a frame late");
    check(spritbobbin_read_notes(2, line, 212, notes, 2, answer) == 0 && notes[0] == 0x21 && notes[1] == 0x20, "and says it in time");
    check(spritbobbin_late_multiplex(2, 0, line, 211, notes, 2, buffer, 208, answer) == SPRITBOBBIN_REFUSED_LINE && all_zero(answer, 5), "211 bytes");

    sent[1] = 0x0B;
    check(spritbobbin_begins(read, 1, 6, sent, 4, 0, 26, answer) == 0 && answer[0] == 12 && answer[1] == 1, "1011 at 12, a digit wrong");
    check(spritbobbin_begins(read, 1, 6, sent, 4, 0, 28, answer) == SPRITBOBBIN_REFUSED_DIGITS && all_zero(answer, 2), "a number too many");
    check(spritbobbin_begins(read, 1, 6, sent, 4, 0, 0, answer) == SPRITBOBBIN_REFUSED_DIGITS && all_zero(answer, 2), "no number");

    check(spritbobbin_multiframe_start(frames, 512, answer) == 0 && answer[0] == 16, "no frame begins the multiframe");
    frames[5 * 32] = 0x9B;
    frames[5 * 32 + 16] = 0x0B;
    check(spritbobbin_multiframe_start(frames, 512, answer) == 0 && answer[0] == 5, "frame 5 begins it");
    check(spritbobbin_multiframe_start(frames, 511, answer) == SPRITBOBBIN_REFUSED_LINE && answer[0] == 0, "511 bytes");
    free(line);
    free(notes);
    free(buffer);
    free(read);
    free(sent);
    free(frames);
}

/* Compares two captures; answer and places hold 0xA5 before, so that what is not written is seen. */
static uint64_t compared(const uint8_t *one, size_t one_bytes, const uint8_t *other, size_t other_bytes,
                         uint64_t answer[19], uint64_t places[128])
{
    memset(answer, 0xA5, 19 * sizeof *answer);
    memset(places, 0xA5, 128 * sizeof *places);
    return spritbobbin_compare(one, one_bytes, other, other_bytes, answer, places);
}

static int untouched(const uint64_t *numbers, size_t many)
{
    for (size_t k = 0; k < many; k++)
        if (numbers[k] != 0xA5A5A5A5A5A5A5A5)
            return 0;
    return 1;
}

/* The same two lines of 106 bytes without their files, and stretches of them. */
static void lines(const uint8_t *one, const uint8_t *other)
{
    uint64_t answer[17], places[128], part[16];

    memset(places, 0xA5, sizeof places);
    check(spritbobbin_compare_lines(5, one, 106, other, 106, answer, places) == SPRITBOBBIN_REFUSED_LEVEL, "two lines of no level");
    check(spritbobbin_compare_lines(2, one, 105, other, 106, answer, places) == SPRITBOBBIN_REFUSED_LINE, "a first line that is no whole frames");
    check(spritbobbin_compare_lines(2, one, 106, other, 0, answer, places) == SPRITBOBBIN_REFUSED_LINE, "a second line of another length");
    check(all_zero(answer, 17) && untouched(places, 128), "they write no list");
    check(spritbobbin_compare_lines(2, one, 106, other, 106, answer, places) == SPRITBOBBIN_ACCEPTED, "two lines are compared");
    check(answer[SPRITBOBBIN_WORD_DIFFERS - SPRITBOBBIN_SUMS] == 1 && answer[SPRITBOBBIN_CONTROL_DIFFERS(2) - SPRITBOBBIN_SUMS] == 1, "their word and control");
    check(answer[SPRITBOBBIN_ALL_DIFFER - SPRITBOBBIN_SUMS] == 4 && answer[SPRITBOBBIN_LISTED - SPRITBOBBIN_SUMS] == 4, "all that differ in two lines");
    check(places[3] == 213 && places[7] == 847 && all_zero(places + 8, 120), "and where");
    check(spritbobbin_compare_stretch(2, one, 106, other, 106, 1, 847, part) == SPRITBOBBIN_ACCEPTED, "all but the first place");
    check(part[0] == 0 && part[15] == 3 && part[SPRITBOBBIN_ORDINARY_DIFFERS(4) - SPRITBOBBIN_SUMS] == 1, "what differs there");
    check(spritbobbin_compare_stretch(2, one, 106, other, 106, 2, 847, part) == SPRITBOBBIN_REFUSED_DIGITS && all_zero(part, 16), "a place too many");
    check(spritbobbin_compare_stretch(2, one, 106, other, 106, UINT64_MAX, 2, part) == SPRITBOBBIN_REFUSED_DIGITS, "a sum that would wrap");
}

/* Two captures of a frame of level 2 that differ in the word, a control and a justification digit and the last digit; files that
   do not fit each other, and bad ones. */
static void comparisons(void)
{
    static const uint8_t head[7] = {0x01, 0x00, 0x01, 0x02, 0x02, 0x00, 0x6A}, empty[7] = {1, 0, 1, 2, 2}, other_level[7] = {1, 0, 1, 3, 2};
    uint8_t *one = lend(113, 0), *other = lend(113, 0);
    uint64_t answer[19], places[128];

    memcpy(one, head, 7);
    memcpy(other, head, 7);
    check(compared(one, 113, other, 113, answer, places) == 0 && all_zero(answer, 19) && all_zero(places, 128), "equal captures");
    other[7] = 0x80;        /* place 0: the word */
    other[7 + 26] = 0x04;   /* place 213: the control digit of tributary 2 */
    other[7 + 80] = 0x10;   /* place 643: the justification digit of tributary 4 */
    other[7 + 105] = 0x01;  /* place 847: tributary 4 */
    check(compared(one, 113, other, 113, answer, places) == SPRITBOBBIN_ACCEPTED, "two captures are compared");
    check(answer[SPRITBOBBIN_WORD_DIFFERS] == 1 && answer[SPRITBOBBIN_CONTROL_DIFFERS(2)] == 1, "word and control");
    check(answer[SPRITBOBBIN_JUSTIFICATION_DIFFERS(4)] == 1 && answer[SPRITBOBBIN_ORDINARY_DIFFERS(4)] == 1, "justification and ordinary");
    check(answer[SPRITBOBBIN_ALL_DIFFER] == 4 && answer[SPRITBOBBIN_LISTED] == 4, "all that differ");
    check(places[1] == 0 && places[3] == 213 && places[5] == 643 && places[6] == 0 && places[7] == 847, "their places");
    check(all_zero(places + 8, 120), "zeros after them");
    check(compared(one, 113, other, 112, answer, places) == SPRITBOBBIN_REFUSED_FIELD, "the second file is cut off");
    check(answer[SPRITBOBBIN_FAULTY_FILE] == 2 && answer[SPRITBOBBIN_FAULTY_BYTE] == 4 && all_zero(answer + 2, 17), "it is named");
    check(untouched(places, 128), "and the list is left as it was");
    check(compared(NULL, 0, other, 112, answer, places) == SPRITBOBBIN_REFUSED_FIELD && answer[0] == 1 && answer[1] == 0, "the first file first");
    check(compared(one, 113, other_level, 7, answer, places) == SPRITBOBBIN_REFUSED_LEVEL && all_zero(answer, 19), "unequal level before length");
    check(compared(one, 113, empty, 7, answer, places) == SPRITBOBBIN_REFUSED_LINE && all_zero(answer, 19), "unequal length");
    check(untouched(places, 128), "a refusal writes no list");
    lines(one + 7, other + 7);
    free(one);
    free(other);
}

/* Writes a capture of a line of one value into a file that holds 0xA5, and reads it back. A label
   of SIZE_MAX bytes is none. */
static void capture(uint64_t level, size_t line_bytes, size_t label_bytes, size_t file_bytes, uint64_t refusal)
{
    uint64_t labelled = label_bytes != SIZE_MAX, wrote[2], read[7];
    uint8_t *line = lend(line_bytes, 0x5A), *label = lend(labelled ? label_bytes : 0, 0xC3), *file = lend(file_bytes, 0xA5);
    size_t size = labelled ? SPRITBOBBIN_LABELLED_CAPTURE_BYTES(line_bytes, label_bytes) : SPRITBOBBIN_CAPTURE_BYTES(line_bytes);

    memset(wrote, 0xA5, sizeof wrote);
    memset(read, 0xA5, sizeof read);
    check(spritbobbin_capture_write(level, line, line_bytes, label, labelled ? label_bytes : 0, labelled,
                                    file, file_bytes, wrote) == refusal,
          "the refusal of a capture");
    if (refusal) {
        check(all_zero(wrote, 2) && all(file, file_bytes, 0xA5), "a refused capture is not written");
    } else {
        check(wrote[SPRITBOBBIN_FILE_BYTES] == size && wrote[1] == 0, "the bytes of the file");
        check(all(file + size, file_bytes - size, 0xA5), "bytes after the file stay");
        check(spritbobbin_capture_read(file, size, read) == SPRITBOBBIN_ACCEPTED, "what is written is read");
        check(read[SPRITBOBBIN_FILE_LEVEL] == level && read[SPRITBOBBIN_LINE_BYTES] == line_bytes, "level and line come back");
        check(all(file + read[SPRITBOBBIN_LINE_START], line_bytes, 0x5A), "the line's bytes");
        check(read[SPRITBOBBIN_LABELLED] == labelled && read[SPRITBOBBIN_NAMED_BYTE] == 0, "a label or none");
        if (labelled)
            check(read[SPRITBOBBIN_LABEL_BYTES] == label_bytes && all(file + read[SPRITBOBBIN_LABEL_START], label_bytes, 0xC3), "the label");
        else
            check(all_zero(read + SPRITBOBBIN_LABEL_START, 2), "no label stands nowhere");
    }
    free(line);
    free(label);
    free(file);
}

/* A file of these bytes is refused, and the answer names a byte. */
static void refused_file(const char *bytes, size_t length, uint64_t refusal, uint64_t byte)
{
    uint8_t *file = lend(length, 0);
    uint64_t read[7];

    if (length)
        memcpy(file, bytes, length);
    memset(read, 0xA5, sizeof read);
    check(spritbobbin_capture_read(file, length, read) == refusal, "the refusal of a file");
    check(all_zero(read, 6) && read[SPRITBOBBIN_NAMED_BYTE] == byte, "the byte that it names");
    free(file);
}

/* The example of request 1, and the refusals of both calls. */
static void captures(void)
{
    static const uint8_t head[] = {0x01, 0x00, 0x01, 0x02, 0x02, 0x00, 0x6A, 0xF4, 0x10};
    uint8_t line[106] = {0xF4, 0x10}, file[113];
    uint64_t wrote[2];

    check(spritbobbin_capture_write(2, line, 106, NULL, 0, 0, file, 113, wrote) == 0 && wrote[0] == 113, "113 bytes whole");
    check(!memcmp(file, head, sizeof head) && all(file + 9, 104, 0), "the bytes of the example");

    capture(2, 106, SIZE_MAX, 113, 0);
    capture(2, 0, SIZE_MAX, 7, 0);
    capture(2, 0, 0, 10, 0); /* a label of no bytes is not none */
    capture(3, 64 * 192, 32, 12400, 0);
    capture(4, 64 * 366, 1, 23435, 0);
    capture(12, 64 * 132, SIZE_MAX, 8455, 0);
    capture(14, 64 * 272, 32, 17450, 0);
    capture(2, 106, SIZE_MAX, 112, SPRITBOBBIN_REFUSED_BUFFER);
    capture(2, 106, 33, 0, SPRITBOBBIN_REFUSED_FIELD);
    capture(2, 105, 33, 0, SPRITBOBBIN_REFUSED_LINE);
    capture(5, 105, 33, 0, SPRITBOBBIN_REFUSED_LEVEL);

    refused_file("", 0, SPRITBOBBIN_REFUSED_FIELD, 0);
    refused_file("\1\0\1\2", 4, SPRITBOBBIN_REFUSED_FIELD, 4);
    refused_file("\1\0\1\2\2\0\1", 7, SPRITBOBBIN_REFUSED_FIELD, 4);
    refused_file("\1\0\1\11\2\0\0\0", 8, SPRITBOBBIN_REFUSED_FIELD, 7);
    refused_file("\1\0\1\2\2\0\0\3\0\0\0", 11, SPRITBOBBIN_REFUSED_FIELD, 10);
    refused_file("\1\0\1\11\2\0\1\0", 8, SPRITBOBBIN_REFUSED_LEVEL, 0);
    refused_file("\1\0\1\2\2\0\1\0", 8, SPRITBOBBIN_REFUSED_LINE, 0);
}

/* Builds a multiframe of slices of these lengths, with signalling of one value, and takes it apart. */
static void multiframe(size_t whole, size_t channels, size_t signalling, size_t spare, uint8_t signal, uint64_t refusal, uint64_t named)
{
    uint8_t *m = lend(whole, 0xA5), *c = lend(channels, 0x3C), *s = lend(signalling, signal), *x = lend(spare, 0xFF);
    uint64_t answer[1] = {UINT64_C(0xA5A5A5A5A5A5A5A5)};

    check(spritbobbin_multiframe_build(m, whole, c, channels, s, signalling, x, spare, answer) == refusal, "the refusal of a multiframe");
    check(answer[SPRITBOBBIN_NAMED_CHANNEL] == named, "the channel that it names");
    if (refusal)
        check(all(m, whole, 0xA5), "a refused multiframe is not written");
    else
        check(m[0] == 0x9B && m[16] == 0x0F && m[32] == 0xFF && m[32 + 16] == signal && m[511] == 0x3C, "bytes of the multiframe");
    if (c && s && x) {
        memset(c, 0, channels);
        memset(s, 0, signalling);
        memset(x, 0xA5, spare);
        check(spritbobbin_multiframe_apart(m, whole, c, channels, s, signalling, x, spare) == (refusal == 11 ? 0 : refusal), "the refusal of taking apart");
    }
    if (!refusal) {
        check(all(c, channels, 0x3C) && all(s, signalling, signal), "channels and signalling come back");
        check(all(x, 8, 0xFF) && x[8] == 0xF0, "spare digits come back, with zeros after them");
    } else if (refusal == 2 && c && s && x) {
        check(all(c, channels, 0) && all(s, signalling, 0) && all(x, spare, 0xA5), "nothing is written under a refusal");
    }
    free(m);
    free(c);
    free(s);
    free(x);
}

/* Every length at its border; 2 before 11; silent channels from 16 on. */
static void multiframes(void)
{
    multiframe(512, 480, 15, 9, 0xD5, 0, 0);
    multiframe(512, 480, 15, 9, 0x10, 0, 0);
    multiframe(512, 480, 15, 9, 0x0F, SPRITBOBBIN_REFUSED_SIGNALLING, 1);
    multiframe(511, 480, 15, 9, 0x0F, SPRITBOBBIN_REFUSED_LINE, 0);
    multiframe(513, 480, 15, 9, 0x0F, SPRITBOBBIN_REFUSED_LINE, 0);
    multiframe(512, 479, 15, 9, 0x0F, SPRITBOBBIN_REFUSED_LINE, 0);
    multiframe(512, 481, 15, 9, 0x0F, SPRITBOBBIN_REFUSED_LINE, 0);
    multiframe(512, 480, 14, 9, 0x0F, SPRITBOBBIN_REFUSED_LINE, 0);
    multiframe(512, 480, 16, 9, 0x0F, SPRITBOBBIN_REFUSED_LINE, 0);
    multiframe(512, 480, 15, 8, 0x0F, SPRITBOBBIN_REFUSED_LINE, 0);
    multiframe(512, 480, 15, 10, 0x0F, SPRITBOBBIN_REFUSED_LINE, 0);
    multiframe(0, 0, 0, 0, 0, SPRITBOBBIN_REFUSED_LINE, 0);
}

/* A piece that the finder refuses with this number, and leaves as it was. */
static void refused_hunt(const uint64_t state[4], const uint8_t *piece, size_t piece_bytes, uint64_t first, uint64_t count, uint64_t refusal)
{
    uint64_t left[4], answer[2];

    memcpy(left, state, sizeof left);
    memset(answer, 0xA5, sizeof answer);
    check(spritbobbin_finder_feed(left, piece, piece_bytes, first, count, answer) == refusal, "the refusal of the finder's piece");
    check(all_zero(answer, 2) && !memcmp(left, state, sizeof left), "a refused piece takes nothing and changes nothing");
}

/* Frames of ones with words found after 520 digits, then lost at the third wrong word. */
static void finder(void)
{
    size_t pairs = 5, length = 64 * pairs, i;
    uint8_t *stream = lend(length, 0xFF), *long_one = lend(SPRITBOBBIN_MOST_BYTES + 1, 0);
    uint64_t state[4], answer[2], digits = 8 * length;

    for (i = 0; i < 2; i++)
        stream[64 * i] = 0x9B; /* the other three words are missing */
    check(spritbobbin_finder_fresh(state) == SPRITBOBBIN_ACCEPTED && all_zero(state, 4), "a fresh finder is all zero");
    check(spritbobbin_finder_feed(state, stream, length, 0, 8, answer) == 0 && answer[SPRITBOBBIN_FINDER_TAKEN] == 8, "a word is taken");
    check(state[SPRITBOBBIN_FINDER_MODE] == SPRITBOBBIN_FINDER_WORD_FOUND && state[SPRITBOBBIN_FINDER_PLACE] == 0, "a word is found");
    check(spritbobbin_finder_feed(state, stream, length, 8, SPRITBOBBIN_FINDER_SECOND_PLACE, answer) == 0, "up to the second digit");
    check(state[SPRITBOBBIN_FINDER_MODE] == SPRITBOBBIN_FINDER_SECOND_SEEN && state[SPRITBOBBIN_FINDER_PLACE] == 250, "the second digit is seen");
    check(spritbobbin_finder_feed(state, stream, length, 258, digits - 258, answer) == 0, "up to the second word");
    check(answer[SPRITBOBBIN_FINDER_TAKEN] == 520 - 258 && answer[SPRITBOBBIN_FINDER_IS_ALIGNED] == 1, "found after 520 digits");
    check(state[SPRITBOBBIN_FINDER_MODE] == SPRITBOBBIN_FINDER_ALIGNED && state[SPRITBOBBIN_FINDER_PLACE] == 0, "aligned at the word");
    check(spritbobbin_finder_feed(state, stream, length, 520, digits - 520, answer) == 0, "up to the third wrong word");
    check(answer[SPRITBOBBIN_FINDER_TAKEN] == 3 * SPRITBOBBIN_FINDER_WORD_PLACE && answer[SPRITBOBBIN_FINDER_IS_ALIGNED] == 0, "lost after 2056 digits");
    check(state[SPRITBOBBIN_FINDER_MODE] == SPRITBOBBIN_FINDER_HUNTING && state[SPRITBOBBIN_FINDER_WINDOW] == 127, "hunting, the window kept");

    check(spritbobbin_finder_feed(state, NULL, 0, 0, 0, answer) == 0 && all_zero(answer, 2), "an empty piece");
    refused_hunt(state, stream, length, 1, digits, SPRITBOBBIN_REFUSED_DIGITS);
    refused_hunt(state, stream, length, UINT64_MAX, 2, SPRITBOBBIN_REFUSED_DIGITS);
    refused_hunt(state, long_one, SPRITBOBBIN_MOST_BYTES + 1, 0, 1, SPRITBOBBIN_REFUSED_LINE);
    state[SPRITBOBBIN_FINDER_PLACE] = 1;
    refused_hunt(state, long_one, SPRITBOBBIN_MOST_BYTES + 1, 0, 1, SPRITBOBBIN_REFUSED_STATE);
    free(stream);
    free(long_one);
}

/* A feed that the rack refuses with this number, and that leaves every byte of the list as it was. */
static void refused_line(struct spritbobbin_record *records, size_t number, uint64_t line, const uint8_t *piece, size_t piece_bytes, uint64_t count, uint64_t refusal)
{
    size_t length = number * sizeof *records;
    uint8_t *before = lend(length, 0);
    uint64_t answer[4];

    memset(answer, 0xA5, sizeof answer);
    if (length)
        memcpy(before, records, length);
    check(spritbobbin_rack_feed(records, number, line, piece, piece_bytes, 0, count, answer) == refusal, "the refusal of a line's piece");
    check(all_zero(answer, 4) && (!length || !memcmp(before, records, length)), "a refused piece changes no record");
    free(before);
}

/* Three lines, of which the second is fed and reset; the layout of a record is the library's: it writes each number and the frame where this header has them. */
static void rack(void)
{
    size_t i, bytes = 65 * sizeof(struct spritbobbin_record);
    struct spritbobbin_record *records = (struct spritbobbin_record *)lend(bytes, 0xA5), one;
    uint8_t *stream = lend(4 * 106, 0), *long_one = lend(SPRITBOBBIN_MOST_BYTES + 1, 0);
    uint64_t answer[4], alone[9], told[4];
    uint8_t frame[366];

    check(sizeof one == 440 && offsetof(struct spritbobbin_record, frame) == 72, "a record has 72 bytes of numbers, then 366 of frame, 440 in all");
    for (i = 0; i < 4; i++)
        stream[106 * i] = 0xF4;
    one = records[0];
    check(spritbobbin_rack_reset(records, 3, 1, 2) == 0, "a line is reset, whatever it held");
    check(records[1].state[SPRITBOBBIN_STATE_LEVEL] == 2 && all_zero(records[1].state + 1, 8) && all(records[1].frame, 366, 0), "a fresh record");
    check(!memcmp(&one, &records[0], 438) && !memcmp(&one, &records[2], 438), "a reset changes no other record");
    spritbobbin_receiver_fresh(2, alone, frame);
    check(spritbobbin_rack_feed(records, 3, 1, stream, 424, 0, 3392, answer) == 0, "case 11 on line 1");
    spritbobbin_receiver_feed(alone, frame, stream, 424, 0, 3392, told);
    check(answer[SPRITBOBBIN_TAKEN] == 2544 && answer[SPRITBOBBIN_READY] == 1 && !memcmp(answer, told, sizeof told), "as a receiver alone");
    check(!memcmp(records[1].state, alone, sizeof alone) && !memcmp(records[1].frame, frame, 366) && records[1].frame[0] == 0xF4, "its record is the state and the frame");
    check(!memcmp(&one, &records[0], 438) && !memcmp(&one, &records[2], 438), "a feed changes no other record");
    check(spritbobbin_rack_aligned(records + 1, 1, answer) == 0 && answer[SPRITBOBBIN_RACK_ALIGNED] == 1, "one line is aligned");
    check(spritbobbin_rack_aligned(records, 3, answer) == 0 && answer[0] == 3, "the count asks a mode of 3 or more, and no more");
    check(spritbobbin_rack_aligned(records, 64, answer) == 0 && answer[0] == 64, "64 records are counted");
    check(spritbobbin_rack_aligned(NULL, 0, answer) == 0 && answer[0] == 0, "an empty rack");
    answer[0] = 7;
    check(spritbobbin_rack_aligned(records, 65, answer) == SPRITBOBBIN_REFUSED_LINE && answer[0] == 0, "65 records are not counted");

    one = records[1];
    check(spritbobbin_rack_reset(records, 3, 1, 5) == SPRITBOBBIN_REFUSED_LEVEL && !memcmp(&one, &records[1], 438), "under 1 the record stays");
    check(spritbobbin_rack_reset(records, 65, 65, 5) == SPRITBOBBIN_REFUSED_RACK_LINE, "8 before 2");
    check(spritbobbin_rack_reset(records, 65, 64, 5) == SPRITBOBBIN_REFUSED_LINE, "2 before 1");
    check(spritbobbin_rack_reset(NULL, 0, 0, 2) == SPRITBOBBIN_REFUSED_RACK_LINE, "an empty rack has no line 0");
    refused_line(records, 3, 3, stream, 424, 3393, SPRITBOBBIN_REFUSED_RACK_LINE);
    refused_line(records, 3, UINT64_MAX, stream, 424, 1, SPRITBOBBIN_REFUSED_RACK_LINE);
    refused_line(records, 65, 65, stream, 424, 1, SPRITBOBBIN_REFUSED_RACK_LINE);
    refused_line(records, 65, 0, stream, 424, 1, SPRITBOBBIN_REFUSED_LINE);
    refused_line(records, 64, 0, long_one, SPRITBOBBIN_MOST_BYTES + 1, 1, SPRITBOBBIN_REFUSED_STATE);
    refused_line(records, 64, 1, long_one, SPRITBOBBIN_MOST_BYTES + 1, 1, SPRITBOBBIN_REFUSED_LINE);
    refused_line(records, 64, 1, stream, 424, 3393, SPRITBOBBIN_REFUSED_DIGITS);
    free(records);
    free(stream);
    free(long_one);
}

int main(void)
{
    /* The first two bytes of a frame; then for each of two frames those with control digits, and the one with the positive places. */
    static const uint8_t heads[2][2] = {{0xE6, 0x00}, {0xF4, 0x30}};
    static const uint8_t tails[2][2][4] = {{{0x6F, 0x6F, 0x6E, 0x20}, {0x3F, 0x3F, 0x37, 0x20}},
                                           {{0x60, 0x60, 0x6E, 0x20}, {0x30, 0x30, 0x37, 0x20}}};

    both_ways(2, 106, 1, 1, 0x20, 104, 0);      /* case 1; case 9: a quarter of 26 bytes */
    both_ways(2, 106, 64, 64, 0x20, 6592, 0);   /* case 9: 64 frames */
    both_ways(2, 106, 65, 65, 0x20, 6696, 2);   /* case 9: 65 frames */
    both_ways(2, 105, 1, 1, 0x20, 104, 2);      /* case 9: 105 bytes */
    both_ways(2, 106, 1, 1, 0x20, 100, 4);      /* case 9: a quarter of 25 bytes */
    both_ways(2, 106, 1, 1, 0x40, 100, 4);   /* case 10 */
    both_ways(2, 106, 1, 1, 0x40, 104, 5);   /* reading does not judge old notes */
    both_ways(2, 106, 1, 1, 0x1F, 104, 10);  /* nor do reading and extraction ask for national digits */
    both_ways(2, 106, 1, 2, 0x20, 104, 3);
    both_ways(2, 106, 1, 1, 0x20, 105, 4);
    both_ways(5, 106, 1, 1, 0x20, 104, 1);
    both_ways(UINT64_C(1) << 32 | 2, 106, 1, 1, 0x20, 104, 1);
    both_ways(2, 106, 0, 0, 0, 0, 0);        /* no frames: three null pointers */
    both_ways(4, 366, 0, 0, 0, 3, 4);
    counts_dissent();
    names_the_frame();
    national_digits();
    votes(12, SPRITBOBBIN_FRAME_BYTES_12, SPRITBOBBIN_TRIBUTARY_DIGITS_12, heads[0], tails[0]);
    votes(14, SPRITBOBBIN_FRAME_BYTES_14, SPRITBOBBIN_TRIBUTARY_DIGITS_14, heads[1], tails[1]);
    earlier_vote();
    swaps();
    repairs();
    judgements();
    verdicts();
    two_engines(4, 0xE5, 0xFA, 732, 724);
    two_engines(4, 0xE5, 0xFA, 732, 720);  /* refusal 4 */
    two_engines(7, 0xE5, 0xFA, 732, 724);  /* refusal 1 */
    two_engines(4, 0xE5, 0x9A, 732, 724);  /* refusal 10 */
    two_engines(12, 0x05, 0x0C, 264, 260);
    two_engines(14, 0x05, 0x0C, 544, 540);
    two_engines(14, 0x05, 0x1C, 544, 540); /* refusal 5 */
    receiver();
    finder();
    line_digits();
    copies();
    places();
    beginnings();
    captures();
    comparisons();
    multiframes();
    rack();
    if (failures)
        return 1;
    puts("face: ok");
    return 0;
}

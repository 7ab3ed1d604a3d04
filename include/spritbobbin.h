/*
 * spritbobbin.h: frames of 8448, 34368 and 139264 kbit/s (G.742, G.751), and the older frames of
 * 8448 and 139264 kbit/s with positive/zero/negative justification, built, taken apart, found in a
 * stream of digits, repaired, judged, kept in files and compared.
 *
 * Link with libspritbobbin.a or the shared library, as `pkg-config --cflags --libs spritbobbin`
 * says. Both ask for memcpy, memset and the like and nothing else.
 *
 * No proof reaches this header: a test holds its prototypes to the library's source, and others
 * call every function through it and compare every answer.
 *
 *
 * WORDS
 *
 * level       2 (8448 kbit/s), 3 (34368 kbit/s) or 4 (139264 kbit/s), with positive justification;
 *             12 (8448 kbit/s) or 14 (139264 kbit/s), with positive/zero/negative justification.
 * digit       0 or 1. Digits are packed eight to a byte, the first in the most significant bit.
 * line        F whole frames, one after the other, F from 0 to 64.
 * place       where a digit stands, counted from 0.
 * word        the alignment digits at the head of a frame: the first L places.
 * tributary   one of the four signals that a frame carries, numbered 1 to 4.
 * buffer      the digits of the four tributaries, in four equal quarters, quarter j for
 *             tributary j. A tributary's digits are the first of its quarter and run on from
 *             frame to frame without a gap.
 * note        one byte for each frame: which tributaries are stuffed, and the service digits, of
 *             which the national ones are sent as 1; at levels 12 and 14 the vote of each
 *             tributary, and nothing else.
 * earlier     at levels 12 and 14, the vote of the frame before the first: see below.
 * capture     a file that keeps a line: see spritbobbin_capture_write.
 * rack        a list of receivers, one to a line: see spritbobbin_rack_feed.
 * multiframe  sixteen frames of 32 bytes at 2048 kbit/s: see spritbobbin_multiframe_build.
 *
 *                           level 2   level 3   level 4   level 12   level 14
 *   frame, digits N             848      1536      2928       1056       2176
 *   frame, bytes                106       192       366        132        272
 *   word, digits L               10        10        12          8         10
 *   digits n of a tributary     206       378       723        256        537   in a frame
 *   one fewer if stuffed        205       377       722        255        536
 *   one more                      -         -         -        257        538   by a negative place
 *   room, digits a frame        206       378       723        257        538
 *   remote alarm digit            1         1         1          -          -   in a note
 *   national digits               1         1         3          -          -   in a note
 *   few zeros, at most            4         4         5          2          4   alarm indication
 *
 *
 * LEVELS 12 AND 14
 *
 * Bits 0 to 3 of a note are votes, bit j - 1 for tributary j. A frame acts on its own vote and on
 * that of the frame before it:
 *
 *   both 1      the tributary's positive place is stuffed: n - 1 digits
 *   both 0      its negative place carries a digit too, the one before the positive place's: n + 1
 *   otherwise   only its positive place carries a digit: n
 *
 * The vote before the first frame of a line is the number earlier, 0 to 15, which multiplexing and
 * extraction take; levels 2 to 4 do not look at it. Where a run of frames goes on in the next line,
 * earlier is the last note of this one.
 *
 * Sent as 1: stuffed positive places, negative places that carry nothing, and every service place
 * (four in the second and third group of level 12, two after the word of level 14). What stands
 * there in a line that is read is not looked at, and bits 4 to 7 of the notes read are 0.
 *
 *
 * WHO OWNS WHAT
 *
 * The caller owns all memory. A call borrows what it is lent until it returns and keeps no
 * pointer; nothing is allocated, nothing is kept between calls, there is nothing to free. Calls
 * may run at the same time on memory that is not shared.
 *
 * A slice passes as a pointer and then its length in bytes. The length must be true. A null
 * pointer is allowed only with length 0. The arrays (answer, state, frame) must be there, with
 * as many elements as the prototype says.
 *
 * What one call is lent must not overlap: no two of its slices and arrays may share a byte.
 *
 * Beyond this a call may be given anything: every number and every content has an answer. What
 * is written may hold anything before; digits are put into it one by one, so a tool that tracks
 * memory that was never set may ask that it be cleared first.
 *
 *
 * REFUSALS
 *
 * Each call but spritbobbin_line_digit and spritbobbin_version returns one of these numbers.
 *
 *   0  accepted
 *   1  the level is not 2, 3, 4, 12 or 14
 *   2  the line is not a whole number of frames, or has over 64; for a piece: the slice is over
 *      65,536 bytes; for a multiframe: a slice has not the length that the call asks for; for a
 *      rack: it has over 64 records
 *   3  the notes are not exactly F bytes
 *   4  the buffer's length is not a multiple of 4, or a quarter has fewer digits than F times the
 *      level's room (asked even where frames are stuffed and fewer are needed); for a verdict only
 *      the first of the two
 *   5  multiplexing and extraction: earlier is over 15, at level 12 or 14, and the answer names
 *      frame 0; or a note has a bit set that notes of its level have not, which is bit 6 or 7 at
 *      level 2 or 3, and bits 4 to 7 at level 12 or 14, and the answer names the first such frame,
 *      counted from 0; for a swap, a repair, a judgement or a fresh verdict only the first of the two, and no
 *      frame is named; for a feed of a verdict: next is over 16
 *   6  the receiver state is not valid: a level as under 1, a window of 2 to the L
 *      or more, over L digits seen, a mode over 6, a place of N or more, hunting at a place
 *      other than 0, not hunting with fewer than L digits seen, N or more digits in the
 *      stretch, more zeros than digits there, or a number for yes or no that is over 1; for the
 *      finder of 2048 kbit/s frames: see spritbobbin_finder_feed; for a verdict: the state is none
 *      that spritbobbin_verdict_fresh and feeds make, as far as that can be told
 *   7  first + count is more than the digits of the slice, for a copy of either slice, or of the
 *      lines that are compared; for where a recording begins: see spritbobbin_begins; for what a
 *      place is: there is no such place
 *   8  a rack: it has no line of this number
 *   9  writing a capture: the label is over 32 bytes; reading one: the bytes are no run of a
 *      capture's fields, and the answer names the byte where the field at fault begins or should
 *      begin, counted from 0
 *  10  multiplexing, levels 2 to 4: a note has not all national digits of its level 1, which are
 *      bit 5, and at level 4 bits 5, 6 and 7; the answer names the first such frame, counted from 0
 *  11  building a multiframe: the signalling of one of channels 1 to 15 is 0000; the answer names
 *      the first such channel
 *  12  a swap: the tributary is not 1, 2, 3 or 4
 *  13  a judgement or a fresh verdict: the pattern is not 0, 15 or 23
 *
 * For a capture 4 means that the file's buffer is shorter than the file; for a swap, that the
 * buffer has fewer digits than F times the level's room.
 *
 * Where several apply, the first in this order is returned: 1, 2, 3, 4, 5, 10 for multiplexing (5
 * in any note before 10 in any); 1, 2, 3, 4, 5 for extraction; 1, 12, 2, 3, 4, 5 for a swap; 1, 2, 5
 * for a repair; 1, 13, 2, 4, 5 for a judgement; 1, 13, 5 for a fresh verdict and 6, 2, 4, 5 for its
 * feeds; 6, 2, 7 for a piece; 1, 2, 9, 4 for writing a capture, 9, 1, 2 for reading one; 2, 11 for
 * building a multiframe; for comparisons see spritbobbin_compare and the two behind it; for a rack
 * 8, 2 and then as a piece, or 1 for a reset.
 *
 * A refused call writes nothing that it was lent, but the answer: all its numbers are 0, except the
 * named frame under 5 and 10, the named byte under 9, the named channel under 11 and the file at
 * fault of a comparison. (A fresh state is an answer too.)
 *
 *
 * EXAMPLE
 *
 * Builds a frame, takes it apart, and finds it in a stream that repeats it.
 *
 *     #include <stdio.h>
 *     #include <string.h>
 *     #include "spritbobbin.h"
 *
 *     #define QUARTER SPRITBOBBIN_QUARTER_BYTES(1, SPRITBOBBIN_ROOM_DIGITS_2)
 *     #define FRAME SPRITBOBBIN_FRAME_BYTES_2
 *
 *     static void receive(const uint8_t *bytes, size_t length)
 *     {
 *         uint64_t state[9], answer[4], first = 0, digits = 8 * (uint64_t)length;
 *         uint8_t frame[366];
 *
 *         spritbobbin_receiver_fresh(2, state, frame);
 *         while (first < digits) {
 *             if (spritbobbin_receiver_feed(state, frame, bytes, length,
 *                                           first, digits - first, answer) != 0)
 *                 return;
 *             first += answer[SPRITBOBBIN_RECEIVER_TAKEN];
 *             if (answer[SPRITBOBBIN_RECEIVER_READY])
 *                 printf("a frame ends after digit %u\n", (unsigned)first);
 *         }
 *     }
 *
 *     int main(void)
 *     {
 *         uint8_t line[FRAME] = {0}, stream[4 * FRAME], buffer[4 * QUARTER] = {0};
 *         uint8_t notes[1] = {SPRITBOBBIN_STUFFED_1 | SPRITBOBBIN_NATIONAL_1};
 *         uint64_t sent[5], noted[5], taken[5];
 *         int i;
 *
 *         buffer[1 * QUARTER] = 0x80; // the first digit of tributary 2
 *         if (spritbobbin_multiplex(2, 0, line, sizeof line, notes, sizeof notes,
 *                                   buffer, sizeof buffer, sent) != SPRITBOBBIN_ACCEPTED)
 *             return 1;
 *         printf("tributary 1 sent %u digits\n", (unsigned)sent[0]);
 *
 *         if (spritbobbin_read_notes(2, line, sizeof line, notes, sizeof notes, noted) != SPRITBOBBIN_ACCEPTED)
 *             return 1;
 *         if (spritbobbin_extract(2, 0, line, sizeof line, notes, sizeof notes,
 *                                 buffer, sizeof buffer, taken) != SPRITBOBBIN_ACCEPTED)
 *             return 1;
 *         printf("%u alignment digits differ\n", (unsigned)noted[SPRITBOBBIN_READ_NOTES_ALIGNMENT]);
 *
 *         for (i = 0; i < 4; i++)
 *             memcpy(stream + i * FRAME, line, FRAME);
 *         receive(stream, sizeof stream);
 *         return 0;
 *     }
 */
#ifndef SPRITBOBBIN_H
#define SPRITBOBBIN_H

#include <stddef.h>
#include <stdint.h>

#ifdef __cplusplus
extern "C" {
#endif

/* Refusal numbers. */
enum {
    SPRITBOBBIN_ACCEPTED = 0,
    SPRITBOBBIN_REFUSED_LEVEL = 1,
    SPRITBOBBIN_REFUSED_LINE = 2, /* for a piece: its slice */
    SPRITBOBBIN_REFUSED_NOTES = 3,
    SPRITBOBBIN_REFUSED_BUFFER = 4,
    SPRITBOBBIN_REFUSED_NOTE_BITS = 5,
    SPRITBOBBIN_REFUSED_STATE = 6,
    SPRITBOBBIN_REFUSED_DIGITS = 7,
    SPRITBOBBIN_REFUSED_RACK_LINE = 8,
    SPRITBOBBIN_REFUSED_FIELD = 9,
    SPRITBOBBIN_REFUSED_NATIONAL = 10,
    SPRITBOBBIN_REFUSED_SIGNALLING = 11,
    SPRITBOBBIN_REFUSED_TRIBUTARY = 12,
    SPRITBOBBIN_REFUSED_PATTERN = 13
};

/* The version of this header; spritbobbin_version answers that of the library. */
#define SPRITBOBBIN_VERSION_MAJOR 0
#define SPRITBOBBIN_VERSION_MINOR 2
#define SPRITBOBBIN_VERSION_PATCH 0
#define SPRITBOBBIN_VERSION \
    (SPRITBOBBIN_VERSION_MAJOR * 1000000 + SPRITBOBBIN_VERSION_MINOR * 1000 + SPRITBOBBIN_VERSION_PATCH)

/* Sizes, by level where they differ. */
enum {
    SPRITBOBBIN_FRAME_DIGITS_2 = 848,
    SPRITBOBBIN_FRAME_DIGITS_3 = 1536,
    SPRITBOBBIN_FRAME_DIGITS_4 = 2928,
    SPRITBOBBIN_FRAME_DIGITS_12 = 1056,
    SPRITBOBBIN_FRAME_DIGITS_14 = 2176,
    SPRITBOBBIN_FRAME_BYTES_2 = 106,
    SPRITBOBBIN_FRAME_BYTES_3 = 192,
    SPRITBOBBIN_FRAME_BYTES_4 = 366,
    SPRITBOBBIN_FRAME_BYTES_12 = 132,
    SPRITBOBBIN_FRAME_BYTES_14 = 272,
    SPRITBOBBIN_TRIBUTARY_DIGITS_2 = 206, /* n: in a frame that is not stuffed, without negative places */
    SPRITBOBBIN_TRIBUTARY_DIGITS_3 = 378,
    SPRITBOBBIN_TRIBUTARY_DIGITS_4 = 723,
    SPRITBOBBIN_TRIBUTARY_DIGITS_12 = 256,
    SPRITBOBBIN_TRIBUTARY_DIGITS_14 = 537,
    SPRITBOBBIN_ROOM_DIGITS_2 = 206, /* that a quarter must have for each frame */
    SPRITBOBBIN_ROOM_DIGITS_3 = 378,
    SPRITBOBBIN_ROOM_DIGITS_4 = 723,
    SPRITBOBBIN_ROOM_DIGITS_12 = 257,
    SPRITBOBBIN_ROOM_DIGITS_14 = 538,
    SPRITBOBBIN_MOST_EARLIER = 15,       /* the largest earlier vote of levels 12 and 14 */
    SPRITBOBBIN_FRAME_STORE_BYTES = 366, /* the receiver's frame in hand, at every level */
    SPRITBOBBIN_MOST_FRAMES = 64,        /* in a line */
    SPRITBOBBIN_MOST_BYTES = 65536,      /* in a piece, or in a line that is read digit by digit */
    SPRITBOBBIN_MOST_LABEL_BYTES = 32,   /* in a capture */
    SPRITBOBBIN_MULTIFRAME_BYTES = 512,
    SPRITBOBBIN_MULTIFRAME_DIGITS = 4096,
    SPRITBOBBIN_CHANNELS_BYTES = 480,  /* of a multiframe: sixteen for each of thirty channels */
    SPRITBOBBIN_SIGNALLING_BYTES = 15, /* of a multiframe */
    SPRITBOBBIN_SPARE_BYTES = 9        /* of a multiframe: 68 digits */
};

/* The fewest bytes of a quarter for so many frames, room_digits being the room of the level. The
   buffer is four times as long, but that of a swap, which is one tributary's. */
#define SPRITBOBBIN_QUARTER_BYTES(frames, room_digits) \
    (((frames) * (room_digits) + 7) / 8)

/* The bytes of a capture of a line of so many bytes, without a label and with one. */
#define SPRITBOBBIN_CAPTURE_BYTES(line_bytes) (7 + (line_bytes))
#define SPRITBOBBIN_LABELLED_CAPTURE_BYTES(line_bytes, label_bytes) (10 + (line_bytes) + (label_bytes))

/* The bits of a note. The first four are the votes of levels 12 and 14, and of the earlier vote too. */
enum {
    SPRITBOBBIN_STUFFED_1 = 1, /* tributary 1 is stuffed in this frame */
    SPRITBOBBIN_STUFFED_2 = 2,
    SPRITBOBBIN_STUFFED_3 = 4,
    SPRITBOBBIN_STUFFED_4 = 8,
    SPRITBOBBIN_REMOTE_ALARM = 16, /* levels 2 to 4: the remote alarm digit is 1 */
    SPRITBOBBIN_NATIONAL_1 = 32,   /* levels 2 to 4: the first national digit is 1, as it is sent */
    SPRITBOBBIN_NATIONAL_2 = 64,   /* level 4 only */
    SPRITBOBBIN_NATIONAL_3 = 128   /* level 4 only */
};

/* What stands where in the answer of a comparison: the sums, by the kind of place, tributary being
   1 to 4. */
enum {
    SPRITBOBBIN_FAULTY_FILE = 0,       /* 1 or 2, or 0 where the two do not fit each other */
    SPRITBOBBIN_FAULTY_BYTE = 1,       /* the byte that refusal 9 names */
    SPRITBOBBIN_SUMS = 2,              /* where the sums begin: two lines and a stretch have them at 0 */
    SPRITBOBBIN_WORD_DIFFERS = 2,
    SPRITBOBBIN_REMOTE_ALARM_DIFFERS = 3,
    SPRITBOBBIN_NATIONAL_DIFFERS = 4,  /* at levels 12 and 14: all service digits */
    SPRITBOBBIN_ALL_DIFFER = 17,
    SPRITBOBBIN_LISTED = 18,
    SPRITBOBBIN_MOST_LISTED = 64
};
#define SPRITBOBBIN_CONTROL_DIFFERS(tributary) (2 + 3 * (tributary))
#define SPRITBOBBIN_JUSTIFICATION_DIFFERS(tributary) (3 + 3 * (tributary))
#define SPRITBOBBIN_ORDINARY_DIFFERS(tributary) (4 + 3 * (tributary))

/* How many numbers the answer of each call has. */
#define SPRITBOBBIN_MULTIPLEX_ANSWER 5
#define SPRITBOBBIN_READ_NOTES_ANSWER 5
#define SPRITBOBBIN_EXTRACT_ANSWER 5
#define SPRITBOBBIN_SWAP_ANSWER 1
#define SPRITBOBBIN_REPAIR_ANSWER 10
#define SPRITBOBBIN_JUDGE_ANSWER 20
#define SPRITBOBBIN_VERDICT_ANSWER 88
#define SPRITBOBBIN_RECEIVER_ANSWER 4
#define SPRITBOBBIN_RACK_ALIGNED_ANSWER 1
#define SPRITBOBBIN_FINDER_ANSWER 2
#define SPRITBOBBIN_CAPTURE_WRITE_ANSWER 2
#define SPRITBOBBIN_CAPTURE_READ_ANSWER 7
#define SPRITBOBBIN_COMPARE_ANSWER 19
#define SPRITBOBBIN_COMPARE_PLACES 128
#define SPRITBOBBIN_COMPARE_LINES_ANSWER 17
#define SPRITBOBBIN_COMPARE_STRETCH_ANSWER 16
#define SPRITBOBBIN_MULTIFRAME_BUILD_ANSWER 1
#define SPRITBOBBIN_MULTIFRAME_START_ANSWER 1
#define SPRITBOBBIN_PLACE_ANSWER 2
#define SPRITBOBBIN_MULTIFRAME_PLACE_ANSWER 2
#define SPRITBOBBIN_BEGINS_ANSWER 2
/* And how many the states of a receiver, of a finder and of a verdict have. */
#define SPRITBOBBIN_RECEIVER_STATE 9
#define SPRITBOBBIN_FINDER_STATE 4
#define SPRITBOBBIN_VERDICT_STATE 683

/* What stands where in the answers, by the call; tributary is 1 to 4. */
#define SPRITBOBBIN_MULTIPLEX_DIGITS(tributary) ((tributary) - 1)
#define SPRITBOBBIN_EXTRACT_DIGITS(tributary) ((tributary) - 1)
#define SPRITBOBBIN_READ_NOTES_DISSENT(tributary) (tributary) /* its dissenting digits */
#define SPRITBOBBIN_REPAIR_CONTROL(tributary) (tributary)
#define SPRITBOBBIN_REPAIR_STUFFING(tributary) (4 + (tributary))
enum {
    SPRITBOBBIN_MULTIPLEX_NAMED_FRAME = 4, /* under 5 and 10 */
    SPRITBOBBIN_EXTRACT_NAMED_FRAME = 4,   /* under 5 */
    SPRITBOBBIN_READ_NOTES_ALIGNMENT = 0,  /* alignment digits that differ from the word */
    SPRITBOBBIN_SWAP_TAKEN = 0,            /* digits taken from the buffer */
    SPRITBOBBIN_REPAIR_WORD = 0,           /* alignment digits changed */
    SPRITBOBBIN_REPAIR_NATIONAL = 9,       /* national digits changed */
    SPRITBOBBIN_RECEIVER_TAKEN = 0,        /* digits taken; so in a rack's feed, as the next three */
    SPRITBOBBIN_RECEIVER_READY = 1,        /* 1 if a frame is ready */
    SPRITBOBBIN_RECEIVER_ALARM = 2,        /* 1 if alarm indication stands at the end */
    SPRITBOBBIN_RECEIVER_WORDS = 3,        /* words tested */
    SPRITBOBBIN_RACK_ALIGNED_LINES = 0,    /* lines in mode aligned */
    SPRITBOBBIN_CAPTURE_WRITE_BYTES = 0,   /* bytes of the file */
    SPRITBOBBIN_CAPTURE_WRITE_NAMED_BYTE = 1, /* 0, under 9 too */
    SPRITBOBBIN_CAPTURE_READ_LEVEL = 0,
    SPRITBOBBIN_CAPTURE_READ_LINE_START = 1, /* the line's first byte in the file */
    SPRITBOBBIN_CAPTURE_READ_LINE_BYTES = 2, /* how many it has */
    SPRITBOBBIN_CAPTURE_READ_LABELLED = 3,   /* 1 if there is a label */
    SPRITBOBBIN_CAPTURE_READ_LABEL_START = 4, /* the label's first byte in the file */
    SPRITBOBBIN_CAPTURE_READ_LABEL_BYTES = 5, /* how many it has */
    SPRITBOBBIN_CAPTURE_READ_NAMED_BYTE = 6, /* under 9: where the field at fault begins or should begin */
    SPRITBOBBIN_MULTIFRAME_BUILD_NAMED_CHANNEL = 0 /* under 11 */
};

/* What a place of a frame is: the first number of the answer of spritbobbin_place. */
enum {
    SPRITBOBBIN_PLACE_WORD = 0,
    SPRITBOBBIN_PLACE_REMOTE_ALARM = 1,
    SPRITBOBBIN_PLACE_SERVICE = 2, /* national, or other service */
    SPRITBOBBIN_PLACE_CONTROL = 3,
    SPRITBOBBIN_PLACE_JUSTIFICATION = 4, /* at levels 12 and 14 a positive place */
    SPRITBOBBIN_PLACE_NEGATIVE = 5,      /* levels 12 and 14 only */
    SPRITBOBBIN_PLACE_ORDINARY = 6
};

/* What a place of a multiframe is: the first number of the answer of spritbobbin_multiframe_place. */
enum {
    SPRITBOBBIN_MULTIFRAME_WORD = 0,          /* 0011011, in byte 0 of even frames */
    SPRITBOBBIN_MULTIFRAME_SECOND = 1,        /* the second digit of byte 0 of odd frames, 1 */
    SPRITBOBBIN_MULTIFRAME_START = 2,         /* 0000, in byte 16 of frame 0 */
    SPRITBOBBIN_MULTIFRAME_INTERNATIONAL = 3, /* M: reserved for international use */
    SPRITBOBBIN_MULTIFRAME_ALARM = 4,         /* A */
    SPRITBOBBIN_MULTIFRAME_NATIONAL = 5,      /* N: for use at home */
    SPRITBOBBIN_MULTIFRAME_X = 6,
    SPRITBOBBIN_MULTIFRAME_Y = 7, /* the alarm of the multiframe */
    SPRITBOBBIN_MULTIFRAME_SIGNALLING = 8,
    SPRITBOBBIN_MULTIFRAME_CHANNEL = 9
};

/* The same by their names of version 0.1, some of which do not say whose they are. They stay. */
#define SPRITBOBBIN_CONTROL_REPAIRED SPRITBOBBIN_REPAIR_CONTROL
#define SPRITBOBBIN_STUFFING_REPAIRED SPRITBOBBIN_REPAIR_STUFFING
enum {
    SPRITBOBBIN_NAMED_FRAME = SPRITBOBBIN_MULTIPLEX_NAMED_FRAME,
    SPRITBOBBIN_ALIGNMENT = SPRITBOBBIN_READ_NOTES_ALIGNMENT,
    SPRITBOBBIN_DISSENT = SPRITBOBBIN_READ_NOTES_DISSENT(1),
    SPRITBOBBIN_SWAPPED = SPRITBOBBIN_SWAP_TAKEN,
    SPRITBOBBIN_WORD_REPAIRED = SPRITBOBBIN_REPAIR_WORD,
    SPRITBOBBIN_NATIONAL_REPAIRED = SPRITBOBBIN_REPAIR_NATIONAL,
    SPRITBOBBIN_TAKEN = SPRITBOBBIN_RECEIVER_TAKEN,
    SPRITBOBBIN_READY = SPRITBOBBIN_RECEIVER_READY,
    SPRITBOBBIN_ALARM = SPRITBOBBIN_RECEIVER_ALARM,
    SPRITBOBBIN_WORDS = SPRITBOBBIN_RECEIVER_WORDS,
    SPRITBOBBIN_FILE_BYTES = SPRITBOBBIN_CAPTURE_WRITE_BYTES,
    SPRITBOBBIN_FILE_LEVEL = SPRITBOBBIN_CAPTURE_READ_LEVEL,
    SPRITBOBBIN_LINE_START = SPRITBOBBIN_CAPTURE_READ_LINE_START,
    SPRITBOBBIN_LINE_BYTES = SPRITBOBBIN_CAPTURE_READ_LINE_BYTES,
    SPRITBOBBIN_LABELLED = SPRITBOBBIN_CAPTURE_READ_LABELLED,
    SPRITBOBBIN_LABEL_START = SPRITBOBBIN_CAPTURE_READ_LABEL_START,
    SPRITBOBBIN_LABEL_BYTES = SPRITBOBBIN_CAPTURE_READ_LABEL_BYTES,
    SPRITBOBBIN_RACK_ALIGNED = SPRITBOBBIN_RACK_ALIGNED_LINES,
    SPRITBOBBIN_NAMED_CHANNEL = SPRITBOBBIN_MULTIFRAME_BUILD_NAMED_CHANNEL,
    SPRITBOBBIN_NAMED_BYTE = SPRITBOBBIN_CAPTURE_READ_NAMED_BYTE
};

/* What was sent into the tributaries of a line that is judged. */
enum {
    SPRITBOBBIN_DIGITS_SENT = 0, /* the digits of the buffer's quarters */
    SPRITBOBBIN_PATTERN_15 = 15, /* the pseudo-random pattern of 2^15 - 1 digits, inverted */
    SPRITBOBBIN_PATTERN_23 = 23  /* that of 2^23 - 1 digits, inverted */
};

/* What stands where in the answer of a judgement, tributary being 1 to 4, and the readings that fit,
   which are added up. */
#define SPRITBOBBIN_FITS(tributary) (5 * (tributary) - 5)
#define SPRITBOBBIN_WRONG_BY_OWN(tributary) (5 * (tributary) - 4)
#define SPRITBOBBIN_WRONG_BY_BEFORE(tributary) (5 * (tributary) - 3)
#define SPRITBOBBIN_WRONG_BY_AFTER(tributary) (5 * (tributary) - 2)
#define SPRITBOBBIN_CHANGES(tributary) (5 * (tributary) - 1)
enum {
    SPRITBOBBIN_FITS_BY_OWN = 1,
    SPRITBOBBIN_FITS_BY_BEFORE = 2, /* the frame index is late */
    SPRITBOBBIN_FITS_BY_AFTER = 4   /* it is early */
};

/* What stands where in the answer of a verdict, tributary being 1 to 4 and reading one of the three. */
enum {
    SPRITBOBBIN_VERDICT_OWN = 0,    /* read by the decision of its own frame */
    SPRITBOBBIN_VERDICT_BEFORE = 1, /* of the frame before: the frame index is late */
    SPRITBOBBIN_VERDICT_AFTER = 2,  /* of the frame after: it is early */
    SPRITBOBBIN_VERDICT_SLIP = 16,  /* what a slip costs, in wrong digits */
    SPRITBOBBIN_VERDICT_NEXT_UNKNOWN = 16 /* next, where the vote of the next frame is not known */
};
#define SPRITBOBBIN_VERDICT_CHANGES(tributary) (22 * (tributary) - 22)
#define SPRITBOBBIN_VERDICT_DIGITS(tributary, reading) (22 * (tributary) - 21 + 7 * (reading)) /* read */
#define SPRITBOBBIN_VERDICT_UNJUDGED(tributary, reading) (22 * (tributary) - 20 + 7 * (reading)) /* before the pattern */
#define SPRITBOBBIN_VERDICT_RIGHT(tributary, reading) (22 * (tributary) - 19 + 7 * (reading)) /* before the first that differs */
#define SPRITBOBBIN_VERDICT_WRONG(tributary, reading) (22 * (tributary) - 18 + 7 * (reading))
#define SPRITBOBBIN_VERDICT_SLIPS(tributary, reading) (22 * (tributary) - 17 + 7 * (reading))
#define SPRITBOBBIN_VERDICT_SHIFT(tributary, reading) (22 * (tributary) - 16 + 7 * (reading)) /* as int64_t */
#define SPRITBOBBIN_VERDICT_ENTERED(tributary, reading) (22 * (tributary) - 15 + 7 * (reading))

#if defined(__cplusplus) && __cplusplus >= 201103L
static_assert(SPRITBOBBIN_VERDICT_ENTERED(4, SPRITBOBBIN_VERDICT_AFTER) + 1 == SPRITBOBBIN_VERDICT_ANSWER, "an answer ends with its last number");
#elif defined(__STDC_VERSION__) && __STDC_VERSION__ >= 201112L
_Static_assert(SPRITBOBBIN_VERDICT_ENTERED(4, SPRITBOBBIN_VERDICT_AFTER) + 1 == SPRITBOBBIN_VERDICT_ANSWER, "an answer ends with its last number");
#endif

/* What stands where in a receiver's state, and the mode numbers. */
enum {
    SPRITBOBBIN_STATE_LEVEL = 0,
    SPRITBOBBIN_STATE_WINDOW = 1, /* the last L digits as a number, the newest worth 1 */
    SPRITBOBBIN_STATE_SEEN = 2,   /* digits since the fresh state, stopping at L */
    SPRITBOBBIN_STATE_MODE = 3,
    SPRITBOBBIN_STATE_PLACE = 4,
    SPRITBOBBIN_STATE_DIGITS = 5, /* digits of the stretch, fewer than a frame has */
    SPRITBOBBIN_STATE_ZEROS = 6,  /* the zeros among them */
    SPRITBOBBIN_STATE_FEW = 7,    /* 1 if the stretch before had few zeros, else 0 */
    SPRITBOBBIN_STATE_ALARM = 8,  /* 1 if alarm indication stands, else 0 */
    SPRITBOBBIN_HUNTING = 0,
    SPRITBOBBIN_ONE_FOUND = 1,
    SPRITBOBBIN_TWO_FOUND = 2,
    SPRITBOBBIN_ALIGNED = 3 /* 3 + m: aligned, with the last m words missed, m from 0 to 3 */
};

/*
 * Builds the frames of a line out of four tributaries.
 *
 * Reads the notes and the buffer and writes the whole line. F is line_bytes divided by the
 * frame's bytes. Where a note says stuffed, the tributary's justification digit is sent as 1 and
 * its next digit takes its next place; so with s notes that stuff it a tributary sends
 * F * n - s digits, the first so many of its quarter. At levels 12 and 14 it sends F * n digits,
 * less the stuffed, plus those of negative places (above). Further digits are not looked at.
 *
 * National digits are retired: at levels 2 to 4 every note must have them all 1. Reading still
 * reports them as they came, and extraction and a swap take notes of any kind.
 *
 * answer: the four digit counts, the named frame. Returns 0, 1, 2, 3, 4, 5 or 10.
 */
uint64_t spritbobbin_multiplex(uint64_t level, uint64_t earlier, uint8_t *line, size_t line_bytes,
                               const uint8_t *notes, size_t notes_bytes,
                               const uint8_t *buffer, size_t buffer_bytes, uint64_t answer[SPRITBOBBIN_MULTIPLEX_ANSWER]);

/*
 * Reads the notes of a line, from a known start: the line begins with a frame.
 *
 * Reads the line and writes all notes. Whether a tributary is stuffed, or at levels 12 and 14 its
 * vote, is the majority of its control digits in the same frame. Wrong alignment digits are counted
 * and never refused.
 *
 * answer: the alignment digits that differ from the word over all frames, then for each tributary
 * its dissenting digits: how many of its control digits differ from the majority of their own
 * group, over all frames. Returns 0, 1, 2 or 3.
 */
uint64_t spritbobbin_read_notes(uint64_t level, const uint8_t *line, size_t line_bytes, uint8_t *notes, size_t notes_bytes,
                                uint64_t answer[SPRITBOBBIN_READ_NOTES_ANSWER]);

/*
 * Takes the tributaries out of a line by the notes that are given: those that were read from it, or
 * others, such as the same shifted by a frame. Looks at no control digit.
 *
 * Reads the line and the notes and writes the whole buffer: each tributary's digits, then zeros to
 * the end of its quarter. Where a note says stuffed, the justification digit is left out; at levels
 * 12 and 14 each note and the one before it say what is left out, the first note and earlier.
 *
 * answer: the four digit counts, the named frame. Returns 0, 1, 2, 3, 4 or 5, as multiplexing does,
 * and never 10.
 */
uint64_t spritbobbin_extract(uint64_t level, uint64_t earlier, const uint8_t *line, size_t line_bytes,
                             const uint8_t *notes, size_t notes_bytes,
                             uint8_t *buffer, size_t buffer_bytes, uint64_t answer[SPRITBOBBIN_EXTRACT_ANSWER]);

/*
 * Swaps one tributary of a line in place: rewrites its control, justification and ordinary places,
 * negative ones too, from new digits and new decisions, and touches no other digit.
 *
 * tributary is its number j, 1 to 4. Of each note only bit j - 1 is looked at, and of earlier, at
 * levels 12 and 14, only bit j - 1; any other bits are allowed, but earlier may not be over 15. The
 * buffer has the one tributary's digits, from its first byte on; its length need be no multiple of
 * 4. A place that carries nothing is written as 1. What its places held is not looked at.
 *
 * A line that multiplexing made becomes what multiplexing makes of the new four, with their notes,
 * and with bit j - 1 of earlier from this call and the others from that one. Two tributaries may be
 * swapped in either order; for one tributary twice the last call stands.
 *
 * answer: digits taken. Returns 0, 1, 12, 2, 3, 4 or 5.
 */
uint64_t spritbobbin_swap(uint64_t level, uint64_t earlier, uint64_t tributary, uint8_t *line, size_t line_bytes,
                          const uint8_t *notes, size_t notes_bytes,
                          const uint8_t *buffer, size_t buffer_bytes, uint64_t answer[SPRITBOBBIN_SWAP_ANSWER]);

/*
 * Repairs a worn line in place: sets alignment digits to the word, the control digits of each group
 * to their majority, and stuffing digits to 1. A stuffing digit is one of a justification place, or
 * of a negative one, that carries nothing by the majorities of the line as it came: in the same
 * frame, and at levels 12 and 14 in the frame before it too, which is earlier for frame 0. Service
 * digits and digits of tributaries stay, but for this: where national is not 0, the national digits
 * of levels 2 to 4 are set to 1 too. At levels 12 and 14 that does nothing, and is not refused.
 *
 * The notes read from the result are those read from the line before, but for the national digits that
 * were asked for, and so are the tributaries, with the same earlier. A second call changes nothing. A
 * line that multiplexing made with the same earlier comes back exactly as it was sent, if nothing else
 * was damaged than alignment and stuffing digits, and of each control group fewer than half; with
 * national, national digits too.
 *
 * answer: how many digits were changed: alignment digits, then the control digits of tributaries 1
 * to 4, then the stuffing digits of tributaries 1 to 4, then national digits. Returns 0, 1, 2 or 5.
 */
uint64_t spritbobbin_repair(uint64_t level, uint64_t earlier, uint64_t national, uint8_t *line, size_t line_bytes,
                            uint64_t answer[SPRITBOBBIN_REPAIR_ANSWER]);

/*
 * Judges a line by what was sent into its tributaries: did the clock move, or the frame index?
 *
 * Each tributary is read in three ways: by the decision of its own frame, of the frame before (a
 * multiplexer whose index is late) and of the frame after (early). The decisions are the majorities
 * of the line. At levels 12 and 14 a reading shifts both votes that a frame acts on: by the frame
 * before, frame f acts on the votes of f - 1 and f - 2. The vote before frame 0 is earlier there; at
 * levels 2 to 4 it is not looked at. A decision that the line does not hold, before its first frame
 * or after its last, is tried both ways, and the fewer wrong digits count.
 *
 * pattern 0: the buffer's quarters hold the digits sent, beginning with the line's first frame, and a
 * wrong digit is one of the reading that is not the digit sent at its number. pattern 15 or 23: a test
 * set's pseudo-random pattern of O.150 was sent, inverted, from any phase; the buffer is not looked at.
 * A wrong digit is then one after the first 15 (23) that is not 1 xor the digits read 14 and 15 (18
 * and 23) before it. A reading without wrong digits fits.
 *
 * A line that multiplexing made of these digits fits by its own frame, with any alignment, service and
 * stuffing digits damaged and fewer than half of each control group. Where a decision never changes
 * (nor, at levels 12 and 14, differs from earlier), what fits by its own frame fits by all three and
 * nothing can be told; where it alternates from frame to frame all the time, the frames before and
 * after decide alike, and late cannot be told from early. A line without frames fits by all.
 *
 * answer: for each tributary which readings fit (1 own, 2 before, 4 after, added up), wrong digits by
 * its own frame, by the frame before, by the frame after, and in how many frames the decision differs
 * from that of the frame before, the first frame not counted. Returns 0, 1, 13, 2, 4 (pattern 0
 * only: as for extraction) or 5.
 */
uint64_t spritbobbin_judge(uint64_t level, uint64_t earlier, const uint8_t *line, size_t line_bytes, uint64_t pattern,
                           const uint8_t *buffer, size_t buffer_bytes, uint64_t answer[SPRITBOBBIN_JUDGE_ANSWER]);

/*
 * Makes a fresh verdict on a recording of any length, before its first frame.
 *
 * earlier: at levels 12 and 14 the vote of the frame before the first; at levels 2 to 4 it is not
 * looked at. pattern: what was sent, as for spritbobbin_judge: 0 for the digits that each feed is
 * lent, 15 or 23 for a test set's pattern.
 *
 * Writes all of state, whose layout is the library's own. It may be copied and put back. Returns 0,
 * or 1, 13 or 5; the state is then all zero and a feed refuses it with 6.
 */
uint64_t spritbobbin_verdict_fresh(uint64_t level, uint64_t earlier, uint64_t pattern, uint64_t state[SPRITBOBBIN_VERDICT_STATE]);

/*
 * Gives a verdict the next frames of the recording, 0 to 64 whole ones, and says what the recording so
 * far comes to: did the clock move, or the frame index?
 *
 * Each tributary is read in three ways as by spritbobbin_judge, and each reading is explained as
 * cheaply as possible by wrong digits and by slips, where the tributary lost a digit or doubled one. A
 * path gives each digit read a shift, from 0 on: digit i is held against the digit sent of number
 * i + shift. It costs 1 for each digit that differs and 16 for each step of the shift by one, and keeps
 * within 8 of the middle of its frame; the middle of the next frame is then the cheapest shift at the
 * end of this one. Of the paths that cost least the one with the fewest slips is told. So wrong digits
 * and slips say which multiplexer made the line: a slip of the clock is in every reading, and a reading
 * by the wrong frame slips at every change of decision.
 *
 * next: the vote of the frame after these (0 to 15), or 16 where it is not known, as at the end of the
 * recording; the last frame's reading by the frame after is then tried both ways. sent: four equal
 * quarters of any length, each beginning with digit number first of its tributary; a sent digit that is
 * not lent differs. With a pattern sent is not looked at, and a reading is judged from the first digit p
 * on such that the 64 digits after the 15 (23) from p on all meet the recurrence.
 *
 * Calls in turn are one call on all their frames: feeds may be cut anywhere between two frames.
 *
 * answer: 22 numbers for each tributary. In how many frames of all fed the decision differs from the
 * frame before; then seven for each reading (own, before, after): digits read; digits before the
 * pattern was taken up (all of them while it is not, and then the rest is 0); digits right from the first
 * judged one on, each beside the sent digit of its own number, before the first that differs; wrong
 * digits; slips; the shift (an int64_t, in two's complement); the number of the digit at which this shift
 * was last entered, 0 if it never was. Returns 0, or 6, 2, 4 (pattern 0 only: sent_bytes is not a multiple
 * of 4) or 5 (next is over 16); the state is then as it was.
 */
uint64_t spritbobbin_verdict_feed(uint64_t state[SPRITBOBBIN_VERDICT_STATE], const uint8_t *line, size_t line_bytes, uint64_t next,
                                  const uint8_t *sent, size_t sent_bytes, uint64_t first, uint64_t answer[SPRITBOBBIN_VERDICT_ANSWER]);

/*
 * The plain engine: a second engine that goes digit by digit and shares only the level table with
 * the one that multiplexes, reads notes and extracts above. It takes the same arguments, and gives the same answers, slices and refusals on
 * every input, which is proved; it is slower. For approvals, and to hold one beside the other.
 */
uint64_t spritbobbin_plain_multiplex(uint64_t level, uint64_t earlier, uint8_t *line, size_t line_bytes,
                                     const uint8_t *notes, size_t notes_bytes,
                                     const uint8_t *buffer, size_t buffer_bytes, uint64_t answer[SPRITBOBBIN_MULTIPLEX_ANSWER]);

uint64_t spritbobbin_plain_read_notes(uint64_t level, const uint8_t *line, size_t line_bytes, uint8_t *notes, size_t notes_bytes,
                                      uint64_t answer[SPRITBOBBIN_READ_NOTES_ANSWER]);

uint64_t spritbobbin_plain_extract(uint64_t level, uint64_t earlier, const uint8_t *line, size_t line_bytes,
                                   const uint8_t *notes, size_t notes_bytes,
                                   uint8_t *buffer, size_t buffer_bytes, uint64_t answer[SPRITBOBBIN_EXTRACT_ANSWER]);

/*
 * The line of a multiplexer that acts on its decisions a frame late, for demonstrations and tests.
 *
 * Its control digits say the decision of each frame's own note. Every other digit is what
 * spritbobbin_multiplex sends by the late notes: each frame has bits 0 to 3 of the note before it,
 * and the service digits of its own. In frame 0 these bits are those of earlier, at every level; at
 * levels 12 and 14 earlier is the vote before frame 0 too, so that frame 0 acts on it twice.
 *
 * answer: as of spritbobbin_multiplex, the digits that the late line took. Refused exactly as
 * spritbobbin_multiplex refuses the same.
 */
uint64_t spritbobbin_late_multiplex(uint64_t level, uint64_t earlier, uint8_t *line, size_t line_bytes,
                                    const uint8_t *notes, size_t notes_bytes,
                                    const uint8_t *buffer, size_t buffer_bytes, uint64_t answer[SPRITBOBBIN_MULTIPLEX_ANSWER]);

/*
 * Makes a fresh receiver: hunting, nothing seen, the frame in hand all zero.
 *
 * Writes all of state (level, window, digits seen, mode, place, the stretch's digits and zeros,
 * few before, alarm) and of frame. Returns 0, or 1 for a wrong level; the state is then all zero
 * and a feed refuses it with 6.
 */
uint64_t spritbobbin_receiver_fresh(uint64_t level, uint64_t state[SPRITBOBBIN_RECEIVER_STATE], uint8_t frame[366]);

/*
 * Gives a receiver the digits first to first + count - 1 of a piece of a stream. The receiver
 * finds frames after three good words in a row, each a frame after the last, and loses them
 * after four wrong ones in a row.
 *
 * Stops after the digit that completes a frame, or at the end of the digits given. If a frame is
 * ready, frame holds its digits as received, from its word on: as many bytes as a frame of the
 * level has. Use it before the next call, which goes on at first plus the digits taken.
 *
 * Alarm indication, ones without frames from a far end that has lost its own input: all digits
 * since the fresh state are cut into stretches of as many digits as a frame has, whatever the
 * mode. It begins with two stretches in a row that have each at most four zeros (five at level 4,
 * two at level 12), and ends with two in a row that have each more. A framed signal, of ones too, is
 * none.
 *
 * A stream may be cut into pieces anywhere; a piece of no digits changes nothing. The state may be
 * looked at, copied and put back; the frame in hand belongs to it.
 *
 * From any state it is aligned after at most eight frames of a line of correct frames, begun
 * anywhere in a frame, in which no other digits look like the word. The words tested measure the
 * work: the digits taken at which the last digits are compared with the word. In hunting that is
 * every digit from the L-th since the fresh state on, else the digit where a word is due.
 *
 * answer: digits taken, 1 if a frame is ready, 1 if alarm indication stands at the end, words
 * tested. Returns 0, 6, 2 or 7.
 */
uint64_t spritbobbin_receiver_feed(uint64_t state[SPRITBOBBIN_RECEIVER_STATE], uint8_t frame[366], const uint8_t *piece, size_t piece_bytes,
                                   uint64_t first, uint64_t count, uint64_t answer[SPRITBOBBIN_RECEIVER_ANSWER]);

/*
 * A rack: a list of up to 64 receivers, line 0 first, each kept as a record that has the state and
 * the frame of a receiver (above). A line answers as a receiver alone that gets its own calls.
 */
struct spritbobbin_record {
    uint64_t state[SPRITBOBBIN_RECEIVER_STATE];
    uint8_t frame[SPRITBOBBIN_FRAME_STORE_BYTES];
};

#define SPRITBOBBIN_MOST_RECORDS 64
#define SPRITBOBBIN_RECORD_BYTES 440 /* of a record, with what stands idle at its end */

#if defined(__cplusplus) && __cplusplus >= 201103L
static_assert(sizeof(struct spritbobbin_record) == SPRITBOBBIN_RECORD_BYTES, "a record has the layout of the library");
#elif defined(__STDC_VERSION__) && __STDC_VERSION__ >= 201112L
_Static_assert(sizeof(struct spritbobbin_record) == SPRITBOBBIN_RECORD_BYTES, "a record has the layout of the library");
#endif

/*
 * Feeds a piece to one line of a rack, as spritbobbin_receiver_feed feeds it to one receiver; the
 * line's record is written, and no other. answer: as there. Returns 0, or 8 (no such line), 2
 * (over 64 records), and then as a piece is refused: 6, 2, 7.
 */
uint64_t spritbobbin_rack_feed(struct spritbobbin_record *records, size_t number, uint64_t line,
                               const uint8_t *piece, size_t piece_bytes,
                               uint64_t first, uint64_t count, uint64_t answer[SPRITBOBBIN_RECEIVER_ANSWER]);

/*
 * Makes one line of a rack fresh, of a level, whatever its record holds. So a rack is set up: a
 * reset of each line. Returns 0, or 8, 2, 1; the record then stays as it is.
 */
uint64_t spritbobbin_rack_reset(struct spritbobbin_record *records, size_t number, uint64_t line,
                                uint64_t level);

/*
 * Counts the lines in mode aligned, which is a mode of 3 or more; nothing else is asked of a
 * record. answer: how many. Returns 0, or 2, and then counts 0.
 */
uint64_t spritbobbin_rack_aligned(const struct spritbobbin_record *records, size_t number,
                                  uint64_t answer[SPRITBOBBIN_RACK_ALIGNED_ANSWER]);

/* What stands where in the answer and the state of the finder of 2048 kbit/s frames, its mode
   numbers, and its places. */
enum {
    SPRITBOBBIN_FINDER_TAKEN = 0,
    SPRITBOBBIN_FINDER_IS_ALIGNED = 1, /* 1 if aligned at the end of the digits taken */
    SPRITBOBBIN_FINDER_WINDOW = 0,     /* the last seven digits as a number, the newest worth 1 */
    SPRITBOBBIN_FINDER_SEEN = 1,       /* digits since the fresh state, stopping at 7 */
    SPRITBOBBIN_FINDER_MODE = 2,
    SPRITBOBBIN_FINDER_PLACE = 3,
    SPRITBOBBIN_FINDER_HUNTING = 0,
    SPRITBOBBIN_FINDER_WORD_FOUND = 1,
    SPRITBOBBIN_FINDER_SECOND_SEEN = 2,
    SPRITBOBBIN_FINDER_ALIGNED = 3,        /* 3 + m: aligned, with the last m words missed, m from 0 to 2 */
    SPRITBOBBIN_FINDER_SECOND_PLACE = 250, /* the second digit of the next frame's byte 0 */
    SPRITBOBBIN_FINDER_WORD_PLACE = 512    /* the last digit of the next word */
};

/*
 * Makes a fresh finder of the frames of a 2048 kbit/s line: hunting, nothing seen. Writes all of
 * state (window, digits seen, mode, place). Returns 0.
 */
uint64_t spritbobbin_finder_fresh(uint64_t state[SPRITBOBBIN_FINDER_STATE]);

/*
 * Gives a finder the digits first to first + count - 1 of a piece of a 2048 kbit/s line. Frames are
 * found after a good word (byte 0 of even frames ends in 0011011), a second digit of 1 in byte 0 of
 * the next frame, and a good word after that; they are lost after three wrong words in a row. If
 * one of the two checks fails, the hunt goes on with the next digit and the window kept.
 *
 * Stops after the digit at which alignment is found or lost, or at the end of the digits given;
 * the next call goes on at first plus the digits taken. A place is counted from the word's last
 * digit, which is 0. No digits of a frame are handed over.
 *
 * A state is valid, and else refused with 6, if the window is under 128, at most 7 digits are
 * seen, the mode is at most 5, hunting is at place 0, and any other mode has 7 digits seen and a
 * place under 250 (word found), 250 to 511 (second digit seen) or under 512 (aligned).
 *
 * answer: digits taken, 1 if aligned at their end. Returns 0, 6, 2 or 7.
 */
uint64_t spritbobbin_finder_feed(uint64_t state[SPRITBOBBIN_FINDER_STATE], const uint8_t *piece, size_t piece_bytes,
                                 uint64_t first, uint64_t count, uint64_t answer[SPRITBOBBIN_FINDER_ANSWER]);

/* What spritbobbin_line_digit returns where the line has ended. */
enum { SPRITBOBBIN_LINE_ENDED = 2 };

/*
 * The digit at a place of a line of any length: 0 or 1, or 2 where the line has ended. That is at
 * any place past the last digit, and at every place of a line over 65,536 bytes.
 */
uint64_t spritbobbin_line_digit(const uint8_t *line, size_t line_bytes, uint64_t place);

/*
 * Puts count digits of from, its digit first and on, in place of those of to at digit at and on.
 * Every other digit of to stays. The slices may have any length, and the digits may begin and end
 * anywhere in a byte. Returns 0, or 7 where either slice has not so many.
 */
uint64_t spritbobbin_copy_digits(uint8_t *to, size_t to_bytes, uint64_t at,
                                 const uint8_t *from, size_t from_bytes, uint64_t first, uint64_t count);

/*
 * Where a recording begins in what was sent, which nobody knows: of the numbers first to
 * first + count - 1 the number m at which the first so many digits of read differ in the fewest places
 * from the digits m, m + 1, .. of sent; the lowest of equal ones. The slices may have any length.
 *
 * answer: m, and how many digits differ there. Returns 0, or 7 where count is 0, where read has not so
 * many digits, or where sent has fewer than first + count - 1 + digits, or that sum is 2^64 or more.
 */
uint64_t spritbobbin_begins(const uint8_t *read, size_t read_bytes, uint64_t digits,
                            const uint8_t *sent, size_t sent_bytes, uint64_t first, uint64_t count,
                            uint64_t answer[SPRITBOBBIN_BEGINS_ANSWER]);

/*
 * What a place of a frame is, places counted from 0, by the layout of the level alone. answer: one of
 * SPRITBOBBIN_PLACE_..; the tributary, 1 to 4, that owns the place, or 0. Returns 0, or 1, or 7 where
 * the place is N or more.
 */
uint64_t spritbobbin_place(uint64_t level, uint64_t place, uint64_t answer[SPRITBOBBIN_PLACE_ANSWER]);

/*
 * Writes a capture of a line at the beginning of file; bytes after it stay as they were.
 *
 * A capture is fields, each of a one-byte tag, a two-byte length (high byte first) and that many
 * bytes: tag 1, the level, length 1; tag 2, the line; tag 3, the label, 0 to 32 bytes of any
 * kind. Where labelled is 0 there is no tag 3 and the label is not looked at; any other number
 * writes one, also of 0 bytes, which is not the same as none.
 *
 * answer: bytes of the file, named byte (0). Returns 0, 1, 2, 9 or 4.
 */
uint64_t spritbobbin_capture_write(uint64_t level, const uint8_t *line, size_t line_bytes,
                                   const uint8_t *label, size_t label_bytes, uint64_t labelled,
                                   uint8_t *file, size_t file_bytes, uint64_t answer[SPRITBOBBIN_CAPTURE_WRITE_ANSWER]);

/*
 * Reads a capture, which file must hold whole and with nothing after it. Nothing is copied: the
 * answer says where in the file line and label stand.
 *
 * answer: level, first byte of the line, its bytes, 1 if there is a label, first byte of the
 * label, its bytes (both 0 without one), named byte. Returns 0, 9, 1 or 2.
 */
uint64_t spritbobbin_capture_read(const uint8_t *file, size_t file_bytes, uint64_t answer[SPRITBOBBIN_CAPTURE_READ_ANSWER]);

/*
 * Where two captures differ: how many digits in each kind of place, and where the first 64 are.
 * Kinds go by the layout of the level: no control digit decides what a justification place is. At
 * levels 12 and 14 positive and negative places are justification places, and all service digits
 * count as national, so that the remote alarm's sum is 0.
 *
 * A bad file is refused as by spritbobbin_capture_read, all of the first (9, 1, 2) before the
 * second, and the answer says which; then 1 if the levels are not the same, and 2 if the lines do
 * not have the same length. Labels are not compared.
 *
 * answer: file at fault (0, 1, 2), named byte; the sums of the digits that differ: word, remote
 * alarm, national, then control, justification, ordinary of tributary 1, of 2, of 3, of 4; all
 * differing digits, which is what the fifteen add up to; how many are listed. places: frame and
 * place in it of each of the first 64, in order, and zeros after them; a refused call leaves it as
 * it was. Returns 0, 9, 1 or 2.
 */
uint64_t spritbobbin_compare(const uint8_t *one, size_t one_bytes, const uint8_t *other,
                             size_t other_bytes, uint64_t answer[SPRITBOBBIN_COMPARE_ANSWER], uint64_t places[SPRITBOBBIN_COMPARE_PLACES]);

/*
 * Where two lines of a level differ, which stand in no file: as spritbobbin_compare says of the
 * lines of two captures.
 *
 * answer: the fifteen sums (SPRITBOBBIN_WORD_DIFFERS and on, each less SPRITBOBBIN_SUMS, as above
 * from word to the ordinary digits of tributary 4), all differing digits, how many are listed.
 * places: as of spritbobbin_compare. Returns 0, or 1, or 2 if the first line is not a whole number
 * of frames or over 64, then 2 if the second line's length is not the first's.
 */
uint64_t spritbobbin_compare_lines(uint64_t level, const uint8_t *one, size_t one_bytes,
                                   const uint8_t *other, size_t other_bytes, uint64_t answer[SPRITBOBBIN_COMPARE_LINES_ANSWER],
                                   uint64_t places[SPRITBOBBIN_COMPARE_PLACES]);

/*
 * What differs in a stretch of two lines: among count places from place first on, counted over the
 * whole line from 0. A picture asks for as many stretches as it has room for, each with its own
 * sums by kind and tributary; stretches that meet add up, and the stretch of all places has the
 * sums of spritbobbin_compare_lines.
 *
 * answer: the fifteen sums in the same order, all differing digits. Returns 0, 1 or 2 as
 * spritbobbin_compare_lines does, then 7 if first + count is more than the digits of a line.
 */
uint64_t spritbobbin_compare_stretch(uint64_t level, const uint8_t *one, size_t one_bytes,
                                     const uint8_t *other, size_t other_bytes, uint64_t first,
                                     uint64_t count, uint64_t answer[SPRITBOBBIN_COMPARE_STRETCH_ANSWER]);

/*
 * Builds a multiframe of 2048 kbit/s: sixteen frames of 32 bytes.
 *
 * multiframe: 512 bytes, written whole. channels: 480 bytes, sixteen of channel 1, of frame 0
 * first, then of channels 2 to 30. signalling: 15 bytes, byte 16 of frames 1 to 15, so that byte
 * k - 1 has channel k's four digits and then channel k + 15's. spare: 9 bytes, the 68 digits that
 * nothing fixes in the order of their places: the first digit of byte 0 of every frame, the alarm
 * and the five digits after it in odd frames, and X Y X X; the last four digits are not looked at.
 *
 * answer: named channel. Returns 0, 2 or 11.
 */
uint64_t spritbobbin_multiframe_build(uint8_t *multiframe, size_t multiframe_bytes,
                                      const uint8_t *channels, size_t channels_bytes,
                                      const uint8_t *signalling, size_t signalling_bytes,
                                      const uint8_t *spare, size_t spare_bytes, uint64_t answer[SPRITBOBBIN_MULTIFRAME_BUILD_ANSWER]);

/*
 * Takes a multiframe apart into channels, signalling and spare digits, as above; the last four
 * digits of the spare bytes are written as zero. Fixed digits are not looked at. Returns 0 or 2.
 */
uint64_t spritbobbin_multiframe_apart(const uint8_t *multiframe, size_t multiframe_bytes,
                                      uint8_t *channels, size_t channels_bytes,
                                      uint8_t *signalling, size_t signalling_bytes,
                                      uint8_t *spare, size_t spare_bytes);

/*
 * What a place of a multiframe is, 0 to 4095: digit place % 8 of byte place / 8 % 32 of frame
 * place / 256. answer: one of SPRITBOBBIN_MULTIFRAME_WORD to _CHANNEL; of a digit that is fixed (word,
 * second digit, start) the digit, of signalling and of a channel its channel, 1 to 30, else 0.
 * Returns 0, or 7 where the place is 4096 or more.
 */
uint64_t spritbobbin_multiframe_place(uint64_t place, uint64_t answer[SPRITBOBBIN_MULTIFRAME_PLACE_ANSWER]);

/*
 * Which of sixteen frames of 2048 kbit/s in a row, 512 bytes, begins the multiframe: the first whose
 * byte 0 ends in the word 0011011 and whose byte 16 begins with 0000. answer: that frame, counted
 * from 0, or 16 where there is none. Returns 0 or 2.
 */
uint64_t spritbobbin_multiframe_start(const uint8_t *frames, size_t frames_bytes, uint64_t answer[SPRITBOBBIN_MULTIFRAME_START_ANSWER]);

/*
 * The version of the library: MAJOR * 1000000 + MINOR * 1000 + PATCH. It is not that of this header,
 * SPRITBOBBIN_VERSION, where the two do not belong together.
 */
uint64_t spritbobbin_version(void);

#ifdef __cplusplus
}
#endif

#endif

/*
 * Two other implementations of four of the library's calls, with the same parameters and the same
 * answers on whatever the library accepts. They check nothing: every input must be acceptable.
 *
 * plain_: digit by digit, as one would write it first.
 * quick_: as quick as portable C gets in an afternoon: whole words and tables.
 */
#ifndef ENGINES_H
#define ENGINES_H

#include <stddef.h>
#include <stdint.h>

typedef uint64_t multiplex_call(uint64_t level, uint64_t earlier, uint8_t *line, size_t line_bytes,
                                const uint8_t *notes, size_t notes_bytes, const uint8_t *buffer, size_t buffer_bytes, uint64_t answer[5]);
typedef uint64_t read_notes_call(uint64_t level, const uint8_t *line, size_t line_bytes, uint8_t *notes, size_t notes_bytes,
                                 uint64_t answer[5]);
typedef uint64_t extract_call(uint64_t level, uint64_t earlier, const uint8_t *line, size_t line_bytes,
                              const uint8_t *notes, size_t notes_bytes, uint8_t *buffer, size_t buffer_bytes, uint64_t answer[5]);
typedef uint64_t feed_call(uint64_t state[9], uint8_t frame[366], const uint8_t *piece, size_t piece_bytes,
                           uint64_t first, uint64_t count, uint64_t answer[4]);

multiplex_call plain_multiplex, quick_multiplex;
read_notes_call plain_read_notes, quick_read_notes;
extract_call plain_extract, quick_extract;
feed_call plain_receiver_feed, quick_receiver_feed;

/* The swap of one tributary. */
typedef uint64_t swap_call(uint64_t level, uint64_t earlier, uint64_t tributary, uint8_t *line, size_t line_bytes,
                           const uint8_t *notes, size_t notes_bytes, const uint8_t *buffer, size_t buffer_bytes, uint64_t answer[1]);

swap_call plain_swap, quick_swap;

/* The repair of a line. */
typedef uint64_t repair_call(uint64_t level, uint64_t earlier, uint64_t national, uint8_t *line, size_t line_bytes, uint64_t answer[10]);

repair_call plain_repair, quick_repair;

/* The verdict on a line, in the plain engine only. */
typedef uint64_t judge_call(uint64_t level, uint64_t earlier, const uint8_t *line, size_t line_bytes, uint64_t pattern, const uint8_t *buffer,
                            size_t buffer_bytes, uint64_t answer[20]);

judge_call plain_judge;

/* How many digits of two slices differ: what the verdict in the receiver's manner is held against (quick_count.c). */
typedef uint64_t count_call(const uint8_t *one, const uint8_t *other, size_t bytes);

count_call plain_count, quick_count;

/* The multiframe of 2048 kbit/s, in the plain engine only: its channels are whole bytes anyway. */
typedef uint64_t build_call(uint8_t *multiframe, size_t multiframe_bytes, const uint8_t *channels, size_t channels_bytes,
                            const uint8_t *signalling, size_t signalling_bytes, const uint8_t *spare, size_t spare_bytes,
                            uint64_t answer[1]);
typedef uint64_t apart_call(const uint8_t *multiframe, size_t multiframe_bytes, uint8_t *channels, size_t channels_bytes,
                            uint8_t *signalling, size_t signalling_bytes, uint8_t *spare, size_t spare_bytes);

build_call plain_multiframe_build;
apart_call plain_multiframe_apart;

/* multiframes.c: the library's two calls beside these. */
void compare_multiframes(void);
void time_multiframes(void);
void print_multiframes(void);

#endif

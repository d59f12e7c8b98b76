/* The layout of a heap, for the peers in C. */
#ifndef LAYOUT_H
#define LAYOUT_H

enum { FORWARD, BACKWARD, SIZE, NEXT_IN_BIN, PREVIOUS_IN_BIN, BIN };
enum { WORD_BYTES = 4, ALIGNMENT = 8, HEADER_BYTES = 8, LEAST_CHUNK = 24, FEWEST_WORDS = 10, MOST_WORDS = 16384 };
enum { IN_USE = 1, FLAGS = 7, BIN_FACTOR = 8 };

#endif

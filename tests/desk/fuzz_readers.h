/* The readers of the desk, as tests/desk/fuzz.c and libFuzzer call them. */
#ifndef FUZZ_READERS_H
#define FUZZ_READERS_H

#include "desk.h"

enum { SCORES, TEXTS, SHELVES, WAVS, EDITS, READERS };

extern const char *const reader_names[READERS];

/* Whether a reader takes the input; all that is promised of it holds then, or the program ends. */
bool reader_takes(unsigned reader, const uint8_t *at, size_t len);
/* Ends the program with these words where it does not hold. */
void hold(bool holds, const char *promise);
/* A line every few seconds: how many inputs there were, of so many; 0 where nobody knows how many there will be. */
void tell_now_and_then(uint64_t of);

#endif

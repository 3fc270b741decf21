// The static library of the crate `pair_c`. The buffers must not overlap.
#ifndef PAIR_C_H
#define PAIR_C_H

#include <stddef.h>
#include <stdint.h>

// A strict run of two parts side by side from power-up, on samples of two records and into answers of two, and the index of
// the sample that it refused, or of the trace's end.
size_t pair_run(uint32_t part, const uint8_t *trace, size_t trace_length, uint32_t *left_memory, size_t left_words,
                uint32_t *right_memory, size_t right_words, uint8_t *answers, size_t answers_length);

#endif

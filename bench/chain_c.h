// The static library of the crate `chain_c`. The buffers must not overlap.
#ifndef CHAIN_C_H
#define CHAIN_C_H

#include <stddef.h>
#include <stdint.h>

// A strict run of `count` parts in a row from power-up, on records of seven bytes, and the index of the record that it
// refused, or of the trace's end. The parts' memories stand one after the other.
size_t chain_run(uint32_t part, size_t count, const uint8_t *trace, size_t trace_length, uint32_t *memory, size_t words,
                 uint8_t *answers, size_t answers_length);

#endif

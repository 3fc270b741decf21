// The static library of the crate `run_c`. The buffers must not overlap.
#ifndef RUN_C_H
#define RUN_C_H

#include <stddef.h>
#include <stdint.h>

// A strict run from power-up, and the index of the record that it refused, or of the trace's end.
size_t fifo_run(uint32_t part, const uint8_t *trace, size_t trace_length, uint32_t *memory, size_t words,
                uint8_t *answers, size_t answers_length);

#endif

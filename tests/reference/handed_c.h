// The static library of the crate `handed_c`. The buffers must not overlap.
#ifndef HANDED_C_H
#define HANDED_C_H

#include <stddef.h>
#include <stdint.h>

// A strict run from a state, and the number that it ended with, 0 for none. `ended` is two numbers: the index of the record
// that it refused or of the trace's end, and how many records were accepted. The state is 52 bytes, as fifo.h has it, and
// is as the run left it; after 1, 2 or 3 nothing has changed but `ended`, which is 0 and 0. Where the state's bytes spell
// no state, or a room for a state or an end has another length, the number is 3 and nothing at all has changed.
uint32_t fifo_run_from(uint32_t part, const uint8_t *trace, size_t trace_length, uint8_t *state, size_t state_length,
                       uint32_t *memory, size_t words, uint8_t *answers, size_t answers_length, uint64_t *ended,
                       size_t ended_length);

// The same over refused records, with a mark for each whole record: its number, 0 where it was taken.
uint32_t fifo_run_lenient_from(uint32_t part, const uint8_t *trace, size_t trace_length, uint8_t *state,
                               size_t state_length, uint32_t *memory, size_t words, uint8_t *answers,
                               size_t answers_length, uint8_t *marks, size_t marks_length, uint64_t *ended,
                               size_t ended_length);

#endif

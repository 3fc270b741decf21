/* One sample at a time of an IDT72V255LA (part 255) or IDT72V265LA (part 265) FIFO.
 *
 * Between two samples the model is two buffers that the caller keeps: a state of fifo_state_bytes() bytes and a memory of
 * fifo_memory_bytes(part) bytes. One call works one sample on them. The first sample must be a Master Reset, MRS LOW:
 * FWFT/SI then selects the timing mode (LOW Standard, HIGH First Word Fall Through), and LD the offsets and how they are
 * loaded (LOW 127 and in parallel, HIGH 1,023 and serially).
 *
 * No pointer may be null, also where its length is 0, and no two buffers of a call may overlap. Nothing is allocated,
 * no pointer is kept, and there is no state beside the two buffers: any number of chips can run side by side.
 */
#ifndef FIFO_H
#define FIFO_H

#include <stddef.h>
#include <stdint.h>

#ifdef __cplusplus
extern "C" {
#endif

/* Bytes of a state. They mean nothing to the caller: they are made by fifo_power_up and changed by fifo_sample, and may be
 * copied and kept. Each state has one spelling. */
uint32_t fifo_state_bytes(void);

/* Bytes of the memory of a part: four for each word, 32,768 for 255 and 65,536 for 265; 0 for any other number. */
uint32_t fifo_memory_bytes(uint32_t part);

/* Makes a state that of a chip at power-up, for either part: no Master Reset yet, both clocks, RT, REN and WEN HIGH. The
 * memory may then hold any bytes.
 *
 *   state, state_len   room for a state, exactly fifo_state_bytes() long
 *
 * Gives 0; or 2 where state_len is another, and then nothing is written. */
uint32_t fifo_power_up(uint8_t *state, size_t state_len);

/* Works one sample.
 *
 *   part                 255 or 265, compared in all its 32 bits; the same for the whole life of a state
 *   record, record_len   the sample: four bytes, the first of most weight. From bit 31 down: MRS, PRS, WCLK, RCLK, WEN,
 *                        REN, LD, SEN, RT, FWFT/SI, OE, write skew met, read skew met; bit 18, 1 where D was still moving;
 *                        then D17 to D0.
 *                        Pins are levels, 1 for HIGH. A clock rises where it is HIGH and was LOW at the last sample taken;
 *                        at power-up both count as HIGH.
 *   state, state_len     the state, as fifo_power_up or the last call left it
 *   memory, memory_len   the memory, exactly fifo_memory_bytes(part) long: a word is four bytes, the first of most weight.
 *                        At most one word is written, with its upper 14 bits 0.
 *   answer, answer_len   room for the answer, exactly 3 bytes, the first of most weight. From bit 23 down: FF/IR, EF/OR,
 *                        HF, PAE, PAF, driven (1 exactly where OE is LOW), and Q17 to Q0, which are 0 where OE is HIGH.
 *
 * Gives 0 where the sample is taken: state, memory and answer then hold what follows. Otherwise the number of the first
 * of these that applies, and no byte of state, memory or answer has changed:
 *
 *    1   part is neither 255 nor 265
 *    2   state_len, memory_len or answer_len is wrong
 *    3   the state's bytes spell no state; or they spell one in which
 *        - an offset, or the offset shown where one is, is wider than the part's 13 or 14 bits, or the output register
 *          wider than 18;
 *        - the serial bits so far are wider than their count, or that count is not below the part's 26 or 28;
 *        - counted round 16 bits, the read count or a stage of either side lies more than the depth behind the write
 *          count, or the read side's second stage lies behind the read count.
 *        Never so for a state that fifo_power_up made and that fifo_sample alone has changed since, with one part number
 *        all the time
 *    4   record_len is not 4
 *    5   MRS HIGH, and no Master Reset so far
 *    6   a clock rises with LD LOW and more than one of WEN, REN and SEN LOW
 *    7   WCLK rises with LD LOW and WEN LOW under serial loading, or SEN LOW under parallel loading
 *    8   RCLK rises with RT LOW, and REN or WEN is LOW, or was in the sample in which RT fell or in the one taken just
 *        before it. RT falls where it is LOW and was HIGH at the last sample taken, a reset or not; no reset forgets a
 *        fall, and RT HIGH in a sample that is taken ends it. At power-up RT, REN and WEN count as HIGH
 *    9   RCLK rises with RT LOW, and the words accepted since the last reset are none, or more than the depth less 2
 *        (less 1 in fall-through mode)
 *   10   WCLK rises with LD HIGH and WEN LOW before the write side has seen the last retransmit
 *   12   WCLK rises with WEN LOW and bit 18 set: a write, full or not, or a parallel load of data that had not settled
 *
 * 6 to 10 and 12 only with MRS and PRS HIGH; 11 is no number of one part. After a refusal the next sample goes on from
 * where the last one taken left off. */
uint32_t fifo_sample(uint32_t part, const uint8_t *record, size_t record_len, uint8_t *state, size_t state_len,
                     uint8_t *memory, size_t memory_len, uint8_t *answer, size_t answer_len);

#ifdef __cplusplus
}
#endif

#endif

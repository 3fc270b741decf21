// "What is turned away", rows 3, 5 to 10 and 12.
#ifndef PLAIN_REFUSALS_H
#define PLAIN_REFUSALS_H

#include "plain_pins.h"

static bool widths_hold(const struct plain_part *part, const struct plain_state *state)
{
    const struct plain_offsets *offsets = &state->offsets;
    uint32_t limit = 1u << part->offset_bits;
    return offsets->value[PLAIN_N] < limit && offsets->value[PLAIN_M] < limit
        && (!offsets->showing || offsets->shown < limit) && state->read.output <= WORD
        && offsets->serial_count < 2 * part->offset_bits && offsets->serial_bits >> offsets->serial_count == 0;
}

static bool counts_hold(const struct plain_part *part, const struct plain_state *state)
{
    uint16_t count = state->write.count;
    uint32_t held = difference(count, state->read.count);
    uint32_t unseen = difference(count, state->read.stages.second);
    return held <= part->depth && unseen <= part->depth && unseen <= held
        && difference(count, state->read.stages.first) <= part->depth
        && difference(count, state->write.stages.first) <= part->depth
        && difference(count, state->write.stages.second) <= part->depth;
}

static uint32_t loading_refusal(const struct plain_offsets *offsets, uint32_t record, uint32_t rises)
{
    if (low(record, WEN) + low(record, REN) + low(record, SEN) > 1)
        return 6;
    if ((rises & WCLK) && low(record, offsets->method == PLAIN_SERIAL ? WEN : SEN))
        return 7;
    return 0;
}

// Whether RT last fell cleanly, this record counted.
static bool fell_clean(const struct plain_state *state, uint32_t record)
{
    if (low(record, RT) && !low(state->levels, RT))
        return (record & state->levels & (REN | WEN)) == (REN | WEN);
    return state->fell_clean;
}

static uint32_t retransmit_refusal(const struct plain_part *part, const struct plain_state *state, uint32_t record)
{
    if (low(record, REN) || low(record, WEN) || !fell_clean(state, record))
        return 8;
    uint32_t most = part->depth - (state->mode == PLAIN_FWFT ? 1 : 2);
    uint32_t accepted = state->write.count;
    if (state->write.passed_width || accepted == 0 || accepted > most)
        return 9;
    return 0;
}

// Of a write or a parallel load, either of which takes D.
static uint32_t data_refusal(const struct plain_state *state, uint32_t record)
{
    if (!low(record, LD) && state->write.view != PLAIN_SEEN)
        return 10;
    return low(record, UNSETTLED) ? 0 : 12;
}

static uint32_t rise_refusal(const struct plain_part *part, const struct plain_state *state, uint32_t record,
                             uint32_t rises)
{
    uint32_t refusal = 0;
    if (low(record, LD))
        refusal = loading_refusal(&state->offsets, record, rises);
    if (refusal == 0 && (rises & RCLK) && low(record, RT))
        refusal = retransmit_refusal(part, state, record);
    if (refusal == 0 && (rises & WCLK) && low(record, WEN))
        refusal = data_refusal(state, record);
    return refusal;
}

#endif

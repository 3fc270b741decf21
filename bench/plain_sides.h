// "The two sides" and "Retransmit".
#ifndef PLAIN_SIDES_H
#define PLAIN_SIDES_H

#include "plain_pins.h"

static bool full(const struct plain_part *part, const struct plain_write_side *write)
{
    return difference(write->count, write->stages.second) == part->depth;
}

// EF HIGH or OR LOW.
static bool ready(const struct plain_state *state)
{
    const struct plain_read_side *read = &state->read;
    if (state->mode == PLAIN_FWFT)
        return read->untaken;
    return read->setup == PLAIN_OVER && read->stages.second != read->count;
}

static void move_stages(struct plain_stages *stages, bool skew_met, uint16_t other_count)
{
    stages->second = stages->first;
    stages->first = !skew_met && stages->other_rose ? stages->before_latest : other_count;
    stages->other_rose = false;
}

static void note_rise_of_other(struct plain_stages *stages, uint16_t count_before)
{
    stages->other_rose = true;
    stages->before_latest = count_before;
}

// "Retransmit": a count from before the retransmit's own rise does not show it.
static void see_retransmit(struct plain_write_side *write, bool skew_met, bool retransmit_is_latest)
{
    if (write->view == PLAIN_TAKEN)
        write->view = PLAIN_SEEN;
    else if (write->view == PLAIN_UNSEEN && !(retransmit_is_latest && !skew_met && write->stages.other_rose))
        write->view = PLAIN_TAKEN;
}

static void accept(const struct plain_part *part, struct plain_write_side *write, uint32_t *memory, uint32_t word)
{
    memory[write->count & (part->depth - 1)] = word;
    write->count++;
    if (write->count == 0)
        write->passed_width = true;
}

// `read_count` and `retransmit_is_latest` are those before the sample.
static void rise_write_side(const struct plain_part *part, struct plain_state *state, uint32_t *memory,
                            uint32_t record, uint16_t read_count, bool retransmit_is_latest)
{
    struct plain_write_side *write = &state->write;
    bool skew_met = !low(record, WRITE_SKEW_MET);
    if (!low(record, LD) && low(record, WEN) && !full(part, write))
        accept(part, write, memory, record & WORD);
    see_retransmit(write, skew_met, retransmit_is_latest);
    move_stages(&write->stages, skew_met, read_count);
    write->almost_full
        = difference(write->count, write->stages.second) >= part->depth - state->offsets.value[PLAIN_M];
}

static void deliver(const struct plain_part *part, struct plain_read_side *read, const uint32_t *memory)
{
    read->output = memory[read->count & (part->depth - 1)] & WORD;
    read->count++;
}

static void retransmit(struct plain_read_side *read)
{
    read->count = 0;
    read->untaken = false;
    read->setup = PLAIN_TWO_MORE;
}

static void read_words(const struct plain_part *part, struct plain_state *state, const uint32_t *memory, bool asked)
{
    struct plain_read_side *read = &state->read;
    bool taken = asked && ready(state);
    if (state->mode == PLAIN_STANDARD) {
        if (taken)
            deliver(part, read, memory);
        return;
    }
    if (taken)
        read->untaken = false;
    if (!read->untaken && read->setup == PLAIN_OVER && read->stages.second != read->count) {
        deliver(part, read, memory);
        read->untaken = true;
    }
}

static void rise_read_side(const struct plain_part *part, struct plain_state *state, const uint32_t *memory,
                           uint32_t record)
{
    struct plain_read_side *read = &state->read;
    if (low(record, RT)) {
        retransmit(read);
    } else {
        read_words(part, state, memory, !low(record, LD) && low(record, REN));
        if (read->setup != PLAIN_OVER)
            read->setup--;
    }
    move_stages(&read->stages, !low(record, READ_SKEW_MET), state->write.count);
    if (read->setup == PLAIN_OVER)
        read->almost_empty = difference(read->stages.second, read->count) <= state->offsets.value[PLAIN_N];
}

#endif

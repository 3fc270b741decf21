// One sample of paper 01. Its parts are headers, so that the compiler sees all of a sample at once.
#include "plain_offsets.h"
#include "plain_refusals.h"
#include "plain_sides.h"

static const struct plain_part PART_255 = {.depth = 8192, .offset_bits = 13};
static const struct plain_part PART_265 = {.depth = 16384, .offset_bits = 14};

const struct plain_part *plain_part(uint32_t number)
{
    switch (number) {
    case 255:
        return &PART_255;
    case 265:
        return &PART_265;
    default:
        return NULL;
    }
}

struct plain_state plain_power_up(void)
{
    struct plain_state state = {
        .levels = WCLK | RCLK | RT | REN | WEN,
        .fell_clean = true,
        .write.view = PLAIN_SEEN,
        .read.almost_empty = true,
    };
    return state;
}

uint32_t plain_record(const uint8_t *bytes)
{
    return (uint32_t)bytes[0] << 24 | (uint32_t)bytes[1] << 16 | (uint32_t)bytes[2] << 8 | bytes[3];
}

static void reset_master(struct plain_state *state, uint32_t record)
{
    bool serial = !low(record, LD);
    uint16_t offset = serial ? 1023 : 127;
    state->master_reset = true;
    state->mode = low(record, FWFT_SI) ? PLAIN_STANDARD : PLAIN_FWFT;
    state->offsets = (struct plain_offsets){
        .value = {offset, offset},
        .method = serial ? PLAIN_SERIAL : PLAIN_PARALLEL,
    };
}

static void reset_both_sides(struct plain_state *state)
{
    state->write = (struct plain_write_side){.view = PLAIN_SEEN};
    state->read = (struct plain_read_side){.almost_empty = true};
    state->offsets.showing = false;
}

// The read side goes first, since a write in the same sample may replace the word that it fetches. Neither side sees the
// other's rise.
static void rise(const struct plain_part *part, struct plain_state *state, uint32_t *memory, uint32_t record,
                 uint32_t rises)
{
    uint16_t write_count = state->write.count;
    uint16_t read_count = state->read.count;
    bool retransmit_is_latest = state->read.setup == PLAIN_TWO_MORE;
    if (rises & RCLK) {
        rise_read_side(part, state, memory, record);
        show_offset(&state->offsets, record);
    }
    if (rises & WCLK) {
        rise_write_side(part, state, memory, record, read_count, retransmit_is_latest);
        note_rise_of_other(&state->read.stages, write_count);
        if (low(record, LD))
            load_offsets(part, &state->offsets, record);
    }
    if (rises & RCLK) {
        note_rise_of_other(&state->write.stages, read_count);
        if (low(record, RT))
            state->write.view = PLAIN_UNSEEN;
    }
}

static uint32_t answer_of(const struct plain_part *part, const struct plain_state *state, uint32_t record)
{
    bool fwft = state->mode == PLAIN_FWFT;
    bool half_full = difference(state->write.count, state->read.count) > part->depth / 2;
    uint32_t flags = (uint32_t)(full(part, &state->write) == fwft) << 23 | (uint32_t)(ready(state) != fwft) << 22
        | (uint32_t)!half_full << 21 | (uint32_t)!state->read.almost_empty << 20
        | (uint32_t)!state->write.almost_full << 19;
    if (!low(record, OE))
        return flags;
    return flags | 1u << 18 | (state->offsets.showing ? state->offsets.shown : state->read.output);
}

uint32_t plain_setting(uint32_t number, const struct plain_state *state, size_t words, bool room_fits)
{
    const struct plain_part *part = plain_part(number);
    if (part == NULL)
        return 1;
    if (words != part->depth || !room_fits)
        return 2;
    if (!widths_hold(part, state) || !counts_hold(part, state))
        return 3;
    return 0;
}

uint32_t plain_step(const struct plain_part *part, uint32_t record, struct plain_state *state, uint32_t *memory,
                    uint32_t *answer)
{
    uint32_t rises = record & ~state->levels & (WCLK | RCLK);
    if (!state->master_reset && !low(record, MRS))
        return 5;
    if (low(record, MRS) || low(record, PRS)) {
        if (low(record, MRS))
            reset_master(state, record);
        reset_both_sides(state);
    } else if (rises != 0) {
        uint32_t refusal = rise_refusal(part, state, record, rises);
        if (refusal != 0)
            return refusal;
        rise(part, state, memory, record, rises);
    }
    state->fell_clean = fell_clean(state, record);
    state->levels = record & (WCLK | RCLK | RT | REN | WEN);
    *answer = answer_of(part, state, record);
    return 0;
}

static void put_answer(uint8_t *bytes, uint32_t answer)
{
    bytes[0] = (uint8_t)(answer >> 16);
    bytes[1] = (uint8_t)(answer >> 8);
    bytes[2] = (uint8_t)answer;
}

uint32_t plain_sample(uint32_t number, const uint8_t *record, size_t record_length, struct plain_state *state,
                      uint32_t *memory, size_t words, uint8_t *answer, size_t answer_length)
{
    uint32_t refusal = plain_setting(number, state, words, answer_length == 3);
    if (refusal != 0)
        return refusal;
    if (record_length != 4)
        return 4;
    uint32_t given;
    refusal = plain_step(plain_part(number), plain_record(record), state, memory, &given);
    if (refusal == 0)
        put_answer(answer, given);
    return refusal;
}

struct plain_ran plain_run(uint32_t number, const uint8_t *trace, size_t length, struct plain_state *state,
                           uint32_t *memory, size_t words, uint8_t *answers, size_t answers_length)
{
    size_t records = length / 4;
    struct plain_ran ran = {plain_setting(number, state, words, answers_length >= 3 * records), 0};
    const struct plain_part *part = plain_part(number);
    while (ran.refusal == 0 && ran.index < records) {
        uint32_t given;
        ran.refusal = plain_step(part, plain_record(trace + 4 * ran.index), state, memory, &given);
        if (ran.refusal == 0)
            put_answer(answers + 3 * ran.index++, given);
    }
    if (ran.refusal == 0 && length % 4 != 0)
        ran.refusal = 4;
    return ran;
}

// A plain C model of paper 01 and of orders 2 and 3 of paper 02, written for comparison: state in a struct, memory in words.
#ifndef PLAIN_H
#define PLAIN_H

#include <stdbool.h>
#include <stddef.h>
#include <stdint.h>

struct plain_part {
    uint32_t depth;
    uint32_t offset_bits;
};

enum plain_mode { PLAIN_STANDARD, PLAIN_FWFT };
enum plain_method { PLAIN_PARALLEL, PLAIN_SERIAL };
enum plain_offset { PLAIN_N, PLAIN_M };

// How far the write side has come in seeing a retransmit.
enum plain_view { PLAIN_UNSEEN, PLAIN_TAKEN, PLAIN_SEEN };

// How many rises the read side still waits for after a retransmit.
enum plain_setup { PLAIN_OVER, PLAIN_ONE_MORE, PLAIN_TWO_MORE };

// What one side knows of the other's count. `other_rose`: since this side's last rise and since the last reset.
struct plain_stages {
    uint16_t first;
    uint16_t second;
    uint16_t before_latest;
    bool other_rose;
};

struct plain_write_side {
    struct plain_stages stages;
    uint16_t count;
    bool passed_width;
    bool almost_full;
    enum plain_view view;
};

struct plain_read_side {
    struct plain_stages stages;
    uint16_t count;
    bool almost_empty;
    bool untaken;
    enum plain_setup setup;
    uint32_t output;
};

struct plain_offsets {
    uint16_t value[2];
    enum plain_method method;
    enum plain_offset next_loaded;
    enum plain_offset next_read;
    uint32_t serial_bits;
    uint32_t serial_count;
    bool showing;
    uint16_t shown;
};

struct plain_state {
    uint32_t levels; // of both clocks, RT, REN and WEN in the last record taken, at their places in it
    bool fell_clean; // RT last fell with both enables HIGH, in that record and in the one before
    bool master_reset;
    enum plain_mode mode;
    struct plain_write_side write;
    struct plain_read_side read;
    struct plain_offsets offsets;
};

// NULL for an unknown part number.
const struct plain_part *plain_part(uint32_t number);

struct plain_state plain_power_up(void);

// Refusals 1 to 3, or 0.
uint32_t plain_setting(uint32_t number, const struct plain_state *state, size_t words, bool room_fits);

// One record in a setting that was found good: 5 to 10 or 12 with nothing moved, or 0 with state, memory and answer moved on.
uint32_t plain_step(const struct plain_part *part, uint32_t record, struct plain_state *state, uint32_t *memory,
                    uint32_t *answer);

// One record with all of its checks, over the same bytes as the C call's.
uint32_t plain_sample(uint32_t number, const uint8_t *record, size_t record_length, struct plain_state *state,
                      uint32_t *memory, size_t words, uint8_t *answer, size_t answer_length);

struct plain_ran {
    uint32_t refusal;
    size_t index;
};

struct plain_ran plain_run(uint32_t number, const uint8_t *trace, size_t length, struct plain_state *state,
                           uint32_t *memory, size_t words, uint8_t *answers, size_t answers_length);

uint32_t plain_record(const uint8_t *bytes);

#endif

// "Offsets".
#ifndef PLAIN_OFFSETS_H
#define PLAIN_OFFSETS_H

#include "plain_pins.h"

static void show_offset(struct plain_offsets *offsets, uint32_t record)
{
    offsets->showing = low(record, LD) && (offsets->showing || low(record, REN));
    if (low(record, LD) && low(record, REN)) {
        offsets->shown = offsets->value[offsets->next_read];
        offsets->next_read = offsets->next_read == PLAIN_N ? PLAIN_M : PLAIN_N;
    }
}

static void load_serial(const struct plain_part *part, struct plain_offsets *offsets, uint32_t bit)
{
    offsets->serial_bits |= bit << offsets->serial_count;
    offsets->serial_count++;
    if (offsets->serial_count == 2 * part->offset_bits) {
        offsets->value[PLAIN_N] = offsets->serial_bits & (part->depth - 1);
        offsets->value[PLAIN_M] = (uint16_t)(offsets->serial_bits >> part->offset_bits);
        offsets->serial_bits = 0;
        offsets->serial_count = 0;
    }
}

static void load_offsets(const struct plain_part *part, struct plain_offsets *offsets, uint32_t record)
{
    if (low(record, WEN)) {
        offsets->value[offsets->next_loaded] = record & (part->depth - 1);
        offsets->next_loaded = offsets->next_loaded == PLAIN_N ? PLAIN_M : PLAIN_N;
    } else if (low(record, SEN)) {
        load_serial(part, offsets, low(record, FWFT_SI) ? 0 : 1);
    }
}

#endif

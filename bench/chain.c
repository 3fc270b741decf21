#include "chain.h"

#include "plain_pins.h"
#include "timing.h"

#include <string.h>

enum { RECORD = 4, LINKS = 3, CHAIN_RECORD = RECORD + LINKS };

// Each record to its place in a chain's trace, the last one first, so that none is written over before its turn.
static void spread(uint8_t *trace, size_t records)
{
    for (size_t i = records; i-- > 0;)
        memmove(trace + CHAIN_RECORD * i, trace + RECORD * i, RECORD);
}

// The Master Reset is the first record.
static void select_fall_through(uint8_t *trace)
{
    trace[1] |= (uint8_t)(FWFT_SI >> 16);
}

size_t put_chain(struct job *chain, size_t parts, uint32_t number, enum traffic_fill fill, size_t records)
{
    chain->parts = parts;
    size_t opening = put_trace(chain, number, fill, records);
    spread(chain->trace, opening + records);
    select_fall_through(chain->trace);
    struct traffic links = traffic_start_links();
    for (size_t i = 0; i < opening + records; i++) {
        uint8_t *bytes = chain->trace + CHAIN_RECORD * i + RECORD;
        if (i < opening)
            traffic_put_opening_links(i, bytes);
        else
            traffic_put_links(&links, bytes);
    }
    return opening;
}

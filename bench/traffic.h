// Legal traffic for timing: bursts in which each clock keeps its pace and the enables their levels. It is in Standard mode,
// with LD and RT HIGH throughout. Its seed is fixed, so that all contestants work the same records.
#ifndef TRAFFIC_H
#define TRAFFIC_H

#include <stddef.h>
#include <stdint.h>

// About how many words the memory holds while the traffic lasts. Swept goes from empty to full and back.
enum traffic_fill { TRAFFIC_EMPTY, TRAFFIC_SWEPT, TRAFFIC_FULL };

struct traffic {
    uint64_t random;
    uint32_t depth;
    enum traffic_fill fill;
    uint64_t made;
    uint32_t burst_left;
    uint32_t write_pace; // in records between two changes of the clock
    uint32_t read_pace;
    uint32_t enables_low;
    uint32_t clocks;
};

struct traffic traffic_start(uint32_t depth, enum traffic_fill fill);

// A Master Reset and, for a memory that is to be full, as many writes as it has words.
size_t traffic_opening_records(const struct traffic *traffic);
void traffic_put_opening(const struct traffic *traffic, uint8_t *trace);

void traffic_put(struct traffic *traffic, uint8_t *trace, size_t records);

// The three bytes that follow a record in a chain's trace: the transfer clock, which keeps a pace of its own, and the marks of
// eight parts. Their draws are their own too, so that the records are those of any other traffic.
struct traffic traffic_start_links(void);
void traffic_put_links(struct traffic *links, uint8_t *bytes);

// In the opening the transfer clock changes with every record, so that what is written goes on to the last part.
void traffic_put_opening_links(size_t record, uint8_t *bytes);

#endif

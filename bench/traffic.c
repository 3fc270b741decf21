#include "traffic.h"

#include "plain_pins.h"

// MRS, PRS, WEN, REN, LD, SEN and RT HIGH, FWFT/SI and OE LOW, both skews met.
static const uint32_t IDLE = 0xCF980000;

static const uint64_t SEED = 3;
static const uint64_t LINKS_SEED = 7;

enum { TRANSFER_CLOCK = 0x80, MARKS = 16 };

struct traffic traffic_start(uint32_t depth, enum traffic_fill fill)
{
    return (struct traffic){.random = SEED, .depth = depth, .fill = fill, .clocks = WCLK | RCLK};
}

static uint32_t draw(struct traffic *traffic)
{
    traffic->random = traffic->random * 6364136223846793005u + 1442695040888963407u;
    return (uint32_t)(traffic->random >> 32);
}

// True in `parts` of sixteen draws.
static int chance(struct traffic *traffic, uint32_t parts)
{
    return draw(traffic) % 16 < parts;
}

static void put_record(uint8_t *bytes, uint32_t record)
{
    bytes[0] = (uint8_t)(record >> 24);
    bytes[1] = (uint8_t)(record >> 16);
    bytes[2] = (uint8_t)(record >> 8);
    bytes[3] = (uint8_t)record;
}

size_t traffic_opening_records(const struct traffic *traffic)
{
    return traffic->fill == TRAFFIC_FULL ? 1 + 2 * (size_t)traffic->depth : 1;
}

void traffic_put_opening(const struct traffic *traffic, uint8_t *trace)
{
    put_record(trace, (IDLE | WCLK | RCLK) & ~(MRS | LD));
    for (size_t i = 1; i < traffic_opening_records(traffic); i++)
        put_record(trace + 4 * i, ((IDLE | RCLK) & ~WEN) | (i % 2 == 0 ? WCLK : 0) | ((uint32_t)i & WORD));
}

static int filling(const struct traffic *traffic)
{
    return traffic->fill == TRAFFIC_FULL
        || (traffic->fill == TRAFFIC_SWEPT && traffic->made / (8 * traffic->depth) % 2 == 0);
}

static void start_burst(struct traffic *traffic)
{
    uint32_t write_parts = filling(traffic) ? 15 : 6;
    uint32_t read_parts = filling(traffic) ? 6 : 15;
    traffic->burst_left = 32 + draw(traffic) % 256;
    traffic->write_pace = 1 + draw(traffic) % 3;
    traffic->read_pace = 1 + draw(traffic) % 3;
    traffic->enables_low = (chance(traffic, write_parts) ? WEN : 0) | (chance(traffic, read_parts) ? REN : 0);
}

static void move_clocks(struct traffic *traffic)
{
    if (traffic->burst_left == 0)
        start_burst(traffic);
    traffic->burst_left--;
    traffic->made++;
    traffic->clocks ^= (traffic->made % traffic->write_pace == 0 ? WCLK : 0)
        | (traffic->made % traffic->read_pace == 0 ? RCLK : 0);
}

static uint32_t next_record(struct traffic *traffic)
{
    move_clocks(traffic);
    uint32_t skews_missed = (chance(traffic, 1) ? WRITE_SKEW_MET : 0) | (chance(traffic, 1) ? READ_SKEW_MET : 0);
    return (IDLE & ~traffic->enables_low & ~skews_missed) | traffic->clocks | (draw(traffic) & WORD);
}

void traffic_put(struct traffic *traffic, uint8_t *trace, size_t records)
{
    for (size_t i = 0; i < records; i++)
        put_record(trace + 4 * i, next_record(traffic));
}

static void put_links(uint8_t *bytes, int clock, uint32_t marks)
{
    bytes[0] = clock ? TRANSFER_CLOCK : 0;
    bytes[1] = (uint8_t)(marks >> 8);
    bytes[2] = (uint8_t)marks;
}

struct traffic traffic_start_links(void)
{
    struct traffic links = traffic_start(1, TRAFFIC_EMPTY);
    links.random = LINKS_SEED;
    return links;
}

// Of its two clocks the first stands for the transfer clock.
void traffic_put_links(struct traffic *links, uint8_t *bytes)
{
    uint32_t marks = 0;
    move_clocks(links);
    for (int i = 0; i < MARKS; i++)
        marks = 2 * marks + !chance(links, 1);
    put_links(bytes, (links->clocks & WCLK) != 0, marks);
}

void traffic_put_opening_links(size_t record, uint8_t *bytes)
{
    put_links(bytes, record % 2 == 0, (1u << MARKS) - 1);
}

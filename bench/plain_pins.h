// "Trace sample": the record's pins at their places.
#ifndef PLAIN_PINS_H
#define PLAIN_PINS_H

#include "plain.h"

static const uint32_t MRS = 1u << 31;
static const uint32_t PRS = 1u << 30;
static const uint32_t WCLK = 1u << 29;
static const uint32_t RCLK = 1u << 28;
static const uint32_t WEN = 1u << 27;
static const uint32_t REN = 1u << 26;
static const uint32_t LD = 1u << 25;
static const uint32_t SEN = 1u << 24;
static const uint32_t RT = 1u << 23;
static const uint32_t FWFT_SI = 1u << 22;
static const uint32_t OE = 1u << 21;
static const uint32_t WRITE_SKEW_MET = 1u << 20;
static const uint32_t READ_SKEW_MET = 1u << 19;
static const uint32_t UNSETTLED = 1u << 18;
static const uint32_t WORD = (1u << 18) - 1;

static inline bool low(uint32_t record, uint32_t pin)
{
    return (record & pin) == 0;
}

// Counts are taken round their width of 16 bits.
static inline uint32_t difference(uint16_t later, uint16_t earlier)
{
    return (uint16_t)(later - earlier);
}

#endif

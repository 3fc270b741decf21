// The chain's trace: each record of the bench's traffic with the transfer clock and the parts' marks, in FWFT mode.
#ifndef CHAIN_H
#define CHAIN_H

#include "contestants.h"
#include "traffic.h"

// The number of records in the opening, before the traffic, which is that for one memory as long as all parts' together.
size_t put_chain(struct job *chain, size_t parts, uint32_t number, enum traffic_fill fill, size_t records);

#endif

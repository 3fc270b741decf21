// The time that a model takes for a record.
#ifndef TIMING_H
#define TIMING_H

#include "contestants.h"
#include "traffic.h"

// With room for a trace of so many samples of traffic on either part, each of so many records, or for a chain's of up to
// eight parts: its record takes the room of two.
struct job new_job(size_t samples, size_t records_each);

// The number of records in the opening, before the traffic.
size_t put_trace(struct job *job, uint32_t number, enum traffic_fill fill, size_t records);

// Ends the program where a record is refused.
void work(const struct model *model, const struct job *job, size_t records);

// Ends the program unless both models give the same answers.
void compare_answers(const struct model *model, const struct model *other, const struct job *job, size_t records);

// For a record of the traffic; the time of the opening is taken off.
double nanoseconds(const struct model *model, const struct job *job, size_t opening, size_t records);

#endif

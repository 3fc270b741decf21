// The pair's trace, whose samples are two records, over the single part's.
#ifndef HALVES_H
#define HALVES_H

#include "contestants.h"

// Each record of the single part's trace twice, the right one with D inverted.
void put_halves(struct job *pair, const struct job *single, size_t records);

// Ends the program unless the pair answers as the single part does to the records of each half.
void compare_halves(const struct job *pair, struct job *single, size_t records);

#endif

// The ways to work a trace that are timed against each other.
#ifndef CONTESTANTS_H
#define CONTESTANTS_H

#include <stddef.h>
#include <stdint.h>

struct job {
    uint32_t number;
    uint32_t depth;
    size_t parts; // in a row; 1 where there is no chain
    uint8_t *trace;
    uint8_t *answers;
    uint32_t *words;
    uint32_t *right_words; // of the pair's right part
    uint8_t *memory; // as the C call wants it, in bytes
};

// `work` begins at power-up and gives the number of records taken.
struct model {
    const char *name;
    size_t (*work)(const struct job *job, size_t records);
};

// These two link without the proved libraries, so that they can be built for any processor.
extern const struct model by_plain_model;
extern const struct model by_plain_run;

enum { PLAIN_MODEL, PLAIN_RUN, C_CALL, RUN, MODELS };
extern const struct model *const models[MODELS];

// Its records are samples of two.
extern const struct model by_pair_run;

// Its records are of seven bytes.
extern const struct model by_chain_run;

#endif

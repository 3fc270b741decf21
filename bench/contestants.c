#include "contestants.h"

#include "chain_c.h"
#include "fifo.h"
#include "pair_c.h"
#include "run_c.h"

static size_t work_by_c_call(const struct job *job, size_t records)
{
    uint8_t state[fifo_state_bytes()];
    size_t memory_bytes = fifo_memory_bytes(job->number);
    size_t i = 0;
    fifo_power_up(state, sizeof state);
    while (i < records
           && fifo_sample(job->number, job->trace + 4 * i, 4, state, sizeof state, job->memory, memory_bytes,
                          job->answers + 3 * i, 3)
               == 0)
        i++;
    return i;
}

static size_t work_by_run(const struct job *job, size_t records)
{
    return fifo_run(job->number, job->trace, 4 * records, job->words, job->depth, job->answers, 3 * records);
}

static size_t work_by_pair_run(const struct job *job, size_t samples)
{
    return pair_run(job->number, job->trace, 8 * samples, job->words, job->depth, job->right_words, job->depth,
                    job->answers, 6 * samples);
}

static size_t work_by_chain_run(const struct job *job, size_t records)
{
    return chain_run(job->number, job->parts, job->trace, 7 * records, job->words, job->parts * job->depth, job->answers,
                     3 * records);
}

static const struct model by_c_call = {"C call", work_by_c_call};
static const struct model by_run = {"run", work_by_run};
const struct model by_pair_run = {"pair's run", work_by_pair_run};
const struct model by_chain_run = {"chain's run", work_by_chain_run};

const struct model *const models[MODELS] = {
    [PLAIN_MODEL] = &by_plain_model,
    [PLAIN_RUN] = &by_plain_run,
    [C_CALL] = &by_c_call,
    [RUN] = &by_run,
};

#include "contestants.h"

#include "plain.h"

static size_t work_by_plain_sample(const struct job *job, size_t records)
{
    struct plain_state state = plain_power_up();
    size_t i = 0;
    while (i < records
           && plain_sample(job->number, job->trace + 4 * i, 4, &state, job->words, job->depth, job->answers + 3 * i, 3)
               == 0)
        i++;
    return i;
}

static size_t work_by_plain_run(const struct job *job, size_t records)
{
    struct plain_state state = plain_power_up();
    return plain_run(job->number, job->trace, 4 * records, &state, job->words, job->depth, job->answers, 3 * records)
        .index;
}

const struct model by_plain_model = {"plain C model", work_by_plain_sample};
const struct model by_plain_run = {"plain C run", work_by_plain_run};

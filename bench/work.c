// work MODEL RECORDS [PARTS]: works the first records of some swept traffic by one model, for a count of its instructions.
// The pair's run works as many samples; the chain's run wants the number of parts.
#include "chain.h"
#include "halves.h"
#include "timing.h"

#include <stdio.h>
#include <stdlib.h>
#include <string.h>

// Whatever part of it is worked, so that two counts differ by the model's instructions alone.
enum { TRAFFIC_RECORDS = 10000 };

enum { PART = 255, MOST_PARTS = 8 };

static const struct model *model_named(const char *name)
{
    for (int i = 0; i < MODELS; i++)
        if (strcmp(name, models[i]->name) == 0)
            return models[i];
    if (strcmp(name, by_chain_run.name) == 0)
        return &by_chain_run;
    return strcmp(name, by_pair_run.name) == 0 ? &by_pair_run : NULL;
}

static struct job job_for(const struct model *model, size_t parts)
{
    struct job job = new_job(TRAFFIC_RECORDS, 2);
    if (model == &by_chain_run) {
        put_chain(&job, parts, PART, TRAFFIC_SWEPT, TRAFFIC_RECORDS);
        return job;
    }
    struct job single = new_job(TRAFFIC_RECORDS, 1);
    put_trace(&single, PART, TRAFFIC_SWEPT, TRAFFIC_RECORDS);
    if (model != &by_pair_run)
        return single;
    put_halves(&job, &single, TRAFFIC_RECORDS);
    return job;
}

int main(int count, char **arguments)
{
    const struct model *model = count >= 3 ? model_named(arguments[1]) : NULL;
    size_t records = count >= 3 ? strtoul(arguments[2], NULL, 10) : 0;
    size_t parts = count == 4 ? strtoul(arguments[3], NULL, 10) : 1;
    if (model == NULL || count > 4 || records > TRAFFIC_RECORDS || parts > MOST_PARTS) {
        fprintf(stderr, "usage: work MODEL RECORDS [PARTS], at most %d and %d\n", TRAFFIC_RECORDS, MOST_PARTS);
        return 2;
    }
    struct job job = job_for(model, parts);
    return model->work(&job, records) == records ? 0 : 1;
}

#include "timing.h"

#include "plain.h"

#include <stdio.h>
#include <stdlib.h>
#include <string.h>
#include <time.h>

enum { DEEPEST = 16384, MOST_WORDS = 8 * DEEPEST, TIMED_RECORDS = 2000000, LEAST_REPEATS = 3, MOST_REPEATS = 200 };

static void *lend(size_t bytes)
{
    void *room = calloc(bytes, 1);
    if (room == NULL) {
        fputs("bench: no memory\n", stderr);
        exit(1);
    }
    return room;
}

struct job new_job(size_t samples, size_t records_each)
{
    size_t most = (samples + 1 + 2 * MOST_WORDS) * records_each;
    return (struct job){
        .parts = 1,
        .trace = lend(4 * most),
        .answers = lend(3 * most),
        .words = lend(4 * MOST_WORDS),
        .right_words = lend(4 * DEEPEST),
        .memory = lend(4 * DEEPEST),
    };
}

size_t put_trace(struct job *job, uint32_t number, enum traffic_fill fill, size_t records)
{
    job->number = number;
    job->depth = plain_part(number)->depth;
    struct traffic traffic = traffic_start((uint32_t)job->parts * job->depth, fill);
    size_t opening = traffic_opening_records(&traffic);
    traffic_put_opening(&traffic, job->trace);
    traffic_put(&traffic, job->trace + 4 * opening, records);
    return opening;
}

void work(const struct model *model, const struct job *job, size_t records)
{
    size_t taken = model->work(job, records);
    if (taken != records) {
        fprintf(stderr, "bench: %s refuses record %zu of legal traffic\n", model->name, taken);
        exit(1);
    }
}

void compare_answers(const struct model *model, const struct model *other, const struct job *job, size_t records)
{
    uint8_t *expected = lend(3 * records);
    work(model, job, records);
    memcpy(expected, job->answers, 3 * records);
    memset(job->answers, 0, 3 * records);
    work(other, job, records);
    if (memcmp(expected, job->answers, 3 * records) != 0) {
        fprintf(stderr, "bench: %s and %s give different answers\n", model->name, other->name);
        exit(1);
    }
    free(expected);
}

static double seconds_once(const struct model *model, const struct job *job, size_t records)
{
    struct timespec from;
    struct timespec to;
    clock_gettime(CLOCK_PROCESS_CPUTIME_ID, &from);
    work(model, job, records);
    clock_gettime(CLOCK_PROCESS_CPUTIME_ID, &to);
    return (double)(to.tv_sec - from.tv_sec) + 1e-9 * (double)(to.tv_nsec - from.tv_nsec);
}

static size_t repeats_for(size_t records)
{
    size_t repeats = TIMED_RECORDS / records;
    if (repeats < LEAST_REPEATS)
        return LEAST_REPEATS;
    return repeats < MOST_REPEATS ? repeats : MOST_REPEATS;
}

// The smallest of several, since whatever else the machine does only adds.
static double seconds(const struct model *model, const struct job *job, size_t records)
{
    size_t repeats = repeats_for(records);
    double smallest = seconds_once(model, job, records);
    for (size_t i = 1; i < repeats; i++) {
        double next = seconds_once(model, job, records);
        smallest = next < smallest ? next : smallest;
    }
    return smallest;
}

double nanoseconds(const struct model *model, const struct job *job, size_t opening, size_t records)
{
    return 1e9 * (seconds(model, job, opening + records) - seconds(model, job, opening)) / (double)records;
}

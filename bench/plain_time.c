// plain_time PART RECORDS: what the plain C model takes for a record of swept traffic, in nanoseconds.
#include "plain.h"
#include "timing.h"

#include <stdio.h>
#include <stdlib.h>

int main(int count, char **arguments)
{
    uint32_t number = count == 3 ? (uint32_t)strtoul(arguments[1], NULL, 10) : 0;
    size_t records = count == 3 ? strtoul(arguments[2], NULL, 10) : 0;
    if (plain_part(number) == NULL || records == 0) {
        fputs("usage: plain_time PART RECORDS\n", stderr);
        return 2;
    }
    struct job job = new_job(records, 1);
    size_t opening = put_trace(&job, number, TRAFFIC_SWEPT, records);
    printf("%.2f\n", nanoseconds(&by_plain_model, &job, opening, records));
    return 0;
}

// put_traffic PART RECORDS: a trace on standard output, for the programs that take theirs from standard input.
#include "plain.h"
#include "traffic.h"

#include <stdio.h>
#include <stdlib.h>

int main(int count, char **arguments)
{
    uint32_t number = count == 3 ? (uint32_t)strtoul(arguments[1], NULL, 10) : 0;
    const struct plain_part *part = plain_part(number);
    if (part == NULL) {
        fputs("usage: put_traffic PART RECORDS\n", stderr);
        return 2;
    }
    size_t records = strtoul(arguments[2], NULL, 10);
    struct traffic traffic = traffic_start(part->depth, TRAFFIC_SWEPT);
    uint8_t bytes[4] = {(uint8_t)(number >> 8), (uint8_t)number};
    fwrite(bytes, 1, 2, stdout);
    traffic_put_opening(&traffic, bytes);
    fwrite(bytes, 1, 4, stdout);
    for (size_t i = 1; i < records; i++) {
        traffic_put(&traffic, bytes, 1);
        fwrite(bytes, 1, 4, stdout);
    }
    return 0;
}

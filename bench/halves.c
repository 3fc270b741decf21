#include "halves.h"

#include "timing.h"

#include <stdio.h>
#include <stdlib.h>
#include <string.h>

enum { LEFT, RIGHT };

static const uint8_t inverted[4] = {0, 0x03, 0xFF, 0xFF}; // D is the low 18 bits

void put_halves(struct job *pair, const struct job *single, size_t records)
{
    pair->number = single->number;
    pair->depth = single->depth;
    for (size_t byte = 0; byte < 4 * records; byte++) {
        uint8_t *sample = pair->trace + byte / 4 * 8;
        sample[byte % 4] = single->trace[byte];
        sample[4 + byte % 4] = single->trace[byte] ^ inverted[byte % 4];
    }
}

static void compare_half(const struct job *pair, int half, struct job *single, size_t records)
{
    for (size_t i = 0; i < records; i++)
        memcpy(single->trace + 4 * i, pair->trace + 8 * i + 4 * half, 4);
    work(models[RUN], single, records);
    for (size_t i = 0; i < records; i++)
        if (memcmp(single->answers + 3 * i, pair->answers + 6 * i + 3 * half, 3) != 0) {
            fprintf(stderr, "bench: %s and %s give different answers to record %zu of the %s half\n",
                    by_pair_run.name, models[RUN]->name, i, half == LEFT ? "left" : "right");
            exit(1);
        }
}

// The left half comes last, which leaves the single part's trace as it was.
void compare_halves(const struct job *pair, struct job *single, size_t records)
{
    work(&by_pair_run, pair, records);
    compare_half(pair, RIGHT, single, records);
    compare_half(pair, LEFT, single, records);
}

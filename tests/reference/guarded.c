#include "guarded.h"

#include <stdio.h>
#include <stdlib.h>
#include <string.h>
#include <sys/mman.h>
#include <unistd.h>

struct guarded guarded_new(size_t bytes)
{
    size_t page = (size_t)sysconf(_SC_PAGESIZE);
    size_t room = (bytes + page - 1) / page * page;
    uint8_t *all = mmap(NULL, room + 2 * page, PROT_NONE, MAP_PRIVATE | MAP_ANONYMOUS, -1, 0);
    uint8_t *copy = calloc(1, room);
    if (all == MAP_FAILED || copy == NULL || mprotect(all + page, room, PROT_READ | PROT_WRITE) != 0) {
        perror("guarded buffer");
        exit(2);
    }
    return (struct guarded){all + page, copy, room};
}

uint8_t *guarded_at(const struct guarded *buffer, uint64_t length, int against_front)
{
    if (against_front || length > buffer->room)
        return buffer->start;
    return buffer->start + (buffer->room - length);
}

/* Word by word and only where needed: an emulated processor copies whole blocks far slower than it compares them. */
void guarded_keep(struct guarded *buffer)
{
    const uint64_t *from = (const uint64_t *)buffer->start;
    uint64_t *to = (uint64_t *)buffer->copy;
    for (size_t i = 0; i < buffer->room / sizeof *to; i++)
        if (to[i] != from[i])
            to[i] = from[i];
}

int guarded_moved(const struct guarded *buffer)
{
    return memcmp(buffer->start, buffer->copy, buffer->room) != 0;
}

size_t guarded_first_moved(const struct guarded *buffer)
{
    size_t place = 0;
    while (place < buffer->room && memcmp(buffer->start + place, buffer->copy + place, GUARDED_STEP) == 0)
        place += GUARDED_STEP;
    return place;
}

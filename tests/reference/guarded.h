/* Buffers between two pages that may not be touched, each with a copy by which to tell what has moved. */
#ifndef GUARDED_H
#define GUARDED_H

#include <stddef.h>
#include <stdint.h>

/* Bytes that are looked at together. */
enum { GUARDED_STEP = 8 };

struct guarded {
    uint8_t *start, *copy;
    size_t room;
};

/* At least so many bytes with a forbidden page on either side. */
struct guarded guarded_new(size_t bytes);

/* So many of its bytes, up against the page in front or up against the page behind. A length beyond the room, which a
   caller in error may give, gets a pointer into it all the same. */
uint8_t *guarded_at(const struct guarded *buffer, uint64_t length, int against_front);

/* Takes the copy anew. */
void guarded_keep(struct guarded *buffer);

int guarded_moved(const struct guarded *buffer);

/* Where the first step lies of which a byte has moved; the room where none has. */
size_t guarded_first_moved(const struct guarded *buffer);

#endif

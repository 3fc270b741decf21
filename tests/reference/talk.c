#include "talk.h"

#include <stdio.h>
#include <stdlib.h>

void stop(const char *why)
{
    fprintf(stderr, "driver: %s\n", why);
    exit(2);
}

void receive(void *to, size_t bytes)
{
    if (fread(to, 1, bytes, stdin) != bytes)
        stop("a command ends early");
}

uint32_t receive_number(void)
{
    uint32_t number;
    receive(&number, sizeof number);
    return number;
}

void reply(const void *from, size_t bytes)
{
    fwrite(from, 1, bytes, stdout);
}

uint32_t next_word(uint32_t word)
{
    word ^= word << 13;
    word ^= word >> 17;
    return word ^ word << 5;
}

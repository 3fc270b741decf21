/* Commands in and replies out, for a program that a comparison in another process tells what to call. Numbers are
   little-endian, as the processor has them. */
#ifndef TALK_H
#define TALK_H

#include <stddef.h>
#include <stdint.h>

/* Ends the program. */
void stop(const char *why);

void receive(void *to, size_t bytes);

uint32_t receive_number(void);

void reply(const void *from, size_t bytes);

/* The xorshift sequence that memories are filled from. */
uint32_t next_word(uint32_t word);

#endif

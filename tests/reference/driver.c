/* Calls the static library for a comparison that runs in another process. Commands come on standard input, replies go to
   standard output. Every buffer lies against a forbidden page. */
#include <stdio.h>
#include <stdlib.h>
#include <string.h>

#include "fifo.h"
#include "guarded.h"
#include "talk.h"

enum { RECORD = 4, ANSWER = 3, WORD = 4, FILLED = 0xA5 };
enum { STATE_MOVED = 1, MEMORY_MOVED = 2, ANSWER_MOVED = 4, RECORD_MOVED = 8, NOT_REPEATED = 16 };

/* What one call is given besides the state and the memory, as it comes in the command. */
struct call {
    uint32_t part;
    uint8_t record[2 * RECORD];
    uint64_t record_length, state_length, memory_length, answer_length;
} __attribute__((packed));

static struct guarded records, states, memories[2], rooms;
static int against_front;
static uint32_t part, state_bytes;
static uint8_t *saved_state, *last_state;

/* The word of the memory that the last watched call has changed, and its number. */
#define NO_WORD UINT32_MAX
static const uint8_t no_word[WORD], *written = no_word;
static uint32_t written_word = NO_WORD;

static const uint8_t filled[ANSWER] = {FILLED, FILLED, FILLED};
/* Whether the memories may have changed since their copies were taken. */
static int memory_copies_old = 1;

/* Each part's memory has a buffer of just its length; one of another length goes into the smallest that it fits. */
static struct guarded *memory_for(uint64_t length)
{
    return &memories[length > memories[0].room];
}

static uint8_t *state_now(void)
{
    return guarded_at(&states, state_bytes, against_front);
}

static uint8_t *memory_now(void)
{
    uint32_t length = fifo_memory_bytes(part);
    return guarded_at(memory_for(length), length, against_front);
}

static uint32_t sample(const struct call *call)
{
    uint8_t *record = guarded_at(&records, call->record_length, against_front);
    memcpy(record, call->record, call->record_length < sizeof call->record ? call->record_length : sizeof call->record);
    return fifo_sample(call->part, record, call->record_length,
                       guarded_at(&states, call->state_length, against_front), call->state_length,
                       guarded_at(memory_for(call->memory_length), call->memory_length, against_front),
                       call->memory_length,
                       guarded_at(&rooms, call->answer_length, against_front), call->answer_length);
}

static int record_moved(const struct call *call)
{
    uint8_t *record = guarded_at(&records, call->record_length, against_front);
    return call->record_length <= sizeof call->record && memcmp(record, call->record, call->record_length) != 0;
}

static int moved(const struct call *call)
{
    return (guarded_moved(&states) ? STATE_MOVED : 0) |
           (guarded_moved(memory_for(call->memory_length)) ? MEMORY_MOVED : 0) |
           (guarded_moved(&rooms) ? ANSWER_MOVED : 0) | (record_moved(call) ? RECORD_MOVED : 0);
}

static void keep_all(void)
{
    if (memory_copies_old) {
        guarded_keep(&memories[0]);
        guarded_keep(&memories[1]);
        memory_copies_old = 0;
    }
    memcpy(guarded_at(&rooms, ANSWER, against_front), filled, ANSWER);
    guarded_keep(&rooms);
    guarded_keep(&states);
}

static void exchange(struct guarded *buffer, const uint8_t *from, size_t bytes)
{
    for (size_t i = (size_t)(from - buffer->start), end = i + bytes; i < end; i++) {
        uint8_t byte = buffer->start[i];
        buffer->start[i] = buffer->copy[i];
        buffer->copy[i] = byte;
    }
}

/* Where the first word lies that has moved; the room where none has. */
static size_t first_moved_word(const struct guarded *memory)
{
    size_t place = guarded_first_moved(memory);
    if (place < memory->room && memcmp(memory->start + place, memory->copy + place, WORD) == 0)
        place += WORD;
    return place;
}

/* A taken call may have changed the state, the answer and one word of the memory. These and their copies change places, so
   that all is as before the call and the copies are as after it, unless more has changed. */
static void go_back(const struct call *call)
{
    struct guarded *memory = memory_for(call->memory_length);
    size_t place = first_moved_word(memory);
    exchange(&states, state_now(), state_bytes);
    exchange(&rooms, guarded_at(&rooms, ANSWER, against_front), ANSWER);
    if (place < memory->room) {
        exchange(memory, memory->start + place, WORD);
        written = memory->start + place;
        written_word = (uint32_t)(place / WORD);
    }
}

/* One call made twice from the same bytes, everything around it looked at. */
static void watched_call(void)
{
    struct call call;
    receive(&call, sizeof call);
    keep_all();
    written = no_word;
    written_word = NO_WORD;
    uint32_t code = sample(&call);
    uint8_t faults = 0, answer[ANSWER] = {0};
    if (code == 0)
        go_back(&call);
    else
        faults |= moved(&call);
    if (sample(&call) != code)
        faults |= NOT_REPEATED;
    faults |= moved(&call);
    if (code == 0)
        memcpy(answer, guarded_at(&rooms, ANSWER, against_front), ANSWER);
    reply(&code, sizeof code);
    reply(&faults, 1);
    reply(answer, ANSWER);
}

static void aftermath(void)
{
    reply(state_now(), state_bytes);
    reply(&written_word, sizeof written_word);
    reply(written, WORD);
}

/* Samples in a row, each given with a mark: whether the memory is to be compared too, which the caller asks for where it
   expects a refusal. The reply to each is the number and either the answer or what moved. */
static void samples_in_a_row(void)
{
    struct call call = {part, {0}, RECORD, state_bytes, fifo_memory_bytes(part), ANSWER};
    struct guarded *memory = memory_for(call.memory_length);
    uint8_t *answer = guarded_at(&rooms, ANSWER, against_front);
    memory_copies_old = 1;
    for (uint32_t left = receive_number(); left > 0; left--) {
        uint8_t watch_memory, told[1 + ANSWER] = {0};
        receive(&watch_memory, 1);
        receive(call.record, RECORD);
        memcpy(last_state, state_now(), state_bytes);
        if (watch_memory)
            guarded_keep(memory);
        memcpy(answer, filled, ANSWER);
        told[0] = (uint8_t)sample(&call);
        if (told[0] == 0)
            memcpy(told + 1, answer, ANSWER);
        else
            told[1] = (memcmp(last_state, state_now(), state_bytes) != 0 ? STATE_MOVED : 0) |
                      (watch_memory && guarded_moved(memory) ? MEMORY_MOVED : 0) |
                      (memcmp(answer, filled, ANSWER) != 0 ? ANSWER_MOVED : 0);
        reply(told, sizeof told);
    }
}

static void power_up(void)
{
    against_front = (int)receive_number();
    part = receive_number();
    if (fifo_power_up(state_now(), state_bytes) != 0)
        stop("power-up is refused");
}

static void watched_power_up(void)
{
    uint64_t length;
    receive(&length, sizeof length);
    guarded_keep(&states);
    uint32_t code = fifo_power_up(guarded_at(&states, length, against_front), length);
    uint8_t faults = guarded_moved(&states) ? STATE_MOVED : 0;
    reply(&code, sizeof code);
    reply(&faults, 1);
}

static void refill(void)
{
    uint32_t word = receive_number() | 1;
    uint8_t *memory = memory_now();
    memory_copies_old = 1;
    for (uint32_t i = 0; i < fifo_memory_bytes(part); i += 4) {
        word = next_word(word);
        for (int byte = 0; byte < 4; byte++)
            memory[i + byte] = (uint8_t)(word >> (24 - 8 * byte));
    }
}

static void damage_byte(void)
{
    uint32_t place = receive_number() % state_bytes;
    state_now()[place] ^= (uint8_t)receive_number();
}

static void random_state(void)
{
    uint32_t word = receive_number() | 1;
    for (uint32_t i = 0; i < state_bytes; i++) {
        word = next_word(word);
        state_now()[i] = (uint8_t)(word >> 11);
    }
}

static void memory_bytes_of(void)
{
    uint32_t bytes = fifo_memory_bytes(receive_number());
    reply(&bytes, sizeof bytes);
}

static void obey(int command)
{
    switch (command) {
    case 'P': power_up(); break;
    case 'F': refill(); break;
    case 'R': samples_in_a_row(); break;
    case 'M': reply(memory_now(), fifo_memory_bytes(part)); break;
    case 'W': watched_call(); break;
    case 'U': watched_power_up(); break;
    case 'S': memcpy(saved_state, state_now(), state_bytes); break;
    case 'B': memcpy(state_now(), saved_state, state_bytes); break;
    case 'T': receive(state_now(), state_bytes); break;
    case 'G': reply(state_now(), state_bytes); break;
    case 'A': aftermath(); break;
    case 'D': damage_byte(); break;
    case 'X': random_state(); break;
    case 'N': memory_bytes_of(); break;
    case 'L': reply(&state_bytes, sizeof state_bytes); break;
    case 'E': fflush(stdout); break;
    default: stop("no such command");
    }
}

int main(void)
{
    state_bytes = fifo_state_bytes();
    records = guarded_new(2 * RECORD);
    states = guarded_new(state_bytes);
    memories[0] = guarded_new(fifo_memory_bytes(255));
    memories[1] = guarded_new(fifo_memory_bytes(265));
    rooms = guarded_new(ANSWER);
    saved_state = malloc(state_bytes);
    last_state = malloc(state_bytes);
    if (saved_state == NULL || last_state == NULL)
        stop("no room for states");
    for (int command = getchar(); command != EOF; command = getchar())
        obey(command);
    return 0;
}

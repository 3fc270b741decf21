/* Makes whole runs by the static library, each told on standard input, with what came of it on standard output. Every
   buffer lies against a forbidden page. */
#include <stdio.h>
#include <string.h>

#include "guarded.h"
#include "handed_c.h"
#include "talk.h"

enum { STATE = 52, MOST_RECORDS = 70100, MOST_WORDS = 16384 + 1, ENDED = 2, FILLED = 0xA5 };

struct run {
    uint32_t lenient, against_front, part, seed;
    uint64_t trace_length, words, answers_length, marks_length;
    uint8_t state[STATE];
} __attribute__((packed));

/* A buffer with the piece of it that a run is lent. */
struct lent {
    struct guarded whole;
    uint8_t *at;
    size_t length;
};

static struct lent trace, state, memory, answers, marks, ended;

static void lend(struct lent *buffer, size_t length, int against_front)
{
    if (length > buffer->whole.room)
        stop("no room for so long a run");
    buffer->length = length;
    buffer->at = guarded_at(&buffer->whole, length, against_front);
    memset(buffer->whole.start, FILLED, buffer->whole.room);
}

/* Whether anything has moved outside of what was lent. */
static int strayed(struct lent *buffer)
{
    memcpy(buffer->whole.copy + (buffer->at - buffer->whole.start), buffer->at, buffer->length);
    return guarded_moved(&buffer->whole);
}

static void lend_all(const struct run *run)
{
    int front = (int)run->against_front;
    lend(&trace, run->trace_length, front);
    lend(&state, STATE, front);
    lend(&memory, run->words * sizeof(uint32_t), front);
    lend(&answers, run->answers_length, front);
    lend(&marks, run->marks_length, front);
    lend(&ended, ENDED * sizeof(uint64_t), front);
    receive(trace.at, trace.length);
    memcpy(state.at, run->state, STATE);
    uint32_t word = run->seed | 1;
    for (uint64_t i = 0; i < run->words; i++) {
        word = next_word(word);
        ((uint32_t *)memory.at)[i] = word;
    }
}

static uint32_t work(const struct run *run)
{
    uint32_t *words = (uint32_t *)memory.at;
    uint64_t *end = (uint64_t *)ended.at;
    if (run->lenient)
        return fifo_run_lenient_from(run->part, trace.at, trace.length, state.at, STATE, words, run->words, answers.at,
                                     answers.length, marks.at, marks.length, end, ENDED);
    return fifo_run_from(run->part, trace.at, trace.length, state.at, STATE, words, run->words, answers.at,
                         answers.length, end, ENDED);
}

static void run_once(const struct run *run)
{
    struct lent *all[] = {&trace, &state, &memory, &answers, &marks, &ended}, **changed = all + 1;
    uint8_t faults = 0;
    lend_all(run);
    for (size_t i = 0; i < sizeof all / sizeof *all; i++)
        guarded_keep(&all[i]->whole);
    uint32_t number = work(run);
    faults |= (uint8_t)guarded_moved(&trace.whole);
    for (size_t i = 0; i < sizeof all / sizeof *all - 1; i++)
        faults |= (uint8_t)(strayed(changed[i]) << (i + 1));
    reply(&number, sizeof number);
    reply(&faults, 1);
    for (size_t i = 0; i < sizeof all / sizeof *all - 1; i++)
        reply(changed[i]->at, changed[i]->length);
    fflush(stdout);
}

int main(void)
{
    struct run run;
    trace.whole = guarded_new(4 * MOST_RECORDS);
    state.whole = guarded_new(STATE);
    memory.whole = guarded_new(4 * MOST_WORDS);
    answers.whole = guarded_new(3 * MOST_RECORDS);
    marks.whole = guarded_new(MOST_RECORDS);
    ended.whole = guarded_new(ENDED * sizeof(uint64_t));
    while (fread(&run, sizeof run, 1, stdin) == 1)
        run_once(&run);
    return 0;
}

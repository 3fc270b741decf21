// The trace program in plain C: a trace on standard input, its lines on standard output, strict or lenient.
#include "plain.h"

#include <stdio.h>
#include <string.h>

enum { CHUNK_RECORDS = 4096, LONGEST_LINE = 50 };

struct progress {
    struct plain_state state;
    uint64_t records;
    uint64_t accepted;
    uint32_t refusal;
};

static uint32_t memory[16384];

static char *put_decimal(char *at, uint64_t value)
{
    char digits[20];
    int count = 0;
    do {
        digits[count++] = (char)('0' + value % 10);
        value /= 10;
    } while (value != 0);
    while (count > 0)
        *at++ = digits[--count];
    return at;
}

static char *put_text(char *at, const char *text)
{
    size_t length = strlen(text);
    memcpy(at, text, length);
    return at + length;
}

static char *put_answer_line(char *at, uint64_t index, uint32_t answer)
{
    at = put_decimal(at, index);
    *at++ = ' ';
    for (int shift = 20; shift >= 0; shift -= 4)
        *at++ = "0123456789ABCDEF"[answer >> shift & 15];
    *at++ = '\n';
    return at;
}

static char *put_refusal_line(char *at, uint64_t index, uint32_t refusal)
{
    at = put_decimal(at, index);
    at = put_text(at, " refused ");
    at = put_decimal(at, refusal);
    *at++ = '\n';
    return at;
}

static char *put_record(char *at, const struct plain_part *part, uint32_t record, bool lenient,
                        struct progress *progress)
{
    uint32_t answer;
    uint32_t refusal = plain_step(part, record, &progress->state, memory, &answer);
    if (refusal == 0) {
        progress->accepted++;
        return put_answer_line(at, progress->records++, answer);
    }
    if (lenient)
        return put_refusal_line(at, progress->records++, refusal);
    progress->refusal = refusal;
    return at;
}

static void work_chunk(const struct plain_part *part, const uint8_t *trace, size_t length, bool lenient,
                       struct progress *progress)
{
    static char lines[CHUNK_RECORDS * LONGEST_LINE];
    char *at = lines;
    size_t place = 0;
    for (; place + 4 <= length && progress->refusal == 0; place += 4)
        at = put_record(at, part, plain_record(trace + place), lenient, progress);
    if (place < length && progress->refusal == 0)
        progress->refusal = 4;
    fwrite(lines, 1, (size_t)(at - lines), stdout);
}

static void work_trace(uint32_t number, bool lenient, struct progress *progress)
{
    static uint8_t trace[CHUNK_RECORDS * 4];
    const struct plain_part *part = plain_part(number);
    size_t length = sizeof trace;
    if (part == NULL)
        progress->refusal = 1;
    while (progress->refusal == 0 && length == sizeof trace) {
        length = fread(trace, 1, sizeof trace, stdin);
        work_chunk(part, trace, length, lenient, progress);
    }
}

int main(int count, char **arguments)
{
    bool lenient = count == 2 && strcmp(arguments[1], "lenient") == 0;
    if (count > 1 && !lenient) {
        fputs("plain_trace: the only argument is lenient; the trace comes on standard input\n", stderr);
        return 2;
    }
    uint8_t header[2];
    uint32_t number = fread(header, 1, 2, stdin) == 2 ? (uint32_t)header[0] << 8 | header[1] : 0;
    struct progress progress = {.state = plain_power_up()};
    work_trace(number, lenient, &progress);
    printf("end %llu %u\n", (unsigned long long)progress.accepted, progress.refusal);
    return 0;
}

/* A bench simulator: works a trace file sample by sample and prints a line for each record.
 *
 *   bench FILE            stops at the first refusal
 *   bench lenient FILE    notes a refusal and goes on
 *
 * The file is a part number in two bytes, then records of four bytes, all with the first byte of most weight. */
#include <fifo.h>
#include <stdio.h>
#include <stdlib.h>
#include <string.h>

struct chip {
    uint32_t part;
    uint8_t *state;
    size_t state_len;
    uint8_t *memory;
    size_t memory_len;
};

/* Gives 0, or the refusal of a number that is no part's. */
static uint32_t power_up(struct chip *chip, uint32_t part)
{
    chip->part = part;
    chip->state_len = fifo_state_bytes();
    chip->state = malloc(chip->state_len);
    chip->memory_len = fifo_memory_bytes(part);
    /* A byte more, so that there is a pointer for a memory of no bytes too. */
    chip->memory = calloc(chip->memory_len + 1, 1);
    if (!chip->state || !chip->memory) {
        fputs("bench: no room for the chip\n", stderr);
        exit(2);
    }
    fifo_power_up(chip->state, chip->state_len);
    return chip->memory_len == 0 ? 1 : 0;
}

/* Works every record; gives the number that the trace ends with. */
static uint32_t work(struct chip *chip, FILE *trace, int lenient, unsigned long *accepted)
{
    uint8_t record[4], answer[3];
    unsigned long index;
    size_t got;

    for (index = 0; (got = fread(record, 1, sizeof record, trace)) == sizeof record; index++) {
        uint32_t refusal = fifo_sample(chip->part, record, sizeof record, chip->state, chip->state_len,
                                       chip->memory, chip->memory_len, answer, sizeof answer);
        if (refusal == 0) {
            printf("%lu %02X%02X%02X\n", index, answer[0], answer[1], answer[2]);
            ++*accepted;
        } else if (lenient) {
            printf("%lu refused %u\n", index, (unsigned)refusal);
        } else {
            return refusal;
        }
    }
    return got == 0 ? 0 : 4;
}

int main(int argc, char **argv)
{
    int lenient = argc == 3 && strcmp(argv[1], "lenient") == 0;
    uint8_t number[2];
    unsigned long accepted = 0;
    uint32_t refusal = 1;
    struct chip chip;
    FILE *trace;

    if (argc != 2 + lenient) {
        fputs("usage: bench [lenient] FILE\n", stderr);
        return 2;
    }
    trace = fopen(argv[argc - 1], "rb");
    if (!trace) {
        perror(argv[argc - 1]);
        return 2;
    }
    if (fread(number, 1, sizeof number, trace) == sizeof number)
        refusal = power_up(&chip, (uint32_t)number[0] << 8 | number[1]);
    if (refusal == 0)
        refusal = work(&chip, trace, lenient, &accepted);
    printf("end %lu %u\n", accepted, (unsigned)refusal);
    fclose(trace);
    return 0;
}

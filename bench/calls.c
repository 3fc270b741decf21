// calls [RUST-255 RUST-265 [PLAIN-255 PLAIN-265]]: times the C call and the run against the plain C model, and the pair's
// run and the chain's against the run, in this one process, prints the ratios, then the cost of a record for traces of many
// lengths. The arguments are nanoseconds that a record of the same traffic takes elsewhere: by the Rust reference, and,
// where that was built for another processor than this program, by the plain C model built for that processor too.
#include "chain.h"
#include "halves.h"
#include "timing.h"

#include <stdio.h>
#include <stdlib.h>

enum { RATIO_RECORDS = 1000000, LONGEST = 10000000 };
enum { PARTS = 2, FILLS = 3, COLUMNS = PARTS * FILLS, LENGTHS = 4, CHAIN_LENGTHS = 3, TABLES = 2 };
enum { CHAINS = 2, NAME = 40 };

static const uint32_t numbers[PARTS] = {255, 265};
static const char *const fills[FILLS] = {[TRAFFIC_EMPTY] = "empty", [TRAFFIC_SWEPT] = "swept", [TRAFFIC_FULL] = "full"};
static const size_t lengths[LENGTHS] = {10000, 100000, RATIO_RECORDS, LONGEST}; // a chain's are the first of them
static const size_t chains[CHAINS] = {2, 8}; // in parts

struct row {
    double of[PARTS];
};

static struct row ratio(struct row row, struct row other)
{
    for (int part = 0; part < PARTS; part++)
        row.of[part] /= other.of[part];
    return row;
}

static struct row product(struct row row, struct row other)
{
    for (int part = 0; part < PARTS; part++)
        row.of[part] *= other.of[part];
    return row;
}

static struct row read_row(char **arguments)
{
    struct row row;
    for (int part = 0; part < PARTS; part++)
        row.of[part] = strtod(arguments[part], NULL);
    return row;
}

static void print_row(const char *name, struct row row, const char *remark)
{
    printf("%-32s", name);
    for (int part = 0; part < PARTS; part++)
        printf("%9.2f", row.of[part]);
    printf("   %s\n", remark);
}

static void measure(struct job *job, struct job *pair, struct row cost[MODELS], struct row *pair_cost)
{
    for (int part = 0; part < PARTS; part++) {
        size_t opening = put_trace(job, numbers[part], TRAFFIC_SWEPT, RATIO_RECORDS);
        for (int i = 1; i < MODELS; i++)
            compare_answers(models[0], models[i], job, opening + RATIO_RECORDS);
        put_halves(pair, job, opening + RATIO_RECORDS);
        compare_halves(pair, job, opening + RATIO_RECORDS);
        for (int i = 0; i < MODELS; i++)
            cost[i].of[part] = nanoseconds(models[i], job, opening, RATIO_RECORDS);
        pair_cost->of[part] = nanoseconds(&by_pair_run, pair, opening, RATIO_RECORDS);
    }
}

static void measure_chains(struct job *job, struct row cost[CHAINS])
{
    for (int i = 0; i < CHAINS; i++)
        for (int part = 0; part < PARTS; part++) {
            size_t opening = put_chain(job, chains[i], numbers[part], TRAFFIC_SWEPT, RATIO_RECORDS);
            cost[i].of[part] = nanoseconds(&by_chain_run, job, opening, RATIO_RECORDS);
        }
}

static void print_ratios(const struct row cost[MODELS])
{
    printf("%d records, memory swept from empty to full and back\n%-32s%9u%9u\n", RATIO_RECORDS, "part", numbers[0],
           numbers[1]);
    for (int i = 0; i < MODELS; i++)
        print_row(models[i]->name, cost[i], "ns a record");
    print_row("C call / plain C model", ratio(cost[C_CALL], cost[PLAIN_MODEL]), "goal 1.00");
    print_row("run / plain C model", ratio(cost[RUN], cost[PLAIN_MODEL]), "goal 0.50");
    print_row("run / plain C run", ratio(cost[RUN], cost[PLAIN_RUN]), "");
}

static void print_pair_ratio(struct row pair_cost, struct row run_cost)
{
    const struct row two = {{2, 2}};
    print_row(by_pair_run.name, pair_cost, "ns a sample");
    print_row("pair's run / twice the run", ratio(pair_cost, product(two, run_cost)), "goal 1.15");
}

static void print_chain_ratios(const struct row cost[CHAINS], struct row run_cost)
{
    for (int i = 0; i < CHAINS; i++) {
        char name[NAME];
        char goal[NAME];
        snprintf(name, NAME, "%s of %zu parts", by_chain_run.name, chains[i]);
        print_row(name, cost[i], "ns a record");
        snprintf(name, NAME, "%s of %zu parts / run", by_chain_run.name, chains[i]);
        snprintf(goal, NAME, "goal %zu.00", 3 * chains[i]);
        print_row(name, ratio(cost[i], run_cost), goal);
    }
}

static void print_reference_ratios(const struct row cost[MODELS], struct row reference)
{
    print_row("Rust reference", reference, "ns a record");
    print_row("plain C model / Rust reference", ratio(cost[PLAIN_MODEL], reference), "");
    print_row("C call / Rust reference", ratio(cost[C_CALL], reference), "");
    print_row("run / Rust reference", ratio(cost[RUN], reference), "");
}

// `reference` and `plain` are of one processor, `cost` of another.
static void print_ratios_through_plain(const struct row cost[MODELS], struct row reference, struct row plain)
{
    const char *through = "through the plain C model";
    struct row of_plain = ratio(plain, reference);
    print_row("Rust reference, native", reference, "ns a record");
    print_row("plain C model, native", plain, "ns a record");
    print_row("plain C model / Rust reference", of_plain, "both native");
    print_row("C call / Rust reference", product(ratio(cost[C_CALL], cost[PLAIN_MODEL]), of_plain), through);
    print_row("run / Rust reference", product(ratio(cost[RUN], cost[PLAIN_MODEL]), of_plain), through);
}

static void print_table(const char *name, double cells[][COLUMNS], int rows)
{
    printf("\n%s: ns a record\n%10s", name, "records");
    for (int column = 0; column < COLUMNS; column++)
        printf("%5u %-5s", numbers[column / FILLS], fills[column % FILLS]);
    for (int length = 0; length < rows; length++) {
        printf("\n%10zu", lengths[length]);
        for (int column = 0; column < COLUMNS; column++)
            printf("%9.1f  ", cells[length][column]);
    }
    puts("");
}

static void print_tables(struct job *job)
{
    const int timed[TABLES] = {C_CALL, RUN};
    double cells[TABLES][LENGTHS][COLUMNS];
    for (int column = 0; column < COLUMNS; column++) {
        size_t opening = put_trace(job, numbers[column / FILLS], (enum traffic_fill)(column % FILLS), LONGEST);
        for (int length = 0; length < LENGTHS; length++)
            for (int i = 0; i < TABLES; i++)
                cells[i][length][column] = nanoseconds(models[timed[i]], job, opening, lengths[length]);
    }
    for (int i = 0; i < TABLES; i++)
        print_table(models[timed[i]]->name, cells[i], LENGTHS);
}

static void print_chain_table(struct job *job, size_t parts)
{
    char name[NAME];
    double cells[CHAIN_LENGTHS][COLUMNS];
    for (int column = 0; column < COLUMNS; column++) {
        enum traffic_fill fill = (enum traffic_fill)(column % FILLS);
        size_t opening = put_chain(job, parts, numbers[column / FILLS], fill, RATIO_RECORDS);
        for (int length = 0; length < CHAIN_LENGTHS; length++)
            cells[length][column] = nanoseconds(&by_chain_run, job, opening, lengths[length]);
    }
    snprintf(name, NAME, "%s of %zu parts", by_chain_run.name, parts);
    print_table(name, cells, CHAIN_LENGTHS);
}

int main(int count, char **arguments)
{
    struct row cost[MODELS];
    struct row pair_cost;
    struct row chain_cost[CHAINS];
    if (count != 1 && count != 1 + PARTS && count != 1 + 2 * PARTS) {
        fputs("usage: calls [RUST-255 RUST-265 [PLAIN-255 PLAIN-265]]\n", stderr);
        return 2;
    }
    struct job job = new_job(LONGEST, 1);
    struct job pair = new_job(RATIO_RECORDS, 2);
    struct job chain = new_job(RATIO_RECORDS, 2);
    measure(&job, &pair, cost, &pair_cost);
    measure_chains(&chain, chain_cost);
    print_ratios(cost);
    print_pair_ratio(pair_cost, cost[RUN]);
    print_chain_ratios(chain_cost, cost[RUN]);
    if (count == 1 + PARTS)
        print_reference_ratios(cost, read_row(arguments + 1));
    if (count == 1 + 2 * PARTS)
        print_ratios_through_plain(cost, read_row(arguments + 1), read_row(arguments + 1 + PARTS));
    print_tables(&job);
    for (int i = 0; i < CHAINS; i++)
        print_chain_table(&chain, chains[i]);
    return 0;
}

/* An order from C: a model of true sizes, a plan at those sizes, how many plates the whole order needs, the
 * bound with multipliers, and kinds that keep their grain.
 * The script `run` compiles this file against planner.h and compares what it prints with orders.out. */
#include "planner.h"
#include <inttypes.h>
#include <stdio.h>

enum { KINDS = 2, SIZES = 12 + 8 * KINDS, NODES = 5, LENGTHS = 13, WIDTHS = 2, TABLE_WORDS = 20 };

static uint8_t job[] = {
    12, 0, 1, 0, KINDS, 0, 0, 0,               /* plate 12 by 1, two kinds, kerf 0 */
    4, 0, 1, 0, 3, 0, 1, 0,                    /* 4 by 1, 3 by 1 */
    10, 0, 0, 0, 4, 0, 7, 0, 0, 0, 4, 0,       /* price and demand of each */
    0, 1,                                      /* kind 1 keeps its grain */
};
enum { WITHOUT_GRAIN = sizeof job - KINDS };

static const uint32_t TRUE_SIZES[] = {1000, 700, 4, 330, 690, 245, 690};
static const uint8_t WEIGHTS[KINDS] = {0, 0};

static uint8_t sizes[SIZES];
static uint16_t lengths[LENGTHS], widths[WIDTHS];
static uint64_t table[TABLE_WORDS];

static void write_sizes(void)
{
    for (size_t i = 0; i < SIZES; i++)
        sizes[i] = (uint8_t)(TRUE_SIZES[i / 4] >> 8 * (i % 4));
}

static void tell(const char *what, uint32_t number, const uint64_t *answer, size_t words)
{
    printf("%s", what);
    if (number != PLANNER_DONE)
        printf(" refused %" PRIu32 " place %" PRIu64, number, answer[0]);
    else
        for (size_t i = 0; i < words; i++)
            printf(" %" PRIu64, answer[i]);
    printf("\n");
}

static void check_model(uint8_t plate_length)
{
    uint64_t answer[PLANNER_MODEL_WORDS];
    job[0] = plate_length;
    tell("model", planner_check_model(job, WITHOUT_GRAIN, 0, sizes, SIZES, answer, PLANNER_MODEL_WORDS),
         answer, 0);
}

/* Three pieces of kind 0 in a row. */
static void true_plan(size_t room)
{
    static const uint8_t kinds[NODES] = {2, 1, 2, 1, 1};
    static const uint16_t operands[NODES] = {4, 0, 4, 0, 0};
    uint8_t true_kinds[NODES];
    uint32_t positions[NODES];
    uint64_t answer[PLANNER_TRUE_PLAN_WORDS];
    uint32_t number = planner_true_plan(job, WITHOUT_GRAIN, 0, sizes, SIZES, kinds, NODES, operands, NODES,
                                        true_kinds, room, positions, room, answer,
                                        PLANNER_TRUE_PLAN_WORDS);
    tell("true plan", number, answer, PLANNER_TRUE_PLAN_WORDS);
    for (size_t i = 0; number == PLANNER_DONE && i < answer[0]; i++)
        printf("%d %" PRIu32 "\n", true_kinds[i], positions[i]);
}

static void plates_needed(uint64_t other)
{
    uint64_t answer[PLANNER_PLATES_WORDS];
    tell("plates", planner_plates_needed(job, WITHOUT_GRAIN, 0, WEIGHTS, KINDS, other, lengths, LENGTHS, widths,
                                         WIDTHS, table, TABLE_WORDS, answer, PLANNER_PLATES_WORDS),
         answer, PLANNER_PLATES_WORDS);
}

static void bound_lagrangian(uint32_t first, uint32_t second)
{
    uint32_t multipliers[KINDS] = {first, second};
    uint64_t answer[PLANNER_LAGRANGIAN_WORDS];
    tell("Lagrangian", planner_bound_lagrangian(job, WITHOUT_GRAIN, 0, WEIGHTS, KINDS, multipliers, KINDS,
                                                lengths, LENGTHS, widths, WIDTHS, table, TABLE_WORDS, answer,
                                                PLANNER_LAGRANGIAN_WORDS),
         answer, PLANNER_LAGRANGIAN_WORDS);
}

/* One turned piece, which is longer than the plate is wide. */
static void check_turned(uint16_t kind, uint32_t choices, size_t job_bytes)
{
    static const uint8_t turned[] = {4};
    uint64_t answer[PLANNER_REPORT_WORDS];
    tell("turned", planner_check_plan(job, job_bytes, choices, turned, 1, &kind, 1, answer, PLANNER_REPORT_WORDS),
         answer, 1);
}

int main(void)
{
    write_sizes();
    check_model(11);
    check_model(12);
    true_plan(NODES);
    true_plan(NODES - 1);
    plates_needed(0);
    plates_needed(8);
    bound_lagrangian(0, 0);
    bound_lagrangian(3, 0);
    bound_lagrangian(0, 1000001);
    check_turned(0, PLANNER_TURNING | PLANNER_GRAIN, sizeof job);
    check_turned(1, PLANNER_TURNING | PLANNER_GRAIN, sizeof job);
    check_turned(1, PLANNER_GRAIN, sizeof job);
    check_turned(1, PLANNER_TURNING, WITHOUT_GRAIN);
    check_turned(1, PLANNER_TURNING, sizeof job);
    job[sizeof job - 1] = 2;
    check_turned(1, PLANNER_TURNING | PLANNER_GRAIN, sizeof job);
    return 0;
}

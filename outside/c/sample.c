/* Job S of the scope from C: the bound, the plan behind it, its check and its certificate, upright
 * and with pieces that may be turned; within a limit on stages; with two weights a kind; weights found
 * in rounds; a rack of two plates; more copies than the plate can hold; a blade one unit wide.
 * The script `run` compiles this file against planner.h and compares what it prints with sample.out. */
#include "planner.h"
#include <inttypes.h>
#include <stdio.h>

static uint8_t job[] = {
    5, 0, 3, 0, 3, 0, 0, 0,                               /* plate 5 by 3, three kinds, kerf 0 */
    2, 0, 3, 0, 3, 0, 1, 0, 2, 0, 2, 0,                   /* 2 by 3, 3 by 1, 2 by 2 */
    7, 0, 0, 0, 1, 0, 4, 0, 0, 0, 2, 0, 5, 0, 0, 0, 1, 0, /* price and demand of each */
};
static const uint8_t WEIGHTS[] = {0, 1, 0}, SECOND_WEIGHTS[] = {1, 0, 0};

enum { KERF = 6, DEMAND_OF_KIND_0 = 24, DEMAND_OF_KIND_1 = 30 }; /* bytes of the job */
enum { LENGTHS = 7, WIDTHS = 5, TABLE_WORDS = 300, NODES = 16 };

static uint16_t lengths[LENGTHS], widths[WIDTHS];
static uint64_t table[TABLE_WORDS];

static void refused(uint32_t number, const uint64_t *answer)
{
    printf("refused %" PRIu32 " place %" PRIu64 "\n", number, answer[0]);
}

static void tell_bound(uint32_t number, const uint64_t *answer)
{
    if (number == PLANNER_UNKNOWN_CHOICE)
        printf("no such choice\n");
    else if (number == PLANNER_DONE)
        printf("bound %" PRIu64 " capacity %" PRIu64 " p %" PRIu64 " r %" PRIu64 "\n", answer[0],
               answer[1], answer[2], answer[3]);
    else
        refused(number, answer);
}

static void bound(uint32_t choices, size_t table_words)
{
    uint64_t answer[PLANNER_BOUND_WORDS];
    tell_bound(planner_bound(job, sizeof job, choices, WEIGHTS, sizeof WEIGHTS, lengths, LENGTHS,
                             widths, WIDTHS, table, table_words, answer, PLANNER_BOUND_WORDS),
               answer);
}

static void bound_staged(uint32_t limit)
{
    uint64_t answer[PLANNER_BOUND_WORDS];
    tell_bound(planner_bound_staged(job, sizeof job, 0, WEIGHTS, sizeof WEIGHTS, limit, lengths,
                                    LENGTHS, widths, WIDTHS, table, TABLE_WORDS, answer,
                                    PLANNER_BOUND_WORDS),
               answer);
}

static void bound_two(size_t second_weights)
{
    uint64_t answer[PLANNER_TWO_WORDS];
    uint32_t number = planner_bound_two(job, sizeof job, 0, WEIGHTS, sizeof WEIGHTS, SECOND_WEIGHTS,
                                        second_weights, lengths, LENGTHS, widths, WIDTHS, table,
                                        TABLE_WORDS, answer, PLANNER_TWO_WORDS);
    if (number == PLANNER_DONE)
        printf("bound %" PRIu64 " capacities %" PRIu64 " and %" PRIu64 "\n", answer[0], answer[1],
               answer[2]);
    else
        refused(number, answer);
}

/* The plan is lent, and the last round's is written beside it. */
static void find_weights(const uint8_t *kinds, const uint16_t *operands, size_t nodes,
                         size_t table_words)
{
    uint64_t answer[PLANNER_FOUND_WORDS];
    uint8_t written_kinds[NODES];
    uint16_t written_operands[NODES];
    uint32_t number = planner_find_weights(job, sizeof job, 0, kinds, nodes, operands, nodes, lengths,
                                           LENGTHS, widths, WIDTHS, table, table_words, written_kinds,
                                           NODES, written_operands, NODES, answer,
                                           PLANNER_FOUND_WORDS);
    if (number == PLANNER_DONE)
        printf("bound %" PRIu64 " rounds %" PRIu64 " weights %" PRIu64 " %" PRIu64 " %" PRIu64 "\n",
               answer[0], answer[1], answer[2], answer[3], answer[4]);
    else
        refused(number, answer);
}

static size_t write_plan(uint32_t choices, uint8_t *kinds, uint16_t *operands)
{
    uint64_t answer[PLANNER_PLAN_WORDS];
    uint32_t number = planner_write_plan(job, sizeof job, choices, WEIGHTS, sizeof WEIGHTS, lengths,
                                         LENGTHS, widths, WIDTHS, table, TABLE_WORDS, kinds, NODES,
                                         operands, NODES, answer, PLANNER_PLAN_WORDS);
    if (number != PLANNER_DONE) {
        refused(number, answer);
        return 0;
    }
    for (size_t i = 0; i < answer[4]; i++)
        printf("%d %d\n", kinds[i], operands[i]);
    return (size_t)answer[4];
}

static void check(uint32_t choices, const uint8_t *kinds, const uint16_t *operands, size_t nodes)
{
    uint64_t answer[PLANNER_REPORT_WORDS];
    uint32_t number = planner_check_plan(job, sizeof job, choices, kinds, nodes, operands, nodes,
                                         answer, PLANNER_REPORT_WORDS);
    if (number == PLANNER_DONE)
        printf("profit %" PRIu64 " areas %" PRIu64 " %" PRIu64 " %" PRIu64 " sawdust %" PRIu64 "\n",
               answer[0], answer[1], answer[2], answer[3], answer[68]);
    else
        refused(number, answer);
}

static void check_block(const uint8_t *plan, size_t bytes)
{
    uint64_t answer[PLANNER_REPORT_WORDS];
    uint32_t number = planner_check_plan_block(job, sizeof job, 0, plan, bytes, answer,
                                               PLANNER_REPORT_WORDS);
    if (number == PLANNER_DONE)
        printf("waste %" PRIu64 "\n", answer[2]);
    else
        refused(number, answer);
}

static void check_staged(uint32_t limit, const uint8_t *kinds, const uint16_t *operands, size_t nodes)
{
    uint64_t answer[PLANNER_STAGED_REPORT_WORDS];
    uint32_t number = planner_check_plan_staged(job, sizeof job, 0, limit, kinds, nodes, operands,
                                                nodes, answer, PLANNER_STAGED_REPORT_WORDS);
    if (number == PLANNER_DONE)
        printf("profit %" PRIu64 " stages %" PRIu64 "\n", answer[0], answer[69]);
    else
        refused(number, answer);
}

static void tell_certificate(uint32_t number, const uint64_t *answer)
{
    if (number == PLANNER_DONE)
        printf("gap %" PRIu64 " bound %" PRIu64 " profit %" PRIu64 "\n", answer[0], answer[1],
               answer[2]);
    else
        refused(number, answer);
}

static void certify(uint32_t choices, const uint8_t *kinds, const uint16_t *operands, size_t nodes)
{
    uint64_t answer[PLANNER_CERTIFICATE_WORDS];
    tell_certificate(planner_certify(job, sizeof job, choices, WEIGHTS, sizeof WEIGHTS, kinds, nodes,
                                     operands, nodes, lengths, LENGTHS, widths, WIDTHS, table,
                                     TABLE_WORDS, answer, PLANNER_CERTIFICATE_WORDS),
                     answer);
}

static void certify_staged(uint32_t limit, const uint8_t *kinds, const uint16_t *operands,
                           size_t nodes)
{
    uint64_t answer[PLANNER_CERTIFICATE_WORDS];
    tell_certificate(planner_certify_staged(job, sizeof job, 0, WEIGHTS, sizeof WEIGHTS, limit, kinds,
                                            nodes, operands, nodes, lengths, LENGTHS, widths, WIDTHS,
                                            table, TABLE_WORDS, answer, PLANNER_CERTIFICATE_WORDS),
                     answer);
}

/* A plate of this width with kind 0, and one with kinds 1 and 2. */
static void check_rack(uint16_t width)
{
    static const uint16_t plate_lengths[] = {2, 3}, operands[] = {0, 1, 1, 2};
    static const uint8_t kinds[] = {1, 3, 1, 1};
    uint16_t plate_widths[] = {width, 3};
    uint64_t profits[2] = {0, 0}, answer[PLANNER_RACK_WORDS];
    uint32_t number = planner_check_rack(job, sizeof job, 0, plate_lengths, 2, plate_widths, 2, profits,
                                         2, kinds, sizeof kinds, operands, sizeof kinds, answer,
                                         PLANNER_RACK_WORDS);
    if (number == PLANNER_DONE)
        printf("profits %" PRIu64 " %" PRIu64 "\n", profits[0], profits[1]);
    else
        refused(number, answer);
}

int main(void)
{
    static const uint8_t waste[] = {1, 0, 0, 0, 0};
    uint8_t kinds[NODES];
    uint16_t operands[NODES];
    bound(0, TABLE_WORDS);
    bound(0, 59);
    size_t nodes = write_plan(0, kinds, operands);
    check(0, kinds, operands, nodes);
    check(0, kinds, operands, nodes - 1);
    check_block(waste, sizeof waste);
    certify(0, kinds, operands, nodes);
    bound_staged(1);
    bound_staged(2);
    bound_staged(9);
    check_staged(1, kinds, operands, nodes);
    check_staged(2, kinds, operands, nodes);
    certify_staged(2, kinds, operands, nodes);
    bound_two(sizeof SECOND_WEIGHTS);
    bound_two(sizeof SECOND_WEIGHTS - 1);
    find_weights(kinds, operands, nodes, TABLE_WORDS);
    find_weights(kinds, operands, nodes, 59);
    find_weights(kinds, operands, nodes, 19);
    check_rack(3);
    check_rack(2);
    check_rack(1001);
    certify(PLANNER_TURNING, kinds, operands, nodes);
    nodes = write_plan(PLANNER_TURNING, kinds, operands);
    check(PLANNER_TURNING, kinds, operands, nodes);
    check(0, kinds, operands, nodes);
    job[DEMAND_OF_KIND_1] = 200;
    bound(0, TABLE_WORDS);
    bound(PLANNER_FULL_DEMAND, TABLE_WORDS);
    bound(16, TABLE_WORDS);
    job[KERF] = 1;
    job[DEMAND_OF_KIND_0] = 2;
    nodes = write_plan(0, kinds, operands);
    check(0, kinds, operands, nodes);
    certify(0, kinds, operands, nodes);
    return 0;
}

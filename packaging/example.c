/* Job S of docs/SCOPE.md from C: the plan behind the bound, and its certificate. Build it with
 *   cc example.c $(pkg-config --cflags --libs planner) */
#include <inttypes.h>
#include <planner.h>
#include <planner_blocks.h>
#include <stdio.h>

enum { LENGTH = 5, WIDTH = 3, KINDS = 3, NODES = 4095, TABLE_WORDS = 4096 };

static const struct planner_kind ordered[KINDS] = {
    {.length = 2, .width = 3, .price = 7, .demand = 1},
    {.length = 3, .width = 1, .price = 4, .demand = 2},
    {.length = 2, .width = 2, .price = 5, .demand = 1},
};
static const uint8_t weights[KINDS] = {0, 1, 0};
static uint16_t lengths[LENGTH + 1], widths[WIDTH + 1], operands[NODES];
static uint64_t table[TABLE_WORDS], answer[PLANNER_PLAN_WORDS];
static uint8_t block[128], kinds[NODES];

int main(void)
{
    size_t bytes = planner_pack_job(block, sizeof block, LENGTH, WIDTH, 0, ordered, KINDS, 0);
    uint32_t number = planner_write_plan(block, bytes, 0, weights, KINDS, lengths, LENGTH + 1, widths, WIDTH + 1, table,
                                         TABLE_WORDS, kinds, NODES, operands, NODES, answer, PLANNER_PLAN_WORDS);
    size_t nodes = answer[4];
    if (number == PLANNER_DONE)
        number = planner_certify(block, bytes, 0, weights, KINDS, kinds, nodes, operands, nodes, lengths, LENGTH + 1,
                                 widths, WIDTH + 1, table, TABLE_WORDS, answer, PLANNER_PLAN_WORDS);
    if (number != PLANNER_DONE)
        return printf("refused %" PRIu32 " place %" PRIu64 "\n", number, answer[0]), 1;
    printf("profit %" PRIu64 "%s\n", answer[2], answer[0] == 0 ? ", best" : "");
    return 0;
}

/* The block packer byte by byte, as docs/SCOPE.md has the blocks; and what it refuses to pack. */
#include <planner.h>
#include <planner_blocks.h>
#include <stdio.h>
#include <string.h>

static int faults;

/* Counts a fault and says what it is. */
static void expect(int holds, const char *what)
{
    if (!holds) {
        faults++;
        printf("not so: %s\n", what);
    }
}

static void job_blocks(void)
{
    const struct planner_kind kinds[2] = {{0x0102, 3, 0x04050607, 8, 0}, {9, 10, 11, 12, 1}};
    const uint8_t wanted[30] = {0x10, 0x00, 0x11, 0x01, 2, 0, 5, 0, 2, 1, 3, 0, 9, 0, 10, 0,
                                7, 6, 5, 4, 8, 0, 11, 0, 0, 0, 12, 0, 0, 1};
    uint8_t block[30] = {0};
    expect(planner_job_bytes(2, 1) == 30 && planner_job_bytes(2, 0) == 28, "the bytes of two kinds");
    expect(planner_pack_job(block, 30, 0x10, 0x111, 5, kinds, 2, 1) == 30, "a job with grain fits 30 bytes");
    expect(memcmp(block, wanted, 30) == 0, "a job with grain, byte by byte");
    memset(block, 77, 30);
    expect(planner_pack_job(block, 30, 0x10, 0x111, 5, kinds, 2, 0) == 28, "a job without grain has 28 bytes");
    expect(memcmp(block, wanted, 28) == 0 && block[28] == 77, "a job without grain, and no byte behind it");
    memset(block, 77, 30);
    expect(planner_pack_job(block, 29, 1, 1, 0, kinds, 2, 1) == 0 && block[0] == 77, "29 bytes are too few");
}

static void sizes_and_plans(void)
{
    const struct planner_true_kind kind = {0x01020304, 5};
    const uint8_t sizes[20] = {1, 0, 0, 0, 2, 0, 0, 0, 3, 0, 0, 0, 4, 3, 2, 1, 5, 0, 0, 0};
    const uint8_t kinds[3] = {2, 1, 0}, plan[11] = {3, 0, 2, 1, 0, 2, 1, 4, 0, 0, 0};
    const uint16_t operands[3] = {0x0102, 4, 0};
    uint8_t block[20] = {0};
    expect(planner_pack_sizes(block, 20, 1, 2, 3, &kind, 1) == 20, "sizes fit 20 bytes");
    expect(memcmp(block, sizes, 20) == 0, "sizes, byte by byte");
    expect(planner_pack_sizes(block, 19, 1, 2, 3, &kind, 1) == 0, "19 bytes are too few");
    expect(planner_pack_plan(block, 11, kinds, operands, 3) == 11, "a plan fits 11 bytes");
    expect(memcmp(block, plan, 11) == 0, "a plan, byte by byte");
    expect(planner_pack_plan(block, 10, kinds, operands, 3) == 0, "10 bytes are too few");
}

int main(void)
{
    job_blocks();
    sizes_and_plans();
    if (faults == 0)
        puts("blocks as they should be");
    return faults != 0;
}

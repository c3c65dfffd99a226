// The header from C++: the true sizes of felt tiles, for which a plate of 8 by 4 units stands.
#include <cstddef>
#include <cstdint>
#include <cstdio>
#include <planner.h>
#include <planner_blocks.h>

int main()
{
    const planner_kind model[] = {{1, 1, 1, 40, 0}};
    const planner_true_kind tile[] = {{599, 599}};
    std::uint8_t job[32], sizes[32];
    const std::size_t job_bytes = planner_pack_job(job, sizeof job, 8, 4, 0, model, 1, 0);
    const std::size_t sizes_bytes = planner_pack_sizes(sizes, sizeof sizes, 4800, 2400, 1, tile, 1);
    std::uint64_t answer[PLANNER_MODEL_WORDS] = {};
    const auto number = planner_check_model(job, job_bytes, 0, sizes, sizes_bytes, answer, PLANNER_MODEL_WORDS);
    std::printf("planner %s: the model %s\n", PLANNER_VERSION, number == PLANNER_DONE ? "stands for the true sizes" : "does not stand");
    return number == PLANNER_DONE ? 0 : 1;
}

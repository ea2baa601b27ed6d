// The program of first.c in C++17. The engine is C and is compiled as C. On a machine with a C and a C++
// compiler only, from the folder that has include, portable and examples:
//
//     cc -O2 -Iinclude -c portable/barrier_engine.c && c++ -std=c++17 -Iinclude examples/first.cpp barrier_engine.o -o first && ./first
#include <barrier_help.h> // and barrier.h with it
#include <array>
#include <cstddef>
#include <cstdint>
#include <iostream>

int main()
{
    // A road of 1 km, and a culvert headwall on its right. Millimetres; what is not named is 0.
    // With a panel length, road.panel = 4'000 say, approaches have whole panels.
    barrier_help_header road{};
    road.end = 1'000'000;
    road.runout_forward = 101'000;
    road.clear_zone = 9'000;
    road.straight = 13'340;
    road.barrier_offset = 3'000;
    road.deflection = 1'000;
    road.flare_along = 15;
    road.flare_across = 1;
    const barrier_hazard headwall{BARRIER_RIGHT, 200'000, 210'000, 5'000, 9'000, BARRIER_NC_3};

    std::array<std::uint8_t, BARRIER_JOB_LONGEST> job;
    std::array<std::uint8_t, BARRIER_SCHEDULE_MAX> out;
    std::array<char, BARRIER_HELP_TEXT_MAX> words;
    const auto length = barrier_help_write_job(&road, &headwall, 1, job.data(), job.size());
    const auto plan = barrier_plan(job.data(), length, BARRIER_RIGHT, out.data(), out.size());
    barrier_help_refusal(BARRIER_HELP_PLAN, plan.number, plan.value, words.data(), words.size());
    std::cout << words.data() << "; overhang " << plan.before << " and " << plan.after << " mm\n";
    if (plan.number != BARRIER_DONE)
        return 1;
    auto walk = barrier_help_walk_of(out.data(), static_cast<std::size_t>(plan.value));
    for (barrier_help_run run; barrier_help_next_run(&walk, &run);)
        std::cout << '[' << run.start << ", " << run.end << ") at NC-" << run.level << '\n';
}

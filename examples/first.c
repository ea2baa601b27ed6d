#include <barrier_help.h> /* and barrier.h with it */
#include <inttypes.h>
#include <stdio.h>

int main(void)
{
    /* A road of 1 km, and a culvert headwall on its right. Millimetres; what is not named is 0. */
    /* With a panel length, .panel = 4000 say, approaches have whole panels. */
    const barrier_help_header road = {
        .end = 1000000, .runout_forward = 101000, .clear_zone = 9000, .straight = 13340,
        .barrier_offset = 3000, .deflection = 1000, .flare_along = 15, .flare_across = 1};
    const barrier_hazard headwall = {BARRIER_RIGHT, 200000, 210000, 5000, 9000, BARRIER_NC_3};
    uint8_t job[BARRIER_JOB_LONGEST], out[BARRIER_SCHEDULE_MAX];
    char words[BARRIER_HELP_TEXT_MAX];
    size_t length = barrier_help_write_job(&road, &headwall, 1, job, sizeof job);
    barrier_plan_reply plan = barrier_plan(job, length, BARRIER_RIGHT, out, sizeof out);
    barrier_help_refusal(BARRIER_HELP_PLAN, plan.number, plan.value, words, sizeof words);
    printf("%s; overhang %" PRIu64 " and %" PRIu64 " mm\n", words, plan.before, plan.after);
    barrier_help_walk walk = barrier_help_walk_of(out, plan.number ? 0 : (size_t)plan.value);
    for (barrier_help_run run; barrier_help_next_run(&walk, &run);)
        printf("[%" PRIu64 ", %" PRIu64 ") at NC-%" PRIu64 "\n", run.start, run.end, run.level);
    return plan.number == BARRIER_DONE ? 0 : 1;
}

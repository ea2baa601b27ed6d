/*
 * An open job: the header of the sample job of barrier.h, to which hazards
 * come as a controller meets them; then a variant, tried and taken back; then
 * hazards near the road's begin.  It ends with 1 where a call does not do what
 * it should.
 *
 *     cc open_job.c $(pkg-config --cflags --libs barrier_engine) -o open_job
 */
#include <inttypes.h>
#include <stdio.h>

#include <barrier.h>
#include <barrier_help.h>

static const barrier_help_header header = {
    1,               /* kind: approaches as long as they come out */
    0, 1000000,      /* A, B: road begin and end, one kilometre */
    101000, 0,       /* LF, LO: runout lengths, forward; no opposite traffic */
    9000,            /* C: clear-zone width */
    0,               /* W: travelled-way edge to centreline */
    3000,            /* M: barrier offset */
    1000,            /* D: deflection allowance */
    15, 1,           /* a, b: flare, 1 across for 15 along */
    13340,           /* T: straight barrier before the flare */
    0,               /* G: continuity limit */
    0                /* panel length: only of kind 2 */
};

/* The names under which the hazards stand: their drawing numbers. */
enum { HEADWALL = 7, POLE = 20, CULVERT = 1030, PIER = 1031 };

/* The state number under which a state is kept, and one under which none is. */
enum { BEFORE = 0, NEVER_KEPT = 1 };

/* Each on the right side: first and end station, offsets, level. */
static const barrier_hazard headwall = {BARRIER_RIGHT, 200000, 210000, 5000, 9000, BARRIER_NC_3};
static const barrier_hazard pole = {BARRIER_RIGHT, 600000, 600300, 5000, 9000, BARRIER_NC_2};
static const barrier_hazard moved_pole = {BARRIER_RIGHT, 700000, 700300, 5000, 9000, BARRIER_NC_2};
/* Two near the road's begin, whose approaches of 44,227 do not fit before them. */
static const barrier_hazard culvert = {BARRIER_RIGHT, 30000, 31000, 5000, 9000, BARRIER_NC_3};
static const barrier_hazard pier = {BARRIER_RIGHT, 40000, 42000, 5000, 9000, BARRIER_NC_4};

/* Prints how a call ended; 0 unless that is what is wanted. */
static int ends_with(const char *what, barrier_reply reply, uint64_t wanted)
{
    if (reply.number == BARRIER_DONE)
        printf("  %s: done\n", what);
    else
        printf("  %s: refused %" PRIu64 " with %" PRIu64 "\n", what, reply.number, reply.value);
    return reply.number == wanted;
}

static int open_header(barrier_open_job *job)
{
    uint8_t bytes[BARRIER_JOB_LONGEST];
    const size_t length = barrier_help_write_job(&header, NULL, 0, bytes, sizeof bytes);
    return ends_with("open", barrier_open(job, bytes, length), BARRIER_DONE);
}

/* The runs of the right side, as they are now, and its overhang; 0 if refused. */
static int print_runs(const barrier_open_job *job)
{
    static uint8_t schedule[BARRIER_SCHEDULE_MAX];
    barrier_help_run run;
    const barrier_plan_reply planned =
        barrier_open_schedule(job, BARRIER_RIGHT, schedule, sizeof schedule);
    const barrier_reply reply = {planned.number, planned.value};
    if (!ends_with("schedule", reply, BARRIER_DONE))
        return 0;
    barrier_help_walk walk = barrier_help_walk_of(schedule, (size_t)planned.value);
    while (barrier_help_next_run(&walk, &run))
        printf("    [%" PRIu64 ", %" PRIu64 ") at NC-%" PRIu64 "\n", run.start, run.end, run.level);
    if (walk.result != BARRIER_HELP_OK)
        return 0;
    /* Not in the runs: it stands in the neighbouring contract. */
    if (planned.before > 0 || planned.after > 0)
        printf("    overhang: %" PRIu64 " mm before the road, %" PRIu64 " mm after it\n",
               planned.before, planned.after);
    return 1;
}

/* Hazards come and go; 0 where a call does not do what it should. */
static int show_hazards(barrier_open_job *job)
{
    printf("An open job\n");
    return open_header(job) &&
           ends_with("add 7", barrier_add(job, HEADWALL, headwall), BARRIER_DONE) &&
           ends_with("add 20", barrier_add(job, POLE, pole), BARRIER_DONE) &&
           ends_with("add 7", barrier_add(job, HEADWALL, pole), BARRIER_NAME) &&
           print_runs(job) &&
           ends_with("withdraw 7", barrier_withdraw(job, HEADWALL), BARRIER_DONE) &&
           print_runs(job) &&
           ends_with("add 7", barrier_add(job, HEADWALL, headwall), BARRIER_DONE) &&
           print_runs(job);
}

/* The pole 100 m farther on, and back; 0 where a call does not do what it should. */
static int show_variant(barrier_open_job *job)
{
    printf("A variant\n");
    return ends_with("keep 0", barrier_keep(job, BEFORE), BARRIER_DONE) &&
           ends_with("withdraw 20", barrier_withdraw(job, POLE), BARRIER_DONE) &&
           ends_with("add 20", barrier_add(job, POLE, moved_pole), BARRIER_DONE) &&
           print_runs(job) &&
           ends_with("return 0", barrier_return(job, BEFORE), BARRIER_DONE) &&
           print_runs(job) &&
           ends_with("return 1", barrier_return(job, NEVER_KEPT), BARRIER_STATE);
}

/* Near the boundary; 0 where a call does not do what it should. */
static int show_overhang(barrier_open_job *job)
{
    printf("By the neighbouring contract\n");
    return ends_with("add 1030", barrier_add(job, CULVERT, culvert), BARRIER_DONE) &&
           ends_with("add 1031", barrier_add(job, PIER, pier), BARRIER_DONE) &&
           print_runs(job) &&
           ends_with("withdraw 1030", barrier_withdraw(job, CULVERT), BARRIER_DONE) &&
           print_runs(job);
}

int main(void)
{
    static barrier_open_job job; /* 54 KiB: too much for some stacks */
    const int shown = show_hazards(&job) && show_variant(&job) && show_overhang(&job);
    if (fflush(stdout) != 0 || ferror(stdout)) {
        fprintf(stderr, "open_job: standard output cannot be written\n");
        return 1;
    }
    return shown ? 0 : 1;
}

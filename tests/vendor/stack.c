/*
 * How many bytes of stack each call takes: it runs on a stack of its own that
 * was painted before, and the paint that is left shows how deep it went. A job
 * comes from standard input; BARRIER_STACK_MAX bytes have to suffice for
 * planning it, into a large output and into one of exactly its schedule's
 * length, where the bytes needed are counted first, for its level at a
 * station, for its last hazard's corners, offset and reach, for the queries, and
 * for every layout of four panel lengths; BARRIER_OPEN_STACK_MAX for an open job
 * to which the job's hazards are added one by one, and in which they are kept
 * eight times, and for its last hazard's reach. Where a reply is large, its room
 * in the caller counts too.
 *
 * Ends with 1 where a call takes more, with 2 where one is refused.
 */
#define _XOPEN_SOURCE 600
#include "number_form.h"
#include <barrier.h>
#include <stdio.h>
#include <string.h>
#include <ucontext.h>

enum { PAINT = 0xA5 };

/* The jobs have the longest road, which ends at the greatest station. */
#define ROAD_BEGIN (BARRIER_STATION_MAX - BARRIER_ROAD_MAX)

/* More than any call may take, so that too much shows. */
static unsigned char stack[2 * BARRIER_OPEN_STACK_MAX];
static ucontext_t here, there;

static unsigned char job[BARRIER_JOB_MAX];
static size_t job_length;
static unsigned char schedule[BARRIER_SCHEDULE_MAX];
static barrier_plan_reply planned, exact, scheduled;
static barrier_reply level_found, counted;
static barrier_quantities_reply priced;
static barrier_corners_reply drawn;
static barrier_offset_reply cleared;
static barrier_reach_reply reached, reached_open;
static barrier_record found;
static barrier_layout_reply laid;
static barrier_open_job open_job, whole_job;
static unsigned char header[64];
static size_t header_length;
static barrier_hazard last;
static uint16_t last_name;
static barrier_reply opened, added, withdrawn, kept, returned;
static uint64_t ranges[128];

static void nothing(void)
{
}

static void plan(void)
{
    planned = barrier_plan(job, job_length, BARRIER_RIGHT, schedule, sizeof schedule);
}

static void plan_exactly(void)
{
    exact = barrier_plan(job, job_length, BARRIER_RIGHT, schedule, (size_t)planned.value);
}

static void level(void)
{
    level_found =
        barrier_level(job, job_length, BARRIER_RIGHT, ROAD_BEGIN + BARRIER_ROAD_MAX / 2);
}

static void corners(void)
{
    drawn = barrier_corners(job, job_length, BARRIER_HAZARDS_MAX - 1, BARRIER_STATION_MAX,
                            BARRIER_STATION_MAX);
}

/* No approach is that short, so the whole search is made. */
static void offset(void)
{
    cleared = barrier_offset(job, job_length, BARRIER_HAZARDS_MAX - 1, 0);
}

static void reach(void)
{
    reached = barrier_reach(job, job_length, BARRIER_HAZARDS_MAX - 1);
}

static void quantity(void)
{
    counted = barrier_quantity(schedule, planned.value, BARRIER_NC_1, 0, BARRIER_STATION_MAX);
}

static void quantities(void)
{
    priced = barrier_quantities(schedule, planned.value, BARRIER_NC_1, ranges, 128);
}

static void lookup(void)
{
    found = barrier_lookup(schedule, planned.value, NULL, 0, BARRIER_RIGHT, BARRIER_STATION_MAX);
}

static void layout(void)
{
    static const uint64_t lengths[BARRIER_LENGTHS_MAX] = {20000, 19998, 9996, 6};

    laid = barrier_layout(lengths, BARRIER_LENGTHS_MAX, 654321, BARRIER_TRIES_MAX);
}

static void open_empty(void)
{
    opened = barrier_open(&open_job, header, header_length);
}

static void add_last(void)
{
    added = barrier_add(&open_job, last_name, last);
}

static void withdraw_last(void)
{
    withdrawn = barrier_withdraw(&open_job, last_name);
}

static void schedule_open(void)
{
    scheduled = barrier_open_schedule(&whole_job, BARRIER_RIGHT, schedule, sizeof schedule);
}

static void reach_open(void)
{
    reached_open = barrier_open_reach(&whole_job, last_name);
}

static void keep(void)
{
    kept = barrier_keep(&open_job, BARRIER_STATES - 1);
}

static void return_to_kept(void)
{
    returned = barrier_return(&open_job, BARRIER_STATES - 1);
}

static size_t depth(void (*call)(void))
{
    size_t left = 0;

    memset(stack, PAINT, sizeof stack);
    getcontext(&there);
    there.uc_stack.ss_sp = stack;
    there.uc_stack.ss_size = sizeof stack;
    there.uc_link = &here;
    makecontext(&there, call, 0);
    swapcontext(&here, &there);
    while (left < sizeof stack && stack[left] == PAINT)
        left++;
    return sizeof stack - left;
}

/* What the call takes beyond a function that does nothing; 0 where too much. */
static int suffices(const char *name, void (*call)(void), size_t most)
{
    size_t bytes = depth(call) - depth(nothing);

    printf("stack: %s takes %zu bytes\n", name, bytes);
    return bytes <= most;
}

/* A call that is refused early takes little stack: its figure means nothing. */
static int done(const char *name, uint64_t number)
{
    if (number == BARRIER_DONE)
        return 1;
    printf("stack: %s is refused %llu\n", name, (unsigned long long)number);
    return 0;
}

static barrier_hazard hazard_at(size_t *at)
{
    barrier_hazard hazard;

    hazard.side = get_number(job, at);
    hazard.start = get_number(job, at);
    hazard.end = get_number(job, at);
    hazard.near_offset = get_number(job, at);
    hazard.far_offset = get_number(job, at);
    hazard.level = get_number(job, at);
    return hazard;
}

/* The planned job's header, then each of its hazards under its index, all of
   them kept under each state number. The last one is left for the call that is
   measured. */
static void open_planned_job(void)
{
    /* Kind 2 has the panel length too before its hazard count. */
    const size_t before_count = job[0] == 2 ? 14 : 13;
    size_t at = 0, i;
    uint64_t hazards;

    for (i = 0; i < before_count; i++)
        header_length += put_number(header + header_length, get_number(job, &at));
    header[header_length++] = 0;
    hazards = get_number(job, &at);
    open_empty();
    for (i = 0; i < hazards; i++) {
        last = hazard_at(&at);
        last_name = (uint16_t)i;
        added = barrier_add(&open_job, last_name, last);
    }
    for (i = 0; i < BARRIER_STATES; i++)
        kept = barrier_keep(&open_job, i);
    whole_job = open_job;
    withdraw_last();
}

int main(void)
{
    int well, all_done, i;

    for (i = 0; i < 128; i++)
        ranges[i] = ROAD_BEGIN + BARRIER_ROAD_MAX / 127 * (uint64_t)i;
    job_length = fread(job, 1, sizeof job, stdin);
    plan(); /* so that the loader's own work is done before it counts */
    if (!done("plan", planned.number))
        return 2;
    well = suffices("plan", plan, BARRIER_STACK_MAX);
    well &= suffices("plan with an output of exactly its length", plan_exactly, BARRIER_STACK_MAX);
    well &= suffices("level", level, BARRIER_STACK_MAX);
    well &= suffices("corners", corners, BARRIER_STACK_MAX);
    well &= suffices("offset", offset, BARRIER_STACK_MAX);
    well &= suffices("reach", reach, BARRIER_STACK_MAX);
    well &= suffices("quantity", quantity, BARRIER_STACK_MAX);
    well &= suffices("quantities", quantities, BARRIER_STACK_MAX);
    well &= suffices("lookup", lookup, BARRIER_STACK_MAX);
    well &= suffices("layout", layout, BARRIER_STACK_MAX);
    open_planned_job();
    well &= suffices("add", add_last, BARRIER_OPEN_STACK_MAX);
    well &= suffices("keep", keep, BARRIER_OPEN_STACK_MAX);
    well &= suffices("withdraw", withdraw_last, BARRIER_OPEN_STACK_MAX);
    well &= suffices("return", return_to_kept, BARRIER_OPEN_STACK_MAX);
    well &= suffices("schedule of an open job", schedule_open, BARRIER_OPEN_STACK_MAX);
    well &= suffices("reach in an open job", reach_open, BARRIER_OPEN_STACK_MAX);
    well &= suffices("open", open_empty, BARRIER_OPEN_STACK_MAX);
    all_done = done("plan with an output of exactly its length", exact.number);
    all_done &= done("level", level_found.number);
    /* 14 comes last: all that is read and tested has been by then. */
    if (drawn.number != BARRIER_NO_APPROACH)
        all_done &= done("corners", drawn.number);
    if (cleared.number != BARRIER_NO_APPROACH)
        all_done &= done("offset", cleared.number);
    all_done &= done("reach", reached.number);
    all_done &= done("quantity", counted.number);
    all_done &= done("quantities", priced.number);
    all_done &= done("lookup", found.number);
    all_done &= done("layout", laid.number);
    all_done &= done("add", added.number);
    all_done &= done("keep", kept.number);
    all_done &= done("withdraw", withdrawn.number);
    all_done &= done("return", returned.number);
    all_done &= done("schedule of an open job", scheduled.number);
    all_done &= done("reach in an open job", reached_open.number);
    all_done &= done("open", opened.number);
    if (!all_done)
        return 2;
    return well ? 0 : 1;
}

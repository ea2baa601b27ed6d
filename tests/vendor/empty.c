/*
 * The header lets a pointer be NULL where its length is 0. Each such pointer of
 * each call but barrier_corners, barrier_offset, barrier_layout and barrier_reach
 * (corners.c, offset.c, layout.c, reach.c), and the reply that document 01's
 * table has for it; and the states of an open job without hazards. Ends with 1
 * where a reply is another.
 */
#include <barrier.h>
#include <stdio.h>
#include <string.h>

/* The printed example's schedules; the left side has no runs. */
static const uint8_t right[8] = {0x01, 0xFD, 0xC0, 0x09, 0xD3, 0xA7, 0x03, 0x03};
static const uint8_t left[1] = {0x00};

/* The printed example without its hazard: either schedule is one byte. */
static const uint8_t job[22] = {0x01, 0x00, 0xC0, 0x84, 0x3D, 0x88, 0x95, 0x06, 0x00, 0xA8, 0x46,
                                0x00, 0xB8, 0x17, 0xE8, 0x07, 0x0F, 0x01, 0x9C, 0x68, 0x00, 0x00};

static int wrong = 0;

static void expect(const char *what, int as_stated)
{
    if (!as_stated) {
        printf("empty: %s\n", what);
        wrong = 1;
    }
}

static void reply_is(const char *what, barrier_reply reply, uint64_t number, uint64_t value)
{
    expect(what, reply.number == number && reply.value == value);
}

/* A plan that is refused: no overhang goes with it. */
static void plan_is(const char *what, barrier_plan_reply reply, uint64_t number, uint64_t value)
{
    expect(what, reply.number == number && reply.value == value && reply.before == 0 && reply.after == 0);
}

static void record_is(const char *what, barrier_record record, uint64_t number)
{
    expect(what, record.number == number && record.found == 0 && record.start == 0 && record.end == 0);
}

static void plans(void)
{
    uint8_t out[4] = {0xA5, 0xA5, 0xA5, 0xA5};
    plan_is("plan, no job", barrier_plan(NULL, 0, BARRIER_RIGHT, out, sizeof out), BARRIER_JOB_ENDED, 0);
    expect("plan, no job: the output is changed", out[0] == 0xA5 && out[3] == 0xA5);
    plan_is("plan, no output", barrier_plan(job, sizeof job, BARRIER_RIGHT, NULL, 0), BARRIER_OUTPUT_SHORT, 1);
    plan_is("plan, neither", barrier_plan(NULL, 0, BARRIER_LEFT, NULL, 0), BARRIER_JOB_ENDED, 0);
    plan_is("plan, neither, no such side", barrier_plan(NULL, 0, 2, NULL, 0), BARRIER_ARGUMENT, 0);
}

static void levels(void)
{
    reply_is("level, no job", barrier_level(NULL, 0, BARRIER_RIGHT, 5), BARRIER_JOB_ENDED, 0);
    reply_is("level, no job, no such side", barrier_level(NULL, 0, 2, 5), BARRIER_ARGUMENT, 0);
}

static void quantities(void)
{
    reply_is("quantity, no schedule", barrier_quantity(NULL, 0, BARRIER_NC_1, 0, 5), BARRIER_NO_SCHEDULE, 0);
    reply_is("quantity, no schedule, no such level", barrier_quantity(NULL, 0, 7, 0, 5), BARRIER_ARGUMENT, 0);
}

/* A reply without a refusal has as many records as it should; all the rest is 0. */
static void contract_is(const char *what, barrier_quantities_reply reply, uint64_t number, uint64_t records)
{
    int as_stated = reply.number == number && reply.value == 0 && reply.records == records;
    int i;

    for (i = 0; i < 64; i++)
        as_stated &= reply.quantities[i] == 0;
    expect(what, as_stated);
}

static void contracts(void)
{
    static const uint64_t ranges[3] = {0, 5, 5};
    contract_is("quantities, no ranges", barrier_quantities(right, sizeof right, BARRIER_NC_3, NULL, 0), BARRIER_DONE, 1);
    contract_is("quantities, no ranges, no such level", barrier_quantities(right, sizeof right, 0, NULL, 0), BARRIER_ARGUMENT, 0);
    contract_is("quantities, no schedule", barrier_quantities(NULL, 0, BARRIER_NC_1, ranges, 2), BARRIER_NO_SCHEDULE, 0);
    contract_is("quantities, no schedule, no partner", barrier_quantities(NULL, 0, BARRIER_NC_1, ranges, 3), BARRIER_ARGUMENT, 0);
    contract_is("quantities, neither", barrier_quantities(NULL, 0, BARRIER_NC_6, NULL, 0), BARRIER_NO_SCHEDULE, 0);
    contract_is("quantities, neither, no such level", barrier_quantities(NULL, 0, 7, NULL, 0), BARRIER_ARGUMENT, 0);
}

static void lookups(void)
{
    const barrier_record found =
        barrier_lookup(right, sizeof right, NULL, 0, BARRIER_RIGHT, 155773);
    expect("lookup right, no left schedule",
           found.number == BARRIER_DONE && found.found == 1 && found.start == 1 && found.end == 8);
    record_is("lookup left, no right schedule", barrier_lookup(NULL, 0, left, sizeof left, BARRIER_LEFT, 5), BARRIER_DONE);
    record_is("lookup right, no right schedule", barrier_lookup(NULL, 0, left, sizeof left, BARRIER_RIGHT, 5), BARRIER_NO_SCHEDULE);
    record_is("lookup left, no left schedule", barrier_lookup(right, sizeof right, NULL, 0, BARRIER_LEFT, 5), BARRIER_NO_SCHEDULE);
    record_is("lookup right, neither", barrier_lookup(NULL, 0, NULL, 0, BARRIER_RIGHT, 5), BARRIER_NO_SCHEDULE);
    record_is("lookup left, neither", barrier_lookup(NULL, 0, NULL, 0, BARRIER_LEFT, 5), BARRIER_NO_SCHEDULE);
    record_is("lookup, neither, no such side", barrier_lookup(NULL, 0, NULL, 0, 2, 5), BARRIER_ARGUMENT);
}

static barrier_open_job open_job;

static void open_jobs(void)
{
    static unsigned char before[sizeof open_job];

    memset(&open_job, 0xA5, sizeof open_job);
    memcpy(before, &open_job, sizeof open_job);
    reply_is("open, no bytes", barrier_open(&open_job, NULL, 0), BARRIER_JOB_ENDED, 0);
    expect("open, no bytes: the memory is changed", memcmp(before, &open_job, sizeof open_job) == 0);
    plan_is("schedule, broken memory, no output", barrier_open_schedule(&open_job, BARRIER_RIGHT, NULL, 0), BARRIER_HEADER_RANGE, 0);
    reply_is("open", barrier_open(&open_job, job, sizeof job), BARRIER_DONE, 0);
    plan_is("schedule, no output", barrier_open_schedule(&open_job, BARRIER_RIGHT, NULL, 0), BARRIER_OUTPUT_SHORT, 1);
    plan_is("schedule, no output, no such side", barrier_open_schedule(&open_job, 2, NULL, 0), BARRIER_ARGUMENT, 0);
}

/* Behind the opening of `open_jobs`. Cut down to fewer bits, some of the numbers above 7 would be 0. */
static void states(void)
{
    static const uint64_t too_great[4] = {8, 256, 4294967296u, UINT64_MAX};
    static barrier_open_job before;
    int i;

    before = open_job;
    for (i = 0; i < 4; i++) {
        reply_is("keep, no such state", barrier_keep(&open_job, too_great[i]), BARRIER_STATE, 0);
        reply_is("return, no such state", barrier_return(&open_job, too_great[i]), BARRIER_STATE, 0);
    }
    reply_is("return, nothing kept", barrier_return(&open_job, 7), BARRIER_STATE, 0);
    expect("states, refused: the memory is changed", memcmp(&before, &open_job, sizeof open_job) == 0);
    reply_is("keep, no hazards", barrier_keep(&open_job, 7), BARRIER_DONE, 0);
    reply_is("return, no hazards", barrier_return(&open_job, 7), BARRIER_DONE, 0);
    reply_is("return, no hazards, once more", barrier_return(&open_job, 7), BARRIER_DONE, 0);
    reply_is("open anew", barrier_open(&open_job, job, sizeof job), BARRIER_DONE, 0);
    expect("open anew: a state is left", memcmp(&before, &open_job, sizeof open_job) == 0);
    open_job.kept[7].used = 2;
    reply_is("keep, broken memory", barrier_keep(&open_job, 8), BARRIER_HEADER_RANGE, 0);
    reply_is("return, broken memory", barrier_return(&open_job, 8), BARRIER_HEADER_RANGE, 0);
}

int main(void)
{
    plans();
    levels();
    quantities();
    contracts();
    lookups();
    open_jobs();
    states();
    return wrong;
}

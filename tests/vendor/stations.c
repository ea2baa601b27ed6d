/*
 * Stations counted from a datum far away: a job there through every call that
 * takes a job or a schedule, the ends of the ranges of A and B, numbers of six
 * bytes, the last station that a run may end at, and the memory of an open job.
 * Corners and overhangs there have tests of their own (corners.c, overhang.c).
 * Ends with 1 where a reply is another.
 */
#include "number_form.h"
#include <barrier.h>
#include <stdio.h>
#include <string.h>

enum { HEADER_NUMBERS = 14, HAZARD_NUMBERS = 6, ROOM = 200, NAME = 200 };
/* The places, from 0, of some numbers in the header and in a hazard. */
enum { BEGIN = 1, END = 2, NEAR_OFFSET = 3, FAR_OFFSET = 4 };

/* In 32 bits it is 0. */
#define IN_33_BITS UINT64_C(4294967296)
/* The greatest number of six bytes. */
#define SIX_BYTES UINT64_C(4398046511103)

#define FAR_AWAY UINT64_C(999000000000)

/* The printed example 999,000 km farther on: the sample job `chainage`. */
static const uint64_t header[HEADER_NUMBERS] = {
    1, FAR_AWAY, FAR_AWAY + 1000000, 101000, 0, 9000, 0, 3000, 1000, 15, 1, 13340, 0, 1};
static const barrier_hazard headwall = {BARRIER_RIGHT, FAR_AWAY + 200000, FAR_AWAY + 210000, 5000,
                                        9000, BARRIER_NC_3};

/* Its right schedule: run [999000155773, 999000210000) at NC-3. */
static const uint8_t right[11] = {0x01, 0xFD, 0xCC, 0xB2, 0xC8, 0x89,
                                  0x1D, 0xD3, 0xA7, 0x03, 0x03};

static uint8_t job[ROOM];
static size_t job_len;
static barrier_open_job open_job;
static int wrong = 0;

static void expect(const char *what, int as_stated)
{
    if (!as_stated) {
        printf("stations: %s\n", what);
        wrong = 1;
    }
}

static void reply_is(const char *what, barrier_reply reply, uint64_t number, uint64_t value)
{
    expect(what, reply.number == number && reply.value == value);
}

static void plan_is(const char *what, barrier_plan_reply reply, uint64_t number, uint64_t value)
{
    expect(what, reply.number == number && reply.value == value && reply.before == 0 &&
                     reply.after == 0);
}

/* A record that is found has the bytes [start, end); where none is, end is 0. */
static void record_is(const char *what, barrier_record record, uint64_t number, uint64_t start,
                      uint64_t end)
{
    const int found = number == BARRIER_DONE && end > 0;

    expect(what, record.number == number && record.found == (uint64_t)found &&
                     record.start == (found ? start : 0) && record.end == (found ? end : 0));
}

static void add_number(uint64_t value)
{
    job_len += put_number(job + job_len, value);
}

/* The example's header with that road and that hazard count. */
static void write_header(uint64_t begin, uint64_t end, uint64_t count)
{
    int i;

    job_len = 0;
    add_number(header[0]);
    add_number(begin);
    add_number(end);
    for (i = END + 1; i < HEADER_NUMBERS - 1; i++)
        add_number(header[i]);
    add_number(count);
}

static void write_hazard(barrier_hazard hazard)
{
    add_number(hazard.side);
    add_number(hazard.start);
    add_number(hazard.end);
    add_number(hazard.near_offset);
    add_number(hazard.far_offset);
    add_number(hazard.level);
}

/* That hazard alone on the road of the example. */
static void write_job(barrier_hazard hazard)
{
    write_header(header[BEGIN], header[END], 1);
    write_hazard(hazard);
}

/* The job, in each call that takes one. */
static void refused(const char *what, uint64_t number, uint64_t value)
{
    uint8_t out[ROOM];
    const barrier_corners_reply corners = barrier_corners(job, job_len, 0, 0, 0);
    const barrier_offset_reply offset = barrier_offset(job, job_len, 0, 0);

    plan_is(what, barrier_plan(job, job_len, BARRIER_RIGHT, out, sizeof out), number, value);
    reply_is(what, barrier_level(job, job_len, BARRIER_RIGHT, 0), number, value);
    expect(what, corners.number == number && corners.value == value);
    expect(what, offset.number == number && offset.value == value && offset.found == 0);
}

static void example(void)
{
    const uint64_t lots[6] = {0, FAR_AWAY + 180000, FAR_AWAY + 180000, BARRIER_STATION_MAX,
                              BARRIER_STATION_MAX, UINT64_MAX};
    uint8_t out[ROOM];
    barrier_quantities_reply priced;
    barrier_offset_reply offset;

    write_job(headwall);
    plan_is("plan", barrier_plan(job, job_len, BARRIER_RIGHT, out, sizeof out), BARRIER_DONE,
            sizeof right);
    expect("schedule", memcmp(out, right, sizeof right) == 0);
    plan_is("plan, one byte short", barrier_plan(job, job_len, BARRIER_RIGHT, out, 10),
            BARRIER_OUTPUT_SHORT, sizeof right);
    reply_is("level before the run", barrier_level(job, job_len, BARRIER_RIGHT, FAR_AWAY + 155772),
             BARRIER_DONE, 0);
    reply_is("level in the run", barrier_level(job, job_len, BARRIER_RIGHT, FAR_AWAY + 155773),
             BARRIER_DONE, BARRIER_NC_3);
    reply_is("level behind the run", barrier_level(job, job_len, BARRIER_RIGHT, FAR_AWAY + 210000),
             BARRIER_DONE, 0);
    /* The run's first station, less what 32 bits leave out. */
    reply_is("level of a station cut down",
             barrier_level(job, job_len, BARRIER_RIGHT, (FAR_AWAY + 155773) % IN_33_BITS),
             BARRIER_DONE, 0);
    record_is("record before the run",
              barrier_lookup(right, sizeof right, NULL, 0, BARRIER_RIGHT, FAR_AWAY + 155772),
              BARRIER_DONE, 0, 0);
    record_is("record of the run",
              barrier_lookup(right, sizeof right, NULL, 0, BARRIER_RIGHT, FAR_AWAY + 209999),
              BARRIER_DONE, 1, sizeof right);
    record_is("record behind the run",
              barrier_lookup(right, sizeof right, NULL, 0, BARRIER_RIGHT, FAR_AWAY + 210000),
              BARRIER_DONE, 0, 0);
    reply_is("quantity", barrier_quantity(right, sizeof right, BARRIER_NC_3, 0, UINT64_MAX),
             BARRIER_DONE, 54227);
    reply_is("quantity of a part",
             barrier_quantity(right, sizeof right, BARRIER_NC_3, FAR_AWAY, FAR_AWAY + 155774),
             BARRIER_DONE, 1);
    priced = barrier_quantities(right, sizeof right, BARRIER_NC_3, lots, 6);
    expect("quantities", priced.number == BARRIER_DONE && priced.records == 1 &&
                             priced.quantities[0] == 24227 && priced.quantities[1] == 30000 &&
                             priced.quantities[2] == 0);
    offset = barrier_offset(job, job_len, 0, 44227);
    expect("offset", offset.number == BARRIER_DONE && offset.value == 3000 && offset.found == 1);
}

/* A road without hazards: planned, opened, or refused by both alike. */
static void road_is(uint64_t begin, uint64_t end, uint64_t number, uint64_t value)
{
    char what[64];
    uint8_t out[ROOM];

    snprintf(what, sizeof what, "road %llu %llu", (unsigned long long)begin,
             (unsigned long long)end);
    write_header(begin, end, 0);
    plan_is(what, barrier_plan(job, job_len, BARRIER_LEFT, out, sizeof out), number,
            number == BARRIER_DONE ? 1 : value);
    reply_is(what, barrier_open(&open_job, job, job_len), number, value);
}

static void roads(void)
{
    const uint64_t last = BARRIER_STATION_MAX, longest = BARRIER_ROAD_MAX;

    road_is(last - 1, last, BARRIER_DONE, 0);
    road_is(last - longest, last, BARRIER_DONE, 0);
    road_is(last - longest - 1, last - 1, BARRIER_DONE, 0);
    road_is(0, longest, BARRIER_DONE, 0);
    road_is(IN_33_BITS - 1, IN_33_BITS, BARRIER_DONE, 0);
    road_is(last, last + 1, BARRIER_HEADER_RANGE, 2);
    road_is(SIX_BYTES, SIX_BYTES, BARRIER_HEADER_RANGE, 2);
    road_is(last - 1, last + 1, BARRIER_HEADER_RANGE, 3);
    road_is(last - 1, last - 1, BARRIER_HEADER_RANGE, 3);
    road_is(last - longest - 1, last, BARRIER_HEADER_RANGE, 3);
    road_is(0, longest + 1, BARRIER_HEADER_RANGE, 3);
    /* Cut down to 32 bits these would be roads. */
    road_is(0, IN_33_BITS + 1000000, BARRIER_HEADER_RANGE, 3);
    road_is(IN_33_BITS, 1000000, BARRIER_HEADER_RANGE, 3);
    road_is(5, SIX_BYTES, BARRIER_HEADER_RANGE, 3);
}

/* A job that has its kind and these bytes for A, and ends there. */
static void begin_is(const char *what, const uint8_t *bytes, size_t length, uint64_t number,
                     uint64_t value)
{
    job[0] = 1;
    memcpy(job + 1, bytes, length);
    job_len = 1 + length;
    refused(what, number, value);
    reply_is(what, barrier_open(&open_job, job, job_len), number, value);
}

/* Where A is taken, the job ends before B. */
static void forms(void)
{
    static const uint8_t in_33_bits[5] = {0x80, 0x80, 0x80, 0x80, 0x10};
    static const uint8_t five[5] = {0xFF, 0xFF, 0xFF, 0xFF, 0x7F};
    static const uint8_t six[6] = {0x80, 0x80, 0x80, 0x80, 0x80, 0x01};
    static const uint8_t greatest[6] = {0xFF, 0xFF, 0xFF, 0xFF, 0xFF, 0x7F};
    static const uint8_t needless[6] = {0xFF, 0xFF, 0xFF, 0xFF, 0xFF, 0x00};
    static const uint8_t seven[7] = {0x80, 0x80, 0x80, 0x80, 0x80, 0x80, 0x01};

    begin_is("33 bits", in_33_bits, 5, BARRIER_JOB_ENDED, 6);
    begin_is("five bytes", five, 5, BARRIER_JOB_ENDED, 6);
    begin_is("six bytes", six, 6, BARRIER_JOB_ENDED, 7);
    begin_is("the greatest of six bytes", greatest, 6, BARRIER_HEADER_RANGE, 2);
    begin_is("a needless sixth byte", needless, 6, BARRIER_NUMBER_MALFORMED, 1);
    begin_is("cut behind the fifth byte", seven, 5, BARRIER_JOB_ENDED, 1);
    begin_is("the sixth byte's top bit, and the end", seven, 6, BARRIER_NUMBER_MALFORMED, 1);
    begin_is("seven bytes", seven, 7, BARRIER_NUMBER_MALFORMED, 1);
}

/* The example with one number of its header raised. */
static void header_raised(int raised, uint64_t by)
{
    int i;

    job_len = 0;
    for (i = 0; i < HEADER_NUMBERS; i++)
        add_number(header[i] + (i == raised ? by : 0));
    write_hazard(headwall);
    refused("a header number raised", BARRIER_HEADER_RANGE, (uint64_t)raised + 1);
}

/* The same with a number of the hazard, which an open job does not take either. */
static void hazard_raised(int raised, uint64_t by)
{
    barrier_hazard hazard = headwall;
    uint64_t *const numbers[HAZARD_NUMBERS] = {&hazard.side,       &hazard.start,
                                               &hazard.end,        &hazard.near_offset,
                                               &hazard.far_offset, &hazard.level};

    *numbers[raised] += by;
    write_job(hazard);
    refused("a hazard's number raised", BARRIER_HAZARD_RANGE, 0);
    reply_is("a hazard's number raised, add", barrier_add(&open_job, NAME, hazard),
             BARRIER_HAZARD_RANGE, NAME);
}

/* Numbers in form, and too great for their fields; cut down to 32 bits some of
   them would be as before, and offsets cut down to 16. */
static void too_great(void)
{
    static const uint64_t raises[2] = {IN_33_BITS, SIX_BYTES - FAR_AWAY - 1000000};
    int i, raised;

    write_header(header[BEGIN], header[END], 0);
    reply_is("open", barrier_open(&open_job, job, job_len), BARRIER_DONE, 0);
    for (i = 0; i < 2; i++) {
        for (raised = 0; raised < HEADER_NUMBERS; raised++)
            header_raised(raised, raises[i]);
        for (raised = 0; raised < HAZARD_NUMBERS; raised++)
            hazard_raised(raised, raises[i]);
    }
    hazard_raised(NEAR_OFFSET, 65536);
    hazard_raised(FAR_OFFSET, 65536);
}

/* A schedule of one run, asked in every way. */
static void run_is(const char *what, uint64_t distance, uint64_t length, uint64_t number)
{
    const uint64_t end = distance + length;
    const uint64_t all[2] = {0, UINT64_MAX};
    uint8_t bytes[1 + 3 * NUMBER_BYTES_MAX];
    size_t at = 0;
    barrier_quantities_reply priced;

    at += put_number(bytes + at, 1);
    at += put_number(bytes + at, distance);
    at += put_number(bytes + at, length);
    at += put_number(bytes + at, BARRIER_NC_6);
    reply_is(what, barrier_quantity(bytes, at, BARRIER_NC_6, 0, UINT64_MAX), number,
             number == BARRIER_DONE ? length : 0);
    priced = barrier_quantities(bytes, at, BARRIER_NC_6, all, 2);
    expect(what, priced.number == number && priced.value == 0 &&
                     priced.records == (number == BARRIER_DONE) &&
                     priced.quantities[0] == (number == BARRIER_DONE ? length : 0));
    record_is(what, barrier_lookup(NULL, 0, bytes, at, BARRIER_LEFT, end - 1), number, 1, at);
    record_is(what, barrier_lookup(NULL, 0, bytes, at, BARRIER_LEFT, end), number, 0, 0);
}

static void run_ends(void)
{
    const uint64_t last = BARRIER_STATION_MAX;

    run_is("the last millimetre", last - 1, 1, BARRIER_DONE);
    run_is("all there are", 0, last, BARRIER_DONE);
    run_is("to the last", 5, last - 5, BARRIER_DONE);
    run_is("behind the last", last, 1, BARRIER_NO_SCHEDULE);
    run_is("one too many", 0, last + 1, BARRIER_NO_SCHEDULE);
    run_is("one too far", 6, last - 5, BARRIER_NO_SCHEDULE);
    run_is("as far as six bytes go", SIX_BYTES, SIX_BYTES, BARRIER_NO_SCHEDULE);
    run_is("a distance of seven bytes", SIX_BYTES + 1, 1, BARRIER_NO_SCHEDULE);
    run_is("a length of seven bytes", 1, SIX_BYTES + 1, BARRIER_NO_SCHEDULE);
}

/* Every call but opening refuses such memory, and leaves it as it was. */
static void broken(const char *what)
{
    static barrier_open_job before;
    uint8_t out[ROOM];

    before = open_job;
    reply_is(what, barrier_add(&open_job, 1, headwall), BARRIER_HEADER_RANGE, 0);
    reply_is(what, barrier_withdraw(&open_job, NAME), BARRIER_HEADER_RANGE, 0);
    reply_is(what, barrier_keep(&open_job, 0), BARRIER_HEADER_RANGE, 0);
    reply_is(what, barrier_return(&open_job, 0), BARRIER_HEADER_RANGE, 0);
    plan_is(what, barrier_open_schedule(&open_job, BARRIER_RIGHT, out, sizeof out),
            BARRIER_HEADER_RANGE, 0);
    expect(what, memcmp(&before, &open_job, sizeof open_job) == 0);
}

static void schedule_is_right(const char *what)
{
    uint8_t out[ROOM];

    plan_is(what, barrier_open_schedule(&open_job, BARRIER_RIGHT, out, sizeof out), BARRIER_DONE,
            sizeof right);
    expect(what, memcmp(out, right, sizeof right) == 0);
}

static void open_jobs(void)
{
    static barrier_open_job sound;
    uint64_t *const numbers[HEADER_NUMBERS + 1] = {
        &open_job.kind,       &open_job.begin, &open_job.end,    &open_job.forward,
        &open_job.opposite,   &open_job.zone,  &open_job.way,    &open_job.offset,
        &open_job.deflection, &open_job.along, &open_job.across, &open_job.straight,
        &open_job.continuity, &open_job.panel, &open_job.count};
    uint8_t out[ROOM];
    int i;

    write_header(header[BEGIN], header[END], 0);
    reply_is("open", barrier_open(&open_job, job, job_len), BARRIER_DONE, 0);
    reply_is("add", barrier_add(&open_job, NAME, headwall), BARRIER_DONE, 0);
    schedule_is_right("open job");
    reply_is("keep", barrier_keep(&open_job, 7), BARRIER_DONE, 0);
    reply_is("withdraw", barrier_withdraw(&open_job, NAME), BARRIER_DONE, 0);
    plan_is("open job without hazards",
            barrier_open_schedule(&open_job, BARRIER_RIGHT, out, sizeof out), BARRIER_DONE, 1);
    reply_is("return", barrier_return(&open_job, 7), BARRIER_DONE, 0);
    schedule_is_right("returned");

    sound = open_job;
    for (i = 0; i <= HEADER_NUMBERS; i++) {
        *numbers[i] += IN_33_BITS;
        broken("a header number raised in memory");
        open_job = sound;
    }
    open_job.hazards[0].start -= IN_33_BITS;
    broken("a start before the road in memory");
    open_job = sound;
    open_job.kept[7].hazards[0].end += IN_33_BITS;
    broken("a kept end behind the road in memory");
    open_job = sound;
    open_job.begin = open_job.end - BARRIER_ROAD_MAX - 1;
    broken("a road too long in memory");
    open_job.begin = open_job.end - BARRIER_ROAD_MAX;
    schedule_is_right("the longest road in memory");
    open_job.end = BARRIER_STATION_MAX + 1;
    open_job.begin = FAR_AWAY;
    broken("an end too far in memory");
    open_job.end = BARRIER_STATION_MAX;
    schedule_is_right("the last end in memory");
}

int main(void)
{
    example();
    roads();
    forms();
    too_great();
    open_jobs();
    run_ends();
    return wrong;
}

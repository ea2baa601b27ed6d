/*
 * Approaches that run into the neighbouring contract: the schedule, what hangs
 * over at each end of the road, and the levels there; of a job and of an open
 * job, near the datum and far from it. Ends with 1 where a reply is another.
 */
#include "number_form.h"
#include <barrier.h>
#include <stdio.h>
#include <string.h>

enum { HEADER_NUMBERS = 14, HAZARD_NUMBERS = 6, HAZARDS_MAX = 7, ROOM = 64, PAINT = 0xA5 };

/* Numbers before the hazard count, then the hazards. */
struct sample {
    uint64_t header[HEADER_NUMBERS - 1];
    size_t hazards_len;
    barrier_hazard hazards[HAZARDS_MAX];
};

/* What the right and the left side have to be. */
struct wanted {
    size_t length;
    uint8_t schedule[ROOM];
    uint64_t before, after;
};

/* Case K8's second job. */
static const struct sample k8 = {
    {1, 0, 1000000, 101000, 0, 9000, 0, 3000, 1000, 15, 0, 13340, 0},
    1,
    {{BARRIER_RIGHT, 67333, 210000, 5000, 9000, 3}}};
static const struct wanted k8_wanted[2] = {
    {6, {0x01, 0x00, 0xD0, 0xE8, 0x0C, 0x03}, 1, 0},
    {1, {0x00}, 0, 0}};

/*
 * The sample job `overhang`: before the road the greatest is neither the first
 * hazard's nor the last one's, nor that of the longest approach; others hang
 * over behind; one that nobody reaches does not count; each side has its own.
 */
static const struct sample both_ends = {
    {1, 100000, 400000, 101000, 101000, 9000, 3500, 3000, 1000, 15, 1, 13340, 50000},
    7,
    {{BARRIER_RIGHT, 130000, 134000, 5000, 9000, 3},
     {BARRIER_RIGHT, 112000, 113000, 4500, 6500, 2},
     {BARRIER_RIGHT, 133000, 133500, 5000, 9000, 1},
     {BARRIER_RIGHT, 380000, 399000, 5000, 9000, 3},
     {BARRIER_RIGHT, 390000, 391000, 5000, 9000, 2},
     {BARRIER_LEFT, 100000, 100500, 9000, 9500, 6},
     {BARRIER_LEFT, 395000, 398000, 6000, 12000, 4}}};
/* Runs [100000, 155758) and [335773, 400000) at 3; [395000, 400000) at 4. */
static const struct wanted both_ends_wanted[2] = {
    {15,
     {0x02, 0xA0, 0x8D, 0x06, 0xCE, 0xB3, 0x03, 0x03, 0xAF, 0xFE, 0x0A, 0xE3, 0xF5, 0x03, 0x03},
     21501,
     20758},
    {7, {0x01, 0xF8, 0x8D, 0x18, 0x88, 0x27, 0x04}, 0, 42227}};

static int wrong = 0;

static void expect(const char *what, int as_stated)
{
    if (!as_stated) {
        printf("overhang: %s\n", what);
        wrong = 1;
    }
}

/* The bytes of a job with the first `hazards` of the sample's. */
static size_t write_job(const struct sample *sample, size_t hazards, uint8_t *job)
{
    size_t length = 0, i;

    for (i = 0; i < HEADER_NUMBERS - 1; i++)
        length += put_number(job + length, sample->header[i]);
    length += put_number(job + length, hazards);
    for (i = 0; i < hazards; i++) {
        const barrier_hazard *hazard = &sample->hazards[i];
        length += put_number(job + length, hazard->side);
        length += put_number(job + length, hazard->start);
        length += put_number(job + length, hazard->end);
        length += put_number(job + length, hazard->near_offset);
        length += put_number(job + length, hazard->far_offset);
        length += put_number(job + length, hazard->level);
    }
    return length;
}

/* Whether the bytes from an index on are those that were there. */
static int untouched_from(const uint8_t *out, size_t from)
{
    size_t i;

    for (i = from; i < ROOM; i++)
        if (out[i] != PAINT)
            return 0;
    return 1;
}

static int untouched(const uint8_t *out)
{
    return untouched_from(out, 0);
}

/* The whole output: the schedule, and behind it the bytes that were there. */
static int output_is(const uint8_t *out, const uint8_t *schedule, size_t length)
{
    return memcmp(out, schedule, length) == 0 && untouched_from(out, length);
}

/* A call of plan or of an open job's schedule, with an output of that length. */
typedef barrier_plan_reply (*planner)(uint64_t side, uint8_t *out, size_t out_len);

static uint8_t job[(HEADER_NUMBERS + HAZARDS_MAX * HAZARD_NUMBERS) * NUMBER_BYTES_MAX];
static size_t job_len;
static barrier_open_job open_job;

static barrier_plan_reply plan(uint64_t side, uint8_t *out, size_t out_len)
{
    return barrier_plan(job, job_len, side, out, out_len);
}

static barrier_plan_reply schedule(uint64_t side, uint8_t *out, size_t out_len)
{
    return barrier_open_schedule(&open_job, side, out, out_len);
}

static void reply_is(const char *what, barrier_plan_reply reply, uint64_t number, uint64_t value,
                     uint64_t before, uint64_t after)
{
    expect(what, reply.number == number && reply.value == value && reply.before == before &&
                     reply.after == after);
}

/* With room to spare, with exactly enough, and with one byte less. */
static void side_is(const char *what, planner call, uint64_t side, const struct wanted *wanted)
{
    uint8_t out[ROOM];
    const size_t length = wanted->length;

    memset(out, PAINT, sizeof out);
    reply_is(what, call(side, out, sizeof out), BARRIER_DONE, length, wanted->before, wanted->after);
    expect(what, output_is(out, wanted->schedule, length));
    memset(out, PAINT, sizeof out);
    reply_is(what, call(side, out, length), BARRIER_DONE, length, wanted->before, wanted->after);
    expect(what, output_is(out, wanted->schedule, length));
    memset(out, PAINT, sizeof out);
    reply_is(what, call(side, out, length - 1), BARRIER_OUTPUT_SHORT, length, 0, 0);
    expect(what, untouched(out));
}

static void sides_are(const char *what, planner call, const struct wanted *wanted)
{
    uint8_t out[ROOM];

    side_is(what, call, BARRIER_RIGHT, &wanted[BARRIER_RIGHT]);
    side_is(what, call, BARRIER_LEFT, &wanted[BARRIER_LEFT]);
    memset(out, PAINT, sizeof out);
    reply_is(what, call(2, out, sizeof out), BARRIER_ARGUMENT, 0, 0, 0);
    expect(what, untouched(out));
}

/* Only the first run's distance is another: it is counted from station 0. */
static void move_schedule(const struct wanted *wanted, uint64_t by, struct wanted *moved)
{
    size_t at = 1, length = 1;

    *moved = *wanted;
    if (wanted->schedule[0] == 0)
        return;
    length += put_number(moved->schedule + 1, get_number(wanted->schedule, &at) + by);
    memcpy(moved->schedule + length, wanted->schedule + at, wanted->length - at);
    moved->length = length + wanted->length - at;
}

/* The same job, and an open job to which its hazards are added. */
static void sample_is(const char *what, const struct sample *sample, const struct wanted *wanted)
{
    size_t i;
    barrier_reply reply;

    job_len = write_job(sample, 0, job);
    reply = barrier_open(&open_job, job, job_len);
    expect(what, reply.number == BARRIER_DONE);
    for (i = 0; i < sample->hazards_len; i++) {
        reply = barrier_add(&open_job, (uint16_t)i, sample->hazards[i]);
        expect(what, reply.number == BARRIER_DONE && reply.value == 0);
    }
    job_len = write_job(sample, sample->hazards_len, job);
    sides_are(what, plan, wanted);
    sides_are(what, schedule, wanted);
}

/* The same, with everything so much farther on. */
static void moved_is(const char *what, struct sample sample, const struct wanted *wanted,
                     uint64_t by)
{
    struct wanted moved[2];
    size_t i;

    sample.header[1] += by;
    sample.header[2] += by;
    for (i = 0; i < sample.hazards_len; i++) {
        sample.hazards[i].start += by;
        sample.hazards[i].end += by;
    }
    move_schedule(&wanted[BARRIER_RIGHT], by, &moved[BARRIER_RIGHT]);
    move_schedule(&wanted[BARRIER_LEFT], by, &moved[BARRIER_LEFT]);
    sample_is(what, &sample, moved);
}

/* The last sample's level at a station, and what lookup says of its schedule. */
static void level_is(const char *what, uint64_t side, uint64_t station, uint64_t level,
                     const struct wanted *wanted)
{
    const barrier_reply reply = barrier_level(job, job_len, side, station);
    const barrier_record record =
        barrier_lookup(wanted[BARRIER_RIGHT].schedule, wanted[BARRIER_RIGHT].length,
                       wanted[BARRIER_LEFT].schedule, wanted[BARRIER_LEFT].length, side, station);

    expect(what, reply.number == BARRIER_DONE && reply.value == level);
    expect(what, record.number == BARRIER_DONE && record.found == (level > 0));
}

/* Where an envelope hangs over, the level outside the road is 0 all the same. */
static void levels(void)
{
    level_is("level before the road", BARRIER_RIGHT, 99999, 0, both_ends_wanted);
    level_is("level at the road's begin", BARRIER_RIGHT, 100000, 3, both_ends_wanted);
    level_is("level at the road's last station", BARRIER_RIGHT, 399999, 3, both_ends_wanted);
    level_is("level at the road's end", BARRIER_RIGHT, 400000, 0, both_ends_wanted);
    level_is("level behind the road", BARRIER_RIGHT, 420757, 0, both_ends_wanted);
    level_is("level on the left, last station", BARRIER_LEFT, 399999, 4, both_ends_wanted);
    level_is("level on the left, road's end", BARRIER_LEFT, 400000, 0, both_ends_wanted);
    level_is("level at the greatest station", BARRIER_RIGHT, UINT64_MAX, 0, both_ends_wanted);
}

/* The right side without one hazard more: how many bytes, and the overhangs. */
static void withdrawn(uint16_t name, uint64_t length, uint64_t before, uint64_t after)
{
    uint8_t out[ROOM];
    const barrier_reply reply = barrier_withdraw(&open_job, name);

    expect("withdraw", reply.number == BARRIER_DONE);
    reply_is("after a withdrawal", schedule(BARRIER_RIGHT, out, sizeof out), BARRIER_DONE, length,
             before, after);
}

/* What hangs over goes with the hazard, and comes back with it. */
static void withdrawals(void)
{
    uint8_t out[ROOM];
    barrier_reply reply = barrier_keep(&open_job, 0);

    expect("keep", reply.number == BARRIER_DONE);
    withdrawn(1, 15, 14227, 20758);
    withdrawn(3, 15, 14227, 12758);
    withdrawn(4, 8, 14227, 0);
    withdrawn(0, 8, 11227, 0);
    withdrawn(2, 1, 0, 0);
    reply = barrier_return(&open_job, 0);
    expect("return", reply.number == BARRIER_DONE);
    sides_are("returned", schedule, both_ends_wanted);
    open_job.count = BARRIER_HAZARDS_MAX + 1;
    memset(out, PAINT, sizeof out);
    reply_is("broken memory", schedule(BARRIER_RIGHT, out, sizeof out), BARRIER_HEADER_RANGE, 0, 0, 0);
    expect("broken memory", untouched(out));
}

/* Too near for the barrier is refused 5, whatever hangs over. */
static void refused_all_the_same(void)
{
    struct sample sample = both_ends;
    uint8_t out[ROOM];
    barrier_reply reply;

    sample.hazards[6].near_offset = 3999;
    job_len = write_job(&sample, sample.hazards_len, job);
    reply_is("too near", plan(BARRIER_RIGHT, out, sizeof out), BARRIER_HAZARD_NEAR, 6, 0, 0);
    job_len = write_job(&sample, 0, job);
    reply = barrier_open(&open_job, job, job_len);
    expect("open", reply.number == BARRIER_DONE);
    reply = barrier_add(&open_job, 9, sample.hazards[6]);
    expect("add, too near", reply.number == BARRIER_HAZARD_NEAR && reply.value == 9);
}

int main(void)
{
    sample_is("K8's second job", &k8, k8_wanted);
    moved_is("K8's second job, far away", k8, k8_wanted, UINT64_C(999000000000));
    /* What hangs over behind lies beyond the greatest station. */
    moved_is("both ends, far away", both_ends, both_ends_wanted, BARRIER_STATION_MAX - 400000);
    sample_is("both ends", &both_ends, both_ends_wanted);
    levels();
    withdrawals();
    refused_all_the_same();
    return wrong;
}

/*
 * A hazard's reach, of a job and of an open one: its figures at the ends of a
 * road, by both traffics, in panels and for hazards that nobody reaches; that a
 * withdrawal changes nothing outside of it, and levels up to its end; refusals,
 * after which every other number is 0, and an open job that stays as it was. Ends
 * with 1 where a reply is another.
 */
#include <barrier_help.h>
#include <stdio.h>
#include <string.h>

static uint8_t job[BARRIER_JOB_LONGEST + 1];
static size_t job_len;
static barrier_open_job open_job, before;
static int wrong = 0;

static void expect(const char *what, int as_stated)
{
    if (!as_stated) {
        printf("reach: %s\n", what);
        wrong = 1;
    }
}

/* The two-way road of the manual, without a flare: from the right the approach
   of forward traffic is 67334, that of the far traffic 28056. */
static const barrier_help_header two_way = {1,    0,    1000000, 101000, 101000, 9000, 3500,
                                            3000, 1000, 15,      0,      0,      50000, 0};
static const barrier_hazard headwall = {BARRIER_RIGHT, 200000, 210000, 5000, 9000, BARRIER_NC_3};

static barrier_hazard hazard_of(uint64_t side, uint64_t start, uint64_t end, uint64_t near_offset)
{
    const barrier_hazard hazard = {side, start, end, near_offset, 9000, BARRIER_NC_3};
    return hazard;
}

/* The hazards as a job, and in an open job under the names 65535, 65534 and so
   on: the index and the place of a name differ. */
static uint16_t name_of(size_t index)
{
    return (uint16_t)(BARRIER_NAME_MAX - index);
}

static void write_job(const barrier_help_header *header, const barrier_hazard *hazards,
                      size_t count)
{
    size_t i;
    job_len = barrier_help_write_job(header, NULL, 0, job, sizeof job);
    expect("open", barrier_open(&open_job, job, job_len).number == BARRIER_DONE);
    for (i = 0; i < count; i++)
        expect("add", barrier_add(&open_job, name_of(i), hazards[i]).number == BARRIER_DONE);
    job_len = barrier_help_write_job(header, hazards, count, job, sizeof job);
}

static int same(barrier_reach_reply one, barrier_reach_reply two)
{
    return one.number == two.number && one.value == two.value && one.side == two.side &&
           one.start == two.start && one.end == two.end && one.before == two.before &&
           one.after == two.after && one.from == two.from && one.to == two.to;
}

static void reach_is(const char *what, size_t index, barrier_reach_reply wanted)
{
    before = open_job;
    expect(what, same(barrier_reach(job, job_len, index), wanted));
    expect(what, same(barrier_open_reach(&open_job, name_of(index)), wanted));
    expect(what, memcmp(&before, &open_job, sizeof open_job) == 0);
}

static void one_reach_is(const char *what, barrier_help_header header, barrier_hazard hazard,
                         barrier_reach_reply wanted)
{
    write_job(&header, &hazard, 1);
    reach_is(what, 0, wanted);
}

/* Side, envelope, overhangs and stretch, by hand. */
static barrier_reach_reply done(uint64_t side, uint64_t start, uint64_t end, uint64_t hangs_before,
                                uint64_t hangs_after, uint64_t from, uint64_t to)
{
    const barrier_reach_reply reply = {BARRIER_DONE, 0,           side, start, end,
                                       hangs_before, hangs_after, from, to};
    return reply;
}

static void figures(void)
{
    barrier_help_header header = two_way;

    one_reach_is("on the right", two_way, headwall, done(0, 132666, 238056, 0, 0, 82666, 288056));
    one_reach_is("on the left", two_way, hazard_of(1, 200000, 210000, 5000),
                 done(1, 171944, 277334, 0, 0, 121944, 327334));
    /* n + W is not below C: only adjacent traffic reaches it; then nobody. */
    one_reach_is("adjacent traffic alone", two_way, hazard_of(1, 200000, 210000, 5500),
                 done(1, 200000, 277334, 0, 0, 150000, 327334));
    one_reach_is("nobody, on the left", two_way, hazard_of(1, 200000, 210000, 9000),
                 done(1, 0, 0, 0, 0, 0, 0));
    one_reach_is("nobody, nearer than M and D", two_way, hazard_of(0, 0, 1000000, 9000),
                 done(0, 0, 0, 0, 0, 0, 0));
    /* Cut at each end, and by one millimetre or none. */
    one_reach_is("the road's begin", two_way, hazard_of(0, 67334, 67335, 5000),
                 done(0, 0, 95391, 0, 0, 0, 145391));
    one_reach_is("before it", two_way, hazard_of(0, 67333, 67334, 5000),
                 done(0, 0, 95390, 1, 0, 0, 145390));
    one_reach_is("the road's end", two_way, hazard_of(0, 900000, 971944, 5000),
                 done(0, 832666, 1000000, 0, 0, 782666, 1000000));
    one_reach_is("after it", two_way, hazard_of(0, 900000, 971945, 5000),
                 done(0, 832666, 1000000, 0, 1, 782666, 1000000));
    one_reach_is("both", two_way, hazard_of(0, 0, 1000000, 5000),
                 done(0, 0, 1000000, 67334, 28056, 0, 1000000));
    /* The stretch is cut where the envelope is not. */
    one_reach_is("the stretch's begin", two_way, hazard_of(0, 117333, 117334, 5000),
                 done(0, 49999, 145390, 0, 0, 0, 195390));
    one_reach_is("the stretch's begin, whole", two_way, hazard_of(0, 117335, 117336, 5000),
                 done(0, 50001, 145392, 0, 0, 1, 195392));
    header.continuity = 0;
    one_reach_is("no gaps closed", header, headwall, done(0, 132666, 238056, 0, 0, 132666, 238056));
    header.continuity = 200000;
    header.panel = 4000;
    header.kind = 2;
    one_reach_is("in panels", header, headwall, done(0, 132000, 242000, 0, 0, 0, 442000));
}

/* On a road that ends at the greatest station. */
static void far_chainage(void)
{
    barrier_help_header header = two_way;
    const uint64_t end = BARRIER_STATION_MAX, begin = end - BARRIER_ROAD_MAX;

    header.begin = begin;
    header.end = end;
    one_reach_is("at the greatest station", header, hazard_of(0, end - 1, end, 5000),
                 done(0, end - 67335, end, 0, 28056, end - 117335, end));
    one_reach_is("at the begin of the longest road", header, hazard_of(1, begin, begin + 1, 5000),
                 done(1, begin, begin + 67335, 28056, 0, begin, begin + 117335));
}

static int level_at(uint64_t side, uint64_t station)
{
    return (int)barrier_level(job, job_len, side, station).value;
}

enum { HAZARDS = 12, SAMPLES = 400 };

/* A withdrawal changes no level outside the stretch, and none on the other side. */
static void withdrawals(void)
{
    static int levels[2][SAMPLES];
    barrier_hazard hazards[HAZARDS], left[HAZARDS - 1];
    barrier_reach_reply reached[HAZARDS];
    size_t i, j, changed = 0, astray = 0;
    uint64_t side;

    for (i = 0; i < HAZARDS; i++) {
        hazards[i] = hazard_of(i % 2, 30000 + i * 80000, 30000 + i * 80000 + 900 * i + 1,
                               4000 + i * 911 % 5001);
        hazards[i].level = 1 + i % 6;
    }
    write_job(&two_way, hazards, HAZARDS);
    for (i = 0; i < HAZARDS; i++) {
        reached[i] = barrier_reach(job, job_len, i);
        expect("one of several",
               reached[i].number == BARRIER_DONE && reached[i].side == hazards[i].side &&
                   same(reached[i], barrier_open_reach(&open_job, name_of(i))));
    }
    for (side = 0; side < 2; side++)
        for (j = 0; j < SAMPLES; j++)
            levels[side][j] = level_at(side, j * 2500);
    for (i = 0; i < HAZARDS; i++) {
        for (j = 0; j + 1 < HAZARDS; j++)
            left[j] = hazards[j < i ? j : j + 1];
        job_len = barrier_help_write_job(&two_way, left, HAZARDS - 1, job, sizeof job);
        for (side = 0; side < 2; side++)
            for (j = 0; j < SAMPLES; j++) {
                const uint64_t station = j * 2500;
                const int inside = side == reached[i].side && reached[i].from <= station &&
                                   station < reached[i].to;
                const int differs = levels[side][j] != level_at(side, station);
                changed += (size_t)differs;
                astray += (size_t)(differs && !inside);
            }
    }
    expect("no level is changed by a withdrawal", changed > 50);
    expect("a level outside the stretch is changed", astray == 0);
}

/* Envelopes [132666, 238056) and from 288055 on: the gap between them, 49999, is
   closed, and open without the first hazard, to its last millimetre but one in
   the stretch. */
static void exact_ends(void)
{
    barrier_hazard both[2];

    both[0] = headwall;
    both[1] = hazard_of(0, 288055 + 67334, 400000, 5000);
    write_job(&two_way, both, 2);
    expect("the gap is closed", level_at(0, 288054) == BARRIER_NC_3);
    expect("the stretch has its last millimetre", barrier_reach(job, job_len, 0).to == 288056);
    write_job(&two_way, both + 1, 1);
    expect("the gap is open", level_at(0, 288054) == 0 && level_at(0, 288055) == BARRIER_NC_3);
}

static void refused(const char *what, barrier_reach_reply reply, uint64_t number, uint64_t value)
{
    const barrier_reach_reply wanted = {number, value, 0, 0, 0, 0, 0, 0, 0};
    expect(what, same(reply, wanted));
}

static void refusals_of_a_job(void)
{
    static const uint64_t indices[] = {1, 256, 65536, UINT64_C(4294967296), UINT64_MAX};
    barrier_help_header header = two_way;
    barrier_hazard hazard = hazard_of(1, 200000, 210000, 5000);
    size_t i;

    refused("no job", barrier_reach(NULL, 0, 0), BARRIER_JOB_ENDED, 0);
    refused("no job, no hazard", barrier_reach(NULL, 0, UINT64_MAX), BARRIER_JOB_ENDED, 0);
    write_job(&two_way, &hazard, 1);
    for (i = 0; i < sizeof indices / sizeof indices[0]; i++)
        refused("no such hazard", barrier_reach(job, job_len, indices[i]), BARRIER_NO_APPROACH, 0);
    for (i = 0; i < job_len; i++) {
        const barrier_reach_reply reply = barrier_reach(job, i, i);
        refused("a job that ends early", reply, BARRIER_JOB_ENDED, reply.value);
        expect("where it ends", reply.value <= i);
    }
    job[job_len] = 0;
    refused("a byte left over", barrier_reach(job, job_len + 1, 9), BARRIER_JOB_LEFT_OVER, job_len);
    job[0] = 3;
    refused("kind 3", barrier_reach(job, job_len, 0), BARRIER_HEADER_RANGE, 1);
    hazard.near_offset = 3999;
    job_len = barrier_help_write_job(&header, &hazard, 1, job, sizeof job);
    refused("no room to deflect", barrier_reach(job, job_len, 0), BARRIER_HAZARD_NEAR, 0);
    refused("the same, no such hazard", barrier_reach(job, job_len, 7), BARRIER_HAZARD_NEAR, 0);
    hazard.level = 7;
    job_len = barrier_help_write_job(&header, &hazard, 1, job, sizeof job);
    refused("level 7", barrier_reach(job, job_len, 7), BARRIER_HAZARD_RANGE, 0);
    job_len = barrier_help_write_job(&header, NULL, 0, job, sizeof job);
    refused("no hazards", barrier_reach(job, job_len, 0), BARRIER_NO_APPROACH, 0);
}

/* The bytes need no alignment. */
static void alignment(void)
{
    static uint8_t moved[sizeof job + 8];
    size_t by;

    write_job(&two_way, &headwall, 1);
    for (by = 0; by < 8; by++) {
        memcpy(moved + by, job, job_len);
        expect("bytes at any address", same(barrier_reach(moved + by, job_len, 0),
                                            done(0, 132666, 238056, 0, 0, 82666, 288056)));
    }
}

/* The memory is tested before the name, and stays as it was. */
static void broken(const char *what)
{
    before = open_job;
    refused(what, barrier_open_reach(&open_job, 65535), BARRIER_HEADER_RANGE, 0);
    refused(what, barrier_open_reach(&open_job, 3), BARRIER_HEADER_RANGE, 0);
    expect(what, memcmp(&before, &open_job, sizeof open_job) == 0);
}

static void refusals_of_an_open_job(void)
{
    static const uint16_t names[] = {0, 1, 255, 511, 32767, 65279, 65534};
    size_t i;

    write_job(&two_way, &headwall, 1);
    before = open_job;
    for (i = 0; i < sizeof names / sizeof names[0]; i++)
        refused("a name that does not stand", barrier_open_reach(&open_job, names[i]), BARRIER_NAME,
                names[i]);
    expect("refused for its name", memcmp(&before, &open_job, sizeof open_job) == 0);
    expect("withdraw", barrier_withdraw(&open_job, 65535).number == BARRIER_DONE);
    refused("a name that is withdrawn", barrier_open_reach(&open_job, 65535), BARRIER_NAME, 65535);
    memset(&open_job, 0, sizeof open_job);
    broken("memory that was never opened");
    memset(&open_job, 0xFF, sizeof open_job);
    broken("memory full of ones");
    write_job(&two_way, &headwall, 1);
    open_job.continuity = 200001;
    broken("a header out of range");
    write_job(&two_way, &headwall, 1);
    open_job.hazards[0].near_offset = 3999;
    broken("a hazard too near");
    write_job(&two_way, &headwall, 1);
    open_job.hazards[255].level = 1;
    broken("a place that is not empty");
    write_job(&two_way, &headwall, 1);
    open_job.kept[7].hazards[255].end = 1;
    broken("a kept state that is not empty");
}

int main(void)
{
    figures();
    far_chainage();
    withdrawals();
    exact_ends();
    refusals_of_a_job();
    alignment();
    refusals_of_an_open_job();
    return wrong;
}

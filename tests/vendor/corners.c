/*
 * The corner points of an approach, bit by bit, and the refusals of the call.
 * Ends with 1 where a reply is another.
 */
#include "number_form.h"
#include <barrier.h>
#include <stdio.h>
#include <string.h>

enum { NUMBERS_MAX = 40 };

static uint8_t job[NUMBERS_MAX * NUMBER_BYTES_MAX];
static size_t job_len;
static int wrong = 0;

static void expect(const char *what, int as_stated)
{
    if (!as_stated) {
        printf("corners: %s\n", what);
        wrong = 1;
    }
}

static void write_job(const uint64_t *numbers, size_t count)
{
    size_t i;

    job_len = 0;
    for (i = 0; i < count; i++)
        job_len += put_number(job + job_len, numbers[i]);
}

/* Two floats alike in every bit: == does not tell a negative zero from zero. */
static int same(double a, double b)
{
    return memcmp(&a, &b, sizeof a) == 0;
}

/* Stations and offsets of the upstream end, the flare and the hazard's end. */
static void corners_are(const char *what, barrier_corners_reply reply, double upstream_station,
                        double upstream_offset, double flare_station, double flare_offset,
                        double hazard_station, double hazard_offset)
{
    expect(what, reply.number == BARRIER_DONE && reply.value == 0);
    expect(what, same(reply.upstream.station, upstream_station) &&
                     same(reply.upstream.offset, upstream_offset));
    expect(what,
           same(reply.flare.station, flare_station) && same(reply.flare.offset, flare_offset));
    expect(what,
           same(reply.hazard.station, hazard_station) && same(reply.hazard.offset, hazard_offset));
}

static void refused(const char *what, barrier_corners_reply reply, uint64_t number, uint64_t value)
{
    expect(what, reply.number == number && reply.value == value);
    expect(what, same(reply.upstream.station, 0) && same(reply.upstream.offset, 0) &&
                     same(reply.flare.station, 0) && same(reply.flare.offset, 0) &&
                     same(reply.hazard.station, 0) && same(reply.hazard.offset, 0));
}

/* Case K1, the printed example, on sheets of every kind. */
static void printed_example(void)
{
    static const uint64_t numbers[20] = {1, 0,     1000000, 101000, 0, 9000,   0,      3000, 1000, 15,
                                         1, 13340, 0,       1,      0, 200000, 210000, 5000, 9000, 3};

    write_job(numbers, 20);
    corners_are("K1", barrier_corners(job, job_len, 0, 0, 0), 155773, 5059, 186660, 3000, 200000,
                3000);
    corners_are("K1, sheet in between", barrier_corners(job, job_len, 0, 160000, 4000), -4227, 1059,
                26660, -1000, 40000, -1000);
    corners_are("K1, sheet at a corner", barrier_corners(job, job_len, 0, 155773, 5059), 0, 0, 30887,
                -2059, 44227, -2059);
    corners_are("K1, farthest sheet",
                barrier_corners(job, job_len, 0, BARRIER_STATION_MAX, BARRIER_STATION_MAX),
                -999999844227.0, -999999994941.0, -999999813340.0, -999999997000.0,
                -999999800000.0, -999999997000.0);
    /* Cut down to 32 bits the sheet's numbers would be 0. */
    corners_are("K1, sheet in 33 bits",
                barrier_corners(job, job_len, 0, 4294967296u, 4294967296u), -4294811523.0,
                -4294962237.0, -4294780636.0, -4294964296.0, -4294767296.0, -4294964296.0);
    refused("no second hazard", barrier_corners(job, job_len, 1, 0, 0), BARRIER_NO_APPROACH, 0);
    /* Cut down to fewer bits these would be 0. */
    refused("hazard 256", barrier_corners(job, job_len, 256, 0, 0), BARRIER_NO_APPROACH, 0);
    refused("hazard in 33 bits", barrier_corners(job, job_len, 4294967296u, 0, 0),
            BARRIER_NO_APPROACH, 0);
    refused("hazard in 64 bits", barrier_corners(job, job_len, UINT64_MAX, 0, 0),
            BARRIER_NO_APPROACH, 0);
    refused("sheet station out of range",
            barrier_corners(job, job_len, 0, BARRIER_STATION_MAX + 1, 0), BARRIER_ARGUMENT, 0);
    refused("sheet offset out of range",
            barrier_corners(job, job_len, 0, 0, BARRIER_STATION_MAX + 1), BARRIER_ARGUMENT, 0);
    refused("sheet out of range, no hazard", barrier_corners(job, job_len, 1, UINT64_MAX, 0),
            BARRIER_ARGUMENT, 0);
}

/* The sample job `chainage`: the same, 999,000 km farther on. */
static void far_away(void)
{
    const uint64_t begin = UINT64_C(999000000000);
    const uint64_t numbers[20] = {
        1, begin, begin + 1000000, 101000, 0, 9000, 0, 3000, 1000, 15, 1, 13340, 0, 1,
        0, begin + 200000, begin + 210000, 5000, 9000, 3};

    write_job(numbers, 20);
    corners_are("far away", barrier_corners(job, job_len, 0, 0, 0), 999000155773.0, 5059,
                999000186660.0, 3000, 999000200000.0, 3000);
    corners_are("far away, sheet by the road", barrier_corners(job, job_len, 0, begin, 0), 155773,
                5059, 186660, 3000, 200000, 3000);
    corners_are("far away, farthest sheet",
                barrier_corners(job, job_len, 0, BARRIER_STATION_MAX, BARRIER_STATION_MAX),
                -999844227.0, -999999994941.0, -999813340.0, -999999997000.0, -999800000.0,
                -999999997000.0);
}

/* The sample job `corners`: panels, both sides, a barrier that does not bend. */
static void panels(void)
{
    static const uint64_t numbers[39] = {
        2, 100000, 400000, 101000, 101000, 9000, 3500, 3000, 1000, 15, 1, 30000, 0, 4000, 4,
        0, 125000, 129000, 5000,   9000,   3,
        0, 300000, 300500, 4000,   4200,   2,
        1, 250000, 256000, 5000,   12000,  4,
        1, 350000, 352000, 9000,   9500,   6};

    write_job(numbers, 39);
    corners_are("before the road", barrier_corners(job, job_len, 0, 100000, 0), -27000, 4466, -5000,
                3000, 25000, 3000);
    corners_are("no bend", barrier_corners(job, job_len, 1, 100000, 0), 168000, 3000, 168000, 3000,
                200000, 3000);
    corners_are("on the left", barrier_corners(job, job_len, 2, 100000, 0), 208000, 4466, 186000,
                3000, 156000, 3000);
    refused("not reached", barrier_corners(job, job_len, 3, 100000, 0), BARRIER_NO_APPROACH, 0);
    /* The last hazard has twelve bytes. */
    refused("cut before the last hazard", barrier_corners(job, job_len - 12, 9, 0, 0),
            BARRIER_JOB_ENDED, job_len - 12);
}

/* One-way: forward traffic is adjacent to the left side too. No flare. */
static void one_way_left(void)
{
    uint64_t numbers[20] = {1, 0, 1000000, 101000, 0, 9000,  0,      3000, 1000, 15,
                            0, 0, 0,       1,      1, 67333, 210000, 5000, 9000, 3};

    write_job(numbers, 20);
    corners_are("one-way, on the left", barrier_corners(job, job_len, 0, 0, 0), -1, 3000, -1, 3000,
                67333, 3000);
    /* The job's own refusals come before 14. */
    numbers[17] = 3999;
    write_job(numbers, 20);
    refused("too near", barrier_corners(job, job_len, 0, 0, 0), BARRIER_HAZARD_NEAR, 0);
    refused("too near, no such hazard", barrier_corners(job, job_len, 5, 0, 0), BARRIER_HAZARD_NEAR,
            0);
    refused("too near, sheet out of range",
            barrier_corners(job, job_len, 0, 0, BARRIER_STATION_MAX + 1), BARRIER_ARGUMENT, 0);
    job[job_len++] = 0;
    refused("a byte left over", barrier_corners(job, job_len, 5, 0, 0), BARRIER_JOB_LEFT_OVER,
            job_len - 1);
}

/* The greatest station, runout length and panels, on the left: upstream is higher. */
static void farthest(void)
{
    const uint64_t end = BARRIER_STATION_MAX;
    uint64_t numbers[21] = {
        2, end - BARRIER_ROAD_MAX, end, 200000, 200000, 30000, 0, 0, 1, 1, 0, 0, 0, 9999, 1,
        1, end - 1, end, 1, 30000, 6};

    write_job(numbers, 21);
    corners_are("greatest station", barrier_corners(job, job_len, 0, 0, 0), 1000000209979.0, 0,
                1000000209979.0, 0, 1000000000000.0, 0);
    /* Ten across for one along: length 2,956, raised to one panel of 9,999. */
    numbers[10] = 10;
    write_job(numbers, 21);
    corners_are("greatest offset", barrier_corners(job, job_len, 0, BARRIER_STATION_MAX, 0), 9999,
                99990, 0, 0, 0, 0);
}

static void no_job(void)
{
    refused("no job", barrier_corners(NULL, 0, 0, 0, 0), BARRIER_JOB_ENDED, 0);
    refused("no job, sheet out of range", barrier_corners(NULL, 0, 0, BARRIER_STATION_MAX + 1, 0),
            BARRIER_ARGUMENT, 0);
}

int main(void)
{
    printed_example();
    far_away();
    panels();
    one_way_left();
    farthest();
    no_job();
    return wrong;
}

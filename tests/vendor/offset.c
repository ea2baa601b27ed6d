/*
 * The smallest barrier offset that keeps an approach as short as wanted: at its
 * ends, for panels and both rules of the length, and its refusals; and the
 * approach that is then drawn with it. Ends with 1 where a reply is another.
 */
#include "number_form.h"
#include <barrier.h>
#include <stdio.h>

enum { NUMBERS_MAX = 40, OFFSET = 7 };

static uint8_t job[NUMBERS_MAX * NUMBER_BYTES_MAX];
static size_t job_len;
static int wrong = 0;

static void expect(const char *what, int as_stated)
{
    if (!as_stated) {
        printf("offset: %s\n", what);
        wrong = 1;
    }
}

static void write_job(const uint64_t *numbers, size_t count)
{
    size_t i;

    job_len = 0;
    for (i = 0; i < count; i++)
        job_len += put_number(job + job_len, numbers[i]);
}

static void reply_is(const char *what, barrier_offset_reply reply, uint64_t number, uint64_t value,
                     uint64_t found)
{
    expect(what, reply.number == number && reply.value == value && reply.found == found);
}

static void smallest_is(const char *what, uint64_t hazard, uint64_t longest, uint64_t offset)
{
    reply_is(what, barrier_offset(job, job_len, hazard, longest), BARRIER_DONE, offset, 1);
}

static void none(const char *what, uint64_t hazard, uint64_t longest)
{
    reply_is(what, barrier_offset(job, job_len, hazard, longest), BARRIER_DONE, 0, 0);
}

static void refused(const char *what, uint64_t hazard, uint64_t number, uint64_t value)
{
    reply_is(what, barrier_offset(job, job_len, hazard, 50000), number, value, 0);
    reply_is(what, barrier_offset(job, job_len, hazard, 0), number, value, 0);
}

/* The printed example. */
static const uint64_t printed[20] = {1, 0,     1000000, 101000, 0, 9000,   0,      3000, 1000, 15,
                                     1, 13340, 0,       1,      0, 200000, 210000, 5000, 9000, 3};

static void printed_example(void)
{
    uint64_t numbers[20], own;
    size_t i;

    for (i = 0; i < 20; i++)
        numbers[i] = printed[i];
    /* Whatever the header's own offset is, as long as the job is accepted. */
    for (own = 0; own <= 4000; own += 2000) {
        numbers[OFFSET] = own;
        write_job(numbers, 20);
        smallest_is("any length", 0, UINT64_MAX, 0);
        smallest_is("a length in 33 bits", 0, 4294967296u, 0);
        smallest_is("offset 0", 0, 63485, 0);
        smallest_is("offset 1", 0, 63484, 1);
        smallest_is("K1's length", 0, 44227, 3000);
        smallest_is("one less", 0, 44226, 3001);
        smallest_is("40 m", 0, 40000, 3659);
        smallest_is("the last offset", 0, 37807, 4000);
        none("shorter than the last", 0, 37806);
        none("length 0", 0, 0);
    }
    refused("no second hazard", 1, BARRIER_NO_APPROACH, 0);
    /* Cut down to fewer bits these would be 0. */
    refused("hazard 256", 256, BARRIER_NO_APPROACH, 0);
    refused("hazard in 33 bits", 4294967296u, BARRIER_NO_APPROACH, 0);
    refused("hazard in 64 bits", UINT64_MAX, BARRIER_NO_APPROACH, 0);
    numbers[OFFSET] = 4001;
    write_job(numbers, 20);
    refused("the header's offset leaves no room", 0, BARRIER_HAZARD_NEAR, 0);
    refused("the same, no such hazard", 9, BARRIER_HAZARD_NEAR, 0);
}

/* Whole panels; and a straight part longer than the approach needs. */
static void lengths(void)
{
    uint64_t numbers[21] = {2, 0,     1000000, 101000, 0, 9000, 0,      3000,   1000, 15,  1,
                            13340, 0, 4000,    1,      0, 200000, 210000, 5000, 9000, 3};

    write_job(numbers, 21);
    smallest_is("eleven panels", 0, 44000, 3036);
    smallest_is("not quite twelve", 0, 47999, 3036);
    /* The length 37,807 at the last offset takes ten panels. */
    smallest_is("ten panels", 0, 40000, 3659);
    none("not quite ten", 0, 39999);
    numbers[11] = 100000;
    numbers[13] = 1;
    write_job(numbers, 21);
    smallest_is("in the straight part", 0, 60000, 3654);
}

/* No M above 20,000, though the hazard stands 29,000 away. */
static void widest(void)
{
    static const uint64_t numbers[20] = {1, 0, 1000000, 101000, 0, 30000,  0,      3000,  1000,  15,
                                         0, 0, 0,       1,      0, 200000, 210000, 29000, 60000, 3};

    write_job(numbers, 20);
    smallest_is("offset 20000", 0, 33667, 20000);
    none("offset 20001 would do", 0, 33666);
}

/* The adjacent traffic of the left side is opposite; the other hazards do not
   count, and neither does the far traffic. */
static void on_the_left(void)
{
    static const uint64_t numbers[38] = {
        1, 0, 1000000, 101000, 50500, 9000, 3500, 3000, 1000, 15, 0, 0, 0, 4,
        0, 200000, 210000, 4000, 9000, 3,
        1, 400000, 410000, 5000, 9000, 3,
        1, 600000, 610000, 9000, 9500, 3,
        1, 800000, 810000, 4000, 4000, 3};

    write_job(numbers, 38);
    /* 50,500 x (9,000 - M) / 9,000 */
    smallest_is("on the left", 1, 33667, 3000);
    smallest_is("on the left, the last offset", 1, 28056, 4000);
    none("on the left, shorter", 1, 28055);
    smallest_is("on the right", 0, 67334, 3000);
    none("on the right, nearer", 0, 67333);
    refused("not reached", 2, BARRIER_NO_APPROACH, 0);
    smallest_is("a narrow one", 3, 12625, 3000);
}

/* With the offset that is found the approach is short enough, and with one less
   it is not: as barrier_corners gives it. */
static double drawn_length(uint64_t offset, uint64_t panel)
{
    uint64_t numbers[21];
    size_t i;
    barrier_corners_reply reply;

    for (i = 0; i < 13; i++)
        numbers[i] = printed[i];
    numbers[0] = 2;
    numbers[OFFSET] = offset;
    numbers[13] = panel;
    for (i = 13; i < 20; i++)
        numbers[i + 1] = printed[i];
    write_job(numbers, 21);
    reply = barrier_corners(job, job_len, 0, 0, 0);
    expect("corners", reply.number == BARRIER_DONE);
    return reply.hazard.station - reply.upstream.station;
}

static void drawn(void)
{
    static const uint64_t panels[3] = {1, 4000, 7001};
    uint64_t longest;
    size_t i;

    for (i = 0; i < 3; i++) {
        const double shortest = drawn_length(4000, panels[i]);
        for (longest = 30000; longest < 72000; longest += 97) {
            const barrier_offset_reply reply = barrier_offset(job, job_len, 0, longest);
            expect("drawn: done", reply.number == BARRIER_DONE);
            if (!reply.found) {
                expect("drawn: none too early", shortest > (double)longest);
                continue;
            }
            expect("drawn: too long", drawn_length(reply.value, panels[i]) <= (double)longest);
            expect("drawn: not the smallest",
                   reply.value == 0 || drawn_length(reply.value - 1, panels[i]) > (double)longest);
        }
    }
}

static void no_job(void)
{
    reply_is("no job", barrier_offset(NULL, 0, 0, 50000), BARRIER_JOB_ENDED, 0, 0);
    write_job(printed, 20);
    job[job_len++] = 0;
    refused("a byte left over", 5, BARRIER_JOB_LEFT_OVER, job_len - 1);
}

int main(void)
{
    printed_example();
    lengths();
    widest();
    on_the_left();
    drawn();
    no_job();
    return wrong;
}

/*
 * Names of 16 bits in an open job: 256 hazards stand together under names that
 * are alike in their lower byte, in their upper byte or in neither; one more is
 * refused, and has room after a withdrawal. What stands is planned as the job of
 * the same hazards, and kept states carry the names. Ends with 1 where a reply
 * is another.
 */
#include "number_form.h"
#include <barrier.h>
#include <stdio.h>
#include <string.h>

enum { HEADER_NUMBERS = 14, HAZARDS = BARRIER_HAZARDS_MAX, NAMES = BARRIER_NAME_MAX + 1 };

/* No name in the table below: no hazard stands under it. */
enum { ABSENT = -1 };

/* The numbers before the hazard count. The runout length is short, so that the
   hazards of a full job have runs of their own. */
static const uint64_t header[HEADER_NUMBERS - 1] = {1,    0,    1000000, 2000, 0, 9000, 0,
                                                    3000, 1000, 15,      1,    0, 300};

/* Which hazard stands under each name: what the open job has to hold. */
static int standing[NAMES];

static barrier_open_job open_job, other_job, before;
static uint8_t job[BARRIER_JOB_MAX];
static int wrong = 0;

static void expect(const char *what, unsigned name, int as_stated)
{
    if (!as_stated) {
        printf("names: %s, name %u\n", what, name);
        wrong = 1;
    }
}

static void reply_is(const char *what, unsigned name, barrier_reply reply, uint64_t number,
                     uint64_t value)
{
    expect(what, name, reply.number == number && reply.value == value);
}

/* No two are alike. The longer ones run into others, the shorter have gaps between
   them; both sides and several levels have theirs, and some nobody reaches. */
static barrier_hazard hazard_of(int i)
{
    barrier_hazard hazard;

    hazard.side = (uint64_t)(i / 3 % 2);
    hazard.start = 60000 + (uint64_t)i * 3600;
    hazard.end = hazard.start + 100 + (uint64_t)i * 29;
    hazard.near_offset = 4000 + (uint64_t)(i % 7) * 1000;
    hazard.far_offset = hazard.near_offset + 500;
    hazard.level = 1 + (uint64_t)(i % 5);
    return hazard;
}

static size_t write_header(uint64_t count)
{
    size_t length = 0, i;

    for (i = 0; i < HEADER_NUMBERS - 1; i++)
        length += put_number(job + length, header[i]);
    return length + put_number(job + length, count);
}

static void open_empty(barrier_open_job *opened)
{
    reply_is("open", 0, barrier_open(opened, job, write_header(0)), BARRIER_DONE, 0);
}

/* The open job's schedules are those of the job whose hazards are `standing`. */
static void planned_alike(const char *what)
{
    static uint8_t planned[BARRIER_SCHEDULE_MAX], scheduled[BARRIER_SCHEDULE_MAX];
    size_t length;
    uint64_t count = 0, side;
    int name;

    for (name = 0; name < NAMES; name++)
        count += standing[name] != ABSENT;
    length = write_header(count);
    for (name = NAMES - 1; name >= 0; name--) {
        barrier_hazard hazard;

        if (standing[name] == ABSENT)
            continue;
        hazard = hazard_of(standing[name]);
        length += put_number(job + length, hazard.side);
        length += put_number(job + length, hazard.start);
        length += put_number(job + length, hazard.end);
        length += put_number(job + length, hazard.near_offset);
        length += put_number(job + length, hazard.far_offset);
        length += put_number(job + length, hazard.level);
    }
    for (side = BARRIER_RIGHT; side <= BARRIER_LEFT; side++) {
        const barrier_plan_reply plan =
            barrier_plan(job, length, side, planned, sizeof planned);
        const barrier_plan_reply schedule =
            barrier_open_schedule(&open_job, side, scheduled, sizeof scheduled);

        expect(what, (unsigned)count,
               plan.number == BARRIER_DONE && schedule.number == BARRIER_DONE &&
                   plan.value == schedule.value && plan.before == schedule.before &&
                   plan.after == schedule.after &&
                   memcmp(planned, scheduled, (size_t)plan.value) == 0);
        /* A job of so many hazards has runs: nothing is alike for being empty. */
        expect("runs", (unsigned)count, count < 200 || plan.value > 300);
    }
}

/* The open job is, byte for byte, one to which `standing` was added in order. */
static void remembered(const char *what)
{
    int name;

    open_empty(&other_job);
    for (name = 0; name < NAMES; name++)
        if (standing[name] != ABSENT)
            reply_is(what, (unsigned)name,
                     barrier_add(&other_job, (uint16_t)name, hazard_of(standing[name])),
                     BARRIER_DONE, 0);
    expect(what, 0, memcmp(&other_job, &open_job, sizeof open_job) == 0);
}

static void add(unsigned name, int hazard)
{
    reply_is("add", name, barrier_add(&open_job, (uint16_t)name, hazard_of(hazard)), BARRIER_DONE,
             0);
    standing[name] = hazard;
}

static void withdraw(unsigned name)
{
    reply_is("withdraw", name, barrier_withdraw(&open_job, (uint16_t)name), BARRIER_DONE, 0);
    standing[name] = ABSENT;
}

static void start(void)
{
    int name;

    open_empty(&open_job);
    for (name = 0; name < NAMES; name++)
        standing[name] = ABSENT;
}

/* An add of a sound hazard and of others that are refused by themselves: one
   with a level that there is not, and one too near for a barrier. */
static void add_refused(const char *what, unsigned name, uint64_t number, uint64_t value)
{
    barrier_hazard hazard = hazard_of(0);

    before = open_job;
    reply_is(what, name, barrier_add(&open_job, (uint16_t)name, hazard), number, value);
    hazard.level = 7;
    reply_is(what, name, barrier_add(&open_job, (uint16_t)name, hazard), number, value);
    hazard.level = 6;
    hazard.near_offset = 3999;
    reply_is(what, name, barrier_add(&open_job, (uint16_t)name, hazard), number, value);
    expect(what, name, memcmp(&before, &open_job, sizeof open_job) == 0);
}

/* With 256 standing: names near those that stand, and names that would be one of
   them if a byte of either were left out. */
static void full(void)
{
    unsigned name;

    for (name = 0; name < NAMES; name++) {
        /* All that stand, their neighbours, and some of the others. */
        const int near_one = standing[name] != ABSENT || name % 1024 == 77 ||
                             (name > 0 && standing[name - 1] != ABSENT) ||
                             (name < BARRIER_NAME_MAX && standing[name + 1] != ABSENT) ||
                             name <= 256 || name >= 65279;

        if (!near_one)
            continue;
        if (standing[name] != ABSENT) {
            add_refused("full, stands", name, BARRIER_NAME, name);
        } else {
            add_refused("full, does not stand", name, BARRIER_FULL, 0);
            reply_is("full, withdraw", name, barrier_withdraw(&open_job, (uint16_t)name),
                     BARRIER_NAME, name);
        }
    }
    /* The memory is tested before. */
    open_job.count = HAZARDS + 1;
    add_refused("broken memory", 3, BARRIER_HEADER_RANGE, 0);
    open_job.count = HAZARDS;
    planned_alike("full");
}

/* 256 hazards under first, first + step and so on, added in another order. */
static void filled(unsigned first, unsigned step, unsigned fresh)
{
    int i;
    const unsigned gone = first + 100 * step;

    start();
    for (i = 0; i < HAZARDS; i++) {
        const int next = i * 101 % HAZARDS;

        add(first + (unsigned)next * step, next);
    }
    remembered("filled");
    full();
    reply_is("keep", 0, barrier_keep(&open_job, 7), BARRIER_DONE, 0);

    /* One goes. Then a hazard is tested again, and another name has its room. */
    withdraw(gone);
    reply_is("withdraw twice", gone, barrier_withdraw(&open_job, (uint16_t)gone), BARRIER_NAME,
             gone);
    planned_alike("one withdrawn");
    {
        barrier_hazard hazard = hazard_of(0);

        hazard.level = 0;
        reply_is("room, no level", fresh, barrier_add(&open_job, (uint16_t)fresh, hazard),
                 BARRIER_HAZARD_RANGE, fresh);
        hazard.level = 1;
        hazard.near_offset = 3999;
        reply_is("room, too near", fresh, barrier_add(&open_job, (uint16_t)fresh, hazard),
                 BARRIER_HAZARD_NEAR, fresh);
    }
    add(fresh, 255 - 100);
    full();
    reply_is("keep", 1, barrier_keep(&open_job, 1), BARRIER_DONE, 0);

    /* What is kept has its names, and is as full. */
    reply_is("return", 7, barrier_return(&open_job, 7), BARRIER_DONE, 0);
    standing[fresh] = ABSENT;
    standing[gone] = 100;
    planned_alike("returned");
    add_refused("returned, full", fresh, BARRIER_FULL, 0);
    add_refused("returned, stands", gone, BARRIER_NAME, gone);
    reply_is("return", 1, barrier_return(&open_job, 1), BARRIER_DONE, 0);
    standing[fresh] = 255 - 100;
    standing[gone] = ABSENT;
    planned_alike("returned to the other");
    add_refused("returned to the other, full", gone, BARRIER_FULL, 0);

    /* All go, and all come again. */
    withdraw(fresh);
    for (i = 0; i < HAZARDS; i++)
        if (i != 100)
            withdraw(first + (unsigned)i * step);
    planned_alike("all withdrawn");
    for (i = HAZARDS - 1; i >= 0; i--)
        add(first + (unsigned)i * step, i);
    planned_alike("all again");
    add_refused("all again, full", fresh, BARRIER_FULL, 0);
}

/* The names of a byte, in whatever order they come: the add behind the last is
   of a name that stands, so none of them is ever refused for room. */
static void bytes_alone(void)
{
    int name, again;

    start();
    for (name = HAZARDS - 1; name >= 0; name--) {
        add((unsigned)name, name);
        if (name % 16 == 0)
            for (again = name; again < HAZARDS; again++)
                add_refused("a byte, stands", (unsigned)again, BARRIER_NAME, (uint64_t)again);
    }
    for (name = 0; name < HAZARDS; name++) {
        withdraw((unsigned)name);
        add((unsigned)name, HAZARDS - 1 - name);
    }
    planned_alike("names of a byte");
}

/* Each by itself, with one beside it that a byte of it would be. */
static void one_by_one(void)
{
    unsigned name;

    start();
    for (name = 0; name < NAMES; name += 17) {
        const unsigned alike[2] = {name ^ 0x100, name ^ 0x8000};
        int i;

        add(name, 1);
        add_refused("stands", name, BARRIER_NAME, name);
        for (i = 0; i < 2; i++) {
            reply_is("withdraw another", alike[i], barrier_withdraw(&open_job, (uint16_t)alike[i]),
                     BARRIER_NAME, alike[i]);
            add(alike[i], 2);
            withdraw(alike[i]);
        }
        if (name % 4096 == 17)
            remembered("one by one");
        withdraw(name);
    }
    planned_alike("one by one");
}

/* Any number of 16 bits is a name in memory; rising ones alone are an open job. */
static void in_memory(void)
{
    start();
    add(255, 1);
    add(256, 2);
    add(65535, 3);
    open_job.hazards[1].name = 65534;
    reply_is("changed in memory", 65534, barrier_withdraw(&open_job, 65534), BARRIER_DONE, 0);
    standing[256] = ABSENT;
    remembered("withdrawn by its new name");
    open_job.hazards[0].name = 65535;
    add_refused("twice in memory", 9, BARRIER_HEADER_RANGE, 0);
    open_job.hazards[0].name = 65534;
    open_job.hazards[1].name = 258;
    add_refused("out of order in memory", 9, BARRIER_HEADER_RANGE, 0);
}

int main(void)
{
    filled(255, 256, 254);      /* alike in the lower byte, to 65535 */
    filled(0, 256, 65535);      /* alike in the lower byte, from 0 */
    filled(0, 257, 1);          /* from 0 to 65535, alike in neither */
    filled(65280, 1, 65279);    /* alike in the upper byte, to 65535 */
    filled(0, 1, 256);          /* the names of a byte, and then one that is not */
    bytes_alone();
    one_by_one();
    in_memory();
    return wrong;
}

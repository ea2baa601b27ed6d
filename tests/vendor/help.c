/*
 * barrier_help.h: jobs to bytes and back, what stands in an open job, schedules
 * run by run, refusals in words for each call that gives them, ranges and names
 * held against the engine's own refusals, and metres.  Bytes and texts lie in
 * memory of exactly their length, so that a sanitiser or valgrind finds a step
 * beyond it.  Ends with 1 where something is not as stated.
 */
#include "number_form.h"
#include <barrier.h>
#include <barrier_help.h>
#include <stdio.h>
#include <stdlib.h>
#include <string.h>

static int wrong = 0;

static void expect(const char *what, int as_stated)
{
    if (!as_stated) {
        printf("help: %s\n", what);
        wrong = 1;
    }
}

/* A copy in memory of exactly that many bytes. */
static uint8_t *exact(const uint8_t *bytes, size_t length)
{
    uint8_t *copy = (uint8_t *)malloc(length == 0 ? 1 : length);
    if (copy == NULL)
        exit(2);
    if (length > 0)
        memcpy(copy, bytes, length);
    return copy;
}

/* A plain generator, so that each run is the same. */
static uint64_t random_state = 1;
static uint64_t random_below(uint64_t limit)
{
    random_state = random_state * UINT64_C(6364136223846793005) + UINT64_C(1442695040888963407);
    return (random_state >> 33) % limit;
}

/* ---- Numbers ---- */

static void test_number(uint64_t value)
{
    uint8_t wanted[NUMBER_BYTES_MAX], got[NUMBER_BYTES_MAX + 1];
    const size_t length = put_number(wanted, value);
    uint64_t read = 0;
    size_t at = 0, room;
    expect("the length of a number", barrier_help_number_length(value) == length);
    for (room = 0; room < length; room++) {
        uint8_t *cut = exact(wanted, room);
        expect("a number without room", barrier_help_put_number(value, cut, room) == 0);
        expect("a number written without room", memcmp(cut, wanted, room) == 0);
        at = 0;
        expect("a number cut short", barrier_help_get_number(cut, room, &at, &read) ==
                                             BARRIER_HELP_ENDS_EARLY && at == 0);
        free(cut);
    }
    memset(got, 0xAA, sizeof got);
    expect("a number with room", barrier_help_put_number(value, got, length) == length);
    expect("a number's bytes", memcmp(got, wanted, length) == 0 && got[length] == 0xAA);
    expect("a number read", barrier_help_get_number(wanted, length, &at, &read) ==
                                    BARRIER_HELP_OK && at == length && read == value);
}

static void test_no_number(const uint8_t *bytes, size_t length)
{
    size_t at = 0;
    uint64_t value = 7;
    expect("no number", barrier_help_get_number(bytes, length, &at, &value) ==
                                BARRIER_HELP_NO_NUMBER && at == 0 && value == 7);
}

static void test_numbers(void)
{
    static const uint8_t longer[2] = {0x80, 0x00};
    static const uint8_t beyond[10] = {0xFF, 0xFF, 0xFF, 0xFF, 0xFF, 0xFF, 0xFF, 0xFF, 0xFF, 0x02};
    static const uint8_t eleven[11] = {0x80, 0x80, 0x80, 0x80, 0x80, 0x80,
                                       0x80, 0x80, 0x80, 0x81, 0x00};
    unsigned bits;
    for (bits = 0; bits < 64; bits++) {
        test_number((UINT64_C(1) << bits) - 1);
        test_number(UINT64_C(1) << bits);
    }
    test_number(UINT64_MAX);
    test_no_number(longer, 2);
    test_no_number(beyond, 10);
    test_no_number(eleven, 11);
}

/* ---- Jobs ---- */

static const barrier_help_header printed = {1,    0,    1000000, 101000, 0, 9000,  0,
                                            3000, 1000, 15,      1,      13340, 0, 0};
static const barrier_hazard headwall = {BARRIER_RIGHT, 200000, 210000, 5000, 9000, BARRIER_NC_3};

static int same_header(const barrier_help_header *one, const barrier_help_header *other)
{
    return memcmp(one, other, sizeof *one) == 0;
}

/* A job written by the numbers, as barrier.h has them. */
static size_t plain_job(const barrier_help_header *header, const barrier_hazard *hazards,
                        size_t count, uint8_t *out)
{
    uint64_t fields[14];
    size_t length = 0, i;
    memcpy(fields, header, sizeof fields);
    for (i = 0; i < 14; i++)
        if (i < 13 || header->kind == 2)
            length += put_number(out + length, fields[i]);
    length += put_number(out + length, count);
    for (i = 0; i < count; i++) {
        uint64_t numbers[6];
        size_t k;
        memcpy(numbers, &hazards[i], sizeof numbers);
        for (k = 0; k < 6; k++)
            length += put_number(out + length, numbers[k]);
    }
    return length;
}

/* Written, read back, and cut at every byte. */
static void test_job(const barrier_help_header *header, const barrier_hazard *hazards, size_t count)
{
    static uint8_t wanted[(15 + 6 * BARRIER_HAZARDS_MAX) * NUMBER_BYTES_MAX];
    static barrier_hazard read[BARRIER_HAZARDS_MAX];
    barrier_help_header back;
    const size_t length = plain_job(header, hazards, count, wanted);
    uint8_t *job = exact(wanted, length);
    size_t got = 7, cut;
    memset(job, 0xAA, length);
    expect("a job without room",
           barrier_help_write_job(header, hazards, count, job, length - 1) == 0);
    for (cut = 0; cut < length; cut++)
        expect("a job written without room", job[cut] == 0xAA);
    expect("a job's length alone",
           barrier_help_write_job(header, hazards, count, NULL, SIZE_MAX) == length);
    expect("a job's length", barrier_help_write_job(header, hazards, count, job, length) == length);
    expect("a job's bytes", memcmp(job, wanted, length) == 0);
    memset(&back, 0xAA, sizeof back);
    expect("a job read", barrier_help_read_job(job, length, &back, read, count, &got) ==
                                 BARRIER_HELP_OK && got == count);
    expect("a header read", same_header(header, &back));
    expect("hazards read", count == 0 || memcmp(read, hazards, count * sizeof *read) == 0);
    if (count > 0)
        expect("a job of more hazards", barrier_help_read_job(job, length, &back, read, count - 1,
                                                              &got) == BARRIER_HELP_NO_ROOM &&
                                            got == 0);
    for (cut = 0; cut < length; cut++) {
        uint8_t *part = exact(wanted, cut);
        expect("a job cut short",
               barrier_help_read_job(part, cut, &back, read, BARRIER_HAZARDS_MAX, &got) ==
                       BARRIER_HELP_ENDS_EARLY && got == 0);
        free(part);
    }
    wanted[length] = 0;
    expect("a byte behind a job",
           barrier_help_read_job(wanted, length + 1, &back, read, BARRIER_HAZARDS_MAX, &got) ==
                   BARRIER_HELP_LEFT_OVER && got == 0);
    free(job);
}

static void test_jobs(void)
{
    static barrier_hazard many[BARRIER_HAZARDS_MAX];
    barrier_help_header header = printed;
    uint8_t job[BARRIER_JOB_LONGEST];
    size_t got, i, length;
    barrier_hazard one;
    test_job(&header, &headwall, 1);
    test_job(&header, NULL, 0);
    header.kind = 2;
    header.panel = 4000;
    test_job(&header, &headwall, 1);
    /* As long as an accepted job can be: the room that is named suffices. */
    header.begin = BARRIER_STATION_MAX - BARRIER_ROAD_MAX;
    header.end = BARRIER_STATION_MAX;
    header.runout_forward = header.runout_opposite = header.continuity = 200000;
    header.clear_zone = 30000;
    header.centreline = header.barrier_offset = 20000;
    header.straight = 100000;
    header.panel = 10000;
    for (i = 0; i < BARRIER_HAZARDS_MAX; i++) {
        const barrier_hazard hazard = {0, header.begin, header.end, 60000, 60000, 6};
        many[i] = hazard;
    }
    test_job(&header, many, BARRIER_HAZARDS_MAX);
    length = barrier_help_write_job(&header, many, BARRIER_HAZARDS_MAX, job, sizeof job);
    expect("the longest job", length == BARRIER_JOB_LONGEST);
    /* Numbers that no job may have are written and read all the same. */
    memset(&header, 0xFF, sizeof header);
    header.kind = 2;
    memset(many, 0xFF, sizeof many);
    test_job(&header, many, 3);
    /* A kind that is left 0 goes by the panel length; one that is given stays. */
    for (i = 0; i < 6; i++) {
        static const uint64_t kinds[6][3] = {{0, 0, 1},    {0, 4000, 2}, {1, 4000, 1},
                                             {2, 4000, 2}, {2, 0, 2},    {1, 0, 1}};
        barrier_help_header back;
        header = printed;
        header.kind = kinds[i][0];
        header.panel = kinds[i][1];
        length = barrier_help_write_job(&header, &headwall, 1, job, sizeof job);
        expect("a job whose kind goes by its panel length",
               barrier_help_read_job(job, length, &back, &one, 1, &got) == BARRIER_HELP_OK &&
                   back.kind == kinds[i][2] && back.panel == (back.kind == 2 ? kinds[i][1] : 0) &&
                   back.end == printed.end && one.level == headwall.level);
    }
    /* Of another kind the form is not known. */
    header = printed;
    header.kind = 3;
    length = barrier_help_write_job(&header, &headwall, 1, job, sizeof job);
    expect("a job of kind 3",
           barrier_help_read_job(job, length, &header, &one, 1, &got) == BARRIER_HELP_KIND);
}

/* Bytes changed at random: what is read is written as it was, and a job that the
   engine accepts is read. */
static void test_changed_jobs(uint64_t kind)
{
    static uint8_t out[BARRIER_SCHEDULE_MAX];
    const barrier_hazard two[2] = {headwall, {1, 300000, 310000, 5000, 9000, 2}};
    barrier_help_header header = printed, back;
    barrier_hazard read[2];
    uint8_t job[100], again[100];
    size_t length, got, i;
    int turn, taken = 0, accepted = 0;
    header.kind = kind;
    header.panel = 4000;
    length = barrier_help_write_job(&header, two, 2, job, sizeof job);
    for (turn = 0; turn < 20000; turn++) {
        uint8_t *changed = exact(job, length);
        const size_t cut = length - (random_below(8) == 0 ? random_below(length) : 0);
        enum barrier_help_result result;
        barrier_plan_reply reply;
        for (i = random_below(3); i > 0; i--)
            changed[random_below(length)] = (uint8_t)random_below(256);
        result = barrier_help_read_job(changed, cut, &back, read, 2, &got);
        reply = barrier_plan(changed, cut, 0, out, sizeof out);
        if (result == BARRIER_HELP_OK)
            expect("what is read is written as it was",
                   barrier_help_write_job(&back, read, got, again, sizeof again) == cut &&
                       memcmp(changed, again, cut) == 0);
        expect("an accepted job is read", reply.number != BARRIER_DONE || result == BARRIER_HELP_OK);
        taken += result == BARRIER_HELP_OK;
        accepted += reply.number == BARRIER_DONE;
        free(changed);
    }
    expect("some are read and not accepted", accepted > 1000 && taken > accepted + 1000);
}

/* Random calls on an open job: what stands, written as a job, plans the same. */
static void test_standing(uint64_t kind)
{
    static barrier_open_job open, before;
    static barrier_hazard hazards[BARRIER_HAZARDS_MAX];
    static uint16_t names[BARRIER_HAZARDS_MAX];
    static uint8_t job[BARRIER_JOB_LONGEST], of_open[BARRIER_SCHEDULE_MAX],
        of_job[BARRIER_SCHEDULE_MAX];
    barrier_help_header header = printed, back;
    size_t length, count, i;
    int step;
    header.kind = kind;
    header.panel = kind == 2 ? 4000 : 0;
    length = barrier_help_write_job(&header, NULL, 0, job, sizeof job);
    expect("open", barrier_open(&open, job, length).number == BARRIER_DONE);
    for (step = 0; step < 300; step++) {
        const uint64_t side = random_below(2), start = random_below(900000);
        const barrier_hazard hazard = {side, start, start + 1 + random_below(90000),
                                       4000 + random_below(5000), 9000, 1 + random_below(6)};
        const uint16_t name = (uint16_t)random_below(400);
        barrier_plan_reply one, other;
        if (barrier_add(&open, name, hazard).number != BARRIER_DONE)
            expect("withdraw", barrier_withdraw(&open, name).number == BARRIER_DONE);
        if (step % 20 != 0)
            continue;
        expect("what stands", barrier_help_standing(&open, &back, hazards, names,
                                                    BARRIER_HAZARDS_MAX, &count) ==
                                  BARRIER_HELP_OK && same_header(&header, &back));
        /* Each under its name: taken out and put back, the memory is as it was. */
        before = open;
        for (i = 0; i < count; i++) {
            expect("a name stands", barrier_withdraw(&open, names[i]).number == BARRIER_DONE);
            expect("it is added", barrier_add(&open, names[i], hazards[i]).number == BARRIER_DONE);
            expect("it is the same", memcmp(&before, &open, sizeof open) == 0);
        }
        length = barrier_help_write_job(&back, hazards, count, job, sizeof job);
        one = barrier_open_schedule(&open, side, of_open, sizeof of_open);
        other = barrier_plan(job, length, side, of_job, sizeof of_job);
        expect("what stands plans the same",
               one.number == BARRIER_DONE && other.number == BARRIER_DONE &&
                   one.value == other.value && memcmp(of_open, of_job, (size_t)one.value) == 0);
        if (count > 0)
            expect("less room than stands",
                   barrier_help_standing(&open, &back, hazards, names, count - 1, &i) ==
                           BARRIER_HELP_NO_ROOM && i == 0);
    }
    open.count = 257;
    expect("memory that is no open job",
           barrier_help_standing(&open, &back, hazards, names, 1000, &count) ==
               BARRIER_HELP_NO_ROOM);
}

/* ---- Schedules ---- */

/* Walks bytes; the sums by level of the runs given. */
static enum barrier_help_result sums(const uint8_t *bytes, size_t length, uint64_t *by_level,
                                     size_t *runs)
{
    uint8_t *copy = exact(bytes, length);
    barrier_help_walk walk = barrier_help_walk_of(copy, length);
    barrier_help_run run;
    uint64_t end = 0;
    memset(by_level, 0, 7 * sizeof *by_level);
    *runs = 0;
    while (barrier_help_next_run(&walk, &run)) {
        expect("runs rise", run.start >= end && run.end > run.start);
        expect("a level", run.level >= 1 && run.level <= 6);
        expect("a last station", run.end <= BARRIER_STATION_MAX);
        by_level[run.level] += run.end - run.start;
        end = run.end;
        (*runs)++;
    }
    expect("no run behind the last", !barrier_help_next_run(&walk, &run));
    free(copy);
    return walk.result;
}

/* Where the engine takes the bytes for a schedule, the walk gives its runs. */
static void test_walk(const uint8_t *bytes, size_t length)
{
    uint64_t by_level[7], level;
    size_t runs;
    const enum barrier_help_result result = sums(bytes, length, by_level, &runs);
    const barrier_reply judged = barrier_quantity(bytes, length, 1, 0, 0);
    static const uint64_t everywhere[2] = {0, UINT64_MAX};
    if (judged.number == BARRIER_NO_SCHEDULE)
        return;
    expect("a walk of a schedule", result == BARRIER_HELP_OK);
    for (level = 1; level <= 6; level++) {
        const barrier_quantities_reply reply =
            barrier_quantities(bytes, length, level, everywhere, 2);
        expect("the runs of a schedule", reply.quantities[0] == by_level[level]);
        expect("the count of runs", reply.records == runs);
    }
}

static void walk_is(const char *what, const char *bytes, size_t length, size_t wanted_runs,
                    enum barrier_help_result wanted)
{
    uint64_t by_level[7];
    size_t runs;
    const enum barrier_help_result result = sums((const uint8_t *)bytes, length, by_level, &runs);
    expect(what, result == wanted && runs == wanted_runs);
}

static void test_walks(void)
{
    static uint8_t schedule[BARRIER_SCHEDULE_MAX], changed[BARRIER_SCHEDULE_MAX];
    static barrier_hazard hazards[60];
    uint8_t job[BARRIER_JOB_LONGEST];
    size_t i, length, cut;
    int turn;
    uint64_t by_level[7];
    barrier_plan_reply planned;
    for (i = 0; i < 60; i++) {
        /* Levels up and down, so that there are many runs. */
        const uint64_t start = 50000 + 15000 * i;
        const barrier_hazard hazard = {0, start, start + 1 + random_below(20000), 5000, 9000,
                                       1 + (7 * i + i / 6) % 6};
        hazards[i] = hazard;
    }
    length = barrier_help_write_job(&printed, hazards, 60, job, sizeof job);
    planned = barrier_plan(job, length, BARRIER_RIGHT, schedule, sizeof schedule);
    length = (size_t)planned.value;
    expect("a schedule of many runs", planned.number == BARRIER_DONE && schedule[0] > 20);
    test_walk(schedule, length);
    for (cut = 0; cut < length; cut++)
        expect("a schedule cut short",
               sums(schedule, cut, by_level, &i) == BARRIER_HELP_ENDS_EARLY);
    for (turn = 0; turn < 20000; turn++) {
        memcpy(changed, schedule, length);
        for (i = 1 + random_below(3); i > 0; i--)
            changed[random_below(length)] = (uint8_t)random_below(256);
        test_walk(changed, length);
    }
    walk_is("no bytes", "", 0, 0, BARRIER_HELP_ENDS_EARLY);
    walk_is("no runs", "\x00", 1, 0, BARRIER_HELP_OK);
    walk_is("one run", "\x01\x05\x07\x03", 4, 1, BARRIER_HELP_OK);
    walk_is("a run missing", "\x02\x05\x07\x03", 4, 1, BARRIER_HELP_ENDS_EARLY);
    walk_is("a byte left over", "\x01\x05\x07\x03\x00", 5, 1, BARRIER_HELP_LEFT_OVER);
    walk_is("no length", "\x01\x05\x00\x03", 4, 0, BARRIER_HELP_OUT_OF_RANGE);
    walk_is("level 0", "\x01\x05\x07\x00", 4, 0, BARRIER_HELP_OUT_OF_RANGE);
    walk_is("level 7", "\x01\x05\x07\x07", 4, 0, BARRIER_HELP_OUT_OF_RANGE);
    walk_is("no number", "\x01\x85\x00\x07\x03", 5, 0, BARRIER_HELP_NO_NUMBER);
    walk_is("512 runs", "\x80\x04", 2, 0, BARRIER_HELP_OUT_OF_RANGE);
    /* 1000000000000 is the last station; then one more, and 64 bits full. */
    walk_is("the last station", "\x01\xFF\x9F\x94\xA5\x8D\x1D\x01\x06", 9, 1, BARRIER_HELP_OK);
    walk_is("beyond it", "\x01\x80\xA0\x94\xA5\x8D\x1D\x01\x06", 9, 0, BARRIER_HELP_OUT_OF_RANGE);
    walk_is("farther", "\x01\x81\xA0\x94\xA5\x8D\x1D\x01\x06", 9, 0, BARRIER_HELP_OUT_OF_RANGE);
    walk_is("64 bits", "\x01\x05\xFF\xFF\xFF\xFF\xFF\xFF\xFF\xFF\xFF\x01\x06", 13, 0,
            BARRIER_HELP_OUT_OF_RANGE);
}

/* ---- Refusals ---- */

static const char *const NOT_GIVEN = "a number that barrier.h does not have for this call";

/* The text, in every room from 0 to what it takes: whole, or empty. */
static void test_rooms(enum barrier_help_call call, uint64_t number, uint64_t value)
{
    size_t (*const writers[2])(enum barrier_help_call, uint64_t, uint64_t, char *, size_t) = {
        barrier_help_refusal, barrier_help_remedy};
    int which;
    for (which = 0; which < 2; which++) {
        char whole[BARRIER_HELP_TEXT_MAX];
        const size_t length = writers[which](call, number, value, whole, sizeof whole);
        size_t room;
        expect("a text fits", length > 0 && strlen(whole) == length);
        for (room = 0; room <= length + 1; room++) {
            char *text = (char *)exact((const uint8_t *)whole, room);
            const size_t got = writers[which](call, number, value, text, room);
            if (room <= length)
                expect("a text without room", got == 0 && (room == 0 || text[0] == '\0'));
            else
                expect("a text with room", got == length && strcmp(text, whole) == 0);
            free(text);
        }
    }
}

/* Which calls give a number, as barrier.h's order of tests has them. */
static const struct {
    enum barrier_help_call call;
    const char *numbers; /* z stands for 3 with 0, 3 for the others */
} orders[16] = {{BARRIER_HELP_PLAN, " 8 1 2 3 4 7 5 9 "},
                {BARRIER_HELP_LEVEL, " 8 1 2 3 4 7 5 "},
                {BARRIER_HELP_CORNERS, " 8 1 2 3 4 7 5 14 "},
                {BARRIER_HELP_OFFSET, " 1 2 3 4 7 5 14 "},
                {BARRIER_HELP_QUANTITY, " 8 10 "},
                {BARRIER_HELP_QUANTITIES, " 8 11 10 "},
                {BARRIER_HELP_LOOKUP, " 8 10 "},
                {BARRIER_HELP_LAYOUT, " 16 17 "},
                {BARRIER_HELP_OPEN, " 1 2 3 7 "},
                {BARRIER_HELP_ADD, " z 12 15 4 5 "},
                {BARRIER_HELP_WITHDRAW, " z 12 "},
                {BARRIER_HELP_OPEN_SCHEDULE, " z 8 9 "},
                {BARRIER_HELP_KEEP, " z 13 "},
                {BARRIER_HELP_RETURN, " z 13 "},
                {BARRIER_HELP_REACH, " 1 2 3 4 7 5 14 "},
                {BARRIER_HELP_OPEN_REACH, " z 12 "}};

static int is_given(const char *numbers, uint64_t number, uint64_t value)
{
    char word[8];
    snprintf(word, sizeof word, " %d ", (int)number);
    if (number == 3 && value == 0)
        return strstr(numbers, " z ") != NULL;
    return strstr(numbers, word) != NULL;
}

static void test_given(void)
{
    int call;
    uint64_t number;
    for (call = 0; call < 16; call++)
        for (number = 1; number <= 20; number++) {
            uint64_t value;
            for (value = 0; value < 2; value++) {
                char text[BARRIER_HELP_TEXT_MAX];
                barrier_help_refusal(orders[call].call, number, value, text, sizeof text);
                expect(barrier_help_call_name(orders[call].call),
                       is_given(orders[call].numbers, number, value) ==
                           (strcmp(text, NOT_GIVEN) != 0));
                test_rooms(orders[call].call, number, value);
            }
            test_rooms(orders[call].call, number, UINT64_MAX);
        }
}

/* Words for what the engine itself replies; "" for no test of the remedy. */
static void says(enum barrier_help_call call, uint64_t number, uint64_t value, const char *words,
                 const char *remedy)
{
    char text[BARRIER_HELP_TEXT_MAX];
    barrier_help_refusal(call, number, value, text, sizeof text);
    if (strcmp(text, words) != 0) {
        printf("help: '%s', not '%s'\n", text, words);
        wrong = 1;
    }
    barrier_help_remedy(call, number, value, text, sizeof text);
    if (strncmp(text, remedy, strlen(remedy)) != 0) {
        printf("help: the remedy '%s', not '%s'\n", text, remedy);
        wrong = 1;
    }
}

static void test_words(void)
{
    static barrier_open_job open;
    static uint8_t out[BARRIER_SCHEDULE_MAX];
    barrier_help_header header = printed;
    barrier_hazard hazard = headwall;
    uint8_t job[BARRIER_JOB_LONGEST];
    size_t length;
    barrier_reply reply;
    barrier_plan_reply planned;
    barrier_reach_reply reached;

    /* Memory that was never opened: not a header's number. */
    memset(&open, 0xFF, sizeof open);
    reply = barrier_add(&open, 7, headwall);
    says(BARRIER_HELP_ADD, reply.number, reply.value, "the memory is not an open job",
         "open the job with barrier_open first");
    planned = barrier_open_schedule(&open, 0, out, sizeof out);
    says(BARRIER_HELP_OPEN_SCHEDULE, planned.number, planned.value,
         "the memory is not an open job", "open the job");

    /* A hazard count when opening; a number of the header. */
    length = barrier_help_write_job(&header, &hazard, 1, job, sizeof job);
    reply = barrier_open(&open, job, length);
    says(BARRIER_HELP_OPEN, reply.number, reply.value,
         "header number 14, hazard count h (kind 1) or panel length (kind 2), is outside its range",
         "to open a job its hazard count (kind 1) has to be 0");
    header.clear_zone = 30001;
    length = barrier_help_write_job(&header, &hazard, 1, job, sizeof job);
    planned = barrier_plan(job, length, 0, out, sizeof out);
    says(BARRIER_HELP_PLAN, planned.number, planned.value,
         "header number 6, clear-zone width C, is outside its range", "it has to be 1 to 30000");
    header = printed;

    /* The same hazard, by its index in a job and by its name in an open one. */
    length = barrier_help_write_job(&header, NULL, 0, job, sizeof job);
    expect("open", barrier_open(&open, job, length).number == BARRIER_DONE);
    hazard.level = 7;
    reply = barrier_add(&open, 1020, hazard);
    says(BARRIER_HELP_ADD, reply.number, reply.value,
         "a field of the hazard to be named 1020 is outside its range", "side 0 or 1;");
    length = barrier_help_write_job(&header, &hazard, 1, job, sizeof job);
    planned = barrier_plan(job, length, 0, out, sizeof out);
    says(BARRIER_HELP_PLAN, planned.number, planned.value,
         "a field of hazard 0 is outside its range", "side 0 or 1;");
    hazard = headwall;
    hazard.near_offset = 3999;
    reply = barrier_add(&open, 1020, hazard);
    says(BARRIER_HELP_ADD, reply.number, reply.value,
         "the hazard to be named 1020 leaves the barrier no room to deflect", "its near offset n");
    length = barrier_help_write_job(&header, &hazard, 1, job, sizeof job);
    reply = barrier_level(job, length, 0, 0);
    says(BARRIER_HELP_LEVEL, reply.number, reply.value,
         "hazard 0 leaves the barrier no room to deflect", "its near offset n");

    /* A name, a state, the argument of each kind of call. */
    reply = barrier_withdraw(&open, 65535);
    says(BARRIER_HELP_WITHDRAW, reply.number, reply.value, "the name 65535 does not stand", "it was");
    reached = barrier_open_reach(&open, 65535);
    says(BARRIER_HELP_OPEN_REACH, reached.number, reached.value, "the name 65535 does not stand",
         "it was");
    reached = barrier_reach(job, length, 1);
    says(BARRIER_HELP_REACH, reached.number, reached.value,
         "hazard 0 leaves the barrier no room to deflect", "its near offset n");
    length = barrier_help_write_job(&header, &headwall, 1, job, sizeof job);
    reached = barrier_reach(job, length, 1);
    says(BARRIER_HELP_REACH, reached.number, reached.value, "there is no such hazard in the job",
         "hazards count from 0");
    expect("add", barrier_add(&open, 9, headwall).number == BARRIER_DONE);
    reply = barrier_add(&open, 9, headwall);
    says(BARRIER_HELP_ADD, reply.number, reply.value, "the name 9 stands already", "take another");
    reply = barrier_keep(&open, 8);
    says(BARRIER_HELP_KEEP, reply.number, reply.value, "the state number is above 7", "keep under");
    reply = barrier_return(&open, 3);
    says(BARRIER_HELP_RETURN, reply.number, reply.value,
         "the state number is above 7, or nothing is kept under it", "return to a number");
    planned = barrier_open_schedule(&open, 2, out, sizeof out);
    says(BARRIER_HELP_OPEN_SCHEDULE, planned.number, planned.value,
         "the side is neither 0 (right) nor 1 (left)", "ask for BARRIER_RIGHT");
    planned = barrier_open_schedule(&open, 0, out, 7);
    says(BARRIER_HELP_OPEN_SCHEDULE, planned.number, planned.value, "the schedule takes 8 bytes",
         "lend as many bytes");
    reply = barrier_quantity(out, 0, 0, 0, 0);
    says(BARRIER_HELP_QUANTITY, reply.number, reply.value,
         "the level is not 1 to 6, or p is above q", "ask for a level");
    reply = barrier_quantity(out, 0, 1, 0, 0);
    says(BARRIER_HELP_QUANTITY, reply.number, reply.value, "these bytes are not a schedule",
         "hand over");
    says(BARRIER_HELP_PLAN, BARRIER_DONE, 8, "done", "nothing has to be done");
    says(BARRIER_HELP_PLAN, 6, 0, NOT_GIVEN, "look whether");
    says(BARRIER_HELP_PLAN, BARRIER_HEADER_RANGE, 0, NOT_GIVEN, "look whether");
    says((enum barrier_help_call)99, 1, 0, NOT_GIVEN, "look whether");
    expect("no call", strcmp(barrier_help_call_name((enum barrier_help_call)99), "no call") == 0);
}

/* ---- Ranges ---- */

/* The engine's refusal of a header whose number is that value. */
static barrier_plan_reply with_header(uint64_t kind, unsigned number, uint64_t value)
{
    static uint8_t out[BARRIER_SCHEDULE_MAX];
    uint64_t fields[16] = {0, 1, 0, 1000000, 101000, 0, 9000, 0, 3000, 1000, 15, 1, 13340, 0, 0, 0};
    uint8_t job[16 * NUMBER_BYTES_MAX];
    size_t length = 0;
    unsigned i;
    fields[1] = kind;
    if (kind == 2)
        fields[14] = 4000;
    fields[number] = value;
    for (i = 1; i <= (kind == 2 ? 15U : 14U); i++)
        length += put_number(job + length, fields[i]);
    return barrier_plan(job, length, 0, out, sizeof out);
}

static int refuses(uint64_t kind, unsigned number, uint64_t value)
{
    const barrier_plan_reply reply = with_header(kind, number, value);
    return reply.number == BARRIER_HEADER_RANGE && reply.value == number;
}

/* What the helper says that a number may be is what the engine takes. */
static void test_header_range(uint64_t kind, unsigned number)
{
    unsigned long long least, greatest;
    const char *range = barrier_help_header_range(kind, number);
    char after;
    int as_stated = sscanf(range, "%llu to %llu%c", &least, &greatest, &after) == 2;
    as_stated = as_stated && !refuses(kind, number, least) && !refuses(kind, number, greatest) &&
                refuses(kind, number, greatest + 1) &&
                (least == 0 || refuses(kind, number, least - 1));
    if (!as_stated) {
        printf("help: header number %u of kind %d, %s: %s\n", number, (int)kind,
               barrier_help_header_name(kind, number), range);
        wrong = 1;
    }
}

static void test_header_ranges(void)
{
    unsigned number;
    for (number = 4; number <= 13; number++)
        test_header_range(1, number);
    test_header_range(1, 14);
    test_header_range(2, 14);
    test_header_range(2, 15);
    expect("the kinds", strcmp(barrier_help_header_range(0, 1), "1 to 2") == 0 &&
                            refuses(0, 1, 0) && refuses(3, 1, 3));
    expect("A", strcmp(barrier_help_header_range(0, 2), "0 to 999999999999") == 0 &&
                    refuses(1, 2, UINT64_C(1000000000000)) &&
                    !refuses(1, 2, UINT64_C(999999999999)));
    expect("B", strcmp(barrier_help_header_range(0, 3),
                       "A + 1 to 1000000000000, and at most A + 2000000000") == 0 &&
                    refuses(1, 3, 0) && !refuses(1, 3, 1) && !refuses(1, 3, 2000000000) &&
                    refuses(1, 3, 2000000001));
    expect("no number", strcmp(barrier_help_header_range(1, 15), "nothing") == 0 &&
                            strcmp(barrier_help_header_range(2, 16), "nothing") == 0 &&
                            strcmp(barrier_help_header_name(1, 15), "no such header number") == 0 &&
                            strcmp(barrier_help_header_name(2, 0), "no such header number") == 0);
}

/* Numbers in and out of range, in every place and together: the engine's 4. */
static void test_hazard_faults(void)
{
    static const uint64_t values[] = {0,     1,     2,     6,     7,      100,
                                      5000,  59999, 60000, 60001, 199999, 200000,
                                      UINT64_MAX};
    enum { VALUES = sizeof values / sizeof values[0] };
    static barrier_open_job open;
    barrier_help_header header = printed;
    uint8_t job[BARRIER_JOB_LONGEST];
    int turn;
    unsigned seen[BARRIER_HELP_HAZARD_NUMBERS + 1] = {0};
    header.begin = 100;
    header.end = 200000;
    expect("open", barrier_open(&open, job, barrier_help_write_job(&header, NULL, 0, job,
                                                                   sizeof job)).number == 0);
    for (turn = 0; turn < 30000; turn++) {
        barrier_hazard hazard = {0, 5000, 60000, 5000, 60000, 1};
        uint64_t *const fields[6] = {&hazard.side,        &hazard.start,      &hazard.end,
                                     &hazard.near_offset, &hazard.far_offset, &hazard.level};
        size_t changes = random_below(4), fault;
        barrier_reply reply;
        while (changes-- > 0)
            *fields[random_below(6)] = values[random_below(VALUES)];
        fault = barrier_help_hazard_fault(header.begin, header.end, &hazard);
        reply = barrier_add(&open, 7, hazard);
        seen[fault]++;
        expect("a hazard's fault is the engine's 4",
               (reply.number == BARRIER_HAZARD_RANGE) == (fault < BARRIER_HELP_HAZARD_NUMBERS));
        if (reply.number == BARRIER_DONE)
            expect("withdraw", barrier_withdraw(&open, 7).number == BARRIER_DONE);
    }
    for (turn = 0; turn <= BARRIER_HELP_HAZARD_NUMBERS; turn++)
        expect("each fault comes", seen[turn] > 100);
}

/* One number out of its range: it is the one that is named. */
static void test_hazard_names(void)
{
    static const barrier_hazard faulty[BARRIER_HELP_HAZARD_NUMBERS + 1] = {
        {2, 200000, 210000, 5000, 9000, 3},      {0, 1000000, 1000001, 5000, 9000, 3},
        {0, 200000, 200000, 5000, 9000, 3},      {0, 200000, 210000, 60001, 60001, 3},
        {0, 200000, 210000, 5000, 4999, 3},      {0, 200000, 210000, 5000, 9000, 0},
        {0, 200000, 210000, 5000, 9000, 3}};
    size_t place;
    for (place = 0; place <= BARRIER_HELP_HAZARD_NUMBERS; place++)
        expect(barrier_help_hazard_name(place),
               barrier_help_hazard_fault(0, 1000000, &faulty[place]) == place);
    expect("no place", strcmp(barrier_help_hazard_range(6), "nothing") == 0);
}

/* ---- Metres ---- */

static void text_is(const char *metres, enum barrier_help_result wanted, uint64_t mm)
{
    uint64_t got = 7;
    uint8_t *exactly = exact((const uint8_t *)metres, strlen(metres));
    const enum barrier_help_result result =
        barrier_help_mm_of_text((const char *)exactly, strlen(metres), &got);
    if (result != wanted || got != (wanted == BARRIER_HELP_OK ? mm : 7)) {
        printf("help: '%s' metres\n", metres);
        wrong = 1;
    }
    free(exactly);
}

/* Down, to the nearest and up; a number that is out of range is 7. */
static void ways_are(const char *metres, uint64_t down, uint64_t nearest, uint64_t up)
{
    uint64_t got[3] = {7, 7, 7};
    barrier_help_mm_of_text_down(metres, strlen(metres), &got[0]);
    barrier_help_mm_of_text(metres, strlen(metres), &got[1]);
    barrier_help_mm_of_text_up(metres, strlen(metres), &got[2]);
    if (got[0] != down || got[1] != nearest || got[2] != up) {
        printf("help: '%s' metres, down or up\n", metres);
        wrong = 1;
    }
}

static void double_is(double metres, enum barrier_help_result wanted, uint64_t mm)
{
    uint64_t got = 7;
    const enum barrier_help_result result = barrier_help_mm_of_double(metres, &got);
    if (result != wanted || got != (wanted == BARRIER_HELP_OK ? mm : 7)) {
        printf("help: %.17g metres\n", metres);
        wrong = 1;
    }
}

static void metres_are(int64_t mm, const char *wanted)
{
    const size_t length = strlen(wanted);
    size_t room;
    for (room = 0; room <= length + 1; room++) {
        uint8_t *text = exact((const uint8_t *)"xxxxxxxxxxxxxxxxxxxxxxxxxxxxxx", room);
        const size_t got = barrier_help_metres_signed(mm, (char *)text, room);
        if (room <= length)
            expect("metres without room", got == 0 && (room == 0 || text[0] == 0));
        else
            expect(wanted, got == length && strcmp((char *)text, wanted) == 0);
        free(text);
    }
}

static void test_metres(void)
{
    volatile double zero = 0.0;
    int turn;
    text_is("155.773", BARRIER_HELP_OK, 155773);
    text_is("155.7725", BARRIER_HELP_OK, 155773);
    text_is("155.7724999", BARRIER_HELP_OK, 155772);
    text_is("155", BARRIER_HELP_OK, 155000);
    text_is("155.", BARRIER_HELP_OK, 155000);
    text_is(".5", BARRIER_HELP_OK, 500);
    text_is("+1.05", BARRIER_HELP_OK, 1050);
    text_is("0.0004", BARRIER_HELP_OK, 0);
    text_is("0.0005", BARRIER_HELP_OK, 1);
    text_is("-0.0004", BARRIER_HELP_OK, 0);
    text_is("-0.0005", BARRIER_HELP_OUT_OF_RANGE, 0);
    text_is("-1", BARRIER_HELP_OUT_OF_RANGE, 0);
    text_is("000000000000000000000000001", BARRIER_HELP_OK, 1000);
    text_is("1000000000", BARRIER_HELP_OK, BARRIER_STATION_MAX);
    text_is("1000000000.0004", BARRIER_HELP_OK, BARRIER_STATION_MAX);
    text_is("1000000000.0005", BARRIER_HELP_OUT_OF_RANGE, 0);
    text_is("99999999999999999999999999", BARRIER_HELP_OUT_OF_RANGE, 0);
    text_is("18446744073709551.617", BARRIER_HELP_OUT_OF_RANGE, 0);
    text_is("", BARRIER_HELP_NO_NUMBER, 0);
    text_is("-", BARRIER_HELP_NO_NUMBER, 0);
    text_is(".", BARRIER_HELP_NO_NUMBER, 0);
    text_is("1.2.3", BARRIER_HELP_NO_NUMBER, 0);
    text_is("1,5", BARRIER_HELP_NO_NUMBER, 0);
    text_is(" 1", BARRIER_HELP_NO_NUMBER, 0);
    text_is("1e3", BARRIER_HELP_NO_NUMBER, 0);
    text_is("5 m", BARRIER_HELP_NO_NUMBER, 0);
    text_is("--5", BARRIER_HELP_NO_NUMBER, 0);
    ways_are("155.773", 155773, 155773, 155773);
    ways_are("155.7730000", 155773, 155773, 155773);
    ways_are("155", 155000, 155000, 155000);
    ways_are("155.7721", 155772, 155772, 155773);
    ways_are("155.7729", 155772, 155773, 155773);
    ways_are("155.7720001", 155772, 155772, 155773);
    ways_are(".0005", 0, 1, 1);
    ways_are("-0.0004", 7, 0, 0);
    ways_are("-0.0005", 7, 7, 0);
    ways_are("-0.000", 0, 0, 0);
    ways_are("1000000000.0001", BARRIER_STATION_MAX, BARRIER_STATION_MAX, 7);
    ways_are("1,5", 7, 7, 7);
    double_is(155.773, BARRIER_HELP_OK, 155773);
    double_is(0.0625 / 2, BARRIER_HELP_OK, 31);     /* 31.25 mm */
    double_is(0.0625 * 3 / 2, BARRIER_HELP_OK, 94); /* 93.75 mm */
    double_is(0.1875, BARRIER_HELP_OK, 188);        /* 187.5 mm, exactly a half */
    double_is(0.0004, BARRIER_HELP_OK, 0);
    double_is(-0.0004, BARRIER_HELP_OK, 0);
    double_is(-zero, BARRIER_HELP_OK, 0);
    double_is(-0.001, BARRIER_HELP_OUT_OF_RANGE, 0);
    double_is(1000000000.0, BARRIER_HELP_OK, BARRIER_STATION_MAX);
    double_is(1000000000.001, BARRIER_HELP_OUT_OF_RANGE, 0);
    double_is(1e30, BARRIER_HELP_OUT_OF_RANGE, 0);
    double_is(1e300, BARRIER_HELP_OUT_OF_RANGE, 0);
    double_is(1 / zero, BARRIER_HELP_OUT_OF_RANGE, 0);
    double_is(-1 / zero, BARRIER_HELP_OUT_OF_RANGE, 0);
    double_is(zero / zero, BARRIER_HELP_NO_NUMBER, 0);
    metres_are(0, "0.000");
    metres_are(7, "0.007");
    metres_are(155773, "155.773");
    metres_are(INT64_C(1000000000000), "1000000000.000");
    metres_are(-4227, "-4.227");
    metres_are(-7, "-0.007");
    metres_are(INT64_MIN, "-9223372036854775.808");
    /* There and back: every millimetre is what it was. */
    for (turn = 0; turn < 20000; turn++) {
        const uint64_t mm = random_below(1000000) * random_below(1000001);
        char text[BARRIER_HELP_TEXT_MAX];
        barrier_help_metres(mm, text, sizeof text);
        text_is(text, BARRIER_HELP_OK, mm);
        double_is((double)mm / 1000.0, BARRIER_HELP_OK, mm);
    }
}

/* ---- Kilometres ---- */

static void station_is(const char *station, enum barrier_help_result wanted, uint64_t mm)
{
    uint64_t got = 7;
    uint8_t *text = exact((const uint8_t *)station, strlen(station));
    const enum barrier_help_result result =
        barrier_help_mm_of_kilometres((const char *)text, strlen(station), &got);
    if (result != wanted || got != (wanted == BARRIER_HELP_OK ? mm : 7)) {
        printf("help: the station '%s'\n", station);
        wrong = 1;
    }
    free(text);
}

static void kilometres_are(int64_t mm, const char *wanted)
{
    const size_t length = strlen(wanted);
    size_t room;
    for (room = 0; room <= length + 1; room++) {
        uint8_t *text = exact((const uint8_t *)"xxxxxxxxxxxxxxxxxxxxxxxxxxxxxx", room);
        const size_t got = barrier_help_kilometres_signed(mm, (char *)text, room);
        if (room <= length)
            expect("kilometres without room", got == 0 && (room == 0 || text[0] == 0));
        else
            expect(wanted, got == length && strcmp((char *)text, wanted) == 0);
        free(text);
    }
}

static void test_kilometres(void)
{
    static const char *const none[] = {
        "",          "+",         "1+",       "+250",       "1250",      "1+25",
        "1+2500",    "1+250.",    "1+250.0",  "1+250.00",   "1+250.0000", "1+250,000",
        "-1+250",    "1+-50",     "1+2 0",    "1 +250",     "1+250 ",    "1++250",
        "1+250+000", "1.5+250",   "1+25.000", "1+250.00x",  "a+250",     "1+250.+00"};
    size_t i;
    int turn;
    station_is("1+250.000", BARRIER_HELP_OK, 1250000);
    station_is("1+250", BARRIER_HELP_OK, 1250000);
    station_is("0+000.001", BARRIER_HELP_OK, 1);
    station_is("00001+250.007", BARRIER_HELP_OK, 1250007);
    station_is("999000+155.773", BARRIER_HELP_OK, UINT64_C(999000155773));
    station_is("1000000+000.000", BARRIER_HELP_OK, BARRIER_STATION_MAX);
    station_is("1000000+000", BARRIER_HELP_OK, BARRIER_STATION_MAX);
    station_is("1000000+000.001", BARRIER_HELP_OUT_OF_RANGE, 0);
    station_is("1000001+000", BARRIER_HELP_OUT_OF_RANGE, 0);
    station_is("99999999999999999999999999999+000", BARRIER_HELP_OUT_OF_RANGE, 0);
    for (i = 0; i < sizeof none / sizeof none[0]; i++)
        station_is(none[i], BARRIER_HELP_NO_NUMBER, 0);
    kilometres_are(0, "0+000.000");
    kilometres_are(7, "0+000.007");
    kilometres_are(1250000, "1+250.000");
    kilometres_are(INT64_C(1000000000000), "1000000+000.000");
    kilometres_are(-4227, "-0+004.227");
    kilometres_are(INT64_MIN, "-9223372036854+775.808");
    /* There and back: every millimetre is what it was. */
    for (turn = 0; turn < 20000; turn++) {
        const uint64_t mm = random_below(1000000) * random_below(1000001);
        char text[BARRIER_HELP_TEXT_MAX];
        barrier_help_kilometres(mm, text, sizeof text);
        station_is(text, BARRIER_HELP_OK, mm);
    }
}

/* ---- The version ---- */

static void test_version(void)
{
    char version[32];
    snprintf(version, sizeof version, "%d.%d.%d", BARRIER_VERSION_MAJOR, BARRIER_VERSION_MINOR,
             BARRIER_VERSION_PATCH);
    expect("the version's numbers", strcmp(version, BARRIER_VERSION) == 0);
    expect("the archive's version",
           barrier_version() == BARRIER_VERSION_MAJOR * 1000000 + BARRIER_VERSION_MINOR * 1000 +
                                    BARRIER_VERSION_PATCH);
    expect("the archive fits", barrier_help_version_fits(barrier_version()));
    expect("a later addition fits", barrier_help_version_fits(barrier_version() + 1000));
    expect("a later third number fits", barrier_help_version_fits(barrier_version() + 1));
    expect("an earlier second number does not", !barrier_help_version_fits(barrier_version() - 1000));
    expect("nor with any third number",
           !barrier_help_version_fits(barrier_version() / 1000 * 1000 - 1));
    expect("nor another first number", !barrier_help_version_fits(barrier_version() + 1000000));
}

int main(void)
{
    test_numbers();
    test_jobs();
    test_changed_jobs(1);
    test_changed_jobs(2);
    test_standing(1);
    test_standing(2);
    test_walks();
    test_given();
    test_words();
    test_header_ranges();
    test_hazard_faults();
    test_hazard_names();
    test_metres();
    test_kilometres();
    test_version();
    return wrong;
}

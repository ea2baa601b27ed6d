/*
 * barrier_help.h - what a program writes around the calls of barrier.h
 *
 *     barrier_help_write_job         structs to the bytes of a job
 *     barrier_help_read_job          the bytes of a job to structs
 *     barrier_help_standing          what stands in an open job, as structs
 *     barrier_help_walk_of           a schedule run by run, with stations:
 *     barrier_help_next_run          start, end and level
 *     barrier_help_refusal           a refusal in words, by its call
 *     barrier_help_remedy            what can be done about it
 *     barrier_help_call_name         the name of a call in C
 *     barrier_help_header_name       what a header's numbers are called, and
 *     barrier_help_header_range      what they may be
 *     barrier_help_hazard_name       the same of a hazard's six numbers
 *     barrier_help_hazard_range
 *     barrier_help_hazard_fault      which of a hazard's numbers is wrong
 *     barrier_help_mm_of_text_down   metres to millimetres, from decimal text,
 *     barrier_help_mm_of_text_up     down, up,
 *     barrier_help_mm_of_text        and to the nearest
 *     barrier_help_mm_of_double      from a double, to the nearest
 *     barrier_help_metres            millimetres to a text of metres
 *     barrier_help_metres_signed     the same, also below 0
 *     barrier_help_mm_of_kilometres  a station like 1+250.000 to millimetres,
 *     barrier_help_kilometres        and back,
 *     barrier_help_kilometres_signed also below 0
 *     barrier_help_swap_side         where traffic drives on the left
 *     barrier_help_turn_hazard       where it travels towards falling stations:
 *     barrier_help_turn_run          a hazard, a run,
 *     barrier_help_turn_station      a station,
 *     barrier_help_turn_corner       a corner point
 *     barrier_help_turn_overhangs    and the overhangs, turned round
 *     barrier_help_version_fits      whether the linked engine fits this header
 *     barrier_help_number_length     a number of a job or a schedule: how many
 *     barrier_help_put_number        bytes it takes, written
 *     barrier_help_get_number        and read
 *
 * All of it is in this file, in C99 that is also C++11 and later: nothing has
 * to be linked for it.  It takes no heap, prints nothing and keeps no pointer
 * but the one in a walk.  Memory is the caller's, and each function stays
 * within the lengths that it is given.  A pointer may be NULL where its length
 * is 0.
 *
 * Nothing here judges a job or a schedule: ranges and all other rules are for
 * the engine to test.  barrier.h is the manual; examples/first.c is a first
 * program.
 *
 * TEXTS.  A function that writes a text takes its room in bytes, including the
 * closing zero.  It writes the whole text or, where the room is too small, an
 * empty one (nothing at all into a room of 0), because a number cut short is
 * another number.  It gives the text's length, 0 where it did not fit.
 * BARRIER_HELP_TEXT_MAX bytes hold each of the texts.  Texts are English, in
 * ASCII, without a line end.
 *
 * Names that begin with barrier_help_p_ are private: they may be different in a
 * later version.
 */
#ifndef BARRIER_HELP_H
#define BARRIER_HELP_H

#include "barrier.h"

#if BARRIER_VERSION_MAJOR != 3 || BARRIER_VERSION_MINOR < 3
#error "barrier_help.h belongs to barrier.h of version 3.3.0 or a later 3"
#endif

/* Bytes that take every text of this file, and every number in bytes. */
#define BARRIER_HELP_TEXT_MAX 320
#define BARRIER_HELP_NUMBER_MAX 10

/* A header's numbers, with the hazard count (kind 2), and a hazard's. */
#define BARRIER_HELP_HEADER_NUMBERS 15
#define BARRIER_HELP_HAZARD_NUMBERS 6

/* How a function of this file ended, where it can end in several ways. */
enum barrier_help_result {
    BARRIER_HELP_OK = 0,
    BARRIER_HELP_ENDS_EARLY = 1,   /* the bytes end before or inside a number */
    BARRIER_HELP_NO_NUMBER = 2,    /* what stands there is no number */
    BARRIER_HELP_OUT_OF_RANGE = 3, /* it is a number, but too great or below 0 */
    BARRIER_HELP_NO_ROOM = 4,      /* there is more than the room takes */
    BARRIER_HELP_LEFT_OVER = 5,    /* bytes are left over at the end */
    BARRIER_HELP_KIND = 6          /* a job of a kind that is neither 1 nor 2 */
};

/* The calls, by which a refusal's number and value mean different things. */
enum barrier_help_call {
    BARRIER_HELP_PLAN,
    BARRIER_HELP_LEVEL,
    BARRIER_HELP_CORNERS,
    BARRIER_HELP_OFFSET,
    BARRIER_HELP_QUANTITY,
    BARRIER_HELP_QUANTITIES,
    BARRIER_HELP_LOOKUP,
    BARRIER_HELP_LAYOUT,
    BARRIER_HELP_OPEN,
    BARRIER_HELP_ADD,
    BARRIER_HELP_WITHDRAW,
    BARRIER_HELP_OPEN_SCHEDULE,
    BARRIER_HELP_KEEP,
    BARRIER_HELP_RETURN,
    BARRIER_HELP_REACH,
    BARRIER_HELP_OPEN_REACH
};

/*
 * The header of a job, with the letters of barrier.h.  Lengths and stations are
 * millimetres.  The hazard count is not in it: it goes with the hazards.
 */
typedef struct {
    uint64_t kind;            /*     1, or 2: approaches in whole panels; 0: 2
                                     where there is a panel length, else 1 */
    uint64_t begin;           /* A   first station of the road */
    uint64_t end;             /* B   its end station, which is not in it */
    uint64_t runout_forward;  /* LF  runout length of traffic to rising stations */
    uint64_t runout_opposite; /* LO  of the opposite traffic; 0: none */
    uint64_t clear_zone;      /* C   clear-zone width */
    uint64_t centreline;      /* W   travelled-way edge to centreline */
    uint64_t barrier_offset;  /* M   barrier from the travelled-way edge */
    uint64_t deflection;      /* D   deflection allowance behind the barrier */
    uint64_t flare_along;     /* a   the flare goes b across for a along: a, */
    uint64_t flare_across;    /* b   and b; 0: no flare */
    uint64_t straight;        /* T   straight barrier before the flare */
    uint64_t continuity;      /* G   gaps shorter than this are closed */
    uint64_t panel;           /*     panel length; not written for kind 1 */
} barrier_help_header;

/* ---- Numbers ------------------------------------------------------------ */

/* How many bytes a number takes, 1 to BARRIER_HELP_NUMBER_MAX. */
static inline size_t barrier_help_number_length(uint64_t value)
{
    size_t count = 1;
    while (value > 0x7F) {
        value >>= 7;
        count++;
    }
    return count;
}

/*
 * Writes a number in its form; gives its bytes, or 0 and writes nothing where
 * the room is too small.  Any 64-bit number is written.  The engine takes at
 * most six bytes, and refuses a longer number with 2.
 */
static inline size_t barrier_help_put_number(uint64_t value, uint8_t *out, size_t room)
{
    const size_t count = barrier_help_number_length(value);
    size_t i;
    if (count > room)
        return 0;
    for (i = 0; i + 1 < count; i++) {
        out[i] = (uint8_t)(0x80 | (value & 0x7F));
        value >>= 7;
    }
    out[i] = (uint8_t)value;
    return count;
}

/*
 * Reads the number at *at and moves *at past it.  Gives BARRIER_HELP_OK; or
 * ENDS_EARLY, or NO_NUMBER where it is not in shortest form or 64 bits do not
 * hold it, and then *at and *value stay as they were.
 */
static inline enum barrier_help_result barrier_help_get_number(const uint8_t *bytes, size_t length,
                                                               size_t *at, uint64_t *value)
{
    uint64_t gathered = 0;
    size_t i = *at;
    unsigned shift;
    for (shift = 0; shift < 70; shift += 7) {
        uint64_t group;
        if (i >= length)
            return BARRIER_HELP_ENDS_EARLY;
        group = bytes[i] & 0x7FU;
        /* The tenth group has one bit left. */
        if (shift == 63 && group > 1)
            return BARRIER_HELP_NO_NUMBER;
        gathered |= group << shift;
        if (bytes[i++] < 0x80) {
            if (group == 0 && shift > 0)
                return BARRIER_HELP_NO_NUMBER;
            *at = i;
            *value = gathered;
            return BARRIER_HELP_OK;
        }
    }
    return BARRIER_HELP_NO_NUMBER;
}

/* ---- Jobs --------------------------------------------------------------- */

/* Writes numbers after *length bytes, or only counts them where out is NULL. */
static inline int barrier_help_p_put(const uint64_t *numbers, size_t count, uint8_t *out,
                                     size_t room, size_t *length)
{
    size_t i;
    for (i = 0; i < count; i++) {
        const size_t bytes = barrier_help_number_length(numbers[i]);
        if (bytes > room - *length)
            return 0;
        if (out != NULL)
            (void)barrier_help_put_number(numbers[i], out + *length, room - *length);
        *length += bytes;
    }
    return 1;
}

/* The kind that is written: for 0 it follows from the panel length. */
static inline uint64_t barrier_help_p_kind(const barrier_help_header *header)
{
    if (header->kind != 0)
        return header->kind;
    return header->panel == 0 ? 1 : 2;
}

/* A header's numbers in their order, with the hazard count; how many they are. */
static inline size_t barrier_help_p_header(const barrier_help_header *header, uint64_t hazards,
                                           uint64_t *numbers)
{
    const uint64_t kind = barrier_help_p_kind(header);
    size_t count = 0;
    numbers[count++] = kind;
    numbers[count++] = header->begin;
    numbers[count++] = header->end;
    numbers[count++] = header->runout_forward;
    numbers[count++] = header->runout_opposite;
    numbers[count++] = header->clear_zone;
    numbers[count++] = header->centreline;
    numbers[count++] = header->barrier_offset;
    numbers[count++] = header->deflection;
    numbers[count++] = header->flare_along;
    numbers[count++] = header->flare_across;
    numbers[count++] = header->straight;
    numbers[count++] = header->continuity;
    if (kind == 2)
        numbers[count++] = header->panel;
    numbers[count++] = hazards;
    return count;
}

/* A hazard's numbers in their order. */
static inline void barrier_help_p_hazard(const barrier_hazard *hazard, uint64_t *numbers)
{
    numbers[0] = hazard->side;
    numbers[1] = hazard->start;
    numbers[2] = hazard->end;
    numbers[3] = hazard->near_offset;
    numbers[4] = hazard->far_offset;
    numbers[5] = hazard->level;
}

/* The job's length, or 0 where the room is too small; see barrier_help_p_put. */
static inline size_t barrier_help_p_job(const barrier_help_header *header,
                                        const barrier_hazard *hazards, size_t count, uint8_t *out,
                                        size_t room)
{
    uint64_t numbers[BARRIER_HELP_HEADER_NUMBERS];
    const size_t header_numbers = barrier_help_p_header(header, count, numbers);
    size_t length = 0;
    size_t i;
    if (!barrier_help_p_put(numbers, header_numbers, out, room, &length))
        return 0;
    for (i = 0; i < count; i++) {
        barrier_help_p_hazard(&hazards[i], numbers);
        if (!barrier_help_p_put(numbers, BARRIER_HELP_HAZARD_NUMBERS, out, room, &length))
            return 0;
    }
    return length;
}

/*
 * Writes a job: the header, the hazard count, the hazards in their order.
 * Gives its length, or 0 and writes nothing where the room is too small.
 * BARRIER_JOB_LONGEST bytes hold each job that the engine accepts.  With out
 * NULL and room SIZE_MAX it only gives the length.
 *
 * Ranges are not tested: whatever the numbers are, they are written, and the
 * engine says what is wrong with them.  If the kind is left 0, it is 2 where
 * there is a panel length and 1 where there is none.  A kind that is given is
 * written: kind 2 with the panel length, every other kind without it.  For
 * barrier_open the count is 0, and the hazards may be NULL.
 */
static inline size_t barrier_help_write_job(const barrier_help_header *header,
                                            const barrier_hazard *hazards, size_t count,
                                            uint8_t *out, size_t room)
{
    const size_t length = barrier_help_p_job(header, hazards, count, NULL, room);
    return length == 0 ? 0 : barrier_help_p_job(header, hazards, count, out, room);
}

/* Reads that many numbers. */
static inline enum barrier_help_result barrier_help_p_get(const uint8_t *bytes, size_t length,
                                                          size_t *at, uint64_t *numbers,
                                                          size_t count)
{
    enum barrier_help_result result = BARRIER_HELP_OK;
    size_t i;
    for (i = 0; i < count && result == BARRIER_HELP_OK; i++)
        result = barrier_help_get_number(bytes, length, at, &numbers[i]);
    return result;
}

/* Reads a header and the hazard count after it. */
static inline enum barrier_help_result barrier_help_p_get_header(const uint8_t *bytes,
                                                                 size_t length, size_t *at,
                                                                 barrier_help_header *header,
                                                                 uint64_t *hazards)
{
    uint64_t numbers[BARRIER_HELP_HEADER_NUMBERS] = {0};
    size_t count;
    enum barrier_help_result result = barrier_help_get_number(bytes, length, at, &numbers[0]);
    if (result != BARRIER_HELP_OK)
        return result;
    if (numbers[0] != 1 && numbers[0] != 2)
        return BARRIER_HELP_KIND;
    count = numbers[0] == 2 ? 15 : 14;
    result = barrier_help_p_get(bytes, length, at, numbers + 1, count - 1);
    if (result != BARRIER_HELP_OK)
        return result;
    header->kind = numbers[0];
    header->begin = numbers[1];
    header->end = numbers[2];
    header->runout_forward = numbers[3];
    header->runout_opposite = numbers[4];
    header->clear_zone = numbers[5];
    header->centreline = numbers[6];
    header->barrier_offset = numbers[7];
    header->deflection = numbers[8];
    header->flare_along = numbers[9];
    header->flare_across = numbers[10];
    header->straight = numbers[11];
    header->continuity = numbers[12];
    header->panel = numbers[0] == 2 ? numbers[13] : 0;
    *hazards = numbers[count - 1];
    return BARRIER_HELP_OK;
}

/* Reads one hazard. */
static inline enum barrier_help_result barrier_help_p_get_hazard(const uint8_t *bytes,
                                                                 size_t length, size_t *at,
                                                                 barrier_hazard *hazard)
{
    uint64_t numbers[BARRIER_HELP_HAZARD_NUMBERS] = {0};
    const enum barrier_help_result result =
        barrier_help_p_get(bytes, length, at, numbers, BARRIER_HELP_HAZARD_NUMBERS);
    hazard->side = numbers[0];
    hazard->start = numbers[1];
    hazard->end = numbers[2];
    hazard->near_offset = numbers[3];
    hazard->far_offset = numbers[4];
    hazard->level = numbers[5];
    return result;
}

/*
 * Reads a job of kind 1 or 2 back: its header, and its hazards into a room for
 * that many of them; BARRIER_HAZARDS_MAX hold each job that the engine accepts.
 * *count is how many they are, 0 unless the result is BARRIER_HELP_OK.  A
 * header of kind 1 gets panel 0.
 *
 * The numbers may be out of their ranges: that these bytes can be read does not
 * say that the engine accepts them.  Where the result is not BARRIER_HELP_OK,
 * header and hazards may hold a part of the job and are of no use.
 */
static inline enum barrier_help_result barrier_help_read_job(const uint8_t *job, size_t job_len,
                                                             barrier_help_header *header,
                                                             barrier_hazard *hazards, size_t room,
                                                             size_t *count)
{
    uint64_t wanted = 0;
    size_t at = 0;
    size_t i;
    enum barrier_help_result result =
        barrier_help_p_get_header(job, job_len, &at, header, &wanted);
    *count = 0;
    if (result != BARRIER_HELP_OK)
        return result;
    if (wanted > room)
        return BARRIER_HELP_NO_ROOM;
    for (i = 0; i < wanted && result == BARRIER_HELP_OK; i++)
        result = barrier_help_p_get_hazard(job, job_len, &at, &hazards[i]);
    if (result != BARRIER_HELP_OK)
        return result;
    if (at != job_len)
        return BARRIER_HELP_LEFT_OVER;
    *count = i;
    return BARRIER_HELP_OK;
}

/*
 * What stands in an open job: its header, and the hazards with their names into
 * a room for that many of each; BARRIER_HAZARDS_MAX are always enough.  *count
 * is how many they are, 0 unless the result is BARRIER_HELP_OK.  They stand in
 * rising order of their names.  Written with barrier_help_write_job they are
 * the job for barrier_level, barrier_corners and barrier_offset, in which the
 * index of a hazard is its index here.
 *
 * Only for memory that a call has just taken for an open job: it is not tested.
 */
static inline enum barrier_help_result barrier_help_standing(const barrier_open_job *job,
                                                             barrier_help_header *header,
                                                             barrier_hazard *hazards,
                                                             uint16_t *names, size_t room,
                                                             size_t *count)
{
    size_t i;
    *count = 0;
    if (job->count > room || job->count > BARRIER_HAZARDS_MAX)
        return BARRIER_HELP_NO_ROOM;
    header->kind = job->kind;
    header->begin = job->begin;
    header->end = job->end;
    header->runout_forward = job->forward;
    header->runout_opposite = job->opposite;
    header->clear_zone = job->zone;
    header->centreline = job->way;
    header->barrier_offset = job->offset;
    header->deflection = job->deflection;
    header->flare_along = job->along;
    header->flare_across = job->across;
    header->straight = job->straight;
    header->continuity = job->continuity;
    header->panel = job->kind == 2 ? job->panel : 0;
    for (i = 0; i < job->count; i++) {
        hazards[i].side = job->hazards[i].side;
        hazards[i].start = job->hazards[i].start;
        hazards[i].end = job->hazards[i].end;
        hazards[i].near_offset = job->hazards[i].near_offset;
        hazards[i].far_offset = job->hazards[i].far_offset;
        hazards[i].level = job->hazards[i].level;
        names[i] = job->hazards[i].name;
    }
    *count = i;
    return BARRIER_HELP_OK;
}

/* ---- Schedules ---------------------------------------------------------- */

/* A run [start, end) of a schedule, and its level, 1 to 6. */
typedef struct {
    uint64_t start;
    uint64_t end;
    uint64_t level;
} barrier_help_run;

/*
 * A walk over a schedule, whose bytes stay the caller's and have to stay there
 * until the walk is over.  `result` is the one field to look at, after the last
 * run: BARRIER_HELP_OK says that all runs were given and the bytes end with
 * them; any other result says that these bytes are not a schedule and that the
 * runs given may not be all.
 *
 *     ENDS_EARLY      the bytes end before or inside a number
 *     NO_NUMBER       a number that is not in its form
 *     OUT_OF_RANGE    a run without length, one that ends above
 *                     BARRIER_STATION_MAX, a level that is not 1 to 6, or more
 *                     than BARRIER_RUNS_MAX runs
 *     LEFT_OVER       bytes after the last run
 *
 * barrier_quantity says whether bytes are a schedule by all its rules, if it is
 * asked for any level over [0, 0): done or refused 10.
 */
typedef struct {
    const uint8_t *bytes;
    size_t length;
    size_t at;
    uint64_t left;
    uint64_t end;
    enum barrier_help_result result;
} barrier_help_walk;

/*
 * Begins a walk.
 *
 *     barrier_help_walk walk = barrier_help_walk_of(schedule, schedule_len);
 *     barrier_help_run run;
 *     while (barrier_help_next_run(&walk, &run))
 *         ...
 *     if (walk.result != BARRIER_HELP_OK)
 *         ...
 */
static inline barrier_help_walk barrier_help_walk_of(const uint8_t *schedule, size_t schedule_len)
{
    barrier_help_walk walk;
    walk.bytes = schedule;
    walk.length = schedule_len;
    walk.at = 0;
    walk.left = 0;
    walk.end = 0;
    walk.result = barrier_help_get_number(schedule, schedule_len, &walk.at, &walk.left);
    if (walk.result == BARRIER_HELP_OK && walk.left > BARRIER_RUNS_MAX)
        walk.result = BARRIER_HELP_OUT_OF_RANGE;
    return walk;
}

/* One record, distance, length and level; the run that it makes. */
static inline enum barrier_help_result barrier_help_p_get_run(barrier_help_walk *walk,
                                                              barrier_help_run *run)
{
    uint64_t record[3] = {0, 0, 0};
    const enum barrier_help_result result =
        barrier_help_p_get(walk->bytes, walk->length, &walk->at, record, 3);
    if (result != BARRIER_HELP_OK)
        return result;
    /* Subtracted and not added: no sum of these can go past 64 bits. */
    if (record[0] > BARRIER_STATION_MAX - walk->end || record[1] < 1 ||
        record[1] > BARRIER_STATION_MAX - walk->end - record[0] || record[2] < 1 || record[2] > 6)
        return BARRIER_HELP_OUT_OF_RANGE;
    run->start = walk->end + record[0];
    run->end = run->start + record[1];
    run->level = record[2];
    return BARRIER_HELP_OK;
}

/*
 * Gives the next run: 1, or 0 where there is none, and then run stays as it
 * was and walk->result says why.
 */
static inline int barrier_help_next_run(barrier_help_walk *walk, barrier_help_run *run)
{
    if (walk->result != BARRIER_HELP_OK)
        return 0;
    if (walk->left == 0) {
        if (walk->at != walk->length)
            walk->result = BARRIER_HELP_LEFT_OVER;
        return 0;
    }
    walk->result = barrier_help_p_get_run(walk, run);
    if (walk->result != BARRIER_HELP_OK)
        return 0;
    walk->end = run->end;
    walk->left--;
    return 1;
}

/* ---- Texts -------------------------------------------------------------- */

/* A text that is being written.  Its length goes on where the room ends. */
typedef struct {
    char *text;
    size_t room;
    size_t length;
} barrier_help_p_text;

static inline void barrier_help_p_letter(barrier_help_p_text *into, char letter)
{
    if (into->length < into->room)
        into->text[into->length] = letter;
    into->length++;
}

static inline void barrier_help_p_words(barrier_help_p_text *into, const char *words)
{
    for (; *words != '\0'; words++)
        barrier_help_p_letter(into, *words);
}

/* In at least that many digits. */
static inline void barrier_help_p_digits(barrier_help_p_text *into, uint64_t value, int least)
{
    char digits[20];
    int count = 0;
    while (value > 0 || count < least) {
        digits[count++] = (char)('0' + (int)(value % 10));
        value /= 10;
    }
    while (count > 0)
        barrier_help_p_letter(into, digits[--count]);
}

/* Closes the text: whole, or empty. */
static inline size_t barrier_help_p_close(barrier_help_p_text *into)
{
    if (into->length < into->room) {
        into->text[into->length] = '\0';
        return into->length;
    }
    if (into->room > 0)
        into->text[0] = '\0';
    return 0;
}

/* ---- What the numbers are called ---------------------------------------- */

/*
 * What header number 1 to 15 is called, with its letter.  Number 14 is the
 * hazard count of kind 1 and the panel length of kind 2; where the kind is not
 * known, ask with kind 0, and both are named.
 */
static inline const char *barrier_help_header_name(uint64_t kind, uint64_t number)
{
    static const char *const names[14] = {
        "no such header number",
        "kind",
        "road begin A",
        "road end B",
        "runout length LF of forward traffic",
        "runout length LO of opposite traffic",
        "clear-zone width C",
        "travelled-way edge to centreline W",
        "barrier offset M",
        "deflection allowance D",
        "flare a along",
        "flare b across",
        "straight barrier T before the flare",
        "continuity limit G"};
    if (number < 14)
        return names[number];
    if (number == 14 && kind == 1)
        return "hazard count h";
    if (number == 14 && kind == 2)
        return "panel length";
    if (number == 14)
        return "hazard count h (kind 1) or panel length (kind 2)";
    return number == 15 && kind != 1 ? "hazard count h" : names[0];
}

/* What it may be, by barrier.h's table; millimetres where it is a length. */
static inline const char *barrier_help_header_range(uint64_t kind, uint64_t number)
{
    static const char *const ranges[14] = {
        "nothing",
        "1 to 2",
        "0 to 999999999999",
        "A + 1 to 1000000000000, and at most A + 2000000000",
        "1 to 200000",
        "0 to 200000",
        "1 to 30000",
        "0 to 20000",
        "0 to 20000",
        "1 to 5000",
        "1 to 100",
        "0 to 10",
        "0 to 100000",
        "0 to 200000"};
    if (number < 14)
        return ranges[number];
    if (number == 14 && kind == 1)
        return "0 to 256";
    if (number == 14 && kind == 2)
        return "1 to 10000";
    if (number == 14)
        return "0 to 256 (kind 1) or 1 to 10000 (kind 2)";
    return number == 15 && kind != 1 ? "0 to 256" : ranges[0];
}

/* What a hazard's numbers are called, by their place from 0 to 5. */
static inline const char *barrier_help_hazard_name(size_t place)
{
    static const char *const names[BARRIER_HELP_HAZARD_NUMBERS] = {
        "side",          "first station s", "end station e",
        "near offset n", "far offset f",    "containment level"};
    return place < BARRIER_HELP_HAZARD_NUMBERS ? names[place] : "no number of a hazard";
}

/* What they may be, by barrier.h's table. */
static inline const char *barrier_help_hazard_range(size_t place)
{
    static const char *const ranges[BARRIER_HELP_HAZARD_NUMBERS] = {
        "0 (right) or 1 (left)", "A to B - 1", "s + 1 to B", "0 to 60000", "n to 60000", "1 to 6"};
    return place < BARRIER_HELP_HAZARD_NUMBERS ? ranges[place] : "nothing";
}

/*
 * The place, 0 to 5, of the first of a hazard's numbers that is out of its
 * range on the road [begin, end); BARRIER_HELP_HAZARD_NUMBERS where none is.
 * Refusal 4 names the hazard and not the number: this is to show which.  The
 * engine is still the judge.
 */
static inline size_t barrier_help_hazard_fault(uint64_t begin, uint64_t end,
                                               const barrier_hazard *hazard)
{
    if (hazard->side > BARRIER_LEFT)
        return 0;
    if (hazard->start < begin || hazard->start >= end)
        return 1;
    if (hazard->end <= hazard->start || hazard->end > end)
        return 2;
    if (hazard->near_offset > 60000)
        return 3;
    if (hazard->far_offset < hazard->near_offset || hazard->far_offset > 60000)
        return 4;
    if (hazard->level < BARRIER_NC_1 || hazard->level > BARRIER_NC_6)
        return 5;
    return BARRIER_HELP_HAZARD_NUMBERS;
}

/* ---- Refusals ----------------------------------------------------------- */

/* The name of a call in C. */
static inline const char *barrier_help_call_name(enum barrier_help_call call)
{
    static const char *const names[16] = {
        "barrier_plan",     "barrier_level",         "barrier_corners", "barrier_offset",
        "barrier_quantity", "barrier_quantities",    "barrier_lookup",  "barrier_layout",
        "barrier_open",     "barrier_add",           "barrier_withdraw",
        "barrier_open_schedule", "barrier_keep",     "barrier_return",  "barrier_reach",
        "barrier_open_reach"};
    return (unsigned)call < 16 ? names[(unsigned)call] : "no call";
}

/* The calls that read a whole job from bytes; barrier_open reads a header. */
static inline int barrier_help_p_reads_job(enum barrier_help_call call)
{
    return call == BARRIER_HELP_PLAN || call == BARRIER_HELP_LEVEL ||
           call == BARRIER_HELP_CORNERS || call == BARRIER_HELP_OFFSET ||
           call == BARRIER_HELP_REACH;
}

static inline int barrier_help_p_reads_bytes(enum barrier_help_call call)
{
    return barrier_help_p_reads_job(call) || call == BARRIER_HELP_OPEN;
}

/* The calls that read a schedule. */
static inline int barrier_help_p_reads_schedule(enum barrier_help_call call)
{
    return call == BARRIER_HELP_QUANTITY || call == BARRIER_HELP_QUANTITIES ||
           call == BARRIER_HELP_LOOKUP;
}

/* The calls that test the memory of an open job first. */
static inline int barrier_help_p_tests_memory(enum barrier_help_call call)
{
    return call == BARRIER_HELP_ADD || call == BARRIER_HELP_WITHDRAW ||
           call == BARRIER_HELP_OPEN_SCHEDULE || call == BARRIER_HELP_KEEP ||
           call == BARRIER_HELP_RETURN || call == BARRIER_HELP_OPEN_REACH;
}

/*
 * Whether a call can be refused with that number and value: the table of
 * barrier.h, and its order of tests, by call.
 */
static inline int barrier_help_p_given(enum barrier_help_call call, uint64_t number, uint64_t value)
{
    switch (number) {
    case BARRIER_JOB_ENDED:
    case BARRIER_NUMBER_MALFORMED:
    case BARRIER_JOB_LEFT_OVER:
        return barrier_help_p_reads_bytes(call);
    case BARRIER_HEADER_RANGE:
        return value == 0 ? barrier_help_p_tests_memory(call)
                          : value <= 15 && barrier_help_p_reads_bytes(call);
    case BARRIER_HAZARD_RANGE:
    case BARRIER_HAZARD_NEAR:
        return barrier_help_p_reads_job(call) || call == BARRIER_HELP_ADD;
    case BARRIER_ARGUMENT:
        return call == BARRIER_HELP_PLAN || call == BARRIER_HELP_LEVEL ||
               call == BARRIER_HELP_CORNERS || call == BARRIER_HELP_OPEN_SCHEDULE ||
               barrier_help_p_reads_schedule(call);
    case BARRIER_OUTPUT_SHORT:
        return call == BARRIER_HELP_PLAN || call == BARRIER_HELP_OPEN_SCHEDULE;
    case BARRIER_NO_SCHEDULE:
        return barrier_help_p_reads_schedule(call);
    case BARRIER_TOO_MANY_RANGES:
        return call == BARRIER_HELP_QUANTITIES;
    case BARRIER_NAME:
        return call == BARRIER_HELP_ADD || call == BARRIER_HELP_WITHDRAW ||
               call == BARRIER_HELP_OPEN_REACH;
    case BARRIER_STATE:
        return call == BARRIER_HELP_KEEP || call == BARRIER_HELP_RETURN;
    case BARRIER_NO_APPROACH:
        return call == BARRIER_HELP_CORNERS || call == BARRIER_HELP_OFFSET ||
               call == BARRIER_HELP_REACH;
    case BARRIER_FULL:
        return call == BARRIER_HELP_ADD;
    case BARRIER_LENGTHS:
    case BARRIER_LIMIT:
        return call == BARRIER_HELP_LAYOUT;
    default:
        return 0;
    }
}

/* Refusal 8 in words, by what the call is asked. */
static inline const char *barrier_help_p_argument(enum barrier_help_call call)
{
    switch (call) {
    case BARRIER_HELP_QUANTITY:
        return "the level is not 1 to 6, or p is above q";
    case BARRIER_HELP_QUANTITIES:
        return "the level is not 1 to 6, p is above q in a range, or the last p has no q";
    case BARRIER_HELP_CORNERS:
        return "a number of the sheet corner is above 1000000000000";
    default:
        return "the side is neither 0 (right) nor 1 (left)";
    }
}

/* A refusal in words; # stands for its value, @ for a header number's name. */
static inline const char *barrier_help_p_says(enum barrier_help_call call, uint64_t number,
                                              uint64_t value)
{
    switch (number) {
    case BARRIER_JOB_ENDED:
        return "the job ends before or inside the number at byte #";
    case BARRIER_NUMBER_MALFORMED:
        return "no number in the right form begins at byte #";
    case BARRIER_HEADER_RANGE:
        return value == 0 ? "the memory is not an open job"
                          : "header number #, @, is outside its range";
    case BARRIER_HAZARD_RANGE:
        return call == BARRIER_HELP_ADD ? "a field of the hazard to be named # is outside its range"
                                        : "a field of hazard # is outside its range";
    case BARRIER_HAZARD_NEAR:
        return call == BARRIER_HELP_ADD
                   ? "the hazard to be named # leaves the barrier no room to deflect"
                   : "hazard # leaves the barrier no room to deflect";
    case BARRIER_JOB_LEFT_OVER:
        return "bytes are left over from byte # on";
    case BARRIER_ARGUMENT:
        return barrier_help_p_argument(call);
    case BARRIER_OUTPUT_SHORT:
        return "the schedule takes # bytes";
    case BARRIER_NO_SCHEDULE:
        return "these bytes are not a schedule";
    case BARRIER_TOO_MANY_RANGES:
        return "more than 64 ranges";
    case BARRIER_NAME:
        return call == BARRIER_HELP_ADD ? "the name # stands already" : "the name # does not stand";
    case BARRIER_STATE:
        return call == BARRIER_HELP_KEEP
                   ? "the state number is above 7"
                   : "the state number is above 7, or nothing is kept under it";
    case BARRIER_NO_APPROACH:
        return call == BARRIER_HELP_REACH ? "there is no such hazard in the job"
                                          : "no such hazard, or adjacent traffic does not reach it";
    case BARRIER_FULL:
        return "256 hazards stand already";
    case BARRIER_LENGTHS:
        return "no panel length, too many, or one outside its range";
    default:
        return "a limit of no tries, or of more than 65536";
    }
}

/* What can be done about refusal 3; % stands for a header number's range. */
static inline const char *barrier_help_p_mend_header(enum barrier_help_call call, uint64_t value)
{
    if (value == 0)
        return "open the job with barrier_open first, and let nothing else write to its memory";
    if (call == BARRIER_HELP_OPEN && value == 14)
        return "to open a job its hazard count (kind 1) has to be 0, hazards are added afterwards; "
               "a panel length (kind 2) has to be 1 to 10000";
    if (call == BARRIER_HELP_OPEN && value == 15)
        return "to open a job its hazard count has to be 0: hazards are added afterwards";
    return "it has to be %";
}

/* What can be done about refusal 8. */
static inline const char *barrier_help_p_mend_argument(enum barrier_help_call call)
{
    switch (call) {
    case BARRIER_HELP_QUANTITY:
    case BARRIER_HELP_QUANTITIES:
        return "ask for a level from 1 to 6, over ranges [p, q) with p not above q";
    case BARRIER_HELP_CORNERS:
        return "give a sheet corner whose station and offset are 0 to 1000000000000 millimetres";
    default:
        return "ask for BARRIER_RIGHT or BARRIER_LEFT";
    }
}

/* What can be done about a refusal. */
static inline const char *barrier_help_p_mends(enum barrier_help_call call, uint64_t number,
                                               uint64_t value)
{
    switch (number) {
    case BARRIER_JOB_ENDED:
        return "hand over all of the job's bytes, with as many hazards as its hazard count says";
    case BARRIER_NUMBER_MALFORMED:
        return "write each number in its shortest form; none that a job may have is above "
               "1000000000000";
    case BARRIER_HEADER_RANGE:
        return barrier_help_p_mend_header(call, value);
    case BARRIER_HAZARD_RANGE:
        return "side 0 or 1; stations that rise and lie on the road; offsets, near then far, that "
               "do not fall and are at most 60000 millimetres; level 1 to 6";
    case BARRIER_HAZARD_NEAR:
        return "its near offset n is below barrier offset M and deflection allowance D together: "
               "measure n again, or plan with a smaller M or a barrier that deflects less";
    case BARRIER_JOB_LEFT_OVER:
        return "the hazard count is below the hazards that follow, or the length given is not the "
               "job's";
    case BARRIER_ARGUMENT:
        return barrier_help_p_mend_argument(call);
    case BARRIER_OUTPUT_SHORT:
        return "lend as many bytes; BARRIER_SCHEDULE_MAX, 5624, always suffice";
    case BARRIER_NO_SCHEDULE:
        return "hand over a schedule as it was written, with the length that was replied; this is "
               "not a side without barriers";
    case BARRIER_TOO_MANY_RANGES:
        return "ask in several calls, of at most 64 ranges each";
    case BARRIER_NAME:
        return call == BARRIER_HELP_ADD
                   ? "take another name, or withdraw the hazard that stands under this one"
                   : "it was never added, or is withdrawn already: look at the name";
    case BARRIER_STATE:
        return call == BARRIER_HELP_KEEP ? "keep under a number from 0 to 7"
                                         : "return to a number from 0 to 7 that was kept since the "
                                           "job was opened";
    case BARRIER_NO_APPROACH:
        return call == BARRIER_HELP_REACH
                   ? "hazards count from 0 in the job's order"
                   : "hazards count from 0 in the job's order; one whose near offset n is not "
                     "below the clear-zone width C has no such approach";
    case BARRIER_FULL:
        return "withdraw a hazard first";
    case BARRIER_LENGTHS:
        return "give one to four panel lengths, each 1 to 20000 millimetres";
    default:
        return "give a limit from 1 to 65536; 65536 tries every layout";
    }
}

/* Writes words, and what stands for #, @ and %. */
static inline size_t barrier_help_p_fill(const char *words, uint64_t value, char *text, size_t room)
{
    barrier_help_p_text into;
    into.text = text;
    into.room = room;
    into.length = 0;
    for (; *words != '\0'; words++) {
        if (*words == '#')
            barrier_help_p_digits(&into, value, 1);
        else if (*words == '@')
            barrier_help_p_words(&into, barrier_help_header_name(0, value));
        else if (*words == '%')
            barrier_help_p_words(&into, barrier_help_header_range(0, value));
        else
            barrier_help_p_letter(&into, *words);
    }
    return barrier_help_p_close(&into);
}

/*
 * A refusal in words: what is wrong.  The call is the one that replied it,
 * because number and value mean different things: 3 with 0 comes of the memory
 * of an open job, 3 with another value of a header; 4 and 5 carry the index of
 * a hazard in a job, but the name from barrier_add; 12 always carries a name.
 * Number 0 is "done"; for what a call never replies, the text says so.
 */
static inline size_t barrier_help_refusal(enum barrier_help_call call, uint64_t number,
                                          uint64_t value, char *text, size_t room)
{
    const char *words = "a number that barrier.h does not have for this call";
    if (number == BARRIER_DONE)
        words = "done";
    else if (barrier_help_p_given(call, number, value))
        words = barrier_help_p_says(call, number, value);
    return barrier_help_p_fill(words, value, text, room);
}

/* What can be done about it, in words. */
static inline size_t barrier_help_remedy(enum barrier_help_call call, uint64_t number,
                                         uint64_t value, char *text, size_t room)
{
    const char *words = "look whether call and reply belong together, and program and archive are "
                        "of one version";
    if (number == BARRIER_DONE)
        words = "nothing has to be done";
    else if (barrier_help_p_given(call, number, value))
        words = barrier_help_p_mends(call, number, value);
    return barrier_help_p_fill(words, value, text, room);
}

/* ---- Metres ------------------------------------------------------------- */

/* A count of millimetres with its sign: 0 to BARRIER_STATION_MAX, or refused. */
static inline enum barrier_help_result barrier_help_p_mm(uint64_t count, int negative,
                                                         uint64_t *mm)
{
    if (count > BARRIER_STATION_MAX || (negative && count > 0))
        return BARRIER_HELP_OUT_OF_RANGE;
    *mm = count;
    return BARRIER_HELP_OK;
}

/* Metres in text to millimetres; way is -1 down, 1 up, 0 to the nearest. */
static inline enum barrier_help_result barrier_help_p_mm_of_text(const char *metres, size_t length,
                                                                 int way, uint64_t *mm)
{
    const int sign = length > 0 && (metres[0] == '-' || metres[0] == '+');
    const int negative = sign && metres[0] == '-';
    uint64_t count = 0;
    int digits = 0;
    int decimals = -1; /* after the point; -1 before it */
    int missing;
    int half = 0; /* the part below a millimetre is half of one or more, */
    int part = 0; /* or there is such a part at all */
    int raised;
    size_t i;
    for (i = sign ? 1 : 0; i < length; i++) {
        const char c = metres[i];
        if (c == '.' && decimals < 0) {
            decimals = 0;
        } else if (c >= '0' && c <= '9') {
            digits = 1;
            /* Above the range it stays above, and does not grow past 64 bits. */
            if (decimals < 3 && count <= BARRIER_STATION_MAX)
                count = 10 * count + (uint64_t)(c - '0');
            if (decimals == 3)
                half = c >= '5';
            if (decimals >= 3 && c > '0')
                part = 1;
            if (decimals >= 0 && decimals < 4)
                decimals++;
        } else {
            return BARRIER_HELP_NO_NUMBER;
        }
    }
    if (!digits)
        return BARRIER_HELP_NO_NUMBER;
    missing = decimals < 0 ? 3 : 3 - decimals;
    for (; missing > 0 && count <= BARRIER_STATION_MAX; missing--)
        count *= 10;
    /* Below 0, down is away from zero. */
    raised = way == 0 ? half : part && (way > 0) != negative;
    return barrier_help_p_mm(count + (uint64_t)raised, negative, mm);
}

/*
 * Metres, as decimal text of that many bytes, to millimetres: to the nearest,
 * halves away from zero, exactly.  "155.7725" is 155773, "155.7724999" is
 * 155772.  The text is digits with a point among them or at either end, or
 * without one, after + or - if wanted, and nothing else: no comma, no space, no
 * exponent, no unit.
 *
 * FOR A HAZARD ROUND OUTWARDS: its first station and near offset down, its end
 * station and far offset up.  So the hazard that is planned is never smaller
 * than the one that was measured.  The two functions below do it.
 *
 * Gives BARRIER_HELP_OK; NO_NUMBER where the text is something else; or
 * OUT_OF_RANGE where the millimetres are below 0 or above BARRIER_STATION_MAX,
 * and then *mm stays as it was.
 */
static inline enum barrier_help_result barrier_help_mm_of_text(const char *metres, size_t length,
                                                               uint64_t *mm)
{
    return barrier_help_p_mm_of_text(metres, length, 0, mm);
}

/* The same, down: "155.7729" is 155772.  For first stations and near offsets. */
static inline enum barrier_help_result barrier_help_mm_of_text_down(const char *metres,
                                                                    size_t length, uint64_t *mm)
{
    return barrier_help_p_mm_of_text(metres, length, -1, mm);
}

/* The same, up: "155.7721" is 155773.  For end stations and far offsets. */
static inline enum barrier_help_result barrier_help_mm_of_text_up(const char *metres, size_t length,
                                                                  uint64_t *mm)
{
    return barrier_help_p_mm_of_text(metres, length, 1, mm);
}

/*
 * Metres in a double to millimetres: the product with 1000, which is a double
 * again, to the nearest, halves away from zero.  A double holds most decimals
 * only approximately, so a half millimetre may go either way: where it matters,
 * use text.  Results as for text; a NaN is NO_NUMBER, infinities are
 * OUT_OF_RANGE.
 */
static inline enum barrier_help_result barrier_help_mm_of_double(double metres, uint64_t *mm)
{
    const double product = (metres < 0 ? -metres : metres) * 1000.0;
    uint64_t count;
    if (!(metres <= 0) && !(metres > 0))
        return BARRIER_HELP_NO_NUMBER;
    if (!(product < 2.0e12))
        return BARRIER_HELP_OUT_OF_RANGE;
    count = (uint64_t)product;
    /* Exact: both are below 2 to the 53rd. */
    if (product - (double)count >= 0.5)
        count++;
    return barrier_help_p_mm(count, metres < 0, mm);
}

/* Millimetres as a text of metres, always three decimals: 155773 is "155.773". */
static inline size_t barrier_help_metres(uint64_t mm, char *text, size_t room)
{
    barrier_help_p_text into;
    into.text = text;
    into.room = room;
    into.length = 0;
    barrier_help_p_digits(&into, mm / 1000, 1);
    barrier_help_p_letter(&into, '.');
    barrier_help_p_digits(&into, mm % 1000, 3);
    return barrier_help_p_close(&into);
}

/* The same, also below 0, for a corner's station or A - before: -4227 is "-4.227". */
static inline size_t barrier_help_metres_signed(int64_t mm, char *text, size_t room)
{
    size_t length;
    if (mm >= 0)
        return barrier_help_metres((uint64_t)mm, text, room);
    /* 0 minus the number, in unsigned numbers: the least one has no opposite. */
    length = room == 0 ? 0 : barrier_help_metres(0 - (uint64_t)mm, text + 1, room - 1);
    if (room > 0)
        text[0] = length == 0 ? '\0' : '-';
    return length == 0 ? 0 : length + 1;
}

/*
 * A station as roads are signed, kilometres + metres, to millimetres:
 * "1+250.000" and "1+250" are 1250000.  Digits, a plus, three digits and, if
 * wanted, a point and three digits more; nothing else.  Results as for metres.
 */
static inline enum barrier_help_result barrier_help_mm_of_kilometres(const char *station,
                                                                     size_t length, uint64_t *mm)
{
    uint64_t count = 0;
    size_t plus = 0;
    size_t i;
    while (plus < length && station[plus] != '+')
        plus++;
    if (plus == 0 || (length != plus + 4 && length != plus + 8))
        return BARRIER_HELP_NO_NUMBER;
    for (i = 0; i < length; i++) {
        const char c = station[i];
        if (i == plus)
            continue;
        if (i == plus + 4 ? c != '.' : c < '0' || c > '9')
            return BARRIER_HELP_NO_NUMBER;
        /* Above the range it stays above, and does not grow past 64 bits. */
        if (c != '.' && count <= BARRIER_STATION_MAX)
            count = 10 * count + (uint64_t)(c - '0');
    }
    if (length == plus + 4 && count <= BARRIER_STATION_MAX)
        count *= 1000;
    return barrier_help_p_mm(count, 0, mm);
}

/* Millimetres as such a station, always three decimals: 1250000 is "1+250.000". */
static inline size_t barrier_help_kilometres(uint64_t mm, char *text, size_t room)
{
    barrier_help_p_text into;
    into.text = text;
    into.room = room;
    into.length = 0;
    barrier_help_p_digits(&into, mm / 1000000, 1);
    barrier_help_p_letter(&into, '+');
    barrier_help_p_digits(&into, mm / 1000 % 1000, 3);
    barrier_help_p_letter(&into, '.');
    barrier_help_p_digits(&into, mm % 1000, 3);
    return barrier_help_p_close(&into);
}

/* The same, also below 0: -4227 is "-0+004.227". */
static inline size_t barrier_help_kilometres_signed(int64_t mm, char *text, size_t room)
{
    size_t length;
    if (mm >= 0)
        return barrier_help_kilometres((uint64_t)mm, text, room);
    length = room == 0 ? 0 : barrier_help_kilometres(0 - (uint64_t)mm, text + 1, room - 1);
    if (room > 0)
        text[0] = length == 0 ? '\0' : '-';
    return length == 0 ? 0 : length + 1;
}

/* ---- Roads that are not driven as the engine has it --------------------- */

/*
 * The other side, for a road whose traffic drives on the left: for a hazard
 * before it is handed over, for the side that is asked for, and for what is
 * said about the answer.  A number that is not a side stays as it is.
 */
static inline uint64_t barrier_help_swap_side(uint64_t side)
{
    return side <= BARRIER_LEFT ? BARRIER_LEFT - side : side;
}

/*
 * Turning, for a one-way carriageway [begin, end) whose traffic travels towards
 * falling stations: barrier.h, "Sides and traffic".  Hand over each hazard
 * turned, ask for the other side at the turned station, and turn back what is
 * replied: each of these undoes itself.  On a two-way road turn nothing.
 *
 * What is on the road stays on it, and what is outside stays outside, where the
 * engine refuses it: no number is tested here.
 */
static inline barrier_hazard barrier_help_turn_hazard(uint64_t begin, uint64_t end,
                                                      barrier_hazard hazard)
{
    const uint64_t start = hazard.start;
    hazard.side = barrier_help_swap_side(hazard.side);
    hazard.start = begin + end - hazard.end;
    hazard.end = begin + end - start;
    return hazard;
}

/* A run; the runs of a schedule then fall, so take them from the last one on. */
static inline barrier_help_run barrier_help_turn_run(uint64_t begin, uint64_t end,
                                                     barrier_help_run run)
{
    const uint64_t start = run.start;
    run.start = begin + end - run.end;
    run.end = begin + end - start;
    return run;
}

/* A station that is asked for: the millimetre from it to the next. */
static inline uint64_t barrier_help_turn_station(uint64_t begin, uint64_t end, uint64_t station)
{
    return begin + end - 1 - station;
}

/* A corner, counted from the sheet corner (0, 0): a point, not a millimetre. */
static inline barrier_corner barrier_help_turn_corner(uint64_t begin, uint64_t end,
                                                      barrier_corner corner)
{
    corner.station = (double)(begin + end) - corner.station;
    return corner;
}

/* The overhangs of a plan: before and after change places. */
static inline barrier_plan_reply barrier_help_turn_overhangs(barrier_plan_reply reply)
{
    const uint64_t before = reply.before;
    reply.before = reply.after;
    reply.after = before;
    return reply;
}

/* ---- The version -------------------------------------------------------- */

/*
 * Whether a program compiled with this header may use an engine of that
 * version, as barrier_version replies it: the same first number, and a second
 * one that is not smaller.  The third changes no call.
 */
static inline int barrier_help_version_fits(uint32_t linked)
{
    return linked / 1000000 == BARRIER_VERSION_MAJOR &&
           linked / 1000 % 1000 >= BARRIER_VERSION_MINOR;
}

#endif

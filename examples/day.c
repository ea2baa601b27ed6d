/*
 * A controller's day, as a log: a job is opened in the morning, hazards are
 * added as the rod reaches them, two adds are refused and put right, a variant
 * is tried, with the sheets that it touches, and taken back; then the inspector asks for the level underfoot, and
 * the office for the schedule, the quantities of the contract's lots, the
 * panels of each run and the corner points of the drawing.
 *
 * The rod's readings are metres in text, as a crew types them; the engine takes
 * whole millimetres.  What is shown is metres again, with three decimals.
 *
 * Ends with 1 where a call does not do what it should.
 *
 *     cc day.c $(pkg-config --cflags --libs barrier_engine) -o day
 */
#include <inttypes.h>
#include <stdio.h>
#include <string.h>

#include <barrier.h>
#include <barrier_help.h>

/* Two kilometres of two-way road, approaches in whole panels of 4 m. */
static const barrier_help_header road = {
    0,              /* kind: by the panel length */
    0, 2000000,     /* A, B: road begin and end */
    101000, 101000, /* LF, LO: runout lengths, forward and opposite */
    9000,           /* C: clear-zone width */
    3500,           /* W: travelled-way edge to centreline */
    3000,           /* M: barrier offset */
    1000,           /* D: deflection allowance */
    15, 1,          /* a, b: flare, 1 across for 15 along */
    13340,          /* T: straight barrier before the flare */
    50000,          /* G: gaps below 50 m are closed */
    4000            /* panel length */
};

/* The lots of the contract, and the panels of the yard, the shortest first: so
   fewer are taken.  Fifteen of each together are twice as long. */
static const uint64_t lots[] = {0, 500000, 500000, 1000000, 1000000, 2000000};
static const uint64_t yard[] = {2500, 4000};
static const uint64_t YARD_HALF = 48750;
enum { LOT_NUMBERS = 6, YARD_LENGTHS = 2 };

/* What the rod reads: metres from the datum, and from the travelled-way edge. */
struct reading {
    uint16_t name; /* the drawing's number */
    const char *what;
    uint64_t side;
    const char *first, *end, *near_offset, *far_offset;
    uint64_t level;
};

static const struct reading headwall = {101,     "headwall", BARRIER_RIGHT, "400", "404", "5.00",
                                        "9.000", BARRIER_NC_3};
static const struct reading slope = {102,    "slope", BARRIER_RIGHT, "460.0006", "640", "6",
                                     "15.0", BARRIER_NC_2};
static const struct reading pier = {1030,   "pier", BARRIER_LEFT, "10.5", "16.500", "3.9",
                                    "6.5", BARRIER_NC_4};
static const struct reading pier_again = {1030,  "pier", BARRIER_LEFT, "10.5", "16.500", "4.5",
                                          "6.5", BARRIER_NC_4};
static const struct reading trees = {1031,   "trees", BARRIER_RIGHT, "900", "950", "7.2",
                                     "6.90", BARRIER_NC_1};
static const struct reading trees_again = {1031,   "trees", BARRIER_RIGHT, "900", "950", "6.9",
                                           "7.20", BARRIER_NC_1};
static const struct reading moved_trees = {1031,   "trees", BARRIER_RIGHT, "1100", "1150", "6.9",
                                           "7.20", BARRIER_NC_1};

/* ---- What is shown ---- */

/* The text stays until four more are asked for: enough for one line. */
static const char *metres(uint64_t millimetres)
{
    static char texts[4][BARRIER_HELP_TEXT_MAX];
    static int next = 0;
    char *text = texts[next++ % 4];
    barrier_help_metres(millimetres, text, BARRIER_HELP_TEXT_MAX);
    return text;
}

/* Says how a call ended; a refusal in words, and what can be done. */
static int said(const char *what, enum barrier_help_call call, uint64_t number, uint64_t value)
{
    char words[BARRIER_HELP_TEXT_MAX], remedy[BARRIER_HELP_TEXT_MAX];
    barrier_help_refusal(call, number, value, words, sizeof words);
    if (number == BARRIER_DONE) {
        printf("  %s: %s\n", what, words);
        return 1;
    }
    barrier_help_remedy(call, number, value, remedy, sizeof remedy);
    printf("  %s: refused %" PRIu64 " with %" PRIu64 ", %s\n", what, number, value, words);
    printf("    (%s)\n", remedy);
    return 0;
}

/* ---- The open job ---- */

static int open_road(barrier_open_job *job)
{
    uint8_t bytes[BARRIER_JOB_LONGEST];
    const size_t length = barrier_help_write_job(&road, NULL, 0, bytes, sizeof bytes);
    const barrier_reply reply = barrier_open(job, bytes, length);
    return said("open the road", BARRIER_HELP_OPEN, reply.number, reply.value);
}

/* One reading in millimetres, down or up; 0 where it is not a length. */
static int millimetres(const char *reading, int up, uint64_t *value)
{
    const size_t length = strlen(reading);
    const enum barrier_help_result result =
        up ? barrier_help_mm_of_text_up(reading, length, value)
           : barrier_help_mm_of_text_down(reading, length, value);
    if (result == BARRIER_HELP_OK)
        return 1;
    printf("  '%s' is no length in metres\n", reading);
    return 0;
}

/* Adds what the rod reads; 0 where it is not added. */
static int add(barrier_open_job *job, const struct reading *reading)
{
    enum { DOWN = 0, UP = 1 };
    char what[64];
    barrier_hazard hazard = {reading->side, 0, 0, 0, 0, reading->level};
    /* Outwards: the planned hazard is never smaller than the measured one. */
    if (!millimetres(reading->first, DOWN, &hazard.start) ||
        !millimetres(reading->end, UP, &hazard.end) ||
        !millimetres(reading->near_offset, DOWN, &hazard.near_offset) ||
        !millimetres(reading->far_offset, UP, &hazard.far_offset))
        return 0;
    snprintf(what, sizeof what, "add %u, %s at %s m", (unsigned)reading->name, reading->what,
             metres(hazard.start));
    const barrier_reply reply = barrier_add(job, reading->name, hazard);
    if (said(what, BARRIER_HELP_ADD, reply.number, reply.value))
        return 1;
    /* Refusal 4 does not say which number it is. */
    if (reply.number == BARRIER_HAZARD_RANGE) {
        const size_t place = barrier_help_hazard_fault(road.begin, road.end, &hazard);
        if (place < BARRIER_HELP_HAZARD_NUMBERS)
            printf("    %s may be %s\n", barrier_help_hazard_name(place),
                   barrier_help_hazard_range(place));
    }
    return 0;
}

/* The runs of one side, and what hangs over; 0 if refused. */
static int print_side(const barrier_open_job *job, uint64_t side)
{
    static uint8_t schedule[BARRIER_SCHEDULE_MAX];
    barrier_help_run run;
    const barrier_plan_reply reply = barrier_open_schedule(job, side, schedule, sizeof schedule);
    const char *name = side == BARRIER_RIGHT ? "right" : "left";
    if (reply.number != BARRIER_DONE)
        return said(name, BARRIER_HELP_OPEN_SCHEDULE, reply.number, reply.value);
    barrier_help_walk walk = barrier_help_walk_of(schedule, (size_t)reply.value);
    while (barrier_help_next_run(&walk, &run))
        printf("    %-5s %10s to %10s m  NC-%" PRIu64 "\n", name, metres(run.start),
               metres(run.end), run.level);
    if (reply.before > 0 || reply.after > 0)
        printf("    %-5s tell the neighbouring contract: %s m before the road, %s m after it\n",
               name, metres(reply.before), metres(reply.after));
    return walk.result == BARRIER_HELP_OK;
}

static int print_schedule(const barrier_open_job *job)
{
    return print_side(job, BARRIER_RIGHT) && print_side(job, BARRIER_LEFT);
}

/* ---- The day ---- */

static int survey(barrier_open_job *job)
{
    printf("Morning, along the road\n");
    return open_road(job) && add(job, &headwall) && add(job, &slope) && print_schedule(job) &&
           /* Too near for the barrier to deflect: measured again. */
           !add(job, &pier) && add(job, &pier_again) &&
           /* The offsets the wrong way round: read again. */
           !add(job, &trees) && add(job, &trees_again) && print_schedule(job);
}

/* How far a withdrawal reaches: which sheets the office issues again; 0 if
   refused. */
static int print_reach(const barrier_open_job *job, uint16_t name)
{
    const barrier_reach_reply reply = barrier_open_reach(job, name);
    if (reply.number != BARRIER_DONE)
        return said("reach", BARRIER_HELP_OPEN_REACH, reply.number, reply.value);
    if (reply.end == 0)
        printf("    nobody reaches %u: nothing changes without it\n", (unsigned)name);
    else
        printf("    without %u only the %s side may change, from %s to %s m\n", (unsigned)name,
               reply.side == BARRIER_RIGHT ? "right" : "left", metres(reply.from),
               metres(reply.to));
    return 1;
}

/* The trees 200 m farther on: tried, looked at, and taken back. */
static int try_variant(barrier_open_job *job)
{
    barrier_reply reply;
    printf("Noon, a variant\n");
    reply = barrier_keep(job, 0);
    if (!said("keep 0", BARRIER_HELP_KEEP, reply.number, reply.value))
        return 0;
    if (!print_reach(job, 1031))
        return 0;
    reply = barrier_withdraw(job, 1031);
    if (!said("withdraw 1031", BARRIER_HELP_WITHDRAW, reply.number, reply.value))
        return 0;
    if (!add(job, &moved_trees) || !print_side(job, BARRIER_RIGHT))
        return 0;
    reply = barrier_return(job, 0);
    if (!said("return 0", BARRIER_HELP_RETURN, reply.number, reply.value) ||
        !print_side(job, BARRIER_RIGHT))
        return 0;
    reply = barrier_return(job, 5);
    return !said("return 5", BARRIER_HELP_RETURN, reply.number, reply.value);
}

/* What stands, as a job in bytes: for the calls that take one. */
struct standing {
    barrier_help_header header;
    barrier_hazard hazards[BARRIER_HAZARDS_MAX];
    uint16_t names[BARRIER_HAZARDS_MAX];
    size_t count;
    uint8_t job[BARRIER_JOB_LONGEST];
    size_t job_len;
};

static int read_standing(const barrier_open_job *job, struct standing *now)
{
    if (barrier_help_standing(job, &now->header, now->hazards, now->names, BARRIER_HAZARDS_MAX,
                              &now->count) != BARRIER_HELP_OK)
        return 0;
    now->job_len = barrier_help_write_job(&now->header, now->hazards, now->count, now->job,
                                          sizeof now->job);
    return now->job_len > 0;
}

/* The inspector stands on the verge, and has no schedule. */
static int inspect(const struct standing *now)
{
    static const uint64_t stations[] = {351999, 352000, 639999, 640000};
    printf("Afternoon, the level underfoot on the right\n");
    for (size_t i = 0; i < sizeof stations / sizeof stations[0]; i++) {
        const barrier_reply reply =
            barrier_level(now->job, now->job_len, BARRIER_RIGHT, stations[i]);
        if (reply.number != BARRIER_DONE)
            return said("level", BARRIER_HELP_LEVEL, reply.number, reply.value);
        if (reply.value == 0)
            printf("  %10s m: no barrier\n", metres(stations[i]));
        else
            printf("  %10s m: NC-%" PRIu64 "\n", metres(stations[i]), reply.value);
    }
    return 1;
}

/* How a run is laid from the panels of the yard. */
static int print_panels(barrier_help_run run)
{
    const uint64_t length = run.end - run.start;
    /* A layout has at most 15 panels of each length: for a long run the longest
       ones are laid first, until half of that is left, for which there are many
       layouts. */
    const uint64_t first = length <= YARD_HALF ? 0 : (length - YARD_HALF + yard[1] - 1) / yard[1];
    const barrier_layout_reply reply =
        barrier_layout(yard, YARD_LENGTHS, length - first * yard[1], BARRIER_TRIES_MAX);
    if (reply.number != BARRIER_DONE)
        return said("layout", BARRIER_HELP_LAYOUT, reply.number, reply.value);
    printf("  %s m at NC-%" PRIu64 ": ", metres(length), run.level);
    printf("%" PRIu64 " of 2.500 m, %" PRIu64 " of 4.000 m, %s m over\n", reply.counts[0],
           first + reply.counts[1], metres(reply.overrun));
    return reply.found != 0;
}

/* The millimetres of each level in each lot; 0 if refused. */
static int print_lots(const uint8_t *schedule, size_t schedule_len)
{
    for (uint64_t level = BARRIER_NC_1; level <= BARRIER_NC_6; level++) {
        const barrier_quantities_reply reply =
            barrier_quantities(schedule, schedule_len, level, lots, LOT_NUMBERS);
        if (reply.number != BARRIER_DONE)
            return said("lots", BARRIER_HELP_QUANTITIES, reply.number, reply.value);
        if (reply.quantities[0] + reply.quantities[1] + reply.quantities[2] > 0)
            printf("  NC-%" PRIu64 " %10s %10s %10s m\n", level, metres(reply.quantities[0]),
                   metres(reply.quantities[1]), metres(reply.quantities[2]));
    }
    return 1;
}

/* The right side's quantities and panels. */
static int price(const struct standing *now)
{
    static uint8_t schedule[BARRIER_SCHEDULE_MAX];
    barrier_help_run run;
    const barrier_plan_reply reply =
        barrier_plan(now->job, now->job_len, BARRIER_RIGHT, schedule, sizeof schedule);
    if (reply.number != BARRIER_DONE)
        return said("plan", BARRIER_HELP_PLAN, reply.number, reply.value);
    printf("Evening, the right side by lots: to 500 m, to 1000 m, to 2000 m\n");
    if (!print_lots(schedule, (size_t)reply.value))
        return 0;
    printf("Its panels\n");
    barrier_help_walk walk = barrier_help_walk_of(schedule, (size_t)reply.value);
    while (barrier_help_next_run(&walk, &run))
        if (!print_panels(run))
            return 0;
    return walk.result == BARRIER_HELP_OK;
}

/* A corner is a whole count of millimetres, and may be below 0. */
static void print_corner(const char *name, barrier_corner corner)
{
    char station[BARRIER_HELP_TEXT_MAX], offset[BARRIER_HELP_TEXT_MAX];
    barrier_help_metres_signed((int64_t)corner.station, station, sizeof station);
    barrier_help_metres_signed((int64_t)corner.offset, offset, sizeof offset);
    printf("    %-8s %10s %8s\n", name, station, offset);
}

/* The approaches, to be drawn from the road's begin. */
static int draw(const struct standing *now)
{
    printf("Last, for the drawing: corner points in metres from the road's begin\n");
    for (size_t i = 0; i < now->count; i++) {
        const barrier_corners_reply reply =
            barrier_corners(now->job, now->job_len, i, now->header.begin, 0);
        printf("  %u\n", (unsigned)now->names[i]);
        if (reply.number != BARRIER_DONE)
            return said("corners", BARRIER_HELP_CORNERS, reply.number, reply.value);
        print_corner("upstream", reply.upstream);
        print_corner("flare", reply.flare);
        print_corner("hazard", reply.hazard);
    }
    return 1;
}

/* Everything in turn; 0 where a call does not do what it should. */
static int show(void)
{
    static barrier_open_job job; /* 54 KiB: too much for some stacks */
    static struct standing now;
    if (!barrier_help_version_fits(barrier_version())) {
        printf("the engine that is linked is not one for this header\n");
        return 0;
    }
    return survey(&job) && try_variant(&job) && read_standing(&job, &now) && inspect(&now) &&
           price(&now) && draw(&now);
}

int main(void)
{
    const int shown = show();
    if (fflush(stdout) != 0 || ferror(stdout)) {
        fprintf(stderr, "day: standard output cannot be written\n");
        return 1;
    }
    return shown ? 0 : 1;
}

/*
 * The worked cases of the manual, barrier.h, calculated by the engine.  Prints
 * each on a line, as the manual has it.  Ends with 1 where a call is refused
 * that should not be, or is not refused where it should be.
 */
#include <barrier_help.h>
#include <inttypes.h>
#include <stdio.h>
#include <stdlib.h>

/* The sample job of the manual: one-way, with a flare. */
static const barrier_help_header sample = {
    .end = 1000000, .runout_forward = 101000, .clear_zone = 9000, .straight = 13340,
    .barrier_offset = 3000, .deflection = 1000, .flare_along = 15, .flare_across = 1};
/* The two-way road of docs/figures/envelope.svg, without a flare. */
static const barrier_help_header two_way = {
    .kind = 1, .end = 1000000, .runout_forward = 101000, .runout_opposite = 101000,
    .clear_zone = 9000, .centreline = 3500, .straight = 13340, .barrier_offset = 3000,
    .deflection = 1000, .flare_along = 15};
static const barrier_hazard headwall = {BARRIER_RIGHT, 200000, 210000, 5000, 9000, BARRIER_NC_3};

static uint8_t job[BARRIER_JOB_LONGEST], out[BARRIER_SCHEDULE_MAX];
static size_t job_len, out_len;

static void stop(const char *what)
{
    fprintf(stderr, "manual: %s\n", what);
    exit(1);
}

static barrier_plan_reply plan(const barrier_help_header *header, barrier_hazard hazard)
{
    job_len = barrier_help_write_job(header, &hazard, 1, job, sizeof job);
    return barrier_plan(job, job_len, hazard.side, out, sizeof out);
}

/* The one run of a job's one hazard. */
static barrier_help_run run_of(const barrier_help_header *header, barrier_hazard hazard)
{
    const barrier_plan_reply reply = plan(header, hazard);
    barrier_help_walk walk;
    barrier_help_run run, other;
    if (reply.number != BARRIER_DONE || reply.before != 0 || reply.after != 0)
        stop("a job is not planned on its road");
    out_len = (size_t)reply.value;
    walk = barrier_help_walk_of(out, out_len);
    if (!barrier_help_next_run(&walk, &run) || barrier_help_next_run(&walk, &other))
        stop("a schedule has not one run");
    return run;
}

static barrier_hazard with_side(uint64_t side)
{
    barrier_hazard hazard = headwall;
    hazard.side = side;
    return hazard;
}

static barrier_hazard with_stations(uint64_t start, uint64_t end)
{
    barrier_hazard hazard = headwall;
    hazard.start = start;
    hazard.end = end;
    return hazard;
}

static void bytes(const uint8_t *row, size_t length)
{
    size_t i;
    for (i = 0; i < length; i++)
        printf("%s%02X", i == 0 ? "" : " ", row[i]);
    printf("\n");
}

/* Where traffic drives on the left, the sides are handed over swapped. */
static void driving_side(void)
{
    static const char *const drives[2] = {"on the right", "on the left"};
    static const char *const stands[2] = {"the right", "the left"};
    static const char *const names[2] = {"BARRIER_RIGHT", "BARRIER_LEFT"};
    uint64_t left_hand, side, handed;
    barrier_help_run run, unswapped;
    for (left_hand = 0; left_hand < 2; left_hand++)
        for (handed = 0; handed < 2; handed++) {
            side = handed ^ left_hand;
            run = run_of(&two_way, with_side(handed));
            printf("%s %s %s [%" PRIu64 ", %" PRIu64 ")\n", drives[left_hand], stands[side],
                   names[handed], run.start, run.end);
        }
    run = run_of(&two_way, with_side(BARRIER_RIGHT));
    unswapped = run_of(&two_way, with_side(BARRIER_LEFT));
    printf("begins %" PRIu64 " mm too late\n", unswapped.start - run.start);
    /* One-way, swapping alters no length. */
    run = run_of(&sample, with_side(BARRIER_RIGHT));
    unswapped = run_of(&sample, with_side(BARRIER_LEFT));
    if (run.start != unswapped.start || run.end != unswapped.end)
        stop("one-way, the sides have different runs");
}

/* A carriageway whose traffic travels towards falling stations is turned round. */
static void turned_round(void)
{
    const uint64_t sum = sample.begin + sample.end;
    const uint64_t start = sum - headwall.end, end = sum - headwall.start;
    const barrier_help_run run = run_of(&sample, with_stations(start, end));
    printf("[%" PRIu64 ", %" PRIu64 ") is handed over as [%" PRIu64 ", %" PRIu64
           "), and its run [%" PRIu64 ", %" PRIu64 ") is [%" PRIu64 ", %" PRIu64 ") of the road\n",
           headwall.start, headwall.end, start, end, run.start, run.end, sum - run.end,
           sum - run.start);
}

/* The run of the sample job's hazard with the whole road moved on, moved back. */
static barrier_help_run moved_by(uint64_t by)
{
    barrier_help_header moved = sample;
    barrier_help_run run;
    moved.begin += by;
    moved.end += by;
    run = run_of(&moved, with_stations(headwall.start + by, headwall.end + by));
    run.start -= by;
    run.end -= by;
    return run;
}

/* A road that begins below 0 is moved until it does not, and the run moved back. */
static void below_zero(void)
{
    const int64_t by = 250000;
    const barrier_help_run run = moved_by(0), farther = moved_by(750000);
    if (run.start != farther.start || run.end != farther.end)
        stop("a run depends on how far the road is moved");
    printf("a road from %" PRId64 " on, moved by %" PRId64 ": the hazard [%" PRId64 ", %" PRId64
           ") is handed over as [%" PRIu64 ", %" PRIu64 "), and its run [%" PRIu64 ", %" PRIu64
           ") is [%" PRId64 ", %" PRId64 ") of the road\n",
           -by, by, (int64_t)headwall.start - by, (int64_t)headwall.end - by, headwall.start,
           headwall.end, run.start, run.end, (int64_t)run.start - by, (int64_t)run.end - by);
}

/* A point is one millimetre long; one of no length is refused. */
static void point(void)
{
    const barrier_help_run run = run_of(&sample, with_stations(200000, 200001));
    const barrier_hazard none = with_stations(200000, 200000);
    const barrier_plan_reply reply = plan(&sample, none);
    if (run.end != 200001)
        stop("a point's run does not end with it");
    if (reply.number != BARRIER_HAZARD_RANGE ||
        barrier_help_hazard_fault(sample.begin, sample.end, &none) != 2)
        stop("a hazard without length is not refused 4 for its end");
    printf("e = s + 1\n");
    printf("e = s is refused 4\n");
}

/* Only the first fault is replied; an open job answers for each hazard by itself. */
static void first_fault(void)
{
    static barrier_open_job open;
    barrier_hazard faults[3];
    barrier_plan_reply reply;
    uint16_t i;
    faults[0] = headwall;
    faults[0].near_offset = 3999; /* refused 5 */
    faults[1] = headwall;
    faults[1].level = 7; /* refused 4 */
    faults[2] = headwall;
    faults[2].far_offset = 4999; /* refused 4 */
    job_len = barrier_help_write_job(&sample, faults, 3, job, sizeof job);
    reply = barrier_plan(job, job_len, BARRIER_RIGHT, out, sizeof out);
    if (reply.number != BARRIER_HAZARD_RANGE || reply.value != 1)
        stop("not the first fault, the range of hazard 1");
    job_len = barrier_help_write_job(&sample, NULL, 0, job, sizeof job);
    if (barrier_open(&open, job, job_len).number != BARRIER_DONE)
        stop("the header is not opened");
    for (i = 0; i < 3; i++)
        if (barrier_add(&open, i, faults[i]).number != (i == 0 ? 5 : 4))
            stop("an add does not answer for its hazard");
}

/* A layout of a run, as the manual writes it; how many panels it has. */
static uint64_t print_counts(const barrier_layout_reply *reply, size_t lengths)
{
    uint64_t panels = 0;
    size_t i;
    for (i = 0; i < lengths; i++) {
        printf("%s%" PRIu64, i == 0 ? "(" : ", ", reply->counts[i]);
        panels += reply->counts[i];
    }
    printf(")");
    return panels;
}

/* The order of the lengths: the same overrun, and not as many panels. */
static void ordered(uint64_t run, const uint64_t *lengths, size_t count)
{
    const barrier_layout_reply reply = barrier_layout(lengths, count, run, BARRIER_TRIES_MAX);
    uint64_t panels;
    size_t i;
    if (reply.number != BARRIER_DONE || !reply.found || reply.overrun != reply.floor)
        stop("a run is not laid with the floor's overrun");
    printf("%" PRIu64, run);
    for (i = 0; i < count; i++)
        printf("%s %" PRIu64, i == 0 ? "" : ",", lengths[i]);
    printf(" ");
    panels = print_counts(&reply, count);
    printf(" %" PRIu64 " %" PRIu64 "\n", panels, reply.overrun);
}

/* The table of limits: the layout alters where it says so, and nowhere else. */
static void limits(const uint64_t *lengths, uint64_t run)
{
    barrier_layout_reply before = barrier_layout(lengths, 2, run, 1);
    uint64_t first = 1, limit;
    for (limit = 2; limit <= 257; limit++) {
        const barrier_layout_reply reply = barrier_layout(lengths, 2, run, limit);
        const int same = reply.found == before.found && reply.overrun == before.overrun &&
                         reply.counts[0] == before.counts[0] && reply.counts[1] == before.counts[1];
        if (reply.tries != (limit < 257 ? limit : 256))
            stop("the tries made are not the limit, or all");
        if (same && limit < 257)
            continue;
        printf("%" PRIu64 " to %" PRIu64 " ", first, limit - 1);
        if (before.found) {
            print_counts(&before, 2);
            printf(" %" PRIu64 " the limit\n", before.overrun);
        } else {
            printf("none the limit\n");
        }
        first = limit;
        before = reply;
    }
    printf("257 to 65536 ");
    print_counts(&before, 2);
    printf(" %" PRIu64 " 256\n", before.overrun);
}

/* A run that fifteen of each do not cover: long panels first, then the rest. */
static void long_run(const uint64_t *lengths, uint64_t run, uint64_t first)
{
    const uint64_t rest = run - first * lengths[1];
    const barrier_layout_reply whole = barrier_layout(lengths, 2, run, BARRIER_TRIES_MAX);
    const barrier_layout_reply reply = barrier_layout(lengths, 2, rest, BARRIER_TRIES_MAX);
    if (whole.found || !reply.found || whole.floor != reply.floor)
        stop("a long run is covered, or its rest is not");
    printf("of the run %" PRIu64 " lay %" PRIu64 " panels of %" PRIu64 ", and the rest, %" PRIu64
           ", is ",
           run, first, lengths[1], rest);
    print_counts(&reply, 2);
    printf(", overrun %" PRIu64 "\n", reply.overrun);
}

static void layouts(void)
{
    static const uint64_t two[2] = {2500, 4000}, two_longest[2] = {4000, 2500};
    static const uint64_t four[4] = {1500, 2000, 3000, 4000}, four_longest[4] = {4000, 3000, 2000, 1500};
    limits(two, 54227);
    ordered(54227, two, 2);
    ordered(54227, two_longest, 2);
    ordered(68500, four, 4);
    ordered(68500, four_longest, 4);
    long_run(two, 212000, 41);
}

/* A row of the table of reaches: the hazard and its envelope; its stretch. */
static barrier_reach_reply reach_of(uint64_t start, uint64_t end, uint64_t near_offset,
                                    uint64_t continuity)
{
    barrier_help_header header = sample;
    barrier_hazard hazard = with_stations(start, end);
    barrier_reach_reply reply;
    header.continuity = continuity;
    hazard.near_offset = near_offset;
    job_len = barrier_help_write_job(&header, &hazard, 1, job, sizeof job);
    reply = barrier_reach(job, job_len, 0);
    if (reply.number != BARRIER_DONE || reply.after != 0)
        stop("a reach is not on its road");
    printf("[%" PRIu64 ", %" PRIu64 ") %" PRIu64 " %" PRIu64, start, end, near_offset, continuity);
    if (reply.end == 0)
        printf(" none\n");
    else
        printf(" [%" PRIu64 ", %" PRIu64 ") %" PRIu64 "\n", reply.start, reply.end, reply.before);
    return reply;
}

static void reaches(void)
{
    const barrier_reach_reply rows[3] = {reach_of(200000, 210000, 5000, 0),
                                         reach_of(200000, 210000, 5000, 50000),
                                         reach_of(20000, 30000, 5000, 50000)};
    int i;
    if (reach_of(200000, 210000, 9000, 50000).to != 0)
        stop("a hazard that nobody reaches has a stretch");
    printf("and these stretches, in the same order: ");
    for (i = 0; i < 3; i++)
        printf("[%" PRIu64 ", %" PRIu64 ")%s", rows[i].from, rows[i].to,
               i < 2 ? ", " : " and none\n");
}

/* A run of two hazards begins where its upstream hazard's approach does, and the
   other one's approach begins inside it. */
static void two_hazards(void)
{
    const barrier_hazard both[2] = {with_stations(230000, 240000), headwall};
    barrier_help_header header = sample;
    barrier_corners_reply upstream, inside;
    barrier_help_walk walk;
    barrier_help_run run;
    header.continuity = 50000;
    job_len = barrier_help_write_job(&header, both, 2, job, sizeof job);
    out_len = (size_t)barrier_plan(job, job_len, BARRIER_RIGHT, out, sizeof out).value;
    walk = barrier_help_walk_of(out, out_len);
    upstream = barrier_corners(job, job_len, 1, 0, 0);
    inside = barrier_corners(job, job_len, 0, 0, 0);
    if (!barrier_help_next_run(&walk, &run) || run.end != 240000 ||
        (double)run.start != upstream.upstream.station ||
        (double)run.start >= inside.upstream.station)
        stop("a run of two hazards does not begin with its upstream hazard's approach");
}

/* The offset, in millimetres and a little less, of a vehicle at a station on the
   line along which it would reach a hazard's far edge. */
static uint64_t on_its_way(const barrier_help_header *header, const barrier_hazard *hazard,
                           uint64_t station)
{
    const uint64_t left_road = hazard->start - header->runout_forward;
    return station < left_road
               ? 0
               : hazard->far_offset * (station - left_road) / header->runout_forward;
}

/* The run of a shallow hazard and a deep one farther on: with the flare of the
   first alone a vehicle passes behind the run's end on its way to the second;
   without flares no vehicle passes behind its barrier, which stands along M. */
static void flare_of_two(void)
{
    barrier_hazard both[2] = {headwall, with_stations(227000, 237000)};
    barrier_help_header header = sample;
    barrier_corners_reply corners;
    barrier_help_walk walk;
    barrier_help_run run;
    uint64_t flare;
    both[0].near_offset = both[0].far_offset = 4000;
    for (flare = 0; flare <= 1; flare++) {
        header.flare_across = flare;
        header.continuity = 50000;
        job_len = barrier_help_write_job(&header, both, 2, job, sizeof job);
        out_len = (size_t)barrier_plan(job, job_len, BARRIER_RIGHT, out, sizeof out).value;
        walk = barrier_help_walk_of(out, out_len);
        corners = barrier_corners(job, job_len, 0, 0, 0);
        if (!barrier_help_next_run(&walk, &run) || run.end != both[1].end)
            stop("two hazards are not one run");
        if (flare == 0 && (on_its_way(&header, &both[0], run.start) > header.barrier_offset ||
                           on_its_way(&header, &both[1], run.start) > header.barrier_offset))
            stop("without a flare a vehicle passes behind the run's end");
        if (flare == 1 && ((double)run.start != corners.upstream.station ||
                           (double)on_its_way(&header, &both[1], run.start) <=
                               corners.upstream.offset))
            stop("with a flare no vehicle passes behind the run's end");
    }
}

int main(void)
{
    run_of(&sample, headwall);
    bytes(job, job_len);
    bytes(out, out_len);
    driving_side();
    turned_round();
    below_zero();
    point();
    first_fault();
    layouts();
    reaches();
    two_hazards();
    flare_of_two();
    return 0;
}

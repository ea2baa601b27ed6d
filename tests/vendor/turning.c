/*
 * Turning and swapping: barrier_help.h's helpers give the worked figures of
 * barrier.h, "Sides and traffic", undo themselves, and give what the engine
 * plans for the same road without them.  A one-way carriageway towards falling
 * stations is compared with the left side of a two-way road whose far traffic
 * reaches nothing: its adjacent traffic travels towards falling stations too.
 * Ends with 1 where something is not as stated.
 */
#include <barrier.h>
#include <barrier_help.h>
#include <stdio.h>
#include <string.h>

static int wrong = 0;

static void expect(const char *what, int as_stated)
{
    if (!as_stated) {
        printf("turning: %s\n", what);
        wrong = 1;
    }
}

/* A plain generator, so that each run is the same. */
static uint64_t random_state = 1;
static uint64_t random_below(uint64_t limit)
{
    random_state = random_state * UINT64_C(6364136223846793005) + UINT64_C(1442695040888963407);
    return (random_state >> 33) % limit;
}

/* A side of a job: its runs and its overhangs. */
struct planned {
    barrier_plan_reply reply;
    barrier_help_run runs[BARRIER_RUNS_MAX];
    size_t count;
};

static void plan(const barrier_help_header *header, const barrier_hazard *hazards, size_t count,
                 uint64_t side, struct planned *planned)
{
    static uint8_t job[BARRIER_JOB_LONGEST], out[BARRIER_SCHEDULE_MAX];
    const size_t length = barrier_help_write_job(header, hazards, count, job, sizeof job);
    barrier_help_walk walk;
    planned->reply = barrier_plan(job, length, side, out, sizeof out);
    planned->count = 0;
    if (planned->reply.number != BARRIER_DONE)
        return;
    walk = barrier_help_walk_of(out, (size_t)planned->reply.value);
    while (barrier_help_next_run(&walk, &planned->runs[planned->count]))
        planned->count++;
}

static int same_run(barrier_help_run one, barrier_help_run other)
{
    return one.start == other.start && one.end == other.end && one.level == other.level;
}

static int same_hazard(barrier_hazard one, barrier_hazard other)
{
    return memcmp(&one, &other, sizeof one) == 0;
}

/* ---- The worked figures ---- */

/* barrier.h's table: two-way, where traffic drives on the right and on the left. */
static void test_swapped(void)
{
    static const barrier_help_header road = {0,    0,    1000000, 101000, 101000, 9000, 3500,
                                             3000, 1000, 15,      0,      0,      0,    0};
    static const barrier_help_run beside_right = {132666, 238056, 3}, beside_left = {171944, 277334, 3};
    struct planned planned;
    uint64_t side;
    for (side = BARRIER_RIGHT; side <= BARRIER_LEFT; side++) {
        barrier_hazard hazard = {0, 200000, 210000, 5000, 9000, 3};
        hazard.side = side;
        plan(&road, &hazard, 1, side, &planned);
        expect("the run where traffic drives on the right",
               planned.count == 1 &&
                   same_run(planned.runs[0], side == BARRIER_RIGHT ? beside_right : beside_left));
        hazard.side = barrier_help_swap_side(side);
        plan(&road, &hazard, 1, barrier_help_swap_side(side), &planned);
        expect("the run where traffic drives on the left",
               planned.count == 1 &&
                   same_run(planned.runs[0], side == BARRIER_LEFT ? beside_right : beside_left));
        expect("a side swapped twice", barrier_help_swap_side(barrier_help_swap_side(side)) == side);
    }
    expect("what is no side", barrier_help_swap_side(2) == 2 &&
                                  barrier_help_swap_side(UINT64_MAX) == UINT64_MAX);
}

/* barrier.h's figures: the sample job, towards falling stations. */
static void test_turned(void)
{
    static const barrier_help_header road = {0,    0,    1000000, 101000, 0,     9000, 0,
                                             3000, 1000, 15,      1,      13340, 0,    0};
    static const barrier_hazard hazard = {BARRIER_RIGHT, 200000, 210000, 5000, 9000, 3};
    static const barrier_hazard turned = {BARRIER_LEFT, 790000, 800000, 5000, 9000, 3};
    static const barrier_help_run run = {745773, 800000, 3}, back = {200000, 254227, 3};
    static const barrier_corner corner = {745773.0, 5059.0};
    struct planned planned;
    barrier_plan_reply reply = {0, 8, 1, 2};
    expect("the sample job's hazard, turned",
           same_hazard(barrier_help_turn_hazard(road.begin, road.end, hazard), turned));
    plan(&road, &turned, 1, BARRIER_LEFT, &planned);
    expect("its run", planned.count == 1 && same_run(planned.runs[0], run));
    expect("its run, turned back", same_run(barrier_help_turn_run(0, 1000000, run), back));
    expect("its upstream corner", barrier_help_turn_corner(0, 1000000, corner).station == 254227.0 &&
                                      barrier_help_turn_corner(0, 1000000, corner).offset == 5059.0);
    expect("stations", barrier_help_turn_station(0, 1000000, 0) == 999999 &&
                           barrier_help_turn_station(250, 260, 250) == 259);
    reply = barrier_help_turn_overhangs(reply);
    expect("overhangs", reply.number == 0 && reply.value == 8 && reply.before == 2 &&
                            reply.after == 1);
}

/* ---- Against the engine, without turning ---- */

enum { HAZARDS = 8, ROUNDS = 3000 };

static barrier_hazard random_hazard(const barrier_help_header *road)
{
    barrier_hazard hazard;
    hazard.side = BARRIER_LEFT;
    hazard.start = road->begin + random_below(road->end - road->begin);
    hazard.end = hazard.start + 1 + random_below(road->end - hazard.start);
    if (hazard.end > hazard.start + 30000)
        hazard.end = hazard.start + 1 + random_below(30000);
    hazard.near_offset = road->barrier_offset + road->deflection + random_below(9000);
    hazard.far_offset = hazard.near_offset + random_below(4000);
    hazard.level = 1 + random_below(6);
    return hazard;
}

/* Each corner of the one is that of the other, turned back. */
static int same_corners(const barrier_help_header *turned_road, const barrier_hazard *turned,
                        const barrier_help_header *road, const barrier_hazard *hazards, size_t count)
{
    static uint8_t one[BARRIER_JOB_LONGEST], other[BARRIER_JOB_LONGEST];
    const size_t one_len = barrier_help_write_job(turned_road, turned, count, one, sizeof one);
    const size_t other_len = barrier_help_write_job(road, hazards, count, other, sizeof other);
    size_t i;
    for (i = 0; i < count; i++) {
        const barrier_corners_reply a = barrier_corners(one, one_len, i, 0, 0);
        const barrier_corners_reply b = barrier_corners(other, other_len, i, 0, 0);
        const barrier_corner from[3] = {a.upstream, a.flare, a.hazard};
        const barrier_corner wanted[3] = {b.upstream, b.flare, b.hazard};
        size_t k;
        if (a.number != b.number)
            return 0;
        for (k = 0; k < 3 && a.number == BARRIER_DONE; k++) {
            const barrier_corner got = barrier_help_turn_corner(road->begin, road->end, from[k]);
            if (got.station != wanted[k].station || got.offset != wanted[k].offset)
                return 0;
        }
    }
    return 1;
}

/* The level at a station is that at the turned station of the other side. */
static int same_level(const barrier_help_header *turned_road, const barrier_hazard *turned,
                      const barrier_help_header *road, const barrier_hazard *hazards, size_t count)
{
    static uint8_t one[BARRIER_JOB_LONGEST], other[BARRIER_JOB_LONGEST];
    const size_t one_len = barrier_help_write_job(turned_road, turned, count, one, sizeof one);
    const size_t other_len = barrier_help_write_job(road, hazards, count, other, sizeof other);
    const uint64_t at = road->begin + random_below(road->end - road->begin);
    const barrier_reply wanted = barrier_level(other, other_len, BARRIER_LEFT, at);
    const barrier_reply got =
        barrier_level(one, one_len, barrier_help_swap_side(BARRIER_LEFT),
                      barrier_help_turn_station(road->begin, road->end, at));
    return got.number == BARRIER_DONE && wanted.number == BARRIER_DONE && got.value == wanted.value;
}

static void test_round(void)
{
    static struct planned wanted, got;
    barrier_help_header road = {0, 0, 0, 1, 0, 9000, 9000, 3000, 1000, 15, 1, 13340, 0, 0};
    barrier_help_header turned_road;
    barrier_hazard hazards[HAZARDS], turned[HAZARDS];
    const size_t count = random_below(HAZARDS + 1);
    size_t i;
    road.begin = random_below(2) == 0 ? 0 : random_below(UINT64_C(900000000000));
    road.end = road.begin + 1 + random_below(400000);
    road.runout_opposite = 1 + random_below(200000);
    road.flare_across = random_below(3);
    road.straight = random_below(30000);
    road.continuity = random_below(60000);
    road.panel = random_below(2) * random_below(10000);
    turned_road = road;
    turned_road.runout_forward = road.runout_opposite;
    turned_road.runout_opposite = 0;
    for (i = 0; i < count; i++) {
        hazards[i] = random_hazard(&road);
        turned[i] = barrier_help_turn_hazard(road.begin, road.end, hazards[i]);
        expect("a hazard turned twice",
               same_hazard(barrier_help_turn_hazard(road.begin, road.end, turned[i]), hazards[i]));
    }
    plan(&road, hazards, count, BARRIER_LEFT, &wanted);
    plan(&turned_road, turned, count, barrier_help_swap_side(BARRIER_LEFT), &got);
    got.reply = barrier_help_turn_overhangs(got.reply);
    expect("both are planned", wanted.reply.number == BARRIER_DONE && got.reply.number == BARRIER_DONE);
    expect("as many runs", wanted.count == got.count);
    expect("the overhangs", wanted.reply.before == got.reply.before &&
                                wanted.reply.after == got.reply.after);
    for (i = 0; i < wanted.count && i < got.count; i++)
        expect("a run", same_run(barrier_help_turn_run(road.begin, road.end,
                                                       got.runs[got.count - 1 - i]),
                                 wanted.runs[i]));
    expect("the corners", same_corners(&turned_road, turned, &road, hazards, count));
    expect("the level", same_level(&turned_road, turned, &road, hazards, count));
}

/* Off the road stays off the road, whatever the number: the engine refuses it. */
static void test_outside(void)
{
    static const uint64_t ends[] = {99,  100, 101, 150, 200, 201, 299, 300,
                                    301, UINT64_MAX - 300, UINT64_MAX - 1, UINT64_MAX};
    size_t i;
    for (i = 0; i < sizeof ends / sizeof ends[0]; i++) {
        barrier_hazard hazard = {0, 120, 0, 5000, 9000, 3}, turned;
        hazard.end = ends[i];
        turned = barrier_help_turn_hazard(100, 200, hazard);
        expect("a hazard off the road is off it when turned",
               (barrier_help_hazard_fault(100, 200, &hazard) < BARRIER_HELP_HAZARD_NUMBERS) ==
                   (barrier_help_hazard_fault(100, 200, &turned) < BARRIER_HELP_HAZARD_NUMBERS));
    }
}

int main(void)
{
    int round;
    test_swapped();
    test_turned();
    test_outside();
    for (round = 0; round < ROUNDS; round++)
        test_round();
    return wrong;
}

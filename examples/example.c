/*
 * The calls in turn: plans the sample job of barrier.h, looks up the barrier
 * at some stations, asks for the level at two of them without the schedule,
 * prices it by lots, asks for the corners of its approach and for offsets that
 * keep a gate clear, plans a job whose approach runs into the neighbouring
 * contract and shows two refusals.  It ends with 1 where a call does not do
 * what it should: a schedule that cannot be read must not be priced as one
 * without barriers.
 *
 * It can be copied elsewhere: it only needs the two installed headers and the
 * engine.  first.c is shorter.
 *
 *     cc example.c $(pkg-config --cflags --libs barrier_engine) -o example
 */
#include <inttypes.h>
#include <stdio.h>

#include <barrier.h>
#include <barrier_help.h>

enum { ROAD_END = 1000000 };

/* The sample job: one kilometre of road, millimetres. */
static const barrier_help_header printed_header = {
    1,           /* kind: approaches as long as they come out */
    0, ROAD_END, /* A, B: road begin and end */
    101000, 0,   /* LF, LO: runout lengths, forward; no opposite traffic */
    9000,        /* C: clear-zone width */
    0,           /* W: travelled-way edge to centreline */
    3000,        /* M: barrier offset */
    1000,        /* D: deflection allowance */
    15, 1,       /* a, b: flare, 1 across for 15 along */
    13340,       /* T: straight barrier before the flare */
    0,           /* G: continuity limit */
    0            /* panel length: only of kind 2 */
};

/* Its one hazard: a culvert headwall on the right. */
static const barrier_hazard headwall = {
    BARRIER_RIGHT,
    200000, 210000, /* first and end station */
    5000, 9000,     /* near and far offset */
    BARRIER_NC_3    /* containment level */
};

/* The price of one millimetre of barrier in cents: 120.00 a metre. */
static const uint64_t CENTS_A_MILLIMETRE = 12;

static void print_bytes(const char *name, const uint8_t *bytes, size_t length)
{
    printf("  %s:", name);
    for (size_t i = 0; i < length; i++)
        printf(" %02X", bytes[i]);
    printf("\n");
}

/*
 * A refusal's number and value mean something else for each call, so the words
 * are asked for with the call that replied.
 */
static void print_refusal(const char *what, enum barrier_help_call call, uint64_t number,
                          uint64_t value)
{
    char words[BARRIER_HELP_TEXT_MAX];
    barrier_help_refusal(call, number, value, words, sizeof words);
    printf("  %s: refused %" PRIu64 " with %" PRIu64 ", %s\n", what, number, value, words);
}

/*
 * Plans one side into BARRIER_SCHEDULE_MAX bytes; 0 bytes if refused.  This job
 * has no overhang; a program for any job also looks at before and after.
 */
static size_t plan(const uint8_t *job, size_t job_len, uint64_t side, uint8_t *out)
{
    const barrier_plan_reply reply =
        barrier_plan(job, job_len, side, out, BARRIER_SCHEDULE_MAX);
    if (reply.number != BARRIER_DONE) {
        print_refusal("plan", BARRIER_HELP_PLAN, reply.number, reply.value);
        return 0;
    }
    return (size_t)reply.value;
}

/* What stands on the right side at a station; 0 if refused. */
static int print_station(const uint8_t *right, size_t right_len, uint64_t station)
{
    const barrier_record record =
        barrier_lookup(right, right_len, NULL, 0, BARRIER_RIGHT, station);
    if (record.number != BARRIER_DONE) {
        /* Not the same as "no barrier": these bytes could not be read. */
        print_refusal("lookup", BARRIER_HELP_LOOKUP, record.number, 0);
        return 0;
    }
    if (!record.found) {
        printf("  station %" PRIu64 ": no barrier\n", station);
        return 1;
    }
    /* The record's three numbers: distance from the run before, length, level. */
    uint64_t numbers[3] = {0, 0, 0};
    size_t at = (size_t)record.start;
    for (int i = 0; i < 3; i++)
        if (barrier_help_get_number(right, right_len, &at, &numbers[i]) != BARRIER_HELP_OK)
            return 0;
    printf("  station %" PRIu64 ": bytes [%" PRIu64 ", %" PRIu64 "): ", station, record.start,
           record.end);
    printf("%" PRIu64 " mm free, then %" PRIu64 " mm at NC-%" PRIu64 "\n", numbers[0], numbers[1],
           numbers[2]);
    return 1;
}

static int print_stations(const uint8_t *right, size_t right_len)
{
    static const uint64_t stations[] = {155772, 155773, 209999, 210000};
    printf("Records on the right side\n");
    for (size_t i = 0; i < sizeof stations / sizeof stations[0]; i++)
        if (!print_station(right, right_len, stations[i]))
            return 0;
    return 1;
}

/* The level at a station, from the job only; 0 if refused. */
static int print_level(const uint8_t *job, size_t job_len, uint64_t station)
{
    const barrier_reply reply = barrier_level(job, job_len, BARRIER_RIGHT, station);
    if (reply.number != BARRIER_DONE) {
        print_refusal("level", BARRIER_HELP_LEVEL, reply.number, reply.value);
        return 0;
    }
    if (reply.value == 0)
        printf("  station %" PRIu64 ": no barrier\n", station);
    else
        printf("  station %" PRIu64 ": NC-%" PRIu64 "\n", station, reply.value);
    return 1;
}

/* What an inspector asks who has the job but no schedule. */
static int print_levels(const uint8_t *job, size_t job_len)
{
    printf("Levels on the right side, without its schedule\n");
    return print_level(job, job_len, 155772) && print_level(job, job_len, 155773);
}

static void print_price(const char *what, uint64_t millimetres)
{
    const uint64_t cents = millimetres * CENTS_A_MILLIMETRE;
    printf("  %-19s %6" PRIu64 " mm %6" PRIu64 ".%02" PRIu64 "\n", what, millimetres,
           cents / 100, cents % 100);
}

/* One range, [p, q), and its millimetres of NC-3. */
static void print_range(uint64_t p, uint64_t q, uint64_t millimetres)
{
    char name[64];
    snprintf(name, sizeof name, "[%" PRIu64 ", %" PRIu64 ")", p, q);
    print_price(name, millimetres);
}

/*
 * Two lots that share a boundary, in one call, and their sum.  A range does not
 * have its end station, so nothing is counted in both lots.  Where the call is
 * refused there are no millimetres to add, so there is no sum; 0 then.
 */
static int print_lots(const uint8_t *right, size_t right_len, uint64_t boundary)
{
    const uint64_t lots[4] = {0, boundary, boundary, ROAD_END};
    const barrier_quantities_reply reply =
        barrier_quantities(right, right_len, BARRIER_NC_3, lots, 4);
    if (reply.number != BARRIER_DONE) {
        print_refusal("lots", BARRIER_HELP_QUANTITIES, reply.number, reply.value);
        return 0;
    }
    for (int i = 0; i < 2; i++)
        print_range(lots[2 * i], lots[2 * i + 1], reply.quantities[i]);
    print_price("both lots", reply.quantities[0] + reply.quantities[1]);
    return 1;
}

/* The road in one lot; 0 if refused. */
static int print_road(const uint8_t *right, size_t right_len)
{
    const barrier_reply reply = barrier_quantity(right, right_len, BARRIER_NC_3, 0, ROAD_END);
    if (reply.number != BARRIER_DONE) {
        print_refusal("road", BARRIER_HELP_QUANTITY, reply.number, reply.value);
        return 0;
    }
    print_range(0, ROAD_END, reply.value);
    return 1;
}

static int print_prices(const uint8_t *right, size_t right_len)
{
    printf("NC-3 by lots, the boundary inside the run\n");
    if (!print_lots(right, right_len, 180000) || !print_road(right, right_len))
        return 0;
    printf("NC-3 by lots, the boundary where the run begins\n");
    return print_lots(right, right_len, 155773) && print_road(right, right_len);
}

/* Whole millimetres: nothing after the point is left out. */
static void print_corner(const char *name, barrier_corner corner)
{
    printf("    %-8s (%.0f, %.0f)\n", name, corner.station, corner.offset);
}

/* The headwall's approach, to be drawn on that sheet; 0 if refused. */
static int print_sheet(const uint8_t *job, size_t job_len, uint64_t station, uint64_t offset)
{
    const barrier_corners_reply reply = barrier_corners(job, job_len, 0, station, offset);
    if (reply.number != BARRIER_DONE) {
        print_refusal("corners", BARRIER_HELP_CORNERS, reply.number, reply.value);
        return 0;
    }
    printf("  from sheet corner (%" PRIu64 ", %" PRIu64 ")\n", station, offset);
    print_corner("upstream", reply.upstream);
    print_corner("flare", reply.flare);
    print_corner("hazard", reply.hazard);
    return 1;
}

static int print_corners(const uint8_t *job, size_t job_len)
{
    printf("Corners of the approach\n");
    return print_sheet(job, job_len, 0, 0) && print_sheet(job, job_len, 160000, 4000);
}

/* The offset that keeps the approach that short; 0 if refused. */
static int print_offset(const uint8_t *job, size_t job_len, uint64_t longest)
{
    const barrier_offset_reply reply = barrier_offset(job, job_len, 0, longest);
    if (reply.number != BARRIER_DONE) {
        print_refusal("offset", BARRIER_HELP_OFFSET, reply.number, reply.value);
        return 0;
    }
    /* Offset 0 is an offset: only found says whether there is one. */
    if (reply.found)
        printf("  approach of at most %" PRIu64 " mm: offset %" PRIu64 "\n", longest, reply.value);
    else
        printf("  approach of at most %" PRIu64 " mm: none\n", longest);
    return 1;
}

/* Gates at several distances upstream of the headwall. */
static int print_offsets(const uint8_t *job, size_t job_len)
{
    static const uint64_t gates[] = {70000, 44227, 40000, 37807, 37806};
    printf("Barrier offsets that keep a gate clear\n");
    for (size_t i = 0; i < sizeof gates / sizeof gates[0]; i++)
        if (!print_offset(job, job_len, gates[i]))
            return 0;
    return 1;
}

/*
 * The sample job without flare, and the headwall from 67,333 on, one
 * millimetre nearer to the road's begin than its approach is long.  The
 * schedule begins with the road.  What hangs over stands in the neighbouring
 * contract and is in no quantity of this one, so that office has to be told;
 * 0 if refused.
 */
static int print_overhang(void)
{
    barrier_help_header header = printed_header;
    barrier_hazard hazard = headwall;
    uint8_t job[BARRIER_JOB_LONGEST];
    uint8_t out[BARRIER_SCHEDULE_MAX];
    header.flare_across = 0;
    hazard.start = 67333;
    const size_t job_len = barrier_help_write_job(&header, &hazard, 1, job, sizeof job);
    const barrier_plan_reply reply =
        barrier_plan(job, job_len, BARRIER_RIGHT, out, sizeof out);
    if (reply.number != BARRIER_DONE) {
        print_refusal("plan", BARRIER_HELP_PLAN, reply.number, reply.value);
        return 0;
    }
    printf("An approach that runs into the neighbouring contract\n");
    print_bytes("right schedule", out, (size_t)reply.value);
    printf("  overhang on the right: %" PRIu64 " mm before the road, %" PRIu64 " mm after it\n",
           reply.before, reply.after);
    return 1;
}

/* A plan that has to be refused; 0 if it is done. */
static int print_refused(const char *what, barrier_plan_reply reply)
{
    if (reply.number == BARRIER_DONE) {
        printf("  %s: done, but it should be refused\n", what);
        return 0;
    }
    print_refusal(what, BARRIER_HELP_PLAN, reply.number, reply.value);
    return 1;
}

/* The same job with the headwall one millimetre too near, and a short output. */
static int print_refusals(const uint8_t *job, size_t job_len)
{
    barrier_hazard hazard = headwall;
    uint8_t near_job[BARRIER_JOB_LONGEST];
    uint8_t out[BARRIER_SCHEDULE_MAX];
    hazard.near_offset = 3999;
    const size_t near_len =
        barrier_help_write_job(&printed_header, &hazard, 1, near_job, sizeof near_job);
    printf("Refusals\n");
    return print_refused("near offset 3999",
                         barrier_plan(near_job, near_len, BARRIER_RIGHT, out, sizeof out)) &&
           print_refused("room for 7 bytes", barrier_plan(job, job_len, BARRIER_RIGHT, out, 7));
}

/* Everything in turn; 0 where a call does not do what it should. */
static int show(void)
{
    uint8_t job[BARRIER_JOB_LONGEST];
    uint8_t right[BARRIER_SCHEDULE_MAX];
    uint8_t left[BARRIER_SCHEDULE_MAX];
    const size_t job_len = barrier_help_write_job(&printed_header, &headwall, 1, job, sizeof job);

    const size_t right_len = plan(job, job_len, BARRIER_RIGHT, right);
    if (right_len == 0)
        return 0;
    const size_t left_len = plan(job, job_len, BARRIER_LEFT, left);
    if (left_len == 0)
        return 0;

    printf("The sample job\n");
    print_bytes("job", job, job_len);
    print_bytes("right schedule", right, right_len);
    print_bytes("left schedule", left, left_len);
    return print_stations(right, right_len) && print_levels(job, job_len) &&
           print_prices(right, right_len) && print_corners(job, job_len) &&
           print_offsets(job, job_len) && print_overhang() && print_refusals(job, job_len);
}

int main(void)
{
    const int shown = show();
    if (fflush(stdout) != 0 || ferror(stdout)) {
        fprintf(stderr, "example: standard output cannot be written\n");
        return 1;
    }
    return shown ? 0 : 1;
}

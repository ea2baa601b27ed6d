/*
 * Not the engine: an archive of the same calls, one kind of which is always
 * refused, to see what the examples do then.  REFUSED names the call, so no
 * parameter may have a call's name; with `nothing` no call is refused, not even
 * those that should be.
 */
#include <barrier.h>
#include <string.h>

enum {
    nothing,
    plan,
    level,
    corners,
    offset,
    lookup,
    quantity,
    quantities,
    layout,
    open,
    add,
    withdraw,
    open_schedule,
    keep,
    return_to,
    reach,
    open_reach,
    version
};

/* Overhangs that differ, so that it shows where the two are exchanged. */
barrier_plan_reply barrier_plan(const uint8_t *job, size_t job_len, uint64_t side, uint8_t *out,
                                size_t out_len)
{
    static const uint8_t schedule[8] = {0x01, 0xFD, 0xC0, 0x09, 0xD3, 0xA7, 0x03, 0x03};
    const barrier_plan_reply done = {BARRIER_DONE, sizeof schedule, 2, 3};
    const barrier_plan_reply refused = {BARRIER_JOB_ENDED, job_len, 0, 0};
    (void)job;
    (void)side;
    if (REFUSED == plan)
        return refused;
    if (out_len >= sizeof schedule)
        memcpy(out, schedule, sizeof schedule);
    return done;
}

barrier_reply barrier_level(const uint8_t *job, size_t job_len, uint64_t side, uint64_t station)
{
    const barrier_reply done = {BARRIER_DONE, 0};
    const barrier_reply refused = {BARRIER_JOB_ENDED, job_len};
    (void)job;
    (void)side;
    (void)station;
    return REFUSED == level ? refused : done;
}

/* Six numbers that differ, so that it shows where two are exchanged. */
barrier_corners_reply barrier_corners(const uint8_t *job, size_t job_len, uint64_t hazard,
                                      uint64_t sheet_station, uint64_t sheet_offset)
{
    const barrier_corners_reply done = {BARRIER_DONE, 0, {-1, 2}, {3, -4}, {5, 6}};
    const barrier_corners_reply refused = {BARRIER_NO_APPROACH, 0, {0, 0}, {0, 0}, {0, 0}};
    (void)job;
    (void)job_len;
    (void)hazard;
    (void)sheet_station;
    (void)sheet_offset;
    return REFUSED == corners ? refused : done;
}

/* None for the shortest approach asked for, so that both answers show. */
barrier_offset_reply barrier_offset(const uint8_t *job, size_t job_len, uint64_t hazard,
                                    uint64_t longest)
{
    const barrier_offset_reply done = {BARRIER_DONE, 7, 1};
    const barrier_offset_reply none = {BARRIER_DONE, 0, 0};
    const barrier_offset_reply refused = {BARRIER_NO_APPROACH, 0, 0};
    (void)job;
    (void)job_len;
    (void)hazard;
    if (REFUSED == offset)
        return refused;
    return longest == 37806 ? none : done;
}

barrier_reply barrier_quantity(const uint8_t *schedule, size_t schedule_len, uint64_t priced,
                               uint64_t p, uint64_t q)
{
    const barrier_reply done = {BARRIER_DONE, q - p};
    const barrier_reply refused = {BARRIER_NO_SCHEDULE, 0};
    (void)schedule;
    (void)schedule_len;
    (void)priced;
    return REFUSED == quantity ? refused : done;
}

barrier_quantities_reply barrier_quantities(const uint8_t *schedule, size_t schedule_len,
                                            uint64_t priced, const uint64_t *ranges,
                                            size_t ranges_len)
{
    barrier_quantities_reply done = {BARRIER_DONE, 0, 1, {0}};
    const barrier_quantities_reply refused = {BARRIER_NO_SCHEDULE, 0, 0, {0}};
    size_t i;
    (void)schedule;
    (void)schedule_len;
    (void)priced;
    for (i = 0; 2 * i + 1 < ranges_len; i++)
        done.quantities[i] = ranges[2 * i + 1] - ranges[2 * i];
    return REFUSED == quantities ? refused : done;
}

barrier_record barrier_lookup(const uint8_t *right, size_t right_len, const uint8_t *left,
                              size_t left_len, uint64_t side, uint64_t station)
{
    const barrier_record none = {BARRIER_DONE, 0, 0, 0};
    const barrier_record refused = {BARRIER_NO_SCHEDULE, 0, 0, 0};
    (void)right;
    (void)right_len;
    (void)left;
    (void)left_len;
    (void)side;
    (void)station;
    return REFUSED == lookup ? refused : none;
}

/* None for the least limit asked for, and numbers that differ, as above. */
barrier_layout_reply barrier_layout(const uint64_t *lengths, size_t lengths_len, uint64_t run,
                                    uint64_t limit)
{
    const barrier_layout_reply done = {BARRIER_DONE, 0, 1, 2, {3, 4, 5, 6}, 7, 8};
    const barrier_layout_reply none = {BARRIER_DONE, 0, 0, 0, {0}, 7, 8};
    const barrier_layout_reply refused = {BARRIER_LIMIT, 0, 0, 0, {0}, 0, 0};
    (void)lengths;
    (void)lengths_len;
    (void)run;
    if (REFUSED == layout)
        return refused;
    return limit == 14 ? none : done;
}

barrier_reply barrier_open(barrier_open_job *job, const uint8_t *bytes, size_t bytes_len)
{
    const barrier_reply done = {BARRIER_DONE, 0};
    const barrier_reply refused = {BARRIER_JOB_ENDED, bytes_len};
    (void)job;
    (void)bytes;
    return REFUSED == open ? refused : done;
}

/* The example's third add has to be refused, or the later calls are not made. */
barrier_reply barrier_add(barrier_open_job *job, uint16_t name, barrier_hazard hazard)
{
    static int adds = 0;
    const barrier_reply done = {BARRIER_DONE, 0};
    const barrier_reply refused = {BARRIER_HAZARD_RANGE, name};
    const barrier_reply stands = {BARRIER_NAME, name};
    (void)job;
    (void)hazard;
    adds++;
    if (REFUSED == add)
        return refused;
    return REFUSED != nothing && adds == 3 ? stands : done;
}

barrier_reply barrier_withdraw(barrier_open_job *job, uint16_t name)
{
    const barrier_reply done = {BARRIER_DONE, 0};
    const barrier_reply refused = {BARRIER_NAME, name};
    (void)job;
    return REFUSED == withdraw ? refused : done;
}

barrier_plan_reply barrier_open_schedule(const barrier_open_job *job, uint64_t side, uint8_t *out,
                                         size_t out_len)
{
    const barrier_plan_reply done = {BARRIER_DONE, 1, 4, 5};
    const barrier_plan_reply refused = {BARRIER_HEADER_RANGE, 0, 0, 0};
    (void)job;
    (void)side;
    if (REFUSED == open_schedule)
        return refused;
    if (out_len > 0)
        out[0] = 0;
    return done;
}

barrier_reply barrier_keep(barrier_open_job *job, uint64_t state)
{
    const barrier_reply done = {BARRIER_DONE, 0};
    const barrier_reply refused = {BARRIER_STATE, 0};
    (void)job;
    (void)state;
    return REFUSED == keep ? refused : done;
}

barrier_reply barrier_return(barrier_open_job *job, uint64_t state)
{
    const barrier_reply done = {BARRIER_DONE, 0};
    const barrier_reply refused = {BARRIER_STATE, 0};
    (void)job;
    (void)state;
    return REFUSED == return_to ? refused : done;
}

/* Numbers that differ, so that it shows where two are exchanged. */
barrier_reach_reply barrier_reach(const uint8_t *job, size_t job_len, uint64_t hazard)
{
    const barrier_reach_reply done = {BARRIER_DONE, 0, 1, 2, 3, 4, 5, 6, 7};
    const barrier_reach_reply refused = {BARRIER_NO_APPROACH, 0, 0, 0, 0, 0, 0, 0, 0};
    (void)job;
    (void)job_len;
    (void)hazard;
    return REFUSED == reach ? refused : done;
}

barrier_reach_reply barrier_open_reach(const barrier_open_job *job, uint16_t name)
{
    const barrier_reach_reply done = {BARRIER_DONE, 0, 1, 2, 3, 4, 5, 6, 7};
    const barrier_reach_reply refused = {BARRIER_NAME, name, 0, 0, 0, 0, 0, 0, 0};
    (void)job;
    return REFUSED == open_reach ? refused : done;
}

/* An engine that is not one for this header. */
uint32_t barrier_version(void)
{
    return REFUSED == version ? 2000000
                              : BARRIER_VERSION_MAJOR * UINT32_C(1000000) +
                                    BARRIER_VERSION_MINOR * UINT32_C(1000) + BARRIER_VERSION_PATCH;
}

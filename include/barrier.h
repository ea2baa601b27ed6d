/*
 * barrier.h - the barrier schedule engine
 *
 * A job goes in: one straight road and its roadside hazards.  A schedule comes
 * out: the runs of safety barrier along one side of the road, each with its
 * containment level.  There are seventeen calls:
 *
 *     barrier_plan           writes the schedule of one side of a job
 *     barrier_level          gives the level that a job requires at a station
 *     barrier_corners        gives the corner points of an approach to draw
 *     barrier_offset         gives the smallest barrier offset that keeps an
 *                            approach clear of a gate
 *     barrier_reach          gives a hazard's envelope, and how far its
 *                            withdrawal reaches
 *     barrier_quantity       counts the millimetres of one level in a range
 *     barrier_quantities     the same for all lots of a contract, in one walk
 *     barrier_lookup         finds the record of the run at a station
 *     barrier_layout         lays one run from the panel lengths of a yard
 *     barrier_open           opens a job whose hazards come and go
 *     barrier_add            adds a hazard to an open job
 *     barrier_withdraw       withdraws a hazard from an open job
 *     barrier_open_schedule  writes the schedule of one side of an open job
 *     barrier_open_reach     gives the reach of a hazard that stands there
 *     barrier_keep           keeps the state of an open job under a number
 *     barrier_return         returns an open job to a state that is kept
 *     barrier_version        gives the version of the engine that is linked
 *
 * This file is the manual.  barrier_help.h, beside it, has what a program
 * writes around the calls: jobs to bytes and back, schedules run by run,
 * refusals in words, metres.  examples/first.c is a first program,
 * examples/day.c is a controller's day; examples/README.md lists the others,
 * also those in Rust and Python.  Paths are those of the repository.
 *
 * CONTENTS
 *
 *     Stations and ranges          Open jobs
 *     Sides and traffic            Refusals, and what can be done
 *     The number form              Memory
 *     The job                      Threads
 *     What is planned              Platform and linking
 *     Overhangs                    Versions
 *     The schedule                 What has to be believed
 *     Corner points                Constants
 *     Panels for one run           The calls
 *
 * No refusal warns of these three things: where traffic drives on the left the
 * sides are handed over swapped ("Sides and traffic"); a curve is planned as if
 * it were straight ("The job"); barrier that has to stand beyond the ends of
 * the road is in no schedule ("Overhangs").
 *
 * ---------------------------------------------------------------------------
 * STATIONS AND RANGES
 *
 * Lengths, offsets and stations are whole millimetres.  The engine rounds
 * nothing that it is given.  Where a reading is finer than that, round a hazard
 * outwards: first station and near offset down, end station and far offset up,
 * so that the hazard that is planned is never smaller than the one that was
 * measured.  barrier_help_mm_of_text_down and barrier_help_mm_of_text_up do it.
 *
 * Station t names the millimetre from t to t + 1.  A range [s, e) has the
 * millimetres s to e - 1: its end station is not in it.  So two lots that share
 * a boundary have no millimetre in common, and a run that begins on the
 * boundary is only in the second lot.
 *
 * Stations may be counted from a datum far away: a road can end at station
 * 1000000000000, a million kilometres from it.  So a station takes 64 bits.
 *
 * No station of a job is below 0.  Where a road has stations below 0, add the
 * same number to all stations of the job and subtract it from those that come
 * back; lengths, offsets, overhangs and quantities stay as they are.
 *
 *     a road from -250000 on, moved by 250000: the hazard [-50000, -40000) is
 *     handed over as [200000, 210000), and its run [155773, 210000) is
 *     [-94227, -40000) of the road
 *
 * ---------------------------------------------------------------------------
 * SIDES AND TRAFFIC
 *
 * Forward traffic travels towards rising stations, opposite traffic towards
 * falling ones.  Right and left are as seen by a person who looks towards
 * rising stations.  For each side, the traffic that drives beside it is
 * adjacent to it, and the other one is the far traffic:
 *
 *     side             adjacent    far
 *     BARRIER_RIGHT    forward     opposite
 *     BARRIER_LEFT     opposite    forward
 *
 * That is so where traffic drives on the right.  WHERE IT DRIVES ON THE LEFT,
 * SWAP THE SIDES: hand over a hazard on the left as BARRIER_RIGHT and one on
 * the right as BARRIER_LEFT, and ask for the sides in the same way: the
 * schedule of BARRIER_RIGHT is then that of the left side.  LF and LO stay as
 * they are.  barrier_help_swap_side does it.
 *
 *     A two-way road, LF and LO 101000, C 9000, W 3500, M 3000, D 1000, no
 *     flare, and one hazard [200000, 210000), n 5000, f 9000:
 *
 *     traffic drives   hazard on    hand over        run
 *     on the right     the right    BARRIER_RIGHT    [132666, 238056)
 *     on the right     the left     BARRIER_LEFT     [171944, 277334)
 *     on the left      the left     BARRIER_RIGHT    [132666, 238056)
 *     on the left      the right    BARRIER_LEFT     [171944, 277334)
 *
 * If its sides are not swapped, the third of these gets the run of the fourth:
 * its barrier begins 39278 mm too late, and nothing shows it.
 *
 * With LO = 0 the road is one-way, or one carriageway of a separated road.
 * Forward traffic is then adjacent to both sides and there is no far traffic,
 * so swapping changes no length.  But forward traffic still travels towards
 * rising stations.  A CARRIAGEWAY WHOSE TRAFFIC TRAVELS TOWARDS FALLING
 * STATIONS IS TURNED ROUND BY THE CALLER: a hazard or a range [s, e) is handed
 * over as [A + B - e, A + B - s), a station t that is asked for as
 * A + B - 1 - t, and left and right are exchanged.  Runs, envelopes and the
 * stretch of a withdrawal are turned back in the same way as ranges, a corner's
 * station x is A + B - x, and the overhangs before and after change places.
 * barrier_help_turn_hazard, _run, _station, _corner and _overhangs do it.
 *
 *     The sample job's hazard [200000, 210000) is handed over as
 *     [790000, 800000), and its run [745773, 800000) is [200000, 254227) of the
 *     road
 *
 * ---------------------------------------------------------------------------
 * THE NUMBER FORM
 *
 * Jobs and schedules are rows of numbers.  A number is cut into groups of
 * seven bits, lowest group first, one group a byte; the top bit is set on all
 * but the last byte.  Only the shortest form is a number: as many groups as
 * the bits of the value need, and 0 takes one.  A number has at most six bytes,
 * which hold values up to 4398046511103.
 *
 *     0       00            155773          FD C0 09
 *     127     7F            999000155773    FD CC B2 C8 89 1D
 *     128     80 01         4398046511103   FF FF FF FF FF 7F
 *
 * ---------------------------------------------------------------------------
 * THE JOB
 *
 * A job is of kind 1, or of kind 2 if its approaches are to have whole panels.
 * The header begins with thirteen numbers, whatever the kind:
 *
 *     no.  letter  meaning                                  range
 *      1           kind                                     1 to 2
 *      2     A     road begin                               0 to 999999999999
 *      3     B     road end,                                A + 1 to
 *                  B - A at most 2000000000                 1000000000000
 *      4     LF    runout length of forward traffic         1 to 200000
 *      5     LO    runout length of opposite traffic;
 *                  0 means one-way or separated             0 to 200000
 *      6     C     clear-zone width, from the travelled-
 *                  way edge; for far traffic from the
 *                  centreline                               1 to 30000
 *      7     W     travelled-way edge to centreline;
 *                  not used where LO is 0                   0 to 20000
 *      8     M     barrier offset from that edge            0 to 20000
 *      9     D     deflection allowance                     1 to 5000
 *     10     a     flare: b across for a along; here a      1 to 100
 *     11     b     flare, b; 0 means no flare               0 to 10
 *     12     T     straight barrier before the flare,
 *                  measured upstream from the hazard        0 to 100000
 *     13     G     continuity limit                         0 to 200000
 *
 * and ends, for kind 1, with
 *
 *     14     h     hazard count                             0 to 256
 *
 * and for kind 2 with
 *
 *     14           panel length                             1 to 10000
 *     15     h     hazard count                             0 to 256
 *
 * Then six numbers for each of the h hazards:
 *
 *          letter  meaning                                  range
 *                  side: 0 right, 1 left                    0 to 1
 *            s     first station                            A to B - 1
 *            e     end station                              s + 1 to B
 *            n     near offset, from the travelled-way
 *                  edge on the hazard's side                0 to 60000
 *            f     far offset, from the same edge           n to 60000
 *                  containment level, NC-1 to NC-6          1 to 6
 *
 * and nothing after them.  The hazards may be in any order.
 *
 * The sample job of this manual, which examples/first.c plans, is a one-way
 * road of 1 km with one hazard, a culvert headwall:
 *
 *     1 0 1000000 101000 0 9000 0 3000 1000 15 1 13340 0 1
 *     0 200000 210000 5000 9000 3
 *
 *     01 00 C0 84 3D 88 95 06 00 A8 46 00 B8 17 E8 07 0F 01 9C 68 00 01
 *     00 C0 9A 0C D0 E8 0C 88 27 A8 46 03
 *
 *   - The runout length is the distance that a vehicle which leaves the road
 *     goes along it before it comes to rest.  Runout lengths, clear-zone widths
 *     and flares are in the tables of road norms, by speed and traffic; the
 *     engine has no such table and does not choose a level.
 *   - NC-1 to NC-6 are the containment levels of the Mexican draft norm
 *     PROY-NOM-037-SICT2-2025, 5.1.1 and Table 2.  The engine uses only the
 *     number of a level, and takes the greater number for the stronger barrier.
 *     Levels of another norm are handed over as 1 to 6 in rising strength.
 *   - M and D are those of the one barrier type that the job is planned with,
 *     on both sides and at every level.  For a barrier of another type, or at
 *     another offset, plan another job: schedules of two jobs are not joined,
 *     and no gap between them is closed.
 *   - A point (a tree or a pole) is a hazard of one millimetre: e = s + 1 (a
 *     hazard with e = s is refused 4).  Its near and far offset may be equal.
 *   - A gap of exactly G stays open.  Where a norm joins barriers that are
 *     80 m apart or less, G is 80001; where it joins those that are less than
 *     50 m apart, G is 50000.
 *   - The road is straight.  Curves are outside the engine: it is not told of
 *     them, so it refuses none, and its reply for a curve is wrong where the
 *     norm has another construction for curves.  The norm named above has one
 *     for radii of 900 m and less (5.4.4.2).
 *   - Runs are only the length of need.  Terminals, transitions between
 *     barriers and the least length of a barrier system are not in them.
 *
 * ---------------------------------------------------------------------------
 * WHAT IS PLANNED
 *
 * Forward traffic approaches a hazard from lower stations, opposite traffic
 * from higher ones ("Sides and traffic").
 *
 *     traffic     reaches the hazard if   reach R               offset m
 *     adjacent    n < C                   lesser of f and C     M
 *     far         n + W < C               lesser of f + W, C    M + W
 *
 * For each traffic that reaches the hazard, with its runout length L, the
 * approach length is
 *
 *     L * (a * R + b * T - a * m) / (b * L + a * R)
 *
 * rounded up to the next whole millimetre if not whole.  Where the length with
 * b = 0 is at most T, the barrier ends in its straight part, before the flare
 * begins, and that length is the approach length: this is tested for each
 * traffic with its own L, R and m.  So the approach length is at most the
 * runout length.  docs/figures/flare.svg shows where all of these are.
 *
 *     L 101000, R 9000, m 3000, flare 1 across for 15 along:
 *     without flare 67334; with T = 13340 the barrier flares, length 44227;
 *     with T = 67334 or more it does not, length 67334
 *
 * Last, each approach length is raised to the least multiple of the panel
 * length that is not smaller, for each traffic separately.  It can then be
 * above the runout length, by less than a panel.  Kind 1 acts as panel length
 * 1, which raises nothing.
 *
 *     panel length 4000: 44227 is raised to 48000, twelve panels, and 67334 to
 *     68000, seventeen; 44000 is eleven panels and stays
 *
 * The envelope of a reached hazard is [s, e), lengthened by each approach
 * length, as raised, at the end that this traffic approaches.  A hazard that
 * nobody reaches has no envelope.
 *
 *     [200000, 210000) approached from lower stations: with 44227 the envelope
 *     is [155773, 210000), with 48000 it is [152000, 210000)
 *
 * An envelope that begins before A or ends after B is cut there: what is left
 * of it is on the road [A, B), and what is cut off is its overhang
 * ("Overhangs").
 *
 * For each side and level v, take the millimetres in envelopes of level v or
 * higher, after cutting, and add every gap between them that is shorter than G.
 * The required level of a millimetre is the highest v whose set, gaps added,
 * has it, else 0; outside the road it is 0.  A run is a longest stretch of one
 * required level above 0.
 *
 * ---------------------------------------------------------------------------
 * OVERHANGS
 *
 * Roads are contracted in sections.  The approach to a hazard near the boundary
 * can run into the neighbouring contract, and the job is still planned.  Its
 * schedule is that of this road: no run begins before A or ends after B.  The
 * reply also says how far the envelopes of the asked side hang over, separately
 * for each end of the road (barrier_plan_reply):
 *
 *     before    A minus the start of the envelope that begins first, where that
 *               is before A; else 0
 *     after     the end of the envelope that ends last, minus B, where that is
 *               after B; else 0
 *
 * These are the envelopes as raised to whole panels, and before they are cut.
 * So each is the greatest overhang among the reached hazards of that side, in
 * millimetres; the two may belong to different hazards.  A hazard that nobody
 * reaches has no envelope and does not count.  No overhang is above 209979: the
 * greatest runout length, 200000, in panels of 9999.
 *
 *     The sample job without flare (b 0) has the approach length 67334.  With
 *     its hazard [67333, 210000), the envelope begins 1 mm before the road:
 *     run [0, 210000), before 1, after 0.
 *     With the hazard from 67334 on: the same run, before 0, after 0.
 *
 * An overhang is not a refusal, and the schedule is complete for this road.
 * The hazard is not protected, though, until barrier stands along the overhang
 * too: from A - before to A, or from B to B + after.  (A - before may be below
 * 0: calculate it in signed numbers.)  That stretch belongs to the neighbouring
 * contract.  Nothing of it is in the schedule, nor in any quantity or price
 * taken from the schedule, so tell the neighbour's office: which side, which
 * end of the road, how many millimetres.  The level there is that of the
 * hazards whose envelopes hang over; the reply does not have it.
 *
 * ---------------------------------------------------------------------------
 * THE SCHEDULE
 *
 * A schedule is the run count, 0 to 511; then for each run, with rising
 * stations, the three numbers of its record:
 *
 *     distance    the run's start minus the end of the run before it
 *                 (minus 0 for the first run)
 *     length      in millimetres, 1 or more
 *     level       1 to 6
 *
 *     The sample job's right side, one run [155773, 210000) at NC-3:
 *     01 FD C0 09 D3 A7 03 03
 *
 * barrier_help_next_run walks over a schedule and gives start, end and level of
 * each run.  A side without runs has the schedule 00, one byte.  Two runs may
 * touch (distance 0) where their levels differ.  No run ends above
 * 1000000000000.  Two jobs that require the same levels on a side have equal
 * schedules for that side, byte for byte; so schedules can be compared with
 * memcmp.  Their overhangs may differ: nothing outside the road is in a
 * schedule.
 *
 * ---------------------------------------------------------------------------
 * CORNER POINTS
 *
 * A draughting package draws the approach to a hazard through three corners,
 * which barrier_corners gives as 64-bit floats:
 *
 *     corner      what it is                station           offset
 *     upstream    the approach's end, which
 *                 traffic comes to first    s - l or e + l    M and the flare
 *     flare       where the flare begins    s - T or e + T    M
 *     hazard      the hazard's end on the
 *                 side of the approach      s or e            M
 *
 * THESE ARE THE CORNERS OF ONE HAZARD AS IF IT STOOD ALONE, and the schedule is
 * what is built.  A run of several hazards is not drawn through the corners of
 * each: it stands along M from its start to its end, and approaches that begin
 * inside it are not built.  It bends only at an end that touches no other run
 * and is the upstream end of an approach: there it is drawn through the
 * upstream and the flare corner of that hazard, which is the run's upstream
 * one.
 *
 * With a flare (b above 0) look at such a run before it is built.  The approach
 * length of each of its hazards is worked out with a flare of its own, and only
 * one of these is there: a vehicle on its way to a hazard farther on may pass
 * behind the run's end, or another hazard may be in the way of the flare.  No
 * call tests that.  Planned without a flare (b 0), each approach is worked out
 * along M, and a run along M shields all of its hazards.
 *
 * The corners are only those of the adjacent traffic's approach; there are none
 * of the far traffic's.  Forward traffic comes from lower stations and has the
 * first of the two stations in each row; opposite traffic comes from higher
 * ones and has the second.  l is the approach length, as raised to whole
 * panels.  The flare takes the upstream end away from the road, to the offset
 *
 *     M + b * (l - T) / a, rounded down
 *
 * where it is entered, that is, where b is above 0 and the approach length is
 * above T before it is raised.  Otherwise the barrier does not bend: the
 * upstream end is at offset M, and the flare's corner is the same as the
 * upstream one.
 *
 *     The sample job: length 44227, above T = 13340 (docs/figures/flare.svg).
 *
 *         offset
 *          5059   upstream
 *                          . .
 *                              . .
 *          3000                    flare . . . . . . . . hazard
 *
 *                 155773           186660                200000   station
 *
 *     3000 + 1 * (44227 - 13340) / 15 is 5059.1, down to 5059.
 *
 * The corners are counted from a sheet corner, a station and an offset that you
 * give, which are subtracted.  The subtraction is done in floats and loses
 * nothing: each of the six numbers is exactly a whole count of millimetres, and
 * no zero is negative.  (That is in the rounding mode that C starts with, to
 * nearest.  A program that has set another mode gets the same numbers, but a
 * zero is -0.0 where that mode rounds downward.)  Corners are not cut at A and
 * B: where an approach hangs over, they show how far.  So a station may be
 * negative, and so may an offset.
 *
 *     sheet corner      upstream          flare             hazard
 *     (0, 0)            (155773, 5059)    (186660, 3000)    (200000, 3000)
 *     (160000, 4000)    (-4227, 1059)     (26660, -1000)    (40000, -1000)
 *
 * Offsets are measured from the travelled-way edge of the hazard's own side and
 * grow away from the road, on the left side as on the right: the drawing has to
 * turn one side over, as examples/corners.c does.
 *
 * ---------------------------------------------------------------------------
 * PANELS FOR ONE RUN
 *
 * A yard stocks panels of up to four lengths, each 1 to 20000, and a run of
 * barrier is to be laid from them.  Only the length of the run is given: where
 * it stands, its level and the panel length of its job play no part.  A length
 * of 0 is allowed, and no length is too great.
 *
 * A layout is a count from 0 to 15 of each length.  It covers the run if its
 * panels together are at least as long; how much longer they are is its
 * overrun.  One length has 16 layouts, two have 256, three 4096, four 65536.
 *
 * barrier_layout tries them in rising order of their counts, the last length's
 * count changing fastest, for two lengths
 *
 *     (0, 0), (0, 1) and so on to (0, 15), then (1, 0), (1, 1) and so on
 *
 * and makes as many tries as its limit allows, or as there are layouts where
 * these are fewer.  It does not stop earlier, at one that fits.  The reply has
 * the smallest overrun among those tried, the first layout with this overrun,
 * the tries made, and the floor.
 *
 * The floor is the distance from the run's length up to the least multiple, not
 * below it, of the lengths' greatest common divisor.  No covering layout, tried
 * or not, overruns by less.  So where the overrun is the floor, more tries are
 * of no use.  But it may be that no layout reaches the floor.
 *
 *     Lengths 2500 and 4000, run 54227, that of the sample job: the divisor
 *     is 500, its multiple 54500, the floor 273.
 *
 *     limit           layout     overrun    tries
 *     1 to 14         none                  the limit
 *     15 to 29        (0, 14)    1773       the limit
 *     30 to 256       (1, 13)    273        the limit
 *     257 to 65536    (1, 13)    273        256
 *
 * PUT THE SHORTEST LENGTH FIRST.  Among layouts with the same overrun the first
 * is replied, in which the first length's count is the smallest; so putting the
 * longest length first gives many short panels.
 *
 *     run      lengths                     layout            panels   overrun
 *     54227    2500, 4000                  (1, 13)           14       273
 *     54227    4000, 2500                  (8, 9)            17       273
 *     68500    1500, 2000, 3000, 4000      (1, 0, 5, 13)     19       0
 *     68500    4000, 3000, 2000, 1500      (0, 6, 14, 15)    35       0
 *
 * FOR A LONG RUN, which 15 panels of each length do not cover or only just
 * cover, lay panels of the longest length first, until about half of what 15 of
 * each cover is left, and ask for the layout of that rest.  The overrun of the
 * rest is that of the run, and the floor is the same: where the overrun is the
 * floor, no layout of the whole run has a smaller one.
 *
 *     Lengths 2500 and 4000 cover 97500: of the run 212000 lay 41 panels of
 *     4000, and the rest, 48000, is (0, 12), overrun 0
 *
 *     Lengths 4000 and 6000, run 1000: the floor is 1000, but the least overrun
 *     is 3000, with one panel of 4000.
 *
 * More tries never give a greater overrun, and as many tries as there are
 * layouts give the least that there is.  The reply is none exactly if no layout
 * that was tried covers the run; it still has the tries and the floor.
 *
 * ---------------------------------------------------------------------------
 * OPEN JOBS
 *
 * A controller meets the hazards one by one, as the rod reaches them.  For this
 * a job can stay open: a header, and up to 256 hazards that come and go, each
 * under a name from 0 to 65535, for example the number of its drawing.
 *
 *     barrier_open_job job;                         55544 bytes
 *     barrier_open(&job, bytes, bytes_len);         a header, no hazard
 *     barrier_add(&job, 7, headwall);               it stands under 7
 *     barrier_add(&job, 1020, tree);
 *     barrier_withdraw(&job, 7);                    7 is free again
 *     barrier_open_schedule(&job, BARRIER_RIGHT, out, out_len);
 *
 * (look at the reply of each call).  Opening takes the bytes of a job, of
 * either kind, with hazard count 0.  After any list of calls, the schedule is,
 * byte for byte, the one that barrier_plan writes for a job of the same header
 * and the hazards added and not withdrawn since, in any order, and the
 * overhangs are those of that job.  After a return, the hazards that stood when
 * its state was last kept count as added and not withdrawn.
 *
 *   - One hazard stands under a name.  A withdrawn name can be added again,
 *     with the same hazard or another.  One hazard may stand under two names.
 *   - A hazard is tested when it is added, so that what stands is always an
 *     accepted job.
 *   - At most 256 hazards stand together.  When 256 stand, an add under a name
 *     that does not stand is refused 15, whatever its hazard is.  Room left by
 *     a withdrawal is used again, under any name.
 *   - A refused call changes nothing, neither the open job nor the output.
 *   - Opening memory that already has an open job starts a new one.
 *   - barrier_help_standing gives what stands, with its names; written with
 *     barrier_help_write_job it is the job for barrier_level, barrier_corners
 *     and barrier_offset.
 *
 * A hazard that is withdrawn, or left out of a job, changes levels only near
 * it: on its own side, from G millimetres before its envelope to G millimetres
 * after it.  The envelope is taken with its approaches in whole panels and cut
 * at the ends of the road, and so is the stretch.  barrier_open_reach gives
 * both for a hazard that stands, barrier_reach for one of a job: ask before the
 * withdrawal.  At every other millimetre the level is as before, so a sheet
 * without a millimetre of that stretch shows the same barrier and need not be
 * issued again.  The overhangs of that side may change, and so may the records
 * of runs that are partly in the stretch.  On the other side, and on both where
 * nobody reaches the hazard, schedule and overhangs stay the same, byte for
 * byte.
 *
 * A designer tries a variant and returns.  For this, up to eight states of an
 * open job can be kept in it, under the numbers 0 to 7: what stands, with its
 * names.
 *
 *     barrier_keep(&job, 0);                        what stands now
 *     barrier_withdraw(&job, 1020);                 a variant
 *     barrier_return(&job, 0);                      1020 stands as it did
 *
 *   - After a return, what stands is what stood when that state was last kept,
 *     whatever was added and withdrawn since.
 *   - Keeping under a used number replaces what was kept there.
 *   - A return leaves every kept state as it is, also its own.
 *   - An open job without hazards can be kept.
 *   - Opening empties all eight.
 *
 * An open job is in your own memory, a barrier_open_job.  It has only unsigned
 * integers, no padding and no pointer: it may be copied, moved and compared
 * with memcmp.  Two open jobs are equal, byte for byte, exactly if their
 * headers are equal, the same hazards stand under the same names, and the same
 * states are kept under the same numbers, however they came there.
 *
 * The memory may hold anything when a call gets it.  barrier_open does not
 * look at what it held.  Every other call tests all of it first, and refuses
 * it with 3 and 0 where it is not an open job: a header number outside its
 * range, a panel length other than 1 in kind 1, more than 256 hazards, a name
 * twice or out of order, a hazard that an add would refuse with 4 or 5, or
 * anything but 0 in a place where no hazard stands.  The names and hazards of
 * kept states follow the same rules, and where nothing is kept, all is 0.  So
 * memory that was never opened, or was written over since, is refused; or it
 * happens to be what some calls would have left, and is taken for that.
 *
 * ---------------------------------------------------------------------------
 * REFUSALS, AND WHAT CAN BE DONE
 *
 * A call is done (number 0) or refused.  A refusal has a number and a value:
 *
 *     number  value                     when
 *      1      byte index where the      the job's bytes end before or inside a
 *             number begins             number
 *      2      byte index where the      a number's sixth byte has the top bit
 *             number begins             set, or it is not in shortest form
 *      3      header number, 1 to 14,   header number outside its range; when
 *             for kind 2 to 15          opening, also a hazard count above 0
 *             0                         the memory is not an open job
 *      4      hazard index from 0, or   hazard field outside its range
 *             the name (add)
 *      5      the same                  reached hazard with n < M + D: the
 *                                       barrier has no room to deflect
 *      6                                no longer given, and not used again;
 *                                       what it was for is an overhang now
 *      7      index of the first        bytes after the last hazard
 *             byte left over
 *      8      0                         side above 1, level not 1 to 6, p > q
 *                                       in any range, a p without its q, or a
 *                                       sheet corner's number above
 *                                       1000000000000
 *      9      bytes needed              the output is shorter than that
 *     10      0                         the bytes are not a schedule, that is,
 *                                       not the writing of a run list
 *     11      0                         more than 64 ranges
 *     12      the name                  it stands already (add), or does not
 *                                       stand (withdraw, reach)
 *     13      0                         state number above 7; to return, also
 *                                       one under which nothing is kept
 *     14      0                         the job has no such hazard; for corners
 *                                       and offset also one that adjacent
 *                                       traffic does not reach
 *     15      0                         256 hazards stand already (add)
 *     16      0                         no panel length, more than four, or one
 *                                       that is not 1 to 20000
 *     17      0                         a limit that is not 1 to 65536 tries
 *
 * The first that holds is returned, in this order:
 *
 *     barrier_plan           8; then the job's numbers as they stand, each for
 *                            1, for 2 and for its range (3 or 4) before the
 *                            next is read; then 7; then the hazards by index,
 *                            those of both sides, each for 5; then 9
 *     barrier_level          as barrier_plan, without 9
 *     barrier_corners        8, of the sheet corner; then as barrier_plan from
 *                            the job's numbers on, without 9; then 14
 *     barrier_offset         as barrier_plan from the job's numbers on, without
 *                            9; then 14
 *     barrier_reach          the same
 *     barrier_quantity       8, then 10
 *     barrier_quantities     8, then 11, then 10
 *     barrier_lookup         8, then 10, of the asked side's schedule
 *     barrier_layout         16, then 17
 *     barrier_open           the header's numbers as barrier_plan reads them,
 *                            but the hazard count's range is only 0; then 7
 *     barrier_add            3 with 0, then 12, then 15, then the hazard for 4
 *                            and for 5
 *     barrier_withdraw       3 with 0, then 12
 *     barrier_open_schedule  3 with 0, then 8, then 9
 *     barrier_open_reach     3 with 0, then 12
 *     barrier_keep           3 with 0, then 13
 *     barrier_return         3 with 0, then 13
 *
 * A job to which none of 1 to 5 and 7 applies is accepted, on both sides alike.
 *
 * barrier_help_refusal says a refusal in words, barrier_help_remedy what can be
 * done about it.  In addition:
 *
 *   - Only the first fault of a job is returned, and no others: correct it and
 *     call again.  To get the faults of all hazards at once, open the header
 *     and add the hazards one by one: each add answers for its own.
 *   - 1, 2, 7 and 10 are faults of bytes, and so of the program that wrote or
 *     stored them; a user can do nothing about them.
 *   - 3 names the header's number: barrier_help_header_name and
 *     barrier_help_header_range have the words.
 *   - 4 names the hazard and not the field.  To show which, test the six ranges
 *     in the table's order: barrier_help_hazard_fault does it.
 *   - 5: measure n again, or plan with a smaller M or with a barrier that
 *     deflects less; M and D are those of the whole job.
 *   - 10 is for any fault anywhere in the schedule, also after the record that
 *     is wanted: a count above 511 or not that of the records, a number not in
 *     shortest form, bytes left over, a length of 0, a level outside 1 to 6, an
 *     end above 1000000000000, touching runs of one level.  It never means that
 *     no barrier stands there.
 *
 * ---------------------------------------------------------------------------
 * MEMORY
 *
 * A call reads the bytes, the ranges and the panel lengths that it is given
 * with their length or count, and never changes them.  barrier_plan and
 * barrier_open_schedule write to their output, barrier_open, barrier_add,
 * barrier_withdraw, barrier_keep and barrier_return to the open job; nothing
 * else is written:
 *
 *   - Done: the complete schedule stands from the output's first byte on, and
 *     the bytes after it stay as they were; or the open job is changed.
 *   - Refused: every byte of the output and of the open job stays as it was.
 *
 * Each pointer has to be good for as many bytes as its length says (for ranges
 * and panel lengths, as many numbers), also where they are too many; the output
 * has to be good for writing too.  A pointer may be NULL where its length is 0.
 * A pointer to an open job is never NULL; it has to be good for a whole
 * barrier_open_job, and for writing too, except in barrier_open_schedule and
 * barrier_open_reach.
 * The output and an open job may overlap nothing else that is lent to the
 * call; buffers that are only read may overlap.  Ranges, panel lengths and an
 * open job are aligned as C aligns their types; bytes need no alignment.  The
 * engine keeps no pointer after a call.
 *
 * ---------------------------------------------------------------------------
 * THREADS
 *
 * The engine has no state, allocates nothing, opens nothing, prints nothing
 * and sets no errno.  Every call returns, whatever bytes it is given.  Any
 * call may run on any thread at any time, also several at once, as long as no
 * thread changes a buffer that another call is using.  So on one open job only
 * one call at a time may open, add, withdraw, keep or return, and no other call
 * may run with it; calls on different open jobs do not touch each other.  One
 * call of barrier_plan, barrier_level, barrier_corners, barrier_offset or
 * barrier_reach takes at most 40 KiB of stack, each of those on an open job at
 * most 64 KiB, not counting the open job itself, and each of the others less
 * than 4 KiB.  The C keeps to that from -O2 on; without optimisation compilers
 * take more (docs/PLATFORMS.md).
 *
 * ---------------------------------------------------------------------------
 * PLATFORM AND LINKING
 *
 * There are two ways to have the engine, with the same calls and answers:
 *
 *   - portable/barrier_engine.c, one file of C99, for every machine that has a
 *     C compiler: ARM and Windows too.  Compile it with your program, or make
 *     an archive of it (make -f Makefile.vendor vendor-c).  It needs memcpy,
 *     memset and memmove, and nothing else of a C library.
 *     docs/PLATFORMS.md lists the machines on which it was run.
 *   - libbarrier_engine.a, machine code for x86-64, with the System V calling
 *     convention, in ELF files: Linux on PCs and servers.  The toolchain's back
 *     end, which makes it, makes code for no other platform.
 *
 * Jobs and schedules are bytes that do not depend on the machine.
 *
 * `pkg-config --cflags --libs barrier_engine` prints the flags; they name this
 * header's folder and the archive libbarrier_engine.a.  The archive is position
 * independent, so it links into programs and into shared libraries.  It exports
 * only the seventeen calls, and needs nothing from the C library but block
 * copies and fills (memcpy, memset and the like).
 *
 * The same engine is installed as a shared library too, libbarrier_engine.so.3,
 * where 3 is the version's first number: `pkg-config --cflags --libs
 * barrier_engine_shared` names it, and so does -lbarrier_engine, because
 * linkers prefer a shared library to an archive of the same name.
 *
 * In CMake, find_package(barrier_engine 3.3) gives the targets
 * barrier_engine::barrier_engine, which is the archive, and
 * barrier_engine::shared.  Without an installation, add_subdirectory of the
 * repository gives barrier_engine::barrier_engine, compiled from the C.
 *
 * A plug-in links the archive and does not export its calls:
 *
 *     cc -shared -fPIC plugin.c -o plugin.so \
 *         $(pkg-config --cflags --libs barrier_engine) \
 *         -Wl,--exclude-libs,libbarrier_engine.a
 *
 * Without the last flag the plug-in exports the calls, and where the program
 * that loads it, or another plug-in, has an engine of another version, the
 * loader may bind the calls of one to the other.
 *
 * ---------------------------------------------------------------------------
 * VERSIONS
 *
 * Compile a program with the header of the engine that it links: the linker
 * does not see where they differ.  barrier_version says at run time which
 * engine is there, and barrier_help_version_fits(barrier_version()) whether it
 * fits this header.  What stays and what changes, for programs already
 * compiled:
 *
 *   - The third number goes up: the header says more, and no call changes.
 *     Compiled programs go on working.
 *   - The second number goes up: calls are added, with their constants and
 *     refusals.  Compiled programs go on working, as they are, with the later
 *     archive or shared library.  The other way round they may not: a program
 *     compiled with a later header may ask for calls that an earlier engine
 *     lacks.
 *   - The first number goes up: an existing call takes or replies something
 *     else, or a struct has another size.  Every object that was compiled with
 *     the older header has to be compiled again; with the archive it still
 *     links, and then hands over other arguments than the engine takes, or
 *     writes over memory.  The shared library then has another name, so a
 *     program finds the one that it was linked with, or none.
 *
 * Structs, the values of constants, and the form of jobs and schedules stay
 * while the first number stays.  To store between two starts of a program, take
 * a job or a schedule: the fields of an open job may be different in a later
 * version.  A job has no names and no kept states: store the names beside it.
 * CHANGELOG.md lists by version what a program notices.
 *
 * ---------------------------------------------------------------------------
 * WHAT HAS TO BE BELIEVED
 *
 * It is proved that each call replies what its definition says, for every
 * input; docs/PROMISES.md lists the definitions.  Besides them, these have to
 * be believed: the toolchain that read the source, its prover, kernel and
 * logic; memcpy and the like of the C library; the machine; and that the caller
 * keeps to "Memory".  Then, depending on what is linked:
 *
 *   - the archive: the toolchain's back end, the assembler and the linker;
 *   - the C: portable/translator, which wrote it from what is proved, and your
 *     own compiler.  The C itself is not proved.  portable/README.md says how
 *     it is tied to the proofs and how it is tested.
 *
 * It is tested, leaf by leaf, that the structs and calls of this header are the
 * engine's, and that both agree on the calling convention.  What the stack
 * takes is measured.  barrier_help.h, the examples and the code for Rust and
 * Python are tested and not proved.
 *
 * No licence is granted by this file or with it: that is for the owner to give.
 */
#ifndef BARRIER_H
#define BARRIER_H

#include <stddef.h>
#include <stdint.h>

#ifdef __cplusplus
extern "C" {
#endif

/*
 * The version of the engine that this header belongs to ("Versions").  All
 * calls are there from 3.0.0 on, except these: barrier_layout from 3.1.0 on,
 * barrier_version from 3.2.0 on, barrier_reach and barrier_open_reach from
 * 3.3.0 on.
 */
#define BARRIER_VERSION "3.3.2"
#define BARRIER_VERSION_MAJOR 3
#define BARRIER_VERSION_MINOR 3
#define BARRIER_VERSION_PATCH 2

/*
 * CONSTANTS
 *
 * BARRIER_SCHEDULE_MAX bytes hold the schedule of every job, so a plan into an
 * output of this size is never refused 9: two bytes for the count, at most
 * twelve for the first record, which has the distance from station 0, and at
 * most eleven for each of 510 more.
 *
 * BARRIER_JOB_MAX is how much of its input the program `barrier` passes on.
 * No accepted job is that long: by the ranges above, the header takes at most
 * 42 bytes (40 for kind 1) and each of 256 hazards at most 20.
 * BARRIER_JOB_LONGEST is that sum, 42 + 256 * 20, and there are accepted jobs
 * of exactly this length.  The calls take jobs of any length, and refuse a
 * longer one for what is wrong with it.
 *
 * BARRIER_HAZARDS_MAX is how many hazards a job may have, and how many may
 * stand together in an open one.  BARRIER_NAME_MAX is the greatest name there,
 * which is the greatest number of 16 bits: every uint16_t is a name.
 *
 * BARRIER_STATION_MAX is the greatest B, and so the greatest end of a run, and
 * the greatest number of a sheet corner.  BARRIER_ROAD_MAX is the greatest
 * B - A, the longest road.  Both are 64-bit numbers.
 *
 * BARRIER_LENGTHS_MAX is how many panel lengths a layout may have,
 * BARRIER_STOCK_PANEL_MAX the greatest of them, BARRIER_PANELS_EACH_MAX the
 * greatest count of each, and BARRIER_TRIES_MAX the greatest limit on tries,
 * which is enough for every layout of four lengths.
 *
 * BARRIER_RUNS_MAX is the greatest run count of a schedule, BARRIER_RANGES_MAX
 * how many ranges barrier_quantities takes, and BARRIER_STATES how many states
 * an open job keeps, under 0 to BARRIER_STATES - 1.
 *
 * BARRIER_OPEN_STACK_MAX bytes of stack are enough for each call on an open
 * job, BARRIER_STACK_MAX for each of the others.  This is measured and not
 * proved: for the archive as part of its test, and for the C, compiled with -O2
 * or more, in docs/PLATFORMS.md, which names what takes more.
 */
#define BARRIER_SCHEDULE_MAX 5624
#define BARRIER_JOB_MAX 8192
#define BARRIER_JOB_LONGEST 5162
#define BARRIER_HAZARDS_MAX 256
#define BARRIER_NAME_MAX 65535
#define BARRIER_STATES 8
#define BARRIER_RUNS_MAX 511
#define BARRIER_RANGES_MAX 64
#define BARRIER_LENGTHS_MAX 4
#define BARRIER_STOCK_PANEL_MAX 20000
#define BARRIER_PANELS_EACH_MAX 15
#define BARRIER_TRIES_MAX 65536
#define BARRIER_STATION_MAX UINT64_C(1000000000000)
#define BARRIER_ROAD_MAX UINT64_C(2000000000)
#define BARRIER_STACK_MAX 40960
#define BARRIER_OPEN_STACK_MAX 65536

/*
 * The sides of the road, as seen by a person who looks towards rising stations,
 * where traffic drives on the right.  Where it drives on the left they are
 * handed over swapped: forward traffic drives beside BARRIER_RIGHT ("Sides and
 * traffic").
 */
enum barrier_side {
    BARRIER_RIGHT = 0,
    BARRIER_LEFT = 1
};

/* The containment levels, lowest first ("The job" says whose they are). */
enum barrier_containment {
    BARRIER_NC_1 = 1,
    BARRIER_NC_2 = 2,
    BARRIER_NC_3 = 3,
    BARRIER_NC_4 = 4,
    BARRIER_NC_5 = 5,
    BARRIER_NC_6 = 6
};

/* The numbers of the refusal table above, and 0. */
enum barrier_number {
    BARRIER_DONE = 0,
    BARRIER_JOB_ENDED = 1,
    BARRIER_NUMBER_MALFORMED = 2,
    BARRIER_HEADER_RANGE = 3,
    BARRIER_HAZARD_RANGE = 4,
    BARRIER_HAZARD_NEAR = 5,
    BARRIER_JOB_LEFT_OVER = 7,
    BARRIER_ARGUMENT = 8,
    BARRIER_OUTPUT_SHORT = 9,
    BARRIER_NO_SCHEDULE = 10,
    BARRIER_TOO_MANY_RANGES = 11,
    BARRIER_NAME = 12,
    BARRIER_STATE = 13,
    BARRIER_NO_APPROACH = 14,
    BARRIER_FULL = 15,
    BARRIER_LENGTHS = 16,
    BARRIER_LIMIT = 17
};

/*
 * THE CALLS
 *
 * Sides, levels, stations, state numbers, hazard indices, sheet corners, panel
 * lengths, limits and a hazard's numbers are passed in 64 bits, so that a
 * number that is too great is refused and never cut down to one that is not.
 * Names are passed in 16 bits, all of which are names: C cuts a greater number
 * down before the call gets it, so a program whose numbers can be above
 * BARRIER_NAME_MAX tests them itself.
 */

/*
 * What barrier_level, barrier_quantity and the calls on an open job reply,
 * except for its schedule and a hazard's reach.
 *
 *     number    BARRIER_DONE, or the refusal's number
 *     value     done: the level (level), millimetres (quantity) or 0 (open,
 *               add, withdraw, keep, return);
 *               refused: the refusal's value
 */
typedef struct {
    uint64_t number;
    uint64_t value;
} barrier_reply;

/*
 * What barrier_plan and barrier_open_schedule reply.
 *
 *     number    BARRIER_DONE, or the refusal's number
 *     value     done: bytes written; refused: the refusal's value
 *     before    done: the greatest overhang before A, in millimetres, among the
 *               asked side's hazards, 0 where there is none; refused: 0
 *     after     done: the greatest overhang after B, likewise; refused: 0
 */
typedef struct {
    uint64_t number;
    uint64_t value;
    uint64_t before;
    uint64_t after;
} barrier_plan_reply;

/*
 * What barrier_quantities replies.
 *
 *     number        BARRIER_DONE, BARRIER_ARGUMENT, BARRIER_TOO_MANY_RANGES or
 *                   BARRIER_NO_SCHEDULE
 *     value         0
 *     records       done: the records read, which are the schedule's runs;
 *                   refused: 0
 *     quantities    done: the millimetres of each range, in the ranges' order,
 *                   and 0 after them; refused: 0 everywhere
 */
typedef struct {
    uint64_t number;
    uint64_t value;
    uint64_t records;
    uint64_t quantities[BARRIER_RANGES_MAX];
} barrier_quantities_reply;

/*
 * What barrier_lookup replies.
 *
 *     number    BARRIER_DONE, BARRIER_ARGUMENT or BARRIER_NO_SCHEDULE
 *     found     1 where a run has the station, else 0, also when refused
 *     start     found: the record is the bytes [start, end) of the asked
 *     end       side's schedule; else both are 0
 */
typedef struct {
    uint64_t number;
    uint64_t found;
    uint64_t start;
    uint64_t end;
} barrier_record;

/*
 * Plan: writes the schedule of one side of a job to the start of the output.
 *
 *     job, job_len    the job's bytes
 *     side            BARRIER_RIGHT or BARRIER_LEFT
 *     out, out_len    the output lent to the call
 *
 * Done: value is the count of bytes written, 1 to BARRIER_SCHEDULE_MAX, and
 * before and after are the overhangs of that side.
 * Refused: 1 to 5 or 7 to 9, without overhangs.  Nothing is written.
 *
 * An output of BARRIER_SCHEDULE_MAX bytes is always long enough.  To ask for
 * the size first, lend none (NULL, 0): an accepted job is then refused 9 with
 * the bytes needed, since no schedule is empty.  That reply has overhang 0
 * whatever hangs over: take the overhangs from the call that is done.
 */
barrier_plan_reply barrier_plan(const uint8_t *job, size_t job_len, uint64_t side,
                                uint8_t *out, size_t out_len);

/*
 * Level: the level that one side of a job requires at a station, directly from
 * the hazards.  No schedule is needed, and none is made.
 *
 *     job, job_len    the job's bytes
 *     side            BARRIER_RIGHT or BARRIER_LEFT
 *     station         any station, on or off the road
 *
 * Done: value is BARRIER_NC_1 to BARRIER_NC_6, or 0 where none is required, as
 * everywhere outside the road [A, B), also where an envelope hangs over.
 * Refused: 1 to 5, 7 or 8.
 *
 * In the schedule that barrier_plan writes for the same job and side,
 * barrier_lookup finds a run of this level at the station, or none where the
 * value is 0.
 */
barrier_reply barrier_level(const uint8_t *job, size_t job_len, uint64_t side,
                            uint64_t station);

/* A corner point, counted from the sheet corner: whole millimetres, as floats. */
typedef struct {
    double station;
    double offset;
} barrier_corner;

/*
 * What barrier_corners replies.
 *
 *     number      BARRIER_DONE, or the refusal's number
 *     value       done: 0; refused: the refusal's value
 *     upstream    done: the approach's upstream end;
 *     flare       done: where its flare begins, or the upstream end again;
 *     hazard      done: the hazard's end on that side;
 *                 refused: 0.0 in all of them
 */
typedef struct {
    uint64_t number;
    uint64_t value;
    barrier_corner upstream;
    barrier_corner flare;
    barrier_corner hazard;
} barrier_corners_reply;

/*
 * Corners: the corner points of the adjacent traffic's approach to one hazard,
 * for a drawing ("Corner points").
 *
 *     job, job_len     the job's bytes
 *     hazard           the hazard's index in the job, from 0
 *     sheet_station    the station and the offset from which the corners are
 *     sheet_offset     counted, each 0 to BARRIER_STATION_MAX
 *
 * Done: the three corners, exact.
 * Refused: 8, 1 to 5, 7 or 14.
 *
 * 14 comes after every other test, so where it is replied the job is accepted:
 * it has no hazard with that index, or that hazard's n is not below C.
 */
barrier_corners_reply barrier_corners(const uint8_t *job, size_t job_len, uint64_t hazard,
                                      uint64_t sheet_station, uint64_t sheet_offset);

/*
 * What barrier_offset replies.
 *
 *     number    BARRIER_DONE, or the refusal's number
 *     value     found: the offset; refused: the refusal's value; else 0
 *     found     1 where there is such an offset, else 0, also when refused
 */
typedef struct {
    uint64_t number;
    uint64_t value;
    uint64_t found;
} barrier_offset_reply;

/*
 * Offset: the smallest barrier offset with which the adjacent traffic's
 * approach to one hazard is no longer than wanted.  A gate or a driveway stands
 * upstream, and the barrier may not pass it.
 *
 *     job, job_len    the job's bytes
 *     hazard          the hazard's index in the job, from 0
 *     longest         the longest approach that is wanted, any number of
 *                     millimetres
 *
 * Done: found is 1, and value the smallest M from 0 to 20000 with n at least
 * M + D whose approach length is at most that; or found is 0, and there is no
 * such M.  An offset of 0 is found 1 with value 0.
 * Refused: 1 to 5, 7 or 14.
 *
 * The approach length is the one that is planned with this M: by the rule for
 * the straight part, raised to whole panels, and not cut at A and B.  It never
 * grows with M, so it is short enough too with every greater offset that leaves
 * the barrier its room.  The job's own M plays no part in it, but the job has
 * to be accepted with it: for a job that is refused 5 for its own M, ask with M
 * 0 in its header.  Where the offset found is not above the job's own, the
 * approach is short enough already with the job's own.
 * The job's other hazards do not count: an offset that is put into the header
 * is that of all of them, and a hazard that stands nearer may then be refused
 * 5.
 *
 *     The sample job: n 5000 and D 1000, so M is at most 4000.
 *
 *     longest          M
 *     63485 or more    0
 *     44227            3000
 *     40000            3659, length 39996; with 3658 it is 40002
 *     37807            4000
 *     37806 or less    none
 */
barrier_offset_reply barrier_offset(const uint8_t *job, size_t job_len, uint64_t hazard,
                                    uint64_t longest);

/*
 * What barrier_reach and barrier_open_reach reply.
 *
 *     number    BARRIER_DONE, or the refusal's number
 *     value     done: 0; refused: the refusal's value
 *     side      done: the hazard's side; refused: 0, as all that follows
 *     start     done: its envelope is [start, end), cut at A and B; both are 0
 *     end       where nobody reaches it
 *     before    done: its own overhang before A, in millimetres, 0 where none
 *     after     done: its own overhang after B, likewise
 *     from      done: outside [from, to) its withdrawal changes no level of its
 *     to        side; both are 0 where it has no envelope
 */
typedef struct {
    uint64_t number;
    uint64_t value;
    uint64_t side;
    uint64_t start;
    uint64_t end;
    uint64_t before;
    uint64_t after;
    uint64_t from;
    uint64_t to;
} barrier_reach_reply;

/*
 * Reach: the envelope of one hazard, and how far a withdrawal of it reaches.
 *
 *     job, job_len    the job's bytes
 *     hazard          the hazard's index in the job, from 0
 *
 * Done: the hazard's side, its envelope and overhangs, and the stretch: from is
 * the greater of A and start - G, to the lesser of B and end + G.  Where nobody
 * reaches the hazard, its side is given, the other numbers are 0, and nothing
 * changes anywhere without it; end is above 0 exactly where it is reached.
 * Refused: 1 to 5, 7 or 14.
 *
 * The job without this hazard requires the same level at every millimetre
 * outside [from, to), and on the other side everywhere.  So the sheets to issue
 * again are those of this side with a millimetre of the stretch.  The job's
 * other hazards do not count: inside the stretch, where they need barrier too,
 * levels may stay as they are.  In an accepted job 14 is only for an index that
 * it does not have.
 *
 *     The sample job, with other stations, near offsets and continuity limits:
 *
 *     hazard              n       G        envelope            before
 *     [200000, 210000)    5000    0        [155773, 210000)    0
 *     [200000, 210000)    5000    50000    [155773, 210000)    0
 *     [20000, 30000)      5000    50000    [0, 30000)          24227
 *     [200000, 210000)    9000    50000    none
 *
 *     and these stretches, in the same order: [155773, 210000),
 *     [105773, 260000), [0, 80000) and none
 */
barrier_reach_reply barrier_reach(const uint8_t *job, size_t job_len, uint64_t hazard);

/*
 * Quantity: how many millimetres of [p, q) have exactly that level.
 *
 *     schedule, schedule_len    the schedule of one side
 *     level                     BARRIER_NC_1 to BARRIER_NC_6
 *     p, q                      any stations, on or off the road, p <= q
 *
 * Done: value is the count of millimetres; 0 for p = q.
 * Refused: 8 or 10.
 *
 * For p <= r <= q, the quantities of [p, r) and [r, q) add up to exactly that
 * of [p, q).  So the quantities over the lots of a road add up to that of the
 * road, wherever the boundaries are.
 */
barrier_reply barrier_quantity(const uint8_t *schedule, size_t schedule_len,
                               uint64_t level, uint64_t p, uint64_t q);

/*
 * Quantities for a whole contract: how many millimetres of each range have
 * exactly that level.  Every record is read once, however many ranges there
 * are.
 *
 *     schedule, schedule_len    the schedule of one side
 *     level                     BARRIER_NC_1 to BARRIER_NC_6
 *     ranges, ranges_len        the ranges as p, q, p, q and so on; the length
 *                               counts the numbers, two for each range
 *
 * Done: each quantity is what barrier_quantity gives for that range, and
 * records is the schedule's run count.
 * Refused: 8, 11 or 10.
 *
 * The ranges may overlap, repeat, be empty and stand in any order.  All of them
 * are tested, also those after the 64th: where one has p > q, or the last p has
 * no q, the call is refused 8 and not 11.  With no range at all (NULL, 0) level
 * and schedule are still tested, and records counted.
 *
 * The quantities of the lots of a road add up to that of the road, as those of
 * single calls do.
 */
barrier_quantities_reply barrier_quantities(const uint8_t *schedule, size_t schedule_len,
                                            uint64_t level, const uint64_t *ranges,
                                            size_t ranges_len);

/*
 * Lookup: where in the schedule the record of the run at a station is.
 *
 *     right, right_len    the schedule of the right side
 *     left, left_len      the schedule of the left side
 *     side                the side asked for
 *     station             any station, on or off the road
 *
 * Done: found says whether a run of that side has the station.
 * Refused: 8 or 10, with found 0; the reply has no value, which would be 0.
 *
 * Only the schedule of the side asked for is read; the other one may be
 * anything, also NULL with length 0.  start and end are byte indices; the
 * record's first number is a distance, so the run's stations come from
 * adding up the records from the first on: with barrier_help_next_run, walk
 * until run.start <= station < run.end.
 */
barrier_record barrier_lookup(const uint8_t *right, size_t right_len,
                              const uint8_t *left, size_t left_len,
                              uint64_t side, uint64_t station);

/*
 * What barrier_layout replies.
 *
 *     number     BARRIER_DONE, BARRIER_LENGTHS or BARRIER_LIMIT
 *     value      0
 *     found      1 where a layout that was tried covers the run, else 0, also
 *                when refused
 *     overrun    found: the smallest overrun among those tried; else 0
 *     counts     found: the first layout that has it, a count for each length
 *                in their order, and 0 after them; else 0 everywhere
 *     tries      done, found or not: the tries made; refused: 0
 *     floor      done, found or not: no covering layout overruns by less than
 *                this; refused: 0
 */
typedef struct {
    uint64_t number;
    uint64_t value;
    uint64_t found;
    uint64_t overrun;
    uint64_t counts[BARRIER_LENGTHS_MAX];
    uint64_t tries;
    uint64_t floor;
} barrier_layout_reply;

/*
 * Layout: how one run is laid from a yard's panels with the smallest overrun
 * among a number of tries ("Panels for one run").
 *
 *     lengths, lengths_len    the panel lengths, 1 to BARRIER_LENGTHS_MAX of
 *                             them, each 1 to BARRIER_STOCK_PANEL_MAX; equal
 *                             ones are allowed, and their order is the order of
 *                             the tries
 *     run                     the run's length, any number of millimetres
 *     limit                   the most tries, 1 to BARRIER_TRIES_MAX
 *
 * Done: found is 1, with the overrun and the layout; or found is 0, and no
 * layout that was tried covers the run.  tries and floor are given in both
 * cases.
 * Refused: 16 or 17, with 0.
 *
 * A run of 0 is covered by the first try, which has no panels.  Where found is
 * 0, a greater limit may find a layout; but none covers the run if every layout
 * was tried (tries is then 16, 256, 4096 or 65536, depending on the number of
 * lengths), which is always so with BARRIER_TRIES_MAX.
 */
barrier_layout_reply barrier_layout(const uint64_t *lengths, size_t lengths_len,
                                    uint64_t run, uint64_t limit);

/*
 * A hazard as barrier_add takes it: the six numbers of the hazard table, in
 * its order.
 */
typedef struct {
    uint64_t side;
    uint64_t start;
    uint64_t end;
    uint64_t near_offset;
    uint64_t far_offset;
    uint64_t level;
} barrier_hazard;

/*
 * A place of an open job.  Its fields are the engine's: they are declared so
 * that room can be made for them, and may be different in a later version.
 */
typedef struct {
    uint64_t start;
    uint64_t end;
    uint16_t near_offset;
    uint16_t far_offset;
    uint16_t name;
    uint8_t side;
    uint8_t level;
} barrier_place;

/*
 * What is kept under one state number, also the engine's.  Where a state is
 * kept, `used` is 1 and the rest as in an open job; where none is, all is 0.
 */
typedef struct {
    uint64_t used;
    uint64_t count;
    barrier_place hazards[BARRIER_HAZARDS_MAX];
} barrier_kept;

/*
 * An open job: 55544 bytes, aligned to 8, without padding.  Its fields are the
 * engine's, as a place's are: the header's numbers in the order of kind 2,
 * panel length 1 for kind 1; then 256 places, where the hazards stand in the
 * first `count`, in rising order of their names, and every other place is 0;
 * then what is kept, by state number.
 */
typedef struct {
    uint64_t kind;
    uint64_t begin;
    uint64_t end;
    uint64_t forward;
    uint64_t opposite;
    uint64_t zone;
    uint64_t way;
    uint64_t offset;
    uint64_t deflection;
    uint64_t along;
    uint64_t across;
    uint64_t straight;
    uint64_t continuity;
    uint64_t panel;
    uint64_t count;
    barrier_place hazards[BARRIER_HAZARDS_MAX];
    barrier_kept kept[BARRIER_STATES];
} barrier_open_job;

/*
 * Open: makes an open job of a header, with no hazard and no kept state.
 *
 *     job                 the open job; what it held does not matter
 *     bytes, bytes_len    the bytes of a job with hazard count 0
 *
 * Done: value is 0, and the whole of the open job is written.
 * Refused: 1, 2, 3 or 7.  The open job stays as it was.
 *
 * A hazard count above 0 is refused 3 with its header number (14, for kind 2
 * 15), at that number: nothing after it is read.
 */
barrier_reply barrier_open(barrier_open_job *job, const uint8_t *bytes, size_t bytes_len);

/*
 * Add: puts a hazard into an open job, under a name.
 *
 *     job       the open job
 *     name      0 to BARRIER_NAME_MAX, under which no hazard stands
 *     hazard    its six numbers
 *
 * Done: value is 0.
 * Refused: 3 with 0; 12 with the name; 15 with 0; 4 or 5 with the name.  The
 * open job stays as it was.
 *
 * 15 is for an open job in which 256 hazards stand: withdraw one first.  A name
 * that stands is refused 12 there too.
 *
 * A hazard whose envelope leaves the road is added; the schedule's reply has
 * its overhang.
 */
barrier_reply barrier_add(barrier_open_job *job, uint16_t name, barrier_hazard hazard);

/*
 * Withdraw: takes the hazard under a name out of an open job.
 *
 *     job     the open job
 *     name    the name under which the hazard stands, 0 to BARRIER_NAME_MAX
 *
 * Done: value is 0, and the name can be added again, or another one, in the
 * room that is left.
 * Refused: 3 with 0, or 12 with the name.  The open job stays as it was.
 */
barrier_reply barrier_withdraw(barrier_open_job *job, uint16_t name);

/*
 * Schedule of an open job: writes that of one side to the start of the output,
 * and replies, as barrier_plan does for a job of the hazards that stand.
 *
 *     job             the open job, which is only read
 *     side            BARRIER_RIGHT or BARRIER_LEFT
 *     out, out_len    the output lent to the call
 *
 * Done: value is the count of bytes written, 1 to BARRIER_SCHEDULE_MAX, and
 * before and after are the overhangs of that side.
 * Refused: 3 with 0, 8 or 9, without overhangs.  Nothing is written.
 */
barrier_plan_reply barrier_open_schedule(const barrier_open_job *job, uint64_t side,
                                         uint8_t *out, size_t out_len);

/*
 * Reach in an open job: the envelope of a hazard that stands, and how far a
 * withdrawal of it reaches, as barrier_reach gives them for a job of the hazards
 * that stand.
 *
 *     job     the open job, which is only read
 *     name    the name under which the hazard stands, 0 to BARRIER_NAME_MAX
 *
 * Done: the hazard's side, its envelope and overhangs, and the stretch outside
 * which barrier_withdraw of this name changes no level of that side.
 * Refused: 3 with 0, or 12 with the name.
 */
barrier_reach_reply barrier_open_reach(const barrier_open_job *job, uint16_t name);

/*
 * Keep: keeps the hazards that stand in an open job, with their names, under a
 * state number.
 *
 *     job      the open job
 *     state    0 to BARRIER_STATES - 1
 *
 * Done: value is 0, and what was kept under this number is replaced.  What
 * stands, and the states under other numbers, stay as they were.
 * Refused: 3 with 0, or 13 with 0.  The open job stays as it was.
 */
barrier_reply barrier_keep(barrier_open_job *job, uint64_t state);

/*
 * Return: makes what stands in an open job what stood, under the same names,
 * when a state was last kept.
 *
 *     job      the open job
 *     state    0 to BARRIER_STATES - 1, a number under which a state is kept
 *
 * Done: value is 0.  The kept states stay as they were, this one too.
 * Refused: 3 with 0, or 13 with 0.  The open job stays as it was.
 */
barrier_reply barrier_return(barrier_open_job *job, uint64_t state);

/*
 * Version: that of the engine which is linked, or loaded, as one number:
 * MAJOR * 1000000 + MINOR * 1000 + PATCH, 3003002 for 3.3.2.  The macros
 * BARRIER_VERSION_MAJOR, BARRIER_VERSION_MINOR and BARRIER_VERSION_PATCH are
 * this header's; where the two differ, "Versions" says what may be done.
 */
uint32_t barrier_version(void);

#ifdef __cplusplus
}
#endif

#endif

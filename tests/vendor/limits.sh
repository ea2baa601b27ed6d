#!/bin/sh
# The header's greatest sizes are attained: the longest accepted job, a schedule
# of 511 runs, and the greatest overhang, each on the longest road that there is,
# which ends at the greatest station. The stack that it names suffices for all of
# them.
set -eu
tmp=$(mktemp -d)
trap 'rm -rf "$tmp"' EXIT

constant() {
    sed -n "s/^#define $1 \(UINT64_C(\)*\([0-9]*\))*\$/\2/p" include/barrier.h
}
fail() {
    echo "limits: $1" >&2
    exit 1
}
header() {
    echo "runout-forward $1
        runout-opposite 20000
        clear-zone 30000
        centreline 20000
        barrier-offset 20000
        deflection 5000
        flare 100 0
        straight 100000
        continuity $2"
}

# The road. Some awks print numbers as great as these with an exponent.
end=$(constant BARRIER_STATION_MAX)
length=$(constant BARRIER_ROAD_MAX)
begin=$((end - length))

# Every number as long as its range lets it be, of kind 2, which has one more.
# The hazards stand outside the clear zone, so nothing else is wrong with the
# job.
{
    echo "road $begin $end"
    header 200000 200000
    echo "panel 10000"
    awk -v road="$begin $end" 'BEGIN { for (i = 0; i < 256; i++) print "hazard right " road " 60000 60000 6" }'
} | "$BUILD/jobtext" >"$tmp/longest"
[ "$(wc -c <"$tmp/longest")" -eq "$(constant BARRIER_JOB_LONGEST)" ] || fail "the longest job"
[ "$("$BUILD/listing" -p <"$tmp/longest")" = "total 0 0" ] || fail "the longest job is not accepted"

# One millimetre more, at either end.
for road in "$((begin - 1)) $end" "$begin $((end + 1))"; do
    { echo "road $road" && header 1 0; } | "$BUILD/jobtext" >"$tmp/job"
    if "$BUILD/listing" -p <"$tmp/job" >"$tmp/printed" 2>"$tmp/said"; then fail "the road $road is accepted"; fi
    grep -q '^listing: the job is refused 3 with 3: ' "$tmp/said" || fail "the road $road is not refused: $(cat "$tmp/said")"
done

# One long low run with 255 short high ones in it.
{
    echo "road $begin $end"
    header 1 0
    echo "hazard right $((begin + 1)) $end 25000 30000 1"
    awk -v begin="$begin" 'BEGIN {
        for (i = 1; i < 256; i++)
            printf "hazard right %.0f %.0f 25000 30000 2\n", begin + i * 7000000, begin + i * 7000000 + 3000000
    }'
} | "$BUILD/jobtext" >"$tmp/many"
"$BUILD/listing" -p <"$tmp/many" >"$tmp/runs"
[ "$(grep -c '^R' "$tmp/runs")" -eq "$(constant BARRIER_RUNS_MAX)" ] || fail "511 runs"
grep -qx "R $begin $((begin + 6999999)) 1" "$tmp/runs" || fail "the first run"
grep -qx "R $((begin + 1788000000)) $end 1" "$tmp/runs" || fail "the last run"
grep -qx "total $length 0" "$tmp/runs" || fail "the whole road is covered"

# A barrier at the edge itself, so that an approach is as long as the runout
# length, and panels that raise it the most. Each hazard has the whole road, and
# both traffics reach it. The first of the two roads begins at 0, and its
# approaches before that.
most=$(sed -n 's/^ \* .*No overhang is above \([0-9]*\):.*/\1/p' include/barrier.h)
[ -n "$most" ] || fail "the header does not name the greatest overhang"
for road in "0 $length" "$begin $end"; do
    {
        echo "road $road
            runout-forward 200000
            runout-opposite 200000
            clear-zone 30000
            centreline 0
            barrier-offset 0
            deflection 1
            flare 100 0
            straight 0
            continuity 0
            panel 9999"
        awk -v road="$road" 'BEGIN { for (i = 0; i < 256; i++) print "hazard", i % 2, road, 1, 30000, 1 + i % 6 }'
    } | "$BUILD/jobtext" >"$tmp/hanging"
    "$BUILD/listing" -p <"$tmp/hanging" >"$tmp/overhangs"
    printf '%s\n' "R $road 5" "L $road 6" "total $length $length" \
        "overhang R $most $most" "overhang L $most $most" >"$tmp/wanted"
    diff "$tmp/wanted" "$tmp/overhangs" || fail "the greatest overhang of the road $road"
done
echo "limits: on the longest road to $end the longest job is accepted, 511 runs are planned, an overhang of $most is given"

# All symbols are bound before the first call: what the loader takes to bind one is no call's stack.
$CC -std=c99 -O2 -Wall -Wextra -Werror -pedantic -Iinclude tests/vendor/stack.c -L"$LIBDIR" -lbarrier_engine -Wl,-z,now -o "$tmp/stack"
for job in longest hanging many; do
    status=0
    "$tmp/stack" <"$tmp/$job" >"$tmp/depths" || status=$?
    [ "$status" -eq 0 ] || cat "$tmp/depths" >&2
    case $status in
    0) ;;
    1) fail "a call takes more stack for the $job job than the header names" ;;
    *) fail "the stack of the $job job is not measured: status $status" ;;
    esac
done
cat "$tmp/depths"

#!/bin/sh
# The first program, the open job and the layout print the stored text, in C and
# in Rust, and end with 1 where their output cannot be written or a call is
# refused that should not be.
set -eu
tmp=$(mktemp -d)
trap 'rm -rf "$tmp"' EXIT

fail() {
    echo "examples: $1" >&2
    exit 1
}
# Arguments: the wanted status, then a command. What it says goes to $tmp/said.
ends_with() {
    wanted=$1
    shift
    status=0
    "$@" 2>"$tmp/said" || status=$?
    [ "$status" -eq "$wanted" ] || fail "$* ends with $status, not $wanted: $(cat "$tmp/said")"
}

for name in example open_job layout; do
    for program in "$BUILD/$name" "$BUILD/rust/release/$name"; do
        ends_with 0 "$program" >"$tmp/printed"
        diff "examples/$name.out" "$tmp/printed"
        ends_with 1 "$program" >/dev/full
        grep -qx "$name: standard output cannot be written" "$tmp/said" || fail "$program, output full: $(cat "$tmp/said")"
    done
done
ends_with 0 "$BUILD/day" >"$tmp/printed"
diff examples/day.out "$tmp/printed"
ends_with 1 "$BUILD/day" >/dev/full
grep -qx "day: standard output cannot be written" "$tmp/said" || fail "day, output full: $(cat "$tmp/said")"
echo "examples: C and Rust print examples/example.out, open_job.out and layout.out, C examples/day.out, and end with 1 where the output is full"

# The examples linked with calls that refuse; C and Rust have to say the same.
# Arguments: the call that is refused, the program, and the last line printed.
refused_in_c() {
    mkdir -p "$tmp/$1"
    $CC -std=c99 -Wall -Wextra -Werror -pedantic -fPIC -Iinclude -DREFUSED="$1" -c tests/vendor/refusing.c -o "$tmp/$1/refusing.o"
    ar rcs "$tmp/$1/libbarrier_engine.a" "$tmp/$1/refusing.o"
    $CC -std=c99 -Iinclude "examples/$2.c" -L"$tmp/$1" -lbarrier_engine -o "$tmp/$1/$2"
    ends_with 1 "$tmp/$1/$2" >"$tmp/$1/c"
    last=$(tail -n 1 "$tmp/$1/c")
    [ "$last" = "$3" ] || fail "$1 refused: the last line is '$last'"
}
refused() {
    refused_in_c "$@"
    BARRIER_LIB_DIR="$tmp/$1" cargo build --quiet --locked --manifest-path examples/rust/Cargo.toml --target-dir "$tmp/rust"
    ends_with 1 "$tmp/rust/debug/$2" >"$tmp/$1/rust"
    diff "$tmp/$1/c" "$tmp/$1/rust"
}
refused plan example '  plan: refused 1 with 34, the job ends before or inside the number at byte 34'
refused lookup example '  lookup: refused 10 with 0, these bytes are not a schedule'
refused level example '  level: refused 1 with 34, the job ends before or inside the number at byte 34'
refused corners example '  corners: refused 14 with 0, no such hazard, or adjacent traffic does not reach it'
refused offset example '  offset: refused 14 with 0, no such hazard, or adjacent traffic does not reach it'
refused quantities example '  lots: refused 10 with 0, these bytes are not a schedule'
refused quantity example '  road: refused 10 with 0, these bytes are not a schedule'
refused nothing example '  near offset 3999: done, but it should be refused'
grep -qx '  overhang on the right: 2 mm before the road, 3 mm after it' "$tmp/nothing/c" || fail "the overhangs of plan"
grep -qx '  approach of at most 37807 mm: offset 7' "$tmp/nothing/c" || fail "the offset"
grep -qx '  approach of at most 37806 mm: none' "$tmp/nothing/c" || fail "no offset"
for corner in 'upstream (-1, 2)' 'flare    (3, -4)' 'hazard   (5, 6)'; do
    grep -qx "    $corner" "$tmp/nothing/c" || fail "the corner $corner"
done
refused open open_job '  open: refused 1 with 22'
refused add open_job '  add 7: refused 4 with 7'
refused withdraw open_job '  withdraw 7: refused 12 with 7'
refused open_schedule open_job '  schedule: refused 3 with 0'
refused keep open_job '  keep 0: refused 13 with 0'
refused return_to open_job '  return 0: refused 13 with 0'
grep -qx '    overhang: 4 mm before the road, 5 mm after it' "$tmp/keep/c" || fail "the overhangs of an open job"
refused nothing open_job '  add 7: done'
refused layout layout '  run 54227, at most 14 tries: refused 17 with 0'
refused nothing layout '  no length: done, but it should be refused'
grep -qx '  run 54227, at most 14 tries: none covers it; 7 tries, floor 8' "$tmp/nothing/c" || fail "no layout"
grep -qx '  run 54227, at most 15 tries: (3, 4), overrun 2; 7 tries, floor 8' "$tmp/nothing/c" || fail "the layout"
echo "examples: C and Rust end with 1 at the first call refused, and at one that is not and should be"

# In C alone: the words have the call in them.
refused_in_c plan first 'the job ends before or inside the number at byte 34; overhang 0 and 0 mm'
refused_in_c version day 'the engine that is linked is not one for this header'
refused_in_c open day "    (hand over all of the job's bytes, with as many hazards as its hazard count says)"
refused_in_c add day '    (side 0 or 1; stations that rise and lie on the road; offsets, near then far, that do not fall and are at most 60000 millimetres; level 1 to 6)'
grep -qx '  add 101, headwall at 400.000 m: refused 4 with 101, a field of the hazard to be named 101 is outside its range' "$tmp/add/c" || fail "the words of an add"
refused_in_c open_schedule day '    (open the job with barrier_open first, and let nothing else write to its memory)'
grep -qx '  right: refused 3 with 0, the memory is not an open job' "$tmp/open_schedule/c" || fail "the words of an open job's memory"
echo "examples: first.c and day.c end with 1 where a call is refused, and say of an open job what is one's"

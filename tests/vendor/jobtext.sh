#!/bin/sh
# The text converter: the printed job's bytes, those of a job with panels, wrong
# numbers passed on to the engine, and text that it cannot read refused with its
# line.
set -eu
jobtext=$BUILD/jobtext
printed=examples/jobs/printed.job
tmp=$(mktemp -d)
trap 'rm -rf "$tmp"' EXIT

fail() {
    echo "jobtext: $1" >&2
    exit 1
}

hex() { # FILE
    od -An -v -tx1 "$1" | tr -d ' \n' | tr a-f A-F
}

# The first program writes the same job from its numbers.
"$jobtext" <"$printed" >"$tmp/printed"
bytes=$(hex "$tmp/printed")
stored=$(sed -n 's/^  job://p' examples/example.out | tr -d ' ')
[ "$bytes" = "$stored" ] || fail "the printed job is $bytes"

# A text that came through a system with other line ends is the same.
awk '{ printf "%s\r\n", $0 }' "$printed" | "$jobtext" >"$tmp/other"
cmp "$tmp/printed" "$tmp/other"

# A panel length, 4,000 here, makes the job one of kind 2 and stands behind the
# continuity limit, the 21st byte, wherever its line does.
panels=02$(echo "$bytes" | cut -c 3-42)A01F$(echo "$bytes" | cut -c 43-)
for place in 3 14; do
    sed "${place}s/.*/panel 4000/" "$printed" | "$jobtext" >"$tmp/panels"
    [ "$(hex "$tmp/panels")" = "$panels" ] || fail "with a panel length in line $place the job is $(hex "$tmp/panels")"
done

# Wrong numbers are encoded; the engine judges. Arguments: a sed command for
# the printed job, a line behind it, and what the engine says: a refusal on
# standard error alone, with 1, or a schedule.
judged() {
    { sed "$1" "$printed" && echo "$2"; } | "$jobtext" >"$tmp/job" || fail "no bytes after $1 $2"
    status=0
    "$BUILD/listing" -p <"$tmp/job" >"$tmp/listed" 2>"$tmp/said" || status=$?
    case $3 in
    refused*)
        [ "$status" -eq 1 ] || fail "status $status after $1 $2"
        [ ! -s "$tmp/listed" ] || fail "printed after $1 $2: $(cat "$tmp/listed")"
        sed -n '1s/^listing: the job is \(refused [0-9]*\) with \([0-9]*\): .*/\1 \2/p' "$tmp/said" >"$tmp/listed"
        ;;
    *) [ "$status" -eq 0 ] || fail "status $status after $1 $2" ;;
    esac
    [ "$(cat "$tmp/listed")" = "$3" ] || fail "after $1 $2 the engine says $(cat "$tmp/listed" "$tmp/said")"
}
judged '' 'hazards 2' 'refused 1 34'
# What six bytes hold is a number, and too great for its field; more is none.
judged '/^clear-zone/d' 'clear-zone 4294967296' 'refused 3 6'
judged '/^clear-zone/d' 'clear-zone 4398046511103' 'refused 3 6'
judged '/^clear-zone/d' 'clear-zone 4398046511104' 'refused 2 9'
judged '/^clear-zone/d' 'clear-zone 18446744073709551615' 'refused 2 9'
judged '' 'panel 0' 'refused 3 14'
judged '' 'panel 10001' 'refused 3 14'
judged '3s/.*/hazards 257/' 'panel 10000' 'refused 3 15'
# A kind line changes the first number alone: of kind 1 the panel length is
# taken for the hazard count, of kind 2 the count for a panel length.
judged '3s/.*/kind 1/' 'panel 4000' 'refused 3 14'
judged '' 'kind 2' 'refused 7 23'
judged '/^road/d' 'road 5 5' 'refused 3 3'
judged '/^road/d' 'road 0 2000000001' 'refused 3 3'
judged '/^road/d' 'road 999999999999 1000000000001' 'refused 3 3'
judged '/^road/d' 'road 1000000000000 1000000000001' 'refused 3 2'
judged 's/^hazard right/hazard 2/' '' 'refused 4 0'
judged 's/ 5000 / 3999 /' '' 'refused 5 0'
judged '' 'hazards 0' 'refused 7 22'
# One millimetre nearer to the road's begin than the approach is long: nothing
# wrong, but it hangs over.
judged 's/ 200000 / 44226 /' '' 'R 0 210000 3
total 210000 0
overhang R 1 0'
judged 's/ 200000 / 44227 /' '' 'R 0 210000 3
total 210000 0'

# A kind that is neither 1 nor 2 is no job in bytes for the programs that take
# text too.
for kind in 0 3; do
    { cat "$printed" && echo "kind $kind"; } | "$jobtext" >"$tmp/job" || fail "no bytes of kind $kind"
    status=0
    "$BUILD/listing" -p <"$tmp/job" >"$tmp/listed" 2>"$tmp/said" || status=$?
    [ "$status" -eq 2 ] && [ ! -s "$tmp/listed" ] || fail "status $status of kind $kind"
done

# Text that cannot be read: the line is named, the status is 2, no byte comes
# out. Arguments: the line's number and a sed command for the printed job.
# texts.txt has the messages, word for word.
unread() {
    status=0
    sed "$2" "$printed" | "$jobtext" >"$tmp/job" 2>"$tmp/said" || status=$?
    [ "$status" -eq 2 ] || fail "status $status after $2"
    [ ! -s "$tmp/job" ] || fail "bytes after $2"
    grep -q "^jobtext: line $1, column [0-9]*: " "$tmp/said" || fail "after $2 it says $(cat "$tmp/said")"
}
last=$(($(wc -l <"$printed") + 1))
unread 4 '4s/.*/roads 0 1000000/'
unread 4 '4s/.*/road 0/'
unread 4 '4s/.*/road 0 1000000 5/'
unread 4 '4s/.*/road 0 1,000,000/'
unread 4 '4s/.*/road 0 -1/'
unread 4 '4s/.*/road 0 +1/'
unread 4 '4s/.*/road 0 0x10/'
unread 4 '4s/.*/road 0 18446744073709551616/'
unread 4 '4s/.*/road 0 1 2 3 4 5 6 7 8/'
unread 5 '4p'
unread 16 's/^hazard right/hazard middle/'
unread 16 's/^\(hazard right.*\) 3$/\1/'
unread 15 '14s/.*/panel 4000/;14p'
unread 14 '14s/.*/panel/'
unread 14 '14s/.*/panel 4000 4000/'
unread "$last" '/^flare/s/^/#/'

# Bytes to text: numbers of 64 bits and sides that are none come back; bytes
# that are no job are reported, and no text comes out. Arguments: what is said,
# and the bytes in printf's form.
{ sed '/^clear-zone/d; s/^hazard right/hazard 5/' "$printed" && echo 'clear-zone 18446744073709551615'; } | "$jobtext" >"$tmp/job"
"$jobtext" -r <"$tmp/job" >"$tmp/text"
grep -qx 'clear-zone 18446744073709551615' "$tmp/text" || fail "a number of 64 bits does not come back"
grep -qx 'hazard 5 200000 210000 5000 9000 3' "$tmp/text" || fail "the side 5 does not come back"
unreadable() {
    status=0
    printf "$2" | "$jobtext" -r >"$tmp/text" 2>"$tmp/said" || status=$?
    [ "$status" -eq 2 ] || fail "status $status for bytes $2"
    [ ! -s "$tmp/text" ] || fail "text from bytes $2"
    [ "$(cat "$tmp/said")" = "jobtext: $1" ] || fail "for bytes $2 it says $(cat "$tmp/said")"
}
header='\001\000\002\001\000\001\000\000\001\001\000\000\000'
unreadable 'the bytes end inside the job' ''
unreadable 'the bytes end inside the job' "$header"
unreadable 'the bytes end inside the job' "$header\001\000\000\001\000\000"
unreadable 'bytes are left over after the job' "$header\000\000"
unreadable 'the job has more than 256 hazards' "$header\201\002"
unreadable 'a number is not in its form' '\001\200\000'
unreadable 'the job is neither of kind 1 nor of kind 2' '\003'
echo "jobtext: right bytes, wrong numbers passed on, unreadable text named by its line; bytes back to text, or reported"

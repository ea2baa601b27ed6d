#!/bin/sh
# Each sample job gives the stored output: through the C calls, and through the
# program barrier. The listing made with the calls has the overhangs too, which
# are stored beside the output of a job that has any; the program does not print
# them. Where no program is named, none is built: makers who have the archive
# alone test without it.
set -eu
tmp=$(mktemp -d)
trap 'rm -rf "$tmp"' EXIT

fail() {
    echo "jobs: $1" >&2
    exit 1
}
# Arguments: the wanted status and text, then a command. A program's status is
# looked at before what it printed.
prints() {
    status=0
    wanted_status=$1
    wanted=$2
    shift 2
    "$@" <"$tmp/job" >"$tmp/printed" 2>"$tmp/said" || status=$?
    [ "$status" -eq "$wanted_status" ] || fail "$* ends with $status for $job"
    diff "$wanted" "$tmp/printed" || fail "$* prints something else for $job"
}

[ -z "$BARRIER" ] || [ -x "$BARRIER" ] || fail "there is no program $BARRIER"
count=0
hanging=0
for job in examples/jobs/*.job; do
    "$BUILD/jobtext" <"$job" >"$tmp/job"
    # A refused job is listed nowhere but on standard error, with 1; `barrier`
    # prints its refusal, with 0.
    listed_status=0
    if grep -q '^refused' "${job%.job}.out"; then listed_status=1; fi
    grep -v '^refused' "${job%.job}.out" >"$tmp/listed" || true
    if [ -e "${job%.job}.overhang" ]; then
        cat "${job%.job}.overhang" >>"$tmp/listed"
        hanging=$((hanging + 1))
    fi
    prints "$listed_status" "$tmp/listed" "$BUILD/listing" -p
    # The same from the text itself, and from a file that is named.
    "$BUILD/listing" -p "$job" 2>"$tmp/said" | diff "$tmp/listed" - || fail "listing reads $job otherwise as text"
    [ -z "$BARRIER" ] || prints 0 "${job%.job}.out" "$BARRIER"
    # There and back: the text that is read from the bytes gives them again.
    "$BUILD/jobtext" -r <"$tmp/job" >"$tmp/text" || fail "jobtext -r ends with $? for $job"
    "$BUILD/jobtext" <"$tmp/text" >"$tmp/again" || fail "jobtext ends with $? for the text of $job"
    cmp "$tmp/job" "$tmp/again" || fail "$job does not come back from its bytes"
    # A text without comments and spare spaces comes back itself.
    "$BUILD/jobtext" -r <"$tmp/again" | diff "$tmp/text" - || fail "the text of $job does not come back"
    sed 's/#.*//; s/  */ /g; s/ $//; /^$/d' "$job" | LC_ALL=C sort >"$tmp/fields"
    LC_ALL=C sort "$tmp/text" | diff "$tmp/fields" - || fail "the text of $job has other fields"
    count=$((count + 1))
done
[ "$hanging" -gt 0 ] || fail "no sample job hangs over"
echo "jobs: $count sample jobs as stored, through the calls, $hanging of them with overhangs; each comes back as text from its bytes"
if [ -n "$BARRIER" ]; then
    echo "jobs: $count sample jobs as stored, through the program"
else
    echo "jobs: NOT through the program: it is not built here"
fi

# An input that cannot be read is not an empty job, and what could not be
# written is not said to be done.
# Arguments: what is said, then a command.
ends_with_2() {
    status=0
    said=$1
    shift
    "$@" 2>"$tmp/said" || status=$?
    [ "$status" -eq 2 ] || fail "$* ends with $status"
    [ "$(cat "$tmp/said")" = "$said" ] || fail "$* says $(cat "$tmp/said")"
}
for command in listing 'listing -p' 'listing --csv runs' corners 'jobtext -r' jobtext; do
    input=$tmp/job
    if [ "$command" = jobtext ]; then input=$job; fi
    tool=${command%% *}
    # A command and its flag: they stand unquoted.
    ends_with_2 "$tool: standard input cannot be read" "$BUILD/"$command <. >"$tmp/printed"
    [ ! -s "$tmp/printed" ] || fail "$command prints for a folder"
    ends_with_2 "$tool: examples cannot be read" "$BUILD/"$command examples >"$tmp/printed"
    ends_with_2 "$tool: no/such/file cannot be read" "$BUILD/"$command no/such/file >"$tmp/printed"
    ends_with_2 "$tool: standard output cannot be written" "$BUILD/"$command <"$input" >/dev/full
    # The job's own file, by its name or by a link, is not written to.
    cp "$input" "$tmp/own"
    ln -sf own "$tmp/link"
    ln -f "$tmp/own" "$tmp/hard"
    for name in own link hard; do
        ends_with_2 "$tool: $tmp/$name is the job itself and is not written over" "$BUILD/"$command "$tmp/$name" 1<>"$tmp/own"
        ends_with_2 "$tool: $tmp/$name is the job itself and is not written over" "$BUILD/"$command "$tmp/$name" >>"$tmp/own"
    done
    ends_with_2 "$tool: standard input is the job itself and is not written over" "$BUILD/"$command <"$tmp/own" 1<>"$tmp/own"
    cmp "$input" "$tmp/own" || fail "$command writes over the job"
done
echo "jobs: listing, corners and jobtext end with 2 where they cannot read or write, and leave the job's own file alone"

# How they are used: --help on standard output, with 0; a wrong option, a second
# file, words that do not go together: the usage on standard error, with 2.
for tool in jobtext listing corners; do
    "$BUILD/$tool" --help </dev/null >"$tmp/printed" 2>"$tmp/said" || fail "$tool --help ends with $?"
    [ ! -s "$tmp/said" ] && grep -q "^usage: $tool " "$tmp/printed" || fail "$tool --help"
    "$BUILD/$tool" --help >/dev/full 2>"$tmp/said" && fail "$tool --help writes to a full output"
    for words in -x --xyz '-r -x' "$job $job" '--stations' '--stations miles' '--csv' '--csv all' '-p --csv runs' '--csv runs 0 5' '-p 0 5' '-p --stations km'; do
        status=0
        "$BUILD/$tool" $words <"$tmp/job" >"$tmp/printed" 2>"$tmp/said" || status=$?
        [ "$status" -eq 2 ] || fail "$tool $words ends with $status"
        [ ! -s "$tmp/printed" ] || fail "$tool $words prints something"
        grep -q "^usage: $tool " "$tmp/said" && grep -q "^$tool: " "$tmp/said" || fail "$tool $words says $(cat "$tmp/said")"
    done
done
echo "jobs: --help, and the usage where a program is used wrongly"

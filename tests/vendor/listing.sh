#!/bin/sh
# The listing's tables: the stored one; for each sample job the runs that are
# planned, to the millimetre, totals by level that add them up, and lots that add
# up to the road wherever their boundaries are; a refusal in words; lots that are
# none.
set -eu
tmp=$(mktemp -d)
trap 'rm -rf "$tmp"' EXIT

fail() {
    echo "listing: $1" >&2
    exit 1
}

"$BUILD/jobtext" <examples/jobs/two-sided.job >"$tmp/job"
"$BUILD/listing" 0 500 1000.250 2000 <"$tmp/job" >"$tmp/printed" 2>"$tmp/said" || fail "status $?"
[ ! -s "$tmp/said" ] || fail "said of lots that are the road: $(cat "$tmp/said")"
diff examples/listing.out "$tmp/printed" || fail "another table than examples/listing.out"

# The job of examples/README.md prints what stands there, without lots and with
# them; nothing is warned of.
sed -n '/^    road /,/^    hazard /{s/^    //;p;}' examples/README.md >"$tmp/my.job"
"$BUILD/listing" "$tmp/my.job" >"$tmp/printed" || fail "status $? for the job of examples/README.md"
sed -n '/^    Right side, in metres$/,/^$/s/^    //p' examples/README.md | diff - "$tmp/printed" || fail "examples/README.md says something else"
lots=$(sed -n 's|^    target/examples/listing my.job \([0-9. ]*\)$|\1|p' examples/README.md)
[ -n "$lots" ] || fail "examples/README.md has no lots"
# Stations are several words: they stand unquoted.
"$BUILD/listing" "$tmp/my.job" $lots >"$tmp/printed" 2>"$tmp/said" || fail "status $? for the lots of examples/README.md"
[ ! -s "$tmp/said" ] || fail "the lots of examples/README.md: $(cat "$tmp/said")"
# Its message for a length with a point.
sed 's/ 9000 3 / 9.000 3 /' "$tmp/my.job" >"$tmp/wrong.job"
"$BUILD/listing" "$tmp/wrong.job" >"$tmp/printed" 2>"$tmp/said" && fail "9.000 is read"
sed 's/^/    /' "$tmp/said" | grep -qxFf - examples/README.md || fail "examples/README.md has not: $(cat "$tmp/said")"

# Reads a table, in millimetres again: runs as listing -p has them. A row of
# totals or of a lot ends with the sum of its levels; lots and what lies outside
# them add up, level by level, to the totals, and these to the runs.
tables='
    function mm(metres) { sub(/\./, "", metres); return metres + 0 }
    function wrong(what) { print "wrong: " what; exit }
    # The values behind a row, from field number first on: levels, then their sum.
    function row(into, first,    i, sum) {
        sum = 0
        for (i = first; i < NF; i++) { into[i - first] = mm($i); sum += mm($i) }
        if (sum != mm($NF) || NF - first != levels) wrong("the sum in: " $0)
    }
    / side, in metres$/ { side = substr($1, 1, 1); split("", by) }
    /all levels$/ { levels = 0; for (i = 1; i <= NF; i++) if ($i ~ /^NC-/) level[levels++] = $i }
    $4 ~ /^NC-/ && $1 ~ /^[0-9]/ {
        printf "%s %.0f %.0f %s\n", side, mm($1), mm($2), substr($4, 4)
        if (mm($2) - mm($1) != mm($3)) wrong("the length in: " $0)
        by[$4] += mm($3)
    }
    $1 == "total" { row(total, 2); for (i = 0; i < levels; i++) if (total[i] != by[level[i]]) wrong("the total of " level[i]); split("", lots) }
    $1 ~ /^[0-9]/ && $4 !~ /^NC-/ { row(lot, 3); for (i = 0; i < levels; i++) lots[i] += lot[i] }
    $1 == "all" && $2 == "lots" { row(all, 3); for (i = 0; i < levels; i++) if (all[i] != lots[i]) wrong("all lots"); seen++ }
    $1 == "outside" { row(out, 4); for (i = 0; i < levels; i++) if (out[i] + all[i] != total[i]) wrong("outside the lots") }
    /neighbouring contracts/ { printf "overhang %s %.0f %.0f\n", side, mm($6), mm($10) }
    END { if (seen < wanted) wrong("no lots") }
'
# Arguments: how many sides have lots, then the lots' stations.
tabled() {
    wanted=$1
    shift
    "$BUILD/listing" "$@" <"$tmp/job" >"$tmp/printed" 2>"$tmp/said" || fail "status $? for $job with lots $*"
    awk -v wanted="$wanted" "$tables" "$tmp/printed" >"$tmp/runs"
    grep '^[RLo]' "$tmp/runs" | LC_ALL=C sort >"$tmp/found" || true
    if grep '^wrong' "$tmp/runs"; then fail "$job with lots $*"; fi
    diff "$tmp/wanted" "$tmp/found" || fail "$job with lots $*: other runs"
}
count=0
for job in examples/jobs/*.job; do
    "$BUILD/jobtext" <"$job" >"$tmp/job"
    if grep -q '^refused' "${job%.job}.out"; then
        status=0
        "$BUILD/listing" "$job" >"$tmp/printed" 2>"$tmp/said" || status=$?
        [ "$status" -eq 1 ] && [ ! -s "$tmp/printed" ] || fail "$job: status $status, printed $(cat "$tmp/printed")"
        grep -qx 'listing: the job is refused 5 with 0: hazard 0 leaves the barrier no room to deflect' "$tmp/said" || fail "$job: no words"
        grep -q '^ its near offset n is below ' "$tmp/said" || fail "$job: no remedy"
        grep -q "^ hazard 0 is .*line $(grep -n '^hazard' "$job" | sed -n '1s/:.*//p')\$" "$tmp/said" || fail "$job: not its line: $(cat "$tmp/said")"
        continue
    fi
    "$BUILD/listing" -p <"$tmp/job" | grep -v '^total' | LC_ALL=C sort >"$tmp/wanted" || true
    sides=$(cut -c 1 "${job%.job}.out" | grep '[RL]' | sort -u | wc -l)
    tabled 0
    tabled "$sides" 0 1000000000
    tabled "$sides" 0.001 200.5 999000199.999
    # Boundaries on the runs' own stations, twice, and in the middle of nowhere.
    cuts=$(awk '/^[RL]/ { print $2; print $3 } END { print 0; print 123456 }' "$tmp/wanted" | sort -n | awk '{ printf "%d.%03d %d.%03d ", $1 / 1000, $1 % 1000, $1 / 1000, $1 % 1000 }')
    # Stations are several words: they stand unquoted.
    tabled "$sides" $cuts
    count=$((count + 1))
done

# A field out of its range is named, of bytes and of text, where the hazard's name
# and line are named too.
sed 's/ 9000 3$/ 4000 3 "head # wall"/' examples/jobs/printed.job >"$tmp/text"
"$BUILD/jobtext" <"$tmp/text" >"$tmp/job"
for input in job text; do
    status=0
    "$BUILD/listing" <"$tmp/$input" >"$tmp/printed" 2>"$tmp/said" || status=$?
    [ "$status" -eq 1 ] && [ ! -s "$tmp/printed" ] || fail "status $status for a field out of its range"
    grep -qx ' far offset f of hazard 0 may be n to 60000' "$tmp/said" || fail "the field of refusal 4"
done
grep -qx ' hazard 0 is head # wall, line 16' "$tmp/said" || fail "the name of refusal 4: $(cat "$tmp/said")"

# Lots that are none: status 2, something said, nothing printed.
"$BUILD/jobtext" <examples/jobs/printed.job >"$tmp/job"
for lots in 5 '5 4' '1 x' '0 -1' '0 +5' '1,5 2' '0 1000000001' "$(seq -s ' ' 66)" '-p 5' '-q' '0 1+25' '0+500 0+499.999' '0 1000001+000' '--lots x' '--lots 5'; do
    status=0
    "$BUILD/listing" $lots <"$tmp/job" >"$tmp/printed" 2>"$tmp/said" || status=$?
    [ "$status" -eq 2 ] || fail "it ends with $status for the lots $lots"
    grep -q '^listing: ' "$tmp/said" || fail "nothing said of the lots $lots"
    [ ! -s "$tmp/printed" ] || fail "printed with the lots $lots"
done
"$BUILD/listing" $(seq -s ' ' 65) <"$tmp/job" >"$tmp/printed" 2>"$tmp/said" || fail "64 lots"

# Lots that are not the road's, millimetres for metres say, are warned of and
# listed all the same; of a refused job nothing is said but the refusal.
warned() { # STATIONS WARNING...
    stations=$1
    shift
    "$BUILD/listing" $stations <"$tmp/job" >"$tmp/printed" 2>"$tmp/said" || fail "status $? for the lots $stations"
    for words; do echo "listing: warning: the lots, $words the road, 0.000 to 1000.000 (metres)"; done >"$tmp/warnings"
    diff "$tmp/warnings" "$tmp/said" || fail "the warning of the lots $stations"
    grep -q 'all lots' "$tmp/printed" || fail "the lots $stations are not listed"
}
warned '0 1000'
warned '0 300 999.999' '0.000 to 999.999, do not cover'
warned '0.001 1000' '0.001 to 1000.000, do not cover'
warned '0 300000 1000000' '0.000 to 1000000.000, go past'
warned '100 1001' '100.000 to 1001.000, do not cover' '100.000 to 1001.000, go past'
if "$BUILD/listing" examples/jobs/refused.job 0 5 >"$tmp/printed" 2>"$tmp/said"; then fail "status 0 for a refused job"; fi
if grep 'warning' "$tmp/said"; then fail "warned of a refused job's lots"; fi

# Kilometres: read as lots and in the text, printed where they are asked for, and
# nothing else is altered.
sed 's/^road 0 1000000$/road 0+000 1+000.000/; s/ 200000 210000 / 0+200 0+210.000 /' examples/jobs/printed.job >"$tmp/kilometres"
cmp "$tmp/kilometres" examples/jobs/printed.job >"$tmp/differs" && fail "no kilometres in the text"
"$BUILD/jobtext" "$tmp/kilometres" | cmp - "$tmp/job" || fail "kilometres are other stations"
"$BUILD/listing" "$tmp/job" 0 500 1000 >"$tmp/metres" 2>"$tmp/said" || fail "lots in metres"
"$BUILD/listing" "$tmp/job" --lots 0+000 0+500.000 1+000 >"$tmp/printed" 2>"$tmp/said" || fail "lots in kilometres"
diff "$tmp/metres" "$tmp/printed" || fail "lots in kilometres are others"
"$BUILD/listing" --stations km "$tmp/job" 0 500 1000 >"$tmp/printed" 2>"$tmp/said" || fail "--stations km"
grep -q '^ *0+155\.773 *0+210\.000 *54\.227  NC-3$' "$tmp/printed" || fail "--stations km: $(cat "$tmp/printed")"
grep -q '^ *0+500\.000 *1+000\.000 *0\.000 *0\.000$' "$tmp/printed" || fail "lots with --stations km"
sed 's/\([0-9]\)+\([0-9][0-9][0-9]\)\./\1\2./g; s/ 0*\([0-9][0-9]*\.\)/ \1/g; s/ 0*\([0-9]\)/ \1/g' "$tmp/printed" | tr -s ' ' >"$tmp/again"
tr -s ' ' <"$tmp/metres" | diff - "$tmp/again" || fail "with --stations km other numbers"
echo "listing: examples/listing.out; $count sample jobs in tables whose runs, totals and lots agree, refusals in words, wrong lots refused or warned of"

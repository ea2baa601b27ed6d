#!/bin/sh
# The corners of an approach, bit by bit; and the drawing made from them, which
# is the one in docs/figures. Where there is nothing to draw, nothing is written.
set -eu
tmp=$(mktemp -d)
trap 'rm -rf "$tmp"' EXIT

fail() {
    echo "corners: $1" >&2
    exit 1
}

$CC -std=c99 -O2 -Wall -Wextra -Werror -pedantic -Iinclude tests/vendor/corners.c -L"$LIBDIR" -lbarrier_engine -o "$tmp/corners"
"$tmp/corners"
echo "corners: every float as stated, bit by bit, and every refusal"

"$BUILD/corners" examples/jobs/corners.job >"$tmp/drawn" || fail "it ends with $?"
diff docs/figures/corners.svg "$tmp/drawn" || fail "docs/figures/corners.svg is another drawing"
# From bytes it is the same but for the names.
"$BUILD/jobtext" <examples/jobs/corners.job >"$tmp/job"
"$BUILD/corners" <"$tmp/job" >"$tmp/unnamed" || fail "it ends with $? for bytes"
sed 's/ &#8220;.*&#8221;//' "$tmp/drawn" | diff - "$tmp/unnamed" || fail "bytes are drawn otherwise"

# No label leaves the sheet, a letter being at most 0.6 of its height wide; the labels of
# the road's ends do not meet, and no hazard's number stands on one or on a clear
# zone's line.
legible() { # DRAWING
    awk -F '"' '
        function wrong(what) { print what ": " $0; found = 1 }
        /<svg / { sheet = $4 }
        /stroke-dasharray/ { split($2, at, /[ H]/); zone[++zones] = at[2] }
        /<text / {
            words = $0; gsub(/<[^>]*>/, "", words); gsub(/^ */, "", words); gsub(/&#?[a-z0-9]*;/, "_", words)
            size = match($0, / font-size="[0-9]*/) ? substr($0, RSTART + 12, RLENGTH - 12) : 13
            left = $2; wide = 0.6 * size * length(words)
            if ($5 == " text-anchor=") left -= $6 == "end" ? wide : $6 == "middle" ? wide / 2 : 0
            if (left < 0 || left + wide > sheet) wrong("off the sheet")
        }
        />road (begin|end) / {
            if (ends++ && $4 == foot && left < right && left + wide > first) wrong("over another")
            foot = $4; first = left; right = left + wide
        }
        /fill="#b3362b">[0-9]/ {
            for (i = 1; i <= zones; i++) if (zone[i] > $4 - 12 && zone[i] < $4 + 3) wrong("on a line")
            if ($4 > foot - 12) wrong("on the label of an end")
        }
        END { exit found || ends != 2 }' "$1"
}

# Stations of 13 digits, and hazards by either end of the road.
legible_job() { # ROAD HAZARD
    sed "/^hazard/d; s/^road .*/road $1/" examples/jobs/corners.job >"$tmp/made.job"
    echo "hazard $2" >>"$tmp/made.job"
    "$BUILD/jobtext" <"$tmp/made.job" >"$tmp/job"
    "$BUILD/corners" <"$tmp/job" >"$tmp/drawn" || fail "road $1, hazard $2: status $?"
    grep -q ">road $3<" "$tmp/drawn" || fail "road $1, hazard $2: no label 'road $3'"
    legible "$tmp/drawn" || fail "road $1, hazard $2"
}
legible_job '999999400000 1000000000000' 'right 999999400000 1000000000000 7000 9000 3' 'end 1000000000.000'
legible_job '999999400000 1000000000000' 'left 999999999000 1000000000000 7000 8800 3' 'end 1000000000.000'
legible_job '999999400000 1000000000000' 'right 999999400000 999999400001 7000 60000 3' 'begin 999999400.000'
legible_job '999999400000 1000000000000' 'right 999999400000 999999400001 7000 60000 3' 'end 1000000000.000, off this sheet'
legible_job '999999990000 1000000000000' 'right 999999990000 1000000000000 7000 9000 3' 'end 1000000000.000'

# As many hazards as there can be, with names: two columns, each in the sheet.
{
    sed '/^hazard/d; s/^road .*/road 0 2000000000/' examples/jobs/corners.job
    awk 'BEGIN { for (i = 0; i < 256; i++) printf "hazard %s %d %d 5000 9000 3 \"<tree> & %050d\"\n", i % 2 ? "left" : "right", 7000000 * i + 100000, 7000000 * i + 101000, i }'
} >"$tmp/made.job"
"$BUILD/corners" "$tmp/made.job" >"$tmp/drawn" || fail "256 hazards: status $?"
legible "$tmp/drawn" || fail "256 hazards"
[ "$(grep -c '>hazard [0-9]* &#8220;&lt;tree&gt; &amp; 0[0-9]*&#8221;, ' "$tmp/drawn")" -eq 256 ] || fail "256 hazards: not all names"
high=$(sed -n '1s/.*" height="\([0-9]*\).*/\1/p' "$tmp/drawn")
[ "$high" -le 2700 ] || fail "256 hazards: $high high"
if command -v xmllint >"$tmp/found"; then xmllint --noout "$tmp/drawn"; fi
grep -q 'Each approach is drawn as if its hazard stood alone' "$tmp/drawn" || fail "it does not say that hazards are drawn alone"

# Every sample job: a drawing with a line for each hazard, or its refusal.
for job in examples/jobs/*.job; do
    "$BUILD/jobtext" <"$job" >"$tmp/job"
    status=0
    "$BUILD/corners" <"$tmp/job" >"$tmp/drawn" 2>"$tmp/said" || status=$?
    if grep -q '^refused' "${job%.job}.out"; then
        [ "$status" -eq 1 ] || fail "$job: status $status"
        [ ! -s "$tmp/drawn" ] || fail "$job: refused, and drawn"
        # In words behind the number and the value, and what can be done.
        sed 's/^refused \([0-9]*\) \([0-9]*\)$/corners: the job is refused \1 with \2/' "${job%.job}.out" >"$tmp/refused"
        sed -n '1s/: [a-z][a-z 0-9]*$//p' "$tmp/said" | diff "$tmp/refused" -
        [ "$(grep -c '^ ' "$tmp/said")" -ge 1 ] || fail "$job: no remedy in $(cat "$tmp/said")"
    else
        [ "$status" -eq 0 ] || fail "$job: status $status"
        hazards=$(grep -c '^hazard' "$job") || [ "$hazards" -eq 0 ]
        lines=$(grep -c '>hazard [0-9]*, ' "$tmp/drawn") || [ "$lines" -eq 0 ]
        "$BUILD/corners" --stations km "$job" >"$tmp/kilometres" || fail "$job: status $? with --stations km"
        legible "$tmp/kilometres" || fail "$job: its drawing with --stations km"
        [ "$hazards" -eq "$lines" ] || fail "$job: $lines of $hazards hazards"
        legible "$tmp/drawn" || fail "$job: its drawing"
        if command -v xmllint >"$tmp/found"; then xmllint --noout "$tmp/drawn"; fi
    fi
done

echo "corners: the drawing is docs/figures/corners.svg; each sample job is drawn, or its refusal said"

#!/bin/sh
# The figures are drawn from sample jobs. Checked against the jobs and their
# stored outputs: what the figure's description says is printed, every visible
# text that has a digit, and the bars of hazards, approach lengths and runs. A
# job that changes has to be drawn anew.
set -eu
tmp=$(mktemp -d)
trap 'rm -rf "$tmp"' EXIT

fail() {
    echo "figures: $1" >&2
    exit 1
}

described() { # JOB FIGURE
    while read -r line; do
        grep -qxF "    $line" "docs/figures/$2.svg" || fail "$2.svg does not have '$line' of $1.out"
    done <"examples/jobs/$1.out"
}

# The texts of a figure that have a digit, one on a line, in the file's order.
texts() { # FIGURE
    sed -n '/<desc/,/<\/desc>/d; /<text/p' "docs/figures/$1.svg" |
        sed 's/<\/text>/\n/g' | sed 's/<[^>]*>//g; s/^ *//' | grep '[0-9]'
}

# Each line of the file stands in the figure, as a part of one of its lines.
drawn() { # FIGURE FILE
    while read -r shape; do
        grep -qF -- "$shape" "docs/figures/$1.svg" || fail "$1.svg does not have $shape"
    done <"$2"
}

# Each hazard of a job planned alone: first, end, and its envelope's start, end
# and level.
envelopes() { # JOB
    grep '^hazard ' "examples/jobs/$1.job" | while read -r hazard side first end rest; do
        { grep -v '^hazard ' "examples/jobs/$1.job" && echo "$hazard $side $first $end $rest"; } >"$tmp/alone.job"
        "$BUILD/jobtext" <"$tmp/alone.job" >"$tmp/alone"
        "$BUILD/listing" -p <"$tmp/alone" | awk -v first="$first" -v end="$end" '/^R/ { print "envelope", first, end, $2, $3, $4 }'
    done
}

# What awk needs of a job: its fields, its envelopes, and the runs as stored.
facts() { # JOB
    grep '^[a-z]' "examples/jobs/$1.job"
    envelopes "$1"
    cat "examples/jobs/$1.out"
}

common='
    # 1234567 as 1,234,567.
    function thousands(n) {
        return n < 1000 ? n "" : thousands(int(n / 1000)) sprintf(",%03d", n % 1000)
    }
    # A coordinate to a tenth, without a needless .0.
    function tenth(x) { x = sprintf("%.1f", x); sub(/\.0$/, "", x); return x }
    $1 == "envelope" { e++; first[e] = $2; last[e] = $3; from[e] = $4; to[e] = $5; level[e] = $6; next }
    $1 == "R" { r++; distance[r] = $2 - end; start[r] = $2; end = $3; stop[r] = end; length_of[r] = $3 - $2; run[r] = $4; next }
    { field[$1] = $2; second[$1] = $3 }
'

# No label comes within 8 units of the edge, a letter being about half as wide as
# the text is high.
inside() { # FIGURE
    sed '/<desc/,/<\/desc>/d; s/<\/text>/\n/g' "docs/figures/$1.svg" | awk '
        function of(name) { return match($0, " " name "=\"[^\"]*\"") ? substr($0, RSTART + length(name) + 3, RLENGTH - length(name) - 4) : "" }
        /<svg / { wide = of("width") + 0 }
        /<g / { anchor = of("text-anchor") }
        /<\/g>/ { anchor = "" }
        /<text / {
            sub(/.*<text /, "<text "); own = of("text-anchor"); if (own == "") own = anchor
            size = of("font-size"); x = of("x") + 0; words = $0; gsub(/<[^>]*>/, "", words); gsub(/&[a-z]*;/, "_", words)
            long = length(words) * (size ? size : 13) / 2
            if (own == "end") x -= long; if (own == "middle") x -= long / 2
            if (x < 8 || x + long > wide - 8) { print; found = 1 }
            seen++
        }
        END { exit found || seen < 10 }' || fail "$1.svg has the labels above at its edge"
}
for figure in envelope flare schedule; do inside "$figure"; done

# The schedule of one side: envelopes, levels, records and bytes.
facts levels >"$tmp/levels"
awk "$common"'
    # The number form, in hex.
    function form(n,    s) {
        for (s = ""; n > 127; n = int(n / 128)) s = s sprintf("%02X ", 128 + n % 128)
        return s sprintf("%02X", n)
    }
    END {
        print "Right side of a one-way road of " second["road"] / 1000 " m, continuity limit G " thousands(field["continuity"]) ". Lengths and stations in millimetres."
        for (i = 1; i <= e; i++) print "NC-" level[i] ", [" from[i] ", " to[i] ")"
        for (v = 6; v >= 1; v--) print "NC-" v
        print thousands(from[2] - to[1]) " is below G:"
        print "filled at NC-" level[2] ", not at NC-" level[1]
        print thousands(distance[3]) ": a gap"
        print thousands(distance[5]) " is not below G:"
        for (i = 1; i <= r; i++) print "NC-" run[i]
        for (i = 1; i <= r; i++) {
            if (start[i] != stop[i - 1]) print thousands(start[i])
            print thousands(stop[i])
        }
        bytes = form(r)
        for (i = 1; i <= r; i++) {
            print thousands(distance[i]); print thousands(length_of[i]); print run[i]
            bytes = bytes " | " form(distance[i]) " " form(length_of[i]) " " form(run[i])
        }
        print bytes
    }' "$tmp/levels" >"$tmp/wanted"
texts schedule >"$tmp/texts"
diff "$tmp/wanted" "$tmp/texts" || fail "schedule.svg says something else than the levels job"
awk "$common"'
    function bar(begin, end, y, height) {
        return "<rect x=\"" tenth(62 + begin / 1000) "\" y=\"" y "\" width=\"" tenth((end - begin) / 1000) "\" height=\"" height "\""
    }
    END {
        split("#a9cfe8 #6fb0da #3a86bd - #0b3c6f", colour, " ")
        for (i = 1; i <= e; i++) {
            fill = " fill=\"" colour[level[i]] "\""
            print bar(from[i], first[i], 76 + 22 * i, 14) fill " fill-opacity="
            print bar(first[i], last[i], 76 + 22 * i, 14) fill "/>"
        }
        for (i = 1; i <= r; i++) print bar(start[i], stop[i], 428, 28) " fill=\"" colour[run[i]] "\"/>"
    }' "$tmp/levels" >"$tmp/shapes"
drawn schedule "$tmp/shapes"
described levels schedule

# One hazard reached by both traffics. Without a flare the approach length is
# L x (R - m) / R; here the far offset is at the clear zone or beyond it.
facts k4 >"$tmp/k4"
awk "$common"'
    function formula(who, from_where, short, sum, l, m, up) {
        return who ", from the " from_where " (" short " = " thousands(sum) " &lt; C): " thousands(l) " × (" thousands(c) " − " thousands(m) ") / " thousands(c) " = " \
            thousands(int(l * (c - m) / c)) sprintf(".%d", (l * (c - m) % c) * 10 / c + 0.5) ", up to " thousands(up)
    }
    $1 == "hazard" { near = $5; far = $6 }
    END {
        c = field["clear-zone"]; lf = field["runout-forward"]; lo = field["runout-opposite"]
        m = field["barrier-offset"]; w = field["centreline"]
        print "C " thousands(c); print "C " thousands(c)
        print "n " thousands(near); print "f " thousands(far)
        print "barrier over the envelope, NC-" run[1]
        print "barrier offset M " thousands(m); print "edge to centreline W " thousands(w)
        print "runout length LF " thousands(lf); print "runout length LO " thousands(lo)
        print "approach length " thousands(first[1] - start[1]); print thousands(stop[1] - last[1])
        print "envelope " thousands(field["total"])
        print thousands(first[1] - lf); print thousands(start[1]); print thousands(first[1])
        print thousands(last[1]); print thousands(stop[1]); print thousands(last[1] + lo)
        print formula("forward", "edge", "n", near, lf, m, first[1] - start[1])
        print formula("opposite", "centreline", "n + W", near + w, lo, m + w, stop[1] - last[1])
    }' "$tmp/k4" >"$tmp/wanted"
texts envelope >"$tmp/texts"
diff "$tmp/wanted" "$tmp/texts" || fail "envelope.svg says something else than the k4 job"
awk "$common"'
    function along(station) { return 60 + (station - 90000) / 300 }
    $1 == "hazard" { near = $5; far = $6 }
    END {
        print "<rect x=\"" tenth(along(first[1])) "\" y=\"" tenth(220 + near / 50) "\" width=\"" tenth((last[1] - first[1]) / 300) "\" height=\"" tenth((far - near) / 50) "\""
        print "<path d=\"M" tenth(along(start[1])) " " tenth(220 + field["barrier-offset"] / 50) "H" tenth(along(stop[1])) "\""
        print "<path d=\"M" tenth(along(start[1])) " 500H" tenth(along(stop[1])) "\""
    }' "$tmp/k4" >"$tmp/shapes"
drawn envelope "$tmp/shapes"
described k4 envelope

# The approach of one hazard, with a flare; the far offset is at the clear zone.
facts printed >"$tmp/printed"
approach='
    $1 == "hazard" { near = $5; far = $6 }
    END {
        c = field["clear-zone"]; l = field["runout-forward"]; m = field["barrier-offset"]
        a = field["flare"]; b = second["flare"]; t = field["straight"]
        length_ = first[1] - start[1]; bend = first[1] - t; end_ = m + int(b * (length_ - t) / a)
    }
'
awk "$common$approach"'
    END {
        print "clear zone C " thousands(c); print "n " thousands(near); print "f " thousands(far)
        print "station " thousands(start[1]); print "offset " thousands(end_)
        print "station " thousands(bend)
        print "flare, " b " across for " a " along"
        print "barrier offset M " thousands(m)
        print "in the flare " thousands(length_ - t); print "T " thousands(t)
        print "approach length " thousands(length_); print "runout length LF " thousands(l)
        print "run " thousands(length_of[1]) ", NC-" run[1]
        print thousands(first[1] - l); print thousands(start[1]); print thousands(first[1]); print thousands(last[1])
        whole = l * (a * c + b * t - a * m) / (b * l + a * c)
        print "length: " thousands(l) " × (" a " × " thousands(c) " + " b " × " thousands(t) " − " a " × " thousands(m) ") / (" \
            b " × " thousands(l) " + " a " × " thousands(c) ") = " thousands(int(whole)) sprintf(".%02d", (whole - int(whole)) * 100 + 0.5) ", up to " thousands(length_)
        print "offset of the upstream end: " thousands(m) " + " b " × (" thousands(length_) " − " thousands(t) ") / " a " = " \
            thousands(end_) sprintf(".%d", (b * (length_ - t) % a) * 10 / a + 0.5) ", down to " thousands(end_)
    }' "$tmp/printed" >"$tmp/wanted"
texts flare >"$tmp/texts"
diff "$tmp/wanted" "$tmp/texts" || fail "flare.svg says something else than the printed job"
awk "$common$approach"'
    function along(station) { return tenth(60 + (station - 95000) / 150) }
    function across(offset) { return tenth(180 + offset / 30) }
    END {
        print "<path d=\"M" along(start[1]) " " across(end_) "L" along(bend) " " across(m) "H" along(last[1]) "\""
        print "<path d=\"M" along(first[1] - l) " 180L" along(first[1]) " " across(c) "\""
        print "<rect x=\"" along(first[1]) "\" y=\"" across(near) "\" width=\"" tenth((last[1] - first[1]) / 150) "\" height=\"" tenth((far - near) / 30) "\""
        print "<path d=\"M" along(start[1]) " 520H" along(bend) "\""
        print "<path d=\"M" along(bend) " 520H" along(first[1]) "\""
        print "<path d=\"M" along(start[1]) " 550H" along(first[1]) "\""
        print "<path d=\"M" along(first[1] - l) " 580H" along(first[1]) "\""
        print "<path d=\"M" along(start[1]) " 610H" along(stop[1]) "\""
    }' "$tmp/printed" >"$tmp/shapes"
drawn flare "$tmp/shapes"
described printed flare
echo "figures: descriptions, numbers and bars as the jobs levels, k4 and printed and their stored outputs have them"

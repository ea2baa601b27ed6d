#!/bin/sh
# The page's words, its calls' names and structs, its ranges and limits are the
# header's, and it is one file that names no host. Needs python3 only: the page in
# browsers is tested by make web-test. Wrong edits of the page have to be found.
set -eu
tmp=$(mktemp -d)
trap 'rm -rf "$tmp"' EXIT

fail() {
    echo "web: $1" >&2
    exit 1
}

python3 -B tests/vendor/web.py web

# wrong FILE EDIT: the edit changes the file, and is found.
count=0
wrong() {
    rm -rf "$tmp/web"
    cp -r web "$tmp/web"
    sed -i "$2" "$tmp/web/$1"
    if cmp -s "web/$1" "$tmp/web/$1"; then fail "the edit of $1 changes nothing: $2"; fi
    if python3 -B tests/vendor/web.py "$tmp/web" >"$tmp/said" 2>&1; then fail "a wrong $1 is not found: $2"; fi
    count=$((count + 1))
}
wrong interface.json 's/"BARRIER_SCHEDULE_MAX": 5624/"BARRIER_SCHEDULE_MAX": 5625/'
wrong interface.json 's/"BARRIER_NO_APPROACH": 14/"BARRIER_NO_APPROACH": 15/'
wrong interface.json 's/"barrier_level": \["barrier_reply", "bytes", "u64", "u64"\]/"barrier_level": ["barrier_reply", "bytes", "u64"]/'
wrong interface.json 's/"barrier_plan_reply": \["number", "value", "before", "after"\]/"barrier_plan_reply": ["number", "value", "after", "before"]/'
wrong interface.json 's/"open_job_bytes": 55544/"open_job_bytes": 55536/'
wrong interface.json 's/"key": "forward", "number": 4, "letter": "LF", "low": 1/"key": "forward", "number": 4, "letter": "LF", "low": 0/'
wrong interface.json 's/"norms": \["t", "L2"\]/"norms": ["t", "L3"]/'
wrong interface.json '/"barrier_keep": \[/d'
wrong words.json 's/leaves the barrier no room to deflect/leaves the barrier room to deflect/'
wrong words.json 's/"road.deflection": \["deflection allowance D"/"road.deflection": ["deflection D"/'
wrong words.json 's/"runs.title": \["Runs", "Tramos"\]/"runs.title": ["Runs", ""]/'
wrong words.json 's/"says.12": /"says.12.barrier_withdraw_": /'
wrong words.json 's/el trabajo termina antes o dentro del número en el byte #/el trabajo termina antes/'
wrong script/words.js "s/15: \['barrier_add'\]/15: ['barrier_open']/"
wrong script/words.js "s/, 'barrier_keep', 'barrier_return', /, /"
wrong script/text.js "s/'clear-zone': {places: \[6\]/'clear-zone': {places: [7]/"
wrong script/text.js 's/^const SHOWN_MAX = 40;/const SHOWN_MAX = 41;/'
wrong script/plan.js "s/'barrier_offset'/'barrier_smallest'/"
wrong script/main.js 's/^async function begin() {/&\n    fetch("x");/'
wrong build.py "s/default-src 'none'; //"
wrong page.html 's|</header>|<script src="//cdn.example.com/x.js"></script></header>|'
echo "web: $count wrong edits of the page are found"

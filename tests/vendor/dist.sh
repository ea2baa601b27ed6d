#!/bin/sh
# What make dist delivers: made twice from one commit, in two folders, with another
# umask, time zone, locale and other times of files, it is the same bytes. Its
# checksums hold, a changed byte, a file more and a file less are found, nothing
# untracked is in it, and what is not committed, not tested or of other crates is
# refused. What is unpacked works. The prover is not needed: a program that answers
# as rt does, another MIR and a small log stand in for it.
set -eu
tmp=$(mktemp -d)
trap 'rm -rf "$tmp"' EXIT

fail() {
    echo "dist: $1" >&2
    exit 1
}

for tool in git python3 tar sha256sum; do
    command -v $tool >"$tmp/found" || {
        echo "dist: NOT run: $tool is not on this machine"
        exit 0
    }
done
# What the caller's git was told (a hook's GIT_DIR, say) is not for this one.
unset GIT_DIR GIT_INDEX_FILE GIT_WORK_TREE
export GIT_CONFIG_GLOBAL=/dev/null GIT_CONFIG_NOSYSTEM=1
export GIT_AUTHOR_NAME=a GIT_AUTHOR_EMAIL=a@b GIT_COMMITTER_NAME=a GIT_COMMITTER_EMAIL=a@b
export GIT_AUTHOR_DATE='2020-02-03T04:05:06+0000' GIT_COMMITTER_DATE='2020-02-03T04:05:06+0000'
version=$(sed -n 's/^#define BARRIER_VERSION "\(.*\)"$/\1/p' include/barrier.h)
name=barrier_engine-$version

# The MIR of the crates that the C is made of, where the toolchain writes it, and the
# C with the sums of it. And an archive and a program, where the proved ones are built.
crates=$(sed -n 's/^\([a-z_0-9]*\)\( staticlib\)*:.*/\1/p' crates.txt)
mkdir -p "$tmp/target/staticlib" "$tmp/target/bin" "$tmp/crates/barrier" "$tmp/crates/barrier_engine_c"
python3 -B - "$tmp/crates" portable/barrier_engine.c "$tmp/barrier_engine.c" <<'END'
import hashlib, pathlib, re, sys
crates, text = pathlib.Path(sys.argv[1]), pathlib.Path(sys.argv[2]).read_text()
at, crates_at = text.index('*/'), text.index('Crates, ')
head, named = text[crates_at:at], []
def with_sum(found):
    named.append(found.group(1))
    mir = crates / found.group(1) / 'out/rlib' / (found.group(1) + '.rlib') / 'toolchain/mir.json'
    mir.parent.mkdir(parents=True)
    mir.write_text(found.group(1))
    return found.group(1) + found.group(2) + hashlib.sha256(mir.read_bytes()).hexdigest()[:16]
head = re.sub(r'\b([a-z_0-9]+)((?: |\n \* ))[0-9a-f]{16}\b(?=[,.])', with_sum, head)
assert 'queries' in named, head
pathlib.Path(sys.argv[3]).write_text(text[:crates_at] + head + text[at:])
END
cp "$LIBDIR/libbarrier_engine.a" "$tmp/target/staticlib"
# The page, with a stand-in for its module: clang need not be here.
printf 'a module' >"$tmp/module"
mkdir -p "$tmp/target/web"
python3 -B web/build.py "$tmp/target/web/barrier.html" --module "$tmp/module" >"$tmp/said"
if [ -n "${BARRIER:-}" ]; then cp "$BARRIER" "$tmp/target/bin/barrier"; else echo 'no program' >"$tmp/target/bin/barrier"; fi
build() {
    rm -rf "$1/target"
    cp -r "$tmp/target" "$1/target"
    cp -r "$tmp/crates" "$1/"
}

# log FOLDER FILE: what the gate would say there.
log() {
    {
        echo 'portable: barrier_engine.c is what the proved MIR gives, byte for byte'
        (cd "$1" && PATH="$tmp/bin:$PATH" python3 -B delivery/gate.py)
        echo 'rt ci'
        for crate in $crates; do
            case $crate in
            number) echo "rt: $crate is kept: an earlier run on this machine proved the same files over the same libraries" ;;
            *) printf '%s\n' "== $crate" "fn $crate: proved" "logic=proved functions=${#crate} sum=12 native=nat" "rt: $crate proved" ;;
            esac
        done
        printf '%s\n' 'rt: ok; handles allowed: none; must-fail edits: 9 refused' '25 passed, 0 failed'
    } >"$2"
}

# dist FOLDER LOG
dist() {
    (cd "$1" && python3 -B delivery/dist.py make "$2") >"$tmp/said" 2>&1
}

# refused WORDS FOLDER LOG: with these words, and nothing is made.
refused() {
    rm -rf "$2/target/dist"
    if dist "$2" "$3"; then fail "it is made where it has to be refused: $1"; fi
    grep -q "^dist: .*$1" "$tmp/said" || fail "it is not said that $1: $(cat "$tmp/said")"
    [ ! -e "$2/target/dist" ] || fail "something is made though it is refused: $1"
}

# The repository as it stands here, with one crate for all of them, committed, with
# the checksums of what is built.
one=$tmp/one
mkdir "$one" "$tmp/bin"
cat >"$tmp/bin/rt" <<'END'
#!/bin/sh
case "$*:$PWD" in
version:*) echo a kit ;;
"check --cpu x86-64:"*/barrier) printf '%s\n' 'fn barrier::main: proved' 'axioms libc: libc::read, libc::write (2 of the 50 declared)' 'axioms os: os::c::errno (1 of the 9 declared)' \
    'logic=proved functions=4 axioms=3 target=x sum=12 native=nat' ;;
"check --cpu x86-64:"*/barrier_engine_c) printf '%s\n' 'axioms libc: none reached of the 50 declared' 'logic=proved functions=9 target=x sum=12 native=nat' ;;
*) exit 1 ;;
esac
END
chmod 755 "$tmp/bin/rt"
tar --exclude=.git --exclude=target --exclude=./tests --exclude=./crates --exclude=__pycache__ -cf - . | tar -C "$one" -xf -
mkdir -p "$one/crates"
cp -r crates/refusal "$one/crates"
rm -rf "$one/crates/refusal/out"
cp "$tmp/barrier_engine.c" "$one/portable/barrier_engine.c"
build "$one"
for pair in lib/x86_64-linux/libbarrier_engine.a=target/staticlib/libbarrier_engine.a bin/x86_64-linux/barrier=target/bin/barrier portable/barrier_engine.c=portable/barrier_engine.c; do
    sum=$(sha256sum "$one/${pair#*=}" | cut -d ' ' -f 1)
    sed -i "s#^| \`${pair%=*}\` | .*#| \`${pair%=*}\` | \`$sum\` |#" "$one/CHANGELOG.md"
done
chmod 755 "$one/examples/first.out"
# Without automatic tidying, which would go on in the background when this ends.
(cd "$one" && git init -q . && git config gc.auto 0 && git add -A && git commit -q -m one)
log "$one" "$tmp/log"

# Twice.
(umask 022 && export TZ=UTC LC_ALL=C && dist "$one" "$tmp/log") || fail "$(cat "$tmp/said")"
two="$tmp/an other/folder"
mkdir "$tmp/an other"
git clone -q "$one" "$two"
build "$two"
find "$two" -path "$two/.git" -prune -o -type f -exec chmod go-rwx {} + -exec touch -d 2001-01-01 {} +
echo untracked >"$two/examples/untracked.c"
echo untracked >"$two/include/untracked.h"
(umask 077 && export TZ=Asia/Kolkata LC_ALL=C.UTF-8 PYTHONHASHSEED=5 && dist "$two" "$tmp/log") || fail "$(cat "$tmp/said")"
cmp "$one/target/dist/$name.tar.gz" "$two/target/dist/$name.tar.gz" || fail "the second tar.gz is another"
tree() {
    (cd "$1" && find . -printf '%y %m %T@ %p\n' | LC_ALL=C sort)
}
tree "$one/target/dist/$name" >"$tmp/first_tree"
tree "$two/target/dist/$name" | diff "$tmp/first_tree" - || fail "the second folder is another"
diff -r "$one/target/dist/$name" "$two/target/dist/$name" || fail "the second folder is another"
if grep 'untracked' "$tmp/first_tree"; then fail "an untracked file is in it"; fi
# And where git writes other ends of lines into the files of the folder.
git clone -q -c core.autocrlf=true "$one" "$tmp/crlf"
build "$tmp/crlf"
dist "$tmp/crlf" "$tmp/log" || fail "$(cat "$tmp/said")"
cmp "$one/target/dist/$name.tar.gz" "$tmp/crlf/target/dist/$name.tar.gz" || fail "with other ends of lines the tar.gz is another"

# Unpacked: the folder, its checksums, and the proof's lines.
(umask 077 && cd "$tmp" && tar -xzf "$one/target/dist/$name.tar.gz")
folder=$tmp/$name
diff -r "$one/target/dist/$name" "$folder" || fail "the tar.gz has something else than the folder"
(cd "$folder" && sha256sum --quiet --strict -c SHA256SUMS) || fail "its checksums do not hold"
(cd "$folder" && find . -type f ! -name SHA256SUMS) | sed 's|^\./||' | LC_ALL=C sort >"$tmp/have"
cut -c 67- "$folder/SHA256SUMS" | diff "$tmp/have" - || fail "SHA256SUMS does not name every file"
for path in examples/first.out bin/x86_64-linux/barrier; do
    [ -x "$folder/$path" ] || fail "$path cannot be run"
done
[ ! -x "$folder/examples/first.c" ] || fail "examples/first.c can be run"
while IFS= read -r line; do
    grep -qxF -- "$line" "$folder/PROOF.txt" || fail "PROOF.txt does not say: $line"
done <<END
commit: $(git -C "$one" rev-parse HEAD)
toolchain: a kit
gate: 25 passed, 0 failed
$(sed -n 's/^delivery: crate //p' "$tmp/log")
$(sed -n 's/^delivery: mir \([^ ]*\) /    the MIR of \1 /p' "$tmp/log")
    logic=proved functions=9 target=x sum=12 native=nat
    axioms: none
    axioms libc: libc::read, libc::write (2 of the 50 declared); axioms os: os::c::errno (1 of the 9 declared)
web/barrier.html SHA-256 $(sha256sum <"$folder/web/barrier.html" | cut -d ' ' -f 1)
    its module is that C, compiled by given
$(sed -n 's/^delivery: file \([^ ]*\) /\1 SHA-256 /p' "$tmp/log")
END
[ "$(grep -c '^    logic=proved functions=' "$folder/PROOF.txt")" -eq 2 ] || fail "PROOF.txt has not the verdicts of the archive and the program"
[ "$(grep -cE '^[a-z_0-9]+ [0-9a-f]{64}$' "$folder/PROOF.txt")" -eq "$(echo "$crates" | wc -l)" ] || fail "PROOF.txt has not a sum of each crate"
if grep -nE '\([0-9]+ s\)|/a$' "$folder/PROOF.txt"; then fail "PROOF.txt has a time or a path"; fi
echo "dist: $(wc -l <"$tmp/have") files, the same bytes twice, checksums hold, nothing untracked"

# check WORDS STATUS DELIVERY: what dist-check says without the toolchain.
check() {
    status=0
    (cd "$one" && python3 -B delivery/check.py "$3") >"$tmp/said" 2>&1 || status=$?
    [ "$status" -eq "$2" ] || fail "dist-check ends with $status, where $1: $(cat "$tmp/said")"
    grep -q "$1" "$tmp/said" || fail "dist-check does not say '$1': $(cat "$tmp/said")"
}
check 'nothing is different' 0 "$folder"
check '^same  *portable/barrier_engine.c: this repository, the delivery, CHANGELOG.md$' 0 "target/dist/$name.tar.gz"
check "^same  *the delivery's $(wc -l <"$tmp/have") files: SHA256SUMS" 0 "$folder"
(cd "$one" && python3 -B delivery/check.py --c portable/barrier_engine.c "$folder") >"$tmp/said" || fail "$(cat "$tmp/said")"
grep -q '^same  *lib/x86_64-linux/libbarrier_engine.a: built again, the delivery, CHANGELOG.md$' "$tmp/said" || fail "the archive is not compared with the one built again: $(cat "$tmp/said")"
# Each damage by itself, on a copy.
damaged() {
    rm -rf "$tmp/damaged"
    cp -r "$folder" "$tmp/damaged"
    (cd "$tmp/damaged" && eval "$1")
}
again='find . -type f ! -name SHA256SUMS | sed "s|^\./||" | LC_ALL=C sort | xargs -d "\n" sha256sum >SHA256SUMS'
flip='printf x | dd of=lib/x86_64-linux/libbarrier_engine.a bs=1 seek=3000 conv=notrunc 2>/dev/null'
damaged "$flip"
if (cd "$tmp/damaged" && sha256sum --quiet -c SHA256SUMS) >"$tmp/said" 2>&1; then fail "SHA256SUMS holds of a changed archive"; fi
check '^different  *lib/x86_64-linux/libbarrier_engine.a: SHA256SUMS' 1 "$tmp/damaged"
damaged "$flip && $again"
check '^different  *lib/x86_64-linux/libbarrier_engine.a: .* the delivery; .* CHANGELOG.md' 1 "$tmp/damaged"
damaged "echo >>include/barrier_help.h && $again"
check '^different  *include/barrier_help.h: the delivery has' 1 "$tmp/damaged"
damaged "echo >more.txt"
check '^different  *more.txt: SHA256SUMS of the delivery says nothing' 1 "$tmp/damaged"
damaged "echo >more.txt && $again"
check '^different  *more.txt: .* this repository none' 1 "$tmp/damaged"
damaged "rm examples/first.c && $again"
check '^different  *examples/first.c: the delivery has none' 1 "$tmp/damaged"
damaged "rm PROOF.txt"
check 'there is no PROOF.txt' 1 "$tmp/damaged"
damaged "ln -s first.c examples/other.c"
check 'other.c is no plain file' 1 "$tmp/damaged"
head -c 5000 "$one/target/dist/$name.tar.gz" >"$tmp/short.tar.gz"
check 'cannot be unpacked' 1 "$tmp/short.tar.gz"
damaged "sed -i 's/barrierPage/barrierPages/' web/barrier.html && $again"
check '^different  *web/barrier.html: .* makes another page' 1 "$tmp/damaged"
damaged "echo nothing >web/barrier.html && $again"
check 'web/barrier.html is not the page' 1 "$tmp/damaged"
check '^same  *web/barrier.html: web/ of this repository, with the module that is in it$' 0 "$folder"
check '^not compared  *the module in web/barrier.html: it was made by given' 0 "$folder"
echo "dist: dist-check finds a changed byte, a file more, a file less and a link, with SHA256SUMS written again too"

# What is refused, with words. In the second folder, of which the log holds too.
sed -i 's/^delivery: commit .*/& with changes/' "$tmp/log"
refused 'with changes, and this is commit' "$two" "$tmp/log"
log "$one" "$tmp/log"
sed '$s/0 failed/1 failed/' "$tmp/log" >"$tmp/other"
refused 'does not end with what passed' "$two" "$tmp/other"
sed '/^rt: queries proved/d' "$tmp/log" >"$tmp/other"
refused 'does not say that the crate queries is proved' "$two" "$tmp/other"
sed 's/^rt: queries proved/rt: queries NOT PROVED/' "$tmp/log" >"$tmp/other"
refused 'does not say that the crate queries is proved' "$two" "$tmp/other"
sed 's/^rt: number is kept: .*/rt: number is kept/' "$tmp/log" >"$tmp/other"
refused 'does not say that the crate number is proved' "$two" "$tmp/other"
sed '/^rt ci$/q' "$tmp/log" >"$tmp/other" && tail -n 1 "$tmp/log" >>"$tmp/other"
refused 'does not say that the crate' "$two" "$tmp/other"
sed 's/edits: 9 refused/&, 2 of them only by a limit, 3 bad/' "$tmp/log" >"$tmp/other"
refused 'tells of bad must-fail edits' "$two" "$tmp/other"
sed '/^rt: ok;/d' "$tmp/log" >"$tmp/other"
refused 'does not say that rt ci passed' "$two" "$tmp/other"
sed '/^delivery: archive logic=/d' "$tmp/log" >"$tmp/other"
refused 'no verdict of the archive' "$two" "$tmp/other"
sed '/^delivery: program logic=/d' "$tmp/log" >"$tmp/other"
refused 'no verdict of the program' "$two" "$tmp/other"
sed '/^delivery: crate report/d' "$tmp/log" >"$tmp/other"
refused 'no sum of the crate report' "$two" "$tmp/other"
sed 's/^delivery: mir queries ./&0/' "$tmp/log" >"$tmp/other"
refused 'made from crate queries' "$two" "$tmp/other"
sed '/^delivery: program axioms libc/d' "$tmp/log" >"$tmp/other"
refused 'counts axioms' "$two" "$tmp/other"
sed '/^portable: /d' "$tmp/log" >"$tmp/other"
refused 'does not say that the C' "$two" "$tmp/other"
echo >>"$two/target/staticlib/libbarrier_engine.a"
refused 'libbarrier_engine.a is .* and the gate tested' "$two" "$tmp/log"
build "$two"
sed -i 's/barrierPage/barrierPages/' "$two/target/web/barrier.html"
refused 'barrier.html is not what web/ makes' "$two" "$tmp/log"
rm "$two/target/web/barrier.html"
refused 'target/web/barrier.html: No such file' "$two" "$tmp/log"
(cd "$two" && python3 -B delivery/dist.py make "$tmp/log" --no-page) >"$tmp/said" 2>&1 || fail "without the page: $(cat "$tmp/said")"
if [ -e "$two/target/dist/$name/web/barrier.html" ] || grep -q barrier.html "$two/target/dist/$name/PROOF.txt" "$two/target/dist/$name/SHA256SUMS"; then fail "a delivery without the page names it"; fi
build "$two"
echo untracked >"$two/crates/refusal/src/untracked.rt"
refused 'the tree is not committed: crates/refusal/src/untracked.rt' "$two" "$tmp/log"
rm "$two/crates/refusal/src/untracked.rt"
echo >>"$two/README.md"
refused 'the tree is not committed: README.md' "$two" "$tmp/log"
log "$two" "$tmp/other"
grep -qx "delivery: commit $(git -C "$two" rev-parse HEAD) with changes" "$tmp/other" || fail "the gate's log does not say that the tree is not committed"
mv "$two/.git" "$tmp/git"
(export GIT_CEILING_DIRECTORIES="$tmp" && log "$two" "$tmp/other")
grep -qx 'delivery: commit unknown' "$tmp/other" || fail "the gate's log names a commit outside of a repository"
mv "$tmp/git" "$two/.git"
# edited EDIT: committed, with a log of that commit.
edited() {
    (cd "$two" && git checkout -q . && eval "$1" && git commit -q -a -m edited)
    log "$two" "$tmp/edited"
}
edited 'echo >>README.md'
refused 'is of commit .* and this is commit' "$two" "$tmp/log"
dist "$two" "$tmp/edited" || fail "$(cat "$tmp/said")"
edited "sed -i 's#^| .bin/x86_64-linux/barrier. .*#| \`bin/x86_64-linux/barrier\` | - |#' CHANGELOG.md"
refused 'CHANGELOG.md says -' "$two" "$tmp/edited"
edited 'git rm -q docs/PLATFORMS.md'
refused 'names docs/PLATFORMS.md, and no tracked file is that' "$two" "$tmp/edited"
# So much is said before the gate has run for half an hour.
if (cd "$two" && python3 -B delivery/dist.py ready) >"$tmp/said" 2>&1; then fail "it is ready with a list that names nothing"; fi
(cd "$one" && python3 -B delivery/dist.py ready) || fail "it is not ready where it was made"
edited 'ln -s /etc/passwd examples/link.c && git add examples/link.c && git checkout -q HEAD~1 docs/PLATFORMS.md'
refused 'examples/link.c is a link' "$two" "$tmp/edited"
echo "dist: refused in words: what is not committed, another commit's log, a failed or short one, other crates, another archive, another checksum, a list that names nothing, a link"

# From inside the unpacked folder: the first command, the archive installed, CMake.
cd "$folder"
unset PKG_CONFIG_PATH
$CC -Iinclude examples/first.c portable/barrier_engine.c -o "$tmp/first"
"$tmp/first" | diff examples/first.out - || fail "from the unpacked folder the first program prints something else"
MAKEFLAGS='' make -s -f Makefile.vendor install LIBDIR=lib/x86_64-linux CC="$CC" PREFIX="$tmp/prefix" >"$tmp/said"
$CC -I"$tmp/prefix/include" examples/first.c "$tmp/prefix/lib/libbarrier_engine.a" -o "$tmp/first"
"$tmp/first" | diff examples/first.out - || fail "with what was installed from the unpacked folder the first program prints something else"
cmp lib/x86_64-linux/libbarrier_engine.a "$tmp/prefix/lib/libbarrier_engine.a"
if command -v cmake >"$tmp/found"; then
    cmake -S . -B "$tmp/cmake" -DCMAKE_C_COMPILER="$CC" >"$tmp/said" 2>&1 && cmake --build "$tmp/cmake" >>"$tmp/said" 2>&1 || fail "CMake in the unpacked folder: $(tail -n 5 "$tmp/said")"
fi
if command -v cargo >"$tmp/found"; then
    CARGO_TARGET_DIR="$tmp/cargo" cargo build --quiet --offline --manifest-path bindings/rust/Cargo.toml >"$tmp/said" 2>&1 || fail "cargo in the unpacked folder: $(tail -n 5 "$tmp/said")"
fi
echo "dist: from the unpacked folder first.c prints as stored, with the C and with the installed archive; CMake and cargo build, where they are on this machine"

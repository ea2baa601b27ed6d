#!/bin/sh
# CHANGELOG.md: the header's version on top, under what comes next if there is
# something, every version once, newest first; each that has to be compiled
# again says so; and the checksums that stand topmost are those of the C file, and
# of the proved archive and the program where these are built.
set -eu
tmp=$(mktemp -d)
trap 'rm -rf "$tmp"' EXIT

fail() {
    echo "changelog: $1" >&2
    exit 1
}

version=$(sed -n 's/^#define BARRIER_VERSION "\(.*\)"$/\1/p' include/barrier.h)
sed -n 's/^## //p' CHANGELOG.md | sed '1{/^Next$/d;}' >"$tmp/versions"
[ "$(head -n 1 "$tmp/versions")" = "$version" ] || fail "its first version is not $version"
sort -u -t . -k 1,1nr -k 2,2nr -k 3,3nr "$tmp/versions" | diff - "$tmp/versions" || fail "its versions do not fall"
for changed in $(grep '^[1-9][0-9]*\.0\.0$' "$tmp/versions"); do
    sed -n "/^## $changed\$/,/^## /p" CHANGELOG.md | grep -qE '^\*\*Compile again' || fail "$changed does not say what to compile again"
done

# checksum FILE BUILT: what stands topmost of a file, held against it where it is built.
compared=''
checksum() {
    said=$(sed -n "s#^| \`$1\` | \`*\([^\`|]*[^\` |]\)\`* |\$#\1#p" CHANGELOG.md | head -n 1)
    [ -n "$said" ] || fail "it has no checksum of $1"
    [ -f "$2" ] || return 0
    is=$(sha256sum "$2" | cut -d ' ' -f 1)
    [ "$said" = "$is" ] || echo "changelog: it says $said of $1, and that is $is" >>"$tmp/wrong"
    compared="$compared $1"
}
checksum portable/barrier_engine.c portable/barrier_engine.c
checksum lib/x86_64-linux/libbarrier_engine.a target/staticlib/libbarrier_engine.a
checksum bin/x86_64-linux/barrier target/bin/barrier
[ ! -s "$tmp/wrong" ] || {
    cat "$tmp/wrong" >&2
    exit 1
}
# The topmost of the checksums are this version's or of what comes next.
sed -n "1,/^## $version\$/p; /^## $version\$/,/^## /p" CHANGELOG.md | grep -q '^| `portable/barrier_engine.c` |' || fail "$version has no checksums"
echo "changelog: $(wc -l <"$tmp/versions") versions, $version on top; checksums of$compared"

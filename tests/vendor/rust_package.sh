#!/bin/sh
# The crate for Rust as a dependency of fresh packages: the first program of its
# README, from the C and from the archive, in each edition; the words where the
# engine cannot be had; one engine for several packages of a workspace; the crate
# by itself, with the C in it, and as a package of cargo's. The source tree stays
# as it is.
set -eu
if ! command -v cargo >/dev/null; then
    echo "rust_package: NOT tested: there is no cargo on this machine"
    exit 0
fi
tmp=$(mktemp -d)
trap 'rm -rf "$tmp"' EXIT
crate=$(pwd)/bindings/rust
unset BARRIER_LIB_DIR CFLAGS
CARGO_TARGET_DIR=$tmp/target
CARGO_NET_OFFLINE=true
export CARGO_TARGET_DIR CARGO_NET_OFFLINE

fail() {
    echo "rust_package: $1" >&2
    exit 1
}

# The version is the header's, in the package and where it is locked.
version=$(sed -n 's/^#define BARRIER_VERSION "\(.*\)"$/\1/p' include/barrier.h)
grep -qx "version = \"$version\"" bindings/rust/Cargo.toml || fail "bindings/rust/Cargo.toml has not the version $version"
for lock in bindings/rust examples/rust tests; do
    grep -x -A 1 'name = "barrier_engine"' $lock/Cargo.lock | grep -qx "version = \"$version\"" || fail "$lock/Cargo.lock has not the version $version"
done

# The README's first program, and what it says that it prints.
sed -n '/^```rust$/,/^```$/p' bindings/rust/README.md | sed '/^```/d' >"$tmp/main.rs"
[ "$(grep -c '^fn main' "$tmp/main.rs")" -eq 1 ] || fail "the README has not one program"
sed -n '/^prints$/,/^`/s/^    //p' bindings/rust/README.md >"$tmp/wanted"
[ "$(wc -l <"$tmp/wanted")" -eq 2 ] || fail "the README does not say what it prints"

new_package() { # FOLDER EDITION PATH-OF-THE-CRATE
    cargo new --quiet --vcs none --edition "$2" "$1" 2>"$tmp/said" || return 1
    echo "barrier_engine = { path = \"$3\" }" >>"$1/Cargo.toml"
    cp "$tmp/main.rs" "$1/src/main.rs"
}
# Settings of the environment before it.
prints_as_said() { # PACKAGE
    cargo run --quiet --manifest-path "$1/Cargo.toml" >"$tmp/printed" 2>"$tmp/said" || fail "$1: $(cat "$tmp/said")"
    diff "$tmp/wanted" "$tmp/printed" || fail "$1 prints something else than the README says"
    [ ! -s "$tmp/said" ] || fail "$1: $(cat "$tmp/said")"
}
says() { # PACKAGE LINE
    if cargo build --quiet --manifest-path "$1/Cargo.toml" >"$tmp/printed" 2>"$tmp/said"; then
        fail "$1 is built, and should say: $2"
    fi
    grep -qF -- "$2" "$tmp/said" || fail "$1: not '$2' but $(cat "$tmp/said")"
}

touch "$tmp/before"
new_package "$tmp/fresh" 2021 "$crate" || fail "$(cat "$tmp/said")"
prints_as_said "$tmp/fresh"
(BARRIER_LIB_DIR=$LIBDIR && export BARRIER_LIB_DIR && prints_as_said "$tmp/fresh")

# That the archive is taken, and taken again where it changes: one that refuses
# takes the place of the other. Without the name it is the C again.
mkdir "$tmp/lib"
cp "$LIBDIR/libbarrier_engine.a" "$tmp/lib"
(BARRIER_LIB_DIR=$tmp/lib && export BARRIER_LIB_DIR && prints_as_said "$tmp/fresh")
$CC -std=c99 -fPIC -Iinclude -DREFUSED=plan -c tests/vendor/refusing.c -o "$tmp/refusing.o"
rm "$tmp/lib/libbarrier_engine.a"
ar rcs "$tmp/lib/libbarrier_engine.a" "$tmp/refusing.o"
touch -d '+2 seconds' "$tmp/lib/libbarrier_engine.a"
if BARRIER_LIB_DIR=$tmp/lib cargo run --quiet --manifest-path "$tmp/fresh/Cargo.toml" >"$tmp/printed" 2>"$tmp/said"; then
    fail "an archive that refuses is not taken"
fi
grep -q '^Error: Plan { side: 0 } refused 1 with 34, ' "$tmp/said" || fail "an archive that refuses: $(cat "$tmp/said")"
prints_as_said "$tmp/fresh"

# Where the engine cannot be had.
(BARRIER_LIB_DIR=$tmp/none && export BARRIER_LIB_DIR && says "$tmp/fresh" "The engine's archive, libbarrier_engine.a, is not there. Looked in")
(BARRIER_LIB_DIR=lib && export BARRIER_LIB_DIR && says "$tmp/fresh" "BARRIER_LIB_DIR has to be a whole path, not 'lib'.")
(CC=false && export CC && says "$tmp/fresh" "The engine's C could not be compiled: \"false\"")
(CC=no-such-compiler && export CC && says "$tmp/fresh" "The engine's C could not be compiled: 'no-such-compiler' cannot be run: ")
(AR=false && export AR && says "$tmp/fresh" "The engine's archive could not be made: \"false\"")
(CFLAGS=-ffast-math && export CFLAGS && says "$tmp/fresh" "compile without -ffast-math")
echo "rust_package: a fresh package prints what the README says, from the C and from the archive; without either it says why"

if new_package "$tmp/fresh_2024" 2024 "$crate"; then
    prints_as_said "$tmp/fresh_2024"
    echo "rust_package: edition 2024 too"
else
    echo "rust_package: NOT in edition 2024: this cargo has it not"
fi

# Two packages of a workspace, and a program of both: one engine. The build
# script of one finds the header.
workspace() { # FOLDER PATH-OF-THE-CRATE
    mkdir -p "$1"
    printf '[workspace]\nresolver = "2"\nmembers = ["one", "two", "both"]\n' >"$1/Cargo.toml"
    for name in one two; do
        cargo new --quiet --vcs none --edition 2021 --lib "$1/$name" 2>"$tmp/said" || fail "$(cat "$tmp/said")"
        echo "barrier_engine = { path = \"$2\" }" >>"$1/$name/Cargo.toml"
        echo 'pub fn runs(schedule: &[u8]) -> usize { barrier_engine::decode_schedule(schedule).unwrap().len() + barrier_engine::version().patch as usize }' >"$1/$name/src/lib.rs"
    done
    cat >"$1/one/build.rs" <<'RUST'
fn main() {
    let folder = std::env::var("DEP_BARRIER_ENGINE_INCLUDE").expect("the folder of the header");
    assert!(std::path::Path::new(&folder).join("barrier.h").is_file());
    assert_eq!(std::env::var("DEP_BARRIER_ENGINE_FROM").as_deref(), Ok("c"));
}
RUST
    cargo new --quiet --vcs none --edition 2021 "$1/both" 2>"$tmp/said" || fail "$(cat "$tmp/said")"
    printf 'one = { path = "../one" }\ntwo = { path = "../two" }\n' >>"$1/both/Cargo.toml"
    echo 'fn main() { println!("{}", one::runs(&[0]) + two::runs(&[0])); }' >"$1/both/src/main.rs"
}
links_once() { # FOLDER
    cargo build --quiet --manifest-path "$1/Cargo.toml" >"$tmp/printed" 2>"$tmp/said" || fail "$1: $(cat "$tmp/said")"
    [ "$(nm "$CARGO_TARGET_DIR/debug/both" | grep -c ' T barrier_version$')" -eq 1 ] || fail "$1: not one engine"
    patch=${version##*.}
    [ "$("$CARGO_TARGET_DIR/debug/both")" = $((2 * patch)) ] || fail "$1: the program prints something else"
}
workspace "$tmp/workspace" "$crate"
links_once "$tmp/workspace"

# The crate by itself: without the C it says so. With it, it lies inside of the
# workspace that it is used in, and is a package of cargo's.
mkdir "$tmp/inside"
cp -r bindings/rust "$tmp/inside/engine"
new_package "$tmp/inside/fresh" 2021 ../engine || fail "$(cat "$tmp/said")"
says "$tmp/inside/fresh" "The engine's C is not there: neither c/barrier_engine.c and c/barrier.h"
mkdir "$tmp/inside/engine/c"
cp portable/barrier_engine.c include/barrier.h "$tmp/inside/engine/c"
prints_as_said "$tmp/inside/fresh"
workspace "$tmp/inside" ../engine
links_once "$tmp/inside"
rm "$tmp/inside/Cargo.toml"
cargo package --quiet --manifest-path "$tmp/inside/engine/Cargo.toml" 2>"$tmp/said" || fail "cargo package: $(cat "$tmp/said")"
[ -f "$CARGO_TARGET_DIR/package/barrier_engine-$version.crate" ] || fail "cargo package makes no barrier_engine-$version.crate"
echo "rust_package: two packages of a workspace share one engine; by itself, with the C in it, the crate is a package of cargo's"

find bindings/rust portable include -newer "$tmp/before" >"$tmp/written"
[ ! -s "$tmp/written" ] || fail "written into the source tree: $(cat "$tmp/written")"

#!/bin/sh
# The build script of the crate for Rust: which C compiler and archiver it calls,
# and with which options, for many targets and settings of the environment; and
# what it says where it cannot go on. The compilers are stand-ins that write down
# how they were called.
set -eu
if ! command -v rustc >/dev/null; then
    echo "rust_build: NOT tested: there is no rustc on this machine"
    exit 0
fi
tmp=$(mktemp -d)
trap 'rm -rf "$tmp"' EXIT

fail() {
    echo "rust_build: $1" >&2
    exit 1
}

rustc --edition 2021 -D warnings bindings/rust/build.rs -o "$tmp/script"
crate=$(pwd)/bindings/rust
linux=x86_64-unknown-linux-gnu

mkdir -p "$tmp/tools" "$tmp/a folder" "$tmp/none" "$tmp/out"
cat >"$tmp/tools/cc" <<'TOOL'
#!/bin/sh
echo "${0##*/} $*" >>"$CALLED"
TOOL
printf '#!/bin/sh\necho "it is wrong"\nexit 3\n' >"$tmp/tools/broken"
chmod +x "$tmp/tools/cc" "$tmp/tools/broken"
for name in ar gcc cl lib clang-cl llvm-lib one two three four \
    aarch64-linux-gnu-gcc aarch64-linux-gnu-ar aarch64-linux-musl-gcc aarch64-linux-musl-ar \
    arm-linux-gnueabihf-gcc arm-linux-gnueabihf-ar riscv64-linux-gnu-gcc riscv64-linux-gnu-ar \
    i686-linux-gnu-gcc i686-linux-gnu-ar x86_64-w64-mingw32-gcc x86_64-w64-mingw32-ar \
    i686-w64-mingw32-gcc i686-w64-mingw32-ar; do
    ln "$tmp/tools/cc" "$tmp/tools/$name"
done
ln "$tmp/tools/cc" "$tmp/a folder/one"

# Arguments: target, host, then settings of the environment. What is called goes
# to $tmp/called, what is said to cargo and to people to $tmp/cargo and $tmp/said.
build() {
    target=$1
    host=$2
    shift 2
    : >"$tmp/called"
    env -i PATH="$tmp/tools" CALLED="$tmp/called" TARGET="$target" HOST="$host" OUT_DIR="$tmp/out" \
        CARGO_MANIFEST_DIR="$crate" "$@" "$tmp/script" >"$tmp/cargo" 2>"$tmp/said"
}
# Arguments: the programs that have to be called, one after the other, then as above.
calls() {
    wanted=$1
    shift
    build "$@" || fail "$*: $(cat "$tmp/said")"
    called=$(sed 's/ .*//' "$tmp/called" | tr '\n' ' ')
    [ "$called" = "$wanted " ] || fail "$*: calls $called, not $wanted"
}
# The line that the compiler, or the archiver, was called with.
called_with() { # LINE
    grep -qxF -- "$1" "$tmp/called" || fail "not called with $1 but $(cat "$tmp/called")"
}
tells_cargo() { # LINE
    grep -qxF -- "$1" "$tmp/cargo" || fail "does not tell cargo $1"
}
# Arguments: a line that has to be said, then as for build.
says() {
    line=$1
    shift
    if build "$@"; then
        fail "$*: it goes on"
    fi
    grep -qF -- "$line" "$tmp/said" || fail "$*: it says $(cat "$tmp/said")"
    if grep -q '^cargo:rustc-link' "$tmp/cargo"; then
        fail "$*: it links"
    fi
}

# The usual names.
calls "cc ar" $linux $linux
code=$crate/../../portable/barrier_engine.c
include=$crate/../../include
called_with "cc -std=c99 -O2 -fPIC -I$include -c -o $tmp/out/barrier_engine.o $code"
called_with "ar rcs $tmp/out/libbarrier_engine.a $tmp/out/barrier_engine.o"
for line in "rustc-link-search=native=$tmp/out" rustc-link-lib=static=barrier_engine from=c "lib=$tmp/out" "include=$include" \
    "rerun-if-changed=$code" "rerun-if-changed=$include/barrier.h" rerun-if-env-changed=BARRIER_LIB_DIR \
    rerun-if-env-changed=CC "rerun-if-env-changed=CC_$linux" rerun-if-env-changed=CC_x86_64_unknown_linux_gnu \
    rerun-if-env-changed=TARGET_CC rerun-if-env-changed=AR rerun-if-env-changed=CFLAGS; do
    tells_cargo "cargo:$line"
done
while read -r target prefix; do
    calls "$prefix-gcc $prefix-ar" "$target" $linux
done <<'TARGETS'
aarch64-unknown-linux-gnu aarch64-linux-gnu
aarch64-unknown-linux-musl aarch64-linux-musl
armv7-unknown-linux-gnueabihf arm-linux-gnueabihf
arm-unknown-linux-gnueabihf arm-linux-gnueabihf
riscv64gc-unknown-linux-gnu riscv64-linux-gnu
i586-unknown-linux-gnu i686-linux-gnu
i686-unknown-linux-gnu i686-linux-gnu
i686-pc-windows-gnu i686-w64-mingw32
x86_64-pc-windows-gnu x86_64-w64-mingw32
TARGETS
called_with "x86_64-w64-mingw32-gcc -std=c99 -O2 -I$include -c -o $tmp/out/barrier_engine.o $code"
calls "cc ar" aarch64-apple-darwin aarch64-apple-darwin
calls "gcc ar" x86_64-pc-windows-gnu x86_64-pc-windows-gnu
calls "clang-cl llvm-lib" x86_64-pc-windows-msvc $linux
called_with "clang-cl /nologo /O2 /MD /c /I$include /Fo$tmp/out/barrier_engine.o -- $code"
calls "cl lib" x86_64-pc-windows-msvc x86_64-pc-windows-msvc
called_with "cl /nologo /O2 /MD /c /I$include /Fo$tmp/out/barrier_engine.o $code"
called_with "lib /nologo /OUT:$tmp/out/barrier_engine.lib $tmp/out/barrier_engine.o"
calls "cl lib" aarch64-pc-windows-msvc x86_64-pc-windows-msvc CARGO_CFG_TARGET_FEATURE=sse2,crt-static
called_with "cl /nologo /O2 /MT /c /I$include /Fo$tmp/out/barrier_engine.o $code"

# What the environment names, the nearest to the target first; what is empty is no name.
calls "one ar" $linux $linux CC=one
calls "two ar" $linux $linux CC=one TARGET_CC=two
calls "three ar" $linux $linux CC=one TARGET_CC=two CC_x86_64_unknown_linux_gnu=three
calls "four ar" $linux $linux CC=one TARGET_CC=two CC_x86_64_unknown_linux_gnu=three CC_$linux=four
calls "cc ar" $linux $linux CC= CC_aarch64_unknown_linux_gnu=three
calls "one two" $linux $linux CC=one AR=two
calls "one three" aarch64-unknown-linux-gnu $linux CC=one AR=two AR_aarch64_unknown_linux_gnu=three
calls "one ar" riscv32imac-unknown-none-elf $linux CC=one
calls "one ar" $linux $linux "CC=one two  -m32" "CFLAGS=-O3 -g"
called_with "one two -m32 -std=c99 -O2 -fPIC -I$include -c -o $tmp/out/barrier_engine.o -O3 -g $code"
calls "one ar" $linux $linux "CC=$tmp/a folder/one"

# What it says where it cannot go on, and that it does not.
says "No name of a C compiler for riscv32imac-unknown-none-elf is known here." riscv32imac-unknown-none-elf $linux
grep -qF 'Name a C compiler, CC=.. or for this target only CC_riscv32imac_unknown_none_elf=..,' "$tmp/said" || fail "no remedy: $(cat "$tmp/said")"
says "The engine's C could not be compiled: 'missing' cannot be run: " $linux $linux CC=missing
says "The engine's C could not be compiled: \"broken\" \"-std=c99\"" $linux $linux CC=broken
grep -qx 'it is wrong' "$tmp/said" || fail "what the compiler said is lost"
grep -qx 'or link the engine.s archive: BARRIER_LIB_DIR=/whole/path cargo build' "$tmp/said" || fail "no remedy"
says "The engine's archive could not be made: \"broken\"" $linux $linux AR=broken
says "The engine's C is not there: neither c/barrier_engine.c" $linux $linux CARGO_MANIFEST_DIR="$tmp/none"
says "OUT_DIR, which cargo gives: " $linux $linux "$(command -v env)" -u OUT_DIR

# The archive that is named, and nothing beside it.
says "BARRIER_LIB_DIR has to be a whole path, not 'lib'." $linux $linux BARRIER_LIB_DIR=lib
says "BARRIER_LIB_DIR has to be a whole path, not ''." $linux $linux BARRIER_LIB_DIR=
says "The engine's archive, libbarrier_engine.a, is not there. Looked in" $linux $linux BARRIER_LIB_DIR="$tmp/none"
grep -qx "    $tmp/none" "$tmp/said" || fail "the folder is not said"
touch "$tmp/none/libbarrier_engine.a"
says "The engine's archive, barrier_engine.lib, is not there." x86_64-pc-windows-msvc $linux BARRIER_LIB_DIR="$tmp/none"
build $linux $linux BARRIER_LIB_DIR="$tmp/none" || fail "the archive that is named: $(cat "$tmp/said")"
[ ! -s "$tmp/called" ] || fail "it compiles beside an archive that is named"
for line in "rustc-link-search=native=$tmp/none" rustc-link-lib=static=barrier_engine from=archive "lib=$tmp/none" "include=$include" \
    "rerun-if-changed=$tmp/none/libbarrier_engine.a" rerun-if-env-changed=BARRIER_LIB_DIR; do
    tells_cargo "cargo:$line"
done

# The crate by itself, with the C in its own folder, which goes first.
mkdir -p "$tmp/up/up/own/c" "$tmp/up/portable" "$tmp/up/include"
touch "$tmp/up/portable/barrier_engine.c" "$tmp/up/include/barrier.h" "$tmp/up/up/own/c/barrier_engine.c"
calls "cc ar" $linux $linux CARGO_MANIFEST_DIR="$tmp/up/up/own"
tells_cargo "cargo:include=$tmp/up/up/own/../../include"
touch "$tmp/up/up/own/c/barrier.h"
calls "cc ar" $linux $linux CARGO_MANIFEST_DIR="$tmp/up/up/own"
tells_cargo "cargo:include=$tmp/up/up/own/c"
echo "rust_build: the compiler, archiver and options for 14 targets, as the environment names them, and the words of every failure"

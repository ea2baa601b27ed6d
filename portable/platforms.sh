#!/bin/sh
# platforms.sh: one program of fixed and random jobs through every call (tests/digest.c), with barrier_engine.c, on every platform that is named below: its digest has to be the archive's, x86-64. A platform
# that cannot be built or run is a failure, unless its name stands in LEAVE_OUT. Where the target can run it, the stack of each call is measured too (tests/vendor/stack.c): the last column has the most
# that a call takes, and the most of those on an open job. From -O2 on it has to be within barrier.h's limits.
# make platforms, from the repository's root, once the archive is built. Prints the rows of docs/PLATFORMS.md. Debian 12 packages:
#     gcc clang lld libc6-dev-i386 lib32gcc-12-dev gcc-aarch64-linux-gnu libc6-dev-arm64-cross gcc-arm-linux-gnueabihf libc6-dev-armhf-cross
#     gcc-s390x-linux-gnu libc6-dev-s390x-cross qemu-user gcc-mingw-w64-x86-64-win32 wine64 nodejs
set -eu
cd "$(dirname "$0")/.."
: "${JOBS:=400}" "${LEAVE_OUT:=}" "${ARCHIVE:=target/staticlib/libbarrier_engine.a}" "${WINE:=/usr/lib/wine/wine64}"
tmp=$(mktemp -d)
trap 'rm -rf "$tmp"' EXIT
failed=0
flags="-std=c99 -Wall -Wextra -Wpedantic -Werror -Iinclude"
export WINEDEBUG=-all WINEPREFIX="$tmp/wine"

gcc $flags -O2 portable/tests/digest.c "$ARCHIVE" -o "$tmp/archive"
want=$("$tmp/archive" "$JOBS" | tail -1)
echo "archive, x86-64: $want"

# 511 runs, in which every call takes about the most stack.
gcc -std=c99 -Iinclude examples/jobtext.c -o "$tmp/jobtext"
{
    printf '%s\n' 'road 998000000000 1000000000000' 'runout-forward 1' 'runout-opposite 20000' 'clear-zone 30000' 'centreline 20000' 'barrier-offset 20000' \
        'deflection 5000' 'flare 100 0' 'straight 100000' 'continuity 0' 'hazard right 998000000001 1000000000000 25000 30000 1'
    awk 'BEGIN { for (i = 1; i < 256; i++) printf "hazard right %.0f %.0f 25000 30000 2\n", 998000000000 + i * 7000000, 998000000000 + i * 7000000 + 3000000 }'
} | "$tmp/jobtext" >"$tmp/many"

row() { # NAME COMPILER HOW RESULT STACK
    printf '| %s | %s | %s | %s | %s |\n' "$1" "$2" "$3" "$4" "$5"
}
wrong() { # NAME WHAT
    echo "FAILED $1: $2" >&2
    failed=$((failed + 1))
}
left_out() {
    case " $LEAVE_OUT " in *" $1 "*) row "$1" '' '' 'left out' ''; return 0 ;; esac
    return 1
}
# NAME STACK COMPILER.. -- RUN..: the digest. With STACK yes the painted stack has to be within the header's limits; with told it is measured.
platform() {
    name=$1 stack=$2
    shift 2
    if left_out "$name"; then return; fi
    compiler=
    while [ "$1" != -- ]; do compiler="$compiler $1"; shift; done
    shift
    version=$($compiler --version 2>/dev/null | head -1) || version=
    # Flags are several words: they stand unquoted. The name ends in .exe, which mingw would add, and nothing is left of the platform before.
    rm -f "$tmp/program.exe"
    if ! $compiler $flags portable/tests/digest.c portable/barrier_engine.c -o "$tmp/program.exe" 2>"$tmp/said"; then wrong "$name" "not built: $(head -3 "$tmp/said")"; return; fi
    got=$("$@" "$tmp/program.exe" "$JOBS" 2>"$tmp/said" | tr -d '\r' | tail -1) || true
    if [ "$got" != "$want" ]; then wrong "$name" "'$got' $(head -3 "$tmp/said")"; return; fi
    depths=
    if [ "$stack" != no ]; then
        $compiler $flags tests/vendor/stack.c portable/barrier_engine.c -o "$tmp/stack" 2>"$tmp/said" || { wrong "$name" "the stack: $(head -3 "$tmp/said")"; return; }
        status=0
        "$@" "$tmp/stack" <"$tmp/many" >"$tmp/depths" || status=$?
        depths=$(awk '/^stack: / { n = $(NF - 1) + 0; if (/: (add|keep|withdraw|return|open|schedule of an open job) takes/) { if (n > open) open = n } else if (n > plan) plan = n }
            END { print plan "; " open }' "$tmp/depths")
        case $stack$status in yes0 | told[01]) ;; *) wrong "$name" "the stack, status $status: $depths" ;; esac
    fi
    row "$name" "$version$(echo "$compiler" | sed 's/^ *[^ ]*//')" "${*:-here}" same "$depths"
}
for level in -O0 -O1; do
    platform "x86-64-gcc$level" told gcc $level -- env
    platform "x86-64-clang$level" told clang $level -- env
done
for level in -O2 -O3 -Os; do
    platform "x86-64-gcc$level" yes gcc $level -- env
    platform "x86-64-clang$level" yes clang $level -- env
done
platform x86-64-lto no gcc -O2 -flto -- env
platform i386 yes clang -m32 -msse2 -mfpmath=sse -O2 -- env
platform i386-x87 no clang -m32 -mno-sse -O2 -- env
platform aarch64 yes aarch64-linux-gnu-gcc -static -O2 -- qemu-aarch64
platform arm yes arm-linux-gnueabihf-gcc -static -O2 -- qemu-arm
platform arm-thumb yes arm-linux-gnueabihf-gcc -static -mthumb -Os -- qemu-arm
platform s390x yes s390x-linux-gnu-gcc -static -O2 -- qemu-s390x
platform windows-x64 no x86_64-w64-mingw32-gcc -static -O2 -- "$WINE"

# A program that has windows.h before barrier.h, and the engine compiled with it too.
if ! left_out windows.h; then
    printf '%s\n' '#include <windows.h>' '#include <barrier.h>' '#include <barrier_help.h>' 'int main(void) { return barrier_version() == 0; }' >"$tmp/user.c"
    if x86_64-w64-mingw32-gcc -Wall -Wextra -Werror -O2 -Iinclude "$tmp/user.c" portable/barrier_engine.c -o "$tmp/user.exe" 2>"$tmp/said" &&
        x86_64-w64-mingw32-gcc -Wall -Wextra -Werror -include windows.h -Iinclude -fsyntax-only portable/barrier_engine.c 2>"$tmp/said" && "$WINE" "$tmp/user.exe"; then
        row windows.h "$(x86_64-w64-mingw32-gcc --version | head -1)" 'included first' 'compiles, runs' ''
    else wrong windows.h "$(head -3 "$tmp/said")"; fi
fi

# WebAssembly: no C library; the three functions that are needed are given.
if ! left_out wasm32; then
    mkdir "$tmp/include"
    printf '%s\n' '#include <stddef.h>' 'void *memcpy(void *, const void *, size_t);' 'void *memset(void *, int, size_t);' 'void *memmove(void *, const void *, size_t);' >"$tmp/include/string.h"
    cat >"$tmp/three.c" <<'END'
#include <string.h>
void *memcpy(void *to, const void *from, size_t n) { char *a = to; const char *b = from; while (n--) *a++ = *b++; return to; }
void *memset(void *to, int c, size_t n) { char *a = to; while (n--) *a++ = (char)c; return to; }
void *memmove(void *to, const void *from, size_t n) { char *a = to; const char *b = from; if (a < b) while (n--) *a++ = *b++; else while (n--) a[n] = b[n]; return to; }
END
    wasm="clang --target=wasm32 -nostdlib -ffreestanding -O2 -I$tmp/include"
    if $wasm -fno-builtin -c "$tmp/three.c" -o "$tmp/three.o" 2>"$tmp/said" &&
        $wasm $flags -DDIGEST_BARE portable/tests/digest.c portable/barrier_engine.c "$tmp/three.o" -Wl,--no-entry -Wl,--export=digest_group -Wl,-z,stack-size=262144 -o "$tmp/digest.wasm" 2>"$tmp/said" &&
        got=$(node -e '
            const m = new WebAssembly.Instance(new WebAssembly.Module(require("fs").readFileSync(process.argv[1]))).exports;
            let all = 0n; for (let g = 0; g < 5; g++) all = BigInt.asUintN(64, all * 1099511628211n + BigInt.asUintN(64, m.digest_group(g, +process.argv[2])));
            console.log(all.toString(16).padStart(16, "0") + "  all, " + process.argv[2] + " jobs each")' "$tmp/digest.wasm" "$JOBS" 2>"$tmp/said") && [ "$got" = "$want" ]; then
        row wasm32 "$(clang --version | head -1) -O2" "node $(node --version)" same ''
    else wrong wasm32 "${got:-} $(head -3 "$tmp/said")"; fi
fi
[ "$failed" -eq 0 ] || { echo "platforms: $failed failed" >&2; exit 1; }
echo "platforms: all the same${LEAVE_OUT:+, but those left out: $LEAVE_OUT}"

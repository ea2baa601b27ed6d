#!/bin/sh
# The shared library: exports the header's calls and nothing else, is named by
# the version's first number, and does what the archive does. A plug-in that
# links the archive by the header's recipe exports none of the calls.
set -eu
tmp=$(mktemp -d)
trap 'rm -rf "$tmp"' EXIT

fail() {
    echo "shared: $1" >&2
    exit 1
}

major=$(sed -n 's/^#define BARRIER_VERSION_MAJOR //p' include/barrier.h)
library=$BUILD/libbarrier_engine.so.$major
sed -n 's/^[a-z][a-z0-9_]* \(barrier_[a-z_]*\)(.*/\1/p' include/barrier.h | sort -u >"$tmp/calls"
nm -D --defined-only "$library" | awk '{ print $3 }' | sort -u >"$tmp/exported"
diff "$tmp/calls" "$tmp/exported" || fail "it exports something else than the header's calls"
readelf -d "$library" >"$tmp/dynamic"
grep -q "SONAME.*\[libbarrier_engine.so.$major\]" "$tmp/dynamic" || fail "its name: $(grep SONAME "$tmp/dynamic")"
if grep TEXTREL "$tmp/dynamic"; then fail "its code has to be written to when it is loaded"; fi
grep NEEDED "$tmp/dynamic" | grep -v '\[libc\.so' >"$tmp/needed" || true
[ ! -s "$tmp/needed" ] || fail "it needs $(cat "$tmp/needed")"

# Of an archive with a name more, that name is not exported.
mkdir "$tmp/more"
cp "$LIBDIR/libbarrier_engine.a" "$tmp/more"
echo 'int barrier_more(void); int barrier_more(void) { return 1; }' | $CC -fPIC -x c -c - -o "$tmp/more/more.o"
ar rs "$tmp/more/libbarrier_engine.a" "$tmp/more/more.o"
MAKEFLAGS='' make -s -f Makefile.vendor vendor-shared LIBDIR="$tmp/more" CC="$CC" VENDOR_BUILD="$tmp/more/built"
nm -D --defined-only "$tmp/more/built/libbarrier_engine.so" | awk '{ print $3 }' | sort -u | diff "$tmp/calls" - || fail "it exports a name that the header does not have"

# Linked as installed, found by its name, the same printed.
MAKEFLAGS='' make -s -f Makefile.vendor install LIBDIR="$LIBDIR" CC="$CC" PREFIX="$tmp/prefix" >"$tmp/said"
PKG_CONFIG_PATH=$tmp/prefix/lib/pkgconfig
export PKG_CONFIG_PATH
flags=$(pkg-config --cflags --libs barrier_engine_shared)
for name in example open_job layout day; do
    # Flags are several words: they stand unquoted.
    $CC -std=c99 "examples/$name.c" $flags -o "$tmp/$name"
    readelf -d "$tmp/$name" | grep -q "NEEDED.*\[libbarrier_engine.so.$major\]" || fail "$name does not ask for it"
    LD_LIBRARY_PATH=$tmp/prefix/lib "$tmp/$name" >"$tmp/printed"
    diff "examples/$name.out" "$tmp/printed" || fail "$name prints something else with it"
done
echo "shared: libbarrier_engine.so.$major exports the header's $(wc -l <"$tmp/calls") calls only and needs the C library only; four examples print the same with it"

# A plug-in, by the recipe that stands in the header, word for word.
cat >"$tmp/plugin.c" <<'END'
#include <barrier_help.h>
uint64_t plugin_covered(void);
uint64_t plugin_covered(void)
{
    const barrier_help_header road = {1, 0, 1000000, 101000, 0, 9000, 0, 3000, 1000, 15, 1, 13340, 0, 0};
    const barrier_hazard hazard = {BARRIER_RIGHT, 200000, 210000, 5000, 9000, BARRIER_NC_3};
    uint8_t job[BARRIER_JOB_LONGEST], out[BARRIER_SCHEDULE_MAX];
    const size_t length = barrier_help_write_job(&road, &hazard, 1, job, sizeof job);
    const barrier_plan_reply reply = barrier_plan(job, length, BARRIER_RIGHT, out, sizeof out);
    return barrier_quantity(out, (size_t)reply.value, BARRIER_NC_3, 0, 1000000).value;
}
END
sed -n '/^ \*     cc -shared -fPIC plugin.c/,/exclude-libs/s/^ \*     *//p' include/barrier.h >"$tmp/recipe"
grep -q 'exclude-libs,libbarrier_engine\.a$' "$tmp/recipe" || fail "the header has no recipe for a plug-in"
(cd "$tmp" && sed "s|^cc |$CC |" recipe | sh -eu)
plugin_exports() {
    nm -D --defined-only "$tmp/$1" | awk '{ print $3 }' | sort -u
}
[ "$(plugin_exports plugin.so)" = plugin_covered ] || fail "the plug-in exports $(plugin_exports plugin.so | tr '\n' ' ')"
# Without the flag it does: so this would show.
(cd "$tmp" && sed "s|^cc |$CC |; s|plugin\.so|open.so|; s|-Wl,--exclude-libs.*||" recipe | sh -eu)
plugin_exports open.so | grep -qx barrier_plan || fail "the archive's calls are not seen in a plug-in"

# It runs, loaded into a program whose own barrier_plan is another.
cat >"$tmp/host.c" <<'END'
#include <dlfcn.h>
#include <stdint.h>
#include <stdio.h>
int barrier_plan(void);
int barrier_plan(void) { return 7; }
int main(void)
{
    void *plugin = dlopen("./plugin.so", RTLD_NOW | RTLD_GLOBAL);
    uint64_t (*covered)(void);
    if (plugin == NULL || barrier_plan() != 7)
        return 1;
    *(void **)&covered = dlsym(plugin, "plugin_covered");
    printf("%d\n", covered == NULL ? 0 : (int)covered());
    return 0;
}
END
$CC -rdynamic "$tmp/host.c" -ldl -o "$tmp/host"
[ "$(cd "$tmp" && ./host)" = 54227 ] || fail "the plug-in takes the program's barrier_plan for its own"
echo "shared: a plug-in by the header's recipe exports none of the calls, and keeps its own in a program that has others"

#!/bin/sh
# An installed engine: the example that shows the calls, copied elsewhere, builds
# with the flags that pkg-config prints, as C99 and as C++, without a warning,
# and touches no memory that is not its own. Uninstalled, nothing is left of it.
set -eu
tmp=$(mktemp -d)
trap 'rm -rf "$tmp"' EXIT
# What the caller's make was told (PREFIX, say) is not for this one.
install_to() {
    MAKEFLAGS='' make -s -f Makefile.vendor install LIBDIR="$LIBDIR" CC="$CC" "$@" >"$tmp/install"
}
uninstall_from() {
    MAKEFLAGS='' make -s -f Makefile.vendor uninstall LIBDIR="$LIBDIR" "$@"
}
# Every file, folder and link below a folder, and where links lead.
tree() {
    (cd "$1" && find . -printf '%y %p %l\n') | LC_ALL=C sort
}

# Staged, as packagers do: the files lie below DESTDIR and name PREFIX.
install_to PREFIX=/opt/barrier DESTDIR="$tmp/stage"
grep -qx "installing the archive $LIBDIR/libbarrier_engine.a" "$tmp/install"
cmp "$LIBDIR/libbarrier_engine.a" "$tmp/stage/opt/barrier/lib/libbarrier_engine.a"
major=$(sed -n 's/^#define BARRIER_VERSION_MAJOR //p' include/barrier.h)
printf '%s\n' include/barrier.h include/barrier_help.h \
    lib/cmake/barrier_engine/barrier_engineConfig.cmake lib/cmake/barrier_engine/barrier_engineConfigVersion.cmake \
    lib/libbarrier_engine.a lib/libbarrier_engine.so "lib/libbarrier_engine.so.$major" \
    lib/pkgconfig/barrier_engine.pc lib/pkgconfig/barrier_engine_shared.pc >"$tmp/wanted"
(cd "$tmp/stage/opt/barrier" && find . ! -type d) >"$tmp/files"
sed 's|^\./||' "$tmp/files" | LC_ALL=C sort >"$tmp/installed"
diff "$tmp/wanted" "$tmp/installed"
[ "$(readlink "$tmp/stage/opt/barrier/lib/libbarrier_engine.so")" = "libbarrier_engine.so.$major" ]
if grep -rlI '@[A-Z]*@' "$tmp/stage"; then
    echo "install: these files are not filled in" >&2
    exit 1
fi
if grep -rlIF "$tmp" "$tmp/stage"; then
    echo "install: these files name DESTDIR" >&2
    exit 1
fi
grep -qx 'prefix=/opt/barrier' "$tmp/stage/opt/barrier/lib/pkgconfig/barrier_engine.pc"

# A folder that is named and has no archive: what is missing and what to name, and
# nothing is built.
mkdir -p "$tmp/fresh/portable"
cp -r Makefile.vendor include cmake barrier_engine.pc.in "$tmp/fresh"
cp portable/barrier_engine.c "$tmp/fresh/portable"
for folder in target/staticlib "$tmp/none"; do
    if (cd "$tmp/fresh" && MAKEFLAGS='' make -s -f Makefile.vendor install LIBDIR="$folder" CC="$CC" PREFIX="$tmp/nothing") >"$tmp/said" 2>&1; then
        echo "install: it installs without an archive" >&2
        exit 1
    fi
    grep -qx "there is no $folder/libbarrier_engine.a: name the folder that has the archive, LIBDIR=FOLDER" "$tmp/said"
    # The same where the environment names it.
    if (cd "$tmp/fresh" && LIBDIR="$folder" MAKEFLAGS='' make -s -f Makefile.vendor install CC="$CC" PREFIX="$tmp/nothing") >"$tmp/said" 2>&1; then
        echo "install: it installs without an archive" >&2
        exit 1
    fi
done
[ ! -e "$tmp/nothing" ] && [ ! -e "$tmp/fresh/target" ]

# No folder named: the engine compiled from the C, with another compiler each time
# that one is named; or the proved archive, where it is built.
install_fresh() {
    (cd "$tmp/fresh" && unset LIBDIR && MAKEFLAGS='' make -s -f Makefile.vendor install PREFIX="$tmp/from_c" CC="$1") >"$tmp/install"
}
for compiler in "$CC" "$CC -fno-inline"; do
    install_fresh "$compiler"
    grep -qx "installing the engine compiled from portable/barrier_engine.c by $compiler" "$tmp/install"
    $compiler -std=c99 -O2 -fPIC -Iinclude -c portable/barrier_engine.c -o "$tmp/barrier_engine.o"
    ar p "$tmp/from_c/lib/libbarrier_engine.a" barrier_engine.o | cmp - "$tmp/barrier_engine.o"
done
$CC -std=c99 examples/first.c -I"$tmp/from_c/include" "$tmp/from_c/lib/libbarrier_engine.a" -o "$tmp/first"
"$tmp/first" | diff examples/first.out -
(cd "$tmp/from_c" && find . ! -type d) | sed 's|^\./||' | LC_ALL=C sort | diff "$tmp/wanted" -
mkdir -p "$tmp/fresh/target/staticlib"
cp "$LIBDIR/libbarrier_engine.a" "$tmp/fresh/target/staticlib"
install_fresh "$CC"
grep -qx 'installing the archive target/staticlib/libbarrier_engine.a' "$tmp/install"
cmp "$LIBDIR/libbarrier_engine.a" "$tmp/from_c/lib/libbarrier_engine.a"
(cd "$tmp/fresh" && unset LIBDIR && MAKEFLAGS='' make -s -f Makefile.vendor uninstall PREFIX="$tmp/from_c")
[ -z "$(find "$tmp/from_c" ! -type d)" ]
echo "install: without an archive the engine is compiled from the C, and it is said which was taken"

# A prefix that pkg-config's flags could not name.
for prefix in relative "$tmp/a b" "$tmp/a&b"; do
    if install_to PREFIX="$prefix" 2>"$tmp/said"; then
        echo "install: it takes the prefix '$prefix'" >&2
        exit 1
    fi
    grep -q "^PREFIX .* not '$prefix'$" "$tmp/said"
    if uninstall_from PREFIX="$prefix" 2>"$tmp/said"; then
        echo "install: uninstall takes the prefix '$prefix'" >&2
        exit 1
    fi
done

# Uninstalled: of a folder with files of others, those and the folders stay, and
# nothing else; a second time there is nothing to do.
mkdir -p "$tmp/shared/include" "$tmp/shared/lib/pkgconfig" "$tmp/shared/lib/cmake/other"
touch "$tmp/shared/include/other.h" "$tmp/shared/lib/libbarrier_engine.so.1" "$tmp/shared/lib/pkgconfig/barrier_engine_other.pc"
tree "$tmp/shared" >"$tmp/before"
install_to PREFIX="$tmp/shared"
uninstall_from PREFIX="$tmp/shared"
tree "$tmp/shared" | diff "$tmp/before" -
uninstall_from PREFIX="$tmp/shared"
tree "$tmp/shared" | diff "$tmp/before" -
uninstall_from PREFIX=/opt/barrier DESTDIR="$tmp/stage"
[ -z "$(find "$tmp/stage" ! -type d)" ]
[ ! -e "$tmp/stage/opt/barrier/lib/cmake/barrier_engine" ]
echo "install: $(wc -l <"$tmp/wanted") files, and uninstall leaves none of them and all others"

# In place.
install_to PREFIX="$tmp/prefix"
PKG_CONFIG_PATH=$tmp/prefix/lib/pkgconfig
export PKG_CONFIG_PATH
flags=$(pkg-config --cflags --libs barrier_engine)
version=$(pkg-config --modversion barrier_engine)
grep -qx "#define BARRIER_VERSION \"$version\"" include/barrier.h

# Flags are several words: they stand unquoted.
warnings="-Wall -Wextra -Werror -pedantic"
# Copied, so that nothing beside it is found.
mkdir "$tmp/copied"
cp examples/example.c "$tmp/copied"
$CC -std=c99 $warnings -g "$tmp/copied/example.c" $flags -o "$tmp/example_c"
$CXX -std=c++11 $warnings -g -x c++ "$tmp/copied/example.c" -x none $flags -o "$tmp/example_cxx"
for program in "$tmp/example_c" "$tmp/example_cxx"; do
    "$program" >"$tmp/printed"
    diff examples/example.out "$tmp/printed"
    # The archive is in it: no shared library has to be found.
    if readelf -d "$program" | grep 'NEEDED.*barrier'; then
        echo "install: pkg-config's barrier_engine takes the shared library" >&2
        exit 1
    fi
done
echo "install: $version, example.c builds with pkg-config's flags as C99 and C++11 and prints as stored"

if command -v valgrind >"$tmp/found"; then
    for program in "$tmp/example_c" "$tmp/example_cxx"; do
        valgrind --quiet --error-exitcode=1 --leak-check=full "$program" >"$tmp/printed"
        diff examples/example.out "$tmp/printed"
    done
    echo "install: valgrind found nothing"
else
    echo "install: NOT under valgrind: it is not on this machine"
fi

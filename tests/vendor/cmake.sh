#!/bin/sh
# CMake. The installed package: its targets link the first program and run it, a
# version of another first number or a later one is not taken, nor one for another
# system or processor, and an installed tree may be moved. The sources: added by
# add_subdirectory and by FetchContent they give a static library and no more; by
# themselves they are built, static and shared, and installed. Without cmake only
# the package's text is looked at.
set -eu
tmp=$(mktemp -d)
trap 'rm -rf "$tmp"' EXIT

fail() {
    echo "cmake: $1" >&2
    exit 1
}

version=$(sed -n 's/^#define BARRIER_VERSION "\(.*\)"$/\1/p' include/barrier.h)
major=${version%%.*}
MAKEFLAGS='' make -s -f Makefile.vendor install LIBDIR="$LIBDIR" CC="$CC" PREFIX="$tmp/built" >"$tmp/said"
mv "$tmp/built" "$tmp/moved"
package=$tmp/moved/lib/cmake/barrier_engine
grep -qx "set(PACKAGE_VERSION \"$version\")" "$package/barrier_engineConfigVersion.cmake" || fail "not version $version"
grep -qx 'set(_built_processor "x86_64")' "$package/barrier_engineConfigVersion.cmake" || fail "not for x86_64"
if ! command -v cmake >"$tmp/found"; then
    echo "cmake: NOT run: it is not on this machine; version and processor stand in the package's text"
    exit 0
fi

# configure FOLDER WORDS..: the project $tmp/FOLDER.
configure() {
    folder=$1
    shift
    cmake -S "$tmp/$folder" -B "$tmp/$folder/build" -DCMAKE_C_COMPILER="$CC" "$@" >"$tmp/said" 2>&1
}

# built FOLDER WORDS..: configured and built.
built() {
    configure "$@" || fail "$1: $(tail -n 20 "$tmp/said")"
    cmake --build "$tmp/$1/build" >"$tmp/said" 2>&1 || fail "$1: $(tail -n 20 "$tmp/said")"
}

# prints PROGRAM: the first program's text.
prints() {
    "$1" >"$tmp/printed" || fail "$1 ends with $?"
    diff examples/first.out "$tmp/printed" || fail "$1 prints something else"
}

asks_for_engine() {
    readelf -d "$1" | grep -q "NEEDED.*libbarrier_engine.so.$major"
}

# The installed package.
mkdir "$tmp/source"
cp examples/first.c "$tmp/source"
echo '#include <barrier.h>
uint32_t plugin(void);
uint32_t plugin(void) { return barrier_version() + (uint32_t)barrier_level(0, 0, 0, 0).number; }' >"$tmp/source/plugin.c"
minor=${version#*.}
minor=${minor%%.*}
cat >"$tmp/source/CMakeLists.txt" <<END
cmake_minimum_required(VERSION 3.13)
project(first C)
set(CMAKE_C_STANDARD 99)
foreach(other $((major + 1)) $((major - 1)) $major.$((minor + 1)) $version.1)
    find_package(barrier_engine \${other} QUIET)
    if(barrier_engine_FOUND)
        message(FATAL_ERROR "version \${other} is taken")
    endif()
endforeach()
find_package(barrier_engine $version EXACT REQUIRED)
find_package(barrier_engine REQUIRED)
find_package(barrier_engine $major.$minor REQUIRED)
foreach(form barrier_engine static shared)
    add_executable(first_\${form} first.c)
    target_link_libraries(first_\${form} PRIVATE barrier_engine::\${form})
endforeach()
add_library(plugin MODULE plugin.c)
target_link_libraries(plugin PRIVATE barrier_engine::static)
target_link_options(plugin PRIVATE LINKER:--exclude-libs,libbarrier_engine.a)
END
built source -DCMAKE_PREFIX_PATH="$tmp/moved"
for form in barrier_engine static shared; do
    prints "$tmp/source/build/first_$form"
done
asks_for_engine "$tmp/source/build/first_shared" || fail "first_shared does not ask for the shared library"
for form in barrier_engine static; do
    if asks_for_engine "$tmp/source/build/first_$form"; then fail "first_$form asks for a shared library"; fi
done
[ "$(nm -D --defined-only "$tmp/source/build/libplugin.so" | awk '{ print $3 }')" = plugin ] || fail "the plug-in exports more than its own"

# Another machine: refused with words. The same machine under another name, or
# where a part is not known: taken. A project without a language needs no compiler
# for it, and the size of a pointer is named to it.
mkdir "$tmp/find"
cat >"$tmp/find/CMakeLists.txt" <<END
cmake_minimum_required(VERSION 3.13)
project(find NONE)
find_package(barrier_engine REQUIRED)
END
# looks PREFIX SYSTEM PROCESSOR POINTER
looks() {
    rm -rf "$tmp/find/build"
    configure find -DCMAKE_PREFIX_PATH="$1" -DCMAKE_SYSTEM_NAME="$2" -DCMAKE_SYSTEM_PROCESSOR="$3" -DCMAKE_SIZEOF_VOID_P="$4"
}
# only_here PREFIX: what is built for Linux on x86-64 is for no other.
only_here() {
    while read -r system processor pointer named; do
        if looks "$1" "$system" "$processor" "$pointer"; then fail "$1 is taken for $system on $processor, pointers of $pointer bytes"; fi
        tr -s '\n ' '  ' <"$tmp/said" | grep -q "$version built for Linux on x86_64, not for $system on $named" || fail "it is not said that $1 is for another machine than $system on $processor: $(cat "$tmp/said")"
    done <<END
Linux aarch64 8 aarch64
Linux ARM64 8 aarch64
Linux armv7l 4 arm
Linux i686 4 i386
Linux x86_64 4 i386
Linux riscv64 8 riscv64
Windows AMD64 8 x86_64
Darwin x86_64 8 x86_64
END
    while read -r system processor pointer; do
        looks "$1" "$system" "$processor" "$pointer" || fail "$1 is refused for $system on $processor: $(cat "$tmp/said")"
    done <<END
Linux x86_64 8
Linux AMD64 8
Linux amd64
END
}
only_here "$tmp/moved"
# With a compiler, as a toolchain file says it.
rm -rf "$tmp/source/build"
if configure source -DCMAKE_SYSTEM_NAME=Linux -DCMAKE_SYSTEM_PROCESSOR=aarch64 -DCMAKE_PREFIX_PATH="$tmp/moved"; then fail "the project is configured for aarch64"; fi
grep -q "not for Linux on aarch64" "$tmp/said" || fail "it is not said why aarch64 is refused: $(cat "$tmp/said")"

# A file of the package missing: it is not found, and the file is named.
rm -rf "$tmp/source/build"
rm "$tmp/moved/include/barrier_help.h"
if configure source -DCMAKE_PREFIX_PATH="$tmp/moved"; then fail "it is found without barrier_help.h"; fi
tr '\n' ' ' <"$tmp/said" | grep -q 'barrier_help.h is  *missing' || fail "the missing file is not named: $(cat "$tmp/said")"
echo "cmake: $version found where it was moved to, first.c with barrier_engine::barrier_engine, ::static and ::shared, a plug-in that exports none of the calls, other versions, systems and processors refused"

# The sources, added to a project that wants everything shared and hidden, and
# installs its own program: a static library, of which nothing is installed.
added() {
    mkdir "$tmp/$1"
    cp examples/first.c "$tmp/$1"
    cat >"$tmp/$1/CMakeLists.txt" <<END
cmake_minimum_required(VERSION 3.14)
project(first C)
set(CMAKE_C_STANDARD 11)
set(CMAKE_C_VISIBILITY_PRESET hidden)
$(cat)
get_property(targets DIRECTORY "$PWD" PROPERTY BUILDSYSTEM_TARGETS)
if(NOT targets STREQUAL "barrier_engine")
    message(FATAL_ERROR "it has the targets \${targets}")
endif()
add_executable(first first.c)
target_link_libraries(first PRIVATE barrier_engine::barrier_engine)
install(TARGETS first DESTINATION bin)
END
    built "$1" -DBUILD_SHARED_LIBS=ON
    prints "$tmp/$1/build/first"
    if asks_for_engine "$tmp/$1/build/first"; then fail "$1: first asks for a shared library"; fi
    cmake --install "$tmp/$1/build" --prefix "$tmp/$1/prefix" >"$tmp/said"
    [ "$(cd "$tmp/$1/prefix" && find . -type f)" = ./bin/first ] || fail "$1: the engine is installed with the project"
}
added subdirectory <<END
add_subdirectory("$PWD" engine)
END
added fetched <<END
include(FetchContent)
set(FETCHCONTENT_FULLY_DISCONNECTED ON)
FetchContent_Declare(barrier_engine SOURCE_DIR "$PWD")
FetchContent_MakeAvailable(barrier_engine)
END
echo "cmake: first.c with the sources by add_subdirectory and by FetchContent, as a static library that is not installed"

# The sources by themselves: built, installed, moved and found, static and shared.
# by_itself NAME BUILD_SHARED_LIBS
by_itself() {
    mkdir "$tmp/$1" "$tmp/uses_$1"
    cp -r CMakeLists.txt cmake include portable "$tmp/$1"
    built "$1" -DBUILD_SHARED_LIBS="$2" -DCMAKE_INSTALL_LIBDIR=lib -DCMAKE_C_VISIBILITY_PRESET=hidden
    cmake --install "$tmp/$1/build" --prefix "$tmp/$1/prefix" >"$tmp/said"
    mv "$tmp/$1/prefix" "$tmp/moved_$1"
    rm -rf "${tmp:?}/$1"
    cp examples/first.c "$tmp/uses_$1"
    cat >"$tmp/uses_$1/CMakeLists.txt" <<END
cmake_minimum_required(VERSION 3.13)
project(first C)
find_package(barrier_engine $version EXACT REQUIRED)
add_executable(first first.c)
target_link_libraries(first PRIVATE barrier_engine::barrier_engine)
END
    built "uses_$1" -DCMAKE_PREFIX_PATH="$tmp/moved_$1"
    prints "$tmp/uses_$1/build/first"
}
by_itself static OFF
if asks_for_engine "$tmp/uses_static/build/first"; then fail "by itself it is not static"; fi
only_here "$tmp/moved_static"
by_itself shared ON
asks_for_engine "$tmp/uses_shared/build/first" || fail "with BUILD_SHARED_LIBS it is not shared"
sed -n 's/^[a-z][a-z0-9_]* \(barrier_[a-z_]*\)(.*/\1/p' include/barrier.h | sort -u >"$tmp/calls"
nm -D --defined-only "$tmp/moved_shared/lib/libbarrier_engine.so.$major" | awk '{ print $3 }' | sort -u | diff "$tmp/calls" - || fail "the shared library exports something else than the header's calls"
echo "cmake: built and installed from the sources by themselves, static and shared, with the package of the same name"

#!/bin/sh
# The Python package: pip installs it into a fresh virtual environment without a
# network, compiled from the C, and the README's first program runs there; which
# library is called; that it can be removed; what is said where it cannot be built.
set -eu
tmp=$(mktemp -d)
trap 'rm -rf "$tmp"' EXIT

fail() {
    echo "python_package: $1" >&2
    exit 1
}

if ! python3 -c 'import ensurepip, venv' 2>"$tmp/said"; then
    echo "python_package: NOT run: python3 has no venv or no pip (Debian: python3-venv)"
    exit 0
fi

root=$(pwd)
package=$root/bindings/python
# Nothing of this machine's settings: no index, no folder of wheels, no library, no path.
unset BARRIER_LIBRARY LD_LIBRARY_PATH PYTHONPATH PIP_FIND_LINKS PIP_INDEX_URL PIP_EXTRA_INDEX_URL CFLAGS LDFLAGS
export PIP_CONFIG_FILE=/dev/null PIP_NO_INDEX=1 PIP_DISABLE_PIP_VERSION_CHECK=1 PIP_NO_CACHE_DIR=1 PYTHONDONTWRITEBYTECODE=1
export CC
elsewhere=$tmp/elsewhere
env=$tmp/env
mkdir "$elsewhere"

# Runs in a folder outside of the repository: the environment's Python, and its pip.
py() {
    (cd "$elsewhere" && "$env/bin/python" "$@")
}
pip() {
    py -m pip --quiet "$@" >"$tmp/said" 2>&1
}
# Arguments: the words that have to be said, then pip's, which have to fail without a traceback.
pip_fails() {
    words=$1
    shift
    if pip "$@"; then fail "pip $* does not fail"; fi
    grep -qF -- "$words" "$tmp/said" || fail "pip $* does not say '$words': $(cat "$tmp/said")"
    if grep Traceback "$tmp/said"; then fail "pip $* ends in a traceback: $(cat "$tmp/said")"; fi
}
# Every folder and file below a folder, and the sum of each file.
tree() {
    (cd "$1" && { find . -type d && find . -type f -exec cksum {} +; } | LC_ALL=C sort)
}

python3 -m venv "$env" >"$tmp/said" 2>&1 || fail "no virtual environment: $(cat "$tmp/said")"
# Neither setuptools nor wheel: a Python before 3.12 puts the first there.
for other in setuptools wheel; do
    if py -c "import $other" 2>"$tmp/said"; then pip uninstall --yes "$other" || fail "$(cat "$tmp/said")"; fi
    if py -c "import $other" 2>"$tmp/said"; then fail "$other is there"; fi
done
site=$(py -c 'import sysconfig; print(sysconfig.get_path("platlib"))')
tree "$site" >"$tmp/before"
tree "$package" >"$tmp/sources"

# The examples without the package: in words, with 2, and nothing is written.
for program in day picture; do
    status=0
    py "$root/examples/python/$program.py" >"$tmp/printed" 2>"$tmp/said" </dev/null || status=$?
    [ "$status" -eq 2 ] && [ ! -s "$tmp/printed" ] || fail "$program.py without the package ends with $status"
    grep -q "^$program: .*pip install ./bindings/python, or set PYTHONPATH=bindings/python and .*BARRIER_LIBRARY" "$tmp/said" || fail "$program.py without the package says $(cat "$tmp/said")"
    [ "$(wc -l <"$tmp/said")" -eq 1 ] || fail "$program.py without the package says more than a line: $(cat "$tmp/said")"
done

# What cannot be built: in words, and nothing is installed.
(CC=false && pip_fails 'barrier-engine: the C compiler made no library and ended with 1' install "$package")
(CC=$tmp/none && pip_fails "barrier-engine: the C compiler $tmp/none cannot be run" install "$package")
pip_fails 'set PYTHONPATH to bindings/python' install --editable "$package"
mkdir "$tmp/copied"
cp -r "$package" "$tmp/copied/package"
pip_fails 'barrier_engine.c. The package is built where it lies' install "$tmp/copied/package"
tree "$site" | diff "$tmp/before" - || fail "something is installed by a build that failed"

# Installed, from the folder and from inside of it, and the README's first program.
version=$(sed -n 's/^#define BARRIER_VERSION "\(.*\)"$/\1/p' include/barrier.h)
grep -qx "version = \"$version\"" "$package/pyproject.toml" || fail "pyproject.toml is not of version $version"
sed -n '/^## A first program$/,/^prints `/s/^    //p' "$package/README.md" >"$elsewhere/first.py"
wanted=$(sed -n 's/^prints `\([^`]*\)`.*/\1/p' "$package/README.md")
[ -s "$elsewhere/first.py" ] && [ -n "$wanted" ] || fail "README.md has no first program"
installed() { # PIP'S WORDS
    pip "$@" || fail "pip $*: $(cat "$tmp/said")"
    printed=$(py first.py 2>&1) || fail "after pip $*, the first program ends with $?: $printed"
    [ "$printed" = "$wanted" ] || fail "after pip $*, the first program prints $printed"
}
removed() {
    pip uninstall --yes barrier-engine || fail "$(cat "$tmp/said")"
    tree "$site" | diff "$tmp/before" - || fail "uninstall does not leave what was there before"
}
(cd "$package" && "$env/bin/python" -m pip --quiet install . >"$tmp/said" 2>&1) || fail "pip install .: $(cat "$tmp/said")"
removed
installed install "$package"
tree "$package" | diff "$tmp/sources" - || fail "the build writes into bindings/python"

# What is installed: its types, its sums, its version, and a library of its own.
[ -f "$site/barrier_engine/py.typed" ] || fail "py.typed is not installed"
cat >"$elsewhere/look.py" <<'PY'
import base64, hashlib, os, sys
from importlib.metadata import distribution
import barrier_engine as b
found = distribution("barrier-engine")
files = 0
for file in found.files:
    if file.hash is not None:
        data = file.locate().read_bytes()
        sum_ = base64.urlsafe_b64encode(getattr(hashlib, file.hash.mode)(data).digest()).rstrip(b"=")
        assert (sum_.decode(), len(data)) == (file.hash.value, file.size), file
        files += 1
assert files > 18, files
wheel = found.read_text("WHEEL")
assert "Root-Is-Purelib: false\n" in wheel and "Tag: py3-none-" in wheel and "none-any" not in wheel, wheel
assert found.metadata["Requires-Python"] == ">=3.8"
folder = os.path.dirname(b.__file__)
assert folder.startswith(sys.prefix), folder
assert os.path.dirname(b.c.library()._name) == folder, b.c.library()._name
print(found.version, b.__version__, "%d.%d.%d" % b.version())
PY
printed=$(py look.py 2>&1) || fail "$printed"
[ "$printed" = "$version $version $version" ] || fail "the versions are $printed and not $version"
printed=$(py "$root/examples/python/day.py") || fail "day.py ends with $?"
[ "$printed" = "$(cat examples/python/day.out)" ] || fail "day.py prints something else with it"
py "$root/examples/python/picture.py" "$root/examples/jobs/printed.job" >"$tmp/printed" || fail "picture.py ends with $?"
grep -q '</svg>' "$tmp/printed" || fail "picture.py draws nothing with it"

# BARRIER_LIBRARY wins: a broken one is an error, another is the one that is called.
export BARRIER_LIBRARY="$tmp/nowhere.so"
if py first.py >"$tmp/said" 2>&1; then fail "BARRIER_LIBRARY is passed over"; fi
grep -q "LibraryError: .*$tmp/nowhere.so" "$tmp/said" || fail "a broken BARRIER_LIBRARY: $(cat "$tmp/said")"
{
    echo 'unsigned barrier_version(void);' 'unsigned barrier_version(void) { return 3099017u; }'
    sed -n 's/^barrier_[a-z_]* \(barrier_[a-z_]*\)(.*/void \1(void); void \1(void) {}/p' include/barrier.h
} >"$tmp/other.c"
$CC -shared -fPIC "$tmp/other.c" -o "$tmp/other.so"
BARRIER_LIBRARY=$tmp/other.so
printed=$(py -c 'import barrier_engine as b; print(b.version().patch)') || fail "another BARRIER_LIBRARY ends with $?"
[ "$printed" = 17 ] || fail "another BARRIER_LIBRARY is not called"
unset BARRIER_LIBRARY
# Without the library in the package the first program finds none: it was this one.
mv "$site/barrier_engine/libbarrier_engine.so" "$tmp/own.so"
if py first.py >"$tmp/said" 2>&1; then
    echo "python_package: the system has a library of its own, which is called where the package has none"
else
    grep -q "LibraryError: .*neither in the package's folder nor" "$tmp/said" || fail "no library: $(cat "$tmp/said")"
fi
mv "$tmp/own.so" "$site/barrier_engine/libbarrier_engine.so"
removed
echo "python_package: $version installed without network, setuptools or wheel; first program, day and picture; BARRIER_LIBRARY wins; removed without a rest"

# The same wheel again, elsewhere and later; from a source distribution too, which
# has the C in it.
wheel_in() { # UMASK FOLDER WHAT
    mkdir "$2"
    (umask "$1" && TMPDIR=$2 && export TMPDIR && pip wheel --wheel-dir "$2" "$3") || fail "pip wheel $3: $(cat "$tmp/said")"
}
wheel_in 022 "$tmp/first" "$package"
wheel_in 077 "$tmp/second's place" "$package"
wheel=$(cd "$tmp/first" && echo *.whl)
cmp "$tmp/first/$wheel" "$tmp/second's place/$wheel" || fail "a second build gives another wheel"
(cd "$package" && "$env/bin/python" -c 'import sys, barrier_build; print(barrier_build.build_sdist(sys.argv[1]))' "$elsewhere") >"$tmp/said" || fail "no source distribution: $(cat "$tmp/said")"
sdist=$elsewhere/$(cat "$tmp/said")
wheel_in 022 "$tmp/third" "$sdist"
cmp "$tmp/first/$wheel" "$tmp/third/$wheel" || fail "the source distribution gives another wheel"
installed install "$sdist"
removed
installed install "$tmp/first/$wheel"
removed
tree "$package" | diff "$tmp/sources" - || fail "a build writes into bindings/python"
echo "python_package: $wheel, the same bytes three times, one of them from the source distribution; what cannot be built is said in words"

"""How the package is built: what is packed, for which platform, by which command.

What pip makes of it is tested by tests/vendor/python_package.sh.
"""
import base64
import contextlib
import csv
import hashlib
import io
import os
import re
import shutil
import stat
import subprocess
import sys
import sysconfig
import tarfile
import tempfile
import unittest
import zipfile
from unittest import mock

import support
import barrier_build as build
import barrier_engine

SOURCE = os.path.join(support.ROOT, "portable", "barrier_engine.c")


def header_version():
    with open(os.path.join(support.ROOT, "include", "barrier.h"), encoding="utf-8") as file:
        return re.search(r'^#define BARRIER_VERSION "(.*)"$', file.read(), re.M).group(1)


def environment(**changes):
    """The environment with these changes; None takes a name out."""
    kept = {name: value for name, value in os.environ.items() if name not in changes}
    return mock.patch.dict(os.environ, {
        **kept, **{name: value for name, value in changes.items() if value is not None}}, clear=True)


def said(call, *arguments):
    """The words with which a build ends."""
    try:
        call(*arguments)
    except SystemExit as ended:
        return str(ended.code)
    return None


class InFolder(unittest.TestCase):
    def setUp(self):
        held = tempfile.TemporaryDirectory()
        self.addCleanup(held.cleanup)
        self.folder = held.name
        quiet = contextlib.redirect_stderr(io.StringIO())  # the command, which pip -v shows
        quiet.__enter__()
        self.addCleanup(quiet.__exit__, None, None, None)


class Versions(unittest.TestCase):
    def test_all_are_the_headers(self):
        self.assertEqual(build._project()["version"], header_version())
        self.assertEqual(barrier_engine.__version__, header_version())

    def test_the_project_as_a_reader_of_toml_has_it(self):
        try:
            import tomllib
        except ImportError:
            self.skipTest("this Python has no tomllib")
        with open(os.path.join(support.PYTHON, "pyproject.toml"), "rb") as file:
            read = tomllib.load(file)
        self.assertEqual(read["project"], build._project())
        self.assertEqual(read["build-system"],
                         {"requires": [], "build-backend": "barrier_build", "backend-path": ["."]})


@unittest.skipUnless(shutil.which("cc"), "there is no cc")
class Wheel(InFolder):
    def built(self, name="a"):
        os.makedirs(os.path.join(self.folder, name), exist_ok=True)
        return os.path.join(self.folder, name, build.build_wheel(os.path.join(self.folder, name)))

    def test_what_is_in_it(self):
        path = self.built()
        version = header_version()
        self.assertEqual(os.path.basename(path), f"barrier_engine-{version}-{build._tag()}.whl")
        info = f"barrier_engine-{version}.dist-info"
        own = [name for name in os.listdir(os.path.join(support.PYTHON, "barrier_engine"))
               if name.endswith(".py")] + ["py.typed", barrier_engine.c.LIBRARY_NAME]
        with zipfile.ZipFile(path) as wheel:
            self.assertEqual(sorted(wheel.namelist()), sorted(
                [f"barrier_engine/{name}" for name in own]
                + [f"{info}/{name}" for name in ("METADATA", "WHEEL", "RECORD")]))
            self.assertIn(f"\nTag: {build._tag()}\n".encode(), wheel.read(f"{info}/WHEEL"))
            self.assertIn(b"\nRoot-Is-Purelib: false\n", wheel.read(f"{info}/WHEEL"))
            head = wheel.read(f"{info}/METADATA").decode().split("\n\n")[0].split("\n")
            self.assertIn("Name: barrier-engine", head)
            self.assertIn(f"Version: {version}", head)
            self.assertIn("Requires-Python: >=3.8", head)

    def test_its_record(self):
        with zipfile.ZipFile(self.built()) as wheel:
            record = next(name for name in wheel.namelist() if name.endswith("/RECORD"))
            rows = list(csv.reader(io.StringIO(wheel.read(record).decode())))
            self.assertEqual([row[0] for row in rows], wheel.namelist())
            for name, sum_, size in rows:
                if name == record:
                    self.assertEqual((sum_, size), ("", ""))
                    continue
                data = wheel.read(name)
                digest = base64.urlsafe_b64encode(hashlib.sha256(data).digest()).decode().rstrip("=")
                self.assertEqual((sum_, size), (f"sha256={digest}", str(len(data))), name)

    def test_the_same_bytes_each_time(self):
        first = build._read(self.built("first"))
        self.addCleanup(os.umask, os.umask(0o077))
        with environment(TZ="Asia/Tokyo", LC_ALL="C"):
            self.assertEqual(build._read(self.built("second/with/another/name")), first)

    def test_the_files_can_be_read_by_everybody(self):
        self.addCleanup(os.umask, os.umask(0o077))
        with zipfile.ZipFile(self.built()) as wheel:
            for entry in wheel.infolist():
                mode = entry.external_attr >> 16
                self.assertTrue(stat.S_ISREG(mode), entry.filename)
                self.assertEqual(mode & 0o444, 0o444, entry.filename)

    @unittest.skipUnless(sys.platform == "linux" and shutil.which("nm"), "there is no nm")
    def test_the_library_exports_the_headers_calls(self):
        library = build._compile(self.folder)
        rows = subprocess.run(["nm", "-D", "--defined-only", library], stdout=subprocess.PIPE,
                              check=True).stdout.decode().split("\n")
        self.assertEqual({row.split()[2] for row in rows if row},
                         {*barrier_engine.c.CALLS, "barrier_version"})

    def test_the_metadata_before_it_is_built(self):
        name = build.prepare_metadata_for_build_wheel(self.folder)
        with zipfile.ZipFile(self.built()) as wheel:
            for file in ("METADATA", "WHEEL"):
                self.assertEqual(build._read(self.folder, name, file), wheel.read(f"{name}/{file}"))


class SourceDistribution(InFolder):
    def test_it_has_the_engine(self):
        name = build.build_sdist(self.folder)
        stem = f"barrier_engine-{header_version()}"
        self.assertEqual(name, stem + ".tar.gz")
        with tarfile.open(os.path.join(self.folder, name)) as archive:
            packed = archive.extractfile(f"{stem}/engine/barrier_engine.c").read()
            self.assertEqual(packed, build._read(SOURCE))
            self.assertIn(f"{stem}/engine/barrier.h", archive.getnames())
            self.assertIn(f"{stem}/barrier_engine/py.typed", archive.getnames())
            self.assertEqual({entry.mtime for entry in archive}, {build.TAR_TIME})

    def test_the_same_bytes_each_time(self):
        first = build._read(self.folder, build.build_sdist(self.folder))
        self.assertEqual(build._read(self.folder, build.build_sdist(self.folder)), first)


class Faults(InFolder):
    def build(self, **changes):
        with environment(**changes):
            words = said(build.build_wheel, self.folder)
        self.assertEqual(os.listdir(self.folder), [])
        return words

    def test_a_compiler_that_fails(self):
        words = self.build(CC="false")
        self.assertIn("barrier-engine: the C compiler made no library and ended with 1. ", words)
        self.assertIn("and said nothing\nName another with the environment variable CC.", words)

    def test_a_compiler_that_makes_nothing(self):
        self.assertIn("made no library and ended with 0.", self.build(CC="true"))

    def test_a_compiler_that_is_not_there(self):
        self.assertIn("/nowhere/cc cannot be run: No such file or directory.", self.build(CC="/nowhere/cc"))

    def test_no_compiler(self):
        self.assertIn("there is no C compiler: none of cc, gcc, clang is found.",
                      self.build(CC=None, PATH=self.folder))

    def test_a_quote_that_does_not_end(self):
        for name in ("CC", "CFLAGS", "LDFLAGS"):
            self.assertIn(f"the environment variable {name} is ", self.build(**{name: "gcc '"}))

    @unittest.skipUnless(shutil.which("cc"), "there is no cc")
    def test_what_the_compiler_says_is_shown(self):
        self.assertIn("compile without -ffast-math", self.build(CFLAGS="-O2 -ffast-math"))

    @unittest.skipUnless(shutil.which("cc"), "there is no cc")
    def test_a_library_that_cannot_be_called(self):
        with mock.patch.object(build, "_command", lambda compiler, library: [
                "cc", "-shared", "-fPIC", "-x", "c", os.devnull, "-o", library]):
            self.assertIn("this Python cannot call the library that was compiled", self.build())
        with mock.patch.object(build, "_command", lambda compiler, library: ["cp", SOURCE, library]):
            self.assertIn("this Python cannot call the library that was compiled", self.build())

    @unittest.skipUnless(shutil.which("cc"), "there is no cc")
    def test_another_version(self):
        with mock.patch.object(build, "_project", lambda kept=build._project: dict(kept(), version="3.0.0")):
            self.assertIn(f"pyproject.toml is of version 3.0.0; the package and the engine in C are of "
                          f"{header_version()} and {header_version()}", self.build())

    def test_the_engine_is_not_there(self):
        with mock.patch.object(build, "HERE", os.path.join(self.folder, "a", "b", "c")):
            self.assertIn("barrier_engine.c. The package is built where it lies", said(build._engine))

    def test_editable(self):
        self.assertIn("set PYTHONPATH to bindings/python", said(build.build_editable, self.folder))


class Platforms(unittest.TestCase):
    """Of platforms that the tests do not run on, the commands and names."""

    def on(self, system, tag, machine="x86_64", bits=64):
        for patch in (
            mock.patch.object(sys, "platform", system),
            mock.patch.object(sys, "maxsize", (1 << (bits - 1)) - 1),
            mock.patch.object(sysconfig, "get_platform", lambda: tag),
            mock.patch.object(build.platform, "machine", lambda: machine),
        ):
            patch.start()
            self.addCleanup(patch.stop)

    def test_tags(self):
        for where, wanted in (
            (("linux", "linux-x86_64"), "linux_x86_64"),
            (("linux", "linux-aarch64", "aarch64"), "linux_aarch64"),
            (("linux", "linux-x86_64", "x86_64", 32), "linux_i686"),
            (("linux", "linux-aarch64", "aarch64", 32), "linux_armv7l"),
            (("win32", "win-amd64", "AMD64"), "win_amd64"),
            (("win32", "win32", "x86", 32), "win32"),
            (("win32", "win-arm64", "ARM64"), "win_arm64"),
            (("darwin", "macosx-10.9-x86_64", "x86_64"), "macosx_10_9_x86_64"),
            (("darwin", "macosx-10.9-universal2", "arm64"), "macosx_11_0_arm64"),
            (("darwin", "macosx-10.9-universal2", "x86_64"), "macosx_10_9_x86_64"),
            (("darwin", "macosx-14-arm64", "arm64"), "macosx_14_0_arm64"),
            (("darwin", "macosx-12.3-arm64", "arm64"), "macosx_12_0_arm64"),
            (("freebsd13", "freebsd-13.2-RELEASE-amd64", "amd64"), "freebsd_13_2_RELEASE_amd64"),
        ):
            with self.subTest(where):
                self.on(*where)
                self.assertEqual(build._tag(), "py3-none-" + wanted)
                self.doCleanups()

    def test_pip_takes_the_tag_of_this_platform(self):
        try:
            from pip._vendor.packaging.tags import sys_tags
        except ImportError:
            self.skipTest("there is no pip")
        self.assertIn(build._tag(), {str(tag) for tag in sys_tags()})

    def test_the_command(self):
        self.on("linux", "linux-x86_64")
        with environment(CFLAGS=None, LDFLAGS=None):
            self.assertEqual(build._command(["cc", "-m64"], "/t/lib.so"), [
                "cc", "-m64", "-std=c99", "-O2", "-shared", "-fPIC",
                "-I" + os.path.join(support.ROOT, "include"), SOURCE, "-o", "/t/lib.so"])
        with environment(CFLAGS="-O3 -g", LDFLAGS="-Wl,-z,now"):
            command = build._command(["cc"], "/t/lib.so")
        self.assertEqual((command[2:4], command[-1]), (["-O3", "-g"], "-Wl,-z,now"))

    def test_on_macos(self):
        self.on("darwin", "macosx-10.9-universal2", "arm64")
        command = build._command(["cc"], "/t/libbarrier_engine.dylib")
        for words in (["-arch", "arm64"], ["-mmacosx-version-min=11.0"], ["-fPIC"],
                      ["-Wl,-install_name,@rpath/libbarrier_engine.dylib"]):
            self.assertIn(words, [command[i:i + len(words)] for i in range(len(command))])

    def test_on_windows(self):
        self.on("win32", "win-amd64", "AMD64")
        self.assertNotIn("-fPIC", build._command(["gcc"], r"C:\t\barrier_engine.dll"))
        for compiler in ("cl", r"C:\VC\bin\cl.exe", "CL.EXE", "clang-cl"):
            command = build._command([compiler], r"C:\t\barrier_engine.dll")
            self.assertIn(r"/FeC:\t\barrier_engine.dll", command)
            self.assertEqual({word[8:] for word in command if word.startswith("/EXPORT:")},
                             {*barrier_engine.c.CALLS, "barrier_version"})
            self.assertLess(command.index("/link"), command.index("/EXPORT:barrier_plan"))

    def test_compilers_that_are_named(self):
        with environment(CC="gcc -m32 '-DA=b c'"):
            self.assertEqual(build._compiler(), ["gcc", "-m32", "-DA=b c"])
        with environment(CC=r'"C:\Program Files\VC\cl.exe" /W3'), mock.patch.object(os, "name", "nt"):
            self.assertEqual(build._compiler(), [r"C:\Program Files\VC\cl.exe", "/W3"])

    def test_compilers_that_are_found(self):
        for system, there, wanted in (
            ("linux", {"cc", "gcc", "clang"}, "cc"), ("linux", {"clang", "gcc"}, "gcc"),
            ("darwin", {"clang"}, "clang"), ("win32", {"gcc", "cl"}, "cl"), ("win32", {"clang"}, "clang"),
        ):
            with environment(CC=" "), mock.patch.object(sys, "platform", system), \
                    mock.patch.object(shutil, "which", lambda name: name if name in there else None):
                self.assertEqual(build._compiler(), [wanted])


if __name__ == "__main__":
    unittest.main()

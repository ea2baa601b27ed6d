"""How the shared library is found, and what is said where it is not."""
import os
import shutil
import subprocess
import sys
import tempfile
import unittest

import support
from barrier_engine import LibraryError, c


def run(code, *words, folder=support.PYTHON, **environment):
    """A fresh interpreter, since a library that is loaded stays."""
    return subprocess.run(
        [sys.executable, "-c", code, *words], cwd=folder, stdout=subprocess.PIPE,
        stderr=subprocess.STDOUT, env=dict(os.environ, PYTHONPATH=folder, **environment)).stdout.decode()


def built(folder, source):
    """A shared library of a C source."""
    path = os.path.join(folder, "libmade.so")
    subprocess.run(["cc", "-shared", "-fPIC", "-x", "c", "-", "-o", path],
                   input=source.encode(), check=True)
    return path


CALLS = "\n".join(f"void {name}(void) {{}}" for name in c.CALLS)


class Found(unittest.TestCase):
    def test_a_wrong_path_is_said(self):
        with self.assertRaises(LibraryError) as caught:
            c.load("/nowhere/libbarrier_engine.so")
        self.assertIn("export BARRIER_LIBRARY=PREFIX/lib/libbarrier_engine.so.3", str(caught.exception))
        self.assertIn("/nowhere/libbarrier_engine.so", str(caught.exception))

    def test_none_installed_is_said_at_the_first_call(self):
        code = ("import ctypes.util; ctypes.util.find_library = lambda name: None\n"
                "import barrier_engine as b\n"
                "print('imported', b.millimetres('1.5'))\n"
                "try: b.layout([1], 1)\n"
                "except b.LibraryError as error: print(error)\n")
        said = run(code, BARRIER_LIBRARY="")
        self.assertIn("imported 1500", said)
        self.assertIn("is neither in the package's folder nor where the system looks for libraries. "
                      "pip install ./bindings/python builds it into the package. Or name one: of an "
                      "installed engine export BARRIER_LIBRARY=PREFIX/lib/libbarrier_engine.so.3,", said)

    def test_the_systems_is_taken(self):
        named = os.environ.get("BARRIER_LIBRARY", "")
        self.assertTrue(named, "BARRIER_LIBRARY has to name the library for this test")
        code = ("import ctypes.util\n"
                f"ctypes.util.find_library = lambda name: {os.path.abspath(named)!r} "
                "if name == 'barrier_engine' else None\n"
                "import barrier_engine as b\n"
                "print(b.layout([4, 6], 21).laid.counts)\n")
        self.assertEqual(run(code, BARRIER_LIBRARY="").strip(), "(1, 3)")

    @unittest.skipUnless(shutil.which("cc"), "there is no cc")
    def test_the_named_one_then_the_packages_own_then_the_systems(self):
        code = ("import sys, ctypes.util\n"
                "ctypes.util.find_library = lambda name: sys.argv[1]\n"
                "import barrier_engine as b\n"
                "print(b.version().patch)\n")
        with tempfile.TemporaryDirectory() as folder:
            package = os.path.join(folder, "barrier_engine")
            shutil.copytree(os.path.dirname(c.__file__), package)
            own, named, system = os.path.join(package, c.LIBRARY_NAME), *(
                os.path.join(folder, f"{name}.so") for name in ("named", "system"))
            for patch, path in enumerate((named, own, system), 1):
                source = f"{CALLS}\nunsigned barrier_version(void) {{ return 3002{patch:03}; }}"
                os.rename(built(folder, source), path)
            for patch, environment in ((1, named), (2, ""), (3, "")):
                if patch == 3:
                    os.remove(own)
                said = run(code, system, folder=folder, BARRIER_LIBRARY=environment)
                self.assertEqual(said.strip(), str(patch))

    def test_a_broken_name_is_not_passed_over(self):
        said = run("import barrier_engine as b\n"
                   "try: b.version()\n"
                   "except b.LibraryError as error: print(error)\n", BARRIER_LIBRARY="/nowhere/lib.so")
        self.assertIn("cannot be loaded: /nowhere/lib.so: ", said)

    @unittest.skipUnless(shutil.which("cc"), "there is no cc")
    def test_a_library_without_the_calls(self):
        with tempfile.TemporaryDirectory() as folder:
            path = built(folder, CALLS.replace("void barrier_layout(void) {}", ""))
            with self.assertRaises(LibraryError) as caught:
                c.load(path)
            self.assertIn("has no call barrier_layout", str(caught.exception))


@unittest.skipUnless(shutil.which("cc"), "there is no cc")
class OfVersions(unittest.TestCase):
    def version_of(self, source):
        with tempfile.TemporaryDirectory() as folder:
            return c.version_number(c.load(built(folder, CALLS + source)))

    def test_the_number(self):
        self.assertEqual(self.version_of("\nunsigned barrier_version(void) { return 3002017; }"), 3002017)

    def test_a_library_that_does_not_say(self):
        self.assertIsNone(self.version_of(""))

    def test_another_first_number(self):
        with self.assertRaises(LibraryError) as caught:
            self.version_of("\nunsigned barrier_version(void) { return 4000000; }")
        self.assertIn("version 4", str(caught.exception))

    def test_in_three_numbers(self):
        with tempfile.TemporaryDirectory() as folder:
            path = built(folder, CALLS + "\nunsigned barrier_version(void) { return 3002017; }")
            said = run("import barrier_engine as b; print(b.version())", BARRIER_LIBRARY=path)
        self.assertEqual(said.strip(), "Version(major=3, minor=2, patch=17)")


if __name__ == "__main__":
    unittest.main()

"""picture.py with hostile input: its status, one message, no traceback, no file harmed."""
import contextlib
import io
import os
import subprocess
import sys
import tempfile
import unittest

import programs
import hostile
import support
import picture as program
from barrier_engine import Malformed, Refused, plan, read_job, text_of_job

PROGRAM = os.path.join(programs.FOLDER, "picture.py")


def wanted_status(data):
    """What the program has to end with."""
    try:
        plan(read_job(data).data, 0)
    except Malformed:
        return 2
    except Refused:
        return 1
    return 0


def run(*words):
    """The program in this process: its status, output and what it said."""
    out, said = io.TextIOWrapper(io.BytesIO(), "utf-8"), io.StringIO()
    with contextlib.redirect_stdout(out), contextlib.redirect_stderr(said):
        try:
            status = program.main(list(words))
        except SystemExit as stop:
            status = stop.code
    out.flush()
    return status, out.buffer.getvalue(), said.getvalue()


class Folder(unittest.TestCase):
    def setUp(self):
        folder = tempfile.TemporaryDirectory()
        self.addCleanup(folder.cleanup)
        self.folder = folder.name

    def path(self, name, data=None):
        path = os.path.join(self.folder, name)
        if data is not None:
            with open(path, "wb") as file:
                file.write(data)
        return path

    def content(self, path):
        with open(path, "rb") as file:
            return file.read()


class Inputs(Folder):
    def test_each_input(self):
        out, dxf = self.path("out.svg"), self.path("out.dxf")
        seen = {0: 0, 1: 0, 2: 0}
        for data in hostile.everything():
            job = self.path("in.job", data)
            status, printed, said = run(job, "-o", out, "--dxf", dxf)
            self.assertEqual((status, printed), (wanted_status(data), b""), data[:300])
            seen[status] += 1
            self.assertEqual(self.content(job), data)
            self.assertEqual(os.path.exists(out) and os.path.exists(dxf), status == 0)
            self.assertEqual(sorted(os.listdir(self.folder)),
                             ["in.job"] if status else ["in.job", "out.dxf", "out.svg"])
            if status == 0:
                self.assertEqual(said, "")
                os.remove(out)
                os.remove(dxf)
            else:
                self.assertTrue(said.startswith("picture: "), said)
                self.assertLess(len(said), 700)
                self.assertEqual(said.count("\n"), 1 if status == 2 else said.count("\n"))
        self.assertGreater(min(seen.values()), 100)

    @unittest.skipUnless(support.HAS_CC, "there is no cc")
    def test_it_says_what_listing_says(self):
        """One text in C and Python, of text that is wrong and of jobs that are refused."""
        for data in hostile.broken() + hostile.texts()[::3] + hostile.jobs()[::3]:
            status, _, said = support.called("listing", data)
            mine = run(self.path("in.job", data), "-o", self.path("out.svg"))
            self.assertEqual(mine[0], status, data[:300])
            if status:
                self.assertEqual(mine[2], said.replace("listing: ", "picture: ", 1), data[:300])

    def test_as_a_program(self):
        """In a process of its own, from standard input: no traceback, and nothing printed."""
        refused = support.sample_text("refused").encode()
        for data, wanted in ((refused, 1), (b"\1\0", 1), (b"", 2), (b"\xff\xfe", 2),
                             (b"panel " + b"9" * 5000, 2), (support.PRINTED.to_bytes(), 0)):
            done = subprocess.run([sys.executable, PROGRAM], input=data, stdout=subprocess.PIPE,
                                  stderr=subprocess.PIPE)
            self.assertEqual(done.returncode, wanted)
            self.assertEqual(bool(done.stdout), wanted == 0)
            self.assertEqual(bool(done.stderr), wanted != 0)
            self.assertNotIn(b"Traceback", done.stderr)


class Words(Folder):
    def test_wrong_words(self):
        job = self.path("a.job", support.PRINTED.to_bytes())
        long = "9" * 5000
        for words in (
            ["--lots", "5", "4"], ["--lots", "5"], ["--lots", long, long], ["--lots", "1,5", "2"],
            ["--lots", "0", "1+25"], ["--lots", "0", "nan"], ["--lots", "0", "1000000000.001"],
            ["--from", "1"], ["--to", "1"], ["--from", "5", "--to", "5"], ["--from", long, "--to", long],
            ["--from", "0", "--to", "9" * 12], ["--from", "a", "--to", "b"], ["--sheet", "100"],
            ["--sheet", "0", "-o", "x.svg"], ["--sheet", "-5", "-o", "x.svg"], ["--sheet", long, "-o", "x.svg"],
            ["--sheet", "one", "-o", "x.svg"], ["--stations", "miles"], ["--stations"], ["--dxf"], ["-o"],
            ["--csv"], ["-x"], ["second.job"], ["--name"], ["--\u00e9"], ["--from"],
        ):
            status, printed, said = run(job, *words)
            self.assertEqual((status, printed), (2, b""), words)
            self.assertIn("usage: picture", said)
            self.assertLess(len(said), 1000)
        self.assertEqual(os.listdir(self.folder), ["a.job"])

    def test_help(self):
        status, printed, said = run("--help")
        self.assertEqual((status, said), (0, ""))
        self.assertIn(b"usage: picture", printed)
        for option in (b"--lots", b"--from", b"--to", b"--sheet", b"--dxf", b"--stations", b"--name"):
            self.assertIn(option, printed)

    def test_a_long_name(self):
        job = self.path("a.job", support.PRINTED.to_bytes())
        status, printed, said = run(job, "--name", "&<W>\udcff" * 20000)
        self.assertEqual((status, said), (0, ""))
        self.assertTrue(printed.endswith(b"</svg>\n"))

    def test_too_many_sheets(self):
        job = self.path("a.job", support.PRINTED.to_bytes())
        status, _, said = run(job, "-o", self.path("out.svg"), "--sheet", "1")
        self.assertEqual(status, 2)
        self.assertIn("more than 999 sheets", said)
        status, _, said = run(job, "-o", self.path("out.svg"), "--sheet", "1", "--from", "2000", "--to", "3000")
        self.assertEqual(status, 2)
        self.assertIn("no part of the road", said)
        self.assertEqual(os.listdir(self.folder), ["a.job"])

    def test_stations_in_kilometres(self):
        job = self.path("a.job", support.PRINTED.to_bytes())
        one = run(job, "--lots", "0", "500", "1000", "--from", "100", "--to", "300")
        two = run(job, "--lots", "0+000", "0+500.000", "1+000", "--from", "0+100", "--to", "0+300.000")
        self.assertEqual(one[0], 0)
        self.assertEqual(one, two)


class TheJobsOwnFile(Folder):
    """The job is written by hand and has no copy: nothing is written over it."""

    def test_by_every_name(self):
        text = support.sample_text("printed").encode()
        job = self.path("a.job", text)
        os.symlink(job, self.path("link.svg"))
        os.link(job, self.path("hard.svg"))
        os.mkdir(self.path("sub"))
        for out in ("a.job", "link.svg", "hard.svg", os.path.join("sub", "..", "a.job")):
            for option in ("-o", "--dxf"):
                status, printed, said = run(job, option, self.path(out))
                self.assertEqual((status, printed), (2, b""), out)
                self.assertIn("is the job itself and is not written over", said)
                self.assertEqual(self.content(job), text)

    def test_a_sheet_that_has_the_jobs_name(self):
        text = support.sample_text("printed").encode()
        job = self.path("a-01.svg", text)
        status, _, said = run(job, "-o", self.path("a.svg"), "--sheet", "500")
        self.assertEqual(status, 2)
        self.assertIn("is the job itself", said)
        self.assertEqual(self.content(job), text)
        self.assertEqual(os.listdir(self.folder), ["a-01.svg"])

    def test_from_standard_input(self):
        text = support.sample_text("printed").encode()
        job = self.path("a.job", text)
        with open(job, "rb") as file:
            done = subprocess.run([sys.executable, PROGRAM, "-o", job], stdin=file, stderr=subprocess.PIPE)
        self.assertEqual(done.returncode, 2)
        self.assertIn(b"is the job itself", done.stderr)
        self.assertEqual(self.content(job), text)

    def test_standard_output_that_is_the_job(self):
        text = support.sample_text("printed").encode()
        job = self.path("a.job", text)
        with open(job, "ab") as file:
            done = subprocess.run([sys.executable, PROGRAM, job], stdout=file, stderr=subprocess.PIPE)
        self.assertEqual(done.returncode, 2)
        self.assertIn(b"is the job itself", done.stderr)
        self.assertEqual(self.content(job), text)

    def test_the_picture_and_the_drawing_are_two_files(self):
        job = self.path("a.job", support.PRINTED.to_bytes())
        status, _, said = run(job, "-o", self.path("x"), "--dxf", self.path("x"))
        self.assertEqual(status, 2)
        self.assertIn("two files", said)


class Files(Folder):
    def said_of(self, *words):
        status, printed, said = run(*words)
        self.assertEqual((status, printed), (2, b""))
        self.assertTrue(said.startswith("picture: "), said)
        self.assertEqual(said.count("\n"), 1)
        return said

    def test_what_cannot_be_read_or_written(self):
        job = self.path("a.job", support.PRINTED.to_bytes())
        self.assertIn("no.job", self.said_of(self.path("no.job")))
        self.assertIn("directory", self.said_of(self.folder))
        self.assertIn("no", self.said_of(job, "-o", self.path(os.path.join("no", "a.svg"))))
        self.assertIn("directory", self.said_of(job, "-o", self.folder))
        self.assertIn("File name too long", self.said_of(job, "-o", self.path("x" * 5000)))
        self.said_of(job, "-o", "a\0b")

    @unittest.skipUnless(os.path.exists("/dev/full"), "there is no /dev/full")
    def test_a_full_device(self):
        job = self.path("a.job", support.PRINTED.to_bytes())
        self.assertIn("No space left", self.said_of(job, "-o", "/dev/full"))
        with open("/dev/full", "wb") as full:
            done = subprocess.run([sys.executable, PROGRAM, job], stdout=full, stderr=subprocess.PIPE)
        self.assertEqual(done.returncode, 2)
        self.assertNotIn(b"Traceback", done.stderr)
        self.assertIn(b"standard output", done.stderr)

    def test_a_reader_that_goes_away(self):
        job = self.path("a.job", support.made_job(256).to_bytes())
        read, write = os.pipe()
        os.close(read)
        done = subprocess.run([sys.executable, PROGRAM, job], stdout=write, stderr=subprocess.PIPE)
        os.close(write)
        self.assertEqual(done.returncode, 2)
        self.assertNotIn(b"Traceback", done.stderr)
        self.assertNotIn(b"Exception ignored", done.stderr)

    def test_closed_streams(self):
        job = self.path("a.job", support.PRINTED.to_bytes())
        refused = self.path("refused.job", support.sample_text("refused").encode())
        for words, wanted in ((f"<&- '{PROGRAM}'", 2), (f"'{PROGRAM}' '{job}' >&-", 2),
                              (f"'{PROGRAM}' '{refused}' 2>&-", 1), (f"'{PROGRAM}' '{job}' 2>&- >/dev/null", 0)):
            word = words.replace(f"'{PROGRAM}'", f"'{sys.executable}' '{PROGRAM}'")
            done = subprocess.run(["sh", "-c", word], stdin=subprocess.DEVNULL, stdout=subprocess.PIPE,
                                  stderr=subprocess.PIPE)
            self.assertEqual((done.returncode, done.stdout), (wanted, b""), words)
            self.assertNotIn(b"Traceback", done.stderr)

    def test_a_terminal_without_the_letters(self):
        text = text_of_job(support.job(support.HEADER, {"near_offset": 3999}), ["ca\u00f1o"])
        done = subprocess.run([sys.executable, PROGRAM], input=text.encode(), stdout=subprocess.PIPE,
                              stderr=subprocess.PIPE, env=dict(os.environ, PYTHONIOENCODING="ascii:strict"))
        self.assertEqual((done.returncode, done.stdout), (1, b""))
        self.assertIn(b"hazard 0 is ca\\xf1o, line 11", done.stderr)

    def test_no_library(self):
        job = self.path("a.job", support.PRINTED.to_bytes())
        done = subprocess.run([sys.executable, PROGRAM, job], stdout=subprocess.PIPE, stderr=subprocess.PIPE,
                              env=dict(os.environ, BARRIER_LIBRARY="/nowhere/lib.so"))
        self.assertEqual((done.returncode, done.stdout), (2, b""))
        self.assertNotIn(b"Traceback", done.stderr)
        self.assertIn(b"shared library cannot be loaded", done.stderr)


if __name__ == "__main__":
    unittest.main()

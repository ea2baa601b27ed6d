"""The structs and constants of the package are those of the header."""
import ctypes
import dataclasses
import os
import re
import shutil
import subprocess
import tempfile
import unittest

import support
from barrier_engine import Header, Number, SCHEDULE_MAX, Side, TRIES_MAX, c
from barrier_engine.job import HAZARDS_MAX
from barrier_engine.schedule import RUNS_MAX

HEADER = os.path.join(support.ROOT, "include", "barrier.h")


def rows_of_package():
    """Each struct's size, and each field's offset and size, as lines."""
    rows = []
    for name, struct in c.STRUCTS.items():
        rows.append(f"{name} {ctypes.sizeof(struct)}")
        for field, _ in struct._fields_:
            place = getattr(struct, field)
            rows.append(f"{name}.{field} {place.offset} {place.size}")
    return rows


def program_for_header():
    """A C program that prints the same lines of the header's structs."""
    lines = []
    for name, struct in c.STRUCTS.items():
        lines.append(f'printf("{name} %zu\\n", sizeof({name}));')
        for field, _ in struct._fields_:
            lines.append(f'printf("{name}.{field} %zu %zu\\n", offsetof({name}, {field}), '
                         f"sizeof((({name} *)0)->{field}));")
    body = "\n    ".join(lines)
    return f"#include <stdio.h>\n#include <barrier.h>\nint main(void)\n{{\n    {body}\n    return 0;\n}}\n"


class Structs(unittest.TestCase):
    @unittest.skipUnless(shutil.which("cc"), "there is no cc")
    def test_sizes_and_offsets(self):
        with tempfile.TemporaryDirectory() as folder:
            source, program = os.path.join(folder, "sizes.c"), os.path.join(folder, "sizes")
            with open(source, "w", encoding="utf-8") as file:
                file.write(program_for_header())
            subprocess.run(["cc", "-std=c99", "-I" + os.path.dirname(HEADER), source, "-o", program],
                           check=True)
            printed = subprocess.run([program], stdout=subprocess.PIPE, check=True).stdout.decode()
        self.assertEqual(rows_of_package(), printed.splitlines())

    def test_the_open_jobs_size(self):
        self.assertEqual(ctypes.sizeof(c.OpenJob), 55544)


class Names(unittest.TestCase):
    def setUp(self):
        with open(HEADER, encoding="utf-8") as file:
            self.text = file.read()

    def test_every_call_is_declared(self):
        declared = set(re.findall(r"^barrier_\w+ (barrier_\w+)\(", self.text, re.M))
        self.assertEqual(set(c.CALLS), declared - {"barrier_version"})

    def test_every_struct_has_the_headers_fields(self):
        bodies = re.findall(r"^typedef struct \{\n(.*?)^\} (\w+);", self.text, re.M | re.S)
        self.assertEqual({name for _, name in bodies}, set(c.STRUCTS))
        for body, name in bodies:
            fields = re.findall(r"(\w+)(?:\[\w+\])?;", body)
            self.assertEqual([field for field, _ in c.STRUCTS[name]._fields_], fields)

    def test_the_header_has_the_names_of_barrier_help(self):
        path = os.path.join(support.ROOT, "include", "barrier_help.h")
        with open(path, encoding="utf-8") as file:
            body = re.search(r"^typedef struct \{\n([^}]*)\} barrier_help_header;", file.read(), re.M).group(1)
        fields = re.findall(r"uint64_t (\w+);", body)
        self.assertEqual(fields, ["kind"] + [field.name for field in dataclasses.fields(Header)])

    def test_constants(self):
        values = dict(re.findall(r"^#define BARRIER_(\w+) (\d+)$", self.text, re.M))
        for name, value in (
            ("SCHEDULE_MAX", SCHEDULE_MAX), ("HAZARDS_MAX", HAZARDS_MAX), ("RUNS_MAX", RUNS_MAX),
            ("HAZARDS_MAX", c.HAZARDS_MAX), ("NAME_MAX", c.NAME_MAX), ("STATES", c.STATES),
            ("RANGES_MAX", c.RANGES_MAX), ("LENGTHS_MAX", c.LENGTHS_MAX), ("TRIES_MAX", TRIES_MAX),
        ):
            self.assertEqual(int(values[name]), value)

    def test_refusal_numbers_and_sides(self):
        for name, members in (("barrier_number", Number), ("barrier_side", Side)):
            body = re.search(r"^enum " + name + r" \{(.*?)\}", self.text, re.M | re.S).group(1)
            values = re.findall(r"BARRIER_(\w+) = (\d+)", body)
            self.assertEqual({key: int(value) for key, value in values},
                             {member.name: int(member) for member in members})

    def test_the_first_number_of_the_version(self):
        version = re.search(r'^#define BARRIER_VERSION "(\d+)\.', self.text, re.M).group(1)
        self.assertEqual(int(version), c.MAJOR)


if __name__ == "__main__":
    unittest.main()

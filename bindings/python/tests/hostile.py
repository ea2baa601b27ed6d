"""Inputs that a program which reads jobs has to survive: bytes, text and neither.

The same ones each time.  Each is bytes, as a file would have them.
"""
import random

import support
from barrier_engine import text_of_job

GOOD = text_of_job(support.PRINTED)
LINES = GOOD.splitlines()


def _with(line):
    return (GOOD + line + "\n").encode("utf-8", "surrogatepass")


def _in_place(name, line):
    """The good text with another line in the place of one field's."""
    return "\n".join(line if old.split()[0] == name else old for old in LINES).encode() + b"\n"


WORDS = (
    "9.000", "9,000", "9.", ".9", ",", ".", "1.2.3", "-1", "-", "--1", "+1", "1e3", "0x10", "1_000",
    "Right", "LEFT", "right", "left", "one", "\u0661", "\u00b2", "9" * 19, "9" * 20, "9" * 21, "0" * 30,
    "9" * 5000, "18446744073709551615", "18446744073709551616", "1+250", "1+250.000", "1+25", "1+2500",
    "1+250.00", "1+250.0000", "+250", "1+", "1++250", "1+2+3", "1+250,000", "a+250", "1000000+000.000",
    "9" * 14 + "+000.000", "9" * 15 + "+000.000", "9" * 21 + "+000", '"9"', '"', "9\"", "9#", "nan",
    "inf", "None", "%s", "{0}", "$(reboot)", "\u202e9", "9\u00a0", "9\f", "\x1b[31m9", "\x7f", "\ufeff9",
    "\u00e9" * 100, "\U0001f6a7" * 50, "x" * 41, "x" * 40, "x" * 100000,
)
FIELDS = ("road", "panel", "flare", "clear-zone", "kind", "hazards", "runout-opposite")
NAMES = (
    '"culvert headwall"', '"#"', '"a # b"', '""', '"' + "x" * 60 + '"', '"' + "x" * 61 + '"', '"\t"',
    '"\x7f"', '"\u0085"', '"\u00e9\u00e8"', '"' + "\u00e9" * 60 + '"', '"' + "\u00e9" * 61 + '"', '"a"b',
    '"a" b', '"a" "b"', '"a"# c', "# culvert headwall", "#", "# \t ", "#" * 100, "# " + "y" * 100,
    "# \u00e9t\u00e9 \x07 bell", '# "quoted"', '"=1+1"', '"<b>&amp;"', '"a', "a\"", '"\ufffe"', '"%n%n"',
    '"\U0001f6a7 works"', '"a\rb"', '"a" \r', '"]]>"', "# -->", "'x'", '"' + "W" * 60 + '"',
)
HAZARD = "hazard right 200000 210000 5000 9000 3"


def texts():
    """Texts of which most are wrong in one place."""
    found = [GOOD.encode(), GOOD.replace("\n", "\r\n").encode(), b"\xef\xbb\xbf" + GOOD.encode(),
             b"\xef\xbb\xbf" * 2 + GOOD.encode(), GOOD.rstrip().encode(), b"\n", b"#", b" ", b"\r\n\t\n"]
    for field in FIELDS:
        second = " 1" if field in ("road", "flare") else ""
        found += [_in_place(field, f"{field} {word}{second}") for word in WORDS]
    found += [_with(f"{field} 1 1 1 1 1 1 1 1 1 1 1") for field in FIELDS + ("hazard", "drives", "no")]
    found += [_with(field) for field in FIELDS + ("hazard", "drives", "stations", "bridge", "Hazard", "ROAD")]
    found += [_with(f"{HAZARD} {name}") for name in NAMES]
    found += [_with(f"hazard {word} 1 2 3 4 5") for word in WORDS]
    found += [_with(f"hazard right {word} 2 3 4 5") for word in WORDS]
    found += [_with(line) for line in (
        "drives left", "drives right", "drives Left", "drives on", "drives left left", 'drives "left"',
        "stations fall", "stations rise", "stations Fall", "stations down", "stations", "stations fall 1",
        "drives left\ndrives left", "drives left\nstations fall", '"hazard" right 1 2 3 4 5',
        'panel "4000"', '"panel" 4000', "panel 4000\npanel 4000", HAZARD[:-2], HAZARD + " 3",
        "stations fall\nhazard right 1 2000000 5000 9000 3", "stations fall\nhazard 7 1 2 5000 9000 3")]
    found += [_in_place("runout-opposite", "runout-opposite 101000\nstations fall")]
    found += ["\n".join(LINES[:i] + LINES[i + 1:]).encode() for i in range(len(LINES))]
    found += [GOOD.encode(form) for form in ("utf-16", "utf-16-le", "utf-16-be", "utf-32")]
    found += [("# tuber\u00eda\n" + GOOD).encode(form) for form in ("latin-1", "utf-8", "utf-16", "cp437")]
    return found


def broken():
    """Bytes that are neither text nor a job."""
    good = GOOD.encode()
    return [b"", b"\0", b"\0\0", b"\3", b"\x05\0", b"\x7fELF\2\1\1", b"\x89PNG\r\n\x1a\n", b"PK\3\4", b"%PDF-1.7",
            b"\xff", b"\xff\xfe", b"\xfe\xff\0r", b"\xef\xbb\xbf", b"\xef\xbb", b"\x80", b"\xc0\x80", b"\xed\xa0\x80",
            b"\xf5\x80\x80\x80", b"\xe2\x82", good[:20] + b"\xff" + good[20:], good + b"\xc3", good + b"\0",
            good[:30] + b"\0" + good[30:], b"\n" * 3 + b"# \xc3\xa9\xc3\xa9 \xe9\n" + good,
            b"\0" * 3000, b"\xff" * 3000, b"x" * 1048576, b"\n" * 1048577, b"#" * 2000000, b"\1" * 1048577]


def mutated(count, seed=37):
    """Good texts in which some bytes are others."""
    chance = random.Random(seed)
    good = _with(HAZARD + ' "culvert \u00e9"')
    found = []
    for _ in range(count):
        data = bytearray(good)
        for _ in range(chance.randrange(1, 4)):
            at = chance.randrange(len(data))
            how = chance.randrange(3)
            if how == 0:
                data[at] = chance.choice(b' \t\n#".,+-0123456789aR\0\x80\xc3\xff\r')
            elif how == 1:
                del data[at:at + chance.randrange(1, 5)]
            else:
                data[at:at] = bytes(chance.choice(b'09 #"\n+.,-') for _ in range(chance.randrange(1, 4)))
        found.append(bytes(data))
    return found


def jobs():
    """A job's bytes, whole, cut short and with wrong bytes."""
    data = support.made_job(3).to_bytes()
    chance = random.Random(38)
    found = [data[:length] for length in range(1, len(data))] + [data, data + b"\0"]
    for _ in range(100):
        other = bytearray(data)
        other[chance.randrange(1, len(other))] = chance.randrange(256)
        found.append(bytes(other))
    return found


def everything():
    return texts() + broken() + mutated(300) + jobs()

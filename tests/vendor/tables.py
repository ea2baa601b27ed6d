#!/usr/bin/env python3
"""Listing's tables for a spreadsheet, hazards' names, and roads that are driven otherwise.

    tables.py FOLDER

FOLDER has listing and corners.  Each table of each sample job, and of roads
made at random, is read as a spreadsheet would read it and held against the
lines of `listing -p`; a road that is driven on the left, or towards falling
stations, against one that needs no swapping or turning.  Ends with 1 where
something differs.
"""
import csv
import io
import random
import re
import subprocess
import sys
from pathlib import Path

FOLDER = sys.argv[1] if len(sys.argv) > 1 else "target/examples"
HEADS = {
    "runs": ("side run level", "start+ end+ length"),
    "quantities": ("side lot level", "lot_start+ lot_end+ quantity"),
    "hazards": ("hazard name side level",
                "start+ end+ near_offset far_offset envelope_start+ envelope_end+"),
    "overhangs": ("side", "before after"),
}
faults = 0


def expect(what, got, wanted):
    global faults
    if got != wanted:
        faults += 1
        print(f"tables: {what}: {got!r}, not {wanted!r}", file=sys.stderr)


def run(text, *words, tool="listing", status=0):
    said = subprocess.run([f"{FOLDER}/{tool}", *words], input=text.encode("utf-8"),
                          capture_output=True, timeout=60)
    expect(f"{tool} {words} of {text[-80:]!r} ends: {said.stderr!r}", said.returncode, status)
    return said.stdout.decode("utf-8")


def metres(mm):
    return f"{'-' if mm < 0 else ''}{abs(mm) // 1000}.{abs(mm) % 1000:03}"


def kilometres(mm):
    return f"{'-' if mm < 0 else ''}{abs(mm) // 1000000}+{abs(mm) // 1000 % 1000:03}.{abs(mm) % 1000:03}"


def heads(table, km):
    texts, lengths = HEADS[table]
    names = lengths.replace("+", "").split()
    stations = [word[:-1] for word in lengths.split() if word.endswith("+")]
    return (texts.split() + [f"{name}_mm" for name in names] + [f"{name}_m" for name in names]
            + [f"{name}_km" for name in stations if km])


def table(text, name, *words):
    """The rows of a table, by their heads; every unit says the same."""
    km = "km" in words
    printed = run(text, "--csv", name, *words)
    expect("the line ends", printed.count("\n"), printed.count("\r\n"))
    rows = list(csv.reader(io.StringIO(printed, newline="")))
    expect(f"the heads of {name}", rows[0], heads(name, km))
    found = [dict(zip(rows[0], row)) for row in rows[1:]]
    for row in found:
        expect("the cells of a row", len(row), len(rows[0]))
        for head, cell in row.items():
            if head.endswith("_mm") and cell != "":
                mm = int(cell)
                expect(head, row[head[:-1]], metres(mm))
                if head[:-2] + "km" in row:
                    expect(head, row[head[:-2] + "km"], kilometres(mm))
            elif head.endswith("_mm"):
                expect("an empty cell", row[head[:-1]], "")
    return found


def plain(text):
    """Runs by side, and overhangs by side, of listing -p."""
    runs, overhangs = {"R": [], "L": []}, {"R": (0, 0), "L": (0, 0)}
    for words in map(str.split, run(text, "-p").splitlines()):
        if words[0] == "overhang":
            overhangs[words[1]] = (int(words[2]), int(words[3]))
        elif words[0] in runs:
            runs[words[0]].append(tuple(map(int, words[1:])))
    return runs, overhangs


def fields(text):
    lines = [line.split("#")[0].split() for line in text.splitlines()]
    return {words[0]: words[1:] for words in lines if words}, [w[1:7] for w in lines if w and w[0] == "hazard"]


def letter(side):
    return side[0].upper()


def test_tables(text, lots):
    """Each table against the lines in millimetres."""
    runs, overhangs = plain(text)
    header, hazards = fields(text)
    begin, end = map(int, header["road"])
    for words in ((), ("--stations", "km")):
        rows = table(text, "runs", *words)
        for side in "RL":
            got = [row for row in rows if letter(row["side"]) == side]
            expect("runs", [(int(r["start_mm"]), int(r["end_mm"]), int(r["level"])) for r in got], runs[side])
            expect("names of runs", [r["run"] for r in got], [f"{side}{i + 1}" for i in range(len(got))])
            expect("lengths", [int(r["length_mm"]) for r in got], [b - a for a, b, _ in runs[side]])
        rows = table(text, "overhangs", *words)
        expect("overhangs", [(letter(r["side"]), int(r["before_mm"]), int(r["after_mm"])) for r in rows],
               [(side, *overhangs[side]) for side in "RL"])
        test_quantities(text, runs, [begin, end], table(text, "quantities", *words), False)
        stations = [metres(lot) for lot in lots]
        test_quantities(text, runs, lots, table(text, "quantities", *words, *stations), True)
        rows = table(text, "hazards", *words)
        expect("hazards", [r["hazard"] for r in rows], [str(i) for i in range(len(hazards))])
        for row, hazard in zip(rows, hazards):
            got = [row[f"{name}_mm"] for name in ("start", "end", "near_offset", "far_offset")]
            expect("a hazard", [row["side"], *got, row["level"]], hazard)
            test_envelope(text, row, hazard)


def test_quantities(text, runs, lots, rows, outside):
    """Counted from the runs, lot by lot and level by level."""
    wanted = []
    for side in "RL":
        levels = sorted({level for _, _, level in runs[side]})
        total = {level: sum(b - a for a, b, v in runs[side] if v == level) for level in levels}
        for i, (p, q) in enumerate(zip(lots, lots[1:])):
            for level in levels:
                here = sum(max(0, min(b, q) - max(a, p)) for a, b, v in runs[side] if v == level)
                total[level] -= here
                wanted.append((side, str(i + 1), level, str(p), str(q), here))
        wanted += [(side, "outside", level, "", "", total[level]) for level in levels if outside]
    got = [(letter(r["side"]), r["lot"], int(r["level"]), r["lot_start_mm"], r["lot_end_mm"],
            int(r["quantity_mm"])) for r in rows]
    expect("quantities", got, wanted)


def test_envelope(text, row, hazard):
    """The hazard planned alone: its run, and what hangs over."""
    alone = "\n".join(line for line in text.splitlines() if not line.startswith("hazard"))
    runs, overhangs = plain(f"{alone}\nhazard {' '.join(hazard)}\n")
    side = letter(hazard[0])
    wanted = ("", "")
    if runs[side]:
        (start, end, _), (before, after) = runs[side][0], overhangs[side]
        wanted = (str(start - before), str(end + after))
    expect("an envelope", (row["envelope_start_mm"], row["envelope_end_mm"]), wanted)


# ---- Names ----

def test_names():
    base = Path("examples/jobs/printed.job").read_text("utf-8")
    base = "\n".join(line for line in base.splitlines() if not line.startswith("hazard"))
    hazard = "hazard right 200000 210000 5000 9000 3"
    for words, name in (
            ('"headwall"', "headwall"), ('"head # wall"', "head # wall"), ("", ""), ("#", ""), ("# \t ", ""),
            ("# culvert headwall", "culvert headwall"), ("#\tone\ttwo\t", "one two"), ("# a # b", "a # b"),
            ('# say "no", twice', 'say "no", twice'), ('"x" # not this', "x"), ("# " + "é" * 70, "é" * 60),
            ("#" + "y" * 59 + " z", "y" * 59), ('" x "', " x "), ("# \x7f\u0085x\u0085y", "x y"),
            ('"=1+1"', "'=1+1"), ("# +5", "'+5"), ("# -5", "'-5"), ("# @SUM(A1)", "'@SUM(A1)"),
            ('# =HYPERLINK("http://x","y")', '\'=HYPERLINK("http://x","y")'), ('"a,b"', "a,b"),
            ('"tubería Ø 600"', "tubería Ø 600")):
        text = f"{base}\n{hazard} {words}\r\n"
        rows = table(text, "hazards")
        expect(f"the name of {words!r}", rows[0]["name"], name)
        printed = run(text)
        shown = name[1:] if name[:1] == "'" else name
        expect(f"the name of {words!r} in the listing",
               [line.split("  ")[-1] if shown[:1] != " " else line[-len(shown):]
                for line in printed.splitlines() if re.match(" *right +0 ", line)],
               [shown] if shown else [])
        drawn = run(text, tool="corners")
        marked = shown.replace("&", "&amp;").replace("<", "&lt;").replace(">", "&gt;")
        expect(f"the name of {words!r} in the drawing",
               re.findall(">hazard 0(?: &#8220;(.*)&#8221;)?, right", drawn), [marked])


# ---- Driven otherwise ----

LEAD = ("road {0} {1}\nrunout-forward {2}\nrunout-opposite {3}\nclear-zone 9000\ncentreline 9000\n"
        "barrier-offset 3000\ndeflection 1000\nflare 15 {4}\nstraight 13340\ncontinuity {5}\n{6}{7}")


def test_figures():
    """The worked figures of barrier.h, "Sides and traffic"."""
    road = ("road 0 1000000\nrunout-forward 101000\nrunout-opposite {}\nclear-zone 9000\ncentreline 3500\n"
            "barrier-offset 3000\ndeflection 1000\nflare 15 {}\nstraight {}\ncontinuity 0\n")
    two_way, one_way = road.format(101000, 0, 0), road.format(0, 1, 13340)
    for drives in ("right", "left"):
        for side in ("right", "left"):
            runs, _ = plain(f"{two_way}drives {drives}\nhazard {side} 200000 210000 5000 9000 3\n")
            expect(f"driven on the {drives}, hazard on the {side}", runs[letter(side)],
                   [(132666, 238056, 3) if drives == side else (171944, 277334, 3)])
    # Both lines: the sides change places twice, and the stations are turned.
    for lines in ("stations fall\n", "drives left\nstations fall\n"):
        for side in ("right", "left"):
            text = f"{one_way}{lines}hazard {side} 200000 210000 5000 9000 3 \"wall\"\n"
            runs, overhangs = plain(text)
            expect("towards falling stations", runs[letter(side)], [(200000, 254227, 3)])
            expect("towards falling stations, other side", runs["RL".replace(letter(side), "")], [])
            expect("its words", re.findall("(Right|Left) side, in metres\n +start", run(text)),
                   [side.capitalize()])
            expect("its corners", re.findall(r"right: .*|left: .*", run(text, tool="corners")),
                   [f"{side}: upstream (254.227, 5.059), flare (223.340, 3.000), hazard (210.000, 3.000)</text>"])
    # It hangs over at the other end.
    text = f"{one_way}stations fall\nhazard left 980000 990000 5000 9000 3\n"
    expect("the overhang", plain(text)[1], {"R": (0, 0), "L": (0, 34227)})


def random_hazards(begin, end, sides):
    rows = []
    for _ in range(random.randrange(6)):
        start = random.randrange(begin, end)
        stop = min(end, start + random.randrange(1, 30000))
        near = 4000 + random.randrange(7000)
        rows.append([random.choice(sides), str(start), str(stop), str(near),
                     str(near + random.randrange(3000)), str(random.randrange(1, 7))])
    return rows


def lines_of(rows):
    return "".join(f"hazard {' '.join(row)}\n" for row in rows)


def exchanged(side):
    return "left" if side == "right" else "right"


def test_random_road(seed):
    random.seed(seed)
    begin = random.choice([0, 0, 5000, random.randrange(10 ** 11)])
    end = begin + random.randrange(1000, 400000)
    runout, flare, gap = random.randrange(1, 200000), random.randrange(2), random.choice([0, 50000])
    panel = random.choice(["", "panel 4000\n"])
    # Towards falling stations: the left side of a two-way road whose far traffic
    # reaches nothing has such traffic beside it.
    rows = random_hazards(begin, end, ["left"])
    two_way = LEAD.format(begin, end, 1, runout, flare, gap, panel, lines_of(rows))
    turned = LEAD.format(begin, end, runout, 0, flare, gap, panel, "stations fall\n" + lines_of(rows))
    wanted, got = plain(two_way), plain(turned)
    expect("runs towards falling stations", (got[0]["L"], got[1]["L"]), (wanted[0]["L"], wanted[1]["L"]))
    numbers = re.compile(">hazard .*")
    expect("corners towards falling stations", numbers.findall(run(turned, tool="corners")),
           numbers.findall(run(two_way, tool="corners")))
    for name in ("runs", "quantities", "hazards", "overhangs"):
        expect(f"{name} towards falling stations", run(turned, "--csv", name), run(two_way, "--csv", name))
    # On the left: as swapped by hand, and swapped back.
    rows = random_hazards(begin, end, ["left", "right"])
    swapped = [[exchanged(row[0]), *row[1:]] for row in rows]
    by_hand = plain(LEAD.format(begin, end, runout, runout, flare, gap, panel, lines_of(swapped)))
    got = plain(LEAD.format(begin, end, runout, runout, flare, gap, panel, "drives left\n" + lines_of(rows)))
    expect("driven on the left", got, tuple({"R": part["L"], "L": part["R"]} for part in by_hand))
    test_tables(LEAD.format(begin, end, runout, runout, flare, gap, panel, lines_of(rows)),
                sorted(random.randrange(begin, end + 1) for _ in range(4)))


def main():
    count = 0
    for path in sorted(Path("examples/jobs").glob("*.job")):
        if not path.with_suffix(".out").read_text().startswith("refused"):
            test_tables(path.read_text("utf-8"), [0, 200500, 400000, 1000000])
            count += 1
    test_names()
    test_figures()
    for seed in range(60):
        test_random_road(seed)
    for name in HEADS:
        refused = Path("examples/jobs/refused.job").read_text("utf-8")
        expect("a refused job's table", run(refused, "--csv", name, status=1), "")
    if faults == 0:
        print(f"tables: runs, quantities, hazards and overhangs of {count} sample jobs and 60 roads as a spreadsheet "
              "reads them; names; driving on the left and falling stations as barrier.h has them")
    return 1 if faults else 0


if __name__ == "__main__":
    sys.exit(main())

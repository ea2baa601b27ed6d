#!/usr/bin/env python3
"""The index of promises and docs/PROMISES.md name the same theorems, and every wrong edit that is named there exists.

The prover reads the index (crates/promises), and with it every theorem that is in it; the program's own laws stand in crate barrier. In the document a name is a word in
backticks. It is a theorem's where a lemma file of the crates (proofs/*.antt) declares it; BOTH has the words that a lemma or its field shares with a definition or with
code, and that mean the latter in the document. Each theorem is in the index, where it stands under the heading that names it first; and a name of several words that nothing
of all this has is a slip. A name with a file of definitions or lemmas in brackets behind it is declared there, or in another file that stands in these brackets.

A wrong edit is a name in backticks of words with underscores between them, in a cell under 'shuts out' or 'refused as', or behind the words
'Shut out:'. Where a crate stands before it ('job: `header_number`, `hazard_index`; planning: ..'), it is that crate's; else any crate may have it.
Every edit under crates/*/must-fail is named somewhere.
"""

import pathlib
import re
import sys

HOUSE = pathlib.Path(__file__).resolve().parent.parent
NAME = re.compile(r"`([a-z][^\s`/.:]*[^\s`/.:_])`")
EDIT = re.compile(r"(;)|(?:\b([a-z_]+): )?`([a-z0-9]+(?:_[a-z0-9]+)+)`")
# `job_written`, `job_is_written` (`job/proofs/WritingLaws`, `RowLaws`): the second name, and the files.
PLACED = re.compile(r"`([^\s`/.:]+)` \(`([a-z_]+/(?:proofs|specs))/(\w+)`([^()]*)\)")
# In the document these are the definition's or the code's.
BOTH = set("count covers in_range job number passed_on present reach road_top run runs total".split())
# What a line of antt declares for other files: `pub printed_formula : ..`.
PUBLIC = re.compile(r"^\s*(?:(?:abbrev|unfoldable)\s+)*pub\s+(?:(?:abbrev|unfoldable|record|data)\s+)*([^\s:({]+)", re.M)
# What a line of antt declares: `pub printed_formula : ..`, `  read write : ..`, `record Job : ..`.
DECLARED = re.compile(r"^\s*(?:(?:pub|abbrev|unfoldable|private|record|data)\s+)*((?:[^\s:(){}=λ→,;.|-][^\s:(){},;]*\s+)+)(?:[({].*)?:(?:\s|$)", re.M)


def text(path):
    return (HOUSE / path).read_text(encoding="utf-8")


def indexed():
    """The index's names in order, each with its heading."""
    heading = None
    for line in text("crates/promises/proofs/Index.antt").split("\n"):
        names = re.match(r"pub use \S+\.\{([^}]*)\}$", line)
        if names:
            yield from ((name.strip(), heading) for name in names.group(1).split(","))
        elif line.startswith("-- "):
            heading = line[3:]


def of_program():
    """The names of the program's laws."""
    return set(re.findall(r"^pub (\S+) :", text("crates/barrier/proofs/ProgramLaws.antt"), re.M))


def declared(pattern, shape=DECLARED):
    """The names that these files declare; comments and imports are no declarations."""
    for file in HOUSE.glob(pattern):
        lines = [line for line in file.read_text(encoding="utf-8").split("\n") if not line.lstrip().startswith(("--", "use ", "pub use ", "pub mod "))]
        for words in shape.findall("\n".join(lines)):
            yield from words.split()


def known():
    """(the names that are theorems' in the document, all names that it may have)"""
    lemmas = set(declared("crates/*/proofs/*.antt"))
    public = set(declared("crates/*/proofs/*.antt", PUBLIC))
    code = {word for file in HOUSE.glob("crates/*/src/*.rt") for word in re.findall(r"\w+", file.read_text(encoding="utf-8"))}
    others = set(declared("crates/*/specs/*.antt")) | {path.name for path in HOUSE.glob("crates/*")}
    return (lemmas - others - code) | (public - BOTH), lemmas | public | others | code


def without_edits(promises):
    """The document without the cells that name wrong edits."""
    for cell in edit_cells(promises):
        promises = promises.replace(cell, re.sub("`", "", cell), 1)
    return promises


def first_headings(promises):
    """The heading that names something first."""
    first = {}
    for part in promises.split("\n## ")[1:]:
        heading, _, body = part.partition("\n")
        for name in NAME.findall(body):
            first.setdefault(name, heading)
    return first


def misplaced(promises):
    """Names that are not declared in the files that stand in brackets behind them."""
    for name, folder, first, more in PLACED.findall(promises):
        files = [first] + re.findall(r"`(\w+)`", more)
        if name not in {word for file in files for word in declared(f"crates/{folder}/{file}.antt")}:
            yield f"{name}: not in {folder}/{first}, as docs/PROMISES.md says"


def edit_cells(promises):
    """The parts of a table's rows that name wrong edits."""
    columns = []
    for line in promises.split("\n"):
        cells = [cell.strip() for cell in line.strip("|").split("|")] if line.startswith("|") else []
        if not columns:
            columns = [i for i, cell in enumerate(cells) if cell in ("shuts out", "refused as")]
        elif not cells:
            columns = []
        yield from (cells[i] for i in columns if i < len(cells) and cells[i])
        if not columns and "Shut out:" in line:
            yield line.partition("Shut out:")[2]


def named_edits(promises):
    for cell in edit_cells(promises):
        crate = None
        for end, prefix, name in EDIT.findall(cell):
            crate = None if end else prefix or crate
            if name:
                yield crate, name


def edit_faults(promises, theorems):
    there = {(file.parts[-3], file.stem) for file in HOUSE.glob("crates/*/must-fail/*.edit")}
    named = set(named_edits(promises))
    for crate, name in sorted(named, key=str):
        found = {edit for edit in there if edit[1] == name and crate in (None, edit[0])}
        if not found and name not in theorems:
            yield f"{crate or 'any crate'}: `{name}`: in docs/PROMISES.md, and no such edit"
    for crate, name in sorted(there):
        if not {(crate, name), (None, name)} & named:
            yield f"{crate}: `{name}`: an edit that docs/PROMISES.md does not name"
    if not named:
        yield "docs/PROMISES.md names no wrong edit"


def main():
    promises = text("docs/PROMISES.md")
    headings = list(indexed())
    index = [name for name, _ in headings]
    program = of_program()
    theorems, all_names = known()
    prose = without_edits(promises)
    first = first_headings(prose)
    edits = {name for _, name in named_edits(promises)}
    named = set(NAME.findall(prose)) | edits & (set(index) | program)
    promised = named & (theorems | set(index) | program)
    faults = [f"{name}: in docs/PROMISES.md, not in the index" for name in sorted(promised - set(index) - program)]
    faults += [f"{name}: in the index, not in docs/PROMISES.md" for name in sorted(set(index) - promised)]
    faults += [f"{name}: twice in the index" for name in sorted(set(index)) if index.count(name) > 1]
    faults += [f"{name}: in the index under '{heading}'" for name, heading in headings if heading != first.get(name, heading)]
    faults += [f"{name}: in docs/PROMISES.md, and nothing has that name" for name in sorted(named - all_names) if re.search(r"[_→A-Z0-9-]", name)]
    faults += misplaced(promises)
    if not promised:
        faults.append("docs/PROMISES.md names no theorem")
    faults += edit_faults(promises, set(index) | program)
    for fault in faults:
        print(fault)
    if not faults:
        print(f"{len(promised)} theorems named, all of them in the index or in crate barrier")
        print(f"{len(edits - set(index) - program)} wrong edits named, all of them there")
    return 1 if faults else 0


if __name__ == "__main__":
    sys.exit(main())

#!/usr/bin/env python3
"""The archive's calls are those of the library that the header and the C are compared with.

C links crate `barrier_engine_c`, which exports each call of crate `barrier_engine` again; the translator reads the latter's MIR, and holds it against barrier.h
(portable/translator/header.py). So each export has the same parameters, in the same order, the same result and the same clauses, and does nothing but call it with its own
parameters, in their order. This reads the sources and nothing else; two parameters exchanged, in one export after the other, have to be found.
"""

import pathlib
import re
import sys

HOUSE = pathlib.Path(__file__).resolve().parent.parent / "crates"
CALL = r"fn (barrier_\w+)\(([^)]*)\)([^{]*?)((?:\s+(?:requires|ensures)[^\n]*)*)\n\{\n(.*?)\n\}\n"
EXPORT = re.compile(r"#\[unsafe\(no_mangle\)\]\npub extern \"C\" " + CALL, re.S)
LIBRARY = re.compile(r"^pub " + CALL, re.S | re.M)
EXPORTED = "barrier_engine_c/src/lib.rt"


def plain(text):
    return " ".join(text.split()).rstrip(",")


def read(shape, text, module=""):
    """Name -> (parameters, result, clauses, body, how a crate above calls it)."""
    return {name: (*map(plain, parts), f"barrier_engine::{module}{name}") for name, *parts in shape.findall(text)}


def faults(exports, library):
    header = re.sub(r"/\*.*?\*/", "", (HOUSE.parent / "include/barrier.h").read_text(encoding="utf-8"), flags=re.S)
    names = set(re.findall(r"\b(barrier_\w+)\(", header))
    for name in sorted(names | set(exports) | set(library)):
        if not (name in names and name in exports and name in library):
            yield f"{name}: not in all of barrier.h, barrier_engine and barrier_engine_c"
            continue
        for what, ours, theirs in zip(("parameters", "result", "clauses"), exports[name], library[name]):
            if ours != theirs:
                yield f"{name}: other {what}: '{ours}' in barrier_engine_c, '{theirs}' in barrier_engine"
        given = ", ".join(parameter.split(":")[0].strip() for parameter in exports[name][0].split(",") if parameter.strip())
        if exports[name][3] != f"{library[name][4]}({given})":
            yield f"{name}: barrier_engine_c does something else than calling it: {exports[name][3]}"


def exchanged(text):
    """Each export's text with its first two parameters exchanged."""
    for head, first, second in re.findall(r"(extern \"C\" fn \w+\()([^,)]+), ([^,)]+)", text):
        yield text.replace(f"{head}{first}, {second}", f"{head}{second}, {first}", 1)


def main():
    text = (HOUSE / EXPORTED).read_text(encoding="utf-8")
    library = {}
    for file in sorted((HOUSE / "barrier_engine/src").glob("*.rt")):
        library.update(read(LIBRARY, file.read_text(encoding="utf-8"), "" if file.stem == "lib" else file.stem + "::"))
    found = list(faults(read(EXPORT, text), library))
    for fault in found:
        print(fault)
    wrong = list(exchanged(text))
    missed = sum(not list(faults(read(EXPORT, other), library)) for other in wrong)
    if missed or not wrong:
        print(f"{missed} of {len(wrong)} exchanges of two parameters are not found")
    if not found and not missed and wrong:
        print(f"{len(library)} calls of the archive are the library's, parameters, results and clauses; {len(wrong)} exchanges of two parameters were found")
    return int(bool(found or missed or not wrong))


if __name__ == "__main__":
    sys.exit(main())

#!/usr/bin/env python3
"""What has to be believed, counted: run from the root of the repository.

Two counts of lines, without blank lines, comments and imports:
- definitions of the calls: all that a contract of an exported call or of a
  function of the program (`main` has none) names, and all that these
  definitions name in turn;
- statements about them: all that the signature of a theorem in the index
  of promises, or of crate barrier, names beside these, in turn.
With -v the names. The code's own types that both are over are listed last.
What the libraries define (the toolchain's, io's) is not counted. It fails on
a call whose contract it does not find. It reads names and not meanings, and it
counts; it proves nothing.
"""

import pathlib
import re
import sys

import promises

# The engine's calls and the program; of a file without names, every function.
CALLS = {
    "schedule/src/plan.rt": ["plan"],
    "queries/src/quantity.rt": ["quantity"],
    "queries/src/quantities.rt": ["quantities"],
    "queries/src/lookup.rt": ["lookup", "lookup_outcome", "locate"],
    "station_level/src/level.rt": ["level"],
    "corners/src/call.rt": ["corners"],
    "clear_offset/src/offset.rt": ["smallest_offset"],
    "withdrawal/src/reach.rt": ["reach"],
    "open_job/src/calls.rt": ["open", "add", "withdraw", "schedule", "reach", "test_state", "return_to"],
    "panels/src/layout.rt": ["layout"],
    "barrier_engine/src/lib.rt": [],
    "barrier_engine/src/open.rt": [
        "barrier_open",
        "barrier_add",
        "barrier_withdraw",
        "barrier_keep",
        "barrier_return",
        "barrier_open_schedule",
        "barrier_open_reach",
    ],
    "report/src/lib.rt": ["report"],
    "barrier/src/main.rt": [],
}

# The papers' order: document 01, then document 02's requests.
ORDER = (
    "base refusal number job approach planning runs schedule queries demands report barrier "
    "open_memory open_job open_promises station_level corners "
    "clear_offset withdrawal panels replies as_before"
).split()

# Names that stand between their arguments.
MIXFIX = {">>=": "◌>>=◌", "to": "◌to◌", "followed_by": "◌followed_by◌"}

TOKEN = re.compile(r"[^\s(){};,\[\]`\"]+")
IMPORT = re.compile(r"^(?:pub |ghost )*use (\S+?)(?:\.\{([^}]*)\}| as (\S+?));?$", re.M)
CONTRACT = re.compile(r"^[^\n/]*\bfn (\w+)[^{]*?\n(    (?:requires|ensures) .*?)\n\{$", re.M | re.S)
FUNCTION = re.compile(r"^[^\n/]*\bfn (\w+)", re.M)
HEAD = re.compile(r"^(\s*)(abbrev |unfoldable )?(pub )?(record |data )?([^\s:({]+)")


def module_of(path):
    found = re.match(r"Rattle\.([a-z_]+)\.(specs|proofs)\.(.+)$", path)
    return found.groups() if found else None


class Module:
    """A file of definitions or laws: its imports, and the lines of each name."""

    def __init__(self, text, laws=True):
        self.imports, self.aliases = {}, {}
        for path, names, alias in IMPORT.findall(text):
            target = module_of(path)
            if target and alias:
                self.aliases[alias] = target
            for name in filter(None, map(str.strip, names.split(",") if target else [])):
                source, _, local = name.partition(" as ")
                self.imports[local or source] = (target, source)
        self.lines, self.kinds, self.owners, self.around = {}, {}, {}, {}
        self.read(text, laws)

    def read(self, text, laws):
        current, depth, parameters = None, 0, []
        for line in text.split("\n"):
            bare = line.strip()
            if not bare or bare.startswith(("--", "use ", "pub use ", "pub mod")):
                continue
            indent = len(line) - len(line.lstrip())
            if bare.startswith("module "):
                parameters = [p for p in parameters if p[0] < indent] + [(indent, line)]
                current = None
                continue
            head = HEAD.match(line)
            inside = current and indent > depth
            kind = (head.group(2) or head.group(4) or "").strip() if head else ""
            law = laws and head and re.match(r"\s*(pub )?[^\s:]+ :( |$)", line)
            if head and not inside and (kind or law):
                current, depth = head.group(5), indent
                self.lines[current], self.kinds[current] = [], kind
                self.around[current] = [text for place, text in parameters if place < indent]
            if current:
                self.lines[current].append(line)
                constructors = re.match(r"^\s+([^:]+) : ", line)
                if inside and self.kinds[current] == "data" and constructors:
                    self.owners.update((c, current) for c in constructors.group(1).split())

    def named_in(self, lines, here):
        for token in TOKEN.findall("\n".join(lines)):
            first, _, rest = token.partition(".")
            if rest and first in self.aliases:
                yield self.aliases[first], rest
            for name in {token, first, MIXFIX.get(token, token)}:
                if name in self.lines or name in self.owners:
                    yield here, name
                elif name in self.imports:
                    yield self.imports[name]

    def stated(self, name):
        """A definition whole; of a law its signature."""
        lines = self.lines[name]
        if self.kinds[name]:
            return lines
        clause = re.compile(r"\s*(unfolding|where|" + re.escape(name) + r"\b(?! :).*=)")
        size = next((i for i, line in enumerate(lines) if i and clause.match(line)), len(lines))
        return lines[:size]


def load(crates):
    modules = {}
    for kind in ("specs", "proofs"):
        for file in sorted(crates.glob(f"*/{kind}/*.antt")):
            if file.stem != "Lib":
                key = (file.parts[-3], kind, file.stem)
                modules[key] = Module(file.read_text(), laws=kind == "proofs")
    return modules


def closure(modules, roots):
    seen, types, left = set(), set(), list(roots)
    while left:
        key, name = left.pop()
        if key[2].startswith("declared."):
            types.add((key[0], key[2].split(".TheVariants")[0].split(".")[-1]))
            continue
        module = modules.get(key)
        if not module:
            continue
        name = module.owners.get(name, name)
        if name not in module.lines:
            left += [module.imports[name]] if name in module.imports else []
        elif (key, name) not in seen:
            seen.add((key, name))
            left += module.named_in(module.around[name] + module.stated(name), key)
    definitions = {(key, name) for key, name in seen if modules[key].kinds[name]}
    return definitions, types


def contract_roots(crates):
    for path, names in CALLS.items():
        text = (crates / path).read_text()
        module = Module(text)
        contracts = dict(CONTRACT.findall(text))
        for name in names or [name for name in FUNCTION.findall(text) if name != "main"]:
            if name not in contracts:
                sys.exit(f"{path}: {name}: no contract was found")
            yield from module.named_in([contracts[name]], None)


def theorem_roots(modules):
    cited = {name for name, _ in promises.indexed()} | promises.of_program()
    for key, module in modules.items():
        if key[1] == "proofs":
            yield from ((key, n) for n, kind in module.kinds.items() if n in cited and not kind)


def show(title, modules, definitions, names_too):
    by_file = {}
    for key, name in definitions:
        by_file.setdefault(key, []).append(name)
    place = lambda key: (ORDER.index(key[0]) if key[0] in ORDER else len(ORDER), key)
    total = 0
    print(f"{title}\n\n| file | lines |\n|---|---:|")
    for key in sorted(by_file, key=place):
        names = sorted(by_file[key])
        lines = sum(len(modules[key].lines[name]) for name in names)
        total += lines
        print(f"| `{'/'.join(key)}` | {lines} |" + (" " + " ".join(names) if names_too else ""))
    print(f"| all | {total} |\n")


def main():
    crates = pathlib.Path("crates")
    modules = load(crates)
    calls, types = closure(modules, (root for root in contract_roots(crates) if root[0]))
    said, more = closure(modules, theorem_roots(modules))
    names_too = "-v" in sys.argv[1:]
    show("Definitions of the calls", modules, calls, names_too)
    show("Statements about them", modules, said - calls, names_too)
    print("Types of the code: " + ", ".join(f"{c} {t}" for c, t in sorted(types | more)))


if __name__ == "__main__":
    main()

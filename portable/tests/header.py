"""header.py RLIBS..: the test of the test of the header. The translator refuses a header whose calls or structs are not the MIR's (header.py there); this changes barrier.h in one
place at a time, and each change has to be refused.
"""
import copy
import pathlib
import re
import sys

ROOT = pathlib.Path(__file__).resolve().parent.parent.parent
sys.path.insert(0, str(ROOT / 'portable/translator'))
from header import Header  # noqa: E402
from program import Program, exported, read_crates
from refused import Refused  # noqa: E402


def changes(text):
    """Each declared member and parameter with another type, each struct without a member, each call without a parameter, each array one longer; neighbours of one type
    with their names exchanged."""
    code = re.sub(r'/\*.*?\*/', lambda m: re.sub(r'[^\n]', ' ', m.group()), text, flags=re.S)
    for m in re.finditer(r'\b(uint64_t|uint32_t|uint16_t|uint8_t|double|size_t|barrier_\w+)(?= \*?\w+(\[\w+\])?[;,)])', code):
        other = 'uint32_t' if m.group(1) != 'uint32_t' else 'uint64_t'
        yield text[:m.start()] + other + text[m.end():]
    for m in re.finditer(r'^    \w+ \w+(\[\w+\])?;\n', code, re.M):
        yield text[:m.start()] + text[m.end():]
    for m in re.finditer(r'const (?=\w+ \*)', code):
        yield text[:m.start()] + text[m.end():]
    for m in re.finditer(r', uint64_t \w+(?=[,)])', code):
        yield text[:m.start()] + text[m.end():]
    for m in re.finditer(r'\[(BARRIER_\w+)\];', code):
        yield text[:m.start(1)] + '3' + text[m.end(1):]
    member = r'^    (\w+) (\w+);\s*\n    \1 (\w+);'
    for m in re.finditer(r'(?=%s|\b(uint64_t|uint16_t) (\w+),\s*\4 (\w+))' % member, code, re.M):
        first, second = (2, 3) if m.group(2) else (5, 6)
        yield text[:m.start(first)] + m.group(second) + text[m.end(first):m.start(second)] + m.group(first) + text[m.end(second):]
    for m in re.finditer(r'^(\w+) barrier_\w+\([^)]*\);\n', code, re.M):
        yield text[:m.start()] + text[m.end():]


def main():
    functions = read_crates(sys.argv[1:], 'barrier_engine')
    exports = exported(functions, 'barrier_engine')
    text = (ROOT / 'include/barrier.h').read_text(encoding='utf-8')
    program = Program(functions, exports, None, str(ROOT / 'crates'))

    def match(changed):
        header = Header(changed, True)
        header.match_calls(copy.deepcopy(program.types), program.functions, header.ordered(exports), program.sources)
    match(text)
    tried = 0
    for changed in changes(text):
        tried += 1
        try:
            match(changed)
        except Refused:
            continue
        sys.exit('header: a change was not refused:\n' + '\n'.join(b for a, b in zip(text.split('\n'), changed.split('\n')) if a != b)[:200])
    print('header: %d changes of its calls and structs, each refused' % tried)


if __name__ == '__main__':
    main()

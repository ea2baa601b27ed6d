"""tie.py RLIBS.. KIT_RLIBS [--crate NAME]: is the MIR that the translator reads the MIR that the theorems speak of?

A proved crate carries both: `toolchain/mir.json`, which the translator and the toolchain's own back end read, and for each function the modules that its theorem
is made of. `lang/antt/made.json` has the toolchain's record of what each of these modules was made from: `Code/Mir` of the function, `Named` of the types that it
names, `Statement`, `Met` and the contract's `Key` name the function whose theorem it is. `toolchain/made.json` says where in that file a record stands, and its
SHA-256. For every function that the engine's calls reach, those of the toolchain's own library too, this program sees that the record is the one of that sum, and that
the two are equal: types, locals and their homes, parameters and every construct of the body. It sees too that the checked modules, the theorem's own among them, are
there; of the toolchain's own library the kit has those that state a theorem, and not its proof. Two kinds have no theorem of their own: CODE_ALONE, whose statement is
part of those that call it, and the drop of what holds nothing, which does nothing. Then one number in each crate's mir.json is changed, and that has to be found.

Of the checked modules it sees that the file that holds them, `toolchain/checked.a`, reaches where they stand in it; it does not read them. That they hold what the records say, and that the prover reads them as they stand, is the
toolchain's to see to, as every proof is.
"""
import functools
import hashlib
import json
import pathlib
import re
import sys
import tempfile

sys.path.insert(0, str(pathlib.Path(__file__).resolve().parent.parent / 'translator'))
from program import read_crates, origins  # noqa: E402


class Records:
    """What a proved crate's modules were made from, by their paths, and which of them stand checked in it."""

    def __init__(self, rlib):
        self.rlib, self.places = rlib, '\n' + (rlib / 'toolchain/made.json').read_text()
        store = rlib / 'toolchain/checked.a'
        size = store.stat().st_size if store.is_file() else 0
        named = re.findall(r'^\["([^"]*)",(\d+),(\d+)\]$', (rlib / 'toolchain/checked.json').read_text(), re.M)
        self.checked = {name for name, at, length in named if 0 < int(length) <= size - int(at)}

    def record(self, path):
        """The record of a module, or None."""
        at = self.places.find('\n["%s",' % path)
        found = at >= 0 and re.compile(r'\n\["[^"]*",(\d+),(\d+),"([0-9a-f]*)"').match(self.places, at)
        if not found:
            return None
        with open(self.rlib / 'lang/antt/made.json', 'rb') as file:
            file.seek(int(found.group(1)))
            data = file.read(int(found.group(2)))
        return json.loads(data.split(b'\n')[0]) if hashlib.sha256(data).hexdigest() == found.group(3) else None


records = functools.lru_cache(maxsize=None)(Records)      # by the path, so that what a link leads to is read once


def records_of(rlibs, crate):
    return records((rlibs[crate] / 'toolchain/made.json').resolve().parent.parent)


def symbol(rlibs, module):
    """In a theorem a callee is named by the module that holds its symbol: Rattle-job-proofs.read.read_job.Symbol, from another crate the one that passes it on,
    Rattle-job.proofs.read.read_job.Symbol."""
    found = re.match(r'Rattle-(\w+)([-.])proofs\.(.*\.Symbol)$', module)
    if not found:
        return None
    crate, mark, path = found.groups()
    read = records_of(rlibs, crate).record(('facade/' if mark == '.' else '') + 'proofs/' + path.replace('.', '/'))
    return read and (symbol(rlibs, read['StandsFor']['source']) if 'StandsFor' in read else read['Symbol']['symbol'])


def with_symbols(rlibs, body):
    """A method of a bound is named by its place among the bounds, in both."""
    return [{'Call': [{'Fn': [symbol(rlibs, x['Call'][0]['Fn'][0]), x['Call'][0]['Fn'][1]]}] + x['Call'][1:]} if isinstance(x, dict) and 'Call' in x and 'Fn' in x['Call'][0] else x
            for x in body]


# The function of the toolchain's own library of which the kit has the code alone: it is not public.
CODE_ALONE = 'core::clone::surely'

NOTHING = ['Seq', 'Seq', 'Skip', {'Assign': [{'local': 0, 'steps': []}, {'Opd': 'Unit'}]}, 'Return']


def theorem(rlibs, name):
    """The MIR that is recorded for the function's theorem, or None."""
    crate, *path = name.split('::')
    of, inner = records_of(rlibs, crate), '/'.join(path)
    read = {part: of.record('proofs/%s/%s' % (inner, part)) for part in ('Code/Mir', 'Code', 'Statement', 'Met', 'Named')}
    key = of.record('specs/contracts/%s/Key' % inner)
    if not (read['Code/Mir'] and read['Code'] and key and key['Key']['symbol'] == read['Code']['Code']['symbol'] == name):
        return None
    f = read['Code/Mir']['Mir']['function']
    # To drop what holds nothing is to do nothing, of which there is no theorem.
    if name.endswith('::drop') and not read['Statement'] and f['body'] == NOTHING:
        return f
    if not all(read[part] and read[part][part]['symbol'] == name for part in ('Statement', 'Met')):
        return None
    # The types that the theorem names: those of the body, and those that it has behind references alone.
    types = read['Named']['Named']['table'] if read['Named'] else []
    if f['types'] != [t for t in types if t in f['types']]:
        return None
    module = 'Rattle-%s-proofs.%s' % (crate, '.'.join(path))
    whole = all('%s.%s' % (module, part) in of.checked for part in ('Code.Mir', 'Code', 'Statement', 'Proof', 'Met'))
    stated = crate == 'core' and all('part/%s.%s' % (module, part) in of.checked for part in (('Code',) if name == CODE_ALONE else ('Code', 'Statement', 'Met')))
    return dict(f, types=types, body=with_symbols(rlibs, f['body'])) if whole or stated else None


def untied(functions, names):
    """The first of these functions whose body is not the one recorded for its theorem, or None."""
    return next((n for n in names if theorem(functions.rlibs, n) != functions[n]), None)


# ---- the test of this test
def numbers(x, path=()):
    """The path to each number in a tree."""
    for key, y in x.items() if isinstance(x, dict) else enumerate(x) if isinstance(x, list) else ():
        if isinstance(y, int) and not isinstance(y, bool):
            yield path + (key,)
        else:
            yield from numbers(y, path + (key,))


def with_change(rlib, to, at, names):
    """A proved crate in which one number of mir.json is one greater, in one of these functions; whose it is."""
    read = json.loads((rlib / 'toolchain/mir.json').read_text())
    paths = [path for path in numbers(read) if read[path[0]][0] in names]
    path = paths[at % len(paths)]
    x = read
    for key in path[:-1]:
        x = x[key]
    x[path[-1]] += 1
    (to / 'toolchain').mkdir(parents=True)
    for part in ('format', 'lang', 'toolchain/checked.json', 'toolchain/made.json'):
        (to / part).symlink_to((rlib / part).resolve())
    (to / 'toolchain/mir.json').write_text(json.dumps(read))
    return read[path[0]][0]


def with_read(functions, read):
    """The functions, with what was read of the toolchain's own crates, which are the same."""
    for crate, rlib in functions.rlibs.items():
        if crate in read.sums and read.rlibs[crate] == rlib:
            functions.sums[crate] = read.sums[crate]
            functions.update((name, read[name]) for name in read.of(crate))
    return functions


def main():
    words = sys.argv[1:]
    top = words.pop() if words[-2] == '--crate' else 'barrier_engine'
    folders = [pathlib.Path(p) for p in words if p != '--crate']
    functions = read_crates(folders, top)
    names = origins(functions, functions.of(top))
    wrong = untied(functions, names)
    if wrong:
        sys.exit('tie: %s: the translated body is not the one recorded for its theorem' % wrong)
    own = [rlib for rlib in functions.rlibs.values() if rlib.parent != folders[-1]]
    tried = [rlib for crate, rlib in sorted(functions.rlibs.items()) if rlib in own and crate in functions.sums]
    found = 0
    for k, rlib in enumerate(tried):
        with tempfile.TemporaryDirectory() as d:
            name = with_change(rlib, pathlib.Path(d) / rlib.name, 37 * k, names)
            for other in own:
                if other != rlib:
                    (pathlib.Path(d) / other.name).symlink_to(other.resolve())
            found += untied(with_read(read_crates([pathlib.Path(d), folders[-1]], top), functions), names) == name
    if found != len(tried):
        sys.exit('tie: %d of %d changed numbers were not found' % (len(tried) - found, len(tried)))
    print('tie: the %d translated bodies are those that the toolchain records for their theorems, types and all; %d of %d changes of a number were found' % (len(names), found, len(tried)))


if __name__ == '__main__':
    main()

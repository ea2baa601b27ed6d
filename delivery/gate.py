"""What the gate's log says of a delivery.

    python3 -B delivery/gate.py

prints, as a step of `make test`, what the toolchain's own lines in the log do not have: the commit, the toolchain, the SHA-256 of each crate's files and of the
MIR that the C is made from, the prover's lines of the archive and of the program, and the SHA-256 of what was built and tested. `make dist` reads them again from
the log, with what rt ci says of each crate. Tested (tests/vendor/dist.sh) and not proved.
"""
import pathlib
import re
import subprocess

import repository
from built import BUILT_AT, read, sha256
from refused import Refused, need, run

MARK = 'delivery: '
PASSED = re.compile(r'[1-9][0-9]* passed, 0 failed')
# The crates that are built for a machine, as CPU names it; of all others the crates above them are made.
BUILT = {'archive': 'barrier_engine_c', 'program': 'barrier'}
CPU = 'x86-64'


def commit_line():
    try:
        return repository.commit() + (' with changes' if repository.uncommitted() else '')
    except Refused:
        return 'unknown'


def crates():
    """The crates' names, in the order of crates.txt as it lies here."""
    return repository.crates_in(pathlib.Path('crates.txt').read_text(encoding='utf-8'))


def files_sum(folder):
    """The SHA-256 of what sha256sum prints of the files of a crate, in the order of their paths; what rt makes, in out/, is none of them."""
    paths = {path.relative_to(folder).as_posix(): path for path in folder.rglob('*') if path.is_file()}
    lines = ['%s  %s\n' % (sha256(read(place)), path) for path, place in sorted(paths.items()) if not path.startswith('out/')]
    return sha256(''.join(lines).encode())


def mir_sums():
    """Crate -> the SHA-256 of its MIR, as portable/translator reads it."""
    return {path.parts[-3][:-len('.rlib')]: sha256(read(path)) for path in sorted(pathlib.Path('crates').glob('*/out/rlib/*.rlib/toolchain/mir.json'))}


def prover_lines(crate):
    """The prover's verdict of a crate that is built, and its lines that name axioms."""
    done = subprocess.run(['rt', 'check', '--cpu', CPU], cwd='crates/' + crate, stdout=subprocess.PIPE, universal_newlines=True)
    need(done.returncode == 0, '%s is not proved: %s', crate, done.stdout[-500:])
    return [line for line in done.stdout.splitlines() if re.match(r'(axioms |logic=proved functions=)', line)]


def say():
    print(MARK + 'commit ' + commit_line())
    print(MARK + 'toolchain ' + subprocess.run(['rt', 'version'], check=True, stdout=subprocess.PIPE, universal_newlines=True).stdout.strip())
    for crate in crates():
        print(MARK + 'crate %s %s' % (crate, files_sum(pathlib.Path('crates') / crate)))
    for crate, total in mir_sums().items():
        print(MARK + 'mir %s %s' % (crate, total))
    for what, crate in BUILT.items():
        for line in prover_lines(crate):
            print(MARK + '%s %s' % (what, line))
    for path, place in BUILT_AT.items():
        print(MARK + 'file %s %s' % (path, sha256(read(place))))


class Log:
    """The log of one run of the gate, which passed and was of this commit and these crates; anything else is refused."""

    def __init__(self, text, commit, crates):
        lines = text.rstrip('\n').split('\n')
        self.last = lines[-1]
        need(PASSED.fullmatch(self.last), 'the gate\'s log does not end with what passed and failed, but with: %s', self.last[:200])
        marked = [line[len(MARK):].split(' ') for line in lines if line.startswith(MARK)]
        said = [' '.join(words[1:]) for words in marked if words[0] == 'commit']
        need(said == [commit], 'the gate\'s log is of commit %s, and this is commit %s', ', '.join(said) or 'unknown', commit)
        said = [' '.join(words[1:]) for words in marked if words[0] == 'toolchain']
        need(len(said) == 1, 'the gate\'s log does not name one toolchain')
        self.toolchain = said[0]
        self.sums, self.mir, self.files = ({words[1]: words[2] for words in marked if words[0] == kind} for kind in ('crate', 'mir', 'file'))
        self.built = {what: [' '.join(words[1:]) for words in marked if words[0] == what] for what in BUILT}
        need('rt ci' in lines, 'the gate\'s log has no run of rt ci')
        at = len(lines) - 1 - lines[::-1].index('rt ci')
        proved = {found.group(1) for found in map(PROVED.match, lines[at + 1:]) if found}
        for crate in crates:
            need(crate in proved, 'the gate\'s log does not say that the crate %s is proved', crate)
            need(crate in self.sums, 'the gate\'s log has no sum of the crate %s', crate)
        said = [found.group(1) for found in map(OK.match, lines[at + 1:]) if found]
        need(len(said) == 1, 'the gate\'s log does not say that rt ci passed')
        need(not re.search(r'\b[1-9][0-9]* bad\b', said[0]), 'the gate\'s log tells of bad must-fail edits: %s', said[0])
        for what in BUILT:
            need(verdict(self.built[what]), 'the gate\'s log has no verdict of the %s', what)
        said = [line for line in lines if line.startswith('portable: barrier_engine.c is ')]
        need(said, 'the gate\'s log does not say that the C is what the proved crates give')
        self.c_line = said[-1]


# What rt ci says where it passed; an edit that is bad shows nothing, and does not fail rt ci.
OK = re.compile(r'rt: ok;.* must-fail edits: ([0-9]+ refused[^;]*)')
# rt ci proves a crate anew where its files or those below it have changed since it last did so on the machine.
PROVED = re.compile(r'rt: ([a-z0-9_]+) (?:proved$|is kept: an earlier run on this machine proved the same files over the same libraries$)')


def verdict(block):
    """The prover's line that all is proved, or nothing where there is not one."""
    found = [line for line in block if re.match(r'logic=proved functions=[0-9]+ ', line)]
    return found[0] if len(found) == 1 else ''


def axioms(block):
    """The prover's lines that name axioms; nothing where its verdict counts none."""
    named = [line for line in block if line.startswith('axioms ') and ': none reached of ' not in line]
    counted = sum(int(found.group(1)) for found in (re.search(r'\(([0-9]+) of the ', line) for line in named) if found)
    told = re.search(r' axioms=([0-9]+)', verdict(block))
    need(counted == int(told.group(1) if told else 0), 'the gate\'s log counts axioms and does not name them, or the other way about: %s', verdict(block))
    return named


if __name__ == '__main__':
    run('delivery', say)

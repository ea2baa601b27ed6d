"""PROOF.txt: what the gate's log says of this commit, and nothing else. It has no times, so that it is the same from every run."""
import textwrap

from built import ARCHIVE, C_FILE, PROGRAM
from gate import axioms, verdict

TEXT = '''barrier_engine %(version)s: what was proved and tested

commit: %(commit)s
toolchain: %(toolchain)s
gate: %(last)s

%(words)s

%(crates)s

%(archive)s SHA-256 %(archive_sum)s
    %(archive_verdict)s
    %(archive_axioms)s

%(program)s SHA-256 %(program_sum)s
    %(program_verdict)s
    %(program_axioms)s

%(c)s SHA-256 %(c_sum)s
    %(c_line)s
    tested and not proved: the translator that wrote it, and the compiler that compiles it
'''

WORDS = '''All of this stands in the log of the gate (make test), which ran on that commit: the last line is the toolchain's own tally of crates proved, wrong edits
refused, and programs and tests of crates run. Of each crate stands here the SHA-256 of what sha256sum prints of its files, in the order of their paths, and of its MIR, which the C's head names.
The toolchain proved each of them: in that run, or in an earlier one on that machine of the same files over the same libraries. Of the archive and the program stand here the
verdict of the prover where they were built, which may rest on what it had checked there before, and what it takes as an axiom; the sum= in a verdict is that of the prover's logic. This file is a statement and proves nothing by itself: in the repository, at that commit, with the toolchain,
make dist-check DIST=FOLDER proves and builds all again and compares.'''


def of_crate(log, crate):
    """The sum of a crate's files; where the C is made of it, that of its MIR."""
    yield '%s %s' % (crate, log.sums[crate])
    if crate in log.mir:
        yield '    the MIR of %s %s' % (crate, log.mir[crate])


def proof(version, log, commit, crates):
    return TEXT % {
        'version': version, 'commit': commit, 'toolchain': log.toolchain, 'last': log.last,
        'words': textwrap.fill(' '.join(WORDS.split()), 100, break_on_hyphens=False),
        'crates': '\n'.join(line for crate in crates for line in of_crate(log, crate)),
        'archive': ARCHIVE, 'archive_sum': log.files[ARCHIVE], 'archive_verdict': verdict(log.built['archive']), 'archive_axioms': axioms_line(log.built['archive']),
        'program': PROGRAM, 'program_sum': log.files[PROGRAM], 'program_verdict': verdict(log.built['program']), 'program_axioms': axioms_line(log.built['program']),
        'c': C_FILE, 'c_sum': log.files[C_FILE], 'c_line': log.c_line}


PAGE_TEXT = '''
web/barrier.html SHA-256 %s
    its module is that C, compiled by %s
    tested (make web-test, which is no part of the gate) and not proved: the page, the module, and the compiler that made it
'''


def page_proof(total, compiler):
    return PAGE_TEXT % (total, compiler)


def axioms_line(block):
    return '; '.join(axioms(block)) or 'axioms: none'

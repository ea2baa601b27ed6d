"""The three files that are built from the proved crates, as a delivery has them, where they are built here, and what CHANGELOG.md says of them."""
import hashlib
import re

from refused import need

ARCHIVE = 'lib/x86_64-linux/libbarrier_engine.a'
PROGRAM = 'bin/x86_64-linux/barrier'
C_FILE = 'portable/barrier_engine.c'
BUILT_AT = {ARCHIVE: 'target/staticlib/libbarrier_engine.a', PROGRAM: 'target/bin/barrier', C_FILE: 'portable/barrier_engine.c'}
ROW = re.compile(r'\| `([^`]+)` \| `?([^`|]*?)`? \|')


def sha256(data):
    return hashlib.sha256(data).hexdigest()


def read(path):
    try:
        with open(path, 'rb') as file:
            return file.read()
    except OSError as e:
        need(False, '%s: %s', path, e.strerror)


def in_changelog(changelog):
    """Path -> SHA-256 of the topmost version that has them: those of what is in the tree."""
    for part in changelog.split('\n## ')[1:]:
        found = {row.group(1): row.group(2) for row in map(ROW.fullmatch, part.splitlines()) if row and row.group(1) in BUILT_AT}
        if found:
            return found
    return {}

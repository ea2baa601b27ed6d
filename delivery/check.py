"""What is built here again, beside CHANGELOG.md and a delivery.

    python3 -B delivery/check.py [--c FILE] [DELIVERY]

`make dist-check` runs it from the root of the repository. DELIVERY is the folder that was delivered, or its tar.gz. --c names the C file that was made
again from the proved crates; with it the archive and the program are the ones that were built again too. Without it, as on a machine without the
toolchain, the C file of this repository and the delivery's own checksums are compared, and it is said what was not. Prints a line for each comparison,
and ends with 1 where something is different. Tested (tests/vendor/dist.sh) and not proved.
"""
import argparse
import io
import pathlib
import tarfile

import page
import repository
from built import ARCHIVE, BUILT_AT, C_FILE, PROGRAM, in_changelog, read, sha256
from refused import Refused, need, run

OWN = ('PROOF.txt', 'SHA256SUMS')


def unpacked(path):
    """The files of a tar.gz, path below its one folder -> bytes."""
    found = {}
    try:
        with tarfile.open(fileobj=io.BytesIO(read(path)), mode='r:gz') as tar:
            for entry in tar:
                below = entry.name.partition('/')[2]
                need(entry.isreg() or entry.isdir(), '%s has %s, which is no plain file', path, entry.name)
                need(not entry.isreg() or below and below not in found, '%s has %s twice, or not in a folder', path, entry.name)
                if entry.isreg():
                    found[below] = tar.extractfile(entry).read()
    except (tarfile.TarError, OSError, EOFError) as e:
        need(False, '%s cannot be unpacked: %s', path, e)
    return found


def delivery_files(path):
    """Path -> bytes of every file of a delivery."""
    folder = pathlib.Path(path)
    if not folder.is_dir():
        return unpacked(path)
    places = [place for place in sorted(folder.rglob('*')) if place.is_symlink() or not place.is_dir()]
    for place in places:
        need(place.is_file() and not place.is_symlink(), '%s is no plain file', place)
    return {place.relative_to(folder).as_posix(): read(place) for place in places}


class Report:
    """Lines of what was compared, and whether something was different."""

    def __init__(self):
        self.differs = False

    def compare(self, path, seen):
        """seen: where a file was seen -> its SHA-256."""
        if len(seen) < 2:
            print('not compared  %s: seen only in %s' % (path, ', '.join(seen) or 'nothing'))
        elif len(set(seen.values())) == 1:
            print('same          %s: %s' % (path, ', '.join(seen)))
        else:
            self.different(path, '; '.join('%s %s' % (total, where) for where, total in seen.items()))

    def different(self, path, words):
        self.differs = True
        print('different     %s: %s' % (path, words))


def against_own_sums(files, report):
    """Every file of the delivery is in its SHA256SUMS with its sum, and nothing else is."""
    lines = [line.partition('  ') for line in files['SHA256SUMS'].decode('utf-8', 'replace').splitlines()]
    said = {path: total for total, _, path in lines}
    have = {path: sha256(data) for path, data in files.items() if path != 'SHA256SUMS'}
    wrong = sorted(path for path in said.keys() | have.keys() if said.get(path) != have.get(path))
    for path in wrong:
        report.different(path, 'SHA256SUMS of the delivery says %s, the file is %s' % (said.get(path, 'nothing'), have.get(path, 'missing')))
    if not wrong:
        print('same          the delivery\'s %d files: SHA256SUMS of the delivery' % len(have))


def against_repository(files, report):
    """The files of the delivery that are no result of a build, beside those of this repository."""
    try:
        names = repository.listed()
    except Refused as e:
        print('not compared  the delivery\'s other files: %s' % e)
        return
    wanted = {path: sha256(read(path)) for path in names}
    have = {path: sha256(data) for path, data in files.items() if path not in OWN + (ARCHIVE, PROGRAM, page.PAGE)}
    wrong = sorted(path for path in wanted.keys() | have.keys() if wanted.get(path) != have.get(path))
    for path in wrong:
        report.different(path, 'the delivery has %s, this repository %s' % (have.get(path, 'none'), wanted.get(path, 'none')))
    if not wrong:
        print('same          %d files of the delivery: this repository' % len(have))


def against_sources(data, report):
    """The delivery's page, beside what the sources here make with its module, and beside the one that is built again by the same compiler."""
    same = page.from_sources(data) == data
    if not same:
        report.different(page.PAGE, 'this repository\'s web/ makes another page with the module that is in it')
        return
    print('same          %s: web/ of this repository, with the module that is in it' % page.PAGE)
    again, compiler = page.built_again()
    theirs = page.made_by(data)[1]
    if again is None or compiler != theirs:
        print('not compared  the module in %s: it was made by %s; here: %s' % (page.PAGE, theirs, compiler))
    else:
        report.compare('the module in ' + page.PAGE, {'built again': sha256(page.made_by(again)[0]), 'the delivery': sha256(page.made_by(data)[0])})


def of_this_commit(files):
    """The delivery is of this version; of another commit it is said, for then files may well differ."""
    for path in OWN + tuple(BUILT_AT) + ('include/barrier.h',):
        need(path in files, 'it is not a delivery of the engine, or not all of one: there is no %s', path)
    theirs = repository.version_of(files['include/barrier.h'].decode('utf-8', 'replace'))
    ours = repository.version_of(read('include/barrier.h').decode('utf-8'))
    need(theirs == ours, 'the delivery is of version %s, this repository of %s', theirs, ours)
    said = [line.split(' ')[1] for line in files['PROOF.txt'].decode('utf-8', 'replace').splitlines() if line.startswith('commit: ')]
    try:
        if said != [repository.commit()]:
            print('note          the delivery is of commit %s, this repository is at %s' % (', '.join(said) or 'unknown', repository.commit()))
    except Refused:
        print('note          the delivery is of commit %s' % (', '.join(said) or 'unknown'))


def places_of(c_again):
    """Path -> where it was seen -> its bytes, of what is here."""
    places = {C_FILE: {'this repository': read(C_FILE)}, ARCHIVE: {}, PROGRAM: {}}
    if c_again:
        places[C_FILE]['made again'] = read(c_again)
        for path in (ARCHIVE, PROGRAM):
            places[path]['built again'] = read(BUILT_AT[path])
    return places


def main():
    parser = argparse.ArgumentParser(description=__doc__.split('\n')[0])
    parser.add_argument('--c', help='the C file, made again from the proved crates')
    parser.add_argument('delivery', nargs='?', help='the folder that was delivered, or its tar.gz')
    args = parser.parse_args()
    report, places = Report(), places_of(args.c)
    said = in_changelog(read('CHANGELOG.md').decode('utf-8'))
    files = delivery_files(args.delivery) if args.delivery else {}
    if files:
        of_this_commit(files)
        against_own_sums(files, report)
        against_repository(files, report)
        if page.PAGE in files:
            against_sources(files[page.PAGE], report)
        else:
            print('not compared  %s: the delivery has none' % page.PAGE)
    for path, seen in places.items():
        sums = {where: sha256(data) for where, data in seen.items()}
        sums.update({'the delivery': sha256(files[path])} if path in files else {})
        sums.update({'CHANGELOG.md': said[path]} if path in said else {})
        report.compare(path, sums)
    if not args.c:
        print('dist-check: without the toolchain (rt): archive, program and C were not built again')
    print('dist-check: %s' % ('DIFFERENT' if report.differs else 'nothing is different'))
    return 1 if report.differs else 0


if __name__ == '__main__':
    run('dist-check', main)

"""What is delivered: a folder and a tar.gz of it, the same bytes each time from the same commit.

    python3 -B delivery/dist.py ready              refuses what can be refused before the gate has run
    python3 -B delivery/dist.py make GATE_LOG [--no-page]
                                                   makes target/dist/barrier_engine-VERSION and .tar.gz

Run from the root of the repository, after the archive, the program and the page are built. files.txt names what goes in. Nothing of this machine does: not the
time, the umask, the locale, the user or the folder. The compressed bytes are those of zlib at level 9. Tested (tests/vendor/dist.sh) and not proved.
"""
import io
import os
import pathlib
import re
import shutil
import struct
import sys
import tarfile
import zlib

import page
import repository
from built import ARCHIVE, BUILT_AT, C_FILE, PROGRAM, in_changelog, read, sha256
from gate import Log
from proof import page_proof, proof
from refused import need, run

OUT = pathlib.Path('target/dist')


def ready():
    """The files that are delivered, of a tree that is committed."""
    names = repository.uncommitted()
    need(not names, 'the tree is not committed: %s%s. A delivery is of a commit', ', '.join(names[:3]), ' and %d more' % (len(names) - 3) if len(names) > 3 else '')
    return repository.delivered()


def tested(files, log, changelog):
    """The files that were built are those that the gate tested and that CHANGELOG.md names."""
    said = in_changelog(changelog)
    for path, (_, data) in files.items():
        total = sha256(data)
        need(log.files.get(path) == total, '%s is %s, and the gate tested %s', path, total, log.files.get(path, 'none'))
        need(said.get(path) == total, '%s is %s, and CHANGELOG.md says %s', path, total, said.get(path, 'nothing'))


def same_crates(c_text, log):
    """The C file names the first digits of the sums of the MIR that it was made from: those of the gate."""
    head = ' '.join(c_text[:c_text.index('*/')].replace(' * ', ' ').split())
    named = re.findall(r'\b([a-z0-9_]+) ([0-9a-f]{16})\b', head.split('first 16 digits of the SHA-256 of its MIR: ')[-1])
    need(named, '%s does not name the crates that it was made from', C_FILE)
    for crate, digits in named:
        need(log.mir.get(crate, '').startswith(digits), '%s was made from crate %s with MIR of sum %s, and the gate had %s', C_FILE, crate, digits, log.mir.get(crate, 'none'))


def tested_page():
    """The page, which has to be what the committed sources make with the module in it; its compiler stands in it."""
    data = read(page.BUILT_AT)
    need(page.from_sources(data) == data, '%s is not what web/ makes: build it again (make web)', page.BUILT_AT)
    return data


def sums(files):
    return ''.join('%s  %s\n' % (sha256(data), path) for path, (_, data) in sorted(files.items())).encode()


def folders_of(paths):
    return {str(folder) for path in paths for folder in pathlib.PurePosixPath(path).parents if str(folder) != '.'}


def tar_of(name, files, time):
    """Entries in order, each with the same owner and the commit's time."""
    out = io.BytesIO()
    with tarfile.open(fileobj=out, mode='w', format=tarfile.USTAR_FORMAT, encoding='ascii') as tar:
        for path in sorted(folders_of(files) | set(files) | {''}):
            entry = tarfile.TarInfo(name + '/' + path if path else name)
            entry.mtime = time
            if path in files:
                runs, data = files[path]
                entry.size, entry.mode = len(data), 0o755 if runs else 0o644
                tar.addfile(entry, io.BytesIO(data))
            else:
                entry.type, entry.mode = tarfile.DIRTYPE, 0o755
                tar.addfile(entry)
    return out.getvalue()


def gzip_of(data):
    """Without a name and a time; the head is written here, since Python's own differs between its versions."""
    packer = zlib.compressobj(9, zlib.DEFLATED, -zlib.MAX_WBITS)
    packed = packer.compress(data) + packer.flush()
    return b'\x1f\x8b\x08\0\0\0\0\0\x02\xff' + packed + struct.pack('<II', zlib.crc32(data), len(data) & 0xffffffff)


def write_folder(folder, files, time):
    if folder.exists():
        shutil.rmtree(folder)
    for path, (runs, data) in files.items():
        place = folder / path
        place.parent.mkdir(parents=True, exist_ok=True)
        place.write_bytes(data)
        place.chmod(0o755 if runs else 0o644)
        os.utime(place, (time, time))
    for path in sorted(folders_of(files), reverse=True) + ['.']:
        (folder / path).chmod(0o755)
        os.utime(folder / path, (time, time))


def make(log_file, with_page=True):
    files = ready()
    log = Log(read(log_file).decode('utf-8', 'replace'), repository.commit(), repository.crates())
    made = {ARCHIVE: (False, read(BUILT_AT[ARCHIVE])), PROGRAM: (True, read(BUILT_AT[PROGRAM])), C_FILE: files[C_FILE]}
    tested(made, log, files['CHANGELOG.md'][1].decode('utf-8'))
    same_crates(files[C_FILE][1].decode('utf-8'), log)
    version = repository.version_of(files['include/barrier.h'][1].decode('utf-8'))
    files.update(made)
    page_lines = ''
    if with_page:
        files[page.PAGE] = (False, tested_page())
        page_lines = page_proof(sha256(files[page.PAGE][1]), page.made_by(files[page.PAGE][1])[1])
    files['PROOF.txt'] = (False, (proof(version, log, repository.commit(), repository.crates()) + page_lines).encode())
    files['SHA256SUMS'] = (False, sums(files))
    name, time = 'barrier_engine-' + version, repository.commit_time()
    write_folder(OUT / name, files, time)
    packed = gzip_of(tar_of(name, files, time))
    (OUT / (name + '.tar.gz')).write_bytes(packed)
    print('dist: %s/%s and %s.tar.gz, %d files; SHA-256 of the tar.gz %s' % (OUT, name, name, len(files), sha256(packed)))


def main():
    if sys.argv[1:] == ['ready']:
        ready()
        return 0
    if sys.argv[1:2] == ['make'] and len(sys.argv) == 3:
        return make(sys.argv[2])
    if sys.argv[1:2] == ['make'] and sys.argv[3:] == ['--no-page']:
        return make(sys.argv[2], with_page=False)
    sys.exit(__doc__)


if __name__ == '__main__':
    run('dist', main)

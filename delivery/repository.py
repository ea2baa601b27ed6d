"""The repository as its last commit has it, read from git and not from the folder, so that nothing untracked and no mode of a file's own gets in."""
import re
import subprocess

from refused import need

LIST = 'delivery/files.txt'


def git(*words, given=b''):
    try:
        done = subprocess.run(['git', *words], input=given, stdout=subprocess.PIPE, stderr=subprocess.PIPE)
    except OSError as e:
        need(False, 'git: %s', e)
    need(done.returncode == 0, 'git %s: %s', words[0], done.stderr.decode('utf-8', 'replace').strip())
    return done.stdout


def uncommitted():
    """Names of files that are not as the last commit has them. An untracked one counts below crates/ only, but for what rt makes there: it may be proved with the others."""
    changed = git('diff', '--name-only', '-z', 'HEAD')
    untracked = git('ls-files', '--others', '-z', '--exclude=/crates/*/out/', '--', 'crates')
    return [name.decode('utf-8', 'replace') for name in (changed + untracked).split(b'\0') if name]


def commit():
    return git('rev-parse', 'HEAD').decode().strip()


def commit_time():
    return int(git('log', '-1', '--format=%ct'))


def tracked():
    """Path -> (mode, name of its content) of every file of the last commit."""
    entries = [line.split(b'\t', 1) for line in git('ls-tree', '-r', '-z', '--full-tree', 'HEAD').split(b'\0') if line]
    return {path.decode('utf-8'): (head.split()[0].decode(), head.split()[2]) for head, path in entries}


def contents(names):
    """The bytes of each content, in order."""
    stream, at, found = git('cat-file', '--batch', given=b''.join(name + b'\n' for name in names)), 0, []
    for name in names:
        end = stream.index(b'\n', at)
        of, kind, size = stream[at:end].split()
        need(of == name and kind == b'blob', 'git has no file %s', name.decode())
        found.append(stream[end + 1:end + 1 + int(size)])
        at = end + 1 + int(size) + 1
    return found


def text(path):
    entries = tracked()
    need(path in entries, 'there is no %s in the last commit', path)
    return contents([entries[path][1]])[0].decode('utf-8')


def listed():
    """The tracked files that are delivered: path -> (mode, name of its content). A line of the list that names none is refused, so that the list stays true."""
    entries, chosen = tracked(), {}
    for line in text(LIST).splitlines():
        line = line.strip()
        if line and not line.startswith('#'):
            named = {path: entry for path, entry in entries.items() if path == line or line.endswith('/') and path.startswith(line)}
            need(named, '%s names %s, and no tracked file is that', LIST, line)
            chosen.update(named)
    return chosen


def delivered():
    """Path -> (whether it can be run, its bytes)."""
    chosen = listed()
    for path, (mode, _) in chosen.items():
        need(mode in ('100644', '100755'), '%s is a link or another repository, and no plain file', path)
        need(path.isascii(), '%s: its name is not ASCII', path)
    found = contents([name for _, name in chosen.values()])
    return {path: (mode == '100755', data) for (path, (mode, _)), data in zip(chosen.items(), found)}


def version_of(header):
    found = re.search(r'^#define BARRIER_VERSION "([0-9.]+)"$', header, re.M)
    need(found, 'include/barrier.h has no version')
    return found.group(1)


def crates_in(listed):
    """The crates' names, in the order of a crates.txt; behind a name may stand what it is, as staticlib."""
    lines = [line.split('#')[0].partition(':') for line in listed.splitlines()]
    return [name.split()[0] for name, colon, _ in lines if colon]


def crates():
    """The crates' names, in the order of the last commit's crates.txt."""
    return crates_in(text('crates.txt'))

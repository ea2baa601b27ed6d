"""Builds the page: one file with the engine's module, script, style and words in it.

    python3 -B web/build.py OUT [--module FILE.wasm]
    python3 -B web/build.py --tools               refuses, in words, where clang or wasm-ld is not there

Run from the root of the repository. The module is portable/barrier_engine.c, compiled by clang and linked by wasm-ld for wasm32, with the calls of
include/barrier.h and nothing else exported; CLANG names another clang. --module takes one that is built already. The page asks no host for anything, and
its policy forbids it: only the script and the style whose checksums stand in it may run. The same sources and the same compiler make the same bytes.
Tested (tests/web, tests/vendor/web.sh) and not proved.
"""
import argparse
import base64
import hashlib
import json
import os
import pathlib
import re
import shutil
import subprocess
import sys
import tempfile

WEB = pathlib.Path('web')
# In the order in which each uses what stands before it.
SCRIPTS = ('data', 'words', 'engine', 'numbers', 'text', 'job', 'plan', 'labels', 'barrier', 'svg', 'frame', 'drawing', 'canvas', 'tables', 'fields', 'drag', 'chosen', 'files', 'page', 'main')
STACK = 262144
FLAGS = ['--target=wasm32', '-std=c99', '-O2', '-mbulk-memory', '-ffreestanding', '-nostdlib', '-Wall', '-Wextra', '-Werror', '-Iweb/include', '-Iinclude']


class Refused(Exception):
    pass


def header_calls(header):
    """The names of the calls that the header declares."""
    return re.findall(r'^[a-z][a-z0-9_]* (barrier_[a-z_]*)\(', header, re.M)


def tool(name, package):
    if shutil.which(name) is None:
        raise Refused('%s is not on this machine: install %s (Debian), or name a clang with CLANG' % (name, package))
    return name


def run(words):
    done = subprocess.run(words, stdout=subprocess.PIPE, stderr=subprocess.STDOUT, universal_newlines=True)
    if done.returncode != 0:
        raise Refused('%s: %s' % (' '.join(words[:3]), done.stdout.strip()[:2000]))
    return done.stdout


def tools():
    tool('wasm-ld', 'lld')
    return tool(os.environ.get('CLANG', 'clang'), 'clang and lld')


def compiled():
    """The module's bytes, and the compiler's own name."""
    clang = tools()
    calls = header_calls(pathlib.Path('include/barrier.h').read_text(encoding='utf-8'))
    with tempfile.TemporaryDirectory() as folder:
        out = pathlib.Path(folder)
        run([clang, *FLAGS, '-c', 'portable/barrier_engine.c', '-o', str(out / 'engine.o')])
        run([clang, *FLAGS, '-fno-builtin', '-c', 'web/three.c', '-o', str(out / 'three.o')])
        exports = ['-Wl,--export=' + name for name in [*calls, '__heap_base']]
        run([clang, *FLAGS, str(out / 'engine.o'), str(out / 'three.o'), '-Wl,--no-entry', '-Wl,--strip-all', '-Wl,--stack-first',
             '-Wl,-z,stack-size=%d' % STACK, *exports, '-o', str(out / 'engine.wasm')])
        module = (out / 'engine.wasm').read_bytes()
    return module, run([clang, '--version']).splitlines()[0].strip()


def checksum(text):
    return 'sha256-' + base64.b64encode(hashlib.sha256(text.encode('utf-8')).digest()).decode()


def script():
    parts = ['// %s.js\n%s' % (name, (WEB / 'script' / (name + '.js')).read_text(encoding='utf-8')) for name in SCRIPTS]
    return "\n(() => {\n'use strict';\n\n" + '\n'.join(parts) + '})();\n'


def data(path):
    """A table of the page in one line, with nothing in it that could end a script element."""
    table = json.loads((WEB / path).read_text(encoding='utf-8'))
    return json.dumps(table, ensure_ascii=False, separators=(',', ':')).replace('<', '\\u003c')


def policy(style, code):
    """Nothing may be fetched, sent, framed or submitted; the one script and the one style are known by their checksums."""
    return "default-src 'none'; script-src '%s' 'wasm-unsafe-eval'; style-src '%s'; connect-src 'none'; img-src 'none'; base-uri 'none'; form-action 'none'" % (
        checksum(code), checksum(style))


def built(module, compiler):
    style, code = '\n' + (WEB / 'style.css').read_text(encoding='utf-8'), script()
    for text, end in ((style, '</style'), (code, '</script')):
        if end in text.lower():
            raise Refused('the text %s would end its element' % end)
    line = '%s; SHA-256 %s' % (compiler, hashlib.sha256(module).hexdigest())
    page = (WEB / 'page.html').read_text(encoding='utf-8')
    parts = {'POLICY': policy(style, code), 'MODULE_LINE': line.replace('"', ''), 'STYLE': style, 'WORDS': data('words.json'), 'INTERFACE': data('interface.json'),
             'MODULE': base64.b64encode(module).decode(), 'SCRIPT': code}
    return re.sub('@([A-Z_]+)@', lambda found: parts[found.group(1)], page).encode('utf-8')


def main():
    parser = argparse.ArgumentParser(description=__doc__.split('\n')[0])
    parser.add_argument('out', nargs='?')
    parser.add_argument('--module', help='a module that is built already')
    parser.add_argument('--tools', action='store_true', help='only look whether the page can be built here')
    args = parser.parse_args()
    if not args.tools and not args.out:
        parser.error('name the file to write')
    try:
        if args.tools:
            tools()
            return 0
        module, compiler = (pathlib.Path(args.module).read_bytes(), 'given') if args.module else compiled()
        page = built(module, compiler)
    except (Refused, OSError) as error:
        print('web: %s' % error, file=sys.stderr)
        return 1
    out = pathlib.Path(args.out)
    out.parent.mkdir(parents=True, exist_ok=True)
    out.write_bytes(page)
    print('web: %s, %d bytes, of which the module %d; %s' % (out, len(page), len(module), compiler))
    return 0


if __name__ == '__main__':
    sys.exit(main())

"""The page's words, calls, structs, ranges and limits, held to include/barrier.h and barrier_help.h. No browser and no clang are needed.

    web.py [FOLDER]

FOLDER has the page's sources, web/ unless another is named. Ends with 1 where something differs, and says what.
"""
import ast
import functools
import importlib.util
import json
import pathlib
import re
import sys

ROOT = pathlib.Path(__file__).resolve().parents[2]
sys.path.insert(0, str(ROOT / 'bindings' / 'python'))

from barrier_engine import job_text, refused  # noqa: E402

FOLDER = pathlib.Path(sys.argv[1] if len(sys.argv) > 1 else ROOT / 'web')
HEADER = (ROOT / 'include' / 'barrier.h').read_text(encoding='utf-8')
HELP = (ROOT / 'include' / 'barrier_help.h').read_text(encoding='utf-8')
SIZES = {'uint64_t': 8, 'double': 8, 'uint32_t': 4, 'uint16_t': 2, 'uint8_t': 1}
faults = []
counts = {}


def same(what, found, wanted):
    counts[what.split(':')[0]] = counts.get(what.split(':')[0], 0) + 1
    if found != wanted:
        faults.append('%s: the page has %r, the header %r' % (what, found, wanted))


def table(name):
    return json.loads((FOLDER / name).read_text(encoding='utf-8'))


WORDS, INTERFACE = table('words.json'), table('interface.json')
SCRIPTS = {path.stem: path.read_text(encoding='utf-8') for path in sorted((FOLDER / 'script').glob('*.js'))}


# The header.

def defines():
    return {name: int(value) for name, value in re.findall(r'^#define (BARRIER_\w+) (?:UINT64_C\()?(\d+)\)?$', HEADER, re.M)}


def header_structs():
    found = {}
    for body, name in re.findall(r'^typedef struct \{\n(.*?)^\} (\w+);', HEADER, re.M | re.S):
        found[name] = re.findall(r'^ +(\w+) (\w+)(?:\[(\w+)\])?;', body, re.M)
    return found


def header_calls():
    code = re.sub(r'/\*.*?\*/', '', HEADER, flags=re.S)
    found = {}
    for reply, name, words in re.findall(r'^(\w+) (barrier_\w+)\((.*?)\);', code, re.M | re.S):
        found[name] = [reply, *arguments(' '.join(words.split()))]
    return found


def arguments(words):
    """What a call takes, in the words of interface.json."""
    parts = [] if words == 'void' else words.split(', ')
    found = []
    while parts:
        first = parts.pop(0)
        if first.startswith(('const uint8_t *', 'uint8_t *', 'const uint64_t *')):
            name = first.split('*')[1]
            if parts.pop(0) != 'size_t %s_len' % name:
                faults.append('the header: %s has no length' % first)
            found.append('bytes' if first.startswith('const uint8_t') else 'output' if first.startswith('uint8_t') else 'numbers')
        elif first.endswith('barrier_open_job *job'):
            found.append('open')
        elif first.startswith('uint64_t '):
            found.append('u64')
        else:
            found.append({'uint16_t name': 'name', 'barrier_hazard hazard': 'hazard'}.get(first, first))
    return found


def size_of(structs, kind):
    if kind in SIZES:
        return SIZES[kind]
    return sum(size_of(structs, of) * (defines()[count] if count in defines() else int(count or 1)) for of, _, count in structs[kind])


def written(of, name, count):
    kind = '' if of == 'uint64_t' else of + ' '
    return kind + name + ('[%s]' % count if count else '')


def test_calls():
    structs, calls = header_structs(), header_calls()
    mine = dict(INTERFACE['calls'])
    # Calls that the page uses where the module has them: the header's where they are there.
    mine.update({name: form for name, form in INTERFACE['later_calls'].items() if name in calls})
    same('calls', sorted(mine), sorted(calls))
    for name, form in mine.items():
        same('call: ' + name, form, calls.get(name))
    for name, fields in INTERFACE['structs'].items():
        if name in structs or name != 'barrier_reach_reply':
            same('struct: ' + name, fields, [written(*field) for field in structs.get(name, [])])
    same('bytes of an open job', INTERFACE['open_job_bytes'], size_of(structs, 'barrier_open_job'))
    same('bytes of an open job: in words', str(INTERFACE['open_job_bytes']) in HEADER, True)
    known = set(INTERFACE['calls']) | set(INTERFACE['later_calls']) | {'barrier_' + name for name in ('engine', 'help')} | set(INTERFACE['structs'])
    for file, text in SCRIPTS.items():
        for name in set(re.findall(r"'(barrier_[a-z_]+)", text)):
            same('call in a script: %s' % file, name in known or name, True)


def test_constants():
    for name, value in INTERFACE['constants'].items():
        same('constant: ' + name, value, defines().get(name))
    enum = re.search(r'enum barrier_number \{(.*?)\};', HEADER, re.S).group(1)
    same('numbers', INTERFACE['numbers'], {name: int(value) for name, value in re.findall(r'(BARRIER_\w+) = (\d+)', enum)})


# Ranges and names.

def literals(function):
    """The strings of a table in a function of barrier_help.h, in their order."""
    body = re.search(r'^static inline [^;{]*\b%s\([^)]*\)\n\{(.*?)^\}' % function, HELP, re.M | re.S).group(1)
    joined = re.sub(r'"\s*\n\s*"', '', body)
    return re.findall(r'"((?:[^"\\]|\\.)*)"', joined)


def test_ranges():
    names, ranges = literals('barrier_help_header_name'), literals('barrier_help_header_range')
    for field in INTERFACE['header']:
        number = field['number']
        words = WORDS['road.' + field['key']][0]
        same('name of a field: %d' % number, words, 'panel length' if number == 14 else names[number])
        mine = '%s to %s' % (field['low'], field['high'])
        if number == 3:
            mine += ', and at most A + %d' % field['span']
        same('range of a field: %d' % number, mine, '1 to 10000' if number == 14 else ranges[number])
        if field['letter']:
            same('letter of a field: %d' % number, words.split(' ')[-1] == field['letter'] or ' %s ' % field['letter'] in words, True)
        rows = re.findall(r'^ \* +%d +%s +\S' % (number, re.escape(field['letter'])), HEADER, re.M)
        same('row of the manual: %d' % number, len(rows) >= 1, True)
    for key, at in (('header.1', 1), ('range.1', 1), ('range.3', 3)):
        same('words: ' + key, WORDS[key][0], (names if key.startswith('header') else ranges)[at])
    for key, text in (('header.14', names), ('header.15', names), ('range.14', ranges), ('range.15', ranges)):
        same('words: ' + key, WORDS[key][0] in text, True)
    hazard_names, hazard_ranges = literals('barrier_help_hazard_name'), literals('barrier_help_hazard_range')
    for place, field in enumerate(INTERFACE['hazard']):
        same('name of a hazard\'s field: %d' % place, WORDS['hazards.' + field['key']][0], hazard_names[place])
        same('range of a hazard\'s field: %d' % place, WORDS['hazards.range.' + field['key']][0], hazard_ranges[place])
        if field['key'] != 'side':
            same('limits of a hazard\'s field: %d' % place, '%s to %s' % (field['low'], field['high']), hazard_ranges[place])
    norms = (ROOT / 'docs' / 'NORMS.md').read_text(encoding='utf-8')
    for field in INTERFACE['header']:
        for word in field.get('norms', ()):
            same('norm\'s word: ' + word, re.search(r'(?<!\w)%s(?!\w)' % re.escape(word), norms) is not None, True)


# Refusals.

def words_of(kind, call, number, value):
    """The page's English words of a refusal, found as its script finds them."""
    given = given_table()
    if number == 0:
        is_given = True
    elif number == 3 and value == 0:
        is_given = call in given['TESTS_MEMORY']
    else:
        is_given = call in given.get(str(number), ()) and not (number == 3 and value > 15)
    if not is_given:
        key = kind + '.unknown'
    elif number == 3 and value == 0:
        key = kind + '.3.memory'
    else:
        keys = ['%s.%d.%s.%d' % (kind, number, call, value), '%s.%d.%s' % (kind, number, call), '%s.%d' % (kind, number)]
        key = next((key for key in keys if key in WORDS), '')
    text = WORDS.get(key, ('no words ' + key,))[0].replace('#', str(value))
    if '@' in text or '%' in text:
        field = next((field for field in INTERFACE['header'] if field['number'] == value and value < 14), None)
        name = WORDS['road.' + field['key']][0] if field else WORDS['header.%d' % value][0]
        may_be = '%s to %s' % (field['low'], field['high']) if field and value != 3 else WORDS['range.%d' % value][0] if 'range.%d' % value in WORDS else ''
        text = text.replace('@', name).replace('%', may_be)
    return text


@functools.lru_cache(None)
def given_table():
    """Which calls can be refused with a number, as words.js has it."""
    text = SCRIPTS['words']
    found = {name: re.findall(r"'(\w+)'", body) for name, body in re.findall(r'^const (\w+) = \[(.*?)\];', text, re.M | re.S)}

    def expand(body):
        names = re.findall(r"'(barrier_\w+)'", body)
        for other in re.findall(r'\.\.\.(\w+)', body):
            names += found[other]
        return names
    for name in list(found):
        body = re.search(r'^const %s = \[(.*?)\];' % name, text, re.M | re.S).group(1)
        found[name] = expand(body)
    for number, body in re.findall(r'^    (\d+): (.*?),$', re.search(r'const GIVEN = \{(.*?)\n\};', text, re.S).group(1), re.M):
        found[number] = found[body] if body in found else expand(body)
    return found


def test_refusals():
    for call in (name for name in INTERFACE['calls'] if name != 'barrier_version'):
        for number in range(19):
            for value in (0, 1, 2, 3, 4, 7, 13, 14, 15, 16):
                same('refusal: %s %d %d' % (call, number, value), words_of('says', call, number, value), refused.refusal(call, number, value))
                same('remedy: %s %d %d' % (call, number, value), words_of('mends', call, number, value), refused.remedy(call, number, value))


# The text form, and the table of words itself.

def test_text_form():
    body = re.search(r'const TEXT_FIELDS = \{(.*?)\n\};', SCRIPTS['text'], re.S).group(1)
    mine = {name: (tuple(int(n) for n in places.split(', ')), unit) for name, places, unit in re.findall(r"^    '?([a-z-]+)'?: \{places: \[([\d, ]+)\], unit: '(\w+)'\}", body, re.M)}
    same('fields of the text form', mine, {name: (field.places, field.unit) for name, field in job_text._FIELDS.items()})
    strings = [node.value for node in ast.walk(ast.parse(pathlib.Path(job_text.__file__).read_text(encoding='utf-8'))) if isinstance(node, ast.Constant) and isinstance(node.value, str)]
    # Those that stand in a form with values there, and the page's own.
    own = ('text.place', 'text.kind', 'text.count', 'text.one', 'text.two')
    for key, (words, _) in WORDS.items():
        if key.startswith('text.') and '#' not in words and key not in own:
            same('words of the text form: ' + key, any(words in text for text in strings), True)
    for name, value in (('INPUT_MAX', job_text.INPUT_MAX), ('SHOWN_MAX', job_text.SHOWN_MAX), ('LABEL_MAX', job_text.NAME_MAX), ('DIGITS_MAX', 20)):
        found = [int(number) for text in SCRIPTS.values() for number in re.findall(r'^const %s = (\d+);' % name, text, re.M)]
        same('limit: ' + name, found, [value])


def test_words():
    text = '\n'.join(SCRIPTS.values()) + (FOLDER / 'page.html').read_text(encoding='utf-8')
    for key, both in WORDS.items():
        right = isinstance(both, list) and len(both) == 2 and all(isinstance(one, str) and one.strip() for one in both)
        same('words in two languages: ' + key, right and both[0].count('#') == both[1].count('#'), True)
        prefixes = ('says.', 'mends.', 'header.', 'range.', 'road.', 'hazards.range.', 'hazards.', 'draw.left.', 'hazard.', 'files.')
        used = re.search(r"['\"]%s['\"]" % re.escape(key), text) or any(key.startswith(prefix) and "'%s'" % prefix in text.replace('`', "'") or key.startswith(prefix) and '`' + prefix in text for prefix in prefixes)
        same('words that are used: ' + key, bool(used) or key.startswith(('says.', 'mends.')), True)
    for key in set(re.findall(r"said\('([a-zA-Z.0-9]+)'", text)) | set(re.findall(r'data-words(?:-label)?="([^"]+)"', text)):
        same('words that are there: ' + key, key in WORDS or key.endswith('.'), True)


def test_page():
    """The page is put together, with a stand-in for the module: one file that names no host."""
    spec = importlib.util.spec_from_file_location('web_build', str(FOLDER / 'build.py'))
    build = importlib.util.module_from_spec(spec)
    spec.loader.exec_module(build)
    build.WEB = FOLDER
    same('scripts that are built in', sorted(build.SCRIPTS), sorted(SCRIPTS))
    same('calls that are exported', sorted(build.header_calls(HEADER)), sorted(header_calls()))
    page = build.built(b'\0asm', 'none').decode('utf-8')
    same('the same page twice', build.built(b'\0asm', 'none').decode('utf-8') == page, True)
    hosts = set(re.findall(r'(?:https?:)?//[a-z0-9.-]+\.[a-z]{2,}[^\s"\'<>]*', page)) - {'http://www.w3.org/2000/svg'}
    same('hosts that the page names', sorted(hosts), [])
    same('placeholders left', re.findall(r'@[A-Z_]+@', page), [])
    policy = re.search(r'Content-Security-Policy" content="([^"]*)"', page).group(1)
    for part in ("default-src 'none'", "connect-src 'none'", "form-action 'none'", "base-uri 'none'"):
        same('policy: ' + part, part in policy, True)
    same('policy: nothing inline', 'unsafe-inline' in policy or "'unsafe-eval'" in policy, False)
    code = re.search(r'<script>(.*)</script>', page, re.S).group(1)
    style = re.search(r'<style>(.*?)</style>', page, re.S).group(1)
    for text in (code, style):
        same('policy: checksum', build.checksum(text) in policy, True)
    for word in ('fetch(', 'XMLHttpRequest', 'WebSocket', 'sendBeacon', 'eval(', 'new Function', 'importScripts', 'document.write'):
        same('script without: ' + word, word in code, False)


def main():
    for test in (test_constants, test_calls, test_ranges, test_refusals, test_text_form, test_words, test_page):
        try:
            test()
        except (KeyError, IndexError, AttributeError, TypeError, ValueError) as error:
            faults.append('%s: %s %s' % (test.__name__, type(error).__name__, error))
    for fault in faults[:20]:
        print('web: ' + fault, file=sys.stderr)
    if not faults:
        print('web: %d things of the page are the header\'s: %d refusals in words, %d calls, %d structs, %d constants, %d fields; %d words in two languages; one file that names no host' % (
            sum(counts.values()), counts['refusal'] + counts['remedy'], counts['call'], counts['struct'], counts['constant'], counts['range of a field'], len(WORDS)))
    return 1 if faults else 0


if __name__ == '__main__':
    sys.exit(main())

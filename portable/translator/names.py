"""Names and comments, from the sources. They change no meaning: a wrong or missing name gives C that computes the same.

Field and variant names are taken by their order. A function's variables are given to its locals only if their count, the types that are written beside
them and the order of their first writes fit; else the locals are t7, t8, ..
"""
import pathlib
import re
import sys

from layout import c_word
from mir import bodies, root, target
from refused import need

# C's words, what this C uses itself, and what windows.h has as macros.
TAKEN = set('''auto break case char const continue default do double else enum extern float for goto if inline int long register restrict return short
signed sizeof static struct switch typedef union unsigned void volatile while tag as result each memcpy memset leading_zeros_64 COMPILED_IN COMPILED_APART
near far min max small interface huge cdecl pascal'''.split())


def word(name):
    return name + '_' if name in TAKEN else name


def closed(text, at):
    """The index behind the bracket that closes the one at `at`."""
    depth = 0
    for i in range(at, len(text)):
        depth += (text[i] in '({[') - (text[i] in ')}]')
        if depth == 0:
            return i + 1
    return len(text)


def behind_generics(text, at):
    """The index behind `<..>`, where that stands at `at`."""
    if text[at:at + 1] != '<':
        return at
    depth = 0
    for m in re.compile(r'->|<|>').finditer(text, at):
        depth += {'<': 1, '>': -1, '->': 0}[m.group()]
        if depth == 0:
            return m.end()
    return len(text)


def rows(inner):
    """What commas part: fields, variants, parameters."""
    out, depth, start = [], 0, 0
    for m in re.finditer(r'->|[<({\[\]})>,]', inner):
        depth += (m.group() in '<({[') - (m.group() in '>)}]')
        if m.group() == ',' and depth == 0:
            out.append(inner[start:m.start()])
            start = m.end()
    out = [re.sub(r'^\s*(#\[[^\]]*\]\s*)*(pub(\([^)]*\))?\s+)?', '', row).strip() for row in out + [inner[start:]]]
    return [row for row in out if row and not row.startswith('ghost ')]


def fields(inner):
    return [word(row.split(':')[0].strip()) for row in rows(inner)]


def bound(pattern):
    """The names that a pattern binds, in order."""
    pattern = pattern.strip()
    inner = re.search(r'[({\[](.*)[)}\]]', pattern, re.S)
    found = [p.split(':')[-1] for p in inner.group(1).split(',')] if inner else [] if '::' in pattern else [pattern]
    found = [re.sub(r'^[\s&]*(mut\s+)?|\s*(@.*)?$', '', p) for p in found]
    return [p for p in found if re.match(r'[a-z]\w*$', p) and p not in ('true', 'false')]


LET = re.compile(r'\blet\s+((?:mut\s+)?[a-z]\w*)\s*(?::\s*(\[[^\]]*\]|[^=;{}]+?))?\s*='     # let name: type =
                 r'|\blet\s+([\w:]*\s*[({\[][^=]*?[)}\]])\s*='                               # let Pattern { .. } =
                 r'|([\w:]+\s*(?:\{[^{}]*\}|\([^()]*\))?)\s*=>'                              # an arm
                 r'|\bfor\s+([^{};]*?)\s+in\b')                                              # for pattern in


def owners(text):
    """(where it begins, where it ends, what the toolchain calls it) of each impl and trait."""
    for m in re.finditer(r'^(?:pub\s+)?(impl|trait)\b([^{};]*)\{', text, re.M):
        head = m.group(2)[behind_generics(m.group(2), 0):].split(' where ')[0].strip()
        of, kind = head.split(' for ')[::-1] if ' for ' in head else (head, '')
        yield m.start(), closed(text, m.end() - 1), first_word(of) + (first_word(kind) + ''.join(map(first_word, arguments(kind))) if kind else '')


def first_word(t):
    found = re.match(r'\s*&?(?:\w+::)*(\w+)', t)
    return found.group(1)[:1].upper() + found.group(1)[1:] if found else ''


def arguments(t):
    at = t.find('<')
    return [x for x in rows(t[at + 1:behind_generics(t, at) - 1]) if not x.startswith("'") and '=' not in x] if at >= 0 else []


def read_sources(folder, types):
    """Gives the types' fields their names. Returns function -> (its comment, its parameters' names, its variables with their written types, its hint)."""
    functions = {}
    for path in sorted(pathlib.Path(folder).glob('*/src/*.rt')):
        module = path.parts[-3] + ('' if path.stem in ('lib', 'main') else '::' + path.stem)
        raw = path.read_text(encoding='utf-8')
        text = re.sub(r'//[^\n]*', lambda m: ' ' * len(m.group()), raw)
        inside = list(owners(text))
        for m in re.finditer(r'\b(struct|enum|fn)\s+(\w+)', text):
            start = re.compile(r'\s*[({]').match(text, behind_generics(text, m.end()))
            if not start:
                continue
            kind, opening, end = m.group(1), text[start.end() - 1], closed(text, start.end() - 1)
            inner = text[start.end():end - 1]
            owner = ''.join(name + '::' for a, b, name in inside if a <= m.start() < b)
            name = module + '::' + owner + m.group(2)
            if kind == 'struct':
                types.names[name] = fields(inner) if opening == '{' else None
            elif kind == 'enum':
                types.names[name] = [(re.match(r'\w*', row).group(), fields(row[row.index('{') + 1:row.rindex('}')]) if '{' in row else None) for row in rows(inner)]
            else:
                functions[name] = (comment(raw[:m.start()]),) + variables(text, inner, end) + (hint(text[:m.start()]),)
    return functions


def comment(before):
    found = re.search(r'((?:[ \t]*//[^\n]*\n)+)(?:[ \t]*#\[(?:[^\[\]]|\[[^\[\]]*\])*\]\n)*[^\n]*$', before)
    return re.sub(r'\s*//\s*', ' ', found.group(1)).strip().replace('*/', '* /') if found else ''


def hint(before):
    """What the source says of compiling it into its callers: 'always', 'never', or nothing."""
    attributes = re.search(r'((?:[ \t]*#\[(?:[^\[\]]|\[[^\[\]]*\])*\]\s*\n)*)[^\n]*$', before).group(1)
    found = re.search(r'#\[inline\((always|never)\)\]', attributes)
    return found.group(1) if found else ''


def variables(text, inner, end):
    at = text.find('{', end)
    while re.search(r'\b(ensures|requires)\*?(\s+\w+)?\s*$|\bghost\s+\w+\s*:\s*$', text[end:at]):      # a clause, with a name or without
        end = closed(text, at)
        at = text.find('{', end)
    body = text[at:closed(text, at)]
    found = [(b, m.group(2)) for m in LET.finditer(body) for b in bound(m.group(1) or m.group(3) or m.group(4) or m.group(5))]
    return ['self' if re.match(r"&?('\w+\s+)?(mut\s+)?self\b", row) else re.sub(r'^mut\s+', '', row).split(':')[0].strip() for row in rows(inner)], found


# Of std's types those whose variants have names that one knows.
VARIANTS = {'core::option::Option': 'None Some', 'core::result::Result': 'Ok Err', 'core::ops::ControlFlow': 'Continue Break', 'core::cmp::Ordering': 'Less Equal Greater'}


def complete(types):
    """Fields without a name are v0, v1, .., variants without one V0, V1, .."""
    def row(ts, ns):
        return ns if ns and len(ns) == len(ts) else ['v%d' % k for k in range(len(ts))]
    for name, words in VARIANTS.items():
        types.names.setdefault(name, [(word, None) for word in words.split()])
    for name, (kind, parts) in types.shapes.items():
        ns = types.names.get(types.origins[name][0])
        if kind == 'Fields':
            types.names[name] = row(parts, ns)
        else:
            ns = ns if ns and len(ns) == len(parts) else [('V%d' % k, None) for k in range(len(parts))]
            types.names[name] = [(v, row(ts, fs)) for ts, (v, fs) in zip(parts, ns)]


def in_c(program):
    """function -> its name in C; fills those of the types. A function or type that is no instance has its path. An instance has its arguments behind that, `forms_larger_u64`;
    of std's paths only the last words are kept, `Option_u64`."""
    types, asked = program.types, program.instances.asked
    wanted = {('type', name): candidates(base, arguments, 1) for name, (base, arguments) in types.origins.items()}
    for name in program.order:
        if name not in program.exports:     # the same types with other dictionaries have a number
            found = candidates(*asked.get(name, (name, []))[:2], words=2)
            wanted['function', name] = [c + '_' + name.split(' #')[1] for c in found] if ' #' in name else found
    given = unique(wanted, TAKEN | set(program.exports.values()))
    need(all(c_word(name) for name in given.values()), 'a function or type has no name in C')
    types.c_names.update({name: c for (kind, name), c in given.items() if kind == 'type'})
    return dict(program.exports, **{name: c for (kind, name), c in given.items() if kind == 'function'})


def unique(wanted, taken):
    """key -> one of its candidates. Each that has but one gets it; of the others each the first that no other wants, and what is left then its first with a number."""
    given = {key: names[0] for key, names in wanted.items() if len(names) == 1}
    need(len(set(given.values())) == len(given), 'two functions or types have one name in C')
    for level in (0, 1):
        rest = {key: names[level] for key, names in wanted.items() if key not in given}
        taken = taken | set(given.values())
        given.update({key: name for key, name in rest.items() if name not in taken and list(rest.values()).count(name) == 1})
    for key, names in wanted.items():
        k = 2
        while key not in given:
            if '%s_%d' % (names[0], k) not in set(given.values()) | taken:
                given[key] = '%s_%d' % (names[0], k)
            k += 1
    return given


def candidates(base, arguments, words):
    """What a function or type may be called, the shortest first. words: how many of a std path are kept."""
    closure = re.search(r'::fn::(.*)\+Self$', base)
    if closure:
        return [plain(closure.group(1)), plain(base)]
    std = base.split('::')[0] in ('core', 'std')
    head = 'tuple' if base.startswith('(,') else '::'.join(base.split('::')[-words:]) if std and (arguments or words == 1) else base
    if not arguments:
        return [plain(head)] + ([plain(base)] if head != base else [])
    return [plain('_'.join([head] + [short(t, full) for t in arguments])) for full in (False, True)]


def plain(text):
    return re.sub(r'\W+', '_', text)


def short(t, full):
    """A type or a number within a name."""
    if isinstance(t, str):
        return t.lower()
    (kind, v), = t.items()
    if kind in ('Int', 'Float', 'Const'):
        return {'Int': 'u%d', 'Float': 'f%d', 'Const': '%d'}[kind] % v
    if kind == 'Array':
        return '%s_%d' % (short(v[0], full), v[1]['Lit'])
    if kind == 'Ref':
        return ('mut_' if v[1] == 'Mut' else 'ref_') + short(v[2], full)
    if kind == 'Struct':
        return short(v[1][0]['Ref'][2], full) + ('_slice_mut' if v[1][0]['Ref'][1] == 'Mut' else '_slice')
    base, arguments = v[0]['name'], v[1]
    closure = re.search(r'::fn::(.*)\+Self$', base)
    if closure or full:
        return plain('_'.join([closure.group(1) if closure else base] + [short(x, full) for x in arguments if not closure]))
    return '_'.join(['tuple' if base.startswith('(,') else base.split('::')[-1]] + [short(x, full) for x in arguments])


def of_locals(f, found):
    """(the locals' names, how many of them come from the source). The body is as it was read."""
    _, params, local, _ = found
    names = ['result'] + (params if len(params) == f.params else ['p%d' % k for k in range(f.params)])
    for s in f.body[:f.params]:     # a parameter that is indexed has a copy in memory, which comes before the variables
        if s[0] == 'assign' and s[1] == ('var', len(names)) and f.memory[len(names)] and s[2][0] == 'load' and s[2][1][0] == 'var' and 0 < s[2][1][1] <= f.params:
            names.append(names[s[2][1][1]])
    if fit(f, len(names), local):
        names += [n for n, _ in local]
    elif local:
        print('translator: the variables of %s are not named' % f.name, file=sys.stderr)
    count, out = len(names), []
    for i in range(len(f.types)):
        name = base = 'result' if i == 0 else word(names[i]) if i < count else 't%d' % i
        k = 2
        while name in out:
            name, k = '%s_%d' % (base, k), k + 1
        out.append(name)
    return out, count


def of_new_locals(f, out):
    """Names for the locals that a rule has made."""
    for i in range(len(out), len(f.types)):
        name = 't%d' % i
        while name in out:
            name += '_'
        out.append(name)


def fit(f, first, local):
    """Whether the locals from `first` on can be the source's variables."""
    last = first + len(local)
    if last > len(f.types):
        return False
    for t, (_, written) in zip(f.types[first:], local):
        widths = [int(w.replace('size', '64')) for w in re.findall(r'\bu(8|16|32|64|size)\b', written or '')]
        if t == 'ptr' or widths and (t[1] if t[0] == 'array' else t) != ('int', widths[0]):
            return False
        if written and ((written == 'bool') != (t == 'bool') and written == 'bool' or written.startswith('[') != (t[0] == 'array')):
            return False
    order = [root(target(s)) for s in statements_in_order(f.body) if target(s) is not None and root(target(s)) is not None and first <= root(target(s)) < last]
    seen = sorted(set(order), key=order.index)
    return seen == sorted(seen)


def statements_in_order(body):
    for s in body:
        yield s
        for inner in bodies(s):
            yield from statements_in_order(inner)

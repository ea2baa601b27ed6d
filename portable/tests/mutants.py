"""mutants.py [WORD]: wrong translators, each the translator with one text replaced (with WORD, only those with it in their name). Each has to be found: by MIR that has to be refused
(refusals.py), by a piece for its guard (guards.py), by the engine's C (refused, warned of, or with another digest), by random programs (random_mir.py), or by crates in today's forms (forms.py). Where the text is not there, or a wrong translator is not found, this fails.
"""
import os
import pathlib
import shutil
import subprocess
import sys
import tempfile

HERE = pathlib.Path(__file__).resolve().parent
ROOT = HERE.parent.parent
MUTANTS = [     # (name, module, text, wrong text, crates of forms/ that show it)
    ('sum for difference', 'expressions', "'Sub': '-'", "'Sub': '+'"),
    ('quotient for remainder', 'expressions', "'Rem': '%'", "'Rem': '/'"),
    ('< for <=', 'expressions', "'Le': '<='", "'Le': '<'"),
    ('<= for <', 'expressions', "'Lt': '<'", "'Lt': '<='"),
    ('== for !=', 'expressions', "'Ne': '!='", "'Ne': '=='"),
    ('| for &', 'expressions', "'And': '&'", "'And': '|'"),
    ('& for |', 'expressions', "'Or': '|'", "'Or': '&'"),
    ('| for ^', 'expressions', "'Xor': '^'", "'Xor': '|'"),
    ('a shift to the left', 'expressions', "'Shr': '>>'", "'Shr': '<<'"),
    ('a shift to the right', 'expressions', "'Shl': '<<'", "'Shl': '>>'"),
    ('a sum that wraps for a difference', 'expressions', "'WrapSub': '-'", "'WrapSub': '+'"),
    ('a difference that wraps for a sum', 'expressions', "'WrapAdd': '+'", "'WrapAdd': '-'"),
    ('float sum for difference', 'expressions', "'FloatSub': '-'", "'FloatSub': '+'"),
    ('float difference for sum', 'expressions', "'FloatAdd': '+'", "'FloatAdd': '-'"),
    ('wrong opposite of <', 'expressions', "{'<': '>='", "{'<': '>'"),
    ('wrong opposite of <=', 'expressions', "'<=': '>', '=='", "'<=': '>=', '=='"),
    ('a condition is not negated', 'statements', "if yes or not no else self.negated(e)", "if True else self.negated(e)"),
    ('operands change places', 'mir', "a, b = map(self.read_operand, v[1:])", "b, a = map(self.read_operand, v[1:])"),
    ('casts lose their width', 'expressions', "return '(%s)%s' % (self.types.c(t), self.text(a))", "return self.text(a)"),
    ('arithmetic in u8 and u16 is not cut', 'expressions', "if t[1] >= 32 else '(uint%d_t)(%s %s %s)' % (t[1], left, sign, right)", "if True else ''"),
    ('a literal is shifted as 32 bits', 'expressions', "a[0] == 'int' and (b[0] == 'int' or sign in ('<<', '>>')) or t[1] < 32", "t[1] < 32"),
    ('a + b + c without brackets, whatever they are', 'expressions', "a[:2] == e[:2] and a[4] == t", "a[0] == 'op2'"),
    ('a true operand is left out of |', 'inline', "if x[:2] == ('op2', 'And') and x[3] == ('bool', 1):", "if x[:2] in (('op2', 'And'), ('op2', 'Or')) and x[3] == ('bool', 1):"),
    ('a false operand is left out', 'inline', "and x[3] == ('bool', 1):", "and x[3][0] == 'bool':"),
    ('a + b + c, whatever is printed on the left', 'expressions', "        sign, left, right = OPERATORS[name], self.text(a), self.text(b)\n",
     "        sign, left, right = OPERATORS[name], self.text(a), self.text(b)\n        if a[:2] == ('op2', 'Or') and sign == '&':\n            left = left[1:-1]\n"),
    ('leading zeros: one too many', 'program', "return n - (uint32_t)x;", "return n;"),
    ('the size of an element is taken for 8', 'addresses', "self.types.size(t), known)", "8, known)"),
    ('a constant index is one too great', 'addresses', "count[2] // size)", "count[2] // size + 1)"),
    ('the index is the count of bytes', 'addresses', "            return product[2]\n", "            return count\n"),
    ('an address outlives what it was made from', 'addresses', "if i not in written and not reads(self.f, e) & written}", "if i not in written}"),
    ('an address outlives its local', 'addresses', "if i not in written and not", "if not"),
    ('break for continue', 'statements', "'break;' if s[1] else 'continue;'", "'continue;' if s[1] else 'break;'"),
    ('an arm has the next variant', 'statements', "test = ' || '.join('%s == %s'", "test = ' || '.join('%s == %s + 1'"),
    ('only the first key of an arm', 'statements', "for k in keys or ())", "for k in (keys or ())[:1])"),
    ('only the first test of a loop', 'statements', "return '%s && %s' % (self.text(body[0][1]), second if '&&' in second else self.text(body[0][2][0][1])) if second else None", "return first if second else None"),
    ('the else branch is lost', 'statements', "        if yes and no:\n", "        if False:\n"),
    ('nothing settles a pending expression', 'inline', "if reads(self.f, e) & written]", "if False]"),
    ('a lending call settles nothing', 'effects', "return found | {'memory'} if s[0] == 'call' and lends(f, types, s[1]) else found", "return found"),
    ('writes through a pointer settle nothing', 'effects', "return of_local(f, root(place)) if root(place) is not None else {'memory'}", "return of_local(f, root(place)) if root(place) is not None else set()"),
    ('loads through a pointer read nothing', 'effects', "if root(x[1]) is not None else {'memory'})", "if root(x[1]) is not None else set())"),
    ('an index reads nothing', 'effects', "if place[1][0] == 'load' else address_reads(f, place[1])) | reads(f, place[2])", "if place[1][0] == 'load' else address_reads(f, place[1]))"),
    ('calls do not read memory', 'effects', "found = {'memory'} if x[0] == 'call' else set()", "found = set()"),
    ('locals in memory are not memory', 'effects', "return {i, 'memory'} if f.memory[i] else {i}", "return {i}"),
    ('a lending call is pure', 'inline', "or not lends(self.f, self.types, s[1]) and", "or"),
    ('every local is read once', 'inline', "                if i not in fresh:\n                    ok[i] = False\n", ""),
    ('branches do not end a run', 'inline', "                fresh.clear()\n", ""),
    ('what is written in part is read once', 'inline', "                        ok[x[1][1]] = False\n", "                        pass\n"),
    ('a value is taken for unread', 'inline', "            if i in uses(s):\n                return True\n", ""),
    ('unread, though it is read', 'unread', "place[1] not in read and", "True and"),
    ('an unread call that writes is left out', 'unread', "                    if s[0] == 'call' and lends(f, types, s[1]):", "                    if False:"),
    ('a copy may be written', 'copies', "count[d] == 1 and only_fields", "only_fields"),
    ('a copy of what is written', 'copies', "return count[i] == 0 if i <= f.params else count[i] == 1 and i not in looped and d not in looped", "return True"),
    ('a copy of what a loop writes', 'copies', "count[i] == 1 and i not in looped and d not in looped", "count[i] == 1"),
    ('a copy of a parameter that is written', 'copies', "return count[i] == 0 if i <= f.params", "return True if i <= f.params"),
    ('a copy of what is lent to write', 'copies', "        count[i] += 2\n", "        pass\n"),
    ('a parameter is changed in the caller', 'by_pointer', "and (plain or i in written)}", "and plain}"),
    ('an argument that the call writes to', 'by_pointer', "e[0] == 'load' and not (lending and 'memory' in reads(f, e))", "e[0] == 'load'"),
    ('written out, a turn too few', 'written_out', "for i in range(*values):", "for i in range(values[0], values[1] - 1):"),
    ('written out, another number', 'written_out', "('assign', k[1], ('int', 64, i))", "('assign', k[1], ('int', 64, i + 1))"),
    ('written out, the number stays', 'written_out', "[('assign', k[1], ('int', 64, values[1])), ", "["),
    ('written out, the test stays true', 'written_out', ", ('assign', test[1], ('bool', 0))]", "]"),
    ('written out, the test is never true', 'written_out', "('assign', test[1], ('bool', 1))", "('assign', test[1], ('bool', 0))"),
    ('written out, backwards', 'written_out', "values[1] - values[0] not in range(1, TURNS + 1)", "values[1] - values[0] > TURNS"),
    ('written out, the number is written', 'written_out', "target(x) in fixed[:2] for x", "target(x) in fixed[1:2] for x"),
    ('written out, the end is written', 'written_out', "target(x) in fixed[:2] for x", "target(x) in fixed[:1] for x"),
    ('written out, though it is left', 'written_out', "x[0] in ('loop', 'block', 'exit', 'leave')", "x[0] in ('loop', 'block', 'leave')"),
    ('written out, whatever ends it', 'written_out', "left != ('if', ('load', test[1]), [], [('exit', 1)])", "left[:3] != ('if', ('load', test[1]), [])"),
    ('written out, whatever its test', 'written_out', "test[2][:2] != ('op2', 'Lt')", "test[2][0] != 'op2'"),
    ('written out, whatever its step', 'written_out', "('op2', 'Add', k, ('int', 64, 1), ('int', 64))):", "('op2', 'Add', k) + step[2][3:]):"),
    ('written out, a number from before a branch', 'written_out', "        if s[0] != 'assign':\n            return None\n", ""),
    ('written out, a number that is lent', 'written_out', "place[0] != 'var' or f.memory[place[1]] for", "place[0] != 'var' for"),
    ('in place, whatever stands behind', 'in_place', "                if target(s) != ('var', 0) or run[at + 1:at + 2] != [('return',)]:\n                    return False\n", ""),
    ('in place, two locals in one place', 'in_place', "return homes if len(set(homes.values())) == len(homes) else {}", "return homes"),
    ('in place, a part beside the whole', 'in_place', "    if ('var', 0) in homes.values():\n        homes = {i: place for i, place in homes.items() if place == ('var', 0)}\n", ""),
    ('in place, another field', 'in_place', "('field', ('var', 0), k), t)", "('field', ('var', 0), 0), t)"),
    ('in place, parameters too', 'in_place', "and i > f.params and", "and"),
    ('a value made of what it replaces', 'statements', "if moved or any(reads(self.f, x) & of_place(self.f, place) for x, same in zip(given, kept) if not same):", "if moved:"),
    ('a place that is made from what it replaces', 'statements', "if moved or any(", "if any("),
    ('a thing is copied onto itself', 'effects', "in of_place(f, local) and not given", "in of_place(f, local) and False"),
    ('two pointers never reach one place', 'effects', "    if root(a) is None and root(b) is None:\n        return True\n", "    if root(a) is None and root(b) is None:\n        return False\n"),
    ('what a call gives to a part of the header\'s struct is lost', 'statements', "                e = ('load', beside)\n", "                return\n"),
    ('a call into memory', 'statements', "need(root(s[2]) is not None and not address_reads(self.f, s[2]), '%s: a call into memory', self.f.name)", "need(s[2][0] != 'deref', 'a call into memory')"),
    ('no types', 'program', "        typed(f, self.types, self.functions)\n", ""),
    ('a & may be given as a &mut', 'typed', "of[2] == t[2] and of[1]", "of[2] == t[2]"),
    ('a write through a &', 'typed', "            self.need(self.f.type_of(place[1])[1] is True, 'a write through a reference that is not &mut')", "            pass"),
    ('a &mut of what is behind a &', 'typed', "            if e[2][1]:\n                self.writable(e[1])\n", ""),
    ('an address as any reference', 'typed', "self.need(e[2][0] == 'ref' and e[2][2] == of(e[1]),", "self.need(True,"),
    ('any arguments', 'typed', "len(e[2]) == callee.params and all(map(fits, map(of, e[2]), callee.types[1:]))", "True"),
    ('any variant may be read', 'typed', "known.get(x[1][1]) == x[1][2]", "True"),
    ('an arm of two variants knows its own', 'typed', "if enum is None or len(keys) != 1 else", "if enum is None else"),
    ('a written enum keeps its variant', 'typed', "if not reads(self.f, ('load', enum)) & changed}", "}"),
    ('a part of an enum is written', 'typed', "not any(x[0] == 'variant' for x in parts(place))", "True"),
    ('a slice of anything', 'typed', "len(of) == 2 and of[0][0] == 'ref' and (of[0][1] or not t[1])", "True or (of[0][1] or not t[1])"),
    ('operands of any type', 'typed', "self.operator(e[1], of(e[2]), of(e[3]), e[4])", "True"),
    ('parts of any type', 'typed', "len(of) == len(wanted) and all(map(fits, of, wanted))", "True"),
    ('a repeat is zero', 'statements', "elif e[0] == 'repeat' and self.is_zero(e[1]):", "elif e[0] == 'repeat':"),
    ('half of an array is copied', 'statements', "self.emit('%s(%s, %s, %s);' % (copy, to,", "self.emit('%s(%s, %s, %s / 2);' % (copy, to,"),
    ('the first field is lost', 'statements', "                elif not same and not self.types.empty(", "                elif not same and k and not self.types.empty("),
    ('a variant\'s fields begin at the tag', 'expressions', "fields[x[2] - 1]))", "fields[x[2] - 2]))"),
    ('the tag of another variant', 'expressions', "        k = given[0][2]\n", "        k = given[0][2] ^ 1\n"),
    ('the header\'s members in another order', 'header', "            found[path] = member\n", "            found[path] = {'along': 'across', 'across': 'along'}.get(member, member)\n"),
    ('a slice\'s length is one too great', 'statements', "'%s %s = { %s_ptr, %s_len };'", "'%s %s = { %s_ptr, %s_len + 1 };'"),
    # Of generic MIR and of what today's forms bring.
    ('a type for another parameter', 'instantiate', "        return types[v]\n", "        return types[v - 1]\n", 'generics'),
    ('a dictionary for another bound', 'instantiate', "            return self.dicts[v]\n", "            return self.dicts[0]\n", 'traits'),
    ('another method of an impl', 'instantiate', "name = methods[v[1]]", "name = methods[0]", 'traits'),
    ('a method\'s own types before the impl\'s', 'instantiate', "types + [put(t, self.types) for t in own['types']]", "[put(t, self.types) for t in own['types']] + types"),
    ('an impl\'s dictionaries are lost', 'instantiate', "[self.dictionary(x) for x in v[2]]]}", "[]]}", 'traits'),
    ('any size of a type', 'instantiate', "'value': self.instances.types.size_of(self.type(v))", "'value': 8", 'slices'),
    ('another number for a parameter', 'instantiate', "        return t['Const']\n", "        return t['Const'] + 1\n", 'generics'),
    ('an array\'s length is another', 'instantiate', "{'Lit': types[n['Param']]['Const']}", "{'Lit': types[n['Param']]['Const'] + 1}", 'generics'),
    ('a struct\'s types change places', 'instantiate', "shape = [self.plain(put(t, arguments))", "shape = [self.plain(put(t, arguments[::-1]))", 'generics'),
    ('a variant\'s types change places', 'instantiate', "[[self.plain(put(t, arguments)) for t in ts]", "[[self.plain(put(t, arguments[::-1])) for t in ts]", 'more'),
    ('an instance for all dictionaries', 'instantiate', "(name, types, dicts)) != (name, types, dicts):", "(name, types, dicts))[:2] != (name, types):"),
    ('any dictionaries', 'instantiate', "        need(len(dicts) == len(g['bounds']),", "        need(True,"),
    ('an exit leaves one block more', 'mir', "at = len(levels) - 1 - v\n", "at = max(0, len(levels) - 2 - v)\n", 'more'),
    ('an exit through two loops is a break', 'mir', "if at == loop or at == loop - 1 and", "if at == loop or at <= loop - 1 and", 'newer'),
    ('every block is a loop\'s', 'mir', "if label.startswith('next')]", "]", 'more'),
    ('a label stands before its block', 'statements', "        self.body(s[2])\n        self.lines.append('%s%s: ;' % ('    ' * (self.depth - 1), s[1]))\n",
     "        self.lines.append('%s%s: ;' % ('    ' * (self.depth - 1), s[1]))\n        self.body(s[2])\n", 'more'),
    ('a constant\'s numbers in another order', 'mir', "for x in v['values']]", "for x in v['values'][::-1]]", 'more'),
    ('a constant of any variant', 'mir', "need(given and 'Int' in given[0] and given[0]['Int']['value'] < len(wanted),", "need(True,"),
    ('a constant is true', 'mir', "return ('bool', int(v))", "return ('bool', 1)", 'newer'),
    ('a constant\'s fields change places', 'expressions', "(n, text) for n, (x, text) in zip(names, given)", "(n, text) for n, (x, text) in zip(names[::-1], given)", 'newer'),
    ('a constant of the first variant', 'expressions', "return '{ .tag = %s%s }' % (self.tag(t, e[1][0][2]),", "return '{ .tag = %s%s }' % (self.tag(t, 0),", 'newer'),
    ('a constant as anything', 'typed', "            self.need(e[2] == ('ref', False, of(e[1])), 'a constant as %s' % (e[2],))\n", ""),
    ('a &mut is copied from behind a &', 'typed', "        if e[0] == 'load' and self.types.lends(t):", "        if False:"),
    ('a &mut is copied from behind a &, whole', 'typed', "        self.copied(source(s), self.f.type_of(place))\n", ""),
    ('a &mut is copied from behind a & to a part', 'typed', "        for x, u in zip(given, wanted):\n            self.copied(x, u)\n", ""),
    ('a &mut is copied from behind a & to a slice', 'typed', "            self.copied(given[0], ('ref',) + t[1:])\n", ""),
    ('a &mut is copied from behind a & to an array', 'typed', "            self.copied(e[1], e[3][1])\n", ""),
    ('a &mut is copied from behind a & to a callee', 'typed', "            for x, t in zip(e[2], callee.types[1:]):\n                self.copied(x, t)\n", ""),
    ('an empty array that is given back is a local', 'mir', "if of[0] == 'array' and of[2] == 0 and self.outlives():", "if False:"),
    ('what a result refers to ends with the call', 'mir', "return self.refers(self.types[0], 1) or any(", "return any("),
    ('a raw pointer that is kept is never assigned', 'addresses', "                    out.append(self.variable(self.kept[place[1]], e))\n", "                    self.variable(self.kept[place[1]], e)\n", 'memory'),
    ('a raw pointer that is kept, and assigned twice', 'addresses', "for s in statements(f.body)) == 1,", "for s in statements(f.body)) >= 1,"),
    ('a raw pointer that is kept, of an offset', 'addresses', "        need(e[0] == 'addr', '%s: a pointer that is kept', self.f.name)\n", "        e = e[1] if e[0] == 'offset' else e\n"),
    ('a raw pointer that is kept may always write', 'addresses', "('ref', self.writable(e[1]), self.f.type_of(e[1]))", "('ref', True, self.f.type_of(e[1]))"),
    ('a raw pointer that is kept may never write', 'addresses', "('ref', self.writable(e[1]), self.f.type_of(e[1]))", "('ref', False, self.f.type_of(e[1]))"),
    ('what is repeated is made in a literal', 'statements', "if e[0] == 'repeat' and (self.types.in_parts(", "if False and (self.types.in_parts(", 'memory'),
    ('an array\'s parts all go to its first', 'statements', "self.assign(('index', place, ('int', 64, k), t[1]), x)", "self.assign(('index', place, ('int', 64, 0), t[1]), x)", 'newer'),
    ('what holds something is left out', 'layout', "and all(map(self.empty, self.fields(t)))", "and any(map(self.empty, self.fields(t)))", 'walks'),
    ('a struct that holds a &mut lends nothing', 'layout', "or t[0] == 'named' and any(map(self.lends, self.parts(t)))", "or False", 'slices more pairs memory newer'),
    ('the branch that is taken is left out', 'unreached', "else yes if no is None else no", "else no if no is None else yes", 'more'),
    ('what is behind a return is never entered', 'unreached', "            return out if left else None\n", "            return None\n", 'more'),
    ('the last arm that is left, whatever it is, has no test', 'unreached', "rest[0][1] if len(rest) == 1 else", "rest[0][1] if rest else", 'more'),
    ('what is never reached is the end', 'unreached', "    if s[0] == 'unreachable' or s[0] == 'call' and s[1][1] in never:\n        return None\n", "    if s[0] == 'unreachable' or s[0] == 'call' and s[1][1] in never:\n        return []\n", 'more'),
]
JOBS, PROGRAMS = '25', '40'
WARNINGS = '-std=c99 -Wall -Wextra -Wpedantic -Wconversion -Wshadow -Wcast-qual -Werror -Iinclude'.split()


def run(*command, **more):
    return subprocess.run(list(map(str, command)), stdout=subprocess.PIPE, stderr=subprocess.STDOUT, universal_newlines=True, cwd=str(ROOT), **more)


def engine(translator):
    """The C of the engine, or None."""
    kit = pathlib.Path(run('rt', 'doc').stdout.strip()).parent
    rlibs = [str(path) for path in sorted(ROOT.glob('crates/*/out/rlib'))] + [str(kit / 'rlibs')]
    made = subprocess.run([sys.executable, '-B', str(translator), '--rlibs'] + rlibs + ['--crate', 'barrier_engine', '--header', 'include/barrier.h',
                           '--sources', 'crates'], stdout=subprocess.PIPE, stderr=subprocess.PIPE, universal_newlines=True, cwd=str(ROOT))
    return made.stdout if made.returncode == 0 else None


def digest(c, folder):
    path = pathlib.Path(folder) / 'm.c'
    path.write_text(c)
    built = run('gcc', '-std=c99', '-O0', '-w', '-fsanitize=address', '-Iinclude', HERE / 'digest.c', path, '-o', path.with_suffix(''))
    if built.returncode:
        return 'not compiled'
    try:
        got = run(path.with_suffix(''), JOBS, timeout=60)
    except subprocess.TimeoutExpired:
        return 'does not end'
    return got.stdout.strip().split('\n')[-1] if got.returncode == 0 else 'crash'


def passes(translator, *test, seconds=180):
    try:
        return run(sys.executable, '-B', *test, env=dict(os.environ, TRANSLATOR=str(translator), QUICK='yes'), timeout=seconds).returncode == 0
    except subprocess.TimeoutExpired:
        return False


def by_random(translator):
    return passes(translator, HERE / 'random_mir.py', PROGRAMS, '1')


def by_forms(translator, crates):
    """The right translator has proved the crates."""
    return passes(translator, HERE / 'forms.py', '12', '1', ROOT / 'target/forms', *crates, seconds=600)


def by_engine(translator, folder, right, want):
    """How the engine's C shows it, or None."""
    c = engine(translator)
    if c is None or c == right:
        return None if c == right else 'refused'
    got = digest(c, folder)
    if got != want:
        return got if got in ('not compiled', 'does not end', 'crash') else 'another digest'
    return 'a warning' if run('gcc', *WARNINGS, '-fsyntax-only', pathlib.Path(folder) / 'm.c').returncode else None


def main():
    wanted = sys.argv[1] if len(sys.argv) > 1 else ''
    missed, tried = [], 0
    with tempfile.TemporaryDirectory() as folder:
        right = engine(HERE.parent / 'translator')
        want = digest(right, folder)
        itself = HERE.parent / 'translator'
        if not (passes(itself, HERE / 'refusals.py') and passes(itself, HERE / 'guards.py') and by_random(itself) and (wanted or passes(itself, HERE / 'forms.py', seconds=3600))):
            sys.exit('mutants: the right translator is found wrong')
        for name, module, old, new, *crates in [m for m in MUTANTS if wanted in m[0]]:
            tried += 1
            translator = pathlib.Path(folder) / 'translator'
            shutil.rmtree(str(translator), ignore_errors=True)
            shutil.copytree(str(HERE.parent / 'translator'), str(translator), ignore=shutil.ignore_patterns('__pycache__'))
            text = (translator / (module + '.py')).read_text()
            if text.count(old) != 1:
                sys.exit('mutants: %s: its text stands %d times in %s.py' % (name, text.count(old), module))
            (translator / (module + '.py')).write_text(text.replace(old, new))
            how = None if passes(translator, HERE / 'refusals.py') else 'what has to be refused'
            how = how or (None if passes(translator, HERE / 'guards.py') else 'a piece for its guard')
            how = how or by_engine(translator, folder, right, want)
            how = how or (None if by_random(translator) else 'random programs')
            how = how or (None if not crates or by_forms(translator, crates[0].split()) else 'today\'s forms')
            print('%s: %s' % (name, how or 'NOT FOUND'), flush=True)
            missed += [name] if how is None else []
    if missed:
        sys.exit('mutants: %d of %d wrong translators were not found' % (len(missed), tried))
    print('mutants: %d wrong translators, each found' % tried)


if __name__ == '__main__':
    main()

"""examples.py [VECTORS [SEED]]: functions of the toolchain's own libraries through the translator. They were written by others, and for other things than the engine. Each function that the
translator takes is called with made-up arguments, interpreted from its MIR (machine.py) and as usual and plain C: result and lent memory have to be the same. Arguments at which the interpreter is
stuck are none that the function's contract allows, and are left out. A library's function with a construct that the engine does not use is refused, and the reasons are counted.
Of each library that has a sum, a translator that writes a difference for it is noticed.
"""
import collections
import ctypes
import json
import os
import pathlib
import random
import subprocess
import sys

HERE = pathlib.Path(__file__).resolve().parent
sys.path.insert(0, os.environ.get('TRANSLATOR', str(HERE.parent / 'translator')))
import expressions  # noqa: E402
from machine import Machine, Stuck  # noqa: E402
from program import Program, read_crates, origins  # noqa: E402
from random_mir import NOT_GENERIC, U64, at, copy, field, fn, int_, libraries, ref, repeat, seq  # noqa: E402
from refused import Refused  # noqa: E402

CRATES = 'core io jiff_core base64 httparse httpdate md5 sha1 sha2 ryu unicode_width'.split()
PATIENCE = 20000        # steps of the interpreter, after which arguments are left out


class Impatient(Machine):
    """An interpreter that gives up."""

    def run(self, frame, node):
        self.steps = getattr(self, 'steps', 0) + 1
        if self.steps > PATIENCE:
            raise Stuck('it takes too long')
        return super().run(frame, node)


class Unmade(Exception):
    """A type of which no value is made up here, as a float."""


class Entry:
    """A function without parameters: it makes up arguments, calls a function, and returns a number of all that came of it."""

    def __init__(self, r, name, mir):
        self.r, self.out, self.shapes = r, [], {row['name']: row['shape'] for row in mir['types']}
        self.locals = [{'ty': U64, 'home': 'ValueLocal'}]
        self.h = self.new(U64)
        self.assign(self.h, {'Opd': int_(17)})
        lent, given = [], []
        for l in mir['locals'][1:1 + mir['params']]:
            given.append(self.argument(l['ty'], lent))
        result = self.new(mir['locals'][0]['ty'])
        self.say({'Call': [fn(name), given, result]})
        for p, t in [(result, mir['locals'][0]['ty'])] + lent:
            self.mix(p, t)
        self.assign({'local': 0, 'steps': []}, {'Opd': copy(self.h)})
        self.say('Return')
        self.mir = {'lifetimes': 0, 'outlives': [], 'params': 0, 'generics': NOT_GENERIC, 'types': mir['types'], 'locals': self.locals, 'body': seq(self.out)}

    def new(self, t, memory=False):
        self.locals.append({'ty': t, 'home': 'MemorySlot' if memory else 'ValueLocal'})
        return {'local': len(self.locals) - 1, 'steps': []}

    def say(self, s):
        self.out.append([s] if not isinstance(s, list) else s)

    def assign(self, p, rv):
        self.say({'Assign': [p, rv]})

    def made(self, t, rv, memory=False):
        p = self.new(t, memory)
        self.assign(p, rv)
        return p

    # ---- arguments
    def number(self, w):
        r = self.r
        return r.choice([0, 1, 2, 9, 10, 48, 57, 65, 97, 127, 128, 255, (1 << w) - 1, r.randrange(1 << w), r.randrange(100)]) % (1 << w)

    def value(self, t):
        """An operand."""
        if t == 'Bool':
            return self.r.choice(['True', 'False'])
        if t == 'Unit':
            return 'Unit'
        if isinstance(t, dict) and 'Int' in t and t['Int'] <= 64:
            return int_(self.number(t['Int']), t['Int'])
        if isinstance(t, dict) and 'Array' in t and t['Array'][1].get('Lit', 999) <= 128:
            n = t['Array'][1]['Lit']
            return copy(self.made(t, repeat(self.value(t['Array'][0]), n) if n > 32 or self.r.random() < .3 else {'Aggregate': [self.value(t['Array'][0]) for _ in range(n)]}))
        shape = self.shapes.get(t['Named'][0]['name']) if isinstance(t, dict) and 'Named' in t else None
        if shape is None:
            raise Unmade(t)
        if 'Fields' in shape:
            return copy(self.made(t, {'Aggregate': list(map(self.value, shape['Fields']))}))
        k = self.r.randrange(len(shape['Variants']))
        return copy(self.made(t, {'Aggregate': [int_(k, 8)] + list(map(self.value, shape['Variants'][k]))}))

    def argument(self, t, lent):
        """An operand; what is lent by it comes to the list."""
        if isinstance(t, dict) and 'Ref' in t:
            p = self.made(t['Ref'][2], {'Opd': self.value(t['Ref'][2])}, True)
            lent += [(p, t['Ref'][2])] if t['Ref'][1] == 'Mut' else []
            return copy(self.made(ref(t['Ref'][2], t['Ref'][1]), {'AddrOf': p}))
        if isinstance(t, dict) and 'Struct' in t and t['Struct'][0] == '&[]':
            _, kind, element = t['Struct'][1][0]['Ref']
            array = {'Array': [element, {'Lit': self.r.choice([1, 2, 3, 4, 5, 8, 16, 20, 64])}]}
            p = self.made(array, {'Opd': self.value(array)}, True)
            lent += [(p, array)] if kind == 'Mut' else []
            whole = array['Array'][1]['Lit']
            start = self.made(ref(array, kind), {'AddrOf': p})
            return copy(self.made({'Struct': ['&[]', [ref(element, kind), U64]]}, {'Aggregate': [copy(start), int_(whole if self.r.random() < .7 else self.r.randrange(whole + 1))]}))
        return self.value(t)

    # ---- a number of all that came of it
    def number_of(self, x):
        """h = (h & (2^58 - 1)) * 31 ^ x, and a branch, at which it settles: else all would be one expression."""
        low = self.made(U64, {'Op2': ['And', copy(self.h), int_(2 ** 58 - 1)]})
        low = self.made(U64, {'Op2': [{'Mul': 'Unsigned'}, copy(low), int_(31)]})
        self.assign(self.h, {'Op2': ['Xor', copy(low), x]})
        self.say([{'If': 'True'}, 'Skip', 'Skip'])

    def mix(self, p, t):
        if t == 'Unit':
            return
        if t == U64:
            self.number_of(copy(p))
        elif t == 'Bool' or 'Int' in t and t['Int'] < 64:
            self.number_of(copy(self.made(U64, {'Op1': [{'Cast': ['Unsigned', 'Unsigned', 64]}, copy(p)]})))
        elif 'Array' in t:
            m = self.made(t, {'Opd': copy(p)}, True)
            size = Machine({}).layout(t['Array'][0])[0] if 'Int' in t['Array'][0] else None
            if size is None:
                raise Unmade(t)
            for k in range(t['Array'][1]['Lit']):
                start = self.made('Ptr', {'AddrOf': m})
                self.mix(at(self.made('Ptr', {'Op2': ['Offset', copy(start), int_(size * k)]}), {'Deref': t['Array'][0]}), t['Array'][0])
        elif 'Struct' in t and t['Struct'][0] == '&[]':
            self.number_of(copy(at(p, field(1))))
        elif 'Named' in t and 'Fields' in self.shapes.get(t['Named'][0]['name'], {}):
            for k, u in enumerate(self.shapes[t['Named'][0]['name']]['Fields']):
                self.mix(at(p, field(k)), u)
        elif 'Named' in t and t['Named'][0]['name'] in self.shapes:
            variants, kept, arms = self.shapes[t['Named'][0]['name']]['Variants'], self.out, []
            for k, fields in enumerate(variants):
                self.out = []
                self.number_of(int_(k + 1))
                for n, u in enumerate(fields):
                    self.mix(at(p, {'Variant': k}, field(1 + n)), u)
                arms.append(seq(self.out))
            self.out = kept
            self.say([{'Switch': [copy(at(p, {'Variant': 0}, field(0))), [[k] for k in range(len(variants))], False]}] + [x for a in arms for x in a])
        else:
            raise Unmade(t)


def taken(functions, name):
    """Why the translator refuses a function, or nothing."""
    try:
        for plain in (False, True):
            Program(functions, {name: 'entry'}, plain=plain).write([], None)
    except Refused as e:
        return str(e).split(': ')[-1]
    return None


def entries(functions, name, vectors, seed):
    """(entry, the number that it has to give) of some calls of a function."""
    found, mir = [], functions[name]
    needed = {n: functions[n] for n in origins(functions, [name])}
    for k in range(vectors):
        try:
            entry = Entry(random.Random('%s %d %d' % (name, seed, k)), name, mir).mir
            number = Impatient(dict(needed, entry=entry)).call('entry', [])[0]
        except (Unmade, Stuck):
            continue
        if taken(dict(needed, entry=entry), 'entry') is None:
            found.append((entry, int.from_bytes(number, 'little')))
    return found


def others(whole, wanted, plain):
    """(entry, compiler) wherever the C gives another number than the interpreter."""
    text = Program(whole, {n: n for n in wanted}, plain=plain).write([], None)
    for built, library in libraries(text):
        for n, (number, _) in wanted.items():
            call = getattr(library, n)
            call.restype = ctypes.c_uint64
            if call() != number:
                yield n, built


def wrong_sums_noticed(whole, wanted):
    """Whether a translator that writes - for + is noticed."""
    right = expressions.OPERATORS['Add']
    expressions.OPERATORS['Add'] = '-'
    try:
        return any(True for _ in others(whole, wanted, False))
    finally:
        expressions.OPERATORS['Add'] = right


def main():
    vectors, seed = (list(map(int, sys.argv[1:])) + [6, 1][len(sys.argv) - 1:])[:2]
    sys.setrecursionlimit(100000)
    kit = pathlib.Path(subprocess.run(['rt', 'doc'], stdout=subprocess.PIPE, universal_newlines=True, check=True).stdout.strip()).parent
    done, calls, unmade, noticed, refused = collections.Counter(), 0, 0, 0, collections.Counter()
    for crate in CRATES:
        functions, whole, wanted = read_crates([kit / 'rlibs'], crate), {}, {}
        for name in list(functions.of(crate)):
            why = taken(functions, name)
            if why is not None:
                refused[why.split(' {')[0].split(' [')[0]] += 1
                continue
            made = entries(functions, name, vectors, seed)
            done[crate] += bool(made)
            unmade += not made
            for entry, number in made:
                wanted['entry%d' % len(wanted)] = number, name
                whole['entry%d' % len(whole)] = entry
        for n in [n for _, n in wanted.values()]:
            whole.update((m, functions[m]) for m in origins(functions, [n]))
        calls += len(wanted)
        for plain in (False, True) if wanted else ():
            for n, built in others(whole, wanted, plain):
                sys.exit('examples: %s: the %s C by %s gives another number than the interpreter: %s' % (wanted[n][1], 'plain' if plain else 'usual', built, json.dumps(whole[n])[:2000]))
        noticed += wanted != {} and wrong_sums_noticed(whole, wanted)
    if noticed < 5:
        sys.exit('examples: a translator with wrong sums is noticed in %d libraries only' % noticed)
    if sum(done.values()) < 300:
        sys.exit('examples: only %s functions were translated and run: %s' % (sum(done.values()), dict(done)))
    print('examples: %d functions of the toolchain\'s own libraries (%s), %d calls: the same interpreted and as C, usual and plain; no arguments found for %d; wrong sums noticed in %d libraries; refused %d, most for: %s' % (
        sum(done.values()), ', '.join('%s %d' % pair for pair in done.items()), calls, unmade, noticed, sum(refused.values()), '; '.join('%s (%d)' % pair for pair in refused.most_common(5))))


if __name__ == '__main__':
    main()

"""random_mir.py [COUNT [SEED]]: random programs in MIR, each run by the interpreter (machine.py), as the usual C and as the plain C. All three have to agree.

The engine's MIR is one program, and does not need every guard of the translator. These programs are made to: temporaries are written again while an expression that reads
them is still to come, copies are taken of what is changed after, structs are handed over beside a reference to themselves, results are made of their own old
parts. A program is right as MIR: everything is written before it is read, and no operation gets stuck.
"""
import ctypes
import os
import pathlib
import random
import shutil
import subprocess
import sys
import tempfile

HERE = pathlib.Path(__file__).resolve().parent
sys.path.insert(0, os.environ.get('TRANSLATOR', str(HERE.parent / 'translator')))
from machine import Machine  # noqa: E402
from program import Program  # noqa: E402
from refused import Refused  # noqa: E402

U8, U16, U32, U64 = ({'Int': w} for w in (8, 16, 32, 64))
A = {'Array': [U64, {'Lit': 4}]}


def named(name):
    return {'Named': [{'name': 'r::' + name, 'lifetimes': []}, []]}


def declared(name, shape):
    """A row of a function's table of types."""
    return {'name': name, 'lifetimes': 0, 'bounds': [], 'type_params': 0, 'const_params': [], 'type_bounds': [], 'owns': False, 'is_cell': False, 'shape': shape, 'is_tuple': False}


A_TYPE, A_NUMBER = ({'is_copy': False, 'is_kept': False, 'const_bits': bits} for bits in (None, 64))
NOT_GENERIC = {'types': [], 'outlives': [], 'bounds': [], 'method_of': None, 'trait_lifetimes': 0, 'impls': []}


def fn(name):
    """What a call of this function names."""
    return {'Fn': [name, {'types': [], 'dicts': []}]}


def repeat(x, n):
    return {'Repeat': [x, {'Lit': n}]}


T, P, S, B, E = map(named, 'TPSBE')     # T 24 bytes, P 16, S 48 with an array, B 88 with two, E an enum
FIELDS = {'r::T': [U64, U64, U64], 'r::P': [U64, U8], 'r::S': [U64, U16, A], 'r::B': [S, A, U64]}
VARIANTS = [[], [U64], [P], [T, U64]]
SHAPES = [declared(n, {'Fields': f}) for n, f in FIELDS.items()] + [declared('r::E', {'Variants': VARIANTS})]
VALUES = [U64, T, P, S, B, E, A]


def ref(t, kind='Mut'):
    return {'Ref': ['Erased', kind, t]}


def slice_of(kind):
    return {'Struct': ['&[]', [ref(U64, kind), U64]]}


def int_(n, w=64):
    return {'Int': {'width': w, 'value': n}}


def copy(p):
    return {'Copy': p}


def at(p, *steps):
    return {'local': p['local'], 'steps': p['steps'] + list(steps)}


def field(k):
    return {'Field': k}


def seq(statements):
    out = []
    for s in statements[:-1]:
        out += ['Seq'] + s
    return out + (statements[-1] if statements else ['Skip'])


class Maker:
    """One function. `out` is the list of statements that is being written, each a list of tokens."""

    def __init__(self, r, known, params, result):
        self.r, self.known, self.params, self.result = r, known, params, result
        self.locals, self.pool, self.out = [], {}, []
        self.new(result)
        self.args = [self.new(t) for t in params]
        self.places = [(p, t) for p, t in zip(self.args, params) if t in VALUES]        # what may be read
        self.vars = []                                                                  # what may be written, all of it written from the start
        for p, t in zip(self.args, params):
            if 'Ref' in t:
                self.places.append((at(p, {'Deref': t['Ref'][2]}), t['Ref'][2]))
                self.vars += [(at(p, {'Deref': t['Ref'][2]}), t['Ref'][2])] if t['Ref'][1] == 'Mut' else []
            elif t in VALUES and r.random() < .3:
                self.vars.append((p, t))

    def new(self, t, memory=False):
        self.locals.append({'ty': t, 'home': 'MemorySlot' if memory else 'ValueLocal'})
        return {'local': len(self.locals) - 1, 'steps': []}

    def temp(self, t):
        """A local of this type: often one that was used before, whatever it still holds."""
        pool = self.pool.setdefault(str(t), [])
        if not pool or self.r.random() < .5:
            pool.append(self.new(t))
        return self.r.choice(pool)

    def say(self, s):
        self.out.append([s] if not isinstance(s, list) else s)

    def assign(self, p, rv):
        self.say({'Assign': [p, rv]})

    def made(self, t, rv):
        p = self.temp(t)
        self.assign(p, rv)
        return copy(p)

    def op(self, name, a, b, t=U64, sign=True):
        return self.made(t, {'Op2': [{name: 'Unsigned'} if sign else name, a, b]})

    # ---- values
    def choose(self, t, written=False):
        found = [p for p, u in (self.vars if written else self.places + self.vars) if u == t]
        if t == S:
            found += [at(p, field(0)) for p, u in (self.vars if written else self.places + self.vars) if u == B]
        if t == A:
            found += [at(p, field(1)) for p, u in (self.vars if written else self.places + self.vars) if u == B]
        if t == U64:
            found += [at(p, field(0)) for p, u in (self.vars if written else self.places + self.vars) if u in (T, P, S)]
        return self.r.choice(found) if found else None

    def number(self, depth=2):
        kind = self.r.randrange(12) if depth else self.r.randrange(4)
        place = self.choose(U64)
        if kind < 3 and place:
            return copy(place)
        if kind < 4 or not depth:
            return int_(self.r.choice([0, 1, 3, 255, 65535, 2 ** 32 - 1, 2 ** 32, 2 ** 64 - 1, self.r.randrange(2 ** 64)]))
        a, b = self.number(depth - 1), self.number(depth - 1)
        if kind == 4:
            return self.op(self.r.choice(['And', 'Or', 'Xor', 'WrapAdd', 'WrapSub']), a, b, sign=False)
        if kind == 5:       # a | b is never below a & b
            return self.op('Sub', self.op('Or', a, b, sign=False), self.op('And', a, b, sign=False))
        if kind == 6:
            mask = int_(2 ** 31 - 1)
            return self.op(self.r.choice(['Add', 'Mul']), self.op('And', a, mask, sign=False), self.op('And', b, mask, sign=False))
        if kind == 7:
            return self.op(self.r.choice(['Div', 'Rem']), a, int_(self.r.choice([1, 2, 7, 1000])))
        if kind == 8:
            return self.op('Shr', a, int_(self.r.randrange(64))) if self.r.random() < .5 else self.op('Shl', a, int_(self.r.randrange(64)), sign=False)
        if kind == 9:
            return self.narrow(a, b)
        if kind == 10:
            element = self.element()
            if element:
                return self.made(U64, {'Opd': copy(element)})
        zeros = self.made(U32, {'Op1': ['LeadingZeros', a]})
        return self.made(U64, {'Op1': [{'Cast': ['Unsigned', 'Unsigned', 64]}, zeros]})

    def narrow(self, a, b):
        """Arithmetic in u8 and u16."""
        w, t, most = self.r.choice([(8, U8, 255), (16, U16, 65535)])
        cast = {'Cast': ['Unsigned', 'Unsigned', w]}
        x = self.made(t, {'Op1': [cast, self.op('And', a, int_(most), sign=False)]})
        x = self.op('Sub', int_(most, w), x, t) if self.r.random() < .5 else self.op('Shl', x, int_(3, w), t, sign=False)
        y = self.made(t, {'Op1': [cast, self.op('And', b, int_(most // 2), sign=False)]})
        x = self.op(self.r.choice(['WrapAdd', 'WrapSub']), x, y, t, sign=False) if self.r.random() < .3 else self.op('Add', self.op('Div', x, int_(2, w), t), y, t)
        if self.r.random() < .4:
            return self.wide(self.boolean_of(self.op('Le', x, y, 'Bool')))
        return self.made(U64, {'Op1': [{'Cast': ['Unsigned', 'Unsigned', 64]}, x]})

    def boolean(self, depth=1):
        a, b = self.number(1), self.number(1)
        kind = self.r.randrange(8)
        if kind < 2:
            x = self.op(self.r.choice(['Lt', 'Le']), a, b, 'Bool')
        else:
            x = self.op(self.r.choice(['Eq', 'Ne']), a, b, 'Bool', sign=False)
        while kind > 4 and depth:       # a chain: each sum or product of tests is the left operand of the next
            other = self.boolean(0)
            if self.r.random() < .4:
                other = copy(self.new('Bool'))
                self.assign(other['Copy'], {'Op2': [{'Le': 'Unsigned'}, int_(0), b]})       # always true
            x = self.op(self.r.choice(['And', 'Or']), x, other, 'Bool', sign=False)
            kind = self.r.randrange(8)
        return self.made('Bool', {'Op1': ['Not', x]}) if kind == 4 else x

    def boolean_of(self, x):
        return x if self.r.random() < .6 else self.made('Bool', {'Op1': ['Not', x]})

    def wide(self, x):
        return self.made(U64, {'Op1': [{'Cast': ['Unsigned', 'Unsigned', 64]}, x]})

    def in_memory(self, p):
        return self.locals[p['local']]['home'] == 'MemorySlot' or any('Deref' in s for s in p['steps'])

    def element(self, written=False):
        """The place of an element of an array or a slice, by address and bytes; or None."""
        arrays = [at(p, *s) for p, t in (self.vars if written else self.places + self.vars) for u, s in ((A, []), (S, [field(2)]), (B, [field(1)]), (B, [field(0), field(2)]))
                  if t == u and self.in_memory(p)]
        slices = [p for p, t in zip(self.args, self.params) if t in ([slice_of('Mut')] + ([] if written else [slice_of('Imm')]))]
        if not arrays and not slices:
            return None
        i = int_(8 * self.r.randrange(4))
        if self.r.random() < .6:
            index, bytes_ = self.new(U64), self.temp(U64)
            self.assign(index, {'Op2': [{'Rem': 'Unsigned'}, self.number(1), int_(4)]})
            self.assign(bytes_, {'Op2': [{'Mul': 'Unsigned'}, copy(index), int_(8)]})
            i = copy(bytes_)
        base = self.r.choice(arrays + slices)
        start = copy(at(base, field(0))) if base in slices else self.made('Ptr', {'AddrOf': base})
        return at(self.made('Ptr', {'Op2': ['Offset', start, i]})['Copy'], {'Deref': U64})

    def value(self, t, depth=1):
        """An operand of any type."""
        if t == U64:
            return self.number(depth)
        if t == U8 or t == U16:
            w = t['Int']
            return self.made(t, {'Op1': [{'Cast': ['Unsigned', 'Unsigned', w]}, self.op('And', self.number(1), int_((1 << w) - 1), sign=False)]})
        place = self.choose(t)
        kind = self.r.randrange(6)
        if place and (kind < 3 or not depth):
            return copy(place) if self.r.random() < .4 else self.made(t, {'Opd': copy(place)})
        calls = [n for n, (ps, result) in self.known.items() if result == t]
        if calls and kind == 3 and depth:
            return copy(self.call(self.r.choice(calls), self.temp(t)))
        return self.made(t, self.aggregate(t, depth))

    def aggregate(self, t, depth):
        if t == A:
            return repeat(int_(self.r.choice([0, 0, 7])) if self.r.random() < .6 else self.number(1), 4) if self.r.random() < .5 else {'Aggregate': [self.number(1) for _ in range(4)]}
        if t == E:
            k = self.r.randrange(len(VARIANTS))
            return {'Aggregate': [int_(k, 8)] + [self.value(u, 0) for u in VARIANTS[k]]}
        return {'Aggregate': [self.value(u, depth - 1 if depth else 0) for u in FIELDS[t['Named'][0]['name']]]}

    def call(self, name, dest, lend=None):
        """Arguments by value are made first: some of what a reference then lends. lend: a place to lend where it fits."""
        params, result = self.known[name]
        dest = dest or self.temp(result)
        given, lent = {}, set()
        for k, t in enumerate(params):
            if t in VALUES:
                given[k] = self.value(t, 1)
        for k, t in enumerate(params):
            if t in VALUES:
                continue
            inner, kind = (t['Ref'][2], t['Ref'][1]) if 'Ref' in t else (A, t['Struct'][1][0]['Ref'][1])
            found = [p for p, u in (self.vars if kind == 'Mut' else self.vars + self.places) if u == inner and self.in_memory(p) and p['local'] not in lent]
            place = lend if lend in found else self.r.choice(found) if found else None
            if place is None:
                place = self.new(inner, True)
                self.assign(place, {'Opd': self.value(inner, 0)})
            lent.add(place['local'])
            given[k] = self.made(ref(inner, kind), {'AddrOf': place})
            if 'Struct' in t:
                given[k] = self.made(slice_of(kind), {'Aggregate': [given[k], int_(4)]})
        self.say({'Call': [fn(name), [given[k] for k in range(len(params))], dest]})
        return dest

    # ---- statements
    def statement(self, depth, loop):
        kind = self.r.randrange(16)
        if kind < 4 and self.vars:
            p, t = self.r.choice(self.vars)
            self.assign(p, {'Opd': self.value(t)} if self.r.random() < .7 else self.aggregate(t, 1) if t != U64 else {'Opd': self.number()})
        elif kind < 6 and self.choose(U64, True):
            p = self.choose(U64, True)
            self.assign(p, {'Opd': self.number()})
        elif kind < 7:
            p = self.element(True)
            if p:
                self.assign(p, {'Opd': copy(self.choose(U64)) if self.choose(U64) and self.r.random() < .5 else int_(self.r.randrange(99))})
        elif kind < 9 and self.vars:
            self.disturbed()
        elif kind < 11 and self.known:
            name = self.r.choice(list(self.known))
            dest = self.choose(self.known[name][1], True) if self.r.random() < .6 else None
            self.call(name, dest if dest and not any('Deref' in s for s in dest['steps']) else self.temp(self.known[name][1]))
        elif depth and kind < 13:
            c = self.boolean()
            yes, no = self.block(depth - 1, loop), self.block(depth - 1, loop) if self.r.random() < .6 else ['Skip']
            self.say([{'If': c}] + (yes + no if self.r.random() < .8 else no + yes))
        elif depth and kind < 14:
            self.loop(depth - 1)
        elif depth and kind < 15:
            self.switch(depth - 1, loop)
        elif loop and self.r.random() < .5:
            self.say([{'If': self.boolean()}, {'Exit': self.r.randrange(2)}, 'Skip'])
        elif self.r.random() < .2:
            self.say([{'If': self.boolean()}] + self.inner(self.leave) + ['Skip'])

    def disturbed(self):
        """A value is read, what it was read from is changed, then the value is used."""
        p, t = self.r.choice(self.vars)
        leaves = {str(T): [field(2)], str(S): [field(0)], str(B): [field(2)], str(P): [field(0)]}
        number = at(p, *leaves.get(str(t), [])) if t == U64 or str(t) in leaves else None
        index = None
        if number and self.r.random() < .5:
            u, value = U64, {'Op2': ['Xor', copy(number), int_(self.r.randrange(99))]}
        elif self.in_memory(p) and t in (A, S, B) and self.r.random() < .7:
            index, bytes_ = self.new(U64), self.new(U64)
            self.assign(index, {'Opd': int_(self.r.randrange(4))})
            self.assign(bytes_, {'Op2': [{'Mul': 'Unsigned'}, copy(index), int_(8)]})
            start = self.made('Ptr', {'AddrOf': at(p, *{str(A): [], str(S): [field(2)], str(B): [field(1)]}[str(t)])})
            u, value = U64, {'Opd': copy(at(self.made('Ptr', {'Op2': ['Offset', start, copy(bytes_)]})['Copy'], {'Deref': U64}))}
        else:
            u, value = t, {'Opd': copy(p)}
        kept = self.new(u)
        self.assign(kept, value)
        lending = [n for n, (ps, _) in self.known.items() if any(x == ref(t) or t == A and x == slice_of('Mut') for x in ps)]
        if index and self.r.random() < .4:
            self.assign(index, {'Opd': int_(self.r.randrange(4))})
        elif lending and self.in_memory(p) and self.r.random() < .7:
            self.call(self.r.choice(lending), None, p)
        elif number and self.r.random() < .6:
            self.assign(number, {'Opd': int_(self.r.randrange(2 ** 64))})
        else:
            self.assign(p, self.aggregate(t, 0) if t != U64 else {'Opd': int_(5)})
        self.assign(self.choose(u, True) or p, {'Opd': copy(kept)})

    def inner(self, write):
        kept, self.out = self.out, []
        pool, self.pool = self.pool, {}     # what a branch writes first is not there behind it
        write()
        made, self.out, self.pool = seq(self.out), kept, pool
        return made

    def block(self, depth, loop):
        return self.inner(lambda: [self.statement(depth, loop) for _ in range(self.r.randrange(1, 4))])

    def loop(self, depth):
        i = self.new(U64)
        self.assign(i, {'Opd': int_(0)})

        def body():
            c = self.op('Lt', copy(i), int_(self.r.randrange(1, 4)), 'Bool')
            if self.r.random() < .3:        # a second test
                second = self.inner(lambda: self.say([{'If': self.boolean()}, 'Skip', {'Exit': 1}]))
                self.say([{'If': c}] + second + [{'Exit': 1}])
            else:
                self.say([{'If': c}, 'Skip', {'Exit': 1}])
            self.assign(i, {'Op2': [{'Add': 'Unsigned'}, copy(i), int_(1)]})
            for _ in range(self.r.randrange(1, 4)):
                self.statement(depth, True)
        self.say(['Block', 'Loop'] + self.inner(body))

    def switch(self, depth, loop):
        place = self.choose(E)
        if place and self.r.random() < .7:
            keys, arms = list(range(len(VARIANTS))), []
            self.r.shuffle(keys)
            cut = self.r.randrange(1, len(keys))
            groups = [[k] for k in keys[:cut]] + [keys[cut:]]

            def arm(k):
                for n in range(len(VARIANTS[k])):
                    if VARIANTS[k][n] in VALUES and self.choose(VARIANTS[k][n], True):
                        self.assign(self.choose(VARIANTS[k][n], True), {'Opd': copy(at(place, {'Variant': k}, field(1 + n)))})
                        return      # the place may be written now: its variant is no longer known
            for g in groups:
                arms.append(self.inner(lambda: arm(g[0])) if len(g) == 1 else self.block(depth, loop))
            self.say([{'Switch': [copy(at(place, {'Variant': 0}, field(0))), groups, False]}] + [t for a in arms for t in a])
            return
        x = self.op('Rem', self.number(1), int_(5))
        groups = [[0], [3, 1]]
        self.say([{'Switch': [x, groups, True]}] + [t for _ in range(3) for t in self.block(depth, loop)])

    def leave(self):
        t = self.result
        if self.r.random() < .5 and t in (B, S, T, E, P):
            self.assign({'local': 0, 'steps': []}, self.aggregate(t, 1))
        else:
            self.assign({'local': 0, 'steps': []}, {'Opd': self.value(t)})
        self.say('Return')

    def function(self):
        for t in self.r.sample(VALUES, self.r.randrange(2, 6)) + [U64]:
            p = self.new(t, self.r.random() < .5)
            self.assign(p, {'Opd': self.value(t, 0)} if t == U64 else self.aggregate(t, 1))
            self.vars.append((p, t))
        for _ in range(self.r.randrange(2, 7)):
            self.statement(2, False)
        self.leave()
        return self.mir()

    def mir(self):
        return {'lifetimes': 0, 'outlives': [], 'params': len(self.params), 'generics': NOT_GENERIC, 'types': SHAPES, 'locals': self.locals, 'body': seq(self.out)}

    # ---- a number of all that a program made
    def mix(self, h, p, t):
        if t == E:
            arms = [self.inner(lambda k=k: [self.mix(h, at(p, {'Variant': k}, field(1 + n)), u) for n, u in enumerate(VARIANTS[k])]) for k in range(len(VARIANTS))]
            self.say([{'Switch': [copy(at(p, {'Variant': 0}, field(0))), [[k] for k in range(len(VARIANTS))], False]}] + [x for a in arms for x in a])
            return
        if t == A:
            m = self.new(A, True)
            self.assign(m, {'Opd': copy(p)})
            for k in range(4):
                q = self.made('Ptr', {'Op2': ['Offset', self.made('Ptr', {'AddrOf': m}), int_(8 * k)]})
                self.mix(h, at(q['Copy'], {'Deref': U64}), U64)
            return
        if 'Named' in t:
            for k, u in enumerate(FIELDS[t['Named'][0]['name']]):
                self.mix(h, at(p, field(k)), u)
            return
        x = copy(p) if t == U64 else self.made(U64, {'Op1': [{'Cast': ['Unsigned', 'Unsigned', 64]}, copy(p)]})
        low = self.op('Mul', self.op('And', copy(h), int_(2 ** 58 - 1), sign=False), int_(31))
        self.assign(h, {'Op2': ['Xor', low, x]})


def program(r, name):
    """{function: MIR}: some functions, and an entry of two numbers that calls them all."""
    functions, known = {}, {}
    for k in range(r.randrange(2, 5)):
        params = [r.choice([U64, T, P, S, B, E, A, ref(S), ref(A), ref(B), ref(T, 'Imm'), slice_of('Mut'), slice_of('Imm')]) for _ in range(r.randrange(1, 4))]
        result = r.choice(VALUES)
        functions['%s::f%d' % (name, k)] = Maker(r, dict(known), params, result).function()
        known['%s::f%d' % (name, k)] = (params, result)
    m = Maker(r, known, [U64, U64], U64)
    for t in VALUES:
        p = m.new(t, r.random() < .6)
        m.assign(p, {'Opd': m.number(0)} if t == U64 else m.aggregate(t, 1))
        m.vars.append((p, t))
    h = m.new(U64)
    m.assign(h, {'Opd': int_(17)})
    for callee, (_, result) in known.items():
        p = m.call(callee, m.new(result))
        m.mix(h, p, result)
    for p, t in m.vars:
        m.mix(h, p, t)
    m.assign({'local': 0, 'steps': []}, {'Opd': copy(h)})
    m.say('Return')
    functions[name + '::entry'] = m.mir()
    return functions


def interpreted(functions, name, given):
    machine = Machine(functions)
    return [int.from_bytes(machine.call(name + '::entry', [machine.whole(x.to_bytes(8, 'little')) for x in pair])[0], 'little') for pair in given]


GIVEN = [(0, 0), (1, 2), (2 ** 64 - 1, 5), (123456789012345, 2 ** 63)]


# MIR that no compiler made has values that nothing uses, tests that are always true, and loops that end at once; all else that gcc or clang would say is an error.
WARNINGS = '-std=c99 -Wall -Wextra -Wpedantic -Wconversion -Werror -Wno-unused -Wno-tautological-compare -Wno-bool-compare -Wno-type-limits -Wno-unknown-warning-option'.split()


def libraries(text):
    """The C as a library: by gcc, and by clang where it is there, each without and with optimization. (how it was built, library)"""
    for cc in ['gcc'] + (['clang'] if shutil.which('clang') else []):
        for level in ('-O0', '-O2'):
            with tempfile.TemporaryDirectory() as folder:
                path = pathlib.Path(folder) / 'made'
                path.with_suffix('.c').write_text(text)
                subprocess.run([cc, level] + WARNINGS + ['-fPIC', '-shared', str(path.with_suffix('.c')), '-o', str(path.with_suffix('.so'))], check=True)
                yield '%s %s' % (cc, level), ctypes.CDLL(str(path.with_suffix('.so')))


def main():
    count, seed = (list(map(int, sys.argv[1:])) + [200, 1][len(sys.argv) - 1:])[:2]
    sys.setrecursionlimit(20000)
    wanted, functions, refused = {}, {}, {}
    for k in range(count):
        name = 'r%d' % k
        made = program(random.Random(seed * 1000003 + k), name)
        wanted[name] = interpreted(made, name, GIVEN)
        for plain in (False, True):
            try:
                Program(made, {name + '::entry': 'entry'}, plain=plain).write([], None)
            except Refused as e:
                refused.setdefault(str(e).split(': ', 1)[-1], []).append(name)
        if not any(name in names for names in refused.values()):
            functions.update(made)
    names = [n for n in wanted if n + '::entry' in functions]
    for plain in (False, True):
        for built, library in libraries(Program(functions, {n + '::entry': n + '_entry' for n in names}, plain=plain).write([], None)):
            for n in names:
                call = getattr(library, n + '_entry')
                call.restype = ctypes.c_uint64
                got = [call(ctypes.c_uint64(a), ctypes.c_uint64(b)) for a, b in GIVEN]
                if got != wanted[n]:
                    sys.exit('random: program %s of seed %d: the %s C by %s gives %s, the interpreter %s' % (n, seed, 'plain' if plain else 'usual', built, got, wanted[n]))
    if len(names) < count / 2:
        sys.exit('random: only %d of %d programs were translated: %s' % (len(names), count, {k: len(v) for k, v in refused.items()}))
    print('random: %d programs of %d functions do the same interpreted, as usual C and as plain C; refused %s' % (len(names), len(functions), {k: len(v) for k, v in refused.items()} or 'none'))


if __name__ == '__main__':
    main()

"""Reading the MIR: `toolchain/mir.json` of a proved crate, as a tree of tuples. logic/Mir/Syntax.antt of the toolchain defines each construct.

Types        'unit', 'bool', 'ptr', ('int', width), ('float', 64), ('array', T, n), ('ref', writes, T), ('slice', writes, T), ('named', name)
Expressions  ('int', width, n), ('bool', 0 or 1), ('float', bits), ('unit',), ('load', place), ('op2', name, a, b, T), ('op1', name, a, T),
             ('addr', place, T), ('offset', pointer, bytes, T), ('agg', (e, ..), T), ('repeat', e, n, T), ('call', function, (e, ..), T),
             ('constant', value, T): the address of a value that nothing writes, of numbers, bools and ('agg', ..)
Places       ('var', local), ('field', place, k), ('variant', place, k), ('deref', e, T), ('index', pointer or array, e, T)
Statements   ('assign', place, e), ('call', ('call', ..), place or None), ('return',), ('loop', body), ('exit', n), ('if', e, yes, no),
             ('switch', e, ((keys, body), ..), default or None), ('block', n, body), ('leave', n), ('unreachable',); a body is a list of them

T is the type of the whole. 'index' does not come from the MIR: addresses.py makes it. An expression has parts that are no plain operand, and a
call stands in an expression, only where inline.py put it there.
"""
import json

from refused import Refused, need

U64 = ('int', 64)


def is_reference(t):
    return t == 'ptr' or t[0] in ('ref', 'slice')


def read_type(t):
    if t in ('Unit', 'Bool', 'Ptr'):
        return t.lower()
    need(isinstance(t, dict) and len(t) == 1, 'type %s', json.dumps(t))
    (kind, v), = t.items()
    if kind == 'Int' and v in (8, 16, 32, 64):
        return ('int', v)
    if kind == 'Float' and v == 64:
        return ('float', v)
    if kind == 'Array':
        need('Lit' in v[1] and read_type(v[0]) != 'ptr', 'type %s', json.dumps(t))
        return ('array', read_type(v[0]), v[1]['Lit'])
    if kind == 'Ref':
        need(v[1] in ('Mut', 'Imm') and read_type(v[2]) != 'ptr', 'type %s', json.dumps(t))
        return ('ref', v[1] == 'Mut', read_type(v[2]))
    if kind == 'Named' and not v[1]:
        return ('named', v[0]['name'])
    if kind == 'Struct' and v[0] == '&[]':
        pointer, length = map(read_type, v[1])
        if pointer[0] == 'ref' and length == U64:
            return ('slice', pointer[1], pointer[2])
    raise Refused('type %s' % json.dumps(t))


# Which sign each operator may have; None where it has none. All else is refused.
OP2 = {'Add': 'Unsigned', 'Sub': 'Unsigned', 'Mul': 'Unsigned', 'Div': 'Unsigned', 'Rem': 'Unsigned', 'Shr': 'Unsigned', 'Lt': 'Unsigned',
       'Le': 'Unsigned', 'Eq': None, 'Ne': None, 'And': None, 'Or': None, 'Xor': None, 'Shl': None, 'WrapAdd': None, 'WrapSub': None,
       'WrapMul': None, 'FloatAdd': None, 'FloatSub': None}


def called(call):
    """The function that a call names, which takes no types and no dictionaries."""
    (kind, v), = call[0].items()
    need(kind == 'Fn', 'a call of %s', kind)
    need(not v[1]['types'] and not v[1]['dicts'], '%s: a call at types', v[0])
    return v[0]


class Function:
    """One function: its locals (0 is the result, then the parameters, then the rest), which of them lie in memory, and its body."""

    def __init__(self, name, mir, shapes):
        self.name, self.params, self.shapes = name, mir['params'], shapes
        need(not mir['generics']['types'] and not mir['generics']['bounds'], '%s is generic', name)
        self.types = [read_type(l['ty']) for l in mir['locals']]
        self.memory = [l['home'] == 'MemorySlot' for l in mir['locals']]
        tokens, self.left, self.labels = mir['body'][::-1], set(), 0
        self.body = self.read_body(tokens, [])
        need(not tokens, '%s: more than a body', name)
        need(not any(self.memory[:self.params + 1]), '%s: its result or a parameter lies in memory', name)
        need('ptr' not in [t for t, memory in zip(self.types, self.memory) if memory], '%s: a raw pointer lies in memory', name)

    def refers(self, t, steps):
        """Whether so many references may be followed from a value of this type, one behind the other."""
        inner = t[1:2] if t[0] == 'array' else t[2:] if t[0] in ('ref', 'slice') else ()
        if t[0] == 'named':
            kind, parts = self.shapes[t[1]]
            inner = parts if kind == 'Fields' else [x for ts in parts for x in ts]
        rest = steps - (t == 'ptr' or t[0] in ('ref', 'slice'))
        return rest == 0 or any(self.refers(x, rest) for x in inner)

    def outlives(self):
        """Whether something may have an address longer than the call: the result, or what a parameter refers to."""
        return self.refers(self.types[0], 1) or any(self.refers(t, 2) for t in self.types[1:self.params + 1])

    # ---- types of places and expressions
    def type_of(self, x):
        if x[0] == 'var':
            return self.types[x[1]]
        if x[0] == 'field':
            if x[1][0] == 'variant':
                return ([('int', 8)] + self.shapes[self.type_of(x[1][1])[1]][1][x[1][2]])[x[2]]
            t = self.type_of(x[1])
            if t[0] == 'slice':
                return (('ref', t[1], t[2]), U64)[x[2]]
            need(t[0] == 'named' and self.shapes[t[1]][0] == 'Fields', '%s: a field of %s', self.name, t)
            return self.shapes[t[1]][1][x[2]]
        if x[0] == 'load':
            return self.type_of(x[1])
        if x[0] == 'int':
            return ('int', x[1])
        need(x[0] != 'variant', '%s: a variant as a whole', self.name)
        return {'bool': 'bool', 'float': ('float', 64), 'unit': 'unit'}.get(x[0]) or x[-1]

    # ---- reading
    def lent_constant(self, p, t, c):
        """A reference to a constant in memory of its own. An array of no elements, as b"" has, is a local in memory here, of which nothing can be read, unless
        something may have its address longer than the call: the result, or what a parameter refers to."""
        place, of = self.read_place(p), read_type(t)
        if of[0] != 'array' or of[2] or self.outlives():
            return [('assign', place, ('constant', read_constant(c, of, self.shapes), self.type_of(place)))]
        self.types.append(of)
        self.memory.append(True)
        made = ('var', len(self.types) - 1)
        return [('assign', made, ('agg', (), of)), ('assign', place, ('addr', made, self.type_of(place)))]

    def read_place(self, p):
        place = ('var', p['local'])
        for step in p['steps']:
            (kind, v), = step.items()
            need(kind in ('Deref', 'Field', 'Variant'), 'step %s', kind)
            place = ('deref', ('load', place), read_type(v)) if kind == 'Deref' else (kind.lower(), place, v)
        return place

    def read_operand(self, o):
        if isinstance(o, str):
            need(o in ('True', 'False', 'Unit'), 'operand %s', o)
            return ('unit',) if o == 'Unit' else ('bool', int(o == 'True'))
        (kind, v), = o.items()
        if kind == 'Copy':
            return ('load', self.read_place(v))
        if kind == 'Int' and v['width'] in (8, 16, 32, 64) and 0 <= v['value'] < 1 << v['width']:
            return ('int', v['width'], v['value'])
        if kind == 'Float' and v['width'] == 64 and v['bits'] >> 52 & 2047 != 2047:     # finite
            return ('float', v['bits'])
        raise Refused('operand %s' % json.dumps(o))

    def read_rvalue(self, rv, t):
        """t is the type of the place that it is written to."""
        (kind, v), = rv.items()
        need(kind in ('Opd', 'AddrOf', 'Aggregate', 'Repeat', 'Op1', 'Op2'), 'rvalue %s', kind)
        if kind == 'Opd':
            return self.read_operand(v)
        if kind == 'AddrOf':
            place = self.read_place(v)
            need(root(place) is None or self.memory[root(place)], '%s: the address of a local that does not lie in memory', self.name)
            of = self.type_of(place) if place[0] == 'var' else 'unit'
            if of[0] == 'array' and of[2] == 0 and self.outlives():      # `&[]`, which Rust lets outlive the call
                need(t == ('ref', False, of), '%s: an array without elements is lent to write to, and may outlive the call', self.name)
                return ('constant', ('agg', (), of), t)
            return ('addr', place, t)
        if kind == 'Aggregate':
            return ('agg', tuple(map(self.read_operand, v)), t)
        if kind == 'Repeat':
            need(t[0] == 'array' and {'Lit': t[2]} == v[1], 'repeat of another length')
            return ('repeat', self.read_operand(v[0]), t[2], t)
        name, sign = (v[0], None) if isinstance(v[0], str) else next(iter(v[0].items()))
        if kind == 'Op2':
            a, b = map(self.read_operand, v[1:])
            if name == 'Offset':
                return ('offset', a, b, t)
            need(name in OP2 and sign == OP2[name], 'operator %s', json.dumps(v[0]))
            if name == 'Le' and a[0] == 'int' and a[2] == 0:
                return ('bool', 1)      # of every unsigned number; compilers warn of 0 <= x
            return ('op2', name, a, b, t)
        a = self.read_operand(v[1])
        of = self.type_of(a)
        known = (name == 'Not' and of == 'bool' or name == 'LeadingZeros' and of == U64 or
                 name == 'Cast' and sign == ['Unsigned', 'Unsigned', t[1]] and (of == 'bool' or of[0] == 'int') or
                 name == 'IntToFloat' and sign == ['Unsigned', 64] and of[0] == 'int')
        need(known, 'operator %s of %s', json.dumps(v[0]), of)
        return ('op1', name, a, t)

    def read_body(self, tokens, levels):
        """The tokens stand in prefix order, the first of them last in the list. levels: the blocks and loops around; `exit k` leaves the k-th from the inside.
        `block (loop b)` is C's for (;;): of the innermost loop `exit 1` is break and `exit 0` continue. Any other exit is a goto to the end of a block: of one that the
        MIR has, or of one that is put round an outer loop, or round its body. A block that nothing leaves is what is in it. An exit in an inner `if` or `switch` passes
        through, as break does in C."""
        x = tokens.pop()
        if x == 'Seq':
            first = self.read_body(tokens, levels)
            return first + self.read_body(tokens, levels)
        if x == 'Skip':
            return []
        if x == 'Return':
            return [('return',)]
        if x == 'Unreachable':
            return [('unreachable',)]
        if x == 'Block' and tokens[-1] != 'Loop':
            return self.read_block(levels, 'end', lambda inner: self.read_body(tokens, inner))
        if x == 'Block':
            tokens.pop()
            return self.read_block(levels, 'after', lambda inner: self.read_loop(tokens, inner))
        if x == 'Loop':
            return self.read_loop(tokens, levels)
        need(not isinstance(x, str), 'statement %s', x)
        (kind, v), = x.items()
        if kind == 'Assign':
            place = self.read_place(v[0])
            return [('assign', place, self.read_rvalue(v[1], self.type_of(place)))]
        if kind == 'Call':
            place = self.read_place(v[2])
            return [('call', ('call', called(v), tuple(map(self.read_operand, v[1])), self.type_of(place)), place)]
        if kind == 'LendStatic':
            return self.lent_constant(*v)
        if kind == 'If':
            yes = self.read_body(tokens, levels)
            return [('if', self.read_operand(v), yes, self.read_body(tokens, levels))]
        if kind == 'Switch':
            need(v[1] and all(v[1]), 'a switch without keys')
            arms = tuple((keys, self.read_body(tokens, levels)) for keys in v[1])
            return [('switch', self.read_operand(v[0]), arms, self.read_body(tokens, levels) if v[2] else None)]
        need(kind == 'Exit' and v < len(levels), 'statement %s', json.dumps(x))
        loop = max([i for i, label in enumerate(levels) if label.startswith('next')], default=len(levels))
        at = len(levels) - 1 - v
        if at == loop or at == loop - 1 and levels[at].startswith('after'):
            return [('exit', loop - at)]
        self.left.add(levels[at])
        return [('leave', levels[at])]

    def read_block(self, levels, word, read):
        self.labels += 1
        label = '%s_%d' % (word, self.labels)
        body = read(levels + [label])
        return [('block', label, body)] if label in self.left else body

    def read_loop(self, tokens, levels):
        return [('loop', self.read_block(levels, 'next', lambda inner: self.read_body(tokens, inner)))]


def read_constant(c, t, shapes):
    """The value, of type t, of a constant in memory of its own: numbers and bools, and arrays, structs and enums of such."""
    (kind, v), = c.items() if isinstance(c, dict) else [(c, None)]
    if kind == 'Int' and t == ('int', v['width']) and 0 <= v['value'] < 1 << v['width']:
        return ('int', v['width'], v['value'])
    if kind == 'Bool' and t == 'bool':
        return ('bool', int(v))
    if t[0] == 'array' and kind in ('Ints', 'Parts', 'Repeat'):
        given = v if kind == 'Parts' else v[:1] * v[1] if kind == 'Repeat' else [{'Int': {'width': v['width'], 'value': x}} for x in v['values']]
        wanted = t[1:2] * t[2]
    else:
        need(t[0] == 'named' and kind == 'Parts', 'constant %s', json.dumps(c)[:200])
        (of, wanted), given = shapes[t[1]], v
        if of == 'Variants':
            need(given and 'Int' in given[0] and given[0]['Int']['value'] < len(wanted), 'constant %s', json.dumps(c)[:200])
            wanted = [('int', 8)] + wanted[given[0]['Int']['value']]
    need(len(given) == len(wanted), 'constant %s', json.dumps(c)[:200])
    return ('agg', tuple(read_constant(x, u, shapes) for x, u in zip(given, wanted)), t)


# ---- walking over a function
def bodies(s):
    """The bodies inside a statement."""
    if s[0] == 'if':
        return [s[2], s[3]]
    if s[0] == 'switch':
        return [body for _, body in s[2]] + ([s[3]] if s[3] is not None else [])
    return [s[1]] if s[0] == 'loop' else [s[2]] if s[0] == 'block' else []


def with_bodies(s, change):
    """The statement, with each body inside it changed."""
    if s[0] == 'if':
        return ('if', s[1], change(s[2]), change(s[3]))
    if s[0] == 'switch':
        return ('switch', s[1], tuple((keys, change(body)) for keys, body in s[2]), change(s[3]) if s[3] is not None else None)
    if s[0] == 'block':
        return ('block', s[1], change(s[2]))
    return ('loop', change(s[1])) if s[0] == 'loop' else s


def runs(body):
    """The body and each one inside it: a run is a list of statements, one behind the other."""
    yield body
    for s in body:
        for inner in bodies(s):
            yield from runs(inner)


def statements(body):
    for run in runs(body):
        yield from run


def target(s):
    """The place that a statement writes to, or None."""
    return s[1] if s[0] == 'assign' else s[2] if s[0] == 'call' else None


def root(place):
    """The local that a place is a part of, or None where it is reached through a pointer."""
    while place[0] in ('field', 'variant') or place[0] == 'index' and place[1][0] != 'load':
        place = place[1]
    return place[1] if place[0] == 'var' else None


def source(s):
    """The expression that a statement evaluates, or None."""
    return s[2] if s[0] == 'assign' else s[1] if s[0] in ('call', 'if', 'switch') else None


def rebuilt(x, change):
    """An expression, a place or a statement (not the bodies in it), its parts changed first, then itself."""
    made = tuple(rebuilt(y, change) if isinstance(y, tuple) else y for y in x)
    return change(made) if made and isinstance(made[0], str) else made


def parts(x):
    """x and every expression, place and type in it."""
    if x and isinstance(x[0], str):
        yield x
    for y in x:
        if isinstance(y, tuple):
            yield from parts(y)

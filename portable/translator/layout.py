"""The declared types: their shapes, their layout in the MIR's memory, their C names and declarations."""
import re

from mir import parts, read_type
from refused import Refused, need


def c_word(name):
    """Whether it is a name that C knows; the toolchain's own libraries have others."""
    return re.match(r'[A-Za-z_]\w*$', name, re.ASCII)


class Types:
    def __init__(self):
        self.shapes = {}    # name -> ('Fields', [T, ..]) or ('Variants', [[T, ..], ..])
        self.origins = {}   # name -> (the declared type that it is an instance of, its arguments); instantiate.py fills it
        self.c_names = {}   # name -> its name in C; names.py fills it
        self.names = {}     # name -> the fields' names, or [(variant's name, its fields' names), ..]; names.py fills it
        self.header = {}    # name -> the C type that the header declares for it; header.py fills it
        self.views = {}     # name -> {path of field numbers: the header's member}; header.py fills it

    def declare(self, row):
        """row: of a function's table of types."""
        name = row['name']
        need(not any(row[k] for k in ('type_params', 'const_params', 'owns', 'is_cell')), '%s is no plain type', name)
        (kind, v), = row['shape'].items()
        made = (kind, [read_type(t) for t in v] if kind == 'Fields' else [[read_type(t) for t in ts] for ts in v])
        need(self.shapes.setdefault(name, made) == made, 'two types are called %s', name)
        flat = made[1] if kind == 'Fields' else [t for ts in made[1] for t in ts]
        need('ptr' not in flat, '%s holds a raw pointer', name)
        need(all(x[1] in self.shapes and x[1] != name for t in flat if isinstance(t, tuple) for x in parts(t) if x[0] == 'named'), '%s holds itself', name)

    # ---- the MIR's layout (logic/Prog/Memory.antt). It is used for one thing alone: the size of an element, by which addresses.py turns a count
    # of bytes back into an index. No C layout has to be the MIR's.
    def layout(self, t):
        """(size, alignment)"""
        if t in ('bool', 'unit', 'ptr'):
            return {'bool': (1, 1), 'unit': (0, 1), 'ptr': (8, 8)}[t]
        if t[0] in ('int', 'float'):
            return t[1] // 8, t[1] // 8
        if t[0] == 'array':
            size, align = self.layout(t[1])
            return size * t[2], align
        if t[0] != 'named':
            return {'ref': (8, 8), 'slice': (16, 8)}[t[0]]
        kind, parts = self.shapes[t[1]]
        rows = [self.row(parts, 0)] if kind == 'Fields' else [self.row(ts, 1) for ts in parts]     # an enum's fields stand behind its tag
        end, most = max(r[0] for r in rows), max(r[1] for r in rows)
        return -(-end // most) * most, most

    def row(self, ts, end):
        most = 1
        for t in ts:
            size, align = self.layout(t)
            end, most = -(-end // align) * align + size, max(most, align)
        return end, most

    def size(self, t):
        return self.layout(t)[0]

    def size_of(self, t):
        """The size of a type as the MIR writes it."""
        return self.size(read_type(t))

    # ---- questions
    def fields(self, t):
        """The types of a struct's fields, or None."""
        return self.shapes[t[1]][1] if t[0] == 'named' and self.shapes[t[1]][0] == 'Fields' else None

    def parts(self, t):
        """The types of all that a value of a declared type may hold."""
        kind, parts = self.shapes[t[1]]
        return parts if kind == 'Fields' else [x for ts in parts for x in ts]

    def has_array(self, t):
        """Such a value cannot be written as one C expression of its parts: C has no array values."""
        return t[0] == 'array' or any(self.has_array(x) for x in self.fields(t) or [])

    def in_parts(self, f, e):
        """Whether it is a value that C writes part by part: what is made with an array."""
        return e[0] in ('agg', 'repeat') and (self.has_array(e[-1]) or e[0] == 'agg' and any(f.type_of(x)[0] == 'array' or self.in_parts(f, x) for x in e[1]))

    def empty(self, t):
        """A type of one value, of which C has nothing: it has no empty structs. What holds nothing, as a closure may, and a reference to it."""
        return t == 'unit' or t[0] == 'ref' and self.empty(t[2]) or t[0] == 'named' and self.shapes[t[1]][0] == 'Fields' and all(map(self.empty, self.fields(t)))

    def lends(self, t):
        """Whether a callee can write through a value of this type. Through a `&` nothing is written, not even by a `&mut` behind it (typed.py)."""
        if t[0] in ('ref', 'slice'):
            return t[1]
        return t == 'ptr' or t[0] == 'array' and self.lends(t[1]) or t[0] == 'named' and any(map(self.lends, self.parts(t)))

    # ---- C
    def c(self, t):
        if t in ('unit', 'bool'):
            return {'unit': 'void', 'bool': '_Bool'}[t]
        if t[0] == 'int':
            return 'uint%d_t' % t[1]            # usize is uint64_t on every platform
        if t[0] == 'float':
            return 'double'
        if t[0] == 'slice':
            inner = ('mut_' if t[2][1] else 'ref_') + self.c(t[2][2]) if t[2][0] == 'ref' else self.c(t[2])
            need(not inner.endswith('*') and not self.empty(t[2]), 'a slice of %s', t[2])
            return '%s_slice%s' % (inner.replace('uint', 'u').replace('_t', ''), '_mut' if t[1] else '')
        if t[0] == 'ref':                       # a reference to an array is a pointer to its first element
            inner = self.c(t[2][1] if t[2][0] == 'array' else t[2])
            return inner + ('*' if t[1] else 'const *') if inner.endswith('*') else ('' if t[1] else 'const ') + inner + ' *'
        if t[0] == 'named':
            return self.header.get(t[1]) or self.c_names[t[1]]
        raise Refused('no C type for %s' % (t,))

    def declared(self, t, name):
        if t[0] == 'array':
            need(t[1][0] != 'array', 'an array of arrays')
            if t[2] == 0:   # C has no array of no elements. These nothing reads or writes; with fewer, or not cleared, compilers warn that something might
                return '%s %s[8] = { 0 }' % (self.c(t[1]), name)
            return '%s %s[%d]' % (self.c(t[1]), name, t[2])
        c = self.c(t)
        return c + name if c.endswith('*') else c + ' ' + name

    def definition(self, name):
        """A struct is a struct. An enum is a tag and a union: a variant is read only where the tag names it."""
        kind, parts = self.shapes[name]
        c, out = self.c(('named', name)), ['/* %s */' % name]
        if kind == 'Fields':
            return out + ['typedef struct {'] + ['    %s;' % self.declared(t, n) for t, n in zip(parts, self.names[name]) if not self.empty(t)] + ['} %s;' % c, '']
        out += ['enum {'] + ['    %s_%s = %d,' % (c, v, k) for k, (v, _) in enumerate(self.names[name])]
        out[-1] = out[-1][:-1]
        out += ['};', 'typedef struct {', '    uint8_t tag;']
        rows = ['        struct { %s } %s;' % (' '.join(self.declared(t, n) + ';' for t, n in zip(ts, ns) if not self.empty(t)), v)
                for ts, (v, ns) in zip(parts, self.names[name]) if not all(map(self.empty, ts))]
        return out + (['    union {'] + rows + ['    } as;'] if rows else []) + ['} %s;' % c, '']

    def definitions(self, used, text):
        """The slices of numbers, then every other slice and every declared type that these types need and the header does not have, each behind those that it holds.
        An instance that the text does not name is left out."""
        order, simple = [], set()

        def visit(t):
            for inner in [t[1]] if t[0] == 'array' else t[2:] if t[0] in ('ref', 'slice') else self.parts(t) if t[0] == 'named' and not self.empty(t) else []:
                visit(inner)
            if t[0] == 'slice' and t[2][0] != 'named':
                simple.add(t)
            elif t[0] in ('slice', 'named') and t not in order and not self.empty(t):
                order.append(t)
        for t in used:
            visit(t)
        out = []
        for t in reversed(order):
            if (t[0] == 'slice' or self.origins[t[1]][1]) and not re.search(r'\b%s\b' % self.c(t), text):
                continue
            lines = [self.slice_definition(t), ''] if t[0] == 'slice' else [] if t[1] in self.header else self.definition(t[1])
            out, text = lines + out, text + '\n'.join(lines)
        return list(map(self.slice_definition, sorted(simple, key=self.c))) + [''] + out

    def slice_definition(self, t):
        return 'typedef struct { %s; uint64_t len; } %s;' % (self.declared(('ref', t[1], t[2]), 'ptr'), self.c(t))

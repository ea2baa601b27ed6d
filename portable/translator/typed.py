"""Types. The rules of this translator, and C's const and unions, stand on what the sources' type checker sees to; it is seen to here again, and refused where it fails:

- An assignment, an operand, a part and an argument have the type that their place asks for. Only a `&mut` may be given as a `&`.
- Nothing is written through a `&`. No `&mut` is taken of what is reached through one, and none is copied from there.
- The fields of a variant are read in the arm of its tag alone, before anything that could change the enum; they are written only with the whole.

This runs behind addresses.py: there are no raw pointers any more, and an expression is one operation over plain operands.
"""
from effects import reads, writes
from mir import U64, bodies, parts, source, target
from refused import need

BOOL, FLOAT = 'bool', ('float', 64)


def fits(of, t):
    return of == t or of[0] == t[0] == 'ref' and of[2] == t[2] and of[1]


class Typed:
    def __init__(self, f, types, functions):
        self.f, self.types, self.functions = f, types, functions

    def need(self, holds, what):
        need(holds, '%s: %s', self.f.name, what)

    # ---- statements
    def run(self, body, known):
        """known: the enums whose variant was seen, and which it is."""
        for s in body:
            for e in (source(s), target(s)):
                self.variants(e, known)
            if s[0] in ('assign', 'call'):
                self.written(s)
                changed = writes(self.f, self.types, s)
                known = {enum: k for enum, k in known.items() if not reads(self.f, ('load', enum)) & changed}
            if s[0] == 'if':
                self.need(self.f.type_of(s[1]) == BOOL, 'a test that is no bool')
            if s[0] == 'switch':
                self.switch(s, known)
            else:
                for inner in bodies(s):
                    self.run(inner, {} if s[0] == 'loop' else known)
            if bodies(s):
                known = {}

    def switch(self, s, known):
        self.need(self.f.type_of(s[1])[0] == 'int', 'a switch on what is no number')
        enum = s[1][1][1][1] if s[1][0] == 'load' and s[1][1][0] == 'field' and s[1][1][1][0] == 'variant' else None
        for keys, body in s[2]:
            self.run(body, known if enum is None or len(keys) != 1 else {**known, enum: keys[0]})
        if s[3] is not None:
            self.run(s[3], known)

    def variants(self, e, known):
        for x in parts(e) if e is not None else ():
            if x[0] == 'field' and x[1][0] == 'variant' and x[2] > 0:
                self.need(known.get(x[1][1]) == x[1][2], 'a field of a variant outside the arm of its tag')

    def written(self, s):
        place = target(s)
        self.need(not any(x[0] == 'variant' for x in parts(place)), 'a part of an enum is written')
        self.writable(place)
        self.expression(source(s))
        self.need(fits(self.f.type_of(source(s)), self.f.type_of(place)), 'a %s is assigned to a %s' % (self.f.type_of(source(s)), self.f.type_of(place)))
        self.copied(source(s), self.f.type_of(place))

    def copied(self, e, t):
        """As a t, that may write through what it holds, an operand may not come from behind a &."""
        if e[0] == 'load' and self.types.lends(t):
            self.writable(e[1])

    def writable(self, place):
        """Every reference on the way to it is a &mut."""
        while place[0] in ('field', 'variant') or place[0] == 'index' and place[1][0] != 'load':
            place = place[1]
        if place[0] != 'var':
            self.need(self.f.type_of(place[1])[1] is True, 'a write through a reference that is not &mut')
            self.writable(place[1][1])

    # ---- expressions
    def expression(self, e):
        of = self.f.type_of
        if e[0] == 'addr':
            self.need(e[2][0] == 'ref' and e[2][2] == of(e[1]), 'an address of %s as %s' % (of(e[1]), e[2]))
            if e[2][1]:
                self.writable(e[1])
        elif e[0] == 'call':
            callee = self.functions[e[1]]
            self.need(len(e[2]) == callee.params and all(map(fits, map(of, e[2]), callee.types[1:])), 'arguments that are not those of %s' % e[1])
            self.need(callee.types[0] == e[3], 'the result of %s as %s' % (e[1], e[3]))
            for x, t in zip(e[2], callee.types[1:]):
                self.copied(x, t)
        elif e[0] == 'op2':
            self.need(self.operator(e[1], of(e[2]), of(e[3]), e[4]), '%s of %s and %s' % (e[1], of(e[2]), of(e[3])))
        elif e[0] == 'op1':
            a, t = of(e[2]), e[3]
            self.need({'Not': a == t == BOOL, 'LeadingZeros': a == U64 and t == ('int', 32), 'Cast': (a == BOOL or a[0] == 'int') and t[0] == 'int',
                       'IntToFloat': a[0] == 'int' and t == FLOAT}[e[1]], '%s of %s' % (e[1], a))
        elif e[0] == 'agg':
            self.aggregate(e[1], e[2])
        elif e[0] == 'constant':
            self.need(e[2] == ('ref', False, of(e[1])), 'a constant as %s' % (e[2],))
            for x in parts(e[1]):
                if x[0] == 'agg':
                    self.aggregate(x[1], x[2])
        elif e[0] == 'repeat':
            self.need(e[3][0] == 'array' and e[3][2] == e[2] and fits(of(e[1]), e[3][1]), 'a repeat as %s' % (e[3],))
            self.copied(e[1], e[3][1])

    @staticmethod
    def operator(name, a, b, t):
        if name.startswith('Float'):
            return a == b == t == FLOAT
        number, same = a[0] == 'int', a == b
        if name in ('Lt', 'Le'):
            return number and same and t == BOOL
        if name in ('Eq', 'Ne'):
            return (number or a == BOOL) and same and t == BOOL
        return (number or a == BOOL and name in ('And', 'Or', 'Xor')) and same and t == a

    def aggregate(self, given, t):
        of = [self.f.type_of(x) for x in given]
        if t[0] == 'slice':         # a reference to its first element, or to an array
            if given and given[0][0] == 'addr':
                self.expression(given[0])
            self.need(len(of) == 2 and of[0][0] == 'ref' and (of[0][1] or not t[1]) and t[2] in (of[0][2], of[0][2][1]) and of[1] == U64, 'a slice of %s' % of)
            self.copied(given[0], ('ref',) + t[1:])
            return
        if t[0] == 'array':
            wanted = [t[1]] * t[2]
        else:
            self.need(t[0] == 'named', 'parts as %s' % (t,))
            kind, wanted = self.types.shapes[t[1]]
            if kind == 'Variants':
                self.need(given and given[0][0] == 'int' and given[0][1] == 8 and given[0][2] < len(wanted), 'a tag that is no variant of %s' % t[1])
                wanted = [('int', 8)] + wanted[given[0][2]]
        self.need(len(of) == len(wanted) and all(map(fits, of, wanted)), 'parts that are not those of %s' % (t,))
        for x, u in zip(given, wanted):
            self.copied(x, u)


def typed(f, types, functions):
    Typed(f, types, functions).run(f.body, {})

"""An address is written as the place that it names. This rule is not one to one, and the plain C has it too.

The MIR reaches an element by bytes: t = i * 24; p = &a; q = p + t; x = *q. Its sizes are those of x86-64, so C that kept them would be wrong where a
struct is laid out otherwise. Here `*q` becomes the place `a[i]`, and q and t need no variable.

Why it means the same. Within one run of statements, the raw pointers and the products by a literal that were assigned are remembered. One is forgotten as
soon as anything is written that its value was made from: a local, or, where a pointer was loaded from memory, memory. So a remembered definition still
has, where it is used, the value that the MIR's variable has. Then `base + i * size`, read as a T whose size in the MIR is `size`, is element i
of base, where base is an array of T or a pointer to T. That i is inside is proved of the MIR. At a branch or a loop everything is forgotten.

A raw pointer that is used after its definition was forgotten is kept: it has one assignment, of the address of a place. There a new variable gets that
address, as a reference to the place's type, and stands for the raw pointer wherever it is used. Any other such pointer is refused.
"""
from effects import reads, writes
from mir import U64, parts, rebuilt, source, statements, target, with_bodies
from refused import Refused, need


class Kept(Exception):
    """A raw pointer is used after its definition was forgotten."""


class Addresses:
    def __init__(self, f, types, kept):
        """kept: raw pointer -> the variable that stands for it."""
        self.f, self.types, self.kept = f, types, kept

    def run(self, body):
        known, out = {}, []     # local -> its definition: a raw pointer, or ('op2', 'Mul', i, literal)
        for s in body:
            if source(s) is not None:
                s = self.resolved(s, known)
            if s[0] in ('if', 'switch', 'loop', 'block'):
                known = {}
                out.append(with_bodies(s, self.run))
                continue
            place = target(s)
            if place is None:
                out.append(s)
                continue
            written = writes(self.f, self.types, s)
            known = {i: e for i, e in known.items() if i not in written and not reads(self.f, e) & written}
            raw = place[0] == 'var' and self.f.types[place[1]] == 'ptr'
            product = place[0] == 'var' and s[0] == 'assign' and s[2][:2] == ('op2', 'Mul') and s[2][3][0] == 'int' and s[2][4] == U64
            if (raw or product) and s[0] == 'assign':
                e = s[2]
                if e[0] == 'offset' and e[2][0] == 'load' and e[2][1][0] == 'var':      # by the product itself: the local that holds it may be used again
                    e = ('offset', e[1], known.get(e[2][1][1], e[2]), e[3])
                if place[1] in self.kept:
                    out.append(self.variable(self.kept[place[1]], e))
                elif place[1] not in reads(self.f, e):
                    known[place[1]] = e
            if not raw:
                out.append(s)
        return out

    def variable(self, i, e):
        """The assignment of the variable that stands for a raw pointer."""
        need(e[0] == 'addr', '%s: a pointer that is kept', self.f.name)
        self.f.types[i] = ('ref', self.writable(e[1]), self.f.type_of(e[1]))
        return ('assign', ('var', i), ('addr', e[1], self.f.types[i]))

    def writable(self, place):
        """Whether every reference on the way to a place is a &mut."""
        while place[0] in ('field', 'variant') or place[0] == 'index' and place[1][0] != 'load':
            place = place[1]
        return place[0] == 'var' or self.f.type_of(place[1])[1] is True and self.writable(place[1][1])

    def resolved(self, s, known):
        """The statement, with every raw pointer that it uses written as what it points to."""
        def change(x):
            if x[0] == 'load' and x[1][0] == 'var' and self.f.types[x[1][1]] == 'ptr':
                if x[1][1] in self.kept:
                    need(self.f.types[self.kept[x[1][1]]] != 'unit', '%s: a pointer that is used before it is made', self.f.name)
                    return ('load', ('var', self.kept[x[1][1]]))
                if x[1][1] not in known:
                    raise Kept(x[1][1])
                return known[x[1][1]]
            if x[0] == 'deref':
                return self.reached(x[1], x[2], known)
            if x[0] == 'agg' and x[2][0] == 'slice' and (x[1][0][0] == 'offset' or x[1][0][0] == 'addr' and x[1][0][1][0] == 'deref' and x[1][0][2] == 'ptr'):
                return ('agg', (('addr', self.reached(x[1][0], x[2][2], known), ('ref',) + x[2][1:]),) + x[1][1:], x[2])      # a part of a slice, or of an array
            return x
        done = rebuilt(s, change)
        raw = s[0] == 'assign' and self.f.type_of(s[1]) == 'ptr'
        need(raw or not any(x[0] == 'offset' for x in parts(done)), '%s: an address that is no place', self.f.name)
        return done

    def reached(self, e, t, known):
        """The place that a pointer reaches, as a T."""
        if e[0] == 'addr':
            need(self.f.type_of(e[1]) == t, '%s: an address read as %s', self.f.name, t)
            return e[1]
        if e[0] == 'load':
            pointed = self.f.type_of(e)[2]
            if pointed[:2] == ('array', t):     # an array behind a reference, as a slice: its first element
                return ('index', ('deref', e, pointed), ('int', 64, 0), t)
            need(self.f.type_of(e)[0] == 'ref' and self.f.type_of(e)[2] == t, '%s: a pointer read as %s', self.f.name, t)
            return ('deref', e, t)
        need(e[0] == 'offset', '%s: what is reached through %s', self.f.name, e[0])
        base, index = e[1], self.index(e[2], self.types.size(t), known)
        if base[0] == 'addr' and base[1][0] == 'deref' and base[1][2] == t:     # the address of what a pointer points to is the pointer
            base = base[1][1]
        if base[0] == 'addr' and self.f.type_of(base[1])[:2] == ('array', t):
            return ('index', base[1], index, t)
        if base[0] == 'load' and self.f.type_of(base)[0] == 'ref' and self.f.type_of(base)[2] == t:
            return ('index', base, index, t)
        raise Refused('%s: %s with a count of bytes' % (self.f.name, base[0]))

    def index(self, count, size, known):
        """A count of bytes as a count of elements of this size: it has to be their product by its form."""
        product = known.get(count[1][1], count) if count[0] == 'load' and count[1][0] == 'var' else count
        if product[:2] == ('op2', 'Mul') and product[3] == ('int', 64, size):
            return product[2]
        if size == 1:
            return count
        need(count[0] == 'int' and count[2] % size == 0, '%s: a count of bytes that is not a product by %d', self.f.name, size)
        return ('int', 64, count[2] // size)


def with_places(f, types):
    kept = {}
    while True:
        try:
            f.body = Addresses(f, types, kept).run(f.body)
            return
        except Kept as pointer:
            i = pointer.args[0]
            need(sum(target(s) == ('var', i) for s in statements(f.body)) == 1, '%s: a pointer that is kept, and that is assigned again', f.name)
            kept[i] = len(f.types)
            f.types.append('unit')      # its type is known at its assignment
            f.memory.append(False)

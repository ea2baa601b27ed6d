"""Plain translation, first half: places and expressions, one construct to one construct.

Integers are their bits in uint8_t .. uint64_t, and no arithmetic is signed. That a sum fits, a divisor is not 0, a shift is below the width and an index
is inside is proved of the MIR, so nothing here is undefined in C, and nothing wraps but a sum and a difference that the MIR says to wrap, as C's unsigned do.
"""
import re
import struct

from refused import need
from views import is_view, viewed

OPERATORS = {'Add': '+', 'Sub': '-', 'Mul': '*', 'Div': '/', 'Rem': '%', 'Shr': '>>', 'Shl': '<<', 'Lt': '<', 'Le': '<=', 'Eq': '==', 'Ne': '!=',
             'And': '&', 'Or': '|', 'Xor': '^', 'WrapAdd': '+', 'WrapSub': '-', 'WrapMul': '*', 'FloatAdd': '+', 'FloatSub': '-'}
OPPOSITE = {'<': '>=', '<=': '>', '==': '!=', '!=': '=='}


class Expressions:
    def __init__(self, program, f, names, pointed):
        """names: those of the locals. pointed: the parameters that are pointers to their value."""
        self.program, self.types, self.f, self.names, self.pointed = program, program.types, f, names, pointed
        self.used, self.constants = set(), []

    # ---- places
    def place(self, x):
        """The C lvalue."""
        if x[0] == 'var':
            self.used.add(x[1])
            name = self.names[x[1]]
            return '(*%s)' % name if x[1] in self.pointed and self.f.types[x[1]][0] != 'array' else name
        seen = viewed(self.f, self.types, x)
        if seen and seen[2] in self.types.views[seen[1]]:
            return '%s->%s' % (self.text(seen[0]), self.types.views[seen[1]][seen[2]])
        need(not is_view(self.f, self.types, x), 'a part of the header\'s struct as a place')
        if x[0] == 'field' and x[1][0] == 'variant':
            _, enum, k = x[1]
            variant, fields = self.types.names[self.f.type_of(enum)[1]][k]
            return self.dot(self.place(enum)) + ('tag' if x[2] == 0 else 'as.%s.%s' % (variant, fields[x[2] - 1]))
        if x[0] == 'field':
            t = self.f.type_of(x[1])
            return self.dot(self.place(x[1])) + (('ptr', 'len')[x[2]] if t[0] == 'slice' else self.types.names[t[1]][x[2]])
        if x[0] == 'index':
            return '%s[%s]' % (self.text(x[1]) if x[1][0] == 'load' else self.place(x[1]), self.text(x[2], True))
        need(x[0] == 'deref', 'place %s', x[0])
        need(x[2][0] != 'named' or x[2][1] not in self.types.views, 'the header\'s struct as a whole')
        return self.text(x[1]) if x[2][0] == 'array' else '(*%s)' % self.text(x[1])

    @staticmethod
    def dot(text):
        return text[2:-1] + '->' if re.match(r'\(\*\w+\)$', text) else text + '.'

    def address(self, place):
        if place[0] == 'deref':
            return self.text(place[1])      # the address of what a pointer points to is the pointer; so the header's struct is lent on whole
        text = self.place(place)
        if self.f.type_of(place)[0] == 'array':
            return text
        return text[2:-1] if re.match(r'\(\*[^()]*\)$', text) else '&' + text

    # ---- expressions
    def text(self, e, outer=False):
        """The C expression; in brackets where it needs them and is not the outermost."""
        kind = e[0]
        if kind == 'int':
            return '%du' % e[2]
        if kind == 'bool':
            return str(e[1])
        if kind == 'float':
            return self.float_text(e[1])
        if kind == 'load':
            if is_view(self.f, self.types, e[1]):
                pointer, name, path = viewed(self.f, self.types, e[1])
                return '%s(%s)' % (self.program.views.name('load', name, path, self.f.type_of(e[1])), self.text(pointer))
            return self.place(e[1])
        if kind == 'addr':
            return self.address(e[1])
        if kind == 'call':
            return self.call(e)
        if kind == 'constant':
            return self.constant(e)
        if kind == 'agg':
            return self.literal(e)
        if kind == 'op1':
            return self.op1(e)
        need(kind == 'op2', 'expression %s', kind)
        text = self.op2(e)
        return text if outer or re.match(r'\(uint(8|16)_t\)\([^()]*\)$', text) else '(%s)' % text

    @staticmethod
    def float_text(bits):
        x = struct.unpack('<d', bits.to_bytes(8, 'little'))[0]
        return '%d.0' % x if x == int(x) and abs(x) < 1 << 53 and (x or not bits) else x.hex()

    def constant(self, e):
        """The address of what is made before the program runs, and what nothing writes. C has no array of no elements."""
        name, t = 'constant%d' % len(self.constants), e[2][2]
        if t[0] == 'array' and t[2] == 0:
            t = t[:2] + (1,)
            value = '{ 0 }'
        else:
            value = self.initializer(e[1], t)
        self.constants.append('static const %s = %s;' % (self.types.declared(t, name), value))
        return name if t[0] == 'array' else '&' + name

    def initializer(self, e, t):
        """A value as C has it before the program runs."""
        if e[0] != 'agg':
            return self.text(e, True)
        given = [(x, self.initializer(x, self.f.type_of(x))) for x in e[1]]
        if t[0] == 'array':
            return '{ %s }' % ', '.join(text for _, text in given)
        kind, names = self.types.shapes[t[1]][0], self.types.names[t[1]]
        if kind == 'Fields':
            return '{ %s }' % ', '.join('.%s = %s' % (n, text) for n, (x, text) in zip(names, given) if not self.types.empty(self.f.type_of(x)))
        variant, fields = names[e[1][0][2]]
        inner = ', '.join('.%s = %s' % (n, text) for n, (x, text) in zip(fields, given[1:]) if not self.types.empty(self.f.type_of(x)))
        return '{ .tag = %s%s }' % (self.tag(t, e[1][0][2]), ', .as.%s = { %s }' % (variant, inner) if inner else '')

    def op1(self, e):
        _, name, a, t = e
        if name == 'Not':
            return '!' + self.text(a)
        if name == 'LeadingZeros':
            self.program.uses_leading_zeros = True
            return 'leading_zeros_64(%s)' % self.text(a, True)
        return '(%s)%s' % (self.types.c(t), self.text(a))       # Cast, IntToFloat

    def op2(self, e):
        _, name, a, b, t = e
        sign, left, right = OPERATORS[name], self.text(a), self.text(b)
        if sign in '+*&|' and a[:2] == e[:2] and a[4] == t and left[0] == '(' and left[-1] == ')' and t != ('int', 8) and t != ('int', 16):
            left = left[1:-1]           # a + b + c is (a + b) + c in C too
        if t == 'bool' or t[0] == 'float':
            if sign in '&|' and 'call' in (a[0], b[0]) and not left.startswith('(int)'):
                left = '(int)' + left   # clang would warn of & on two calls that give a _Bool
            return '%s %s %s' % (left, sign, right)
        # C does u8 and u16 as int, and takes a literal as unsigned int: one operand is made as wide as the result, and unsigned
        if a[0] == 'int' and (b[0] == 'int' or sign in ('<<', '>>')) or t[1] < 32:
            left = '(uint%d_t)%s' % (max(32, t[1]), left)
        return '%s %s %s' % (left, sign, right) if t[1] >= 32 else '(uint%d_t)(%s %s %s)' % (t[1], left, sign, right)

    def negated(self, e):
        if e[0] == 'op2' and OPERATORS[e[1]] in OPPOSITE and not e[1].startswith('Float'):
            return '%s %s %s' % (self.text(e[2]), OPPOSITE[OPERATORS[e[1]]], self.text(e[3]))
        return '!' + self.text(e)

    def literal(self, e):
        """A struct or an enum of these parts, as a compound literal: C evaluates it before it is assigned."""
        _, given, t = e
        c = self.types.c(t)
        if t[0] == 'slice':
            whole = given[1][1][1] if given[1][0] == 'load' and given[1][1][0] == 'field' else None
            if whole and self.f.type_of(whole) == t and given[1] == ('load', ('field', whole, 1)) and \
                    given[0] == ('addr', ('deref', ('load', ('field', whole, 0)), t[2]), ('ref',) + t[1:]):
                return self.place(whole)        # a slice that is lent on is itself
            return '(%s){ %s, %s }' % (c, self.text(given[0]), self.text(given[1], True))
        need(t[0] == 'named' and not self.types.has_array(t), 'a literal of %s', t)
        kind, parts = self.types.shapes[t[1]]
        if kind == 'Fields':
            return '(%s){ %s }' % (c, self.members(self.types.names[t[1]], given))
        k = given[0][2]
        variant, fields = self.types.names[t[1]][k]
        inner = self.members(fields, given[1:])
        return '(%s){ .tag = %s%s }' % (c, self.tag(t, k), ', .as.%s = { %s }' % (variant, inner) if inner else '')

    def tag(self, t, k):
        return '%s_%s' % (self.types.c(t), self.types.names[t[1]][k][0])

    def members(self, names, given):
        return ', '.join('.%s = %s' % (n, self.text(x, True)) for n, x in zip(names, given) if not self.types.empty(self.f.type_of(x)))

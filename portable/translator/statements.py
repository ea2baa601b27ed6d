"""Plain translation, second half: statements and functions, one construct to one construct."""
import re
import textwrap

from by_pointer import by_pointer, may_be_pointed_to, owned
from effects import address_reads, lends, may_be_one, of_place, reads
from expressions import Expressions
from mir import parts, root
from refused import need
from views import is_view, viewed

WIDTH = 132
HINTS = {'always': 'static COMPILED_IN ', 'never': 'static COMPILED_APART ', '': 'static inline '}


class Writer(Expressions):
    def __init__(self, program, f, names, comment, hint, exported):
        self.owned = owned(f, program.types, program.plain)
        pointed = {i for i in range(1, f.params + 1) if by_pointer(program.types, f.types[i], program.plain) and not exported} - self.owned
        super().__init__(program, f, names, pointed)
        self.comment, self.exported, self.lines, self.depth = comment, exported, [], 1
        self.hint = HINTS[hint]

    def emit(self, text):
        self.lines += textwrap.wrap(text, WIDTH, initial_indent='    ' * self.depth, subsequent_indent='    ' * (self.depth + 1),
                                    break_long_words=False, break_on_hyphens=False)

    # ---- calls
    def call(self, e, result=None):
        """result: where a callee puts an array that it returns."""
        _, name, given, _ = e
        callee = self.program.functions[name]
        need(name not in self.program.exports or not any(t[0] == 'slice' or by_pointer(self.types, t, self.program.plain) for t in callee.types[1:callee.params + 1]),
             '%s: a call from outside that is called from inside', name)
        lending = lends(self.f, self.types, e)
        texts = [self.argument(x, t, lending) for x, t in zip(given, callee.types[1:]) if not self.types.empty(t)]
        return '%s(%s)' % (self.program.c_name(name), ', '.join(([result] if result else []) + texts))

    def argument(self, e, t, lending):
        if not by_pointer(self.types, t, self.program.plain):
            return self.text(e, True)
        if e[0] == 'agg' and t[0] != 'array':
            return '&' + self.literal(e)
        if not may_be_pointed_to(self.f, e, lending):
            need(lending and e[0] == 'load', '%s: an argument by pointer that is %s', self.f.name, e[0])
            beside = self.beside(t)         # a call that is lent something to write to is a statement of its own: this stands before it
            self.assign(beside, e)
            return self.address(beside)
        return self.address(e[1])

    # ---- assignment
    def assign(self, place, e):
        """C has no array values: an array, and what is made with one, is written part by part."""
        t = self.f.type_of(place)
        if e == ('load', place):
            return
        if is_view(self.f, self.types, place):
            if e[0] == 'call':          # what a call gives stands in a variable of its own first
                beside = self.beside(t)
                self.assign(beside, e)
                e = ('load', beside)
            need(e[0] == 'load' and not is_view(self.f, self.types, e[1]), 'a part of the header\'s struct is written with %s', e[0])
            pointer, name, path = viewed(self.f, self.types, place)
            self.emit('%s(%s, %s);' % (self.program.views.name('store', name, path, t), self.text(pointer), self.address(e[1])))
            return
        if t[0] == 'array' or self.types.in_parts(self.f, e):
            self.assign_parts(place, t, e)
        else:
            self.emit('%s = %s;' % (self.place(place), self.text(e, True)))

    def assign_parts(self, place, t, e):
        """No part may read what an earlier part has written, nor may the place's address: such a value is made beside it first."""
        if e[0] == 'repeat' and (self.types.in_parts(self.f, e[1]) and not self.is_zero(e[1]) or any(x[0] == 'call' for x in parts(e[1]))):      # it is made once
            beside = self.beside(t[1])
            self.assign(beside, e[1])
            e = ('repeat', ('load', beside)) + e[2:]
        given = e[1] if e[0] == 'agg' else e[1:2] if e[0] == 'repeat' else (e,) if e[0] == 'call' else ()
        inside = place if t[0] != 'named' or self.types.fields(t) else ('variant', place, given[0][2])
        kept = [x == ('load', ('field', inside, k)) for k, x in enumerate(given)]
        moved = e[0] != 'load' and address_reads(self.f, place) & of_place(self.f, place)
        if moved or any(reads(self.f, x) & of_place(self.f, place) for x, same in zip(given, kept) if not same):
            beside = self.beside(t)
            self.assign(beside, e)
            self.assign(place, ('load', beside))
            return
        if t[0] != 'array':
            for k, (x, same) in enumerate(zip(given, kept)):
                if inside != place and k == 0:
                    self.emit('%s = %s;' % (self.place(('field', inside, 0)), self.tag(t, x[2])))
                elif not same and not self.types.empty(self.f.type_of(x)):
                    self.assign(('field', inside, k), x)
            return
        to, size = self.place(place), 'sizeof(%s[%d])' % (self.types.c(t[1]), t[2])
        if e[0] == 'load':
            need(not is_view(self.f, self.types, e[1]), 'an array of the header\'s struct')
            copy = 'memmove' if may_be_one(self.f, place, e[1]) else 'memcpy'       # memcpy must not copy a thing onto itself
            self.emit('%s(%s, %s, %s);' % (copy, to, self.place(e[1]), size))
        elif e[0] == 'repeat' and self.is_zero(e[1]):
            self.emit('memset(%s, 0, %s);' % (to, size))
        elif e[0] == 'repeat':
            self.emit('for (size_t each = 0; each < %d; each++)' % t[2])
            self.emit('    %s[each] = %s;' % (to, self.text(e[1], True)))
        elif e[0] == 'agg':
            for k, x in enumerate(given):
                if self.types.in_parts(self.f, x):
                    self.assign(('index', place, ('int', 64, k), t[1]), x)
                else:
                    self.emit('%s[%d] = %s;' % (to, k, self.text(x, True)))
        else:
            need(e[0] == 'call', 'an array from %s', e[0])
            self.emit(self.call(e, to) + ';')

    def beside(self, t):
        """A new variable."""
        self.f.types.append(t)
        self.f.memory.append(False)
        name = 'beside%d' % len(self.names)
        while name in self.names:
            name += '_'
        self.names.append(name)
        return ('var', len(self.names) - 1)

    def is_zero(self, e):
        """Whether the value is all zero bytes in C as well: padding does not matter, and 0.0 is no such value here."""
        return e[0] == 'int' and e[2] == 0 or e == ('bool', 0) or e[0] == 'agg' and all(map(self.is_zero, e[1]))

    # ---- control
    def body(self, body):
        for s in body:
            getattr(self, s[0] + '_statement')(s)

    def assign_statement(self, s):
        self.assign(s[1], s[2])

    def call_statement(self, s):
        if s[2] is None:
            self.emit(self.call(s[1]) + ';')
        else:
            # C may take the place's address before the call or behind it: so it must not be made from anything that the call can change
            need(root(s[2]) is not None and not address_reads(self.f, s[2]), '%s: a call into memory', self.f.name)
            self.assign(s[2], s[1])

    def exit_statement(self, s):
        self.emit('break;' if s[1] else 'continue;')

    def leave_statement(self, s):
        self.emit('goto %s;' % s[1])

    def block_statement(self, s):
        self.body(s[2])
        self.lines.append('%s%s: ;' % ('    ' * (self.depth - 1), s[1]))

    def return_statement(self, s):
        t = self.f.types[0]
        if self.types.empty(t) or t[0] == 'array':
            self.emit('return;')
        else:
            self.emit('return %s;' % (self.text(s[1], True) if len(s) > 1 else self.place(('var', 0))))

    def inner(self, body):
        self.depth += 1
        self.body(body)
        self.depth -= 1

    def if_statement(self, s):
        """Where the first branch is empty, the condition is negated."""
        _, e, yes, no = s
        self.emit('if (%s) {' % (self.text(e, True) if yes or not no else self.negated(e)))
        self.inner(yes or no)
        if yes and no:
            self.emit('} else {')
            self.inner(no)
        self.emit('}')

    def switch_statement(self, s):
        """The first arm that has the number. With no default every number has an arm (the machine would be stuck otherwise), so the last needs no test;
        of a tag it is seen here that every variant has one."""
        _, e, arms, default = s
        need(e[0] == 'load', 'a switch on %s', e[0])
        tag = e[1][0] == 'field' and e[1][1][0] == 'variant'
        enum = self.f.type_of(e[1][1][1]) if tag else None
        need(default is not None or tag and sorted(k for keys, _ in arms for k in keys) == list(range(len(self.types.names[enum[1]]))),
             '%s: a switch that lacks a number', self.f.name)

        def key(k):
            return self.tag(enum, k) if tag else '%du' % k
        subject = self.place(e[1])
        every = list(arms) + ([(None, default)] if default is not None else [])
        for n, (keys, body) in enumerate(every):
            last = n + 1 == len(every) and n > 0
            test = ' || '.join('%s == %s' % (subject, key(k)) for k in keys or ())
            comment = ' /* %s */' % ', '.join(map(key, keys)) if last and keys else ''
            self.emit(('} else ' if n else '') + ('{' + comment if last else 'if (%s) {' % test))
            self.inner(body)
        self.emit('}')

    def loop_statement(self, s):
        """A loop whose body begins with its test is a while: `if (test) {} else break;`, or the same with a second test in the first's branch."""
        test = self.test(s[1][:1])
        self.emit('while (%s) {' % test if test else 'for (;;) {')
        self.inner(s[1][1:] if test else s[1])
        self.emit('}')

    def test(self, body):
        if len(body) != 1 or body[0][0] != 'if' or body[0][3] != [('exit', 1)]:
            return None
        first = self.text(body[0][1], True)
        if not body[0][2]:
            return first
        second = self.test(body[0][2])
        return '%s && %s' % (self.text(body[0][1]), second if '&&' in second else self.text(body[0][2][0][1])) if second else None

    # ---- the whole function
    def given(self):
        """The parameters that C has."""
        return [i for i in range(1, self.f.params + 1) if not self.types.empty(self.f.types[i])]

    def parameters(self):
        rows, entry = [], []
        need(not self.exported or not any(t[0] == 'array' for t in self.f.types[:self.f.params + 1]), '%s: an array by value at a call from outside', self.f.name)
        for i in self.given():
            t, name = self.f.types[i], self.names[i]
            if self.exported and t[0] == 'slice':
                rows += [self.types.declared(('ref', t[1], t[2]), name + '_ptr'), 'size_t %s_len' % name]
                entry.append('%s %s = { %s_ptr, %s_len };' % (self.types.c(t), name, name, name))
            elif i in self.pointed or i in self.owned and not self.exported:
                incoming = name + '_in' if i in self.owned else name
                rows.append(self.types.declared(('ref', False, t), incoming))
                if i in self.owned:
                    entry.append('%s;' % self.types.declared(t, name))
                    entry.append('memcpy(%s, %s, sizeof %s);' % (name, incoming, name) if t[0] == 'array' else '%s = *%s;' % (name, incoming))
            else:
                rows.append(self.types.declared(t, name))
        made = {re.search(r'\w+$', row).group() for row in rows} - {self.names[i] for i in self.given()}
        need(not made & set(self.names), '%s: two variables have one name', self.f.name)
        return rows, entry

    def write(self):
        f, t = self.f, self.f.types[0]
        self.body(f.body)
        while self.lines and self.lines[-1] == '    return;':
            self.lines.pop()
        rows, entry = self.parameters()
        if t[0] == 'array':
            rows.insert(0, '%s *result' % self.types.c(t[1]))
        text = '\n'.join(self.lines + entry)
        unused = [self.names[i] for i in self.given() if not re.search(r'\b%s\b' % self.names[i], text)]
        variables = [i for i in sorted(self.used) if i > f.params or i == 0 and t[0] != 'array']
        head = '%s%s(%s)' % ('' if self.exported else self.hint, self.types.declared('unit' if t[0] == 'array' or self.types.empty(t) else t, self.program.c_name(f.name)), ', '.join(rows) or 'void')
        comment = textwrap.wrap('/* %s%s */' % (f.name, ': ' + self.comment if self.comment else ''), WIDTH, subsequent_indent='   ', break_long_words=False, break_on_hyphens=False)
        head = textwrap.wrap(head, WIDTH, subsequent_indent='    ', break_long_words=False)
        constants = [line for x in self.constants for line in textwrap.wrap(x, WIDTH, initial_indent='    ', subsequent_indent='        ', break_long_words=False)]
        return comment + head + ['{'] + constants + ['    ' + x for x in entry] + ['    %s;' % self.types.declared(f.types[i], self.names[i]) for i in variables] + \
            ['    (void)%s;' % n for n in unused] + self.lines + ['}', '']

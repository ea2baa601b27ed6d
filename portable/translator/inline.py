"""An expression is written where it is read. Not one to one; left out by --plain.

    t = a + b; u = t * c; x = u                   x = (a + b) * c

Why it means the same. Only such locals are taken (`read_once`): no parameter, not in memory, and each read stands behind a write in the same run of
statements, with no other read and no branch between. The expression is kept pending from the write to the read. What it reads may change in between,
so it is evaluated at once, into its variable, before any statement that writes something it reads (`settle`). So it has the same value at the later
place. It has no effect: the MIR's right-hand sides have none, and a call is kept pending only if it is lent nothing to write to. So C's open order
of evaluation within one expression does not matter either. A call counts as reading all of memory. (One that gives an array is a statement in C.)
"""
from by_pointer import may_stand_in_call
from effects import lends, reads, uses, writes
from mir import bodies, parts, rebuilt, source, statements, target, with_bodies


def read_once(f):
    ok = [i == 0 or i > f.params and not f.memory[i] for i in range(len(f.types))]

    def walk(body):
        fresh = set()       # written, and not yet read
        for s in body:
            for i in uses(s):
                if i not in fresh:
                    ok[i] = False
                fresh.discard(i)
            place = target(s)
            if place is not None and place[0] == 'var':
                fresh.add(place[1])
            elif place is not None:
                for x in parts(place):
                    if x[0] in ('field', 'variant', 'index') and x[1][0] == 'var':
                        ok[x[1][1]] = False
            if bodies(s):
                fresh.clear()
                for inner in bodies(s):
                    walk(inner)
    walk(f.body)
    return ok


class Inline:
    def __init__(self, f, types, keeps):
        """keeps: locals that stay variables. So do results of arithmetic in u8 and u16, which C does as int: compilers warn of longer ones."""
        self.f, self.types = f, types
        keeps = keeps | {s[1][1] for s in statements(f.body) if s[0] == 'assign' and s[1][0] == 'var' and (s[2][0] == 'op2' and s[2][4] in (('int', 8), ('int', 16)) or s[2][0] == 'constant')}
        self.once = [ok and i not in keeps and not f.memory[i] for i, ok in enumerate(read_once(f))]

    def run(self, body):
        pending, out = {}, []

        def settle(written):
            """Before something is written: each pending expression that reads it is evaluated now."""
            for i in [i for i, e in pending.items() if reads(self.f, e) & written]:
                out.append(('assign', ('var', i), pending.pop(i)))

        for at, s in enumerate(body):
            if s[0] == 'return':
                out.append(self.leave(pending, out))
                continue
            if source(s) is not None:
                for i in self.not_there(s, pending):
                    out.append(('assign', ('var', i), pending.pop(i)))
                s = self.filled(s, pending)
            if bodies(s):
                pending.clear()
                out.append(with_bodies(s, self.run))
                continue
            place = target(s)
            quiet = place is not None and (s[0] == 'assign' or not lends(self.f, self.types, s[1]) and s[1][3][0] != 'array')
            returned = place == ('var', 0) and body[at + 1:at + 2] == [('return',)]     # then nothing stands between
            if returned or quiet and place[0] == 'var' and self.once[place[1]]:
                if not self.read_later(body[at + 1:], place[1]):
                    continue
                settle(writes(self.f, self.types, s))
                pending[place[1]] = source(s)
                continue
            if place is not None or s[0] == 'call':
                settle(writes(self.f, self.types, s))
            out.append(s)
        return out

    @staticmethod
    def read_later(rest, i):
        """Whether the run reads i before it writes it anew. Nothing else reads what is written here (`read_once`)."""
        for s in rest:
            if i in uses(s):
                return True
            if target(s) == ('var', i):
                return False
        return False

    def not_there(self, s, pending):
        """The pending locals that this statement reads where their expression cannot stand: a part of what is no place, or a call's argument
        that goes by pointer and is no place that can be pointed to."""
        whole = [x[1][1] for x in parts(s) if x[0] == 'load' and x[1][0] == 'var']
        found = {i for i in uses(s) if i in pending and (i not in whole or s[0] == 'switch') and pending[i][0] != 'load'}
        for x in parts(s):
            if x[0] == 'call' and len(x) == 4:
                lending = lends(self.f, self.types, x)
                for e in x[2]:
                    i = e[1][1] if e[0] == 'load' and e[1][0] == 'var' else None
                    if i in pending and not may_stand_in_call(self.f, self.types, pending[i], self.f.types[i], lending):
                        found.add(i)
        return found

    def filled(self, s, pending):
        """The statement with each pending expression where its local is read."""
        used = {i: pending.pop(i) for i in set(uses(s)) if i in pending}

        def change(x):
            if x[0] == 'load' and x[1][0] == 'pending':
                return x[1][1]
            if x[0] == 'deref' and x[1][0] == 'addr':
                return x[1][1]
            if x[:2] == ('op2', 'And') and x[3] == ('bool', 1):     # x & true is x
                return x[2]
            if x[0] == 'var' and x[1] in used:              # of a pending load its place; else 'pending', which the load around it takes away
                return used[x[1]][1] if used[x[1]][0] == 'load' else ('pending', used[x[1]])
            return x
        place = target(s)
        if place is not None and place[0] == 'var':         # the local that is written is no read
            return (s[0], place, rebuilt(s[2], change)) if s[0] == 'assign' else (s[0], rebuilt(s[1], change), place)
        return rebuilt(s, change)

    def leave(self, pending, out):
        t = self.f.types[0]
        e = pending.pop(0, None)
        if e is not None and (t[0] == 'array' or self.types.in_parts(self.f, e)):
            out.append(('assign', ('var', 0), e))
            e = None
        return ('return', e) if e is not None else ('return',)


def inlined(f, types, keeps):
    f.body = Inline(f, types, keeps).run(f.body)

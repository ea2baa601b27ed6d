"""A short loop with a fixed count is written out. Not one to one; left out by --plain.

    k = 0; n = 2; while (k < n) { .. k = k + 1 }      k = 0; ..; k = 1; ..; k = 2

gcc does so itself at -O3 alone, and each turn costs two or three instructions.

Why it means the same. The loop begins with its test and ends with the step; k and n are numbers just before it, lie in no memory, and nothing else in the loop
writes them, so the test holds so many times as there are numbers from k to n, and then fails. What is between test and step has no branch but `if` and
`switch`, and leaves the loop nowhere. The variable of the test is true in each turn, and false behind the loop.
"""
from mir import statements, target, with_bodies

TURNS, STATEMENTS = 8, 64       # no more of each


def written_out(f):
    f.body = run(f, f.body)


def run(f, body):
    out = []
    for s in body:
        turns = turns_of(f, out, s)
        out += [with_bodies(s, lambda inner: run(f, inner))] if turns is None else turns
    return out


def turns_of(f, before, s):
    """What the loop does, one turn behind the other, where the statements before it say how many there are; else None."""
    if s[0] != 'loop' or len(s[1]) < 3:
        return None
    test, left, *inside, step = s[1]
    if test[0] != 'assign' or test[2][:2] != ('op2', 'Lt') or left != ('if', ('load', test[1]), [], [('exit', 1)]):
        return None
    k, n = test[2][2:4]
    if k[0] != 'load' or n[0] != 'load' or step != ('assign', k[1], ('op2', 'Add', k, ('int', 64, 1), ('int', 64))):
        return None
    fixed = [k[1], n[1], test[1]]
    if len(set(fixed)) < 3 or any(place[0] != 'var' or f.memory[place[1]] for place in fixed):
        return None
    values = [number(before, place) for place in fixed[:2]]
    if None in values or values[1] - values[0] not in range(1, TURNS + 1):
        return None
    each = list(statements(inside))
    if len(each) * (values[1] - values[0]) > STATEMENTS or any(x[0] in ('loop', 'block', 'exit', 'leave') or target(x) in fixed[:2] for x in each):
        return None
    out = []
    for i in range(*values):
        out += [('assign', k[1], ('int', 64, i)), ('assign', test[1], ('bool', 1))] + inside
    return out + [('assign', k[1], ('int', 64, values[1])), ('assign', test[1], ('bool', 0))]


def number(before, place):
    """The number that a local was given just before, or None."""
    for s in reversed(before):
        if target(s) == place:
            return s[2][2] if s[0] == 'assign' and s[2][0] == 'int' else None
        if s[0] != 'assign':
            return None
    return None

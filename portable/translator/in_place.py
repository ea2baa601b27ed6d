"""Results made in place. Not one to one; left out by --plain.

    v = ..; v.x = ..; result = v; return          result = ..; result.x = ..; return result
    v = ..; result = { outcome, v }; return       result.v = ..; result = { outcome, result.v }; return result

A local of more than 64 bytes that becomes the result, or a field of it, lives there from the start: v is renamed `result`, or `result.k`.

Why it means the same. Nothing but a return stands behind a write of the result (`finals`; else the rule is not used at all). So until that write the
result's memory is in nobody's use, and behind it v is never read again: the two never need to be told apart. The write itself reads v before it
replaces it: C evaluates a literal or a call first and assigns then, and where the C writes part by part, a value that is made of what it replaces is made
beside it first (`assign_parts` in statements.py). No two locals get one place, nor a place in another's. (One that would get different places at two returns
gets none: that would be right too, and only make more copies.)
"""
from mir import rebuilt, root, runs, target, with_bodies

SMALL = 64


def in_place(f, types):
    """Whether anything was renamed."""
    finals = []
    for run in runs(f.body):
        for at, s in enumerate(run):
            if target(s) is not None and root(target(s)) == 0:
                if target(s) != ('var', 0) or run[at + 1:at + 2] != [('return',)]:
                    return False
                finals.append((run[:at], s))
    homes = places_in_result(f, types, finals)
    if not homes:
        return False

    def change(x):
        return homes.get(x[1], x) if x[0] == 'var' else x

    def renamed(body):
        return [with_bodies(rebuilt(s, change), renamed) for s in body]
    f.memory[0] = any(f.memory[i] for i in homes)
    f.body = renamed(f.body)
    return True


def places_in_result(f, types, finals):
    """{local: its place in the result}"""
    homes, barred = {}, set()

    def suggest(e, place, t):
        if e[0] == 'load' and root(e[1]) is not None:
            i = root(e[1])
            fits = e[1][0] == 'var' and i > f.params and f.types[i] == t
            if not fits or homes.setdefault(i, place) != place:
                barred.add(i)
    for before, s in finals:
        if s[0] != 'assign':
            continue
        suggest(s[2], ('var', 0), f.types[0])
        if s[2][0] == 'agg' and types.fields(f.types[0]):
            for k, (e, t) in enumerate(zip(s[2][1], types.fields(f.types[0]))):
                copied = [b[2] for b in before if b[0] == 'assign' and e == ('load', b[1]) and b[2][0] == 'load']
                suggest(copied[-1] if copied else e, ('field', ('var', 0), k), t)
    homes = {i: place for i, place in homes.items() if i not in barred and types.size(f.types[i]) > SMALL}
    if ('var', 0) in homes.values():
        homes = {i: place for i, place in homes.items() if place == ('var', 0)}
    return homes if len(set(homes.values())) == len(homes) else {}

"""Copies left out. Not one to one; left out by --plain.

    d = p.hazards; .. d[i] ..                     .. p.hazards[i] ..

A struct or array d that is written once, with a copy of a place, is that place.

Why it means the same. The place is a part of a parameter that is never written, or of a local that is written once, neither that write nor the copy in a
loop; so it has one value from the copy on, and d, which is written nowhere else, has the same. 'Written' counts writes of a part, and for a
local in memory every address of it that something may be written through (`lent_to_write`). A read of d before the copy would be a read of what was
never written, which the proofs exclude.
"""
from mir import parts, rebuilt, root, source, statements, target, with_bodies


def lent_to_write(f):
    """The locals in memory whose address, or that of a part of them, is taken by a reference that may be written through."""
    found = set()
    for s in statements(f.body):
        for x in parts(source(s)) if source(s) is not None else ():
            if x[0] == 'addr' and root(x[1]) is not None and x[2][0] == 'ref' and x[2][1]:
                found.add(root(x[1]))
            if x[0] == 'agg' and x[2][0] == 'slice' and x[2][1]:
                found |= {root(y[1]) for y in parts(x[1]) if y[0] == 'addr' and root(y[1]) is not None}
    return found


def without_copies(f, types):
    count = [0] * len(f.types)
    for s in statements(f.body):
        if target(s) is not None and root(target(s)) is not None:
            count[root(target(s))] += 1
    for i in lent_to_write(f):
        count[i] += 2
    looped = {root(target(s)) for l in statements(f.body) if l[0] == 'loop' for s in statements(l[1]) if target(s) is not None}

    def stays(i, d):
        return count[i] == 0 if i <= f.params else count[i] == 1 and i not in looped and d not in looped
    same = {}
    for s in statements(f.body):
        if s[0] == 'assign' and s[1][0] == 'var' and s[2][0] == 'load' and f.types[s[1][1]][0] in ('named', 'array'):
            d, place = s[1][1], s[2][1]
            if d > f.params and count[d] == 1 and only_fields(place) and root(place) > 0 and stays(root(place), d) and origin(root(place), same) != d:
                same[d] = place
    if not same:
        return

    def change(x):
        return rebuilt(same[x[1]], change) if x[0] == 'var' and x[1] in same else x

    def run(body):
        return [with_bodies(rebuilt(s, change), run) for s in body if not (s[0] == 'assign' and s[1][0] == 'var' and s[1][1] in same)]
    f.body = run(f.body)


def origin(i, same):
    """The local that i is a copy of in the end."""
    while i in same:
        i = root(same[i])
    return i


def only_fields(place):
    while place[0] == 'field' and place[1][0] != 'variant':
        place = place[1]
    return place[0] == 'var'

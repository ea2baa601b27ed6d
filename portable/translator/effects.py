"""What is read and what is written: locals by their number, and 'memory' for all that a pointer can reach.

A local that lies in memory (its home is MemorySlot) is both itself and 'memory': a pointer to it may exist. To any other no pointer exists: mir.py refuses a
function that takes the address of one.
"""
from mir import parts, root, source, statements, target


def of_local(f, i):
    return {i, 'memory'} if f.memory[i] else {i}


def reads(f, x):
    """What the value of an expression is made from."""
    if x[0] == 'load':
        return (of_local(f, root(x[1])) if root(x[1]) is not None else {'memory'}) | address_reads(f, x[1])
    if x[0] == 'addr':
        return address_reads(f, x[1])
    if x[0] == 'constant':
        return set()
    found = {'memory'} if x[0] == 'call' else set()
    for y in x[2] if x[0] in ('call',) else x[1] if x[0] == 'agg' else x[1:]:
        if isinstance(y, tuple):
            found |= reads(f, y)
    return found


def address_reads(f, place):
    """What the address of a place is made from."""
    if place[0] in ('field', 'variant'):
        return address_reads(f, place[1])
    if place[0] == 'deref':
        return reads(f, place[1])
    if place[0] == 'index':
        return (reads(f, place[1]) if place[1][0] == 'load' else address_reads(f, place[1])) | reads(f, place[2])
    return set()


def of_place(f, place):
    """What a write to this place changes."""
    return of_local(f, root(place)) if root(place) is not None else {'memory'}


def may_be_one(f, a, b):
    """Whether two places of one type may lie in one place. A pointer that the caller gave, and that is never replaced, reaches no local of this function."""
    if root(a) is not None and root(b) is not None:
        return root(a) == root(b)
    if root(a) is None and root(b) is None:
        return True
    local, behind = (a, b) if root(a) is not None else (b, a)
    by = pointer(behind)
    given = by is not None and by <= f.params and not any(target(s) is not None and root(target(s)) == by for s in statements(f.body))
    return 'memory' in of_place(f, local) and not given


def pointer(place):
    """The local that holds the pointer through which a place is reached, or None where that pointer is reached through another."""
    while place[0] in ('field', 'variant') or place[0] == 'index' and place[1][0] != 'load':
        place = place[1]
    return root(place[1][1])


def lends(f, types, call):
    """Whether the callee can write to memory: whether it is lent anything to write to."""
    return any(types.lends(t) for t in map(f.type_of, call[2]))


def writes(f, types, s):
    """What one assignment or call changes."""
    found = of_place(f, target(s)) if target(s) is not None else set()
    return found | {'memory'} if s[0] == 'call' and lends(f, types, s[1]) else found


def uses(s):
    """The locals that a statement itself reads, as often as it does; of a place that is written in part, its local too."""
    place = target(s)
    read = [source(s)] if source(s) is not None else []
    read += [place] if place is not None and place[0] != 'var' else []
    return [x[1] for e in read for x in parts(e) if x[0] == 'var'] + ([0] if s[0] == 'return' else [])

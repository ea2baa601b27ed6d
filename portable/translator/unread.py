"""An assignment to a local that nothing reads is left out. The plain C has this rule too: compilers warn of such variables.

Why it means the same: a right-hand side has no effect, and that it does not get stuck is proved. A call is left out only if it is lent nothing to
write to: it returns, which is proved too. A local of a type that has one value has nothing to read.
"""
from effects import lends, uses
from mir import statements, target, with_bodies


def without_unread(f, types):
    while True:
        read = {i for s in statements(f.body) for i in uses(s)}

        def run(body):
            out = []
            for s in body:
                place = target(s)
                unread = place is not None and place[0] == 'var' and place[1] != 0 and place[1] not in read and (not f.memory[place[1]] or f.types[place[1]][-1] == 0)
                if place is not None and (unread or types.empty(f.type_of(place))):
                    if s[0] == 'call' and lends(f, types, s[1]):        # C needs a place for an array
                        out.append(s if f.type_of(place)[0] == 'array' else ('call', s[1], None))
                    continue
                out.append(with_bodies(s, run))
            return out
        before, f.body = f.body, run(f.body)
        if f.body == before:
            return

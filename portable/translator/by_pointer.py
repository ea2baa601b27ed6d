"""Big structs by pointer. Not one to one; left out by --plain, where a struct is passed by value.

A struct or an enum of more than 16 bytes goes to a callee as a pointer to const, straight to where it lies. Results are returned by value.

Why it means the same. The callee reads through the pointer what the MIR's callee has as its own copy, so nothing may change it during the call:
- The callee writes to it: then it makes a copy at its entry (`owned`), and works on that.
- The callee writes to memory that it was lent: then the argument must not lie in memory. A local that has no pointer to it cannot be reached (`effects`); any
  other place is copied to a variable before a call that is lent something to write to.
- The result is written over the argument, x = f(&x): C evaluates the call first, and assigns then.

C has no array values. So an array goes by pointer in the plain C too; there the callee always copies it.
"""
from effects import reads
from mir import root, statements, target
from views import is_view

LARGE = 16


def by_pointer(types, t, plain):
    return t[0] == 'array' or not plain and t[0] == 'named' and types.size(t) > LARGE


def owned(f, types, plain):
    """The parameters that come by pointer and are copied at the entry: those that are written, in the plain C all."""
    written = {root(target(s)) for s in statements(f.body) if target(s) is not None}
    return {i for i in range(1, f.params + 1) if by_pointer(types, f.types[i], plain) and (plain or i in written)}


def may_be_pointed_to(f, e, lending):
    """Whether the callee may read the value of e where it lies."""
    return e[0] == 'load' and not (lending and 'memory' in reads(f, e))


def may_stand_in_call(f, types, e, t, lending):
    """Whether the expression e, of type t, may be written as an argument."""
    if not by_pointer(types, t, False):
        return True
    return e[0] == 'agg' and not types.in_parts(f, e) or may_be_pointed_to(f, e, lending) and not is_view(f, types, e[1])

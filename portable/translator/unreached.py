"""What is never reached is left out. The plain C has this rule too: C has no word for it.

    if (c) { unreachable } else { .. }            ..

Why it means the same: the machine is stuck at `unreachable`, and that no run of a proved function gets stuck is proved. So a branch that goes there on every
way is never taken, and a function that does is never called. An arm of a switch that is left out needs no test: the last that is left has none either.
"""
from mir import bodies, statements, with_bodies


def without_unreached(f, never):
    """never: the functions that are never called; f is added where it is one."""
    body = reached_part(f.body, never)
    if body is None:
        never.add(f.name)
    f.body = body or []


def reached_part(run, never):
    """The run without what is never reached, or None where it is never entered."""
    out, left = [], False       # left: whether control may not come to the end of `out`
    for s in run:
        made = statement(s, never)
        if made is None:
            return out if left else None
        out += made
        left = left or any(x[0] in ('return', 'exit', 'leave', 'loop') for x in statements(made))
    return out


def statement(s, never):
    """The statements that are left of one, or None where it is never reached."""
    if s[0] == 'unreachable' or s[0] == 'call' and s[1][1] in never:
        return None
    if s[0] == 'if':
        yes, no = reached_part(s[2], never), reached_part(s[3], never)
        return [('if', s[1], yes, no)] if yes is not None and no is not None else yes if no is None else no
    if s[0] == 'switch':
        arms = [(keys, reached_part(body, never)) for keys, body in s[2]] + ([(None, reached_part(s[3], never))] if s[3] is not None else [])
        rest = [arm for arm in arms if arm[1] is not None]
        if len(rest) < len(arms):
            return None if not rest else rest[0][1] if len(rest) == 1 else [('switch', s[1], tuple(rest[:-1]), rest[-1][1])]
        return [('switch', s[1], tuple(rest[:len(s[2])]), rest[-1][1] if s[3] is not None else None)]
    if any(reached_part(inner, never) is None for inner in bodies(s)):
        return None
    return [with_bodies(s, lambda body: reached_part(body, never))]

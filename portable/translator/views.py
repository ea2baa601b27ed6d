"""A struct that the header declares flatter than the MIR has it: `barrier_open_job` has the header's numbers and the hazards of what stands side by side, where the MIR
has a struct in a struct. header.py matches the two leaf by leaf. A leaf is the header's member. A part that is no leaf is read and written by a small
function, which copies its leaves one by one. No pointer is cast, and no C layout has to be the MIR's.
"""
from refused import need


def viewed(f, types, place):
    """(pointer, type's name, path of field numbers) where a place is a part of such a struct behind a pointer; else None."""
    path = ()
    while place[0] == 'field' and place[1][0] != 'variant':
        place, path = place[1], (place[2],) + path
    if place[0] == 'deref' and place[2][0] == 'named' and place[2][1] in types.views and path:
        return place[1], place[2][1], path
    return None


def is_view(f, types, place):
    """Whether it is a part that is no leaf."""
    found = viewed(f, types, place)
    return bool(found) and not any(found[2][:n] in types.views[found[1]] for n in range(1, len(found[2]) + 1))


class Views:
    """The functions that read and write such parts."""

    def __init__(self, types):
        self.types, self.made = types, {}

    def name(self, way, name, path, t):
        types, c, whole = self.types, self.types.c(t), self.types.header[name]
        rows = []
        for leaf, member in types.views[name].items():
            if leaf[:len(path)] == path:
                inner, at = t, ''
                for k in leaf[len(path):]:
                    at, inner = at + '.' + types.names[inner[1]][k], types.fields(inner)[k]
                to, of = ('value' + at, 'job->' + member) if way == 'load' else ('job->' + member, 'value' + at.replace('.', '->', 1))
                rows.append('    memcpy(%s, %s, sizeof(%s[%d]));' % (to, of, types.c(inner[1]), inner[2]) if inner[0] == 'array' else '    %s = %s;' % (to, of))
        if way == 'load':
            lines = ['static %s load_%s(const %s *job)' % (c, c, whole), '{', '    %s value;' % c] + rows + ['    return value;', '}', '']
        else:
            lines = ['static void store_%s(%s *job, const %s *value)' % (c, whole, c), '{'] + rows + ['}', '']
        made = '%s_%s' % (way, c)
        need(self.made.setdefault(made, lines) == lines, 'two views are called %s', made)
        return made

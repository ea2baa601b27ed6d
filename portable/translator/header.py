"""The C header: its structs, constants and calls, and whether they are the MIR's.

Every call of the header has to be a function of the exported crate, and the other way about. Each parameter and each struct is compared with the
MIR's type, leaf by leaf: the same widths in the same order. Widths do not tell two neighbours of one width apart, so each member has to have the name
that the sources give its field, and each parameter its parameter's. The archive's header is checked by this as well: it is made from the same MIR.
"""
import re

from refused import Refused, need


RENAMED = {'near_': 'near_offset', 'far_': 'far_offset'}      # windows.h has near and far as macros


class Header:
    def __init__(self, text, named):
        """named: the types have the sources' names, and the header's are compared with them."""
        self.named = named
        numbers = dict(re.findall(r'#define (\w+) (\d+)\b', text))
        text = re.sub(r'/\*.*?\*/', ' ', text, flags=re.S)
        self.structs, self.calls = {}, {}
        for body, name in re.findall(r'typedef struct \{(.*?)\} (\w+);', text, re.S):
            rows = re.findall(r'(\w+) (\w+)(?:\[(\w+)\])?;', body)
            need(len(rows) == body.count(';'), 'the header\'s %s has a member that is not understood', name)
            self.structs[name] = [(t, n, int(numbers.get(a, a)) if a else None) for t, n, a in rows]
        for result, name, params in re.findall(r'^(\w+) (barrier_\w+)\(([^)]*)\);', text, re.M):
            rows = [] if params == 'void' else [re.match(r'\s*(.*?)(\w+)\s*$', p, re.S).groups() for p in params.split(',')]
            self.calls[name] = (result, [(c.strip(), n) for c, n in rows])
        need(len(self.calls) == len(re.findall(r'\bbarrier_\w+\s*\(', text)), 'the header has a call that is not understood')

    def ordered(self, exports):
        """The exported functions, name -> name in C, in the header's order. They have to be its calls."""
        need(sorted(exports.values()) == sorted(self.calls), 'the header and the crate do not have the same calls: %s', sorted(set(exports.values()) ^ set(self.calls)))
        return dict(sorted(exports.items(), key=lambda export: list(self.calls).index(export[1])))

    def match_calls(self, types, functions, exports, sources):
        for name, call in exports.items():
            self.match_call(types, functions[name], call, sources.get(name, ('', []))[1])

    def match_call(self, types, f, call, params):
        """The call's C types are the function's. A slice is a pointer and a length. params: the parameters' names in the sources."""
        need(not self.named or len(params) == f.params, '%s: the names of its parameters are not known', f.name)
        result, rest = self.calls[call]
        rest = list(rest)
        self.match(types, f.types[0], result)
        for k, t in enumerate(f.types[1:1 + f.params]):
            need(rest, '%s has fewer parameters in the header', f.name)
            c, name = rest.pop(0)
            self.match_name(call, name, params[k] if self.named else None)
            if t[0] in ('slice', 'ref'):
                need(c.endswith('*') and c.startswith('const ') != t[1], '%s: %s', f.name, c)
                self.match(types, t[2], c.replace('const ', '').strip(' *'))
                need(t[0] == 'ref' or rest and rest.pop(0) == ('size_t', name + '_len'), '%s: a slice without a length', f.name)
            else:
                self.match(types, t, c)
        need(not rest, '%s has more parameters in the header', f.name)

    def match_name(self, c, member, field):
        need(not self.named or member == RENAMED.get(field, field), '%s has %s where the sources have %s', c, member, field)

    def match(self, types, t, c):
        """The MIR's type t is the header's c: a number by its width, a struct member by member, or else leaf by leaf, as a view."""
        if t[0] != 'named' or c not in self.structs:
            need(t != 'unit' and types.c(t) == c, '%s is not the header\'s %s', t, c)
            return
        if t[1] in types.header:
            need(types.header[t[1]] == c, '%s is two structs in the header', t[1])
            return
        members, fields = self.structs[c], types.fields(t)
        need(fields is not None, '%s is no struct', t)

        def alike(member, field):
            array, inner = field[0] == 'array', field[1] if field[0] == 'array' else field
            return (member[2] == field[2] if array else member[2] is None) and (member[0] in self.structs) == (inner[0] == 'named')
        if len(members) == len(fields) and all(map(alike, members, fields)):
            for (mc, _, n), field in zip(members, fields):
                self.match(types, field[1] if n is not None else field, mc)
            for (_, member, _), field in zip(members, types.names[t[1]]):
                self.match_name(c, member, field)
            types.names[t[1]] = [n for _, n, _ in members]
        else:
            types.views[t[1]] = self.leaves(types, t, c)
        types.header[t[1]] = c

    def leaves(self, types, t, c):
        """{path of field numbers in the MIR's struct: the header's member}, in one order. An array of structs of the header may be fields of the MIR's."""
        rest, found = list(self.structs[c]), {}

        def walk(field, path, name):
            need(rest, '%s has more than %s', t[1], c)
            mc, member, n = rest[0]
            if field[0] == 'named' and mc not in self.structs:
                need(types.fields(field) is not None, '%s has no place for %s', c, field)
                for k, inner in enumerate(types.fields(field)):
                    walk(inner, path + (k,), types.names[field[1]][k])
                return
            need((n is None) == (field[0] != 'array') and (n is None or n == field[2]), '%s has no place for %s', c, field)
            self.match(types, field[1] if n is not None else field, mc)
            self.match_name(c, member, name)
            found[path] = member
            rest.pop(0)
        for k, field in enumerate(types.fields(t)):
            walk(field, (k,), types.names[t[1]][k])
        need(not rest, '%s has more than %s', c, t[1])
        return found

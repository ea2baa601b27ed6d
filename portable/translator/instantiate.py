"""Generic MIR made plain: each function at the types and the dictionaries that it is called with. The rest of the translator sees no parameters.

A function of the MIR may take types, numbers (`Const`) and dictionaries; a dictionary says which impl answers for a bound. A call names arguments for them, and
the machine puts these in before it runs the code. The toolchain's logic defines what that means (logic/Mir/Inst.antt, Table.antt), and this does the same:

- `Param n` is the n-th of the types and numbers, `Given n` the n-th dictionary.
- `Method [Given n, m, own]` runs the m-th method of the n-th dictionary's impl. It takes the types and dictionaries of the impl, then `own`.
- a declared type's fields stand once, over its own parameters: a use puts its arguments in.

A trait's default method is a function that takes its `Self` and the dictionary; an associated type is one more type parameter: neither needs anything of its own here.
Lifetimes mean nothing to the machine and are left out. So is every impl and method that is not called.

An instance is named as the sources would write it, `forms::larger<u64>`. Where nothing was put in, a function or type keeps its name, and is as it was read.
"""
from collections.abc import Mapping

from refused import Refused, need

DEEP = 24       # so that what calls itself at ever greater types is refused, and not followed for ever


def text(t):
    """A type without parameters, as the sources write it."""
    if isinstance(t, str):
        return {'Unit': '()', 'Bool': 'bool', 'Ptr': '*'}.get(t, t)
    (kind, v), = t.items()
    if kind in ('Int', 'Float'):
        return '%s%d' % ('u' if kind == 'Int' else 'f', v)
    if kind == 'Const':
        return str(v)
    if kind == 'Array':
        return '[%s; %s]' % (text(v[0]), v[1]['Lit'])
    if kind == 'Ref':
        return '&%s%s' % ('mut ' if v[1] == 'Mut' else '', text(v[2]))
    if kind == 'Struct' and v[0] == '&[]':
        return '&%s[%s]' % ('mut ' if v[1][0]['Ref'][1] == 'Mut' else '', text(v[1][0]['Ref'][2]))
    need(kind == 'Named', 'type %s', t)
    inner = ', '.join(map(text, v[1]))
    return '(%s)' % inner if v[0]['name'].startswith('(,') else v[0]['name'] + ('<%s>' % inner if v[1] else '')


def depth(t):
    (kind, v), = t.items() if isinstance(t, dict) else [(t, None)]
    return 1 + max(map(depth, {'Array': lambda: v[:1], 'Ref': lambda: v[2:], 'Struct': lambda: v[1], 'Named': lambda: v[1]}.get(kind, list)()), default=0)


def put(t, types):
    """The type with these types and numbers for its parameters."""
    if isinstance(t, str):
        return t
    (kind, v), = t.items()
    if kind == 'Param':
        need(v < len(types), 'a type parameter that nothing is given for')
        return types[v]
    if kind == 'Array':
        return {'Array': [put(v[0], types), length(v[1], types)]}
    if kind == 'Ref':
        return {'Ref': ['Erased', v[1], put(v[2], types)]}
    if kind == 'Struct':
        return {'Struct': [v[0], [put(x, types) for x in v[1]]]}
    if kind == 'Named':
        return {'Named': [{'name': v[0]['name'], 'lifetimes': []}, [put(x, types) for x in v[1]]]}
    return t


def length(n, types):
    if 'Param' not in n:
        return n
    need(n['Param'] < len(types) and 'Const' in types[n['Param']], 'a length that is no number')
    return {'Lit': types[n['Param']]['Const']}


def is_number(t):
    return isinstance(t, dict) and 'Const' in t


class Instances(Mapping):
    """Name of an instance -> its plain MIR. An instance is there once a call of it was read."""

    def __init__(self, functions, types):
        """functions: name -> MIR as it was read. types: where the declared types' instances are declared."""
        self.functions, self.types = functions, types
        self.asked = {}     # instance -> (function, types, dictionaries)
        self.rows = {}      # declared type -> its row
        self.impls = {}     # impl -> its methods
        self.made = {}

    def __iter__(self):
        return iter(self.asked)

    def __len__(self):
        return len(self.asked)

    def __getitem__(self, instance):
        if instance not in self.made:
            self.made[instance] = self.make(*self.asked.get(instance, (instance, [], [])))
        return self.made[instance]

    # ---- functions
    def origin(self, instance):
        """The function that it is an instance of."""
        return self.asked.get(instance, (instance,))[0]

    def instance(self, name, types, dicts):
        """The name of a function at these arguments."""
        inner = ', '.join(map(text, types))
        base = made = name + ('<%s>' % inner if types else '')
        k = 2
        while self.asked.setdefault(made, (name, types, dicts)) != (name, types, dicts):      # the same types with other dictionaries
            made, k = '%s #%d' % (base, k), k + 1
        return made

    def make(self, name, types, dicts):
        f = self.functions[name]
        g = f['generics']
        need([is_number(t) for t in types] == [p['const_bits'] is not None for p in g['types']], '%s: types that are not those of its parameters', name)
        need(len(dicts) == len(g['bounds']), '%s: dictionaries that are not those of its bounds', name)
        need(max(map(depth, types), default=0) < DEEP, '%s: it calls itself at ever greater types', name)
        for row in f['types']:
            need(self.rows.setdefault(row['name'], row) == row, 'two types are called %s', row['name'])
        for row in f['types']:
            if not row['type_params']:
                self.declared(row['name'], [])
        for impl in g['impls']:
            need(self.impls.setdefault(impl['name'], impl['methods']) == impl['methods'], 'two impls are called %s', impl['name'])
        filled = Filled(self, types, dicts)
        return dict(f, generics=dict(g, types=[], bounds=[]), types=[], locals=[dict(l, ty=filled.type(l['ty'])) for l in f['locals']], body=filled.all(f['body']))

    # ---- declared types
    def row(self, name):
        """It stands in the table of each function that holds such a value; where all that are reached have but references to it, in another's of its crate."""
        if name not in self.rows:
            crate = name.split('::')[0]
            found = [row for f in self.functions.of(crate) for row in self.functions[f]['types'] if row['name'] == name] if hasattr(self.functions, 'of') else []
            need(found, 'the type %s is not declared', name)
            self.rows[name] = found[0]
        return self.rows[name]

    def declared(self, name, arguments):
        """The instance of a declared type at these arguments."""
        instance = text({'Named': [{'name': name, 'lifetimes': []}, arguments]})
        if instance not in self.types.origins:
            row = self.row(name)
            numbers = [k for k, _ in row['const_params']]
            need([is_number(t) for t in arguments] == [k in numbers for k in range(row['type_params'])], '%s: types that are not those of its parameters', name)
            need(max(map(depth, arguments), default=0) < DEEP, '%s holds itself', name)
            self.types.origins[instance] = name, arguments
            (kind, v), = row['shape'].items()
            shape = [self.plain(put(t, arguments)) for t in v] if kind == 'Fields' else [[self.plain(put(t, arguments)) for t in ts] for ts in v]
            self.types.declare(dict(row, name=instance, shape={kind: shape}, type_params=0, const_params=[]))
        return instance

    def plain(self, t):
        """The type, with each declared type in it by its instance's name."""
        if isinstance(t, str):
            return t
        (kind, v), = t.items()
        if kind == 'Array':
            return {'Array': [self.plain(v[0]), v[1]]}
        if kind == 'Ref':
            return {'Ref': [v[0], v[1], self.plain(v[2])]}
        if kind == 'Struct':
            return {'Struct': [v[0], [self.plain(x) for x in v[1]]]}
        if kind == 'Named':
            return {'Named': [{'name': self.declared(v[0]['name'], v[1]), 'lifetimes': []}, []]}
        return t


class Filled:
    """What stands in a function, with these arguments for its parameters."""

    def __init__(self, instances, types, dicts):
        self.instances, self.types, self.dicts = instances, types, dicts

    def type(self, t):
        return self.instances.plain(put(t, self.types))

    def all(self, x):
        if isinstance(x, list):
            return [self.all(y) for y in x]
        if not isinstance(x, dict) or len(x) != 1:
            return {k: self.all(y) for k, y in x.items()} if isinstance(x, dict) else x
        (kind, v), = x.items()
        if kind == 'Deref':
            return {kind: self.type(v)}
        if kind == 'SizeOf':
            return {'Int': {'width': 64, 'value': self.instances.types.size_of(self.type(v))}}
        if kind == 'NumOf':
            return {'Int': {'width': v[0], 'value': self.number(v[1])}}
        if kind == 'Repeat':
            return {kind: [self.all(v[0]), length(v[1], self.types)]}
        if kind == 'Call':
            return {kind: [self.callee(v[0])] + self.all(v[1:])}
        if kind == 'LendStatic':
            return {kind: [self.all(v[0]), self.type(v[1]), v[2]]}
        return {kind: self.all(v)}

    def number(self, t):
        t = put(t, self.types)
        need(is_number(t), 'a number that is a type')
        return t['Const']

    def dictionary(self, d):
        (kind, v), = d.items()
        if kind == 'Given':
            need(v < len(self.dicts), 'a dictionary that is not given')
            return self.dicts[v]
        need(kind == 'Impl', 'a dictionary of %s', kind)
        return {'Impl': [v[0], [put(t, self.types) for t in v[1]], [self.dictionary(x) for x in v[2]]]}

    def callee(self, x):
        (kind, v), = x.items()
        if kind not in ('Fn', 'Method'):
            return x
        own = v[-1]
        name, types, dicts = v[0], [], []
        if kind == 'Method':
            impl, types, dicts = self.dictionary(v[0])['Impl']
            methods = self.instances.impls.get(impl, [])
            need(v[1] < len(methods), 'the impl %s has no method %d', impl, v[1])
            name = methods[v[1]]
        types, dicts = types + [put(t, self.types) for t in own['types']], dicts + [self.dictionary(d) for d in own['dicts']]
        return {'Fn': [self.instances.instance(name, types, dicts), {'types': [], 'dicts': []}]}

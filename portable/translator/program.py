"""The whole: which functions are reached, the passes over each, and the C file."""
import copy
import hashlib
import json
import pathlib

import names
from addresses import with_places
from copies import without_copies
from header import Header
from in_place import in_place
from inline import inlined
from instantiate import Instances
from layout import Types
from mir import Function, called, parts, statements
from refused import Refused, need
from statements import Writer
from typed import typed
from unreached import without_unreached
from unread import without_unread
from views import Views
from written_out import written_out

LIMITS = '''#include <float.h>
#include <limits.h>
#if FLT_RADIX != 2 || DBL_MANT_DIG != 53 || DBL_MAX_EXP != 1024 || DBL_MIN_EXP != -1021
#error "double has to be IEEE 754's binary64"
#endif
#if UINT_MAX > 0xffffffff
#error "unsigned int must not be wider than 32 bits: uint32_t would be calculated as a signed number"
#endif
#ifdef __FAST_MATH__
#error "a sum of doubles has to be IEEE 754's: compile without -ffast-math"
#endif
'''.split('\n')[:-1]

LEADING_ZEROS = '''/* How many of the 64 bits stand above the highest one that is set: 64 for 0. */
static uint32_t leading_zeros_64(uint64_t x)
{
    uint32_t n = 64;
    if (x >> 32) { n -= 32; x >>= 32; }
    if (x >> 16) { n -= 16; x >>= 16; }
    if (x >> 8) { n -= 8; x >>= 8; }
    if (x >> 4) { n -= 4; x >>= 4; }
    if (x >> 2) { n -= 2; x >>= 2; }
    if (x >> 1) { n -= 1; x >>= 1; }
    return n - (uint32_t)x;
}
'''.split('\n')


# What the sources' hints are in C. Without one a function is `inline` all the same: it is often smaller than the call, and gcc -O2 else takes only the smallest.
INLINE = '''#ifdef __GNUC__
#define COMPILED_IN inline __attribute__((always_inline))
#define COMPILED_APART __attribute__((noinline))
#else
#define COMPILED_IN inline
#define COMPILED_APART
#endif
'''.split('\n')


class Functions(dict):
    """name -> MIR of every function of some proved crates. Those of a crate are read when the first of them is asked for: the toolchain's own are many. `sums` has the
    SHA-256 of the MIR of each crate that was read."""

    def __init__(self, rlibs):
        self.rlibs, self.sums = rlibs, {}

    def of(self, crate):
        """The names of a crate's functions."""
        need(crate in self.rlibs, 'the crate %s is none of those that are depended on', crate)
        if crate not in self.sums:
            data = (self.rlibs[crate] / 'toolchain/mir.json').read_bytes()
            self.sums[crate] = hashlib.sha256(data).hexdigest()
            for name, mir in json.loads(data):
                need(name.split('::')[0] == crate and name not in self, 'two functions are called %s', name)
                self[name] = mir
        return [name for name in self if name.split('::')[0] == crate]

    def __missing__(self, name):
        need(name in self.of(name.split('::')[0]), 'there is no function %s', name)
        return self[name]


def read_crates(folders, crate):
    """The functions of a proved crate and of all that it depends on, as their files `format` say."""
    rlibs, todo = {}, [crate]
    while todo:
        crate = todo.pop()
        if crate in rlibs:
            continue
        found = [path for path in (pathlib.Path(folder) / (crate + '.rlib') for folder in folders) if path.is_dir()]
        need(found, 'the crate %s is not proved: there is no %s.rlib', crate, crate)
        need(len(found) == 1, 'the crate %s stands in two folders', crate)
        lines = [line.split(' ', 1) for line in (found[0] / 'format').read_text().splitlines()]
        need(['crate', crate] in lines, '%s is not the crate %s', found[0], crate)
        rlibs[crate] = found[0]
        todo += [line[1] for line in lines if line[0] == 'dep']
    return Functions(rlibs)


def exported(functions, crate):
    """The functions of a crate that C calls, name -> its name in C: those with the header's prefix. What else the crate has is reached from them."""
    last = {name: name.split('::')[-1] for name in functions.of(crate)}
    return {name: call for name, call in last.items() if call.startswith('barrier_')}


def reached(functions, starts):
    """The functions that these reach, each behind those that it calls. C could take recursion as it is; no use of it is known, so it is refused."""
    order, seen = [], set()

    def visit(name):
        if name in seen:
            need(name in order, 'recursion through %s', name)
            return
        seen.add(name)
        try:
            body = functions[name]['body']
        except KeyError:
            raise Refused('there is no function %s' % name)
        for x in body:
            if isinstance(x, dict) and 'Call' in x:
                visit(called(x['Call']))
        order.append(name)
    for name in starts:
        visit(name)
    return order


def origins(functions, starts):
    """The functions of the MIR that these reach, at whatever types and dictionaries."""
    instances = Instances(functions, Types())
    return list(dict.fromkeys(instances.origin(name) for name in reached(instances, starts)))


class Program:
    def __init__(self, functions, exports, header_text=None, sources=None, plain=False):
        """functions: name -> MIR. exports: name -> its name in C; with a header these are its calls, and stand in its order."""
        header = Header(header_text, bool(sources)) if header_text is not None else None
        if header:
            exports = header.ordered(exports)
        self.types, self.plain, self.exports, self.uses_leading_zeros = Types(), plain, exports, False
        self.instances = Instances(functions, self.types)
        self.order = reached(self.instances, exports)
        self.functions = {name: Function(name, self.instances[name], self.types.shapes) for name in self.order}
        self.sources = names.read_sources(sources, self.types) if sources else {}
        names.complete(self.types)
        self.c_names = names.in_c(self)
        self.views = Views(self.types)
        if header:
            header.match_calls(self.types, self.functions, exports, self.sources)

    def c_name(self, name):
        return self.c_names[name]

    def source(self, name):
        return self.sources.get(self.instances.origin(name), ('', [], [], ''))

    def translated(self):
        """name -> the function behind the rules, in their order, and what its locals are called. What nothing calls any more is left out."""
        made, never = {}, set()
        for name in self.order:
            f = copy.copy(self.functions[name])
            f.types, f.memory = list(f.types), list(f.memory)
            made[name] = f, names.of_locals(f, self.source(name))
            with_places(f, self.types)
            names.of_new_locals(f, made[name][1][0])
            typed(f, self.types, self.functions)
            without_unreached(f, never)
            without_unread(f, self.types)
        need(not never & set(self.exports), 'a call that is never reached')
        for f, (_, count) in made.values() if not self.plain else ():
            self.rules(f, {i for i in range(1, count) if f.types[i] == 'bool' or f.types[i][0] in ('int', 'float')})
        calls = {name: {x[1] for s in statements(f.body) for e in s if isinstance(e, tuple) for x in parts(e) if x[0] == 'call'} for name, (f, _) in made.items()}
        called, todo = set(), list(self.exports)
        while todo:
            name = todo.pop()
            if name not in called:
                called.add(name)
                todo += calls[name]
        return {name: f for name, f in made.items() if name in called}

    def rules(self, f, keeps):
        """keeps: the locals that carry a name of the source and stay variables."""
        written_out(f)
        in_place(f, self.types)
        without_copies(f, self.types)
        without_unread(f, self.types)
        inlined(f, self.types, keeps)

    def write(self, head, include):
        bodies = [Writer(self, f, local, *self.source(name)[::3], name in self.exports).write() for name, (f, (local, _)) in self.translated().items()]
        bodies = [line for lines in list(self.views.made.values()) + bodies for line in lines]
        out = head + LIMITS + ['#include <stddef.h>', '#include <stdint.h>', '#include <string.h>', ''] + (['#include "%s"' % include, ''] if include else [])
        out += INLINE
        out += self.types.definitions([t for name in self.order for t in self.functions[name].types], '\n'.join(bodies))
        out += LEADING_ZEROS if self.uses_leading_zeros else []
        return '\n'.join(out + bodies)

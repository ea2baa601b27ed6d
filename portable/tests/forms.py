"""forms.py [CASES [SEED [FOLDER [CRATE..]]]]: today's forms through the translator. The crates in forms/ have them all: Option, Result with `?`, generic functions and structs, numbers as parameters,
traits, derives, `for` loops, iterator chains, closures. They are proved here (rt lib, in FOLDER, target/forms), and each of their functions is called with made-up arguments. Its answer and what it writes
are calculated three times: in Python, from what the form means (expected.py); interpreted from the generic MIR (machine.py); and in C, usual and plain, by gcc and clang, -O0 and -O2, once with the
sanitizers, without a warning. All have to agree. With QUICK in the environment by gcc -O0 alone.
"""
import os
import pathlib
import random
import shutil
import subprocess
import sys

HERE = pathlib.Path(__file__).resolve().parent
ROOT = HERE.parent.parent
sys.path.insert(0, os.environ.get('TRANSLATOR', str(HERE.parent / 'translator')))
from expected import EXPECTED, V  # noqa: E402
from instantiate import Instances  # noqa: E402
from layout import Types  # noqa: E402
from machine import Machine  # noqa: E402
from program import Program, origins, read_crates, reached  # noqa: E402

CRATES = sorted(p.stem for p in (HERE / 'forms').glob('*.txt'))
QUICK = 'QUICK' in os.environ
WARNINGS = '-std=c99 -Wall -Wextra -Wpedantic -Wconversion -Wshadow -Wcast-qual -Werror'.split()


def proved(folder):
    """Makes and proves the crates. What was proved before of the same text is kept."""
    stale = []
    for crate in CRATES:
        text, path = (HERE / 'forms' / (crate + '.txt')).read_text(), folder / 'crates' / crate / 'src/lib.rt'
        if not (path.is_file() and path.read_text() == text and (folder / 'crates' / crate / 'out/rlib' / (crate + '.rlib/toolchain/mir.json')).is_file()):
            path.parent.mkdir(parents=True, exist_ok=True)
            path.write_text(text)
            stale.append(crate)
    (folder / 'crates.txt').write_text(''.join(c + ':\n' for c in CRATES))
    for crate in stale:
        shutil.rmtree(str(folder / 'crates' / crate / 'out/rlib'), ignore_errors=True)
        done = subprocess.run(['rt', 'lib'], cwd=str(folder / 'crates' / crate), stdout=subprocess.PIPE, stderr=subprocess.STDOUT, universal_newlines=True)
        if done.returncode:
            sys.exit('forms: %s is not proved:\n%s' % (crate, done.stdout[-2000:]))


# ---- values: a number, a bool, a tuple of a struct's, tuple's or array's parts, V(variant, parts), () for what has one value; what is lent is a list
class Values:
    def __init__(self, machine, r):
        self.m, self.r = machine, r

    def number(self, w):
        r, kind = self.r, self.r.randrange(20)
        n = r.randrange(12) if kind < 9 else r.randrange(44, 60) if kind < 12 else r.choice([0, 1, 32, 127, 128, 255, 256, 65535, 2 ** 32 - 1, 2 ** 63, 2 ** 64 - 1]) if kind < 15 else r.randrange(300)
        return (n if kind < 18 else r.randrange(1 << w)) % (1 << w)

    def made(self, t):
        if t == 'Bool':
            return self.r.random() < .5
        if t == 'Unit':
            return ()
        (kind, v), = t.items()
        if kind == 'Int':
            return self.number(v)
        if kind == 'Array':
            return tuple(self.made(v[0]) for _ in range(self.m.length(v[1])))
        enum, rows = self.m.rows(t)
        k = self.r.randrange(len(rows))
        parts = tuple(map(self.made, rows[k]))
        return V(k, parts) if enum else parts

    def argument(self, t):
        if isinstance(t, dict) and 'Struct' in t:
            return [self.made(t['Struct'][1][0]['Ref'][2]) for _ in range(self.r.choice([0, 1, 2, 3, 5, 8, 12]))]
        return [self.made(t['Ref'][2])] if isinstance(t, dict) and 'Ref' in t else self.made(t)

    def raw(self, t, x):
        """The bytes in the machine's memory."""
        if t == 'Unit':
            return b''
        if t == 'Bool' or 'Int' in t:
            return int(x).to_bytes(self.m.layout(t)[0], 'little')
        if 'Array' in t:
            return b''.join(self.raw(t['Array'][0], y) for y in x)
        enum, rows = self.m.rows(t)
        row = self.m.tagged(rows[x[0]]) if enum else rows[0]
        out = bytearray(self.m.layout(t)[0])
        for u, o, y in zip(row, self.m.offsets(row, 0)[0], (x[0],) + x[1] if enum else x):
            made = self.raw(u, y)
            out[o:o + len(made)] = made
        return bytes(out)

    def read(self, t, data):
        if t == 'Unit':
            return ()
        if t == 'Bool' or 'Int' in t:
            return (bool if t == 'Bool' else int)(int.from_bytes(data, 'little'))
        if 'Array' in t:
            size = self.m.layout(t['Array'][0])[0]
            return tuple(self.read(t['Array'][0], data[k * size:(k + 1) * size]) for k in range(self.m.length(t['Array'][1])))
        enum, rows = self.m.rows(t)
        row = self.m.tagged(rows[data[0]]) if enum else rows[0]
        parts = tuple(self.read(u, data[o:o + self.m.layout(u)[0]]) for u, o in zip(row, self.m.offsets(row, 0)[0]))
        return V(parts[0], parts[1:]) if enum else parts

    def flat(self, t, x):
        """The bytes that the C is given and gives: leaf by leaf."""
        if t == 'Unit':
            return b''
        if t == 'Bool' or 'Int' in t:
            return int(x).to_bytes(self.m.layout(t)[0], 'little')
        if 'Array' in t:
            return b''.join(self.flat(t['Array'][0], y) for y in x)
        enum, rows = self.m.rows(t)
        row, parts = (self.m.tagged(rows[x[0]]), (x[0],) + x[1]) if enum else (rows[0], x)
        return b''.join(map(self.flat, row, parts))


def lent(t):
    """The type of what a parameter lends, or None; and whether it may be written."""
    if isinstance(t, dict) and 'Struct' in t:
        return t['Struct'][1][0]['Ref'][2], t['Struct'][1][0]['Ref'][1] == 'Mut'
    return (t['Ref'][2], t['Ref'][1] == 'Mut') if isinstance(t, dict) and 'Ref' in t else (None, False)


def interpreted(machine, values, name, types, given):
    """(the result, what is lent behind the call)"""
    args, blocks = [], []
    for t, x in zip(types[1:], given):
        of, _ = lent(t)
        if of is None:
            args.append(machine.whole(values.raw(t, x)))
            continue
        data = b''.join(values.raw(of, y) for y in x)
        b = machine.new(len(data), data)
        blocks.append((of, b, len(x)))
        args.append(machine.whole((b << 32).to_bytes(8, 'little') + (len(x).to_bytes(8, 'little') if 'Struct' in t else b'')))
    data, known = machine.call(name, args)
    size = [machine.layout(of)[0] for of, _, _ in blocks]
    seen = [[values.read(of, bytes(machine.blocks[b][0])[k * n:(k + 1) * n]) for k in range(count)] for (of, b, count), n in zip(blocks, size)]
    return values.read(types[0], data), seen


# ---- the C that calls: it reads arguments and writes answers leaf by leaf
class Driver:
    def __init__(self, program, names):
        self.program, self.types, self.made = program, program.types, {}
        self.calls = [self.call(k, name) for k, name in enumerate(names)]

    def leaf(self, way, t, at, depth):
        """Lines that read or write the value at an lvalue."""
        types, pad = self.types, '    ' * (depth + 1)
        if types.empty(t):
            return []
        if t == 'bool' or t[0] == 'int':
            size = 1 if t == 'bool' else t[1] // 8
            return ['%s%s = %sget(%d);' % (pad, at, '0 != ' if t == 'bool' else '(%s)' % types.c(t), size) if way == 'get' else '%sput(%s, %d);' % (pad, at, size)]
        if t[0] == 'array':
            i = 'i%d' % depth
            return ['%sfor (size_t %s = 0; %s < %d; %s++) {' % (pad, i, i, t[2], i)] + self.leaf(way, t[1], '%s[%s]' % (at, i), depth + 1) + [pad + '}']
        kind, parts = types.shapes[t[1]]
        if kind == 'Fields':
            return [line for u, n in zip(parts, types.names[t[1]]) for line in self.leaf(way, u, '%s.%s' % (at, n), depth)]
        out = self.leaf(way, ('int', 8), at + '.tag', depth)
        for k, (ts, (v, ns)) in enumerate(zip(parts, types.names[t[1]])):
            inner = [line for u, n in zip(ts, ns) for line in self.leaf(way, u, '%s.as.%s.%s' % (at, v, n), depth + 1)]
            out += ['%sif (%s.tag == %d) {' % (pad, at, k)] + inner + [pad + '}'] if inner else []
        return out

    def call(self, k, name):
        f, types = self.program.functions[name], self.program.types
        lines, given, behind, ends = ['static void run%d(void)' % k, '{'], [], [], []
        for i in range(1, f.params + 1):
            t, x = f.types[i], 'x%d' % i
            if t[0] in ('slice', 'ref') and not types.empty(t):
                of = t[2]
                element = of[1] if of[0] == 'array' else of
                count = of[2] if of[0] == 'array' else 1
                lines += ['    size_t n%d = (size_t)get(4);' % i, '    %s *%s = malloc(n%d * %d * sizeof *%s + !n%d);' % (types.c(element), x, i, count, x, i)]
                loop = '    for (size_t k = 0; k < n%d * %d; k++) {' % (i, count)
                lines += [loop] + self.leaf('get', element, '%s[k]' % x, 1) + ['    }']
                behind += [loop] + self.leaf('put', element, '%s[k]' % x, 1) + ['    }'] if t[1] else []
                ends.append('    free(%s);' % x)
                given += [x] + (['n%d' % i] if t[0] == 'slice' else [])
            elif not types.empty(t):
                lines += ['    %s;' % types.declared(t, x)] + self.leaf('get', t, x, 0)
                given.append(x)
        call = '%s(%s)' % (self.program.c_name(name), ', '.join(given))
        if types.empty(f.types[0]):
            lines.append('    %s;' % call)
        else:
            lines += ['    %s = %s;' % (types.declared(f.types[0], 'result'), call)] + self.leaf('put', f.types[0], 'result', 0)
        return lines + behind + ends + ['}', '']

    def text(self, names):
        out = '''#include <stdio.h>
#include <stdlib.h>
static uint8_t made[1 << 20];
static size_t count;
static uint64_t get(int n)
{
    uint64_t x = 0;
    for (int k = 0; k < n; k++) x |= (uint64_t)(uint8_t)getchar() << 8 * k;
    return x;
}
static void put(uint64_t x, int n)
{
    for (int k = 0; k < n; k++) made[count++] = (uint8_t)(x >> 8 * k);
}
'''.split('\n')
        for lines in self.calls:
            out += lines
        out += ['static void (*const runs[])(void) = { %s };' % ', '.join('run%d' % k for k in range(len(names))),
                'static const char *const names[] = { %s };' % ', '.join('"%s"' % n for n in names), '''
int main(void)
{
    for (;;) {
        size_t f = (size_t)get(4), wanted, wrong = 0;
        if (f == 0xffffffff) return 0;
        count = 0;
        runs[f]();
        wanted = (size_t)get(4);
        for (size_t k = 0; k < wanted; k++) wrong |= (size_t)((uint8_t)getchar() != made[k]);
        if (wrong || wanted != count) { printf("%s", names[f]); return 1; }
    }
}''']
        return '\n'.join(out) + '\n'


def groups(functions, names):
    """The functions in lists: none of a list is called by another of it, so that each can be a call from outside."""
    instances, out = Instances(functions, Types()), []
    reach = {name: set(reached(instances, [name])) for name in names}
    for name in names:
        for group in out:
            if not any(name in reach[other] or other in reach[name] for other in group):
                group.append(name)
                break
        else:
            out.append([name])
    return out


def built(text, driver, folder, name):
    """(how, program) of the C in each way."""
    (folder / (name + '.c')).write_text(text)
    (folder / (name + '_driver.c')).write_text('#include "%s.c"\n' % name + driver)
    for cc in ['gcc'] + (['clang'] if shutil.which('clang') and not QUICK else []):
        subprocess.run([cc, '-O2'] + WARNINGS + ['-c', str(folder / (name + '.c')), '-o', '/dev/null'], check=True)
        for level in (['-O0'], ['-O2'], ['-O1', '-g', '-fsanitize=address,undefined', '-fno-sanitize-recover=all'])[:1 if QUICK else 3]:
            path = folder / ('%s_%s%s' % (name, cc, level[0]))
            subprocess.run([cc] + level + ['-std=c99', '-w', str(folder / (name + '_driver.c')), '-o', str(path)], check=True)
            yield ' '.join([cc] + level[:1] + level[2:3]), path


def cases(machine, values, name, types, count):
    """(arguments, the answer) as the C has them"""
    word, out = name.split('::')[1], []
    for _ in range(count):
        given = [values.argument(t) for t in types[1:]]
        copied = [list(x) if isinstance(x, list) else x for x in given]
        wanted = EXPECTED[name.split('::')[0]][word](*copied)
        wanted = () if wanted is None else wanted
        got, seen = interpreted(machine, values, name, types, given)
        behind = [x for x in copied if isinstance(x, list)]
        if got != wanted or seen != behind:
            sys.exit('forms: %s%r gives %r and %r interpreted, expected are %r and %r' % (name, given, got, seen, wanted, behind))
        asked, answer = b'', values.flat(types[0], got)
        for t, x in zip(types[1:], given):
            of, _ = lent(t)
            asked += values.flat(t, x) if of is None else len(x).to_bytes(4, 'little') + b''.join(values.flat(of, y) for y in x)
        for (of, writes), x in zip([lent(t) for t in types[1:] if lent(t)[0] is not None], seen):
            answer += b''.join(values.flat(of, y) for y in x) if writes else b''
        out.append((asked, answer))
    return out


def main():
    count, seed = (list(map(int, sys.argv[1:3])) + [60, 1][len(sys.argv[1:3]):])[:2]
    folder = pathlib.Path(sys.argv[3]) if len(sys.argv) > 3 else ROOT / 'target/forms'
    sys.setrecursionlimit(100000)
    proved(folder)
    kit = pathlib.Path(subprocess.run(['rt', 'doc'], stdout=subprocess.PIPE, universal_newlines=True, check=True).stdout.strip()).parent / 'rlibs'
    calls, tried = 0, 0
    (folder / 'c').mkdir(exist_ok=True)
    for crate in sys.argv[4:] or CRATES:
        functions = read_crates([folder / 'crates' / crate / 'out/rlib', kit], crate)
        names = [crate + '::' + word for word in EXPECTED[crate]]
        machine = Machine({n: functions[n] for n in origins(functions, names)})
        values = Values(machine, random.Random('%s %d' % (crate, seed)))
        made = {}
        for name in names:
            types = [l['ty'] for l in functions[name]['locals'][:functions[name]['params'] + 1]]
            made[name] = cases(machine, values, name, types, count)
        for k, group in enumerate(groups(functions, names)):
            data = b''.join(i.to_bytes(4, 'little') + asked + len(answer).to_bytes(4, 'little') + answer for i, name in enumerate(group) for asked, answer in made[name]) + b'\xff' * 4
            for plain in (False, True):
                program = Program(functions, {name: name.replace('::', '_') for name in group}, sources=str(folder / 'crates'), plain=plain)
                text = program.write([], None)
                for how, path in built(text, Driver(program, group).text(group), folder / 'c', '%s%d%s' % (crate, k, 'p' if plain else '')):
                    got = subprocess.run([str(path)], input=data, stdout=subprocess.PIPE, stderr=subprocess.STDOUT, timeout=120)
                    if got.returncode:
                        sys.exit('forms: %s: the %s C by %s gives something else: %s' % (crate, 'plain' if plain else 'usual', how, got.stdout.decode(errors='replace')[-1500:]))
            calls, tried = calls + sum(len(made[name]) for name in group), tried + len(group)
    print('forms: %d functions of %s, %d calls: the same in Python, interpreted from the generic MIR, and as C, usual and plain' % (tried, ', '.join(sys.argv[4:] or CRATES), calls))


if __name__ == '__main__':
    main()

"""An interpreter of the MIR, written from the toolchain's logic (logic/Prog/Machine.antt, logic/Prog/Memory.antt, logic/Mir/Val.antt, logic/Mir/Inst.antt) and not from the translator.

A value is its bytes, little-endian, and for each byte whether it was ever written; every local is a block of its own; a pointer is a block's number and an
offset. What the machine calls stuck (a sum that does not fit, an index outside its block, a misaligned access, a read of what was never written, of a struct too
of which one field never was, a bool that is neither 0 nor 1, an operand or a stored value of another form than its type, ..) ends the run.
It keeps to what the engine's MIR has: no signed operation, no address as a number.
"""
import json
import pathlib
import struct


class Stuck(Exception):
    pass


INT, FLOAT = {w: {'Int': w} for w in (8, 16, 32, 64)}, {'Float': 64}


def functions_of(crates):
    """name -> MIR, of proved crates."""
    return {name: f for path in crates for name, f in json.loads((pathlib.Path(path) / 'toolchain/mir.json').read_text())}


def filled(x, types, dicts):
    """A piece of MIR with these arguments for its parameters, wherever they stand in it."""
    if isinstance(x, list):
        return [filled(y, types, dicts) for y in x]
    if not isinstance(x, dict):
        return x
    for word, given in (('Param', types), ('Given', dicts)):
        if list(x) == [word]:
            if x[word] >= len(given):
                raise Stuck('nothing is put in for a parameter')
            return given[x[word]]
    return {k: filled(y, types, dicts) for k, y in x.items()}


class Machine:
    def __init__(self, functions):
        self.functions, self.shapes, self.impls, self.blocks, self.calls, self.next = functions, {}, {}, {}, {}, 0
        self.sizes, self.rowed, self.tags, self.instances, self.masks, self.shaped = {}, {}, {}, {}, {}, {}
        self.ran = []       # (function, types, dictionaries) of each instance that was called
        for name, f in functions.items():
            for t in f['types']:
                self.shapes[t['name']] = t['shape']
            for impl in f['generics']['impls']:
                self.impls[impl['name']] = impl['methods']

    def instance(self, name, types=(), dicts=()):
        """(the function, its locals' types and its body, with these arguments put in)"""
        key = json.dumps([name, types, dicts])
        if key not in self.instances:
            f = self.functions[name]
            if len(types) != len(f['generics']['types']) or len(dicts) != len(f['generics']['bounds']):
                raise Stuck('a call at other arguments than %s takes' % name)
            self.instances[key] = f, [filled(l['ty'], types, dicts) for l in f['locals']], self.tree(iter(filled(f['body'], types, dicts)))
            self.ran.append((name, types, dicts))
        return self.instances[key]

    def tree(self, tokens):
        """The body's tokens stand in prefix order."""
        x = next(tokens)
        kind, v = (x, None) if isinstance(x, str) else next(iter(x.items()))
        count = {'Seq': 2, 'Block': 1, 'Loop': 1, 'If': 2}.get(kind, 0)
        if kind == 'Switch':
            count = len(v[1]) + bool(v[2])
        return kind, v, [self.tree(tokens) for _ in range(count)]

    # ---- layout (Memory.antt: align, size, fieldAt, variantOf). Sizes are remembered by the object: every type lives as long as the machine.
    def layout(self, t):
        """(size, alignment)"""
        if id(t) not in self.sizes:
            self.sizes[id(t)] = self.lay(t)
        return self.sizes[id(t)]

    def lay(self, t):
        if isinstance(t, str):
            return {'Bool': (1, 1), 'Unit': (0, 1), 'Ptr': (8, 8)}[t]
        (kind, v), = t.items()
        if kind in ('Int', 'Float'):
            return v // 8, v // 8
        if kind == 'Ref':
            return 8, 8
        if kind == 'Array':
            size, align = self.layout(v[0])
            return size * self.length(v[1]), align
        start, rows = self.rows(t)
        end = max(self.offsets(r, start)[1] for r in rows)
        align = max([self.layout(x)[1] for r in rows for x in r] + [1])
        return end + -end % align, align

    def rows(self, t):
        """The rows of fields of a struct (one, from 0) or of an enum (one for each variant, behind the tag)."""
        (kind, v), = t.items()
        if kind == 'Struct':
            return 0, [v[1]]
        if id(t) not in self.shaped:
            shape = filled(self.shapes[v[0]['name']], v[1], ())
            self.shaped[id(t)] = (0, [shape['Fields']]) if 'Fields' in shape else (1, shape['Variants'])
        return self.shaped[id(t)]

    @staticmethod
    def length(n):
        """Of an array, or how often something is repeated: written there, or put in for a parameter."""
        (kind, v), = n.items()
        if kind not in ('Lit', 'Const'):
            raise Stuck('a length that is no number')
        return v

    def offsets(self, ts, end):
        """(each field's offset, the end)"""
        if (id(ts), end) not in self.rowed:
            out, at = [], end
            for t in ts:
                size, align = self.layout(t)
                at += -at % align
                out.append(at)
                at += size
            self.rowed[id(ts), end] = out, at
        return self.rowed[id(ts), end]

    def tagged(self, row):
        if id(row) not in self.tags:
            self.tags[id(row)] = [INT[8]] + row
        return self.tags[id(row)]

    # ---- memory: a block is its bytes, for each whether it was ever written, and the alignment that it was made with
    def new(self, size, data=None, align=8):
        self.next = b = self.next + 1
        self.blocks[b] = [bytearray(data or size), bytearray(b'\1' * size if data is not None else size), align]
        return b

    def access(self, t, b, o):
        size, align = self.layout(t)
        if b not in self.blocks or o + size > len(self.blocks[b][0]):
            raise Stuck('an access outside a block')
        if self.blocks[b][2] % align or o % align:
            raise Stuck('an access that is not aligned')
        return size

    def load(self, t, b, o):
        if not self.layout(t)[0]:
            return b'', b''
        size = self.access(t, b, o)
        data, known = (bytes(x[o:o + size]) for x in self.blocks[b][:2])
        self.decode(t, data, known)
        return data, known

    def store(self, t, b, o, value, of=None):
        """of: the type that the value has; where it is not given, it is t."""
        if of is not None and not self.alike(of, t):
            raise Stuck('a %s is stored as %s' % (of, t))
        if not self.layout(t)[0]:
            return
        size = self.access(t, b, o)
        if len(value[0]) != size:
            raise Stuck('a value of another size')
        self.blocks[b][0][o:o + size], self.blocks[b][1][o:o + size] = value

    def alike(self, a, b):
        """Whether the values of two types have one form (Val.antt: hasTy). All pointers have."""
        def is_pointer(t):
            return t == 'Ptr' or 'Ref' in t
        if is_pointer(a) or is_pointer(b):
            return is_pointer(a) and is_pointer(b)
        if 'Struct' in a and 'Struct' in b:
            return len(a['Struct'][1]) == len(b['Struct'][1]) and all(map(self.alike, a['Struct'][1], b['Struct'][1]))
        if 'Array' in a and 'Array' in b:
            return self.length(a['Array'][1]) == self.length(b['Array'][1]) and self.alike(a['Array'][0], b['Array'][0])
        if 'Named' in a and 'Named' in b:
            return a['Named'][0]['name'] == b['Named'][0]['name'] and len(a['Named'][1]) == len(b['Named'][1]) and all(map(self.alike, a['Named'][1], b['Named'][1]))
        return a is b or a == b

    # ---- dec of Memory.antt: every leaf of the type was written, and a bool is 0 or 1. What lies between the leaves does not matter.
    def decode(self, t, data, known):
        mask = self.mask(t)
        if mask is None:
            for u, o in self.pieces(t, data, known):
                end = o + self.layout(u)[0]
                self.decode(u, data[o:end], known[o:end])
            return
        leaves, bools = mask
        if int.from_bytes(known, 'little') & leaves != leaves:
            raise Stuck('load of what was never written')
        if int.from_bytes(data, 'little') & bools:
            raise Stuck('load of a bool that is none')

    def mask(self, t):
        """(1 in each byte of a leaf, 254 in each byte of a bool), as numbers; None where an enum is inside: there it goes by the tag."""
        if id(t) not in self.masks:
            found = self.mask_bytes(t)
            self.masks[id(t)] = found and tuple(int.from_bytes(x, 'little') for x in found)
        return self.masks[id(t)]

    def mask_bytes(self, t):
        size = self.layout(t)[0]
        kind = t if isinstance(t, str) else next(iter(t))
        if kind in ('Bool', 'Unit', 'Ptr', 'Int', 'Float', 'Ref'):
            return b'\1' * size, (b'\376' if kind == 'Bool' else b'\0') * size
        if kind == 'Array':
            inner = self.mask_bytes(t['Array'][0])
            return inner and tuple(x * self.length(t['Array'][1]) for x in inner)
        start, rows = self.rows(t)
        out = bytearray(size), bytearray(size)
        for u, o in zip(rows[0], self.offsets(rows[0], 0)[0]) if not start else ():
            inner = self.mask_bytes(u)
            if inner is None:
                return None
            for whole, part in zip(out, inner):
                whole[o:o + len(part)] = part
        return None if start else tuple(map(bytes, out))

    def pieces(self, t, data, known):
        """(type, offset) of each part of a value with an enum inside."""
        if 'Array' in t:
            u, n = t['Array'][0], self.length(t['Array'][1])
            return [(u, k * self.layout(u)[0]) for k in range(n)]
        start, rows = self.rows(t)
        if start and (not known[0] or data[0] >= len(rows)):
            raise Stuck('load of an enum without a tag')
        ts = self.tagged(rows[data[0]]) if start else rows[0]
        return list(zip(ts, self.offsets(ts, 0)[0]))

    # ---- places and values
    def spot(self, frame, p):
        """(type, block, offset)"""
        t, b, o = frame[p['local']][0], frame[p['local']][1], 0
        for s in p['steps']:
            (kind, v), = s.items()
            if kind == 'Deref':
                n = int.from_bytes(self.load(t, b, o)[0], 'little')
                t, b, o = v, n >> 32, n & 0xffffffff
            elif kind == 'Variant':
                t = ('variant', self.rows(t)[1][v])
            else:
                ts = self.tagged(t[1]) if isinstance(t, tuple) else self.rows(t)[1][0]
                o += self.offsets(ts, 0)[0][v]
                t = ts[v]
        return t, b, o

    @staticmethod
    def whole(data):
        return data, b'\1' * len(data)

    def operand(self, frame, x):
        """(type, value)"""
        if isinstance(x, str):
            return ('Unit', (b'', b'')) if x == 'Unit' else ('Bool', self.whole(b'\1' if x == 'True' else b'\0'))
        (kind, v), = x.items()
        if kind == 'Copy':
            t, b, o = self.spot(frame, v)
            return t, self.load(t, b, o)
        if kind == 'Int':
            return INT[v['width']], self.whole(v['value'].to_bytes(v['width'] // 8, 'little'))
        if kind == 'Float':
            return FLOAT, self.whole(v['bits'].to_bytes(v['width'] // 8, 'little'))
        if kind == 'SizeOf':
            return INT[64], self.whole(self.layout(v)[0].to_bytes(8, 'little'))
        if kind == 'NumOf' and 'Const' in v[1]:
            return INT[v[0]], self.whole(v[1]['Const'].to_bytes(v[0] // 8, 'little'))
        raise Stuck(kind)

    def number(self, frame, x):
        t, (data, _) = self.operand(frame, x)
        return t, int.from_bytes(data, 'little')

    def rvalue(self, frame, rv, t):
        """(its type, its value), to be stored as a t"""
        (kind, v), = rv.items()
        if kind == 'Opd':
            return self.operand(frame, v)
        if kind == 'AddrOf':
            _, b, o = self.spot(frame, v)
            return 'Ptr', self.whole((b << 32 | o).to_bytes(8, 'little'))
        if kind == 'Repeat':
            (of, (data, known)), n = self.operand(frame, v[0]), self.length(v[1])
            return {'Array': [of, {'Lit': n}]}, (data * n, known * n)
        if kind == 'Aggregate':
            return t, self.aggregate([self.operand(frame, x) for x in v], t)
        return self.op1(frame, v, t) if kind == 'Op1' else self.op2(frame, v, t)

    def aggregate(self, given, t):
        start, rows = (0, [[t['Array'][0]] * self.length(t['Array'][1])]) if 'Array' in t else self.rows(t)
        parts = [value for _, value in given]
        if start and (not given or given[0][0] != INT[8] or parts[0][0][0] >= len(rows)):
            raise Stuck('an aggregate without a tag')
        ts = self.tagged(rows[parts[0][0][0]]) if start else rows[0]
        if len(ts) != len(parts) or not all(self.alike(of, u) for (of, _), u in zip(given, ts)):
            raise Stuck('an aggregate of other parts')
        if 'Array' in t:
            return b''.join(d for d, _ in parts), b''.join(k for _, k in parts)
        size = self.layout(t)[0]
        data, known = bytearray(size), bytearray(size)
        for o, (d, k) in zip(self.offsets(ts, 0)[0], parts):
            data[o:o + len(d)], known[o:o + len(d)] = d, k
        return bytes(data), bytes(known)

    def op1(self, frame, v, t):
        of, a = self.number(frame, v[1])
        name = v[0] if isinstance(v[0], str) else next(iter(v[0]))
        if of != 'Bool' and 'Int' not in of or of == 'Bool' and name not in ('Not', 'Cast'):
            raise Stuck('%s of %s' % (name, of))
        if name == 'Not':
            return of, self.whole((a ^ (1 if of == 'Bool' else (1 << of['Int']) - 1)).to_bytes(self.layout(of)[0], 'little'))
        if name == 'LeadingZeros':
            return INT[32], self.whole((of['Int'] - a.bit_length()).to_bytes(4, 'little'))
        if name == 'Cast' and v[0]['Cast'][:2] == ['Unsigned', 'Unsigned']:
            width = v[0]['Cast'][2]
            if a >> width:
                raise Stuck('a cast that loses bits')
            return INT[width], self.whole(a.to_bytes(width // 8, 'little'))
        if name == 'IntToFloat' and v[0][name] == ['Unsigned', 64]:
            return FLOAT, self.whole(struct.pack('<d', float(a)))
        raise Stuck(name)

    def op2(self, frame, v, t):
        name = v[0] if isinstance(v[0], str) else next(iter(v[0]))
        if not isinstance(v[0], str) and v[0][name] != 'Unsigned':
            raise Stuck('signed')
        if name.startswith('Float'):
            given = [self.operand(frame, x) for x in v[1:]]
            if any(of != FLOAT for of, _ in given):
                raise Stuck('%s of what is no float' % name)
            a, b = [struct.unpack('<d', value[0])[0] for _, value in given]
            return FLOAT, self.whole(struct.pack('<d', {'FloatAdd': a + b, 'FloatSub': a - b}[name]))
        (of, a), (other, b) = self.number(frame, v[1]), self.number(frame, v[2])
        if name == 'Offset':
            if not self.alike(of, 'Ptr') or other != INT[64] or (a & 0xffffffff) + b >> 32:
                raise Stuck('an offset of %s by %s' % (of, other))
            return 'Ptr', self.whole((a + b).to_bytes(8, 'little'))
        if of != other or of != 'Bool' and 'Int' not in of or of == 'Bool' and name not in ('And', 'Or', 'Xor', 'Eq', 'Ne'):
            raise Stuck('%s of %s and %s' % (name, of, other))
        if name in ('Div', 'Rem') and b == 0 or name == 'Sub' and b > a or name in ('Shr', 'Shl') and b >= of['Int']:
            raise Stuck(name)
        limit = 1 << 8 * self.layout(of)[0]
        n = {'Add': lambda: a + b, 'Sub': lambda: a - b, 'Mul': lambda: a * b, 'Div': lambda: a // b, 'Rem': lambda: a % b, 'Shr': lambda: a >> b,
             'Shl': lambda: (a << b) % limit, 'And': lambda: a & b, 'Or': lambda: a | b, 'Xor': lambda: a ^ b,
             'WrapAdd': lambda: (a + b) % limit, 'WrapSub': lambda: (a - b) % limit, 'WrapMul': lambda: a * b % limit,
             'Eq': lambda: a == b, 'Ne': lambda: a != b, 'Lt': lambda: a < b, 'Le': lambda: a <= b}[name]()
        if n >= limit:
            raise Stuck('%s does not fit' % name)
        if name in ('Eq', 'Ne', 'Lt', 'Le'):
            return 'Bool', self.whole(bytes([n]))
        return of, self.whole(n.to_bytes(self.layout(of)[0], 'little'))

    # ---- code: 'next', 'return', or the number of an exit (Machine.antt: execIn)
    def run(self, frame, node):
        kind, v, subs = node
        while kind == 'Seq':
            out = self.run(frame, subs[0])
            if out != 'next':
                return out
            kind, v, subs = subs[1]
        if kind in ('Assign', 'Call'):
            return self.put(frame, kind, v)
        if kind == 'LendStatic':
            data = self.constant(v[2], v[1])
            t, b, o = self.spot(frame, v[0])
            self.store(t, b, o, self.whole((self.new(len(data), data) << 32).to_bytes(8, 'little')), 'Ptr')
            return 'next'
        if kind == 'Skip':
            return 'next'
        if kind == 'Return':
            return 'return'
        if kind == 'Unreachable':
            raise Stuck('what is never reached')
        if kind == 'Exit':
            return v
        if kind == 'Block':
            out = self.run(frame, subs[0])
            return out if isinstance(out, str) else 'next' if out == 0 else out - 1
        if kind == 'Loop':
            while True:
                out = self.run(frame, subs[0])
                if out == 'return':
                    return out
                if out not in ('next', 0):
                    return out - 1
        if kind == 'If':
            of, value = self.operand(frame, v)
            if of != 'Bool':
                raise Stuck('a test that is no bool')
            return self.run(frame, subs[0 if value[0] == b'\1' else 1])
        n = self.number(frame, v[0])[1]     # Switch
        for keys, sub in zip(v[1], subs):
            if n in keys:
                return self.run(frame, sub)
        if not v[2]:
            raise Stuck('no arm')
        return self.run(frame, subs[-1])

    def constant(self, c, t):
        """The bytes of a constant of this type: of numbers, bools, and arrays, structs and enums of such."""
        (kind, v), = c.items()
        if kind in ('Int', 'Bool') and t == ({kind: v['width']} if kind == 'Int' else 'Bool'):
            return int(v['value'] if kind == 'Int' else v).to_bytes(self.layout(t)[0], 'little')
        if kind == 'Repeat':
            kind, v = 'Parts', v[:1] * v[1]
        if kind == 'Ints':
            kind, v = 'Parts', [{'Int': {'width': v['width'], 'value': n}} for n in v['values']]
        if kind != 'Parts' or not isinstance(t, dict) or not ('Array' in t or 'Named' in t):
            raise Stuck('a constant %s' % kind)
        out = bytearray(self.layout(t)[0])
        if 'Array' in t:
            row = t['Array'][:1] * self.length(t['Array'][1])
            at = [k * self.layout(t['Array'][0])[0] for k in range(len(row))]
        else:
            enum, rows = self.rows(t)
            row = self.tagged(rows[v[0]['Int']['value']]) if enum else rows[0]
            at = self.offsets(row, 0)[0]
        if len(v) != len(row):
            raise Stuck('a constant of another size')
        for x, u, o in zip(v, row, at):
            made = self.constant(x, u)
            out[o:o + len(made)] = made
        return bytes(out)

    def put(self, frame, kind, v):
        dest = v[0] if kind == 'Assign' else v[2]
        if kind == 'Assign':
            of, value = self.rvalue(frame, v[1], self.spot(frame, dest)[0])
        else:
            given = [self.operand(frame, x) for x in v[1]]
            named = self.named(v[0])
            value = self.call(named[0], [value for _, value in given], [of for of, _ in given], named[1:])
            of = self.instance(*named)[1][0]
        t, b, o = self.spot(frame, dest)
        self.store(t, b, o, value, of)
        return 'next'

    def named(self, callee):
        """(function, types, dictionaries) of what a call names: a method of an impl takes the impl's and then its own (Inst.antt: key_of, args_of)"""
        (kind, v), = callee.items()
        if kind == 'Method' and 'Impl' in v[0]:
            impl, types, dicts = v[0]['Impl']
            if v[1] < len(self.impls.get(impl, ())):
                return self.impls[impl][v[1]], types + v[2]['types'], dicts + v[2]['dicts']
        if kind != 'Fn':
            raise Stuck('a call of another kind')
        return v[0], v[1]['types'], v[1]['dicts']

    def call(self, name, args, types=None, arguments=((), ())):
        """types: those of the arguments; from outside they are the parameters'. arguments: what is put in for the function's type parameters and dictionaries."""
        self.calls[name] = self.calls.get(name, 0) + 1
        f, locals_, tree = self.instance(name, *arguments)
        frame = []
        for t in locals_:
            size, align = self.layout(t)
            frame.append((t, self.new(size, align=align)))
        for (t, b), value, of in zip(frame[1:], args, types or [None] * len(args)):
            self.store(t, b, 0, value, of)
        if len(args) != f['params'] or self.run(frame, tree) != 'return':
            raise Stuck('a call of %s' % name)
        result = self.load(frame[0][0], frame[0][1], 0)
        for _, b in frame:
            del self.blocks[b]
        return result

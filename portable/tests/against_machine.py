"""against_machine.py LIBRARY SECONDS SEED RLIBS..: the calls of barrier.h, interpreted from the MIR (machine.py), beside the same calls of a shared library made from
barrier_engine.c: the reply and every byte of lent memory. It goes on for the seconds, and until every function that the calls reach has run, a generic one at all
types and dictionaries that C has it for; it fails where one never does.
"""
import ctypes
import pathlib
import random
import sys
import time

from machine import Machine, Stuck

sys.path.insert(0, str(pathlib.Path(__file__).resolve().parent.parent / 'translator'))
from instantiate import Instances, text  # noqa: E402
from layout import Types  # noqa: E402
from program import read_crates, origins, reached  # noqa: E402

PATIENCE = 300      # seconds, after which functions that have not run are a failure


def u64(n):
    return n.to_bytes(8, 'little')


def number(x):
    """The number form."""
    out = b''
    while x > 127:
        out, x = out + bytes([128 + x % 128]), x // 128
    return out + bytes([x])


class Hazard(ctypes.Structure):
    _fields_ = [(n, ctypes.c_uint64) for n in 'abcdef']


REPLIES = {8 * n: type('Reply%d' % n, (ctypes.Structure,), {'_fields_': [('n%d' % k, ctypes.c_uint64) for k in range(n)]}) for n in range(2, 80)}
OPEN_JOB = 55544


class Compare:
    def __init__(self, machine, library, seed):
        self.m, self.lib, self.r, self.count = machine, ctypes.CDLL(library), random.Random(seed), 0

    def both(self, name, *args):
        """args: an int (u64), ('u16', n), bytes (a slice that is read), bytearray (one that is written), [u64], ('job', bytearray), ('hazard', [6 u64])"""
        full = 'barrier_engine::barrier_' + name
        full = full if full in self.m.functions else next(n for n in self.m.functions if n.endswith('::barrier_' + name))
        mir, c, lent = [], [], []

        def lend(data, given):
            b = self.m.new(len(data), data) if data else self.m.new(1)
            buffer = (ctypes.c_uint8 * max(1, len(data))).from_buffer_copy(data or b'\0')
            c.append(buffer)
            lent.append((b, buffer, given, len(data)))
            return b
        for a in args:
            if isinstance(a, (bytes, bytearray, list)):
                b = lend(bytes(a) if not isinstance(a, list) else b''.join(map(u64, a)), a if isinstance(a, bytearray) else None)
                mir.append(self.m.whole(u64(b << 32) + u64(len(a))))
                c.append(ctypes.c_size_t(len(a)))
            elif isinstance(a, int):
                mir.append(self.m.whole(u64(a)))
                c.append(ctypes.c_uint64(a))
            elif a[0] == 'u16':
                mir.append(self.m.whole(a[1].to_bytes(2, 'little')))
                c.append(ctypes.c_uint16(a[1]))
            elif a[0] == 'hazard':
                mir.append(self.m.whole(b''.join(map(u64, a[1]))))
                c.append(Hazard(*a[1]))
            else:
                mir.append(self.m.whole(u64(lend(bytes(a[1]), a[1]) << 32)))
        data, known = self.m.call(full, mir)
        if 0 in known:
            raise Stuck('a reply that was not written')
        call = getattr(self.lib, 'barrier_' + name)
        call.restype = REPLIES[len(data)] if len(data) > 4 else ctypes.c_uint32
        got = call(*c)
        got = bytes(got) if len(data) > 4 else got.to_bytes(4, 'little')
        for b, buffer, given, n in lent:
            seen = bytes(self.m.blocks[b][0])[:n]
            if seen != bytes(buffer)[:n] or 0 in self.m.blocks[b][1][:n]:
                sys.exit('machine: %s%r: the memory differs' % (name, args))
            if given is not None:
                given[:] = seen
            del self.m.blocks[b]
        if got != data:
            sys.exit('machine: %s%r: %s interpreted, %s in C' % (name, args, data.hex(), got.hex()))
        self.count += 1
        return [int.from_bytes(data[k:k + 8], 'little') for k in range(0, len(data), 8)]

    def header(self, count):
        r, length = self.r.randint, self.r.choice([self.r.randint(1, 300000), self.r.randint(1, 2000000000)])
        a = self.r.choice([r(0, 1000), r(0, 10 ** 12 - length)])
        h = [r(1, 2), a, a + length, r(1, 200000), self.r.choice([0, r(0, 200000)]), r(1, 30000), r(0, 20000), r(0, 4000), r(1, 1000), r(1, 100), r(0, 10), r(0, 100000), r(0, 200000)]
        h += [r(1, 10000)] if h[0] == 2 else []
        if r(0, 30) == 0:
            h[r(0, len(h) - 1)] += r(1, 1000000)
        return a, a + length, b''.join(map(number, h + [count]))

    def hazard(self, a, b, side=None):
        r = self.r.randint
        s = r(a, b - 1)
        near = r(5000, 15000) if r(0, 60) else r(0, 70000)
        return [r(0, 1) if side is None else side, s, r(s + 1, min(b, s + 50000)), near, near + r(0, 20000), r(1, 6)]

    def crowded(self, n, road):
        """Many reached hazards on one side, their starts in no order: the sort spreads them over its boxes."""
        h = [1, 0, road, 1000, 0, 30000, 0, 100, 1, 1, 0, 0, 10, n]
        starts = [self.r.randrange(road - 5) for _ in range(n)]
        return b''.join(map(number, h)) + b''.join(number(x) for s in starts for x in [0, s, s + 1 + self.r.randrange(4), 1000, 2000, self.r.randint(1, 6)])

    def chosen(self):
        """What random jobs seldom have: a hazard nearer than the barrier can deflect, an opening with a hazard or without a header, the sort's boxes."""
        header = [1, 0, 1000000, 101000, 0, 9000, 0, 3000, 1000, 15, 1, 13340, 0]
        near = b''.join(map(number, header + [2, 0, 200000, 210000, 5000, 9000, 3, 1, 300000, 310000, 3999, 9000, 3]))
        for call, more in (('plan', (0, bytearray(20))), ('level', (0, 5)), ('corners', (0, 0, 0)), ('offset', (0, 0))):
            self.both(call, near, *more)
        for kind in ([1], [2]):
            panel = [4000] if kind == [2] else []
            self.both('open', ('job', bytearray(OPEN_JOB)), b''.join(map(number, kind + header[1:] + panel + [1])))
        self.both('open', ('job', bytearray(OPEN_JOB)), b'')
        self.both('plan', near[:-1], 0, bytearray(20))
        self.both('quantities', b'\0', 0, [])
        self.both('layout', [], 0, 1)
        for n, road in ((32, 3000000), (33, 40), (24, 3000000), (24, 40)):
            self.both('plan', self.crowded(n, road), 0, bytearray(b'\xa5' * 700))
        self.day()

    def day(self):
        """Every call done: two hazards of each side, on a two-way road in whole panels."""
        header = [2, 0, 1000000, 101000, 90000, 9000, 3500, 3000, 1000, 15, 1, 13340, 20000, 4000]
        hazards = [[0, 200000, 210000, 5000, 9000, 3], [0, 240000, 250000, 5000, 8000, 2], [1, 500000, 510000, 5000, 9000, 4], [1, 3000, 9000, 5500, 9000, 1]]
        job = b''.join(map(number, header + [4] + sum(hazards, [])))
        schedules = []
        for side in (0, 1):
            out = bytearray(b'\xa5' * 80)
            length = self.both('plan', job, side, out)[1]
            schedules.append(bytes(out[:length]))
            self.both('quantity', schedules[-1], 3 + side, 100000, 600000)
            self.both('quantities', schedules[-1], 3 + side, [0, 205000, 205000, 505000, 7, 7, 190000, 900000])
            for station in (205000, 505000, 5000, 999999):
                self.both('lookup', schedules[0], schedules[-1], side, station)
                self.both('level', job, side, station)
        for k in range(5):
            self.both('corners', job, k, 160000, 4000)
            self.both('offset', job, k, 44227)
            self.both('offset', job, k, 1)
            self.both('reach', job, k)
        self.both('layout', [4000, 2500, 1700, 900], 9000, 40)
        self.both('version')
        memory = bytearray(b'\x5a' * OPEN_JOB)
        self.both('open', ('job', memory), b''.join(map(number, header + [0])))
        for name, hazard in zip((7, 1020, 3, 65535), hazards):
            self.both('add', ('job', memory), ('u16', name), ('hazard', hazard))
        for call, more in (('keep', 2), ('keep', 9), ('return', 3), ('return', 9)):
            self.both(call, ('job', memory), more)
        self.both('withdraw', ('job', memory), ('u16', 1020))
        self.both('withdraw', ('job', memory), ('u16', 1020))
        self.both('add', ('job', memory), ('u16', 3), ('hazard', hazards[0]))
        for side in (0, 1, 2):
            self.both('open_schedule', ('job', memory), side, bytearray(80))
        self.both('return', ('job', memory), 2)
        self.both('open_schedule', ('job', memory), 0, bytearray(3))
        for name in (7, 8, 65535):
            self.both('open_reach', ('job', memory), ('u16', name))

    def round(self):
        r = self.r.randint
        n = self.r.choice([0, 1, 2, 5, 12])
        a, b, job = self.header(n)
        job += b''.join(number(x) for _ in range(n) for x in self.hazard(a, b))
        if r(0, 5) == 0:
            job = bytearray(job)
            job[r(0, len(job) - 1)] ^= 1 << r(0, 7)
            job = bytes(job)
        if r(0, 9) == 0:
            job = job[:r(0, len(job))]
        outs, lengths = [bytearray(b'\xa5' * 600), bytearray(b'\xa5' * 600)], []
        for side in (0, 1):
            reply = self.both('plan', job, side, outs[side])
            lengths.append(reply[1] if reply[0] == 0 else 0)
        self.both('plan', job, self.r.choice([0, 1, 2, 2 ** 64 - 1]), bytearray(r(0, 20)))
        s = bytes(outs[0][:lengths[0]])
        if s and r(0, 4) == 0:
            s = s[:r(0, len(s))]

        def station():
            return self.r.choice([r(a, b), r(0, 2 ** 64 - 1)])
        self.both('lookup', s, bytes(outs[1][:lengths[1]]), r(0, 2), station())
        self.both('quantity', s, r(0, 7), *sorted([station(), station()]))
        self.both('quantities', s, r(1, 6), sorted(r(a, b) for _ in range(2 * r(0, 65) + (r(0, 9) == 0))))
        self.both('level', job, r(0, 2), station())
        self.both('corners', job, r(0, max(1, n)), r(0, 2 * 10 ** 12), r(0, 100000))
        self.both('offset', job, r(0, max(1, n)), r(0, 200000))
        self.both('reach', job, self.r.choice([r(0, max(1, n)), 2 ** 64 - 1]))
        self.both('layout', [r(0, 20500) if r(0, 9) == 0 else r(1, 20000) for _ in range(r(0, 5))], self.r.choice([r(0, 100000), r(0, 2 ** 64 - 1)]), r(0, 60))
        self.both('version')
        self.open_job()

    def open_job(self):
        r = self.r.randint
        memory = bytearray(self.r.choice([bytes(OPEN_JOB), bytes(self.r.getrandbits(8) for _ in range(OPEN_JOB))]))
        self.both('open', ('job', memory), self.header(0)[2])
        a, b = [int.from_bytes(memory[k:k + 8], 'little') for k in (8, 16)]
        for _ in range(r(0, 8)):
            what = r(0, 9)
            if what < 5:
                self.both('add', ('job', memory), ('u16', r(0, 6)), ('hazard', self.hazard(a, b) if a < b < 2 ** 62 else [0] * 6))
            elif what < 7:
                self.both('withdraw', ('job', memory), ('u16', r(0, 6)))
            else:
                self.both('keep' if what < 9 else 'return', ('job', memory), r(0, 8))
        if r(0, 5) == 0:
            memory[r(0, len(memory) - 1)] ^= 1
        self.both('open_schedule', ('job', memory), r(0, 2), bytearray(600))
        self.both('open_reach', ('job', memory), ('u16', r(0, 6)))


# To call it is to be stuck, so no run does: it says that its place is never reached.
STUCK = 'core::assertions::unreachable'


def dictionary(d):
    impl, types, dicts = d['Impl']
    return impl, tuple(map(text, types)), tuple(map(dictionary, dicts))


def instance(name, types, dicts):
    """A function at its arguments, without the lifetimes, which are written otherwise at each call."""
    return name, tuple(map(text, types)), tuple(map(dictionary, dicts))


def instances(functions):
    """instance -> its name, of all that the calls reach but what no run can call: as many as C has functions of them."""
    made = Instances(functions, Types())
    names = [name for name in reached(made, functions.of('barrier_engine')) if made.origin(name) != STUCK]
    found = {instance(*made.asked.get(name, (name, [], []))): name for name in names}
    if len(found) != len(names):
        sys.exit('machine: two instances of a function are taken for one')
    return found


def main():
    library, seconds, seed, folders = sys.argv[1], float(sys.argv[2]), int(sys.argv[3]), sys.argv[4:]
    sys.setrecursionlimit(20000)
    functions = read_crates(folders, 'barrier_engine')
    wanted = instances(functions)
    machine = Machine({n: functions[n] for n in origins(functions, functions.of('barrier_engine'))})
    compare, begin = Compare(machine, library, seed), time.time()
    compare.chosen()
    never = wanted.values()
    while never or time.time() < begin + seconds:
        compare.round()
        ran = {instance(*called) for called in machine.ran}
        never = [name for key, name in wanted.items() if key not in ran]
        if time.time() > begin + PATIENCE:
            sys.exit('machine: never run in %d s: %s' % (PATIENCE, ', '.join(never)))
    print('machine: %d calls interpreted from the MIR, the same in C, %d of %d functions run, the generic ones at each of their types (seed %d)'
          % (compare.count, len(wanted) - len(never), len(wanted), seed))


if __name__ == '__main__':
    main()

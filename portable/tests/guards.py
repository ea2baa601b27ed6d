"""guards.py: for each guard of the translator's rules a small piece of MIR that needs it, with the answer that it has to give: interpreted, as usual C and as plain C. Without the guard the usual C
gives another answer (mutants.py sees that it does).
"""
import ctypes
import os
import pathlib
import sys

HERE = pathlib.Path(__file__).resolve().parent
sys.path.insert(0, os.environ.get('TRANSLATOR', str(HERE.parent / 'translator')))
from machine import Machine, Stuck  # noqa: E402
from program import Program  # noqa: E402
from random_mir import A, A_TYPE, NOT_GENERIC, S, SHAPES as PLAIN_SHAPES, T, U16, U64, copy, declared, field, fn, int_, libraries, named, ref, repeat, slice_of  # noqa: E402
from refusals import assign, function, op, place  # noqa: E402

EMPTY = {'Array': [U64, {'Lit': 0}]}
LARGE = {'Array': [U64, {'Lit': 16}]}       # more than 64 bytes: made in place
R, Q = named('R'), named('Q')
TYPES = [declared('r::R', {'Fields': [LARGE, U64, LARGE]}), declared('r::Q', {'Fields': [U64, A]})]


def opd(x):
    return {'Opd': copy(x) if 'local' in x else x}


def xor(a, b):
    return {'Op2': ['Xor', a, b]}


def call(name, given, to):
    return [{'Call': [fn(name), given, to]}]


def if_(c, yes, no=()):
    out = [{'If': c}]
    for body in (yes, no):
        out += sequence(list(body))
    return out


def sequence(statements):
    out = []
    for s in statements[:-1]:
        out += ['Seq'] + s
    return out + (statements[-1] if statements else ['Skip'])


def loop(statements):
    return ['Block', 'Loop'] + sequence(statements)


def entry(locals_, statements):
    """f(a, b) over these locals, from 3 on."""
    return function([U64, U64, U64] + locals_, 2, statements, SHAPES)


SHAPES = PLAIN_SHAPES + TYPES
V, W, X3, Y3, Z3 = (place(k) for k in range(3, 8))
RES = place(0)
a, b = copy(place(1)), copy(place(2))


def struct_t(p, first):
    return assign(p, {'Aggregate': [first, int_(2), int_(3)]})


def element_of(array, index, bytes_, start, pointer):
    """Statements that leave in `pointer` the address of array[index]."""
    return [assign(bytes_, op('Mul', copy(index), int_(8))), assign(start, {'AddrOf': array}), assign(pointer, {'Op2': ['Offset', copy(start), copy(bytes_)]})]


# Two callees: bump(&mut T) adds 1 to its first field and gives the old one; both(T, &mut T) changes the second, then gives the first field of the first.
def behind(k):
    return place(k, {'Deref': T}, field(0))


CALLEES = {
    'r::bump': function([U64, ref(T), U64], 1, [assign(RES, opd(behind(1))), assign(place(2), {'Op2': ['And', copy(behind(1)), int_(65535)]}),
                                                assign(behind(1), op('Add', copy(place(2)), int_(1)))], SHAPES),
    'r::both': function([U64, T, ref(T)], 2, [assign(behind(2), {'Opd': int_(77)}), assign(RES, opd(place(1, field(0))))], SHAPES),
    'r::odd': function(['Bool', U64, U64], 1, [assign(place(2), op('Rem', a, int_(2))), assign(RES, op('Eq', copy(place(2)), int_(1), None))], SHAPES),
    'r::first': function([U64, T], 1, [assign(RES, opd(place(1, field(0))))], SHAPES),
    'r::spoil': function([U64, T], 1, [assign(place(1, field(0)), {'Opd': int_(8)}), assign(RES, opd(place(1, field(1))))], SHAPES),
    'r::keep': function([U64, T, T], 1, [assign(place(2), opd(place(1))), assign(place(1, field(0)), {'Opd': int_(8)}), assign(RES, xor(copy(place(2, field(0))), copy(place(1, field(0)))))], SHAPES),
    'r::fill': function(['Unit', slice_of('Mut'), U64, 'Ptr'], 2, [assign(place(3), {'Op2': ['Offset', copy(place(1, field(0))), int_(8)]}), assign(place(3, {'Deref': U64}), opd(place(2)))], SHAPES),
    'r::read': function([U64, slice_of('Imm'), 'Ptr'], 1, [assign(place(2), {'Op2': ['Offset', copy(place(1, field(0))), int_(8)]}), assign(RES, opd(place(2, {'Deref': U64})))], SHAPES),
}


def impl(name, *types):
    return {'Impl': ['r::' + name, list(types), []]}


def call_at(callee, dictionaries, types, given, to):
    """A call at types and dictionaries: of a function, or of the first method of an impl."""
    at = {'types': types, 'dicts': dictionaries}
    return [{'Call': [{'Fn': [callee, at]} if isinstance(callee, str) else {'Method': [callee, 0, at]}, given, to]}]


# `through` calls the method of whatever impl it is given; `sizes` is the method of an impl with a type of its own, and takes one more.
IMPLS = [{'name': 'r::' + name, 'methods': ['r::' + method]} for name, method in (('Adds', 'plus'), ('Takes', 'less'), ('Sizes', 'sizes'))]
CALLEES.update({
    'r::plus': function([U64, U64], 1, [assign(RES, {'Op2': ['WrapAdd', a, int_(3)]})]),
    'r::less': function([U64, U64], 1, [assign(RES, {'Op2': ['WrapSub', a, int_(3)]})]),
    'r::through': dict(function([U64, U64], 1, [call_at({'Given': 0}, [], [], [a], RES)]), generics=dict(NOT_GENERIC, bounds=[{}], impls=IMPLS)),
    'r::sizes': dict(function([U64, U64], 0, [assign(place(1), op('Mul', {'SizeOf': {'Param': 0}}, int_(100))), assign(RES, op('Add', copy(place(1)), {'SizeOf': {'Param': 1}}))]),
                     generics=dict(NOT_GENERIC, types=[A_TYPE, A_TYPE])),
})
m = ('memory', T)
ma = ('memory', A)


def boolean(steps):
    """Tests of a and b, one local for each, as a number. ('And', 0, 1) is over two earlier ones, a name a call of that function with a."""
    out = []
    for k, step in enumerate(steps):
        to = place(3 + k)
        if isinstance(step, str):
            out.append(call(step, [a], to))
        else:
            out.append(assign(to, step if isinstance(step, dict) else {'Op2': [step[0], copy(place(3 + step[1])), copy(place(3 + step[2]))]}))
    return entry(['Bool'] * len(steps), out + [assign(RES, {'Op1': [{'Cast': ['Unsigned', 'Unsigned', 64]}, copy(place(2 + len(steps)))]})])


def parts_piece():
    """q = [{ 0, [7; 4] }; 2]; q[q[0].n] = { 1, [b; 4] }; q[0].values[2]"""
    two, first, start, n, bytes_, to, values = place(3), place(7), place(6), place(8), place(9), place(10), place(13)
    return entry([('memory', {'Array': [Q, {'Lit': 2}]}), A, Q, 'Ptr', 'Ptr', U64, U64, 'Ptr', A, U64, ('memory', A), 'Ptr', 'Ptr'], [
        assign(place(4), repeat(int_(7), 4)), assign(place(5), {'Aggregate': [int_(0), copy(place(4))]}), assign(two, {'Aggregate': [copy(place(5)), copy(place(5))]}),
        assign(start, {'AddrOf': two}), assign(first, {'Op2': ['Offset', copy(start), int_(0)]}), assign(n, opd(place(7, {'Deref': Q}, field(0)))),
        assign(bytes_, op('Mul', copy(n), int_(40))), assign(to, {'Op2': ['Offset', copy(start), copy(bytes_)]}), assign(place(11), repeat(b, 4)),
        assign(place(10, {'Deref': Q}), {'Aggregate': [int_(1), copy(place(11))]}),
        assign(start, {'AddrOf': two}), assign(first, {'Op2': ['Offset', copy(start), int_(0)]}), assign(values, opd(place(7, {'Deref': Q}, field(1)))),
        assign(place(14), {'AddrOf': values}), assign(place(15), {'Op2': ['Offset', copy(place(14)), int_(16)]}), assign(RES, opd(place(15, {'Deref': U64})))])


def turns(first, last, inside, name='Lt', step=1, between=(), otherwise=(), k=U64, more=()):
    """for k in first..last { inside }: k is V, last W, the test X3, and Y3 what is counted; with the next three locals, k and what was counted are the answer."""
    return entry([k, U64, 'Bool', U64, U64] + list(more), [assign(Y3, {'Opd': a}), assign(V, {'Opd': int_(first)}), assign(W, {'Opd': int_(last)}), *between,
                 loop([assign(X3, op(name, copy(V), copy(W))), if_(copy(X3), [], [*otherwise, [{'Exit': 1}]]), *inside, assign(V, op('Add', copy(V), int_(step)))]),
                 if_(copy(X3), [assign(Y3, xor(copy(Y3), b))]), assign(Z3, {'Op2': ['WrapMul', copy(Y3), int_(9)]}), assign(RES, xor(copy(Z3), copy(V)))])


count = [assign(Y3, {'Op2': ['WrapMul', copy(Y3), int_(3)]}), assign(Y3, xor(copy(Y3), copy(V)))]
ninth = place(9)
lend = assign(W, {'AddrOf': V})
PIECES = {
    'a loop of three turns': turns(1, 4, count),
    'a loop that reads its test': turns(1, 4, count + [if_(copy(X3), [assign(Y3, {'Op2': ['WrapAdd', copy(Y3), int_(7)]})])]),
    'a loop of no turns': turns(5, 2, count),
    'a loop that writes its number': turns(0, 6, count + [assign(V, op('Add', copy(V), int_(1)))]),
    'a loop that writes its end': turns(0, 6, count + [assign(W, {'Opd': int_(2)})]),
    'a loop that ends with its test\'s other branch': turns(0, 3, count, otherwise=[assign(Y3, xor(copy(Y3), int_(5)))]),
    'a loop to its end and with it': turns(0, 3, count, name='Le'),
    'a loop with every second number': turns(0, 6, count, step=2),
    'a loop whose end a branch writes': turns(0, 6, count, between=[assign(X3, op('Lt', a, b)), if_(copy(X3), [assign(W, {'Opd': int_(2)})])]),
    'a loop whose end is a call\'s': turns(0, 6, count, between=[assign(ninth, op('Rem', a, int_(4))), call('r::plus', [copy(ninth)], W)], more=[U64, U64]),
    'a loop that is left': turns(0, 6, count + [assign(X3, op('Le', int_(2), copy(V))), if_(copy(X3), [[{'Exit': 1}]])]),
    'a loop that goes on': turns(0, 6, [assign(V, op('Add', copy(V), int_(1)))] + count + [assign(X3, op('Le', int_(2), copy(V))), if_(copy(X3), [[{'Exit': 0}]])], step=0),
    'a loop whose number is lent': turns(0, 6, count + [assign(place(8), {'AddrOf': V}), assign(place(8, {'Deref': U64}), op('Add', copy(V), int_(1)))], k=('memory', U64), more=[ref(U64)]),
    'a branch that is never taken': entry(['Bool', U64, U64], [assign(V, op('Lt', a, a)), if_(copy(V), [['Unreachable']], [assign(W, xor(a, b))]), if_(copy(V), [assign(X3, xor(a, a))], [assign(X3, xor(b, int_(9)))]),
                                                              assign(V, op('Le', a, a)), if_(copy(V), [assign(W, xor(copy(W), copy(X3)))], [['Unreachable']]), assign(RES, opd(W))]),
    'an arm that is never taken': entry([U64, U64], [assign(V, op('Rem', a, int_(3))), assign(V, op('Add', copy(V), int_(1))),
                                                     [{'Switch': [copy(V), [[0], [1]], True]}] + ['Unreachable'] + assign(W, opd(a)) + assign(W, xor(a, b)), assign(RES, opd(W))]),
    'an end that is never reached': entry(['Bool'], [assign(V, op('Lt', a, b)), if_(copy(V), [assign(RES, opd(a)), ['Return']], [assign(RES, xor(a, b)), ['Return']]), ['Unreachable']]),
    'one function with two impls': entry([U64, U64], [call_at('r::through', [impl('Adds')], [], [a], V), call_at('r::through', [impl('Takes')], [], [b], W), assign(RES, xor(copy(V), copy(W)))]),
    'a method at a type of its impl and one of its own': entry([U64], [call_at(impl('Sizes', U16), [], [U64], [], V), assign(RES, xor(copy(V), a))]),
    'a value that a lent call changes after': entry([m, ref(T), U64, U64], [struct_t(V, a), assign(X3, opd(place(3, field(0)))), lend, call('r::bump', [copy(W)], Y3), assign(RES, opd(X3))]),
    'a call that writes is made where it stands': entry([m, ref(T), U64, U64, U64, U64], [struct_t(V, a), lend, call('r::bump', [copy(W)], Y3), assign(X3, opd(place(3, field(0)))), assign(Z3, op('Div', copy(X3), int_(3))),
                                                        assign(place(8), xor(copy(X3), copy(Y3))), assign(RES, xor(copy(place(8)), copy(Z3)))]),
    'a copy of a parameter that is changed after': entry([T, U64], [struct_t(V, a), call('r::keep', [copy(V)], W), assign(RES, opd(W))]),
    'a value whose index changes after': entry([ma, U64, U64, 'Ptr', 'Ptr', U64, U64, U64], [assign(V, {'Aggregate': [a, b, int_(5), int_(6)]}), assign(W, op('Rem', a, int_(2))), assign(place(9), op('Div', copy(W), int_(2)))] +
                                               element_of(V, W, X3, Y3, Z3) + [assign(place(8), opd(place(7, {'Deref': U64}))), assign(W, {'Opd': int_(2)}), assign(place(10), xor(copy(place(8)), copy(W))), assign(RES, xor(copy(place(10)), copy(place(9))))]),
    'an element that is changed after': entry([ma, U64, U64, 'Ptr', 'Ptr', U64], [assign(V, {'Aggregate': [a, b, int_(5), int_(6)]}), assign(W, {'Opd': int_(1)})] + element_of(V, W, X3, Y3, Z3) +
                                              [assign(place(8), opd(place(7, {'Deref': U64}))), assign(place(7, {'Deref': U64}), {'Opd': int_(9)}), assign(RES, opd(place(8)))]),
    'a value through a pointer, changed through it after': entry([m, ref(T), U64], [struct_t(V, a), lend, assign(X3, opd(place(4, {'Deref': T}, field(0)))), assign(place(4, {'Deref': T}, field(0)), {'Opd': int_(4)}), assign(RES, opd(X3))]),
    'a local in memory, changed through a pointer': entry([m, ref(T), U64], [struct_t(V, a), lend, assign(X3, opd(place(3, field(0)))), assign(place(4, {'Deref': T}, field(0)), {'Opd': int_(4)}), assign(RES, opd(X3))]),
    'a call that reads memory, before it is changed': entry([ma, ref(A, 'Imm'), slice_of('Imm'), U64, ref(A), slice_of('Mut'), 'Unit'], [
        assign(V, {'Aggregate': [a, b, int_(5), int_(6)]}), assign(W, {'AddrOf': V}), assign(X3, {'Aggregate': [copy(W), int_(4)]}), call('r::read', [copy(X3)], Y3),
        assign(Z3, {'AddrOf': V}), assign(place(8), {'Aggregate': [copy(Z3), int_(4)]}), call('r::fill', [copy(place(8)), int_(3)], place(9)), assign(RES, opd(Y3))]),
    'a value from before a branch': entry([U64, U64, 'Bool'], [assign(V, op('Div', a, int_(3))), assign(X3, op('Lt', a, b)), if_(copy(X3), [assign(place(1), {'Opd': int_(9)})]), assign(RES, opd(V))]),
    'a value that is read twice': entry([U64], [assign(V, op('Div', a, int_(3))), assign(place(1), xor(copy(V), b)), assign(RES, xor(copy(V), a))]),
    'a struct that is written in part': entry([T, U64], [struct_t(V, a), assign(place(3, field(1)), {'Opd': b}), assign(RES, xor(copy(place(3, field(0))), copy(place(3, field(1)))))]),
    'a copy, and then the original is changed': entry([T, T], [struct_t(V, a), assign(W, opd(V)), assign(place(3, field(0)), {'Opd': int_(6)}), assign(RES, xor(copy(place(3, field(0))), copy(place(4, field(0)))))]),
    'a copy that is changed': entry([T, T], [struct_t(V, a), assign(W, opd(V)), assign(place(4, field(0)), {'Opd': int_(6)}), assign(RES, opd(place(3, field(0))))]),
    'a copy of what is lent and changed': entry([m, ref(T), T, U64], [struct_t(V, a), assign(X3, opd(V)), lend, call('r::bump', [copy(W)], Y3), assign(RES, opd(place(5, field(0))))]),
    'a copy in a loop of what the loop makes anew': entry([T, T, U64, 'Bool', 'Bool'], [
        assign(X3, {'Opd': int_(0)}), assign(RES, {'Opd': int_(0)}),
        loop([assign(Y3, op('Lt', copy(X3), int_(2))), if_(copy(Y3), [], [[{'Exit': 1}]]), assign(V, {'Aggregate': [copy(X3), a, b]}),
              assign(Z3, op('Lt', int_(0), copy(X3))), if_(copy(Z3), [assign(RES, opd(place(4, field(0))))]), assign(W, opd(V)), assign(X3, op('Add', copy(X3), int_(1)))]),
        assign(RES, xor(copy(RES), int_(16)))]),
    'an argument that its call is lent too': entry([m, ref(T), T, U64], [struct_t(V, a), assign(X3, opd(V)), lend, call('r::both', [copy(X3), copy(W)], Y3), assign(RES, opd(Y3))]),
    'an argument in memory that its call is lent too': entry([m, ref(T), U64], [struct_t(V, a), lend, call('r::both', [copy(V), copy(W)], X3), assign(RES, opd(X3))]),
    'a parameter that the callee changes': entry([T, U64], [struct_t(V, a), call('r::spoil', [copy(V)], W), assign(RES, xor(copy(W), copy(place(3, field(0)))))]),
    'a switch with two keys in one arm': entry([U64, U64], [assign(V, op('Rem', a, int_(4))), [{'Switch': [copy(V), [[1], [3, 0]], True]}] + sequence([assign(W, {'Opd': int_(5)})]) + sequence([assign(W, {'Opd': int_(6)})]) + sequence([assign(W, {'Opd': int_(7)})]), assign(RES, opd(W))]),
    'a test that is always true, or another': entry(['Bool', 'Bool', 'Bool', U64], [assign(V, op('Lt', a, b)), assign(W, op('Le', int_(0), b)), assign(X3, {'Op2': ['Or', copy(V), copy(W)]}), if_(copy(X3), [assign(Y3, {'Opd': int_(3)})], [assign(Y3, {'Opd': int_(4)})]), assign(RES, opd(Y3))]),
    'one of two, and true, and another': boolean([op('Lt', a, b), op('Eq', a, b, None), ('Or', 0, 1), op('Le', int_(0), a), ('And', 2, 3), op('Lt', a, int_(4)), ('And', 4, 5)]),
    'equal, and true, and a call': boolean([op('Eq', a, b, None), op('Le', int_(0), a), ('And', 0, 1), 'r::odd', ('And', 2, 3)]),
    'one of two, and a third, and true': boolean([op('Lt', a, b), op('Eq', a, b, None), ('Or', 0, 1), op('Lt', a, int_(4)), ('Or', 2, 3), op('Le', int_(0), b), ('And', 4, 5)]),
    'a test and false, or another': boolean([op('Lt', a, b), {'Op2': ['And', copy(place(3)), 'False']}, op('Lt', b, int_(4)), ('Or', 1, 2)]),
    'the place of a struct is made from what the struct replaces': parts_piece(),
    'a thing is copied onto itself': entry([('memory', S), ref(S), ref(S), A, 'Ptr', 'Ptr'], [
        assign(place(6), repeat(a, 4)), assign(V, {'Aggregate': [a, int_(3, 16), copy(place(6))]}), assign(W, {'AddrOf': V}), assign(X3, {'AddrOf': V}),
        assign(place(4, {'Deref': S}, field(2)), opd(place(5, {'Deref': S}, field(2)))), assign(Z3, {'AddrOf': place(3, field(2))}),
        assign(place(8), {'Op2': ['Offset', copy(Z3), int_(8)]}), assign(RES, opd(place(8, {'Deref': U64})))]),
    'a branch where a <= b fails': entry(['Bool', U64], [assign(W, {'Opd': int_(3)}), assign(V, op('Le', a, b)), if_(copy(V), [], [assign(W, {'Opd': int_(4)})]), assign(RES, opd(W))]),
    'a branch where a < b fails': entry(['Bool', U64], [assign(W, {'Opd': int_(3)}), assign(V, op('Lt', a, b)), if_(copy(V), [], [assign(W, {'Opd': int_(4)})]), assign(RES, opd(W))]),
    'a thing is copied onto itself, through one reference': entry([('memory', S), ref(S), A, 'Ptr', 'Ptr'], [
        assign(place(5), repeat(a, 4)), assign(V, {'Aggregate': [a, int_(3, 16), copy(place(5))]}), assign(W, {'AddrOf': V}),
        assign(place(3, field(2)), opd(place(4, {'Deref': S}, field(2)))), assign(place(6), {'AddrOf': place(3, field(2))}),
        assign(place(7), {'Op2': ['Offset', copy(place(6)), int_(8)]}), assign(RES, opd(place(7, {'Deref': U64})))]),
    'a sum that wraps in 16 bits, and a difference': entry([U16, U16, U16, U16, U64], [
        assign(V, {'Op2': ['WrapSub', int_(2, 16), int_(9, 16)]}), assign(W, {'Op2': ['WrapAdd', copy(V), int_(65530, 16)]}), assign(X3, op('Div', copy(W), int_(3, 16))),
        assign(Z3, {'Op1': [{'Cast': ['Unsigned', 'Unsigned', 64]}, copy(X3)]}), assign(RES, {'Op2': ['WrapAdd', copy(Z3), a]})]),
    'a difference that wraps, shifted': entry([U64, U64], [assign(V, {'Op2': ['WrapSub', a, b]}), assign(W, op('Shr', copy(V), int_(7))), assign(RES, {'Op2': ['WrapSub', copy(W), copy(V)]})]),
    'an empty constant that is lent': entry([ref(EMPTY, 'Imm'), ref(U64, 'Imm'), slice_of('Imm'), U64], [
        [{'LendStatic': [V, EMPTY, {'Repeat': [int_(0), 0]}]}], assign(W, {'AddrOf': place(3, {'Deref': U64})}), assign(X3, {'Aggregate': [copy(W), int_(0)]}),
        assign(Y3, opd(place(5, field(1)))), assign(RES, xor(copy(Y3), a))]),
    'a difference of a difference': entry([U64, U64], [assign(V, {'Op2': ['Or', a, b]}), assign(W, op('Sub', copy(V), b)), assign(RES, op('Sub', copy(V), copy(W)))]),
}
# Where the interpreter has to be stuck, as the logic's machine is.
STUCK = {
    'a struct of which two fields were never written': entry([T, T], [assign(place(3, field(0)), {'Opd': a}), assign(W, opd(V)), assign(RES, {'Opd': a})]),
    'a sum of two widths': entry([], [assign(RES, op('Add', a, int_(1, 8)))]),
    'a sum that does not fit': entry([], [assign(RES, op('Add', a, int_(2 ** 64 - 1)))]),
    'a byte as a number of 64 bits': entry([{'Int': 8}], [assign(V, {'Opd': int_(1, 8)}), assign(RES, opd(V))]),
    'a struct of other parts': entry([T], [assign(V, {'Aggregate': [a, int_(1, 8), b]}), assign(RES, {'Opd': a})]),
    'an element at an odd offset': entry([ma, 'Ptr', 'Ptr'], [assign(V, repeat(a, 4)), assign(W, {'AddrOf': V}), assign(X3, {'Op2': ['Offset', copy(W), int_(3)]}),
                                                              assign(RES, opd(place(5, {'Deref': U64})))]),
    'an element behind the last': entry([ma, 'Ptr', 'Ptr'], [assign(V, repeat(a, 4)), assign(W, {'AddrOf': V}), assign(X3, {'Op2': ['Offset', copy(W), int_(32)]}),
                                                             assign(RES, opd(place(5, {'Deref': U64})))]),
    'a bool that is 2': entry([('memory', {'Int': 8}), 'Ptr', 'Bool'], [assign(V, {'Opd': int_(2, 8)}), assign(W, {'AddrOf': V}), assign(X3, opd(place(4, {'Deref': 'Bool'}))), assign(RES, {'Opd': a})]),
    'a test that is a number': entry([], [assign(RES, {'Opd': a}), if_(a, [])]),
}


def is_stuck(f):
    machine = Machine(dict(CALLEES, **{'r::main': f}))
    try:
        machine.call('r::main', [machine.whole((5).to_bytes(8, 'little'))] * 2)
    except Stuck:
        return True
    return False


def result_pieces():
    """Functions whose large result is made in place, or must not be; each with an entry that reads some of it."""
    def made(p, n):
        return assign(p, repeat(n, 16))
    one, two, three = place(3), place(4), place(5)
    bodies = {
        'one local becomes two fields': ([LARGE], [made(one, a), assign(RES, {'Aggregate': [copy(one), a, copy(one)]}), ['Return']]),
        'two locals, each its field': ([LARGE, LARGE], [made(one, a), made(two, b), assign(RES, {'Aggregate': [copy(one), a, copy(two)]}), ['Return']]),
        'two locals change places': ([LARGE, LARGE], [made(one, a), made(two, b), if_('True', [assign(RES, {'Aggregate': [copy(two), a, copy(one)]}), ['Return']]), assign(RES, {'Aggregate': [copy(one), b, copy(two)]}), ['Return']]),
        'two locals for one field': ([LARGE, LARGE, LARGE, 'Bool'], [made(one, a), made(two, b), made(three, a), assign(place(6), op('Lt', a, b)), if_(copy(place(6)), [assign(RES, {'Aggregate': [copy(one), a, copy(three)]}), ['Return']]), assign(RES, {'Aggregate': [copy(two), b, copy(three)]}), ['Return']]),
        'a whole result, or one of parts': ([R, LARGE, LARGE, 'Bool'], [made(two, a), made(three, b), assign(one, {'Aggregate': [copy(two), a, copy(three)]}), assign(place(6), op('Lt', a, b)), if_(copy(place(6)), [assign(RES, opd(one)), ['Return']]), assign(RES, {'Aggregate': [copy(three), b, copy(two)]}), ['Return']]),
        'a part that is changed behind the result': ([LARGE, LARGE], [made(one, a), made(two, b), assign(RES, {'Aggregate': [copy(one), a, copy(two)]}), made(one, int_(7)), ['Return']]),
        'a value that is made of its own parts': ([R, LARGE, LARGE], [made(two, a), made(three, b), assign(one, {'Aggregate': [copy(two), a, copy(three)]}), assign(one, {'Aggregate': [copy(place(3, field(2))), b, copy(place(3, field(0)))]}), assign(RES, opd(one)), ['Return']]),
        'a result that is changed before it is returned': ([LARGE, LARGE], [made(one, a), made(two, b), assign(RES, {'Aggregate': [copy(one), a, copy(two)]}), assign(one, repeat(int_(7), 16)), assign(place(0, field(2)), opd(one)), ['Return']]),
    }
    out = {}
    for k, (name, (locals_, body)) in enumerate(bodies.items()):
        f = dict(function([R, U64, U64] + locals_, 2, [], SHAPES), body=sequence(body))
        arrays = [('memory', R), U64, 'Ptr', 'Ptr', U64, 'Ptr', 'Ptr']
        read = [call('r::make%d' % k, [a, b], place(3))]
        for part, (start, pointer) in ((0, (5, 6)), (2, (8, 9))):
            read += [assign(place(start), {'AddrOf': place(3, field(part))}), assign(place(pointer), {'Op2': ['Offset', copy(place(start)), int_(24)]}), assign(place(4 if part == 0 else 7), opd(place(pointer, {'Deref': U64})))]
        read += [assign(place(4), op('Div', copy(place(4)), int_(3))), assign(place(4), xor(copy(place(4)), copy(place(3, field(1))))), assign(RES, xor(copy(place(4)), copy(place(7))))]
        out[name] = (entry(arrays, read), {'r::make%d' % k: f})
    return out


GIVEN = [(0, 1), (5, 3), (3, 5), (2 ** 40 + 7, 2 ** 63), (7, 7), (2 ** 33 + 5, 2 ** 33 + 5)]


def main():
    for name, f in STUCK.items():
        if not is_stuck(f):
            sys.exit('guards: the interpreter is not stuck at %s' % name)
    functions, exports, names = dict(CALLEES), {}, []
    pieces = {name: (f, {}) for name, f in PIECES.items()}
    pieces.update(result_pieces())
    for k, (name, (f, more)) in enumerate(pieces.items()):
        functions.update(more)
        functions['r::piece%d' % k] = f
        exports['r::piece%d' % k] = 'piece%d' % k
        names.append(name)
    machine = Machine(functions)
    wanted = [[int.from_bytes(machine.call('r::piece%d' % k, [machine.whole(x.to_bytes(8, 'little')) for x in pair])[0], 'little') for pair in GIVEN] for k in range(len(names))]
    for plain in (False, True):
        text = Program(functions, exports, plain=plain).write([], None)
        if plain and text.count('memmove(') != 2:
            sys.exit('guards: a thing is copied onto itself by memcpy')      # no compiler shows it
        for built, library in libraries(text):
            for k, name in enumerate(names):
                piece = getattr(library, 'piece%d' % k)
                piece.restype = ctypes.c_uint64
                got = [piece(ctypes.c_uint64(x), ctypes.c_uint64(y)) for x, y in GIVEN]
                if got != wanted[k]:
                    sys.exit('guards: %s: the %s C by %s gives %s, the interpreter %s' % (name, 'plain' if plain else 'usual', built, got, wanted[k]))
    print('guards: %d pieces of MIR, each for a guard, do the same interpreted, as usual C and as plain C; the interpreter is stuck at %d' % (len(names), len(STUCK)))


if __name__ == '__main__':
    main()

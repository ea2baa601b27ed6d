"""refusals.py: MIR that the translator has to refuse, each piece for one reason, beside a piece like it that it has to take."""
import copy as copies
import os
import pathlib
import sys
import tempfile

HERE = pathlib.Path(__file__).resolve().parent
sys.path.insert(0, os.environ.get('TRANSLATOR', str(HERE.parent / 'translator')))
from program import Program, read_crates  # noqa: E402
from random_mir import A, A_TYPE, E, NOT_GENERIC, P, S, SHAPES, T, U8, U64, copy, declared, field, fn, int_, named, ref, repeat, seq, slice_of  # noqa: E402
from refused import Refused  # noqa: E402


def place(i, *steps):
    return {'local': i, 'steps': list(steps)}


def assign(p, rv):
    return [{'Assign': [p, rv]}]


def op(name, a, b, sign='Unsigned'):
    return {'Op2': [{name: sign} if sign else name, a, b]}


def function(locals_, params, statements, types=SHAPES):
    """locals_: types, those in memory as ('memory', type)."""
    made = [{'ty': t[1], 'home': 'MemorySlot'} if isinstance(t, tuple) else {'ty': t, 'home': 'ValueLocal'} for t in locals_]
    return {'lifetimes': 0, 'outlives': [], 'params': params, 'generics': NOT_GENERIC, 'types': types, 'locals': made, 'body': seq(statements + [['Return']])}


EMPTY = {'Array': [U64, {'Lit': 0}]}
RESULT = assign(place(0), {'Opd': int_(0)})
X, Y = copy(place(1)), copy(place(2))


def element(between, then=()):
    """t = i * 8; p = &a; q = p + t; (between) result = *q"""
    return function([U64, U64, ('memory', A), U64, 'Ptr', 'Ptr', 'Bool', U64], 1,
                    [assign(place(2), repeat(int_(1), 4)), assign(place(7), {'Opd': X}), assign(place(3), op('Mul', copy(place(7)), int_(8))),
                     assign(place(4), {'AddrOf': place(2)}), assign(place(5), {'Op2': ['Offset', copy(place(4)), copy(place(3))]})] + between +
                    [assign(place(0), {'Opd': copy(place(5, {'Deref': U64}))})] + list(then))


def one(rv, t=U64, *more):
    """result = rv, over two parameters."""
    return function([t, U64, U64] + list(more), 2, [assign(place(0), rv)])


def made(p):
    return assign(p, {'Aggregate': [X, int_(2), int_(3)]})


def through(kind, to=U64):
    """t = ..; r = &t, of this kind; (*r).0 = 4"""
    return function([to, U64, ('memory', T), ref(T, kind)], 1, [made(place(2)), assign(place(3), {'AddrOf': place(2)}), assign(place(3, {'Deref': T}, field(0)), {'Opd': int_(4)}), RESULT])


def tagged(arms, body, between=(), default=False):
    """e is a parameter; a switch on its tag, whose first arm has this body."""
    arm = seq(list(between) + [body])
    return function([U64, E], 1, [RESULT, [{'Switch': [copy(place(1, {'Variant': 0}, field(0))), arms, default]}] + arm + ['Skip'] * (len(arms) - 1 + default)])


FIELD_OF_1 = assign(place(0), {'Opd': copy(place(1, {'Variant': 1}, field(1)))})
HOLDS = named('H')


def holding(shape, locals_=(), statements=()):
    """A function over a type r::H of this shape."""
    return function([U64] + list(locals_), 0, [RESULT] + list(statements), SHAPES + [declared('r::H', shape)])




BEHIND = place(1, {'Deref': HOLDS}, field(0))


def copied(kind, statements):
    """Of a parameter that refers to a struct with a &mut."""
    return function([U64, ref(HOLDS, kind), ref(U64), ref(U64, 'Imm'), HOLDS, {'Array': [ref(U64), {'Lit': 2}]}, slice_of('Mut')], 1, [RESULT] + statements, SHAPES + [declared('r::H', {'Fields': [ref(U64)]})])


def constant(t, value):
    """A function that lends a constant in memory of its own."""
    return function([U64, ref(t, 'Imm')], 0, [RESULT, [{'LendStatic': [place(1), t, value]}]])


RIGHT = {
    'a product that wraps': one({'Op2': ['WrapMul', X, Y]}),
    'an element whose count of bytes was written anew': element([assign(place(3), {'Opd': int_(3)})]),
    'a block that is no loop': function([U64], 0, [RESULT, ['Block', 'Skip']]),
    'an exit through two loops': function([U64], 0, [RESULT, ['Block', 'Loop', 'Block', 'Loop', {'Exit': 2}]]),
    'an exit through two loops and their blocks': function([U64], 0, [RESULT, ['Block', 'Loop', 'Block', 'Loop', {'Exit': 3}]]),
    'a struct that holds a reference': holding({'Fields': [ref(U64)]}, [HOLDS]),
    'an enum that holds an array': holding({'Variants': [[A], []]}, [HOLDS, A], [assign(place(2), repeat(int_(1), 4)), assign(place(1), {'Aggregate': [int_(0, 8), copy(place(2))]})]),
    'a type with a lifetime': function([U64, {'Named': [{'name': 'r::T', 'lifetimes': ['Erased']}, []]}], 0, [RESULT]),
    'a type that has a parameter, and is not used': function([U64], 0, [RESULT], [dict(declared('r::H', {'Fields': [U64]}), type_params=1)]),
    'a type without a name in C': function([U64], 0, [RESULT], [declared('(,)', {'Fields': [U64]})]),
    'a reference to a reference': function([U64, ref(ref(T))], 1, [RESULT]),
    'a reference in memory': function([U64, ref(T), ('memory', ref(T))], 1, [RESULT, assign(place(2), {'Opd': X})]),
    'an array of references': function([U64, ref(T), {'Array': [ref(T), {'Lit': 2}]}], 1, [RESULT, assign(place(2), {'Aggregate': [X, X]})]),
    'a switch with an arm that is never reached': function([U64, U64], 1, [RESULT, [{'Switch': [X, [[0], [1]], True]}, 'Skip', 'Skip', 'Unreachable']]),
    'a constant in memory of its own': constant(U64, {'Int': {'width': 64, 'value': 1}}),
    'a constant struct in memory of its own': constant(P, {'Parts': [{'Int': {'width': 64, 'value': 1}}, {'Int': {'width': 8, 'value': 2}}]}),
    'an empty array that is lent and given back': function([ref(EMPTY, 'Imm'), ('memory', EMPTY)], 0, [assign(place(1), {'Aggregate': []}), assign(place(0), {'AddrOf': place(1)})]),
    'a &mut that is copied from behind a &mut': copied('Mut', [assign(place(2), {'Opd': copy(BEHIND)})]),
    'a &mut behind a & that is lent on as a &': copied('Imm', [assign(place(3), {'Opd': copy(BEHIND)})]),
    'a raw pointer that is kept': function([U64, ref(T), 'Ptr'], 1, [
        assign(place(0), {'Opd': int_(1)}), assign(place(2), {'AddrOf': place(1, {'Deref': T}, field(0))}), [{'If': 'True'}, 'Skip', 'Skip'], assign(place(2, {'Deref': U64}), {'Opd': int_(1)})]),
    'a raw pointer that is kept, of what is behind a &': function([U64, ref(T, 'Imm'), 'Ptr'], 1, [
        assign(place(2), {'AddrOf': place(1, {'Deref': T}, field(0))}), [{'If': 'True'}, 'Skip', 'Skip'], assign(place(0), {'Opd': copy(place(2, {'Deref': U64}))})]),
    'a constant array in memory of its own': function([U64, ref(A, 'Imm')], 0, [RESULT, [{'LendStatic': [place(1), A, {'Ints': {'width': 64, 'values': [1, 2, 3, 4]}}]}]]),
    'an empty constant that is given back': function([slice_of('Imm'), ref(EMPTY, 'Imm')], 0, [[{'LendStatic': [place(1), EMPTY, {'Repeat': [int_(0), 0]}]}], assign(place(0), {'Aggregate': [copy(place(1)), int_(0)]})]),
    'a write through a &mut behind a &mut': function([U64, ref(ref(U64))], 1, [RESULT, assign(place(1, {'Deref': ref(U64)}, {'Deref': U64}), {'Opd': int_(1)})]),
    'a write through &mut': through('Mut'),
    'a field of the variant of its arm': tagged([[1], [0], [2], [3]], FIELD_OF_1),
    'a sum': one(op('Add', X, Y)),
    'an element': element([]),
    'an element, and its index changed after': element([], [assign(place(7), {'Opd': int_(3)})]),
    'an element whose array is changed before it is read': element([assign(place(2), repeat(int_(2), 4))]),
    'a switch on a tag': function([U64, E], 1, [RESULT, [{'Switch': [copy(place(1, {'Variant': 0}, field(0))), [[0], [1], [2], [3]], False]}, 'Skip', 'Skip', 'Skip', 'Skip']]),
    'two locals, each a copy of the other': function([U64, T, T, T], 1, [RESULT, assign(place(2), {'Opd': copy(place(3))}), assign(place(3), {'Opd': copy(place(2))}),
                                                                          assign(place(0), {'Opd': copy(place(2, field(0)))})]),
    'a loop': function([U64], 0, [RESULT, ['Block', 'Loop', {'Exit': 1}]]),
}
WRONG = {
    'a signed sum': one(op('Add', X, Y, 'Signed')),
    'a signed shift': one(op('Shr', X, Y, 'Signed')),
    'a signed test': one(op('Lt', X, Y, 'Signed'), 'Bool'),
    'the alignment of a type': one({'Opd': {'AlignOf': U64}}),
    'the address of a function': one({'Opd': {'FnAddr': [fn('r::f'), {'abi': 'Rattle', 'types': [U64]}]}}, 'Ptr'),
    'a new thread': None,
    'a step of the machine': None,
    'a product of floats': one({'Op2': ['FloatMul', copy(place(3)), copy(place(3))]}, {'Float': 64}, {'Float': 64}),
    'a float of 32 bits': one({'Opd': copy(place(3))}, {'Float': 32}, {'Float': 32}),
    'the opposite of all bits': one({'Op1': ['Not', X]}),
    'trailing zeros': one({'Op1': ['TrailingZeros', X]}, {'Int': 32}),
    'leading zeros of a byte': one({'Op1': ['LeadingZeros', copy(place(3))]}, {'Int': 32}, U8),
    'a signed cast': one({'Op1': [{'Cast': ['Signed', 'Unsigned', 64]}, X]}),
    'a signed number as a float': one({'Op1': [{'IntToFloat': ['Signed', 64]}, X]}, {'Float': 64}),
    'a constant that is too great': one({'Opd': int_(2 ** 64)}),
    'an infinite float': one({'Opd': {'Float': {'width': 64, 'bits': 2047 << 52}}}, {'Float': 64}),
    'an address as a number': one({'Op1': ['PtrAddr', copy(place(3))]}, U64, 'Ptr'),
    'an element whose index was changed': element([assign(place(7), {'Opd': int_(3)})]),
    'an element by a count that is no longer the product': element([assign(place(3), {'Opd': int_(3)}), assign(place(5), {'Op2': ['Offset', copy(place(4)), copy(place(3))]})]),
    'an element whose pointer is of before a branch': element([[{'If': copy(place(6))}, 'Skip', 'Skip']]),
    'an element by a count that is no product': function([U64, U64, ('memory', A), 'Ptr', 'Ptr'], 1, [
        assign(place(2), repeat(int_(1), 4)), assign(place(3), {'AddrOf': place(2)}), assign(place(4), {'Op2': ['Offset', copy(place(3)), X]}),
        assign(place(0), {'Opd': copy(place(4, {'Deref': U64}))})]),
    'an element by half its size': function([U64, ('memory', A), 'Ptr', 'Ptr'], 0, [
        assign(place(1), repeat(int_(1), 4)), assign(place(2), {'AddrOf': place(1)}), assign(place(3), {'Op2': ['Offset', copy(place(2)), int_(4)]}),
        assign(place(0), {'Opd': copy(place(3, {'Deref': U64}))})]),
    'an element as another type': function([U8, ('memory', A), 'Ptr', 'Ptr'], 0, [
        assign(place(1), repeat(int_(1), 4)), assign(place(2), {'AddrOf': place(1)}), assign(place(3), {'Op2': ['Offset', copy(place(2)), int_(8)]}),
        assign(place(0), {'Opd': copy(place(3, {'Deref': U8}))})]),
    'the address of a local that is not in memory': function([U64, S, ref(S)], 1, [RESULT, assign(place(2), {'AddrOf': place(1)}), assign(place(0), {'Opd': copy(place(2, {'Deref': S}, field(0)))})]),
    'a parameter in memory': function([U64, ('memory', U64)], 1, [RESULT]),
    'a switch that lacks a variant': function([U64, E], 1, [RESULT, [{'Switch': [copy(place(1, {'Variant': 0}, field(0))), [[0], [1], [2]], False]}, 'Skip', 'Skip', 'Skip']]),
    'a switch on a number without a default': function([U64, U64], 1, [RESULT, [{'Switch': [X, [[0], [1]], False]}, 'Skip', 'Skip']]),
    'an exit outside a loop': function([U64], 0, [RESULT, [{'Exit': 0}]]),
    'a repeat of another length': function([U64, A], 0, [RESULT, assign(place(1), repeat(int_(1), 5))]),
    'a struct of too few parts': one({'Aggregate': [X, Y]}, T),
    'a struct with an array, of too few parts': function([S, U64], 1, [assign(place(0), {'Aggregate': [X]})]),
    'a variant of too few parts': one({'Aggregate': [int_(3, 8), X]}, E),
    'a tag that is no constant': function([E, U8], 1, [assign(place(0), {'Aggregate': [X]})]),
    'a struct that holds a raw pointer': holding({'Fields': ['Ptr']}),
    'a struct that holds a reference to itself': holding({'Fields': [ref(HOLDS)]}),
    'a struct that is not declared': function([U64, HOLDS], 0, [RESULT]),
    'a cell': function([U64], 0, [RESULT], [dict(declared('r::H', {'Fields': [U64]}), is_cell=True)]),
    'an array of arrays': function([U64, A, ('memory', {'Array': [A, {'Lit': 2}]})], 1, [RESULT, assign(place(2), {'Aggregate': [X, X]}), assign(place(0), {'Opd': int_(1)})]),
    'a type with a type for a parameter': function([U64, {'Named': [{'name': 'r::T', 'lifetimes': []}, [U64]]}], 0, [RESULT]),
    'a type that owns memory': function([U64], 0, [RESULT], [dict(declared('r::H', {'Fields': [U64]}), owns=True)]),
    'a function with a type for a parameter': dict(function([U64], 0, [RESULT]), generics=dict(NOT_GENERIC, types=[A_TYPE])),
    'a function with a bound': dict(function([U64], 0, [RESULT]), generics=dict(NOT_GENERIC, bounds=[{}])),
    'a &mut that is copied from behind a &': copied('Imm', [assign(place(2), {'Opd': copy(BEHIND)})]),
    'a struct with a &mut that is copied from behind a &': copied('Imm', [assign(place(4), {'Opd': copy(place(1, {'Deref': HOLDS}))})]),
    'a struct that is made of a &mut from behind a &': copied('Imm', [assign(place(4), {'Aggregate': [copy(BEHIND)]})]),
    'an array of a &mut from behind a &': copied('Imm', [assign(place(5), repeat(copy(BEHIND), 2))]),
    'a &mut slice of a &mut from behind a &': copied('Imm', [assign(place(6), {'Aggregate': [copy(BEHIND), int_(1)]})]),
    'a &mut argument from behind a &': None,
    'a constant in memory of its own, of another type': constant(U64, {'Bool': True}),
    'a constant in memory of its own that is too great': constant(U64, {'Int': {'width': 64, 'value': 2 ** 64}}),
    'a constant struct of too few parts': constant(P, {'Parts': [{'Int': {'width': 64, 'value': 1}}]}),
    'a constant of no variant': constant(E, {'Parts': [{'Int': {'width': 8, 'value': 4}}]}),
    'a constant without a tag': constant(E, {'Parts': []}),
    'a constant with a pointer': constant(P, {'Parts': [{'Here': 0}, {'Int': {'width': 8, 'value': 2}}]}),
    'a constant that is lent to write to': function([U64, ref(U64)], 0, [RESULT, [{'LendStatic': [place(1), U64, {'Int': {'width': 64, 'value': 1}}]}]]),
    'an empty array that is lent to write to, and given back': function([ref(EMPTY), ('memory', EMPTY)], 0, [assign(place(1), {'Aggregate': []}), assign(place(0), {'AddrOf': place(1)})]),
    'a raw pointer that is kept, of an offset': function([U64, ('memory', A), 'Ptr', 'Ptr'], 0, [
        assign(place(1), repeat(int_(1), 4)), assign(place(2), {'AddrOf': place(1)}), assign(place(3), {'Op2': ['Offset', copy(place(2)), int_(8)]}), [{'If': 'True'}, 'Skip', 'Skip'], assign(place(0), {'Opd': copy(place(3, {'Deref': U64}))})]),
    'a raw pointer that is kept, and assigned again': function([U64, ('memory', U64), 'Ptr'], 0, [
        assign(place(1), {'Opd': int_(1)}), assign(place(2), {'AddrOf': place(1)}), [{'If': 'True'}] + assign(place(2), {'AddrOf': place(1)}) + ['Skip'], assign(place(0), {'Opd': copy(place(2, {'Deref': U64}))})]),
    'a write through a raw pointer that is kept, of what is behind a &': function([U64, ref(T, 'Imm'), 'Ptr'], 1, [
        assign(place(0), {'Opd': int_(1)}), assign(place(2), {'AddrOf': place(1, {'Deref': T}, field(0))}), [{'If': 'True'}, 'Skip', 'Skip'], assign(place(2, {'Deref': U64}), {'Opd': int_(1)})]),
    'a constant array of too few numbers': function([U64, ref(A, 'Imm')], 0, [RESULT, [{'LendStatic': [place(1), A, {'Ints': {'width': 64, 'values': [1, 2, 3]}}]}]]),
    'a constant array of another width': function([U64, ref(A, 'Imm')], 0, [RESULT, [{'LendStatic': [place(1), A, {'Ints': {'width': 8, 'values': [1, 2, 3, 4]}}]}]]),
    'what is never reached': function([U64], 0, [RESULT, ['Unreachable']]),
    'a call into memory of a struct': None,
    'a call into an element whose index is in memory': None,
    'a call into a field behind a reference': None,
    'a & for a &mut parameter': None,
    'a raw pointer for a parameter': None,
    'a result of another type': None,
    'a write through &': through('Imm'),
    'a &mut of what is behind a &': function([U64, ref(T, 'Imm'), ref(U64)], 1, [RESULT, assign(place(2), {'AddrOf': place(1, {'Deref': T}, field(0))})]),
    'a &mut from a raw pointer': function([U64, U64, ('memory', T), 'Ptr', ref(T)], 1, [
        made(place(2)), assign(place(3), {'AddrOf': place(2)}), assign(place(4), {'Opd': copy(place(3))}), assign(place(4, {'Deref': T}, field(0)), {'Opd': int_(4)}), RESULT]),
    'a &mut from a &': function([U64, ref(T, 'Imm'), ref(T)], 1, [RESULT, assign(place(2), {'Opd': X})]),
    'an address as a reference to another type': function([U64, U64, ('memory', T), ref(U8)], 1, [made(place(2)), RESULT, assign(place(3), {'AddrOf': place(2)})]),
    'a &mut slice from a &': function([U64, ref(A, 'Imm'), slice_of('Mut')], 1, [RESULT, assign(place(2), {'Aggregate': [X, int_(4)]})]),
    'a &mut slice from a raw pointer': function([U64, ('memory', A), 'Ptr', slice_of('Mut')], 0, [
        RESULT, assign(place(1), repeat(int_(1), 4)), assign(place(2), {'AddrOf': place(1)}), assign(place(3), {'Aggregate': [copy(place(2)), int_(4)]})]),
    'an element of a & slice is written': function([U64, slice_of('Imm'), 'Ptr'], 1, [
        RESULT, assign(place(2), {'Op2': ['Offset', copy(place(1, field(0))), int_(8)]}), assign(place(2, {'Deref': U64}), {'Opd': int_(1)})]),
    'a raw pointer in memory': function([U64, ('memory', 'Ptr')], 0, [RESULT]),
    'a reference to a raw pointer': function([U64, ref('Ptr')], 1, [RESULT]),
    'an array of raw pointers': function([U64, {'Array': ['Ptr', {'Lit': 2}]}], 0, [RESULT]),
    'a write through a &mut behind a &': function([U64, ref(ref(U64), 'Imm')], 1, [RESULT, assign(place(1, {'Deref': ref(U64)}, {'Deref': U64}), {'Opd': int_(1)})]),
    'a &mut part of a & slice': function([U64, slice_of('Imm'), 'Ptr', slice_of('Mut')], 1, [
        RESULT, assign(place(2), {'Op2': ['Offset', copy(place(1, field(0))), int_(8)]}), assign(place(3), {'Aggregate': [copy(place(2)), int_(1)]})]),
    'a number of another width': function([U64, U8], 1, [assign(place(0), {'Opd': X})]),
    'a sum of two widths': function([U64, U64, U8], 2, [assign(place(0), op('Add', X, Y))]),
    'a bool from a sum': one(op('Add', X, Y), 'Bool'),
    'a number from a test': one(op('Lt', X, Y)),
    'a sum of bools': function(['Bool', 'Bool'], 1, [assign(place(0), op('Add', X, X))]),
    'a cast to another width than its place': one({'Op1': [{'Cast': ['Unsigned', 'Unsigned', 32]}, X]}),
    'a part of another type': function([T, U64, U8], 2, [assign(place(0), {'Aggregate': [X, Y, X]})]),
    'a tag that no variant has': one({'Aggregate': [int_(9, 8)]}, E),
    'a test that is no bool': function([U64, U64], 1, [RESULT, [{'If': X}, 'Skip', 'Skip']]),
    'a field of a variant without its tag': function([U64, E], 1, [FIELD_OF_1]),
    'a field of another variant than the arm\'s': tagged([[3], [0], [1], [2]], FIELD_OF_1),
    'a field of a variant in an arm of two': tagged([[1, 2], [0], [3]], FIELD_OF_1),
    'a field of a variant behind a write of the enum': tagged([[1], [0], [2], [3]], FIELD_OF_1, [assign(place(1), {'Aggregate': [int_(0, 8)]})]),
    'a field of a variant that is written': tagged([[1], [0], [2], [3]], assign(place(1, {'Variant': 1}, field(1)), {'Opd': int_(5)})),
    'a switch of a default alone': function([U64, U64], 1, [RESULT, [{'Switch': [X, [], True]}, 'Skip']]),
    'an arm without a number': function([U64, U64], 1, [RESULT, [{'Switch': [X, [[]], True]}, 'Skip', 'Skip']]),
    'a type that is not known': function([U64, 'Char'], 1, [RESULT]),
    'an operand that is not known': one({'Opd': 'Nothing'}),
    'a call through a pointer': function([U64, U64], 1, [[{'CallV': [X, {'abi': 'Rattle', 'types': [U64, U64]}, [X], place(0)]}]]),
    'a call at a type': None,
    'two functions with one name in C': None,
    'a call of a dictionary\'s method': None,
    'a call of what is not there': None,
    'recursion': None,
    'a call with an argument too many': None,
    'an argument of another type': None,
}


def program(main, more=None):
    return dict({'r::main': main}, **(more or {}))


def calls(callee, given, named=None):
    """result = callee(given)"""
    return program(function([U64, U64, U64], 1, [[{'Call': [named or fn(callee), given, place(2)]}], assign(place(0), {'Opd': Y})]),
                   {'r::f': function([U64, U64], 1, [assign(place(0), {'Opd': X})])})


BUMP = {'r::bump': function([U64, ref(T)], 1, [assign(place(0), {'Opd': copy(place(1, {'Deref': T}, field(0)))}), assign(place(1, {'Deref': T}, field(0)), {'Opd': int_(1)})])}


def lent(t, to, more=(), before=()):
    """t = ..; r = &t, in local 3 of this type; to = bump(r)"""
    return program(function([U64, U64, ('memory', T), t] + list(more), 1, [RESULT, made(place(2)), assign(place(3), {'AddrOf': place(2)})] + list(before) +
                            [[{'Call': [fn('r::bump'), [copy(place(3))], to]}]]), BUMP)


def into_element():
    """a[t.0] = bump(&mut t)"""
    before = [assign(place(4), repeat(int_(9), 4)), assign(place(5), op('Mul', copy(place(2, field(0))), int_(8))), assign(place(6), {'AddrOf': place(4)}),
              assign(place(7), {'Op2': ['Offset', copy(place(6)), copy(place(5))]})]
    return lent(ref(T), place(7, {'Deref': U64}), [('memory', A), U64, 'Ptr', 'Ptr'], before)


SPECIAL = {
    'a call into an element whose index is in memory': into_element(),
    'a call into a field behind a reference': lent(ref(T), place(3, {'Deref': T}, field(1))),
    'a & for a &mut parameter': lent(ref(T, 'Imm'), place(0)),
    'a raw pointer for a parameter': lent('Ptr', place(0)),
    'a result of another type': lent(ref(T), place(4), [U8]),
    'a &mut argument from behind a &': program(copied('Imm', [[{'Call': [fn('r::put'), [copy(BEHIND)], place(0)]}]]), {'r::put': function([U64, ref(U64)], 1, [RESULT])}),
    'a new thread': calls('r::f', [X], {'Fork': [fn('r::f'), U64]}),
    'a step of the machine': calls('r::f', [X], {'Prim': 'Load'}),
    'two functions with one name in C': program(calls('r::g_h', [X])['r::main'], {'r::g_h': calls('r::g::h', [X])['r::main'], 'r::g::h': calls('r::f', [X])['r::f']}),
    'a call at a type': calls('r::f', [X], {'Fn': ['r::f', {'types': [U64], 'dicts': []}]}),
    'a call of a dictionary\'s method': calls('r::f', [X], {'Method': [{'Given': 0}, 0, {'types': [], 'dicts': []}]}),
    'a call of what is not there': calls('r::nothing', [X]),
    'recursion': calls('r::main', [X]),
    'a call with an argument too many': calls('r::f', [X, X]),
    'an argument of another type': calls('r::f', ['True']),
    'a call into memory of a struct': program(function([U64, ref(U64)], 1, [RESULT, [{'Call': [fn('r::f'), [int_(1)], place(1, {'Deref': U64})]}]]), {'r::f': function([U64, U64], 1, [assign(place(0), {'Opd': X})])}),
}


def taken(functions, plain):
    try:
        Program(copies.deepcopy(functions), {'r::main': 'main'}, plain=plain).write([], None)
        return True
    except Refused:
        return False


def crate_twice():
    """Whether a crate that stands in two folders is refused, and in one is not: else a crate that was left over could stand in for the proved one."""
    with tempfile.TemporaryDirectory() as folder:
        for name in ('one', 'two'):
            rlib = pathlib.Path(folder) / name / 'x.rlib'
            (rlib / 'toolchain').mkdir(parents=True)
            (rlib / 'format').write_text('crate x\n')
            (rlib / 'toolchain/mir.json').write_text('[]')
        read_crates([folder + '/one'], 'x')
        try:
            read_crates([folder + '/one', folder + '/two'], 'x')
        except Refused:
            return True
    return False


def main():
    if not crate_twice():
        sys.exit('refusals: a crate that stands in two folders is not refused')
    for plain in (False, True):
        for name, f in RIGHT.items():
            if not taken(program(f), plain):
                sys.exit('refusals: %s is refused' % name)
        if not taken(lent(ref(T), place(0)), plain):
            sys.exit('refusals: a call that is lent a &mut is refused')
        for name, f in WRONG.items():
            if taken(SPECIAL[name] if f is None else program(f), plain):
                sys.exit('refusals: %s is not refused' % name)
    print('refusals: %d pieces of MIR refused, %d like them taken' % (len(WRONG), len(RIGHT) + 1))


if __name__ == '__main__':
    main()

"""What each function of the crates in forms/ gives, written from what the form means. An enum's value is V(variant, parts), a struct's, tuple's or array's a tuple; what is lent is a list, and is
changed where the function writes it.
"""
import collections

V = collections.namedtuple('V', 'k parts')
U64, U32, U16, U8 = (1 << w for w in (64, 32, 16, 8))
NONE = V(0, ())


def Some(x):
    return V(1, (x,))


def Ok(*x):
    return V(0, x or ((),))


def Err(*x):
    return V(1, x or ((),))


def maybe(x):
    return NONE if x is None else Some(x)


def mix(xs, start=0, by=31):
    for x in xs:
        start = (start * by + x) % U64
    return start


# ---- forms
def forms_digit(b):
    return Err(V(0, (7,))) if b < 48 else Err(V(1, ())) if b > 57 else Ok(b - 48)


def forms_two(a, b):
    x, y = forms_digit(a), forms_digit(b)
    return x if x.k else y if y.k else Ok(x.parts[0] // 2 + y.parts[0] // 2)


FORMS = {
    'count': lambda ps: sum(name > 3 for _, name in ps[0]), 'count_by_index': lambda ps: sum(name > 3 for _, name in ps[0]), 'positive': lambda b: all(x > 3 for x in b), 'digit': forms_digit,
    'two': forms_two, 'use_larger': max, 'same': lambda a, b: a == b, 'find': lambda b: Some(b.index(7)) if 7 in b else NONE,
}


# ---- results
SHORT, LONG, PAIR = (lambda n: V(0, (n,))), V(1, ()), (lambda a, b: V(2, (a, b)))


def digit(b):
    return Err(SHORT(b)) if b < 48 else Err(LONG) if b > 57 else Err(PAIR(5, 70000)) if b == 55 else Ok(b - 48)


def then(r, f):
    return r if r.k else f(*r.parts)


def two(a, b):
    return then(digit(a), lambda x: then(digit(b), lambda y: Ok(x // 2 + y // 2)))


def widened(a, b):
    if a == 0:
        return Err(V(1, (b,)))
    r = two(a, b)
    return Err(V(0, r.parts)) if r.k else r


def check(a):
    return Err(SHORT(a)) if a > 1000 else Ok()


def read_date(y, m, d):
    return check(y) if check(y).k else Err(LONG) if not 1 <= m <= 12 else Err(PAIR(1, 2)) if not 1 <= d <= 31 else Ok((y, m, d))


def day_number(y, m, d):
    r = read_date(y, m, d)
    return Err(V(0, r.parts)) if r.k else Ok((y * 372 + m * 31 + d) % U64)


def make_table(n):
    return check(n) if n > 1000 else Ok((tuple(n * i for i in range(12)), n % 12))


def half(x):
    return None if x % 2 else x // 2


def quarter(x):
    return None if x % 4 else x // 4


def error_code(a):
    r = digit(a)
    return r.parts[0] if not r.k else [lambda n: 100 + n % 100, lambda: 1000, lambda l, r: l + r][r.parts[0].k](*r.parts[0].parts)


def if_let(a, b):
    x, y = digit(a), digit(b)
    return 200 if x.k or y.k else max(x.parts[0], y.parts[0])


def sum_digits(text):
    total = 0
    for b in text:
        r = digit(b)
        if r.k:
            return Err(V(0, r.parts))
        total = (total * 10 + r.parts[0]) % U64
    return Ok(total)


RESULTS = {
    'digit': digit, 'two': two, 'widened': widened, 'check': check, 'checked': lambda a, b: then(check(a), lambda _: then(check(b), lambda _: Ok(a + b))), 'read_date': read_date,
    'day_number': day_number, 'make_table': make_table, 'table_sum': lambda n: check(n) if n > 1000 else Ok(66 * n + n % 12), 'half': lambda x: maybe(half(x)), 'quarter': lambda x: maybe(quarter(x)),
    'quarter_or': lambda x, y: y if quarter(x) is None else quarter(x), 'mapped': lambda x: NONE if x % 2 else Some(x // 2 // 3),
    'chained': lambda x: NONE if x % 4 or x // 4 <= 7 else Some(x // 4), 'or_err': lambda x: Err(SHORT(x)) if x % 2 else Ok(x // 2), 'or_err_else': lambda x: Err(SHORT(x // 5)) if x % 2 else Ok(x // 2),
    'map_error': lambda a: Err(V(0, digit(a).parts)) if digit(a).k else digit(a), 'error_code': error_code, 'is_long': lambda a: digit(a) == Err(LONG),
    'let_else': lambda a: 99 if digit(a).k else a - 48, 'if_let': if_let, 'nested': lambda a, t: Some(digit(a)) if t else NONE,
    'flat': lambda a, t: Ok(NONE) if not t else digit(a) if digit(a).k else Ok(Some(a - 48)), 'ok_part': lambda a: NONE if digit(a).k else Some(a - 48), 'is_good': lambda a: not digit(a).k,
    'same': lambda a, b: digit(a) == digit(b), 'sum_digits': sum_digits,
}


# ---- generics
def swapped_most(a, b):
    return (max(a, b) - a) % U64


def filled(a, b):
    refused = max(0, a - 2) + 100 * max(0, a - 16)
    return (refused * 100000 + (2 - min(a, 2)) * 1000 + 16 - min(a, 16)) % U64


def level_of(n):
    return [V(0, ()), V(1, (n % 7,)), V(2, (n % 5, n % 11))][n % 3]


def order(a, b):
    return 0 if a < b else 1 if a == b else 2


GENERICS = {
    'larger_u64': max, 'larger_u8': max, 'larger_length': max, 'largest_level': lambda a, b, c: max(a, b, c), 'larger_pair': lambda a, b, c, d: sum(max((a, b), (c, d))) % U64,
    'larger_option': lambda a, b: max(Some(a) if a % 3 else NONE, Some(b) if b % 3 else NONE), 'swapped_most': swapped_most, 'swapped_mixed': lambda a, b: (b, a), 'filled': filled,
    'totals': lambda a, b: (a + b + 7 + 5 * a) % U32, 'first_byte_or': lambda xs, y: (xs + [y])[0], 'first_length': lambda xs: (xs + [(9,)])[0],
    'place_of_length': lambda xs, x: Some(xs.index(x)) if x in xs else NONE, 'place_of_byte': lambda xs, x: Some(xs.index(x)) if x in xs else NONE, 'swap_lengths': lambda a, b: (b * 4 + a) % U64,
    'level_order': order, 'level_of': level_of,
    'compared': lambda a, b, c: order(max(map(level_of, (a, b, c))), level_of(a)) * 10 + order(level_of(b), level_of(c)), 'clamped': lambda x, low, high: min(max(x, low), high),
}


# ---- chains
def first(xs, test, give=lambda i, x: x):
    return next((Some(give(i, x)) for i, x in enumerate(xs) if test(x)), NONE)


def until(xs, test):
    return next((i for i, x in enumerate(xs) if test(x)), len(xs))


def for_while(b):
    s = 0
    for i, x in enumerate(b[:until(b, lambda x: x == 200)]):
        s = s if x == 3 else (s * 7 + x + i) % U64
    return s


def for_mut(b, by):
    b[:] = [(x + by) % U8 for x in b]


def for_chunks(b):
    n = 0
    for k in range(0, len(b), 3):
        c = b[k:k + 3]
        n = (n * 5 + len(c) + sum(c)) % U64
    return n


def nested(b):
    for i in range(len(b)):
        for j in range(i):
            if b[j] == 9:
                break
            if b[i] == b[j]:
                return Some(i)
            if b[j] == 77:
                return NONE
    return NONE


def counted(b):
    n, m = 0, 1
    for x in b:
        n = (n + x) % U64
        m = m * n % U64
    return (n + m) % U64


def product(xs):
    a = 1
    for x in xs:
        a = a * x % U64
    return a


CHAINS = {
    'all_above': lambda b, n: all(x > n for x in b), 'any_named': lambda ps, n: any(p[1] == n for p in ps), 'position_of': lambda ps, n: first(ps, lambda p: p[1] == n, lambda i, _: i),
    'find_open': lambda ps: first(ps, lambda p: p[2], lambda _, p: p[0]), 'count_open': lambda ps: sum(p[2] for p in ps), 'most': lambda b: maybe(max(b, default=None)),
    'least': lambda b: min(b, default=77), 'folded': lambda b: mix(b, 5), 'last_open': lambda ps: first(ps[::-1], lambda p: p[2], lambda _, p: p[1]), 'reversed': lambda b: mix(b[::-1], 5),
    'pairs_equal': lambda a, b: sum(x == y for x, y in zip(a, b)), 'after_skip': lambda b, n, m: mix(b[n:][:m], 0, 3), 'enumerated': lambda b: sum(i * x for i, x in enumerate(b)),
    'until_zero': lambda b: until(b, lambda x: x == 0), 'ranged': lambda n: product(k for k in range(n % 50) if k % 3 == 1), 'for_filtered': lambda ps: mix([p[0] for p in ps if p[2]], 0, 7),
    'for_rev': lambda b: mix(b[::-1], 0, 7), 'for_zip': lambda a, b: mix([x * y for x, y in zip(a, b)], 0, 7), 'for_while': for_while, 'for_mut': for_mut,
    'for_windows': lambda b: sum(x < y for x, y in zip(b, b[1:])), 'for_chunks': for_chunks, 'nested': nested, 'counted_down': lambda n: mix([3, 4, 5, 6, 7], mix(range(n % 20 - 1, -1, -1), 0, 3), 3),
    'applied': lambda a, b: ((10 + 3 * a) * b + b // 2) % U64, 'counted': counted, 'lowest_start': lambda ps: maybe(min(ps, key=lambda p: p[0])[1] if ps else None), 'summed': lambda b: mix(b, 0, 3),
}


# ---- traits: (area, twice, side_count)
def square(side):
    return side * side % U64, side * side * 2 % U64, 4


def triangle(base, height):
    return base * height % U64 // 2, base * height % U64, 3


def optional(shape, sides):
    area = shape[0] if shape else 0
    return area, area * 2 % U64, sides


def weight(shape):
    return (shape[0] * 10 + shape[1] + shape[2]) % U64


def both(side, base, height):
    area = (square(side)[0] + triangle(base, height)[0]) % U64
    return area, area * 2 % U64, 100


def third_byte(text):
    for b in text[:3]:
        if b == 255:
            return Err(V(1, (b,)))
    return Ok(text[2]) if len(text) > 2 else Err(V(0, ()))


def labels_of(side, base, height):
    return ((side % 1000 + 65536) * 65536 + 7 - (height * 65536 + side % 1000)) % U64


TRAITS = {
    'weight_square': lambda s: weight(square(s)), 'weight_triangle': lambda b, h: weight(triangle(b, h)), 'weight_option': lambda b, h: weight(optional(triangle(b, h) if h else None, 3)),
    'weight_both': lambda s, b, h: weight(both(s, b, h)), 'weight_squares': lambda xs: sum(weight(square(*x)) for x in xs) % U64, 'third_byte': third_byte,
    'third_down': lambda n: Ok(n - 3) if n > 2 else Err(V(0, ())), 'labels_of': labels_of, 'scaled_both': lambda s, a, b: (s * a - s * b) % U64, 'default_width': lambda w: (w, False, 0),
}


# ---- ints
def fits(x, most=U64):
    return Some(x) if 0 <= x < most else NONE


INTS = {
    'add_checked': lambda a, b: fits(a + b), 'sub_checked': lambda a, b: fits(a - b), 'mul_checked': lambda a, b: fits(a * b), 'div_checked': lambda a, b: Some(a // b) if b else NONE,
    'add_saturating': lambda a, b: min(a + b, U64 - 1), 'sub_saturating': lambda a, b: max(a - b, 0), 'mul_saturating': lambda a, b: min(a * b, U64 - 1),
    'wrapped': lambda a, b: (a * b - a + b) % U64, 'wrapped_u8': lambda a, b: (a * b - a + b) % U8, 'wrapped_u16': lambda a, b: (a * b - a + b) % U16, 'wrapped_u32': lambda a, b: (a * b - a + b) % U32,
    'overflowing': lambda a, b: (a + b) % U64 ^ (a + b >= U64), 'between': lambda a, b, c: min(max(a, b), c), 'difference': lambda a, b: abs(a - b), 'narrowed': lambda a: fits(a, U8),
    'narrowed_u32': lambda a: a if a < U32 else 7, 'widened': lambda a, b, c: a + b + c, 'from_bool': int, 'ceiling': lambda a, b: -(-a // b) if b else 0, 'multiple': lambda a, b: b != 0 and a % b == 0,
    'of_bytes': lambda a, b, c, d: int.from_bytes(bytes((a, b, c, d)), 'big'), 'shifted': lambda a, b: Some((a << b) % U64) if b < 64 else NONE, 'power': lambda a, n: fits(a ** (n % 6)),
    'rotated': lambda a, n: (a << n % 64 | a >> (64 - n % 64)) % U64, 'compare': order, 'then_some': lambda a, b: Some(b) if a else NONE, 'then_call': lambda a, b: Some(b // 3) if a else NONE,
    'is_digit': lambda b: 48 <= b <= 57, 'zeros': lambda a: 64 - a.bit_length(),
}


# ---- slices
def written(xs, new, answer=None):
    xs[:] = new
    return answer


def swapped(xs, i, j):
    if i < len(xs) and j < len(xs):
        xs[i], xs[j] = xs[j], xs[i]


def put(ps, i, start):
    if i < 8:
        ps[0] = ps[0][:i] + ((start, ps[0][i][1]),) + ps[0][i + 1:]
    return i < 8


def words(text):
    if 32 in text:
        i = text.index(32)
        return i * 100 + len(text) - i
    return len(text)


SORTED = [1, 4, 9, 48, 300, 65535]
SLICES = {
    'got': lambda b, i: fits(i, len(b)) if i >= len(b) else Some(b[i]), 'got_place': lambda b, i: Some(b[i]) if i < len(b) else NONE, 'first_name': lambda ps: maybe(ps[0][1] if ps else None),
    'last_start': lambda ps: ps[-1][0] if ps else 1, 'first_rest': lambda b: len(b) - 1 + b[0] if b else 1000, 'split': lambda b, n: 5 if n > len(b) else n * 1000 + len(b) - n,
    'part': lambda b, i, j: 0 if i > j or j > len(b) else mix(b[i:j]), 'part_got': lambda b, i, j: NONE if i > j or j > len(b) else Some(j - i), 'has': lambda b, x: x in b,
    'searched': lambda x: Some(SORTED.index(x)) if x in SORTED else NONE, 'starts': lambda b, a: b[:len(a)] == a, 'equal': lambda a, b: a == b, 'equal_places': lambda a, b: a == b, 'filled': lambda to, b: written(to, [b] * len(to)), 'swapped': swapped,
    'reversed': lambda to: written(to, to[::-1]), 'put': put, 'put_both': lambda ps, start: written(ps, [tuple((start, (n + 1) % U16) for _, n in ps[0])]),
    'tuple': lambda a, b: ((a + b) % U64, b ^ 1), 'tuples': lambda a, b: (a + b + (b ^ 1)) % U64, 'array_sum': lambda a: a * ((a + 1) % U64) * (a ^ 5) % U64,
    'start_of': lambda ps, n: next((s for s, m in ps if m == n), 12345), 'words': words, 'taken': lambda x: x.parts[0] if x.k else 3, 'replaced': lambda x, y: (y * 3 - x) % U64,
}


# ---- more
def either_of(a, b):
    return [V(0, (a,)), V(1, (b,)), V(2, (a, b))][a % 3]


def flip(e):
    return [lambda a: V(1, (a,)), lambda b: V(0, (b,)), lambda a, b: V(2, (b, a))][e.k](*e.parts)


def four(text):
    return Err(SHORT(len(text))) if len(text) < 4 else Err(LONG) if len(text) > 9 else Ok(tuple(text[:4]))


def kind(a, b):
    if a == 0:
        return 1
    if a <= 9 and b == 0:
        return 2
    if a > 20 and 1 <= b <= 9:
        return a // 2
    return a % 100 + b if b in (10, 20) else 3


def labelled(a, b):
    return (b if a == 3 else b % 7 + 100 if b % 7 < a % 10 else 7) ^ 1


def option_methods(a, b):
    n = a.parts[0] if a.k else None
    return ((b if n is None else n + 1) + (b * 2 if n is None else n) + (n is not None and n > b) + (5 if n is None else n)) % U64


def result_methods(a, b):
    n = (a.parts[0] + b) % U64 if not a.k else a.parts[0].parts[0] if not a.parts[0].k else None
    return Err(9) if n is None else Err(7) if n == 7 else Ok(n)


def bumped(ps, name):
    for i, (s, n, o) in enumerate(ps):
        if n == name:
            ps[i] = (s + 1) % U64, n, not o
            return True
    return False


def lengths(pairs):
    s = 0
    for a, b in pairs:
        s = (s * b + a) % U64
    return s


def bits(a):
    return bin(a).count('1'), max(0, a.bit_length() - 1)


def size(w, h, a, b):
    return mix([b] * h, mix([a] * w, (w * 1000 + h), 3), 5)


MORE = {
    'either_of': either_of, 'flipped_left': lambda a, b: NONE if a % 3 == 0 else Some(b), 'flip': flip, 'four': four, 'four_sum': lambda t: four(t) if four(t).k else Ok(mix(t[:4], 0, 256)),
    'four_option': lambda t: NONE if four(t).k else Some(four(t).parts[0]), 'step': lambda i: [1, 20, 300, 4000, U64 - 1][i % 5],
    'step_by_name': lambda n: Some([7, 700, 65535].index(n)) if n in (7, 700, 65535) else NONE, 'is_word': lambda t: bytes(t) == b'ab' or bytes(t[:3]) == b'xyz', 'kind': kind, 'labelled': labelled,
    'word_count': lambda t: len(bytes(t).split(b' ')) - bytes(t).split(b' ').count(b''), 'converted': lambda p: ((p[0] ^ p[1]) * 3 + p[0] % 251) % U64,
    'twice_both': lambda a, b: ((a * 3 + b) * 3 + b) % U64 ^ (b + 14) % U8, 'once_of': lambda p, x: (x,) + p[1:], 'visited': lambda b: (sum(x for x in b if x % 2), sum(x % 2 == 0 for x in b)),
    'or_default': lambda a, b: a.parts[0] if a.k else b.parts[0] if b.k else 0, 'option_methods': option_methods, 'result_methods': result_methods, 'replaced': lambda a, b: (Some(b), a),
    'changed': lambda a, b: Some(a.parts[0] * b % U64) if a.k else a, 'bumped': bumped, 'stepped': lambda b: mix(b[::3], 0, 7), 'joined': lambda a, b: mix(a + b, 1, 7),
    'after_spaces': lambda b: len(b) - until(b, lambda x: x != 32), 'third': lambda b: Some(b[2]) if len(b) > 2 else NONE, 'lengths': lengths,
    'found_first': lambda ps, n: first(ps, lambda p: p[0] > n, lambda i, p: (i, p[1])), 'mapped_first': lambda ps: first(ps, lambda p: p[2], lambda _, p: p[0] ^ 1), 'sorted': lambda b: b == sorted(b),
    'bits': bits, 'grids': lambda a, b: size(2, 3, a, b) ^ size(3, 2, a, b),
}


# ---- pairs
def pairs_digit(b):
    return Err(SHORT(b)) if b < 48 else Err(LONG) if b > 57 else Ok(b - 48)


def number(bs, n=0):
    for b in bs:
        if pairs_digit(b).k:
            return pairs_digit(b)
        n = (n * 10 + b - 48) % U64
    return Ok(n)


def wide(text):
    if not text:
        return Err(V(1, ()))
    r = number(text)
    return Err(V(0, r.parts)) if r.k else Ok(r.parts[0] ^ 1)


def pushed(to, text):
    data, used = to[0]
    for b in text:
        if used >= 16:
            return written(to, [(data, used)], False)
        data, used = data[:used] + (b,) + data[used + 1:], used + 1
    return written(to, [(data, used)], True)


def named(words, f):
    return {word: f for word in words.split()}


PAIRS = dict(
    **named('all_index all_for all_iter', lambda b: all(x > 3 for x in b)), **named('any_index any_for any_iter', lambda ps, n: any(p[2] == n for p in ps)),
    **named('count_index count_for count_iter', lambda ps: sum(p[3] for p in ps)), **named('position_index position_for position_iter', lambda ps, n: first(ps, lambda p: p[2] == n, lambda i, _: i)),
    **named('find_index find_iter', lambda ps: first(ps, lambda p: p[3], lambda _, p: p[0])), **named('fold_index fold_for fold_iter', lambda b: mix(b, 5)),
    **named('rev_index rev_for rev_iter', lambda b: mix(b[::-1], 5)), **named('zip_index zip_for', lambda a, b: mix([x ^ y for x, y in zip(a, b)], 5)),
    **named('most_index most_for most_iter most_max', lambda b: max(b, default=0)), **named('open_index open_for open_chain', lambda ps: mix([p[1] - p[0] for p in ps if p[3]], 0, 7)),
    **named('add_index add_for', for_mut), **named('four_enum four_result', lambda *b: number(b)), **named('all_enum all_result', number), **named('wide_enum wide_result', wide),
    **named('largest_twin largest_generic largest_length', lambda xs, x: max(xs + [x])), **named('same_twin same_generic', lambda a, x: Some(a.index(x)) if x in a else NONE),
    pushed_twin=pushed, pushed_generic=lambda to, text: Ok() if pushed(to, text) else Err(), **named('areas_generic areas_twin', lambda xs: sum(x * x * 2 for x, in xs) % U64),
    **named('closure_sum closure_twin', lambda n: mix(range(n % 200), 0, 3)), **named('add_two add_two_twin', lambda a, b, c: fits(a + b + c)))

# ---- walks
BYTES, RANGE, FULL = (lambda n: V(0, (n,))), (lambda least, most: V(1, (least, most))), V(2, ())


def records(b):
    """(count, the k-th hazard or a refusal) of a source: side, begin, end, level"""
    return len(b) // 3, lambda k: Ok((V(b[3 * k] % 2, ()), b[3 * k + 1], b[3 * k + 1] + b[3 * k + 2], b[3 * k] // 2))


def places(ps):
    count, rows = ps[0]
    return min(count, 6), lambda k: Ok(rows[k]) if k < 4 else Err(BYTES(k))


def widest(source):
    (count, hazard), best = source, None
    if count > 1000:
        return Err(FULL)
    for k in range(count):
        if hazard(k).k:
            return hazard(k)
        _, begin, end, level = hazard(k).parts[0]
        if level > 120:
            return Err(RANGE(0, 120))
        if best is None or max(0, end - begin) > best[1]:
            best = begin, max(0, end - begin)
    return Ok(maybe(None if best is None else (best[1] * 1000 + best[0]) % U64))


def runs_of(source, most):
    (count, hazard), ends = source, []
    if count > most:
        return Err(FULL)
    for k in range(count):
        if hazard(k).k:
            return hazard(k)
        ends.append(hazard(k).parts[0][2])
    return Ok((len(ends), mix(ends, 0, 7)))


def read_two(b):
    for at, (least, most) in (0, (0, 60000)), (2, (1, 300)):
        if len(b) < at + 2:
            return Err(BYTES(len(b)))
        if not least <= b[at] * 256 + b[at + 1] <= most:
            return Err(RANGE(least, most))
    return Ok((b[0] * 256 + b[1], b[2] * 256 + b[3], len(b) - 4))


WALKS = {'widest_record': lambda b: widest(records(b)), 'widest_place': lambda ps: widest(places(ps)), 'runs_of_records': lambda b: runs_of(records(b), 3), 'runs_of_places': lambda ps: runs_of(places(ps), 5),
         'read_two': read_two}


# ---- memory: a place is (name, start, level), what is kept (used, three places), the memory (present, four kept, the last place)
NOWHERE = (0, 0, 0)
NOTHING = (0, (NOWHERE,) * 3)


def sound(kept):
    return kept[1][0][0] < kept[1][1][0] < kept[1][2][0]


def keep(m, state):
    present, kept, last = m[0]
    if state >= 4:
        return Err(8)
    kept = kept[:state] + (present,) + kept[state + 1:]
    return written(m, [(present, kept, last)], Ok(sum(k[0] == 1 for k in kept)))


def kept_under(kept, state):
    return kept[state] if state < 4 else NOTHING


def go_back(m, state):
    present, kept, last = m[0]
    return written(m, [(kept_under(kept, state), kept, last)], present != kept_under(kept, state))


def level_all(m, state, level):
    present, kept, last = m[0]
    if state >= 4:
        return False
    made = 1, tuple((name, start, (level + i) % U8) for i, (name, start, _) in enumerate(kept[state][1]))
    return written(m, [(present, kept[:state] + (made,) + kept[state + 1:], last)], True)


def cleared(m):
    present, kept, last = m[0]
    return written(m, [(present, ((kept[0][0], NOTHING[1]), NOTHING, NOTHING, (kept[3][0], NOTHING[1])), last)], ())


def put_last(m, p):
    present, kept, last = m[0]
    return written(m, [(present, kept, Some(p[:2] + ((p[2] + 1) % U8,)))], last)


def names_in_order(names):
    rows, total = [], 0
    for k, name in enumerate(names):
        if len(rows) == 8:
            return Err((name, k, 1))
        at = sum(row <= name for row in rows)
        rows.insert(at, name)
        total = (total * 10 + at) % U64
    return Ok((len(rows), mix(rows[::-1], total)))


def runs_made(values):
    used = until(values, lambda v: v == 255)
    if used < len(values) or used > 64:
        return Err(min(used, 64))
    return Ok((tuple(values) + (0,) * (64 - used), tuple(v + 1 for v in values) + (0,) * (64 - used), used))


def looked_up(most, lengths, at):
    return index_or_none(lengths, cut(most, at))


def index_or_none(xs, k):
    return Some(xs[k]) if k < len(xs) else NONE


def cut(xs, x):
    """Where partition_point comes to an end, whether the list is in order or not."""
    base, size = 0, len(xs)
    while size > 1:
        base, size = base + (size // 2 if xs[base + size // 2] < x else 0), size - size // 2
    return base + (xs[base] < x) if xs else 0


def shifted(to, by):
    return written(to, [(a - b) % U64 for a, b in zip(to, by)] + to[len(by):], ())


def middle(xs, a, b):
    if a > b or b > len(xs):
        return False
    return written(xs, xs[:a] + [x * i % U64 for i, x in enumerate(xs[a:b])] + xs[b:], True)


def halves(xs, n):
    if n > len(xs):
        return 0
    m = min(n, len(xs) - n)
    return written(xs, xs[n:n + m] + xs[m:n] + xs[:m] + xs[n + m:], n)


def moved(xs, a, b, to):
    if a > b or b > len(xs) or to > len(xs) - (b - a):
        return False
    return written(xs, xs[:to] + xs[a:b] + xs[to + b - a:], True)


def kind_again(n):
    return Ok(n if n != 12 else 10) if 1 <= n <= 10 or n == 12 else Err(n + 1000)


def kind_or(n):
    return V(0, ()) if n == 1 else V(1, (n - 2,)) if 2 <= n <= 9 else V(2, ())


def tested_both(x):
    y = x + 5 if x + 5 < U64 else U64 - 1 - x
    return Some(300 - y) if y <= 300 else NONE


def parts_sum(xs, most):
    total = 0
    for i, x in enumerate(xs):
        total = (total * 3 + x) % U64
        if total > most:
            return Err(i)
    return Ok(total)


MEMORY = {
    'opened': lambda m, level: written(m, [((0, ((0, 0, level),) * 3), (NOTHING,) * 4, NONE)], ()), 'keep': keep, 'kept_under': lambda kept, state: kept_under(kept[0], state), 'go_back': go_back,
    'sound': lambda kept: sound(kept[0]), 'all_sound': lambda m: all(map(sound, m[0][1] + m[0][:1])), 'level_all': level_all, 'cleared': cleared, 'put_last': put_last,
    'last_name': lambda m: m[0][2].parts[0][0] if m[0][2].k else 7, 'in_order': names_in_order, 'runs_of': runs_made,
    'runs_sum': lambda v: runs_made(v) if runs_made(v).k else Ok(mix([1] * len(v) + [0] * (64 - len(v)), 0, 3)), 'looked_up': looked_up, 'longest_len': lambda a, b: max(len(a), len(b)),
    'shifted': shifted, 'differences': lambda xs: mix([abs(a - b) for a, b in zip(xs, xs[1:])], 0, 5), 'middle': middle,
    'copied': lambda to, of: written(to, of[:], True) if len(to) == len(of) else False, 'halves': halves, 'moved': moved, 'place_in': cut,
    'place_behind': lambda xs, b: Some(len(xs) - 1 - xs[::-1].index(b)) if b in xs else NONE, 'added': sum, 'in_range': lambda a, b, x: (a <= x < b, a <= x <= b, a <= x),
    'by_four': lambda xs: mix([int.from_bytes(bytes(xs[k:k + 4]), 'little') for k in range(0, len(xs) - 3, 4)], 0, 7),
    'widest': lambda ps: Some(max(ps[::-1], key=lambda p: p[1])) if ps else NONE, 'greatest': lambda ps: Some(max(ps)) if ps else NONE,
    'backwards': lambda a, b: mix(range(b % 12, a % 9 - 1, -1), 0, 13), 'bits_of': lambda x: (64 - x.bit_length(), 1 << x % 64), 'kind_again': kind_again, 'kind_or': kind_or, 'tested_both': tested_both,
    'parts_sum': parts_sum, 'third_step': lambda b: Some(5 + sum(b[:3])) if len(b) > 2 else NONE,
}


# ---- newer: a place is (name, start, side)
RIGHT, LEFT, BOTH = V(0, ()), V(1, ()), V(2, ())
TABLE = [(3, 70000, LEFT), (9, 5, RIGHT), (65535, U64 - 1, BOTH)]
ROWS = [(True, (1, 700, 65535), NONE, Ok(255)), (False, (9, 9, 9), Some((5, 6, BOTH)), Err(1))]
ONE = True, (5, 4, 3), NONE, Err(70000)


def of_options(xs):
    return mix([x.parts[0] for x in xs if x.k], 3)


def options_sum(xs):
    return of_options([Some(x ^ 1) for x in xs[:3]] + [Some(1)]), max(0, 3 - len(xs))


def newer_made(a):
    total = 0
    for i in range(4):
        total = total * 31 % U64 ^ a * i % U64
    return total


def newer_swapped(a, b):
    x, y = b, a
    if x > y:
        x, y = y, (x + 1) % U64
    return (x * 3 - y) % U64


def newer_chained(a, b):
    return b.parts[0] - a.parts[0] if a.k and b.k and a.parts < b.parts else a.parts[0] ^ 5 if a.k else 9


def newer_found(xs, x):
    low, high = 0, len(xs)
    while low < high:
        k = (low + high) // 2
        if xs[k] == x:
            return k
        low, high = (k + 1, high) if xs[k] < x else (low, k)
    return low


def reset(ps, side):
    return written(ps, [tuple((name, start, side) for name, start, _ in ps[0])], sum(start for _, start, of in ps[0] if of != side) % U64)


def emptied(a, b):
    old = b[0]
    b[0] = a[0]
    return written(a, [RIGHT], old)


def unit_sum(x, steps, name):
    return (mix(steps, x, 3) + name) % U64


def newer_pairs(xs, ys):
    total = 0
    for i, x in enumerate(xs):
        if x == 0:
            continue
        for j, y in enumerate(ys):
            if y == 0:
                break
            if y == 9:
                return Ok(total)
            if x == y:
                return Err((i, j))
            total = (total * 3 + (x ^ y)) % U64
        else:
            total = (total + 1) % U64
    return Ok(total)


def tallied(tally, n, stop):
    most, seen = tally[0]
    last = stop if stop < n % 16 else 77
    ks = range(n % 16 if last == 77 else stop + 1)
    return written(tally, [(max([most] + list(ks)), tuple((s + sum(k % 4 == i for k in ks)) % U64 for i, s in enumerate(seen)))], last)


NEWER = {
    'side_number': lambda s: s.k, 'table_at': lambda i: TABLE[i % 3], 'table_named': lambda n: first(TABLE, lambda p: p[0] == n, lambda _, p: p[1]), 'row_at': lambda i: ROWS[i % 2], 'made_row': lambda i: [(True, (7, 8, 9), NONE, Ok(1)), ONE][i % 2],
    'rows_open': lambda n: int(700 > n), 'is_one': lambda r: r[0] == ONE, 'least_step': lambda r: r[0][1][2] if r[0][0] else 3, 'before': lambda a, b: a < b, 'later': max,
    'first_of': lambda ps: Some(min(ps)) if ps else NONE, 'in_order': lambda ps: ps == sorted(ps), 'named_in_order': lambda ps: all(a[0] <= b[0] for a, b in zip(ps, ps[1:])),
    'of_options': lambda xs: of_options(xs[0]), 'options_sum': options_sum, 'odd': lambda xs: mix([x // 2 for x in xs if x % 2], 1, 7),
    'numbered': lambda xs: mix([k * x for k, x in zip(range(5, 9), xs)], 0, 11), 'made': newer_made, 'rounded': lambda x, by: 0 if by == 0 or x > 1000000 or by > 1000000 else -(-x // by) * by,
    'both': lambda a, b: Some((a.parts[0], b.parts[0])) if a.k and b.k else NONE, 'one': lambda a, b: a if a.k and not b.k else b if b.k and not a.k else NONE, 'large': lambda a: a.k == 1 and a.parts[0] > 50,
    'swapped': newer_swapped, 'chained': newer_chained, 'found': newer_found, 'counts': lambda xs: tuple(sum(x.k == k for x in xs) for k in range(3)), 'reset': reset, 'emptied': emptied,
    'units': lambda x: (unit_sum(max(1, x // 1000), [1, 1000, 1000000], 12), unit_sum(max(4, min(x + 1999, U64 - 1) // 2000), [4, 8, 12], 7)), 'pairs': newer_pairs, 'tallied': tallied,
}

EXPECTED = {'forms': FORMS, 'results': RESULTS, 'generics': GENERICS, 'chains': CHAINS, 'traits': TRAITS, 'ints': INTS, 'slices': SLICES, 'more': MORE, 'pairs': PAIRS, 'walks': WALKS, 'memory': MEMORY, 'newer': NEWER}

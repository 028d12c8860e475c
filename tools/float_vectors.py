#!/usr/bin/env python3
"""Writes the cases of crates/float_vectors:

    python3 tools/float_vectors.py > crates/float_vectors/stdin

A case is a line of eight hexadecimal numbers: the opcode, three cells of the first operand, three of the second, the
result. A rounding builtin (document 02, R-1) has its number and 80 for an opcode, and its argument in the first cell.

The results come from the model below and from nothing else: numbers are exact fractions, each operation is worked out
exactly and then rounded once to binary32, ties to even; a NaN is 7fc00000. It knows nothing of the machine's code and
uses no float arithmetic of Python's.
"""
import math
import random
from fractions import Fraction

NAN = 0x7FC00000
INF = 0x7F800000
SIGN = 0x80000000
ONE = 0x3F800000


# ---- binary32, exactly

def is_nan(x):
    return x & 0x7FFFFFFF > INF


def is_inf(x):
    return x & 0x7FFFFFFF == INF


def sign(x):
    return x & SIGN


def exact(x):
    """The fraction that a finite pattern stands for."""
    e, digits = x >> 23 & 255, x & 0x7FFFFF
    size = digits * Fraction(2) ** -149 if e == 0 else (0x800000 + digits) * Fraction(2) ** (e - 150)
    return -size if sign(x) else size


def nearest_whole(q):
    """The nearest whole number to q, at least 0, ties to even."""
    n, left = divmod(q.numerator, q.denominator)
    twice = 2 * left
    return n + 1 if twice > q.denominator or (twice == q.denominator and n % 2 == 1) else n


def rounded(q, zero_sign=0):
    """The pattern nearest to the fraction q; a zero that q itself is takes the sign given."""
    if q == 0:
        return zero_sign
    s = SIGN if q < 0 else 0
    q = abs(q)
    step = -149
    while q >= Fraction(2) ** (step + 24):
        step += 1
    digits = nearest_whole(q / Fraction(2) ** step)
    if digits == 0x1000000:
        digits, step = 0x800000, step + 1
    if digits < 0x800000:
        return s | digits
    e = step + 150
    return s | INF if e >= 255 else s | e << 23 | digits & 0x7FFFFF


# ---- arithmetic

def add(a, b):
    if is_nan(a) or is_nan(b):
        return NAN
    if is_inf(a) or is_inf(b):
        if is_inf(a) and is_inf(b) and sign(a) != sign(b):
            return NAN
        return a if is_inf(a) else b
    return rounded(exact(a) + exact(b), sign(a) & sign(b))


def sub(a, b):
    return NAN if is_nan(b) else add(a, b ^ SIGN)


def mul(a, b):
    if is_nan(a) or is_nan(b):
        return NAN
    s = sign(a) ^ sign(b)
    if is_inf(a) or is_inf(b):
        other = b if is_inf(a) else a
        return NAN if not is_inf(other) and exact(other) == 0 else s | INF
    return rounded(exact(a) * exact(b), s)


def div(a, b):
    if is_nan(a) or is_nan(b) or (is_inf(a) and is_inf(b)):
        return NAN
    s = sign(a) ^ sign(b)
    if is_inf(a):
        return s | INF
    if is_inf(b):
        return s
    if exact(b) == 0:
        return NAN if exact(a) == 0 else s | INF
    return rounded(exact(a) / exact(b), s)


# ---- comparison

def flag(b):
    return ONE if b else 0


def place(x):
    """Where a pattern that is no NaN lies on the line, the infinities past all the rest."""
    return (-1 if sign(x) else 1) * Fraction(2) ** 200 if is_inf(x) else exact(x)


def compared(test):
    def op(a, b):
        return flag(not is_nan(a) and not is_nan(b) and test(place(a), place(b)))
    return op


eq = compared(lambda x, y: x == y)


def zero(x):
    return x & 0x7FFFFFFF == 0


# ---- whole numbers

def whole(x):
    """Toward zero, to the ends of the range; a NaN gives 0."""
    if is_nan(x):
        return 0
    if is_inf(x):
        return -2**31 if sign(x) else 2**31 - 1
    n = abs(exact(x))
    n = n.numerator // n.denominator
    return max(-n, -2**31) if sign(x) else min(n, 2**31 - 1)


def bits(op):
    def run(a, b):
        n = op(whole(a) % 2**32, whole(b) % 2**32)
        return rounded(Fraction(n - 2**32 if n >= 2**31 else n))
    return run


# ---- fabs, floor, ceil and rint

def to_whole(choose):
    """A function on fractions that gives whole numbers, as one on patterns: a zero has the sign of the argument."""
    def run(x):
        if is_nan(x):
            return NAN
        return x if is_inf(x) else rounded(Fraction(choose(exact(x))), sign(x))
    return run


def half_away(q):
    """The nearest whole number, halves away from zero."""
    n = math.floor(abs(q) + Fraction(1, 2))
    return -n if q < 0 else n


ROUNDINGS = {36: to_whole(half_away), 37: to_whole(math.floor), 38: to_whole(math.ceil),
             43: lambda x: NAN if is_nan(x) else x & 0x7FFFFFFF}


# ---- the opcodes

FLOATS = {
    1: mul, 5: div, 6: add, 8: sub, 10: eq,
    15: lambda a, b: flag(eq(a, b) == 0),
    20: compared(lambda x, y: x <= y), 21: compared(lambda x, y: x >= y),
    22: compared(lambda x, y: x < y), 23: compared(lambda x, y: x > y),
    62: lambda a, b: flag(not zero(a) and not zero(b)), 63: lambda a, b: flag(not zero(a) or not zero(b)),
    64: bits(lambda m, n: m & n), 65: bits(lambda m, n: m | n),
}
COMPONENTS = {3: mul, 4: mul, 7: add, 9: sub}
NUMBERS = {13: True, 14: True, 18: False, 19: False}


def dot(a, b):
    total = 0
    for x, y in zip(a, b):
        total = add(total, mul(x, y))
    return total


def same(a, b):
    return all(eq(x, y) for x, y in zip(a, b))


# ---- the operands

# both zeros, the ends of the subnormals and of the normals, ones and their neighbours, infinities, NaNs quiet and signalling
CORNERS = [0, SIGN, 1, 0x007FFFFF, 0x80800000, ONE, 0xBF800001, 0x7F7FFFFF, INF, SIGN | INF, NAN, 0xFF800001]
# sums, products and quotients half way between two floats, and just beside
TIES = [(ONE, 0x33800000), (0x3F800001, 0x33800000), (ONE, 0x33800001), (ONE, 0x337FFFFF), (ONE, 0xB3000000),
        (0x3F7FFFFF, 0x33000000), (0x4B800000, ONE), (0x4B800001, ONE), (0xCB800001, 0xBF800000), (0x4B800001, 0x3FC00000),
        (0x3F800001, 0x3FC00000), (0x3F800003, 0x3FC00000), (0x3F800800, 0x3F800800), (0x3F801800, 0x3F800800),
        (0x00000001, 0x40000000), (0x00000003, 0x40000000), (0x00000005, 0x40000000), (0x80000003, 0x40000000),
        (0x00000001, 0x3F000000), (0x00000003, 0x3F000000)]
# results around the ends of the range: the least normal and subnormal numbers, overflow and just below it
ENDS = [(0x00800000, 0x3F000000), (0x00800001, 0x3F000000), (0x1A000000, 0x25800000), (0x20000000, 0x1F800000),
        (0x20000001, 0x1F800000), (0x80000001, 0x3EFFFFFF), (0x00000001, 0x00000003), (0x007FFFFF, 0x00800000),
        (0x7F7FFFFF, 0x3F800001), (0x7F7FFFFF, 0x73000000), (0x7F7FFFFF, 0x72FFFFFF), (0xFF7FFFFF, 0x3F7FFFFF)]
# around the ends of the signed 32-bit range, and numbers whose bits or fractions tell
WHOLES = [0x4EFFFFFF, 0x4F000000, 0x4F000001, 0xCEFFFFFF, 0xCF000000, 0xCF000001, 0x4F800000, 0xDF000000, 0x3F7FFFFF,
          0xBF7FFFFF, 0x3FFFFFFF, 0xBFFFFFFF, 0x4B7FFFFF, 0x4B800001, 0x437F0000, 0xC37F0000, 0x477FFF00, 0x4EAAAAAA,
          0x3F000000, 0x3FC00000, 0x40200000, 0xC0200000, 0xCB7FFFFF]
# 00ffffff, 7f000000 and 80000000 as floats: BitAnd with each shows all bits of a conversion to a whole number
MASKS = [0x4B7FFFFF, 0x4EFE0000, 0xCF000000]


def draw(rng):
    """Any pattern, or one of a size at which sums and products meet."""
    if rng.random() < 0.5:
        return rng.getrandbits(32)
    return rng.getrandbits(1) << 31 | rng.randrange(100, 154) << 23 | rng.getrandbits(23)


def pairs(rng):
    yield from ((a, b) for a in CORNERS for b in CORNERS)
    yield from TIES + ENDS
    yield from ((draw(rng), draw(rng)) for _ in range(40))


def masked(rng):
    for a in CORNERS + WHOLES + [draw(rng) for _ in range(40)]:
        yield from ((a, b) for b in MASKS)


def vectors(rng):
    corners = [0, SIGN, ONE, 0xBF800000, INF, NAN, 0x7F7FFFFF, 1]
    yield [SIGN] * 3, [ONE] * 3
    # the order of the sums tells
    yield [0x7F7FFFFF, 0xFF7FFFFF, ONE], [ONE, ONE, ONE]
    yield [0x4B800000, ONE, 0xCB800000], [ONE, ONE, ONE]
    yield [ONE, 0x4B800000, 0xCB800000], [ONE, ONE, ONE]
    for _ in range(30):
        yield rng.choices(corners, k=3), rng.choices(corners, k=3)
    for _ in range(20):
        yield [draw(rng) for _ in range(3)], [draw(rng) for _ in range(3)]
    for k in range(3):
        a = [draw(rng) & 0xBFFFFFFF for _ in range(3)]
        yield a, list(a)
        yield a, [x ^ (1 if i == k else 0) for i, x in enumerate(a)]
        yield [SIGN if i == k else 0 for i in range(3)], [0] * 3
        yield [NAN if i == k else ONE for i in range(3)], [NAN if i == k else ONE for i in range(3)]


def around(q):
    """The pattern of a fraction above 0, and its neighbours."""
    x = rounded(q)
    return x - 1, x, x + 1


def to_be_rounded(rng):
    """Patterns without a sign."""
    for e in range(256):
        yield e << 23 | 1
    # from 2^-9 to 2^25, digits at the ends and in the middle
    for e in range(118, 153):
        yield from (e << 23 | digits for digits in (0, 0x3FFFFF, 0x400000, 0x400001, 0x7FFFFF))
    # whole numbers and halves, odd and even, at every size that has them
    for n in [*range(1, 16), *(2**k + d for k in range(4, 24) for d in (-1, 0, 1))]:
        yield from around(Fraction(n))
        yield from around(Fraction(2 * n - 1, 2))
    yield from (x & 0x7FFFFFFF for x in CORNERS + WHOLES)
    yield from (rng.randrange(120, 152) << 23 | rng.getrandbits(23) for _ in range(100))


# ---- the cases

def line(op, a, b, r):
    a, b = (list(v) + [0] * (3 - len(v)) for v in (a, b))
    print('%02x' % op, *('%08x' % x for x in a + b + [r]))


def main():
    rng = random.Random(5927)
    for op, f in FLOATS.items():
        for a, b in pairs(rng):
            line(op, [a], [b], f(a, b))
    for op in (64, 65):
        for a, b in masked(rng):
            line(op, [a], [b], FLOATS[op](a, b))
    for op, f in COMPONENTS.items():
        for a, b in list(pairs(rng))[-60:]:
            line(op, [a], [b], f(a, b))
    for a, b in vectors(rng):
        line(2, a, b, dot(a, b))
        line(11, a, b, flag(same(a, b)))
        line(16, a, b, flag(not same(a, b)))
        line(45, a, [], flag(all(zero(x) for x in a)))
    for op, equal in NUMBERS.items():
        for a, b in ((0, 0), (0, SIGN), (7, 7), (7, 8), (NAN, NAN), (0xFFFFFFFF, 0x7FFFFFFF)):
            line(op, [a], [b], flag((a == b) == equal))
    for a in CORNERS + WHOLES:
        line(44, [a], [], flag(zero(a)))
        line(47, [a], [], flag(a == 0))
        line(48, [a], [], flag(a == 0))
    for x in sorted(set(to_be_rounded(rng))):
        for number, f in ROUNDINGS.items():
            line(0x80 + number, [x], [], f(x))
            line(0x80 + number, [SIGN | x], [], f(SIGN | x))


if __name__ == '__main__':
    main()

"""Makes vectors for complex numbers with the right answers, worked out in whole numbers: no float enters one.

A double is its 64 bits. A finite one is a whole number of least subnormals (2^-1074); sums, products and quotients of such
numbers are exact fractions, which `rounded` takes to the nearest double, ties to even. A line of the list is an operation, four
operands and the two answers, each of 16 hex digits:
    + - * /   a+bi and c+di; the parts of the result
    n         a+bi; the parts of its negation
    b         bits; those of what they stand for, and the number of its class
    d         the doubles a and c; whether identical, whether equal
    i         a+bi and c+di; whether identical, whether equal
    z         a+bi; whether zero, whether one
    k         the number of a constant; its parts
"""
import random
from math import isqrt

SIGN, INF, NAN, ONE = 1 << 63, 0x7FF << 52, 0x7FF8 << 48, 0x3FF << 52
T = 0x3DDB7CDFD9D7BDBB
OVERFLOW = 1 << (1074 + 1024)


# ---- IEEE 754 binary64 in whole numbers

def is_nan(x):
    return x % SIGN > INF


def is_inf(x):
    return x % SIGN == INF


def canonical(x):
    return NAN if is_nan(x) else x


def units(x):
    """The magnitude of a finite double, in least subnormals."""
    field, fraction = x % SIGN >> 52, x % (1 << 52)
    return fraction if field == 0 else ((1 << 52) + fraction) << (field - 1)


def signed(x):
    return -units(x) if x >= SIGN else units(x)


def rounded(negative, num, den):
    """The double nearest to num/den least subnormals, ties to even, with this sign."""
    k = max(0, (num // den).bit_length() - 53)
    q, r = divmod(num, den << k)
    q += 2 * r > den << k or (2 * r == den << k and q % 2 == 1)
    if q << k >= OVERFLOW:
        return (SIGN if negative else 0) + INF
    # a q that reached 2^53 carries into the field by itself
    return (SIGN if negative else 0) + (k << 52) + q


def add(x, y):
    if is_nan(x) or is_nan(y) or (is_inf(x) and is_inf(y) and x != y):
        return NAN
    if is_inf(x) or is_inf(y):
        return x if is_inf(x) else y
    total = signed(x) + signed(y)
    negative = total < 0 or (total == 0 and x >= SIGN and y >= SIGN)
    return rounded(negative, abs(total), 1)


def neg(x):
    return NAN if is_nan(x) else x ^ SIGN


def sub(x, y):
    return add(x, neg(y))


def mul(x, y):
    negative = (x ^ y) >= SIGN
    if is_nan(x) or is_nan(y):
        return NAN
    if is_inf(x) or is_inf(y):
        return NAN if x % SIGN == 0 or y % SIGN == 0 else (SIGN if negative else 0) + INF
    return rounded(negative, units(x) * units(y), 1 << 1074)


def div(x, y):
    negative = (x ^ y) >= SIGN
    sign = SIGN if negative else 0
    if is_nan(x) or is_nan(y) or (is_inf(x) and is_inf(y)) or (x % SIGN == 0 and y % SIGN == 0):
        return NAN
    if is_inf(x) or y % SIGN == 0:
        return sign + INF
    if is_inf(y):
        return sign
    return rounded(negative, units(x) << 1074, units(y))


def equal(x, y):
    return canonical(x) == canonical(y) or (x % SIGN == 0 and y % SIGN == 0)


# ---- the answers

def zero(re, im):
    return not (is_nan(re) or is_inf(re) or is_nan(im) or is_inf(im)) and units(re) ** 2 + units(im) ** 2 < units(T) ** 2


CONSTANTS = [(0, 0), (ONE, 0), (2 << 61, 0), (ONE + SIGN, SIGN), (0x400921FB54442D18, 0), (NAN, 0), (T, 0)]


def answer(op, a, b, c, d):
    if op == '+':
        return add(a, c), add(b, d)
    if op == '-':
        return sub(a, c), sub(b, d)
    if op == '*':
        return sub(mul(a, c), mul(b, d)), add(mul(a, d), mul(b, c))
    if op == '/':
        n = add(mul(c, c), mul(d, d))
        return div(add(mul(a, c), mul(b, d)), n), div(sub(mul(b, c), mul(a, d)), n)
    if op == 'n':
        return neg(a), neg(b)
    if op == 'b':
        return canonical(a), 0 if a == SIGN else canonical(a)
    if op == 'd':
        return canonical(a) == canonical(c), equal(a, c)
    if op == 'i':
        return canonical(a) == canonical(c) and canonical(b) == canonical(d), equal(a, c) and equal(b, d)
    if op == 'z':
        return zero(a, b), zero(sub(a, ONE), b)
    return CONSTANTS[a]


# ---- the operands

MAX, TINY = INF - 1, 1 << 52
SPECIAL = [0, 1, 2, TINY - 1, TINY, TINY + 1, T - 1, T, T + 1, T - TINY, ONE - 1, ONE, ONE + 1, 2 << 61, 0x400921FB54442D18,
           0x3FB999999999999A, 0x3FC999999999999A, 0x4340000000000000, 0x4340000000000001, MAX - 1, MAX, INF]
NANS = [NAN, INF + 1, INF + (1 << 52) - 1, NAN + SIGN, INF + SIGN + 1, NAN + 0xDEADBEEF]
pick = random.Random(1)


def sign():
    return SIGN * pick.getrandbits(1)


def special():
    return pick.choice(SPECIAL) + sign() if pick.random() < 0.95 else pick.choice(NANS)


def near(field, spread):
    """A random double with an exponent's field about this one."""
    return sign() + (min(max(field + pick.randint(-spread, spread), 0), 2046) << 52) + pick.getrandbits(52)


def operand():
    return pick.choice([special, lambda: near(1023, 3), lambda: near(1023, 60), lambda: near(1, 1), lambda: near(2040, 6), lambda: near(540, 40)])()


def arithmetic():
    for op, count in (('+', 450), ('-', 450), ('*', 700), ('/', 700)):
        for _ in range(count):
            yield op, operand(), operand(), operand(), operand()
    for _ in range(60):
        yield 'n', operand(), operand(), 0, 0


def halfway():
    """Sums, products and quotients that lie exactly between two doubles, or a least subnormal beside."""
    for _ in range(60):
        x = near(1023, 30) % SIGN
        half = ((x >> 52) - 53) << 52
        yield '+', x, half, half, x + sign()
        yield '+', x, x, half + 1, half - 1
        yield '-', x, half, half, x
        a, b = pick.getrandbits(26) | 1 << 26 | 1, pick.getrandbits(26) | 1 << 26 | 1
        a, b = rounded(False, a << 1074, 1), rounded(False, b << 1074, 1)
        yield '*', a, 0, b, 0
        yield '*', a, 0, 0, b + SIGN
        odd = 2 * pick.getrandbits(20) + 1
        yield '/', odd, odd + 2, 2 << 61, 0
        yield '*', odd, odd + 2, 0x3FE << 52, 0
    for x, y in ((MAX, 0x7C8 << 52), (MAX, (0x7C9 << 52)), (MAX, MAX), (MAX - 1, 0x7C9 << 52), (MAX, 0x7C9 << 52 | SIGN)):
        yield '+', x, x + SIGN, y, y ^ SIGN
        yield '*', x, 0, y, 0
        yield '/', x, y, 1, 0


def patterns():
    for x in SPECIAL + NANS:
        yield 'b', x, 0, 0, 0
        yield 'b', x ^ SIGN, 0, 0, 0
    for _ in range(300):
        yield 'b', pick.getrandbits(64), 0, 0, 0
        yield 'b', (INF + 1 + pick.getrandbits(51)) | sign(), 0, 0, 0
    for x in SPECIAL[:8] + NANS:
        for y in (x, x ^ SIGN, NAN, 0, 1):
            yield 'd', x, 0, y, 0
            yield 'i', x, y, y, x
            yield 'i', x, 1, y, 1
    for _ in range(100):
        x = operand()
        yield 'd', x, 0, pick.choice([x, x ^ SIGN, x ^ 1]), 0
        yield 'i', x, ONE, pick.choice([x, x ^ SIGN, x ^ 1]), pick.choice([ONE, ONE + 1])


def edge(re):
    """The largest double whose square, beside that of re, is below T squared."""
    left = units(T) ** 2 - units(re) ** 2 - 1
    root = isqrt(left)
    x = rounded(False, root, 1)
    return x - 1 if units(x) > root else x


def small():
    """Around T on both axes and on the circle, around half of T, and far from both."""
    for k in range(-9, 10):
        for other in (0, 1, TINY, T - TINY, 0x3C30000000000000):
            yield T + k + sign(), other + sign()
            yield other + sign(), T + k + sign()
    for base in (T - TINY, 0x3DD36FD255A2213B, T - TINY // 2):
        for i in range(-2, 3):
            for j in range(-2, 3):
                yield base + i + sign(), base + j + sign()
    for _ in range(220):
        re = rounded(False, pick.randint(0, units(T)), 1) if pick.random() < 0.7 else near(pick.randint(930, 988), 1) % SIGN
        im = edge(re)
        for k in (-1, 0, 1):
            x, y = re + sign(), max(im + k, 0) + sign()
            yield pick.choice([(x, y), (y, x)])
    for _ in range(150):
        yield operand(), operand()
        yield near(985, 6), near(985, 6)


def tested():
    for re, im in small():
        yield 'z', re, im, 0, 0
    for k in range(-6, 7):
        yield 'z', ONE + k, sign(), 0, 0
        yield 'z', sign(), ONE + k, 0, 0
        for middle in (rounded(False, units(ONE) + units(T), 1), rounded(False, units(ONE) - units(T), 1)):
            yield 'z', middle + k, 0, 0, 0
            yield 'z', middle + k, 1, 0, 0
            yield 'z', middle + k + SIGN, 0, 0, 0
    for _ in range(120):
        re = rounded(False, units(ONE) + pick.randint(-units(T), units(T)), 1)
        off = sub(re, ONE)
        yield 'z', re, edge(off) + pick.choice([0, 1, SIGN]), 0, 0


def vectors():
    for make in (arithmetic, halfway, patterns, tested):
        for op, a, b, c, d in make():
            yield op, a, b, c, d
    for k in range(len(CONSTANTS)):
        yield 'k', k, 0, 0, 0


def made():
    """The lines of the list, and what the program has to write of it."""
    lines = []
    for op, a, b, c, d in vectors():
        x, y = answer(op, a, b, c, d)
        lines.append(b'%c\t%016X\t%016X\t%016X\t%016X\t%016X\t%016X\n' % (op.encode(), a, b, c, d, x, y))
    return lines, [b'vectors: %d cases, 0 wrong\n' % len(lines)]

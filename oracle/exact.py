"""Doubles by exact fractions, and on them document 01's sine and cosine.

Each operation is worked out exactly and rounded once, to nearest even, by `rounded`; no floating-point unit takes part.
A double is NAN, (INF, sign) or (Fraction, sign); sign 1 is minus.
"""
import struct
from fractions import Fraction
from math import factorial

NAN, INF = "nan", "inf"


# ---- Python's floats and their bits

def bits(x):
    """All NaNs have one pattern."""
    return to_bits(NAN) if x != x else struct.unpack(">Q", struct.pack(">d", x))[0]


def double(w):
    return struct.unpack(">d", struct.pack(">Q", w))[0]


# ---- exact doubles

def exponent(x):
    """The e with 2^e <= x < 2^(e+1), for a fraction x > 0."""
    e = x.numerator.bit_length() - x.denominator.bit_length()
    return e if (x.numerator << max(0, -e)) >= (x.denominator << max(0, e)) else e - 1


def rounded(x, sign):
    """The double nearest to the fraction x >= 0, ties to even, with the sign."""
    if x == 0:
        return (Fraction(0), sign)
    e = max(exponent(x) - 52, -1074)  # the weight of the last digit kept
    num, den = x.numerator << max(0, -e), x.denominator << max(0, e)
    n, rest = divmod(num, den)
    if 2 * rest > den or (2 * rest == den and n % 2 == 1):
        n += 1
    value = Fraction(n << max(0, e), 1 << max(0, -e))
    return (INF, sign) if value >= 1 << 1024 else (value, sign)


def of_bits(w):
    s, x, t = w >> 63, w >> 52 & 0x7FF, w & (1 << 52) - 1
    if x == 0x7FF:
        return NAN if t else (INF, s)
    return ((Fraction(t) * Fraction(2) ** -1074 if x == 0 else Fraction(t | 1 << 52) * Fraction(2) ** (x - 1075)), s)


def to_bits(d):
    if d == NAN:
        return 0x7FF8000000000000
    v, s = d
    if v == INF:
        return s << 63 | 0x7FF << 52
    if v == 0:
        return s << 63
    e = exponent(v)
    if e < -1022:
        return s << 63 | int(v * (1 << 1074))
    return s << 63 | e + 1023 << 52 | int(v / Fraction(2) ** (e - 52)) - (1 << 52)


def neg(a):
    return a if a == NAN else (a[0], 1 - a[1])


def finite(*ds):
    return all(d != NAN and d[0] != INF for d in ds)


def signed(a):
    return -a[0] if a[1] else a[0]


def add(a, b):  # only finite numbers meet in 01's rules
    assert finite(a, b)
    v = signed(a) + signed(b)
    return rounded(abs(v), a[1] & b[1] if v == 0 else int(v < 0))


def sub(a, b):
    return add(a, neg(b))


def mul(a, b):
    assert finite(a, b)
    return rounded(a[0] * b[0], a[1] ^ b[1])


def div(a, b):
    assert finite(a, b) and b[0] != 0
    return rounded(a[0] / b[0], a[1] ^ b[1])


def whole(n):
    return rounded(Fraction(abs(n)), int(n < 0))


ONE = whole(1)


# ---- 01, "Sine and cosine"

TURNS = of_bits(0x3FE45F306DC9C883)  # t is x times this


def coefficients(ns):
    """1.0 divided once by n!, minus first, alternating."""
    out = []
    for i, n in enumerate(ns):
        c = div(ONE, whole(factorial(n)))
        out.append(neg(c) if i % 2 == 0 else c)
    return out


SINE, COSINE = coefficients(range(3, 16, 2)), coefficients(range(2, 17, 2))


def summed(z, cs):
    total = cs[-1]
    for c in reversed(cs[:-1]):
        total = add(c, mul(z, total))
    return total


def sin_cos(x):
    if not finite(x) or x[0] > 1024:
        return NAN, NAN
    half = signed(mul(x, TURNS)) + Fraction(1, 2)
    k = half.numerator // half.denominator  # k <= t + 1/2 < k + 1
    f = whole(k)
    r = sub(sub(x, mul(f, of_bits(0x3FF921FB54400000))), mul(f, of_bits(0x3DD0B4611A626331)))
    z = mul(r, r)
    s = add(r, mul(mul(r, z), summed(z, SINE)))
    c = add(ONE, mul(z, summed(z, COSINE)))
    return [(s, c), (c, neg(s)), (neg(s), neg(c)), (neg(c), s)][k % 4]

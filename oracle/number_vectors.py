#!/usr/bin/env python3
"""Makes the vectors of crates/number_vectors: sin_cos and mix by document 01's rules, worked out by exact.py and not by the proved code.

    python3 oracle/number_vectors.py      writes crates/number_vectors/stdin and stdout; the same each time
"""
import random
import struct
from fractions import Fraction

from exact import ONE, TURNS, bits, div, mul, of_bits, signed, sin_cos, sub, to_bits, whole
from vectors import write


def mixed(a, b):
    m = (1 << 64) - 1
    x = a * 0x9E3779B97F4A7C15 & m ^ b * 0xD1B54A32D192ED03 & m
    x ^= x >> 33
    x = x * 0xFF51AFD7ED558CCD & m
    return x ^ x >> 33


def mix(a, b):
    return sub(mul(div(whole(mixed(a, b)), whole((1 << 64) - 1)), whole(2)), ONE)


# ---- the angles and the pairs. How they are drawn can't show in an answer, so Python's floats will do.

def middle(k):
    """The bits of an angle whose t is about k + 0.5."""
    return bits((k + 0.5) * 1.5707963267948966)


def near_ties():
    """Angles whose t lies at, just below or just above k + 0.5."""
    out = []
    for k in list(range(-6, 6)) + [-652, -651, -100, 99, 650, 651]:
        w = middle(k)
        out += [w - 2, w - 1, w, w + 1, w + 2]
    return out


def exact_ties(rng):
    """Angles, searched for, whose t rounds to k + 0.5 exactly."""
    out = []
    for k in list(range(-30, 30)) + [rng.randrange(-650, 650) for _ in range(40)]:
        w = middle(k)
        out += [v for v in range(w - 4, w + 5) if signed(mul(of_bits(v), TURNS)) == k + Fraction(1, 2)]
    return out


def angles(rng):
    ws = [0, 1 << 63, 1, 1 << 63 | 1, 0x000FFFFFFFFFFFFF, 0x0010000000000000, 0x800FFFFFFFFFFFFF]  # zeros, subnormals
    ws += [bits(x) for x in (1024.0, -1024.0, 1023.5, -1023.5, 1025.0, -1025.0, 1e300, -1e300, 1.0, -1.0, 0.5, -0.5, 1e-8, -1e-8, 1e-160)]
    ws += [bits(1024.0) - 1, bits(1024.0) + 1, bits(-1024.0) - 1, bits(-1024.0) + 1]
    ws += [0x7FF0000000000000, 0xFFF0000000000000, 0x7FF8000000000000, 0xFFF8000000000000, 0x7FF0000000000001, 0xFFFFFFFFFFFFFFFF]
    ws += near_ties() + exact_ties(rng)
    ws += [bits(rng.uniform(-1024, 1024)) for _ in range(80)]
    ws += [bits(rng.uniform(-4, 4)) for _ in range(80)]
    ws += [bits(rng.choice([-1, 1]) * 2.0 ** rng.uniform(-1074, 10)) for _ in range(40)]
    ws += [rng.getrandbits(64) for _ in range(30)]
    return ws


def pairs(rng):
    m = (1 << 64) - 1
    out = [(0, 0), (0, 1), (1, 0), (1, 2), (m, m), (m, 0), (0, m), (1 << 32, 1 << 32), (1 << 63, 1 << 63)]
    out += [(bus, r) for bus in (0, 1, 2, 15, 30, 31) for r in (1, 2, 3, 4, 1001, 1002, 1003, 1004)]
    out += [(rng.getrandbits(64), rng.getrandbits(64)) for _ in range(60)]
    ties = 0
    while ties < 4:  # words whose cast lies half way between two doubles
        a, b = rng.getrandbits(64), rng.getrandbits(64)
        w = mixed(a, b)
        if w >> 63 == 1 and w & 0x7FF == 0x400:
            out.append((a, b))
            ties += 1
    return out


def main():
    rng = random.Random(2026)
    xs, ps = angles(rng), pairs(rng)
    told = [(0, w, *map(to_bits, sin_cos(of_bits(w)))) for w in xs] + [(1, a, b, to_bits(mix(a, b))) for a, b in ps]
    write("number_vectors", b"".join(struct.pack(">4Q", *t) for t in told), f"vectors {len(told)}, agreeing {len(told)}\n")
    print(len(xs), "angles,", len(ps), "pairs")


main()

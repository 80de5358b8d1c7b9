#!/usr/bin/env python3
"""Points for crates/injection_vectors: injections and Jacobian, worked out here by 01 and by the expressions of `ac_injections` and `ac_jacobian`.

Written from those alone, over lists and small classes: nothing of the Rattle code is used. A Python float is an IEEE double and each operation
rounds once; sine and cosine are those of exact.py.

    python3 oracle/injection_vectors.py      writes crates/injection_vectors/stdin and stdout; the same each time

stdin, in words of eight bytes, the highest first: how many points; then for each the bus count n, the count of triplets m, the dim; the rows,
the columns, the real parts and the imaginary parts of the triplets; magnitudes and angles; the columns of each bus's angle and magnitude (64 for
none), which are its active and reactive row too; then what has to come out: voltages, currents (real parts, then imaginary parts), p, q, and the
matrix, dim rows of dim.
"""
import functools
import math
import random
import struct

import exact
from exact import bits, double
from vectors import write

INF, NAN = math.inf, math.nan
NONE = 64


# ---- complex numbers: Python's own multiply otherwise than (ac - bd, ad + bc) where a part isn't finite

class Number:
    def __init__(self, re, im):
        self.re, self.im = re, im

    def __add__(self, o):
        return Number(self.re + o.re, self.im + o.im)

    def __sub__(self, o):
        return Number(self.re - o.re, self.im - o.im)

    def __neg__(self):
        return Number(-self.re, -self.im)

    def __mul__(self, o):
        return Number(self.re * o.re - self.im * o.im, self.re * o.im + self.im * o.re)

    def conj(self):
        return Number(self.re, -self.im)


J = Number(0.0, 1.0)


@functools.cache
def sin_cos(w):
    """Sine and cosine of an angle, given by its bits: 0.0 and -0.0 are two angles."""
    return [double(exact.to_bits(x)) for x in exact.sin_cos(exact.of_bits(w))]


def polar(r, t):
    s, c = sin_cos(bits(t))
    return Number(r * c, r * s)


# ---- injections and Jacobian

def ac_injections(ybus, vm, va):
    v = [polar(r, t) for r, t in zip(vm, va)]
    i_bus = [Number(0.0, 0.0) for _ in v]
    for i, k, y in ybus:
        i_bus[i] = i_bus[i] + y * v[k]
    return v, i_bus, [a * b.conj() for a, b in zip(v, i_bus)]


def ac_jacobian(ybus, vm, va, i_bus, layout):
    va_of, vm_of = layout
    p_of, q_of = layout  # rows match columns
    v = [polar(r, t) for r, t in zip(vm, va)]
    entries = []
    for i, k, y in ybus:
        if i == k:
            vnorm = polar(1.0, va[i])
            dva = J * v[i] * (i_bus[i] - y * v[i]).conj()
            dvm = v[i] * y.conj() * vnorm.conj() + i_bus[i].conj() * vnorm
        else:
            vnorm = polar(1.0, va[k])
            dva = -J * v[i] * (y * v[k]).conj()
            dvm = v[i] * y.conj() * vnorm.conj()
        for row, part in ((p_of[i], "re"), (q_of[i], "im")):
            for col, d in ((va_of[k], dva), (vm_of[k], dvm)):
                if row != NONE and col != NONE:
                    entries.append((row, col, getattr(d, part)))
    return entries


def matrix(entries, dim):
    rows = [[0.0] * dim for _ in range(dim)]
    for r, c, x in entries:
        rows[r][c] = rows[r][c] + x
    return rows


def layout_of(kinds):
    """Columns: the angles of non-slack buses, then the magnitudes of Q buses. Rows match."""
    angles = [b for b, k in enumerate(kinds) if k != "S"]
    magnitudes = [b for b, k in enumerate(kinds) if k == "Q"]
    a = [angles.index(b) if b in angles else NONE for b in range(len(kinds))]
    m = [len(angles) + magnitudes.index(b) if b in magnitudes else NONE for b in range(len(kinds))]
    return (a, m), len(angles) + len(magnitudes)


# ---- the classes: a double for a part of an admittance, a magnitude, an angle

def part(rng):
    return rng.uniform(-20.0, 20.0)


def magnitude(rng):
    return rng.uniform(0.9, 1.1)


def angle(rng):
    return rng.uniform(-0.6, 0.6)


def wide_part(rng):
    return rng.choice((-1.0, 1.0)) * 10.0 ** rng.uniform(-120, 120)


def wide_magnitude(rng):
    return rng.choice((-1.0, 1.0)) * 10.0 ** rng.uniform(-60, 60)


def wide_angle(rng):
    return rng.choice((rng.uniform(-1024, 1024), rng.uniform(-4, 4), 10.0 ** rng.uniform(-300, 0)))


def edge_part(rng):
    return rng.choice((-1.0, 1.0)) * 10.0 ** rng.choice((rng.uniform(-320, -280), rng.uniform(-1, 1), rng.uniform(300, 308)))


def zero_part(rng):
    return rng.choice((0.0, -0.0, 1.0, -1.0, 0.5))


def zero_angle(rng):
    return rng.choice((0.0, -0.0, math.pi / 2, -math.pi / 2, math.pi, 1024.0, -1024.0))


def special(rng):
    return rng.choice((NAN, INF, -INF, 0.0, -0.0, 1.7e308, 5e-324))


def far(rng):
    return rng.choice((1024.0000000000002, -1025.0, 1e300, -1e18))


def mixed(f, rare, rate):
    """Mostly f; a rare one now and then, so few in a large point that not everything there turns NaN."""
    return lambda rng: rare(rng) if rng.random() < rate else f(rng)


CLASSES = {
    "plain": (part, magnitude, angle),
    "wide": (wide_part, wide_magnitude, wide_angle),
    "edge": (edge_part, magnitude, angle),
    "zeros": (zero_part, zero_part, zero_angle),
    "special": (mixed(part, special, 0.1), mixed(magnitude, special, 0.1), mixed(angle, special, 0.1)),
    "few": (mixed(part, special, 0.004), mixed(magnitude, special, 0.03), mixed(angle, special, 0.01)),
    "far": (part, magnitude, mixed(angle, far, 0.06)),
}


def triplets(rng, n, m, draw, diagonal):
    """Any pairs, duplicates among them; `diagonal` says how many triplets each bus has on the diagonal before the others come."""
    pairs = [(b, b) for b in range(n) for _ in range(diagonal)][:m]
    pairs += [(rng.randrange(n), rng.randrange(n)) for _ in range(m - len(pairs))]
    rng.shuffle(pairs)
    return [(i, k, Number(draw(rng), draw(rng))) for i, k in pairs]


def point(rng, n, m, kind, diagonal=1, kinds="SVQ"):
    y, r, t = CLASSES[kind]
    ybus = triplets(rng, n, m, y, diagonal)
    return ybus, [r(rng) for _ in range(n)], [t(rng) for _ in range(n)], layout_of([rng.choice(kinds) for _ in range(n)])


def crowded(rng, n, m, dim):
    """Numbers drawn at random, so that entries of one triplet meet in one place and their order shows."""
    ybus, vm, va, _ = point(rng, n, m, "plain")
    return ybus, vm, va, (tuple([rng.choice((NONE, *range(dim))) for _ in range(n)] for _ in range(2)), dim)


def points(rng):
    yield point(rng, 0, 0, "plain")
    for kind in "SVQ":
        yield [(0, 0, Number(2.0, -8.0))], [1.0], [0.0], layout_of([kind])
        # two diagonal triplets on one bus: the current counts twice
        yield [(0, 0, Number(1.0, 0.0)), (0, 0, Number(1.0, 0.0))], [1.0], [0.0], layout_of([kind])
    for kind in CLASSES:
        for k in range(27):
            n = 1 + k % 9
            yield point(rng, n, rng.randrange(4 * n), kind, k % 3)
        for kinds in ("S", "V", "Q", "VQ"):
            yield point(rng, 5, 16, kind, 1, kinds)
        yield point(rng, 32, 256, kind, 1, "SVQQQ")
        yield point(rng, 32, 256, kind, 2, "SVVQ")
    for k in range(16):
        yield crowded(rng, 2 + k % 7, 24, 1 + k % 5)
    yield point(rng, 32, 256, "plain", 1, "Q")
    yield point(rng, 32, 94, "plain", 1, "Q")
    yield point(rng, 32, 256, "few", 0, "QQV")
    yield point(rng, 20, 70, "special", 1, "QQV")


def told(ybus, vm, va, place):
    layout, dim = place
    v, i_bus, s = ac_injections(ybus, vm, va)
    rows = matrix(ac_jacobian(ybus, vm, va, i_bus, layout), dim)
    numbers = [[i for i, _, _ in ybus], [k for _, k, _ in ybus]]
    doubles = [[y.re for _, _, y in ybus], [y.im for _, _, y in ybus], vm, va]
    out = [[x.re for x in v], [x.im for x in v], [x.re for x in i_bus], [x.im for x in i_bus], [x.re for x in s], [x.im for x in s]]
    words = [len(vm), len(ybus), dim] + [x for xs in numbers for x in xs]
    words += [bits(x) for xs in doubles for x in xs]
    words += [x for xs in layout for x in xs]
    words += [bits(x) for xs in out + rows for x in xs]
    return struct.pack(f">{len(words)}Q", *words)


def main():
    rng = random.Random(20260302)
    out = [told(*p) for p in points(rng)]
    data = struct.pack(">Q", len(out)) + b"".join(out)
    write("injection_vectors", data, f"points {len(out)}, differing 0\n")
    print(f"{len(out)} points, {len(data)} bytes")


main()

#!/usr/bin/env python3
"""Systems for crates/linsolve_vectors, solved here by 01's "Linear solve".

Written from the rule alone, over lists of rows: nothing of the Rattle code is used. A Python float is an IEEE double and each operation rounds once.

    python3 oracle/linsolve_vectors.py      writes crates/linsolve_vectors/stdin and stdout; the same each time

stdin, in words of eight bytes, the highest first: how many systems; then for each its dim, its answer (64 for solved, else the column
without a pivot), its right sides and its entries row by row, and the same places as the solve has to leave them. Entries below the diagonal are left as
they were when their column's pivot was found: each system is also solved with whole rows, as 01 says it, and must come out the same.
"""
import math
import random
import struct

from vectors import write

SOLVED = 64
INF, NAN = math.inf, math.nan
TINY = 5e-324


def quotient(x, y):
    """x / y, where Python refuses to divide by zero."""
    if y != 0.0:
        return x / y
    if x == 0.0 or x != x:
        return NAN
    return math.copysign(INF, x) * math.copysign(1.0, y)


def solve(rows, sides, whole=False):
    """Changes the rows and right sides in place: whole rows, or only the columns that are read again. Answers the column without a pivot, or SOLVED."""
    dim = len(rows)
    for col in range(dim):
        best, pivot = 0.0, None
        for r in range(col, dim):
            if abs(rows[r][col]) > best:
                best, pivot = abs(rows[r][col]), r
        if pivot is None:
            return col
        rows[col], rows[pivot] = rows[pivot], rows[col]
        sides[col], sides[pivot] = sides[pivot], sides[col]
        for r in range(col + 1, dim):
            f = quotient(rows[r][col], rows[col][col])
            first = 0 if whole else col + 1
            rows[r][first:] = [x - f * y for x, y in zip(rows[r][first:], rows[col][first:])]
            sides[r] = sides[r] - f * sides[col]
    for r in reversed(range(dim)):
        for c in range(r + 1, dim):
            sides[r] = sides[r] - rows[r][c] * sides[c]
        sides[r] = quotient(sides[r], rows[r][r])
    return SOLVED


# ---- the classes: each gives a double for an entry or a right side

def plain(rng):
    return rng.uniform(-1.0, 1.0) * 10.0 ** rng.randint(-3, 3)


def graded(rng):
    return rng.choice((-1.0, 1.0)) * rng.uniform(1.0, 10.0) * 10.0 ** rng.randint(-300, 300)


def huge(rng):
    return rng.choice((-1.0, 1.0)) * rng.uniform(1.0, 1.7) * 10.0 ** rng.randint(300, 308)


def subnormal(rng):
    return rng.choice((-1.0, 1.0)) * rng.choice((rng.randint(0, 4), rng.randint(0, 1 << 52))) * TINY


def tied(rng):
    return rng.choice((-2.0, -1.0, 1.0, 2.0))


def signed_zero(rng):
    return rng.choice((0.0, -0.0, -0.0, 1.0, -1.0, 0.5))


def special(rng):
    return rng.choice((NAN, INF, -INF, 0.0, -0.0)) if rng.random() < 0.2 else plain(rng)


def few_special(rng):
    return rng.choice((NAN, INF, -INF)) if rng.random() < 0.04 else tied(rng)


def system(rng, dim, entry):
    return [[entry(rng) for _ in range(dim)] for _ in range(dim)], [entry(rng) for _ in range(dim)]


def singular(rng, dim):
    """A column of zeros, or two rows that are one: whole numbers, so that nothing is rounded off on the way there."""
    rows, sides = system(rng, dim, tied)
    if rng.random() < 0.6:
        col = rng.randrange(dim)
        for row in rows:
            row[col] = rng.choice((0.0, -0.0))
    else:
        rows[rng.randrange(dim)] = list(rows[rng.randrange(dim)])
    return rows, sides


def triangular(rng, dim):
    """Rows upside down, so that each column's pivot comes last."""
    rows, sides = system(rng, dim, plain)
    return [[x if r + c >= dim - 1 else 0.0 for c, x in enumerate(row)] for r, row in enumerate(rows)], sides


def systems(rng):
    yield [[0.0, 2.0], [4.0, 0.0]], [6.0, 8.0]
    for x in (0.0, -0.0, NAN, INF, TINY):
        yield [[x]], [x]
    for dim in [*range(49), *range(50, 63, 2), 63, 64]:
        yield system(rng, dim, plain)
    for entry in (plain, graded, huge, subnormal, tied, signed_zero, special, few_special):
        for k in range(32):
            yield system(rng, 1 + k % 10, entry)
    for k in range(40):
        yield singular(rng, 1 + k % 10)
    for k in range(16):
        yield triangular(rng, 2 + k % 8)
    for entry in (graded, tied, few_special):
        yield system(rng, 24, entry)


def same(x, y):
    """One value: the same bits, or both NaN."""
    return struct.pack(">d", x) == struct.pack(">d", y) or x != x and y != y


def solved(rows, sides):
    """The answer; rows and right sides are changed in place. Both ways must agree in all that is read again."""
    whole, whole_sides = [list(row) for row in rows], list(sides)
    answer = solve(rows, sides)
    assert solve(whole, whole_sides, whole=True) == answer
    assert all(map(same, sides, whole_sides))
    done = len(rows) if answer == SOLVED else answer
    for r, (row, other) in enumerate(zip(rows, whole)):
        assert all(map(same, row[min(r, done):], other[min(r, done):]))
    return answer


def packed(rng, x):
    """A double in eight bytes. A NaN goes in under any of its patterns."""
    if x == x:
        return struct.pack(">d", x)
    sign = rng.randrange(2) << 63
    return struct.pack(">Q", sign | 0x7FF0000000000000 | rng.choice((1, 1 << 51, (1 << 52) - 1, rng.randint(1, (1 << 52) - 1))))


def places(rng, rows, sides):
    return b"".join(packed(rng, x) for x in sides + [x for row in rows for x in row])


def main():
    rng = random.Random(20260301)
    out, told = [], {}
    for rows, sides in systems(rng):
        given = places(rng, rows, sides)
        answer = solved(rows, sides)
        told[answer] = told.get(answer, 0) + 1
        out.append(struct.pack(">QQ", len(rows), answer) + given + places(rng, rows, sides))
    write("linsolve_vectors", struct.pack(">Q", len(out)) + b"".join(out), f"systems {len(out)}, differing 0\n")
    print(f"{len(out)} systems, {told.get(SOLVED, 0)} solved; singular by column", sorted((c, n) for c, n in told.items() if c != SOLVED))


main()

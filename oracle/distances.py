#!/usr/bin/env python3
"""Prints how far two builds of the Rust are from each other, on the sample cases and on drawn texts.

    python3 oracle/distances.py ORACLE OTHER SEED COUNT      OTHER is oracle_platform or oracle_num_complex of make_oracle.py
"""
import math
import sys

import cases

COLUMNS = ("vm", "va", "p", "q")


def apart(a, b, turns=False):
    """The largest difference of two columns, NaN left out. With turns, angles count without whole turns."""
    gaps = [abs(math.remainder(x - y, math.tau) if turns else x - y) for x, y in zip(a, b) if not math.isnan(x + y)]
    return max(gaps, default=0.0)


def lone_nan(one, other):
    """Whether a value is NaN in one answer alone."""
    return any(math.isnan(x) != math.isnan(y) for a, b in zip(one[2], other[2]) for x, y in zip(a, b))


def differences(one, other, turns=False):
    return [apart(a, b, turns and name == "va") for name, a, b in zip(COLUMNS, one[2], other[2])]


def shown(gaps):
    return ", ".join(f"{name} {gap:.1e}" for name, gap in zip(COLUMNS, gaps))


def largest(pairs, turns=False):
    gaps = [differences(a, b, turns) for a, b in pairs]
    return shown([max(column) for column in zip(*gaps)]) if gaps else "none"


def samples(one, other):
    texts = cases.samples()
    for name, x, y in zip(texts, cases.answers(one, texts.values())[0], cases.answers(other, texts.values())[0]):
        a, b = cases.solution(x), cases.solution(y)
        kinds = "the same" if a[1] == b[1] else "DIFFERENT"
        print(f"{name}.case: {shown(differences(a, b))}; kinds {kinds}; iterations {a[0]} and {b[0]}")


def drawn(one, other, seed, count):
    texts = cases.both(seed, count)
    (x, met_x), (y, met_y) = cases.answers(one, texts), cases.answers(other, texts)
    near, beyond_path, other_path, single = [], [], [], {}
    for i in range(count):
        a, b = cases.solution(x[i]), cases.solution(y[i])
        m, n = met_x[i], met_y[i]
        beyond = m["far"] > 0  # there 01's sine is NaN and the platform's is not
        if a and b:
            same = m["starts"] == n["starts"] and a[:2] == b[:2] and not beyond
            (near if same else beyond_path if beyond else other_path).append((a, b))
        elif a or b:
            name = ("only the first" if a else "only the second") + (", an angle beyond 1024 radians" if beyond else ", no such angle")
            single[name] = single.get(name, 0) + 1
    early = [i for i in range(count) if not met_x[i]["starts"]]
    print(f"{count} texts of seed {seed}: {sum(a == b for a, b in zip(x, y))} answers are the same in every bit")
    print(f"refused before the first start: {len(early)}, of which alike {sum(x[i] == y[i] for i in early)}")
    print(f"both solve {len(near + beyond_path + other_path)}; solved by one alone: {single or 'none'}")
    tens = [i for i in range(count) if x[i].startswith(b"refused 10") and y[i].startswith(b"refused 10")]
    print(f"both refuse with 10: {len(tens)}, of which alike in every bit {sum(x[i] == y[i] for i in tens)}")
    print(f"by the same start, iterations and kinds, no angle beyond 1024 radians: {len(near)}, at most {largest(near)}")
    for name, pairs in (("after an angle beyond 1024 radians", beyond_path), ("by another start, iterations or kinds, no such angle", other_path)):
        close = sum(max(differences(a, b, True)[:2]) < 1e-6 for a, b in pairs)
        print(f"{name}: {len(pairs)}, at most {largest(pairs, True)} (va without whole turns)")
        print(f"  {close} of them within 1e-6 in vm and va, NaN left out; {sum(a[1] != b[1] for a, b in pairs)} with other kinds; "
              f"{sum(lone_nan(a, b) for a, b in pairs)} with a NaN in one answer alone; "
              f"iterations apart by at most {max((abs(a[0] - b[0]) for a, b in pairs), default=0)}")


def main():
    if len(sys.argv) != 5:
        sys.exit(__doc__)
    samples(*sys.argv[1:3])
    drawn(*sys.argv[1:3], int(sys.argv[3]), int(sys.argv[4]))
    print("not compared: faer's sparse LU (both builds use 01's linear solve); how AcNetwork is made, and its ybus (the list is given, or 02's)")


main()

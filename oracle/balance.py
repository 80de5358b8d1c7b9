#!/usr/bin/env python3
"""The check that an electrician can make: what enters the branches at a bus is what the bus puts into the network, but for rounding.

    python3 oracle/balance.py [LIST]      LIST is a list of texts and answers as oracle/replay.py writes it; crates/replay/data/texts
For every solved second-edition case of the list: at each bus the sum over its branch ends, as exact fractions, less the answered injection. A distance may be at most
(2k + 16) units of rounding (2^-53) of the sum of |v||y||v'| over the products that are added up at the bus, k being the number of its branch ends. Prints the largest
distances, in per unit of the buses whose products are below 1000 alone (some cases have admittances of 10^14); exit 1 if one is beyond its bound. A bus at which a
figure is not finite is left out and counted.
"""
import cmath
import math
import os
import struct
import sys
from fractions import Fraction

import cases

LIST = os.path.join(os.path.dirname(os.path.abspath(__file__)), "..", "crates", "replay", "data", "texts")


def records(path):
    with open(path, "rb") as file:
        data = file.read()
    at = 0
    while at < len(data):
        n, m = struct.unpack(">HH", data[at:at + 4])
        yield data[at + 4:at + 4 + n], data[at + 4 + n:at + 4 + n + m]
        at += 4 + n + m


def admittances(row):
    """From-from, from-to, to-from and to-to of a K row."""
    g, b, g_fr, b_fr, g_to, b_to, tap, shift, sw = (float(x) for x in row)
    y, t = complex(g, b), cmath.rect(tap, shift)
    return (y + complex(g_fr, b_fr)) / tap ** 2 * sw, -y / t.conjugate() * sw, -y / t * sw, (y + complex(g_to, b_to)) * sw


def ends(text, answer, vm):
    """Of each bus its branch ends: P and Q as printed, and how large the products of its current times its voltage are."""
    found = [[] for _ in vm]
    for row, figures in zip(cases.tables(text)[3], cases.flows(answer)):
        i, k = int(row[0]), int(row[1])
        ff, ft, tf, tt = (abs(y) for y in admittances(row[2:]))
        pf, qf, pt, qt, _ = (math.nan if x == "nan" else cases.double(int(x, 16)) for x in figures)
        found[i].append((pf, qf, vm[i] * (ff * vm[i] + ft * vm[k])))
        found[k].append((pt, qt, vm[k] * (tf * vm[i] + tt * vm[k])))
    return found


def main():
    solved, buses, skipped, beyond, far, units = 0, 0, 0, 0, Fraction(0), Fraction(0)
    for text, answer in records(sys.argv[1] if len(sys.argv) > 1 else LIST):
        if not cases.second(text) or not answer.startswith(b"ok"):
            continue
        solved += 1
        _, _, (vm, _, p, q) = cases.solution(answer)
        for bus, here in enumerate(ends(text, answer, vm)):
            figures = [p[bus], q[bus]] + [x for end in here for x in end]
            if not all(map(math.isfinite, figures)):
                skipped += 1
                continue
            buses += 1
            scale = sum((Fraction(size) for _, _, size in here), Fraction(0))
            for part, injected in ((0, p[bus]), (1, q[bus])):
                distance = abs(sum((Fraction(end[part]) for end in here), Fraction(0)) - Fraction(injected))
                unit = distance * 2 ** 53 / scale if scale else distance
                units = max(units, unit)
                far = max(far, distance) if scale < 1000 else far
                if unit > 2 * len(here) + 16:
                    beyond += 1
                    print(f"beyond the bound: bus {bus}, {float(unit):.3g} units, in\n{text.decode()}")
    print(f"{solved} solved cases, {buses} buses ({skipped} more with figures that are not finite): the sum over a bus's branch ends is at most {float(units):.3g} units of "
          f"rounding from its injection, and {float(far):.3g} per unit where its products are below 1000; {beyond} beyond the bound")
    sys.exit(beyond > 0)


main()

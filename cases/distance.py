#!/usr/bin/env python3
"""Prints how far the answers are from the published voltages and flows and those of the two editions of a network from each other, and which limits bind.

    python3 cases/distance.py
"""
import math
import os

from make import HERE, PUBLISHED, cases, ieee14
from sheets import branches

# What MATPOWER prints of the branches of its case14, in their order: P and Q that enter at the from end, at the to end, and the loss, in MW and MVAr.
FLOWS = [
    (156.88, -20.40, -152.59, 27.68, 4.298), (75.51, 3.85, -72.75, 2.23, 2.763), (73.24, 3.56, -70.91, 1.60, 2.323), (56.13, -1.55, -54.45, 3.02, 1.677),
    (41.52, 1.17, -40.61, -2.10, 0.904), (-23.29, 4.47, 23.66, -4.84, 0.373), (-61.16, 15.82, 61.67, -14.20, 0.514), (28.07, -9.68, -28.07, 11.38, 0),
    (16.08, -0.43, -16.08, 1.73, 0), (44.09, 12.47, -44.09, -8.05, 0), (7.35, 3.56, -7.30, -3.44, 0.055), (7.79, 2.50, -7.71, -2.35, 0.072),
    (17.75, 7.22, -17.54, -6.80, 0.212), (0, -17.16, 0, 17.62, 0), (28.07, 5.78, -28.07, -4.98, 0), (5.23, 4.22, -5.21, -4.18, 0.013),
    (9.43, 3.61, -9.31, -3.36, 0.116), (-3.79, -1.62, 3.80, 1.64, 0.013), (1.61, 0.75, -1.61, -0.75, 0.006), (5.64, 1.75, -5.59, -1.64, 0.054),
]
TOTAL_LOSS = 13.393


def answer(name):
    """The kinds, and the columns vm, va, p and q."""
    with open(os.path.join(HERE, name + ".answer"), "rb") as file:
        _, kinds, columns = cases.solution(file.read())
    return kinds, *columns


def published(name, table):
    _, magnitudes, angles, _, _ = answer(name)
    vm = [abs(x - p[0]) for x, p in zip(magnitudes, table)]
    va = [abs(math.degrees(x) - p[1]) for x, p in zip(angles, table)]
    farthest = f"{max(vm):.5f} in magnitude (bus {vm.index(max(vm))}), {max(va):.3f} degrees (bus {va.index(max(va))})"
    print(f"{name}: from the published table at most {farthest}")


def published_flows(name, network, table, total):
    """A bank is a part of the branch at whose end it stands. The published flows are those without it, so what it puts in there is taken out."""
    _, vm, *_ = answer(name)
    rows, found = cases.tables(cases.samples()[name])[3], list(branches(name))
    assert len(rows) == len(found) == len(table)
    gaps = []
    for (row, ends, figures, _), (*_, charging, _), flow in zip(found, network()[3], table):
        mega = [100 * float(x) for x in figures]
        for end, bus in enumerate(ends):
            bank = 100 * (float(rows[row][5 + 2 * end]) - charging / 2) * vm[int(bus)] ** 2
            if abs(bank) > 1e-6:
                print(f"{name}: the bank at the {('from', 'to')[end]} end of row {row} (bus {bus}) gives {bank:.2f} MVAr, which are taken out of that end's Q before it is compared")
                mega[2 * end + 1] += bank
        gaps.append([abs(x - y) for x, y in zip(mega, flow)])
    columns = [[max(g[0], g[2]) for g in gaps], [max(g[1], g[3]) for g in gaps], [g[4] for g in gaps]]
    farthest = (f"{max(column):.4f} {unit} (row {column.index(max(column))})" for column, unit in zip(columns, ("MW in P", "MVAr in Q", "MW in loss")))
    lost = 100 * float(sum(figures[4] for _, _, figures, _ in found))
    print(f"{name}: from the published flows at most {', '.join(farthest)}; {abs(lost - total):.4f} MW in the sum of the losses")


def binding(name):
    """A bus that is V in the text and Q in the answer is held at a limit."""
    buses, _, gens, *_ = cases.tables(cases.samples()[name])
    kinds, vm, _, _, power = answer(name)
    for b, row in enumerate(buses):
        if row[0] == "V" and kinds[b] == "Q":
            low, high = (sum(float(g[k]) for g in gens if g[0] == str(b)) for k in (1, 2))
            q = power[b] + float(row[3])
            limit = "high" if abs(q - high) < abs(q - low) else "low"
            print(f"{name}: bus {b} is held at its {limit} limit {q:.3f}, its voltage is {vm[b]:.4f} instead of {float(row[1]):.4f}")
    print(f"{name}: voltages from {min(vm):.4f} (bus {vm.index(min(vm))}) to {max(vm):.4f} (bus {vm.index(max(vm))})")


def editions(name, other):
    """The answer to a network by its triplets and by its branches."""
    (kinds, *columns), (other_kinds, *other_columns) = answer(name), answer(other)
    far = [max(abs(x - y) for x, y in zip(*pair)) for pair in zip(columns, other_columns)]
    print(f"{name} and {other}: apart by at most {far[0]:.1e} in magnitude, {far[1]:.1e} radians, {far[2]:.1e} in P, {far[3]:.1e} in Q; "
          f"kinds {'the same' if kinds == other_kinds else 'DIFFERENT'}")


samples = cases.samples()
for network, table in PUBLISHED.items():
    for name in (network, network + "k"):
        if name in samples:
            published(name, table)
    if network in samples:
        editions(network, network + "k")
    if network == "ieee14":
        published_flows("ieee14k", ieee14, FLOWS, TOTAL_LOSS)
for name in ("ieee30k", "factory32"):
    binding(name)

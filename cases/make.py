#!/usr/bin/env python3
"""Builds the sample cases from the network data below, and their answers with the altered Rust.

    python3 cases/make.py ORACLE      writes cases/NAME.case and cases/NAME.answer
Per unit. Bus numbers start at 0 here, so the buses of a published table are one less.
"""
import math
import os
import sys

HERE = os.path.dirname(os.path.abspath(__file__))
sys.path.insert(0, os.path.join(HERE, "..", "oracle"))
import cases
from families import Branched, Case, listing

# The published voltages of a network: magnitude and degrees, bus by bus.
PUBLISHED = {
    "wscc9": [(1.040, 0), (1.025, 9.3), (1.025, 4.7), (1.026, -2.2), (0.996, -4.0), (1.013, -3.7), (1.026, 3.7), (1.016, 0.7), (1.032, 2.0)],
    "ieee14": [(1.060, 0), (1.045, -4.98), (1.010, -12.72), (1.019, -10.33), (1.020, -8.78), (1.070, -14.22), (1.062, -13.37), (1.090, -13.36),
               (1.056, -14.94), (1.051, -15.10), (1.057, -14.79), (1.055, -15.07), (1.050, -15.16), (1.036, -16.04)],
    "ieee30": [(1.060, 0), (1.043, -5.48), (1.021, -7.96), (1.012, -9.62), (1.010, -14.37), (1.010, -11.34), (1.002, -13.12), (1.010, -12.10), (1.051, -14.38),
               (1.045, -15.97), (1.082, -14.39), (1.057, -15.24), (1.071, -15.24), (1.042, -16.13), (1.038, -16.22), (1.045, -15.83), (1.040, -16.14),
               (1.028, -16.82), (1.026, -17.00), (1.030, -16.80), (1.033, -16.42), (1.033, -16.41), (1.027, -16.61), (1.021, -16.78), (1.017, -16.35),
               (1.000, -16.77), (1.023, -15.82), (1.007, -11.97), (1.003, -17.06), (0.992, -17.94)],
}


def admittances(n, branches, shunts):
    """Triplets: the diagonal of each bus, then the entries between buses. A branch is (from, to, r, x, b, tap), its tap at from."""
    y = {(k, k): complex(0, shunts.get(k, 0)) for k in range(n)}
    for f, t, r, x, b, tap in branches:
        series, half = 1 / complex(r, x), complex(0, b / 2)
        y[f, f] += (series + half) / tap ** 2
        y[t, t] += series + half
        y[f, t] = y.get((f, t), 0) - series / tap
        y[t, f] = y.get((t, f), 0) - series / tap
    return [[i, k, v.real, v.imag] for (i, k), v in y.items()]


def triplets(start, buses, gens, branches, shunts):
    """A network as a case of the first edition, with twelve decimals. Its bus 0 is the slack at angle 0."""
    return Case(start, buses, [[0, 0]], gens, [[f, t] for f, t, *_ in branches], admittances(len(buses), branches, shunts), 12)


def branch_rows(branches, shunts):
    """K rows. A K row has no bus shunt, so that of a bus goes to the first end at the bus which is not the tap's."""
    rows = []
    for f, t, r, x, b, tap in branches:
        series = 1 / complex(r, x)
        rows.append([f, t, series.real, series.imag, 0, b / 2, 0, b / 2, tap, 0, 1])
    for bus, shunt in shunts.items():
        row, place = next((row, place) for row in rows for end, place in ((0, 5), (1, 7)) if row[end] == bus and (end or row[8] == 1))
        row[place] += shunt
    return rows


def branches(start, buses, gens, branches, shunts):
    """The same as a case of the second edition."""
    return Branched(start.lower(), buses, [[0, 0]], gens, branch_rows(branches, shunts), 12)


def load(p, q):
    return ["Q", 1, p, q, 0, 0, "?", "?"]


def generator(vm, pg, p=0, q=0):
    return ["V", vm, p, q, pg, 0, "?", "?"]


def wscc9():
    """Anderson and Fouad, Power System Control and Stability: 3 machines, 9 buses, 100 MVA. No reactive limits are given."""
    buses = [generator(1.04, 0), generator(1.025, 1.63), generator(1.025, 0.85), load(0, 0), load(1.25, 0.5), load(0.9, 0.3), load(0, 0), load(1, 0.35),
             load(0, 0)]
    branches = [
        (0, 3, 0, 0.0576, 0, 1), (1, 6, 0, 0.0625, 0, 1), (2, 8, 0, 0.0586, 0, 1),
        (3, 4, 0.010, 0.085, 0.176, 1), (3, 5, 0.017, 0.092, 0.158, 1), (4, 6, 0.032, 0.161, 0.306, 1),
        (5, 8, 0.039, 0.170, 0.358, 1), (6, 7, 0.0085, 0.072, 0.149, 1), (7, 8, 0.0119, 0.1008, 0.209, 1),
    ]
    return "F", buses, [], branches, {}


def ieee14():
    """The IEEE 14-bus test case, 100 MVA, with its taps, line charging, shunt and limits. It starts from the published voltages."""
    buses = [
        generator(1.06, 2.324), generator(1.045, 0.4, 0.217, 0.127), generator(1.01, 0, 0.942, 0.19), load(0.478, -0.039), load(0.076, 0.016),
        generator(1.07, 0, 0.112, 0.075), load(0, 0), generator(1.09, 0), load(0.295, 0.166), load(0.09, 0.058), load(0.035, 0.018), load(0.061, 0.016),
        load(0.135, 0.058), load(0.149, 0.05),
    ]
    for bus, (vm, degrees) in zip(buses, PUBLISHED["ieee14"]):
        bus[6:] = [vm, math.radians(degrees)]
    gens = [[0, 0, 0.1], [1, -0.4, 0.5], [2, 0, 0.4], [5, -0.06, 0.24], [7, -0.06, 0.24]]
    branches = [
        (0, 1, 0.01938, 0.05917, 0.0528, 1), (0, 4, 0.05403, 0.22304, 0.0492, 1), (1, 2, 0.04699, 0.19797, 0.0438, 1),
        (1, 3, 0.05811, 0.17632, 0.0340, 1), (1, 4, 0.05695, 0.17388, 0.0346, 1), (2, 3, 0.06701, 0.17103, 0.0128, 1),
        (3, 4, 0.01335, 0.04211, 0, 1), (3, 6, 0, 0.20912, 0, 0.978), (3, 8, 0, 0.55618, 0, 0.969), (4, 5, 0, 0.25202, 0, 0.932),
        (5, 10, 0.09498, 0.19890, 0, 1), (5, 11, 0.12291, 0.25581, 0, 1), (5, 12, 0.06615, 0.13027, 0, 1), (6, 7, 0, 0.17615, 0, 1),
        (6, 8, 0, 0.11001, 0, 1), (8, 9, 0.03181, 0.08450, 0, 1), (8, 13, 0.12711, 0.27038, 0, 1), (9, 10, 0.08205, 0.19207, 0, 1),
        (11, 12, 0.22092, 0.19988, 0, 1), (12, 13, 0.17093, 0.34802, 0, 1),
    ]
    return "C", buses, gens, branches, {8: 0.19}


def ieee30():
    """The IEEE 30-bus test case, 100 MVA, with its taps, line charging, shunts and limits. It starts from the published voltages."""
    buses = [load(0, 0) for _ in range(30)]
    for bus, p, q in (
        (2, 0.024, 0.012), (3, 0.076, 0.016), (6, 0.228, 0.109), (9, 0.058, 0.020), (11, 0.112, 0.075), (13, 0.062, 0.016), (14, 0.082, 0.025), (15, 0.035, 0.018),
        (16, 0.090, 0.058), (17, 0.032, 0.009), (18, 0.095, 0.034), (19, 0.022, 0.007), (20, 0.175, 0.112), (22, 0.032, 0.016), (23, 0.087, 0.067),
        (25, 0.035, 0.023), (28, 0.024, 0.009), (29, 0.106, 0.019),
    ):
        buses[bus] = load(p, q)
    buses[0] = generator(1.06, 2.602)
    buses[1] = generator(1.045, 0.4, 0.217, 0.127)
    buses[4] = generator(1.01, 0, 0.942, 0.19)
    buses[7] = generator(1.01, 0, 0.3, 0.3)
    buses[10] = generator(1.082, 0)
    buses[12] = generator(1.071, 0)
    for bus, (vm, degrees) in zip(buses, PUBLISHED["ieee30"]):
        bus[6:] = [vm, math.radians(degrees)]
    gens = [[1, -0.4, 0.5], [4, -0.4, 0.4], [7, -0.1, 0.4], [10, -0.06, 0.24], [12, -0.06, 0.24]]
    branches = [
        (0, 1, 0.0192, 0.0575, 0.0528, 1), (0, 2, 0.0452, 0.1852, 0.0408, 1), (1, 3, 0.0570, 0.1737, 0.0368, 1), (2, 3, 0.0132, 0.0379, 0.0084, 1),
        (1, 4, 0.0472, 0.1983, 0.0418, 1), (1, 5, 0.0581, 0.1763, 0.0374, 1), (3, 5, 0.0119, 0.0414, 0.0090, 1), (4, 6, 0.0460, 0.1160, 0.0204, 1),
        (5, 6, 0.0267, 0.0820, 0.0170, 1), (5, 7, 0.0120, 0.0420, 0.0090, 1), (5, 8, 0, 0.2080, 0, 0.978), (5, 9, 0, 0.5560, 0, 0.969), (8, 10, 0, 0.2080, 0, 1),
        (8, 9, 0, 0.1100, 0, 1), (3, 11, 0, 0.2560, 0, 0.932), (11, 12, 0, 0.1400, 0, 1), (11, 13, 0.1231, 0.2559, 0, 1), (11, 14, 0.0662, 0.1304, 0, 1),
        (11, 15, 0.0945, 0.1987, 0, 1), (13, 14, 0.2210, 0.1997, 0, 1), (15, 16, 0.0824, 0.1923, 0, 1), (14, 17, 0.1073, 0.2185, 0, 1),
        (17, 18, 0.0639, 0.1292, 0, 1), (18, 19, 0.0340, 0.0680, 0, 1), (9, 19, 0.0936, 0.2090, 0, 1), (9, 16, 0.0324, 0.0845, 0, 1), (9, 20, 0.0348, 0.0749, 0, 1),
        (9, 21, 0.0727, 0.1499, 0, 1), (20, 21, 0.0116, 0.0236, 0, 1), (14, 22, 0.1000, 0.2020, 0, 1), (21, 23, 0.1150, 0.1790, 0, 1),
        (22, 23, 0.1320, 0.2700, 0, 1), (23, 24, 0.1885, 0.3292, 0, 1), (24, 25, 0.2544, 0.3800, 0, 1), (24, 26, 0.1093, 0.2087, 0, 1), (27, 26, 0, 0.3960, 0, 0.968),
        (26, 28, 0.2198, 0.4153, 0, 1), (26, 29, 0.3202, 0.6027, 0, 1), (28, 29, 0.2399, 0.4533, 0, 1), (7, 27, 0.0636, 0.2000, 0.0428, 1),
        (5, 27, 0.0169, 0.0599, 0.0130, 1),
    ]
    return "C", buses, gens, branches, {9: 0.19, 23: 0.043}


def factory32():
    """A factory of our own, 10 MVA: intake and two boards at 33 kV, a ring and two radial feeders at 11 kV, boards at 0.4 kV, own generators."""
    buses = [generator(1.02, 0)] + [load(0, 0) for _ in range(31)]
    for board, p, q in (
        (11, 0.070, 0.045), (12, 0.065, 0.030), (13, 0.080, 0.050), (14, 0.060, 0.040), (15, 0.040, 0.015), (16, 0.050, 0.030),
        (18, 0.055, 0.035), (20, 0.060, 0.030), (23, 0.090, 0.050), (25, 0.055, 0.035), (26, 0.065, 0.045), (28, 0.060, 0.030), (29, 0.070, 0.050),
        (30, 0.045, 0.025),
    ):
        buses[board] = load(p, q)
    buses[9] = generator(1.05, 0.25)                 # heat and power, two sets, board A
    buses[10] = generator(0.98, 0.20, 0.01, 0.005)   # gas turbine, board B
    buses[17] = generator(1.00, 0.02, 0.035, 0.020)  # solar inverter
    buses[27] = generator(1.03, 0.03, 0.050, 0.030)  # diesel set
    buses[31] = generator(1.03, 0.10)                # steam turbine at a feeder's end
    gens = [[9, -0.05, 0.04], [9, -0.02, 0.02], [10, -0.03, 0.10], [17, -0.01, 0.01], [27, -0.04, 0.08], [31, -0.02, 0.02]]
    line = [
        (0, 1, 0.004, 0.012, 0.002), (0, 2, 0.004, 0.012, 0.002),
        (3, 5, 0.015, 0.012, 0.001), (5, 6, 0.012, 0.010, 0.001), (6, 7, 0.020, 0.016, 0.001), (7, 8, 0.012, 0.010, 0.001), (8, 4, 0.015, 0.012, 0.001),
        (3, 19, 0.030, 0.020, 0.002), (19, 20, 0.025, 0.017, 0.001), (20, 21, 0.025, 0.017, 0.001),
        (4, 22, 0.035, 0.024, 0.002), (22, 23, 0.025, 0.017, 0.001), (23, 24, 0.030, 0.020, 0.001),
    ]
    transformer = [(1, 3, 0.003, 0.06, 0.975), (2, 4, 0.003, 0.06, 0.975), (3, 9, 0.006, 0.20, 1), (4, 10, 0.006, 0.20, 1), (24, 31, 0.010, 0.30, 1)]
    transformer += [(above, below, 0.040, 0.36, 0.975) for above, below in (
        (5, 11), (6, 12), (7, 13), (8, 14), (5, 15), (6, 16), (7, 17), (8, 18), (19, 25), (20, 26), (21, 27), (22, 28), (23, 29), (24, 30))]
    branches = [(*x, 1) for x in line] + [(f, t, r, x, 0, tap) for f, t, r, x, tap in transformer]
    banks = {3: 0.08, 11: 0.03, 13: 0.03, 14: 0.02, 26: 0.03, 29: 0.03}
    return "F", buses, gens, branches, banks


def main():
    if len(sys.argv) != 2:
        sys.exit(__doc__)
    texts = {"listing": listing().text()}
    texts.update({network.__name__: triplets(*network()).text() for network in (wscc9, ieee14, factory32)})
    texts.update({network.__name__ + "k": branches(*network()).text() for network in (wscc9, ieee14, ieee30)})
    answers, _ = cases.answers(sys.argv[1], list(texts.values()))
    for (name, text), answer in zip(texts.items(), answers):
        print(name, answer.decode().splitlines()[0])
        for ending, data in (("case", text), ("answer", answer)):
            with open(os.path.join(HERE, f"{name}.{ending}"), "wb") as out:
                out.write(data)


if __name__ == "__main__":
    main()

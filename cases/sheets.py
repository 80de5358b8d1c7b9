#!/usr/bin/env python3
"""Writes what ./show must print of each sample case: its sheet in per unit, and its CSV in MW and MVAr at 100 MVA, of the buses and of the branches.

    python3 cases/sheets.py      writes cases/NAME.sheet, cases/NAME.csv and, where it has K lines, cases/NAME.branches.csv from cases/NAME.case and cases/NAME.answer
Every figure is worked out as an exact fraction from the bits of the answer and is rounded once, at its last decimal; none of ./show's code takes part.
"""
import math
import os
import struct
from fractions import Fraction

HERE = os.path.dirname(os.path.abspath(__file__))
PI = Fraction("3.14159265358979323846264338327950288419716939937510582097494459")


def exact(digits):
    """The real whose bits are 16 hexadecimal digits."""
    return Fraction(struct.unpack(">d", bytes.fromhex(digits))[0])


def decimals(x, places):
    """x rounded to the given places, a tie to even; no minus before zero."""
    scaled = round(x * 10 ** places)
    text = f"{abs(scaled):0{places + 1}d}"
    return "-" * (scaled < 0) + text[:-places] + "." + text[-places:]


def root_decimals(x, places):
    """The square root of x, rounded in the same way."""
    square = x * 100 ** places
    below = math.isqrt(square.numerator // square.denominator)
    middle = Fraction(2 * below + 1, 2) ** 2
    return decimals(Fraction(below + (square > middle or square == middle and below % 2), 10 ** places), places)


def three_digits(x):
    """x to three digits, as printf does it."""
    return "%.3g" % float(x)


def both(name):
    """The lines of a case and of its answer, in fields."""
    for ending in (".case", ".answer"):
        with open(os.path.join(HERE, name + ending)) as file:
            yield [line.split() for line in file]


def rows(name, base, places):
    """The figures of each bus as text, with its load and generation as fractions."""
    text, answer = both(name)
    buses = [line for line in text if line[0] == "B"]
    for b, (_, kind, vm, va, p, q) in enumerate(answer[1:len(buses) + 1]):
        load = [Fraction(float(x)) for x in buses[b][3:5]]
        power = [exact(p) + load[0], exact(q) + load[1]]
        figures = [b, kind, decimals(exact(vm), 6), decimals(exact(va) * 180 / PI, 6)] + [decimals(x * base, places) for x in load + power]
        limits = [[Fraction(float(x)) for x in line[2:4]] for line in text if line[0] == "G" and int(line[1]) == b]
        if limits:
            low, high = (sum(column) for column in zip(*limits))
            figures += [decimals(x * base, places) for x in (low, power[1] - low, high, high - power[1])]
            figures.append(remark(buses[b][1], kind, power[1], low, high))
        else:
            figures += [""] * 5
        yield figures, load, power


def remark(given, kind, q, low, high):
    if given == "V" and kind == "Q":
        return "held at qmin" if abs(q - low) < abs(high - q) else "held at qmax"
    if kind == "V":
        return ""
    return "above qmax, not held" if q > high + Fraction(1, 10 ** 6) else "below qmin, not held" if q < low - Fraction(1, 10 ** 6) else ""


def branches(name):
    """Of each branch its row, its buses, its four powers and its loss as fractions, and whether it is off; none where the case has no K lines."""
    text, answer = both(name)
    buses = sum(line[0] == "B" for line in text)
    for row, line in enumerate(line for line in text if line[0] == "K"):
        number, *figures = answer[1 + buses + row]
        assert int(number) == row
        yield row, line[1:3], [exact(x) for x in figures], Fraction(line[11]) == 0


def squares(figures):
    """The squares of the apparent power at the two ends."""
    from_p, from_q, to_p, to_q, _ = figures
    return [from_p ** 2 + from_q ** 2, to_p ** 2 + to_q ** 2]


def most_loaded(found):
    """The row with the most apparent power at one of its ends, the first of equals; None where no branch that is on carries anything."""
    loads = {row: max(squares(figures)) for row, _, figures, off in found if not off}
    most = max(loads.values(), default=0)
    return next((row for row in loads if loads[row] == most), None) if most else None


def branch_lines(name, base, places):
    """Of each branch what stands in its line: row, buses, figures, and behind them the remark; with its loading, which the CSV has too."""
    found = list(branches(name))
    most = most_loaded(found)
    for row, ends, figures, off in found:
        remark = "off" if off else "most loaded" if row == most else ""
        yield [row, *ends] + [decimals(x * base, places) for x in figures], root_decimals(max(squares(figures)) * base ** 2, places), remark


def branch_line(figures, remark=""):
    return (" ".join(f"{x:>{w}}" for x, w in zip(figures, [4] * 3 + [10] * 5)) + "  " + remark).rstrip() + "\n"


def branch_sheet(name):
    """The part of a sheet that only a case of K lines has."""
    found = list(branches(name))
    if not found:
        return
    lost = decimals(sum(figures[4] for _, _, figures, _ in found), 6)
    most = most_loaded(found)
    yield "branches, with the power that enters each at its two ends (where negative, it leaves there):\n"
    yield branch_line(["", "", "", "from P", "from Q", "to P", "to Q", "loss P"])
    yield branch_line(["row", "from", "to"] + ["p.u."] * 5)
    yield from (branch_line(figures, remark) for figures, _, remark in branch_lines(name, 1, 6))
    yield branch_line(["all"] + [""] * 6 + [lost])
    if most is None:
        yield f"the branches lose {lost} p.u. in all; none of them carries anything\n"
        return
    _, (start, end), figures, _ = found[most]
    at_from, at_to = squares(figures)
    yield (f"the branches lose {lost} p.u. in all; the most loaded is row {most} (bus {start} to bus {end}), with {root_decimals(max(at_from, at_to), 6)} p.u. of apparent "
           f"power at its {'to' if at_to > at_from else 'from'} end\n")


def line(figures):
    widths = [4, 4, 9, 11] + [10] * 8
    return (" ".join(f"{x:>{w}}" for x, w in zip(figures, widths)) + "  " + figures[12]).rstrip() + "\n"


def sheet(name):
    with open(os.path.join(HERE, name + ".answer")) as file:
        _, steps, mismatch = file.readline().split()
    found = list(rows(name, 1, 6))
    magnitudes = [float(figures[2]) for figures, _, _ in found]
    totals = [sum(pair[k][j] for pair in found) for k in (1, 2) for j in (0, 1)]
    yield f"cases/{name}.case: solved in {steps} steps, largest mismatch {three_digits(exact(mismatch))} per unit\n"
    yield line(["", "", "voltage", "angle", "load P", "load Q", "gen. P", "gen. Q", "qmin", "above it", "qmax", "below it", ""])
    yield line(["bus", "kind", "p.u.", "degrees"] + ["p.u."] * 8 + [""])
    yield from (line(figures) for figures, _, _ in found)
    yield line(["all", "", "", ""] + [decimals(x, 6) for x in totals] + [""] * 5)
    taken = [decimals(totals[k + 2] - totals[k], 6) for k in (0, 1)]
    yield f"generation less load, which lines, transformers and shunts take: P {taken[0]}, Q {taken[1]} (p.u.)\n"
    low, high = magnitudes.index(min(magnitudes)), magnitudes.index(max(magnitudes))
    yield f"voltages from {found[low][0][2]} (bus {low}) to {found[high][0][2]} (bus {high})\n"
    yield from branch_sheet(name)


def table(name):
    yield ("case,bus,kind,vm_pu,va_degrees,load_p_mw,load_q_mvar,gen_p_mw,gen_q_mvar,qmin_mvar,room_down_mvar,qmax_mvar,room_up_mvar,remark\n")
    for figures, _, _ in rows(name, 100, 4):
        yield csv_row(f"cases/{name}.case", *figures)


def branch_table(name):
    yield "case,row,from,to,from_p_mw,from_q_mvar,to_p_mw,to_q_mvar,loss_mw,loading_mva,remark\n"
    for figures, loading, remark in branch_lines(name, 100, 4):
        yield csv_row(f"cases/{name}.case", *figures, loading, remark)


def csv_row(*fields):
    """A field with a comma stands in quotes."""
    return ",".join(f'"{x}"' if "," in str(x) else str(x) for x in fields) + "\n"


def main():
    for name in sorted(x[:-5] for x in os.listdir(HERE) if x.endswith(".case")):
        parts = [("sheet", sheet), ("csv", table)] + [("branches.csv", branch_table)] * any(branches(name))
        for ending, part in parts:
            with open(os.path.join(HERE, f"{name}.{ending}"), "w") as out:
                out.writelines(part(name))


if __name__ == "__main__":
    main()

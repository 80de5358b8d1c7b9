#!/usr/bin/env python3
"""Draws case texts of all families by a seed, and counts the classes that they fall in, with the altered Rust as the judge.

    python3 oracle/cases.py ORACLE SEED COUNT      prints how many texts of both editions fall in each class; ends with an error if a class is empty
    python3 oracle/cases.py ORACLE late            prints the seeds for LATE of families.py
"""
import glob
import math
import os
import random
import re
import struct
import subprocess
import sys
from collections import Counter

import families as f
from exact import double

# One round of texts. The families of large texts share a slot.
ROUND = [f.plain, f.plain, f.heavy, f.islands, f.no_slack, f.slacks, f.limits, f.limits, f.crossed, f.cascade, f.edge, f.exact, f.zeros,
         f.stored, f.diagonals, f.sparse, f.shuffled, f.wild, f.distant, f.far_angle, f.far_angle, f.late, f.late, f.late, f.late, f.no_bus,
         f.length, f.trailer, f.alphabet, f.over, f.form, f.field, f.beyond, f.struck]
LARGE = [f.full, f.overflow, f.overflow, f.long, f.overflow, f.overflow, f.overflow, f.overflow]

# The same of the second edition: networks, which are drawn as branches, and damaged texts.
BRANCHED = [f.plain, f.plain, f.heavy, f.islands, f.no_slack, f.slacks, f.limits, f.limits, f.crossed, f.cascade, f.edge, f.exact, f.zeros, f.stored, f.diagonals,
            f.sparse, f.wild, f.distant, f.far_angle, f.late, f.no_bus]
UNDRESSED = [f.late, f.late, f.cascade, f.stored, f.crossed]  # drawn as branches and left as they are, since what they are for is soon lost
LARGE_BRANCHED = [f.all_branches, lambda rng: f.long(rng, f.good_branches)]
DAMAGED = [
    lambda rng: f.trailer(rng, f.good_branches, b"0123456789 fcFCK\n"),
    lambda rng: f.alphabet(rng, f.good_branches),
    lambda rng: f.struck(rng, f.good_branches, b" \n-.0159?BRGLYVQKfcx"),
    *[lambda rng: f.form(rng, f.good_branches, "BRGLYQK"), lambda rng: f.field(rng, f.good_branches)] * 2,
]
# Families of which every member is drawn in turn, and how many there are.
IN_TURN = {f.bad_rows: len(f.BAD) + len(f.NAMING_BRANCHED), f.short: len(f.LENGTHS), f.mixed: 2 * len(f.MIXED), f.over_branches: 12,
           f.flipped: len(f.transformer().text())}

# The classes of runs that one counter of the altered Rust tells.
COUNTED = {
    "a limit binds high": "at_max",
    "a limit binds low": "at_min",
    "a power past its limit within the tolerance": "q_within",
    "a bus returns": "back",
    "a voltage past the held one within the tolerance": "v_within",
    "a second return is not given": "kept",
    "rounds never settle": "unsettled",
    "a shortened step": "halved",
    "a trial of the same mismatch": "equal",
    "an unfit trial": "unfit",
    "a trial with magnitude 0": "zero",
    "no length helps": "stuck",
    "a singular matrix": "singular",
    "a fiftieth step": "fifty",
    "an angle beyond 1024 radians": "far",
    "a NaN mismatch": "nan",
    "a NaN direction": "nan_step",
    "a NaN trial": "nan_trial",
    "an infinite direction": "inf_step",
    "an infinite trial": "inf_trial",
}
SAMPLES = os.path.join(os.path.dirname(os.path.abspath(__file__)), "..", "cases")


def samples():
    """The texts of cases/ by name, in sorted order."""
    found = {}
    for path in sorted(glob.glob(os.path.join(SAMPLES, "*.case"))):
        with open(path, "rb") as file:
            found[os.path.basename(path)[:-len(".case")]] = file.read()
    if not found:
        sys.exit("no sample case in cases/")
    return found


def texts(seed, count):
    """Each round: a network of the next size from 1 to 32, a large text, one of each other slot, two that name a missing bus, and two with padded numbers.
    The last two kinds have random sources of their own, so that they change no other text."""
    rng, missing, padded = random.Random(seed), random.Random(f"missing {seed}"), random.Random(f"padded {seed}")
    out, k = [], 0
    while len(out) < count:
        drawn = [f.sized(rng, 1 + k % 32), LARGE[k % len(LARGE)](rng)] + [family(rng) for family in ROUND]
        drawn += [f.missing(missing, 2 * k), f.missing(missing, 2 * k + 1), f.padded(padded, 2 * k), f.padded(padded, 2 * k + 1)]
        out += [c if isinstance(c, bytes) else c.text() for c in drawn]
        k += 1
    return out[:count]


def branched(seed, count):
    """Texts of the second edition. Every member of the families of IN_TURN comes first; then each round has a network of the next size, a large text, one of uneven
    numbers, one of tied islands, one with branches between slack buses, one of each other slot, two with padded numbers, and the next member of each family of IN_TURN."""
    rng = random.Random(f"branches {seed}")
    out, k = [family(rng, i) for family, members in IN_TURN.items() for i in range(members)], 0
    while len(out) < count:
        out += [f.branched(rng, lambda rng: f.sized(rng, 1 + (32 - k) % 32)), LARGE_BRANCHED[k % len(LARGE_BRANCHED)](rng), f.uneven_branches(rng), f.tied(rng), f.between_slacks(rng)]
        out += [f.branched(rng, family) for family in BRANCHED] + [family(rng) for family in DAMAGED]
        out += [f.undressed(rng, family) for family in UNDRESSED] + [f.padded(rng, 2 * k, f.undressed), f.padded(rng, 2 * k + 1, f.branched)]
        out += [family(rng, k) for family in IN_TURN]
        k += 1
    return [c if isinstance(c, bytes) else c.text() for c in out[:count]]


def both(seed, count):
    """Texts of the first edition, and as many of the second."""
    return texts(seed, (count + 1) // 2) + branched(seed, count // 2)


def padded(seed, count):
    """Texts with padded numbers alone, of both editions in turn."""
    rng, second = random.Random(f"padded alone {seed}"), random.Random(f"padded branches {seed}")
    return [(f.padded(second, k // 2, f.branched) if k % 2 else f.padded(rng, k // 2)).text() for k in range(count)]


def answers(oracle, batch):
    """What the altered Rust answers each text, and its counters of each run."""
    data = b"".join(struct.pack(">I", len(t)) + t for t in batch)
    run = subprocess.run([oracle], input=data, capture_output=True, check=True)
    out, at = [], 0
    while at < len(run.stdout):
        n = struct.unpack(">I", run.stdout[at:at + 4])[0]
        out.append(run.stdout[at + 4:at + 4 + n])
        at += 4 + n
    met = [{name: int(n) for name, n in re.findall(r"(\w+): (\d+)", line)} for line in run.stderr.decode().splitlines()]
    if at != len(run.stdout) or not len(out) == len(met) == len(batch):
        sys.exit(f"{oracle}: {len(batch)} texts, {len(out)} answers (the last {at - len(run.stdout)} bytes short), {len(met)} lines of counters")
    return out, met


def solution(answer):
    """Iterations, kinds and the columns vm, va, p and q of a solved answer, without its branches; None of a refusal."""
    if not answer.startswith(b"ok "):
        return None
    first, *rows = [line.split() for line in answer.decode().splitlines()]
    rows = [r for r in rows if r[1] in ("S", "V", "Q")]
    real = lambda x: math.nan if x == "nan" else double(int(x, 16))
    return int(first[1]), [r[1] for r in rows], [[real(r[k]) for r in rows] for k in (2, 3, 4, 5)]


def flows(answer):
    """The figures of each branch of a solved answer: P and Q at the from end and at the to end, and the loss, as they are printed."""
    return [line.split()[1:] for line in answer.decode().splitlines()[1:] if line.split()[1] not in ("S", "V", "Q")]


def second(text):
    """Whether a text is of the second edition."""
    return len(text) >= 32 and text[-32] in b"fc"


def starts(text):
    """The numbers of a well-formed trailer."""
    return [int(x) for x in text[-32 if second(text) else -38:].split()[1:]]


def tables(text):
    """The rows of the sections of a well-formed text."""
    places = starts(text)
    return [[line.split()[1:] for line in text[a:b].decode().splitlines()] for a, b in zip(places, places[1:])]


def island_labels(n, lines):
    label = list(range(n))
    for a, b in lines:
        old, new = label[b], label[a]
        label = [new if x == old else x for x in label]
    return label


def network_classes(text):
    """The classes of a text whose tables are sound."""
    buses, slack_rows, gens, lines, triplets = tables(text)
    n = len(buses)
    label = island_labels(n, [(int(a), int(b)) for a, b in lines])
    slacks = {int(r[0]) for r in slack_rows}
    held = {label[b] for b in slacks}
    diagonals = [r[0] for r in triplets if r[0] == r[1]]
    stored = buses if text[-38:-37] == b"C" else []
    return {
        **{f"{k} buses": n == k for k in range(33)},
        "a loop of lines": len(lines) > n - len(set(label)),
        "several islands": len(set(label)) > 1,
        "several slacks in one island": len(slacks) > len(held),
        "an island without slack": len(held) < len(set(label)),
        "two diagonals on a bus": len(diagonals) > len(set(diagonals)),
        "all tables full": [len(t) for t in (buses, slack_rows, gens, lines, triplets)] == list(f.SIZES.values()),
        "a case start with ?": any("?" in r for r in stored),
        "a case start with magnitude 0": any(r[6] == "0" for r in stored),
    }


def digits(field):
    """How many digits a field of a real's form has, how many of them request 2 counts, and how many are decimals; zeros of any other field."""
    m = re.fullmatch("-?([0-9]+)(?:[.]([0-9]+))?", field)
    whole, decimals = m.groups("") if m else ("", "")
    return len(whole + decimals), len((whole + decimals).lstrip("0")), len(decimals)


def real_classes(text, answer):
    """The classes of a text whose reals are all taken, by those that 01 refused."""
    case = f.Branched if second(text) else f.Case
    fields = {x for name, rows in zip(case.names, tables(text)) for row in rows for x in row[case.reals.get(name, 2):]}
    long = [(x, counted, decimals) for x in fields for n, counted, decimals in [digits(x)] if n > 15]
    return {
        "a real of more than 15 digits": bool(long),
        "solved with a real of more than 15 digits": answer.startswith(b"ok") and bool(long),
        "15 counted digits behind zeros": any(counted == 15 for _, counted, _ in long),
        "15 counted digits behind zeros, the last of them 0": any(counted == 15 and x.endswith("0") for x, counted, _ in long),
        "22 decimals": any(decimals == 22 for _, _, decimals in long),
        "15 counted digits and 22 decimals": any(counted == 15 and decimals == 22 for _, counted, decimals in long),
        "zeros alone, more than 15": any(counted == 0 for _, counted, _ in long),
        "a minus before zeros alone, more than 15": any(counted == 0 and x.startswith("-") for x, counted, _ in long),
        "a real of more than 15,000 zeros": any(len(x) - counted > 15000 for x, counted, _ in long),
    }


def run_classes(text, answer, m):
    """The classes of a run that reached the first start."""
    ok = answer.startswith(b"ok")
    winner = f"{chr(text[-32 if second(text) else -38]).upper()} {m['starts']}" if ok else ""
    return {
        "solved": ok,
        **{f"solved by start {s}": winner == s for s in ("F 1", "F 2", "F 3", "F 4", "F 5", "C 1", "C 2", "C 3", "C 4", "C 5", "C 6")},
        **{name: m[counter] > 0 for name, counter in COUNTED.items()},
        "rounds settle in the twelfth": m["twelfth"] > m["unsettled"],
        "solved by the fiftieth step": answer.startswith(b"ok 49 ") and m["fifty"] > 0,
        "switching goes on after a NaN": m["nan"] > m["starts"],
        "solved after a NaN": ok and m["nan"] > 0,
        "solved with a NaN in the answer": ok and any(math.isnan(x) for column in solution(answer)[2] for x in column),
        "solved with -0 in the answer": ok and any(x == 0 and math.copysign(1, x) < 0 for column in solution(answer)[2] for x in column),
        "refused 10": answer.startswith(b"refused 10 "),
        "refused 10 with nan": answer.startswith(b"refused 10 nan"),
        "refused 10 with infinity": answer.startswith(b"refused 10 7ff0000000000000"),
    }


def missing_classes(text, number, naming=f.NAMING):
    """Where the refusal is one of `naming`: which row and field it names, and what else names a missing bus."""
    buses, *named = tables(text) if number in naming else [[]] * (len(naming) + 1)
    found = {}
    for (table, (_, fields, _)), rows in zip(naming.items(), named):
        faults = [[field for field in range(fields) if int(cells[field]) >= len(buses)] for cells in rows]
        at = [row for row, wrong in enumerate(faults) if wrong]
        here, row, wrong = (number == table, at[0], faults[at[0]]) if at else (False, 0, [])
        for place, met in (("the first row", row == 0), ("a row between", 0 < row < len(rows) - 1), ("the last row", row == len(rows) - 1)):
            found.update({f"refused {table} at {place}, field {k}": here and met and wrong[0] == k for k in range(fields)})
        if fields == 2:
            found[f"refused {table} with both fields at fault"] = here and len(wrong) == 2
        found[f"refused {table} with a later row at fault"] = here and len(at) > 1
        found[f"refused {table} with no bus"] = here and not buses
        found.update({f"refused {first} with {table} at fault too": number == first and bool(at) for first in naming if first < table})
    return found


def digit_classes(text, number, place):
    """Where the refusal is 5: which of request 2's limits the field passes by one."""
    field = re.match("[^ \n]*", text[place:].decode())[0] if number == 5 else ""
    _, counted, decimals = digits(field)
    return {
        "refused 5 for 16 counted digits": counted == 16 and decimals <= 22,
        "refused 5 for 16 counted digits, the last of them 0": counted == 16 and decimals <= 22 and field.endswith("0"),
        "refused 5 for 23 decimals": counted in range(1, 16) and decimals == 23,
        "refused 5 for 23 decimals, zeros alone": counted == 0 and decimals == 23,
    }


def refusal_classes(text, answer):
    """Refusals before the first start. A text never meets 7 and 9: the reader gives columns of one length, and the program lends enough."""
    number, place = (answer.split() + [b"0"])[1:3]
    found = {f"refused {k}": number == b"%d" % k for k in (2, 3, 4, 5, *f.NAMING)}
    found.update(missing_classes(text, int(number)))
    found.update(digit_classes(text, int(number), int(place)))
    found["refused 1, short"] = number == b"1" and len(text) < 32
    found["refused 1, 32 to 37 bytes"] = number == b"1" and 32 <= len(text) < 38
    found["refused 3 for a K"] = number == b"3" and text[int(place)] == ord("K")
    found["refused 2 for the second edition's letter"] = number == b"2" and text[-38] in b"fc"
    found["refused 2 for five starts behind the first edition's letter"] = number == b"2" and re.fullmatch(rb"[FC]( \d{5}){5}\n", text[-32:]) is not None
    found["refused 1, long"] = number == b"1" and len(text) > 32768
    section = [letter for letter, start in zip(f.SIZES, starts(text)) if start <= int(place)][-1] if number == b"6" else ""
    found.update({f"refused 6 in {letter}": letter == section for letter in f.SIZES})
    return found


# ---- classes of the second edition; their names begin with "branches: "

# Of the classes of runs, those that are asked of branches too. The others are the solver's, whose triplets may as well come from a list.
RUNS = ["solved", "solved by start F 1", "solved by start C 1", "a limit binds high", "a limit binds low", "a bus returns", "rounds never settle", "a shortened step",
        "no length helps", "a singular matrix", "an angle beyond 1024 radians", "a NaN mismatch", "solved with -0 in the answer", "refused 10", "refused 10 with nan",
        "refused 10 with infinity"]
FIELDS = ("g", "b", "g_fr", "b_fr", "g_to", "b_to", "tap", "shift", "sw")


def branch_classes(text, answer):
    """The classes of a text whose tables are sound."""
    buses, slack_rows, gens, branches = tables(text)
    n, pairs = len(buses), [(int(r[0]), int(r[1])) for r in branches]
    label = island_labels(n, pairs)
    on = island_labels(n, [pair for pair, r in zip(pairs, branches) if float(r[10]) != 0])
    slacks = {int(r[0]) for r in slack_rows}
    reals = [[float(x) for x in r[2:]] for r in branches]
    stored = buses if text[-32:-31] == b"c" else []
    ok = answer.startswith(b"ok")
    return {
        **{f"{k} buses": n == k for k in (0, 1, 2, 32)},
        "no branch": n > 0 and not branches,
        "64 branches": len(branches) == 64,
        "all tables full": [len(t) for t in (buses, slack_rows, gens, branches)] == list(f.BRANCHED.values()),
        "a loop of branches": len({frozenset(pair) for pair in pairs}) > n - len(set(label)),
        "branches side by side": len({frozenset(pair) for pair in pairs}) < len(pairs),
        "branches side by side, one turned": len(set(pairs)) > len({frozenset(pair) for pair in pairs}),
        "several islands": len(set(label)) > 1,
        "an island that only a branch which is off holds together": len(set(on)) > len(set(label)),
        "such an island, solved, with a slack angle": ok and len(set(on)) > len(set(label)) and any(float(r[1]) != 0 for r in slack_rows),
        "several slacks in one island": len(slacks) > len({label[b] for b in slacks}),
        "an island without slack": len({label[b] for b in slacks}) < len(set(label)),
        "a case start with ?": any("?" in r for r in stored),
        "a case start with magnitude 0": any(r[6] == "0" for r in stored),
        "solved with a tap other than 1": ok and any(r[6] != 1 for r in reals),
        "solved with a tap below 0.5": ok and any(r[6] < 0.5 for r in reals),
        "solved with a tap above 2": ok and any(r[6] > 2 for r in reals),
        "solved with a shift": ok and any(r[7] != 0 for r in reals),
        "solved with a shift over 7": ok and any(7 < abs(r[7]) <= 1024 for r in reals),
        "a shift of 1024": any(abs(r[7]) == 1024 for r in reals),
        "a shift beyond 1024": any(abs(r[7]) > 1024 for r in reals),
        "no shift beyond 1024 but of branches that are off, refused 10 with nan": answer.startswith(b"refused 10 nan") and {r[8] for r in reals if abs(r[7]) > 1024} == {0},
        "solved with a branch that is off": ok and any(r[8] == 0 for r in reals),
        "solved with a switch other than 0 and 1": ok and any(r[8] not in (0, 1) for r in reals),
        "solved with a tap, a shift and a switch other than 0 and 1 in one branch": ok and any(r[6] != 1 and r[7] != 0 and r[8] not in (0, 1) for r in reals),
        "a branch that adds nothing to a diagonal entry": any(r[8] != 0 and r[0] ** 2 + r[1] ** 2 > 0 and [-r[0], -r[1]] in (r[2:4], r[4:6]) for r in reals),
        "a negative switch": any(r[8] < 0 for r in reals),
        **{f"-0 as {name}": any(r[k + 2] == "-0" for r in branches) for k, name in enumerate(FIELDS) if name != "tap"},
    }


def product(x, y):
    return x[0] * y[0] - x[1] * y[1], x[0] * y[1] + x[1] * y[0]


def zero_apart(row, v, u):
    """Whether a current of a branch that is off, with tap 1 and no shift, its ends at the voltages v and u, would have another sign of zero if its sum were begun
    from zero."""
    g, b, g_fr, b_fr, g_to, b_to, _, _, sw = row
    across = -g * sw, -b * sw
    currents = [[product(((g + g_fr) * sw, (b + b_fr) * sw), v), product(across, u)], [product(across, v), product(((g + g_to) * sw, (b + b_to) * sw), u)]]
    return any(str(x + y) != str(0.0 + x + y) for pair in currents for x, y in zip(*pair))


def flow_classes(text, answer):
    """The classes of the flows of a solved case."""
    ok = answer.startswith(b"ok")
    branches, found = (tables(text)[3], flows(answer)) if ok else ([], [])
    _, _, (vm, va, _, _) = solution(answer) if ok else (0, [], [[]] * 4)
    rows = [(int(r[0]), int(r[1]), [float(x) for x in r[2:]]) for r in branches]
    at = lambda b: (vm[b] * math.cos(va[b]), vm[b] * math.sin(va[b]))
    real = lambda x: math.nan if x == "nan" else double(int(x, 16))
    values = [[real(x) for x in figures] for figures in found]
    zero, minus = "0" * 16, "8" + "0" * 15
    return {
        "64 flows": len(found) == 64,
        "a flow that is not a number": any("nan" in figures for figures in found),
        "a flow of -0": any(minus in figures for figures in found),
        "a branch that is off with flows of 0 and of -0": any(row[8] == 0 and zero in figures and minus in figures for (_, _, row), figures in zip(rows, found)),
        "a current of a branch that is off whose sum begun from zero would lose its minus":
            any(row[8] == 0 and row[6] == 1 and row[7] == 0 and zero_apart(row, at(i), at(k)) for i, k, row in rows),
        "P enters at both ends": any(x[0] > 0 and x[2] > 0 for x in values),
        "a loss below zero": any(x[4] < 0 for x in values),
        "P from the from end": any(x[0] > 0 > x[2] for x in values),
        "P from the to end": any(x[2] > 0 > x[0] for x in values),
    }


def branch_refusal_classes(text, answer):
    """Refusals before the first start. A text never meets 7, 9 and 13."""
    number, place = (int(x) for x in (answer.split() + [b"0"])[1:3])
    found = {f"refused {k}": number == k for k in (2, 3, 4, 5, 8, 11, 12, 14, 15)}
    found.update(missing_classes(text, number, f.NAMING_BRANCHED))
    found["refused 1, long"] = number == 1
    section = [letter for letter, start in zip(f.BRANCHED, starts(text)) if start <= place][-1] if number in (4, 5, 6) else ""
    line = text[place:].split(b"\n")[0]
    found.update({f"refused {k} in {letter}": number == k and letter == section for k in (4, 5, 6) for letter in f.BRANCHED})
    found.update({f"refused 4 for {letter.decode()}": number == 4 and line.startswith(letter + b" ") and section == "K" for letter in (b"L", b"Y")})
    found["refused 5 for ? of a branch"] = number == 5 and section == "K" and line.startswith(b"?")
    found.update(bad_branch_classes(text, number, place))
    return found


def bad_branch_classes(text, number, row):
    """Where the refusal is 14 or 15: which row it is, and what else is at fault; where it is another one of the tables: whether 14 or 15 waits behind it."""
    buses, slack_rows, gens, branches = tables(text) if number in (8, 11, 12, 14, 15) else [[]] * 4
    taps = [k for k, r in enumerate(branches) if not float(r[8]) > 0]
    loops = [k for k, r in enumerate(branches) if r[0] == r[1]]
    told = branches[row] if number in (14, 15) else [""] * 11
    found = {f"refused {k} at {name}": number == k and met for k in (14, 15) for name, met in (
        ("the first row", row == 0), ("a row between", 0 < row < len(branches) - 1), ("the last row", row == len(branches) - 1))}
    found.update({f"refused {k} of a branch that is off": number == k and float(told[10] or 1) == 0 for k in (14, 15)})
    found["refused 14 for 0"] = number == 14 and re.fullmatch("[0.]+", told[8]) is not None
    found["refused 14 for -0"] = number == 14 and re.fullmatch("-[0.]+", told[8]) is not None
    found["refused 14 for a negative tap"] = number == 14 and float(told[8]) < 0
    found["refused 14, and the row is a loop too"] = number == 14 and row in loops
    found["refused 14 with a loop in a later row"] = number == 14 and any(k > row for k in loops)
    found["refused 14 with a later tap"] = number == 14 and len(taps) > 1
    found["refused 15 with a tap in a later row"] = number == 15 and bool(taps)
    found["refused 15 with a later loop"] = number == 15 and len(loops) > 1
    found.update({f"refused {k} with {name} at fault too": number == k and bool(rows) for k in (8, 11) for name, rows in ((14, taps), (15, loops))})
    found.update({f"refused 12 with {name} in an earlier row": number == 12 and bool(rows) and rows[0] < row for name, rows in ((14, taps), (15, loops))})
    return found


def branch_names(found):
    return {f"branches: {name}": met for name, met in found.items()}


def run_of_branches(text, answer, m):
    runs, reals = run_classes(text, answer, m), real_classes(text, answer)
    return branch_names({
        **branch_classes(text, answer),
        **flow_classes(text, answer),
        **{name: runs[name] for name in RUNS},
        **{f"solved by a later start, {flag}": runs["solved"] and m["starts"] > 1 and text[-32] == ord(flag) for flag in "fc"},
        **{name: reals[name] for name in ("a real of more than 15 digits", "solved with a real of more than 15 digits", "22 decimals")},
    })


def found_classes(text, answer, m):
    """The classes that a text may fall in, and whether it does."""
    if second(text):
        return run_of_branches(text, answer, m) if m["starts"] else branch_names(branch_refusal_classes(text, answer))
    return {**network_classes(text), **real_classes(text, answer), **run_classes(text, answer, m)} if m["starts"] else refusal_classes(text, answer)


def classes(batch, out, met):
    """How many texts fall in each class, those with none too."""
    ran, none = Counter(starts=1), Counter()
    nothing = [(f.join("F", [b""] * 5), b"", ran), (b"", b"refused 1 0", none), (f.join("f", [b""] * 4), b"", ran), (f.join("f", [b""] * 4), b"refused 1 0", none)]
    count = dict.fromkeys((name for one in nothing for name in found_classes(*one)), 0)
    for one in zip(batch, out, met):
        found = found_classes(*one)
        for name in found:
            count[name] += found[name]
    return count


def report(count):
    """Prints the counts."""
    sizes = [f"{k} buses" for k in range(33)]
    print("texts with 0, 1, .. 32 buses: " + " ".join(str(count[name]) for name in sizes))
    for name in count:
        if name not in sizes:
            print(f"{count[name]:7d}  {name}")


def check(count):
    """An empty class ends the command."""
    empty = [name for name in count if not count[name]]
    if empty:
        sys.exit("empty: " + ", ".join(empty))


def print_late(oracle):
    """The first twelve rough cases that each flat start after the first solves, and still does when loads move a little."""
    found, seed, wanted = {k: [] for k in (2, 3, 4, 5)}, 0, 12
    while min(map(len, found.values())) < wanted:
        near = []
        for shift in (0, 1e-4, -1e-4):
            c = f.rough(seed)
            c.start = "F"
            for b in c.buses:
                b[2] += shift
            near.append(c.text())
        won = {m["starts"] if a.startswith(b"ok") else 0 for a, m in zip(*answers(oracle, near))}
        if len(won) == 1 and len(found.get(min(won), range(wanted))) < wanted:
            found[min(won)].append(seed)
        seed += 1
    print("LATE = [")
    for seeds in found.values():
        print("    " + ", ".join(map(str, seeds)) + ",")
    print("]")


def main():
    if len(sys.argv) == 3 and sys.argv[2] == "late":
        print_late(sys.argv[1])
    elif len(sys.argv) == 4:
        batch = both(int(sys.argv[2]), int(sys.argv[3]))
        count = classes(batch, *answers(sys.argv[1], batch))
        report(count)
        check(count)
    else:
        sys.exit(__doc__)


if __name__ == "__main__":
    main()

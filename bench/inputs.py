#!/usr/bin/env python3
"""Writes the inputs of the benchmark, texts of both editions: the sample cases, and texts drawn from the generator's families by seed.

    python3 bench/inputs.py ORACLE OUT BESIDE      ORACLE is target/oracle/oracle, the judge; the two folders are made anew

OUT gets the list that is asked for, BESIDE the cases of no buses. A drawn text is that of the first seed at which the altered Rust's counters show what
the input is for.
"""
import os
import random
import shutil
import sys

sys.path.insert(0, os.path.join(os.path.dirname(os.path.abspath(__file__)), "..", "oracle"))
import cases
import families as f


def flat(rng):
    """32 buses from the flat start."""
    c = f.sized(rng, 32)
    c.start = "F"
    return c.text()


def refused(rng):
    """32 buses under a load that none of the six starts of a case start carries."""
    c = f.network(rng, [32], 8.0)
    c.start = "C"
    return c.text()


def wide(x):
    """A real of 15 digits, zeros in front counted; other cells as they are."""
    if isinstance(x, str):
        return x
    whole = len(str(int(abs(x))))
    return f"{x:.{15 - whole}f}"


def longest(rng):
    """Every table full and every real of 15 digits: without more zeros in front a good text can't have many more bytes."""
    return f.respelled(f.full(rng), wide).text()


def branches(rng):
    """32 buses and 64 branches with taps, shifts and charging, some of them off."""
    c = f.undressed(rng, lambda rng: f.sized(rng, 32))
    c.start = "f"
    while len(c.branches) < f.BRANCHED["K"]:
        c.branches.append([*rng.sample(range(32), 2), rng.uniform(1, 2), rng.uniform(-9, -4), *f.PLAIN])
    for row in c.branches:
        row[5], row[7], row[8], row[9] = row[5] + 0.01, row[7] + 0.01, rng.choice([1, 1, 0.975, 1.05]), rng.choice([0, 0, 0, 0.02])
        row[10] = 0 if row[0] > 0 and rng.random() < 0.05 else 1
    return c.text()


def longest_branches(rng):
    """Every table of the second edition full and every real of 15 digits."""
    c = f.all_branches(rng)
    return f.respelled(c, wide).text()


def zeros(rng):
    """The paper's listing with zeros in front of its voltage, as many as a text has room for."""
    c = f.listing()
    return f.filled(c, c.buses[0], 1, 1, 0).text()


def decimals(rng):
    """Every table full and every real with 22 decimals, the most that may stand. The last slack row names no bus, so the whole text is read and nothing solved."""
    c = f.respelled(f.full(rng), lambda x: f.spelled(rng.randrange(10 ** 15), 22, 1))
    c.slacks[-1][0] = f.SIZES["B"]
    return c.text()


def solved(text, answer, met):
    return answer.startswith(b"ok ")


# name: the family, and what the run must show.
DRAWN = {
    "flat32": (flat, solved),
    "rounds12": (lambda rng: f.cascade(rng).text(), lambda text, answer, met: solved(text, answer, met) and met["rounds"] == 12),
    "refused10": (refused, lambda text, answer, met: answer.startswith(b"refused 10 ") and answer.endswith(b" 6\n")),
    "longest": (longest, solved),
    "decimals22": (decimals, lambda text, answer, met: answer == b"refused 8 31\n"),
    "bytes32768": (f.long, lambda text, answer, met: len(text) == 32768),
    "flat32k": (branches, solved),
    "longestk": (longest_branches, solved),
    "bytes32768k": (lambda rng: f.long(rng, f.good_branches), lambda text, answer, met: len(text) == 32768),
    "zeros32768": (zeros, lambda text, answer, met: len(text) == 32768 and solved(text, answer, met)),
}


def write(folder, texts):
    """The folder anew, with these texts."""
    shutil.rmtree(folder, ignore_errors=True)
    os.makedirs(folder)
    for name, text in texts.items():
        with open(os.path.join(folder, name + ".case"), "wb") as out:
            out.write(text)


def draw(oracle, name):
    family, wanted = DRAWN[name]
    for seed in range(10000):
        text = family(random.Random(seed))
        (answer,), (met,) = cases.answers(oracle, [text])
        if wanted(text, answer, met):
            return text
    sys.exit(f"no seed fits {name}")


def main():
    if len(sys.argv) != 4:
        sys.exit(__doc__)
    oracle, out, beside = sys.argv[1:]
    write(out, {**cases.samples(), **{name: draw(oracle, name) for name in DRAWN}})
    write(beside, {"nobus": f.join("F", [b""] * 5), "nobusk": f.join("f", [b""] * 4)})


main()

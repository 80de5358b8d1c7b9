#!/usr/bin/env python3
"""Runs freshly drawn texts through the solve program and the altered Rust, side by side, and prints every mismatch.

    python3 oracle/compare.py SOLVE ORACLE SEED COUNT [first | branches | padded]
SOLVE reads a case text on standard input and prints the answer; COUNT is 1 or more. Half of the texts are of each edition; with `first` or `branches` all are
of the first or of the second one, with `padded` all have padded numbers, about the limits of request 2 of 02. Texts that differ are saved under
target/mismatches. Exit 1 on a mismatch.
"""
import os
import subprocess
import sys
from concurrent.futures import ThreadPoolExecutor
from itertools import zip_longest

import cases

SAVED = os.path.join(os.path.dirname(os.path.abspath(__file__)), "..", "target", "mismatches")
BATCH = 2000
DRAWN = {"": cases.both, "first": cases.texts, "branches": cases.branched, "padded": cases.padded}


def solve(program, text):
    """What the program prints. A crash counts as a mismatch."""
    run = subprocess.run([program], input=text, capture_output=True)
    return run.stdout if run.returncode >= 0 else run.stdout + b"signal %d\n" % -run.returncode


def unlike(a, b):
    """The first lines that differ."""
    return next(pair for pair in zip_longest(a.split(b"\n"), b.split(b"\n")) if pair[0] != pair[1])


def save(seed, place, text):
    os.makedirs(SAVED, exist_ok=True)
    path = os.path.join(SAVED, f"{seed}-{place}.case")
    with open(path, "wb") as out:
        out.write(text)
    return os.path.relpath(path)


def main():
    kind = "".join(sys.argv[5:])
    if len(sys.argv) not in (5, 6) or kind not in DRAWN or int(sys.argv[4]) < 1:
        sys.exit(__doc__)
    program, oracle, seed, count = os.path.abspath(sys.argv[1]), sys.argv[2], int(sys.argv[3]), int(sys.argv[4])
    texts = DRAWN[kind](seed, count)
    wrong, answers, met = 0, [], []
    with ThreadPoolExecutor(2) as two:
        for first in range(0, count, BATCH):
            batch = texts[first:first + BATCH]
            rust = two.submit(cases.answers, oracle, batch)
            ours = list(two.map(lambda t: solve(program, t), batch))
            answers += rust.result()[0]
            met += rust.result()[1]
            for i, text in enumerate(batch):
                if ours[i] != answers[first + i]:
                    wrong += 1
                    a, b = unlike(ours[i], answers[first + i])
                    print(f"text {first + i} ({save(seed, first + i, text)}):\n  ours {a!r}\n  Rust {b!r}")
    print(f"{count} {kind}{' ' if kind else ''}texts of seed {seed}: {wrong} mismatches")
    cases.report(cases.classes(texts, answers, met))
    sys.exit(wrong > 0)


main()

#!/usr/bin/env python3
"""Writes the fixed list of texts and answers that the gate replays: the first-edition texts of cases/ in sorted order and drawn ones, then drawn texts of the
second edition and those of cases/, also in sorted order. The drawn texts are of all classes.

    python3 oracle/replay.py ORACLE OUT      OUT is crates/replay/data/texts; beside its folder goes the line that the test program has to print
A record is the text's length in two bytes, the answer's length in two bytes (higher byte first), the text, the answer. The answers are the altered
Rust's. Prints the classes met; an empty one is an error, and nothing is written.
"""
import os
import struct
import sys

import cases

FIRST, SECOND = (9, 1280), (70, 400)  # the seed and how many texts, of each edition


def main():
    if len(sys.argv) != 3:
        sys.exit(__doc__)
    samples = list(cases.samples().values())
    first, second = [t for t in samples if not cases.second(t)], [t for t in samples if cases.second(t)]
    texts = first + cases.texts(*FIRST) + cases.branched(*SECOND) + second
    answers, met = cases.answers(sys.argv[1], texts)
    count = cases.classes(texts, answers, met)
    cases.report(count)
    cases.check(count)
    data = b"".join(struct.pack(">HH", len(t), len(a)) + t + a for t, a in zip(texts, answers))
    with open(sys.argv[2], "wb") as out:
        out.write(data)
    with open(os.path.join(os.path.dirname(sys.argv[2]), "..", "stdout"), "w") as out:
        out.write(f"texts {len(texts)}, differing 0\n")
    print(f"{len(samples)} samples, {FIRST[1]} texts of the first edition and {SECOND[1]} of the second: {len(data)} bytes")


main()

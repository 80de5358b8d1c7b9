#!/usr/bin/env python3
"""Makes the texts of crates/text_vectors and what documents 01 and 02 say of each, worked out here and not by the proved code.

    python3 oracle/text_vectors.py      writes crates/text_vectors/stdin and stdout; the same each time

The reader below follows the papers' sentences on strings with regular expressions; a real's one division is that of exact.py.
stdin: how many records, and the records. Numbers have two bytes, the higher first.
  a record: how many bytes its text has, how many the rest has, the text, and the rest:
    the refusal's number (0 of a good answer), its place, the trailer's letter of a good answer, and how many places each of the 30 columns has
    for each column where its words start, counted from here, and how many rows it has
    the words of the columns, of eight bytes: one for each row, and behind them one for all places past the rows
  The columns are those of the B, R, G, L, Y and K lines; those of lines that the text's edition doesn't know have no rows. Before each reading a column holds
  a mark in every place: 251, or 1e300 in a column of reals. Columns of the same words share them.
"""
import random
import re
import struct
from itertools import product

from exact import NAN, bits, div, neg, to_bits, whole
from families import BRANCHED, LENGTHS, SIZES, join, listing, trailed, transformer
from vectors import write

FIELDS = {"B": "krrrrroo", "R": "br", "G": "brr", "L": "bb", "Y": "bbrr", "K": "bbrrrrrrrrr"}  # k a kind, r a real, o a real or ?, b a bus number
COLUMNS = [(z, j) for z in FIELDS for j in range(len(FIELDS[z]))]  # the 30 columns in the call's order
ALPHABET = set(b"\n -.0123456789?BRGLYVQ")
SECOND_ALPHABET = ALPHABET | set(b"K")
DIGITS = b"9876543210123456"  # 16 digits, the first of them not zero


def value(kind, f):
    """A field's value, or None where it is wrong."""
    if kind == "k":
        return f[0] if f in (b"V", b"Q") else None
    if kind == "b":
        return int(f) if re.fullmatch(rb"[0-9]{1,3}", f) and (f == b"0" or f[:1] != b"0") else None
    if kind == "o" and f == b"?":
        return to_bits(NAN)
    return real(f)


def real(f):
    """A real's bits by request 2 of 02, or None: 22 decimals at most, and 15 digits at most from the first that isn't zero on."""
    m = re.fullmatch(rb"(-?)([0-9]+)(?:\.([0-9]{1,22}))?", f)
    minus, digits, decimals = m.groups(b"") if m else (b"", b"", b"")
    counted = m and re.fullmatch(rb"0*([1-9][0-9]{0,14})?", digits + decimals)
    if not counted:
        return None
    x = div(whole(int(counted[1] or b"0")), whole(10 ** len(decimals)))
    return to_bits(neg(x) if minus else x)


def trailer(t, flags, count):
    """The numbers of a well-formed trailer, else None."""
    m = re.fullmatch(rb"[" + flags + rb"]" + rb" ([0-9]{5})" * count + rb"\n", t)
    return m and [int(x) for x in m.groups()]


def read(text, narrow=False):
    """The papers' answer: ("refused", number, place) or ("good", flag, columns). narrow: each column has one place."""
    if text[-32:-31] in (b"f", b"c") and len(text) >= 32:
        least, flags, sizes, alphabet = 32, b"fc", BRANCHED, SECOND_ALPHABET
    else:
        least, flags, sizes, alphabet = 38, b"FC", SIZES, ALPHABET
    if len(text) < least:
        return ("refused", 1, len(text))
    if len(text) > 32768:
        return ("refused", 1, 32768)
    end = len(text) - least
    starts = trailer(text[end:], flags, len(sizes) + 1)
    if not starts or starts[0] != 0 or starts[-1] != end or any(a > b for a, b in zip(starts, starts[1:])):
        return ("refused", 2, end)
    for i, b in enumerate(text[:end]):
        if b not in alphabet:
            return ("refused", 3, i)
    tables = {z: [] for z in FIELDS}
    for z, a, e in zip(sizes, starts, starts[1:]):
        at = a
        while at < e:
            if len(tables[z]) == sizes[z]:
                return ("refused", 6, at)
            stop = text.find(b"\n", at, e)
            parts = text[at:stop].split(b" ")
            if stop < 0 or parts[0] != z.encode() or len(parts) != len(FIELDS[z]) + 1 or b"" in parts:
                return ("refused", 4, at)
            row, place = [], at + 2
            for kind, f in zip(FIELDS[z], parts[1:]):
                row.append(value(kind, f))
                if row[-1] is None:
                    return ("refused", 5, place)
                place += len(f) + 1
            tables[z].append(row)
            at = stop + 1
    if narrow and any(len(rows) > 1 for rows in tables.values()):
        return ("refused", 9, 0)
    return ("good", text[end], [[row[j] for row in tables[z]] for z, j in COLUMNS])


def words(kind, column):
    """A column's values as words, and behind them the mark that every place past the rows still holds."""
    mark = 251 if kind in "kb" else bits(1e300)
    assert mark not in column
    return struct.pack(f">{len(column) + 1}Q", *column, mark)


def encode(content, narrow=False):
    """One record."""
    answer = read(content, narrow)
    refused = answer[0] == "refused"
    number, place, flag = (answer[1], answer[2], 0) if refused else (0, 0, answer[1])
    columns = [[]] * len(COLUMNS) if refused else answer[2]
    starts, directory, values = {}, b"", b""
    for (z, j), column in zip(COLUMNS, columns):
        w = words(FIELDS[z][j], column)
        if w not in starts:
            starts[w] = 8 + 4 * len(COLUMNS) + len(values)
            values += w
        directory += struct.pack(">HH", starts[w], len(column))
    told = struct.pack(">4H", number, place, flag, 1 if narrow else 258) + directory + values
    return struct.pack(">HH", len(content), len(told)) + content + told


def text(b=(), r=(), g=(), l=(), y=(), flag="F"):
    """A text of the given lines, with its trailer."""
    return join(flag, [b"".join(x + b"\n" for x in part) for part in (b, r, g, l, y)])


def only(z, body):
    """A text with a body in one section, and the others empty."""
    return join("F", [body if z == other else b"" for other in SIZES])


def branches(b=(), r=(), g=(), k=(), flag="f"):
    """A text of the second edition of the given lines, with its trailer."""
    return join(flag, [b"".join(x + b"\n" for x in part) for part in (b, r, g, k)])


def only_branches(z, body):
    """The same with a body in one section, and the others empty."""
    return join("f", [body if z == other else b"" for other in BRANCHED])


def full(field, more=0, after=b"0"):
    """A text of 32,768 bytes, or of some more, in which zeros stand in front of a field; behind it stands another field."""
    line = lambda zeros: [b"B Q " + b"0" * zeros + field + b" " + after + b" 0 0 0 ? ?"]
    return text(line(32768 + more - len(text(line(0)))))


LISTING = listing().text()
LOAD = b"B Q 1 0 0 0 0 ? ?"
BUS = b"B V 1.02 0.5 -0.25 1 0 ? -0.1"
CASE = text([BUS, b"B Q 1 0 0 0 0 1.0 0"], [b"R 0 0"], [b"G 1 -1 1.5"], [b"L 0 1"], [b"Y 0 0 2 -8", b"Y 0 1 -2 8"], "C")


def zeros(add, rng):
    """Reals about the limits of request 2."""
    # zeros before the first digit that counts, in front of the point and behind it, with counted digits and decimals about their limits
    for sign, ahead, ones, behind, rest in product((b"", b"-"), (0, 1, 7, 30), (0, 1, 15), (0, 1, 7, 20), (0, 1, 2, 3, 14, 15, 16)):
        f = sign + b"0" * ahead + DIGITS[:ones] + (b"." + b"0" * behind + DIGITS[:rest] if behind + rest else b"")
        add(text(r=[b"R 0 " + f]))
    # at the limits and past them; zeros alone; zeros at the end count
    for f in (b"0000000.0250000000", b"-0.000", b"-00", b"00", b"007", b"-007.50", b"0.0", b"00000000000000000.0", b"-0000000.0000000000",
              b"0." + b"0" * 22, b"0." + b"0" * 23, b"-0." + b"0" * 22, b"-0." + b"0" * 23, b"0" * 300, b"-" + b"0" * 300, b"0" * 300 + b"." + b"0" * 22, b"0" * 300 + b"." + b"0" * 23,
              b"0" * 300 + b"1", b"0" * 300 + b"9" * 15, b"0" * 300 + b"9" * 16, b"0" * 300 + b"1" + b"0" * 14, b"0" * 300 + b"1" + b"0" * 15,
              b"0." + b"0" * 7 + b"9" * 15, b"-0." + b"0" * 7 + b"9" * 15, b"0." + b"0" * 8 + b"9" * 15, b"0." + b"0" * 6 + b"9" * 16, b"0." + b"0" * 7 + b"9" * 16,
              b"0." + b"0" * 21 + b"1", b"0." + b"0" * 22 + b"1", b"0." + b"0" * 7 + b"1" + b"0" * 14, b"0." + b"0" * 8 + b"1" + b"0" * 14,
              b"100000000000000", b"1000000000000000", b"1.00000000000000", b"1.000000000000000", b"0.100000000000000", b"0.1000000000000000",
              b"0010000000.0000000", b"0010000000.00000000", b"900719925474.0993", b"0.000009007199254740993", b"0.0000900719925474099"):
        add(text([b"B Q 0 " + f + b" 0 0 0 ? ?"], flag="C"))
        add(text(y=[b"Y 0 0 00 " + f]))
    # wrong bytes among the zeros
    for f in (b"000-0", b"0-", b"-", b"-.", b"--00", b"0.0.0", b"0..0", b"00000.", b"-00000.", b".000", b"-.000", b".", b"000?", b"?000", b"0000000000000000000?", b"0000000.000?00000",
              b"0000000000000000000Q", b"B0000000000000000000", b"00000000.-0000000000", b"0000000000000000000-", b"0." + b"0" * 22 + b"?", b"0." + b"0" * 22 + b".", b"0" * 300 + b".",
              b"0" * 300 + b"-"):
        add(text(g=[b"G 0 00 " + f]))
        add(text([b"B V 1 0 0 0 0 " + f + b" 00"]))
    # bus numbers keep 01's rule
    for f in (b"07", b"007", b"00", b"0.0", b"-0", b"0000000000000000"):
        for line in (b"R %s 00", b"G %s 00 00.0", b"L %s 0", b"L 0 %s", b"Y %s 0 00 00", b"Y 0 %s 00 00"):
            add(only(line[:1].decode(), line % f + b"\n"))
    # one field as long as a text allows
    for f, more, after in ((b"0", 0, b"0"), (b"1", 0, b"0"), (b"0", 1, b"0"), (b".0000000123456789012345", 0, b"0"), (DIGITS, 0, b"0"), (b"0", 0, b"1.")):
        add(full(f, more, after))
    # random reals of at most 15 digits that count and 1 to 22 decimals
    for _ in range(60):
        f = b"%0*d" % (rng.randrange(23, 40), rng.randrange(10 ** rng.randrange(1, 16)))
        point = len(f) - rng.randrange(1, 23)
        add(text(g=[b"G 1 -" + f[:point] + b"." + f[point:] + b" " + f]))


TRANSFORMER = transformer().text()
BRANCH = b"K 0 1 1.25 -8.5 0 0.01 -0 0.02 0.978 -0.1 1"
CABLES = branches([BUS, b"B Q 1 0 0 0 0 1.0 0"], [b"R 0 0"], [b"G 1 -1 1.5"], [BRANCH, b"K 1 0 2 -4 0 0.5 0 0.5 1 0 0"], "c")


def with_field(line, j, field):
    """A line with another field in place j."""
    parts = line.split(b" ")
    return b" ".join([*parts[:j + 1], field, *parts[j + 2:]])


def second_edition(add, rng):
    """Texts of the second edition, and of the first with something of the second."""
    add(TRANSFORMER)
    add(CABLES)
    for flag in "fc":
        add(branches(flag=flag))
        add(branches([LOAD], flag=flag))
    # lengths about those of the two trailers, with every letter 32 from the end, and longest texts
    for n, letter in LENGTHS:
        for t in (TRANSFORMER, LISTING, branches(), text()):
            t = bytearray((b"0" * 40 + t)[-n:])
            if n >= 32:
                t[n - 32:n - 31] = letter.encode()
            add(bytes(t))
    for extra in (0, 1, 2):
        add(only_branches("B", (LOAD + b"\n") * 1818 + b" " * (12 + extra)))
        add(only_branches("K", b"K 0 1 1 -8 0 0 0 0 1 0 1\n" * 1309 + b"\n" * (11 + extra)))
    # trailers
    body = TRANSFORMER[:-32]
    for starts in ([0, 39, 45, 45, 77], [0, 39, 45, 45, 79], [1, 39, 45, 45, 78], [0, 45, 39, 45, 78], [0, 39, 45, 44, 78], [0, 39, 45, 79, 78], [0, 39, 99999, 99999, 78],
                   [0, 0, 0, 0, 0], [0, 39, 45, 45, 99999], [78] * 5, [0, 39, 45, 45], [0, 39, 45, 45, 45, 78], [0, 39, 45, 45, 78, 78], [0, 0, 39, 45, 45, 78]):
        add(trailed(body, starts, "f"))
        add(trailed(body, starts, "c"))
    for flag in "FCkK 0\n":
        add(trailed(body, [0, 39, 45, 45, 78], flag))
        add(trailed(body, [0, 39, 45, 45, 78, 78], flag))
    for t in (TRANSFORMER[:-1] + b" ", TRANSFORMER[:-1], TRANSFORMER[:-1] + b"\r\n", TRANSFORMER + b"\n", TRANSFORMER + b"f", b"\n" + TRANSFORMER, TRANSFORMER[1:],
              TRANSFORMER.replace(b"f 0", b"f\t0"), TRANSFORMER.replace(b"f 00000", b"f  0000"), TRANSFORMER.replace(b"00039", b"0003x"), TRANSFORMER.replace(b"00039", b"-0039"),
              TRANSFORMER.replace(b"00039", b"00 39"), TRANSFORMER.replace(b"00078", b"000781"), TRANSFORMER + TRANSFORMER, TRANSFORMER + LISTING, LISTING + TRANSFORMER):
        add(t)
    # sections cut anywhere
    for cut in range(0, 79, 3):
        add(trailed(body, [0, min(cut, 45), 45, 45, 78], "f"))
        add(trailed(body, [0, 39, max(39, cut), max(39, cut), 78], "c"))
        add(trailed(body, [0, 39, 45, max(45, cut), 78], "f"))
    # the alphabets: K in each section of a first-edition text, other letters in one of the second
    for part in "brgly":
        add(text(**{part: [BRANCH]}))
        add(text([LOAD], **({} if part == "b" else {part: [b"K"]})))
    for bad in (b"\t", b"\r", b"\x00", b"+", b"e", b",", b"k", b"f", b"c", b"F", b"C", b"J", b"S", b"\xff", b"\xe2\x88\x92", b"_"):
        add(branches([LOAD], [b"R 0 0"], [], [BRANCH, with_field(BRANCH, 4, bad)]))
        add(branches([with_field(LOAD, 2, bad)], [b"R 0 0"], [], [BRANCH]))
    add(branches([b"B Q 1. 0 0 0 0 ? ?"], k=[b"K 0 x"]))
    # each table exactly full, and a row more
    for z, line in zip(BRANCHED, (LOAD, b"R 7 0.5", b"G 3 -1 1", BRANCH)):
        add(only_branches(z, (line + b"\n") * BRANCHED[z]))
        add(only_branches(z, (line + b"\n") * (BRANCHED[z] + 1)))
        add(only_branches(z, (line + b"\n") * BRANCHED[z] + z.encode() + b"\n"))
        add(only_branches(z, (line + b"\n") * BRANCHED[z] + line))
    add(branches([LOAD] * 32, [b"R 31 -0.5"] * 32, [b"G 0 -1 1"] * 32, [BRANCH] * 64, "c"))
    # forms of lines
    for line in (b"", b" ", b"K", b"K ", b"K 0", b"K 0 1", b" " + BRANCH, BRANCH + b" ", BRANCH.replace(b" 0 1", b"  0 1"), BRANCH + b" 1", BRANCH[:-2], b"K" + BRANCH, b"L" + BRANCH[1:], b"Y" + BRANCH[1:],
                 b"L 0 1", b"Y 0 0 2 -8", b"B" + BRANCH[1:], b"R 0 0", b"G 0 -1 1", BRANCH.replace(b" ", b"", 1), BRANCH + b"\n", b"\n" + BRANCH, b"Q" + BRANCH[1:], b"K" + LOAD[1:]):
        add(branches([LOAD], [b"R 0 0"], k=[line]))
        add(branches([LOAD], k=[BRANCH, line, BRANCH]))
    for part, line in product("brg", (BRANCH, b"K 0 0", b"K 0 1 2", b"K", b"L 0 1", b"Y 0 0 2 -8")):
        add(branches(**{part: [line]}))
    # fields: each in turn
    for j in range(11):
        for field in (b"?", b"1.", b"-", b"01", b"-0", b"00", b"0.5", b"1000", b"999", b"V", b"K", b"0" * 20 + b"7", b"1234567890123456", b"0." + b"0" * 21 + b"7", b"0." + b"0" * 23):
            add(branches([LOAD], k=[with_field(BRANCH, j, field)]))
        add(branches(k=[BRANCH, with_field(with_field(BRANCH, j, b"1."), 10, b"?")]))
    # an earlier line's refusal before a later one's
    add(branches([b"B Q 1. 0 0 0 0 ? ?"], k=[b"K"]))
    add(branches([LOAD], [b"R 00 0"], [b"G"], [b"K"]))
    add(branches(k=[b"K 0 1. 1", BRANCH]))
    add(branches(k=[with_field(BRANCH, 3, b"."), b"K"]))
    # columns of one place
    one = {"b": [BUS], "r": [b"R 0 0"], "g": [b"G 1 -1 1.5"], "k": [BRANCH]}
    for t in (branches(**one), branches(), branches(flag="c"), CABLES, TRANSFORMER):
        add(t, narrow=True)
    for z in "brgk":
        add(branches(**dict(one, **{z: one[z] * 2})), narrow=True)
        add(branches(**{z: one[z] * 2}), narrow=True)
        add(branches(**dict(one, **{z: one[z] * 2, "k": [with_field(BRANCH, 9, b"1.")]})), narrow=True)
    add(branches(**dict(one, k=[BRANCH] * 65)), narrow=True)
    # every byte of a good text changed in turn
    for t in (TRANSFORMER, TRANSFORMER):
        for i in range(len(t)):
            add(t[:i] + bytes([rng.choice(sorted((SECOND_ALPHABET | set(b"fcFC")) - {t[i]}))]) + t[i + 1:])
    # random reals
    for _ in range(25):
        fields = [b"%d" % rng.randrange(1000) for _ in range(2)]
        for _ in range(9):
            f = b"%0*d" % (rng.randrange(2, 40), rng.randrange(10 ** rng.randrange(1, 16)))
            point = len(f) - rng.randrange(min(len(f), 23))
            fields.append(rng.choice([b"", b"-"]) + f[:point] + (b"." + f[point:] if point < len(f) else b""))
        add(branches([LOAD], k=[b"K " + b" ".join(fields), BRANCH], flag=rng.choice("fc")))


def records():
    rng = random.Random(8)
    out = []
    add = lambda *a, **k: out.append(encode(*a, **k))
    add(LISTING)
    add(CASE)
    add(text())
    add(text(flag="C"))
    # refusal 1: lengths
    for n in (0, 1, 36, 37):
        add(text()[:n])
    add(b"\n" + text())
    for extra in (0, 1, 2):
        add(only("B", (LOAD + b"\n") * 1818 + b" " * (6 + extra)))
    add(only("Y", b"Y 0 0 2 -8\n" * 2975 + b"\n" * 5))
    # refusal 2: trailers
    body = LISTING[:35]
    for starts in ([0, 18, 24, 24, 24, 34], [0, 18, 24, 24, 24, 36], [1, 18, 24, 24, 24, 35], [0, 24, 18, 24, 24, 35], [0, 18, 24, 23, 24, 35],
                   [0, 18, 24, 24, 36, 35], [0, 18, 99999, 99999, 99999, 35], [0, 0, 0, 0, 0, 0], [0, 18, 24, 24, 24, 99999], [35, 35, 35, 35, 35, 35]):
        add(trailed(body, starts))
    for flag in "fcB 0\n":
        add(trailed(body, [0, 18, 24, 24, 24, 35], flag))
    add(LISTING[:-1] + b" ")
    add(LISTING[:-1])
    add(LISTING[:-1] + b"\r\n")
    add(LISTING + b"\n")
    add(LISTING.replace(b"F 0", b"F\t0"))
    add(LISTING.replace(b"F 00000", b"F  0000"))
    add(LISTING.replace(b"00018", b"0001x"))
    add(LISTING.replace(b"00018", b"-0018"))
    add(LISTING.replace(b"00018", b"00 18"))
    # a section cut anywhere: the trailer's numbers fall in the middle of lines
    for cut in range(36):
        add(trailed(body, [0, min(cut, 24), 24, 24, 24, 35]))
    for cut in (25, 30, 34, 35):
        add(trailed(body, [0, 18, 24, 24, cut, 35]))
        add(trailed(body, [0, 18, cut, cut, cut, 35]))
    # refusal 3: bytes outside the alphabet, the first of them told
    for bad in (b"\t", b"\r", b"\x00", b"+", b"e", b"E", b",", b"b", b"q", b"v", b"F", b"C", b"\xff", b"\xe2\x88\x92", b"/", b":", b"@", b"A", b"Z", b"_"):
        add(text([b"B Q 1 0 0 " + bad + b" 0 ? ?"], [b"R 0 0"]))
    add(text([LOAD + b"\r"], [b"R 0 0\r"]))
    add(text([LOAD], [b"R 0 \xe2\x88\x921"]))
    add(text([b"B Q 1. 0 0 0 0 ? ?"], [b"R 0 x"]))
    # refusal 6, and each table exactly full
    for z, line in zip(SIZES, (LOAD, b"R 7 0.5", b"G 3 -1 1", b"L 0 999", b"Y 31 2 0.125 -3")):
        add(only(z, (line + b"\n") * SIZES[z]))
        add(only(z, (line + b"\n") * (SIZES[z] + 1)))
        add(only(z, (b"x" + line + b"\n") * (SIZES[z] + 1)))
    for n, last in ((32, b"nonsense\n"), (32, b"B.\n"), (32, b"B"), (31, b"B")):
        add(only("B", (LOAD + b"\n") * n + last))
    # refusal 4: forms
    for line in (b"", b" ", b"B", b"B ", b"R 0 0", b"Q" + LOAD[1:], b" " + LOAD, LOAD + b" ", LOAD.replace(b" Q", b"  Q"), LOAD.replace(b"0 0", b"0  0", 1), LOAD + b" 1",
                 LOAD[:-2], b"B" + LOAD, b"B.", b"-", LOAD.replace(b" ", b"", 1), LOAD.replace(b"? ?", b"??"), LOAD + b"\n", b"\n" + LOAD, b"B Q", b"B Q 1 0 0 0 0 ?"):
        add(text([line], [b"R 0 0"]))
        add(text([LOAD, line], [b"R 0 0"]))
    for part in ({"r": [b"R 0"]}, {"r": [b"R 0 0 0"]}, {"r": [b"R  0 0"]}, {"g": [b"G 0 1"]}, {"g": [b"G 0 1 2 3"]}, {"l": [b"L 0"]}, {"l": [b"L 0 1 2"]}, {"y": [b"Y 0 0 1"]},
                 {"y": [b"Y 0 0 1 2 3"]}, {"y": [b"L 0 0 1 2"]}, {"l": [b"Y 0 1"]}, {"g": [b"R 0 1 2"]}, {"r": [b"G 0 1"]}):
        add(text(**part))
    # refusal 5: fields
    reals = (b"1.", b".5", b"-", b"--1", b"1-", b"1.2.3", b"-.", b".", b"-.5", b"-1.", b"?1", b"??", b"B", b"V", b"1.-2", b"123456789012345", b"1234567890123456",
             b"000000000000000", b"0000000000000000", b"0.00000000000000", b"0.000000000000000", b"-99999999999999.9", b"-999999999999999.9", b"00000001", b"1.50", b"-0", b"-0.25", b"0.1",
             b"0.3", b"2.5", b"9007199254740993", b"900719925474099", b"0.000000000000001", b"100000000000000", b"?", b"-?")
    for f in reals:
        add(text([b"B Q " + f + b" 0 0 0 0 ? ?"]))
        add(text([b"B V 1 0 0 0 0 0 " + f]))
    for f in (b"0", b"00", b"01", b"001", b"9", b"10", b"99", b"100", b"999", b"1000", b"0000", b"-0", b"-1", b"1.", b"1.0", b"?", b"B", b"31", b"32"):
        add(text(r=[b"R " + f + b" 0"]))
        add(text(l=[b"L 1 " + f]))
    for k in (b"V", b"Q", b"B", b"R", b"S", b"VV", b"QV", b"?", b"0", b"-"):
        add(text([b"B " + k + b" 1 0 0 0 0 ? ?"]))
    for j in range(1, 8):
        f = [b"Q", b"1", b"2", b"3", b"4", b"5", b"6", b"7"]
        f[j] = b"?"
        add(text([b"B " + b" ".join(f)]))
        f[j] = b"1."
        add(text([b"B " + b" ".join(f)]))
    for line in (b"G 0 ? 1", b"G 0 1 ?", b"G 0 1. 2.", b"G 00 1. 2", b"G 0 1 2."):
        add(text(g=[line]))
    for line in (b"Y 0 0 ? 1", b"Y 0 0 1 ?", b"Y 0 00 1. 2", b"Y 0 0 1 2."):
        add(text(y=[line]))
    # an earlier line's refusal before a later one's, and 3 before both
    add(text([b"B Q 1. 0 0 0 0 ? ?", b"B"]))
    add(text([b"B", b"B Q 1. 0 0 0 0 ? ?"]))
    add(text([LOAD], [b"R 00 0"], [b"x"]))
    # refusal 9, in columns of one place: one row more in each table in turn, and none more; what comes before 9 still does
    one = {"b": [BUS], "r": [b"R 0 0"], "g": [b"G 1 -1 1.5"], "l": [b"L 0 1"], "y": [b"Y 0 0 2 -8"]}
    add(text(**one), narrow=True)
    add(text(), narrow=True)
    add(CASE, narrow=True)
    for z in "brgly":
        add(text(**dict(one, **{z: one[z] * 2})), narrow=True)
        add(text(**{z: one[z] * 2}), narrow=True)
        add(text(**dict(one, **{z: one[z] * 2, "y": [b"Y 0 0 1. 2"]})), narrow=True)
    add(text(**dict(one, b=[BUS] * 33)), narrow=True)
    # every byte of a good text changed in turn
    for i in range(len(LISTING)):
        add(LISTING[:i] + bytes([rng.choice(sorted(ALPHABET - {LISTING[i]}))]) + LISTING[i + 1:])
    # random reals
    for _ in range(25):
        f = (b"-" if rng.random() < 0.5 else b"") + b"%d" % rng.randrange(10 ** rng.randrange(1, 9))
        if rng.random() < 0.7:
            f += b"." + b"%0*d" % (rng.randrange(1, 8), rng.randrange(10))
        add(text(g=[b"G %d " % rng.randrange(1000) + f + b" 1"], flag=rng.choice("FC")))
    zeros(add, rng)
    second_edition(add, random.Random(9))
    return out


def main():
    out = records()
    write("text_vectors", struct.pack(">H", len(out)) + b"".join(out), f"texts {len(out)}, differing 0\n")


main()

"""Families of case texts (document 01, "Case text", and 02, request 3): networks of every kind that the solver treats apart, and damaged texts.

A family is a function of a random source that gives a Case or a text. oracle/cases.py draws from them.
"""
import random
from collections import defaultdict
from fractions import Fraction
from itertools import accumulate, product

# The sections of a text in their order, and how many rows each may have: of the first edition, and of the second.
SIZES = {"B": 32, "R": 32, "G": 32, "L": 64, "Y": 256}
BRANCHED = {"B": 32, "R": 32, "G": 32, "K": 64}


class Case:
    """A case with numbers in its cells; a cell may be text too, such as ?."""
    sizes, names = SIZES, ("buses", "slacks", "gens", "lines", "triplets")
    reals = {"buses": 1, "slacks": 1, "gens": 1, "triplets": 2}  # the tables with reals, and the place of a row's first one

    def __init__(self, start, buses, slacks, gens, lines, triplets, digits=4):
        self.start, self.buses, self.slacks, self.gens, self.lines, self.triplets, self.digits = start, buses, slacks, gens, lines, triplets, digits

    def sections(self):
        return ["".join(" ".join([letter, *(cell(x, self.digits) for x in row)]) + "\n" for row in getattr(self, name)).encode()
                for letter, name in zip(self.sizes, self.names)]

    def text(self):
        return join(self.start, self.sections())


class Branched(Case):
    """A case of the second edition: a table of branches in place of lines and triplets. Its start is f or c."""
    sizes, names = BRANCHED, ("buses", "slacks", "gens", "branches")
    reals = {"buses": 1, "slacks": 1, "gens": 1, "branches": 2}

    def __init__(self, start, buses, slacks, gens, branches, digits=4):
        self.start, self.buses, self.slacks, self.gens, self.branches, self.digits = start, buses, slacks, gens, branches, digits


def cell(x, digits):
    """A field: text and bus numbers as they are, a real near x else."""
    if not isinstance(x, float):
        return str(x)
    s = f"{x:.{digits}f}".rstrip("0").rstrip(".")
    return "0" if s == "-0" else s


def trailed(body, starts, flag="F"):
    """A body behind which a trailer names these starts."""
    return body + (flag + "".join(f" {n:05d}" for n in starts) + "\n").encode()


def join(flag, sections):
    """The text of the sections, with its trailer."""
    return trailed(b"".join(sections), accumulate(map(len, sections), initial=0), flag)


def listing():
    """The paper's listing: one bus with a shunt."""
    return Case("F", [["Q", 1, 0, 0, 0, 0, "?", "?"]], [[0, 0]], [], [], [[0, 0, 2, -8]])


# ---- networks

def meshed(rng, first, n):
    """The lines (from, to, g, b) of n buses from first on: a random tree and some more lines."""
    pairs = [(rng.randrange(b), b) for b in range(1, n)]
    pairs += [rng.sample(range(n), 2) for _ in range(rng.randrange(max(1, n // 2)) if n > 2 else 0)]
    out = []
    for f, t in pairs:
        r, x = rng.uniform(0.005, 0.05), rng.uniform(0.05, 0.25)
        d = r * r + x * x
        out.append((first + f, first + t, r / d, -x / d))
    return out


def triplets(n, lines, shunts):
    """A diagonal entry per bus, then the two entries of each line."""
    diagonal = [[0.0, float(b)] for b in shunts]
    off = []
    for f, t, g, b in lines:
        for end in (f, t):
            diagonal[end][0] += g
            diagonal[end][1] += b
        off += [[f, t, -g, -b], [t, f, -g, -b]]
    return [[b, b, *diagonal[b]] for b in range(n)] + off


def network(rng, sizes, load, width=2.0, middle=0.0):
    """Islands of the given sizes with one slack each; width and middle shape the generators' limits."""
    n, lines, slacks, first = sum(sizes), [], [], 0
    for size in sizes:
        lines += meshed(rng, first, size)
        slacks.append([first + rng.randrange(size), rng.choice([0.0, 0.0, rng.uniform(-0.5, 0.5)])])
        first += size
    share, buses, gens = load / n ** 0.5, [], []
    for b in range(n):
        generator = rng.random() < 0.4
        stored = [rng.uniform(0.9, 1.1), rng.uniform(-0.6, 0.6)] if rng.random() < 0.8 else ["?", "?"]
        buses.append(["V" if generator or rng.random() < 0.1 else "Q", rng.uniform(0.95, 1.08), rng.uniform(0, share), rng.uniform(-0.1, 0.5 * share),
                      rng.uniform(0, share) if generator else 0.0, rng.choice([0.0, 0.0, rng.uniform(-0.1, 0.3)]), *stored])
        for _ in range(rng.choice([1, 1, 1, 2, 3]) if generator or rng.random() < 0.1 else 0):
            mid = rng.uniform(-middle, middle)
            gens.append([b, mid - width * rng.random(), mid + width * rng.random()])
    shunts = [rng.uniform(0, 0.05) for _ in range(n)]
    return Case(rng.choice("FFC"), buses, slacks, gens[:32], [list(x[:2]) for x in lines], triplets(n, lines, shunts), rng.choice([3, 4, 4, 6, 11]))


def small(rng):
    return rng.choice([1, 2, 2, 3, 3, 4, 5, 6, 8])


def plain(rng):
    return network(rng, [small(rng)], rng.uniform(0.3, 1.2))


def sized(rng, n):
    return network(rng, [n], rng.uniform(0.3, 1.2))


def heavy(rng):
    return network(rng, [small(rng)], rng.choice([3.0, 8.0]))


def islands(rng):
    return network(rng, [rng.randrange(1, 5) for _ in range(rng.choice([2, 3]))], rng.uniform(0.3, 1.2))


def no_slack(rng):
    """An island without slack. One without load and shunts is solved where it starts."""
    c = network(rng, [rng.randrange(1, 4) for _ in range(rng.choice([1, 2]))], 0.5)
    c.slacks = c.slacks[1:]
    if rng.random() < 0.7:
        c.triplets = [t for t in c.triplets if t[0] == t[1]]
        for t in c.triplets:
            t[2] = t[3] = 0.0
        for b in c.buses:
            b[2:6] = [0.0] * 4
    return c


def slacks(rng):
    """Several slack rows in one island, the same bus twice among them at times."""
    c = network(rng, [rng.randrange(2, 7)], 0.6)
    for _ in range(rng.choice([1, 1, 2, 3])):
        c.slacks.insert(rng.randrange(2), [rng.randrange(len(c.buses)), rng.uniform(-0.3, 0.3)])
    return c


def limits(rng):
    """Narrow limits, which bind high and low."""
    return network(rng, [rng.randrange(2, 9)], rng.uniform(0.3, 1.2), 0.05, 0.3)


def crossed(rng):
    """Every bus holds a voltage of its own within narrow limits, some with qmin above qmax: buses return, and would again."""
    c = network(rng, [rng.randrange(3, 10)], rng.uniform(0.3, 2))
    c.gens = []
    for b, bus in enumerate(c.buses):
        bus[:2] = ["V", rng.uniform(0.9, 1.15)]
        middle, width = rng.uniform(-0.5, 0.5), rng.uniform(-0.2, 0.2)
        c.gens.append([b, middle - width, middle + width])
    return c


def cascade(rng):
    """A row of generators. Each, once held at its limit, hands what is lacking to the next: one switch a round, and over 12 rounds never settle."""
    n, load, x = rng.choice([4, 11, 12, 12, 13, 14]), rng.uniform(0.2, 0.4), rng.uniform(0.005, 0.02)
    lines = [(b, b + 1, 0.0, -1 / x) for b in range(n - 1)]
    buses = [["V", 1, 0, load if b == 0 else 0, 0, 0, "?", "?"] for b in range(n)]
    gens = [[b, -1, rng.uniform(0.002, 0.01)] for b in range(n - 1)]
    return Case(rng.choice("FC"), buses, [[n - 1, 0]], gens, [list(x[:2]) for x in lines], triplets(n, lines, [0] * n))


def edge(rng):
    """Two generators whose reactive power is known exactly, 0.5 and 0.25, with limits about 1e-6 from it."""
    near = [0, 1e-7, 9e-7, 1e-6, 11e-7, 2e-6, 4e-6, 6e-6, 8e-6]
    buses = [[kind, 1, rng.choice([0, "-0"]), qd, 0, 0, "?", "?"] for kind, qd in (("Q", 0), ("V", 0.25), ("V", 0.125))]
    gens = [[b, q + rng.choice(near), 1] if rng.random() < 0.5 else [b, -1, q - rng.choice(near)] for b, q in ((1, 0.5), (2, 0.25))]
    if rng.random() < 0.5:  # the first held high, the second held low and lifting the first's voltage
        gens = [[1, -1, 0.5 - rng.choice([2e-6, 4e-6])], [2, 0.25 + rng.choice([4e-6, 6e-6, 8e-6]), 1]]
    rows = triplets(3, [(0, 1, 0.0, -4.0), (1, 2, 0.0, -4.0)], [0, -0.25, -0.125])
    return Case("F", buses, [[0, rng.choice([0, "-0"])]], gens, [[0, 1], [1, 2]], rows, 7)


def exact(rng):
    """A load bus with exact numbers, whose full step leads to a point of the same mismatch or to magnitude 0."""
    own, mutual, vm, qd = rng.choice([(-4, 4, 0.75, 1.75), (-4, 4, 0.625, 1.1875), (-1, -1, 1, 1), (-2, -1, 1, 2)])
    scale = rng.choice([1, 2, 4, 8])
    buses = [["Q", 1, 0, 0, 0, 0, "?", "?"], ["Q", vm, rng.choice([0, "-0"]), qd * scale, 0, 0, "?", "?"]]
    return Case("F", buses, [[0, rng.choice([0, "-0"])]], [], [[0, 1]], [[1, 1, 0, own * scale], [1, 0, 0, mutual * scale]], 4)


def zeros(rng):
    """Signed zeros: the angle of a bus without load, after one with load, ends as 0 or -0."""
    zero = lambda: rng.choice([0, "-0"])
    buses = [["V", 1, 0, 0, zero(), zero(), "?", "?"] for _ in range(3)]
    buses[1][2] = rng.choice([0.5, -0.5])
    rows = triplets(3, [(0, b, 0.0, rng.choice([4.0, -4.0])) for b in (1, 2)], [0] * 3)
    rows[2][2] = zero()
    return Case("F", buses, [[0, "-0"]], [], [[0, 1], [0, 2]], rows)


def stored(rng):
    """Case starts from odd stored values; with angles near the solution such a start may win."""
    c = network(rng, [rng.randrange(1, 6)], 0.5)
    c.start = "C"
    angles = rng.choice([["?", 0.2, -3, 900, 1500], ["?", 0.05, 0.1, -0.1]])
    for b in c.buses:
        b[6:] = [rng.choice(["?", 0, -1, 0.5, 1]), rng.choice(angles)]
    return c


def diagonals(rng):
    """Two diagonal triplets on a bus, at times none on another."""
    c = network(rng, [rng.randrange(1, 6)], 0.5)
    n = len(c.buses)
    twice = rng.randrange(n)
    if rng.random() < 0.3 and n > 1:
        c.triplets = [t for t in c.triplets if t[0] != t[1] or t[0] != (twice + 1) % n]
    c.triplets.insert(rng.randrange(len(c.triplets) + 1), [twice, twice, 0.0, rng.uniform(-0.2, 0.2)])
    return c


def sparse(rng):
    """Most triplets are missing, or all are zero: singular matrices."""
    c = network(rng, [rng.randrange(2, 6)], 0.5)
    if rng.random() < 0.2:
        c.triplets = [[i, k, 0.0, 0.0] for i, k, _, _ in c.triplets]
    else:
        c.triplets = [t for t in c.triplets if rng.random() < 0.4]
    return c


def shuffled(rng):
    c = network(rng, [small(rng)], 0.8)
    rng.shuffle(c.triplets)
    return c


def wild(rng):
    """Values of every size."""
    c = network(rng, [rng.randrange(1, 6)], 0.8)
    for b in c.buses:
        b[1] = rng.choice([b[1], 0, -1, 1e9, 1e-4, 99999999999999, 2000])
        b[2] = rng.choice([b[2], 99999999999999, -99999999999999, 0])
    for t in c.triplets:
        factor = rng.choice([1, 1, 1e8, 0, 1e-3])
        t[2], t[3] = t[2] * factor, t[3] * factor
    c.digits = 6
    return c


def distant(rng):
    """A lone load bus whose start is very high: each step about halves it, so that it takes around 50 steps."""
    g, b = rng.uniform(0.1, 1), rng.uniform(-9, -1)
    power = rng.choice([12.6, 13.1, 13.3, 13.4, 13.5, 13.6, 13.8, 14.4])
    buses = [["Q", 1, 0, 0, 0, 0, "?", "?"], ["Q", int(10 ** (power + rng.uniform(-0.1, 0.1))), 0, 0, 0, 0, rng.choice(["?", 1]), "?"]]
    return Case("F", buses, [[0, 0]], [], [[0, 1]], triplets(2, [(0, 1, g, b)], [0, 0]))


def far_angle(rng):
    """References near or beyond 1024 radians, where sine and cosine are NaN. Cut off from the slack, the other buses may be solved at a start whose
    angles all lie within. A second island may break its limits while the first one's mismatch is NaN."""
    c = network(rng, rng.choice([[1], [2], [3], [4], [2, 3]]), 0.3, 0.05, 0.3)
    c.slacks[0][1] = rng.choice([1, -1]) * rng.choice([2000, 1024, 1024.02, 1024.04, 1024.06, 1023.98, 1023])
    if len(c.slacks) == 1 and rng.random() < 0.6:
        c.triplets = [[b, b, 0, 0] for b in range(len(c.buses))]
        for b in c.buses:
            b[2:6] = [0] * 4
    return c


def overflow(rng):
    """A chain in which each bus leans on the next about 1e15 times more than on itself, so that the direction grows towards the end of the doubles
    and beyond. On V buses the angles grow, on Q buses the magnitudes."""
    n, kind, big = rng.choice([13, 16, 24, 25]), rng.choice("VQ"), 99999999999999
    own, back = (-big / 2, rng.choice([-0.1, -0.2, -0.3])) if kind == "Q" else (0, 0.1 - big)
    rows = [[0, 0, 0, 0], [n - 1, n - 1, 0, -1], [n - 1, 0, 0, 1]]
    for b in range(1, n - 1):
        rows += [[b, b, 0, own], [b, b + 1, 0, big], [b, 0, 0, back]]
    if rng.random() < 0.4:
        rows.append([1, 3, 0, -big])  # infinity less infinity
    buses = [[kind, 1, 0.5 if kind == "V" else 0, -0.5, 0, 0, "?", "?"] for _ in range(n)]
    return Case("F", buses, [[0, 0]], [], [], rows, 1)


def rough(seed):
    """Set points far from 1 and stored values far from both: which start wins hangs on the last digits."""
    rng = random.Random(seed)
    c = network(rng, [rng.randrange(3, 9)], 0.1)
    share, low, high = rng.uniform(0.1, 0.6), rng.choice([0.02, 0.1, 0.3]), rng.choice([1.0, 1.2, 3.0])
    c.gens, c.slacks[0][1], c.digits = [], 0.0, 4
    for b in c.buses:
        b[0] = rng.choice("QQQQV")
        b[1:4] = [rng.uniform(low, high), rng.uniform(-share, share), rng.uniform(-share, share) / 2]
        b[6:] = [rng.uniform(0.3, 1.5), rng.uniform(-3, 3)]
    return c


# Seeds of rough cases that flat start 2, 3, 4 or 5 solves (a row each), as `cases.py ORACLE late` prints them.
LATE = [
    168, 618, 666, 711, 817, 878, 945, 981, 1008, 1035, 1104, 1178,
    481, 1206, 1281, 1461, 1665, 1714, 1860, 1968, 2247, 2270, 2272, 2613,
    243, 493, 1921, 1966, 2154, 3034, 3052, 3425, 3625, 3739, 3847, 4061,
    467, 951, 2657, 3486, 3860, 3875, 3949, 4150, 4555, 5234, 5405, 6575,
]


def late(rng):
    """Near a rough case that a later start solves, or any rough case."""
    c = rough(rng.choice(LATE) if rng.random() < 0.7 else rng.randrange(1 << 30))
    c.start = rng.choice("FC")
    for b in c.buses:
        b[2] += rng.choice([0, 0.0001, -0.0001])
    return c


def full(rng):
    """Every table full."""
    n = SIZES["B"]
    c = network(rng, [n], rng.uniform(0.3, 0.8))
    c.slacks = [list(c.slacks[0]) for _ in range(SIZES["R"])]
    c.gens += [[rng.randrange(n), -0.5, 0.5] for _ in range(SIZES["G"] - len(c.gens))]
    c.lines += [list(c.lines[0]) for _ in range(SIZES["L"] - len(c.lines))]
    c.triplets += [[*rng.sample(range(n), 2), 0, 0] for _ in range(SIZES["Y"] - len(c.triplets))]
    return c


def no_bus(rng):
    """Zero buses: solved with nothing in the answer, or refused where a row names a bus."""
    return Case(rng.choice("FC"), [], rng.choice([[], [], [[0, 0]]]), [], [], [])


# ---- padded numbers

# How an exporter pads: digits before the point at least, and decimals.
WIDTHS = [(7, 10), (7, 10), (1, 14), (16, 0), (9, 4), (3, 22), (20, 22)]

# Reals about the limits of document 02's request 2: how many digits count, how many of these are zeros at the end, how many decimals there are, and how
# many digits stand before the point at least; None: as many as the longest text has room for.
LIMITS = [(15, 0, 15, 7), (15, 6, 16, 1), (16, 0, 16, 1), (16, 6, 16, 7), (15, 0, 0, 30), (16, 0, 0, 30), (15, 0, 22, 1), (16, 0, 22, 1), (15, 0, 23, 30),
          (1, 0, 22, 1), (1, 0, 23, 7), (0, 0, 22, 300), (0, 0, 23, 1), (15, 0, 16, None), (0, 0, 0, None)]

# The networks that are padded.
PADDED = [plain, heavy, islands, no_slack, slacks, limits, crossed, cascade, edge, exact, zeros, stored, diagonals, sparse, shuffled, wild, distant,
          far_angle, late, lambda rng: sized(rng, 32)]


def respelled(c, change):
    """The case with every real changed."""
    for table, first in c.reals.items():
        setattr(c, table, [[*row[:first], *map(change, row[first:])] for row in getattr(c, table)])
    return c


def spelled(n, decimals, ahead):
    """The whole number n over the power of ten of its decimals, with at least so many digits before the point."""
    digits = f"{n:0{ahead + decimals}d}"
    return f"{digits[:-decimals]}.{digits[-decimals:]}" if decimals else digits


def widened(field, ahead, decimals):
    """A field with zeros in front of its number, and behind it as far as 15 digits count."""
    if field == "?":
        return field
    minus = "-" if field[0] == "-" else ""
    whole, _, rest = field[len(minus):].partition(".")
    n = int(whole + rest)
    more = max(0, min(decimals - len(rest), 15 - len(str(n)) if n else decimals))
    return minus + spelled(n * 10 ** more, len(rest) + more, ahead)


def filled(c, row, place, n, decimals, minus=""):
    """The case with a number in one place, and as many zeros in front of it as make a text of 32,768 bytes."""
    row[place] = minus + spelled(n, decimals, 1)
    row[place] = minus + spelled(n, decimals, 1 + 32768 - len(c.text()))
    return c


def padded(rng, k, of=lambda rng, family: family(rng)):
    """A network of any kind with all numbers padded. In every second one a real of the next of LIMITS stands among them."""
    c = of(rng, rng.choice(PADDED))
    ahead, decimals = rng.choice(WIDTHS)
    respelled(c, lambda x: widened(cell(x, c.digits), ahead, decimals))
    if k % 2 == 0:
        return c
    counted, end, decimals, ahead = LIMITS[k // 2 % len(LIMITS)]
    table = rng.choice([table for table in c.reals if getattr(c, table)])
    row = rng.choice(getattr(c, table))
    place, minus = rng.randrange(c.reals[table], len(row)), rng.choice(["", "-"])
    n = rng.randrange(10 ** (counted - end - 1), 10 ** (counted - end)) * 10 ** end if counted else 0
    if ahead is None:
        return filled(c, row, place, n, decimals, minus)
    row[place] = minus + spelled(n, decimals, ahead)
    return c


# ---- damaged texts

def good(rng):
    return network(rng, [rng.randrange(1, 4)], 0.5)


def length(rng):
    """Short texts, and the shortest length that is long enough."""
    t = good(rng).text()
    return t[len(t) - rng.choice([0, 1, 2, 36, 37, 38]):] if rng.random() < 0.7 else t[:rng.randrange(38)]


def long(rng, make=good):
    """The longest text that is not too long, and longer ones."""
    c = make(rng)
    s = c.sections()
    s[-1] += b"0" * (rng.choice([32768, 32769, 32769, 32800]) - len(c.text()))
    return join(c.start, s)


def trailer(rng, make=good, others=b"0123456789 FCG\n"):
    """A byte of the trailer changed, or the wrong starts."""
    c = make(rng)
    t, width = bytearray(c.text()), 6 * len(c.sizes) + 8
    t[len(t) - width + rng.randrange(width)] = rng.choice(others)
    return bytes(t)


def alphabet(rng, make=good):
    """A byte that no body holds."""
    c = make(rng)
    s = c.sections()
    i = rng.choice([i for i, part in enumerate(s) if part])
    at = rng.randrange(len(s[i]))
    s[i] = s[i][:at] + rng.choice(["\u2212", "\u2013", "\t", "\r", "e", "+", ",", "b", "\0", "S", "_"]).encode() + s[i][at + rng.randrange(2):]
    return join(c.start, s)


def over(rng):
    """A row over the size of a table, at times a wrong one."""
    c = listing()
    letter, rows, row = rng.choice([("B", c.buses, ["Q", 1, 0, 0, 0, 0, 1, 0]), ("R", c.slacks, [0, 0]), ("G", c.gens, [0, -1, 1]),
                                    ("L", c.lines, [0, 0]), ("Y", c.triplets, [0, 0, 0, 0])])
    rows += [row] * (SIZES[letter] - len(rows))
    rows.append(rng.choice([row, row + [0], [""]]))
    return c


def form(rng, make=good, letters="BRGLYQ"):
    """A line of the wrong form, or a section that ends within a line."""
    c = make(rng)
    s = c.sections()
    i = rng.choice([i for i, part in enumerate(s) if part])
    lines = s[i].splitlines(keepends=True)
    k = rng.randrange(len(lines))
    x = lines[k]
    lines[k] = rng.choice([x[1:], x.replace(b" ", b"  ", 1), x[:-1] + b" \n", b" " + x, x + b"\n", x[:-1] + b" 0\n", x.rsplit(b" ", 1)[0] + b"\n",
                           rng.choice(letters).encode() + x[1:], x[:-1]])
    s[i] = b"".join(lines)
    return join(c.start, s)


def field(rng, make=good):
    """One field that is wrong, or would be in another place."""
    c = make(rng)
    rows = rng.choice([getattr(c, name) for name in c.names if getattr(c, name)])
    row = rng.choice(rows)
    row[rng.randrange(len(row))] = rng.choice(["1.", ".5", "-", "--1", "1-", "1.2.3", "-.", "-0", "0000000000000001", "1.00000000000000001", "00",
                                               "01", "1000", "?", "B", "VQ", "Q1"])
    return c


def beyond(rng):
    """A bus number that is not below the bus count."""
    c = good(rng)
    c.gens.append([0, -1, 1])
    rows = rng.choice([r for r in (c.slacks, c.gens, c.lines, c.triplets) if r])
    row = rng.choice(rows)
    row[rng.randrange(2) if rows in (c.lines, c.triplets) else 0] = rng.choice([len(c.buses), len(c.buses) + 1, 32, 33, 999])
    return c


# The tables whose rows name buses, by their refusal: the rows of a case, how many bus numbers a row begins with, and a row.
NAMING = {8: ("slacks", 1, [0, 0]), 11: ("gens", 1, [0, -1, 1]), 12: ("lines", 2, [0, 0]), 13: ("triplets", 2, [0, 0, 2, -8])}

# What is at fault: by table the rows and their fields. Row -1 is the last one, row 1 one in between.
FAULTS = [{table: [(row, field)]} for table, (_, fields, _) in NAMING.items() for row in (0, 1, -1) for field in range(fields)]
FAULTS += [{table: [(row, 0), (row, 1)]} for table in (12, 13) for row in (0, 1, -1)]
FAULTS += [{table: [(1, fields - 1), (-1, 0)]} for table, (_, fields, _) in NAMING.items()]
FAULTS += [{first: [(-1, 0)], second: [(0, 0)]} for first in NAMING for second in NAMING if first < second]
FAULTS += [dict.fromkeys(NAMING, [(1, 0)])]


def missing(rng, k):
    """A network in which the rows of the k-th of FAULTS name a bus that is not there. After the last of them: rows of one table and no bus."""
    k %= len(FAULTS) + len(NAMING)
    if k >= len(FAULTS):
        name, _, row = list(NAMING.values())[k - len(FAULTS)]
        c = Case("F", [], [], [], [], [])
        getattr(c, name).extend([row] * 3)
        return c
    c = network(rng, [rng.randrange(3, 7)], 0.5)
    n = len(c.buses)
    c.slacks = [[rng.randrange(n), 0.0] for _ in range(rng.randrange(3, 6))]
    c.gens = [[rng.randrange(n), -1, 1] for _ in range(rng.randrange(3, 6))]
    c.lines += [[0, n - 1], [1, n - 1]]
    for table, places in FAULTS[k].items():
        for row, field in places:
            getattr(c, NAMING[table][0])[row][field] = rng.choice([n, n, n + 1, 32, 33, 999])
    return c


def struck(rng, make=good, added=b" \n-.0159?BRGLYVQx"):
    """A good text after an accident: a byte changed, lost or added, or the end cut off."""
    t = bytearray(make(rng).text())
    at = rng.randrange(len(t))
    how = rng.randrange(4)
    if how == 0:
        t[at] = rng.randrange(256)
    elif how == 1:
        del t[at]
    elif how == 2:
        t.insert(at, rng.choice(added))
    else:
        del t[at:]
    return bytes(t)


# ---- texts of the second edition: networks

PLAIN = [0.0, 0.0, 0.0, 0.0, 1, 0, 1]  # what a K row has behind its series admittance: no shunts, tap 1, shift 0, on


def branch_rows(c):
    """The K rows of a first-edition case: one for each line, with the line's own entry as its series admittance. What a bus's diagonal entry has beside these
    is a shunt at the end of its first row."""
    value = lambda x: Fraction(cell(x, c.digits))
    entries, left, rows, first = defaultdict(list), defaultdict(lambda: [Fraction(0), Fraction(0)]), [], {}
    for i, k, g, b in c.triplets:
        if i == k:
            left[i] = [x + value(y) for x, y in zip(left[i], (g, b))]
        else:
            entries[i, k].append((value(g), value(b)))
    for row, (f, t) in enumerate(c.lines):
        found = [entries[pair].pop(0) for pair in ((f, t), (t, f)) if entries[pair]]
        series = [-x for x in found[0]] if found else [Fraction(0)] * 2
        rows.append([f, t, *map(float, series), *PLAIN])
        for end, place in ((f, 4), (t, 6)):
            left[end] = [x - y for x, y in zip(left[end], series)]
            first.setdefault(end, (row, place))
    for bus, (row, place) in first.items():
        rows[row][place:place + 2] = map(float, left[bus])
    return rows


def taps(rng, rows):
    for row in rows:
        row[8] = rng.choice([1, rng.uniform(0.85, 1.15), rng.uniform(0.4, 2.2)])


def shifts(rng, rows):
    for row in rows:
        row[9] = rng.choice([0, rng.uniform(-0.6, 0.6), rng.uniform(-0.1, 0.1)])


def far_shifts(rng, rows):
    """Whole turns, degrees, and shifts near or beyond 1024 radians, on branches that are on or off."""
    for row in rng.sample(rows, min(2, len(rows))):
        row[9] = rng.choice([1, -1]) * rng.choice([6.283185307, 30, 330, 1023.98, 1024, 1024.02, 2000, 99999999999999])
        row[10] = rng.choice([1, 1, 0])


def off(rng, rows):
    for row in rng.sample(rows, min(2, len(rows))):
        row[10] = rng.choice([0, 0, "-0", "0.000"])


def switched(rng, rows):
    """Switches that are neither 0 nor 1."""
    for row in rows:
        row[10] = rng.choice([1, 1, 0.5, 2, -1, 0.001, 1.001, 99999999999999])


def signed(rng, rows):
    """Zeros with a minus, and a branch without its conductance or susceptance."""
    rng.choice(rows)[rng.choice([2, 3])] = "-0"
    for row in rows:
        for place in range(2, 11):
            if row[place] == 0 and rng.random() < 0.5:
                row[place] = "-0"


def parallel(rng, rows):
    """Some branches as two, one of them turned at times, or all that is beside one as a second one."""
    for row in rng.sample(rows, min(3, len(rows))):
        twin = list(row)
        for place in range(2, 8):
            row[place] = twin[place] = float(row[place]) / 2
        if rng.random() < 0.5:
            twin[:2], twin[4:8] = twin[1::-1], twin[6:8] + twin[4:6]
        rows.insert(rng.randrange(len(rows) + 1), twin)


def charged(rng, rows):
    """Shunts at both ends of every branch."""
    for row in rows:
        row[4:8] = [rng.uniform(0, 0.02), rng.uniform(0, 0.1), rng.uniform(0, 0.02), rng.uniform(-0.1, 0.1)]


def uneven(rng, rows):
    """Every field of every branch another number, of a size that can be solved."""
    for row in rows:
        row[4:] = [*(float(x) + rng.uniform(0, 0.05) for x in row[4:8]), rng.uniform(0.93, 1.07), rng.uniform(-0.1, 0.1), rng.uniform(0.8, 1.2)]


def cancelled(rng, rows):
    """A branch whose shunt takes its series admittance away from one end, so that it carries power and adds nothing to a diagonal entry."""
    row = rng.choice(rows)
    place = rng.choice([4, 6])
    row[place:place + 2] = [-float(x) for x in row[2:4]]


def steep(rng, rows):
    """Taps and admittances of every size."""
    for row in rows:
        row[8] = rng.choice([1, 0.01, 100, 99999999999999, "0.0000000000000000000001"])
        row[2:4] = [float(x) * rng.choice([1, 1, 1e5, 0]) for x in row[2:4]]


def mingled(rng, rows):
    rng.shuffle(rows)


DRESSES = [taps, taps, shifts, shifts, far_shifts, off, off, switched, signed, signed, parallel, parallel, charged, uneven, cancelled, cancelled,
           steep, mingled]


def undressed(rng, family):
    """A case of a family as one of branches."""
    c = family(rng)
    return Branched(c.start.lower(), c.buses, c.slacks, c.gens, branch_rows(c), c.digits)


def branched(rng, family):
    """The same; most are changed in what only branches have."""
    c = undressed(rng, family)
    for dress in rng.sample(DRESSES, rng.choice([0, 1, 2, 3])) if c.branches else []:
        dress(rng, c.branches)
    c.branches = c.branches[:BRANCHED["K"]]
    return c


def uneven_branches(rng):
    """A network of ordinary size and load, with every number another."""
    c = undressed(rng, lambda rng: network(rng, [rng.randrange(2, 9)], 0.5))
    uneven(rng, c.branches)
    return c


def tied(rng):
    """Islands whose slacks have angles of their own, or one island and a bus without load, tied by a branch that is off: one island in which the first slack leads.
    At times the branch has a shift beyond 1024 radians, and so NaN for its entries, on or off."""
    alone = rng.random() < 0.5
    c = undressed(rng, lambda rng: network(rng, [rng.randrange(2, 5), 1 if alone else rng.randrange(2, 5)], 0.4))
    for row in c.slacks:
        row[1] = rng.uniform(-0.5, 0.5)
    if alone:
        c.slacks.pop()
        c.buses[-1] = [rng.choice("VQ"), 1, 0, 0, 0, 0, "?", "?"]
    c.branches.append([0, len(c.buses) - 1, 1.0, -5.0, *PLAIN[:-2], rng.choice([0, 0, 2000]), rng.choice([0, "-0"])])
    return c


def between_slacks(rng):
    """A network with a second slack bus, and branches between the two: their flows are in no mismatch, so a case is solved with NaN among them too. Some are off, and some
    have shunts of twice the series admittance with its sign turned, so that both products of a current can be zeros with a minus."""
    c = undressed(rng, lambda rng: network(rng, [rng.randrange(1, 5)], 0.4))
    c.slacks.append([len(c.buses), rng.uniform(-0.3, 0.3)])
    c.buses.append([rng.choice("VQ"), rng.uniform(0.9, 1.1), 0, 0, 0, 0, "?", "?"])
    for _ in range(rng.randrange(1, 4)):
        ends = [c.slacks[0][0], c.slacks[-1][0]]
        rng.shuffle(ends)
        series = [rng.choice([1, -1]) * rng.uniform(0, 5), rng.choice([1, -1]) * rng.uniform(0, 9)]
        shunts = rng.choice([PLAIN[:4], [-2 * x for x in series] * 2])
        c.branches.append([*ends, *series, *shunts, 1, rng.choice([0, 0, 0.2, 2000]), rng.choice([1, 0, "-0"])])
    return c


def transformer():
    """Two buses and a transformer, as short as it goes with a number of every form."""
    return Branched("f", [["V", 1, 0, 0, 0, 0, "?", "?"], ["Q", 1, 0.5, "-0", 0, 0, 1, 0]], [[0, 0]], [], [[0, 1, 1, -9, 0, 0, 0, 0.2, 0.97, -0.1, 1]])


def all_branches(rng):
    """Every table full. The last rows are switched off, so that they carry nothing, or stand beside others."""
    c = branched(rng, full)
    rest = [[*rng.sample(range(len(c.buses)), 2), 1.0, -5.0, *PLAIN[:-1], rng.choice([0, 1])] for _ in range(BRANCHED["K"] - len(c.branches))]
    c.branches += rest
    return c


# ---- texts of the second edition: damaged

def good_branches(rng):
    return branched(rng, good)


def over_branches(rng, k):
    """A row over the size of the k-th table, or a wrong row."""
    c = transformer()
    letter, rows, row = [("B", c.buses, c.buses[1]), ("R", c.slacks, c.slacks[0]), ("G", c.gens, [0, -1, 1]), ("K", c.branches, c.branches[0])][k % 4]
    rows += [row] * (BRANCHED[letter] - len(rows))
    rows.append([row, row + [0], [""]][k // 4 % 3])
    return c


# Lengths about those of the two trailers, and what stands 32 from the end.
LENGTHS = list(product(range(30, 40), "fcFC0K"))


def short(rng, k):
    """The end of a text of either edition, with the k-th length and letter of LENGTHS."""
    n, letter = LENGTHS[k % len(LENGTHS)]
    t = bytearray(rng.choice([good, good_branches])(rng).text()[-n:])
    if n >= 32:
        t[n - 32:n - 31] = letter.encode()
    return bytes(t)


def line_among(rng, c, part, line):
    """The text of a case with a line put into a section."""
    s = c.sections()
    s[part] = line + s[part] if rng.random() < 0.5 else s[part] + line
    return join(c.start, s)


# Something of one edition in a text of the other.
MIXED = [
    lambda rng: line_among(rng, good(rng), rng.randrange(5), b"K 0 1 1 -8 0 0 0 0 1 0 1\n"),
    lambda rng: line_among(rng, good_branches(rng), rng.randrange(3), rng.choice([b"L 0 1\n", b"Y 0 0 2 -8\n", b"K 0 1 1 -8 0 0 0 0 1 0 1\n"])),
    lambda rng: line_among(rng, transformer(), 3, rng.choice([b"L 0 1\n", b"L 0 1 1 -8 0 0 0 0 1 0 1\n"])),
    lambda rng: line_among(rng, transformer(), 3, b"Y 0 0 2 -8\n"),
    lambda rng: line_among(rng, transformer(), 3, b"K 0 1\n"),
    lambda rng: line_among(rng, transformer(), 3, b"K 0 1 " + b" ".join(rng.sample([b"?"] + [b"1"] * 8, 9)) + b"\n"),
    lambda rng: join("F", good_branches(rng).sections()),
    lambda rng: join("f", good(rng).sections()),
    lambda rng: join("C", [*good_branches(rng).sections(), b""]),
    lambda rng: join("f", [*good_branches(rng).sections(), b""]),
    lambda rng: join("k", good_branches(rng).sections()),
    lambda rng: good_branches(rng).text() + rng.choice([b"\n", b" ", b"f"]),
]


def mixed(rng, k):
    """The k-th of MIXED."""
    return MIXED[k % len(MIXED)](rng)


def flipped(rng, k):
    """The short text of branches with its k-th byte changed."""
    t = bytearray(transformer().text())
    at = k % len(t)
    t[at] = rng.choice([b for b in b"\n -.0123456789?BRGLYVQKfcFC" if b != t[at]])
    return bytes(t)


# The tables of the second edition whose rows name buses, as NAMING has them.
NAMING_BRANCHED = {8: NAMING[8], 11: NAMING[11], 12: ("branches", 2, [0, 0, 1, -8, *PLAIN])}

# What is at fault: by refusal the rows, for 8, 11 and 12 with their fields. Row -1 is the last one, row 1 one in between.
BAD = [{table: [(row, field)]} for table, (_, fields, _) in NAMING_BRANCHED.items() for row in (0, 1, -1) for field in range(fields)]
BAD += [{12: [(row, 0), (row, 1)]} for row in (0, 1, -1)]
BAD += [{table: [(1, fields - 1), (-1, 0)]} for table, (_, fields, _) in NAMING_BRANCHED.items()]
BAD += [{14: [row]} for row in (0, 1, -1)] * 3 + [{15: [row]} for row in (0, 1, -1)] * 2
BAD += [{14: [row], 15: [row]} for row in (0, 1, -1)] + [{14: [a], 15: [b]} for a, b in ((0, 1), (1, 0), (1, -1), (-1, 1), (0, -1), (-1, 0))]
BAD += [{14: [1, -1]}, {15: [1, -1]}, {14: [0, 1, -1], 15: [0, 1, -1]}]
BAD += [{table: [(-1, 0)], other: [0]} for table in NAMING_BRANCHED for other in (14, 15)]
BAD += [{first: [(-1, 0)], second: [(0, 0)]} for first in NAMING_BRANCHED for second in NAMING_BRANCHED if first < second]


def bad_rows(rng, k):
    """A network in which the rows of the k-th of BAD are at fault. After the last of them: rows of one table and no bus."""
    k %= len(BAD) + len(NAMING_BRANCHED)
    if k >= len(BAD):
        name, _, row = list(NAMING_BRANCHED.values())[k - len(BAD)]
        c = Branched("f", [], [], [], [])
        getattr(c, name).extend([row] * 3)
        return c
    c = undressed(rng, lambda rng: network(rng, [rng.randrange(4, 7)], 0.5))
    for dress in rng.sample([taps, shifts, off, signed, mingled], 2):
        dress(rng, c.branches)
    n = len(c.buses)
    c.slacks = [[rng.randrange(n), 0.0] for _ in range(rng.randrange(3, 6))]
    c.gens = [[rng.randrange(n), -1, 1] for _ in range(rng.randrange(3, 6))]
    for number, rows in sorted(BAD[k].items(), reverse=True):
        if number > 12:
            for row in (c.branches[row] for row in rows):
                place, value = (8, rng.choice([0, "-0", "0.000", "-0.0", -1, -0.5, -1000])) if number == 14 else (1, row[0])
                row[place] = value
                row[10] = rng.choice([row[10], 0])
        else:
            for row, field in rows:
                getattr(c, NAMING_BRANCHED[number][0])[row][field] = rng.choice([n, n, n + 1, 32, 33, 999])
    return c

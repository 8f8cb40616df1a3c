"""Proof files: how records are written, and steps that a checker accepts.

A record is a tuple of its mark and its fields. A Proof keeps the records said
so far and what they make if all of them are accepted. It judges nothing.
"""
import struct

AT_MOST, ZERO, DIVIDES = 1, 2, 3
UNKNOWNS = 12
MAX_FORMS, MAX_LINES, MAX_LITERALS, MAX_OPEN, MAX_WIDTH = 256, 512, 4096, 8, 32
MAX_VALUE = 1_000_000_000
MAX_FACTOR = 1_000_000
MAX_DIVISOR = 65_535


# ---- bytes

def u16(number):
    return struct.pack("<H", number & 0xFFFF)


def i32(number):
    return struct.pack("<I", number & 0xFFFFFFFF)


def encode(record):
    mark, *fields = record
    out = mark.encode()
    if mark == "FM":
        kind, divisor, row = fields
        return out + bytes([kind & 0xFF]) + u16(divisor) + b"".join(map(i32, row))
    if mark in ("PM", "AR"):
        return out + bytes([len(fields[0]) & 0xFF]) + b"".join(map(u16, fields[0]))
    if mark in ("FK", "CL"):
        entries = b"".join(u16(f) + i32(m) for f, m in fields[0])
        return out + bytes([len(fields[0]) & 0xFF]) + entries
    if mark == "TI":
        return out + u16(fields[0]) + u16(fields[1]) + i32(fields[2])
    return out + b"".join(map(u16, fields))


# ---- rows: the constant first, then the coefficients

def times(factor, row):
    return tuple(factor * cell for cell in row)


def plus(row, *others):
    return tuple(map(sum, zip(row, *others)))


def constant(number):
    return (number,) + (0,) * UNKNOWNS


def random_row(rng, size, unknowns=UNKNOWNS):
    """A row with cells up to size, of so many unknowns at most."""
    row = [rng.randint(-size, size)] + [0] * UNKNOWNS
    for k in rng.sample(range(1, UNKNOWNS + 1), unknowns):
        row[k] = rng.randint(-size, size)
    return tuple(row)


def any_row(rng):
    size = rng.choice((1, 9, 9, 1000, MAX_FACTOR, MAX_VALUE - 2))
    return random_row(rng, size, rng.randint(0, UNKNOWNS))


# ---- a proof under way

class Proof:
    def __init__(self, forms=(), lines=()):
        self.forms = list(forms)
        self.lines = list(lines)
        self.literals = sum(map(len, self.lines))
        self.marks = []
        self.records = []

    def bytes(self):
        return b"".join(map(encode, self.records))

    def fits(self, forms=0, lines=0, literals=0):
        return (len(self.forms) + forms <= MAX_FORMS
                and len(self.lines) + lines <= MAX_LINES
                and self.literals + literals <= MAX_LITERALS)

    def form(self, kind, row, divisor=0):
        self.records.append(("FM", kind, divisor, row))
        self.forms.append((kind, divisor, row))
        return len(self.forms) - 1

    def line(self, literals, *record):
        self.records.append(record)
        self.lines.append(tuple(sorted(set(literals))))
        self.literals += len(self.lines[-1])
        return len(self.lines) - 1

    def premise(self, literals):
        return self.line(literals, "PM", tuple(sorted(literals)))

    def farkas(self, entries):
        return self._sum("FK", entries)

    def divides(self, entries):
        return self._sum("CL", entries)

    def _sum(self, mark, entries):
        entries = tuple(sorted(entries))
        return self.line([2 * f + 1 for f, _ in entries], mark, entries)

    def totality(self, a, b):
        return self.line((2 * a, 2 * b), "TO", a, b)

    def trichotomy(self, z, u, v):
        return self.line((2 * z, 2 * u, 2 * v), "TR", z, u, v)

    def equality(self, z, a):
        return self.line((2 * z + 1, 2 * a), "EQ", z, a)

    def tightening(self, a, b, c):
        return self.line((2 * a + 1, 2 * b), "TI", a, b, c)

    def weakening(self, z, g):
        return self.line((2 * z + 1, 2 * g), "WK", z, g)

    def remainder(self, picks):
        return self.line([2 * f for f in picks], "AR", tuple(picks))

    def loosening(self, g, h):
        return self.line((2 * g + 1, 2 * h), "LF", g, h)

    def scaling_up(self, g, h, k):
        return self.line((2 * g + 1, 2 * h), "SU", g, h, k)

    def scaling_down(self, g, h, k):
        return self.line((2 * h + 1, 2 * g), "SD", g, h, k)

    def joined(self, pivot, first, second):
        return ((set(self.lines[first]) - {2 * pivot})
                | (set(self.lines[second]) - {2 * pivot + 1}))

    def resolution(self, pivot, first, second):
        return self.line(self.joined(pivot, first, second), "RS", pivot, first, second)

    def open(self):
        self.records.append(("OP",))
        self.marks.append((len(self.forms), len(self.lines), self.literals))

    def withdraw(self):
        self.records.append(("WD",))
        if self.marks:
            forms, lines, self.literals = self.marks.pop()
            del self.forms[forms:], self.lines[lines:]


# ---- steps that are accepted; each leaves the proof alone where there is no room

def family(proof, rng):
    """Six forms on one row: zero, at-most both ways, one beyond both ways, divides."""
    row = any_row(rng)
    back = times(-1, row)
    return (proof.form(ZERO, row),
            proof.form(AT_MOST, row),
            proof.form(AT_MOST, back),
            proof.form(AT_MOST, plus(constant(1), row)),
            proof.form(AT_MOST, plus(constant(1), back)),
            proof.form(DIVIDES, row, rng.randint(1, MAX_DIVISOR)))


def family_rules(proof, rng, members):
    """The rules that tie the six forms of a family, each to be called or not."""
    zero, at_most, at_least, below, above, divided = members
    factor = rng.choice((1, rng.randint(1, MAX_FACTOR)))
    return [
        lambda: proof.totality(at_most, above),
        lambda: proof.totality(below, at_least),
        lambda: proof.trichotomy(zero, below, above),
        lambda: proof.equality(zero, at_most),
        lambda: proof.equality(zero, at_least),
        lambda: proof.weakening(zero, divided),
        lambda: proof.tightening(at_most, at_most, 1),
        lambda: proof.farkas([(at_most, factor), (above, factor)]),
        lambda: proof.farkas([(zero, -factor), (below, factor)]),
        lambda: proof.farkas([(zero, factor), (above, factor)]),
    ]


def some_family_rules(proof, rng, members):
    if proof.fits(0, 8, 24):
        for rule in rng.sample(family_rules(proof, rng, members), rng.randint(4, 8)):
            rule()


def family_step(proof, rng):
    if proof.fits(6):
        some_family_rules(proof, rng, family(proof, rng))


def tightening_step(proof, rng):
    if not proof.fits(2, 1, 2):
        return
    c = rng.choice((1, 2, 3, 5, 12, 1000, rng.randint(1, MAX_FACTOR), MAX_FACTOR))
    tight = random_row(rng, min(1000, MAX_VALUE // c), rng.randint(1, UNKNOWNS))
    loose = plus(times(c, tight), constant(-rng.randrange(c)))
    if loose[0] < -MAX_VALUE:
        loose = times(c, tight)
    proof.tightening(proof.form(AT_MOST, loose), proof.form(AT_MOST, tight), c)


def farkas_group(proof, rng, count, surplus, factor_limit=None):
    """Forms whose sum with the factors given is the constant surplus."""
    factor_limit = factor_limit or rng.choice((3, 1000, MAX_FACTOR))
    size = min(1000, 9 * MAX_VALUE // (10 * count * factor_limit))
    unknowns = rng.randint(1, UNKNOWNS)
    entries, total = [], constant(0)
    for _ in range(count - 1):
        kind = rng.choice((AT_MOST, AT_MOST, ZERO))
        factor = rng.randint(1, factor_limit)
        if kind == ZERO and rng.random() < 0.5:
            factor = -factor
        row = random_row(rng, size, unknowns)
        entries.append((proof.form(kind, row), factor))
        total = plus(total, times(factor, row))
    last = plus(constant(surplus), times(-1, total))
    kind = rng.choice((AT_MOST, ZERO))
    if kind == ZERO and rng.random() < 0.5:
        entries.append((proof.form(kind, times(-1, last)), -1))
    else:
        entries.append((proof.form(kind, last), 1))
    return entries


def farkas_step(proof, rng):
    count = rng.choice((1, 2, 2, 3, 3, 4, 6, 8))
    if proof.fits(count, 1, count):
        proof.farkas(farkas_group(proof, rng, count, rng.choice((1, 1, 2, 1000))))


def divides_group(proof, rng, count, divisor, remainder):
    """Divides forms whose sum is divisible but for the constant's remainder."""
    entries, total = [], constant(0)
    for _ in range(count - 1):
        factor = rng.choice((1, -1, 2, rng.randint(1, 1000), -rng.randint(1, 1000)))
        row = random_row(rng, 1000, rng.randint(1, 6))
        entries.append((proof.form(DIVIDES, row, divisor), factor))
        total = plus(total, times(factor, row))
    whole = times(divisor, random_row(rng, 5, rng.randint(1, 6)))
    last = plus(whole, constant(remainder), times(-1, total))
    sign = rng.choice((1, -1))
    entries.append((proof.form(DIVIDES, times(sign, last), divisor), sign))
    return entries


def divides_step(proof, rng):
    count = rng.choice((1, 1, 2, 3, 5))
    if proof.fits(count, 1, count):
        divisor = rng.choice((2, 3, 4, 12, 1000, MAX_DIVISOR))
        proof.divides(divides_group(proof, rng, count, divisor, rng.randrange(1, divisor)))


def neighbours(proof, rng, count, row):
    """Divides forms on the row plus 0, 1 and so on, made in any order and listed in this one."""
    numbers = {}
    for i in rng.sample(range(count), count):
        numbers[i] = proof.form(DIVIDES, plus(constant(i), row), count)
    return [numbers[i] for i in range(count)]


def remainder_step(proof, rng):
    count = rng.choice((1, 2, 2, 3, 4, 4, 8, 32))
    if proof.fits(count, 1, count):
        size = rng.choice((9, 1000, MAX_VALUE - MAX_WIDTH))
        proof.remainder(neighbours(proof, rng, count, random_row(rng, size, rng.randint(0, UNKNOWNS))))


def scaled_pair(proof, rng):
    """Two divides forms, the second so many times the first, and how many times."""
    k = rng.choice((1, 2, 3, 12, rng.randint(1, 1000), MAX_DIVISOR))
    row = random_row(rng, min(1000, MAX_VALUE // k), rng.randint(0, UNKNOWNS))
    divisor = rng.randint(1, MAX_DIVISOR // k)
    return proof.form(DIVIDES, row, divisor), proof.form(DIVIDES, times(k, row), k * divisor), k


def divisor_step(proof, rng):
    """A divisor of the divisor, and row and divisor times a factor."""
    if not proof.fits(4, 3, 6):
        return
    pair = scaled_pair(proof, rng)
    proof.scaling_up(*pair)
    proof.scaling_down(*pair)
    row, small = any_row(rng), rng.randint(1, 255)
    proof.loosening(proof.form(DIVIDES, row, small * rng.randint(1, 255)), proof.form(DIVIDES, row, small))


def premise_step(proof, rng):
    count = min(rng.choice((1, 1, 2, 2, 3, 5, 8, 16)), 2 * len(proof.forms))
    if count and proof.fits(0, 1, count):
        proof.premise(rng.sample(range(2 * len(proof.forms)), count))


def resolvable(proof, rng, width=MAX_WIDTH):
    """Pivot and parents of an RS that holds and is no wider, if one is found soon."""
    for _ in range(10 if proof.lines else 0):
        first = rng.randrange(len(proof.lines))
        pivots = [l // 2 for l in proof.lines[first] if l % 2 == 0]
        if not pivots:
            continue
        pivot = rng.choice(pivots)
        seconds = [i for i, line in enumerate(proof.lines) if 2 * pivot + 1 in line]
        if not seconds:
            continue
        second = rng.choice(seconds)
        if len(proof.joined(pivot, first, second)) <= width:
            return pivot, first, second
    return None


def resolution_step(proof, rng):
    found = resolvable(proof, rng)
    if found and proof.fits(0, 1, len(proof.joined(*found))):
        proof.resolution(*found)


def drain_step(proof, rng):
    """Resolves a line away against one premise for each of its literals."""
    short = [i for i, line in enumerate(proof.lines) if 1 <= len(line) <= 6]
    if not short or not proof.fits(0, 12, 32):
        return
    at = rng.choice(short)
    for literal in rng.sample(proof.lines[at], len(proof.lines[at])):
        unit = proof.premise([literal ^ 1])
        if literal % 2 == 0:
            at = proof.resolution(literal // 2, at, unit)
        else:
            at = proof.resolution(literal // 2, unit, at)

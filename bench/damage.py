#!/usr/bin/env python3
"""damage.py SEED COUNT DIR

Writes COUNT small proof files into DIR, the same ones each time for the same
seed: valid ones, damaged ones, ones that stand just on this or that side of a
limit, and noise. Between them they reach every refusal of a proof file.
"""
import os
import random
import sys

sys.dont_write_bytecode = True
import proofs  # noqa: E402
from proofs import (AT_MOST, DIVIDES, MAX_DIVISOR, MAX_FACTOR, MAX_FORMS,  # noqa: E402
                    MAX_LINES, MAX_LITERALS, MAX_OPEN, MAX_VALUE, MAX_WIDTH, UNKNOWNS, ZERO,
                    Proof, constant, encode, plus, times)

MARKS = ("FM", "PM", "RS", "FK", "TO", "TR", "EQ", "TI", "WK", "CL", "AR", "LF", "SU", "SD", "OP", "WD")
SAME_SHAPE = (("RS", "TR", "SU", "SD"), ("TO", "EQ", "WK", "LF"), ("FK", "CL"), ("PM", "AR"), ("OP", "WD"))
STEPS = ([proofs.family_step, proofs.tightening_step, proofs.farkas_step, proofs.divides_step,
          proofs.remainder_step, proofs.divisor_step]
         + 2 * [proofs.premise_step] + 4 * [proofs.resolution_step] + 2 * [proofs.drain_step])

FACTORS = (1, 1, -1, 0, 2, MAX_FACTOR, MAX_FACTOR + 1, -MAX_FACTOR, -MAX_FACTOR - 1,
           2**31 - 1, -2**31)
VALUES = (0, 1, -1, MAX_VALUE, MAX_VALUE + 1, -MAX_VALUE, -MAX_VALUE - 1, 2**31 - 1, -2**31)


def walk(rng, steps):
    """A valid proof of so many steps, levels among them."""
    proof = Proof()
    for _ in range(steps):
        chance = rng.random()
        if chance < 0.15 and len(proof.marks) < MAX_OPEN:
            proof.open()
        elif chance < 0.3 and proof.marks:
            proof.withdraw()
        else:
            rng.choice(STEPS)(proof, rng)
    return proof


def valid(rng):
    return walk(rng, rng.randint(0, 12)).bytes()


# ---- damage to the bytes

def damaged_bytes(rng):
    data = bytearray(walk(rng, rng.randint(1, 8)).bytes() or b"OP")
    for _ in range(rng.choice((1, 1, 1, 2, 4))):
        at = rng.randrange(len(data) + 1)
        some = rng.randint(1, 3)
        what = rng.randrange(6)
        if what < 2 and at < len(data):
            data[at] ^= 1 << rng.randrange(8)
        elif what == 2 and at < len(data):
            data[at] = rng.choice((0, 1, 2, 31, 32, 33, 127, 128, 255, rng.randrange(256)))
        elif what == 3:
            data[at:at] = rng.randbytes(some)
        elif what == 4:
            del data[at:at + some]
        else:
            del data[at:]
    return bytes(data)


def cut_record(rng):
    """Ends inside a record, one of few bytes more often than a form."""
    records = walk(rng, rng.randint(2, 8)).records or [("PM", ())]
    short = [i for i, record in enumerate(records) if record[0] != "FM"]
    last = rng.choice(short or [0])
    data = encode(records[last])
    cut = rng.choice((1, 2, 3, len(data) - 1, rng.randint(1, len(data))))
    return b"".join(map(encode, records[:last])) + data[:cut]


# ---- damage to the fields

def near(rng, number):
    return rng.choice((number - 1, number + 1, number + 1, 0, 1, number ^ 1,
                       rng.randrange(40), MAX_FORMS, 65_535)) & 0xFFFF


def damaged_list(rng, entries, change):
    """A list of literals or entries with one of them changed, moved, left out or doubled."""
    entries = list(entries)
    at = rng.randrange(len(entries) + 1)
    what = rng.randrange(8)
    if what < 3 and at < len(entries):
        entries[at] = change(entries[at])
    elif what < 5 and at + 1 < len(entries):
        entries[at], entries[at + 1] = entries[at + 1], entries[at]
    elif what == 5 and at < len(entries):
        entries.insert(at, entries[at])
    elif what == 6 and at < len(entries):
        del entries[at]
    elif entries:
        entries += (MAX_WIDTH + 1 - len(entries)) * entries[-1:]
    return tuple(entries)


def damaged_entry(rng, entry):
    f, factor = entry
    if rng.random() < 0.3:
        return near(rng, f), factor
    return f, rng.choice(FACTORS + (factor + 1, factor - 1, -factor))


def damaged_form(rng, kind, divisor, row):
    what = rng.randrange(5)
    if what == 0:
        return "FM", rng.choice((0, 1, 2, 3, 4, 255)), divisor, row
    if what == 1:
        return "FM", kind, rng.choice((0, 1, 2, MAX_DIVISOR)), row
    row = list(row)
    at = rng.choice((0, rng.randrange(UNKNOWNS + 1), UNKNOWNS))
    row[at] = rng.choice(VALUES + 4 * (row[at] + 1, row[at] - 1))
    return "FM", kind, divisor, tuple(row)


def damaged_record(rng, record):
    mark, *fields = record
    for group in SAME_SHAPE:
        if mark in group and rng.random() < 0.15:
            return (rng.choice(group), *fields)
    if mark == "FM":
        return damaged_form(rng, *fields)
    if mark in ("PM", "AR"):
        return mark, damaged_list(rng, fields[0], lambda l: near(rng, l))
    if mark in ("FK", "CL"):
        return mark, damaged_list(rng, fields[0], lambda e: damaged_entry(rng, e))
    if mark == "TI" and rng.random() < 0.5:
        c = fields[2]
        return mark, fields[0], fields[1], rng.choice(FACTORS + (c + 1, c - 1, -c))
    if not fields:
        return (rng.choice(("OP", "WD")),)
    at = rng.randrange(min(len(fields), 3))
    if rng.random() < 0.2:
        rng.shuffle(fields)
    else:
        fields[at] = near(rng, fields[at])
    return (mark, *fields)


def damaged_fields(rng):
    records = walk(rng, rng.randint(2, 12)).records or [("OP",)]
    for _ in range(rng.choice((1, 1, 2, 3))):
        # late records are taken oftener, so that what comes before still counts
        at = int(len(records) * rng.random() ** 0.5)
        what = rng.randrange(10)
        if what == 0:
            records.insert(at, rng.choice(records))
        elif what == 1:
            records.insert(at, (rng.choice(("OP", "WD")),))
        elif what == 2 and len(records) > 1:
            del records[at]
        else:
            records[at] = damaged_record(rng, records[at])
    return b"".join(map(encode, records))


# ---- probes at the edges of the rules; about half of them are accepted

def clipped(row):
    return tuple(max(-MAX_VALUE, min(MAX_VALUE, cell)) for cell in row)


def off_by_one(rng, row, chance):
    if rng.random() >= chance:
        return row
    at = rng.choice((0, rng.randrange(UNKNOWNS + 1), UNKNOWNS))
    return clipped(row[:at] + (row[at] + rng.choice((1, -1)),) + row[at + 1:])


def odd_kind(rng, kind, chance=0.05):
    return rng.choice((AT_MOST, ZERO, DIVIDES)) if rng.random() < chance else kind


def make(proof, rng, kind, row, divisor=0):
    kind = odd_kind(rng, kind)
    if kind == DIVIDES:
        divisor = divisor or rng.choice((1, 2, MAX_DIVISOR))
    return proof.form(kind, clipped(row), divisor if kind == DIVIDES else 0)


def tightening_edge(proof, rng):
    c = rng.choice((1, 2, 3, 3, 5, 1000, 65_536, MAX_FACTOR - 1, MAX_FACTOR))
    tight = proofs.random_row(rng, min(1000, MAX_VALUE // c), rng.randint(0, UNKNOWNS))
    gap = rng.choice((0, 0, 1, -1, c - 1, c - 1, c, c + 1))
    a = make(proof, rng, AT_MOST, off_by_one(rng, plus(times(c, tight), constant(-gap)), 0.1))
    b = make(proof, rng, AT_MOST, tight)
    if rng.random() < 0.1:
        c = rng.choice(FACTORS + (c + 1, c - 1))
    if rng.random() < 0.1:
        b = a
    proof.tightening(a, b, c)


def spoiled_entries(rng, entries):
    """Now and then one factor at a bound, two entries exchanged, or one form not in force."""
    entries = sorted(entries)
    at = rng.randrange(len(entries))
    if rng.random() < 0.1:
        entries[at] = entries[at][0], rng.choice(FACTORS)
    if rng.random() < 0.1:
        entries[at], entries[-1] = entries[-1], entries[at]
    if rng.random() < 0.05:
        entries[at] = entries[0]
    if rng.random() < 0.05:
        entries[-1] = near(rng, entries[-1][0]), entries[-1][1]
    return tuple(entries)


def sum_edge(proof, rng, mark, entries):
    entries = spoiled_entries(rng, entries)
    proof.line([2 * f + 1 for f, _ in entries], mark, entries)


def farkas_edge(proof, rng):
    surplus = rng.choice((-1, 0, 1, 1, 1, 2, -1000))
    entries = proofs.farkas_group(proof, rng, rng.randint(1, 5), surplus)
    kind, divisor, row = proof.forms[-1]
    changed = (odd_kind(rng, kind), divisor, off_by_one(rng, row, 0.1))
    proof.forms[-1] = changed
    proof.records[-1] = ("FM", *changed)
    sum_edge(proof, rng, "FK", entries)


def bounds_edge(proof, rng):
    """The largest factors and values there are, in a sum that still must be exact."""
    count = rng.choice((2, 2, 4, 8, 32))
    row = proofs.random_row(rng, MAX_VALUE - 2)
    kind, sign = rng.choice(((AT_MOST, 1), (ZERO, 1), (ZERO, -1)))
    rest = plus(constant(sign), times(-1, row))
    entries = []
    for i in range(count):
        this = off_by_one(rng, rest if i % 2 else row, 0.2 / count)
        entries.append((proof.form(kind, this), sign * MAX_FACTOR))
    sum_edge(proof, rng, "FK", entries)


def wrap_edge(proof, rng):
    """Products that look right only to a sum that keeps 32 bits."""
    at = rng.randrange(UNKNOWNS + 1)
    cell, factor = rng.choice(((65_536, 65_536), (131_072, 32_768), (2**29, 8)))
    whole = tuple(cell * (k == at) for k in range(UNKNOWNS + 1))
    what = rng.randrange(3)
    if what == 0:
        low, high = proof.form(AT_MOST, constant(0)), proof.form(AT_MOST, whole)
        proof.tightening(low, high, factor)
    elif what == 1:
        one = proof.form(AT_MOST, constant(1))
        proof.farkas([(one, 1), (proof.form(AT_MOST, times(rng.choice((1, -1)), whole)), factor)])
    else:
        large = constant(rng.choice((1, -1)) * rng.randint(MAX_FACTOR, MAX_VALUE))
        proof.farkas([(proof.form(AT_MOST, large), rng.randint(1, MAX_FACTOR))])


def divides_edge(proof, rng):
    divisor = rng.choice((1, 2, 2, 3, 7, 1000, MAX_DIVISOR))
    remainder = rng.choice((0, 1, 1, divisor - 1, divisor, divisor + 1, -1))
    entries = proofs.divides_group(proof, rng, rng.randint(1, 4), divisor, remainder)
    _, _, row = proof.forms[-1]
    if rng.random() < 0.1:
        divisor = rng.choice((divisor + 1, 1, MAX_DIVISOR))
    changed = (odd_kind(rng, DIVIDES), min(divisor, MAX_DIVISOR), off_by_one(rng, row, 0.1))
    if changed[0] != DIVIDES:
        changed = (changed[0], 0, changed[2])
    proof.forms[-1] = changed
    proof.records[-1] = ("FM", *changed)
    sum_edge(proof, rng, "CL", entries)


def remainder_edge(proof, rng):
    """Neighbours, also at the largest constants; now and then one that does not fit, or forms in another order."""
    count = rng.choice((1, 2, 2, 3, 4, 31, 32))
    row = proofs.random_row(rng, 9, rng.randint(0, UNKNOWNS))
    row = (rng.choice((row[0], MAX_VALUE - count + 1, MAX_VALUE - 1, MAX_VALUE, -MAX_VALUE)),) + row[1:]
    picks = [make(proof, rng, DIVIDES, off_by_one(rng, plus(constant(i), row), 0.1 / count),
                  count if rng.random() > 0.05 / count else rng.randint(1, MAX_WIDTH))
             for i in rng.sample(range(count), count)]
    order = sorted(range(count), key=lambda i: proof.forms[picks[i]][2])
    picks = [picks[i] for i in order]
    at = rng.randrange(count)
    what = rng.randrange(12)
    if what == 0:
        picks[at], picks[-1] = picks[-1], picks[at]
    elif what == 1:
        picks[at] = near(rng, picks[at])
    elif what == 2:
        del picks[at]
    elif what == 3:
        picks += picks[-1:]
    proof.line([2 * f for f in picks], "AR", tuple(picks))


def divisor_edge(proof, rng):
    """LF, SU and SD; now and then a divisor, a factor or a row that is not so many times the other."""
    if rng.random() < 0.4:
        row = proofs.any_row(rng)
        small = rng.choice((1, 2, 3, 4, 12, 255, MAX_DIVISOR))
        large = rng.choice((small, small * rng.randint(1, MAX_DIVISOR // small), rng.randint(1, 12)))
        pair = [make(proof, rng, DIVIDES, off_by_one(rng, row, 0.1), d) for d in (large, small)]
        if rng.random() < 0.15:
            pair.reverse()
        proof.loosening(*pair)
        return
    k = rng.choice((1, 2, 3, 3, 256, 257, 1000, MAX_DIVISOR))
    row = proofs.random_row(rng, min(1000, MAX_VALUE // k), rng.randint(0, UNKNOWNS))
    divisor = rng.choice((1, rng.randint(1, MAX_DIVISOR // k), 256, MAX_DIVISOR))
    small = make(proof, rng, DIVIDES, off_by_one(rng, row, 0.08), divisor)
    # what 16 bits keep of the divisor, and 32 of the row
    product = (k * divisor) % 65_536 or 1
    cells = tuple((cell + 2**31) % 2**32 - 2**31 for cell in times(k, proof.forms[small][2]))
    large = make(proof, rng, DIVIDES, off_by_one(rng, cells, 0.08), product)
    if rng.random() < 0.15:
        k = rng.choice((0, 1, k + 1, k - 1, MAX_DIVISOR)) & 0xFFFF
    pair = (large, small) if rng.random() < 0.1 else (small, large)
    rng.choice((proof.scaling_up, proof.scaling_down))(*pair, k)


def rows_edge(proof, rng):
    """Two or three rows under a rule, now and then one of them off by one."""
    row = proofs.any_row(rng) if rng.random() < 0.9 else constant(rng.choice((0, 1, -1)))
    up, down = plus(constant(1), row), plus(constant(1), times(-1, row))

    def some(kind, cells):
        return make(proof, rng, kind, off_by_one(rng, cells, 0.12))

    what = rng.randrange(5)
    if what == 0:
        proof.totality(some(AT_MOST, row), some(AT_MOST, down))
    elif what == 1:
        proof.trichotomy(some(ZERO, row), some(AT_MOST, up), some(AT_MOST, down))
    elif what == 2:
        proof.equality(some(ZERO, row), some(AT_MOST, times(rng.choice((1, -1)), row)))
    elif what == 3:
        proof.weakening(some(ZERO, row), some(DIVIDES, row))
    else:
        # one form serves as both neighbours where the row is zero
        zero, one = proof.form(ZERO, constant(0)), proof.form(AT_MOST, constant(1))
        proof.trichotomy(zero, one, one)


def form_edge(proof, rng):
    row = [0] * (UNKNOWNS + 1)
    row[rng.randrange(UNKNOWNS + 1)] = rng.choice(VALUES[:6] if rng.random() < 0.7 else VALUES)
    if rng.random() < 0.7:
        kind = rng.choice((AT_MOST, ZERO, DIVIDES))
        divisor = rng.choice((1, MAX_DIVISOR)) if kind == DIVIDES else 0
    else:
        kind, divisor = rng.choice((0, 1, 2, 3, 4, 255)), rng.choice((0, 1, MAX_DIVISOR))
    proof.form(kind, tuple(row), divisor)


def premise_edge(proof, rng):
    top = 2 * len(proof.forms)
    count = min(rng.choice((0, 1, 2, 3, 31, 32, 33)), top)
    literals = sorted(rng.sample(range(top), count))
    wrong = rng.randrange(6)
    if count and wrong in (0, 1):
        literals[-1] = rng.choice((top - 1, top, top + 1, 65_535))
    if count > 1 and wrong in (1, 2):
        at = rng.randrange(count - 1)
        low, high = literals[at:at + 2]
        literals[at:at + 2] = rng.choice(((high, low), (high, high)))
    proof.line(literals, "PM", tuple(literals))


def resolution_edge(proof, rng):
    if not proof.lines or not proof.forms:
        return
    if rng.random() < 0.7:
        proofs.resolution_step(proof, rng)
        return
    first, second = rng.randrange(len(proof.lines)), rng.randrange(len(proof.lines))
    pivots = [l // 2 for l in proof.lines[first] + proof.lines[second]]
    pivot = rng.choice(pivots or [0])
    what = rng.randrange(4)
    if what == 0:
        proof.line((), "RS", near(rng, pivot), first, second)
    elif what == 1:
        proof.line((), "RS", pivot, near(rng, len(proof.lines)), second)
    elif what == 2:
        proof.line((), "RS", pivot, first, near(rng, len(proof.lines)))
    else:
        proof.resolution(pivot, first, second)


def width_edge(proof, rng):
    """Two premises that join to 31, 32 or 33 literals; now and then they are exchanged."""
    while len(proof.forms) < 20:
        proof.form(AT_MOST, constant(len(proof.forms)))
    pivot = rng.randrange(len(proof.forms))
    others = [l for l in range(2 * len(proof.forms)) if l // 2 != pivot]
    width = rng.choice((31, 32, 32, 33))
    union = rng.sample(others, width)
    cut = rng.randint(width - 31, 31)
    first, second = union[:cut] + [2 * pivot], union[cut:] + [2 * pivot + 1]
    first += rng.sample(union[cut:], min(MAX_WIDTH - len(first), rng.randrange(4), width - cut))
    if len(first) < MAX_WIDTH and rng.random() < 0.2:
        first.append(2 * pivot + 1)
    parents = [proof.premise(first), proof.premise(second)]
    if rng.random() < 0.15:
        parents.reverse()
    proof.resolution(pivot, *parents)


def level_edge(proof, rng):
    if rng.random() < 0.6:
        proof.open()
    else:
        proof.withdraw()


def rule_numbers_edge(proof, rng):
    """Any rule on any forms, or on one that is not in force."""
    top = max(len(proof.forms), 1)
    some = [rng.randrange(top) for _ in range(3)]
    some[rng.randrange(3)] = rng.choice((top - 1, top, top, top + 1, 65_535))
    mark = rng.choice(("TO", "TR", "EQ", "TI", "WK", "FK", "CL", "AR", "LF", "SU", "SD"))
    if mark == "AR":
        proof.line((), mark, tuple(some))
    elif mark in ("FK", "CL"):
        proof.line((), mark, tuple((f, rng.choice(FACTORS)) for f in sorted(some)))
    elif mark == "TI":
        proof.line((), mark, some[0], some[1], rng.choice(FACTORS))
    else:
        proof.line((), mark, *some[:3 if mark in ("TR", "SU", "SD") else 2])


EDGES = (4 * [tightening_edge] + 4 * [farkas_edge] + 4 * [divides_edge] + 4 * [rows_edge]
         + 5 * [remainder_edge] + 5 * [divisor_edge]
         + 3 * [bounds_edge] + 2 * [wrap_edge] + 2 * [form_edge] + 4 * [premise_edge]
         + 4 * [resolution_edge] + 6 * [width_edge] + 3 * [level_edge] + 4 * [rule_numbers_edge])


def edges(rng):
    proof = walk(rng, rng.randint(0, 4))
    for _ in range(rng.randint(1, 6)):
        rng.choice(EDGES)(proof, rng)
    if rng.random() < 0.3:
        proofs.drain_step(proof, rng)
    return proof.bytes()


# ---- tables filled to the last place

def fill_forms(proof, rng):
    while len(proof.forms) < MAX_FORMS - rng.randrange(3):
        proof.form(ZERO, constant(rng.randint(-1, 1)))


def fill_lines(proof, rng):
    while len(proof.lines) < MAX_LINES - rng.randrange(3):
        proof.premise(rng.sample(range(8), rng.choice((1, 1, 2))))


def fill_literals(proof, rng):
    top = rng.choice((32, 34, 40))
    while proof.literals < MAX_LITERALS - MAX_WIDTH:
        proof.premise(rng.sample(range(top), MAX_WIDTH))
    rest = MAX_LITERALS - proof.literals - rng.randrange(4)
    if rest > 0:
        proof.premise(rng.sample(range(top), rest))


def fill_levels(proof, rng):
    while len(proof.marks) < MAX_OPEN - rng.randrange(2):
        proof.open()
        if rng.random() < 0.5:
            proof.premise([rng.randrange(40)])


def full(rng):
    proof = Proof()
    members = proofs.family(proof, rng)
    farkas = proofs.farkas_group(proof, rng, 3, 1)
    divides = proofs.divides_group(proof, rng, 2, 7, 3)
    neighbours = proofs.neighbours(proof, rng, 3, proofs.any_row(rng))
    pair = proofs.scaled_pair(proof, rng)
    while len(proof.forms) < 20:
        proof.form(ZERO, constant(rng.randint(-1, 1)))
    for _ in range(rng.randrange(3)):
        proof.open()
    fill = rng.choice((fill_forms, fill_levels, fill_lines, fill_literals))
    fill(proof, rng)

    def resolve():
        found = proofs.resolvable(proof, rng, rng.choice((MAX_WIDTH, 2 * MAX_WIDTH)))
        if found:
            proof.resolution(*found)

    rules = [lambda: proof.farkas(farkas), lambda: proof.divides(divides), resolve,
             lambda: proof.remainder(neighbours), lambda: proof.loosening(pair[0], pair[0]),
             lambda: proof.scaling_up(*pair), lambda: proof.scaling_down(*pair),
             lambda: proof.premise(rng.sample(range(40), rng.randrange(5))),
             *2 * [lambda: rng.choice(proofs.family_rules(proof, rng, members))()]]
    others = [proof.open, lambda: proof.form(AT_MOST, constant(1)),
              lambda: proof.withdraw() if proof.marks else proof.open(),
              lambda: rng.choice(EDGES)(proof, rng)]
    # room is looked at last: what is wrong with a record counts before it
    wrong = [lambda: proof.farkas(farkas[:2]), lambda: proof.divides(divides[:1]),
             lambda: proof.remainder(neighbours[:2]), lambda: proof.scaling_up(pair[0], pair[1], 0),
             lambda: proof.totality(members[1], members[2]),
             lambda: proof.form(rng.choice((0, 4)), constant(0))]
    likely = rules if fill in (fill_lines, fill_literals) else others
    for _ in range(rng.randint(1, 8)):
        rng.choice(3 * likely + rules + others + wrong)()
        if rng.random() < 0.15:
            proof.records[-1] = damaged_record(rng, proof.records[-1])
    return proof.bytes()


# ---- noise

def noise(rng):
    if rng.random() < 0.3:
        return rng.randbytes(rng.choice((0, 1, 1, 2, 3, rng.randrange(300))))
    data = valid(rng) if rng.random() < 0.5 else b""
    for _ in range(rng.randint(1, 4)):
        small = bytes(rng.choices((0, 0, 0, 1, 2, 3), k=rng.choice((0, 3, 4, 6, 8, 55))))
        mark = rng.choice(MARKS).encode()
        if rng.random() < 0.1:
            mark = rng.choice((mark[::-1], mark.lower(), mark[:1] + b"X", b"X" + mark[1:]))
        data += mark + (small if rng.random() < 0.8 else rng.randbytes(60))
    return data


SORTS = (3 * [valid] + 4 * [damaged_bytes] + [cut_record] + 7 * [damaged_fields] + 9 * [edges]
         + 4 * [full] + [noise])


def main():
    if len(sys.argv) != 4:
        sys.exit("usage: damage.py SEED COUNT DIR")
    rng = random.Random(f"damage {sys.argv[1]}")
    os.makedirs(sys.argv[3], exist_ok=True)
    for i in range(int(sys.argv[2])):
        with open(os.path.join(sys.argv[3], f"{i:05}.bin"), "wb") as file:
            file.write(rng.choice(SORTS)(rng))


if __name__ == "__main__":
    main()

#!/usr/bin/env python3
"""generate.py KIND MEGABYTES > FILE

Writes a proof file of at most so many million bytes (but never less than one
round) of which every record is accepted; the same bytes each time for the same
kind and size. How many records and bytes it has is said on standard error, in
the words of the replay program.

A file is a head, then rounds drawn from a prepared stock, then a tail. Each
round opens a level first and withdraws it last, so the session never fills up.
"""
import random
import sys

sys.dont_write_bytecode = True
import proofs  # noqa: E402
from proofs import (AT_MOST, DIVIDES, MAX_DIVISOR, MAX_FACTOR, MAX_FORMS,  # noqa: E402
                    MAX_LITERALS, MAX_OPEN, MAX_VALUE, MAX_WIDTH, ZERO, Proof)


class Stream:
    def __init__(self, head, rounds, tail=None):
        self.head = head
        self.rounds = rounds
        self.tail = tail or Proof()


def round_on(head, fill):
    """A level opened on top of the head, filled and withdrawn."""
    part = Proof(head.forms, head.lines)
    part.open()
    fill(part)
    while part.marks:
        part.withdraw()
    return part


# ---- kinds

def mixed(rng):
    """All marks. Half of the rules are on forms of the head, half on new ones."""
    head = Proof()
    families = [proofs.family(head, rng) for _ in range(8)]
    groups = [proofs.farkas_group(head, rng, rng.randint(2, 12), 1) for _ in range(8)]
    for _ in range(6):
        proofs.premise_step(head, rng)

    def old_family_step(part, rng):
        proofs.some_family_rules(part, rng, rng.choice(families))

    def old_group_step(part, rng):
        if part.fits(0, 1, MAX_WIDTH):
            part.farkas(rng.choice(groups))

    steps = ([proofs.family_step, proofs.tightening_step, proofs.farkas_step, proofs.divides_step]
             + 4 * [old_family_step] + 4 * [old_group_step] + 6 * [proofs.premise_step]
             + 20 * [proofs.resolution_step] + 2 * [proofs.drain_step])

    def fill(part):
        for _ in range(rng.randint(20, 80)):
            depth = len(part.marks)
            if depth < MAX_OPEN and rng.random() < 0.08:
                part.open()
            elif depth > 1 and rng.random() < 0.08:
                part.withdraw()
            else:
                rng.choice(steps)(part, rng)

    tail = Proof(head.forms, head.lines)
    refutation(tail, rng)
    return Stream(head, [round_on(head, fill) for _ in range(256)], tail)


def refutation(proof, rng):
    """Forms that cannot hold together, each of them a premise, and the empty line."""
    entries = proofs.farkas_group(proof, rng, 4, 1)
    at = proof.farkas(entries)
    for f, _ in entries:
        at = proof.resolution(f, proof.premise([2 * f]), at)


def sums(rng):
    """FK of sixteen pairs each: a row and its complement, under one factor."""
    head = Proof()
    pairs = []
    for _ in range(MAX_FORMS // 2):
        row = proofs.random_row(rng, rng.choice((9, 1000, MAX_VALUE - 2)))
        kind = rng.choice((AT_MOST, AT_MOST, ZERO))
        sign = rng.choice((1, -1)) if kind == ZERO else 1
        other = proofs.plus(proofs.constant(sign), proofs.times(-1, row))
        pairs.append((head.form(kind, row), head.form(kind, other), sign))

    def fill(part):
        for _ in range(MAX_LITERALS // MAX_WIDTH):
            entries = []
            for a, b, sign in rng.sample(pairs, MAX_WIDTH // 2):
                factor = sign * rng.randint(1, MAX_FACTOR)
                entries += [(a, factor), (b, factor)]
            part.farkas(entries)

    return Stream(head, [round_on(head, fill) for _ in range(48)])


def resolution(rng):
    """RS on premises of sixteen literals, nearly all of which stay."""
    head = Proof()
    for _ in range(MAX_FORMS):
        head.form(AT_MOST, proofs.random_row(rng, 9))
    for _ in range(96):
        some = rng.sample(range(MAX_FORMS), 16)
        head.premise([2 * f + rng.randrange(2) for f in some])

    of_literal = [[i for i, line in enumerate(head.lines) if l in line]
                  for l in range(2 * MAX_FORMS)]
    choices = [(f, i, j) for f in range(MAX_FORMS)
               for i in of_literal[2 * f] for j in of_literal[2 * f + 1]]

    def fill(part):
        while part.fits(0, 1, MAX_WIDTH):
            part.resolution(*rng.choice(choices))

    return Stream(head, [round_on(head, fill) for _ in range(256)])


def forms(rng):
    head = Proof()

    def fill(part):
        for _ in range(MAX_FORMS):
            kind = rng.choice((AT_MOST, ZERO, DIVIDES))
            divisor = rng.randint(1, MAX_DIVISOR) if kind == DIVIDES else 0
            part.form(kind, proofs.random_row(rng, rng.choice((9, MAX_VALUE))), divisor)

    return Stream(head, [round_on(head, fill) for _ in range(48)])


def premises(rng):
    head = Proof()
    for _ in range(MAX_FORMS):
        head.form(AT_MOST, proofs.random_row(rng, 9))

    def fill(part):
        for _ in range(MAX_LITERALS // MAX_WIDTH):
            part.premise(rng.sample(range(2 * MAX_FORMS), MAX_WIDTH))

    return Stream(head, [round_on(head, fill) for _ in range(64)])


def levels(rng):
    """Levels that open and close again at once, with little or nothing in them."""
    head = Proof()
    row = proofs.random_row(rng, 9)
    a = head.form(AT_MOST, row)
    b = head.form(AT_MOST, proofs.plus(proofs.constant(1), proofs.times(-1, row)))
    z = head.form(ZERO, row)

    def fill(part):
        for _ in range(rng.randint(20, 60)):
            chance = rng.random()
            if chance < 0.45 and len(part.marks) < MAX_OPEN:
                part.open()
            elif chance < 0.8 and len(part.marks) > 1:
                part.withdraw()
            elif chance < 0.9:
                part.premise([rng.randrange(6)])
            elif chance < 0.95:
                part.totality(a, b)
            else:
                part.equality(z, a)
        while len(part.marks) < MAX_OPEN:
            part.open()

    return Stream(head, [round_on(head, fill) for _ in range(512)])


def remainders(rng):
    """AR of 32 forms on as many families, and between them LF, SU and SD."""
    head = Proof()
    families = [proofs.neighbours(head, rng, MAX_WIDTH, proofs.random_row(rng, size))
                for size in (9, 1000, MAX_VALUE - MAX_WIDTH)]
    pairs = [proofs.scaled_pair(head, rng) for _ in range(40)]
    looser = []
    for _ in range(40):
        row, small = proofs.any_row(rng), rng.randint(1, 255)
        looser.append((head.form(DIVIDES, row, small * rng.randint(1, 255)), head.form(DIVIDES, row, small)))

    def fill(part):
        while part.fits(0, 7, MAX_WIDTH + 12):
            part.remainder(rng.choice(families))
            for _ in range(2):
                part.loosening(*rng.choice(looser))
                part.scaling_up(*rng.choice(pairs))
                part.scaling_down(*rng.choice(pairs))

    return Stream(head, [round_on(head, fill) for _ in range(64)])


KINDS = {kind.__name__: kind
         for kind in (mixed, sums, resolution, forms, premises, levels, remainders)}


def write(stream, rng, limit, out):
    """Writes the stream and answers its records and bytes."""
    def packed(proof):
        return len(proof.records), proof.bytes()

    records, head = packed(stream.head)
    tail_records, tail = packed(stream.tail)
    rounds = [packed(part) for part in stream.rounds]
    out.write(head)
    size = len(head)
    first = True
    while True:
        count, part = rng.choice(rounds)
        if not first and size + len(part) + len(tail) > limit:
            break
        first = False
        out.write(part)
        records += count
        size += len(part)
    out.write(tail)
    return records + tail_records, size + len(tail)


def main():
    if len(sys.argv) != 3 or sys.argv[1] not in KINDS:
        sys.exit(f"usage: generate.py KIND MEGABYTES > FILE, KIND one of {' '.join(KINDS)}")
    rng = random.Random(f"proofs {sys.argv[1]}")
    limit = int(float(sys.argv[2]) * 1_000_000)
    stream = KINDS[sys.argv[1]](rng)
    records, size = write(stream, rng, limit, sys.stdout.buffer)
    print(f"records {records}\nbytes {size}", file=sys.stderr)


if __name__ == "__main__":
    main()

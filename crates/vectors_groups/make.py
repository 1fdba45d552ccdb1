#!/usr/bin/env python3
"""Writes the lists of data/ and the file stdout beside this file. The expected numbers come from Python's integers, apart from the Rattle code;
the random numbers from a fixed seed, so that the lists come out the same each time."""
import os
import random

P = 2**64 - 2**32 + 1
HERE = os.path.join(os.path.dirname(os.path.abspath(__file__)), "data")


def field():
    rng = random.Random(64)
    limits = [0, 1, 2, 2**32 - 1, 2**32, 2**32 + 1, P - 1, P, P + 1, 2**64 - 1]
    lines = []
    for a in limits:
        lines.append((0, "reduce", a, 0, a % P))
    for kind, name, result in ((1, "add", lambda a, b: a + b), (2, "sub", lambda a, b: a - b), (3, "mul", lambda a, b: a * b)):
        for a in limits:
            for b in limits:
                lines.append((kind, name, a, b, result(a, b) % P))
    for _ in range(150):
        a, b = rng.randrange(2**64), rng.randrange(2**64)
        lines.append((3, "mul", a, b, a * b % P))
    named = [3, 7, 255, 256, 1021, 1022, 1023, 1024, 1025, P + 1023, P + 1024]
    anywhere = [rng.randrange(2**64) for _ in range(150)]
    # where the table ends since N5, and a hundred numbers that it had before
    table_end = [126, 127, 128, 129, P + 126, P + 127, P + 128, P + 129]
    computed = random.Random(128).sample([k for k in range(130, 1022) if k not in named], 100)
    for a in limits + named + anywhere + table_end + computed:
        lines.append((4, "inverse", a, 0, inverse(a)))
    return "".join("%d %s %d %d = %d\n" % line for line in lines)


def line(words, given, answer):
    """A record: what the call is given, and the answer's number and six values."""
    number, values = answer
    values = list(values) + [0] * (6 - len(values))
    return "%s: %s = %d: %s\n" % (words, " ".join(map(str, given)), number, " ".join(map(str, values)))


CASES = ["Eq", "U32Split", "Eqz", "Expacc", "FriExt2Fold4", "U32Add", "U32Add3", "U32Sub", "U32Mul", "U32Madd", "U32Div",
         "U32Assert2", "HPerm", "MerklePath", "HornerEvalBase", "HornerEvalExt", "LogDeferred", "Empty"]
SIZES = [2, 2, 1, 1, 6, 2, 2, 1, 2, 2, 3, 2, 1, 1, 6, 4, 5, 0]
U32 = {"U32Split": 2, "U32Add": 2, "U32Add3": 2, "U32Sub": 1, "U32Mul": 2, "U32Madd": 2, "U32Div": 3, "U32Assert2": 2}


def inverse(x):
    return pow(x, -1, P) if x % P else 0


def halves(*values):
    return [h for v in values for h in (v % 65536, v // 65536)]


def helpers_of(name, a):
    """The number and the six helpers, by document 01 and the listed Rust. Each cell is read modulo p, before the values are held to 2^32."""
    a = [x % P for x in a]
    if any(x >= 2**32 for x in a[:U32.get(name, 0)]):
        return 9, []
    if name == "Eq":
        return 0, [inverse(a[1] - a[0])]
    if name in ("U32Split", "U32Mul", "U32Madd"):
        return 0, halves(*a) + [inverse(4294967295 - a[1])]
    if name == "Eqz":
        return 0, [inverse(a[0])]
    if name in ("U32Add", "U32Add3", "U32Sub", "U32Div"):
        return 0, halves(*a)
    if name == "U32Assert2":
        return 0, halves(a[1], a[0])
    if name == "HornerEvalBase":
        return 0, a[0:2] + a[4:6] + a[2:4]
    if name == "HornerEvalExt":
        return 0, a[0:2] + [0, 0] + a[2:4]
    return 0, list(a)


def helpers():
    rng = random.Random(18)
    out = []
    for n, (name, size) in enumerate(zip(CASES, SIZES)):
        u32 = U32.get(name, 0)
        top = 2**32 if u32 else P
        sets = [[0] * size, [top - 1] * size, list(range(1, size + 1))]
        sets += [[rng.randrange(top) for _ in range(size)] for _ in range(4)]
        for k in range(size):
            big = list(range(1, size + 1))
            for above in (P, P + 5, 2**64 - 1):
                big[k] = above
                sets.append(list(big))
            big[k] = 2**32
            sets.append(list(big))
            if u32:
                big[k] = 2**32 - 1
                sets.append(list(big))
                big[k] = 2**32
                big[(k + 1) % size] = 2**64 - 1
                sets.append(list(big))
        # all cells from p on; 2^64 - 1 is the largest of them, 2^32 - 2 modulo p
        sets += [[P + x for x in range(1, size + 1)], [2**64 - 1 - x for x in range(size)]]
        if name == "U32Split":
            sets += [[65538, 4294967295], [65538, 4294967294], [P + 65538, 4294967295], [P + 65538, P + 4294967294], [65538, P]]
        if name == "Eq":
            sets += [[5, 5], [P - 1, 0], [0, P - 1], [P + 5, 5], [5, P + 5], [P, P - 1], [P + 7, P + 9], [0, P]]
        for a in sets:
            out.append(line(name + " case", [n] + a + [0] * (6 - size), helpers_of(name, a)))
    # the name of a case may hold digits, which would be numbers: only the case's number stands in the list
    return "".join(record.split(" case", 1)[1][1:].lstrip() for record in out)


def flags_of(count):
    flags = {8: [1, 0, 0], 4: [0, 1, 0], 2: [0, 0, 1], 1: [0, 1, 1]}.get(min(count, 8))
    return (0, flags) if flags else (7, [])


def flags():
    # a count is no cell: from p on it stands for itself
    counts = list(range(12)) + [16, 4095, 4096, 2**32 - 1, 2**32, P - 1, P, P + 3, 2**64 - 1]
    return "".join(line("count", [c], flags_of(c)) for c in counts)


def place_of(starts, ops, op):
    if op >= ops or any(b < a for a, b in zip(starts, starts[1:])):
        return 6, []
    for g in range(8):
        if starts[g] <= op < starts[g + 1]:
            return (0, [g, op - starts[g], min(starts[g + 1], ops) - op - 1]) if op - starts[g] <= 8 else (6, [])
    return 6, []


def places():
    rng = random.Random(9)
    out = []
    tries = []
    usual = [0, 9, 18, 20, 20, 25, 30, 36, 40]
    for op in range(42):
        tries.append((usual, 40, op))
    for op in (0, 8, 9, 10, 71, 72):
        tries.append(([0, 9, 18, 27, 36, 45, 54, 63, 72], 72, op))
        tries.append(([0] + [72] * 8, 72, op))
    for op in (0, 2, 3, 4, 7, 8):
        tries.append(([3, 5, 5, 8, 8, 8, 8, 8, 8], 9, op))
    for k in range(8):
        falls = list(range(0, 18, 2))
        falls[k + 1] = falls[k] - 1 if falls[k] else 0
        falls[0] = max(falls[0], 1) if k == 0 else falls[0]
        tries.append((falls, 16, 0))
        tries.append((falls, 16, 15))
    for ops in (0, 1, 2**32 - 1):
        tries.append((usual, ops, 0))
        tries.append((usual, ops, 39))
    tries.append(([0] * 8 + [2**32 - 1], 2**32 - 1, 2**32 - 2))
    tries.append(([0] * 7 + [2**32 - 9, 2**32 - 1], 2**32 - 1, 2**32 - 2))
    for _ in range(60):
        starts = sorted(rng.randrange(40) for _ in range(9))
        tries.append((starts, rng.randrange(45), rng.randrange(45)))
    # N7: up to the end of a group, of the batch, of a group whose next start lies past the batch's operations; empty groups before
    for ops in (9, 12, 13, 20):
        for op in range(ops):
            tries.append(([0, 4, 4, 9, 13, 13, 20, 20, 20], ops, op))
    return "".join(line("starts", list(s) + [ops, op], place_of(s, ops, op)) for s, ops, op in tries)


def records():
    """Places by batch records alone (N7): which record, how many numbers are lent, and the lowest of 5, 6 and 11."""
    rng = random.Random(11)
    out = []

    def add(lent, record, op, batches):
        whole = 12 * record + 12 <= lent
        number, place = place_of(batches[12 * record + 1:12 * record + 10], batches[12 * record + 10], op) if whole else (5, [])
        refusals = [(5, number == 5), (6, number == 6), (11, whole and batches[12 * record] > 8)]
        out.append(line("record", [lent, record, op] + batches, lowest(refusals, place)))

    usual = [8, 0, 9, 18, 27, 36, 45, 54, 63, 72, 72, 0]
    # an empty group before another, a group that the batch ends in, and one of eleven operations
    some = [4, 0, 4, 4, 9, 20, 20, 20, 20, 20, 12, 72]
    large = [9, 1, 3, 14, 14, 14, 14, 14, 14, 14, 14, 84]
    for op in (0, 3, 4, 8, 9, 10, 11, 12, 14, 71, 72, 2**32 - 1):
        for record in (0, 1, 2):
            add(36, record, op, usual + some + large)
    for lent in (0, 11, 12, 13, 23, 24, 35, 36):
        for record in (0, 1, 2, 3, 2**60, (2**64 - 1) // 12, 2**64 - 1):
            add(lent, record, 1, some + usual + large)
    for count in (0, 8, 9, 2**32 - 1):
        for op in (1, 12):
            add(36, 1, op, usual + [count] + some[1:] + usual)
    for _ in range(40):
        batches = []
        for _ in range(3):
            starts = [rng.randrange(30) for _ in range(9)]
            batches += [rng.randrange(11)] + (starts if rng.random() < 0.1 else sorted(starts)) + [rng.randrange(35), rng.randrange(9)]
        add(36, rng.randrange(3), rng.randrange(32), batches)
    return "".join(out)


def round_up(count):
    power = 1
    while power < count:
        power *= 2
    return power


def batch_there(block, batches, index):
    total, first, count = block
    return index < count and 12 * (first + index) + 12 <= 36


def lowest(refusals, values):
    found = [n for n, holds in refusals if holds]
    return (min(found), []) if found else (0, values)


def context_at_op(push, block, index, op, batches, groups):
    total, first, count = block
    if not batch_there(block, batches, index):
        return 5, []
    r = first + index
    record, cells = batches[12 * r:12 * r + 12], [c % P for c in groups[8 * r:8 * r + 8]]
    number, place = place_of(record[1:10], record[10], op)
    refusals = [(6, number == 6),
                (11, count > 4096 or any(batches[12 * (first + b)] > 8 for b in range(index + 1)))]
    if number:
        return lowest(refusals, [])
    group, i, following = place
    cell = cells[group]
    pushes = sum((cell >> (7 * k)) % 128 == push for k in range(i))
    consumed = sum(round_up(batches[12 * (first + b)]) for b in range(index)) + pushes + group + 1
    refusals.append((8, consumed > total))
    return lowest(refusals, [cell >> (7 * (i + 1)), total - consumed, i, group, following])


def context_at_batch_start(block, index, batches, groups):
    total, first, count = block
    if not batch_there(block, batches, index):
        return 5, []
    r = first + index
    cells = [c % P for c in groups[8 * r:8 * r + 8]]
    counts = [batches[12 * b] for b in range(r, min(first + count, 3))]
    number, flags = flags_of(sum(counts))
    refusals = [(7, number == 7), (11, count > 4096 or any(c > 8 for c in counts))]
    return lowest(refusals, [cells[0], sum(counts)] + flags)


def contexts():
    rng = random.Random(7)
    out = []

    def add(kind, push, block, index, op, batches, groups):
        given = [kind, push] + list(block) + [index, op] + batches + groups
        if kind == 0:
            answer = context_at_op(push, block, index, op, batches, groups)
        else:
            answer = context_at_batch_start(block, index, batches, groups)
        out.append(line("context", given, answer))

    def batch(count, starts, ops, first):
        return [count] + starts + [ops, first]

    usual = batch(8, [0, 9, 18, 27, 36, 45, 54, 63, 72], 72, 0)
    one = batch(1, [0, 2, 2, 2, 2, 2, 2, 2, 2], 2, 0)
    five = batch(5, [0, 3, 6, 9, 12, 12, 12, 12, 12], 12, 72)
    none = batch(0, [0] * 9, 0, 0)
    push = 91
    digits = lambda *d: sum(x << (7 * k) for k, x in enumerate(d))
    cells = [digits(1, push, 2, push, push, 3, 4, 5, 6)] + [digits(push)] * 7
    three = cells + [digits(push, push, 7)] * 8 + [digits(9, 8, push)] * 8
    # C7 and C8: a PUSH before, group 0, batch 0, totals 2 and 1
    for total in (2, 1):
        add(0, push, (total, 0, 1), 0, 1, one + none + none, [digits(push, 5)] + [0] * 23)
    for op in (0, 1, 2, 3, 4, 5, 8, 9, 62, 63, 71, 72):
        for total in (6, 7, 8, 24):
            add(0, push, (total, 0, 3), 0, op, usual + five + one, three)
    for index in (0, 1, 2, 3):
        for first in (0, 1, 2):
            for count in (1, 2, 3, 4096, 4097):
                add(0, push, (40, first, count), index, 1, usual + five + one, three)
                add(1, push, (40, first, count), index, 1, five + one + one, three)
    for counts in ((0, 1, 2), (3, 3, 2), (5, 5, 5), (8, 8, 8), (9, 8, 1), (8, 9, 8), (8, 8, 9), (0, 0, 0), (1, 0, 0), (7, 0, 1), (9, 0, 0), (3, 0, 0)):
        b = sum((batch(c, usual[1:10], 72, 0) for c in counts), [])
        for index in (0, 1, 2):
            for total in (0, 9, 25, 2**32 - 1):
                add(0, push, (total, 0, 3), index, 0, b, three)
            add(1, push, (9, 0, 3), index, 0, b, three)
    for k in (0, 7, 8, 15, 16, 23):
        big = list(three)
        big[k] = P if k % 2 else 2**64 - 1
        for index in (0, 1, 2):
            add(0, push, (30, 0, 3), index, 1, usual + five + one, big)
            add(1, push, (30, 0, 3), index, 1, five + one + one, big)
    # a group of p + g is g: its PUSH digits are those of g, and so is what is left of it. p's own digits are 1, 0, 0, 0, 112, 127, ..
    above = [P + digits(push, 5, push, 6), P + digits(push - 1, 5, 6), P + digits(push, push, push, 3), P + digits(0, 0, 0, push - 1),
             P + 2**32 - 2, P, P + 1, P + push]
    for op in (0, 1, 2, 3, 4, 5, 8, 9, 10, 28, 29, 46, 56, 65):
        add(0, push, (12, 0, 1), 0, op, usual + none + none, above + [0] * 16)
    for code in (1, 0, 112, 127):
        add(0, code, (12, 0, 1), 0, 8, usual + none + none, [P + digits(3, 4, 5, 6)] + above[1:] + [0] * 16)
    for index in (0, 1, 2):
        add(1, push, (40, 0, 3), index, 0, usual + five + one, above + above[1:] + above[:1] + above[2:] + above[:2])
    for total in (2, 3, 4):
        add(0, push, (total, 0, 1), 0, 3, usual + none + none, above + [0] * 16)
    for _ in range(12):
        b = sum((batch(rng.randrange(9), sorted(rng.randrange(30) for _ in range(9)), rng.randrange(31), 0) for _ in range(3)), [])
        g = [rng.randrange(P) for _ in range(24)]
        add(0, rng.randrange(128), (rng.randrange(40), 0, 3), rng.randrange(3), rng.randrange(30), b, g)
    return out


lists = {"field": field(), "helpers": helpers(), "flags": flags(), "places": places(), "records": records()}
for k, name in enumerate("abcd"):
    # the program has room for 8,192 numbers a list, of which a context takes 74
    lists["contexts_" + name] = "".join(contexts()[110 * k:110 * k + 110])
assert len(contexts()) <= 440
for name, text in lists.items():
    with open(os.path.join(HERE, name), "w") as file:
        file.write(text)
with open(os.path.join(HERE, "..", "stdout"), "w") as file:
    for name, text in lists.items():
        count = text.count("\n")
        file.write("%s: %d of %d right\n" % (name, count, count))

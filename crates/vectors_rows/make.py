#!/usr/bin/env python3
"""Writes the lists of data/ and the file stdout beside this file. The expected numbers come from a model of the tracer's calls, written
from document 01 and the listed Rust and apart from the Rattle code; random choices from a fixed seed, so that the lists come out the
same each time. src/list.rt says how a list is laid out."""
import itertools
import os
import random

P = 2**64 - 2**32 + 1
BIG = 2**64 - 1
HERE = os.path.dirname(os.path.abspath(__file__))

# The places of an input.
SIZES = [("profile", 14, False), ("nodes", 96, True), ("digests", 64, True), ("batches", 48, True), ("groups", 32, True), ("ops", 40, True),
         ("addresses", 4, True), ("parents", 4, True), ("ends", 12, True), ("tracer", 46, False), ("system", 6, False), ("stack", 18, False),
         ("registers", 7, False), ("values", 14, False), ("fragment", 200, True)]
AT, ROOM, INPUT = {}, {}, 0
for part, size, has_length in SIZES:
    INPUT += has_length
    AT[part], ROOM[part] = INPUT, size
    INPUT += size
# The tally stands behind the base input, its length in the place before.
AT["tally"], ROOM["tally"] = INPUT + 1, 514

KINDS = ["absent", "digest only", "Block", "Join", "Split", "Loop", "Call", "Syscall", "Dyn", "Dyncall", "External"]
STORED = ["nothing", "StartNode", "FinishJoin", "FinishSplit", "FinishLoop", "FinishCall", "FinishDyn", "ResumeBasicBlock", "Respan",
          "FinishBasicBlock", "EnterForest"]
OPCODES = ["SPAN", "RESPAN", "JOIN", "SPLIT", "LOOP", "REPEAT", "CALL", "SYSCALL", "DYN", "DYNCALL", "PUSH", "END", "HALT"]
CALLS = ["new", "store", "finish", "final", "finish with tally", "none"]
# How many numbers each case of the helper registers has, and how many of them are values of 32 bits.
CASES = ["Eq", "U32Split", "Eqz", "Expacc", "FriExt2Fold4", "U32Add", "U32Add3", "U32Sub", "U32Mul", "U32Madd", "U32Div", "U32Assert2",
         "HPerm", "MerklePath", "HornerEvalBase", "HornerEvalExt", "LogDeferred", "Empty"]
HELD = [2, 2, 1, 1, 6, 2, 2, 1, 2, 2, 3, 2, 1, 1, 6, 4, 5, 0]
U32 = {"U32Split": 2, "U32Add": 2, "U32Add3": 2, "U32Sub": 1, "U32Mul": 2, "U32Madd": 2, "U32Div": 3, "U32Assert2": 2}


def read(cells):
    """Cells as they come in: a number from p on is read as that number less p."""
    return [c % P for c in cells]


class Refused(Exception):
    """A refusal by its number."""


def refuse_if(holds, number):
    if holds:
        raise Refused(number)


# ---- The model ------------------------------------------------------------------------------------------------------------------

class Tracer:
    """The 46 numbers of a tracer, by name. An absent captured value is None."""

    def __init__(self, v):
        self.refusal, self.rows = v[0], v[1]
        self.stored = v[2:6]
        self.body, self.condition, self.word, self.info = captured(v[6:16])
        self.current, self.parent = v[16:18]
        self.at = v[18:21]
        self.built = v[21:46]

    def numbers(self):
        word = [0] * 5 if self.word is None else [1] + self.word
        info = [0] * 3 if self.info is None else [1] + self.info
        condition = 0 if self.condition is None else 1 + self.condition
        return ([self.refusal, self.rows] + stored_numbers(self.stored) + [self.body, condition] + word + info
                + [self.current, self.parent] + self.at + self.built)


def captured(v):
    """The loop-body flag, and condition, callee word and context info, each None where it is absent."""
    return v[0], None if v[1] == 0 else v[1] - 1, None if v[2] == 0 else v[3:7], None if v[7] == 0 else v[8:10]


def stored_numbers(stored):
    """The continuation's number, and as many of its three as it has."""
    has = {0: 0, 7: 3, 8: 2, 10: 0}.get(stored[0], 1)
    return stored[:1 + has] + [0] * (3 - has)


class Input:
    def __init__(self, v):
        assert len(v) == INPUT + 515
        for part, size, has_length in SIZES:
            at = AT[part]
            setattr(self, part, v[at:at + (min(v[at - 1], size) if has_length else size)])
        self.tally = v[AT["tally"]:AT["tally"] + min(v[AT["tally"] - 1], 514)]
        self.opcodes, self.step = dict(zip(OPCODES, self.profile)), self.profile[13]
        self.tracer = Tracer(self.tracer)
        self.case = CASES[min(self.registers[0], 17)]
        self.held = self.registers[1:1 + HELD[min(self.registers[0], 17)]]
        # what a finish answers beside the row, unless it resumes an operation
        self.following = 0

    def slot(self, node):
        """The six numbers and the digest of a slot, None where they do not lie whole in the slices."""
        if 6 * node + 6 > len(self.nodes) or 4 * node + 4 > len(self.digests):
            return None
        return self.nodes[6 * node:6 * node + 6], read(self.digests[4 * node:4 * node + 4])

    def node(self, node):
        found = self.slot(node)
        refuse_if(found is None or not 2 <= found[0][0] <= 10, 3)
        (kind, first, second, *block), digest = found
        return KINDS[kind], first, second, block, digest

    def digest(self, node):
        found = self.slot(node)
        refuse_if(found is None or not 1 <= found[0][0] <= 10, 3)
        return found[1]

    def batch(self, block, index):
        """The record of a batch and its eight groups."""
        total, first, count = block
        record = first + index
        refuse_if(index >= count or 12 * record + 12 > len(self.batches) or 8 * record + 8 > len(self.groups), 5)
        return self.batches[12 * record:12 * record + 12], read(self.groups[8 * record:8 * record + 8])


def big_opcode(x):
    """Refusal 1: an operation opcode from 128 on, used or not."""
    return any(op >= 128 for op in x.ops)


def wrong_profile(x):
    """Refusal 2."""
    ops = x.profile[0:13]
    halt = x.opcodes["HALT"]
    return any(op >= 128 for op in ops) or len(set(ops)) < 13 or not halt & 32 or not halt & 64 or x.step == 0 or x.step >= P


def wrong_lengths(x):
    """Refusal 11 in a finish. Records count that lie whole in their own slice: a Block also where its digest is not lent."""
    rows, rest = divmod(len(x.fragment), 49)
    slots = [x.nodes[6 * n:6 * n + 6] for n in range(len(x.nodes) // 6)]
    return (len(x.tally) < 512 or rest != 0 or rows > 2**24 or x.tracer.rows > rows or any(s[0] == KINDS.index("Block") and s[5] > 4096 for s in slots)
            or any(x.batches[12 * b] > 8 for b in range(len(x.batches) // 12)))


def inverse(a):
    return pow(a, -1, P) if a % P else 0


def halves(*values):
    return [h for v in values for h in (v % 65536, v // 65536)]


def helpers(name, a):
    a = read(a)
    refuse_if(any(v >= 2**32 for v in a[:U32.get(name, 0)]), 9)
    if name == "Eq":
        made = [inverse(a[1] - a[0])]
    elif name in ("U32Split", "U32Mul", "U32Madd"):
        made = halves(*a) + [inverse(4294967295 - a[1])]
    elif name == "Eqz":
        made = [inverse(a[0])]
    elif name in ("U32Add", "U32Add3", "U32Sub", "U32Div"):
        made = halves(*a)
    elif name == "U32Assert2":
        made = halves(a[1], a[0])
    elif name == "HornerEvalBase":
        made = a[0:2] + a[4:6] + a[2:4]
    elif name == "HornerEvalExt":
        made = a[0:2] + [0, 0] + a[2:4]
    else:
        made = list(a)
    return made + [0] * (6 - len(made))


def batch_flags(count):
    found = {8: [1, 0, 0], 4: [0, 1, 0], 2: [0, 0, 1], 1: [0, 1, 1]}.get(min(count, 8))
    refuse_if(found is None, 7)
    return found


def round_up(count):
    power = 1
    while power < count:
        power *= 2
    return power


def decoder_row(opcode, addr, h, in_span=0, count=0, index=0, flags=(0, 0, 0)):
    """The 24 decoder cells."""
    bits = [opcode >> k & 1 for k in range(7)]
    extra = [bits[6] * (1 - bits[5]) * bits[4], bits[6] * bits[5]]
    return [addr] + bits + h + [0] * (8 - len(h)) + [in_span, count, index] + list(flags) + extra


def start_node(x, t, node):
    op = x.opcodes
    refuse_if(t.at[0] >= len(x.addresses), 20)
    refuse_if(t.at[1] >= len(x.parents), 21)
    t.current, t.parent = read([x.addresses[t.at[0]], x.parents[t.at[1]]])
    t.at = [t.at[0] + 1, t.at[1] + 1, t.at[2]]
    kind, first, second, block, _ = x.node(node)
    refuse_if(kind == "External", 4)
    refuse_if(kind == "Syscall", 31)
    if kind == "Block":
        _, groups = x.batch(block, 0)
        return decoder_row(op["SPAN"], t.parent, groups, count=block[0], flags=batch_flags(block[0]))
    if kind in ("Join", "Split"):
        return decoder_row(op[kind.upper()], t.parent, x.digest(first) + x.digest(second))
    if kind in ("Loop", "Call"):
        return decoder_row(op[kind.upper()], t.parent, x.digest(first))
    refuse_if(t.word is None, 23)
    h, t.word = t.word, None
    if kind == "Dyncall":
        refuse_if(t.info is None, 23)
        h, t.info = h + t.info, None
    return decoder_row(op[kind.upper()], t.parent, h)


def end_row(x, t, digest, is_loop, restores_caller):
    refuse_if(t.at[2] >= len(x.ends) // 3, 22)
    ended, t.current, t.parent = read(x.ends[3 * t.at[2]:3 * t.at[2] + 3])
    t.at = [t.at[0], t.at[1], t.at[2] + 1]
    return decoder_row(x.opcodes["END"], ended, digest + [t.body, is_loop, restores_caller, 0])


def finish_node(x, t, name, node):
    if name == "FinishLoop":
        refuse_if(t.condition is None, 23)
        again, t.condition = t.condition, None
        if again:
            kind, body, _, _, _ = x.node(node)
            refuse_if(kind != "Loop", 4)
            return decoder_row(x.opcodes["REPEAT"], t.current, x.digest(body) + [1])
    kind, _, _, _, digest = x.node(node)
    wanted = {"FinishCall": ("Call", "Syscall"), "FinishDyn": ("Dyn", "Dyncall"), "FinishBasicBlock": ("Block",)}
    refuse_if(kind not in wanted.get(name, (kind,)), 4)
    return end_row(x, t, digest, int(name == "FinishLoop"), int(name == "FinishCall" or (name == "FinishDyn" and kind == "Dyncall")))


def operation(x, t, node, index, op):
    kind, _, _, block, _ = x.node(node)
    refuse_if(kind != "Block", 4)
    total, first, _ = block
    record, groups = x.batch(block, index)
    starts, ops, first_op = record[1:10], record[10], record[11]
    refuse_if(op >= ops or first_op + op >= len(x.ops), 6)
    refuse_if(any(b < a for a, b in zip(starts, starts[1:])), 6)
    inside = [g for g in range(8) if starts[g] <= op < starts[g + 1]]
    refuse_if(not inside or op - starts[inside[0]] > 8, 6)
    group = inside[0]
    place = op - starts[group]
    pushes = sum(groups[group] >> 7 * k & 127 == x.opcodes["PUSH"] for k in range(place))
    consumed = sum(round_up(x.batches[12 * (first + b)]) for b in range(index)) + pushes + group + 1
    refuse_if(consumed > total, 8)
    h = [groups[group] >> 7 * (place + 1), t.parent] + helpers(x.case, x.held)
    x.following = min(starts[group + 1], ops) - op - 1
    return decoder_row(x.ops[first_op + op], t.current, h, in_span=1, count=total - consumed, index=place)


def respan(x, t, node, index):
    kind, _, _, block, _ = x.node(node)
    refuse_if(kind != "Block", 4)
    _, groups = x.batch(block, index)
    _, first, count = block
    left = sum(x.batches[12 * b] for b in range(first + index, min(first + count, len(x.batches) // 12)))
    row = decoder_row(x.opcodes["RESPAN"], t.current, groups, count=left, flags=batch_flags(left))
    t.current = (t.current + x.step) % P
    return row


def made_row(x, t):
    name, (node, index, op) = STORED[t.stored[0]], t.stored[1:]
    if name == "StartNode":
        return start_node(x, t, node)
    if name == "ResumeBasicBlock":
        return operation(x, t, node, index, op)
    if name == "Respan":
        return respan(x, t, node, index)
    refuse_if(name == "EnterForest", 4)
    return finish_node(x, t, name, node)


def counted(x, rows, addr):
    """What a row's address changes in the tally, as pairs of a place and a number: nothing, unless the row before is a flagged END."""
    if rows == 0:
        return []
    before = read(x.fragment[49 * rows - 49:49 * rows])
    opcode = sum((bit & 1) << k for k, bit in enumerate(before[7:14]))
    if opcode != x.opcodes["END"] or before[18] != 1:
        return []
    places = [(x.tally[2 * k] % P, x.tally[2 * k + 1]) for k in range(256)]
    used = [k for k, (a, count) in enumerate(places) if count and a == addr]
    free = [k for k, (_, count) in enumerate(places) if not count]
    refuse_if(not used and not free, 32)
    if not used:
        return [(2 * free[0], addr), (2 * free[0] + 1, 1)]
    count = places[used[0]][1] + 1
    refuse_if(count > 2**24, 32)
    return [(2 * used[0] + 1, count)]


def finish(v):
    """The number, and on acceptance the row, the tracer after, how many operations follow, and what changes in the tally."""
    x = Input(v)
    t = x.tracer
    try:
        refuse_if(t.refusal != 0, t.refusal)
        refuse_if(t.stored[0] == 0, 23)
        refuse_if(big_opcode(x), 1)
        refuse_if(wrong_profile(x), 2)
        refuse_if(wrong_lengths(x), 11)
        refuse_if(x.stack[16] < 16, 10)
        last = t.built if t.rows else [0] * 25
        decoder = made_row(x, t)
        refuse_if(t.rows == len(x.fragment) // 49, 24)
        pairs = counted(x, t.rows, decoder[0] % P)
    except Refused as refusal:
        return refusal.args[0], None, None, 0, []
    # what is written is reduced, and so is what the tracer is given anew; captured values and addresses that the row leaves stay as they were
    row = read(last[0:6] + decoder + last[6:25])
    clk, ctx, *fn_hash = x.system
    depth, overflow = x.stack[16:18]
    t.built = read([clk + 1, ctx] + fn_hash + x.stack[15::-1] + [depth, overflow, depth - 16])
    t.rows += 1
    return 0, row, t.numbers(), x.following, pairs


def call(name, v):
    """The answer's number, the numbers that come out, and the input as the call leaves it."""
    v = list(v)
    tracer = slice(AT["tracer"], AT["tracer"] + 46)
    t = Tracer(v[tracer])
    if name == "new":
        v[tracer] = [0] * 16 + read(v[tracer][16:18]) + v[tracer][18:21] + [0] * 25
        return 0, v[tracer], v
    if name == "final":
        return (t.refusal, [], v) if t.refusal else (0, (read(t.built) if t.rows else [0] * 25) + [t.rows, min(t.rows, 2**32 - 1)], v)
    if name == "store":
        if t.refusal:
            return t.refusal, [], v
        values = v[AT["values"]:AT["values"] + 14]
        t.stored = values[0:4]
        t.body, t.condition, word, info = captured(values[4:14])
        t.word, t.info = word and read(word), info and [info[0]] + read(info[1:])
        v[tracer] = t.numbers()
        return 0, v[tracer], v
    if name == "none":
        return 0, [], v
    rows = t.rows
    number, row, after, following, pairs = finish(v)
    if number:
        t.refusal = number
        v[tracer] = t.numbers()
        return number, [], v
    v[tracer] = after
    v[AT["fragment"] + 49 * rows:AT["fragment"] + 49 * rows + 49] = row
    for place, count in pairs:
        v[AT["tally"] + place] = count
    told = [n for pair in pairs + [(514, 0)] * (2 - len(pairs)) for n in pair] if name == "finish with tally" else []
    return 0, row + after + [following] + told, v


# ---- The base input -------------------------------------------------------------------------------------------------------------

PROFILE = [86, 120, 87, 84, 85, 116, 108, 104, 88, 92, 91, 112, 124, 2]
PUSH = 91
NODES = [(2, 0, 0, 20, 0, 3), (2, 0, 0, 1, 2, 1), (3, 0, 1, 0, 0, 0), (4, 1, 9, 0, 0, 0), (5, 1, 0, 0, 0, 0), (6, 0, 0, 0, 0, 0),
         (7, 2, 0, 0, 0, 0), (8, 0, 0, 0, 0, 0), (9, 0, 0, 0, 0, 0), (1, 0, 0, 0, 0, 0), (10, 0, 0, 0, 0, 0), (0, 0, 0, 0, 0, 0),
         (11, 0, 0, 0, 0, 0), (2, 0, 0, 1, 0, 0), (2, 0, 0, 2, 3, 1), (2, 0, 0, 4, 2, 2)]
BLOCK, ONE_GROUP, JOIN, SPLIT, LOOP, CALL, SYSCALL, DYN, DYNCALL, DIGEST, EXTERNAL, ABSENT, UNKNOWN, NO_BATCH, TWO_GROUPS, TWO_BATCHES = range(16)
BATCHES = [(8, 0, 3, 5, 5, 9, 18, 18, 18, 18, 18, 0), (5, 0, 2, 4, 6, 8, 10, 10, 10, 10, 10, 18), (1, 0, 9, 9, 9, 9, 9, 9, 9, 9, 9, 28),
           (2, 0, 1, 3, 3, 3, 3, 3, 3, 3, 3, 37)]


def digits(*d):
    return sum(x << 7 * k for k, x in enumerate(d))


GROUPS = [digits(7, PUSH, 9), digits(PUSH, 3), 0, digits(PUSH, PUSH, 1, PUSH), digits(1, 2, PUSH, 4, PUSH, 6, 7, PUSH, 1), 11, 12, 13,
          digits(5, 6), digits(PUSH, 8), digits(9, PUSH), 21, digits(4, 4), 22, 23, 24,
          digits(PUSH, 1, 2, 3, 4, 5, 6, 7, 1), 31, 32, 33, 34, 35, 36, 37,
          digits(5), digits(6, PUSH), 41, 42, 43, 44, 45, 46]


def base():
    v = [0] * INPUT

    def put(part, numbers, lent=None):
        at = AT[part]
        v[at:at + len(numbers)] = numbers
        if lent is not None:
            v[at - 1] = lent

    put("profile", PROFILE)
    put("nodes", [n for node in NODES for n in node], 96)
    put("digests", [1001 + 10 * node + k for node in range(16) for k in range(4)], 64)
    put("batches", [n for batch in BATCHES for n in batch], 48)
    put("groups", GROUPS, 32)
    put("ops", [(5 * k + 1) % 128 for k in range(40)], 40)
    put("addresses", [201, 203, 205, 207], 4)
    put("parents", [301, 303, 305, 307], 4)
    put("ends", [401, 402, 403, 411, 412, 413, 421, 422, 423, 431, 432, 433], 12)
    put("tracer", [0, 1, 1, BLOCK, 0, 0, 0, 0, 0, 0, 0, 0, 0, 0, 0, 0, 101, 102, 1, 2, 1] + list(range(51, 76)))
    put("system", [90, 3, 91, 92, 93, 94])
    put("stack", list(range(161, 177)) + [19, 88])
    put("registers", [17, 0, 0, 0, 0, 0, 0])
    put("values", [1, BLOCK] + [0] * 12)
    put("fragment", list(range(2000, 2200)), 196)
    return v


BASE = base() + [512] + [0] * 514


def at(part, k=0):
    return AT[part] + k


def lent(part, length):
    return {AT[part] - 1: length}


def node_at(node, k, value):
    return {at("nodes", 6 * node + k): value}


def batch_at(batch, k, value):
    return {at("batches", 12 * batch + k): value}


def tracer(k, *values):
    return {at("tracer", k + i): value for i, value in enumerate(values)}


def store(name, node=0, index=0, op=0, part="tracer"):
    """A stored continuation: of the tracer, or of the values to store."""
    first = at("tracer", 2) if part == "tracer" else at("values")
    return {first + i: value for i, value in enumerate([STORED.index(name), node, index, op])}


BODY = tracer(6, 1)
ZERO, ONE = tracer(7, 1), tracer(7, 2)
WORD = tracer(8, 1, 111, 112, 113, 114)
INFO = tracer(13, 1, 25, 121)
FIRST = tracer(1, 0)
LAST = tracer(1, 3)
FULL = tracer(1, 4)


def registers(name, *values):
    given = [CASES.index(name)] + list(values)
    return {at("registers", i): value for i, value in enumerate(given + [0] * (7 - len(given)))}


# C10: a loop of two passes of a block of one group with the operation 5.
LOOP_RUN = {at("ops", 28): 5, at("groups", 16): 5, at("ops", 39): 5}
for part, values in (("addresses", [1, 3, 5]), ("parents", [0, 1, 1]), ("ends", [3, 1, 0, 5, 1, 0, 1, 0, 0])):
    LOOP_RUN.update({at(part, k): value for k, value in enumerate(values)})
LOOP_RUN.update({**tracer(16, 0, 0, 0, 0, 0), at("system"): 0, **batch_at(2, 10, 1)})
for k in range(2, 10):
    LOOP_RUN.update(batch_at(2, k, 1))
# Words, continuation, node, loop-body flag, condition.
LOOP_CYCLES = [("LOOP", "StartNode", LOOP, 0, 0), ("SPAN", "StartNode", ONE_GROUP, 0, 0), ("operation", "ResumeBasicBlock", ONE_GROUP, 0, 0),
               ("END", "FinishBasicBlock", ONE_GROUP, 1, 0), ("REPEAT", "FinishLoop", LOOP, 0, 2), ("SPAN", "StartNode", ONE_GROUP, 0, 0),
               ("operation", "ResumeBasicBlock", ONE_GROUP, 0, 0), ("END", "FinishBasicBlock", ONE_GROUP, 1, 0), ("END", "FinishLoop", LOOP, 0, 1)]


# ---- Lists ----------------------------------------------------------------------------------------------------------------------

class List:
    """A list's vectors, in chains that go on from each other."""
    files = []

    def __init__(self, name):
        self.name, self.chains, self.numbers_of, self.input = name, [], {}, None

    def add(self, words, *changes, number=None, call_name="finish", goes_on=False):
        """A vector. `number` is the answer that it is meant to show, against which the model is held."""
        merged = {}
        for change in changes:
            merged.update(change)
        v = list(self.input if goes_on else BASE)
        merged = {place: value for place, value in merged.items() if v[place] != value}
        for place, value in merged.items():
            v[place] = value
        answer, out, self.input = call(call_name, v)
        assert number is None or number == answer, (self.name, words, number, answer)
        assert not any(c.isdigit() for c in words), words
        pairs = ", ".join("%d %d" % pair for pair in merged.items())
        text = "%s %d %d %d: %s = %d: %s\n" % (words, goes_on, CALLS.index(call_name), len(merged), pairs, answer, " ".join(map(str, out)))
        if not goes_on:
            self.chains.append([])
        self.chains[-1].append((text, 4 + 2 * len(merged) + len(out)))
        self.numbers_of[answer] = self.numbers_of.get(answer, 0) + 1
        return answer, out

    def write(self):
        """Files of at most 7,500 numbers and 65,535 bytes. Vectors that go on from each other stay together."""
        head = "base %s\n" % " ".join(map(str, BASE[:INPUT]))
        files, text, numbers, size = [], [], 1 + INPUT, len(head)
        for chain in self.chains:
            count, length = sum(n for _, n in chain), sum(len(line) for line, _ in chain)
            if numbers + count > 7500 or size + length > 65000:
                files.append(text)
                text, numbers, size = [], 1 + INPUT, len(head)
            text += [line for line, _ in chain]
            numbers += count
            size += length
        files.append(text)
        for k, text in enumerate(files):
            name = self.name if len(files) == 1 else "%s_%s" % (self.name, "abcdefgh"[k])
            whole = "vectors %d\n%s%s" % (len(text), head, "".join(text))
            assert len(whole) < 65536
            with open(os.path.join(HERE, "data", name), "w") as file:
                file.write(whole)
            List.files.append((name, len(text)))


def accepted_rows():
    """A row of every kind that is written, as the first row of a fragment and as a later one."""
    rows = List("rows")
    where = [("first", FIRST), ("later", {}), ("last", LAST)]
    starts = [("SPAN", BLOCK, {}), ("SPAN of one group", ONE_GROUP, {}), ("SPAN of two groups", TWO_GROUPS, {}),
              ("SPAN of four groups", TWO_BATCHES, {}), ("JOIN", JOIN, {}), ("SPLIT", SPLIT, {}), ("LOOP", LOOP, {}), ("CALL", CALL, {}),
              ("DYN", DYN, WORD), ("DYNCALL", DYNCALL, {**WORD, **INFO})]
    for (words, node, more), (row, place) in itertools.product(starts, where[:2]):
        rows.add("%s, %s row" % (words, row), store("StartNode", node), more, place, number=0)
    ends = [("FinishJoin", JOIN, {}), ("FinishSplit", SPLIT, {}), ("FinishLoop", LOOP, ZERO), ("FinishCall", CALL, {}), ("FinishCall", SYSCALL, {}),
            ("FinishDyn", DYN, {}), ("FinishDyn", DYNCALL, {}), ("FinishBasicBlock", BLOCK, {})]
    for k, ((name, node, more), (flag, body)) in enumerate(itertools.product(ends, [("", {}), (", loop body", BODY)])):
        rows.add("END of %s of %s%s" % (name, KINDS[NODES[node][0]], flag), store(name, node), more, body, where[(k + k // 2) % 2][1], number=0)
    for k, (flag, body) in enumerate((("", {}), (", loop body", BODY))):
        rows.add("REPEAT" + flag, store("FinishLoop", LOOP), ONE, body, where[k][1], number=0)
        rows.add("REPEAT" + flag, store("FinishLoop", LOOP), ONE, body, where[1 - k][1], number=0)
    # no kind is checked
    for name in ("FinishJoin", "FinishSplit", "FinishLoop"):
        for node in (EXTERNAL, DYNCALL, NO_BATCH):
            rows.add("END of %s of %s" % (name, KINDS[NODES[node][0]]), store(name, node), ZERO, number=0)
    # nothing but the clock
    rows.add("largest clk", {at("system"): 2**32 - 1, at("system", 1): 2**32 - 1}, number=0)
    for depth in (16, 17, 2**32 - 1):
        rows.add("depth", {at("stack", 16): depth}, number=0)
    rows.add("superfluous captured values", BODY, ONE, WORD, INFO, number=0)
    rows.add("superfluous captured values", store("FinishJoin", JOIN), ONE, WORD, INFO, number=0)
    rows.add("DYN leaves the info", store("StartNode", DYN), ZERO, WORD, INFO, number=0)
    rows.add("DYNCALL leaves the condition", store("StartNode", DYNCALL), ZERO, WORD, INFO, number=0)
    rows.add("digest only as first child", store("StartNode", JOIN), node_at(JOIN, 1, DIGEST), number=0)
    rows.add("digest only as loop body", store("StartNode", LOOP), node_at(LOOP, 1, DIGEST), number=0)
    rows.add("digest only as repeated body", store("FinishLoop", LOOP), ONE, node_at(LOOP, 1, DIGEST), number=0)
    rows.add("External as callee", store("StartNode", CALL), node_at(CALL, 1, EXTERNAL), number=0)
    rows.add("own child", store("StartNode", SPLIT), node_at(SPLIT, 1, SPLIT), node_at(SPLIT, 2, SPLIT), number=0)
    rows.add("last row of the fragment", LAST, number=0)
    rows.add("fragment of one row", FIRST, lent("fragment", 49), number=0)
    rows.add("short slices", store("FinishJoin", JOIN), lent("nodes", 18), lent("digests", 12), lent("batches", 0), lent("groups", 0), lent("ops", 0),
             lent("addresses", 0), lent("parents", 0), lent("ends", 6), number=0)
    rows.add("last entries of the queues", tracer(18, 3, 3, 9), number=0)
    rows.add("last end entry", store("FinishJoin", JOIN), tracer(18, 9, 9, 3), number=0)
    rows.add("end entry before a partial one", store("FinishJoin", JOIN), lent("ends", 8), number=0)
    other = {at("profile", k): op for k, op in enumerate([1, 2, 3, 4, 5, 6, 7, 8, 9, 10, 11, 127, 96])}
    for name, node in (("StartNode", JOIN), ("FinishJoin", JOIN)):
        rows.add("another profile", other, store(name, node), number=0)
    return rows


def operations():
    """Operation rows and RESPAN rows."""
    ops = List("operations")
    rng = random.Random(31)
    for name, size in zip(CASES, HELD):
        top = 2**32 if name in U32 else P
        ops.add("operation, helpers " + name.translate({ord(c): None for c in "0123456789"}), store("ResumeBasicBlock", BLOCK, 0, 1),
                registers(name, *[rng.randrange(top) if k % 2 else 70000 + k for k in range(size)]), number=0)
    ops.add("equal elements", store("ResumeBasicBlock", BLOCK, 0, 0), registers("Eq", 5, 5), number=0)
    for hi in (4294967295, 4294967294):
        ops.add("split, inverse of the high half's rest", store("ResumeBasicBlock", BLOCK, 0, 0), registers("U32Split", 65538, hi), number=0)
    for index, op in [(0, op) for op in (0, 2, 3, 4, 5, 8, 9, 11, 12, 17)] + [(1, op) for op in (0, 1, 3, 5, 9)] + [(2, op) for op in (0, 1, 8)]:
        ops.add("operation", store("ResumeBasicBlock", BLOCK, index, op), number=0)
    ops.add("first row", store("ResumeBasicBlock", TWO_BATCHES, 1, 0), FIRST, number=0)
    ops.add("no group left", store("ResumeBasicBlock", ONE_GROUP, 0, 0), number=0)
    ops.add("largest total", store("ResumeBasicBlock", ONE_GROUP, 0, 0), node_at(ONE_GROUP, 3, 2**32 - 1), number=0)
    ops.add("control opcode as an operation", store("ResumeBasicBlock", ONE_GROUP, 0, 0), {at("ops", 28): 124}, number=0)
    ops.add("group past the batch's count", store("ResumeBasicBlock", BLOCK, 1, 8), batch_at(1, 0, 1), number=0)
    ops.add("no group in an earlier batch", store("ResumeBasicBlock", BLOCK, 1, 0), batch_at(0, 0, 0), number=0)
    ops.add("other PUSH", store("ResumeBasicBlock", BLOCK, 0, 16), {at("profile", 10): 4}, number=0)
    for node, index, step in ((BLOCK, 0, 2), (BLOCK, 2, 2), (TWO_BATCHES, 1, 2), (TWO_GROUPS, 0, 32), (ONE_GROUP, 0, P - 1)):
        ops.add("RESPAN", store("Respan", node, index), {at("profile", 13): step}, number=0)
    ops.add("RESPAN, first row", store("Respan", BLOCK, 2), FIRST, BODY, number=0)
    ops.add("RESPAN, address past p", store("Respan", BLOCK, 2), tracer(16, P - 1), number=0)
    ops.add("RESPAN, address to zero", store("Respan", BLOCK, 2), tracer(16, P - 2), number=0)
    ops.add("RESPAN of plain eight", store("Respan", BLOCK, 1), batch_at(1, 0, 7), number=0)
    ops.add("RESPAN with no groups in its batch", store("Respan", TWO_BATCHES, 0), batch_at(2, 0, 0), number=0)
    ops.add("RESPAN without the next batch's groups", store("Respan", TWO_BATCHES, 0), batch_at(2, 0, 2), lent("groups", 24), number=0)
    ops.add("RESPAN without the next batch", store("Respan", TWO_BATCHES, 0), lent("batches", 47), number=0)
    ops.add("RESPAN unlike the total", store("Respan", BLOCK, 2), node_at(BLOCK, 3, 3), number=0)
    return ops


def following():
    """How many operations follow in the group, which a finish answers beside the row (N7); the other lists have it too."""
    out = List("following")
    for words, op, count, number in (("last of a group", 2, 18, 0), ("last of a group, an empty one behind", 4, 18, 0), ("behind an empty group", 5, 18, 3),
                                     ("first of a group of nine", 9, 18, 8), ("last of a batch", 17, 18, 0), ("next start past the batch", 9, 12, 2),
                                     ("next start past the batch", 10, 12, 1), ("next start past the batch, last", 11, 12, 0),
                                     ("next start at the batch's end", 6, 9, 2), ("operations past the last start", 16, 2**32 - 1, 1)):
        _, made = out.add(words, store("ResumeBasicBlock", BLOCK, 0, op), batch_at(0, 10, count), number=0)
        assert made[95:] == [number], words
    # a group of more than nine is told as it is, from an operation that is found
    wide = {**batch_at(0, 10, 2**32 - 1), **{at("batches", k): 2**32 - 1 for k in range(6, 10)}}
    for op in (9, 17):
        _, made = out.add("a group of any length", store("ResumeBasicBlock", BLOCK, 0, op), wide, number=0)
        assert made[95:] == [2**32 - 2 - op]
    # no other continuation has it, nor a refusal
    for name, node, more in (("StartNode", BLOCK, {}), ("Respan", BLOCK, {}), ("FinishBasicBlock", BLOCK, {}), ("FinishLoop", LOOP, ONE), ("FinishLoop", LOOP, ZERO)):
        _, made = out.add("none, " + name, store(name, node), more, number=0)
        assert made[95:] == [0]
    out.add("refused", store("ResumeBasicBlock", BLOCK, 0, 5), FULL, number=24)
    out.add("refused", store("ResumeBasicBlock", BLOCK, 0, 5), registers("U32Sub", 2**32), number=9)
    return out


# The numbers of a tracer that are cells: word, next overflow address, the two addresses, what was built last.
WORD_CELLS, INFO_CELL, ADDRESS_CELLS, BUILT_CELLS = [9, 10, 11, 12], 15, [16, 17], list(range(21, 46))
TRACER_CELLS = WORD_CELLS + [INFO_CELL] + ADDRESS_CELLS + BUILT_CELLS
# The cells of the states that a cycle builds the next row's from, and for each the number of the tracer that it becomes.
STATE_CELLS = [("system", k, 21 + k) for k in range(2, 6)] + [("stack", k, 42 - k) for k in range(16)] + [("stack", 17, 44)]
# The places of an input where a cell comes in.
CELLS = [at(part, k) for part in ("digests", "groups", "addresses", "parents", "ends") for k in range(ROOM[part])]
CELLS += [at("tracer", k) for k in TRACER_CELLS] + [at(part, k) for part, k, _ in STATE_CELLS] + [at("registers", k) for k in range(1, 7)]


def raised(v):
    """The input with p added to each cell that stays below 2^64; the fragment is left."""
    out = list(v)
    for place in CELLS:
        if out[place] + P < 2**64:
            out[place] += P
    return out


def unreduced():
    """Cells from p on, in each place where a cell comes in: they are read modulo p, and what is written is reduced."""
    out = List("cells")
    rng = random.Random(64)
    fragment = range(AT["fragment"] - 1, AT["fragment"] + ROOM["fragment"])
    chained = [False]

    def both(words, *changes):
        """All cells that can be are raised by p: the row and the cells built for the next are those of the plain input, and so is the tracer
        but for what it keeps as given."""
        plain = list(BASE)
        for change in changes:
            for place, value in change.items():
                plain[place] = value
        number, wanted, _ = call("finish", plain)
        above = raised(plain)
        answer, made = out.add(words, {place: above[place] for place in range(INPUT) if place not in fragment}, goes_on=chained[0], number=number)
        assert made[0:49] == wanted[0:49] and made[70:] == wanted[70:] and len(made) == len(wanted), words
        kept = above[at("tracer"):at("tracer") + 46]
        assert all(a in (b, kept[k]) if k in TRACER_CELLS else a == b for k, (a, b) in enumerate(zip(made[49:], wanted[49:]))), words
        chained[0] = True

    both("start, Block", store("StartNode", BLOCK))
    for node in (ONE_GROUP, TWO_GROUPS, TWO_BATCHES, JOIN, SPLIT, LOOP, CALL):
        both("start, " + KINDS[NODES[node][0]], store("StartNode", node))
    both("DYN", store("StartNode", DYN), WORD)
    both("DYNCALL", store("StartNode", DYNCALL), WORD, INFO)
    both("first row", store("StartNode", JOIN), FIRST)
    chained[0] = False
    for name, node in (("FinishJoin", JOIN), ("FinishSplit", SPLIT), ("FinishLoop", LOOP), ("FinishCall", CALL), ("FinishCall", SYSCALL), ("FinishDyn", DYN),
                       ("FinishDyn", DYNCALL), ("FinishBasicBlock", BLOCK)):
        both("END, " + name, store(name, node), ZERO, WORD, INFO, BODY)
    both("REPEAT", store("FinishLoop", LOOP), ONE)
    for index, step in ((0, 2), (0, P - 1), (2, 2)):
        both("RESPAN", store("Respan", BLOCK, index), {at("profile", 13): step})
    chained[0] = False
    for name, size in zip(CASES, HELD):
        top = 2**32 - 1
        both("operation, helpers " + name.translate({ord(c): None for c in "0123456789"}), store("ResumeBasicBlock", BLOCK, 0, 5),
             registers(name, *[rng.randrange(top) if k % 2 else 5 + k for k in range(size)]))
    chained[0] = False
    both("depth", {at("stack", 16): 15})
    both("no end", store("FinishJoin", JOIN), lent("ends", 3))
    both("SYSCALL", store("StartNode", SYSCALL))
    both("consumed above the total", store("ResumeBasicBlock", BLOCK, 2, 1), node_at(BLOCK, 3, 17), WORD, INFO)
    both("helper value", store("ResumeBasicBlock", BLOCK, 0, 0), registers("U32Sub", 2**32))
    both("full", FULL)

    # one cell, in each place that a row shows
    values = itertools.cycle([P, BIG, P + 1, P + 5])
    shown = [("digest of a child", [store("StartNode", JOIN)], [("digests", k) for k in range(8)]),
             ("digest of the node", [store("FinishJoin", JOIN)], [("digests", 4 * JOIN + k) for k in range(4)]),
             ("digest of the body", [store("FinishLoop", LOOP), ONE], [("digests", 4 * ONE_GROUP + 2)]),
             ("group at SPAN", [store("StartNode", ONE_GROUP)], [("groups", 16 + k) for k in range(8)]),
             ("group at RESPAN", [store("Respan", BLOCK, 2)], [("groups", 16), ("groups", 23)]),
             ("address queue", [store("StartNode", LOOP)], [("addresses", 1)]),
             ("parent queue", [store("StartNode", LOOP)], [("parents", 2)]),
             ("end queue", [store("FinishJoin", JOIN)], [("ends", 3), ("ends", 4), ("ends", 5)]),
             ("current address", [store("FinishLoop", LOOP), ONE], [("tracer", 16)]),
             ("current address", [store("ResumeBasicBlock", BLOCK, 0, 0)], [("tracer", 16)]),
             ("current address", [store("Respan", BLOCK, 0)], [("tracer", 16)] * 4),
             ("parent address", [store("ResumeBasicBlock", BLOCK, 0, 0)], [("tracer", 17)]),
             ("parent address", [store("Respan", BLOCK, 0)], [("tracer", 17)]),
             ("callee word", [store("StartNode", DYN), WORD], [("tracer", 9 + k) for k in range(4)]),
             ("callee word that stays", [store("FinishJoin", JOIN), WORD], [("tracer", 10)]),
             ("next overflow address", [store("StartNode", DYNCALL), WORD, INFO], [("tracer", 15)]),
             ("next overflow address that stays", [store("StartNode", DYN), WORD, INFO], [("tracer", 15)])]
    for words, changes, places in shown:
        for part, k in places:
            out.add(words, *changes, {at(part, k): next(values)}, number=0)
    for change in ([P] * 25, [BIG - k for k in range(25)], [(P - 1, P, P + k, k)[k % 4] for k in range(25)]):
        out.add("built cells", store("FinishJoin", JOIN), tracer(21, *change), number=0)
        out.add("built cells without rows", store("FinishJoin", JOIN), FIRST, tracer(21, *change), number=0)
    for name, size in U32.items():
        out.add("helper value from p on", store("ResumeBasicBlock", BLOCK, 0, 0), registers(name, *[P + 5] + [BIG] * (size - 1)), number=0)
    out.add("equal elements", store("ResumeBasicBlock", BLOCK, 0, 0), registers("Eq", P + 5, 5), number=0)
    # LOOP starts that are given 5 and p + 5 get the same address
    starts = [out.add("LOOP start", store("StartNode", LOOP), {at("addresses", 1): address}, number=0)[1] for address in (5, P + 5)]
    assert starts[0] == starts[1] and starts[0][49 + 16] == 5
    # the digits of a group of p + g are those of g
    group = digits(PUSH, 5, PUSH, 6)
    for op, total in ((0, 3), (1, 3), (2, 3), (3, 3), (8, 3), (3, 2)):
        out.add("operation in a group from p on", store("ResumeBasicBlock", ONE_GROUP, 0, op), node_at(ONE_GROUP, 3, total), {at("groups", 16): P + group},
                number=8 if total == 2 else 0)
    out.add("PUSH in the digits of p and g together", store("ResumeBasicBlock", ONE_GROUP, 0, 1), {at("groups", 16): P + PUSH - 1}, number=0)
    out.add("PUSH of a digit of p", store("ResumeBasicBlock", ONE_GROUP, 0, 8), {at("groups", 16): P + 3, at("profile", 10): 127}, number=0)
    # no cells, or none that are lent
    out.add("fragment cells", {at("fragment", 49): P, at("fragment", 100): BIG, at("fragment", 3): P}, number=0)
    out.add("helper number that the case has not", registers("Eqz", 3, P, P), number=0)
    out.add("absent word and info", tracer(8, 0, P, P, P, P, 0, 0, P), number=0)

    # C10's run in fragments of four rows, each cell raised: the same rows and final states
    def run_of(out, above):
        v = list(BASE)
        for place, value in LOOP_RUN.items():
            v[place] = value
        given = raised(v) if above else v
        made = []
        out.add("fresh tracer", dict(enumerate(given)), call_name="new", number=0)
        for k, (words, name, node, body, condition) in enumerate(LOOP_CYCLES):
            if k and k % 4 == 0:
                made.append(out.add("final state", call_name="final", goes_on=True, number=0)[1])
                out.add("next fragment", call_name="new", goes_on=True, number=0)
            stored = [STORED.index(name), node, 0, 0, body, condition]
            out.add("store, " + words, {at("values", i): value for i, value in enumerate(stored)}, call_name="store", goes_on=True, number=0)
            cell = 600 + k + (P if above else 0)
            changes = {at("system"): k, at("stack", k): cell, at("system", 2 + k % 4): cell, at("stack", 17): cell, at("stack", 16): 16 + k % 5}
            made.append(out.add(words, changes, goes_on=True, number=0)[1][0:49])
        return made + [out.add("final state", call_name="final", goes_on=True, number=0)[1]]

    assert run_of(List("plain"), False) == run_of(out, True)
    return out


def handed_by_cycles(out):
    """The cells built for the next row are reduced. Addresses that the row sets are too; those that it leaves, and captured values that it
    does not use, are as they were given."""
    values = itertools.cycle([P, BIG, P + 1, P + 5])
    for part, k, becomes in STATE_CELLS:
        value = next(values)
        _, made = out.add("cell built for the next row", store("FinishJoin", JOIN), {at(part, k): value}, number=0)
        assert made[49 + becomes] == value - P
    for value in (BIG, P - 1):
        _, made = out.add("cells built for the next row", store("FinishJoin", JOIN), {at(part, k): value for part, k, _ in STATE_CELLS}, number=0)
        assert {made[49 + becomes] for _, _, becomes in STATE_CELLS} == {value % P}
    above = tracer(16, P + 5, P + 7)
    for words, change, state in (("LOOP", store("StartNode", LOOP), [203, 305]), ("END", store("FinishJoin", JOIN), [412, 413]),
                                 ("REPEAT", {**store("FinishLoop", LOOP), **ONE}, [P + 5, P + 7]), ("RESPAN", store("Respan", BLOCK, 2), [7, P + 7]),
                                 ("operation", store("ResumeBasicBlock", BLOCK), [P + 5, P + 7])):
        _, made = out.add("addresses after " + words, change, above, number=0)
        assert made[49 + 16:49 + 18] == state, words
    given = {**WORD, **INFO, **tracer(9, P, P + 1, BIG, P - 1), **tracer(15, P + 1)}
    for words, node, left in (("DYN", DYN, [0] * 5 + [1, 25, P + 1]), ("DYNCALL", DYNCALL, [0] * 8), ("JOIN", JOIN, [1, P, P + 1, BIG, P - 1, 1, 25, P + 1])):
        _, made = out.add("word and info after " + words, store("StartNode", node), given, number=0)
        assert made[49 + 8:49 + 16] == left, words


def handed_by_others(out):
    """A fresh tracer has reduced addresses; its positions are no cells. A storing reduces the word and the next overflow address, and leaves
    all else of the tracer. A final state is reduced."""
    for given in ([P + 5, P + 7], [P, BIG], [P - 1, P + 1], [5, P + 7]):
        _, made = out.add("fresh tracer", tracer(16, *given), tracer(18, P, P + 1, BIG), call_name="new", number=0)
        assert made == [0] * 16 + [address % P for address in given] + [P, P + 1, BIG] + [0] * 25
    kept = {at("tracer", k): P + k for k in TRACER_CELLS}
    values = lambda *numbers: {at("values", k): number for k, number in enumerate(numbers)}
    for word, info in (((1, P, 0, 0, 0), (0, 0, 0)), ((0, 0, 0, 0, 0), (1, 16, P + 1)), ((1, P + 5, BIG, P - 1, P), (1, 2**32 - 1, BIG)),
                       ((0, P, P, P, P), (0, P, P))):
        _, made = out.add("store word and info", values(1, DYNCALL, 0, 0, 1, 2, *word, *info), kept, call_name="store", number=0)
        assert made[8:16] == [word[0]] + [c % P * word[0] for c in word[1:]] + [info[0], info[1] * info[0], info[2] % P * info[0]]
        assert made[16:18] + made[21:] == [P + k for k in ADDRESS_CELLS + BUILT_CELLS]
    for rows in (1, 0):
        _, made = out.add("final state", kept, tracer(1, rows), call_name="final", number=0)
        assert made == [k * rows for k in BUILT_CELLS] + [rows, rows]
    for name, node in (("StartNode", DYN), ("StartNode", DYNCALL), ("FinishJoin", JOIN)):
        out.add("fresh tracer", tracer(16, P + 5, P + 7), call_name="new", number=0)
        out.add("store", values(STORED.index(name), node, 0, 0, 0, 0, 1, P, P + 1, BIG, P - 1, 1, 25, P + 1), call_name="store", goes_on=True, number=0)
        _, made = out.add("finish", {at("system", 2): P, at("stack", 17): P}, goes_on=True, number=0)
        assert all(made[49 + k] < P for k in TRACER_CELLS)
        out.add("final state", call_name="final", goes_on=True, number=0)


def handed_back():
    """The tracer that a call hands back, given cells from p on. What a call sets is reduced; what it does not set is as it was given, and so
    are all fields on a refusal."""
    out = List("tracers")
    # the smallest: fn_hash p, zero, zero, zero on a fresh tracer
    hashed = {at("system", 2 + k): P * (k == 0) for k in range(4)}
    out.add("fresh tracer", call_name="new", number=0)
    out.add("store", store("StartNode", JOIN, part="values"), call_name="store", goes_on=True, number=0)
    _, made = out.add("JOIN", hashed, goes_on=True, number=0)
    assert made[49 + 21:49 + 27] == [91, 3, 0, 0, 0, 0]
    handed_by_cycles(out)
    handed_by_others(out)
    stages, own = refusing()
    above = {**WORD, **INFO, **{at("tracer", k): P + k for k in TRACER_CELLS}}
    for number, change in stages + own + [(24, FULL)]:
        no_word = tracer(8, 0, 0, 0, 0, 0) if change == store("StartNode", DYN) else {}
        out.add("refused", above, no_word, hashed, change, number=number)
        out.add("store after the refusal", call_name="store", goes_on=True, number=number)
        out.add("final state after the refusal", call_name="final", goes_on=True, number=number)
    return out


def first_refusals():
    """1 for opcodes, 2 and 11 in each of their cases, and what is no such case."""
    out = List("inputs")
    for k in range(40):
        out.add("opcode", {at("ops", k): 255 if k % 2 else 128}, number=1)
        out.add("opcode, unused", store("FinishJoin", JOIN), {at("ops", k): 255 - k if k % 2 else 128 + k}, number=1)
    out.add("largest opcode", store("ResumeBasicBlock", ONE_GROUP, 0, 0), {at("ops", 28): 127}, number=0)
    # none that are lent
    out.add("past the ends of the slices", store("FinishJoin", JOIN), lent("digests", 16), lent("groups", 8), lent("addresses", 0), lent("parents", 1),
            lent("ends", 6), lent("ops", 1), {at("digests", 16): P, at("groups", 8): P, at("addresses", 0): P, at("parents", 1): P, at("ends", 6): P,
                                              at("ops", 1): 128}, number=0)
    out.add("starts, totals and depths", store("StartNode", JOIN), INFO, tracer(14, 2**32 - 1), batch_at(0, 9, 2**32 - 1),
            node_at(BLOCK, 3, 2**32 - 1), number=0)
    for k in range(13):
        out.add("profile opcode", {at("profile", k): 255 if k % 2 else 128}, number=2)
    out.add("HALT beyond", {at("profile", 12): 252}, number=2)
    for i, j in itertools.combinations(range(13), 2):
        out.add("%s is %s" % (OPCODES[i], OPCODES[j]), {at("profile", i): PROFILE[j]}, number=2)
    for halt in (0, 28, 31, 63, 64, 32, 95):
        out.add("HALT lacks a bit", {at("profile", 12): halt}, number=2)
    for step in (0, P, BIG):
        out.add("step", {at("profile", 13): step}, number=2)
    for cells in (1, 48, 50, 195, 197, 200):
        out.add("fragment of other length", lent("fragment", cells), number=11)
    out.add("more rows than the fragment", tracer(1, 5), number=11)
    out.add("more rows than the fragment", tracer(1, 2**63), number=11)
    out.add("more rows than the fragment", tracer(1, BIG), number=11)
    out.add("more rows than the fragment", lent("fragment", 0), number=11)
    for node in (BLOCK, NO_BATCH, TWO_BATCHES):
        for count in (4097, 2**32 - 1):
            out.add("batches of a block", store("FinishJoin", JOIN), node_at(node, 5, count), number=11)
    for batch in range(4):
        for count in (9, 2**32 - 1):
            out.add("groups of a batch", store("FinishJoin", JOIN), batch_at(batch, 0, count), number=11)
    out.add("batches at the limit", node_at(BLOCK, 5, 4096), number=0)
    out.add("batches of what is no block", store("FinishJoin", JOIN), *[node_at(n, 5, 4097) for n in (JOIN, DYN, DIGEST, EXTERNAL, ABSENT, UNKNOWN)], number=0)
    out.add("batches of a block past the slice", store("FinishJoin", JOIN), node_at(TWO_BATCHES, 5, 4097), lent("nodes", 95), number=0)
    out.add("batches of a block without its digest", store("FinishJoin", JOIN), node_at(TWO_BATCHES, 5, 4097), lent("digests", 60), number=11)
    out.add("groups of a batch without its groups", store("FinishJoin", JOIN), batch_at(3, 0, 9), lent("groups", 24), number=11)
    out.add("groups of a partial batch", store("FinishJoin", JOIN), batch_at(3, 0, 9), lent("batches", 47), number=0)
    for depth in (0, 1, 15):
        out.add("depth", {at("stack", 16): depth}, number=10)
        out.add("depth", {at("stack", 16): depth}, store("EnterForest"), number=10)
    return out


def own_refusals():
    """The refusals of each continuation, and of what comes before and after it."""
    out = List("refusals")
    for kept in (1, 23, 24, 77, 2**32 - 1):
        out.add("kept", tracer(0, kept), number=kept)
    out.add("nothing stored", store("nothing"), number=23)
    out.add("EnterForest", store("EnterForest"), number=4)
    # the queues
    out.add("no address", tracer(18, 4), number=20)
    out.add("no address", lent("addresses", 1), number=20)
    out.add("position past the end", tracer(18, 2**63), number=20)
    out.add("position past the end", tracer(18, BIG), number=20)
    out.add("no parent", tracer(19, 4), number=21)
    out.add("no parent", lent("parents", 0), number=21)
    out.add("position past the end", tracer(19, BIG), number=21)
    for name, node in (("FinishJoin", JOIN), ("FinishSplit", SPLIT), ("FinishLoop", LOOP), ("FinishCall", CALL), ("FinishCall", SYSCALL), ("FinishDyn", DYN),
                       ("FinishDyn", DYNCALL), ("FinishBasicBlock", BLOCK)):
        out.add("no end", store(name, node), ZERO, tracer(20, 4), number=22)
        out.add("no end", store(name, node), ZERO, lent("ends", 0), number=22)
        out.add("partial end entry", store(name, node), ZERO, lent("ends", 5), number=22)
        out.add("position past the end", store(name, node), ZERO, tracer(20, (BIG, 2**62, 6148914691236517206)[node % 3]), number=22)
    # no such node
    missing = [DIGEST, ABSENT, UNKNOWN, 16, 2**31, 2**32 - 1]
    named = STORED[1:10]
    for name, node in itertools.product(named, missing):
        out.add("no node", store(name, node), ONE if node % 2 else ZERO, WORD, INFO, number=3)
    for name in named:
        out.add("node past the numbers", store(name, TWO_BATCHES), ZERO, lent("nodes", 95), number=3)
        out.add("node past the digests", store(name, TWO_BATCHES), ZERO, lent("digests", 63), number=3)
        out.add("empty forest", store(name, 0), ZERO, lent("nodes", 0), lent("digests", 0), number=3)
    out.add("kind of the largest number", store("StartNode", UNKNOWN), node_at(UNKNOWN, 0, 2**32 - 1), number=3)
    # children
    for node, child in ((JOIN, 1), (JOIN, 2), (SPLIT, 1), (SPLIT, 2), (LOOP, 1), (CALL, 1)):
        for other in (ABSENT, UNKNOWN, 16, 2**32 - 1):
            out.add("no child", store("StartNode", node), node_at(node, child, other), number=3)
    out.add("no body", store("FinishLoop", LOOP), ONE, node_at(LOOP, 1, ABSENT), number=3)
    out.add("no body of an ended loop", store("FinishLoop", LOOP), ZERO, node_at(LOOP, 1, ABSENT), number=0)
    # SYSCALL, whatever its child, and other nodes that a kind makes one
    for words, place in (("first", FIRST), ("later", {}), ("last", LAST)):
        out.add("SYSCALL, %s row" % words, store("StartNode", SYSCALL), place, number=31)
    for other in (BLOCK, SYSCALL, DIGEST, EXTERNAL, ABSENT, UNKNOWN, 16, 2**32 - 1):
        out.add("SYSCALL, any child", store("StartNode", SYSCALL), node_at(SYSCALL, 1, other), number=31)
    for node in (BLOCK, CALL, LOOP, DYN, DIGEST, ABSENT):
        out.add("SYSCALL in a slot", store("StartNode", node), node_at(node, 0, 7), WORD, INFO, number=31)
    out.add("CALL in its slot", store("StartNode", SYSCALL), node_at(SYSCALL, 0, 6), number=0)
    out.add("SYSCALL beside", store("StartNode", CALL), node_at(CALL, 1, SYSCALL), number=0)
    out.add("profile's SYSCALL of another number", store("StartNode", SYSCALL), {at("profile", 7): 1}, number=31)
    # wrong kinds
    kinds = [BLOCK, JOIN, SPLIT, LOOP, CALL, SYSCALL, DYN, DYNCALL, EXTERNAL]
    right = {"FinishLoop": (LOOP,), "FinishCall": (CALL, SYSCALL), "FinishDyn": (DYN, DYNCALL), "ResumeBasicBlock": (BLOCK,), "Respan": (BLOCK,),
             "FinishBasicBlock": (BLOCK,)}
    out.add("External", store("StartNode", EXTERNAL), number=4)
    for name, takes in right.items():
        for node in kinds:
            if node not in takes:
                out.add("wrong kind", store(name, node), ONE, number=4)
    # captured values
    out.add("no condition", store("FinishLoop", LOOP), number=23)
    out.add("no condition, nor node", store("FinishLoop", ABSENT), number=23)
    out.add("no word", store("StartNode", DYN), INFO, number=23)
    out.add("no word", store("StartNode", DYNCALL), INFO, number=23)
    out.add("no info", store("StartNode", DYNCALL), WORD, number=23)
    # batches
    for name, node, index in (("StartNode", NO_BATCH, 0), ("ResumeBasicBlock", BLOCK, 3), ("ResumeBasicBlock", ONE_GROUP, 1), ("ResumeBasicBlock", NO_BATCH, 0),
                              ("Respan", BLOCK, 3), ("Respan", ONE_GROUP, 2**32 - 1), ("Respan", NO_BATCH, 0), ("ResumeBasicBlock", BLOCK, 2**32 - 1)):
        out.add("no batch", store(name, node, index), number=5)
    for name, index in (("StartNode", 0), ("ResumeBasicBlock", 1), ("Respan", 1)):
        last = node_at(TWO_BATCHES, 4, 3 - index)
        out.add("batch past the records", store(name, TWO_BATCHES, index), node_at(TWO_BATCHES, 4, 4 - index), number=5)
        out.add("batch past the records", store(name, TWO_BATCHES, index), node_at(TWO_BATCHES, 4, 2**32 - 1), number=5)
        out.add("batch past the numbers", store(name, TWO_BATCHES, index), last, lent("batches", 47), number=5)
        out.add("batch past the groups", store(name, TWO_BATCHES, index), last, lent("groups", 31), number=5)
    # places of operations
    resume = lambda node, index, op: store("ResumeBasicBlock", node, index, op)
    for index, op in ((0, 18), (1, 10), (2, 9), (0, 2**32 - 1)):
        out.add("operation past the batch", resume(BLOCK, index, op), number=6)
    out.add("operation past the slice", resume(BLOCK, 1, 5), lent("ops", 23), number=6)
    out.add("operation in the slice", resume(BLOCK, 1, 4), lent("ops", 23), number=0)
    out.add("first operation past the slice", resume(BLOCK, 1, 5), batch_at(1, 11, 2**32 - 1), number=6)
    out.add("before the first start", resume(BLOCK, 0, 1), batch_at(0, 1, 2), number=6)
    out.add("from the last start on", resume(BLOCK, 1, 10), batch_at(1, 10, 11), number=6)
    out.add("index above eight", resume(BLOCK, 0, 9), *[batch_at(0, k, 0) for k in range(1, 5)], batch_at(0, 5, 0), number=6)
    out.add("index eight", resume(BLOCK, 0, 17), number=0)
    for k in range(1, 9):
        out.add("falling starts", resume(ONE_GROUP, 0, 0), batch_at(2, 1, 0), *[batch_at(2, i, 20 + i) for i in range(2, 10)],
                batch_at(2, k + 1, 0 if k > 1 else 20), batch_at(2, k, 30 if k > 1 else 21), number=6)
    # consumed, helpers
    for index, op, total in ((0, 0, 0), (0, 2, 1), (0, 17, 4), (1, 0, 8), (2, 1, 17)):
        out.add("consumed above the total", resume(BLOCK, index, op), node_at(BLOCK, 3, total), number=8)
    for index, op, total in ((0, 2, 2), (2, 1, 18)):
        out.add("consumed all", resume(BLOCK, index, op), node_at(BLOCK, 3, total), number=0)
    for name, size in U32.items():
        for k in range(size):
            out.add("helper value", resume(BLOCK, 0, 0), registers(name, *[2**32 if i == k else 2**32 - 1 for i in range(size)]), number=9)
        out.add("unused helper value", store("FinishJoin", JOIN), registers(name, *[2**32] * size), number=0)
    # group counts
    for total in (0, 3, 5, 6, 7):
        out.add("count", store("StartNode", ONE_GROUP), node_at(ONE_GROUP, 3, total), number=7)
    for counts in ((0, 0), (1, 2), (2, 3), (3, 3), (5, 2)):
        out.add("count", store("Respan", TWO_BATCHES, 0), batch_at(2, 0, counts[0]), batch_at(3, 0, counts[1]), number=7)
    # a refusal leaves flag, captured values and positions
    for number, change in ((20, lent("addresses", 1)), (21, lent("parents", 2)), (3, store("StartNode", ABSENT)), (4, store("EnterForest")),
                           (22, {**store("FinishLoop", LOOP), **lent("ends", 3)}), (24, store("StartNode", DYNCALL)), (24, store("StartNode", DYN)),
                           (24, store("FinishLoop", LOOP)), (31, store("StartNode", SYSCALL)), (1, {at("ops"): 128}), (2, {at("profile"): 128}),
                           (11, lent("fragment", 1)), (10, {at("stack", 16): 0})):
        for condition in (ZERO, ONE) if number == 24 else (ZERO,):
            out.add("refused with all captured", BODY, condition, WORD, INFO, change, FULL if number == 24 else LAST, number=number)
    out.add("refused before the first row", FIRST, store("FinishJoin", JOIN), lent("ends", 3), number=22)
    out.add("full", FULL, number=24)
    out.add("full and empty", lent("fragment", 0), FIRST, number=24)
    for name, node in (("FinishJoin", JOIN), ("FinishLoop", LOOP), ("FinishCall", CALL), ("FinishDyn", DYN), ("ResumeBasicBlock", BLOCK), ("Respan", BLOCK),
                       ("FinishBasicBlock", BLOCK)):
        out.add("full", store(name, node), ONE, FULL, number=24)
    for node in (JOIN, SPLIT, LOOP, CALL, DYN, DYNCALL):
        out.add("full", store("StartNode", node), WORD, INFO, FULL, number=24)
    return out


def refusing():
    """Changes that are refused, in the order of the checks of a finish, and those of the continuations, each with its number."""
    big, profile, lengths, depth = {at("ops", 39): 128}, {at("profile", 13): 0}, lent("fragment", 195), {at("stack", 16): 15}
    stages = [(77, tracer(0, 77)), (23, store("nothing")), (1, big), (2, profile), (11, lengths), (10, depth)]
    own = [(20, tracer(18, 4)), (21, tracer(19, 4)), (3, store("StartNode", ABSENT)), (4, store("StartNode", EXTERNAL)), (31, store("StartNode", SYSCALL)),
           (5, store("StartNode", NO_BATCH)), (7, node_at(BLOCK, 3, 3)), (23, store("StartNode", DYN)), (22, {**store("FinishJoin", JOIN), **lent("ends", 2)}),
           (23, store("FinishLoop", LOOP)), (3, {**store("FinishLoop", ABSENT), **ONE}), (4, {**store("FinishLoop", JOIN), **ONE}),
           (4, store("FinishCall", JOIN)), (4, store("FinishDyn", CALL)), (4, store("FinishBasicBlock", DYN)), (4, store("Respan", JOIN)),
           (5, store("Respan", BLOCK, 3)), (7, {**store("Respan", BLOCK, 1), **batch_at(1, 0, 2)}), (4, store("EnterForest")),
           (5, store("ResumeBasicBlock", BLOCK, 3)), (6, store("ResumeBasicBlock", BLOCK, 0, 18)),
           (8, {**store("ResumeBasicBlock", BLOCK, 0, 0), **node_at(BLOCK, 3, 0)}),
           (9, {**store("ResumeBasicBlock", BLOCK, 0, 0), **registers("U32Sub", 2**32)})]
    return stages, own


def ended(row, flag=1, more=0):
    """An END in a row of the fragment, with its loop-body flag; `more` is added to the cells that are looked at."""
    cells = {at("fragment", 49 * row + 7 + k): (PROFILE[11] >> k & 1) + more for k in range(7)}
    return {**cells, at("fragment", 49 * row + 18): flag + more}


def place(k, addr, count):
    return {at("tally", 2 * k): addr, at("tally", 2 * k + 1): count}


def tallies():
    """Cycles behind a flagged END, and what they count. The row is the SPAN of a block, whose address is its parent's."""
    out, addr = List("tallies"), 305
    behind = ended(0)

    def cycle(words, *changes, number=0, goes_on=False, pairs=None):
        answer, told = out.add(words, *changes, number=number, call_name="finish with tally", goes_on=goes_on)
        assert answer or pairs is None or told[96:] == [n for pair in pairs + [(514, 0)] * (2 - len(pairs)) for n in pair], (words, told[96:])

    cycle("behind no END", pairs=[])
    cycle("behind an END without the flag", ended(0, 0), pairs=[])
    cycle("behind an END with another flag", ended(0, 2), pairs=[])
    cycle("behind an END with an odd flag that is not one", ended(0, 3), pairs=[])
    cycle("behind another opcode with the flag", behind, {at("fragment", 7): 1}, pairs=[])
    cycle("first row", ended(0), FIRST, pairs=[])
    cycle("first row behind another fragment's", ended(3), FIRST, pairs=[])
    cycle("row behind the row before the last", ended(0), tracer(1, 2), pairs=[])
    cycle("counted", behind, pairs=[(0, addr), (1, 1)])
    cycle("counted, cells from p on", ended(0, 1, P), pairs=[(0, addr), (1, 1)])
    cycle("counted, an address from p on", behind, {at("parents", 2): addr + P}, pairs=[(0, addr), (1, 1)])
    cycle("REPEAT counted, the tracer's address from p on", behind, store("FinishLoop", LOOP), ONE, tracer(16, 5 + P), pairs=[(0, 5), (1, 1)])
    cycle("counted, last row", ended(2), LAST, pairs=[(0, addr), (1, 1)])
    cycle("one more", behind, place(0, addr, 1), pairs=[(1, 2)])
    cycle("one more, its address from p on", behind, place(0, addr + P, 7), pairs=[(1, 8)])
    cycle("another address in front", behind, place(0, 17, 4), pairs=[(2, addr), (3, 1)])
    cycle("in use behind a free place", behind, place(3, addr, 9), pairs=[(7, 10)])
    cycle("in use behind a free place with the address", behind, place(0, addr, 0), place(1, addr, 2), pairs=[(3, 3)])
    cycle("a free place with another address", behind, place(0, 17, 0), pairs=[(0, addr), (1, 1)])
    cycle("equal addresses in two places", behind, place(1, addr, 5), place(4, addr, 50), pairs=[(3, 6)])
    cycle("equal addresses, the first from p on", behind, place(1, addr + P, 5), place(4, addr, 50), pairs=[(3, 6)])
    cycle("in use in the last place", behind, place(255, addr, 1), pairs=[(511, 2)])
    for words, count, number in (("one below the limit", 2**24 - 1, 0), ("at the limit", 2**24, 32), ("above the limit", 2**24 + 1, 32), ("far above", BIG, 32)):
        cycle("count " + words, behind, place(2, addr, count), number=number)
        cycle("count %s, a free place in front" % words, behind, place(2, addr, count), place(0, 17, 0), number=number)
        cycle("count %s, behind no END" % words, place(2, addr, count))
        cycle("count %s, of another address" % words, behind, place(0, 17, count), pairs=[(2, addr), (3, 1)])
    cycle("first of equal addresses at the limit", behind, place(2, addr, 2**24), place(3, addr, 1), number=32)
    for length, number in ((0, 11), (511, 11), (512, 0), (513, 0), (514, 0)):
        cycle("length", behind, {at("tally") - 1: length}, number=number)
        cycle("length, behind no END", {at("tally") - 1: length}, number=number)
    cycle("numbers behind the places", behind, {at("tally") - 1: 514, at("tally", 512): addr, at("tally", 513): 3}, pairs=[(0, addr), (1, 1)])
    cycle("short, and a low depth", {at("tally") - 1: 511, at("stack", 16): 15}, number=11)
    cycle("short, and a wrong profile", {at("tally") - 1: 511, at("profile", 13): 0}, number=2)
    cycle("at the limit, and no row left", ended(3), FULL, place(0, addr, 2**24), number=24)
    cycle("at the limit, and a continuation's own", behind, place(0, addr, 2**24), tracer(18, 4), number=20)
    # behind an END, and refused: the tally stays
    cycle("countable, and no row left", ended(3), FULL, number=24)
    cycle("countable in use, and no row left", ended(3), FULL, place(0, addr, 1), number=24)
    cycle("countable, and a low depth", behind, {at("stack", 16): 15}, number=10)
    cycle("countable, and a continuation's own", behind, tracer(18, 4), number=20)
    cycle("kept, then nothing else", behind, place(0, addr, 2**24), number=32)
    cycle("kept, then nothing else", place(0, addr, 1), goes_on=True, number=32)
    # a flagged END that a cycle writes, and the row behind it
    end = {**store("FinishBasicBlock", ONE_GROUP), **BODY}
    cycle("END of a body, behind no END", end, pairs=[])
    cycle("END of a body", end, FIRST, pairs=[])
    cycle("the row behind it", store("StartNode", BLOCK), goes_on=True, pairs=[(0, addr), (1, 1)])
    cycle("END of a body, changed by someone else", end, FIRST, pairs=[])
    cycle("the row behind it", store("StartNode", BLOCK), {at("fragment", 18): 0}, goes_on=True, pairs=[])
    cycle("END of no body, changed by someone else", store("FinishBasicBlock", ONE_GROUP), FIRST, pairs=[])
    cycle("the row behind it", store("StartNode", BLOCK), {at("fragment", 18): 1}, goes_on=True, pairs=[(0, addr), (1, 1)])
    cycle("END of a body", end, FIRST, pairs=[])
    cycle("END of a body behind it", end, goes_on=True)
    cycle("END of a body behind both", end, goes_on=True)
    cycle("the row behind them", store("StartNode", BLOCK), goes_on=True)
    # 256 addresses
    for words, last, change, number in (("no place left", 256, {}, 32), ("one place left", 255, {}, 0), ("no place left, and the address in use", 256, place(100, addr, 1), 0),
                                        ("no place left, and the address in the last", 256, place(255, addr, 1), 0),
                                        ("no place left, behind no END", 256, {at("fragment", 18): 0}, 0), ("no place left but behind them", 256, {at("tally") - 1: 514}, 32)):
        filled = {}
        for k in range(last):
            filled.update(place(k, 1000 + k, 1))
        pairs = list(filled.items())
        for k in range(0, len(pairs), 190):
            out.add("addresses", dict(pairs[k:k + 190]), call_name="none", goes_on=k > 0)
        cycle(words, behind, change, goes_on=True, number=number)
    return out


def orders():
    """Two refusals of which the first in order is answered."""
    out = List("orders")
    stages, own = refusing()
    for first, a in stages[:2]:
        out.add("checks", {at("groups", 31): P}, a, number=first)
    for (first, a), (_, b) in itertools.combinations(stages, 2):
        out.add("checks", b, a, number=first)
    for (first, a), (_, b) in itertools.product(stages, own):
        out.add("check and continuation", b, a, number=first)
    for first, a in stages:
        out.add("check and full", FULL if first != 11 else {}, a, number=first)
    for first, a in own:
        out.add("continuation and full", a, FULL, number=first)
    out.add("address and parent", tracer(18, 4, 4), number=20)
    for (words, number, a) in (("address", 20, tracer(18, 4)), ("parent", 21, tracer(19, 4))):
        for node in (ABSENT, EXTERNAL, SYSCALL, NO_BATCH, DYN):
            out.add(words + " and node", a, store("StartNode", node), number=number)
    out.add("kept number of a SYSCALL start", tracer(0, 31), number=31)
    out.add("node and SYSCALL", store("StartNode", SYSCALL), lent("nodes", 6 * SYSCALL), number=3)
    out.add("node without its digest and SYSCALL", store("StartNode", SYSCALL), lent("digests", 4 * SYSCALL), number=3)
    out.add("SYSCALL and child", store("StartNode", SYSCALL), node_at(SYSCALL, 1, ABSENT), FULL, number=31)
    out.add("batch and count", store("StartNode", NO_BATCH), node_at(NO_BATCH, 3, 3), number=5)
    for name in ("FinishJoin", "FinishSplit", "FinishLoop", "FinishCall", "FinishDyn", "FinishBasicBlock"):
        out.add("node and end", store(name, ABSENT), ZERO, lent("ends", 0), number=3)
    for name in ("FinishCall", "FinishDyn", "FinishBasicBlock"):
        out.add("kind and end", store(name, JOIN), lent("ends", 0), number=4)
    out.add("condition and node", store("FinishLoop", UNKNOWN), lent("ends", 0), number=23)
    out.add("kind and body", store("FinishLoop", JOIN), ONE, node_at(JOIN, 1, ABSENT), number=4)
    out.add("kind and batch", store("ResumeBasicBlock", JOIN, 9, 99), number=4)
    out.add("kind and batch", store("Respan", JOIN, 9), number=4)
    out.add("batch and operation", store("ResumeBasicBlock", ONE_GROUP, 1, 99), number=5)
    out.add("batch and total", store("ResumeBasicBlock", ONE_GROUP, 1, 0), node_at(ONE_GROUP, 3, 0), number=5)
    out.add("batch and helper", store("ResumeBasicBlock", ONE_GROUP, 1, 0), registers("U32Sub", 2**32), number=5)
    out.add("batch and count", store("Respan", TWO_BATCHES, 2), number=5)
    none, value = node_at(ONE_GROUP, 3, 0), registers("U32Sub", 2**32)
    out.add("operation and total", store("ResumeBasicBlock", ONE_GROUP, 0, 9), none, number=6)
    out.add("operation past the slice and total", store("ResumeBasicBlock", ONE_GROUP, 0, 0), none, lent("ops", 28), number=6)
    out.add("operation past the slice and helper", store("ResumeBasicBlock", ONE_GROUP, 0, 0), value, lent("ops", 28), number=6)
    out.add("starts and total", store("ResumeBasicBlock", ONE_GROUP, 0, 0), none, batch_at(2, 9, 1), number=6)
    out.add("operation and helper", store("ResumeBasicBlock", ONE_GROUP, 0, 9), value, number=6)
    out.add("total and helper", store("ResumeBasicBlock", ONE_GROUP, 0, 0), none, value, number=8)
    out.add("helper and full", store("ResumeBasicBlock", ONE_GROUP, 0, 0), value, FULL, number=9)
    out.add("word and full", store("StartNode", DYNCALL), INFO, FULL, number=23)
    out.add("end and full", store("FinishJoin", JOIN), lent("ends", 0), FULL, number=22)
    return out


def runs():
    """Storing, final states and fresh tracers, each alone and one after another on one tracer."""
    out = List("runs")
    # storing checks nothing and replaces all; after a kept refusal it changes nothing
    for k, name in enumerate(STORED[1:]):
        full = {at("values", 4 + i): value for i, value in enumerate([k % 2, k % 3, k % 2, 71, 72, 73, 74, (k + 1) % 2, 75, 76])}
        out.add("store " + name, store(name, 5 + k, 7, 9, part="values"), full, BODY, ONE, WORD, INFO, call_name="store", number=0)
    out.add("store what no finish takes", store("StartNode", 2**32 - 1, part="values"),
            {at("values", 6 + i): v for i, v in enumerate([1, P, BIG, P, BIG, 1, 2**32 - 1, P])},
            {at("profile", 13): 0}, lent("fragment", 3), store("nothing"), call_name="store", number=0)
    for kept in (3, 24, 2**32 - 1):
        out.add("store after a refusal", tracer(0, kept), store("FinishJoin", JOIN, part="values"), BODY, WORD, call_name="store", number=kept)
    # the final state
    out.add("final state", call_name="final", number=0)
    out.add("final state with cells beyond", tracer(21, P, BIG, P), tracer(45, BIG), call_name="final", number=0)
    for rows in (2**24, 2**24 + 1, 2**32 - 1, 2**32, BIG):
        out.add("final state of many rows", tracer(1, rows), call_name="final", number=0)
    out.add("final state without rows", FIRST, call_name="final", number=0)
    for kept in (1, 20, 2**32 - 1):
        out.add("final state after a refusal", tracer(0, kept), call_name="final", number=kept)
        out.add("final state after a refusal, no rows", tracer(0, kept), FIRST, call_name="final", number=kept)
    out.add("fresh tracer", tracer(0, 7), BODY, ONE, WORD, INFO, call_name="new", number=0)
    out.add("fresh tracer at any numbers", tracer(16, BIG, P, BIG, 2**63, 5), call_name="new", number=0)

    def stored_cycle(words, name, node=0, index=0, op=0, body=0, condition=0, word=(0, 0, 0, 0, 0), info=(0, 0, 0), number=0, more={}):
        given = [STORED.index(name), node, index, op, body, condition] + list(word) + list(info)
        out.add("store, " + words, {at("values", k): value for k, value in enumerate(given)}, call_name="store", goes_on=True, number=0)
        return cycle(words, number, more)

    def cycle(words, number=0, more={}):
        clk = out.input[at("system")] + 1
        return out.add(words, {at("system"): clk, at("stack", clk % 16): 600 + clk, at("stack", 16): 16 + clk % 5}, more, goes_on=True, number=number)

    def fresh(words, goes_on, *more):
        out.add("fresh tracer, " + words, *more, call_name="new", goes_on=goes_on, number=0)

    def final():
        out.add("final state", call_name="final", goes_on=True, number=0)

    # a captured value is used once
    word, info = (1, 71, 72, 73, 74), (1, 33, 75)
    for words, name, node, given in (("condition one", "FinishLoop", LOOP, dict(condition=2)), ("condition zero", "FinishLoop", LOOP, dict(condition=1)),
                                     ("DYN", "StartNode", DYN, dict(word=word)), ("DYNCALL", "StartNode", DYNCALL, dict(word=word, info=info))):
        fresh(words, False)
        stored_cycle(words, name, node, **given)
        cycle("second finish without a store", 23)
        cycle("finish after the refusal", 23)
        out.add("store after the refusal", call_name="store", goes_on=True, number=23)
        out.add("final state after the refusal", call_name="final", goes_on=True, number=23)
    fresh("nothing stored", False)
    cycle("nothing stored", 23)
    # a second finish without a store goes on where no value is used up
    fresh("finished twice", False, tracer(18, 0, 0, 0))
    stored_cycle("JOIN", "StartNode", JOIN)
    cycle("JOIN again")
    stored_cycle("END", "FinishJoin", JOIN, body=1)
    cycle("END again")
    cycle("END again, no row left", 24)
    out.add("final state after the refusal", call_name="final", goes_on=True, number=24)
    # a refusal leaves positions and captured values
    fresh("DYNCALL without info", False)
    stored_cycle("DYNCALL without info", "StartNode", DYNCALL, word=word, number=23)
    fresh("parent missing", False, tracer(18, 0, 4, 0))
    stored_cycle("parent missing", "StartNode", JOIN, number=21)
    # C10 in fragments of four rows
    rows = []
    fresh("loop of two passes", False, LOOP_RUN)
    for k, (words, name, node, body, condition) in enumerate(LOOP_CYCLES):
        if k and k % 4 == 0:
            final()
            fresh("next fragment", True)
        _, made = stored_cycle(words, name, node, body=body, condition=condition)
        rows.append(made[0:49])
    final()
    listing = [(sum(row[7 + b] << b for b in range(7)), row[6], row[23]) for row in rows]
    names = dict(zip(OPCODES, PROFILE))
    # document 01's listing; pass 2 puts LOOP's count
    assert listing == [(names["LOOP"], 0, 0), (names["SPAN"], 1, 1), (5, 3, 0), (names["END"], 3, 0), (names["REPEAT"], 1, 0), (names["SPAN"], 1, 1),
                       (5, 5, 0), (names["END"], 5, 0), (names["END"], 1, 0)], listing
    # a block of two batches
    fresh("block of two batches", False, node_at(TWO_BATCHES, 3, 8), {at("addresses"): 7, at("parents"): 6, at("ends"): 9, at("ends", 1): 6, at("ends", 2): 1},
          tracer(16, 6, 1, 0, 0, 0))
    parts = [("SPAN", "StartNode", 0, 0)] + [("operation", "ResumeBasicBlock", 0, op) for op in range(9)] + [("RESPAN", "Respan", 1, 0)] \
        + [("operation", "ResumeBasicBlock", 1, op) for op in range(3)] + [("END", "FinishBasicBlock", 0, 0)]
    for k, (words, name, index, op) in enumerate(parts):
        if k and k % 4 == 0:
            final()
            fresh("next fragment", True)
        stored_cycle(words, name, TWO_BATCHES, index, op)
    final()
    return out


def mixed_change(rng, cell):
    """A random change of the base input; `cell` picks the number of a cell."""
    small = lambda top: rng.choice([0, 1, top - 1, top, rng.randrange(top + 2)])
    kind = rng.randrange(22)
    if kind == 0:
        return tracer(18 + rng.randrange(3), small(4))
    if kind == 1:
        return node_at(rng.randrange(16), 0, rng.randrange(12))
    if kind == 2:
        return node_at(rng.randrange(16), 1 + rng.randrange(2), rng.randrange(17))
    if kind == 3:
        return node_at(rng.choice([BLOCK, ONE_GROUP, TWO_GROUPS, TWO_BATCHES]), 3, rng.choice([1, 2, 4, 8, rng.randrange(24)]))
    if kind == 4:
        return node_at(rng.randrange(16), 4 + rng.randrange(2), rng.choice([0, 1, 2, 3, 4, 4096, 4097]))
    if kind in (5, 6):
        return batch_at(rng.randrange(4), 0, rng.randrange(10))
    if kind == 7:
        return batch_at(rng.randrange(4), 1 + rng.randrange(9), rng.randrange(20))
    if kind == 8:
        return batch_at(rng.randrange(4), 10 + rng.randrange(2), rng.randrange(41))
    if kind in (9, 10):
        return {at("groups", rng.randrange(32)): rng.choice([digits(*[PUSH] * 8), rng.randrange(P)])}
    if kind == 11:
        part = rng.choice(["nodes", "digests", "batches", "groups", "ops", "addresses", "parents", "ends"])
        return lent(part, rng.randrange(ROOM[part] // 2, ROOM[part] + 1))
    if kind == 12:
        return lent("fragment", rng.choice([49, 98, 147, 196, 48]))
    if kind == 13:
        return tracer(1, rng.randrange(5))
    if kind == 14:
        return {at("stack", 16): rng.choice([15, 16, 17, 18, 2**32 - 1])}
    if kind == 15:
        name = rng.choice(CASES)
        return registers(name, *[rng.choice([3, 2**32 - 1, 2**32, rng.randrange(2**33)]) for _ in range(HELD[CASES.index(name)])])
    if kind == 16:
        return {at("profile", rng.randrange(13)): rng.choice(PROFILE[:13] + [1, 2, 3, 127, 128, 96, 97])}
    if kind == 17:
        return {at(*rng.choice([("digests", 9), ("groups", 30), ("stack", 3), ("system", 5), ("tracer", 30), ("ends", 4)])): cell()}
    if kind == 18:
        return BODY
    if kind == 19:
        return tracer(16, P - 1)
    if kind == 20:
        return {at("profile", 13): rng.choice([1, 32, P - 1, P])}
    return {at("system"): rng.randrange(2**32), at("system", 1): rng.randrange(2**32)}


def mixed_continuation(rng):
    name = rng.choice(STORED[1:10] + ["StartNode", "ResumeBasicBlock", "ResumeBasicBlock", "Respan"])
    fits = {"FinishLoop": [LOOP], "FinishCall": [CALL, SYSCALL], "FinishDyn": [DYN, DYNCALL]}
    blocks = [BLOCK, BLOCK, ONE_GROUP, TWO_GROUPS, TWO_BATCHES]
    nodes = fits.get(name, blocks if "asic" in name or name == "Respan" else list(range(9)))
    node = rng.choice(nodes) if rng.random() < 0.85 else rng.randrange(17)
    return store(name, node, rng.choice([0, 0, 1, 1, 2, 3]), rng.randrange(11))


def mixed_changes(rng, cell):
    """A random continuation on a randomly changed input: any refusal, in any order."""
    values = [c for c in (ZERO, ONE, WORD, INFO) if rng.random() < 0.7]
    changes = [mixed_change(rng, cell) for _ in range(1 + rng.randrange(5))]
    return [mixed_continuation(rng), *values, *changes]


def mixed():
    """Random cycles: 88 that are answered with all cells below p, and 24 that are answered with eight of the input's cells from p on."""
    out, rng, count = List("mixed"), random.Random(2026), 0
    while count < 88:
        changes = mixed_changes(rng, lambda: P - rng.randrange(2))
        answer, _ = out.add("mixed", *changes)
        count += answer == 0 and not any(P in change.values() for change in changes)
    while count < 88 + 24:
        above = {place: rng.choice([P, P + 7, BIG, P + rng.randrange(2**32 - 1)]) for place in rng.sample(CELLS, 8)}
        answer, _ = out.add("mixed, cells from p on", *mixed_changes(rng, lambda: rng.choice([P, P + 7, BIG])), above)
        count += answer == 0
    return out


if __name__ == "__main__":
    os.makedirs(os.path.join(HERE, "data"), exist_ok=True)
    for made in (accepted_rows(), operations(), following(), unreduced(), handed_back(), first_refusals(), own_refusals(), tallies(), orders(), runs(), mixed()):
        made.write()
        print(made.name, sum(map(len, made.chains)), dict(sorted(made.numbers_of.items())))
    with open(os.path.join(HERE, "stdout"), "w") as file:
        for name, count in List.files:
            file.write("%s: %d of %d right\n" % (name, count, count))
    print(List.files)

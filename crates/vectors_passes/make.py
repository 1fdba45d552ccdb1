#!/usr/bin/env python3
"""Writes the lists of data/ and the file stdout beside this file. The expected numbers come from a model of the finishing passes, written
from documents 01 and 02 and apart from the Rattle code; random choices from a fixed seed, so that the lists come out the same each time. The rows
of the loop of two passes come from the model of a cycle, ../vectors_rows/make.py. src/list.rt says how a list is laid out."""
import importlib.util
import itertools
import os
import random

P = 2**64 - 2**32 + 1
BIG = 2**64 - 1
HERE = os.path.dirname(os.path.abspath(__file__))

# The places of an input.
SIZES = [("profile", 14, False), ("size", 1, False), ("rows", 1, False), ("height", 1, False), ("top", 16, False), ("last", 25, False),
         ("counts", 8, True), ("built", 210, True), ("buffer", 590, True)]
AT, INPUT = {}, 0
for part, size, has_length in SIZES:
    INPUT += has_length
    AT[part] = INPUT
    INPUT += size

OPCODES = ["SPAN", "RESPAN", "JOIN", "SPLIT", "LOOP", "REPEAT", "CALL", "SYSCALL", "DYN", "DYNCALL", "PUSH", "END", "HALT"]
CALLS = ["fixup", "multiplicities", "helpers", "halt", "padding", "finish"]
# Columns.
ADDR, BITS, H, IN_SPAN, COUNT, INDEX, STACK, DEPTH, HELPER = 6, 7, 14, 22, 23, 24, 30, 46, 48


class Refused(Exception):
    """A refusal by its number."""


def refuse_if(holds, number):
    if holds:
        raise Refused(number)


# ---- The model ------------------------------------------------------------------------------------------------------------------

class Input:
    def __init__(self, v):
        assert len(v) == INPUT
        for part, size, has_length in SIZES:
            at = AT[part]
            setattr(self, part, v[at:at + (min(v[at - 1], size) if has_length else size)])
        self.size, self.rows, self.height = self.size[0], self.rows[0], self.height[0]
        self.opcodes = dict(zip(OPCODES, self.profile))
        self.sum = sum(self.counts)

    def cell(self, row, column):
        """A cell as it is read: a number from p on is that number less p."""
        return self.buffer[49 * row + column] % P

    def opcode(self, row):
        """By the lowest bit of each bit cell."""
        return sum((self.cell(row, BITS + k) & 1) << k for k in range(7))

    def put(self, row, column, cells):
        """What is written is reduced."""
        at = 49 * row + column
        assert at + len(cells) <= len(self.buffer)
        self.buffer[at:at + len(cells)] = [c % P for c in cells]


def wrong_profile(x):
    """Refusal 2."""
    ops, halt, step = x.profile[0:13], x.opcodes["HALT"], x.profile[13]
    return any(op >= 128 for op in ops) or len(set(ops)) < 13 or not halt & 32 or not halt & 64 or step == 0 or step >= P


def wrong_buffer(x, rows):
    """Refusal 11, of a buffer that is to have so many rows."""
    return len(x.buffer) % 49 != 0 or len(x.buffer) // 49 > 2**24 or rows > len(x.buffer) // 49


def wrong_fragments(x):
    """Refusal 11, of the fragments."""
    return wrong_buffer(x, x.sum) or x.size == 0 or any(c > x.size for c in x.counts) or len(x.built) < 25 * len(x.counts)


def refuse_fragments(x):
    """Refusals 26 and 25."""
    refuse_if(not x.counts, 26)
    refuse_if(any(c != x.size for c in x.counts[:-1]) or x.counts[-1] == 0, 25)


def multiplicities(x, rows):
    """The count of each LOOP row but the last row."""
    flagged = [x.cell(row + 1, ADDR) for row in range(rows - 1) if x.opcode(row) == x.opcodes["END"] and x.cell(row, H + 4) == 1]
    return {row: flagged.count(x.cell(row + 1, ADDR)) for row in range(rows - 1) if x.opcode(row) == x.opcodes["LOOP"]}


def write_fixup(x):
    x.put(0, STACK, x.top[::-1] + [16, 0, 0])
    row = 0
    for k, count in enumerate(x.counts[:-1]):
        row += count
        built = x.built[25 * k:25 * k + 25]
        x.put(row, 0, built[0:6])
        x.put(row, STACK, built[6:25])


def write_multiplicities(x, rows):
    for row, count in multiplicities(x, rows).items():
        x.put(row, COUNT, [count])


def inverse(cell):
    return pow(cell, -1, P) if cell % P else 0


def write_inverses(x, rows):
    for row in range(rows):
        x.put(row, HELPER, [inverse(x.cell(row, HELPER))])


def halt_row(x, system, h, stack):
    bits = [x.opcodes["HALT"] >> k & 1 for k in range(7)]
    extra = [bits[6] * (1 - bits[5]) * bits[4], bits[6] * bits[5]]
    row = system + [0] + bits + h + [0] * 4 + [0] * 6 + extra + stack
    assert len(row) == 49
    return row


def first_h(x, row):
    return [x.cell(row, H + k) for k in range(4)]


def write_halt(x, rows, last):
    x.put(rows, 0, halt_row(x, last[0:6], first_h(x, rows - 1) if rows else [0] * 4, last[6:24] + [inverse(last[24])]))


def write_padding(x, rows, height):
    last = rows - 1
    for row in range(rows, height):
        x.put(row, 0, halt_row(x, [row, 0, 0, 0, 0, 0], first_h(x, last), x.buffer[49 * last + STACK:49 * last + 49]))


def fixup(x):
    refuse_if(wrong_fragments(x), 11)
    refuse_fragments(x)
    write_fixup(x)


def set_multiplicities(x):
    refuse_if(wrong_profile(x), 2)
    refuse_if(wrong_buffer(x, x.rows), 11)
    refuse_if(0 in multiplicities(x, x.rows).values(), 14)
    write_multiplicities(x, x.rows)


def invert_helpers(x):
    refuse_if(wrong_buffer(x, x.rows), 11)
    write_inverses(x, x.rows)


def push_halt(x):
    refuse_if(wrong_profile(x), 2)
    refuse_if(wrong_buffer(x, x.rows + 1), 11)
    write_halt(x, x.rows, x.last)


def pad(x):
    refuse_if(wrong_profile(x), 2)
    refuse_if(wrong_buffer(x, x.height) or x.rows == 0 or x.height < x.rows, 11)
    write_padding(x, x.rows, x.height)


def finish(x):
    refuse_if(wrong_profile(x), 2)
    refuse_if(wrong_fragments(x) or wrong_buffer(x, x.height) or x.height < x.sum + 1, 11)
    refuse_fragments(x)
    refuse_if(0 in multiplicities(x, x.sum).values(), 14)
    write_fixup(x)
    write_multiplicities(x, x.sum)
    write_inverses(x, x.sum)
    write_halt(x, x.sum, x.built[25 * len(x.counts) - 25:25 * len(x.counts)])
    write_padding(x, x.sum + 1, x.height)


PASSES = dict(zip(CALLS, (fixup, set_multiplicities, invert_helpers, push_halt, pad, finish)))


def call(name, v):
    """The answer's number, and the buffer after."""
    x = Input(v)
    before = list(x.buffer)
    try:
        PASSES[name](x)
    except Refused as refusal:
        assert x.buffer == before
        return refusal.args[0], before
    return 0, x.buffer


# ---- The base input -------------------------------------------------------------------------------------------------------------

PROFILE = [86, 120, 87, 84, 85, 116, 108, 104, 88, 92, 91, 112, 124, 2]
NAMED = dict(zip(OPCODES, PROFILE), OP=5)
# A loop of two passes of a one-group block: opcode, address, h4.
RUN = [("LOOP", 0, 0), ("SPAN", 1, 0), ("OP", 3, 0), ("END", 3, 1), ("REPEAT", 1, 1), ("SPAN", 1, 0), ("OP", 5, 0), ("END", 5, 1), ("END", 1, 0)]


def at(part, k=0):
    return AT[part] + k


def put(part, numbers, k=0):
    return {at(part, k + i): number for i, number in enumerate(numbers)}


def lent(part, length):
    return {AT[part] - 1: length}


def cells(row, column, numbers):
    return put("buffer", numbers, 49 * row + column)


def row(number, name=None, addr=None, h4=None, in_span=None, helper=None):
    """Some cells of a row."""
    change = {} if name is None else cells(number, BITS, [NAMED[name] >> k & 1 for k in range(7)])
    for column, value in ((ADDR, addr), (H + 4, h4), (IN_SPAN, in_span), (HELPER, helper)):
        if value is not None:
            change.update(cells(number, column, [value]))
    return change


def built(fragment):
    """The base input's built cells of a fragment."""
    return [5000 + 100 * fragment + k for k in range(25)]


def merged(*changes):
    out = {}
    for change in changes:
        out.update(change)
    return out


def base():
    v = [0] * INPUT
    changes = [put("profile", PROFILE), put("size", [9]), put("rows", [9]), put("height", [12]), put("top", range(161, 177)), put("last", built(0)),
               lent("counts", 1), put("counts", [9]), lent("built", 200), put("built", [c for f in range(8) for c in built(f)]),
               lent("buffer", 588), put("buffer", range(2000, 3180, 2))]
    changes += [row(k, name, addr, h4) for k, (name, addr, h4) in enumerate(RUN)]
    for place, value in merged(*changes).items():
        v[place] = value
    return v


BASE = base()


def rows(count):
    return put("rows", [count])


def height(count):
    return put("height", [count])


def profile(k, value):
    return put("profile", [value], k)


def fragments(size, *counts):
    """Fragments by their counts; the plain rows and last built cells as a finish of them has them."""
    return merged(put("size", [size]), lent("counts", len(counts)), put("counts", counts), rows(min(sum(counts), BIG)),
                  put("last", built(len(counts) - 1)) if counts else {})


def split(total, size):
    """Fragments of a size that hold so many rows."""
    return fragments(size, *[min(size, total - k) for k in range(0, total, size)])


def row_count(count):
    """So many rows, for any of the calls."""
    return merged(fragments(max(count, 1), *[count][:count]), rows(count))


# ---- Lists ----------------------------------------------------------------------------------------------------------------------

def runs_of(before, after):
    """The places that differ, in runs of (place, numbers)."""
    runs = []
    for place, value in enumerate(after):
        if value != before[place]:
            if runs and place - runs[-1][0] - len(runs[-1][1]) <= 2:
                start, numbers = runs[-1]
                numbers += after[start + len(numbers):place + 1]
            else:
                runs.append((place, [value]))
    return runs


def told(runs):
    return "%d%s" % (len(runs), "".join(", %d %d: %s" % (place, len(numbers), " ".join(map(str, numbers))) for place, numbers in runs))


class List:
    files = []

    def __init__(self, name):
        self.name, self.vectors, self.numbers_of = name, [], {}

    def add(self, words, name, *changes, number=None):
        """A vector. `number` is the answer that it is meant to show, against which the model is held. Answers the buffer after."""
        v = list(BASE)
        for place, value in merged(*changes).items():
            v[place] = value
        answer, after = call(name, v)
        assert number is None or number == answer, (self.name, words, number, answer)
        assert not any(c.isdigit() for c in words), words
        before = v[AT["buffer"]:AT["buffer"] + len(after)]
        changed, left = runs_of(BASE, v), runs_of(before, after)
        text = "%s %d %s = %d %s\n" % (words, CALLS.index(name), told(changed), answer, told(left))
        self.vectors.append((text, 4 + sum(2 + len(numbers) for _, numbers in changed + left)))
        key = (name, answer)
        self.numbers_of[key] = self.numbers_of.get(key, 0) + 1
        if name == "finish" and answer == 0:
            # the five passes in order, with the rows and last built cells that the input has beside, come out the same
            for one in CALLS[:5]:
                if one == "padding":
                    v[AT["rows"]] += 1
                passed, made = call(one, v)
                assert passed == 0
                v[AT["buffer"]:AT["buffer"] + len(made)] = made
            assert made == after
        return after

    def write(self):
        """Files of at most 7,400 numbers and 65,535 bytes."""
        head = "base %s\n" % " ".join(map(str, BASE))
        files, text, numbers, size = [], [], 1 + INPUT, len(head)
        for line, count in self.vectors:
            if numbers + count > 7400 or size + len(line) > 65000:
                files.append(text)
                text, numbers, size = [], 1 + INPUT, len(head)
            text.append(line)
            numbers += count
            size += len(line)
        files.append(text)
        for k, text in enumerate(files):
            name = self.name if len(files) == 1 else "%s_%s" % (self.name, "abcdefgh"[k])
            with open(os.path.join(HERE, "data", name), "w") as file:
                file.write("vectors %d\n%s%s" % (len(text), head, "".join(text)))
            List.files.append((name, len(text)))


# Depths of the stack at the end of a run.
DEPTHS = [("sixteen", 16), ("seventeen", 17), ("eighteen", 18), ("a thousand and thirty-nine", 1039), ("a thousand and forty", 1040), ("full width", 2**32 - 1)]


def passes():
    """Each pass on what it takes."""
    out = List("passes")
    # pass 1
    for total in (1, 2, 3, 5, 6, 7, 8):
        for size in (1, 2, 3, total, total + 1, 2**32):
            if total <= 8 * size:
                out.add("fixup", "fixup", split(total, size), number=0)
    out.add("fixup of all rows", "fixup", split(12, 4), number=0)
    out.add("fixup, other top", "fixup", split(3, 2), put("top", [0, P - 1] * 8), number=0)
    out.add("fixup, other built cells", "fixup", split(3, 2), put("built", [P - 1, 0] * 25), number=0)
    out.add("fixup, built cells as many as needed", "fixup", split(6, 2), lent("built", 75), number=0)
    out.add("fixup, some built cells more", "fixup", split(6, 2), lent("built", 76), number=0)
    out.add("fixup, rows past the sum", "fixup", split(3, 2), cells(3, 0, [P, BIG]), cells(11, 48, [P]), number=0)
    out.add("fixup, cells up to p", "fixup", split(3, 2), cells(0, 0, [P - 1]), cells(2, 48, [P - 1]), number=0)
    out.add("fixup, past what is lent", "fixup", split(3, 2), lent("built", 50), put("built", [P], 50), lent("buffer", 147), cells(3, 0, [P]), number=0)
    out.add("fixup needs no profile, rows or height", "fixup", split(3, 2), profile(0, 128), rows(99), height(0), put("last", [P]), number=0)
    out.add("fixup knows no LOOP", "fixup", split(3, 2), row(3, h4=0), row(7, h4=0), number=0)
    # pass 2
    name = "multiplicities"
    for count in range(13):
        out.add("multiplicities", name, rows(count), row(1, "LOOP") if count == 1 else {}, row(3, h4=1), number={2: 14, 3: 14, 4: 14}.get(count, 0))
    out.add("one row", name, rows(1), number=0)
    for last in (1, 3, 9):
        out.add("LOOP in the last row", name, rows(last), row(0, "SPAN"), row(last - 1, "LOOP", in_span=0), number=0)
    out.add("LOOP in the last row beside another", name, row(8, "LOOP"), number=0)
    out.add("flagged END last", name, rows(8), number=0)
    out.add("flagged END last, its successor past the rows", name, rows(8), row(3, h4=0), number=14)
    for h4 in (0, 2, 3, P - 1, 2**32 + 1):
        out.add("flag", name, row(3, h4=h4), number=0)
        out.add("flags", name, row(3, h4=h4), row(7, h4=h4), number=14)
    for column in range(7):
        bit = NAMED["LOOP"] >> column & 1
        out.add("bit cell above one", name, cells(0, BITS + column, [2 + bit]), number=0)
        out.add("bit cell of another opcode", name, cells(0, BITS + column, [3 - bit]), number=0)
        bit = NAMED["END"] >> column & 1
        out.add("bit cell above one", name, cells(3, BITS + column, [2**40 + bit]), cells(7, BITS + column, [P - 1 - (P - 1 + bit) % 2]), number=0)
        out.add("bit cell of another opcode", name, cells(3, BITS + column, [4 + (1 - bit)]), number=0)
    out.add("two LOOPs at one address", name, row(5, "LOOP"), row(6, addr=1), number=0)
    out.add("two LOOPs at two addresses", name, row(5, "LOOP"), row(4, addr=5), number=0)
    out.add("two LOOPs, one without body", name, row(5, "LOOP"), row(6, addr=9), number=14)
    out.add("END before its LOOP", name, row(4, "LOOP"), row(0, "END", h4=1), row(8, addr=7), number=0)
    out.add("END counted by its successor", name, row(3, addr=1), row(4, addr=9), number=0)
    out.add("END not counted by itself", name, row(3, addr=1), row(4, addr=9), row(7, addr=1), row(8, addr=9), number=14)
    out.add("addresses alike in low bits", name, row(4, addr=2**32 + 1), row(8, addr=2**63 + 1), number=14)
    out.add("address zero", name, row(1, addr=0), row(4, addr=0), row(8, addr=0), number=0)
    out.add("largest address", name, row(1, addr=P - 1), row(4, addr=P - 1), row(8, addr=P - 2), number=0)
    out.add("LOOP directly after an END", name, row(4, "LOOP"), row(5, addr=1), number=0)
    out.add("in_span as it may be", name, row(0, in_span=1), row(3, in_span=1), row(7, in_span=7), number=0)
    for in_span in (0, 1, 2, P - 1):
        out.add("LOOP without body", name, row(0, in_span=in_span), row(3, h4=0), row(7, h4=0), number=14)
    out.add("all rows are LOOP", name, *[row(k, "LOOP", addr=1) for k in range(9)], number=14)
    out.add("LOOPs and ENDs", name, *[row(k, ("LOOP", "END")[k % 2], 1 + k // 4 % 2, 1) for k in range(9)], number=0)
    out.add("other profile", name, profile(4, 5), profile(11, 86), profile(0, 112), row(2, h4=1), row(1, h4=1), row(3, addr=3), row(7, addr=3), row(5, h4=1),
            row(6, addr=3), number=0)
    out.add("rows past those handed", name, rows(9), cells(9, 0, [P, BIG]), cells(11, 48, [P]), number=0)
    out.add("counts as they were", name, cells(0, COUNT, [P - 1]), cells(4, COUNT, [77]), number=0)
    # pass 3
    name = "helpers"
    special = [0, 1, 2, 1023, 1024, P - 1, P - 2, 1022, 3, 2**32, 2**32 - 1, 65536]
    for count in (0, 1, 2, 6, 11, 12):
        out.add("helpers", name, rows(count), *[row(k, helper=h) for k, h in enumerate(special)], number=0)
    # about the ends of the table and of what is kept
    again = [300, 300, 1023, 1023, 127, 127, 128, 128, 1024, 1024, 0, 0]
    later = [126, 127, 128, 129, 1022, 1023, 1024, 126, 129, 1023, 128, 1022]
    for words, helpers in (("helpers twice running", again), ("helpers again later", later)):
        out.add(words, name, rows(12), *[row(k, helper=h) for k, h in enumerate(helpers)], number=0)
    out.add("zeros", name, rows(12), *[row(k, helper=0) for k in range(12)], number=0)
    rng = random.Random(7)
    for _ in range(4):
        out.add("random helpers", name, rows(12), *[row(k, helper=rng.choice([rng.randrange(P), rng.randrange(2048)])) for k in range(12)], number=0)
    out.add("rows past those handed", name, rows(2), row(2, helper=P), row(3, helper=BIG), number=0)
    out.add("helpers need no profile", name, rows(2), profile(0, 128), number=0)
    # pass 4
    name = "halt"
    for count in (0, 1, 2, 9, 11):
        out.add("HALT", name, rows(count), number=0)
        out.add("HALT, other cells before", name, rows(count), *[cells(count - 1, 0, [P - 1 - k for k in range(49)])] if count else [], number=0)
    for halt in (96, 97, 111, 126, 127):
        out.add("HALT of another opcode", name, profile(12, halt), number=0)
    for words, depth in DEPTHS:
        after = out.add("depth of " + words, name, put("last", [depth, 0, depth - 16], 22), number=0)
        assert after[49 * 9 + HELPER] * (depth - 16) % P == int(depth > 16)
    # the helper cell goes by itself, whatever depth stands beside it
    out.add("helper of another depth", name, put("last", [16, 0, 2], 22), number=0)
    out.add("no helper at a depth", name, put("last", [18, 0, 0], 22), number=0)
    out.add("built cells zero", name, put("last", [0] * 25), number=0)
    out.add("built cells largest", name, put("last", [P - 1] * 25), number=0)
    out.add("HALT over cells beyond", name, rows(9), cells(9, 0, [BIG] * 49), cells(10, 0, [P] * 3), number=0)
    out.add("HALT in the last row lent", name, rows(9), lent("buffer", 490), number=0)
    out.add("HALT in the only row", name, rows(0), lent("buffer", 49), number=0)
    out.add("HALT needs no LOOP body", name, row(3, h4=0), row(7, h4=0), number=0)
    # pass 5
    name = "padding"
    for count, top in ((1, 1), (1, 2), (1, 4), (9, 9), (9, 10), (10, 12), (12, 12), (2, 5)):
        out.add("padding", name, rows(count), height(top), number=0)
    out.add("padding repeats any row", name, rows(3), height(5), cells(2, 0, [P - 1 - k for k in range(49)]), number=0)
    out.add("padding, another HALT", name, rows(9), height(10), profile(12, 127), number=0)
    out.add("padding to the end lent", name, rows(9), height(11), lent("buffer", 539), number=0)
    out.add("padding over cells beyond", name, rows(9), height(10), cells(9, 0, [BIG] * 49), cells(10, 0, [P, P]), number=0)
    out.add("padding a trace that is full", name, rows(9), height(9), cells(9, 0, [BIG]), number=0)
    return out


def raised(*changes, parts=("top", "last", "built", "buffer")):
    """The changes with p added to each cell of some parts of the input that stays below 2^64, the rows past the ninth left as they are."""
    v = list(BASE)
    for place, value in merged(*changes).items():
        v[place] = value
    size = dict((part, size) for part, size, _ in SIZES)
    for part in parts:
        for place in range(at(part), at(part) + (441 if part == "buffer" else size[part])):
            v[place] += P if v[place] + P < 2**64 else 0
    return dict(enumerate(v))


def unreduced():
    """Cells from p on: they are read modulo p, what is written is reduced, and what is not written stays."""
    out = List("cells")

    def same(words, name, *changes, **more):
        """With cells raised by p, what is written is the same, and the rest stays as it was."""
        v = list(BASE)
        for place, value in merged(*changes).items():
            v[place] = value
        number, plain = call(name, v)
        given = raised(*changes, **more)
        after = out.add(words, name, given, number=number)
        before = v[AT["buffer"]:AT["buffer"] + len(plain)]
        for k, (was, now) in enumerate(zip(before, plain)):
            assert after[k] == now if was != now else after[k] in (now, given[at("buffer", k)]), (words, k)

    # pass 1
    name = "fixup"
    same("first stack top", name, split(1, 1), parts=("top",))
    same("built cells", name, split(6, 2), parts=("built",))
    for k in (0, 7, 15):
        out.add("first stack top", name, split(3, 2), put("top", [BIG if k else P], k), number=0)
    for k in (0, 1, 5, 6, 21, 22, 24):
        out.add("built cell", name, split(3, 2), put("built", [BIG if k % 2 else P + k], k), number=0)
    out.add("built cell of the last fragment", name, split(3, 2), put("built", [P] * 25, 25), number=0)
    out.add("built cell past the fragments", name, split(3, 2), lent("built", 210), put("built", [P], 209), number=0)
    out.add("cells of first rows", name, split(3, 2), cells(0, 0, [P] * 49), cells(2, 0, [P + k for k in range(49)]), number=0)
    out.add("cells of another row", name, split(3, 2), cells(1, 0, [BIG] * 49), number=0)
    # pass 2
    name = "multiplicities"
    same("rows", name, parts=("buffer",))
    for k in (1, 4, 8):
        out.add("address", name, row(k, addr=P + 1), number=0)
        out.add("other address", name, row(k, addr=P + 2), number=14 if k == 1 else 0)
    out.add("address p and zero", name, row(1, addr=P), row(4, addr=0), row(8, addr=P), number=0)
    out.add("largest address", name, row(1, addr=2**32 - 2), row(4, addr=BIG), row(8, addr=BIG - 1), number=0)
    out.add("address of p less one", name, row(1, addr=P), row(4, addr=P - 1), row(8, addr=P - 1), number=14)
    for h4 in (P, P + 1, P + 2, BIG):
        out.add("flag", name, row(3, h4=h4), number=0)
        out.add("flags", name, row(3, h4=h4), row(7, h4=h4), number=0 if h4 == P + 1 else 14)
    for column in range(7):
        for opcode, at_row in (("LOOP", 0), ("END", 3)):
            bit = NAMED[opcode] >> column & 1
            out.add("bit cell", name, cells(at_row, BITS + column, [P + bit]), number=0)
            out.add("bit cell above one", name, cells(at_row, BITS + column, [P + 2 + bit]), number=0)
            out.add("bit cell of another opcode", name, cells(at_row, BITS + column, [P + 1 - bit]), number=0)
    out.add("counts as they were", name, cells(0, COUNT, [P + 77]), cells(4, COUNT, [P + 2]), number=0)
    out.add("LOOP in the last row", name, row(0, "SPAN"), row(8, "LOOP"), cells(8, COUNT, [P]), number=0)
    # pass 3
    name = "helpers"
    special = [P, P + 1, P + 2, P + 1023, P + 1024, BIG, P + 3, BIG - 1, P - 1, 0, P + 1022, P + 2**31]
    for count in (0, 1, 5, 12):
        out.add("helpers", name, rows(count), *[row(k, helper=h) for k, h in enumerate(special)], number=0)
    same("rows", name, rows(3), parts=("buffer",))
    # pass 4
    name = "halt"
    same("built cells", name, parts=("last",))
    for k in (0, 1, 5, 6, 21, 22, 24):
        out.add("built cell", name, put("last", [P + k], k), number=0)
        out.add("built cell, no rows", name, rows(0), put("last", [BIG], k), number=0)
    for words, helper, wanted in (("p", P, 0), ("p and one more", P + 1, 1), ("p and two more", P + 2, (P + 1) // 2)):
        after = out.add("helper of " + words, name, put("last", [18, 0, helper], 22), number=0)
        assert after[49 * 9 + HELPER] == wanted
    out.add("row before", name, cells(8, 0, [P + 3 * k for k in range(49)]), number=0)
    out.add("row before the last", name, cells(7, 0, [P] * 49), number=0)
    # pass 5
    name = "padding"
    out.add("row to repeat", name, rows(9), height(10), cells(8, 0, [P + 3 * k for k in range(49)]), number=0)
    out.add("row to repeat", name, rows(1), height(3), cells(0, 0, [BIG - k for k in range(49)]), number=0)
    out.add("row before the last", name, rows(9), height(10), cells(7, 0, [P] * 49), number=0)
    # all
    same("all cells", "finish", split(9, 4), put("last", built(2)))
    same("all cells, LOOP without body", "finish", split(9, 4), row(3, h4=0), row(7, h4=0))
    random_finishes(out, random.Random(2028), True, 26)
    return out


def refusals():
    """Each refusal of each call."""
    out = List("refusals")
    sums = ("fixup", "finish")
    # cells from p on are no refusal, also where lengths are wrong
    for name in CALLS:
        out.add("cell past the rows", name, row_count(9), cells(9, 0, [P]), number=0)
        out.add("cell in rows fewer than said", name, row_count(13), cells(11, 48, [P]), number=11)
        out.add("cell in rows far fewer than said", name, row_count(2**32 - 1), cells(11, 48, [P]), number=11)
        out.add("cell in a partial row", name, row_count(13), lent("buffer", 590), put("buffer", [P], 589), number=11)
        out.add("cell in a partial first row", name, row_count(1), lent("buffer", 1), cells(0, 0, [P]), number=11)
        out.add("cell in a partial row past the rows", name, row_count(9), lent("buffer", 590), put("buffer", [P], 588), number=11)
        out.add("cell past what is lent", name, row_count(13), lent("buffer", 588), put("buffer", [P], 588), number=11)
    for name in CALLS[1:5]:
        for count in (2**63, BIG, BIG // 49 + 1, BIG // 49 + 2, 2**58):
            out.add("cell in rows far fewer than said", name, rows(count), height(BIG), cells(11, 48, [P]), number=11)
    for name in sums:
        out.add("built cell without fragments", name, fragments(1), put("built", [P]), number=26)
    # 2
    for name in ("multiplicities", "halt", "padding", "finish"):
        for k in range(13):
            out.add("profile opcode", name, profile(k, 255 if k % 2 else 128), number=2)
        for i, j in ((0, 12), (0, 1), (4, 11), (11, 12), (9, 10), (5, 7)):
            out.add("equal opcodes", name, profile(i, PROFILE[j]), number=2)
        for halt in (0, 28, 63, 64, 95, 32):
            out.add("HALT lacks a bit", name, profile(12, halt), number=2)
        for step in (0, P, BIG):
            out.add("step", name, profile(13, step), number=2)
        out.add("largest step", name, profile(13, P - 1), number=0)
    # 11
    for name in CALLS:
        for size in (1, 48, 50, 587, 589, 590):
            out.add("buffer of other length", name, row_count(1), height(2), lent("buffer", size), number=11)
        out.add("more rows than the buffer", name, row_count(13), height(14), number=11)
        out.add("more rows than the buffer", name, row_count(2**32 - 1), height(2**32), number=11)
        out.add("rows, and no buffer", name, row_count(1), height(2), lent("buffer", 0), number=11)
    for name in CALLS[1:5]:
        for count in (2**32, 2**63, BIG, BIG // 49 + 1, BIG // 49 + 2, BIG - 1):
            out.add("more rows than the buffer", name, rows(count), height(BIG), number=11)
    for name in sums:
        out.add("size zero", name, fragments(0, 0), number=11)
        out.add("size zero, no fragment", name, fragments(0), number=11)
        out.add("size zero, rows", name, fragments(0, 3), number=11)
        for counts in ((3,), (3, 2), (2, 3), (2, 2, 9), (2**32 - 1,)):
            out.add("count above the size", name, fragments(2, *counts), number=11)
        out.add("counts sum to more than the buffer", name, fragments(7, 7, 6), number=11)
        out.add("counts sum to far more", name, fragments(BIG, *[2**32 - 1] * 8), number=11)
        out.add("counts whose low half sums to few", name, fragments(2**31, 2**31, 2**31, 3), number=11)
        for size in (0, 24, 49, 74):
            out.add("built cells fewer", name, split(6, 2), lent("built", size), number=11)
        out.add("built cells just enough", name, split(3, 3), lent("built", 25), number=0 if name == "fixup" else 14)
    out.add("no row for HALT", "halt", rows(12), number=11)
    out.add("no row for HALT", "halt", rows(9), lent("buffer", 441), number=11)
    out.add("no buffer for HALT", "halt", rows(0), lent("buffer", 0), number=11)
    for top in (0, 8, 13, 2**63, BIG, BIG // 49 + 1):
        out.add("height", "padding", rows(9), height(top), number=11)
    out.add("height past what is lent", "padding", rows(9), height(11), lent("buffer", 490), number=11)
    for top in (0, 1, 12, BIG):
        out.add("padding handed no row", "padding", rows(0), height(top), number=11)
    out.add("padding handed no row, no buffer", "padding", rows(0), height(0), lent("buffer", 0), number=11)
    for total in (1, 6, 9, 11):
        for top in (0, total - 1, total):
            out.add("height below rows with HALT", "finish", split(total, max(total // 3, 1) + 1), row(0, "SPAN"), height(top), number=11)
        out.add("height of rows with HALT", "finish", split(total, max(total // 3, 1) + 1), row(0, "SPAN"), height(total + 1), number=0)
    for top in (13, 2**63, BIG):
        out.add("buffer below the height", "finish", height(top), number=11)
    out.add("no row for HALT", "finish", row(0, "SPAN"), fragments(12, 12), height(12), number=11)
    out.add("no row for HALT", "finish", row(0, "SPAN"), fragments(12, 12), height(13), number=11)
    out.add("height past what is lent", "finish", height(11), lent("buffer", 490), number=11)
    # no rows, where that is no refusal, and no buffer
    out.add("no rows, no buffer", "multiplicities", rows(0), lent("buffer", 0), number=0)
    out.add("no rows, no buffer", "helpers", rows(0), lent("buffer", 0), number=0)
    # 26, 25
    for name in sums:
        out.add("no fragment", name, fragments(1), number=26)
        out.add("no fragment, nothing built", name, fragments(5), lent("built", 0), number=26)
        out.add("no fragment, no row", name, fragments(BIG), height(12), number=26)
        for size, counts in ((2, (1, 2)), (2, (2, 1, 1)), (2, (0, 2)), (3, (3, 2, 3)), (2, (2, 0)), (2, (0,)), (2, (2, 2, 0)), (2**33, (2, 2)), (1, (0,)), (1, (1, 0)),
                             (BIG, (0, 0)), (2, (2, 2, 1, 1))):
            out.add("fragment not full", name, fragments(size, *counts), number=25)
    out.add("no fragment, and no buffer", "fixup", fragments(1), lent("buffer", 0), number=26)
    out.add("empty fragment, and no buffer", "fixup", fragments(1, 0), lent("buffer", 0), number=25)
    # 14 in a finish
    for changes in ((row(3, h4=0), row(7, h4=0)), (row(3, h4=2), row(7, h4=P - 1)), (row(4, addr=2), row(8, addr=2)), (row(1, addr=2),), (row(5, "LOOP"),),
                    (split(8, 3), row(3, h4=0)), (split(4, 2),), (row(0, in_span=1), row(1, addr=7))):
        out.add("LOOP without body END", "finish", *changes, number=14)
    return out


def orders():
    """Two refusals of which the first in order is answered."""
    out = List("orders")
    big, wrong = cells(1, 3, [P]), profile(13, 0)
    no_body = merged(row(3, h4=0), row(7, h4=0))
    of = {"fixup": [(11, lent("buffer", 590)), (11, put("size", [7])), (11, lent("built", 24)), (25, fragments(9, 8, 1)), (25, fragments(9, 9, 0))],
          "multiplicities": [(2, wrong), (2, profile(4, 112)), (11, lent("buffer", 590)), (11, rows(13)), (14, no_body)],
          "helpers": [(11, lent("buffer", 590)), (11, rows(13))],
          "halt": [(2, wrong), (11, lent("buffer", 590)), (11, rows(12))],
          "padding": [(2, wrong), (2, profile(12, 1)), (11, lent("buffer", 590)), (11, height(8)), (11, height(13))],
          "finish": [(2, wrong), (2, profile(4, 112)), (11, lent("buffer", 590)), (11, put("size", [7])), (11, lent("built", 24)), (11, height(9)), (11, height(13)),
                     (25, fragments(9, 8, 1)), (25, fragments(9, 9, 0)), (14, no_body)]}
    # cells from p on, which are no refusal beside another
    above = {"fixup": [big, put("top", [P]), put("built", [P], 20)], "halt": [big, put("last", [P], 24)],
             "finish": [big, put("top", [P], 15), put("built", [P], 20)]}
    for name in CALLS:
        for (number, a), b in itertools.product(of[name], above.get(name, [big])):
            out.add("refusal and a cell from p on", name, a, b, number=number)
    for name in CALLS:
        for (first, a), (second, b) in itertools.combinations(of[name], 2):
            if first != second:
                out.add("two refusals", name, b, a, number=first)
    for name in ("fixup", "finish"):
        none = fragments(9)
        out.add("no fragment and built cell from p on", name, none, put("built", [P]), number=26)
        out.add("no fragment and first stack top from p on", name, none, put("top", [P]), number=26)
        out.add("no fragment and length", name, none, lent("buffer", 590), number=11)
        out.add("no fragment and size", name, fragments(0), number=11)
        out.add("no fragment and LOOP without body", name, none, no_body, number=26)
        out.add("empty last and above the size", name, fragments(2, 3, 0), number=11)
        out.add("not full and sum above the buffer", name, fragments(9, 8, 9), number=11)
        out.add("not full and LOOP without body", name, fragments(9, 3, 6), no_body, number=25)
        out.add("not full and built cells fewer", name, fragments(9, 3, 6), lent("built", 49), number=11)
        out.add("empty last and cell past the rows", name, fragments(9, 0), cells(0, 0, [P]), number=25)
    out.add("no fragment and profile", "finish", fragments(9), wrong, number=2)
    out.add("no fragment and height", "finish", fragments(9), height(0), number=11)
    out.add("no fragment and height", "finish", fragments(9), height(1), number=26)
    out.add("all", "finish", fragments(9), wrong, put("top", [P]), lent("buffer", 590), height(0), no_body, number=2)
    out.add("all but the first", "finish", fragments(9), wrong, lent("buffer", 590), height(0), no_body, number=2)
    out.add("LOOP in the last row", "finish", fragments(9, 9), row(0, "SPAN"), row(8, "LOOP"), number=0)
    out.add("opcode past the bits", "multiplicities", profile(4, 128 + 85), number=2)
    return out


# ---- The loop of two passes, and random runs --------------------------------------------------------------------------------------

def cycle_model():
    """The model of a cycle, from the program of its vectors."""
    spec = importlib.util.spec_from_file_location("vectors_rows_make", os.path.join(HERE, "..", "vectors_rows", "make.py"))
    module = importlib.util.module_from_spec(spec)
    spec.loader.exec_module(module)
    return module


def loop_run(model, size, depths):
    """C10's run in fragments of a size: the rows, the counts, and the built cells of each fragment. The stack's depth is given for each cycle."""
    m = model
    v = list(m.BASE)

    def change(*changes):
        for place, value in merged(*changes).items():
            v[place] = value

    def numbers(part, values, k=0):
        return {m.at(part, k + i): value for i, value in enumerate(values)}

    change({m.at("ops", 28): 5, m.at("groups", 16): 5}, m.batch_at(2, 10, 1), *[m.batch_at(2, k, 1) for k in range(2, 10)])
    change(numbers("addresses", [1, 3, 5]), numbers("parents", [0, 1, 1]), numbers("ends", [3, 1, 0, 5, 1, 0, 1, 0, 0]), m.tracer(16, 0, 0, 0, 0, 0))
    block, loop = m.ONE_GROUP, m.LOOP
    cycles = [("StartNode", loop, 0, 0), ("StartNode", block, 0, 0), ("ResumeBasicBlock", block, 0, 0), ("FinishBasicBlock", block, 1, 0), ("FinishLoop", loop, 0, 2),
              ("StartNode", block, 0, 0), ("ResumeBasicBlock", block, 0, 0), ("FinishBasicBlock", block, 1, 0), ("FinishLoop", loop, 0, 1)]
    made, counts, lasts = [], [], []
    for clk, (name, node, body, condition) in enumerate(cycles):
        if clk % size == 0:
            v = m.call("new", v)[2]
            counts.append(0)
            lasts.append(None)
        change({m.at("system"): clk, m.at("stack", clk % 16): 600 + clk, m.at("stack", 16): depths[clk]})
        change(numbers("values", [m.STORED.index(name), node, 0, 0, body, condition] + [0] * 8))
        v = m.call("store", v)[2]
        number, out, v = m.call("finish", v)
        assert number == 0
        made.append(out[0:49])
        counts[-1] += 1
        lasts[-1] = m.call("final", v)[1][0:25]
        # the model's fragment has four rows: of the row count only zero or not matters to what is made
        change(m.tracer(1, 1))
    return made, counts, lasts


LISTING = [("LOOP", 0, 2), ("SPAN", 1, 1), ("OP", 3, 0), ("END", 3, 0), ("REPEAT", 1, 0), ("SPAN", 1, 1), ("OP", 5, 0), ("END", 5, 0), ("END", 1, 0), ("HALT", 0, 0)]


def finished():
    """Runs finished: C10's, and random ones."""
    out = List("finished")
    model = cycle_model()
    same = [(size, top, [depth] * 9) for size, top, depth in
            ((9, 10, 16), (9, 10, 18), (20, 12, 17), (2, 10, 18), (3, 10, 16), (3, 12, 18), (4, 11, 2**32 - 1), (8, 10, 1040))]
    ending = [(size, 12, [1038 - 127 * k for k in range(8)] + [depth]) for size, (_, depth) in zip((9, 2, 3, 4, 5, 8), DEPTHS)]
    for size, top, depths in same + ending:
        made, counts, lasts = loop_run(model, size, depths)
        after = out.add("the loop of two passes", "finish", fragments(size, *counts), *[cells(k, 0, cols) for k, cols in enumerate(made)],
                        put("built", [c for last in lasts for c in last]), put("last", lasts[-1]), height(top), number=0)
        trace = [after[49 * k:49 * k + 49] for k in range(top)]
        listing = [(sum(cols[BITS + b] << b for b in range(7)), cols[ADDR], cols[COUNT]) for cols in trace[:10]]
        assert listing == [(NAMED[name], addr, count) for name, addr, count in LISTING], listing
        # a row's system and stack cells are those built at the row before, across fragments too
        assert [cols[0] for cols in trace] == list(range(top))
        assert [cols[DEPTH] for cols in trace] == [16] + depths + [depths[-1]] * (top - 10)
        # the overflow rule on every row
        assert all(cols[HELPER] * (cols[DEPTH] - 16) % P == int(cols[DEPTH] > 16) and (cols[DEPTH] > 16 or cols[HELPER] == 0) for cols in trace)
    random_finishes(out, random.Random(2027), False, 30)
    return out


def random_finish(rng, above):
    """Random rows in fragments, and what they are finished with; with `above` some of their cells are from p on. None where they do not fit."""
    odd = lambda bit: rng.choice([bit, bit, bit, bit + 2, bit + 2**33, P - 1 - (P - 1 + bit) % 2] + [P + bit, P + 2 + bit] * above)
    ops = rng.sample(range(128), 12)
    halt = rng.choice([h for h in range(96, 128) if h not in ops])
    codes = ops + [halt]
    total = rng.randrange(1, 12)
    size = rng.choice([1, 2, 3, 4, total, total + 1, 50])
    if total > 8 * size:
        return None
    changes = [put("profile", codes + [rng.randrange(1, P)]), split(total, size), height(rng.choice([total + 1, 12, rng.randrange(total + 1, 13)]))]
    for k in range(total):
        code = rng.choice([codes[4], codes[11], codes[11], codes[11], rng.randrange(128)])
        changes += [cells(k, ADDR, [rng.choice([1, 2] + [P + 1, P + 2] * above)] + [odd(code >> b & 1) for b in range(7)]),
                    row(k, h4=rng.choice([0, 1, 1, 1, 2] + [P, P + 1, P + 1] * above)),
                    row(k, helper=rng.choice([0, 1, 2, 1023, 1024, P - 1] + [P, P + 2, BIG] * above + [rng.randrange(P)]))]
    changes += [cells(total - 1, H, [rng.randrange(P) for _ in range(4)]), put("top", [rng.randrange(P) for _ in range(2)])]
    if above:
        clk = [rng.randrange(P, 2**64)]
        changes += [cells(total - 1, H + 1, [rng.randrange(P, 2**64)]), put("top", [rng.randrange(P, 2**64)], rng.randrange(16)),
                    put("built", clk, 25 * ((total - 1) // size)), put("last", clk)]
    return merged(*changes)


def random_finishes(out, rng, above, wanted):
    """So many random runs that are finished, and a third of those that are refused in between."""
    accepted = 0
    while accepted < wanted:
        change = random_finish(rng, above)
        if change is None:
            continue
        v = list(BASE)
        for place, value in change.items():
            v[place] = value
        answer, _ = call("finish", v)
        if answer and rng.randrange(3):
            continue
        out.add("random rows", "finish", change, number=answer)
        accepted += answer == 0


def large():
    """Pass 2 on more LOOP rows than are taken at a time, as src/large.rt makes them: the list of the counts by address."""
    profile, rows = [6, 7, 8, 9, 0, 10, 11, 12, 13, 14, 15, 1, 96, 1], 5000
    flagged = [(r + 1) % 7 for r in range(rows - 1) if r % 10 == 9]
    with open(os.path.join(HERE, "data", "large"), "w") as file:
        file.write("vectors 1\nprofile %s\ncounts %s\n" % (" ".join(map(str, profile)), " ".join(str(flagged.count(addr)) for addr in range(7))))
    List.files.append(("large", 1))


if __name__ == "__main__":
    os.makedirs(os.path.join(HERE, "data"), exist_ok=True)
    for name in os.listdir(os.path.join(HERE, "data")):
        os.remove(os.path.join(HERE, "data", name))
    total = 0
    for made in (passes(), unreduced(), refusals(), orders(), finished()):
        made.write()
        total += len(made.vectors)
        print(made.name, len(made.vectors), dict(sorted(made.numbers_of.items())))
    large()
    with open(os.path.join(HERE, "stdout"), "w") as file:
        for name, count in List.files:
            file.write("%s: %d of %d right\n" % (name, count, count))
    print(total, List.files)

#!/usr/bin/env python3
"""Writes the lists of data/ and the file stdout beside this file. The expected numbers come from a model of the reader, written from document
01 and apart from the Rattle code; random choices from a fixed seed, so that the lists come out the same each time. src/list.rt says how a
list is laid out."""
import itertools
import os
import random

P = 2**64 - 2**32 + 1
BIG = 2**64 - 1
HERE = os.path.dirname(os.path.abspath(__file__))

# The places of an input.
CELLS, DEPTHS, ASKED, CHANGED, ROWS, ROOM = 14, 15, 16, 17, 23, 140
INPUT = ROWS + 4 * ROOM
NOWHERE = 2**40

OPCODES = ["SPAN", "RESPAN", "JOIN", "SPLIT", "LOOP", "REPEAT", "CALL", "SYSCALL", "DYN", "DYNCALL", "PUSH", "END", "HALT"]
PROFILE = [86, 120, 87, 84, 85, 116, 108, 104, 88, 92, 91, 112, 124, 2]
# Columns.
BITS, H4, IN_SPAN, COUNT = 7, 18, 22, 23


# ---- The model ------------------------------------------------------------------------------------------------------------------

# The grammar by what may come next: for each symbol, the symbols that stand in for it where a row's token is seen.
START = {"SPAN": ["ops"], "JOIN": ["Block", "Block", "END"], "LOOP": ["Block", "passes"]}
START.update({name: ["Block", "END"] for name in ("SPLIT", "CALL", "SYSCALL", "DYN", "DYNCALL")})
NEXT = {"Block": START,
        "ops": {"OP": ["ops"], "RESPAN": ["ops"], "END": []},
        "passes": {"REPEAT": ["Block", "passes"], "END": []},
        "END": {"END": []},
        "HALT": {"HALT": ["halts"]},
        "halts": {"HALT": ["halts"]}}


def buffer_of(v):
    """All cells of the room: those of a row that are not named hold other numbers."""
    cells = [1000 * row + k for row in range(ROOM) for k in range(49)]
    for row in range(ROOM):
        opcode, in_span, h4, count = v[ROWS + 4 * row:ROWS + 4 * row + 4]
        at = 49 * row
        cells[at + BITS:at + BITS + 7] = [opcode // 2**k % 2 for k in range(7)]
        cells[at + H4], cells[at + IN_SPAN], cells[at + COUNT] = h4, in_span, count
    for k in range(3):
        place, value = v[CHANGED + 2 * k:CHANGED + 2 * k + 2]
        if place < len(cells):
            cells[place] = value
    return cells


def token(profile, row):
    """What a row is: a control name, OP, or None where it fits nothing."""
    bits = row[BITS:BITS + 7]
    if any(bit > 1 for bit in bits) or row[IN_SPAN] > 1:
        return None
    opcode = sum(bit << k for k, bit in enumerate(bits))
    control = dict(zip(profile[0:13], OPCODES))
    del control[profile[10]]
    if row[IN_SPAN] == 0:
        return control.get(opcode)
    return None if opcode in control else "OP"


def wrong_profile(profile):
    """Refusal 2."""
    ops, halt, step = profile[0:13], profile[12], profile[13]
    return any(op >= 128 for op in ops) or len(set(ops)) < 13 or not halt & 32 or not halt & 64 or step == 0 or step >= P


def read(profile, cells, depths):
    """Number, row, number of program rows, and the depth of each row. Cells are read modulo p."""
    cells = [cell % P for cell in cells]
    if wrong_profile(profile):
        return 2, 0, 0, []
    if len(cells) % 49 or len(cells) // 49 > 2**24 or depths < len(cells) // 49:
        return 11, 0, 0, []
    rows = [cells[k:k + 49] for k in range(0, len(cells), 49)]
    expected, opened, depth_of, asked, program_rows = ["HALT", "Block"], [], [], {}, 0
    for number, row in enumerate(rows):
        seen = token(profile, row)
        symbol = expected.pop()
        if seen not in NEXT[symbol]:
            return 12, number, 0, []
        if symbol == "Block":
            if len(opened) == 64:
                return 15, number, 0, []
            # a block is directly a loop's body where the next symbol of its loop is `passes`
            opened.append({"start": number, "kind": seen, "passes": 0, "body": expected[-1:] == ["passes"]})
        depth_of.append(len(opened))
        expected += reversed(NEXT[symbol][seen])
        if symbol == "passes":
            opened[-1]["passes"] += 1
        if seen == "END":
            block = opened.pop()
            asked[number] = (H4, int(block["body"]))
            if block["kind"] == "LOOP":
                asked[block["start"]] = (COUNT, block["passes"])
            program_rows = number + 1
    if expected != ["halts"]:
        return 12, len(rows), 0, []
    for number in sorted(asked):
        column, value = asked[number]
        if rows[number][column] != value:
            return 13, number, 0, []
    return 0, 0, program_rows, depth_of


def view(cells, number):
    """The cells of a row, or none."""
    if len(cells) % 49 or len(cells) // 49 > 2**24 or number >= len(cells) // 49:
        return []
    return cells[49 * number:49 * number + 49]


def answers(v):
    """What an input's two calls answer."""
    cells = buffer_of(v)[:v[CELLS]]
    return read(v[0:14], cells, v[DEPTHS]), view(cells, v[ASKED])


# ---- Traces ---------------------------------------------------------------------------------------------------------------------

NAMED = dict(zip(OPCODES, PROFILE), OP=5)


def row(name, h4=0, count=0):
    """Opcode, in_span, h4, count."""
    return [NAMED[name], int(name in ("OP", "PUSH")), h4, count]


# Each kind of row, a loop of two passes whose second body is a loop.
TRACE = [row("JOIN"), row("CALL"), row("LOOP", count=2), row("SPAN", count=3), row("OP"), row("RESPAN", count=1), row("PUSH"), row("END", 1), row("REPEAT", 1),
         row("LOOP", count=1), row("SPLIT"), row("SPAN"), row("END"), row("END", 1), row("END", 1), row("END"), row("END"), row("SYSCALL"), row("DYN"),
         row("DYNCALL"), row("SPAN", count=1), row("OP"), row("END"), row("END"), row("END"), row("END"), row("END"), row("HALT"), row("HALT")]
NAMES = ("JOIN CALL LOOP SPAN OP RESPAN PUSH END REPEAT LOOP SPLIT SPAN END END END END END SYSCALL DYN DYNCALL SPAN OP END END END END END HALT HALT").split()


def input_of(rows, profile=PROFILE, cells=None, depths=None, asked=0, changed=()):
    """An input; where nothing is said, all rows and as many depths are lent."""
    v = list(profile) + [49 * len(rows) if cells is None else cells, len(rows) if depths is None else depths, asked]
    for place, value in list(changed) + [(NOWHERE, 0)] * (3 - len(changed)):
        v += [place, value]
    v += [number for numbers in rows for number in numbers]
    assert len(v) <= INPUT
    return v + [0] * (INPUT - len(v))


# ---- Lists ----------------------------------------------------------------------------------------------------------------------

def runs_of(before, after):
    """The places that differ, in runs of (place, numbers)."""
    runs = []
    for place, value in enumerate(after):
        if value != before[place]:
            if runs and place - runs[-1][0] - len(runs[-1][1]) <= 2:
                start, numbers = runs[-1]
                numbers += after[start + len(numbers):place + 1]
            else:
                runs.append((place, [value]))
    return runs


def told(runs):
    return "%d%s" % (len(runs), "".join(", %d %d: %s" % (place, len(numbers), " ".join(map(str, numbers))) for place, numbers in runs))


class List:
    files = []

    def __init__(self, name, base):
        self.name, self.base, self.vectors, self.numbers_of = name, base, [], {}

    def add(self, words, v, number=None, at=None):
        """A vector. `number` and `at` are the answer and the row that it is meant to show, against which the model is held."""
        (answer, failed, program_rows, depths), cells = answers(v)
        assert number is None or number == answer, (self.name, words, number, answer, failed)
        assert at is None or at == failed, (self.name, words, at, failed)
        assert not any(c.isdigit() for c in words), words
        changed = runs_of(self.base, v)
        ends = [len(cells)] + ([cells[0], cells[48]] if cells else [0, 0])
        out = [answer, failed, program_rows] + depths + ends
        self.vectors.append(("%s %s = %s\n" % (words, told(changed), " ".join(map(str, out))), 1 + sum(2 + len(numbers) for _, numbers in changed) + len(out)))
        self.numbers_of[answer] = self.numbers_of.get(answer, 0) + 1

    def write(self):
        """Files of at most 7,400 numbers and 65,000 bytes."""
        head = "base %s\n" % " ".join(map(str, self.base))
        files, text, numbers, size = [], [], 1 + INPUT, len(head)
        for line, count in self.vectors:
            if numbers + count > 7400 or size + len(line) > 65000:
                files.append(text)
                text, numbers, size = [], 1 + INPUT, len(head)
            text.append(line)
            numbers += count
            size += len(line)
        files.append(text)
        for k, text in enumerate(files):
            name = self.name if len(files) == 1 else "%s_%s" % (self.name, "abcdefgh"[k])
            with open(os.path.join(HERE, "data", name), "w") as file:
                file.write("vectors %d\n%s%s" % (len(text), head, "".join(text)))
            List.files.append((name, len(text)))


def faults():
    """Each kind of fault at each row of the trace."""
    out = List("faults", input_of(TRACE))
    out.add("the trace", input_of(TRACE), number=0)
    size = len(TRACE)

    def changed(number, numbers):
        return TRACE[:number] + [numbers] + TRACE[number + 1:]

    for n, (own, numbers) in enumerate(zip(NAMES, TRACE)):
        opcode, in_span, h4, count = numbers
        asked = n * 7 % (size + 2)
        # another row in its place
        for name in OPCODES + ["OP"]:
            if name != own:
                out.add("%s for %s" % (name, own), input_of(changed(n, row(name, h4, count)), asked=asked))
        # in_span: the other one of 0 and 1, and other numbers
        out.add("in_span of another row", input_of(changed(n, [opcode, 1 - in_span, h4, count]), asked=asked), number=12, at=n)
        for value in (2, P - 1):
            out.add("in_span", input_of(changed(n, [opcode, value, h4, count])), number=12, at=n)
        # a bit cell that is no bit, its lowest bit as it was
        for k in range(7):
            out.add("bit cell", input_of(TRACE, changed=[(49 * n + BITS + k, 2 + (opcode >> k & 1))]), number=12, at=n)
        # the flag and the count
        for value in sorted({0, 1, 2, P - 1} - {h4}):
            wrong = own == "END"
            out.add("flag", input_of(changed(n, [opcode, in_span, value, count]), asked=asked), number=13 if wrong else 0, at=n if wrong else None)
        for value in sorted({count + 1, (count - 1) % P, 2**32 + count}):
            wrong = own == "LOOP"
            out.add("count", input_of(changed(n, [opcode, in_span, h4, value])), number=13 if wrong else 0, at=n if wrong else None)
        # rows that are missing or too many
        out.add("the first rows alone", input_of(TRACE, cells=49 * n, asked=n), number=0 if n == size - 1 else 12, at=0 if n == size - 1 else n)
        out.add("a row dropped", input_of(TRACE[:n] + TRACE[n + 1:], asked=asked))
        out.add("a row doubled", input_of(TRACE[:n + 1] + TRACE[n:], asked=asked))
    return out


def lengths():
    """Refusals 2 and 11, their order, the depths that are lent, and row views."""
    out = List("lengths", input_of(TRACE))
    size = len(TRACE)
    cells = 49 * size
    # cells from p on
    out.add("first and last cell", input_of(TRACE, changed=[(0, P), (cells - 1, P)]), number=0)
    out.add("cells up to p", input_of(TRACE, changed=[(0, P - 1), (cells - 1, P - 1)]), number=0)
    out.add("past what is lent", input_of(TRACE, changed=[(cells, P), (cells + 48, BIG)]), number=0)
    out.add("in a partial row", input_of(TRACE, cells=cells + 1, depths=size + 1, changed=[(cells, P)]), number=11, at=0)
    # 2: the profile
    for k in range(13):
        out.add("opcode past the bits", input_of(TRACE, PROFILE[:k] + [128 + PROFILE[k]] + PROFILE[k + 1:]), number=2, at=0)
    for k, j in itertools.combinations(range(13), 2):
        if k % 3 == j % 3:
            out.add("two equal", input_of(TRACE, PROFILE[:j] + [PROFILE[k]] + PROFILE[j + 1:]), number=2, at=0)
    for halt in (28, 60, 92, 0):
        out.add("HALT without a bit", input_of(TRACE, PROFILE[:12] + [halt] + PROFILE[13:]), number=2, at=0)
    for step in (0, P, BIG):
        out.add("step", input_of(TRACE, PROFILE[:13] + [step]), number=2, at=0)
    for step in (1, P - 1):
        out.add("step", input_of(TRACE, PROFILE[:13] + [step]), number=0)
    # another profile: each opcode in its place
    swapped = [opcode ^ 1 for opcode in PROFILE[:13]] + [7]
    out.add("another profile", input_of([[n[0] ^ 1] + n[1:] for n in TRACE], swapped), number=0)
    out.add("the wrong profile", input_of(TRACE, swapped), number=12)
    # 11: lengths of the buffer and of the depth list
    for more in (1, 2, 47, 48, 50, 97):
        out.add("no multiple", input_of(TRACE, cells=cells + more, depths=size + 3), number=11, at=0)
    for less in (1, 48, 50):
        out.add("no multiple", input_of(TRACE, cells=cells - less), number=11, at=0)
    for lent in (0, 1, size - 2, size - 1):
        out.add("fewer depths than rows", input_of(TRACE, depths=lent), number=11, at=0)
    for lent in (size, size + 1, size + 20):
        out.add("depths as many, and more", input_of(TRACE, depths=lent), number=0)
    # no rows
    for lent in (0, 1, 5):
        out.add("the empty buffer", input_of(TRACE, cells=0, depths=lent), number=12, at=0)
    # orders
    big, wrong = [(60, P)], PROFILE[:13] + [0]
    out.add("cell and profile", input_of(TRACE, wrong, changed=big), number=2)
    out.add("cell and length", input_of(TRACE, cells=cells + 1, changed=big), number=11)
    out.add("cell and depths", input_of(TRACE, depths=0, changed=big), number=11)
    out.add("cell and no word", input_of(TRACE[1:], changed=big), number=12)
    out.add("profile and length", input_of(TRACE, wrong, cells=cells + 1), number=2)
    out.add("profile and depths", input_of(TRACE, wrong, depths=0), number=2)
    out.add("profile and no rows", input_of(TRACE, wrong, cells=0), number=2)
    out.add("length and no word", input_of(TRACE[1:], cells=cells - 50), number=11)
    out.add("depths and flag", input_of(TRACE, depths=size - 1, changed=[(49 * 7 + H4, 0)]), number=11)
    out.add("no word and flag", input_of(TRACE[:-2], changed=[(49 * 7 + H4, 0)]), number=12, at=size - 2)
    # 13 at the lowest row, also where it is a LOOP whose count is known only later
    flag, late, outer, inner = (49 * 7 + H4, 0), (49 * 26 + H4, 1), (49 * 2 + COUNT, 1), (49 * 9 + COUNT, 2)
    for wrongs, at in (((flag, late), 7), ((flag, outer), 2), ((inner, flag), 7), ((inner, late), 9), ((outer, inner), 2), ((flag, inner, outer), 2), ((late,), 26)):
        out.add("two wrong cells", input_of(TRACE, changed=wrongs), number=13, at=at)
    # row views
    for number in (0, 1, 2, 14, size - 1):
        out.add("row view", input_of(TRACE, asked=number), number=0)
    for number in (size, size + 1, 2**32, 2**63, BIG, BIG // 49, BIG // 49 + 1):
        out.add("row view past the end", input_of(TRACE, asked=number), number=0)
    out.add("row view of no trace, cells from p on", input_of(TRACE[5:], asked=3, changed=[(3 * 49, P), (3 * 49 + 48, BIG)]), number=12)
    out.add("row view of no multiple", input_of(TRACE, cells=cells + 1, asked=0), number=11)
    out.add("row view of no rows", input_of(TRACE, cells=0, asked=0), number=12)
    out.add("row view of a partial row", input_of(TRACE, cells=48, asked=0), number=11)
    return out


def one(kind, inside, h4=0):
    """A block of a kind around another."""
    if kind == "JOIN":
        return [row("JOIN")] + inside + [row("SPAN"), row("END"), row("END", h4)]
    return [row(kind, count=int(kind == "LOOP"))] + inside + [row("END", h4)]


def nested(kinds, inside):
    """Blocks of some kinds, the first outermost."""
    for k in range(len(kinds) - 1, -1, -1):
        inside = one(kinds[k], inside, int(k > 0 and kinds[k - 1] == "LOOP"))
    return inside


def span(kinds, *ops):
    return [row("SPAN")] + [row(name) for name in ops] + [row("END", int(bool(kinds) and kinds[-1] == "LOOP"))]


def deep():
    """Blocks 64 and 65 deep."""
    halt = [row("HALT")]
    chain = ["SPLIT"] * 63
    base = nested(chain, span(chain)) + halt
    out = List("deep", input_of(base))
    out.add("all SPLIT", input_of(base), number=0)
    for kind in ("CALL", "LOOP", "DYNCALL"):
        kinds = [kind] * 63
        out.add("all %s" % kind, input_of(nested(kinds, span(kinds)) + halt), number=0)
    kinds = ["SPLIT"] * 62 + ["JOIN"]
    out.add("JOIN at the last but one", input_of(nested(kinds, span(kinds)) + halt), number=0)
    for kind in ("SPLIT", "JOIN", "LOOP", "CALL", "SYSCALL", "DYN", "DYNCALL"):
        kinds = chain + [kind]
        out.add("%s where the last is allowed" % kind, input_of(nested(kinds, span(kinds)) + halt), number=15, at=64)
    for kind in ("SPLIT", "JOIN", "LOOP"):
        kinds = chain + ["SPLIT", kind]
        inside = nested(kinds, span(kinds)) + halt
        out.add("%s where none is allowed" % kind, input_of(inside), number=15, at=64)
    for name in ("OP", "PUSH", "RESPAN", "END", "REPEAT", "HALT"):
        out.add("%s where none is allowed" % name, input_of([row("SPLIT")] * 64 + [row(name)] + halt), number=12, at=64)
    for name in ("SPLIT", "SPAN"):
        out.add("%s in a SPAN" % name, input_of(nested(chain, [row("SPAN"), row(name), row("END")]) + halt), number=12, at=64)
    out.add("rows end where none is allowed", input_of([row("SPLIT")] * 64), number=12, at=64)
    out.add("rows end one block before", input_of([row("SPLIT")] * 63), number=12, at=63)
    out.add("too deep and no word behind", input_of([row("SPLIT")] * 70), number=15, at=64)
    out.add("no word before too deep", input_of([row("SPLIT")] * 30 + [row("REPEAT")] + [row("SPLIT")] * 70), number=12, at=30)
    out.add("in_span where none is allowed", input_of([row("SPLIT")] * 64 + [[NAMED["SPAN"], 1, 0, 0]] + halt), number=12, at=64)
    # the second child of a JOIN, and the second pass of a LOOP, as deep
    second = [row("JOIN"), row("SPAN"), row("END")] + nested(chain, span(chain)) + [row("END")] + halt
    out.add("second child too deep", input_of(second), number=15, at=66)
    second = [row("JOIN"), row("SPAN"), row("END")] + nested(chain[1:], span(chain[1:])) + [row("END")] + halt
    out.add("second child as deep as allowed", input_of(second), number=0)
    loop = [row("LOOP", count=2), row("SPAN"), row("END", 1), row("REPEAT")]
    out.add("second pass as deep as allowed", input_of(loop + one("SPLIT", nested(chain[2:], span(chain[2:])), 1) + [row("END")] + halt), number=0)
    out.add("second pass too deep", input_of(loop + one("SPLIT", nested(chain[1:], span(chain[1:])), 1) + [row("END")] + halt), number=15, at=67)
    # flags and counts at the deepest
    kinds = ["LOOP"] * 63
    rows = nested(kinds, span(kinds)) + halt
    out.add("flag of the deepest END", input_of(rows, changed=[(49 * 64 + H4, 0)]), number=13, at=64)
    out.add("count of the deepest LOOP", input_of(rows, changed=[(49 * 62 + COUNT, 2)]), number=13, at=62)
    out.add("fewer depths than rows", input_of(rows, depths=128), number=11)
    return out


class Maker:
    """Random trees."""
    def __init__(self, rng):
        self.rng = rng

    def block(self, left, body=False):
        kind = self.rng.choice(["SPAN", "SPAN"] + list(START) if left > 1 else ["SPAN"])
        if kind == "SPAN":
            inside = [row(self.rng.choice(["OP", "PUSH", "OP", "RESPAN"]), self.rng.randrange(3), self.rng.randrange(3)) for _ in range(self.rng.randrange(4))]
            return [row("SPAN", count=self.rng.randrange(4))] + inside + [row("END", int(body))]
        if kind == "LOOP":
            passes = self.rng.choice([1, 1, 2, 3])
            out = [row("LOOP", count=passes)]
            for k in range(passes):
                out += ([row("REPEAT", 1)] if k else []) + self.block(left - 1, True)
            return out + [row("END", int(body))]
        return [row(kind)] + [r for _ in range(1 + (kind == "JOIN")) for r in self.block(left - 1)] + [row("END", int(body))]


def unreduced():
    """Cells from p on: the reading of a trace is that of its reduced cells, and a row view hands back the cells as they are."""
    out = List("cells", input_of(TRACE))
    size = len(TRACE)

    def changed(number, numbers):
        return TRACE[:number] + [numbers] + TRACE[number + 1:]

    def raised(rows, which):
        return [[numbers[0]] + [cell + P if which(cell) else cell for cell in numbers[1:]] for numbers in rows]

    for k in range(49):
        if k not in (*range(BITS, BITS + 7), H4, IN_SPAN, COUNT):
            out.add("cell that is not read", input_of(TRACE, asked=k % size, changed=[(49 * (k % size) + k, (P, BIG)[k % 2])]), number=0)
    out.add("all rows", input_of(raised(TRACE, lambda cell: True), asked=5), number=0)
    out.add("all rows but their counts", input_of([numbers[:1] + [P + numbers[1], P + numbers[2], numbers[3]] for numbers in TRACE]), number=0)
    for n, (own, numbers) in enumerate(zip(NAMES, TRACE)):
        opcode, in_span, h4, count = numbers
        out.add("row", input_of(changed(n, raised([numbers], lambda cell: True)[0])), number=0)
        out.add("in_span of another row", input_of(changed(n, [opcode, P + 1 - in_span, h4, count])), number=12, at=n)
        out.add("in_span", input_of(changed(n, [opcode, (P + 2, BIG)[n % 2], h4, count])), number=12, at=n)
        for k in (n % 7, (n + 3) % 7):
            bit = opcode >> k & 1
            out.add("bit cell", input_of(TRACE, asked=n, changed=[(49 * n + BITS + k, P + bit)]), number=0)
            out.add("bit cell that is no bit", input_of(TRACE, changed=[(49 * n + BITS + k, (P + 2, P + 3, BIG)[k % 3])]), number=12, at=n)
            # the other bit: as the other bit below p
            v = input_of(TRACE, changed=[(49 * n + BITS + k, 1 - bit)])
            (number, failed, _, _), _ = answers(v)
            out.add("bit cell of another opcode", input_of(TRACE, changed=[(49 * n + BITS + k, P + 1 - bit)]), number=number, at=failed)
        if own == "END":
            out.add("flag", input_of(changed(n, [opcode, in_span, P + 1 - h4, count])), number=13, at=n)
            out.add("flag", input_of(changed(n, [opcode, in_span, P + 2, count])), number=13, at=n)
        if own == "LOOP":
            for wrong in (P + count + 1, P + count - 1, BIG):
                out.add("count", input_of(changed(n, [opcode, in_span, h4, wrong])), number=13, at=n)
    # random traces, as they are and changed: each cell raised or not
    rng = random.Random(2060)
    maker = Maker(rng)
    for k in range(12):
        rows = maker.block(rng.randrange(2, 6)) + [row("HALT")]
        if k % 3 == 2:
            j = rng.randrange(len(rows))
            rows = rows[:j] + [[rng.randrange(128), rng.randrange(2), rng.randrange(2), rng.randrange(3)]] + rows[j + 1:]
        if len(rows) < 40:
            (number, failed, _, _), _ = answers(input_of(rows))
            out.add("random trace", input_of(raised(rows, lambda cell: rng.randrange(2)), asked=rng.randrange(len(rows))), number=number, at=failed)
    return out


def randoms():
    """Random traces, and random rows changed in them."""
    rng = random.Random(2056)
    maker = Maker(rng)
    out = List("random", input_of([]))
    accepted = 0
    while accepted < 45:
        rows = maker.block(rng.randrange(2, 7))
        halts = rng.randrange(1, 4)
        if not 2 < len(rows) < 48:
            continue
        rows += [row("HALT", rng.randrange(2), rng.randrange(2))] * halts
        size = len(rows)
        out.add("random trace", input_of(rows, depths=size + rng.randrange(4), asked=rng.randrange(size + 1)), number=0)
        accepted += 1
        for _ in range(2):
            other = list(rows)
            k, j = rng.randrange(size), rng.randrange(size)
            match = rng.randrange(4)
            if match == 0:
                other[k], other[j] = other[j], other[k]
            elif match == 1:
                other[k] = [rng.randrange(128), rng.randrange(2), rng.randrange(2), rng.randrange(3)]
            elif match == 2:
                other[k] = other[k][:2] + [rng.randrange(3), rng.randrange(4)]
            else:
                other = other[:k] + other[k + 1:]
            out.add("random change", input_of(other, asked=rng.randrange(size + 1)))
    return out


def listing():
    """C10's listing as a trace, its rows one after another."""
    rows = [row("LOOP", count=2), row("SPAN", count=1), row("OP"), row("END", 1), row("REPEAT", 1), row("SPAN", count=1), row("OP"), row("END", 1), row("END"), row("HALT")]
    out = List("listing", input_of(rows))
    out.add("the loop of two passes", input_of(rows, asked=9), number=0)
    for count in (0, 1, 3, P - 1):
        out.add("count", input_of([row("LOOP", count=count)] + rows[1:]), number=13, at=0)
    for h4 in (0, 2):
        out.add("flag of the first body", input_of(rows[:3] + [row("END", h4)] + rows[4:]), number=13, at=3)
        out.add("flag of the last body", input_of(rows[:7] + [row("END", h4)] + rows[8:]), number=13, at=7)
    for h4 in (1, 2):
        out.add("flag of the loop", input_of(rows[:8] + [row("END", h4), rows[9]]), number=13, at=8)
    out.add("no HALT", input_of(rows[:9]), number=12, at=9)
    for name in OPCODES[:12] + ["OP"]:
        out.add("HALT, then %s" % name, input_of(rows + [row(name)]), number=12, at=10)
        out.add("HALT, %s, HALT" % name, input_of(rows + [row(name), row("HALT")]), number=12, at=10)
    out.add("HALT alone", input_of([row("HALT")]), number=12, at=0)
    out.add("a second block", input_of(rows[:9] + rows), number=12, at=9)
    out.add("many HALT", input_of(rows + [row("HALT", 1, 1)] * 100, depths=112), number=0)
    out.add("SPAN END", input_of([row("SPAN"), row("END"), row("HALT")]), number=0)
    out.add("a body and no END", input_of([row("LOOP", count=1), row("SPAN"), row("END", 1), row("HALT")]), number=12, at=3)
    out.add("a loop without a body", input_of([row("LOOP"), row("END"), row("HALT")]), number=12, at=1)
    return out


if __name__ == "__main__":
    os.makedirs(os.path.join(HERE, "data"), exist_ok=True)
    for name in os.listdir(os.path.join(HERE, "data")):
        os.remove(os.path.join(HERE, "data", name))
    total = 0
    for made in (listing(), lengths(), unreduced(), faults(), deep(), randoms()):
        made.write()
        total += len(made.vectors)
        print(made.name, len(made.vectors), dict(sorted(made.numbers_of.items())))
    with open(os.path.join(HERE, "stdout"), "w") as file:
        for name, count in List.files:
            file.write("%s: %d of %d right\n" % (name, count, count))
    print(total, List.files)

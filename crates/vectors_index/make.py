#!/usr/bin/env python3
"""Writes the lists of data/ and the file stdout beside this file. Rows, traces and the reader's answers come from the model in
vectors_reader/make.py; the index and each row's block from this file: END rows by counting, blocks by the shortest stretch of rows around a
row. Random choices come from a fixed seed. src/build_list.rt and src/lookup_list.rt say how a list is laid out."""
import importlib.util
import os
import random

HERE = os.path.dirname(os.path.abspath(__file__))
spec = importlib.util.spec_from_file_location("reader_model", os.path.join(HERE, "..", "vectors_reader", "make.py"))
model = importlib.util.module_from_spec(spec)
spec.loader.exec_module(model)
row, TRACE, PROFILE, P = model.row, model.TRACE, model.PROFILE, model.P
NONE, REFUSED, NOWHERE = 999999, 1000000, 2**40


# ---- The model ------------------------------------------------------------------------------------------------------------------

def blocks_of(tokens):
    """(start, END) of each block in the order of the start rows: the END is where as many blocks have ended as began from the start on."""
    out = []
    for start, name in enumerate(tokens):
        if name in model.START:
            level, at = 0, start
            while True:
                level += (tokens[at] in model.START) - (tokens[at] == "END")
                if level == 0:
                    break
                at += 1
            out.append((start, at))
    return out


def around(blocks, row_number):
    """The place of the shortest block that has the row, or None."""
    having = [(end - start, k) for k, (start, end) in enumerate(blocks) if start <= row_number <= end]
    return min(having)[1] if having else None


def index_of(blocks):
    out = []
    for k, (start, end) in enumerate(blocks):
        outer = around([b for b in blocks if b[0] < start], start)
        out += [start, end, start if outer is None else [b for b in blocks if b[0] < start][outer][0]]
    return out


def look_up(numbers, row_number):
    """What a look-up tells."""
    if len(numbers) % 3:
        return REFUSED + 11
    found = [k for k in range(len(numbers) // 3) if numbers[3 * k] <= row_number <= numbers[3 * k + 1]]
    return found[-1] if found else NONE


def build(rows, cells, lent, step, place, value):
    """The numbers of a vector behind its rows."""
    v = model.input_of(rows, PROFILE[:13] + [step], cells=cells, depths=10**6, changed=[(place, value)])
    lent_cells = model.buffer_of(v)[:cells]
    number, failed, _, _ = model.read(v[0:14], lent_cells, 10**6)
    if number:
        return [number, failed, 0]
    tokens = [model.token(PROFILE, [cell % P for cell in lent_cells[k:k + 49]]) for k in range(0, cells, 49)]
    blocks = blocks_of(tokens)
    if lent < 3 * len(blocks):
        return [27, 0, 0]
    places = [around(blocks, n) for n in range(len(rows) + 1)]
    return [0, 0, len(blocks)] + index_of(blocks) + [NONE if k is None else k for k in places]


# ---- Lists ----------------------------------------------------------------------------------------------------------------------

FILES = []


def write(name, vectors):
    """Files of at most 7,400 numbers and 60,000 bytes."""
    files, text, numbers, size = [], [], 1, 20
    for words, given in vectors:
        assert not any(c.isdigit() for c in words), words
        line = "%s: %s\n" % (words, " ".join(map(str, given)))
        if numbers + len(given) > 7400 or size + len(line) > 60000:
            files.append(text)
            text, numbers, size = [], 1, 20
        text.append(line)
        numbers += len(given)
        size += len(line)
    files.append(text)
    for k, text in enumerate(files):
        own = name if len(files) == 1 else "%s_%s" % (name, "abcdefgh"[k])
        with open(os.path.join(HERE, "data", own), "w") as file:
            file.write("vectors %d\n%s" % (len(text), "".join(text)))
        FILES.append((own, len(text)))


def vector(words, rows, lent=None, cells=None, step=2, place=NOWHERE, value=0, number=None):
    cells = 49 * len(rows) if cells is None else cells
    lent = 240 if lent is None else lent
    answer = build(rows, cells, lent, step, place, value)
    assert number is None or answer[0] == number, (words, number, answer)
    return words, [cells, lent, step, place, value, len(rows)] + [n for numbers in rows for n in numbers] + answer


HALT = [row("HALT")]
LISTING = [row("LOOP", count=2), row("SPAN", count=1), row("OP"), row("END", 1), row("REPEAT", 1), row("SPAN", count=1), row("OP"), row("END", 1), row("END"), row("HALT")]


def traces():
    out = [vector("the listing", LISTING, number=0), vector("each kind of row", TRACE, number=0), vector("SPAN END", [row("SPAN"), row("END")] + HALT * 3, number=0)]
    for lent in (9, 10, 11, 12):
        out.append(vector("as many as are needed, and more", LISTING, lent=lent, number=0))
    for kinds in (["SPLIT"] * 63, ["LOOP"] * 63, ["JOIN", "LOOP", "CALL", "DYN", "JOIN", "LOOP", "LOOP"]):
        out.append(vector("deep", model.nested(kinds, model.span(kinds, "OP")) + HALT, number=0))
    rng = random.Random(2057)
    maker = model.Maker(rng)
    while len(out) < 130:
        rows = maker.block(rng.randrange(3, 9))
        if 12 < len(rows) < 70:
            out.append(vector("random trace", rows + HALT * rng.randrange(1, 4), number=0))
    return out


def refused():
    out = []
    blocks = sum(name in model.START for name in model.NAMES)
    for lent in (0, 1, 2, 3, 3 * blocks - 3, 3 * blocks - 1):
        out.append(vector("too short", TRACE, lent=lent, number=27))
    for lent in (0, 8):
        out.append(vector("too short", LISTING, lent=lent, number=27))
    for lent in (0, 240):
        out.append(vector("cell from p on", LISTING, lent=lent, place=490 - 1, value=P, number=0 if lent else 27))
        out.append(vector("cell from p on and a step", LISTING, lent=lent, step=0, place=490 - 1, value=P, number=2))
        out.append(vector("bit cell from p on", LISTING, lent=lent, place=49 + 7, value=P + 2, number=12))
        out.append(vector("step", LISTING, lent=lent, step=0, number=2))
        out.append(vector("no multiple", LISTING, lent=lent, cells=489, number=11))
        out.append(vector("no rows", LISTING, lent=lent, cells=0, number=12))
        out.append(vector("no HALT", LISTING, lent=lent, cells=441, number=12))
        out.append(vector("a second block", LISTING[:9] + LISTING, lent=lent, number=12))
        out.append(vector("count", [row("LOOP", count=1)] + LISTING[1:], lent=lent, number=13))
        out.append(vector("flag", LISTING[:7] + [row("END")] + LISTING[8:], lent=lent, number=13))
        out.append(vector("too deep", [row("SPLIT")] * 65 + HALT, lent=lent, number=15))
    rng = random.Random(2058)
    for n in range(len(TRACE)):
        out.append(vector("a row dropped", TRACE[:n] + TRACE[n + 1:], lent=rng.choice([0, 3 * blocks - 1, 240])))
        out.append(vector("another row", TRACE[:n] + [row(rng.choice(model.OPCODES))] + TRACE[n + 1:], lent=rng.choice([0, 3 * blocks - 1, 240])))
    return out


def unreduced():
    """Traces with cells from p on: the index is that of the reduced cells."""
    rng = random.Random(2061)
    maker = model.Maker(rng)
    out = []

    def raised(rows, one_in=1):
        return [numbers[:1] + [cell + (0 if rng.randrange(one_in) else P) for cell in numbers[1:]] for numbers in rows]

    def same(words, rows, given=None, **more):
        given = raised(rows) if given is None else given
        out.append(vector(words, given, **more))
        plain = build(rows, 49 * len(rows), 240, 2, NOWHERE, 0)
        assert out[-1][1][6 + 4 * len(rows):] == plain, words

    same("the listing", LISTING)
    same("each kind of row", TRACE)
    same("SPAN END", [row("SPAN"), row("END")] + HALT * 3)
    for n in range(0, len(TRACE), 2):
        same("a row", TRACE, TRACE[:n] + raised(TRACE[n:n + 1]) + TRACE[n + 1:])
        k = n // 2 % 7
        same("a bit cell", TRACE, TRACE, place=49 * n + 7 + k, value=P + (TRACE[n][0] >> k & 1))
    for k in range(9):
        rows = maker.block(rng.randrange(3, 7)) + HALT
        if len(rows) < 60:
            same("random trace", rows, raised(rows, 1 + k % 3))
    out.append(vector("count", raised([row("LOOP", count=1)] + LISTING[1:]), number=13))
    out.append(vector("flag", raised(LISTING[:7] + [row("END")] + LISTING[8:]), number=13))
    out.append(vector("in_span", LISTING[:2] + [[5, P + 2, 0, 0]] + LISTING[3:], number=12))
    out.append(vector("too short", raised(LISTING), lent=8, number=27))
    return out


def lookups():
    out = []

    def add(words, numbers, asked):
        out.append((words, [len(numbers)] + numbers + [asked, look_up(numbers, asked)]))

    rng = random.Random(2059)
    large = 2**32 - 1
    for asked in (0, 1, large, 2**32, 2**64 - 1):
        add("no numbers", [], asked)
        add("all rows", [0, large, 0], asked)
        add("the first row", [0, 0, 7], asked)
        add("END before the start", [large, 0, 0], asked)
        add("the last counts", [0, large, 0, 0, large, 0], asked)
    for size in range(0, 13):
        add("lengths", [rng.randrange(20) for _ in range(size)], rng.randrange(20))
    for _ in range(400):
        size = rng.choice([3, 6, 9, 12, 15, 15, 14, 7])
        add("random numbers", [rng.randrange(12) for _ in range(size)], rng.randrange(13))
    return out


if __name__ == "__main__":
    os.makedirs(os.path.join(HERE, "data"), exist_ok=True)
    for name in os.listdir(os.path.join(HERE, "data")):
        os.remove(os.path.join(HERE, "data", name))
    for name, made in (("traces", traces()), ("cells", unreduced()), ("refused", refused()), ("lookups", lookups())):
        write(name, made)
    with open(os.path.join(HERE, "stdout"), "w") as file:
        for name, count in FILES:
            file.write("%s: %d of %d right\n" % (name, count, count))
    print(FILES)

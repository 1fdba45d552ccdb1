#!/usr/bin/env python3
"""Writes the lists of data/ and the file stdout beside this file. The texts and the answers come from the model in this file, which is change
request N3 alone: a text is good where it is the dump of the rows that its lines set. Random choices come from a fixed seed. src/write_list.rt
and src/read_list.rt say how a list is laid out."""
import os
import random
import re

HERE = os.path.dirname(os.path.abspath(__file__))
P = 2**64 - 2**32 + 1
LARGEST = 2**64 - 1


# ---- The model ------------------------------------------------------------------------------------------------------------------

def several(name, count):
    return ["%s%d" % (name, k) for k in range(count)]


NAMES = (["clk", "ctx"] + several("fn_hash", 4) + ["addr"] + several("op_bit", 7) + several("h", 8) + ["in_span", "group_count", "op_index"]
         + several("batch_flag", 3) + several("extra", 2) + several("stack", 16) + several("b", 2) + ["helper"])
IDENTIFIERS = [chr(ord("!") + k) for k in range(49)]
HEADER = "".join(line + "\n" for line in
                 ["$timescale 1 ns $end", "$scope module trace $end"]
                 + ["$var wire 64 %s %s $end" % pair for pair in zip(IDENTIFIERS, NAMES)]
                 + ["$upscope $end", "$enddefinitions $end"])


def dump(cells):
    """The dump of whole rows."""
    text, last = HEADER, [None] * 49
    for number in range(len(cells) // 49):
        row = [cell % P for cell in cells[49 * number:49 * number + 49]]
        text += "#%d\n" % number
        text += "".join("b%s %s\n" % (format(row[k], "b"), IDENTIFIERS[k]) for k in range(49) if row[k] != last[k])
        last = row
    return text


def undump(text):
    """The cells that a text is the dump of, or None."""
    rows = []
    for line in text.split("\n"):
        value = re.fullmatch("b([01]+) ([!-Q])", line)
        if line.startswith("#"):
            rows.append(list(rows[-1]) if rows else [0] * 49)
        elif value and rows:
            rows[-1][ord(value[2]) - ord("!")] = int(value[1], 2)
    cells = [cell for row in rows for cell in row]
    return cells if rows and all(cell < P for cell in cells) and dump(cells) == text else None


def is_whole(cells):
    return cells % 49 == 0 and cells <= 49 * 2**24


def write(cells, lent):
    """Number, bytes, the dump behind its header."""
    if not cells or not is_whole(len(cells)):
        return [11, 0]
    text = dump(cells)
    return [28, 0] if lent < len(text) else [0, len(text)] + list(text[len(HEADER):].encode())


def read(text, lent):
    """Number, rows, cells."""
    cells = undump(text)
    if not is_whole(lent):
        return [11, 0]
    if cells is None:
        return [29, 0]
    return [11, 0] if lent < len(cells) else [0, len(cells) // 49] + cells


# ---- Lists ----------------------------------------------------------------------------------------------------------------------

FILES = []


def put(name, shared, vectors):
    """Files of at most 7,600 numbers and 60,000 bytes, each with the text that its vectors share."""
    head = "text: %d %s\n" % (len(shared), " ".join(map(str, shared.encode("latin-1"))))
    files, text, numbers, size = [], [], 2 + len(shared), 20 + len(head)
    for words, given in vectors:
        assert not any(c.isdigit() for c in words), words
        line = "%s: %s\n" % (words, " ".join(map(str, given)))
        if numbers + len(given) > 7600 or size + len(line) > 60000:
            files.append(text)
            text, numbers, size = [], 2 + len(shared), 20 + len(head)
        assert numbers + len(given) <= 7600 and size + len(line) <= 60000, words
        text.append(line)
        numbers += len(given)
        size += len(line)
    files.append(text)
    for k, text in enumerate(files):
        own = name if len(files) == 1 else "%s_%s" % (name, "abcdefghij"[k])
        with open(os.path.join(HERE, "data", own), "w") as file:
            file.write("vectors %d\n%s%s" % (len(text), head, "".join(text)))
        FILES.append((own, len(text)))


# ---- Writing --------------------------------------------------------------------------------------------------------------------

ZEROS = [0] * 49
COLUMNS = list(range(49))


def with_cell(row, column, value):
    return row[:column] + [value] + row[column + 1:]


class Writes:
    """Vectors that write a buffer."""

    def __init__(self):
        self.out = []

    def add(self, words, cells, lent=None, number=0):
        if lent is None:
            lent = len(dump(cells))
        answer = write(cells, lent)
        assert answer[0] == number, (words, answer[:2])
        self.out.append((words, [len(cells)] + cells + [lent] + answer))


def lent_texts(writes):
    size = len(dump(ZEROS))
    writes.add("one row", ZEROS)
    writes.add("one row, each cell its column", COLUMNS)
    for more in (1, 7, 49, 1000):
        writes.add("a longer text", COLUMNS, len(dump(COLUMNS)) + more)
    for lent in (0, 1, 1399, 1400, 1401, size - 1):
        writes.add("a text too short", ZEROS, lent, 28)
        writes.add("a text too short", [P] * 49, lent, 28)
    writes.add("a text too short", COLUMNS * 3, len(dump(COLUMNS * 3)) - 1, 28)
    for lent in (0, 1400, size, 4000):
        writes.add("no rows", [], lent, 11)
        for cells in (1, 48, 50, 97):
            writes.add("no multiple", [5] * cells, lent, 11)


def written_rows(writes):
    for value in (1, 2, 2**32 - 1, 2**32, 2**63, P - 1, P, P + 1, P + 2**31, LARGEST):
        for column in (0, 14, 48):
            writes.add("one cell", with_cell(ZEROS, column, value))
    writes.add("from p on", [P + k for k in COLUMNS])
    writes.add("from p on, all else reduced", [P + k if k % 2 else k for k in COLUMNS])
    writes.add("large cells", [LARGEST - k if k % 2 else P - 1 - k for k in range(24)] + ZEROS[24:])
    writes.add("two equal rows", COLUMNS * 2)
    writes.add("two equal rows, p added in one", COLUMNS + [P + k for k in COLUMNS])
    writes.add("two equal rows, p taken in one", [P + k for k in COLUMNS] + COLUMNS)
    writes.add("p below zero and zero below p", ZEROS + [P] * 49 + ZEROS)
    writes.add("a value that comes and goes", ZEROS + with_cell(ZEROS, 3, 5) + ZEROS)
    writes.add("other rows", COLUMNS + COLUMNS[::-1])
    writes.add("equal rows, times of two digits", COLUMNS * 12)
    for column in range(0, 49, 3):
        writes.add("one change", ZEROS + with_cell(ZEROS, column, 1 + column))


def random_rows(writes):
    rng = random.Random(2060)
    for _ in range(30):
        row, cells = [rng.randrange(3) for _ in range(49)], []
        for _ in range(rng.randrange(1, 13)):
            cells += row
            for _ in range(rng.choice([0, 1, 2, 6])):
                row = with_cell(row, rng.randrange(49), rng.choice([0, 1, P, P + 1, rng.randrange(40), rng.randrange(2**64)]))
        writes.add("random rows", cells)


def writes():
    made = Writes()
    lent_texts(made)
    written_rows(made)
    random_rows(made)
    return made.out


# ---- Reading --------------------------------------------------------------------------------------------------------------------

ONE = with_cell(with_cell(COLUMNS, 5, P - 1), 20, 2**63)
FOUR = ONE + ONE + with_cell(with_cell(with_cell(ONE, 0, 9), 7, 0), 48, 2**40) + with_cell(ZEROS, 1, 1)
TWELVE = [cell for n in range(12) for cell in with_cell(ZEROS, 0, n)]


class Reads:
    """Vectors that change one text."""

    def __init__(self, cells):
        self.cells, self.text, self.out = cells, dump(cells), []

    def replace(self, words, start, end, instead, lent=None, number=None):
        text = self.text[:start] + instead + self.text[end:]
        lent = len(self.cells) if lent is None else lent
        answer = read(text, lent)
        assert number is None or answer[0] == number, (words, text[max(0, start - 9):start + 20], answer[:2])
        self.out.append((words, [start, end, len(text), len(instead)] + list(instead.encode("latin-1")) + [lent] + answer))

    def change(self, words, old, new, number=29, lent=None):
        assert self.text.count(old) == 1, (words, old)
        start = self.text.index(old)
        self.replace(words, start, start + len(old), new, lent, number)

    def same(self, words, lent, number=0):
        self.replace(words, 0, 0, "", lent, number)

    def lines(self):
        ends = [k + 1 for k in range(len(self.text)) if self.text[k] == "\n"]
        return list(zip([0] + ends[:-1], ends))


def lengths(reads):
    """Buffers as long as needed, longer, and shorter; and in the order of the refusals those that no buffer is."""
    cells = len(reads.cells)
    for more in (0, 49, 98):
        reads.same("as many cells as are needed, and more", cells + more)
    for lent in range(0, cells, 49):
        reads.same("too short", lent, 11)
        reads.replace("too short for a wrong text", len(reads.text), len(reads.text), "x", lent, 29)
        reads.replace("too short for a header", 1400, len(reads.text), "", lent, 29)
    for lent in (1, 48, cells - 1, cells + 1, cells + 48):
        reads.same("no multiple", lent, 11)
        reads.replace("no multiple, and a wrong text", len(reads.text), len(reads.text), "x", lent, 11)
        reads.replace("no multiple, and no text", 0, len(reads.text), "", lent, 11)


def ends(reads):
    size = len(reads.text)
    reads.replace("no text", 0, size, "", number=29)
    reads.replace("header only", 1400, size, "", number=29)
    reads.replace("header without its last line feed", 1399, size, "", number=29)
    reads.replace("no last line feed", size - 1, size, "", number=29)
    for byte in ("\n", " ", "\r", "\0", "#", "b", "!"):
        reads.replace("a byte behind", size, size, byte, number=29)
    reads.replace("a byte in front", 0, 0, "\n", number=29)
    reads.replace("the text twice", size, size, reads.text, number=29)
    reads.replace("CR LF", 0, size, reads.text.replace("\n", "\r\n"), number=29)
    reads.replace("CR LF behind the header", 1400, size, reads.text[1400:].replace("\n", "\r\n"), number=29)
    reads.replace("CR LF at the end", size - 1, size, "\r\n", number=29)
    for cut in range(1400, size, 29):
        reads.replace("cut", cut, size, "")


def rows_and_lines(reads):
    rows = len(reads.cells) // 49
    reads.replace("a row more", len(reads.text), len(reads.text), "#%d\n" % rows, 49 * rows + 49, 0)
    reads.replace("a row more, too short", len(reads.text), len(reads.text), "#%d\n" % rows, 49 * rows, 11)
    reads.replace("a row more, its time wrong", len(reads.text), len(reads.text), "#%d\n" % (rows + 1), 49 * rows + 49, 29)
    lines = reads.lines()
    for k, (start, end) in enumerate(lines):
        if k <= 102 or k % 2:  # all lines of the header and of the first row, and some behind them
            reads.replace("a line removed", start, end, "")
        if k % 3 == 0:
            reads.replace("a line twice", end, end, reads.text[start:end], number=29)
        if k % 3 == 1 and k + 1 < len(lines):
            after = reads.text[end:lines[k + 1][1]]
            reads.replace("two lines exchanged", start, lines[k + 1][1], after + reads.text[start:end], number=29)


def header_bytes(reads):
    for at in (0, 1, 20, 21, 59, 700, 1398, 1399):
        reads.replace("another byte in the header", at, at + 1, chr(ord(reads.text[at]) ^ 1), number=29)


def values(reads):
    """Of the first row's lines `b1 "` and `b101111 P`."""
    for old in ("\nb1 \"\n", "\nb101111 P\n"):
        digits, name = old[2:-1].split(" ")

        def value(words, numeral, number=29):
            reads.change(words, old, "\nb%s %s\n" % (numeral, name), number)

        value("p", format(P, "b"))
        value("p and one", format(P + 1, "b"))
        value("the largest number", format(LARGEST, "b"))
        value("one less than p", format(P - 1, "b"), 0)
        value("sixty-five digits", format(2**64, "b"))
        value("sixty-five digits", format(2**64 + int(digits, 2), "b"))
        value("sixty-five digits, zeros in front", digits.rjust(65, "0"))
        value("sixty-four digits, zeros in front", digits.rjust(64, "0"))
        value("a hundred digits", "1" * 100)
        value("a leading zero", "0" + digits)
        value("another value", "10", 0)
        value("zero", "0", None)
        value("two zeros", "00")
        value("no digits", "")
        value("another digit", "2")
        value("a sign", "+" + digits)
        value("a space more", digits + " ")
        value("unknown", "x")
        for line in ("b%s%s\n", "B%s %s\n", "%s %s\n", " b%s %s\n", "b%s\t%s\n", "b%s %s \n", "b%s %s", "b%s %s\n\n", "b%s %s\r\n"):
            reads.change("another form", old, "\n" + line % (digits, name), 29)
        for other in ("R", " ", "!!", "~", "\x80", "#", "$"):
            reads.change("another identifier", old, "\nb%s %s\n" % (digits, other), 29)


def times(reads):
    reads.change("a leading zero of a time", "\n#0\n", "\n#00\n")
    for line in ("#1", "#", "#-0", "#+0", "# 0", "#0 ", "#x", "0", "$dumpvars\n#0", "#0\n$dumpvars", "#0\n#0", "#0\n#1", "#18446744073709551616", "#0\r"):
        reads.change("another first time", "\n#0\n", "\n" + line + "\n")


def changes(reads):
    """Of the four rows."""
    for line in ("#2", "#01", "#10", "#3", "#1\n#1", "#1\nb0 !", "#1\nb1 \"", "#1\nb%s &" % format(P - 1, "b"), "#1\nb110000 Q"):
        reads.change("another second time, or an unchanged value", "\n#1\n", "\n" + line + "\n")
    reads.change("a change", "\n#1\n", "\n#1\nb1 !\n", 0)
    reads.change("a change to the next row's value", "\n#1\n", "\n#1\nb1001 !\n", 29)
    reads.change("a change in each row", "\n#1\n", "\n#1\nb11 \"\n", 0)
    reads.change("changes in column order", "\n#1\n", "\n#1\nb1 !\nb11 \"\n", 0)
    reads.change("changes in another order", "\n#1\n", "\n#1\nb11 \"\nb1 !\n", 29)
    reads.change("a change twice", "\n#1\n", "\n#1\nb1 !\nb10 !\n", 29)
    reads.change("a change away and back", "\n#1\n", "\n#1\nb1 !\nb0 !\n", 29)
    reads.change("a changed value of p", "\n#1\n", "\n#1\nb%s !\n" % format(P, "b"), 29)
    reads.change("a changed value with a leading zero", "\n#1\n", "\n#1\nb01 !\n", 29)
    reads.change("a changed value of sixty-five digits", "\n#1\n", "\n#1\nb%s !\n" % format(2**64 + 1, "b"), 29)
    reads.change("an unchanged value of sixty-five digits", "\n#1\n", "\n#1\nb%s !\n" % format(2**64, "b"), 29)
    reads.change("no time line", "\n#1\n", "\n", 29)
    reads.change("a row removed, the later time as before", "\n#1\n#2\n", "\n#1\n", 29)
    for number in (1, 2, 3):
        start = reads.text.index("\n#%d\n" % number) + 1
        reads.replace("cut before a row", start, len(reads.text), "", number=0)
        reads.replace("cut behind a time line", start + 3, len(reads.text), "", number=0)


def anywhere(reads, seed, count):
    rng = random.Random(seed)
    for _ in range(count):
        start = rng.randrange(1400, len(reads.text)) if rng.randrange(6) else rng.randrange(1400)
        end = min(len(reads.text), start + rng.choice([0, 1, 1, 2, 6]))
        instead = "".join(rng.choice("01#b !\n\"Q$R2") for _ in range(rng.choice([0, 1, 1, 2, 3])))
        reads.replace("some bytes replaced", start, end, instead, 49 * rng.choice([len(reads.cells) // 49, len(reads.cells) // 49 + 1]))


def reads():
    one, four, twelve = Reads(ONE), Reads(FOUR), Reads(TWELVE)
    two = Reads(COLUMNS + [P + k for k in COLUMNS])
    for each in (one, two, four, twelve):
        lengths(each)
    for each in (one, four):
        ends(each)
        rows_and_lines(each)
        values(each)
        times(each)
    header_bytes(one)
    changes(four)
    anywhere(one, 2061, 150)
    anywhere(four, 2062, 150)
    for old, new in (("#9\n", "#09\n"), ("#10\n", "#010\n"), ("#10\n", "#1\n"), ("#10\n", "#9\n"), ("#10\n", "#0\n"), ("#11\n", "#12\n"), ("#11\n", "#1\n"), ("#11\n", "#110\n"), ("#11\n", "#1 1\n")):
        twelve.change("another time", "\n" + old, "\n" + new)
    anywhere(twelve, 2063, 60)
    return (("one", one), ("two", two), ("four", four), ("twelve", twelve))


if __name__ == "__main__":
    os.makedirs(os.path.join(HERE, "data"), exist_ok=True)
    for name in os.listdir(os.path.join(HERE, "data")):
        os.remove(os.path.join(HERE, "data", name))
    put("writes", HEADER, writes())
    for name, made in reads():
        put("reads_" + name, made.text, made.out)
    with open(os.path.join(HERE, "stdout"), "w") as file:
        for name, count in FILES:
            file.write("%s: %d of %d right\n" % (name, count, count))
    print(FILES, sum(count for _, count in FILES))

#!/usr/bin/env python3
"""Writes data/refused, data/syscall and data/states: the records of the first run of data/runs_01, changed so that they are refused, with the
number by docs/DECISIONS.md ("Replay of lent call records"); changed over a forest whose loop is a SYSCALL node (change request N8); and a few of
them replayed from other address states, with what they leave. src/refused.rt and src/states.rt say how the lists are laid out. The other lists
are made by rust/src/bin/make_answers.rs."""
import os
import re

HERE = os.path.dirname(os.path.abspath(__file__))
OVER = 2**32
LAST = OVER - 1
P = 2**64 - 2**32 + 1
BIG = 2**64 - 1
# The numbers of a record. A storing: continuation, node, batch, operation, flag, condition, presence of the word, of the info, its depth.
KIND, NODE, BATCH, OP, FLAG, CONDITION, WORD, INFO, INFO_DEPTH = 1, 2, 3, 4, 5, 6, 7, 12, 13
# A cycle: case of registers, forest, clk, ctx, depth.
CASE, FOREST, CLK, CTX, DEPTH = 0, 1, 2, 3, 24
# The first of its cells: fn_hash, stack top, overflow address, registers; of a storing the word and the info's address.
FN_HASH, TOP, OVERFLOW, REGISTERS, WORD_CELL, INFO_ADDR = 4, 8, 25, 26, 8, 14
# Records of the run: storings of StartNode, of the second one, of ResumeBasicBlock and FinishLoop; its first and its last cycle.
START, SECOND, RESUME, FINISH, CYCLE, END = 0, 2, 4, 8, 1, 17
# Numbers of the run, and the place of their count.
ALL, COUNT = 576, 0


def at(record, **numbers):
    """Changed numbers of a record, by their names above."""
    return {1 + 32 * record + globals()[name]: number for name, number in numbers.items()}


def lent(count):
    return {COUNT: count}


# What is wrong, the numbers changed, and the number refused by.
CASES = [
    ("as they are", {}, 0),
    # one number that encodes nothing
    ("continuation none", at(START, KIND=0), 23),
    ("continuation past the last", at(START, KIND=11), 23),
    ("node", at(START, NODE=OVER), 3),
    ("batch", at(RESUME, BATCH=OVER), 5),
    ("batch of a Respan", at(RESUME, KIND=8, BATCH=OVER), 5),
    ("operation", at(RESUME, OP=OVER), 6),
    ("flag", at(START, FLAG=2), 23),
    ("condition", at(FINISH, CONDITION=3), 23),
    ("presence of the word", at(START, WORD=2), 23),
    ("presence of the info", at(START, INFO=2), 23),
    ("depth of the info", at(START, INFO=1, INFO_DEPTH=OVER), 23),
    ("case of registers", at(CYCLE, CASE=19), 23),
    ("case of registers, the last record", at(END, CASE=19), 23),
    ("clk", at(CYCLE, CLK=OVER), 23),
    ("ctx", at(CYCLE, CTX=OVER), 23),
    ("depth", at(CYCLE, DEPTH=OVER), 23),
    ("clk of the last record", at(END, CLK=OVER), 23),
    ("part of a record", lent(ALL - 1), 11),
    ("one number of a record", lent(1), 11),
    # the largest numbers of their places; numbers that are not read
    ("clk, ctx and depth of full width", at(CYCLE, CLK=LAST, CTX=LAST, DEPTH=LAST), 0),
    ("depth of the info of full width", at(START, INFO=1, INFO_DEPTH=LAST), 0),
    ("numbers of a StartNode that are not read", at(START, BATCH=OVER, OP=OVER, INFO_DEPTH=OVER), 0),
    ("operation of a Respan", at(RESUME, KIND=8, OP=OVER), 0),
    ("EnterForest and a node", at(START, KIND=10, NODE=OVER), 4),
    ("EnterForest, batch and operation", at(START, KIND=10, BATCH=OVER, OP=OVER), 4),
    ("numbers of a cycle's registers that the case has not", at(CYCLE, REGISTERS=OVER), 0),
    ("forest that is not there", at(CYCLE, FOREST=OVER), 3),
    ("no records", lent(0), 0),
    # cells from p on
    ("cells of a cycle", at(CYCLE, FN_HASH=P, TOP=BIG, OVERFLOW=P + 1, REGISTERS=BIG), 0),
    ("helper value", at(RESUME + 1, CASE=8, REGISTERS=P + 5), 0),
    ("helper value of full width", at(RESUME + 1, CASE=8, REGISTERS=OVER), 9),
    ("word and address that are stored", at(START, WORD=1, WORD_CELL=P, INFO=1, INFO_ADDR=BIG), 0),
    # other numbers from p on stand for themselves
    ("continuation of p more", at(START, KIND=P + 1), 23),
    ("node of p", at(START, NODE=P), 3),
    ("batch of p", at(RESUME, BATCH=P), 5),
    ("operation of p", at(RESUME, OP=P), 6),
    ("flag of p", at(START, FLAG=P), 23),
    ("condition of p more", at(FINISH, CONDITION=P + 2), 23),
    ("presence of the word, p more", at(START, WORD=P + 1), 23),
    ("presence of the info, p", at(START, INFO=P), 23),
    ("depth of the info, p more", at(START, INFO=1, INFO_DEPTH=P + 20), 23),
    ("case of registers, p more", at(CYCLE, CASE=P + 18), 23),
    ("storing of p", at(START, CASE=P), 23),
    ("clk of p", at(CYCLE, CLK=P), 23),
    ("ctx of p", at(CYCLE, CTX=P), 23),
    ("depth of p more", at(CYCLE, DEPTH=P + 16), 23),
    ("forest of p", at(CYCLE, FOREST=P), 3),
    # two in one record: the lowest
    ("depth of the info and node", at(START, INFO=1, INFO_DEPTH=OVER, NODE=OVER), 3),
    ("depth of the info and batch", at(RESUME, INFO=1, INFO_DEPTH=OVER, BATCH=OVER), 5),
    ("depth of the info and batch of a Respan", at(RESUME, KIND=8, INFO=1, INFO_DEPTH=OVER, BATCH=OVER), 5),
    ("depth of the info and operation", at(RESUME, INFO=1, INFO_DEPTH=OVER, OP=OVER), 6),
    ("depth of the info and EnterForest", at(START, INFO=1, INFO_DEPTH=OVER, KIND=10), 23),
    ("depth of the info and flag", at(START, INFO=1, INFO_DEPTH=OVER, FLAG=2), 23),
    ("node and batch", at(RESUME, NODE=OVER, BATCH=OVER), 3),
    ("node and operation", at(RESUME, NODE=OVER, OP=OVER), 3),
    ("node and flag", at(START, NODE=OVER, FLAG=2), 3),
    ("node and condition", at(FINISH, NODE=OVER, CONDITION=3), 3),
    ("node and presence of the word", at(START, NODE=OVER, WORD=2), 3),
    ("node and presence of the info", at(START, NODE=OVER, INFO=2), 3),
    ("batch and operation", at(RESUME, BATCH=OVER, OP=OVER), 5),
    ("batch and flag", at(RESUME, BATCH=OVER, FLAG=2), 5),
    ("batch and condition", at(RESUME, BATCH=OVER, CONDITION=3), 5),
    ("batch and presence of the word", at(RESUME, BATCH=OVER, WORD=2), 5),
    ("batch and presence of the info", at(RESUME, BATCH=OVER, INFO=2), 5),
    ("operation and flag", at(RESUME, OP=OVER, FLAG=2), 6),
    ("operation and condition", at(RESUME, OP=OVER, CONDITION=3), 6),
    ("operation and presence of the word", at(RESUME, OP=OVER, WORD=2), 6),
    ("operation and presence of the info", at(RESUME, OP=OVER, INFO=2), 6),
    ("all that are wrong", at(RESUME, NODE=OVER, BATCH=OVER, OP=OVER, FLAG=2, CONDITION=3, WORD=2, INFO=1, INFO_DEPTH=OVER), 3),
    ("all but the node", at(RESUME, BATCH=OVER, OP=OVER, FLAG=2, CONDITION=3, WORD=2, INFO=1, INFO_DEPTH=OVER), 5),
    ("all but node and batch", at(RESUME, OP=OVER, FLAG=2, CONDITION=3, WORD=2, INFO=1, INFO_DEPTH=OVER), 6),
    ("clk and depth below the least", at(CYCLE, CLK=OVER, DEPTH=15), 23),
    ("ctx and forest that is not there", at(CYCLE, CTX=OVER, FOREST=OVER), 23),
    # what stands behind a number that names nothing is not read
    ("node and continuation", at(START, NODE=OVER, KIND=0), 23),
    ("node and continuation past the last", at(START, NODE=OVER, KIND=11), 23),
    ("node and continuation of p more", at(START, NODE=OVER, KIND=P + 1), 23),
    ("batch, operation and continuation past the last", at(RESUME, BATCH=OVER, OP=OVER, KIND=11), 23),
    ("depth of the info and continuation", at(START, INFO=1, INFO_DEPTH=OVER, KIND=0), 23),
    ("depth of the info and its presence", at(START, INFO=2, INFO_DEPTH=OVER), 23),
    ("clk and case of registers", at(CYCLE, CLK=OVER, CASE=19), 23),
    ("ctx and case of registers", at(CYCLE, CTX=OVER, CASE=19), 23),
    ("depth and case of registers", at(CYCLE, DEPTH=OVER, CASE=19), 23),
    ("forest and case of registers", at(CYCLE, FOREST=OVER, CASE=19), 23),
    # two records: the first
    ("flag, then clk", at(START, FLAG=2) | at(CYCLE, CLK=OVER), 23),
    ("clk, then node", at(CYCLE, CLK=OVER) | at(FINISH, NODE=OVER), 23),
    ("node, then clk", at(START, NODE=OVER) | at(CYCLE, CLK=OVER), 3),
    ("operation, then node", at(RESUME, OP=OVER) | at(FINISH, NODE=OVER), 6),
    ("continuation, then part of a record", at(START, KIND=0) | lent(ALL - 1), 23),
]


def later(changes, cycle):
    """The same numbers of the first cycle's record, in another cycle's."""
    return {place + 32 * (cycle - CYCLE): number for place, number in changes.items()}


def of_first_cycle(changes):
    return changes and all(1 + 32 * CYCLE <= place < 1 + 32 * (CYCLE + 1) for place in changes)


# What is wrong in the first cycle, in the second one and in the operation's, which stand behind a row.
for name, cycle in (("second cycle", SECOND + 1), ("the operation's cycle", RESUME + 1)):
    CASES += [(f"{words}, {name}", later(changes, cycle), number) for words, changes, number in CASES if of_first_cycle(changes)]
CASES += [("depth below the least, second cycle", at(SECOND + 1, DEPTH=15), 10), ("depth below the least, the operation's cycle", at(RESUME + 1, DEPTH=15), 10),
          ("as they are, again", {}, 0)]

# The run's nodes, and its step.
BLOCK, LOOP, STEP = 0, 1, 2
# The place of the loop's kind and child among the numbers of the nodes, behind their length, and the kind of a SYSCALL node.
LOOP_KIND, LOOP_CHILD, SYSCALL = 1 + 6 * LOOP, 2 + 6 * LOOP, 7

# The same where the loop is a SYSCALL node, whose start is the first cycle (31).
SYSCALL_CASES = [
    ("as they are", {}, 31),
    ("its storing alone", lent(32), 0),
    ("its storing and its cycle", lent(64), 31),
    # behind a row that is not written then
    ("behind the start of the block", at(START, NODE=BLOCK) | at(SECOND, NODE=LOOP) | lent(128), 31),
    ("behind an END", at(START, KIND=4, CONDITION=1) | at(SECOND, NODE=LOOP) | lent(128), 31),
    ("the block alone", at(START, NODE=BLOCK) | lent(64), 0),
    # other continuations of the node are as they were
    ("FinishCall", at(START, KIND=5) | lent(64), 0),
    ("FinishJoin", at(START, KIND=2) | lent(64), 0),
    ("FinishLoop with zero", at(START, KIND=4, CONDITION=1) | lent(64), 0),
    ("FinishLoop with one", at(START, KIND=4, CONDITION=2) | lent(64), 4),
    ("FinishDyn", at(START, KIND=6) | lent(64), 4),
    # what comes before it
    ("depth below the least", at(CYCLE, DEPTH=15), 10),
    ("clk", at(CYCLE, CLK=OVER), 23),
    ("forest that is not there", at(CYCLE, FOREST=OVER), 3),
    ("another node that is not there", at(START, NODE=2), 3),
    ("no address left", at(START, NODE=BLOCK) | at(SECOND, NODE=BLOCK) | at(RESUME, KIND=1, NODE=BLOCK) | at(RESUME + 2, KIND=1, NODE=LOOP), 20),
    # what comes behind it
    ("then clk", at(END, CLK=OVER), 31),
    ("then part of a record", lent(ALL - 1), 31),
]


def built(record):
    """The cells that a cycle builds, from its record."""
    top = record[TOP:TOP + 16][::-1]
    cells = [record[CLK] + 1, record[CTX]] + record[FN_HASH:FN_HASH + 4] + top + [record[DEPTH], record[OVERFLOW], record[DEPTH] - 16]
    return [cell % P for cell in cells]


def states(run):
    """What is replayed, the address state handed to it, the numbers changed, and what is left: rows, built cells, address state, positions.
    The state that is left is below p, also where no row moves it."""
    none, one = [0] + [0] * 25, [1] + built(run.records[1 + 32 * CYCLE:][:32])
    queues = run.parts[6:9]
    started, ended = [queues[0][1], queues[1][1]], queues[2][2:4]
    return [
        ("no records", [P + 5, P + 7], lent(0), none + [5, 7, 0, 0, 0]),
        ("no records, p and the largest number", [P, BIG], lent(0), none + [0, BIG - P, 0, 0, 0]),
        ("no records, the largest cell", [P - 1, 7], lent(0), none + [P - 1, 7, 0, 0, 0]),
        ("a storing", [P + 5, P + 7], lent(32), none + [5, 7, 0, 0, 0]),
        ("a row that sets both addresses", [P + 5, P + 7], lent(64), one + started + [1, 1, 0]),
        ("END", [P + 5, P + 7], at(START, KIND=3, NODE=LOOP) | lent(64), one + ended + [0, 0, 1]),
        ("RESPAN", [P + 5, P + 7], at(START, KIND=8, NODE=BLOCK) | lent(64), one + [5 + STEP, 7, 0, 0, 0]),
        ("RESPAN from the largest cell", [P - 1, BIG], at(START, KIND=8, NODE=BLOCK) | lent(64), one + [STEP - 1, BIG - P, 0, 0, 0]),
        ("REPEAT", [P + 5, P + 7], at(START, KIND=4, NODE=LOOP, CONDITION=2) | lent(64), one + [5, 7, 0, 0, 0]),
        ("operation", [P + 5, P + 7], at(START, KIND=7, NODE=BLOCK) | lent(64), one + [5, 7, 0, 0, 0]),
        ("operation, cells of its cycle", [P, P + 1], at(START, KIND=7, NODE=BLOCK) | at(CYCLE, FN_HASH=P, TOP=BIG, OVERFLOW=P + 1) | lent(64),
         one[:22] + [BIG - P] + one[23:24] + [1] + one[25:] + [0, 1, 0, 0, 0]),
        ("the whole run", [P + 5, P + 7], {}, run.left),
    ]


class Run:
    """The first run of a list: profile, address state, parts, records with their count before them, and what it leaves."""

    def __init__(self, v):
        self.numbers, self.profile, self.state = v, v[1:15], v[33:35]
        self.parts, place = [], 35
        for _ in range(9):
            self.parts.append(v[place:place + 1 + v[place]])
            place += len(self.parts[-1])
        self.records = v[place + 1:place + 2 + ALL]
        assert v[place] == 1 and self.records[0] == ALL
        self.left = v[place + 2 + ALL:place + 33 + ALL]


def write(name, run, lines):
    """A list of cases over the run."""
    assert not any(re.search(r"\d", words) for words, _ in lines)
    head = [("cases", [len(lines)]), ("profile", run.profile), ("address state", run.state)] + [("part", part) for part in run.parts]
    with open(os.path.join(HERE, "data", name), "w") as file:
        for words, numbers in head + [("records", run.records)]:
            file.write("%s %s\n" % (words, " ".join(map(str, numbers))))
        for words, text in lines:
            file.write("%s: %s\n" % (words, text))


def told(number, changes):
    return "%d, %d changed%s" % (number, len(changes), "".join("; %d %d" % change for change in changes.items()))


if __name__ == "__main__":
    with open(os.path.join(HERE, "data", "runs_01")) as file:
        run = Run(list(map(int, re.findall(r"\d+", file.read()))))
    write("refused", run, [(words, told(number, changes)) for words, changes, number in CASES])
    over = Run(run.numbers)
    assert over.parts[0][LOOP_KIND] == 5 and over.parts[0][LOOP_CHILD] == BLOCK
    over.parts[0][LOOP_KIND] = SYSCALL
    write("syscall", over, [(words, told(number, changes)) for words, changes, number in SYSCALL_CASES])
    write("states", run, [(words, "%d %d; %s = %s" % (*state, told(0, changes), " ".join(map(str, left))))
                          for words, state, changes, left in states(run)])

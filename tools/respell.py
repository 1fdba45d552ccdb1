#!/usr/bin/env python3
"""Turns the repository's own names to the spelling that the kit's port.py leaves to hand: words in snake case, types in camel case.

usage: python3 tools/respell.py [--table] [FOLDER]

FOLDER (default: the repository) holds crates/. tools/respell.tsv has a row for each name: how it was spelled, a tab, how it is spelled now. Run it
once, behind port.py and before any edit by hand. What turns: in .antt files the code and the comments; in .rt files clauses, `ghost use` lines and
comments, never a string; in README.md and docs/ the code spans. A name between « and » is the source's own and stays. A row `old<TAB>new<TAB>CRATE..`
turns only in these crates: a lemma that would fall together with a definition gets `_lem`.
--table prints the table anew, from the definitions of FOLDER.
"""

import collections
import os
import re
import sys

HERE = os.path.dirname(os.path.realpath(__file__))
WORD = re.compile(r"""[^\s(){}.;,@"«»:`]+""")
CAMEL = re.compile(r"(^|-|_)[a-z][a-z0-9]*[A-Z]")

# Lemmas whose name would be that of a definition, and a type in lower case.
BY_HAND = [
    ("cameOf", "CameOf", ""),
    ("last_built", "last_built_lem", "rows theory_reductions theory_runs"),
    ("row_made", "row_made_lem", "theory_runs"),
    ("value_line", "value_line_lem", "dump"),
    ("made_row", "made_row_lem", "theory_reductions"),
    ("left_by", "left_by_lem", "reader"),
    ("from_first", "from_first_lem", "theory_dumps"),
    ("built-system", "built_system_below", "theory_before_n2"),
    ("built-stack", "built_stack_below", "theory_before_n2"),
    ("few-rows", "rows_few", "dump"),
]


def sources(root):
    for folder, dirs, files in os.walk(os.path.join(root, "crates")):
        dirs[:] = sorted(d for d in dirs if d not in ("out", ".git"))
        for f in sorted(files):
            if f.endswith((".antt", ".rt")):
                yield os.path.join(folder, f)


def snake(word):
    parts = []
    for part in word.split("-"):
        if part[:1].islower() and re.search("[A-Z]", part):
            part = part.replace("getD", "get_or")
            part = re.sub(r"(?<=[a-z0-9])([A-Z])", r"_\1", part).lower()
        parts.append(part)
    return "-".join(parts)


def members(lines):
    """The fields of records and the constructors of data that a file declares."""
    indent = None
    for line in lines:
        m = re.match(r"^( *)(?:(?:abbrev|unfoldable|pub) )*(data|record) ", line)
        if m:
            indent = len(m[1])
        elif indent is not None and line.strip() and not line.lstrip().startswith("--"):
            i = len(line) - len(line.lstrip())
            if i <= indent:
                indent = None
            elif i == indent + 2:
                m = re.match(r"^ *(?:pub )?([^\s(){}.;,@\":]+) (?:\([^=]*\) )?: ", line)
                if m:
                    yield m[1]


def table_of(root):
    table = {}
    for path in sources(root):
        if not path.endswith(".antt"):
            continue
        with open(path, encoding="utf-8") as f:
            text = f.read()
        code = re.sub(r"(?m)--.*$", "", text)
        for w in WORD.findall(code):
            if CAMEL.search(w) and w != "cameOf" and not re.match(r"(tie|Need)", w):
                table[w] = snake(w)
        for w in members(text.split("\n")):
            if "-" in w and not path.endswith("/Proof.antt"):
                table[w] = snake(w).replace("-", "_")
            elif re.match("[A-Z]", w) and "data Ending" in text:
                table[w] = re.sub(r"(?<=[a-z0-9])([A-Z])", r"_\1", w).lower()
    for a, _, crates in BY_HAND:
        if crates:
            table.pop(a, None)
    rows = [(a, b, "") for a, b in sorted(table.items()) if a != b] + BY_HAND
    return "".join("\t".join(r).rstrip("\t") + "\n" for r in rows)


def turned(text, table):
    return WORD.sub(lambda m: m[0] if text[m.start() - 1 : m.start()] == "«" else table.get(m[0], m[0]), text)


def turned_first(text, by_crate, table):
    """First the lemmas that make room, then all others."""
    return turned(turned(text, by_crate), table)


def antt(text, by_crate, table):
    return turned_first(text, by_crate, table)


def rt(text, by_crate, table):
    out = []
    for piece in re.split(r'("(?:\\.|[^"\\])*")', text):
        out.append(piece if piece.startswith('"') else turned(piece, table))
    return "".join(out)


def page(text, table):
    return re.sub(r"`[^`\n]+`", lambda m: turned(m[0], table), text)


def main(argv):
    if argv and argv[0] in ("-h", "--help"):
        print(__doc__)
        return 0
    root = os.path.abspath(argv[-1]) if argv and argv[-1] != "--table" else os.path.dirname(HERE)
    if argv and argv[0] == "--table":
        print(table_of(root), end="")
        return 0
    table, crates = {}, collections.defaultdict(dict)
    with open(os.path.join(HERE, "respell.tsv"), encoding="utf-8") as f:
        for line in f:
            row = line.rstrip("\n").split("\t")
            if len(row) == 3:
                for c in row[2].split():
                    crates[c][row[0]] = row[1]
            else:
                table[row[0]] = row[1]
    count = 0
    pages = [os.path.join(root, "README.md")]
    for folder, _, files in os.walk(os.path.join(root, "docs")):
        pages += [os.path.join(folder, f) for f in files if f.endswith(".md") and f != "PORT.md"]
    for path in list(sources(root)) + pages:
        if not os.path.exists(path):
            continue
        with open(path, encoding="utf-8") as f:
            old = f.read()
        crate = os.path.relpath(path, os.path.join(root, "crates")).split(os.sep)[0]
        if path.endswith(".antt"):
            new = antt(old, crates[crate], table)
        elif path.endswith(".rt"):
            new = rt(old, {}, table)
        else:
            new = page(old, table)
        if new != old:
            count += 1
            with open(path, "w", encoding="utf-8") as f:
                f.write(new)
    print(f"respell: {count} files changed")
    return 0


if __name__ == "__main__":
    raise SystemExit(main(sys.argv[1:]))

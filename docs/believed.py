#!/usr/bin/env python3
"""Writes docs/BELIEVED.md: the definitions that the public contracts and the claims rest on.

    docs/believed.py           writes the list
    docs/believed.py --check   fails where the list is not what it would write

Roots are what the contracts and signatures of public functions name, and what the statements of the claims name. Each definition names
further ones, until nothing is added. Names are resolved by the `use` lines of their file. A name that its definition binds (a parameter, a
pattern, a field) is that variable.
"""
import re
import sys
import textwrap
from pathlib import Path

ROOT = Path(__file__).resolve().parent.parent
LIST = ROOT / "docs/BELIEVED.md"

# The crates in reading order. Those of crates.txt that are not named here have no definition on the list.
ORDER = "field groups rows theory_readings reader theory_reductions theory_indexes index theory_dumps dump theory_runs theory_read_back exports".split()
# The crates of the cycle, the passes and the reader, which have a total of their own.
CORE = "field groups rows theory_readings reader".split()
# The crates whose public functions others call.
LIBRARIES = "field groups rows reader index dump exports".split()
# The claims: files, and which of their public theorems (all where none is named).
CLAIMS = {
    "crates/field/proofs/InverseLaws.antt": ["inverse-law", "inverse-unique"],
    "crates/field/proofs/Entries.antt": ["entry-inverse"],
    "crates/groups/proofs/RoundUp.antt": ["round-up"],
    "crates/groups/proofs/OneGroup.antt": ["lies", "found", "only"],
    "crates/groups/proofs/FollowingOps.antt": ["fold_end", "next-in-group", "next-in-later", "told-found"],
    "crates/theory_readings/proofs/ReducedCells.antt": ["trace-reduced"],
    "crates/reader/proofs/ReaderExact.antt": ["reads-reduced"],
    "crates/theory_reductions/proofs/CyclesReduced.antt": ["fresh-reduced", "storing-reduced", "final-reduced"],
    "crates/theory_reductions/proofs/TalliesReduced.antt": [],
    "crates/theory_reductions/proofs/ReplaysReduced.antt": ["replay-reduced", "replay-fragment-reduced"],
    "crates/theory_reductions/proofs/PassesReduced.antt": [],
    "crates/theory_reductions/proofs/PassesKept.antt": ["left1-kept", "left2-kept", "left3-kept", "left4-kept", "left5-kept", "left_all-kept"],
    "crates/theory_reductions/proofs/WrittenBelow.antt": ["replay-kept"],
    "crates/theory_runs/proofs/StartsReduced.antt": ["starts-read"],
    "crates/theory_runs/proofs/WrittenReduced.antt": [],
    "crates/theory_runs/proofs/Following.antt": ["following-by"],
    "crates/theory_runs/proofs/NoSyscalls.antt": ["start-refused"],
    "crates/theory_read_back/proofs/ReadBackTheorems.antt": [],
    "crates/index/proofs/IndexExact.antt": [],
    "crates/dump/proofs/Waveforms.antt": ["buffers", "writer-gives", "one-text", "one_answer", "gets-29", "gets-11", "reads-given", "come-back"],
}

MODIFIERS = r"(?:(?:unfoldable|abbrev|opaque|pub(?:\(crate\))?)\s+)*"
DECLARED = re.compile(MODIFIERS + r"(?:(data|record)\s+(\S+)|([^\s()]+)\s+:(?:\s|$))")
GROUPED = re.compile(r"(?:unfoldable\s+)?(?:module\b|mutual\b)")


class Definition:
    """A definition or a declared type: its lines with the comment above, and the text that names others."""

    def __init__(self, path, name, kind, indent, params, lines, public):
        self.path, self.name, self.kind, self.indent, self.params, self.public = path, name, kind, indent, params, public
        self.lines, self.statement, self.text, self.cases = list(lines), "", "", set()

    def first(self):
        return self.lines[0]

    def crate(self):
        return self.path.relative_to(ROOT / "crates").parts[0]


# ---- the files of definitions and theorems

def code(line):
    """A line without its comment."""
    return re.sub(r"(^|\s)--(\s.*)?$", "", line)


def antt_definitions(path):
    """The definitions of a file, in order, each with the parameters of the modules that it stands in.

    A definition goes on with deeper lines and with clauses at its own depth; the comment right above it, with the `mutual` or `module` line
    between them, is part of it.
    """
    found, groups, now, above, clause = [], [], None, [], False
    for n, line in enumerate(path.read_text().splitlines(), 1):
        if not line.strip():
            above = []
            continue
        indent, word = len(line) - len(line.lstrip()), line.strip()
        if now and indent > now.indent:  # inside the definition
            pass
        elif word.startswith("--"):
            above.append(n)
            continue
        elif re.match(r"(pub )?(use|mod) ", word):
            now, above = None, []
            continue
        elif GROUPED.match(word):
            groups = [g for g in groups if g[0] < indent] + [(indent, word)]
            now, above = None, above + [n]
            continue
        elif groups and now is None and not DECLARED.match(word) and indent > groups[-1][0]:  # more parameters of the module
            groups[-1] = (groups[-1][0], groups[-1][1] + " " + word)
            above.append(n)
            continue
        elif DECLARED.match(word):
            groups = [g for g in groups if g[0] < indent]
            m = DECLARED.match(word)
            params = " ".join(g[1] for g in groups)
            public = "pub" in re.match(MODIFIERS, word)[0].split()
            now = Definition(path, m[2] or m[3], m[1] or "function", indent, params, above, public)
            clause, above = False, []
            found.append(now)
        elif now:  # a clause
            now.lines += above
            clause, above = True, []
        if now:
            now.lines.append(n)
            now.text += code(line) + "\n"
            if not clause:
                now.statement += code(line) + "\n"
            if now.kind == "data" and indent == now.indent + 2:  # names of cases
                m = re.match(r"((?:[^\s(){}]+\s+)+):(?:\s|$)", code(line).strip())
                now.cases |= set(m[1].split()) if m else set()
    return found


def tokens(text):
    return re.findall(r"[^\s(){}\[\];,«»]+", text)


def bound_in(definition, scope):
    """The names that a definition binds: parameters, fields, patterns."""
    text, names = definition.params + "\n" + definition.text, set()
    for form in (r"[({]([^(){}:=]+?)\s:\s", r"λ\s+([^.:]*)\.", r"\blet\s+([^=:]+?)\s[=:]\s"):
        names |= {t for group in re.findall(form, text) for t in tokens(group)}
    if definition.kind == "record":
        names |= set(re.findall(r"^\s+(?:pub\s+)?(\S+)\s+:\s", definition.text, re.M))
    if definition.kind == "function":
        for line in definition.text.splitlines():
            m = re.match(r"\s*(\S+)\s+(.*?)\s=(?:\s|$)", line)
            if m and m[1] == definition.name:
                names |= {t for t in tokens(m[2]) if not is_case(scope.get(t.split(".")[0]), t)}
    return names - {definition.name}


def is_case(target, token):
    """Whether a name in a pattern is a case's, of a type of this repository or of the toolchain, and no variable."""
    if isinstance(target, tuple):
        return True
    return isinstance(target, Definition) and ("." in token or token in target.cases or target.kind != "function")


# ---- the files of code

def header_end(text, start):
    """Where the body of the function at `start` begins: the first brace that opens no clause of its contract (`ensures {`, `requires name {`)."""
    depth, i = 0, start
    while True:
        if text[i] == "{":
            if depth == 0 and not re.search(r"\b(?:(?:ensures|requires)\*?(?:\s+[\w'-]+)?|ghost\s+\w+:)\s*$", text[start:i]):
                return i
            depth += 1
        elif text[i] == "}":
            depth -= 1
        i += 1


def rt_types(path):
    """The structs and enums of a file, with comment and attributes above."""
    lines, found = path.read_text().splitlines(), []
    for k, line in enumerate(lines):
        m = re.match(r"(pub(?:\(crate\))? )?(struct|enum) (\w+)", line)
        if not m:
            continue
        start, end = k, k
        while start > 0 and re.match(r"//|#\[", lines[start - 1]):
            start -= 1
        while not re.match(r"\}|.*;$", lines[end]):
            end += 1
        d = Definition(path, m[3], m[2], 0, "", range(start + 1, end + 2), bool(m[1]))
        d.text = "\n".join(re.sub(r"//.*|\b\w+:|<'[^<>]*>|'\w+ ", " ", x) for x in lines[k:end + 1])
        found.append(d)
    return found


def public_functions(path):
    """Of each public function of a file: its contract and signature as one text, and the names of its parameters."""
    text = re.sub(r"//.*", "", path.read_text())
    for m in re.finditer(r'^\s*pub (?:extern "C" )?fn ', text, re.M):
        header = re.sub(r"<'[^<>]*>|&", " ", text[m.start():header_end(text, m.end())])  # without borrows and lifetimes
        yield header, set(re.findall(r"(\w+): ", header))


def public_files(crate):
    """The files of code of a crate's public modules."""
    def below(path, folder):
        yield path
        for name in re.findall(r"^pub mod (\w+);", path.read_text(), re.M):
            yield from below(folder / f"{name}.rt", folder / name)
    return below(ROOT / "crates" / crate / "src/lib.rt", ROOT / "crates" / crate / "src")


# ---- names

class Sources:
    """Every definition, read once, and what a name means in a file."""

    def __init__(self):
        self.files, self.scopes, self.library = {}, {}, {}

    def file(self, path):
        if path not in self.files:
            self.files[path] = antt_definitions(path) if path.suffix == ".antt" else rt_types(path)
        return self.files[path]

    def named(self, path, name):
        for d in self.file(path):
            if name == d.name or name in d.cases:
                return d
        return None

    def is_own(self, crate):
        return (ROOT / "crates" / crate).is_dir()

    def module(self, name):
        """The file of a module's name, and the names behind the file's; nothing for a module of the toolchain."""
        m = re.match(r"Rattle\.(\w+)\.(.*)", name)
        if not m or not self.is_own(m[1]):
            return None, []
        parts = m[2].split(".")
        folder, suffix = ROOT / "crates" / m[1], ".antt"
        if parts[:2] == ["specs", "declared"]:
            parts, suffix = ["src"] + parts[2:], ".rt"
        for k in range(len(parts), 0, -1):
            path = folder.joinpath(*parts[:k]).with_suffix(suffix)
            if path.is_file():
                return path, parts[k:]
        return None, []

    def imported(self, module, name):
        path, rest = self.module(module)
        if path:
            return self.named(path, rest[0] if rest else name)
        m = re.match(r"Rattle\.(\w+)", module)
        return None if m and self.is_own(m[1]) else (module, name)

    def scope(self, path):
        """What each name means in a file: a definition, a name of the toolchain, or a module by another name."""
        if path in self.scopes:
            return self.scopes[path]
        scope, text = {}, path.read_text()
        for module, names in re.findall(r"^(?:ghost )?use ([^\s{]+?)\.\{([^}]*)\};?$", text, re.M):
            for name in filter(None, map(str.strip, names.split(","))):
                name, _, other = name.partition(" as ")
                target = self.imported(module, name)
                if target:
                    scope[other or name] = target
        for module, other in re.findall(r"^(?:ghost )?use (\S+) as (\S+?);?$", text, re.M):
            scope[other] = module
        if path.suffix == ".rt":
            crate = path.relative_to(ROOT / "crates").parts[0]
            for module, names in re.findall(r"^(?:pub )?use ([\w:]+)::(\w+|\{[^{}]*\});", text, re.M):
                parts = module.split("::")
                file = (ROOT / "crates" / (crate if parts[0] == "crate" else parts[0]) / "src").joinpath(*parts[1:]).with_suffix(".rt")
                for name in re.findall(r"\w+", names) if file.is_file() else []:
                    target = self.named(file, name)
                    if target:
                        scope[name] = target
        for d in self.file(path):
            scope.update({case: d for case in d.cases})
            scope[d.name] = d
        self.scopes[path] = scope
        return scope

    def names(self, path, text, bound):
        """The definitions that a text of a file names."""
        scope, found = self.scope(path), []
        seen = tokens(re.sub(r"[\w'-]+ = (?=[^=])", " ", text) if path.suffix == ".antt" and "record {" in text else text)
        for token in seen:
            head, _, rest = token.partition(".")
            if head in bound or not head:
                continue
            target = scope.get(head)
            if isinstance(target, str):  # a module by another name
                target = self.imported(target, rest.split(".")[0])
            if isinstance(target, Definition):
                found.append(target)
            elif target:
                self.library.setdefault(target[0], set()).add(target[1])
        for name, target in scope.items():  # operators
            if "◌" in name and isinstance(target, tuple) and any(part in seen for part in name.split("◌") if part):
                self.library.setdefault(target[0], set()).add(target[1])
        return found


def closure(sources):
    """All definitions that the roots rest on."""
    todo = []
    for crate in LIBRARIES:
        for path in public_files(crate):
            for header, parameters in public_functions(path):
                todo += sources.names(path, header, parameters)
    for name, theorems in CLAIMS.items():
        path = ROOT / name
        missing = set(theorems) - {d.name for d in sources.file(path)}
        if missing:
            sys.exit(f"{name} has no {', '.join(sorted(missing))}")
        for d in sources.file(path):
            if d.public and d.kind == "function" and (not theorems or d.name in theorems):
                bound = bound_in(d, sources.scope(path)) | {d.name}
                todo += sources.names(path, d.params + "\n" + d.statement, bound)
    reached = set()
    while todo:
        d = todo.pop()
        if d in reached:
            continue
        reached.add(d)
        scope = sources.scope(d.path)
        bound = bound_in(d, scope) if d.path.suffix == ".antt" else set()
        todo += sources.names(d.path, d.params + "\n" + d.text, bound)
    return reached


# ---- the list

def spec_files(crate):
    """The files of a crate's specs/ in the order of their `mod` lines."""
    def below(path, folder):
        for name in re.findall(r"^(?:pub )?mod (\S+)", path.read_text(), re.M):
            file = folder / f"{name}.antt"
            if (folder / name).is_dir():
                yield from below(file, folder / name)
            if file.is_file():
                yield file
    start = ROOT / "crates" / crate / "specs/Lib.antt"
    return list(below(start, start.parent)) if start.is_file() else []


def size(definitions):
    return sum(len(d.lines) for d in definitions)


def plain_size(definitions):
    """The lines that are no comment."""
    return sum(not re.match(r"\s*(--|//)", d.path.read_text().splitlines()[n - 1]) for d in definitions for n in d.lines)


def wrapped(text):
    return textwrap.wrap(text, 150, break_long_words=False, break_on_hyphens=False)


def by_file(files, definitions):
    """A paragraph a file: its name and lines, then each definition with its first line and how many lines it has."""
    out = []
    for path in files:
        here = sorted((d for d in definitions if d.path == path), key=Definition.first)
        if here:
            items = ", ".join(f"`{d.name}`\u00a0{d.first()}\u00a0({len(d.lines)})" for d in here)
            out += [f"**`{path.relative_to(ROOT)}`**, {size(here)} lines:"]
            out += wrapped(items + ".") + [""]
    return out


def totals(part, reached):
    """A row a crate, one for the cycle, the passes and the reader, and one for all."""
    row = lambda name, ds: f"| {name} | {len(ds)} | {size(ds)} | {plain_size(ds)} |"
    core = [d for c in CORE for d in part[c]]
    out = ["| crate | definitions | lines | without comments |", "|---|---|---|---|"]
    out += [row(f"`{c}`", part[c]) for c in ORDER if part[c]]
    return out + [row("the cycle, the passes and the reader: " + ", ".join(f"`{c}`" for c in CORE), core), row("all", reached), ""]


def outside(sources, crates, reached):
    """The definitions in specs/ that are not reached; files that have no other are named with their lines alone."""
    out, others = [], []
    for crate in ORDER + [c for c in crates if c not in ORDER]:
        files = spec_files(crate)
        left = [d for f in files for d in sources.file(f) if d not in reached]
        if left and crate in ORDER:
            whole = [f for f in files if sources.file(f) and reached.isdisjoint(sources.file(f))]
            out += [f"### {crate}, {size(left)} lines", ""] + by_file([f for f in files if f not in whole], left)
            items = ", ".join(f"`{f.relative_to(ROOT / 'crates' / crate)}`\u00a0({size(sources.file(f))})" for f in whole)
            out += wrapped(f"Whole files: {items}.") + [""] if whole else []
        elif left:
            others.append(f"`{crate}` ({size(left)} lines)")
    return [
        "## Definitions in specs/ that nothing above rests on",
        "",
        "They serve an algorithm, a proof or a theorem that is no claim here. So do all definitions of " + ", ".join(others) + ".",
        "",
    ] + out


def written():
    crates = re.findall(r"^(\w+)(?: [^:#]*)?:", (ROOT / "crates.txt").read_text(), re.M)
    unknown = [c for c in ORDER + LIBRARIES if c not in crates] + [c for c in CLAIMS if not (ROOT / c).is_file()]
    if unknown:
        sys.exit(f"there is no {', '.join(unknown)}")
    sources = Sources()
    reached = closure(sources)
    strange = {d.crate() for d in reached} - set(ORDER)
    if strange:
        sys.exit(f"the order lacks {', '.join(sorted(strange))}")
    part = {c: [d for d in reached if d.crate() == c] for c in ORDER}
    out = [
        "# What must be believed",
        "",
        "Made by `docs/believed.py` from the sources; not written by hand. These are the definitions that the contracts and signatures of the public",
        "functions and the statements of the claims rest on, in reading order: who has read them knows what these promise. Behind a name stand its first line",
        "(that of the comment above it) and, in brackets, its lines. In a crate, types of `src/` come first; they, and comments, are counted in the lines. Not among",
        "the claims are document 01's cases (`theory_cases`), the comparison with before change request N2 (`theory_before_n2`, with its premise `Narrow32`), and the further",
        "laws that docs/theorems lists, which rest on definitions of their own as well.",
        "",
        "A function counts as public that only another crate of the library calls. Of `reader` these are `validate_keeping` and `kept_kind`, for `index`: `op_kind` and",
        "`specs/KeptKinds.antt` stand here for their contracts alone, and those of `read_trace`, `row` and `build_index` do not rest on them.",
        "",
        "Claims:",
        "",
    ]
    out += [f"- `{c}`" + (": " + ", ".join(f"`{t}`" for t in ts) if ts else "") for c, ts in CLAIMS.items()] + [""]
    out += totals(part, reached)
    for crate in ORDER:
        if part[crate]:
            specs = spec_files(crate)
            others = sorted({d.path for d in part[crate]} - set(specs))
            files = [f for f in others if f.suffix == ".rt"] + specs + [f for f in others if f.suffix == ".antt"]
            out += [f"## {crate}", ""] + by_file(files, part[crate])
    out += ["## The toolchain's own", "", "What these definitions name of the toolchain's libraries.", ""]
    out += [f"- `{m}`: {', '.join(f'`{n}`' for n in sorted(ns))}" for m, ns in sorted(sources.library.items())] + [""]
    return "\n".join(out + outside(sources, crates, reached)).rstrip() + "\n"


if __name__ == "__main__":
    text = written()
    if sys.argv[1:] == ["--check"]:
        if not LIST.is_file() or LIST.read_text() != text:
            sys.exit("docs/BELIEVED.md is not what docs/believed.py writes")
    else:
        LIST.write_text(text)

#!/usr/bin/env python3
"""Counts the places that docs/DESIGN-PASS.md asks for, by point and crate: `places.py [COMMIT] [--list]`; --list prints each place.

A rule is a pattern on lines, a test of functions and types, or lists of names, of which those count that are defined. A point's row has its
distinct places, so that it can be less than the sum of its rules' rows. Points 1 to 7 are counted in src/, point 8 in proofs/."""
import io, re, subprocess, sys, tarfile
from collections import Counter, defaultdict
from fnmatch import fnmatch
from pathlib import Path

# Names are of functions and types, where need be with the file before them; groups of twins stand between bars, and count while two are defined.
# Point 1: a number or empty value that stands for none, a bool or number that stands for a refusal.
SENTINELS = """place_for kind_at helpers_at made_of inverse_kept table_for number_by kind_told forget kept_number line_at byte_behind number_of digits_at
count_rows store_rows has_all whole_first place_of core_row RowBounds told sort write_multiplicities count_nested Told refused Four Five stored_numbers
condition_number callee_numbers info_numbers kept refuse no_index write_refusal called called_on_lent vectors_passes/list.answered Enclosing kind_of_code"""
TWINS = """number_at number fixup.count_at | add more | sub less | word_at word_in word_of | new_at_op cells_at_op | context_refusal made_refusal start_refusal op_refusal
batch_refusal continuation_refusal stored_refusal | call_kind dyn_kind block_kind as_block | start_one start_two start_dyn start_dyncall | any_long_block any_large_batch
any_above not_full any_big_opcode is_one_of two_equal falls | last_system last_stack | zeros | read_word read read_callee read_info read_top | reversed write_first_stack
stack_before | finalize_clock_cycle finish_live | next_state next_positions | buffer_wrong fewer_rows fragment_wrong rows_wrong refusal row | any_between write_between |
any_by_tables write_by_tables | AddressFound ParentFound address_at parent_at | Started Ended StartStep EndStep start_step end_step start_lent end_lent replay_node_start
replay_node_end | few_cells call_record.registers_of early_case late_case registers | resume_at respan_at | continuation_on continuation_of | condition_at callee_at info_at
condition_of callee_of info_of | stack_at given.stack_of | system_at given.system_of | halt.system_of built_system_of | halt.stack_of built_stack_of | part_of_numbers
part_of_cells part_of_opcodes | clip at_most at_most_64 | clip_from end_of | overflow_helper over_16 write_list.behind | copy_in put_in put_bytes put_all | wide index_of |
read_few read_short read_long | validate validate_keeping | note_kind kept_kind kind_told | build_short build_long | first_bits more_bits bits_at digits_at | binary_digits
decimal_digits | put_value put_time | change_bytes changes_bytes rows_bytes put_change put_changes put_rows | count_rows store_rows | stands_at copies.same reduced | copy
copy_u32 copy_u8 | low32 low8 | fill_u32 fill_u8 | sixteen built_of | lent | one_if flag_number | put_run change | cell_of fill_rows large.fill | as_expected cells_right
text_right | answer_right | vectors_index/given.profile_of profile | case_right | op_context batch_context | Four Five | tracer_numbers final_numbers built_cells | tracer_right
fragment_right | *list.right refused.right states.right | writes reads field_vectors groups_vectors builds lookups vectors large_vector runs refused_records address_states"""
# Point 4: what std has or a derive writes; point 6: searches and sorts; point 5: parameters that travel together; point 7: enums that say which step runs.
BY_HAND = """number_at number item opcode_at no_fragment grammar.first read_callee read_info next_power_of_two lent_batches following_ops all_below opcodes_of word_at read_word
word_in word_of put exchange copies.same stands_at put_digits binary_digits decimal_digits first_bits more_bits digits_at plain_digits after_number is_digit with_byte numbers
begun"""
SEARCHES = """stash left_next merge_in merge_sort sort lower bump multiplicity.count_of take_loops is_free is_of place_for tally.count_at enclosing_block
op_idx_in_batch_to_group is_one_of place_of"""
FAMILIES = ["nodes digests", "batches groups", "addresses parents", "parents ends", "state at", "profile cells table", "cells table kinds", "counts built",
            "system stack", "profile tracer tally", "profile buffer rows", "keys counts", "text at", "v at", "input v at"]
STEPS = "Finish|ContinuationKind|Used|Family|RowRole|Change|List"

def sources(commit):
    wanted = re.compile(r"crates/\w+/(src/.*\.rt|proofs/.*\.antt)$")
    if not commit:
        return {str(p): p.read_text() for p in sorted(Path("crates").rglob("*")) if wanted.match(str(p))}
    tar = tarfile.open(fileobj=io.BytesIO(subprocess.run(["git", "archive", commit, "crates"], capture_output=True, check=True).stdout))
    return {m.name: tar.extractfile(m).read().decode() for m in tar if wanted.match(m.name)}

class Item:
    """A function, struct or enum: its signature with the clauses, and its body."""
    def __init__(self, path, lines, start, kind, name):
        self.path, self.line, self.kind, self.name, self.head = path, start + 1, kind, name, lines[start].strip()
        indent = re.match(" *", lines[start])[0]
        text = [line.split("//")[0].rstrip() for line in lines[start:]]
        opens = next((n for n, line in enumerate(text) if line.endswith(";") or line[len(indent) :][:1] not in ("", " ") and line.endswith(("{", "}"))), 0)
        ends = opens + 1 if not text[opens].endswith("{") else next((n for n, line in enumerate(text) if n > opens and line == indent + "}"), len(text))
        text = text[:ends]
        self.sig, self.body = "\n".join(text[: opens + 1]), "\n".join(text[opens + 1 :])
        self.names = set(re.findall(r"(\w+): ", self.sig)) if kind == "fn" else set()
        self.fields = re.findall(r"^ +(?:pub(?:\(crate\))? )?(\w+): (.*),$", self.body, re.M) if kind == "struct" else []
        self.clauses = re.findall(r"(?:requires|ensures)(?: \w+)? \{(.*?)\}(?=\n|$)", self.sig, re.S)
    def has(self, pattern, least=1):
        return self.kind == "fn" and len(re.findall(pattern, self.body, re.M)) >= least
    def takes(self, pattern):
        return self.kind == "fn" and re.search(pattern, self.sig, re.S)
    def is_named(self, name):
        file, dot, last = name.rpartition(".")
        return self.name == last and (not dot or fnmatch(self.path.replace("/src", ""), f"*{file}.rt" if "*" in file else f"*/{file}.rt"))

def like_option(item):
    variants = re.findall(r"^ +(\w+(?:\(.*\))?),$", item.body, re.M)
    return item.kind == "enum" and len(variants) == 2 and any(re.fullmatch(r"\w+|Refused\(.*\)", v) for v in variants)

def moved_once(item):
    lets = re.findall(r"^ *let (\w+) = \w+(?:\.\w+)+;$", item.body, re.M)
    return item.kind == "fn" and any(len(re.findall(rf"\b{n}\b(?!:)", item.body.split(f"let {n} = ", 1)[1].split(";", 1)[1])) == 1 for n in lets)

CODE = r"\bkind(_at\(.*\))? (==|!=|<) \d|\d < kind|\(1, id\)|\bnumber_at\(\w+, \d+\) (==|!=) \d|\b(c|n|present) == \d|, 6 \* k\) == \d|\d < number_at|opcode == profile\.|\(v, at, 0\) == 0 \{"
CLIPPED = r"\b4294967296\b|< 0x1_0000_0000 \{|if (\w+) (<|==) (\w+)( as \w+)? \{ (\1|\3|0)( as \w+)? \} else \{ (\1|\3)( as \w+)?( - \w+)? \}|sum = cap|0xffff_ffff$"
RULES = [  # point, what, and a test of an item, a pattern of a line, or lists of names
    (1, "enum of two variants, one empty or Refused(..)", like_option),
    (1, "flag or refusal's number beside a value", lambda i: len(i.fields) > 1 and {"refusal", "good", "right", "whole"} & {n for n, _ in i.fields}),
    (1, "struct of flags", lambda i: len(i.fields) > 1 and {t for _, t in i.fields} == {"bool"}),
    (1, "answers a refusal's number", lambda i: ") -> u32" in i.sig and re.search("[Rr]efus", i.sig + i.body)),
    (1, "number for a kind", lambda i: i.has(r"^ *\d+(?: \| \d+)* => ", 2) or i.has(r" => \d+,$", 5) or i.has(CODE)),
    (1, "constant of a refusal or kind", r"pub const \w+: u32|const UNKNOWN|struct Refusal"),
    (1, "number, bool or struct for none (list)", [SENTINELS]),
    (2, "twins (list)", TWINS.split("|")),
    (3, "while and loop", r"^ *(while |loop \{)"),
    (3, "a call for each name", lambda i: i.has(r"^ +\w+\(&rt, b", 3)),
    (4, "only a cast, or a bool as a number", lambda i: i.has(r"\A *.* as \w+\n?\Z|\A *if \w+ \{ (\d+|Felt::\w+) \} else \{ (\d+|Felt::\w+) \}$")),
    (4, "narrowed, clipped or floored by a test", lambda i: i.has(CLIPPED)),
    (4, "compared field by field", lambda i: i.has(" == ", 2) and " & " in i.body),
    (4, "field moved to a local that is used once", moved_once),
    (4, "field by field where the others stay", lambda i: i.has(r"^ *(\w+): (?:[\w.]+\.)?\1,$")),
    (4, "array or struct element by element", lambda i: i.has(r"\w\[(?:at \+ )?\d+\]|\w\((?:[&\w.]+, )+(?:at \+ )?\d+\)|\b\w\.\d\b", 6)),
    (4, "bytes by number", r"text\[.*\] (!=|==) \d|digit / 2 != 24|\b(digit|b) ([-<]) 48|48 \+ |48 <= b|\[32, 33 \+|index [-<] 33|STOOD: u8 = "),
    (4, "number of an id by hand", r"\.0 as \w+"),
    (4, "printed by hand", lambda i: i.takes("rt: &impl Print")),
    (4, "what std or a derive has (list)", [BY_HAND]),
    *[(5, "parameters " + f, lambda i, f=f: set(f.split()) <= i.names) for f in FAMILIES],
    (6, "array of fixed room as a buffer", r"let (mut )?\w+ = \[[^;\]]+; [\w:]+\];"),
    (6, "slice and how much of it counts", lambda i: i.takes(r"(?<!name: &)\[u.*\b(rows|height|n|m|count|most|listed|lent|bytes|all): (usize|u64)")),
    (6, "parallel or interleaved arrays", lambda i: {"keys", "counts"} <= i.names or {"counts", "built"} <= i.names or "tally" in i.names),
    (6, "records by stride", lambda i: i.has(r"\b(3|6|12|25|32|49|Row::WIDTH) \* |\b[48] \* (i|record|row|\(id)|\b2 \* (place|k|changes)|[/%] (3|6|12|25|32|49|Row::WIDTH)\b")),
    (6, "searched or sorted by hand (list)", [SEARCHES]),
    (6, "text as bytes", lambda i: i.takes(r"name: &\[u8\]")),
    (6, "stack in an array", lambda i: i.takes(r"stack: &(mut )?\[usize") or i.has(r"let mut stack = \[")),
    (7, "bool that chooses", lambda i: i.takes(r"\b(write|rounded|ended|has_none|above8): bool")),
    (7, "enum that only chooses", lambda i: i.kind == "enum" and re.fullmatch(STEPS, i.name)),
    (7, "switch on a given step", lambda i: i.takes(rf"\b(call|goes_on): u64|: ({STEPS})\b|fn computed")),
]

def places(files):
    code = {path: text.split("\n") for path, text in files.items() if path.endswith(".rt")}
    starts = re.compile(r" *(?:pub(?:\(\w+\))? )?(?:const )?(?:unsafe )?(?:extern \"C\" )?(fn|struct|enum) (\w+)")
    items = [Item(path, lines, n, m[1], m[2]) for path, lines in code.items() for n, line in enumerate(lines) if (m := starts.match(line))]
    for point, what, test in RULES:
        if isinstance(test, str):
            yield from ((point, what, path, n, line.strip()) for path, lines in code.items() for n, line in enumerate(lines, 1) if re.search(test, line.split("//")[0]))
            continue
        for group in test if isinstance(test, list) else [test]:
            here = [i for i in items if (group(i) if callable(group) else any(i.is_named(name) for name in group.split()))]
            here = [i for i in here if group is not SENTINELS or not re.search(r"-> (Option|Result)<", i.sig)]
            yield from ((point, what, i.path, i.line, i.head) for i in here if point != 2 or len(here) > 1)
    facts = defaultdict(list)
    for i in items:
        for fact in sorted({re.sub(r"\.(old|new)\b", ".now", " ".join(f.split())).strip("() ") for c in i.clauses for f in c.split(" × ")}):
            facts[i.path.split("/")[1], fact].append(i)
    for (_, fact), users in facts.items():
        if len(users) > 2:
            yield 5, "fact in three or more contracts", users[0].path, users[0].line, f"{fact} -- in " + ", ".join(i.name for i in users)

def table(title, rows):
    crates = sorted({crate for counts in rows.values() for crate in counts})
    print(f"\n| {title} | {' | '.join(crates)} | all |\n|" + "---|" * (len(crates) + 2))
    for name, counts in rows.items():
        print(f"| {name} | {' | '.join(str(counts[c] or '') for c in crates)} | {sum(counts.values())} |")

files, found, proofs = sources(next((a for a in sys.argv[1:] if a != "--list"), None)), defaultdict(set), defaultdict(Counter)
for point, what, *place in places(files):
    found[f"**{point}**"].add(tuple(place))
    found[f"{point} {what}"].add(tuple(place))
    if "--list" in sys.argv:
        print(f"{point} {what}: {place[0]}:{place[1]}: {place[2]}")
order = sorted(found, key=lambda name: (name.strip("*")[0], name[0] != "*"))
table("point, rule", {name: Counter(path.split("/")[1] for path, _, _ in found[name]) for name in order})
for path, text in files.items():
    if path.endswith(".antt"):
        what = {"Answers.antt": "8 answers", "Invariants.antt": "8 Invariants files"}.get(Path(path).name, "8 lines of lemma files")
        count = {"8 answers": len(re.findall(r"^pub .* : goal\.", text, re.M)), "8 Invariants files": 1}.get(what, text.count("\n"))
        proofs[what][path.split("/")[1]] += count
table("in proofs/", proofs)

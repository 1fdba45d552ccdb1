//! docs/ARCHIVE.md held against the library. The page's two examples are made and read back here, and each number that the page has of them is
//! read from the page: tables of cells, blocks, depths and stops, the answer of each changed copy, and which check by hand shows the damage.
//! So are the rules of 12 and 15, what an answer of 0 leaves open, and how operations are packed in groups.
#![cfg(archive)]

use core_trace::calls::{
    Call, ContextId, Continuation, Cycle, DecoderState, MastNodeId, Positions, Registers, RowIndex, StackState, StoredValues, SystemState,
    records,
};
use core_trace::exports::{MODULUS as P, Refusal, RefusedAt, WIDTH, build_index, finish, inverse, read_trace, replay_calls};
use core_trace::forest::{Forest, Forests, MastNode, OpBatch, Queues, Slot, Word};
use core_trace::listing;
use core_trace::profile::{EXAMPLE, Profile};
use core_trace::random::{Rng, Run, proper_run};

const PAGE: &str = include_str!("../../docs/ARCHIVE.md");

const CLK: usize = 0;
const ADDR: usize = 6;
const OP_BITS: usize = 7;
const H: usize = 14;
const IN_SPAN: usize = 22;
const COUNT: usize = 23;
const OP_INDEX: usize = 24;
const FLAGS: usize = 25;
const EXTRA: usize = 28;
const STACK: usize = 30;
const B0: usize = 46;
const B1: usize = 47;
const HELPER: usize = 48;

const NAMES: [&str; 13] = ["SPAN", "RESPAN", "JOIN", "SPLIT", "LOOP", "REPEAT", "CALL", "SYSCALL", "DYN", "DYNCALL", "PUSH", "END", "HALT"];

// THE PAGE
// ------------------------------------------------------------------------------------------------

/// The text of a section.
fn section(title: &str) -> &'static str {
    let head = format!("\n## {title}\n");
    let from = PAGE.find(&head).unwrap_or_else(|| panic!("the page has no section '{title}'")) + head.len();
    PAGE[from..].split("\n## ").next().unwrap()
}

/// The fields of a line of a table.
fn fields(line: &str) -> Vec<&str> {
    line.trim_matches('|').split('|').map(str::trim).collect()
}

/// The lines of a section's table with this head, in fields.
fn table<'a>(section: &'a str, head: &[&str]) -> Vec<Vec<&'a str>> {
    let lines: Vec<&str> = section.lines().collect();
    let at = lines.iter().position(|line| line.starts_with('|') && fields(line) == head);
    let at = at.unwrap_or_else(|| panic!("the page has no table {head:?}"));
    let rows: Vec<_> = lines[at + 2..].iter().take_while(|line| line.starts_with('|')).map(|line| fields(line)).collect();
    assert!(rows.iter().all(|row| row.len() == head.len()), "the table {head:?}");
    rows
}

/// How many tables a section has.
fn tables(section: &str) -> usize {
    section.lines().filter(|line| line.starts_with("|---")).count()
}

/// The section has the words, lines being as they may.
fn says(section: &str, words: &str) {
    let all = section.split_whitespace().collect::<Vec<_>>().join(" ");
    assert!(all.contains(words), "the page does not say: {words}");
}

fn number<T: core::str::FromStr>(text: &str) -> T {
    text.parse().unwrap_or_else(|_| panic!("'{text}' is no number"))
}

fn numbers(text: &str) -> Vec<u64> {
    text.split(' ').map(number).collect()
}

fn list(numbers: &[u64]) -> String {
    numbers.iter().map(u64::to_string).collect::<Vec<_>>().join(", ")
}

// ROWS
// ------------------------------------------------------------------------------------------------

fn row(cells: &[u64], n: usize) -> &[u64] {
    &cells[n * WIDTH..][..WIDTH]
}

fn rows(cells: &[u64]) -> usize {
    cells.len() / WIDTH
}

fn opcode(row: &[u64]) -> u8 {
    (0..7).map(|i| (row[OP_BITS + i] as u8) << i).sum()
}

fn set_opcode(row: &mut [u64], opcode: u8) {
    (0..7).for_each(|i| row[OP_BITS + i] = u64::from(opcode >> i & 1));
}

fn name(opcode: u8) -> Option<&'static str> {
    EXAMPLE.opcodes().iter().position(|&o| o == opcode).map(|i| NAMES[i])
}

fn is_operation(row: &[u64]) -> bool {
    row[IN_SPAN] == 1
}

fn is_push(row: &[u64]) -> bool {
    is_operation(row) && opcode(row) == EXAMPLE.push
}

/// What the page calls a row.
fn kind(row: &[u64]) -> &'static str {
    if is_operation(row) { "operation" } else { name(opcode(row)).expect("a control row") }
}

fn is(row: &[u64], name: &str) -> bool {
    !is_operation(row) && kind(row) == name
}

/// A block of a reading: its rows, and the start row of the block around it, its own for the first.
#[derive(Clone, Copy, Debug, PartialEq, Eq)]
struct Block {
    start: usize,
    end: usize,
    around: usize,
}

/// A trace and what the library reads of it.
struct Reading {
    cells: Vec<u64>,
    program_rows: usize,
    depths: Vec<u32>,
    blocks: Vec<Block>,
}

/// What the library reads of a trace, or its refusal: depths and blocks are refused alike.
fn read(profile: Profile, cells: &[u64]) -> Result<Reading, RefusedAt> {
    let mut depths = vec![77; rows(cells)];
    let mut index = vec![77; 3 * rows(cells)];
    let told = read_trace(profile, cells, &mut depths);
    let built = build_index(profile, cells, &mut index);
    assert_eq!(told.err(), built.err());
    let blocks = index[..3 * built.unwrap_or(0)].chunks(3);
    let blocks = blocks.map(|b| Block { start: b[0] as usize, end: b[1] as usize, around: b[2] as usize }).collect();
    let cells = cells.iter().map(|cell| cell % P).collect();
    told.map(|program_rows| Reading { cells, program_rows, depths, blocks })
}

impl Reading {
    fn row(&self, n: usize) -> &[u64] {
        row(&self.cells, n)
    }
    /// The block of a program row: the innermost one.
    fn block(&self, n: usize) -> Block {
        *self.blocks.iter().rfind(|b| b.start <= n && n <= b.end).expect("a program row")
    }
    fn at(&self, start: usize) -> Block {
        *self.blocks.iter().find(|b| b.start == start).expect("a start row")
    }
    /// A block by its kind and start row, as the page names it.
    fn named(&self, start: usize) -> String {
        format!("{} {start}", kind(self.row(start)))
    }
    fn parts(&self, b: Block) -> impl Iterator<Item = Block> {
        self.blocks.iter().copied().filter(move |part| part.around == b.start && part.start != b.start)
    }
    /// The rows of a block that are in none of its parts, but its start row.
    fn own_rows(&self, b: Block) -> impl Iterator<Item = usize> {
        (b.start + 1..=b.end).filter(move |&n| self.block(n) == b)
    }
    fn repeats(&self, b: Block) -> impl Iterator<Item = usize> {
        self.own_rows(b).filter(move |&n| is(self.row(n), "REPEAT"))
    }
    fn respans(&self, b: Block, before: usize) -> u64 {
        self.own_rows(b).filter(|&n| n < before && is(self.row(n), "RESPAN")).count() as u64
    }
    /// The LOOP rows around a row and the pass of each, by the page's rule: it goes by depths alone.
    fn passes(&self, n: usize) -> Vec<(usize, usize)> {
        let loops = (0..n).filter(|&r| is(self.row(r), "LOOP"));
        let mut around = Vec::new();
        for r in loops {
            let depth = self.depths[r];
            let e = (r + 1..).find(|&e| is(self.row(e), "END") && self.depths[e] == depth).unwrap();
            let own = |m: &usize| is(self.row(*m), "REPEAT") && self.depths[*m] == depth;
            if n < e && !own(&n) {
                around.push((r, 1 + (r + 1..n).filter(own).count()));
            }
        }
        around
    }
}

// A RUN AS THE VM MAKES IT
// ------------------------------------------------------------------------------------------------

/// Packs operations, a PUSH with its value, as the page says: nine to a group, the first lowest; a value in the next group that is not taken;
/// eight groups to a batch, the last with 1, 2, 4 or 8, where a NOOP is run for a group that is not needed.
fn pack(operations: &[(u8, Option<u64>)]) -> Vec<OpBatch> {
    let mut batches = Vec::new();
    let mut left = operations.iter().copied().peekable();
    while left.peek().is_some() {
        let (mut groups, mut sizes, mut ops) = ([0; 8], [0; 8], Vec::new());
        let (mut group, mut free) = (0, 1);
        while let Some(&(opcode, value)) = left.peek() {
            if sizes[group] == 9 || value.is_some() && sizes[group] == 8 {
                if free == 8 {
                    break;
                }
                (group, free) = (free, free + 1);
            }
            if let Some(value) = value {
                if free == 8 {
                    break;
                }
                groups[free] = value;
                free += 1;
            }
            groups[group] |= u64::from(opcode) << (7 * sizes[group]);
            sizes[group] += 1;
            ops.push(opcode);
            left.next();
        }
        let count = free.next_power_of_two();
        for g in (group..=group).chain(free..count).filter(|&g| sizes[g] == 0).collect::<Vec<_>>() {
            sizes[g] = 1;
            ops.push(0);
        }
        let mut starts = [0; 9];
        (0..8).for_each(|g| starts[g + 1] = starts[g] + sizes[g]);
        batches.push(OpBatch { num_groups: count as u32, groups, starts, ops });
    }
    batches
}

fn block(operations: &[(u8, Option<u64>)], digest: Word) -> Slot {
    let batches = pack(operations);
    Slot::Node(MastNode::Block(batches.iter().map(|b| b.num_groups).sum(), batches), digest)
}

/// What ran in a row: the start row of its block, and the loops around it with their passes.
#[derive(Debug, PartialEq, Eq)]
struct Ran {
    block: usize,
    passes: Vec<(usize, usize)>,
}

/// A run of a forest: a loop goes on while it finds 1 on the stack, DYN finds an address there, PUSH leaves its value.
struct Vm {
    forest: Forest,
    /// The node that a DYN runs, and the callee word that it shows.
    callee: (u32, Word),
    /// The values of the PUSH operations that are still to come, the last first.
    values: Vec<u64>,
    /// The whole stack, the top first, and its overflow address.
    stack: Vec<u64>,
    overflow_addr: u64,
    /// The clock cycle of row 0.
    clock: u32,
    calls: Vec<Call>,
    queues: Queues,
    next_addr: u64,
    loops: Vec<(usize, usize)>,
    ran: Vec<Ran>,
    blocks: Vec<Block>,
}

impl Vm {
    fn pop(&mut self) -> u64 {
        assert_eq!(self.stack.len(), 16, "these runs pop at depth 16 alone");
        self.stack.push(0);
        self.stack.remove(0)
    }

    fn push(&mut self, value: u64) {
        self.stack.insert(0, value);
        self.overflow_addr = self.ran.len() as u64;
    }

    fn cycle(&mut self, block: usize, continuation: Continuation, is_loop_body: bool, condition: Option<bool>, callee: Option<Word>) {
        let clk = RowIndex(self.clock + self.ran.len() as u32);
        self.ran.push(Ran { block, passes: self.loops.clone() });
        let stack = StackState {
            stack_top: core::array::from_fn(|i| self.stack[15 - i]),
            stack_depth: self.stack.len() as u32,
            overflow_addr: self.overflow_addr,
        };
        let system = SystemState { clk, ctx: ContextId(0), fn_hash: [0; 4] };
        self.calls.push(Call::Store(StoredValues { continuation, is_loop_body, condition, callee, info: None }));
        self.calls.push(Call::Cycle(Cycle { forest: 0, system, stack, registers: Registers::EMPTY }));
    }

    fn address(&mut self) -> u64 {
        self.next_addr += EXAMPLE.step;
        self.next_addr - EXAMPLE.step
    }

    /// The run of a node in the block of start row `around`, whose address is `parent`, that of the block around it being `above`.
    fn node(&mut self, id: u32, around: usize, parent: u64, above: u64, is_body: bool) {
        let Slot::Node(node, _) = self.forest[id as usize].clone() else { panic!("no node {id}") };
        let (n, start, own) = (MastNodeId(id), self.ran.len(), self.address());
        self.queues.addresses.push(own);
        self.queues.parents.push(parent);
        let place = self.blocks.len();
        self.blocks.push(Block { start, end: 0, around });
        let callee = matches!(node, MastNode::Dyn).then(|| {
            self.pop();
            self.callee.1
        });
        self.cycle(start, Continuation::StartNode(n), false, None, callee);
        let mut ended = own;
        let (finish, condition) = match node {
            MastNode::Block(_, batches) => {
                for (batch_index, batch) in (0..).zip(&batches) {
                    if batch_index > 0 {
                        self.cycle(start, Continuation::Respan { node_id: n, batch_index }, false, None, None);
                        ended = self.address();
                    }
                    for (op_idx_in_batch, &opcode) in (0..).zip(&batch.ops) {
                        if opcode == EXAMPLE.push {
                            let value = self.values.pop().expect("a value");
                            self.push(value);
                        }
                        let resume = Continuation::ResumeBasicBlock { node_id: n, batch_index, op_idx_in_batch };
                        self.cycle(start, resume, false, None, None);
                    }
                }
                (Continuation::FinishBasicBlock(n), None)
            }
            MastNode::Join(first, second) => {
                self.node(first, start, own, parent, false);
                self.node(second, start, own, parent, false);
                (Continuation::FinishJoin(n), None)
            }
            MastNode::Loop(body) => {
                for pass in 1.. {
                    self.loops.push((start, pass));
                    self.node(body, start, own, parent, true);
                    self.loops.pop();
                    if self.pop() != 1 {
                        break;
                    }
                    self.cycle(start, Continuation::FinishLoop(n), false, Some(true), None);
                }
                (Continuation::FinishLoop(n), Some(false))
            }
            MastNode::Dyn => {
                self.node(self.callee.0, start, own, parent, false);
                (Continuation::FinishDyn(n), None)
            }
            _ => panic!("none of these runs has such a node"),
        };
        self.queues.ends.extend([ended, parent, above]);
        self.cycle(start, finish, is_body, condition, None);
        self.blocks[place].end = self.ran.len() - 1;
    }

    /// The run of node `root`, from this stack top on.
    fn run(forest: Forest, root: u32, callee: (u32, Word), values: &[u64], top: &[u64], clock: u32) -> Self {
        let mut stack = top.to_vec();
        stack.resize(16, 0);
        let mut vm = Self {
            forest,
            callee,
            values: values.iter().rev().copied().collect(),
            stack,
            overflow_addr: 0,
            clock,
            calls: Vec::new(),
            queues: Queues::default(),
            next_addr: 1,
            loops: Vec::new(),
            ran: Vec::new(),
            blocks: Vec::new(),
        };
        vm.node(root, 0, 0, 0, false);
        vm
    }

    /// The same as a list of calls, in fragments of the size.
    fn cut(&self, top: &[u64], fragment_size: usize) -> Run {
        let mut first_stack_top = [0; 16];
        top.iter().enumerate().for_each(|(i, &cell)| first_stack_top[15 - i] = cell);
        Run {
            forests: vec![self.forest.clone()],
            queues: self.queues.clone(),
            state: DecoderState::default(),
            first_stack_top,
            fragment_size,
            fragments: self.calls.chunks(2 * fragment_size).map(<[Call]>::to_vec).collect(),
            nesting: None,
        }
    }
}

/// A run, written and finished by the library.
fn write(run: &Run, height: usize) -> Result<Vec<u64>, Refusal> {
    let lent = Forests::new(&run.forests);
    let mut buffer = vec![7; height * WIDTH];
    let (mut state, mut at) = (run.state, Positions::default());
    let (mut counts, mut built) = (Vec::new(), Vec::new());
    for (k, calls) in run.fragments.iter().enumerate() {
        let end = ((k + 1) * run.fragment_size).min(height);
        let fragment = &mut buffer[k * run.fragment_size * WIDTH..end * WIDTH];
        let left = replay_calls(&lent, &run.queues, EXAMPLE, state, at, &records(calls), fragment)?;
        counts.push(left.rows as u32);
        built.extend(left.built);
        (state, at) = (left.state, left.at);
    }
    finish(EXAMPLE, &mut buffer, run.fragment_size, &counts, &built, &run.first_stack_top, height)?;
    Ok(buffer)
}

// THE TWO EXAMPLES
// ------------------------------------------------------------------------------------------------

const SECOND_TOP: [u64; 6] = [1, 0, 1, 0, 0, 40];
const SECOND_HEIGHT: usize = 36;

/// The second example's run: the conditions of its loops and the address that its DYN finds stand on the stack at the start.
fn second_run(clock: u32) -> Vm {
    let digest = |first: u64| core::array::from_fn(|i| first + i as u64);
    let values: Vec<u64> = (701..710).collect();
    let pushes: Vec<_> = values.iter().map(|&value| (EXAMPLE.push, Some(value))).collect();
    let forest = vec![
        block(&[(0, None)], digest(40)),
        Slot::Node(MastNode::Loop(0), digest(30)),
        Slot::Node(MastNode::Loop(1), digest(20)),
        block(&pushes, digest(60)),
        Slot::Node(MastNode::Dyn, digest(50)),
        Slot::Node(MastNode::Join(2, 4), digest(10)),
    ];
    Vm::run(forest, 5, (3, digest(90)), &values, &SECOND_TOP, clock)
}

fn second_trace() -> Vec<u64> {
    let vm = second_run(0);
    let whole = write(&vm.cut(&SECOND_TOP, vm.ran.len()), SECOND_HEIGHT).expect("the calls are right");
    for size in [1, 4, 10, 40] {
        assert_eq!(write(&vm.cut(&SECOND_TOP, size), SECOND_HEIGHT), Ok(whole.clone()), "{size}");
    }
    whole
}

/// A row of a table of cells: addr, opcode, h0–h7, in_span, group_count, op_index, batch flags, extra.
fn row_of(clk: u64, fields: &[&str]) -> Vec<u64> {
    let [addr, code, h, in_span, count, op_index, flags, extra] = *fields else { panic!("a row of cells: {fields:?}") };
    let mut cells = vec![0; WIDTH];
    let (value, told) = code.split_once(' ').map_or((code, None), |(value, told)| (value, Some(told)));
    assert_eq!(told, name(number(value)), "opcode {value}");
    cells[CLK] = clk;
    cells[ADDR] = number(addr);
    set_opcode(&mut cells, number(value));
    cells[H..H + 8].copy_from_slice(&numbers(h));
    (cells[IN_SPAN], cells[COUNT], cells[OP_INDEX]) = (number(in_span), number(count), number(op_index));
    cells[FLAGS..FLAGS + 3].copy_from_slice(&numbers(flags));
    cells[EXTRA..EXTRA + 2].copy_from_slice(&numbers(extra));
    cells[B0] = 16;
    cells
}

fn same_cells(page: &[u64], library: &[u64]) {
    assert_eq!(rows(page), rows(library), "rows");
    for n in 0..rows(page) {
        assert_eq!(row(page, n), row(library, n), "row {n}: the page, the library");
    }
}

#[test]
fn first_example() {
    let (page, cells) = (section("First example"), listing::trace());
    assert_eq!(tables(page), 3);
    let profile = NAMES.iter().zip(EXAMPLE.opcodes()).map(|(name, opcode)| format!("{name} {opcode}")).collect::<Vec<_>>().join(", ");
    says(page, &format!("profile {profile}, step {}.", EXAMPLE.step));

    let head = "row|clk|addr|op bits, cells 7–13|opcode|h0–h7|in_span|group_count|op_index|batch flags|extra";
    let head: Vec<&str> = head.split('|').collect();
    let mut told = Vec::new();
    for (n, fields) in table(page, &head).iter().enumerate() {
        assert_eq!(number::<usize>(fields[0]), n);
        let cells = row_of(number(fields[1]), &[&fields[2..3], &fields[4..]].concat());
        assert_eq!(cells[OP_BITS..OP_BITS + 7], numbers(fields[3]), "op bits of row {n}");
        told.extend(cells);
    }
    same_cells(&told, &cells);
    says(page, &format!("a SPAN with the one operation of opcode {}, runs twice.", opcode(row(&cells, 2))));
    says(page, "In every row ctx, fn_hash, the stack top, b1 and helper are 0, and b0 is 16.");
    says(page, &format!("So these are all {} cells.", cells.len()));

    let reading = read(EXAMPLE, &cells).unwrap();
    let head = ["row", "kind", "what it does", "open blocks after it", "depth", "pass of LOOP 0"];
    let lines = table(page, &head);
    assert_eq!(lines.len(), rows(&cells));
    for (n, fields) in lines.iter().enumerate() {
        let [number_told, kind_told, does, open, depth, pass] = fields[..] else { panic!() };
        assert_eq!((number::<usize>(number_told), kind_told), (n, kind(reading.row(n))));
        assert_eq!(number::<u32>(depth), reading.depths[n], "depth of row {n}");
        let after: Vec<_> = reading.blocks.iter().filter(|b| b.start <= n && n < b.end).map(|b| reading.named(b.start)).collect();
        assert_eq!(open, if after.is_empty() { "none".into() } else { after.join(", ") }, "open after row {n}");
        if n == reading.program_rows {
            assert_eq!((does, pass), ("the program is over", "–"));
            continue;
        }
        let passes = reading.passes(n);
        assert_eq!(pass, passes.first().map_or("–".into(), |(_, pass)| pass.to_string()), "pass of row {n}");
        let block = reading.named(reading.block(n).start);
        let h4 = reading.row(n)[H + 4];
        let words = match kind_told {
            "operation" => format!("in {block}"),
            "REPEAT" => format!("{block}'s own"),
            "END" => format!("ends {block}, h4 = {h4}: {} loop's body", if h4 == 1 { "a" } else { "no" }),
            "LOOP" => format!("opens {block}"),
            _ => format!("opens {block}, the body{}", if passes[0].1 == 1 { "" } else { " again" }),
        };
        assert_eq!(does, words, "row {n}");
    }
    let own = reading.repeats(reading.at(0)).count();
    let flagged = (0..rows(&cells)).filter(|&n| is(reading.row(n), "END") && reading.depths[n] == 2 && reading.row(n)[H + 4] == 1);
    assert_eq!((own, flagged.count()), (1, 2));
    let count = reading.row(0)[COUNT];
    let words =
        format!("One own REPEAT row makes {} passes; group_count of row 0 is {count}, and two END rows of depth 2 have h4 = 1.", own + 1);
    says(page, &words);

    // The checks by hand, and the copies.
    assert_eq!(failing(&reading), [("condition", 4)]);
    says(page, "so \"condition\" does not hold in it");
    let copies = table(page, &["copy", "answer"]);
    assert_eq!(copies.len(), 6);
    for fields in copies {
        let (profile, copy) = changed(&cells, fields[0]);
        assert_eq!(fields[1], answer(profile, &copy), "{}", fields[0]);
    }
}

#[test]
fn second_example_cells() {
    let (page, cells) = (section("Second example"), second_trace());
    assert_eq!(tables(page), 5);
    let head = "row|addr|opcode|h0–h7|in_span|group_count|op_index|batch flags|extra";
    let head: Vec<&str> = head.split('|').collect();
    let mut told = Vec::new();
    for (n, fields) in table(page, &head).iter().enumerate() {
        assert_eq!(number::<usize>(fields[0]), n);
        told.extend(row_of(n as u64, &fields[1..]));
    }
    let mut next = 0;
    for fields in table(page, &["rows", "stack from the top, cells 30, 31, …; the rest of the 16 are 0", "b0", "b1", "helper"]) {
        let (first, last) = fields[0].split_once('–').unwrap_or((fields[0], fields[0]));
        assert_eq!(number::<usize>(first), next, "rows of the stack's table");
        let (top, last) = (numbers(fields[1]), number::<usize>(last));
        for cells in told[next * WIDTH..(last + 1) * WIDTH].chunks_mut(WIDTH) {
            cells[STACK..STACK + top.len()].copy_from_slice(&top);
            (cells[B0], cells[B1], cells[HELPER]) = (number(fields[2]), number(fields[3]), number(fields[4]));
        }
        next = last + 1;
    }
    assert_eq!(next, SECOND_HEIGHT);
    same_cells(&told, &cells);
    says(page, "clk is the row's number, ctx and fn_hash are 0 in every row.");
}

#[test]
fn second_example_read() {
    let (page, vm) = (section("Second example"), second_run(0));
    let reading = read(EXAMPLE, &second_trace()).unwrap();
    // What is read is what ran.
    assert_eq!((reading.program_rows, &reading.blocks), (vm.ran.len(), &vm.blocks));
    for (n, ran) in vm.ran.iter().enumerate() {
        assert_eq!((reading.block(n).start, reading.passes(n)), (ran.block, ran.passes.clone()), "row {n}");
    }
    says(page, &format!("{} program rows, {} rows in all.", reading.program_rows, rows(&reading.cells)));

    let head = ["block", "END", "depth", "around it", "own address", "passes"];
    let lines = table(page, &head);
    assert_eq!(lines.len(), reading.blocks.len());
    for (fields, (b, &own)) in lines.iter().zip(reading.blocks.iter().zip(&vm.queues.addresses)) {
        let around = if b.around == b.start { "–".into() } else { reading.named(b.around) };
        let is_loop = is(reading.row(b.start), "LOOP");
        let passes = if is_loop { (1 + reading.repeats(*b).count()).to_string() } else { "–".into() };
        let words = [reading.named(b.start), b.end.to_string(), reading.depths[b.start].to_string(), around, own.to_string(), passes];
        assert_eq!(fields[..], words);
        // The page's two ways to a block's own address, and the number of passes in three places.
        assert_eq!(reading.row(b.start + 1)[ADDR], own);
        assert_eq!(reading.row(b.end)[ADDR] - reading.respans(*b, b.end) * EXAMPLE.step, own);
        if is_loop {
            let deeper = reading.depths[b.start] + 1;
            let flagged = |n: &usize| is(reading.row(*n), "END") && reading.depths[*n] == deeper && reading.row(*n)[H + 4] == 1;
            assert_eq!(reading.row(b.start)[COUNT].to_string(), fields[5]);
            assert_eq!((b.start..b.end).filter(flagged).count().to_string(), fields[5]);
        }
    }
    let depths: Vec<u64> = reading.depths.iter().map(|&depth| depth.into()).collect();
    says(page, &format!("Depths of rows 0 to {}: {}.", SECOND_HEIGHT - 1, list(&depths).replace(',', "")));

    let stops = table(page, &["stop in row", "kind", "its block", "passes, the outermost loop first"]);
    assert_eq!(stops.len(), 7);
    for fields in stops {
        let n: usize = number(fields[0]);
        let passes: Vec<_> = vm.ran[n].passes.iter().map(|(r, pass)| format!("pass {pass} of LOOP {r}")).collect();
        let passes = if passes.is_empty() { "–".into() } else { passes.join(", ") };
        assert_eq!(fields[1..], [kind(reading.row(n)).into(), reading.named(vm.ran[n].block), passes], "stop in row {n}");
    }
}

/// The sentences of the second example that have numbers.
#[test]
fn second_example_said() {
    let page = section("Second example");
    let t = read(EXAMPLE, &second_trace()).unwrap();
    let blocks = |name: &str| t.blocks.iter().copied().filter(|b| is(t.row(b.start), name)).collect::<Vec<_>>();
    let (outer, inner) = (blocks("LOOP")[0], blocks("LOOP")[1]);
    let (own, outers) = (t.repeats(inner).next().unwrap(), t.repeats(outer).next().unwrap());
    assert_eq!(outers, inner.end + 1);
    let (a, b) = (outer.start, inner.start);
    let depth = t.depths[outers];
    says(
        page,
        &format!("Row {own} is LOOP {b}'s own REPEAT: no pass of LOOP {b}. Row {outers} has depth {depth}, so it is LOOP {a}'s and"),
    );
    says(page, &format!("LOOP {a}'s and not LOOP {b}'s, though LOOP {b} ended right before it."));
    let end = t.row(inner.end);
    says(page, &format!("END row {} has h4 = {} and h5 = {}: a LOOP that is itself a loop's body.", inner.end, end[H + 4], end[H + 5]));

    let span = *blocks("SPAN").last().unwrap();
    let respan = (span.start..span.end).find(|&n| is(t.row(n), "RESPAN")).unwrap();
    let (addr, step) = (t.row(span.end)[ADDR], EXAMPLE.step);
    assert_eq!(t.respans(span, span.end), 1);
    let words = format!("SPAN {} has one RESPAN row. Its END has addr {addr}, so its own address is {addr} − 1 × {step} = ", span.start);
    says(page, &format!("{words}{}, the addr of row {}.", addr - step, span.start + 1));
    assert_eq!(t.row(span.start + 1)[ADDR], addr - step);
    let called = blocks("DYN")[0];
    let (word, ends) = (list(&t.row(called.start)[H..H + 4]), list(&t.row(span.end)[H..H + 4]));
    says(page, &format!("The callee word of DYN {} is {word}; the block that it ran ends with {ends}.", called.start));

    let (first, last) = (respan + 1, respan + 3);
    let (rest, code, group) = (t.row(first)[H], u64::from(opcode(t.row(first))), t.row(respan)[H]);
    assert_eq!(rest, u64::from(EXAMPLE.push));
    let words =
        format!("In row {first}, h0 is {rest}: one PUSH is left in the group. With this one it was {code} + 128 × {rest} = {group}, ");
    says(page, &format!("{words}the group in h0 of row {respan}."));
    let (c, before, left) = (t.row(respan)[COUNT], t.row(last - 1)[COUNT], t.row(last)[COUNT]);
    let of = c - left - 1;
    let words = format!("Group_count falls from {before} to {left} in row {last}, by 1 after the PUSH and by 1 for a new group: ");
    says(page, &format!("{words}{c} − {left} − 1 = {of}, which is h{of} of row {respan}, {}.", t.row(respan)[H + of as usize]));
    for push in [22, last - 1] {
        let batch = if push < respan { span.start } else { respan };
        let (c, g) = (t.row(batch)[COUNT], t.row(push)[COUNT]);
        let v = t.row(batch)[H + (c - g) as usize];
        assert!(is_push(t.row(push)) && t.row(push + 1)[STACK] == v);
        let words = format!("The PUSH of row {push}: {c} − {g} = {}, so its value is h{} of row {batch}, {v}, ", c - g, c - g);
        says(page, &format!("{words}which is cell 30 of row {}.", push + 1));
    }
    let helper = t.row(22)[HELPER];
    assert_eq!((t.row(22)[B0], u128::from(helper) * 2), (18, u128::from(P) + 1));
    says(page, &format!("The helper of row 22: {helper} × 2 = {} = p + 1.", u128::from(P) + 1));
    let depth = t.row(t.program_rows)[B0];
    assert_eq!(t.row(SECOND_HEIGHT - 1)[HELPER], inverse(depth - 16).unwrap());
    says(page, &format!("In the HALT rows b0 is {depth}: the VM itself would have {} in cell 48.", depth - 16));

    // The first of the damaged copies.
    let (_, copy) = changed(&t.cells, &format!("row {} lost", inner.end));
    let called = called.start - 1;
    assert_eq!(read(EXAMPLE, &copy).err(), Some(RefusedAt { refusal: Refusal(12), row: called }));
    assert!(is(row(&copy, called), "DYN") && is(row(&copy, inner.end), "REPEAT"));
    let (clk, addr, own) = (row(&copy, inner.end)[CLK], row(&copy, inner.end)[ADDR], t.row(b + 1)[ADDR]);
    let second = blocks("LOOP")[2].start;
    let words = format!("without row {}, the END of LOOP {b}, the old row {} is read as LOOP {b}'s REPEAT, ", inner.end, inner.end + 1);
    let words = words + &format!("LOOP {second} as another pass of LOOP {b}, and the old row {} as the END of LOOP {b}. ", outer.end);
    let words = words + &format!("So LOOP {a} is still open when the DYN comes, in row {called} of the copy, ");
    says(page, &format!("{words}and the DYN is named, as it is where row {} itself is lost.", outer.end));
    says(page, &format!("Row {} of the copy has clk {clk}, which shows where a row is missing; and it has addr {addr}, ", inner.end));
    says(page, &format!("and it has addr {addr}, where LOOP {b} has {own}."));
}

#[test]
fn second_example_copies() {
    let (page, cells) = (section("Second example"), second_trace());
    let reading = read(EXAMPLE, &cells).unwrap();
    assert!(failing(&reading).is_empty(), "{:?}", failing(&reading));
    says(page, "In the trace itself all seven hold.");
    let copies = table(page, &["copy", "answer", "shown by"]);
    assert_eq!(copies.len(), 25);
    let mut shown = vec![];
    for fields in copies {
        let (profile, copy) = changed(&cells, fields[0]);
        assert_eq!(fields[1], answer(profile, &copy), "{}", fields[0]);
        let found = match read(profile, &copy) {
            Ok(reading) => failing(&reading),
            Err(_) => clk(&copy).map(|row| ("clk", row)).into_iter().collect(),
        };
        let words: Vec<_> = found.iter().map(|(check, row)| format!("{check} {row}")).collect();
        assert_eq!(fields[2], if words.is_empty() { "–".into() } else { words.join(", ") }, "{}", fields[0]);
        shown.extend(found.iter().map(|(check, _)| *check));
    }
    // Each check of the page is here, and finds something.
    for fields in table(section("What 0 does not say"), &["check", "what has to hold"]) {
        assert!(CHECKS.contains(&fields[0]) && shown.contains(&fields[0]), "{}", fields[0]);
    }
    assert_eq!(table(section("What 0 does not say"), &["check", "what has to hold"]).len(), CHECKS.len());
}

// COPIES
// ------------------------------------------------------------------------------------------------

/// A trace changed as the page's words say.
fn changed(cells: &[u64], words: &str) -> (Profile, Vec<u64>) {
    let (mut profile, mut copy) = (EXAMPLE, cells.to_vec());
    let row = number::<usize>;
    match words.split(' ').collect::<Vec<_>>()[..] {
        ["row", n, "lost"] => drop(copy.drain(row(n) * WIDTH..(row(n) + 1) * WIDTH)),
        ["rows", a, "and", b, "lost"] => {
            drop(copy.drain(row(b) * WIDTH..(row(b) + 1) * WIDTH));
            drop(copy.drain(row(a) * WIDTH..(row(a) + 1) * WIDTH));
        }
        ["rows", a, "to", b, "lost"] => drop(copy.drain(row(a) * WIDTH..(row(b) + 1) * WIDTH)),
        ["row", n, "once", "more", "after", "row", m] => {
            let more = cells[row(n) * WIDTH..][..WIDTH].to_vec();
            copy.splice((row(m) + 1) * WIDTH..(row(m) + 1) * WIDTH, more);
        }
        ["opcode", value, "in", "row", n] => set_opcode(&mut copy[row(n) * WIDTH..][..WIDTH], number(value)),
        [value, "in", "cell", k, "of", "row", n] => copy[row(n) * WIDTH + number::<usize>(k)] = number(value),
        [value, "in", name, "of", "row", n] => {
            let cell = match name {
                "clk" => CLK,
                "addr" => ADDR,
                "in_span" => IN_SPAN,
                "group_count" => COUNT,
                "b0" => B0,
                name => H + number::<usize>(name.strip_prefix('h').unwrap_or_else(|| panic!("no cell '{name}'"))),
            };
            copy[row(n) * WIDTH + cell] = number(value);
        }
        ["p", "added", "to", "every", "cell"] => copy.iter_mut().for_each(|cell| *cell = cell.checked_add(P).expect("a small cell")),
        ["the", "last", "cell", "lost"] => copy.truncate(copy.len() - 1),
        ["step", value, "in", "the", "profile"] => profile.step = number(value),
        _ => panic!("no such copy: {words}"),
    }
    assert!(profile != EXAMPLE || copy != cells, "nothing changed: {words}");
    (profile, copy)
}

fn answer(profile: Profile, cells: &[u64]) -> String {
    read(profile, cells).err().map_or("0".into(), |refused| format!("{} at row {}", refused.refusal.0, refused.row))
}

// THE CHECKS BY HAND
// ------------------------------------------------------------------------------------------------

const CHECKS: [&str; 7] = ["clk", "flags", "address", "digest", "groups", "condition", "overflow"];

/// The checks that fail, each with its first row.
fn failing(t: &Reading) -> Vec<(&'static str, usize)> {
    let found = [clk(&t.cells), flags(t), address(t), digest(t), groups(t, true), condition(t), overflow(t)];
    CHECKS.into_iter().zip(found).filter_map(|(check, row)| row.map(|row| (check, row))).collect()
}

fn clk(cells: &[u64]) -> Option<usize> {
    (1..rows(cells)).find(|&n| row(cells, n)[CLK] != row(cells, n - 1)[CLK] + 1)
}

fn flags(t: &Reading) -> Option<usize> {
    let right = |b: &&Block| {
        let kind = kind(t.row(b.start));
        let flags = [kind == "LOOP", matches!(kind, "CALL" | "SYSCALL" | "DYNCALL"), false].map(u64::from);
        t.row(b.end)[H + 5..H + 8] == flags
    };
    t.blocks.iter().filter(|b| !right(b)).map(|b| b.end).min()
}

fn address(t: &Reading) -> Option<usize> {
    let mut wrong = Vec::new();
    for &b in &t.blocks {
        let own = t.row(b.start + 1)[ADDR];
        wrong.extend(t.parts(b).map(|part| part.start).filter(|&n| t.row(n)[ADDR] != own));
        for n in t.own_rows(b) {
            let moved = (u128::from(own) + u128::from(t.respans(b, n)) * u128::from(EXAMPLE.step)) % u128::from(P);
            if u128::from(t.row(n)[ADDR]) != moved || is_operation(t.row(n)) && t.row(n)[H + 1] != t.row(b.start)[ADDR] {
                wrong.push(n);
            }
        }
    }
    wrong.into_iter().min()
}

fn digest(t: &Reading) -> Option<usize> {
    let mut wrong = Vec::new();
    for &b in &t.blocks {
        let (first, second) = (&t.row(b.start)[H..H + 4], &t.row(b.start)[H + 4..H + 8]);
        for (i, part) in t.parts(b).enumerate() {
            let told = &t.row(part.end)[H..H + 4];
            let right = match kind(t.row(b.start)) {
                "LOOP" | "CALL" | "SYSCALL" => told == first,
                "JOIN" => told == if i == 0 { first } else { second },
                "SPLIT" => told == first || told == second,
                _ => true,
            };
            wrong.extend((!right).then_some(part.end));
        }
        wrong.extend(t.repeats(b).filter(|&n| t.row(n)[H..H + 4] != *first));
    }
    let last = &t.row(t.program_rows - 1)[H..H + 4];
    wrong.extend((t.program_rows..rows(&t.cells)).filter(|&n| t.row(n)[H..H + 4] != *last));
    wrong.into_iter().min()
}

/// The rules of the groups of a SPAN; that the value of a PUSH is the top of the next row only where the stack is asked too.
fn groups(t: &Reading, stack: bool) -> Option<usize> {
    let mut wrong = Vec::new();
    for b in t.blocks.iter().filter(|b| is(t.row(b.start), "SPAN")) {
        let mut batch = b.start;
        for n in b.start + 1..=b.end {
            let (before, this) = (t.row(n - 1), t.row(n));
            let is_new = is_operation(this) && this[OP_INDEX] == 0;
            let follows = is_operation(before) && this[OP_INDEX] == before[OP_INDEX] + 1;
            if is_operation(this) && !is_new && !follows {
                wrong.push(n);
            }
            // The last operation of a group.
            if is_operation(before) && (is_new || !is_operation(this)) && before[H] != 0 {
                wrong.push(n - 1);
            }
            // Groups left.
            if before[COUNT] != this[COUNT] + u64::from(is_new) + u64::from(is_push(before)) {
                wrong.push(n);
            }
            // The rest of the group, and which group it is.
            let taken = t.row(batch)[COUNT].wrapping_sub(this[COUNT]) as usize;
            let groups = &t.row(batch)[H..H + 8];
            if is_operation(this) {
                let whole = if is_new { groups.get(taken.wrapping_sub(1)).copied() } else { Some(before[H]) };
                if whole != this[H].checked_mul(128).map(|rest| rest + u64::from(opcode(this))) {
                    wrong.push(n);
                }
            }
            if stack && is_push(this) && groups.get(taken) != Some(&t.row(n + 1)[STACK]) {
                wrong.push(n);
            }
            if is(this, "RESPAN") {
                batch = n;
            }
        }
    }
    wrong.into_iter().min()
}

fn condition(t: &Reading) -> Option<usize> {
    let loops = t.blocks.iter().filter(|b| is(t.row(b.start), "LOOP"));
    let wrong = loops.flat_map(|&b| {
        let repeats = t.repeats(b).filter(|&n| t.row(n)[STACK] != 1);
        repeats.chain((t.row(b.end)[STACK] == 1).then_some(b.end)).collect::<Vec<_>>()
    });
    wrong.min()
}

fn overflow(t: &Reading) -> Option<usize> {
    let keeps = |row: &[u64]| {
        let above = u128::from(row[B0] - 16);
        if above == 0 { row[HELPER] == 0 } else { u128::from(row[HELPER]) * above % u128::from(P) == 1 }
    };
    (0..rows(&t.cells)).find(|&n| !keeps(t.row(n)))
}

/// Proper runs of every kind pass the checks that ask nothing of the clock, the packing and the stack's values.
#[test]
fn proper_runs_pass_the_checks() {
    let rng = Rng::new(25);
    let mut kinds = std::collections::BTreeSet::new();
    for _ in 0..300 {
        let run = proper_run(&rng, 400);
        let cycles = run.fragments.iter().flatten().filter(|call| matches!(call, Call::Cycle(_))).count();
        // A start of a SYSCALL node is refused, and so is more than 64 deep.
        let Ok(cells) = write(&run, cycles + 3) else { continue };
        let Ok(t) = read(EXAMPLE, &cells) else { continue };
        assert_eq!([flags(&t), address(&t), digest(&t), overflow(&t)], [None; 4]);
        kinds.extend((0..t.program_rows).map(|n| kind(t.row(n))));
    }
    let control = ["SPAN", "RESPAN", "JOIN", "SPLIT", "LOOP", "REPEAT", "CALL", "DYN", "DYNCALL", "END", "operation"];
    assert!(control.iter().all(|name| kinds.contains(name)), "{kinds:?}");
}

// THE GENERAL RULES
// ------------------------------------------------------------------------------------------------

/// The table of the 49 cells has the places that are used here.
#[test]
fn places_of_the_cells() {
    let places = [
        ("clk", CLK, 1),
        ("ctx", 1, 1),
        ("fn_hash", 2, 4),
        ("addr", ADDR, 1),
        ("op bits", OP_BITS, 7),
        ("h0–h7", H, 8),
        ("in_span", IN_SPAN, 1),
        ("group_count", COUNT, 1),
        ("op_index", OP_INDEX, 1),
        ("batch flags", FLAGS, 3),
        ("extra", EXTRA, 2),
        ("stack top", STACK, 16),
        ("b0", B0, 1),
        ("b1", B1, 1),
        ("helper", HELPER, 1),
    ];
    let cells = |first: usize, count: usize| match count {
        1 => first.to_string(),
        2 => format!("{first}, {}", first + 1),
        count => format!("{first}–{}", first + count - 1),
    };
    let lines = table(section("The 49 cells of a row"), &["cells", "name", "meaning"]);
    assert!(
        lines.iter().map(|fields| (fields[0].to_string(), fields[1])).eq(places.map(|(name, first, count)| (cells(first, count), name)))
    );
    assert_eq!(places.iter().map(|(_, _, count)| count).sum::<usize>(), WIDTH);
}

/// The cells of each kind of row in proper runs, as the page's two tables have them.
#[test]
fn cells_of_each_kind() {
    let rng = Rng::new(49);
    let kinds = table(section("The 49 cells of a row"), &["row", "addr", "h0–h7"]);
    let addr = |kind: &str| kinds.iter().find(|fields| fields[0].split(", ").any(|name| name == kind)).expect("a line for the kind")[1];
    for _ in 0..200 {
        let run = proper_run(&rng, 400);
        let cycles: Vec<Cycle> =
            run.fragments.iter().flatten().filter_map(|call| if let Call::Cycle(c) = call { Some(*c) } else { None }).collect();
        let Ok(cells) = write(&run, cycles.len() + 3) else { continue };
        let Ok(t) = read(EXAMPLE, &cells) else { continue };
        for n in 0..rows(&cells) {
            let (row, kind) = (t.row(n), kind(t.row(n)));
            let bit = |i: usize| row[OP_BITS + i];
            assert_eq!(row[EXTRA..EXTRA + 2], [bit(6) * (1 - bit(5)) * bit(4), bit(6) * bit(5)]);
            let is_batch = ["SPAN", "RESPAN"].contains(&kind);
            let flags = match row[COUNT] {
                _ if !is_batch => [0, 0, 0],
                8.. => [1, 0, 0],
                4 => [0, 1, 0],
                2 => [0, 0, 1],
                1 => [0, 1, 1],
                count => panic!("{count} groups"),
            };
            assert_eq!(row[FLAGS..FLAGS + 3], flags);
            assert!(is_operation(row) || row[OP_INDEX] == 0);
            assert!(is_operation(row) || is_batch || kind == "LOOP" || row[COUNT] == 0);
            match kind {
                "LOOP" | "CALL" | "DYN" => assert_eq!(row[H + 4..H + 8], [0; 4]),
                "DYNCALL" => assert_eq!(row[H + 6..H + 8], [0; 2]),
                "REPEAT" => assert_eq!(row[H + 4..H + 8], [1, 0, 0, 0]),
                "HALT" => {
                    assert_eq!((row[ADDR], &row[H..H + 4]), (0, &t.row(n - 1)[H..H + 4]));
                    assert_eq!(row[H + 4..H + 8], [0; 4]);
                }
                _ => {}
            }
            match (addr(kind), t.blocks.iter().rfind(|b| b.start <= n && n <= b.end)) {
                ("0", None) => assert_eq!(row[ADDR], 0),
                ("parent's address", Some(b)) if b.around == b.start => {}
                ("parent's address", Some(b)) => assert_eq!(row[ADDR], t.row(b.around + 1)[ADDR]),
                ("current address", Some(b)) => {
                    let moved = u128::from(t.respans(*b, n)) * u128::from(EXAMPLE.step);
                    assert_eq!(u128::from(row[ADDR]), (u128::from(t.row(b.start + 1)[ADDR]) + moved) % u128::from(P));
                }
                other => panic!("row {n}: {other:?}"),
            }
            // System and stack are what the row before left.
            if n == 0 {
                assert_eq!((&row[..6], row[B0], row[B1], row[HELPER]), (&[0; 6][..], 16, 0, 0));
                assert!(row[STACK..B0].iter().eq(run.first_stack_top.iter().rev()));
            } else if n <= t.program_rows {
                let Cycle { system, stack, .. } = cycles[n - 1];
                assert_eq!((row[CLK], row[1]), (u64::from(system.clk.0) + 1, u64::from(system.ctx.0)));
                assert_eq!((&row[2..6], row[B0], row[B1]), (&system.fn_hash[..], u64::from(stack.stack_depth), stack.overflow_addr));
                assert!(row[STACK..B0].iter().eq(stack.stack_top.iter().rev()));
            } else {
                assert_eq!((row[CLK], &row[1..6], &row[STACK..]), (n as u64, &[0; 5][..], &t.row(n - 1)[STACK..]));
            }
        }
    }
}

/// Operations and values, packed as the page says, have the rows that the page says.
#[test]
fn packed_groups() {
    let rng = Rng::new(7);
    for _ in 0..200 {
        let operation = |_| match rng.below(4) {
            0 => (EXAMPLE.push, Some(rng.next() % P)),
            1 => (0, None),
            _ => ((1 + rng.below(80)) as u8, None),
        };
        let operations: Vec<_> = (0..1 + rng.below(120)).map(operation).collect();
        let values: Vec<u64> = operations.iter().filter_map(|(_, value)| *value).collect();
        let vm = Vm::run(vec![block(&operations, [1, 2, 3, 4])], 0, (0, [0; 4]), &values, &[], 0);
        let cells = write(&vm.cut(&[], vm.ran.len()), vm.ran.len() + 1).expect("the calls are right");
        let t = read(EXAMPLE, &cells).unwrap();
        assert_eq!((groups(&t, true), address(&t), clk(&cells)), (None, None, None));
        // The last batch has 1, 2, 4 or 8 groups, the others 8; group_count of a RESPAN counts from its batch on.
        let batches = pack(&operations);
        let counts: Vec<u64> = batches.iter().map(|b| b.num_groups.into()).collect();
        assert!(counts[..counts.len() - 1].iter().all(|&count| count == 8) && [1, 2, 4, 8].contains(counts.last().unwrap()));
        let told: Vec<u64> =
            (0..t.program_rows).filter(|&n| ["SPAN", "RESPAN"].contains(&kind(t.row(n)))).map(|n| t.row(n)[COUNT]).collect();
        assert!(told.iter().copied().eq((0..counts.len()).map(|i| counts[i..].iter().sum())));
    }
}

/// A row of zeros of this kind.
fn made(name: &str) -> Vec<u64> {
    let mut cells = vec![0; WIDTH];
    let at = NAMES.iter().position(|n| *n == name);
    match (name, at) {
        ("operation", _) => cells[IN_SPAN] = 1,
        ("nothing", _) => cells[IN_SPAN] = 2,
        (_, at) => set_opcode(&mut cells, EXAMPLE.opcodes()[at.expect("a name")]),
    }
    cells
}

/// 12 and 15: the first row that breaks a rule decides.
#[test]
fn twelve_and_fifteen() {
    let trace = |parts: &[(usize, &str)]| parts.iter().flat_map(|&(n, name)| made(name).repeat(n)).collect::<Vec<u64>>();
    let check = |parts: &[(usize, &str)], told: &str| assert_eq!(answer(EXAMPLE, &trace(parts)), told, "{parts:?}");
    // 64 deep, and 65.
    check(&[(63, "CALL"), (1, "SPAN"), (64, "END"), (1, "HALT")], "0");
    check(&[(64, "CALL"), (1, "SPAN"), (65, "END"), (1, "HALT")], "15 at row 64");
    check(&[(63, "CALL"), (1, "JOIN"), (1, "LOOP")], "15 at row 64");
    check(&[(62, "CALL"), (1, "JOIN"), (1, "SPAN"), (1, "END"), (1, "CALL"), (1, "SPAN")], "15 at row 66");
    // A start row inside a SPAN, another row, a row that is nothing, with 64 open.
    check(&[(63, "CALL"), (2, "SPAN")], "12 at row 64");
    for name in ["END", "REPEAT", "RESPAN", "operation", "HALT", "nothing"] {
        check(&[(64, "CALL"), (1, name)], "12 at row 64");
    }
    // The first breach decides, whatever comes after it.
    check(&[(64, "CALL"), (1, "SPAN"), (1, "nothing")], "15 at row 64");
    check(&[(3, "CALL"), (1, "nothing"), (80, "CALL")], "12 at row 3");
    check(&[(1, "SPAN"), (1, "operation"), (1, "nothing"), (1, "END"), (1, "HALT")], "12 at row 2");
    // Not complete: a block is open, no HALT, no rows; and after HALT.
    check(&[(2, "CALL"), (1, "SPAN"), (2, "END")], "12 at row 5");
    check(&[(1, "SPAN"), (1, "END")], "12 at row 2");
    check(&[], "12 at row 0");
    check(&[(1, "SPAN"), (1, "END"), (1, "HALT"), (1, "SPAN")], "12 at row 3");
    check(&[(1, "HALT")], "12 at row 0");
    // In the wrong place: REPEAT of no loop, a JOIN of one part and of three, a SPLIT of two.
    check(&[(1, "CALL"), (1, "SPAN"), (1, "END"), (1, "REPEAT")], "12 at row 3");
    check(&[(1, "JOIN"), (1, "SPAN"), (2, "END")], "12 at row 3");
    check(&[(1, "JOIN"), (1, "SPAN"), (1, "END"), (1, "SPAN"), (1, "END"), (1, "SPAN")], "12 at row 5");
    check(&[(1, "SPLIT"), (1, "SPAN"), (1, "END"), (1, "SPAN")], "12 at row 3");
    check(&[(1, "LOOP"), (1, "END")], "12 at row 1");
}

/// What 0 leaves open: no cell but those that the page names decides, and the damages that it lists are answered with 0.
#[test]
fn what_0_does_not_say() {
    let cells = second_trace();
    let t = read(EXAMPLE, &cells).unwrap();
    let accepted = |copy: &[u64], why: &str| assert_eq!(answer(EXAMPLE, copy), "0", "{why}");
    for n in 0..rows(&cells) {
        let mut copy = cells.clone();
        for k in 0..WIDTH {
            let asked = (OP_BITS..OP_BITS + 7).contains(&k)
                || k == IN_SPAN
                || k == H + 4 && is(t.row(n), "END")
                || k == COUNT && is(t.row(n), "LOOP");
            if !asked {
                copy[n * WIDTH + k] = copy[n * WIDTH + k].wrapping_mul(3).wrapping_add(0xffff_ffff_0000_0005);
            }
        }
        let other = read(EXAMPLE, &copy).expect("no cell of the row is asked");
        assert_eq!((other.program_rows, other.depths, other.blocks), (t.program_rows, t.depths.clone(), t.blocks.clone()), "row {n}");
    }
    let in_span = |n: &usize| is_operation(t.row(*n)) || is(t.row(*n), "RESPAN");
    for n in (0..t.program_rows).filter(in_span) {
        accepted(&changed(&cells, &format!("row {n} lost")).1, "lost");
        accepted(&changed(&cells, &format!("row {n} once more after row {n}")).1, "doubled");
        if in_span(&(n + 1)) {
            let mut copy = cells.clone();
            copy[n * WIDTH..(n + 2) * WIDTH].rotate_left(WIDTH);
            accepted(&copy, "exchanged");
        }
    }
    let operation = (0..t.program_rows).find(|&n| is_operation(t.row(n))).unwrap();
    for other in (0..128).filter(|&other| other != opcode(t.row(operation))) {
        let (_, copy) = changed(&cells, &format!("opcode {other} in row {operation}"));
        if EXAMPLE.opcodes().contains(&other) && other != EXAMPLE.push {
            assert!(read(EXAMPLE, &copy).is_err(), "opcode {other}");
        } else {
            accepted(&copy, "another opcode");
        }
    }
    let called = t.blocks.iter().find(|b| is(t.row(b.start), "DYN")).unwrap().start;
    for opcode in [EXAMPLE.split, EXAMPLE.call, EXAMPLE.syscall, EXAMPLE.dyncall] {
        accepted(&changed(&cells, &format!("opcode {opcode} in row {called}")).1, "another kind");
    }
    accepted(&changed(&cells, &format!("row {} lost", SECOND_HEIGHT - 1)).1, "a HALT row");
}

/// A clock that is started elsewhere shows from row 1 on, and not in HALT rows after the first.
#[test]
fn a_clock_started_elsewhere() {
    let vm = second_run(1000);
    let (run, plain) = (vm.cut(&SECOND_TOP, 7), second_trace());
    let cells = write(&run, SECOND_HEIGHT).unwrap();
    for n in 0..SECOND_HEIGHT {
        let told = if n == 0 || n > vm.ran.len() { n } else { 1000 + n };
        assert_eq!(row(&cells, n)[CLK], told as u64, "row {n}");
        assert_eq!(row(&cells, n)[1..], row(&plain, n)[1..], "row {n}");
    }
}

/// The VM's own rows of the second example are the library's, but for the helper of HALT rows from depth 18 up.
#[cfg(listed)]
#[test]
fn as_the_vm_writes_it() {
    use core_trace::listed::whole;
    use core_trace::overflow::invert_deep_halts;
    let vm = second_run(0);
    let listed: Vec<u64> = whole::rows(&whole::trace(&vm.cut(&SECOND_TOP, vm.ran.len()), SECOND_HEIGHT).unwrap()).flatten().collect();
    let halt = row(&listed, vm.ran.len());
    assert_eq!(halt[HELPER], halt[B0] - 16);
    let mut documented = listed.clone();
    invert_deep_halts(&mut documented);
    same_cells(&documented, &second_trace());
}

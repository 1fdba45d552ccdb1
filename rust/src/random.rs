//! Random runs: proper ones as document 01 defines them, and lists of calls that are none. The same seed gives the same runs.

use core::cell::Cell;

use crate::calls::{
    Call, ContextId, Continuation, Cycle, DecoderState, ExecutionContextInfo, MastNodeId, Registers, RowIndex, StackState, StoredValues,
    SystemState,
};
use crate::forest::{Forest, MastNode, OpBatch, Queues, Slot, Word};
use crate::profile::EXAMPLE;

const P: u64 = 18446744069414584321;

/// Splitmix64.
pub struct Rng {
    state: Cell<u64>,
    small: bool,
}

impl Rng {
    pub fn new(seed: u64) -> Self {
        Self { state: Cell::new(seed), small: false }
    }
    /// One whose cells are mostly small.
    pub fn small(seed: u64) -> Self {
        Self { state: Cell::new(seed), small: true }
    }
    pub fn next(&self) -> u64 {
        self.state.set(self.state.get().wrapping_add(0x9e37_79b9_7f4a_7c15));
        let mut z = self.state.get();
        z = (z ^ (z >> 30)).wrapping_mul(0xbf58_476d_1ce4_e5b9);
        z = (z ^ (z >> 27)).wrapping_mul(0x94d0_49bb_1331_11eb);
        z ^ (z >> 31)
    }
    pub fn below(&self, n: usize) -> usize {
        (self.next() % n as u64) as usize
    }
    pub fn one_in(&self, n: usize) -> bool {
        self.below(n) == 0
    }
    pub fn pick<T: Copy>(&self, all: &[T]) -> T {
        all[self.below(all.len())]
    }
    /// A cell, now and then a small or the largest one.
    pub fn cell(&self) -> u64 {
        if self.small && !self.one_in(24) {
            return self.next() % 100;
        }
        match self.below(8) {
            0 => self.next() % 3,
            1 => P - 1 - self.next() % 2,
            2 => self.next() % (1 << 32),
            _ => self.next() % P,
        }
    }
    pub fn word(&self) -> Word {
        [self.cell(), self.cell(), self.cell(), self.cell()]
    }
    /// A number of 32 bits, now and then at an end of its range.
    pub fn half(&self) -> u64 {
        match self.below(6) {
            0 => self.next() % 2,
            1 => 0xffff_ffff - self.next() % 2,
            2 => self.next() % (1 << 16),
            _ => self.next() % (1 << 32),
        }
    }
}

/// A run: forests, queues, the state at its start, and its calls, fragment by fragment.
#[derive(Clone, Debug)]
pub struct Run {
    pub forests: Vec<Forest>,
    pub queues: Queues,
    pub state: DecoderState,
    pub first_stack_top: [u64; 16],
    pub fragment_size: usize,
    pub fragments: Vec<Vec<Call>>,
    /// Of a proper run, the depth of the node that each cycle belongs to, the root's being 1.
    pub nesting: Option<Vec<u32>>,
}

impl Run {
    /// The cycles, the last one first.
    pub fn cycles_from_last(&mut self) -> impl Iterator<Item = &mut Cycle> {
        self.fragments.iter_mut().rev().flat_map(|calls| calls.iter_mut().rev()).filter_map(|call| match call {
            Call::Cycle(cycle) => Some(cycle),
            Call::Store(_) => None,
        })
    }
}

/// A storing and its cycle.
pub type Pair = (StoredValues, Cycle);

// FORESTS
// ------------------------------------------------------------------------------------------------

/// The opcode of an operation, now and then PUSH.
pub fn operation(rng: &Rng) -> u8 {
    loop {
        let opcode = if rng.one_in(6) { EXAMPLE.push } else { rng.below(128) as u8 };
        if EXAMPLE.is_operation(opcode) {
            return opcode;
        }
    }
}

/// Places operations as an assembler does: nine to a group, the value of a PUSH in the next free group.
fn assembled_batch(rng: &Rng, is_last: bool) -> OpBatch {
    let mut groups = [0; 8];
    let mut sizes = [0; 8];
    let mut ops = Vec::new();
    let (mut group, mut free) = (0, 1);
    let most = if is_last { 1 + rng.below(70) } else { 200 };
    while ops.len() < most {
        if sizes[group] == 9 {
            if free == 8 {
                break;
            }
            group = free;
            free += 1;
        }
        let opcode = operation(rng);
        if opcode == EXAMPLE.push {
            if free == 8 || sizes[group] == 8 {
                if is_last || free < 8 {
                    continue;
                }
                break;
            }
            groups[free] = rng.cell();
            free += 1;
        }
        groups[group] |= u64::from(opcode) << (7 * sizes[group]);
        sizes[group] += 1;
        ops.push(opcode);
    }
    let num_groups = if is_last { free.next_power_of_two() } else { 8 };
    // A group added by the rounding holds one operation of opcode 0.
    for size in sizes.iter_mut().take(num_groups).skip(free) {
        *size = 1;
        ops.push(0);
    }
    let mut starts = [0; 9];
    for g in 0..8 {
        starts[g + 1] = starts[g] + sizes[g];
    }
    OpBatch { num_groups: num_groups as u32, groups, starts, ops }
}

fn assembled_block(rng: &Rng) -> MastNode {
    let more = if rng.one_in(3) { 1 + rng.below(3) } else { 0 };
    let batches: Vec<_> = (0..=more).map(|i| assembled_batch(rng, i == more)).collect();
    MastNode::Block(batches.iter().map(|b| b.num_groups).sum(), batches)
}

fn free_batch(rng: &Rng) -> OpBatch {
    let mut groups = [0; 8];
    let mut starts = [0; 9];
    starts[0] = 0;
    for g in 0..8 {
        let size = if rng.one_in(2) { rng.below(10) as u32 } else { 0 };
        starts[g + 1] = starts[g] + size;
        groups[g] = if rng.one_in(3) { rng.cell() } else { (0..9).map(|i| u64::from(operation(rng)) << (7 * i)).sum() };
    }
    let ops = (0..starts[8]).map(|_| operation(rng)).collect();
    OpBatch { num_groups: rng.below(9) as u32, groups, starts, ops }
}

/// What an operation's cycle counts as consumed, by document 01.
fn consumed(batches: &[OpBatch], batch: usize, op: usize) -> u32 {
    let before: u32 = batches[..batch].iter().map(|b| b.num_groups.next_power_of_two()).sum();
    let b = &batches[batch];
    let group = (0..8).find(|&g| b.starts[g] as usize <= op && op < b.starts[g + 1] as usize).unwrap();
    let index = op - b.starts[group] as usize;
    let pushes = (0..index).filter(|i| b.groups[group] >> (7 * i) & 127 == u64::from(EXAMPLE.push)).count();
    before + pushes as u32 + group as u32 + 1
}

fn counts_as_batch(count: u32) -> bool {
    matches!(count.min(8), 1 | 2 | 4 | 8)
}

/// A block whose numbers are free of each other, as far as no cycle of a proper run refuses.
fn free_block(rng: &Rng) -> MastNode {
    loop {
        let batches: Vec<_> = (0..1 + rng.below(4)).map(|_| free_batch(rng)).collect();
        let sums = (1..batches.len()).map(|i| batches[i..].iter().map(|b| b.num_groups).sum::<u32>());
        if !sums.clone().all(counts_as_batch) {
            continue;
        }
        let least = (0..batches.len()).flat_map(|b| (0..batches[b].ops.len()).map(move |o| (b, o)));
        let least = least.map(|(b, o)| consumed(&batches, b, o)).max().unwrap_or(1);
        let total = least + rng.below(20) as u32;
        if counts_as_batch(total) {
            return MastNode::Block(total, batches);
        }
    }
}

fn block(rng: &Rng) -> MastNode {
    if rng.one_in(3) { free_block(rng) } else { assembled_block(rng) }
}

/// A forest of `n` nodes with lower children, slot 0 being a block, and behind them a digest alone, an external node and an absent slot.
pub fn forest(rng: &Rng, n: usize) -> Forest {
    let mut slots = Vec::new();
    for id in 0..n {
        let child = |rng: &Rng| rng.below(id) as u32;
        let node = if id == 0 {
            block(rng)
        } else {
            match rng.below(10) {
                0 | 1 => block(rng),
                2 | 3 => MastNode::Join(child(rng), child(rng)),
                4 => {
                    let lower = child(rng);
                    // The other child may be this node, a later one, or a digest alone.
                    let other = if rng.one_in(2) { child(rng) } else { (id + rng.below(n - id + 1)) as u32 };
                    if rng.one_in(2) { MastNode::Split(lower, other) } else { MastNode::Split(other, lower) }
                }
                5 | 6 => MastNode::Loop(child(rng)),
                7 => MastNode::Call(child(rng)),
                8 => {
                    if rng.one_in(2) {
                        MastNode::Syscall(child(rng))
                    } else {
                        MastNode::Dyn
                    }
                }
                _ => {
                    if rng.one_in(2) {
                        MastNode::Dyncall
                    } else {
                        MastNode::Dyn
                    }
                }
            }
        };
        slots.push(Slot::Node(node, rng.word()));
    }
    slots.push(Slot::Digest(rng.word()));
    slots.push(Slot::Node(MastNode::External, rng.word()));
    slots.push(Slot::Absent);
    slots
}

// CYCLES
// ------------------------------------------------------------------------------------------------

/// Helper registers of any case, none of whose values is refused.
pub fn registers(rng: &Rng) -> Registers {
    let case = 1 + rng.below(18) as u64;
    let mut cells = [0; 6];
    for cell in cells.iter_mut().take(Registers::CELLS[case as usize]) {
        *cell = if Registers::splits(case) { rng.half() } else { rng.cell() };
    }
    if case == 1 && rng.one_in(3) {
        cells[1] = cells[0];
    }
    Registers { case, cells }
}

fn cycle(rng: &Rng, forest: u32, row: usize) -> Cycle {
    let clk = if rng.one_in(8) { rng.half().min(0xffff_fffe) as u32 } else { row as u32 };
    let mut stack_top = [0; 16];
    stack_top.iter_mut().for_each(|cell| *cell = rng.cell());
    let stack_depth = match rng.below(8) {
        0 => 16 + rng.below(0xffff_ffff - 15) as u32,
        1 => 16 + rng.below(2000) as u32,
        2..=4 => 16 + rng.below(4) as u32,
        _ => 16,
    };
    Cycle {
        forest,
        system: SystemState { clk: RowIndex(clk), ctx: ContextId(rng.half() as u32), fn_hash: rng.word() },
        stack: StackState { stack_top, stack_depth, overflow_addr: rng.cell() },
        registers: registers(rng),
    }
}

fn info(rng: &Rng) -> ExecutionContextInfo {
    ExecutionContextInfo {
        stack_depth: 16 + rng.below(if rng.one_in(4) { 0xffff_ffff - 15 } else { 5 }) as u32,
        next_overflow_addr: rng.cell(),
    }
}

// PROPER RUNS
// ------------------------------------------------------------------------------------------------

/// A run that grew past its limit.
pub struct TooLong;

/// The addresses of the blocks that a run starts. They are lent in a queue, and a proper run's may be any.
#[derive(Clone, Copy, Debug, PartialEq, Eq)]
pub enum Addresses {
    /// From 1 on, each a profile's step or more above the one before, as a VM numbers its blocks.
    Rising,
    /// Below p.
    Random,
}

/// Writes the proper run of a node: its calls and queue entries.
pub struct Writer<'a> {
    pub rng: &'a Rng,
    pub forests: &'a [Forest],
    pub queues: Queues,
    pub pairs: Vec<Pair>,
    pub limit: usize,
    next_addr: u64,
    addresses: Addresses,
    depth: u32,
    nesting: Vec<u32>,
}

impl<'a> Writer<'a> {
    pub fn new(rng: &'a Rng, forests: &'a [Forest], limit: usize) -> Self {
        let addresses = if rng.one_in(4) { Addresses::Random } else { Addresses::Rising };
        Self { rng, forests, queues: Queues::default(), pairs: Vec::new(), limit, next_addr: 1, addresses, depth: 0, nesting: Vec::new() }
    }

    fn address(&mut self) -> u64 {
        if self.addresses == Addresses::Random {
            return self.rng.next() % P;
        }
        let addr = self.next_addr;
        self.next_addr += EXAMPLE.step;
        addr
    }

    /// One cycle; the flag is free where none is given.
    fn emit(
        &mut self,
        forest: u32,
        continuation: Continuation,
        flag: Option<bool>,
        condition: Option<bool>,
        callee: Option<Word>,
        info_given: Option<ExecutionContextInfo>,
    ) {
        let rng = self.rng;
        let mut stored =
            StoredValues { continuation, is_loop_body: flag.unwrap_or_else(|| rng.one_in(2)), condition, callee, info: info_given };
        // A captured value that the cycle does not use is free.
        if rng.one_in(16) {
            stored.condition = stored.condition.or(Some(rng.one_in(2)));
            stored.callee = stored.callee.or(Some(rng.word()));
            stored.info = stored.info.or(Some(info(rng)));
        }
        let row = self.pairs.len();
        self.pairs.push((stored, cycle(rng, forest, row)));
        self.nesting.push(self.depth);
    }

    /// The run of a node under the address `a` of its parent, whose own parent has the address `above`.
    pub fn node(&mut self, forest: u32, id: u32, a: u64, above: u64, is_body: bool, dyns: usize) -> Result<(), TooLong> {
        if self.pairs.len() > self.limit {
            return Err(TooLong);
        }
        let Slot::Node(node, _) = &self.forests[forest as usize][id as usize] else {
            panic!("a run of a slot without a node");
        };
        let b = self.address();
        let n = MastNodeId(id);
        self.depth += 1;
        self.queues.addresses.push(b);
        self.queues.parents.push(a);
        let is_dyn = matches!(node, MastNode::Dyn | MastNode::Dyncall);
        let callee = is_dyn.then(|| self.rng.word());
        let given = matches!(node, MastNode::Dyncall).then(|| info(self.rng));
        self.emit(forest, Continuation::StartNode(n), None, None, callee, given);
        let mut ended = b;
        let (finish, condition) = match node {
            MastNode::Block(_, batches) => {
                for (i, batch) in batches.iter().enumerate() {
                    if i > 0 {
                        self.emit(forest, Continuation::Respan { node_id: n, batch_index: i as u32 }, None, None, None, None);
                        ended = ((u128::from(ended) + u128::from(EXAMPLE.step)) % u128::from(P)) as u64;
                        if self.addresses == Addresses::Rising {
                            self.next_addr += EXAMPLE.step;
                        }
                    }
                    for op in 0..batch.ops.len() {
                        let resume = Continuation::ResumeBasicBlock { node_id: n, batch_index: i as u32, op_idx_in_batch: op as u32 };
                        self.emit(forest, resume, None, None, None, None);
                    }
                }
                (Continuation::FinishBasicBlock(n), None)
            }
            MastNode::Join(first, second) => {
                self.node(forest, *first, b, a, false, dyns)?;
                self.node(forest, *second, b, a, false, dyns)?;
                (Continuation::FinishJoin(n), None)
            }
            MastNode::Split(first, second) => {
                let lower = *first.min(second);
                let other = *first.max(second);
                let is_node = matches!(self.forests[forest as usize][other as usize], Slot::Node(..));
                let child = if is_node && self.rng.one_in(3) { other } else { lower };
                self.node(forest, child, b, a, false, dyns)?;
                (Continuation::FinishSplit(n), None)
            }
            MastNode::Loop(body) => {
                self.node(forest, *body, b, a, true, dyns)?;
                while self.rng.one_in(2) {
                    self.emit(forest, Continuation::FinishLoop(n), None, Some(true), None, None);
                    self.node(forest, *body, b, a, true, dyns)?;
                }
                (Continuation::FinishLoop(n), Some(false))
            }
            MastNode::Call(callee) | MastNode::Syscall(callee) => {
                self.node(forest, *callee, b, a, false, dyns)?;
                (Continuation::FinishCall(n), None)
            }
            MastNode::Dyn | MastNode::Dyncall => {
                let (other, callee) = if dyns == 3 {
                    (forest, 0)
                } else {
                    let other = self.rng.below(self.forests.len());
                    // The last three slots are no nodes to run.
                    (other as u32, self.rng.below(self.forests[other].len() - 3) as u32)
                };
                self.node(other, callee, b, a, false, dyns + 1)?;
                (Continuation::FinishDyn(n), None)
            }
            MastNode::External => panic!("a run of an external node"),
        };
        self.queues.ends.extend([ended, a, above]);
        self.emit(forest, finish, Some(is_body), condition, None, None);
        self.depth -= 1;
        Ok(())
    }
}

/// What is stored after a cycle of the continuation in this forest: it uses up what its row shows.
fn used_up(forests: &[Forest], forest: u32, stored: &mut StoredValues) {
    match stored.continuation {
        Continuation::FinishLoop(_) => stored.condition = None,
        Continuation::StartNode(id) => match forests.get(forest as usize).and_then(|f| f.get(id.0 as usize)) {
            Some(Slot::Node(MastNode::Dyn, _)) => stored.callee = None,
            Some(Slot::Node(MastNode::Dyncall, _)) => {
                stored.callee = None;
                stored.info = None;
            }
            _ => {}
        },
        _ => {}
    }
}

/// The calls of the pairs, fragment by fragment: now and then a storing that the next one replaces, a cycle without a storing of its
/// own where the same is stored already, a storing without a cycle.
fn fragments(rng: &Rng, forests: &[Forest], pairs: &[Pair], size: usize) -> Vec<Vec<Call>> {
    let mut all = Vec::new();
    for part in pairs.chunks(size) {
        let mut calls = Vec::new();
        let mut in_force = None;
        for (stored, cycle) in part {
            if in_force != Some(*stored) || rng.one_in(2) {
                if rng.one_in(24) {
                    let (other, _) = pairs[rng.below(pairs.len())];
                    calls.push(Call::Store(other));
                }
                calls.push(Call::Store(*stored));
            }
            calls.push(Call::Cycle(*cycle));
            let mut left = *stored;
            used_up(forests, cycle.forest, &mut left);
            in_force = Some(left);
        }
        if rng.one_in(12) {
            calls.push(Call::Store(pairs[rng.below(pairs.len())].0));
        }
        all.push(calls);
    }
    all
}

fn fragment_size(rng: &Rng, rows: usize) -> usize {
    match rng.below(6) {
        0 => 1 + rng.below(4),
        1 => rows.max(1),
        2 => rows + 1 + rng.below(5),
        3 => 1 << rng.below(8),
        _ => 1 + rng.below(rows.max(1)),
    }
}

fn stack_top(rng: &Rng) -> [u64; 16] {
    let mut top = [0; 16];
    top.iter_mut().for_each(|cell| *cell = rng.cell());
    top
}

/// What a proper run is made of; `a` is the address that its root runs under.
struct Parts {
    forests: Vec<Forest>,
    queues: Queues,
    pairs: Vec<Pair>,
    nesting: Vec<u32>,
    a: u64,
}

/// A proper run of at most `limit` rows.
fn proper_parts(rng: &Rng, limit: usize) -> Parts {
    loop {
        let forests: Vec<_> = (0..1 + rng.below(3))
            .map(|_| {
                let n = 1 + rng.below(10);
                forest(rng, n)
            })
            .collect();
        let at = rng.below(forests.len());
        let root = rng.below(forests[at].len() - 3);
        let (a, above) = if rng.one_in(4) { (rng.cell(), rng.cell()) } else { (0, 0) };
        let mut writer = Writer::new(rng, &forests, limit);
        if writer.node(at as u32, root as u32, a, above, false, 0).is_ok() {
            let (queues, pairs, nesting) = (writer.queues, writer.pairs, writer.nesting);
            return Parts { forests, queues, pairs, nesting, a };
        }
    }
}

/// A proper run of at most about `limit` rows.
pub fn proper_run(rng: &Rng, limit: usize) -> Run {
    let Parts { forests, queues, pairs, nesting, a } = proper_parts(rng, limit);
    let size = fragment_size(rng, pairs.len());
    let fragments = fragments(rng, &forests, &pairs, size);
    let state = DecoderState { current_addr: a, parent_addr: rng.cell() };
    let first_stack_top = stack_top(rng);
    Run { forests, queues, state, first_stack_top, fragment_size: size, fragments, nesting: Some(nesting) }
}

// CALLS THAT ARE NO PROPER RUN
// ------------------------------------------------------------------------------------------------

fn some_slot(rng: &Rng, forests: &[Forest], forest: u32) -> MastNodeId {
    let n = forests.get(forest as usize).map_or(1, Vec::len);
    MastNodeId(rng.below(n + usize::from(rng.one_in(8))) as u32)
}

/// A continuation of any kind on any slot.
fn some_continuation(rng: &Rng, forests: &[Forest], forest: u32) -> Continuation {
    let n = some_slot(rng, forests, forest);
    match rng.below(if rng.one_in(10) { 10 } else { 9 }) {
        0 => Continuation::StartNode(n),
        1 => Continuation::FinishJoin(n),
        2 => Continuation::FinishSplit(n),
        3 => Continuation::FinishLoop(n),
        4 => Continuation::FinishCall(n),
        5 => Continuation::FinishDyn(n),
        6 => Continuation::ResumeBasicBlock { node_id: n, batch_index: rng.below(3) as u32, op_idx_in_batch: rng.below(20) as u32 },
        7 => Continuation::Respan { node_id: n, batch_index: rng.below(3) as u32 },
        8 => Continuation::FinishBasicBlock(n),
        _ => Continuation::EnterForest,
    }
}

/// A continuation that no check refuses by the node's kind, mostly.
fn fitting_continuation(rng: &Rng, forests: &[Forest], forest: u32) -> Continuation {
    if rng.one_in(30) {
        return some_continuation(rng, forests, forest);
    }
    let n = some_slot(rng, forests, forest);
    let Some(Slot::Node(node, _)) = forests.get(forest as usize).and_then(|slots| slots.get(n.0 as usize)) else {
        return Continuation::StartNode(MastNodeId(0));
    };
    // These ask for no kind.
    let any = rng.pick(&[Continuation::FinishJoin(n), Continuation::FinishSplit(n), Continuation::FinishLoop(n)]);
    let own = match node {
        MastNode::Block(_, batches) => {
            let batch_index = rng.below(batches.len().max(1)) as u32;
            let ops = batches.get(batch_index as usize).map_or(0, |batch| batch.ops.len());
            let op_idx_in_batch = rng.below(ops.max(1)) as u32;
            let resume = Continuation::ResumeBasicBlock { node_id: n, batch_index, op_idx_in_batch };
            rng.pick(&[resume, resume, Continuation::Respan { node_id: n, batch_index }, Continuation::FinishBasicBlock(n)])
        }
        MastNode::Call(_) | MastNode::Syscall(_) => Continuation::FinishCall(n),
        MastNode::Dyn | MastNode::Dyncall => Continuation::FinishDyn(n),
        MastNode::External => any,
        _ => Continuation::StartNode(n),
    };
    let start = if matches!(node, MastNode::External) { any } else { Continuation::StartNode(n) };
    rng.pick(&[start, any, own])
}

fn some_stored(rng: &Rng, forests: &[Forest], forest: u32) -> StoredValues {
    let continuation = fitting_continuation(rng, forests, forest);
    let is_loop = |n: MastNodeId| {
        matches!(forests.get(forest as usize).and_then(|slots| slots.get(n.0 as usize)), Some(Slot::Node(MastNode::Loop(_), _)))
    };
    // Condition one asks for a loop.
    let one = match continuation {
        Continuation::FinishLoop(n) if !is_loop(n) => rng.one_in(40),
        _ => rng.one_in(2),
    };
    StoredValues {
        continuation,
        is_loop_body: rng.one_in(2),
        condition: (!rng.one_in(40)).then_some(one),
        callee: (!rng.one_in(40)).then(|| rng.word()),
        info: (!rng.one_in(40)).then(|| info(rng)),
    }
}

/// One change that leaves the proper runs.
fn change(rng: &Rng, forests: &mut [Forest], queues: &mut Queues, pairs: &mut Vec<Pair>) {
    let i = rng.below(pairs.len());
    let forest = pairs[i].1.forest;
    match rng.below(20) {
        // Another continuation, on the same node or any.
        0..=2 => pairs[i].0.continuation = some_continuation(rng, forests, forest),
        3 => pairs[i].0.continuation = Continuation::FinishJoin(some_slot(rng, forests, forest)),
        4 => pairs[i].0.continuation = Continuation::Respan { node_id: some_slot(rng, forests, forest), batch_index: 0 },
        // A captured value or the flag.
        5 => pairs[i].0.condition = None,
        6 => pairs[i].0.callee = None,
        7 => pairs[i].0.info = None,
        8 => pairs[i].0.is_loop_body = !pairs[i].0.is_loop_body,
        // A second finish.
        9 => {
            let again = pairs[i];
            pairs.insert(i, again);
        }
        // Equal addresses, and a queue that ends early.
        10 if !queues.addresses.is_empty() => {
            let addr = rng.pick(&queues.addresses);
            queues.addresses.iter_mut().for_each(|a| {
                if rng.one_in(3) {
                    *a = addr
                }
            });
        }
        11 => {
            let left = queues.addresses.len() - rng.below(2).min(queues.addresses.len());
            queues.addresses.truncate(left);
        }
        12 => {
            let left = queues.parents.len() - rng.below(2).min(queues.parents.len());
            queues.parents.truncate(left);
        }
        13 => {
            let left = queues.ends.len() - 3 * rng.below(2).min(queues.ends.len() / 3);
            queues.ends.truncate(left);
        }
        // A node that is gone.
        14 => {
            let slots = &mut forests[forest as usize];
            let at = rng.below(slots.len());
            slots[at] = match rng.below(3) {
                0 => Slot::Absent,
                1 => Slot::Digest(rng.word()),
                _ => Slot::Node(MastNode::External, rng.word()),
            };
        }
        // A block's numbers: control opcodes as operations, totals, group counts, starts, no batch.
        15..=17 => {
            let slots = &mut forests[forest as usize];
            let at = rng.below(slots.len());
            if let Slot::Node(MastNode::Block(total, batches), _) = &mut slots[at] {
                match rng.below(6) {
                    0 => *total = rng.below(12) as u32,
                    1 => batches.clear(),
                    _ => {
                        let b = rng.below(batches.len().max(1));
                        if let Some(batch) = batches.get_mut(b) {
                            match rng.below(4) {
                                0 => batch.num_groups = rng.below(9) as u32,
                                1 => batch.starts[rng.below(9)] = rng.below(30) as u32,
                                _ => batch.ops.iter_mut().for_each(|op| {
                                    if rng.one_in(2) {
                                        *op = rng.pick(&EXAMPLE.opcodes())
                                    }
                                }),
                            }
                        }
                    }
                }
            }
        }
        // A depth below 16, a helper value from 2^32 on.
        10 | 18 => pairs[i].1.stack.stack_depth = rng.below(20) as u32,
        _ => {
            let cell = rng.below(3);
            pairs[i].1.registers = Registers { case: 2 + rng.below(11) as u64, cells: [rng.half(), rng.half(), rng.half(), 0, 0, 0] };
            pairs[i].1.registers.cells[cell] = rng.cell();
        }
    }
}

/// A proper run with some changes.
pub fn changed_run(rng: &Rng, limit: usize) -> Run {
    let Parts { mut forests, mut queues, mut pairs, a, .. } = proper_parts(rng, limit);
    for _ in 0..1 + rng.below(4) {
        change(rng, &mut forests, &mut queues, &mut pairs);
    }
    let size = fragment_size(rng, pairs.len());
    let mut fragments = fragments(rng, &forests, &pairs, size);
    // A storing that is left out: the cycle finishes what was stored before.
    if rng.one_in(4) {
        let f = rng.below(fragments.len());
        let at = rng.below(fragments[f].len());
        if matches!(fragments[f][at], Call::Store(_)) {
            fragments[f].remove(at);
        }
    }
    // A cycle more than a fragment has rows.
    if rng.one_in(8) {
        let f = rng.below(fragments.len());
        let more = pairs[rng.below(pairs.len())];
        fragments[f].extend([Call::Store(more.0), Call::Cycle(more.1)]);
    }
    let state = DecoderState { current_addr: a, parent_addr: rng.cell() };
    let first_stack_top = stack_top(rng);
    Run { forests, queues, state, first_stack_top, fragment_size: size, fragments, nesting: None }
}

/// Calls of any kind in any order.
pub fn any_calls(rng: &Rng, limit: usize) -> Run {
    let forests: Vec<_> = (0..1 + rng.below(3))
        .map(|_| {
            let n = 1 + rng.below(10);
            forest(rng, n)
        })
        .collect();
    let rows = 1 + rng.below(limit.min(100));
    let pairs: Vec<Pair> = (0..rows)
        .map(|row| {
            let at = rng.below(forests.len() + usize::from(rng.one_in(200))) as u32;
            (some_stored(rng, &forests, at), cycle(rng, at, row))
        })
        .collect();
    let entries = if rng.one_in(4) { rng.below(rows) } else { rows };
    // Few addresses, so that some are equal.
    let few: Vec<u64> = (0..1 + rng.below(6)).map(|_| rng.cell()).collect();
    let queue = |n: usize| (0..n).map(|_| rng.pick(&few)).collect::<Vec<_>>();
    let queues = Queues { addresses: queue(entries), parents: queue(entries), ends: queue(3 * entries) };
    let size = fragment_size(rng, rows);
    let fragments = fragments(rng, &forests, &pairs, size);
    let state = DecoderState { current_addr: rng.cell(), parent_addr: rng.cell() };
    let first_stack_top = stack_top(rng);
    Run { forests, queues, state, first_stack_top, fragment_size: size, fragments, nesting: None }
}

// SYSCALL NODES
// ------------------------------------------------------------------------------------------------

/// The first cycle of a fragment that starts a SYSCALL node, as a place among its calls.
pub fn first_syscall(calls: &[Call], forests: &[Forest]) -> Option<usize> {
    let mut stored = None;
    calls.iter().position(|call| match call {
        Call::Store(values) => {
            stored = Some(values.continuation);
            false
        }
        Call::Cycle(cycle) => match stored {
            Some(Continuation::StartNode(id)) => {
                let slot = forests.get(cycle.forest as usize).and_then(|slots| slots.get(id.0 as usize));
                matches!(slot, Some(Slot::Node(MastNode::Syscall(_), _)))
            }
            _ => false,
        },
    })
}

/// The run with a CALL node in place of each SYSCALL node, whose start is refused (change request N8).
pub fn with_calls(mut run: Run) -> Run {
    for slot in run.forests.iter_mut().flatten() {
        if let Slot::Node(node, _) = slot
            && let MastNode::Syscall(callee) = *node
        {
            *node = MastNode::Call(callee);
        }
    }
    run
}

// DEPTHS
// ------------------------------------------------------------------------------------------------

/// Depths whose helpers, 16 less, are 0 and 1 (each its own inverse), 2, 1023, 1024 and the largest.
pub const DEPTHS: [u32; 6] = [16, 17, 18, 1039, 1040, u32::MAX];

/// The run with such a depth in one of four cycles, and three times of four in the last, whose depth HALT has. A depth below 16 stays.
pub fn with_depths(rng: &Rng, mut run: Run) -> Run {
    for (behind, cycle) in run.cycles_from_last().enumerate() {
        let is_given = rng.one_in(4) != (behind == 0);
        if is_given && cycle.stack.stack_depth >= 16 {
            cycle.stack.stack_depth = rng.pick(&DEPTHS);
        }
    }
    run
}

// CELLS FROM P ON
// ------------------------------------------------------------------------------------------------

/// A number that is read as the cell: the cell itself or, half of the times that it fits 64 bits, p more.
pub fn raised(rng: &Rng, cell: u64) -> u64 {
    match cell.checked_add(P) {
        Some(above) if rng.one_in(2) => above,
        _ => cell,
    }
}

/// The address state with p added to some of its cells.
pub fn raised_state(rng: &Rng, state: DecoderState) -> DecoderState {
    DecoderState { current_addr: raised(rng, state.current_addr), parent_addr: raised(rng, state.parent_addr) }
}

/// The run with p added to some of its cells, in each place where a cell comes in.
pub fn raised_run(rng: &Rng, run: &Run) -> Run {
    let mut run = run.clone();
    let raise = |cells: &mut [u64]| cells.iter_mut().for_each(|cell| *cell = raised(rng, *cell));
    for slot in run.forests.iter_mut().flatten() {
        match slot {
            Slot::Absent => {}
            Slot::Digest(digest) => raise(digest),
            Slot::Node(node, digest) => {
                raise(digest);
                if let MastNode::Block(_, batches) = node {
                    batches.iter_mut().for_each(|batch| raise(&mut batch.groups));
                }
            }
        }
    }
    raise(&mut run.queues.addresses);
    raise(&mut run.queues.parents);
    raise(&mut run.queues.ends);
    run.state = raised_state(rng, run.state);
    raise(&mut run.first_stack_top);
    for call in run.fragments.iter_mut().flatten() {
        match call {
            Call::Store(stored) => {
                stored.callee.iter_mut().for_each(|word| raise(word));
                stored.info.iter_mut().for_each(|info| info.next_overflow_addr = raised(rng, info.next_overflow_addr));
            }
            Call::Cycle(cycle) => {
                raise(&mut cycle.system.fn_hash);
                raise(&mut cycle.stack.stack_top);
                cycle.stack.overflow_addr = raised(rng, cycle.stack.overflow_addr);
                raise(&mut cycle.registers.cells);
            }
        }
    }
    run
}

// LONG RUNS
// ------------------------------------------------------------------------------------------------

/// A cycle as programs have them: shallow stacks, helpers in one operation of four.
fn usual(rng: &Rng, cycle: &mut Cycle, row: usize) {
    cycle.system.clk = RowIndex(row as u32);
    cycle.stack.stack_depth = 16 + rng.below(24) as u32;
    if !rng.one_in(4) {
        cycle.registers = Registers::EMPTY;
    }
}

/// A list of `rows` cycles over one forest of `nodes` nodes, none of them SYSCALL: proper runs of its nodes one after another, and at the end
/// operations. Whether the blocks' addresses rise is to be said: pass 2 counts without tables only where those behind LOOP rows do.
pub fn long_run(rng: &Rng, nodes: usize, rows: usize, fragment_size: usize, addresses: Addresses) -> Run {
    let forests = vec![forest(rng, nodes)];
    let mut writer = Writer { addresses, ..Writer::new(rng, &forests, 0) };
    let mut failed = 0;
    while failed < 40 {
        let (pairs, queues) = (writer.pairs.len(), writer.queues.lengths());
        writer.limit = rows.min(pairs + 2000);
        let done = writer.node(0, rng.below(nodes) as u32, 1, 0, false, 0);
        if done.is_err() || writer.pairs.len() > rows {
            writer.pairs.truncate(pairs);
            writer.queues.cut(queues);
            failed += 1;
        }
    }
    while writer.pairs.len() < rows {
        let resume = Continuation::ResumeBasicBlock { node_id: MastNodeId(0), batch_index: 0, op_idx_in_batch: 0 };
        writer.emit(0, resume, None, None, None, None);
    }
    let (queues, mut pairs) = (writer.queues, writer.pairs);
    pairs.iter_mut().enumerate().for_each(|(row, (_, cycle))| usual(rng, cycle, row));
    let calls = |part: &[Pair]| part.iter().flat_map(|(stored, cycle)| [Call::Store(*stored), Call::Cycle(*cycle)]).collect();
    let fragments = pairs.chunks(fragment_size).map(calls).collect();
    with_calls(Run {
        forests,
        queues,
        state: DecoderState { current_addr: 1, parent_addr: 0 },
        first_stack_top: stack_top(rng),
        fragment_size,
        fragments,
        nesting: None,
    })
}

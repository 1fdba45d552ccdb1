//! Storings and cycles as values, and as the records in which they are lent.

use crate::forest::Word;

/// A clock row.
#[derive(Clone, Copy, Debug, PartialEq, Eq)]
#[repr(C)]
pub struct RowIndex(pub u32);

/// A context.
#[derive(Clone, Copy, Debug, PartialEq, Eq)]
#[repr(C)]
pub struct ContextId(pub u32);

/// A node.
#[derive(Clone, Copy, Debug, PartialEq, Eq)]
#[repr(C)]
pub struct MastNodeId(pub u32);

/// What a cycle writes a row for.
#[derive(Clone, Copy, Debug, PartialEq, Eq)]
pub enum Continuation {
    StartNode(MastNodeId),
    FinishJoin(MastNodeId),
    FinishSplit(MastNodeId),
    FinishLoop(MastNodeId),
    FinishCall(MastNodeId),
    FinishDyn(MastNodeId),
    ResumeBasicBlock { node_id: MastNodeId, batch_index: u32, op_idx_in_batch: u32 },
    Respan { node_id: MastNodeId, batch_index: u32 },
    FinishBasicBlock(MastNodeId),
    EnterForest,
}

/// The context info of a DYNCALL.
#[derive(Clone, Copy, Debug, PartialEq, Eq)]
pub struct ExecutionContextInfo {
    pub stack_depth: u32,
    pub next_overflow_addr: u64,
}

/// What storing is given. The condition is `Some(true)` for another pass of a loop, `Some(false)` for its end.
#[derive(Clone, Copy, Debug, PartialEq, Eq)]
pub struct StoredValues {
    pub continuation: Continuation,
    pub is_loop_body: bool,
    pub condition: Option<bool>,
    pub callee: Option<Word>,
    pub info: Option<ExecutionContextInfo>,
}

/// What a cycle is given of the system.
#[derive(Clone, Copy, Debug, PartialEq, Eq)]
pub struct SystemState {
    pub clk: RowIndex,
    pub ctx: ContextId,
    pub fn_hash: Word,
}

/// What a cycle is given of the stack; the top is stored last first.
#[derive(Clone, Copy, Debug, PartialEq, Eq)]
pub struct StackState {
    pub stack_top: [u64; 16],
    pub stack_depth: u32,
    pub overflow_addr: u64,
}

/// The helper registers: a case, 1 to 18 in the order of the Rust's enum, and its cells in the order of its fields.
#[derive(Clone, Copy, Debug, PartialEq, Eq)]
pub struct Registers {
    pub case: u64,
    pub cells: [u64; 6],
}

impl Registers {
    /// No helper.
    pub const EMPTY: Self = Self { case: 18, cells: [0; 6] };

    /// How many cells a case has.
    pub const CELLS: [usize; 19] = [0, 2, 2, 1, 1, 6, 2, 2, 1, 2, 2, 3, 2, 1, 1, 6, 4, 5, 0];

    /// Whether the case splits its values into halves, so that they are below 2^32.
    pub fn splits(case: u64) -> bool {
        matches!(case, 2 | 6..=12)
    }
}

/// What a cycle is given.
#[derive(Clone, Copy, Debug, PartialEq, Eq)]
pub struct Cycle {
    pub forest: u32,
    pub system: SystemState,
    pub stack: StackState,
    pub registers: Registers,
}

/// A call on a tracer.
#[derive(Clone, Copy, Debug, PartialEq, Eq)]
pub enum Call {
    Store(StoredValues),
    Cycle(Cycle),
}

/// How many numbers a record has.
pub const RECORD: usize = 32;

impl Call {
    /// The record of a call.
    pub fn record(&self) -> [u64; RECORD] {
        let mut r = [0; RECORD];
        match self {
            Self::Store(stored) => {
                let (kind, node, batch, op) = match stored.continuation {
                    Continuation::StartNode(n) => (1, n.0, 0, 0),
                    Continuation::FinishJoin(n) => (2, n.0, 0, 0),
                    Continuation::FinishSplit(n) => (3, n.0, 0, 0),
                    Continuation::FinishLoop(n) => (4, n.0, 0, 0),
                    Continuation::FinishCall(n) => (5, n.0, 0, 0),
                    Continuation::FinishDyn(n) => (6, n.0, 0, 0),
                    Continuation::ResumeBasicBlock { node_id, batch_index, op_idx_in_batch } => {
                        (7, node_id.0, batch_index, op_idx_in_batch)
                    }
                    Continuation::Respan { node_id, batch_index } => (8, node_id.0, batch_index, 0),
                    Continuation::FinishBasicBlock(n) => (9, n.0, 0, 0),
                    Continuation::EnterForest => (10, 0, 0, 0),
                };
                r[1..6].copy_from_slice(&[kind, node.into(), batch.into(), op.into(), stored.is_loop_body.into()]);
                r[6] = stored.condition.map_or(0, |one| 1 + u64::from(one));
                if let Some(word) = stored.callee {
                    r[7] = 1;
                    r[8..12].copy_from_slice(&word);
                }
                if let Some(info) = stored.info {
                    r[12..15].copy_from_slice(&[1, info.stack_depth.into(), info.next_overflow_addr]);
                }
            }
            Self::Cycle(cycle) => {
                r[..4].copy_from_slice(&[cycle.registers.case, cycle.forest.into(), cycle.system.clk.0.into(), cycle.system.ctx.0.into()]);
                r[4..8].copy_from_slice(&cycle.system.fn_hash);
                r[8..24].copy_from_slice(&cycle.stack.stack_top);
                r[24] = cycle.stack.stack_depth.into();
                r[25] = cycle.stack.overflow_addr;
                r[26..32].copy_from_slice(&cycle.registers.cells);
            }
        }
        r
    }
}

/// The records of a list of calls.
pub fn records(calls: &[Call]) -> Vec<u64> {
    calls.iter().flat_map(Call::record).collect()
}

/// The same calls with each storing made twice. Then no single storing stands between two cycles, and the library takes the calls one by one.
pub fn stored_twice(calls: &[Call]) -> Vec<Call> {
    calls.iter().flat_map(|call| vec![*call; if matches!(call, Call::Store(_)) { 2 } else { 1 }]).collect()
}

/// The address state: the current block's address and its parent's.
#[derive(Clone, Copy, Debug, Default, PartialEq, Eq)]
#[repr(C)]
pub struct DecoderState {
    pub current_addr: u64,
    pub parent_addr: u64,
}

/// How many entries of each queue are used.
#[derive(Clone, Copy, Debug, Default, PartialEq, Eq)]
#[repr(C)]
pub struct Positions {
    pub addresses: usize,
    pub parents: usize,
    pub ends: usize,
}

/// The first call of a refused list that is refused, by halving, and what it is refused with: where a list is refused, so is each longer one.
/// Panics on a list that is not refused.
pub fn first_refused<R>(calls: &[Call], refused: impl Fn(&[Call]) -> Option<R>) -> (usize, R) {
    let (mut low, mut high) = (0, calls.len());
    while high - low > 1 {
        let middle = (low + high) / 2;
        if refused(&calls[..middle]).is_some() { high = middle } else { low = middle }
    }
    (high - 1, refused(&calls[..high]).expect("the whole list is refused"))
}

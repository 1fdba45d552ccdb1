//! From the values of this package to those of the listed Rust.

use std::sync::Arc;

use super::continuation_stack::Continuation;
use super::processor::{Call, Captured, Storing};
use super::stand_ins::air::trace::RowIndex;
use super::stand_ins::core_crate::Operation;
use super::stand_ins::core_crate::mast::{
    BasicBlockNode, CallNode, DynNode, ExternalNode, JoinNode, LoopNode, MastNode, MastNodeId, OpBatch, Slot, SparseMastForest, SplitNode,
};
use super::stand_ins::field::{Felt, QuadFelt, Word};
use super::stand_ins::processor::{ContextId, ExecutionContextInfo};
use super::trace_state::{BlockAddressReplay, BlockStackReplay, DecoderState, SystemState};
use super::tracer_trait::OperationHelperRegisters;
use crate::calls::{self, StoredValues};
use crate::forest::{self, Queues};

pub fn felt(cell: u64) -> Felt {
    Felt::new_unchecked(cell)
}

fn word(cells: forest::Word) -> Word {
    cells.map(felt).into()
}

fn batch(batch: &forest::OpBatch) -> OpBatch {
    OpBatch {
        groups: batch.groups.map(felt),
        num_groups: batch.num_groups as usize,
        starts: batch.starts.map(|start| start as usize),
        ops: batch.ops.iter().map(|&opcode| Operation(opcode)).collect(),
    }
}

fn node(node: &forest::MastNode, digest: Word) -> MastNode {
    let id = |n: &u32| MastNodeId(*n);
    match node {
        forest::MastNode::Block(total, batches) => {
            MastNode::Block(BasicBlockNode { op_batches: batches.iter().map(batch).collect(), num_op_groups: *total as usize, digest })
        }
        forest::MastNode::Join(a, b) => MastNode::Join(JoinNode { first: id(a), second: id(b), digest }),
        forest::MastNode::Split(a, b) => MastNode::Split(SplitNode { on_true: id(a), on_false: id(b), digest }),
        forest::MastNode::Loop(a) => MastNode::Loop(LoopNode { body: id(a), digest }),
        forest::MastNode::Call(a) => MastNode::Call(CallNode { callee: id(a), is_syscall: false, digest }),
        forest::MastNode::Syscall(a) => MastNode::Call(CallNode { callee: id(a), is_syscall: true, digest }),
        forest::MastNode::Dyn => MastNode::Dyn(DynNode { is_dyncall: false, digest }),
        forest::MastNode::Dyncall => MastNode::Dyn(DynNode { is_dyncall: true, digest }),
        forest::MastNode::External => MastNode::External(ExternalNode { digest }),
    }
}

pub fn forest(slots: &forest::Forest) -> Arc<SparseMastForest> {
    let slot = |slot: &forest::Slot| match slot {
        forest::Slot::Absent => Slot::Absent,
        forest::Slot::Digest(digest) => Slot::Digest(word(*digest)),
        forest::Slot::Node(n, digest) => Slot::Node(node(n, word(*digest))),
    };
    Arc::new(SparseMastForest(slots.iter().map(slot).collect()))
}

pub fn state(state: calls::DecoderState) -> DecoderState {
    DecoderState { current_addr: felt(state.current_addr), parent_addr: felt(state.parent_addr) }
}

/// The part of the queues from a position to another, by the listed `record` functions.
pub fn queues(queues: &Queues, from: calls::Positions, to: calls::Positions) -> (BlockAddressReplay, BlockStackReplay) {
    let mut addresses = BlockAddressReplay::default();
    let mut stack = BlockStackReplay::default();
    queues.addresses[from.addresses..to.addresses].iter().for_each(|&addr| addresses.record_block_address(felt(addr)));
    queues.parents[from.parents..to.parents].iter().for_each(|&addr| stack.record_node_start_parent_addr(felt(addr)));
    queues.ends[3 * from.ends..3 * to.ends].chunks(3).for_each(|end| stack.record_node_end(felt(end[0]), felt(end[1]), felt(end[2])));
    (addresses, stack)
}

pub fn registers(given: calls::Registers) -> OperationHelperRegisters {
    use OperationHelperRegisters::*;
    let [a, b, c, d, e, f] = given.cells.map(felt);
    let quad = |x, y| QuadFelt([x, y]);
    match given.case {
        1 => Eq { stack_second: a, stack_first: b },
        2 => U32Split { lo: a, hi: b },
        3 => Eqz { top: a },
        4 => Expacc { acc_update_val: a },
        5 => FriExt2Fold4 { ev: quad(a, b), es: quad(c, d), x: e, x_inv: f },
        6 => U32Add { sum: a, carry: b },
        7 => U32Add3 { sum: a, carry: b },
        8 => U32Sub { second_new: a },
        9 => U32Mul { lo: a, hi: b },
        10 => U32Madd { lo: a, hi: b },
        11 => U32Div { quotient: a, remainder: b, remainder_diff: c },
        12 => U32Assert2 { first: a, second: b },
        13 => HPerm { addr: a },
        14 => MerklePath { addr: a },
        15 => HornerEvalBase { alpha: quad(a, b), tmp0: quad(c, d), tmp1: quad(e, f) },
        16 => HornerEvalExt { alpha: quad(a, b), acc_tmp: quad(c, d) },
        17 => LogDeferred { addr: a, state_prev: [b, c, d, e].into() },
        18 => Empty,
        case => panic!("no case {case}"),
    }
}

fn continuation(given: calls::Continuation) -> Continuation<Arc<SparseMastForest>> {
    use calls::Continuation as Given;
    let id = |n: calls::MastNodeId| MastNodeId(n.0);
    match given {
        Given::StartNode(n) => Continuation::StartNode(id(n)),
        Given::FinishJoin(n) => Continuation::FinishJoin(id(n)),
        Given::FinishSplit(n) => Continuation::FinishSplit(id(n)),
        Given::FinishLoop(n) => Continuation::FinishLoop(id(n)),
        Given::FinishCall(n) => Continuation::FinishCall(id(n)),
        Given::FinishDyn(n) => Continuation::FinishDyn(id(n)),
        Given::ResumeBasicBlock { node_id, batch_index, op_idx_in_batch } => Continuation::ResumeBasicBlock {
            node_id: id(node_id),
            batch_index: batch_index as usize,
            op_idx_in_batch: op_idx_in_batch as usize,
        },
        Given::Respan { node_id, batch_index } => Continuation::Respan { node_id: id(node_id), batch_index: batch_index as usize },
        Given::FinishBasicBlock(n) => Continuation::FinishBasicBlock(id(n)),
        Given::EnterForest => Continuation::EnterForest { forest: Arc::default(), package_debug_info: None, inline_context_depth: 0 },
    }
}

/// Whether there is a processor from which `start_clock_cycle` captures just these values, in the forest.
fn is_captured(stored: &StoredValues, slots: Option<&forest::Forest>) -> bool {
    let (has_condition, has_callee, has_info) = match stored.continuation {
        calls::Continuation::FinishLoop(_) => (true, false, false),
        calls::Continuation::StartNode(id) => match slots.and_then(|slots| slots.get(id.0 as usize)) {
            Some(forest::Slot::Node(forest::MastNode::Dyn, _)) => (false, true, false),
            Some(forest::Slot::Node(forest::MastNode::Dyncall, _)) => (false, true, true),
            Some(forest::Slot::Node(..)) => (false, false, false),
            // It would refuse; storing as document 01 has it does not.
            _ => return false,
        },
        _ => (false, false, false),
    };
    let deep = stored.info.is_none_or(|info| info.stack_depth >= 16);
    stored.condition.is_some() == has_condition && stored.callee.is_some() == has_callee && stored.info.is_some() == has_info && deep
}

/// The calls of a fragment. A storing is made in the forest of the cycle that follows it.
pub fn calls(given: &[calls::Call], forests: &[forest::Forest]) -> Vec<Call> {
    let next_forest =
        |from: usize| given[from..].iter().find_map(|call| if let calls::Call::Cycle(cycle) = call { Some(cycle.forest) } else { None });
    let one = |(at, call): (usize, &calls::Call)| match call {
        calls::Call::Store(stored) => {
            let forest = next_forest(at).unwrap_or(0);
            let captured = Captured {
                condition: stored.condition,
                callee: stored.callee.map(word),
                info: stored
                    .info
                    .map(|info| ExecutionContextInfo::new(ContextId(0), Word::default(), info.stack_depth, felt(info.next_overflow_addr))),
            };
            let how = if is_captured(stored, forests.get(forest as usize)) { Storing::Captured } else { Storing::Put };
            Call::Start { how, forest, continuation: continuation(stored.continuation), is_loop_body: stored.is_loop_body, captured }
        }
        calls::Call::Cycle(cycle) => Call::Finish {
            forest: cycle.forest,
            system: SystemState {
                clk: RowIndex(cycle.system.clk.0),
                ctx: ContextId(cycle.system.ctx.0),
                fn_hash: word(cycle.system.fn_hash),
                deferred_root: Word::default(),
            },
            stack_top: cycle.stack.stack_top.map(felt),
            stack_depth: cycle.stack.stack_depth as usize,
            overflow_addr: felt(cycle.stack.overflow_addr),
            registers: registers(cycle.registers),
        },
    };
    given.iter().enumerate().map(one).collect()
}

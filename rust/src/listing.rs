//! Document 01's case C10: a loop at address 1 under 0, two passes of a one-group block at 3 and 5 with the operation 5, height 10.

use crate::calls::{
    Call, ContextId, Continuation, Cycle, DecoderState, MastNodeId, Registers, RowIndex, StackState, StoredValues, SystemState,
};
use crate::forest::{MastNode, OpBatch, Queues, Slot};
#[cfg(archive)]
use crate::overflow::overflow_rule;
#[cfg(archive)]
use crate::profile::EXAMPLE;
use crate::profile::Profile;
use crate::random::Run;

/// The table of document 01.
pub const TABLE: &str = "row op addr count
0 LOOP 0 2
1 SPAN 1 1
2 5 3 0
3 END 3 0
4 REPEAT 1 0
5 SPAN 1 1
6 5 5 0
7 END 5 0
8 END 1 0
9 HALT 0 0
";

/// The height of the listing.
pub const HEIGHT: usize = 10;

/// The run of the listing, in fragments of the size.
pub fn run(fragment_size: usize) -> Run {
    let batch = OpBatch { num_groups: 1, groups: [5, 0, 0, 0, 0, 0, 0, 0], starts: [0, 1, 1, 1, 1, 1, 1, 1, 1], ops: vec![5] };
    let forest = vec![Slot::Node(MastNode::Block(1, vec![batch]), [20, 21, 22, 23]), Slot::Node(MastNode::Loop(0), [10, 11, 12, 13])];
    let (block, outer) = (MastNodeId(0), MastNodeId(1));
    let operation = Continuation::ResumeBasicBlock { node_id: block, batch_index: 0, op_idx_in_batch: 0 };
    let steps = [
        (Continuation::StartNode(outer), false, None),
        (Continuation::StartNode(block), false, None),
        (operation, false, None),
        (Continuation::FinishBasicBlock(block), true, None),
        (Continuation::FinishLoop(outer), false, Some(true)),
        (Continuation::StartNode(block), false, None),
        (operation, false, None),
        (Continuation::FinishBasicBlock(block), true, None),
        (Continuation::FinishLoop(outer), false, Some(false)),
    ];
    let one = |row: usize, (continuation, is_loop_body, condition)| {
        let stored = StoredValues { continuation, is_loop_body, condition, callee: None, info: None };
        let cycle = Cycle {
            forest: 0,
            system: SystemState { clk: RowIndex(row as u32), ctx: ContextId(0), fn_hash: [0; 4] },
            stack: StackState { stack_top: [0; 16], stack_depth: 16, overflow_addr: 0 },
            registers: Registers::EMPTY,
        };
        [Call::Store(stored), Call::Cycle(cycle)]
    };
    let calls: Vec<_> = steps.into_iter().enumerate().flat_map(|(row, step)| one(row, step)).collect();
    Run {
        forests: vec![forest],
        queues: Queues { addresses: vec![1, 3, 5], parents: vec![0, 1, 1], ends: vec![3, 1, 0, 5, 1, 0, 1, 0, 0] },
        state: DecoderState::default(),
        first_stack_top: [0; 16],
        fragment_size,
        fragments: calls.chunks(2 * fragment_size).map(<[Call]>::to_vec).collect(),
        nesting: Some(vec![1, 2, 2, 2, 1, 2, 2, 2, 1]),
    }
}

/// The finished trace, made by the proved library.
#[cfg(archive)]
pub fn trace() -> Vec<u64> {
    use crate::exports::{WIDTH, finish, replay_calls};
    let run = run(HEIGHT - 1);
    let (lent, calls) = (crate::forest::Forests::new(&run.forests), crate::calls::records(&run.fragments[0]));
    let mut buffer = vec![0; HEIGHT * WIDTH];
    let rows = &mut buffer[..(HEIGHT - 1) * WIDTH];
    let left = replay_calls(&lent, &run.queues, EXAMPLE, run.state, Default::default(), &calls, rows).expect("the calls are right");
    finish(EXAMPLE, &mut buffer, HEIGHT - 1, &[left.rows as u32], &left.built, &run.first_stack_top, HEIGHT).expect("the rows are right");
    overflow_rule(&buffer).expect("every row keeps the rule");
    buffer
}

/// The table of a finished trace: row, name or opcode, addr, count.
pub fn table(profile: &Profile, rows: impl Iterator<Item = [u64; 49]>) -> String {
    const NAMES: [&str; 13] =
        ["SPAN", "RESPAN", "JOIN", "SPLIT", "LOOP", "REPEAT", "CALL", "SYSCALL", "DYN", "DYNCALL", "PUSH", "END", "HALT"];
    let mut text = String::from("row op addr count\n");
    for (n, row) in rows.enumerate() {
        let opcode = (0..7).map(|i| (row[7 + i] as u8) << i).sum::<u8>();
        let op = profile.opcodes().iter().position(|&o| o == opcode).map_or(opcode.to_string(), |i| NAMES[i].into());
        text += &format!("{n} {op} {} {}\n", row[6], row[23]);
    }
    text
}

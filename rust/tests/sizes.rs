//! One run at several fragment sizes (change request N11).
#![cfg(archive)]

use core_trace::calls::{Call, Continuation, Cycle, MastNodeId, Positions, StoredValues};
use core_trace::exports::{Refusal, WIDTH};
use core_trace::forest::{MastNode, OpBatch, Queues, Slot};
use core_trace::listing;
use core_trace::profile::EXAMPLE;
use core_trace::random::{Rng, Run};
use core_trace::sizes::{cut, write};

/// C10 at every size up to one more than its rows.
#[test]
fn listing_at_each_size() {
    let rng = Rng::new(11);
    let trace = listing::trace();
    assert_eq!(listing::table(&EXAMPLE, trace.chunks(WIDTH).map(|row| row.try_into().unwrap())), listing::TABLE);
    for size in 1..=10 {
        let run = listing::run(size);
        for at_once in [false, true] {
            assert_eq!(
                write(&rng, &run, Positions::default(), &run.fragments, size, listing::HEIGHT, at_once).as_ref(),
                Ok(&trace),
                "{size}"
            );
        }
    }
}

/// The smallest proper run that reuses what is stored: a DYN, and the block that it runs, are node 0 of their forests, and StartNode is stored
/// once. In fragments of one row the second cycle is the first call of its fragment.
#[test]
fn reuse_across_a_cut() {
    let rng = Rng::new(12);
    let whole = listing::run(9);
    let (Call::Store(stored), Call::Cycle(cycle)) = (whole.fragments[0][0], whole.fragments[0][1]) else { panic!("a storing, a cycle") };
    let store = |continuation, callee| Call::Store(StoredValues { continuation, callee, ..stored });
    let cycle = |forest| Call::Cycle(Cycle { forest, ..cycle });
    let block = OpBatch { num_groups: 1, groups: [0; 8], starts: [0; 9], ops: vec![] };
    let node = MastNodeId(0);
    let calls = vec![
        store(Continuation::StartNode(node), Some([20, 21, 22, 23])),
        cycle(0),
        cycle(1),
        store(Continuation::FinishBasicBlock(node), None),
        cycle(1),
        store(Continuation::FinishDyn(node), None),
        cycle(0),
    ];
    let run = Run {
        forests: vec![
            vec![Slot::Node(MastNode::Dyn, [10, 11, 12, 13])],
            vec![Slot::Node(MastNode::Block(1, vec![block]), [20, 21, 22, 23])],
        ],
        queues: Queues { addresses: vec![1, 3], parents: vec![0, 1], ends: vec![3, 1, 0, 1, 0, 77] },
        fragments: vec![calls.clone()],
        fragment_size: 4,
        nesting: None,
        ..whole
    };
    let file = write(&rng, &run, Positions::default(), &[calls.clone()], 4, 6, true);
    assert!(file.is_ok());
    for size in [2, 3, 5] {
        assert_eq!(write(&rng, &run, Positions::default(), &cut(&rng, &calls, size), size, 6, false), file, "{size}");
    }
    let parts = cut(&rng, &calls, 1);
    assert_eq!(parts[1], [cycle(1)]);
    assert_eq!(write(&rng, &run, Positions::default(), &parts, 1, 6, true), Err(Refusal(23)));
}

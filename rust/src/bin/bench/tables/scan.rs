//! The scan of a forest that a replay is lent: few records over many nodes.

use std::hint::black_box;

use core_trace::calls::Positions;
use core_trace::exports::{WIDTH, replay_calls};
use core_trace::profile::EXAMPLE;

use super::aims::Aims;
use super::both::Both;
use super::memory::Memory;
use super::rounds::{Times, count, line, ns, section};

const TEXT: &str = "A replay looks once at all slots, batch records and opcodes that it is lent, whether its calls name them or not. Here it is lent 8 \
storings and 8 cycles over one forest; beside it the same call without a record, and a copy of these three lists, whose bytes are told. Nanoseconds \
a call, over calls that are repeated, so that a small forest is in the caches.";
const COLUMNS: &str = "nodes | bytes lent | replay of 8 cycles | without a record | copy | replay, a node | replay / copy";
const CYCLES: usize = 8;
const ROUNDS: usize = 25;
const REPLAY: usize = 0;
const NOTHING: usize = 1;
const COPY: usize = 2;

/// A copy of the slots, batch records and opcodes that a replay is lent.
struct Room(Vec<u32>, Vec<u32>, Vec<u8>);

impl Room {
    fn new(both: &Both) -> Self {
        Self(both.lent.nodes.clone(), both.lent.batches.clone(), both.lent.ops.clone())
    }

    fn bytes(&self) -> usize {
        4 * (self.0.len() + self.1.len()) + self.2.len()
    }

    fn copy(&mut self, both: &Both) {
        black_box(&mut self.0).copy_from_slice(&both.lent.nodes);
        black_box(&mut self.1).copy_from_slice(&both.lent.batches);
        black_box(&mut self.2).copy_from_slice(&both.lent.ops);
    }
}

/// Replays the first of the records, and answers how many rows that made.
fn replay(both: &Both, records: usize, fragment: &mut [u64]) -> usize {
    let (all, queues, state) = both.first();
    replay_calls(&both.lent, queues, EXAMPLE, state, Positions::default(), black_box(&all[..records]), fragment).unwrap().rows
}

fn measure(nodes: usize) {
    let both = Both::new(nodes, CYCLES, CYCLES, CYCLES);
    let mut room = Room::new(&both);
    let mut fragment = vec![0; CYCLES * WIDTH];
    let all = both.first().0.len();
    let calls = (100_000 / nodes).clamp(1, 1000);
    let mut times = Times::<3>::new();
    for _ in 0..ROUNDS {
        times.of(REPLAY, || (0..calls).for_each(|_| assert_eq!(replay(&both, all, &mut fragment), CYCLES)));
        times.of(NOTHING, || (0..calls).for_each(|_| assert_eq!(replay(&both, 0, &mut fragment), 0)));
        times.of(COPY, || (0..calls).for_each(|_| room.copy(&both)));
    }
    let [a, b, c] = [REPLAY, NOTHING, COPY].map(|k| ns(times.median(k, calls)));
    let (bytes, node) = (count(room.bytes()), ns(times.median(REPLAY, calls * nodes)));
    line([count(nodes), bytes, a, b, c, node, times.ratio(REPLAY, COPY).to_string()]);
}

pub fn print(_: usize, _: &mut Aims) {
    Memory::Kept.set();
    section("The scan of a forest", TEXT, COLUMNS);
    [10, 100, 1_000, 10_000, 100_000].into_iter().for_each(measure);
}

//! A run that is ready for both sides: as records for the proved library, as values for the listed Rust.

use std::sync::Arc;

use core_trace::calls::{DecoderState, Positions, records};
use core_trace::exports::{BUILT, WIDTH, finish, replay_calls};
use core_trace::forest::{Forests, Queues};
use core_trace::listed::convert;
use core_trace::listed::parallel::passes;
use core_trace::listed::processor::{Call, CoreTraceFragmentContext};
use core_trace::listed::stand_ins::core_crate::mast::SparseMastForest;
use core_trace::listed::stand_ins::field::Felt;
use core_trace::listed::whole::{self, Start};
use core_trace::overflow::{invert_deep_halts, overflow_rule};
use core_trace::profile::EXAMPLE;
use core_trace::random::{Addresses, Rng, Run, long_run};

/// A fragment's records and its part of the queues, and where it starts and its calls for the listed Rust.
struct Fragment {
    records: Vec<u64>,
    queues: Queues,
    start: Start,
    calls: Arc<[Call]>,
}

/// A run over one forest, whose trace has `height` rows.
pub struct Both {
    pub run: Run,
    pub lent: Forests,
    pub height: usize,
    forests: Vec<Arc<SparseMastForest>>,
    fragments: Vec<Fragment>,
}

/// What the replay of all fragments leaves for the finisher.
#[derive(Default)]
pub struct Replayed {
    pub rows: usize,
    pub counts: Vec<u32>,
    pub built: Vec<u64>,
}

impl Both {
    /// A run of `rows` cycles over a forest of so many nodes, in fragments of this size, the addresses of its blocks rising.
    pub fn new(nodes: usize, rows: usize, height: usize, fragment_size: usize) -> Self {
        Self::of(long_run(&Rng::new(7), nodes, rows, fragment_size, Addresses::Rising), height)
    }

    pub fn of(run: Run, height: usize) -> Self {
        let lent = Forests::new(&run.forests);
        let forests = run.forests.iter().map(convert::forest).collect();
        let mut both = Self { run, lent, height, forests, fragments: Vec::new() };
        both.cut();
        both
    }

    /// Finds where each fragment starts, by replaying the one before.
    fn cut(&mut self) {
        let Self { run, lent, .. } = self;
        let (mut state, mut from) = (run.state, Positions::default());
        let mut room = vec![0; run.fragment_size * WIDTH];
        for calls in &run.fragments {
            let numbers = records(calls);
            let made = replay_calls(lent, &run.queues, EXAMPLE, state, from, &numbers, &mut room).unwrap();
            let (queues, start) = (run.queues.part(from, made.at), Start { state, from, to: made.at });
            self.fragments.push(Fragment { records: numbers, queues, start, calls: convert::calls(calls, &run.forests).into() });
            (state, from) = (made.state, made.at);
        }
    }

    /// The records of the first fragment, its queues and address state.
    pub fn first(&self) -> (&[u64], &Queues, DecoderState) {
        let fragment = &self.fragments[0];
        (&fragment.records, &fragment.queues, fragment.start.state)
    }

    /// Replays all fragments into the buffer.
    pub fn replay(&self, buffer: &mut [u64]) -> Replayed {
        let size = self.run.fragment_size * WIDTH;
        let mut left = Replayed { built: Vec::with_capacity(BUILT * self.fragments.len()), ..Replayed::default() };
        for (fragment, rows) in self.fragments.iter().zip(buffer.chunks_mut(size)) {
            let Fragment { records, queues, start, .. } = fragment;
            let made = replay_calls(&self.lent, queues, EXAMPLE, start.state, Positions::default(), records, rows).unwrap();
            left.rows += made.rows;
            left.counts.push(made.rows as u32);
            left.built.extend(made.built);
        }
        left
    }

    pub fn finish(&self, buffer: &mut [u64], left: &Replayed) {
        finish(EXAMPLE, buffer, self.run.fragment_size, &left.counts, &left.built, &self.run.first_stack_top, self.height).unwrap();
    }

    /// The finished trace by the proved library, in a zeroed buffer of its own.
    #[inline(never)]
    pub fn proved(&self) -> Vec<u64> {
        let mut buffer = vec![0; self.height * WIDTH];
        let left = self.replay(&mut buffer);
        self.finish(&mut buffer, &left);
        buffer
    }

    /// What the listed Rust is handed, which it uses up.
    pub fn contexts(&self) -> Vec<CoreTraceFragmentContext> {
        self.fragments.iter().map(|f| whole::context(&self.run, &f.start, f.calls.clone())).collect()
    }

    /// The finished trace by the listed Rust, which makes its zeroed buffer itself.
    #[inline(never)]
    pub fn listed(&self, contexts: Vec<CoreTraceFragmentContext>) -> Vec<Felt> {
        let mut data = passes::generate(contexts, self.run.fragment_size, &self.forests).unwrap();
        passes::pad(&mut data, self.height);
        data
    }

    /// Each fragment by the listed Rust into its part of the rows, without the passes.
    pub fn replay_listed(&self, data: &mut [Felt], size: usize) -> Vec<whole::Left> {
        let one = |(fragment, rows): (&Fragment, &mut [Felt])| {
            let Start { state, from, .. } = fragment.start;
            whole::fragment(&self.run, &self.forests, &fragment.calls, state, from, rows).left.expect("no call is refused")
        };
        self.fragments.iter().zip(data.chunks_mut(size)).map(one).collect()
    }
}

/// Holds the traces of both to each other, but for the helper of HALT rows from depth 18 up, which is the documentation's.
pub fn check_equal(ours: &[u64], listed: &[Felt]) {
    let mut listed: Vec<u64> = whole::rows(listed).flatten().collect();
    invert_deep_halts(&mut listed);
    assert!(ours == listed, "the two differ");
    overflow_rule(ours).unwrap();
}
